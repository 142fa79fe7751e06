"""A web of 2,000 lines and a script of 1,000 edits, by a seed, and what the reference answers to it.

usage: long_script.py SEED FOLDER

The folder gets in/a.w, stdin, stdout, arguments and status. Most edits change one line of one piece,
as an author does. The others make or undo what an edit may wrongly be taken not to change: a use
that becomes one of another name of the same length, or a name that is only mentioned; a name that
becomes a file, or is defined by an abbreviation; a name that loses its only piece; a cycle; a
constant with another digit; a blank that becomes a line end; lines and sections before all others.
"""
import os
import random
import sys

sys.path.insert(0, os.path.join(os.path.dirname(os.path.abspath(__file__))))
from scripts import answer

PARTS = 120
GROUPS = 8
LINES = 2000
EDITS = 1000
CODE = [b'x = x + %d;', b'if (x > %d) x = 0; /* too large */', b'printf("%%d and %d\\n", x);',
        b"c = @'a' + %d;", b"call(x@&_%d, 'q', \"a@@b\");", b'@=volatile@> int y_%d; // a comment',
        b'for (i = 0; i < %d; i++) {', b'}  /* %d times */', b'x  =  table[%d] ;', b'#define LOCAL %d']


def part(number):
    return b'Part %03d of the program' % number


def is_file(number):
    return number % 40 == 7


def name_of(number):
    return b'part%03d.h' % number if is_file(number) else part(number)


def opener(number):
    return b'@(' if is_file(number) else b'@<'


def code_line(chance):
    return chance.choice(CODE) % chance.randint(0, 99)


class Web:
    """The lines of the web, as the edits leave them."""

    def __init__(self, chance):
        self.chance = chance
        self.lines = [b'% A program in many parts.', b'@ The program uses each group.', b'@d SIZE 100',
                      b'@d NEXT(x) ((x) + 1)', b'@c']
        self.lines += [b'@<Group %d@>;' % group for group in range(GROUPS)]
        for group in range(GROUPS):
            self.lines += [b'@ Group %d.' % group, b'@<Group %d@>=' % group]
            self.lines += [b'@<%s@>' % name_of(number) for number in range(group, PARTS, GROUPS)
                           if not is_file(number)]
        size = (LINES - len(self.lines)) // PARTS
        for number in range(PARTS):
            self.lines += [b'@ Part %d is about |x|.' % number,
                           opener(number) + name_of(number) + b'@>=']
            self.lines += [code_line(chance) for _ in range(size - 2)]
        while len(self.lines) < LINES:
            self.lines.append(code_line(chance))

    def head(self, number):
        """The line, from 1, that begins the first piece of this name; None where none is left."""
        for at, line in enumerate(self.lines, 1):
            if line.startswith(opener(number) + name_of(number)) and line.endswith(b'@>='):
                return at
        return None

    def line_of_a_piece(self):
        """The number of a line of C."""
        while True:
            at = self.chance.randint(1, len(self.lines))
            line = self.lines[at - 1]
            if not line.startswith((b'@ ', b'@<', b'@(', b'@d', b'@c', b'%')):
                return at

    def make(self, kind, at, text=None):
        if kind == 'insert':
            self.lines.insert(at - 1, text)
        elif kind == 'replace':
            self.lines[at - 1] = text
        else:
            del self.lines[at - 1]
        return [kind.encode() + b' %d a.w' % at] + ([] if text is None else [text])


def ordinary(web, chance):
    """A line of C is replaced, inserted or removed."""
    drawn, at = chance.random(), web.line_of_a_piece()
    if drawn < .7:
        return [web.make('replace', at, code_line(chance))]
    if drawn < .85:
        return [web.make('insert', at, code_line(chance))]
    return [web.make('remove', at)]


def and_back(web, at, text):
    """The line is replaced, and in the next edit it is as it was."""
    old = web.lines[at - 1]
    return [web.make('replace', at, text), web.make('replace', at, old)]


def changes_a_use(web, chance):
    """A use of a name becomes one of another name of the same length, and a mention."""
    at = web.line_of_a_piece()
    one, other = chance.sample([number for number in range(PARTS) if not is_file(number)], 2)
    made = [web.make('insert', at, b'@<%s@>' % part(one))]
    made += and_back(web, at, b'@<%s@>' % part(other))
    made.append(web.make('replace', at, b'@q @> /* @@<%s@@> */' % part(one)))
    return made + [web.make('remove', at)]


def changes_a_head(web, chance):
    """A name becomes a file, is defined by an abbreviation, is documentation, and is defined again."""
    number = chance.choice([number for number in range(PARTS) if not is_file(number)])
    at = web.head(number)
    if at is None:
        return ordinary(web, chance)
    made = and_back(web, at, b'@(%s@>=' % part(number))
    made += and_back(web, at, b'@<Part %03d...@>=' % number)
    return made + and_back(web, at, b'@q %s@>' % part(number))


def makes_a_cycle(web, chance):
    """Two names use each other, and then no longer."""
    one, other = chance.sample([number for number in range(PARTS) if not is_file(number)], 2)
    first = web.head(one)
    if first is None or web.head(other) is None:
        return ordinary(web, chance)
    made = [web.make('insert', first + 1, b'@<%s@>' % part(other))]
    second = web.head(other)
    made.append(web.make('insert', second + 1, b'@<%s@>' % part(one)))
    made.append(web.make('remove', second + 1))
    return made + [web.make('remove', web.head(one) + 1)]


def changes_little(web, chance):
    """A constant has another digit; a blank becomes a line end, and a line end a blank."""
    at = web.line_of_a_piece()
    made = and_back(web, at, b"c = @'a' + @'b';") + and_back(web, at, b"c = @'a' + @'c';")
    made += and_back(web, at, b'x y') + and_back(web, at, b'xy')
    return made


def moves_all(web, chance):
    """Lines, sections and macros are inserted before all others, and removed."""
    text = chance.choice([b'% A line.', b'@ A section.', b'@ @d FRONT 1'])
    made = [web.make('insert', 2, text)]
    return made + [web.make('remove', 2)] if chance.random() < .8 else made


def is_refused(web, chance):
    return [chance.choice([[b'replace 99999 a.w', b'x'], [b'remove 0 a.w'], [b'create a.w'],
                           [b'insert 1 none.w', b'x'], [b'discard a.w']])]


def sets_marks(web, chance):
    return [[b'marks none'], [b'marks full']]


def as_a_list(web, chance):
    """Some edits that are made as one."""
    edits = sum((ordinary(web, chance) for _ in range(chance.randint(2, 6))), [])
    return [sum(edits, [b'begin']) + [b'commit']]


KINDS = [(.55, ordinary), (.63, changes_a_use), (.70, changes_a_head), (.77, makes_a_cycle),
         (.83, changes_little), (.89, moves_all), (.92, is_refused), (.94, sets_marks),
         (1, as_a_list)]


def conversation(seed):
    """The web, and the lines of the script."""
    chance = random.Random(seed)
    web = Web(chance)
    started = list(web.lines)
    script, count = [], 0
    files = [b'part%03d.h' % number for number in range(PARTS) if is_file(number)]
    while count < EDITS:
        drawn = chance.random()
        kind = next(kind for bound, kind in KINDS if drawn < bound)
        for edit in kind(web, chance):
            script += edit + [b'work', b'faults']
            count += 1
            if count % 7 == 0:
                script.append(b'show ' + chance.choice(files))
            if count % 200 == 0:
                script.append(b'show a.c')
    return started, script


def write(path, text):
    with open(path, 'wb') as out:
        out.write(text)


def main():
    folder = os.fsencode(sys.argv[2])
    lines, script = conversation(int(sys.argv[1]))
    os.makedirs(os.path.join(folder, b'in'), exist_ok=True)
    text = b''.join(line + b'\n' for line in lines)
    given = b''.join(line + b'\n' for line in script)
    answers = answer({'a.w': text}, given)
    for name, part in ((b'in/a.w', text), (b'stdin', given), (b'stdout', answers.written),
                       (b'arguments', b'a\n'), (b'status', b'%d\n' % answers.status)):
        write(os.path.join(folder, name), part)


if __name__ == '__main__':
    main()
