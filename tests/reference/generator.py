"""Random projects and scripts: webs, included files, change files and edits that meet every control code, fault and rule
of spacing often, and of which some are almost right.

usage: generator.py SEED
"""
import random
import sys

from conditions import group_lines
from directives import directive_lines
from files import Roles, add
from line_ends import continued_lines, continuing, macro_over_lines, with_other_front
from literals import NUMBERS, raw_text
from rare_places import add_places
from reading import Reading
from tangling import Tangling

# What is larger is left out: the reference keeps all of it in memory, and a web can be small and its C not. A file that
# includes itself twice has a thousand times its lines; an @h represents all macros, and a name that is used often may
# have many of them.
MOST_LINES = 50000
MOST_BYTES = 1 << 24
RARE = 50                   # one web in this number has places that text at random seldom makes

NAMES = [b'v', b'A', b'B', b'C', b'Initialize', b'Init table', b'In', b'In it', b'u', b'a b',
         b'h.h', b'a.c', b'x@@y', b'q"r', b'z\\w', b'n  m']
# Names of few files, the main file among them. No two plain forms are one file, so that each file is compared.
FILE_NAMES = [b'h.h', b'./h.h', b'.//h.h', b'././h.h', b'd/h.h', b'd//h.h', b'd/./h.h', b'a.c', b'./a.c', b'.//a.c', b'.h.h',
              b'..h.h', b'd/k.h', b'd/../k.h']
ABBREVIATIONS = [b'Ini...', b'I...', b'...', b'A...', b'Zz...', b'In...', b'....', b'a...', b'In it...']
WORDS = [b'int', b'x', b'y2', b'_z', b'$d', b'caf\xe9', b'return', b'N', b'F', b'10', b'0x1f', b'include', b'a', b'define']
SIGNS = [b'=', b';', b'+', b'-', b'(', b')', b'{', b'}', b'#', b'<', b'>', b'.', b',', b'*', b'/', b'\\', b'"', b"'",
         b'!', b'\x00', b'\x7f']
SPACES = [b' ', b'  ', b'\t', b'\r', b'\x0b', b'\x0c', b' \t ']
CODES = [b'@@', b'@d', b'@D', b'@f', b'@s', b'@c', b'@C', b'@p', b'@^', b'@.', b'@:', b'@t', b'@q', b'@=', b'@&', b'@h',
         b'@H', b"@'", b'@>', b'@<', b'@(', b'@*', b'@ ', b'@\t', b'@', b'@,', b'@|', b'@/', b'@#', b'@+', b'@;', b'@i',
         b'@I', b'@x', b'@y', b'@z', b'@l', b'@!', b'@2', b'@[', b'@]', b'@T']
QUOTED = [b'"s"', b'"a@@b"', b'"a@b"', b'"a\\"b"', b"'c'", b"'\\''", b'"open', b"'", b'"', b'"x\\', b'"\\@@"', b'"\\@x"',
          b'""']
CONSTANTS = [b"@'a'", b"@'@@'", b"@'\\n'", b"@'\\\\'", b"@'\\''", b"@'\\101'", b"@'\\777'", b"@'\\8'", b"@'ab'", b"@'",
             b"@''", b"@'''", b"@'\\?'", b"@'\\1'", b"@'\\12x'", b"@'@x'", b"@'\"'"]
CONTROL_TEXTS = [b'@^idx@>', b'@.tt@>', b'@:a}{b@>', b'@t\\TeX@>', b'@q c@>', b'@^a@@b@>', b'@^open', b'@^a@>', b'@t@>',
                 b'@=v@>', b'@=u@@v@>', b'@=u@v@>', b'@=open', b'@=@>', b'@= @>']
COMMENTS = [b'/* c */', b'/*', b'*/', b'// c', b'//', b'/* @@ */', b'/* @< x @> */', b'/* a @c b */', b'//@^x', b'/**/',
            b'/*/', b'/* "s */']
INCLUDES = [b'#include <p.h>', b'#include <p@@q>', b'# include <p', b'#include<p@q>', b'include <x>', b' # include\t<a\\b>',
            b'#include "p"', b'#include x <y>', b'/*c*/ #include <z>', b'#@& include <w>', b'#includes <w>']

# What C text is made of, each with the chance that it or one before it is drawn: one of a list, the text itself, what a
# function makes, or a name.
WILD = [(.28, WORDS), (.30, NUMBERS), (.45, SIGNS), (.62, SPACES), (.72, None), (.76, QUOTED), (.77, raw_text),
        (.82, CONSTANTS), (.87, CONTROL_TEXTS), (.91, COMMENTS), (.94, INCLUDES), (.955, b'@&'), (.965, b'@h'), (1, CODES)]

# The same of dense C text, where most words are beside a join, an ASCII constant or a code.
DENSE = [(.26, WORDS), (.30, NUMBERS), (.40, SIGNS), (.56, SPACES), (.70, [b'@&', b' @&', b'@& ']), (.84, CONSTANTS), (.87, b'@h'),
         (.90, QUOTED), (.93, CONTROL_TEXTS), (.98, [b'@,', b'@/', b'@;', b'@^i@>', b'/* c */']), (1, None)]

# What may be white space of a head, or almost.
HEAD_SPACES = [b' ', b'\t', b'@,', b'@;', b'@/ ', b'@|', b'@^i@>', b'@q=@@@>', b'@t', b'@:x@,@>', b'/* = */', b'/*@<=*/', b'/*@',
               b'//', b'/*', b'/', b'@&', b'@h', b'@@', b"@'a'", b'@=v@>', b'@d', b'@<u@>', b'"+"', b'+', b'@']

# What a piece ends in, where the next section begins on the same line.
ENDS = [b'/', b'x /', b'/ ', b'//', b'@=/@>', b'@=a@@/@>', b'/@&', b'/@,', b'"/', b'x', b'@<A@>/']

LIMBO = [b'limbo', b'% top', b'@q x@>', b'@@', b'', b'@s a b', b'@<no@>', b'@i', b'@l d @L', b'@d N 1 @F x int', b' @i b.w',
         b'@(x@>=@c', b'@Q@D @> @^']
DOCUMENTATION = [b'', b'A.', b'Text @<In it@> more', b'Doc @, @@ @^i@>', b'P.']
MACROS = [b"N 10'000 // it's", b"N-1'0", b'N R"(a  b)"', b'R"(a"', b'N a\n#endif', b'N 10',
          b'F(x) x', b'M', b'3', b'N@&x', b'N"s"', b'N  ', b'N-1', b"N@'a'", b'', b'G(a)\\', b'N@^i@>5']


def used_name(chance):
    name = chance.choice([b'@<'] * 6 + [b'@('])
    text = chance.choice(NAMES if chance.random() < .75 else ABBREVIATIONS)
    if chance.random() < .1:
        text = b' ' + text + b'  '
    if chance.random() < .04:
        return name + text
    if chance.random() < .04:
        text += chance.choice([b'@,', b'@d', b'@x', b' @ ', b'@@', b'@<', b'@('])
    return name + text + b'@>'


def wild_text(chance, most, kinds=WILD):
    made = b''
    for _ in range(chance.randint(0, most)):
        drawn = chance.random()
        parts = next(parts for bound, parts in kinds if drawn < bound)
        if parts is None:
            made += used_name(chance) + (equals_sign(chance) if chance.random() < .1 else b'')
        elif callable(parts):
            made += parts(chance)
        else:
            made += chance.choice(parts) if isinstance(parts, list) else parts
    return made


def tame_text(chance, most):
    """C text without a control code that ends a part."""
    made = b''
    for _ in range(chance.randint(0, most)):
        drawn = chance.random()
        if drawn < .4:
            made += chance.choice(WORDS)
        elif drawn < .55:
            made += chance.choice([b'=', b';', b'+', b'(', b')', b'{', b'}', b','])
        elif drawn < .8:
            made += b' '
        else:
            made += b'@<' + chance.choice(NAMES) + b'@>'
    return made


def equals_sign(chance):
    """An equals sign as it follows the name of a definition, or almost one."""
    sign = chance.choice([b'=', b'=', b'=', b'+=', b'==', b' =', b' + =', b'+==', b'+'])
    if chance.random() < .25:
        at = chance.randint(0, len(sign))
        sign = sign[:at] + b''.join(chance.choices(HEAD_SPACES, k=chance.randint(1, 2))) + sign[at:]
    return sign


def defined_name(chance):
    if chance.random() < .15:
        return b'@(' + chance.choice(FILE_NAMES + NAMES)
    return b'@<' + chance.choice(NAMES if chance.random() < .85 else ABBREVIATIONS)


def head(chance, is_wild):
    if chance.random() < .5:
        code = chance.choice([b'@c', b'@c', b'@p', b'@C'])
    else:
        code = defined_name(chance) + b'@>' + equals_sign(chance)
    return code + (wild_text(chance, 4) if is_wild and chance.random() < .3 else b'')


def macro(chance, is_wild):
    lines = [chance.choice([b'@d ', b'@D ', b'@d\t']) + chance.choice(MACROS) + (wild_text(chance, 4) if is_wild else b'')]
    for _ in range(chance.choice([0, 0, 1, 2])):
        lines.append(chance.choice([b'  +1', b'', b'more', wild_text(chance, 4) if is_wild else b'x']))
    return lines


def section(chance, is_wild, kinds=WILD):
    start = chance.choice([b'@ ', b'@ ', b'@*', b'@\t', b'@'])
    lines = [start + chance.choice(DOCUMENTATION)]
    if chance.random() < .25:
        lines[0] += head(chance, is_wild)
    else:
        for _ in range(chance.randint(0, 2)):
            if chance.random() < .4:
                lines.append(chance.choice([b'doc line', b'', b'@f x int', b'@s y z', b'text @<B@> t']))
        for _ in range(chance.choice([0, 0, 0, 1, 2])):
            lines += macro_over_lines(chance) if chance.random() < .4 else macro(chance, is_wild)
        if chance.random() < .85:
            lines.append(head(chance, is_wild))
    for _ in range(chance.randint(0, 5)):
        lines.append(wild_text(chance, 7, kinds) if is_wild else tame_text(chance, 6))
        if chance.random() < .1:
            lines += continued_lines(chance)
        if chance.random() < .05:
            lines += directive_lines(chance)
        if chance.random() < .06:
            lines += group_lines(chance)
    return lines


def file_sections(chance):
    """Sections of files, some of them one file under several names."""
    return [line for name in chance.choices(FILE_NAMES, k=chance.randint(2, 5))
            for line in (b'@ @(' + name + b'@>=', chance.choice([b'x', b'@<A@>', b'']))]


def clean(line):
    return line.replace(b'\n', b'').rstrip(b' ')


def inclusion(chance, included):
    name = chance.choice(included + [b'none.w'])
    return chance.choice([b'@i ' + name, b'@I ' + name + b' rest', b'@i "' + name + b'"', b'@i"' + name, b'@i', b'@i ""',
                          b'@i\t' + name])


def web_lines(chance, included):
    lines = []
    for _ in range(chance.choice([0, 0, 1, 2])):
        lines.append(chance.choice(LIMBO))
    is_dense = chance.random() < 1 / 3
    is_wild = is_dense or chance.random() < .6
    for _ in range(chance.randint(1, 6)):
        made = section(chance, is_wild, DENSE if is_dense else WILD)
        if lines and chance.random() < .05 and lines[-1][:2] not in (b'@i', b'@I'):
            lines[-1] += chance.choice(ENDS) + made.pop(0)
        lines += made
        if included and chance.random() < .3:
            lines.insert(chance.randint(len(lines) - len(made), len(lines)), inclusion(chance, included))
    if chance.random() < .1:
        lines += file_sections(chance)
    return list(map(clean, b'\n'.join(lines).split(b'\n')))


def one_change(chance, lines, start):
    """A change of lines from there on, and where the next one may begin. Some are in the middle of continued lines."""
    middles = [at for at in continuing(lines) if at >= start] if chance.random() < .4 else []
    start = chance.choice(middles) if middles else chance.randint(start, len(lines) - 1)
    end = min(len(lines), start + chance.choice([1, 1, 1, 2, 3]))
    old = lines[start:end]
    if chance.random() < .15 and len(old) > 1:
        old[-1] += b'?'
    if chance.random() < .08:
        old = []
    made = [chance.choice([b'@x', b'@x', b'@X note'])]
    if chance.random() < .1:
        made.append(chance.choice([b'', b' \t']))
    made += old
    if chance.random() < .94:
        made.append(chance.choice([b'@y', b'@Y']))
    for _ in range(chance.choice([0, 1, 1, 2])):
        made.append(chance.choice([b'int z;', b'@i b.w', b'@ New.', b'@c', b' q \\', wild_text(chance, 4),
                                   lines[chance.randrange(len(lines))]]))
    if chance.random() < .94:
        made.append(chance.choice([b'@z', b'@Z end']))
    if chance.random() < .1:
        made.append(chance.choice([b'@y', b'between', b'@z']))
    return made, end


def change_lines(chance, lines):
    made, start = [], 0
    if chance.random() < .15:
        made.append(chance.choice([b'junk', b'@y', b'@z', b'']))
    for _ in range(chance.randint(1, 3)):
        if start >= len(lines):
            break
        change, start = one_change(chance, lines, start)
        made += change
    return list(map(clean, made))


def one_edit(chance, names):
    drawn, file, at = chance.random(), chance.choice(names), chance.randint(0, 14)
    text = b'x\ny'
    if chance.random() < .95:
        text = clean(chance.choice(section(chance, chance.random() < .5)))
    if chance.random() < .05:
        text += b'  '
    if drawn < .65:
        return 'replace' if drawn < .38 else 'insert', file, at, text
    if drawn < .85:
        return 'remove', file, at
    if drawn < .95:
        return 'create' if drawn < .91 else 'discard', file
    return 'marks', chance.choice(['full', 'bare'])


def front_edit(chance, lines):
    """An edit of the white space at the front of a line of the web, if no edit before it has moved that line."""
    at = chance.choice(continuing(lines) or range(len(lines)))
    return 'replace', b'a.w', at + 1, clean(with_other_front(chance, lines[at]))


class Project:
    """Files as (name, lines), the roles, and edits."""

    def __init__(self, seed, edits=0):
        chance = random.Random(seed)
        included = chance.choice([[], [], [b'b.w'], [b'b.w', b'd/c w.w']])
        web = web_lines(chance, included)
        self.files = [(b'a.w', web)]
        for name in included:
            if chance.random() < .6:
                lines = web_lines(chance, included if chance.random() < .15 else [])
            else:
                lines = [clean(wild_text(chance, 6)) for _ in range(chance.randint(0, 3))]
            self.files.append((name, lines))
        self.web, self.change = b'a.w', None
        if chance.random() < .4:
            self.change = b'a.ch'
            changed = web if chance.random() < .7 or not included else web + self.files[1][1]
            self.files.append((self.change, change_lines(chance, changed)))
        self.out = b'a.c' if chance.random() < .9 else chance.choice(FILE_NAMES)
        names = [name for name, _ in self.files] + [b'zz', b'b.w', b'none.w', b'']
        self.edits = [front_edit(chance, web) if chance.random() < .1 else one_edit(chance, names)
                      for _ in range(edits)]
        places = random.Random(seed * 13 + 3)
        if places.random() < 1 / RARE:
            add_places(places, self)

    def loaded(self):
        """The files as a table, and the roles."""
        files = []
        for name, lines in self.files:
            files = add(files, name, b''.join(line + b'\n' for line in lines))
        return files, Roles(self.web, self.change, self.out)

    def is_small(self):
        files, roles = self.loaded()
        return len(Reading(files, roles).source) <= MOST_LINES and is_small(Tangling(files, roles))


def is_small(tangling):
    return len(tangling.source) <= MOST_LINES and tangling.size() <= MOST_BYTES


NO_COMMANDS = [b'', b'insert', b'insert x y', b'remove 9', b'remove 0000000001 a.w',
               b'remove 007 a.w', b'quit ', b' work', b'create', b'create ', b'marks',
               b'marks bare', b'marks full ', b'Begin', b'commit ', b'work\r', b'replace 1',
               b'insert 1  a.w', b'show', b'show ', b'nonsense', b'discard a.w']


def edit_lines(edit):
    kind = edit[0].encode()
    if kind in (b'insert', b'replace'):
        return [kind + b' %d ' % edit[2] + edit[1], edit[3].replace(b'\n', b'')]
    if kind == b'remove':
        return [b'remove %d ' % edit[2] + edit[1]]
    if kind == b'marks':
        return [b'marks full' if edit[1] == 'full' else b'marks none']
    return [kind + b' ' + edit[1]]


def likely_edit(chance):
    """An edit of the web that can be made, unless few lines are left of it, or of the marks."""
    drawn, at = chance.random(), chance.randint(1, 6)
    if drawn < .2:
        return 'marks', chance.choice(['full', 'bare', 'bare'])
    if drawn < .35:
        return 'remove', b'a.w', at
    text = clean(chance.choice(section(chance, chance.random() < .5)))
    return 'insert' if drawn < .6 else 'replace', b'a.w', at, text


def list_lines(chance):
    """A setting of the marks, a list of one to five edits that is made, refused or cancelled, and
    what is asked then."""
    edits = [likely_edit(chance) for _ in range(chance.randint(1, 4))]
    if chance.random() < .25:
        edits.insert(chance.randint(0, len(edits)), ('remove', b'a.w', 999))
    lines = edit_lines(('marks', chance.choice(['full', 'bare']))) + [b'begin']
    for edit in edits:
        lines += edit_lines(edit)
        if chance.random() < .15:
            lines.append(chance.choice([b'work', b'faults', b'show a.c', b'begin', b'']))
    return lines + [b'cancel' if chance.random() < .1 else b'commit', b'work', b'show a.c']


def script(seed, edits=12):
    """A project and a script of retangle: edits, lists of edits, questions, lines that are no
    command. Each script sets the marks and has a list."""
    project, chance = Project(seed, edits), random.Random(seed * 7 + 1)
    lists = random.Random(seed * 11 + 5)
    at = lists.randrange(edits)
    lines, names = [], [name for name, _ in project.files] + [b'h.h', b'a.c', b'x@y', project.out]
    for number, edit in enumerate(project.edits):
        if number == at:
            lines += list_lines(lists)
        if chance.random() < .10:
            lines.append(chance.choice([b'begin', b'begin', b'commit', b'cancel']))
        lines += edit_lines(edit)
        if chance.random() < .5:
            lines.append(b'work')
        if chance.random() < .3:
            lines.append(b'faults')
        if chance.random() < .4:
            lines.append(b'show ' + chance.choice(names))
        if chance.random() < .08:
            lines.append(chance.choice(NO_COMMANDS))
    lines += [b'commit'] if chance.random() < .3 else []
    lines += [b'work', b'faults'] + [b'show ' + name for name in FILE_NAMES]
    lines += [b'quit'] if chance.random() < .5 else []
    lines += [b'insert 1 a.w'] if chance.random() < .2 else []
    return project, b'\n'.join(lines) + (b'\n' if chance.random() < .8 else b'')


def main():
    shown, text = script(int(sys.argv[1]))
    for name, lines in shown.files:
        print(name)
        for number, line in enumerate(lines, 1):
            print('%4d %s' % (number, line))
    print(shown.edits, text, sep='\n')


if __name__ == '__main__':
    main()
