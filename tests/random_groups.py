"""Random webs with groups of the preprocessor, which words of them are read, and at which lines they are.

A web is made of lines: those of the program, with words that are written once, and those that begin, turn and end
groups. Some of the lines are the text of a name, which is used in their place: any lines, so that a group may begin in
one piece and end in another. Some are in included files or in the change file.
"""
import re
from collections import Counter, namedtuple

from c_reads import regions
from changed_lines import ChangedLines, bytes_of
from random_directives import BACKS, CONTINUED, FRONTS, INNER_ENDS, ON_A_LINE

WORD = re.compile(rb'\bw[1-9][0-9]*\b')

# role: begin, turn, end or None. test: whether the region after it is read, by the macros that are defined. stretch:
# which of COUNTED and JOINED it is from, or None. body: the lines of each piece of the name that it uses.
Line = namedtuple('Line', 'web role test stretch body')
Line.__new__.__defaults__ = (None, None, None, ())

CONDITIONS = [
    (b'if defined A', lambda macros: 'A' in macros),
    (b'if !defined B', lambda macros: 'B' not in macros),
    (b'if defined A && !defined B', lambda macros: 'A' in macros and 'B' not in macros),
    (b"if 1'000 > 999", lambda macros: True),
    (b'if 0', lambda macros: False),
    (b'ifdef A', lambda macros: 'A' in macros),
    (b'ifdef B', lambda macros: 'B' in macros),
    (b'ifndef A', lambda macros: 'A' not in macros),
]

# The lines of the program, in which W is a word.
KNOWN = [b'W', b'W', b'W', b'W W', b'W /* c\nd */ W', b'W @^i\nj@> W /* c\n\nd */ W', b'W @h W', b'@h W', b'',
         b'"s" W // c', b'#define mW x \\\n  x', b'#define mW x /* c\nd */', b"10'000 W"]
# What follows a line end there has a line of its own if the count expects it; what follows a join there has none.
COUNTED = [b'"s\\\nt" W', b'W "s\\\n\\\nt" W', b'W \\\n W', b'W \\\n  W \\\nW']
JOINED = [b'W ;@&\n ; W', b'W ;\n@& ; W']

AFTER_HEADS = [b'\n'] * 5 + [b' ']
ENDS = BACKS + [b' \\\n', b' \\\n\\\n']
MACRO = b'@d N x \\\n  x\n'

# Names of files in which #line writes a backslash before a byte.
CHANGE, INCLUDED = b'a"\\b.ch', ('b.w', 'c\\d.w')


class Web:
    def __init__(self, chance):
        self.chance, self.count, self.places = chance, 0, Counter()
        self.programs = {file: self._some_lines(0) + [self._program_line()] for file in ('a.c', 'b.c')}
        self.sections = [(b'@c', self.programs['a.c']), (b'@(b.c@>=', self.programs['b.c'])]
        for _ in range(chance.randint(1, 4)):
            self._add_name()
        starts, text = self._text()
        source = ChangedLines(chance, text)
        self.places['a change'] += bool(source.changes)
        self.origins = [(CHANGE if file == b'a.ch' else file, line) for file, line in source.places]
        self.files = {CHANGE.decode(): bytes_of(source.changes), **self._files(source.lines)}
        self.place_of = {word.group(): self.origins[text[:word.start()].count(b'\n')] for word in WORD.finditer(text)}
        self.in_stretches = {word for start, line in starts for word in self._in_stretches(start, line)}

    # ------------------------------------------------------------------ lines

    def _some_lines(self, depth):
        made = []
        for _ in range(self.chance.randint(1, 4)):
            is_group = depth < 3 and self.chance.random() < .45
            made += self._group(depth) if is_group else [self._program_line()]
        return made

    def _program_line(self):
        chance, stretch = self.chance, self.chance.choice([None] * 8 + ['counted', 'joined'])
        text = chance.choice({None: KNOWN, 'counted': COUNTED, 'joined': JOINED}[stretch])
        front = chance.choice(FRONTS) if stretch is None else b''
        self.places[stretch] += 1
        return Line(front + re.sub(b'W', lambda _: self._word(), text) + b'\n', stretch=stretch)

    def _word(self):
        self.count += 1
        return b'w%d' % self.count

    def _group(self, depth):
        chance = self.chance
        made = self._directive('begin', *chance.choice(CONDITIONS)) + self._some_lines(depth + 1)
        for _ in range(chance.choice([0, 0, 1, 2])):
            condition, test = chance.choice(CONDITIONS)
            made += self._directive('turn', b'el' + condition, test) + self._some_lines(depth + 1)
        if chance.random() < .5:
            made += self._directive('turn', b'else', lambda macros: True) + self._some_lines(depth + 1)
        return made + self._directive('end', b'endif', None) + [self._program_line()]

    def _directive(self, role, text, test):
        """No backslash is between # and the word after it, which would hide a turn."""
        chance, (name, *words) = self.chance, text.split(b' ')
        self.places['#' + name.decode()] += 1
        front = chance.choice(FRONTS) + b'#' + (chance.choice(ON_A_LINE + INNER_ENDS) if chance.random() < .3 else b'')
        gaps = [b' '] * 9 + ON_A_LINE + CONTINUED + INNER_ENDS
        rest = b''.join(chance.choice(gaps) + word for word in words)
        return [Line(front + name + rest + chance.choice(ENDS) + b'\n', role, test)]

    def _add_name(self):
        """Some lines of a section become the text of a name, in one section or two."""
        chance, lines = self.chance, self.chance.choice(self.sections)[1]
        start = chance.randrange(len(lines) + 1)
        end = chance.randint(start, len(lines))
        body, name = lines[start:end], b'@<Part %02d@>' % len(self.sections)
        middle = chance.randint(0, len(body))
        pieces = [body[:middle], body[middle:]] if chance.random() < .5 else [body]
        used = chance.choice([b'', b'  ']) + name + chance.choice([b'', b' ', b' ; ' + self._word()])
        lines[start:end] = [Line(used + b'\n', body=pieces)]
        self.sections += [(name + b'=', piece) for piece in pieces]
        self.places['a group over several pieces'] += not all(map(is_balanced, pieces))

    # ------------------------------------------------------------------ files

    def _text(self):
        """The source text, and the row at which each line is."""
        starts, text, chance = [], b'', self.chance
        for head, lines in self.sections:
            text += b'@ A.\n' + chance.choice([b'', b'', MACRO]) + head
            text += chance.choice(AFTER_HEADS) if lines else b'\n'
            for line in lines:
                starts.append((text.count(b'\n'), line))
                text += line.web
        return starts, text

    def _files(self, lines):
        """The web and the files that it includes, if these are the lines of both."""
        files, rows = {}, list(range(len(lines)))
        for file in INCLUDED[:self.chance.randint(0, 2)]:
            start = self.chance.randint(1, len(rows) - 1)
            moved = rows[start:start + self.chance.randint(1, 6)]
            if all(isinstance(row, int) for row in moved):
                rows[start:start + len(moved)] = [file]
                files[file] = self._file(file, moved, lines)
                self.places['an inclusion'] += 1
        return {**files, 'a.w': self._file('a.w', rows, lines)}

    def _file(self, file, rows, lines):
        for number, row in enumerate(rows, 1):
            if isinstance(row, int) and self.origins[row][0] == b'a.w':
                self.origins[row] = file.encode(), number
        return bytes_of(lines[row] if isinstance(row, int) else b'@i ' + row.encode() for row in rows)

    # ------------------------------------------------------------------ words

    def regions(self, file, macros):
        """Of each region of the file, whether a compiler reads it where these macros are defined."""
        lines = [line for line in flat(self.programs[file]) if line.role]
        return regions((line.role, line.test and line.test(macros)) for line in lines)

    def words_read(self, file, macros):
        """The words that it reads then."""
        found, is_read, following = [], True, iter(self.regions(file, macros))
        for line in flat(self.programs[file]):
            if line.role:
                is_read = next(following)
            elif is_read:
                found += WORD.findall(line.web)
        return found

    def _in_stretches(self, start, line):
        """The words of a line that begins at this row that are in stretches."""
        file, number = self.origins[start]
        for word in WORD.finditer(line.web):
            behind = line.web[:word.start()].count(b'\n')
            is_counted = line.stretch == 'counted' and self.origins[start + behind] == (file, number + behind)
            if line.stretch and behind and not is_counted:
                yield word.group()


def flat(lines):
    """These lines as they are read: those of a name before the line that uses it."""
    for line in lines:
        for piece in line.body:
            yield from flat(piece)
        yield line


def is_balanced(lines):
    roles = [line.role for line in flat(lines)]
    return roles.count('begin') == roles.count('end')
