"""Random webs with lines for the preprocessor over several lines of the web, and what each of them is
on one line of C.

A web is made of pairs, the text in the web and the text in C. In a directive a comment or a control
text is one space in C, with or without line ends in it. Between the directives are lines of the
program, each with __LINE__ and __FILE__; in C it has its place in the web or in the change file
instead.
"""
from collections import Counter, namedtuple

from changed_lines import ChangedLines

INNER_ENDS = [b'/* c\nd */', b' /* c\n\nd */ ', b'/*\n*/', b'@^i\nj@>', b' @q c\n// d@>', b'@t a@@\nb@> ',
              b'/* #if 0\n#endif */', b'/* " */ /*\n \' */']
CONTINUED = [b'\\\n ', b' \\\n', b' \\\n\t', b'\\// c\n  ', b' @,\\ /* c */\n']
ON_A_LINE = [b' ', b' ', b'\t', b' /* c */', b'@,', b' @q c@> ', b'@^i@>']
FRONTS = [b''] * 6 + [b' ', b'/* c */', b'/* c\nd */ ', b'@^i\nj@>', b'\n']
BACKS = [b''] * 3 + [b' ', b' // c', b' /* c */', b'/* c\nd */', b' @^i\nj@>', b'@,']

CONDITIONS = [b'1', b'0', b'1 && 0', b'! defined N', b'defined ( M )', b'2 > 1', b'( 1 || 0 )', b"'a' == 97",
              b'1 ? 0 : 1', b'defined M && - 1']
BODIES = [b'1', b'( 1 + 2 )', b'"a" "b"', b'x', b'- 1', b'do', b'M', b'x + x', b'u8 "/*"', b'']
HEADERS = {'b.h': b'from_b\n', 'c d.h': b'from_c_d N M\n'}
HEADER_NAMES = [b'"b.h"', b'<b.h>', b'<c d.h>', b'"c d.h"']

Line = namedtuple('Line', 'web c says_place')


class Web:
    """A web whose program is directives and other lines. Some of its lines come from a change file."""

    def __init__(self, chance):
        self.chance, self.places, self.made = chance, Counter(), []
        self._add_lines(chance.randint(3, 6), 0)
        heads = chance.choice([b'@c\n', b'@c\n@<Lines@>\n@ @<Lines@>=\n'])
        self.before = b'@ Directives.\n' + heads
        made = b''.join(line.web for line in self.made)
        self.source = ChangedLines(chance, self.before + made)
        self.places['a change'] += bool(self.source.changes)

    def files(self):
        return {**HEADERS, **self.source.files()}

    def lines_in_c(self):
        """The program on lines of C. The lines of the web say where each line of the program is."""
        lines, at = [], self.before.count(b'\n')
        for line in self.made:
            file, number = self.source.places[at + line.web[:-1].count(b'\n')]
            lines.append(line.c + b' %d "%s"' % (number, file) if line.says_place else line.c)
            at += line.web.count(b'\n')
        return lines

    def _add_lines(self, count, depth):
        chance = self.chance
        for _ in range(count):
            drawn = chance.random()
            if drawn < .4:
                self._add_program_line()
            elif drawn < .6:
                self._add_definition()
            elif drawn < .7:
                self._directive(b'undef', chance.choice([b'M', b'N']))
            elif drawn < .8:
                self._directive(b'include', chance.choice(HEADER_NAMES))
            elif depth < 2:
                self._add_condition(depth)
        self._add_program_line()

    def _add_program_line(self):
        text = self.chance.choice([b'M', b'N(3)', b'x', b'N', b'M N(M)'])
        front = self.chance.choice(FRONTS)
        back = self.chance.choice([b'', b' // c', b' /* c */'])
        self.made.append(Line(front + text + b' __LINE__ __FILE__' + back + b'\n', text, True))

    def _add_definition(self):
        """The macro may be defined already, so it is undefined first."""
        name = self.chance.choice([b'M', b'N'])
        self._directive(b'undef', name)
        words = self.chance.choice(BODIES).split(b' ')
        self._directive(b'define', name + (b'(x)' if name == b'N' else b''), *words)

    def _add_condition(self, depth):
        chance = self.chance
        if chance.random() < .3:
            self._directive(chance.choice([b'ifdef', b'ifndef']), chance.choice([b'M', b'N']))
        else:
            self._directive(b'if', *chance.choice(CONDITIONS).split(b' '))
        self._add_lines(chance.randint(0, 2), depth + 1)
        if chance.random() < .3:
            self._directive(b'elif', *chance.choice(CONDITIONS).split(b' '))
            self._add_lines(1, depth + 1)
        if chance.random() < .5:
            self._directive(b'else')
            self._add_lines(1, depth + 1)
        self._directive(b'endif')

    def _directive(self, *words):
        """A directive of these words, which something keeps apart. A backslash after # would hide a turn."""
        is_turn = words[0] in (b'elif', b'else', b'endif')
        web = self.chance.choice(FRONTS) + b'#'
        web += self._gap(words[0], ON_A_LINE if is_turn else CONTINUED) if self.chance.random() < .3 else b''
        web += words[0] + b''.join(self._gap(words[0]) + word for word in words[1:])
        self.made.append(Line(web + self.chance.choice(BACKS) + b'\n', b'#' + b' '.join(words), False))

    def _gap(self, word, continued=CONTINUED):
        drawn = self.chance.random()
        if drawn < .5:
            self.places['a line end in #' + word.decode()] += 1
            return self.chance.choice(INNER_ENDS)
        return self.chance.choice(continued if drawn < .65 else ON_A_LINE)
