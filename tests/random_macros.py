"""Random webs of macros over lines, and of continued #define lines in C parts, with what each macro is on one line.

A macro is made of pairs, the text in the web and the text in C: items, and what is between two items. What is between
is one space in C if it keeps the two apart, and nothing if it does not. All macros of all webs have names of their own.
"""
from collections import Counter

from changed_lines import ChangedLines


def as_they_are(text):
    return [(item, item) for item in text.split()]


KINDS = {
    'separator': as_they_are(b'( ) [ ] { } ; , ~'),
    'operator': as_they_are(b'! % & * + - / : < = > ? ^ | #'),
    'plain': as_they_are(b'do x L u u8 e1 u00e9 "s" "" \'c\''),
    'other': as_they_are(b'10 1e 0x1p . ` \\')
    + [(b'@@', b'@'), (b"@'A'", b'65'), (b'@=v@>', b'v'), (b'@=.5@>', b'.5'), (b'@=+@>', b'+'), (b'@==@>', b'='),
       (b'@="t"@>', b'"t"'), (b'@=w\\@>', b'w\\'), (b'@=a b@>', b'a b')],
}

# Without anything between, these could be a comment, a ## or an incomplete \u with what is next to them.
NEVER_TOUCHING = {b'/', b'*', b'#', b'%', b':', b'\\', b'w\\', b'65', b"'c'"}

ON_A_LINE = [b' ', b' ', b'\t', b' /* c */', b'@,', b' @q c@> ', b'@^i@>']
JOINS = [b'@&', b' @& ', b'@&\n', b'@&\n  ', b'\n  @&', b' /* c */@&@,']
BEFORE = [b'', b'', b'', b' ', b'\t', b' /* c */', b'@,', b'@^i@>']
INNER_ENDS = [b' /* c\nd */', b'@^i\nj@>']
LINE_ENDS = [b'\n'] * 6 + [b' // c\n']
SEVERAL_ENDS = [b'\n\n', b'\n \n', b'\n/* c\n\nd */']
FRONTS = [b'', b'', b'', b'  ', b'\t', b'/* c */', b'@,', b'@^i@>']
BACKSLASHES = [(b'\\', b'')] * 4 + [(b'@=\\@>', b''), (b'@=w\\@>', b'w')]
AFTER_BACKSLASH = [b'', b'', b'', b'', b' /* c */', b'@,', b'\t']
ENDS = [b'', b'', b'\\', b' \\', b'\n\\', b' \\\n \\\n', b' /* c */\\', b' // c', b'\n']


class Macro:
    """The text of a macro in a web, and the line that it is in C; and which places are in it."""

    def __init__(self, chance, name):
        self.chance, self.name, self.places = chance, name, Counter()
        self.web, self.line = b'', b'#define '
        self._add_name()
        self.is_function = chance.random() < .25
        if self.is_function:
            self.places['parameters'] += 1
            self._add(b'(x)', b'(x)')
        self._add_items(chance.choice([0, 1, 2, 3, 4, 5]))
        self._end()

    def _add(self, web, c):
        self.web += web
        self.line += c
        self.places['verbatim text'] += web.startswith(b'@=')

    def _item(self):
        """An item, and its kind."""
        while True:
            kind = self.chance.choice(list(KINDS))
            web, c = self.chance.choice(KINDS[kind])
            if not (c == b'#' and self.is_function):
                return kind, web, c

    def _add_items(self, count):
        before = None
        for number in range(count):
            kind, web, c = self._item()
            while number == count - 1 and c.endswith(b'\\'):        # it would be the end, and no item
                kind, web, c = self._item()
            if before is None:
                self._keep_apart()
            elif NEVER_TOUCHING & {before[1], c} or self.chance.random() < .75:
                self._keep_apart((before[0], kind))
            else:
                self._let_touch()
            self._add(web, c)
            before = kind, c

    def _keep_apart(self, kinds=None):
        """Puts something between two items, which are of these kinds, or after the name."""
        if self.chance.random() < .25:
            self._add(self._on_a_line(), b' ')
        elif self._add_line_end() and kinds:
            self.places['%s, %s over a line end of %s' % (*kinds, self.WHERE)] += 1

    def _let_touch(self):
        if self.chance.random() < .5:
            self.places['a join'] += 1
            self._add(self.chance.choice(JOINS), b'')
        else:
            self._touch()

    def _touch(self):
        pass

    def _on_a_line(self):
        return self.chance.choice(ON_A_LINE)

    def _inner_end(self):
        self.places['a comment over a line end of ' + self.WHERE] += 1
        return self.chance.choice(INNER_ENDS)


class DefinedByCode(Macro):
    """A macro of @d."""

    WHERE = 'a macro'

    def _add_name(self):
        front, back = self.name[:-3], self.name[-3:]
        joined = [(front + b'@&' + back, b''), (front + b'@&\n' + back, b''), (front + b' @& @=' + back + b'@>', b''),
                  (self.name + b"@&@'A'", b'65')]
        web, more = self.chance.choice(joined) if self.chance.random() < .5 else (self.name, b'')
        self.places['a name made by a join'] += web != self.name
        self.name += more
        self._add(b'@d ' + web, self.name)

    def _line_end(self):
        return self._inner_end() if self.chance.random() < .2 else self.chance.choice(LINE_ENDS)

    def _add_line_end(self):
        if self.web.endswith(b'\\'):           # a backslash before a line end is the line end's own
            self.line = self.line[:-1]
        end = self.chance.choice(SEVERAL_ENDS) if self.chance.random() < .2 else self._line_end()
        self._add(self.chance.choice(BEFORE) + end + self.chance.choice(FRONTS), b' ')
        return True

    def _end(self):
        end = self.chance.choice(ENDS)
        self.places['a backslash at the end'] += b'\\' in end
        self._add(end + b'\n', b'')


class DefinedInC(Macro):
    """A #define of a C part, whose lines end in a backslash."""

    WHERE = 'a C part'

    def _add_name(self):
        start = self.chance.choice([b'#define ', b'# define\t', b'#define \\\n', b'#define\\\n  '])
        self._add(start + self.name, self.name)

    def _on_a_line(self):
        """A line end inside a comment of a directive is white space."""
        return self._inner_end() if self.chance.random() < .3 else super()._on_a_line()

    def _add_line_end(self, is_apart=True):
        """White space before the backslash keeps apart, and at the front of the next line; elsewhere it does not.
        Whether only that is between the items, and no text."""
        before, front = self.chance.choice(BEFORE), self.chance.choice(FRONTS)
        backslash, text = self.chance.choice(BACKSLASHES)
        if not is_apart:
            before = front = b''
        elif text or not front:         # a text may be after the macro's name
            before = before or b' '
        spaces = b' ' if before else b'', b' ' if front else b''
        end = self.chance.choice(AFTER_BACKSLASH) + self.chance.choice(LINE_ENDS)
        self._add(before + backslash + end + front,
                  text.join(spaces) if text else max(spaces))
        self.places['verbatim text'] += backslash != b'\\'
        return not text

    def _touch(self):
        if self.chance.random() < .5:
            self._add_line_end(is_apart=False)

    def _end(self):
        self._add(self.chance.choice([b'', b' ', b' /* c */', b' // c']) + b'\n', b'')


class Web:
    """A web with some macros of both sorts. Some of its lines come from a change file."""

    def __init__(self, chance, number):
        self.number = number
        names = [b'm%d_%02d' % (number, each) for each in range(10)]
        self.macros = ([DefinedByCode(chance, name) for name in names[:5]]
                       + [DefinedInC(chance, name) for name in names[5:]])
        self.places = Counter()
        for macro in self.macros:
            self.places.update(macro.places)
        text = b'@ Macros.\n' + b''.join(macro.web for macro in self.macros[:5])
        text += chance.choice([b'@c\n', b'@c\n@<Lines@>\n@ @<Lines@>=\n'])
        text += b''.join(macro.web + b'int v%s;\n' % macro.name for macro in self.macros[5:])
        self.source = ChangedLines(chance, text)
        self.places['a change'] += bool(self.source.changes)

    def files(self):
        return self.source.files()

    def names(self):
        return [macro.name for macro in self.macros]

    def lines_in_c(self):
        return [macro.line for macro in self.macros]
