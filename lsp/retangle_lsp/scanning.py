"""Where sections and names are in a text (docs/scanning.md, as far as it decides that).

A second scanner beside that of retangle: tests/lsp_names.py holds it against what the layers of
retangle list. Texts and names are bytes.
"""
import collections
import re

Section = collections.namedtuple('Section', 'start is_starred names')
Section.__doc__ = """Where a section starts, and the names that it defines."""
Occurrence = collections.namedtuple('Occurrence', 'start end text role')
Occurrence.__doc__ = """Where a name is written, from its code to the end of its closing code, and
the name without the white space that does not count."""
DEFINITION, USE, MENTION = 'definition', 'use', 'mention'       # the roles

# A control code is two bytes.
CODE = re.compile(rb'@(.)', re.S)
STARTS = frozenset((b'*', b' ', b'\t', b'\r', b'\v', b'\f', b'\n'))
MACRO_ENDS = frozenset(b'd f s c p < ('.split())
NAME = re.compile(rb'@[<(]((?:[^@]+|@[^<(>* \t\r\v\f\n])*)(@>)?')
# What counts as white space in C, a piece at a time: on one line, and with line ends in comments
# and control texts.
BLANK = rb'''[ \t\r\v\f]
    | /\*(?:[^*@\n]|\*(?!/)|@[^* \t\r\v\f\n])*\*/
    | @[\^.:tTqQ](?:[^@\n]|@@)*@>
    | @[^@<(^.:tTqQ=&hH'dDfFsScCpP* \t\r\v\f\n]'''
# A number with separators, which begin no quoted text; W is a byte of a word.
SEPARATED = rb"[0-9]W*(?:'W+)+".replace(b'W', rb'[A-Za-z0-9_$\x80-\xff]')
AT_FRONT = re.compile(rb'(?:' + SEPARATED + rb')?')
BLANK_OVER_LINES = BLANK.replace(rb'[^*@\n]', rb'[^*@]').replace(rb'[^@\n]', rb'[^@]')
HEAD = re.compile(rb'(?:' + BLANK + rb')*(?:\+(?:' + BLANK + rb')*)?==?', re.S | re.X)
# The same with the codes that would end a macro.
BEGINNING = re.compile(rb'(?:@[dfscp]|' + BLANK + rb')*', re.S | re.X | re.I)


def pattern_of_c(blank):
    """All that is no single byte in C, where this is white space between #, include and a header.
    Each alternative begins with a byte of its own, so that the search passes over others fast."""
    return re.compile(rb'''
    /(?:\*(?:[^*@]+|\*(?!/)|@[^* \t\r\v\f\n])*(?:\*/)?         # comments
      | /(?:[^@\n]+|@[^* \t\r\v\f\n])*)
    | "(?:[^"\\\n]+|\\[^@]|\\)*"?                             # quoted texts
    | '(?:[^'\\\n]+|\\[^@]|\\)*'?
    | (?<![A-Za-z0-9_$\x80-\xff])''' + SEPARATED + rb'''
    | \#(?:''' + blank + rb''')*include(?:''' + blank + rb''')*<[^>\n]*
    | @(?:'(?:(?:@@|\\[0-7]{1,3}|\\["'?\\abtnvfr]|[^\\'@\n])'|[^'\n]*'?)
        | =(?:[^@\n]+|@@|@(?![@>]))*(?:@>)?                   # verbatim texts
        | [\^.:tTqQ](?:[^@]+|@@)*(?:@>)?                      # control texts
        | (.))
    ''', re.S | re.X)


# A line end in a comment ends no line for the preprocessor, and in a macro one does.
C_TEXT, MACRO_TEXT = pattern_of_c(BLANK_OVER_LINES), pattern_of_c(BLANK)


def plain_name(text):
    """A name without the white space that does not count."""
    if b'@' in text:
        text = CODE.sub(lambda found: b'@' if found[1] == b'@' else found[0], text)
    return b' '.join(text.split())


def written_name(name):
    """A name as it is written in a web."""
    return name.replace(b'@', b'@@')


def is_abbreviation(name):
    return name.endswith(b'...')


class Scan:
    """The sections of a text and its names, in their order.

    With `has_limbo` the text may begin before the first section; else with one. Where `tokens` is
    a list it gets the start and the end of all that C_TEXT finds in C.
    """

    def __init__(self, text, has_limbo, tokens=None):
        self.text, self.tokens = text, tokens
        self.sections, self.occurrences = [], []
        at = 0
        if has_limbo:
            codes = CODE.finditer(text)
            at = next((found.start() for found in codes if found[1] in STARTS), len(text))
        while at < len(text):
            at = self.section(at)
        self.by_text = {}               # the text of a name: its occurrences
        for one in self.occurrences:
            self.by_text.setdefault(one.text, []).append(one)
        self.texts = set(self.by_text)
        self.abbreviations = {one for one in self.texts if is_abbreviation(one)}
        self.full_names = self.texts - self.abbreviations

    def section(self, start):
        """Scans a section: where the next one begins."""
        self.sections.append(Section(start, self.text[start + 1:start + 2] == b'*', []))
        at = start + 2
        while True:
            found = CODE.search(self.text, at)
            if found is None:
                return len(self.text)
            code, at = found[1].lower(), found.end()
            if code in STARTS:
                return found.start()
            if code == b'd':
                if self.tokens is not None:
                    self.tokens.append(found.span())
                at = self.c_text(at, True)
            elif code in (b'c', b'p'):
                return self.c_text(at, False)
            elif code in (b'<', b'('):
                at, head = self.documented(found.start())
                if head:
                    return self.c_text(head.end(), False)

    def documented(self, start):
        """A name in documentation: where it ends, and the equals sign if it is a definition."""
        end = NAME.match(self.text, start).end()
        head = HEAD.match(self.text, end)
        self.name(start, DEFINITION if head else MENTION)
        if head:
            self.sections[-1].names.append(self.occurrences[-1].text)
        return end, head

    def c_text(self, at, is_macro):
        """Scans a C part or a macro: where it ends."""
        first, last, pattern = at, (at, at), MACRO_TEXT if is_macro else C_TEXT
        while True:
            found = pattern.search(self.text, AT_FRONT.match(self.text, at).end())
            if found is None:
                return len(self.text)
            code, start, at = found[1], found.start(), found.end()
            if self.tokens is not None:
                self.tokens.append((start, at))
            if code is None:
                if not self.text.startswith(b'#', start):
                    last = start, at
                elif not self.begins_line(first, last, start):
                    at = start + 1      # no inclusion of C
                continue
            if code in STARTS or is_macro and code.lower() in MACRO_ENDS:
                return start
            if code in (b'<', b'('):
                at = self.name(start, USE)

    def begins_line(self, first, last, at):
        """Whether a place is the first on its line, or in its part, which begins at `first`. What
        is before it on the line may also be the end of a comment, which is `last` then."""
        line = self.text.rfind(b'\n', 0, at) + 1
        if last[0] < line < last[1] and self.text[last[0]] in b'/@':
            line = last[1]
        return BEGINNING.fullmatch(self.text, max(first, line), at) is not None

    def name(self, start, role):
        found = NAME.match(self.text, start)
        self.occurrences.append(Occurrence(start, found.end(), plain_name(found[1]), role))
        return found.end()


def is_unended(text, one):
    """Whether the name's closing code is missing."""
    return NAME.match(text, one.start)[2] is None
