"""The tokens of one C part or macro: what is at each position of the text (docs/scanning.md)."""
import re
from collections import namedtuple

import limits
from lines_of_c import GAP, in_directive

# kind: White, LineEnd, Join or the name of an item; mark: the place of the line mark after a use or @h
Token = namedtuple('Token', 'kind value at mark')
Token.__new__.__defaults__ = (None,)

# A number goes on over an apostrophe between two word bytes.
WORD = re.compile(rb"(?x: [0-9] W* (?: ' W+ )* | W+ )".replace(b'W', rb'[A-Za-z0-9_$\x80-\xff]'))
WHITE = re.compile(rb'[ \t\r\v\f]+')
# White space that ends on its line and without a fault: bytes, comments, control texts, other codes.
WHITE_ON_LINE = rb'''(?x: [ \t\r\v\f]
    | /\* (?: [^*@\n] | \*(?!/) | @[^\ \t\r\v\f\n*] )* \*/
    | @[\^.:tTqQ] (?: [^@\n] | @@ )* @>
    | @[^@\ \t\r\v\f\n*dDfFsScCpP<(\^.:tTqQ=&hH'] )*'''
SINGLE_EQUALS = re.compile(WHITE_ON_LINE + rb'\+?' + WHITE_ON_LINE + rb'=(?!=)')
IN_COMMENT = {b'/*': re.compile(rb'@|\*/'), b'//': re.compile(rb'@|\n')}
OCTAL = re.compile(rb'\\([0-7]{1,3})')
RAW_PREFIXES = (b'R', b'LR', b'uR', b'UR', b'u8R')
# The delimiter of a raw string, and what C++ ends with it.
WHOLE_RAW = re.compile(rb'"([^ \t\r\v\f\n()\\]{0,16})\([^\n]*\)\1"')
ESCAPES = dict(zip(b'abtnvfr"\'?\\', (7, 8, 9, 10, 11, 12, 13, 34, 39, 63, 92)))


def is_section_start(byte):
    """Whether @ before this byte starts a section."""
    return byte in limits.WHITE or byte in b'\n*'


def lower(byte):
    return byte + 32 if 65 <= byte <= 90 else byte


class Part:
    """The tokens from a position of a web's text on, up to what ends the part or macro, where `at` is then."""

    def __init__(self, web, at, is_macro):
        self.web, self.text, self.at, self.is_macro = web, web.text, at, is_macro
        self.tokens = []
        self.line = []                          # what was on this line so far, white space left out
        faults = len(web.noted)
        while self.at < len(self.text) and self._step():
            pass
        self.has_fault = len(web.noted) > faults

    def _add(self, kind, value, after, mark=None):
        self.tokens.append(Token(kind, value, self.at, mark))
        self.line.append(value if kind in ('Sign', 'Word') else kind)
        self.at = after
        return True

    def _white(self, after):
        """White space up to there; a line end inside is a line end of the part, unless it is in a directive."""
        self.tokens.append(Token('White', None, self.at))
        ends = [at for at in range(self.at, after) if self.text[at] == 10]
        if ends and (self.is_macro or not in_directive(self.tokens)):
            self.tokens += [Token('LineEnd', None, at) for at in ends]
            self.line = []
        self.at = after
        return True

    def _step(self):
        """Takes what is here, or says that it ends the part."""
        text, at = self.text, self.at
        byte = text[at]
        if byte == 64:
            return self._code()
        if text[at:at + 2] in IN_COMMENT:
            return self._white(self._comment_end(at + 2, IN_COMMENT[text[at:at + 2]]))
        if byte in b'"\'':
            return self._quoted(byte)
        if byte == 60 and self.line == [b'#', b'include']:
            return self._quoted(62)
        if byte == 10:
            self.tokens.append(Token('LineEnd', None, at))
            self.line = []
            self.at += 1
            return True
        white = WHITE.match(text, at)
        if white:
            return self._white(white.end())
        word = WORD.match(text, at)
        if word:
            return self._add('Word', word.group(), word.end())
        return self._add('Sign', text[at:at + 1], at + 1)

    def _code(self):
        web, at = self.web, self.at
        if is_section_start(self.text[at + 1]):
            return False
        code = lower(self.text[at + 1])
        if self.is_macro and code in b'dfscp<(':
            return False
        if code == 64:
            return self._add('Sign', b'@', at + 2)
        if code in b'<(':
            return self._use(code)
        if code in b'^.:tq':
            return self._white(self._control_text_end(at + 2))
        if code == 61:
            return self._verbatim()
        if code == 38:
            return self._add('Join', None, at + 2)
        if code == 39:
            return self._constant()
        if code == 104 and not self.is_macro:
            web.has_all_macros = True
            self._test_line(at)
            return self._add('Defs', None, at + 2, web.place(at))
        if code == 104:
            web.fault('MisplacedH', at)
        elif code in b'dfscp':
            web.fault('CodeInC', at)
        return self._white(at + 2)

    def _use(self, code):
        web, at = self.web, self.at
        self._test_line(at)
        name, end, after = web.name(at + 2)
        if SINGLE_EQUALS.match(self.text, after):
            web.fault('NameEquals', at)
        return self._add('UseOf', web.occurrence(name, code, 'use', at), after, web.place(end))

    def _test_line(self, at):
        """A use or @h is there, which no directive can have."""
        if in_directive(self.tokens):
            self.web.fault('UseInDirective', at)

    def _control_text_end(self, at):
        while True:
            at = self.text.find(b'@', at)
            if at < 0:
                at = len(self.text)
            code = self.text[at + 1:at + 2]
            if code == b'>':
                return at + 2
            if code != b'@':
                self.web.fault('ControlText', at)
                return at
            at += 2

    def _comment_end(self, at, ends):
        while True:
            found = ends.search(self.text, at)
            if found is None:
                self.web.fault('CommentEnd', len(self.text))
                return len(self.text)
            if found.group() != b'@':
                return found.start() if found.group() == b'\n' else found.end()
            if is_section_start(self.text[found.end()]):
                self.web.fault('CommentEnd', found.start())
                return found.start()
            at = found.end() + 1

    def _constant(self):
        at = self.at + 2
        line = self.text[at:self.text.find(b'\n', at)]
        value, size = character(line)
        if value is not None and line[size:size + 1] == b"'":
            return self._add('Code', value, at + size + 1)
        self.web.fault('AsciiBad', self.at)
        end = line.find(b"'")
        return self._white(at + (len(line) if end < 0 else end + 1))

    def _verbatim(self):
        text, start, found = self.text, self.at + 2, self.at + 2
        is_cut = False
        while True:
            two = text[found:found + 2]
            if two == b'@@':
                self.at = start
                self._add('Verbatim', text[start:found + 1], found)
                is_cut, start, found = True, found + 2, found + 2
            elif two == b'@>' or two[:1] == b'\n':
                break
            else:
                if two[:1] == b'@':
                    self.web.fault('StringAt', found)
                found += 1
        if start < found or not is_cut:
            self.at = start
            self._add('Verbatim', text[start:found], found)
        if two == b'@>':
            found += 2
        else:
            self.web.fault('VerbatimEnd', found)
        self.at = found
        return True

    def _is_raw(self):
        """Whether a quote here would begin a raw string of C++. The name of a macro makes none."""
        before = self.tokens[-1:]
        if not before or before[0].kind != 'Word' or before[0].value not in RAW_PREFIXES:
            return False
        is_name = self.is_macro and all(token.kind in GAP for token in self.tokens[:-1])
        return before[0].at + len(before[0].value) == self.at and not is_name

    def _quoted(self, close):
        text, start, found = self.text, self.at, self.at + 1
        first, is_raw = start, close == 34 and self._is_raw()
        while found < len(text) and text[found] != 10 and text[found] != close:
            two = text[found:found + 2]
            if two == b'@@' or (two == b'\\\n' and close != 62):
                self.at = start
                self._add('Quoted', text[start:found + 1], found + 1)
                if two == b'\\\n':
                    self._add('QuoteBreak', None, found + 2)
                found += 2
                start = found
                continue
            if two[:1] == b'@':
                self.web.fault('StringAt', found)
            found += 2 if two[:1] == b'\\' and two != b'\\@' and close != 62 else 1
        if found < len(text) and text[found] == close:
            found += 1
        else:
            self.web.fault('StringEnd', found)
        if is_raw and not WHOLE_RAW.fullmatch(text, first, found):
            self.web.fault('RawString', first)
        self.at = start
        if start < found:
            self._add('Quoted', text[start:found], found)
        self.at = found
        return True


def character(line):
    """The value of the character at the front of the line, and how many bytes it takes, or None."""
    if line[:2] == b'@@':
        return 64, 2
    octal = OCTAL.match(line)
    if octal:
        value = int(octal.group(1), 8)
        return (value, octal.end()) if value <= 255 else (None, 0)
    if line[:1] == b'\\':
        return ESCAPES.get(line[1]) if line[1:] else None, 2
    if line and line[0] not in b"'@":
        return line[0], 1
    return None, 0
