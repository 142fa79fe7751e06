"""Scanning: from source lines to pieces, macros and occurrences of names (docs/scanning.md, docs/names.md)."""
import re
from bisect import bisect_right
from collections import namedtuple

from faults import Fault
from parts import Part, WHITE_ON_LINE, is_section_start, lower
from spacing import macro_items, part_items

Piece = namedtuple('Piece', 'section place occurrence items')
# role: definition, use or mention
Occurrence = namedtuple('Occurrence', 'text is_abbreviated is_file role place')

HEAD = re.compile(WHITE_ON_LINE + rb'(?:\+' + WHITE_ON_LINE + rb')?==?')
LIMBO_CODES = b'@fslq>'                         # what may stand before the first section


class Web:
    """The sections, pieces, macros, occurrences and faults of a source."""

    def __init__(self, source):
        self.source = source
        self.text = b''.join(line.line + b'\n' for line in source)
        self.starts, start = [], 0
        for line in source:
            self.starts.append(start)
            start += len(line.line) + 1
        self.section_count = 0
        self.pieces, self.macros, self.occurrences = [], [], []
        self.piece_parts, self.macro_parts = [], []     # the part of each piece and macro
        self.has_all_macros = False
        self.noted = []                         # (position in the text, fault)
        self._scan()
        self.noted.sort(key=lambda noted: noted[0])
        self.faults = [fault for _, fault in self.noted]

    def row(self, at):
        """The source line of a position in the text; at the end the last one."""
        return bisect_right(self.starts, at) - 1

    def place(self, at):
        return self.source[self.row(at)].place

    def span(self, item):
        """The source line of an item with text of the source, and its columns: of the first byte, after the last."""
        row = self.row(item.at)
        column = item.at - self.starts[row]
        return row, column, column + len(item.value)

    def fault(self, kind, at, order=None):
        """A fault whose place is there, and that comes in the list where `order` is, if not there."""
        self.noted.append((at if order is None else order, Fault(kind, self.place(at))))

    def occurrence(self, name, code, role, at):
        """The number of a new occurrence, whose @ is there."""
        self.occurrences.append(Occurrence(name, name.endswith(b'...'), code == 40, role, self.place(at)))
        return len(self.occurrences) - 1

    def name(self, at):
        """A name's text, where it ended, and where scanning goes on."""
        text, read = self.text, []
        while True:
            found = text.find(b'@', at)
            if found < 0:
                found = len(text)
            read.append(text[at:found])
            code = text[found + 1:found + 2]
            if code == b'>':
                after = found + 2
                break
            if code in (b'', b'<', b'(') or is_section_start(code[0]):
                self.fault('NameEnd', found)
                after = found
                break
            read.append(b'@' if code == b'@' else text[found:found + 2])
            at = found + 2
        return b' '.join(b''.join(read).split()), found, after

    def _scan(self):
        at = 0
        while True:                             # before the first section
            at = self.text.find(b'@', at)
            if at < 0:
                return
            if is_section_start(self.text[at + 1]):
                break
            if lower(self.text[at + 1]) not in LIMBO_CODES:
                self.fault('LimboCode', at)
            at += 2
        while at < len(self.text):
            self.section_count += 1
            at = self._section(at + 1)

    def _section(self, at):
        """Scans from after the @ of a section start: where the next one is, or the end."""
        text = self.text
        if text[at] == 42:
            at += 1
        macro_end = None
        while True:
            found = text.find(b'@', at)
            if found < 0:
                return len(text)
            if is_section_start(text[found + 1]):
                return found
            code = lower(text[found + 1])
            at = found + 2
            if code == 100:
                at = macro_end = self._macro(found)
            elif code in b'cp':
                return self._piece(at, None)
            elif code in b'<(':
                name, _, at = self.name(at)
                head = HEAD.match(text, at)
                occurrence = self.occurrence(name, code, 'definition' if head else 'mention', found)
                if head:
                    return self._piece(head.end(), occurrence)
                if found == macro_end:
                    self.fault('NameInMacro', found, at)

    def _piece(self, at, occurrence):
        part = Part(self, at, False)
        opening = self.place(at - 1)
        self.pieces.append(Piece(self.section_count, opening, occurrence, part_items(part.tokens, self, opening)))
        self.piece_parts.append(part)
        return part.at

    def _macro(self, start):
        part = Part(self, start + 2, True)
        tokens = part.tokens
        while tokens and tokens[0].kind in ('White', 'LineEnd'):
            tokens = tokens[1:]
        items = macro_items(tokens)
        if items and items[0].kind == 'Word' and not items[0].value[:1].isdigit():
            self.macros.append(items)
            self.macro_parts.append(part)
        else:
            self.fault('MacroName', start)
        return part.at                          # documentation passes over @f and @s there
