"""Where a fault is marked: on its name or its code, and only else on the text of its line."""
import bisect
import collections
import re

from .files import INCLUSION
from .names import Found, Place
from .scanning import USE, Scan

CLOSED = re.compile(rb'"(?:[^"\\]|\\.)*"|\'(?:[^\'\\]|\\.)*\'|/\*.*\*/|@[=^.:tTqQ].*@>', re.S)
RAW_PREFIX = re.compile(rb'(?:^|[^A-Za-z0-9_$\x80-\xff])(?:L|u8?|U)?R$')
CONTROL = re.compile(rb'@[\^.:tTqQ]')
CODES_IN_TEXT = re.compile(rb'^@=|@@|@>$')

CHANGE_CODES = {'stray-mark', 'missing-y', 'missing-z', 'empty-old', 'change-unused',
                'change-mismatch'}
INCLUSIONS = {'include-no-name', 'include-too-deep', 'include-missing'}
AT_END = 'the end of a chunk'    # as a row


def is_quoted(token):
    return token[:1] in (b'"', b"'")


def is_text(token):
    return is_quoted(token) or token.startswith(b'@=')


# How the token of a kind begins, and whether the fault has the line where it stops.
TOKENS = {
    'code-in-c': (lambda token: token.lower() in (b'@d', b'@f', b'@s', b'@c', b'@p'), False),
    'use-in-directive': (lambda token: token.lower() in (b'@<', b'@(', b'@h'), False),
    'misplaced-h': (lambda token: token.lower() == b'@h', False),
    'macro-name': (lambda token: token.lower() == b'@d', False),
    'control-text': (lambda token: CONTROL.match(token) and not CLOSED.fullmatch(token), True),
    'string-at': (lambda token: is_text(token) and b'@' in CODES_IN_TEXT.sub(b'', token), False),
    'raw-string': (lambda token: token.startswith(b'"'), False),
    'string-end': (lambda token: is_quoted(token) and not CLOSED.fullmatch(token), True),
    'verbatim-end': (lambda token: token.startswith(b'@=') and not CLOSED.fullmatch(token), True),
    'ascii-bad': (lambda token: token.startswith(b"@'"), False),
    'comment-end': (lambda token: token.startswith(b'/*') and not CLOSED.fullmatch(token), True),
}


def by_row(pieces):
    """The pieces by their rows; each is given with them."""
    table = {}
    for one, rows in pieces:
        for row in rows:
            table.setdefault(row, collections.deque()).append(one)
    return table


class Marker:
    """Finds where faults are marked. What was marked for one is not marked for another."""

    def __init__(self, names, line_of):
        self.names, self.line_of = names, line_of
        self.marked = set()
        self.ahead = {}                 # what faults in a row may be on, in its order
        self.spans = {}                 # where a piece of C is, by the places that it has
        self.tables, self.tokens = {}, {}

    def mark(self, fault, kind, web):
        """The places between which a fault is marked."""
        file, row = (web, 0) if fault.file is None else (fault.file, fault.line - 1)
        line = self.line_of(file, row)
        if kind.name in CHANGE_CODES:
            return self.between(file, row, 0, 2)
        if kind.name in INCLUSIONS:
            found = INCLUSION.match(line)
            group = found and (1 if found[1] is not None else 2)
            if found and found[group]:
                return self.between(file, row, *found.span(group))
            return self.between(file, row, 0, 2)
        if kind.subject is not None or kind.name in ('name-end', 'name-equals', 'name-in-macro'):
            found = self.name_of(kind, file, row)
            if found:
                self.marked.add(found)
                return self.names.places(found)
        if kind.name in TOKENS:
            found = self.unmarked(kind.name, file, row)
            if found:
                self.marked.add(found)
                places = self.token_places(*found[1:])
                self.spans[places] = found[1:]
                return places
        return self.between(file, row, len(line) - len(line.lstrip()), len(line))

    @staticmethod
    def between(file, row, start, end):
        return Place(file, row, start), Place(file, row, end)

    def unmarked(self, kind, file, row):
        """The first piece of the web that a fault of a kind in a row may be on and that is not
        marked yet; else None."""
        key = kind, file, row
        if key not in self.ahead:
            self.ahead[key] = collections.deque(
                one for number, there in self.chunks_at(file, row)
                for one in self.candidates(kind, number).get(there, ()))
        these = self.ahead[key]
        while these and these[0] in self.marked:
            these.popleft()
        return these[0] if these else None

    def chunks_at(self, file, row):
        """The chunks that a row is in, with the row, and the one before each that begins with the
        row, with AT_END: what is not finished stops at the section that begins there."""
        for number, first in self.names.at([file], row):
            yield number, (file, row)
            if first == 0 and number > 0:
                yield number - 1, AT_END

    def candidates(self, kind, number):
        """The pieces of a chunk that faults of a kind may be on, by the rows of such a fault."""
        if (kind, number) not in self.tables:
            found = {'name-end': self.unended, USE: self.uses}.get(kind)
            self.tables[kind, number] = by_row(
                found(number) if found else self.tokens_of(kind, number))
        return self.tables[kind, number]

    # ------------------------------------------------------------------ names

    def name_of(self, kind, file, row):
        """The occurrence that a fault on a name is about; None where none is in its line."""
        if kind.name == 'name-end':
            return self.unmarked(kind.name, file, row)
        if kind.subject is None:
            return self.unmarked(USE, file, row)
        if kind.subject in self.names.names:
            roles = {USE} if kind.name == 'undefined' else None
            return next((one for one in self.names.written(kind.subject, roles)
                         if (file, row) in self.rows_of(one)), None)
        return next((one for one in self.written_at(kind.subject, file, row)
                     if one not in self.marked), None)

    def written_at(self, text, file, row):
        """The occurrences of exactly this text that begin or end in a row, in their order."""
        for number, first in self.names.at([file], row):
            these = self.names.ordered[number].by_text.get(text, [])
            rows = self.names.chunks[number].rows
            start, end = rows[first], rows[first + 1]
            at = bisect.bisect_left(these, (start,))
            if at and start <= min(these[at - 1].end, rows[-1] - 1) < end:
                yield Found(number, these[at - 1])
            while at < len(these) and these[at].start < end:
                yield Found(number, these[at])
                at += 1

    def rows_of(self, found):
        """The rows in which an occurrence begins and ends."""
        return {self.names.place(found.chunk, at)[:2]
                for at in (found.occurrence.start, found.occurrence.end)}

    def uses(self, number):
        """The uses in a chunk, and where they begin."""
        for one in self.names.found_in(number, USE):
            yield one, {self.names.place(number, one.occurrence.start)[:2]}

    def unended(self, number):
        """The names without an end in a chunk, and where they stop, or begin."""
        for one in filter(self.names.is_unended, self.names.found_in(number)):
            is_at_end = one.occurrence.end == len(self.names.chunks[number].text)
            yield one, self.rows_of(one) | ({AT_END} if is_at_end else set())

    # ------------------------------------------------------------------ codes

    def tokens_in(self, number):
        """Where all pieces of C are in a chunk."""
        if number not in self.tokens:
            self.tokens[number] = []
            Scan(self.names.chunks[number].text, number == 0, self.tokens[number])
        return self.tokens[number]

    def tokens_of(self, kind, number):
        """The pieces of C of a kind in a chunk, and where they stop, or begin."""
        text, (is_kind, at_end) = self.names.chunks[number].text, TOKENS[kind]
        for start, end in self.tokens_in(number):
            is_raw = RAW_PREFIX.search(text[max(start - 4, 0):start])
            if is_kind(text[start:end]) and (is_raw or kind != 'raw-string'):
                rows = {self.names.place(number, end if at_end else start)[:2]}
                yield (kind, number, start, end), rows | (
                    {AT_END} if at_end and end == len(text) else set())

    def token_places(self, number, start, end):
        """From where it begins to where it ends, or to the end of its first line."""
        chunk = self.names.chunks[number]
        stop = min(end, chunk.text.index(b'\n', start))
        first = self.names.place(number, start)
        return first, first._replace(column=first.column + stop - start)
