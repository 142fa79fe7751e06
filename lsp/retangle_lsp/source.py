"""The source lines of a web: its file with what it includes, after the changes (docs/reading.md).

They come in spans, of which each is consecutive lines of one file, and in chunks, of which each but
the first begins with a section: a chunk is scanned without what is before it.
"""
import bisect
import collections
import functools
import itertools

from .files import SECTION, text_between

LINES_TAKEN, FILES_OPEN = 2000000, 10   # limits of reading, docs/programs.md

Change = collections.namedtuple('Change', 'old new start row end')
Change.__doc__ = """The old lines, and the new ones as pairs of rows of the change file; the rows of
the @x, of the first old line and of what ends the change."""

Part = collections.namedtuple('Part', 'file lines start end')
Part.__doc__ = """The lines of a file from one row up to another, which is not in it any more."""


class Chunk:
    """Consecutive source lines, in the parts of files that they come from."""

    __slots__ = 'parts', 'text', '__dict__'

    def __init__(self, parts, text):
        self.parts, self.text = parts, text

    @functools.cached_property
    def rows(self):
        """Where each row of the text begins, and then where the last one ends."""
        return [0, *itertools.accumulate(len(row) + 1 for row in self.text.split(b'\n')[:-1])]

    @functools.cached_property
    def first_rows(self):
        """The row at which each part begins."""
        return [0, *itertools.accumulate(part.end - part.start for part in self.parts[:-1])]

    def place(self, at):
        """The file, the row and the column of a place in the text."""
        row = bisect.bisect_right(self.rows, at) - 1
        if row == len(self.rows) - 1:   # after the last line
            last = self.parts[-1]
            return last.file, last.end - 1, len(last.lines[last.end - 1])
        number = bisect.bisect_right(self.first_rows, row) - 1
        part = self.parts[number]
        return part.file, part.start + row - self.first_rows[number], at - self.rows[row]

    def offset(self, row, column):
        """The place in the text of a row of the chunk; the end of a line that is shorter."""
        return min(self.rows[row] + column, self.rows[row + 1] - 1)


def changes_of(lines):
    """The changes of a change file, in their order."""
    made, old, new = [], None, None     # None outside of a change, and outside of its new part
    start = first = 0
    for row, line in enumerate(lines + [b'@z']):
        code = line[:2].lower()
        if code in (b'@x', b'@z'):
            if old and new is not None:
                made.append(Change(old, new, start, first, row))
            old, new, start = [] if code == b'@x' else None, None, row
        elif code == b'@y':
            if old is not None and new is None:
                new = []
        elif new is not None:
            if new and new[-1][1] == row:
                new[-1] = new[-1][0], row + 1
            else:
                new.append((row, row + 1))
        elif old is not None and (old or line.strip()):
            first = first if old else row
            old.append(line)
    return made


class Reader:
    """Reads a web; `files` gives the text of a file, or None where it is not there."""

    def __init__(self, files, web, change):
        self.files, self.parts, self.taken = files, [], 0
        text = files(change) if change is not None else None
        self.change_file, self.change_text = change, text
        self.changes = changes_of(text.lines)[::-1] if text else []
        # what is to be read next comes last: file, text, row, end, is_changed, depth
        self.ahead = []
        self.push(web, files(web), False, 1)
        while self.ahead and self.taken < LINES_TAKEN:
            self.step(*self.ahead.pop())

    def push(self, file, text, is_changed, depth):
        if text:
            self.ahead.append((file, text, 0, len(text.lines), is_changed, depth))

    def step(self, file, text, row, end, is_changed, depth):
        """Reads up to the next line that is a change's first or an inclusion."""
        at = bisect.bisect_left(text.inclusions, (row,))
        stop = text.inclusions[at][0] if at < len(text.inclusions) else end
        match = None
        if self.changes and not is_changed:
            first = self.changes[-1].old[0]
            try:
                match = text.lines.index(first, row, min(stop + 1, end))
            except ValueError:
                pass
        self.take(file, text, row, min(end, stop) if match is None else match)
        if match is not None:
            self.ahead.append((file, text, match, end, is_changed, depth))
            self.make_change(self.changes.pop(), depth)
        elif stop < end:
            self.taken += 1
            self.ahead.append((file, text, stop + 1, end, is_changed, depth))
            name = text.inclusions[at][1]
            if name and depth < FILES_OPEN:
                self.push(name, self.files(name), is_changed, depth + 1)

    def take(self, file, text, row, end):
        end = min(end, row + LINES_TAKEN - self.taken)
        self.taken += end - row
        if end > row:
            self.parts.append(Part(file, text.lines, row, end))

    def make_change(self, change, depth):
        """Takes as many lines as are old, whatever they are, and reads the new ones."""
        count = len(change.old)
        while count and self.ahead:
            file, text, row, end, *rest = self.ahead.pop()
            some = min(count, end - row)
            count -= some
            self.taken += some
            if row + some < end:
                self.ahead.append((file, text, row + some, end, *rest))
        for row, end in reversed(change.new):
            self.ahead.append((self.change_file, self.change_text, row, end, True, depth))


def parts_of(files, web, change):
    """The source lines of a web as parts of files."""
    return Reader(files, web, change).parts


def chunks_of(files, web, change):
    """The source lines of a web as chunks. The first one is what is before the first section."""
    chunks, parts, before = [], [], b''
    for file, lines, first, last in parts_of(files, web, change):
        text = files(file)
        at = bisect.bisect_right(text.starts, first)
        end = bisect.bisect_left(text.starts, last)
        cuts = text.starts[at:end]
        if SECTION.match(lines[first]) and not before.endswith(b'\\'):
            close(chunks, parts)
            parts = []
        if cuts:
            close(chunks, parts + [Part(file, lines, first, cuts[0])])
            chunks += [Chunk([Part(file, lines, *rows)], piece) for *rows, piece in zip(
                cuts, cuts[1:], text.pieces[at + 1:end])]
            first, parts = cuts[-1], []
        parts = parts + [Part(file, lines, first, last)]
        before = lines[last - 1]
    if parts:
        close(chunks, parts)
    return chunks


def close(chunks, parts):
    """Adds a chunk of these parts; only the first one may have none."""
    if parts or not chunks:
        text = b''.join(text_between(part.lines, part.start, part.end) for part in parts)
        chunks.append(Chunk(parts, text))
