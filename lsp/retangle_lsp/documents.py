"""Open files as clients have them: texts, positions and URIs."""
import os
import re
import urllib.parse

from .protocol import decoded, encoded


def units(text):
    """How many UTF-16 units a text has."""
    return len(text) if text.isascii() else len(text.encode('utf-16-le', 'surrogatepass')) // 2


def index_of(line, count):
    """The index in a line after `count` UTF-16 units; the end of a line that has fewer.

    A carriage return at the end is a character of the line for some clients. For others it belongs
    to the line end: these give the position after it only as one that is past the end.
    """
    if count > units(line) and line.endswith('\r'):
        return len(line) - 1
    if line.isascii():
        return min(count, len(line))
    at = 0
    for index, character in enumerate(line):
        if at >= count:
            return index
        at += 2 if character > '\uffff' else 1
    return len(line)


def column_of(line, count):
    """The bytes of a line before a position, as their number."""
    text = decoded(line)
    return len(encoded(text[:index_of(text, count)]))


def position(line, number, column):
    """The position after `column` bytes of a line, which has this number from 1 on."""
    return {'line': number - 1, 'character': units(decoded(line[:column]))}


def kept(line):
    """A line as retangle keeps it."""
    return encoded(line).rstrip(b' ')


class Document:
    """An open file: its lines as the client has them, and as retangle keeps them.

    Both are lists, of which a change touches only its own lines.
    """

    def __init__(self, uri, path, version, text):
        self.uri, self.version = uri, version
        self.path = os.path.realpath(path)
        self.typed = None               # the line and the units after what was typed last
        self.replace_all(text)

    def replace_all(self, text):
        """Replaces the whole text. What differs was typed, where that is one place of one line."""
        before = getattr(self, 'lines', None)
        self.lines = text.split('\n')
        self.kept = [kept(line) for line in self.lines]
        if before is not None:
            self.typed = typed_between(before, self.lines)

    def replace(self, start, end, text):
        """Replaces what is from one position to another, each a line and a number of units."""
        first, front = self.place(start)
        last, back = max(self.place(end), (first, front))
        new = (self.lines[first][:front] + text + self.lines[last][back:]).split('\n')
        rest = len(self.lines[last]) - back
        self.lines[first:last + 1] = new
        self.kept[first:last + 1] = [kept(line) for line in new]
        row = first + len(new) - 1
        self.typed = row, units(new[-1][:len(new[-1]) - rest])

    def place(self, place):
        line, count = place
        if line >= len(self.lines):
            return len(self.lines) - 1, len(self.lines[-1])
        return line, index_of(self.lines[line], count)

    def file_lines(self):
        """The lines of the file, in a list of its own."""
        return self.kept[:] if self.lines[-1] else self.kept[:-1]


def typed_between(old, new):
    """The place after what was typed, where a client sends the whole text; None where several
    lines differ."""
    if len(old) != len(new):
        return None
    rows = [row for row, (one, other) in enumerate(zip(old, new)) if one != other]
    if len(rows) != 1:
        return None
    before, after = old[rows[0]][::-1], new[rows[0]][::-1]
    rest = len(os.path.commonprefix([before, after]))
    return rows[0], units(new[rows[0]][:len(after) - rest])


def path_of(uri):
    """The path that a URI names, or None where it names no file here."""
    found = re.match('file://[^/]*(/.*)', uri, re.S)
    path = urllib.parse.unquote_to_bytes(encoded(found[1])) if found else b''
    is_path = path.startswith(b'/') and b'\0' not in path and b'\n' not in path
    return os.path.normpath(path) if is_path else None


def uri_of(path):
    return 'file://' + urllib.parse.quote(path)
