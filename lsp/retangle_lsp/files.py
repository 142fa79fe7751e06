"""Files as retangle takes them: lists of lines, and where these include files or begin sections."""
import bisect
import collections
import os
import re
import stat

FILE_BYTES = 67108864           # the limit of retangle
AT_ONCE = 1 << 20               # bytes that are read at a time
NO_TEXT = 'it is no file with a text'


class Unreadable(Exception):
    """A file cannot be read. is_missing: it is not there."""

    def __init__(self, name, reason, is_missing=False):
        Exception.__init__(self, name, reason)
        self.name, self.reason, self.is_missing = name, reason, is_missing

    def __str__(self):
        return '%s: %s' % (os.fsdecode(self.name), self.reason)


Text = collections.namedtuple('Text', 'stamp lines inclusions starts pieces')
Text.__doc__ = """A file as retangle takes it: its lines, the inclusions as a list of their rows and
of the names, the rows at which a section begins whatever is before them, and the text before each
of these rows, and after the last one, up to the next. The stamp of a file on the disk is another
one when the file was written, or moved there."""

INCLUSION = re.compile(rb'@[iI][ \t\r\v\f]*(?:"([^"]*)|([^ \t\r\v\f"]*))')
SECTION = re.compile(rb'@(?:[* \t\r\v\f]|$)')


def included_name(line):
    """The name of an inclusion, empty if it has none; None where the line is no inclusion."""
    found = INCLUSION.match(line)
    return found and (found[2] if found[1] is None else found[1])


def lines_of(text):
    """The lines of a text, without the spaces at their ends. Bytes after the last line feed are a
    line too, even if they are spaces alone."""
    lines = text.split(b'\n')
    if not lines[-1]:
        lines.pop()
    return [line.rstrip(b' ') for line in lines]


def text_of(lines, stamp=None, before=None):
    """The text of these lines. Only what differs from the text before is looked at."""
    if before is None:
        inclusions, starts = marked_rows(lines, 0, len(lines))
        return Text(stamp, lines, inclusions, starts, pieces_of(lines, [0, *starts, len(lines)]))
    front = common_front(before.lines, lines)
    back = common_back(before.lines, lines, front)
    # a line begins a section, or does not, also by the end of the line above it
    end, old_end = min(len(lines), len(lines) - back + 1), len(before.lines) - back + 1
    moved = len(lines) - len(before.lines)
    inclusions, starts = marked_rows(lines, front, end)
    kept_front = [one for one in before.inclusions if one[0] < front]
    kept_back = [(row + moved, name) for row, name in before.inclusions if row >= old_end]
    first = bisect.bisect_left(before.starts, front)
    last = bisect.bisect_left(before.starts, old_end)
    rest = [row + moved for row in before.starts[last:]]
    cuts = [before.starts[first - 1] if first else 0, *starts, rest[0] if rest else len(lines)]
    return Text(stamp, lines, kept_front + inclusions + kept_back,
                before.starts[:first] + starts + rest,
                before.pieces[:first] + pieces_of(lines, cuts) + before.pieces[last + 1:])


def pieces_of(lines, cuts):
    """The text from each of these rows to the next."""
    return [text_between(lines, start, end) for start, end in zip(cuts, cuts[1:])]


def text_between(lines, start, end):
    return b'\n'.join(lines[start:end]) + b'\n' if end > start else b''


def marked_rows(lines, start, end):
    """The inclusions and the starts of sections in these rows.

    A section begins at any start code, but for one in quoted text. So one at the front of a line
    begins a section, unless a backslash continues quoted text from the line above.
    """
    inclusions, starts = [], []
    for row in [row for row in range(start, end) if lines[row].startswith(b'@')]:
        name = included_name(lines[row])
        if name is not None:
            inclusions.append((row, name))
        elif SECTION.match(lines[row]) and not (row and lines[row - 1].endswith(b'\\')):
            starts.append(row)
    return inclusions, starts


def common_front(old, new):
    """How many lines at the front are the same. Slices are compared, which is fast where most lines
    are the same objects."""
    low, high = 0, min(len(old), len(new))
    while low < high:
        middle = (low + high + 1) // 2
        if old[low:middle] == new[low:middle]:
            low = middle
        else:
            high = middle - 1
    return low


def common_back(old, new, front):
    """How many lines at the end are the same, after `front` lines that are."""
    low, high = 0, min(len(old), len(new)) - front
    while low < high:
        middle = (low + high + 1) // 2
        if old[len(old) - middle:len(old) - low] == new[len(new) - middle:len(new) - low]:
            low = middle
        else:
            high = middle - 1
    return low


def read_text(name, path, known=None):
    """The text of a file on the disk; the one that is known if it was not written since."""
    try:
        status = os.stat(path)
        stamp = (status.st_dev, status.st_ino, status.st_ctime_ns, status.st_size)
        if known is not None and known.stamp == stamp:
            return known
        if stat.S_ISDIR(status.st_mode):
            raise Unreadable(name, 'it is a folder')
        if not stat.S_ISREG(status.st_mode):
            raise Unreadable(name, NO_TEXT)
        text = bytes_of(path)
    except BlockingIOError:
        raise Unreadable(name, NO_TEXT) from None
    except (FileNotFoundError, NotADirectoryError):
        raise Unreadable(name, 'there is no such file', True) from None
    except PermissionError:
        raise Unreadable(name, 'it may not be read') from None
    except (OSError, ValueError) as error:
        raise Unreadable(name, 'it cannot be read: %s' % error) from None
    if len(text) > FILE_BYTES:
        raise Unreadable(name, 'it has more than 67,108,864 bytes')
    return text_of(lines_of(text), stamp)


def bytes_of(path):
    """The bytes of a file, and at most one more than a file may have. BlockingIOError where they
    would be waited for, as some in /proc."""
    descriptor, found = os.open(path, os.O_RDONLY | os.O_NONBLOCK | os.O_CLOEXEC), []
    try:
        while sum(map(len, found)) <= FILE_BYTES:
            some = os.read(descriptor, AT_ONCE)
            if not some:
                break
            found.append(some)
    finally:
        os.close(descriptor)
    return b''.join(found)


def path_in(folder, name):
    """Where a file of this name is. Two names of it have one path."""
    if not name or b'\0' in name or b'\n' in name:
        shown = name.replace(b'\n', b' ') or b'the empty name'
        raise Unreadable(shown, 'no file has this name')
    named = os.path.join(folder, name)
    path = os.path.realpath(named)
    # /dev/stdin and the like are links to what has no path
    return path if os.path.lexists(path) or not os.path.exists(named) else os.path.normpath(named)


def with_extension(name, extension):
    return name if b'.' in name.rsplit(b'/', 1)[-1] else name + extension
