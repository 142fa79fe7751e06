"""Change files: which web each of them is of, and which lines of it each change takes."""
import collections
import os

from .files import text_between
from .source import Reader, changes_of, parts_of

EXTENSION = b'.ch'
MOST_WEBS = 200         # in which the old lines of a change file are sought
MOST_KEPT = 16          # webs of which the lines are kept

Use = collections.namedtuple('Use', 'change taken')
Use.__doc__ = """A change that is used, and the file and the row of each line that it takes."""


class Traced(Reader):
    """A reading that notes each change that is used; `changes` are the others then."""

    def __init__(self, files, web, change):
        self.used = []
        Reader.__init__(self, files, web, change)

    def make_change(self, change, depth):
        self.used.append(Use(change, self.next_rows(len(change.old))))
        Reader.make_change(self, change, depth)

    def next_rows(self, count):
        found = []
        for file, _, row, end, *_ in reversed(self.ahead):
            found += [(file, at) for at in range(row, min(end, row + count - len(found)))]
        return found

    def is_same(self, use, at):
        """Whether an old line is that of the web."""
        if at >= len(use.taken):
            return False
        file, row = use.taken[at]
        return self.files(file).lines[row] == use.change.old[at]

    def outcome(self):
        """How many lines of each change are not those of the web, and how many are not used."""
        return [sum(not self.is_same(use, at) for at in range(len(use.change.old)))
                for use in self.used], len(self.changes)

    def place_of(self, row):
        """The file and the row of the line of the web that an old line is, by its row; or None."""
        for use in self.used:
            at = row - use.change.row
            if 0 <= at < len(use.change.old) and self.is_same(use, at):
                return use.taken[at]
        return None


class Pairs:
    """Which web each change file of a root is of, by its name or by what it changes."""

    def __init__(self, folder, text_of):
        self.folder, self.text_of = folder, text_of
        self.known = {}                 # path of a change file: path of its web
        self.texts = {}                 # name of a web: its text, and all that can be changed

    def web_of(self, path, names):
        """The path of the web that a change file is of, among those with these names and those in
        its folder; None where there is none. A web that was found stays the one."""
        own = path[:-len(EXTENSION)] + b'.w'
        if os.path.isfile(own):
            return own
        if not os.path.isfile(self.known.get(path, b'')):
            self.known.pop(path, None)
            found = self.by_lines(path, names)
            if found:
                self.known[path] = found
        return self.known.get(path)

    def by_lines(self, path, names):
        """The web in which the old lines of most changes are."""
        text = self.text_of(os.path.relpath(path, self.folder))
        olds = [b'\n%s\n' % b'\n'.join(change.old).replace(b'\r', b'')
                for change in changes_of(text.lines)] if text else []
        best, most = None, 0
        for web in self.candidates(path, names) if olds else ():
            lines = self.lines_of(os.path.relpath(web, self.folder))
            count = sum(old in lines for old in olds)
            if count > most:
                best, most = web, count
        return best

    def candidates(self, path, names):
        """The webs in the folder of a change file first, and those of names like its."""
        folder = os.path.dirname(path)
        found = {os.path.realpath(os.path.join(self.folder, name)) for name in names}
        try:
            found.update(os.path.realpath(os.path.join(folder, name))
                         for name in os.listdir(folder) if name.endswith(b'.w'))
        except OSError:
            pass                        # a folder that is not there has none
        return sorted(found, key=lambda web: (
            os.path.dirname(web) != folder, -len(os.path.commonprefix([web, path])),
            web))[:MOST_WEBS]

    def lines_of(self, name):
        """The lines of a web and of what it includes."""
        text = self.text_of(name)
        known = self.texts.get(name)
        if text is None:
            return b''
        if known is None or known[0] is not text:
            lines = [text_between(text.lines, 0, len(text.lines))]
            if text.inclusions:
                lines += [text_between(part.lines, part.start, part.end)
                          for part in parts_of(self.text_of, name, None)]
            known = self.texts[name] = text, b'\n' + b''.join(lines).replace(b'\r', b'')
            while len(self.texts) > MOST_KEPT:
                del self.texts[next(iter(self.texts))]
        return known[1]

    def beside(self, web, names):
        """The paths of the change files in the folder of a web, which has this path, that are its
        own."""
        try:
            files = sorted(os.listdir(os.path.dirname(web)))
        except OSError:
            return
        for name in files:
            path = os.path.join(os.path.dirname(web), name)
            if name.endswith(EXTENSION) and self.web_of(path, names) == web:
                yield path


def lines_of_change_file(workspace, path):
    """The lines of a file if it is a change file, also of no web; else None."""
    for web in workspace.webs_of(path):
        change = web.roles.change
        if change is not None and web.path(change) == path:
            text = web.file(change)
            return text and text.lines
    text = workspace.buffers.get(path) if path.endswith(EXTENSION) else None
    return text and text.lines


def has_no_web(workspace, path):
    """Whether a file has changes, but no web that they are of."""
    return path.endswith(EXTENSION) and not workspace.webs_of(path) and bool(
        changes_of(workspace.buffers[path].lines))
