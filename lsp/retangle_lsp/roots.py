"""Which webs there are, and which files are theirs.

The root of a file is the nearest folder upwards with a `.retangle`, a Makefile or a repository,
else its own folder. Each .w of the root that no other web includes is a web. A line of `.retangle`
names a web, its change file and its main output, as the words of retangle do. Names of files are
names in the root, or else in the folder of the web, where more of the included files are there.
"""
import collections
import os

from .changefiles import EXTENSION, Pairs
from .files import Unreadable, path_in, read_text, with_extension

SETTINGS = b'.retangle'
MARKS = SETTINGS, b'Makefile', b'makefile', b'GNUmakefile', b'.git', b'.hg', b'.svn'
MOST_FOLDERS = 1000             # that are looked through for webs
FILES = 256                     # the limit of retangle

Roles = collections.namedtuple('Roles', 'web change out')
Roles.__doc__ = """The words of retangle: the web, and the change file and the output or None."""


def root_of(path):
    """The root of a file."""
    own = folder = os.path.dirname(path)
    while True:
        if any(os.path.lexists(os.path.join(folder, mark)) for mark in MARKS):
            return folder
        if folder == os.path.dirname(folder):
            return own
        folder = os.path.dirname(folder)


def webs_below(root):
    """The names of the .w files of a root, with those of its folders that are no roots of their
    own."""
    found, folders = [], [b'']
    for count in range(MOST_FOLDERS):
        if count == len(folders):
            break
        try:
            with os.scandir(os.path.join(root, folders[count])) as entries:
                entries = sorted(entries, key=lambda entry: entry.name)
        except OSError:
            continue
        names = {entry.name for entry in entries}
        if count and names.intersection(MARKS):
            continue
        for entry in entries:
            name = os.path.join(folders[count], entry.name)
            if entry.name.startswith(b'.') or b'\n' in name:
                continue
            if entry.is_dir(follow_symlinks=False):
                folders.append(name)
            elif entry.name.endswith(b'.w'):
                found.append(name)
    return found


class Root:
    """A root: its settings, and the webs that they and its files make."""

    def __init__(self, folder, buffers):
        self.folder, self.buffers = folder, buffers
        self.readings = {}              # path: text
        self.pairs = Pairs(folder, self.text)
        self.wrong = []                 # what is wrong in the settings, each a line and a text
        self.roots = {folder: self}     # this one, and the folders of webs that are used instead

    def text(self, name):
        """The text of a file as it is open, else as it is on the disk; None where there is none."""
        path = None
        try:
            path = path_in(self.folder, name)
            if path in self.buffers:
                return self.buffers[path]
            self.readings[path] = read_text(name, path, self.readings.get(path))
            return self.readings[path]
        except Unreadable:
            self.readings.pop(path, None)
            return None

    def lines(self, name):
        text = self.text(name)
        return text and text.lines

    def settings(self):
        """The roles that the lines of the settings name. What is wrong is noted."""
        found, self.wrong = [], []
        for number, line in enumerate(self.lines(SETTINGS) or [], 1):
            words = line.split()
            if not words or words[0].startswith(b'#'):
                continue
            web, change, out = (words + [None] * 3)[:3]
            roles = Roles(with_extension(web, b'.w'),
                          None if change in (None, b'-') else with_extension(change, b'.ch'), out)
            missing = [name for name in roles[:2] if name and self.text(name) is None]
            if len(words) > 3:
                self.wrong.append((number, 'more than a web, a change file and an output'))
            elif missing:
                self.wrong.append((number, 'there is no file ' + os.fsdecode(missing[0])))
            if len(words) <= 3 and missing[:1] != [roles.web] and roles not in found:
                found.append(roles._replace(change=None) if missing else roles)
        return found

    def root(self, folder):
        if folder not in self.roots:
            self.roots[folder] = Root(folder, self.buffers)
        return self.roots[folder]

    def key(self, roles):
        """The folder that is used for a web, and its roles there: its own folder, where more of
        the files that it includes are there than in the root."""
        folder = os.path.normpath(os.path.dirname(os.path.join(self.folder, roles.web)))
        if folder == os.path.normpath(self.folder):
            return self.folder, roles
        web, change = (name and os.path.relpath(os.path.join(self.folder, name), folder)
                       for name in roles[:2])
        there = Roles(web, change, roles.out)
        found, missing = self.counts(roles)
        if not missing or found >= self.root(folder).counts(there)[0]:
            return self.folder, roles
        return folder, there

    def counts(self, roles):
        """How many files of a web are there, and how many are missing."""
        paths = self.members(roles)
        found = sum(path in self.buffers or path in self.readings for path in paths)
        return found, len(paths) - found

    def members(self, roles):
        """The paths of the files of a web: those of its roles, and all that they may include."""
        found, names = {}, [roles.web] + [roles.change] * (roles.change is not None)
        for name in names:
            if name in found or len(found) > FILES:
                continue
            try:
                found[name] = path_in(self.folder, name)
            except Unreadable:
                continue
            text = self.text(name)
            names += [included for _, included in text.inclusions] if text else []
        return set(found.values())

    def of_one_name(self, others):
        """The .w files of the root that are none of these others, each by one name: a link to
        another is the same web."""
        paths = {path_in(self.folder, name): None for name in others}
        names = webs_below(self.folder)
        for name in sorted(names, key=lambda one: os.path.islink(os.path.join(self.folder, one))):
            paths.setdefault(path_in(self.folder, name), name)
        found = set(paths.values())
        return [name for name in names if name in found]

    def webs(self, opened):
        """The webs of the root, each as its folder and its roles there, with the paths of its
        files. `opened` has the paths of its open files: the change files among them, which no line
        of the settings names, are those of the webs that have their names or their old lines."""
        named = self.settings()
        have_lines = [roles.web for roles in named]
        own = [self.key(Roles(name, None, None)) for name in self.of_one_name(have_lines)]
        members = {(folder, roles): self.root(folder).members(roles)
                   for folder, roles in [(self.folder, roles) for roles in named] + own}
        included = [(path_in(folder, roles.web), path)
                    for (folder, roles), paths in members.items() for path in paths]
        for folder, roles in own:
            path = path_in(folder, roles.web)
            if any(path == other and path != web for web, other in included):
                members.pop((folder, roles))
        changes = {path_in(self.folder, roles.change) for roles in named if roles.change}
        names = [os.path.join(folder, roles.web) for folder, roles in members]
        for path in opened:
            is_named = not path.endswith(EXTENSION) or path in changes
            web = None if is_named else self.pairs.web_of(path, names)
            if web:
                folder, roles = self.key(Roles(os.path.relpath(web, self.folder),
                                               os.path.relpath(path, self.folder), None))
                members[folder, roles] = self.root(folder).members(roles)
        return members
