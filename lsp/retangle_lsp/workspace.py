"""The open files, the webs that they belong to, and what is published for them."""
import contextlib
import os
import time

from .changefiles import has_no_web
from .compiler import Compiler
from .documents import Document, column_of, path_of, uri_of
from .files import Unreadable, read_text, text_of
from .merging import merged
from .progress import Progress
from .protocol import ERROR, INFORMATION, WARNING, decoded, shown
from .roots import SETTINGS, Roles, Root, root_of
from .webs import Web, unchecked

TYPING_SECONDS = 2      # after so long without a change, nobody is typing
UNSAVED = 'is not on the disk; its faults are shown when it is saved'
LATE_SECONDS = 1        # so long faults may be late, since the next key is there


class Workspace:
    """All that is open. What changes is noted, and made known to retangle by `settle`."""

    def __init__(self, find_retangle, messages):
        self.find_retangle, self.messages = find_retangle, messages
        self.documents = {}             # uri: document
        self.buffers = {}               # path: text, of the open files
        self.folder = None              # that of a project, if the client's settings say it
        self.tops = {}                  # folder: root, of those in which webs are sought
        self.roots = {}                 # the same with the folders that are used instead of these
        self.root_of_folder = {}        # the folders of open files, each with the root
        self.webs = {}                  # folder and roles: web
        self.published = {}             # uri: diagnostics, where there are some
        self.said = set()               # what was shown, so that it is shown once
        self.has_other_files = False    # whether other webs may be there now
        self.changed = set()            # the paths of files that changed
        self.to_publish = {}            # URIs whose diagnostics are sent, though they are the same
        self.to_fold = set()            # webs whose faults are others, which were not folded yet
        self.has_progress = False       # whether the client can show progress
        self.late_since = None          # when the first of what was not published yet changed
        self.typed = None               # path, row and column after what was typed last, and when
        self.unsaved = set()            # the paths of open webs that are not on the disk
        self.compiler = Compiler(self.say)
        self.is_pulled = False          # whether the client asks for diagnostics
        self.ask_again = lambda: None   # tells such a client that some are others now

    def say(self, text, kind=ERROR, again=False):
        if again or text not in self.said:
            self.said.add(text)
            self.messages.show(WARNING if again else kind, text)

    # ------------------------------------------------------------------ documents

    def open(self, uri, version, text):
        """A file is open, with this text. Only files of a folder can be those of a web."""
        path = path_of(uri)
        if path is None:
            self.documents[uri] = None
            return
        document = self.documents[uri] = Document(uri, path, version, text)
        self.take(document)
        self.has_other_files = True

    def open_from_disk(self, uri):
        """Opens a file which the client has open under a name that it did not say: after it has
        saved the file under another name. None where that is not so."""
        path = path_of(uri)
        try:
            lines = read_text(path, os.path.realpath(path)).lines if path else None
        except Unreadable:
            lines = None
        if lines is None or uri in self.documents:
            return None
        with open(path, 'rb') as file:
            self.open(uri, None, decoded(file.read()))
        return self.documents[uri]

    def change(self, document, changes, version):
        for start, end, text in changes:
            if start is None:
                document.replace_all(text)
            else:
                document.replace(start, end, text)
        document.version = version
        self.typed = None
        if document.typed:
            row, count = document.typed
            column = column_of(document.kept[row], count)
            self.typed = (document.path, row, column), time.monotonic()
        self.take(document)

    def take(self, document):
        """Takes over the text of a document."""
        before = self.buffers.get(document.path)
        now = text_of(document.file_lines(), None, before)
        if before is None or now.lines != before.lines:
            self.buffers[document.path] = now
        names = [] if before is None else [name for _, name in before.inclusions]
        if names != [name for _, name in now.inclusions] or self.is_settings(document.path):
            self.has_other_files = True
        if has_no_web(self, document.path):
            self.has_other_files = True
        self.changed.add(document.path)
        self.to_publish[document.uri] = True

    def save(self, document):
        """A file is saved: files on the disk are others now."""
        self.typed = None
        self.look_again()
        if document:
            self.to_publish[document.uri] = True
            self.compiler.saved.add(document.path)

    def close(self, uri):
        """A file is closed: from now on it is as it is on the disk."""
        document = self.documents.pop(uri)
        if document:
            others = self.documents_at(document.path)
            if others:                      # under another URI
                self.take(others[-1])
            else:
                self.buffers.pop(document.path, None)
            self.look_again()
            self.to_publish[uri] = True

    def look_again(self):
        """Files on the disk may be others, and other files may be there."""
        self.has_other_files = True

    @staticmethod
    def is_settings(path):
        return os.path.basename(path) == SETTINGS

    def root_of(self, path):
        """The root of a file; all files below the folder that the client said have this one."""
        is_below = self.folder and path.startswith(os.path.join(self.folder, b''))
        return self.folder if is_below else root_of(path)

    def root(self, folder):
        """The root with this folder, or the one of a web that uses it."""
        return self.roots.get(folder) or Root(folder, self.buffers)

    def use_folder(self, folder):
        """A project has this folder, or None, from now on."""
        if folder != self.folder:
            self.folder = folder
            self.look_again()

    def real(self, path):
        """A path without links."""
        return os.path.realpath(path)

    def uri(self, path):
        """The URI of a file, as the client writes it if it has the file open."""
        opened = self.documents_at(path)
        return opened[0].uri if opened else uri_of(path)

    def documents_at(self, path):
        """The open documents of a file: several, where it is open under several URIs."""
        return [one for one in self.documents.values() if one and one.path == path]

    # ------------------------------------------------------------------ webs

    def needed(self):
        """The webs of which a file is open, each with the paths of its files."""
        paths = {document.path for document in self.documents.values() if document}
        self.root_of_folder = {os.path.dirname(path): self.root_of(path) for path in paths}
        self.tops = {folder: self.tops.get(folder) or Root(folder, self.buffers)
                     for folder in sorted(set(self.root_of_folder.values()))}
        found = {}
        for root in self.tops.values():
            for key, members in self.webs_in(root, paths).items():
                if members & paths:
                    found[key] = members
                    self.say_folder(root, *key)
            self.say_settings(root)
        self.roots = {folder: root for top in self.tops.values()
                      for folder, root in top.roots.items()}
        elsewhere = {(folder, path) for (folder, _), members in found.items() for path in members}
        for folder, roles in list(found):
            path = os.path.realpath(os.path.join(folder, roles.web))
            if self.root_of(path) == folder and any(
                    other != folder and path == one for other, one in elsewhere):
                if roles.change is None and roles.out is None:
                    del found[folder, roles]
        members = set().union(*found.values())
        self.unsaved = set()
        for path in sorted(paths):
            if path.endswith(b'.w') and path not in members:
                self.add_lonely(path, found)
        return found

    def webs_in(self, root, opened):
        """The webs of a root, while these files are open."""
        return root.webs({path for path in opened if self.root_of(path) == root.folder})

    def add_lonely(self, path, found):
        """A web that is not on the disk yet, or not any more, or one of several that include each
        other."""
        root = self.tops[self.root_of(path)]
        if os.path.isfile(path):
            folder, roles = root.key(Roles(os.path.relpath(path, root.folder), None, None))
            found[folder, roles] = root.root(folder).members(roles)
        else:
            self.unsaved.add(path)
            self.say('%s %s' % (shown(path), UNSAVED), WARNING)

    def say_folder(self, root, folder, roles):
        if folder != root.folder:
            self.say('%s: the files that it includes are beside it, so their names are taken from '
                     '%s, and not from %s' % tuple(map(shown, (roles.web, folder, root.folder))),
                     INFORMATION)

    def say_settings(self, root):
        for number, why in root.wrong:
            path = os.path.join(root.folder, SETTINGS)
            self.say('%s:%d: %s' % (shown(path), number, why))

    def choose(self):
        """Starts the webs of which a file is open now, and ends the others."""
        needed = self.needed()
        for key in set(self.webs) - set(needed):
            self.to_fold.discard(self.webs[key])
            self.webs.pop(key).end()
        for key, members in needed.items():
            if key not in self.webs:
                self.webs[key] = Web(self.roots[key[0]], key[1], self.find_retangle, self.say)
            self.webs[key].members = members

    def webs_of(self, path):
        """The webs that have a file."""
        return [web for web in self.webs.values() if path in web.members]

    def settle(self, is_hurried=lambda: False):
        """Brings every web to the files as they are now, and publishes its faults. Where the next
        message is there, these are left for the next time, but for a second at most."""
        self.hear_compiler()
        if not (self.has_other_files or self.changed or self.to_publish or self.late_since):
            return
        self.late_since = self.late_since or time.monotonic()

        def gives_way():
            return is_hurried() and time.monotonic() - self.late_since < LATE_SECONDS
        has_other_files, self.has_other_files = self.has_other_files, False
        if has_other_files:
            self.choose()
        with self.progress():
            self.refresh(has_other_files)
            self.fold_and_publish(gives_way)

    def progress(self):
        """Where a web has to be started, the user is shown what goes on."""
        started = [web for web in self.webs.values() if web.retangle is None]
        if not started or not self.has_progress:
            return contextlib.nullcontext()
        return Progress(self.messages, 'retangle reads ' + shown(started[0].roles.web))

    def refresh(self, has_other_files):
        """Brings the webs to the files as they are now."""
        changed, self.changed = self.changed, set()
        for web in self.webs.values():
            if has_other_files or web.members & changed:
                self.to_fold.add(web)
                self.guarded(web, web.refresh)

    def fold_and_publish(self, gives_way):
        typed = self.typed and self.typed[0]
        for web in self.webs.values():
            if gives_way():
                return
            if web in self.to_fold:
                self.to_fold.remove(web)
                self.guarded(web, lambda: web.fold(typed))
        if self.publish(gives_way) and self.compiler.take(list(self.webs.values())):
            self.publish()

    def hear_compiler(self):
        if self.compiler.look(list(self.webs.values())):
            self.publish()

    def guarded(self, web, action):
        """Finds the faults of a web. A fault of this program in one keeps the others."""
        try:
            action()
        except BrokenPipeError:         # the client has ended
            raise
        except Exception as error:
            web.fail(error)
            self.messages.log_fault('the faults of %s' % shown(web.roles.web), error)

    def tick(self):
        """After some time without a message: what changed meanwhile."""
        if self.typed and time.monotonic() - self.typed[1] >= TYPING_SECONDS:
            self.typed = None
            for web in self.webs.values():
                if web.typed_at:
                    web.fold()
            self.publish()
        self.hear_compiler()
        if any(web.is_over() for web in self.webs.values()) or self.is_stale():
            self.look_again()
            self.settle()

    def is_stale(self):
        """Whether a file on the disk is another than a web has read."""
        for web in self.webs.values():
            readings = web.retangle.readings if web.retangle else {}
            if any(is_other(path, text) for path, text in readings.items()
                   if path not in self.buffers):
                return True
            missing = web.members - set(readings) - set(self.buffers) if readings else ()
            if any(map(os.path.isfile, missing)):
                return True
        return self.has_other_roots()

    def has_other_roots(self):
        """Whether the settings of a root came, went or are others, or a file has another root."""
        return any(map(self.has_other_settings, self.tops.values())) or any(
            self.root_of(os.path.join(folder, b'.w')) != root
            for folder, root in self.root_of_folder.items())

    def has_other_settings(self, root):
        path = os.path.join(root.folder, SETTINGS)
        known = root.readings.get(path)
        return path not in self.buffers and (
            os.path.isfile(path) if known is None else is_other(path, known))

    # ------------------------------------------------------------------ diagnostics

    def publish(self, gives_way=lambda: False):
        """Sends the diagnostics of files that changed, and of each where they are others. Whether
        all was sent."""
        tables = []
        for web in self.webs.values():
            if gives_way():
                return False
            tables.append(web.diagnostics(self.uri))
        found = merged(tables)
        self.add_unsaved(found)
        if self.is_pulled:
            if found != self.published:
                self.ask_again()
            self.published, self.to_publish, self.late_since = found, {}, None
            return True
        for uri in dict.fromkeys([*self.to_publish, *self.published, *found]):
            if gives_way():
                return False
            these = found.get(uri, [])
            if uri in self.to_publish or these != self.published.get(uri):
                self.send(uri, these)
                self.to_publish.pop(uri, None)
                self.published[uri] = these
        self.published, self.late_since = found, None
        return True

    def add_unsaved(self, found):
        """Adds the webs that are not on the disk, and what a file has under its other URIs."""
        for path in self.unsaved:
            line = self.buffers[path].lines[:1] if path in self.buffers else []
            found.setdefault(self.uri(path), []).append(unchecked(b''.join(line), 'it ' + UNSAVED))
        for document in filter(None, list(self.documents.values())):
            these = found.get(self.uri(document.path))
            if these:
                found[document.uri] = these

    def send(self, uri, diagnostics):
        params = {'uri': uri, 'diagnostics': diagnostics}
        document = self.documents.get(uri)
        if document and document.version is not None:
            params['version'] = document.version
        self.messages.write(method='textDocument/publishDiagnostics', params=params)

    def end(self):
        self.compiler.end()
        for web in self.webs.values():
            web.end()
        self.webs = {}


def is_other(path, text):
    """Whether a file is not on the disk any more as it was read."""
    try:
        return read_text(path, path, text) is not text
    except Unreadable:
        return True
