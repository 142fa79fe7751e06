"""A web of which a file is open: retangle over it, its names, and its faults."""
import functools
import os

from .documents import position
from .faults import Folding
from .files import Unreadable, path_in
from .kinds import MISSING_FILE
from .merging import MORE
from .names import Names
from .protocol import ERROR, WARNING, shown
from .runs import Ended, Refused, Unanswered, fault_line
from .session import Retangle

SOURCE = 'retangle'
MOST_FAULTS = 500       # that are shown at their places; thousands would take a second at each key


class Web:
    """A web, by its roles in a folder. What its user has to know is passed to `say`."""

    def __init__(self, root, roles, find_retangle, say):
        self.root, self.roles, self.find_retangle, self.say = root, roles, find_retangle, say
        self.retangle = None
        self.members = set()            # the paths of its files
        self.faults = []
        self.trouble = None             # why retangle did not answer last
        self.unanswered = None          # what its files were when it gave no answer
        self.known = self.known_of = None
        self.groups, self.rest = [], []     # the faults that are shown, and those only counted
        self.typed_at = None            # where the name that is being typed begins
        self.usual = set()              # the faults before it was typed
        self.before = None              # those that were found last, if that was done
        self.remarks = None             # what a compiler has said of the C

    # ------------------------------------------------------------------ retangle

    def start(self):
        """Starts the retangle that is there now: it may be installed while this runs."""
        program = self.find_retangle()
        if program is None:
            self.stumble('there is no retangle beside retangle-lsp and none on the path: install '
                         'it, or pass --retangle PATH')
            return
        try:
            self.retangle = Retangle(*self.roles, cwd=self.root.folder, program=program,
                                     buffers=self.root.buffers)
            self.trouble = None
        except Ended as ended:
            self.stumble_at(ended)

    def stumble_at(self, ended):
        """Where retangle gave no answer, it is not started again before a file was written."""
        self.stumble(str(ended))
        if isinstance(ended, Unanswered):
            self.unanswered = self.stamps()

    def stamps(self):
        """What tells whether a file of the web was written."""
        return {path: stamp_of(path) for path in self.members}

    def fail(self, error):
        """A fault of the server itself, which must not make the web look faultless."""
        self.faults, self.groups, self.rest = [], [], []
        self.trouble = 'retangle-lsp failed: %r' % error

    def stumble(self, why):
        """Says why retangle does not answer, unless that was said."""
        if why != self.trouble:
            self.trouble = why
            self.say('%s: %s' % (shown(self.roles.web), why))

    def asked(self, question):
        """The answer of retangle, or None where there is none; then the user is shown why."""
        if self.is_silent():
            return None
        try:
            answer = question()
            self.trouble = None
            return answer
        except (Refused, Unreadable):
            pass                        # a fault of its file, or one that was never saved
        except Ended as ended:
            self.stumble_at(ended)
        finally:
            for notice in self.retangle.notices:
                self.say('%s: %s' % (shown(self.roles.web), notice), again=True)
            self.retangle.notices = []
        return None

    def refresh(self):
        """Brings retangle to the files as they are now, and takes the faults that it finds."""
        self.faults = []
        if self.retangle is None and not self.is_silent():
            self.start()
        if self.retangle is not None:
            self.asked(self.retangle.refresh)
            self.faults = self.asked(self.retangle.faults) or []

    def refusals(self):
        """The files whose texts were not taken and are still the same, each with the reason."""
        refused = self.retangle.refused if self.retangle else {}
        return [(name, self.retangle.reasons[name]) for name, text in refused.items()
                if text is not None and self.root.text(name) is text]

    def is_over(self):
        """Whether retangle has ended, so that it has to be started again."""
        run = self.retangle and self.retangle.run
        return bool(run) and (run.is_over or run.process.poll() is not None) and (
            not self.is_silent())

    def is_silent(self):
        """Whether retangle gave no answer on the files as they are."""
        if self.unanswered is not None and self.unanswered != self.stamps():
            self.unanswered = None
        return self.unanswered is not None

    def end(self):
        if self.retangle:
            self.retangle.kill()
        self.retangle = None

    # ------------------------------------------------------------------ files and names

    def file(self, name):
        """The text of a file: as retangle has it, or else as it is open or on the disk."""
        return self.retangle.held.get(name) if self.retangle else self.root.text(name)

    def line(self, name, row):
        text = self.file(name)
        return text.lines[row] if text and 0 <= row < len(text.lines) else b''

    def path(self, name):
        return path_in(self.root.folder, name)

    def uris(self, uri_of):
        """Gives the URI of a file by its name. Each is looked up once."""
        return functools.lru_cache(None)(lambda name: uri_of(self.path(name)))

    def files_at(self, path):
        """The names by which the web has a file."""
        if self.retangle:
            return self.retangle.names(path)
        return [name for name in self.names().parts if self.path(name) == path]

    def names(self):
        """The names of the web, which are found again where a file is another one."""
        now = dict(self.retangle.held) if self.retangle else None
        if self.known is None or now is None or not is_same(now, self.known_of):
            self.known = Names(self.file, self.roles.web, self.roles.change, self.known)
            self.known_of = now
        return self.known

    # ------------------------------------------------------------------ faults

    def fold(self, typed=None):
        """The faults as groups. `typed` is the path, the row and the column after what was typed
        last: while that is in a name, what follows from it is not shown."""
        now = {(fault.severity, fault.text) for fault in self.faults}
        found = self.typed_name(*typed) if typed and self.faults else None
        begins = found and (typed[0], self.names().places(found)[0])
        if begins is None or begins != self.typed_at:
            self.usual = now if begins is None or self.before is None else self.before
        self.typed_at, self.before = begins, now
        self.groups, self.rest = [], []
        if not self.faults:
            return
        faults = self.first_faults(*(typed or (None, None))[:2])
        folding = Folding(self.names(), self.roles_there(), self.line, found)
        self.groups = folding.fold(faults)
        for group in self.groups:
            group.text = folding.message(group) + self.why_missing(group)
        if found:
            self.rest = [fault for fault in self.rest if self.is_usual(fault)]
            self.groups = [group for group in self.groups if group.name == found.occurrence.text
                           or any(self.is_usual(fault) for fault, _, _ in group.members)]
            for group in self.groups:
                group.is_typed = group.name == found.occurrence.text

    def first_faults(self, path, row):
        """The faults that are shown at their places: the first ones, and those where one types. The
        others are the rest."""
        if len(self.faults) <= MOST_FAULTS:
            return self.faults
        files = self.files_at(path) if path else []
        here = [fault for fault in self.faults[MOST_FAULTS:]
                if fault.file in files and fault.line == row + 1][:MOST_FAULTS]
        shown_here = set(map(id, here))
        self.rest = [fault for fault in self.faults[MOST_FAULTS:] if id(fault) not in shown_here]
        return self.faults[:MOST_FAULTS] + here

    def why_missing(self, group):
        """What is said of an included file that is there, but cannot be read."""
        text = group.members[0][0].text
        is_about = group.code == 'include-missing' and self.retangle is not None
        why = is_about and self.retangle.unreadable.get(text[len(MISSING_FILE):])
        return ' (%s)' % why if why else ''

    def is_usual(self, fault):
        return (fault.severity, fault.text) in self.usual

    def typed_name(self, path, row, column):
        """The name in which or after which something was typed."""
        files = self.files_at(path)
        names = self.names()
        return (names.found_at(files, row, column)
                or (column and names.found_at(files, row, column - 1)) or None)

    def roles_there(self):
        return [self.roles.web] + [self.roles.change] * (self.roles.change is not None)

    def diagnostics(self, uri_of):
        """The diagnostics of each file that has some, by its URI."""
        found, of_file = {}, self.uris(uri_of)
        for group in self.groups:
            found.setdefault(of_file(group.file), []).append(self.diagnostic(group, of_file))
        for name, why in self.refusals():
            found.setdefault(of_file(name), []).append({
                'range': self.range((name, 0, 0), (name, 0, len(self.line(name, 0)))),
                'severity': ERROR, 'source': SOURCE, 'code': 'not-taken', 'message': why,
                'data': {'faults': ['%s:1: error: %s' % (shown(name), why)]}})
        if self.rest:
            file = self.rest[0].file or self.roles.web
            found.setdefault(of_file(file), []).append(self.diagnostic_of_rest(file))
        if self.trouble is not None:
            found.setdefault(of_file(self.roles.web), []).insert(0, unchecked(
                self.line(self.roles.web, 0), self.trouble))
        for uri, these in self.remarks.diagnostics(of_file).items() if self.remarks else ():
            found.setdefault(uri, []).extend(these)
        return found

    def diagnostic(self, group, of_file):
        made = {'range': self.range(*group.places), 'severity': group.severity, 'source': SOURCE,
                'code': group.code, 'message': group.text, 'data': {'faults': group.lines()}}
        related = [] if group.is_typed else group.related()
        if related:
            made['relatedInformation'] = [
                {'location': self.location(places, of_file), 'message': text}
                for places, text in related]
        return made

    def diagnostic_of_rest(self, file):
        """One diagnostic of all faults that are not shown at their places, at the first of them."""
        row = (self.rest[0].line or 1) - 1
        has_error = any(fault.severity == 'error' for fault in self.rest)
        return {'range': self.range((file, row, 0), (file, row, len(self.line(file, row)))),
                'severity': ERROR if has_error else WARNING, 'source': SOURCE, 'code': MORE,
                'message': '%d more faults; they are shown when there are fewer' % len(self.rest),
                'data': {'faults': [shown(fault_line(fault)) for fault in self.rest]}}

    def range(self, start, end):
        """The range between two places of a file."""
        return {'start': self.position(*start), 'end': self.position(*end)}

    def position(self, name, row, column):
        return position(self.line(name, row), row + 1, column)

    def location(self, places, of_file):
        return {'uri': of_file(places[0].file), 'range': self.range(*places)}


def unchecked(line, why):
    """The diagnostic of a web that could not be checked, on its first line."""
    return {'range': {'start': position(line, 1, 0), 'end': position(line, 1, len(line))},
            'severity': ERROR, 'source': SOURCE, 'code': 'not-checked',
            'message': 'this web is not checked: ' + why, 'data': {'faults': []}}


def stamp_of(path):
    """What tells whether a file was written."""
    try:
        status = os.stat(path)
    except OSError:
        return None
    return status.st_dev, status.st_ino, status.st_mtime_ns, status.st_size


def is_same(one, other):
    """Whether two tables of files have the same texts, which are not compared by their lines."""
    return other is not None and len(one) == len(other) and all(
        name in other and other[name] is text for name, text in one.items())
