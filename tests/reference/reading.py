"""Reading: inclusions and changes, from files to source lines (docs/reading.md)."""
from collections import namedtuple

import limits
from faults import Fault

# new: (line, its number in the change file) for each
Change = namedtuple('Change', 'start old new')
# place: (file, line); is_changed: it came from the change file, or a line that did included it
SourceLine = namedtuple('SourceLine', 'line place is_changed')
# A line that is still to be read.
Ahead = namedtuple('Ahead', 'line file number is_changed depth')


class ChangeFile:
    """The changes of a change file's lines that are kept, and the faults (kind, line number)."""

    def __init__(self, lines):
        self.changes, self.faults = [], []
        self.part = 'outside'
        for number, line in enumerate(lines, 1):
            code = line[1:2].lower() if line[:1] == b'@' else b''
            getattr(self, self.part)(code if code in (b'x', b'y', b'z') else b'', line, number)
        if self.part == 'old_part':
            self.faults.append(('MissingY', self.start))
        elif self.part == 'new_part':
            self.faults.append(('MissingZ', self.start))
            self._keep()

    def _begin(self, number):
        self.part, self.start, self.old, self.new = 'old_part', number, [], []

    def _keep(self):
        if self.old:
            self.changes.append(Change(self.start, self.old, self.new))

    def outside(self, code, line, number):
        if code == b'x':
            self._begin(number)
        elif code:
            self.faults.append(('StrayMark', number))

    def old_part(self, code, line, number):
        if code == b'y':
            if not self.old:
                self.faults.append(('EmptyOld', self.start))
            self.part = 'new_part'
        elif code:
            self.faults.append(('MissingY', self.start))
            self.part = 'outside'
            if code == b'x':
                self._begin(number)
        elif self.old or line.strip(limits.WHITE):
            self.old.append(line)

    def new_part(self, code, line, number):
        if code == b'z':
            self._keep()
            self.part = 'outside'
        elif code == b'y':
            self.faults.append(('StrayMark', number))
        elif code == b'x':
            self.faults.append(('MissingZ', self.start))
            self._keep()
            self._begin(number)
        else:
            self.new.append((line, number))


def included_name(line):
    """The name of an inclusion, or None where the line is none."""
    if line[:2] not in (b'@i', b'@I'):
        return None
    rest = line[2:].lstrip(limits.WHITE)
    if rest[:1] == b'"':
        return rest[1:].split(b'"', 1)[0]
    for end, byte in enumerate(rest):
        if byte in limits.WHITE or byte == 34:
            return rest[:end]
    return rest


class Reading:
    """The source lines of files with roles, and the faults of the change file and of reading."""

    def __init__(self, files, roles):
        self.table, self.roles = dict(files), roles
        self.source, self.faults = [], []
        self.changes = []                       # the next one is last
        if roles.change is not None:
            found = ChangeFile(self.table[roles.change])
            self.changes = found.changes[::-1]
            self.faults = [Fault(kind, (roles.change, number)) for kind, number in found.faults]
        self.ahead = []                         # the next line is last
        self._push(roles.web, False, 1)
        self.taken = 0
        while self.ahead and self.taken < limits.LINES_TAKEN:
            self._step(self.ahead[-1])
        if self.ahead:
            self.faults.append(Fault('SourceTooLong', self.ahead[-1][1:3]))
        elif self.changes:
            self.faults.append(Fault('ChangeUnused', (roles.change, self.changes[-1].start)))

    def _push(self, file, is_changed, depth):
        lines = self.table[file]
        for number in range(len(lines), 0, -1):
            self.ahead.append(Ahead(lines[number - 1], file, number, is_changed, depth))

    def _step(self, front):
        if not front.is_changed and self.changes and front.line == self.changes[-1].old[0]:
            self._use(self.changes.pop(), front.depth)
            return
        self.taken += 1
        self.ahead.pop()
        name = included_name(front.line)
        if name is None:
            self.source.append(SourceLine(front.line, front[1:3], front.is_changed))
        elif name == b'':
            self.faults.append(Fault('IncludeNoName', front[1:3]))
        elif name not in self.table:
            self.faults.append(Fault('IncludeMissing', front[1:3], name))
        elif front.depth >= limits.OPEN_FILES:
            self.faults.append(Fault('IncludeTooDeep', front[1:3]))
        else:
            self._push(name, front.is_changed, front.depth + 1)

    def _use(self, change, depth):
        count = min(len(change.old), len(self.ahead))
        taken = [self.ahead.pop().line for _ in range(count)]
        self.taken += count
        wrong = sum(1 for at, line in enumerate(change.old) if at >= count or taken[at] != line)
        if wrong:
            self.faults.append(Fault('ChangeMismatch', (self.roles.change, change.start), b'', wrong))
        for line, number in reversed(change.new):
            self.ahead.append(Ahead(line, self.roles.change, number, True, depth))
