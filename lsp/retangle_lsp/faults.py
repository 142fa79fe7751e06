"""The faults of a web as few diagnostics: all faults of a name are one, and so is what follows from
a name that is misspelt or not finished."""
import bisect
import collections
import functools

from . import unended
from .kinds import kind_of
from .marks import Marker
from .names import alike, between
from .protocol import ERROR, WARNING, shown
from .runs import fault_line
from .scanning import MENTION, USE, is_abbreviation, plain_name

ALIKE = .6              # names that are so alike may be one name that is misspelt
MUCH_ALIKE = .8         # and if one of them may have other text in it
MOST_RELATED = 50       # places that a diagnostic leads to
MOST_IN_ALL = 2000      # places that all diagnostics lead to, where each leads to a few
LEAST_RELATED = 3
MOST_NAMES = 5          # names that a message lists
MOST_SUSPECTS = 20      # names that are causes of other faults; each is compared with all of these
MOST_SOUGHT = 50        # faults for which the nearest names are sought, which takes its time


class Group:
    """Faults that are shown as one: the first of them is marked, the others are related to it."""

    def __init__(self, name):
        self.name = name                # the section name that they are about, or None
        self.members = []               # fault, kind, and where it is marked, or None
        self.kinds = set()              # the names of their kinds
        self.count = 0                  # how often the name is written
        self.rank = None                # see Folding.rank
        self.proposals = []             # full names that may be meant
        self.text = ''                  # the message
        self.is_typed = False           # whether its name is being typed now
        self.more = []                  # places without a fault where the name is written, too
        self.most = MOST_RELATED        # places that this leads to
        self.cause = None               # the text that does not end, of which this is a fault

    def add(self, fault, kind, places):
        self.members.append((fault, kind, places))
        self.kinds.add(kind.name)

    def take(self, group):
        """Takes over the faults of another group."""
        self.members += group.members
        self.kinds |= group.kinds
        group.members, group.kinds = [], set()

    @property
    def is_suspect(self):
        """Whether the name may be none: it is not finished or not defined."""
        return not self.kinds.isdisjoint({'name-end', 'undefined'})

    @property
    def file(self):
        return self.members[0][2][0].file

    @property
    def places(self):
        return self.members[0][2]

    @property
    def severity(self):
        has_error = any(fault.severity == 'error' for fault, _, _ in self.members)
        return ERROR if has_error else WARNING

    @property
    def code(self):
        return self.members[0][1].name

    def lines(self):
        """The lines of retangle that are shown by this."""
        return [shown_line(fault) for fault, _, _ in self.members]

    def related(self):
        """The places that this leads to, each with a text."""
        first = self.members[0][0].text
        found = [(places, fault.text) for fault, _, places in self.members[1:]]
        found += [(places, first) for places in self.more]
        found = dict.fromkeys(one for one in found if one[0] not in (None, self.places))
        return [(places, shown(text)) for places, text in list(found)[:self.most]]


@functools.lru_cache(1 << 16)
def shown_line(fault):
    return shown(fault_line(fault))


class Folding:
    """Makes groups of the faults of a web, which has these names."""

    def __init__(self, names, roles, line_of, typed=None):
        self.names, self.web, self.change = names, roles[0], roles[1] if len(roles) > 1 else None
        self.line_of = line_of          # the bytes of a row of a file
        self.typed = typed              # the occurrence that is being typed
        self.groups, self.by_name = [], {}
        self.suspected = []             # the full names that are suspects, in their order
        self.unended = {}               # what is known of names without an end

    def fold(self, faults):
        marker, counts = Marker(self.names, self.line_of), collections.Counter()
        kinds = [kind_of(fault.text) for fault in faults]
        most = max(LEAST_RELATED, min(MOST_RELATED, MOST_IN_ALL // max(1, len(set(kinds)))))
        for fault, kind in zip(faults, kinds):
            counts[kind] += 1
            is_marked = kind.subject is None or counts[kind] <= most + 1
            places = marker.mark(fault, kind, self.web) if is_marked else None
            self.group_of(kind, places).add(fault, kind, places)
        unended.fold(self.groups, self.by_name, self.names, marker)
        self.groups = [group for group in self.groups if group.members]
        if self.by_name:
            self.fold_consequences()
        for group in self.groups:
            group.most = most
        name = self.typed and self.typed.occurrence.text
        for group in sorted(self.groups, key=lambda one: one.name != name)[:MOST_SOUGHT]:
            self.propose(group)
        return self.groups

    def group_of(self, kind, places):
        """The group of a fault: that of its name, or one of its own."""
        name = kind.subject
        if kind.name in ('name-end', 'name-equals', 'name-in-macro'):
            found = self.names.found_at([places[0].file], places[0].row, places[0].column)
            name = found and found.occurrence.text
        group = self.by_name.get(name)
        if name is None or group is None:
            group = Group(name)
            self.groups.append(group)
            if name is not None:
                self.by_name[name] = group
        return group

    # ------------------------------------------------------------------ consequences

    def fold_consequences(self):
        """Folds what follows from a suspect, which is a name that is not finished, not defined or
        not used, into its group."""
        full = [group for group in self.by_name.values() if not is_abbreviation(group.name)]
        for group in full:
            group.count = len(self.names.written(group.name))
        for group in self.by_name.values():
            group.rank = self.rank(group)
        self.suspected = sorted(group.name for group in full
                                if group.is_suspect and group.name in self.names.names)
        suspects = [group for group in full if group.is_suspect or 'unused' in group.kinds]
        suspects = sorted(suspects, key=lambda one: one.rank)[:MOST_SUSPECTS]
        for group in self.by_name.values():
            cause = next((one for one in suspects if one.members and one.rank <= group.rank
                          and one is not group and self.follows(group, one)), None)
            if cause:
                cause.take(group)
                self.note(cause)
                self.note(group)
        self.groups = [group for group in self.groups if group.members]
        for group in self.by_name.values():
            self.put_first(group)
        unended = [group for group in suspects if group.members and 'name-end' in group.kinds]
        for group in self.groups if unended else ():
            if group.code == 'no-program' and b'@c' in unended[0].name:
                unended[0].take(group)
        self.groups = [group for group in self.groups if group.members]

    def note(self, group):
        """Notes the rank of a group, and whether its name is a suspect now."""
        group.rank = self.rank(group)
        at = bisect.bisect_left(self.suspected, group.name)
        if self.suspected[at:at + 1] == [group.name]:
            del self.suspected[at]
        if group.is_suspect and group.name in self.names.names:
            self.suspected.insert(at, group.name)

    def count_others(self, prefix):
        """How many full names that begin with some bytes are no suspects."""
        (start, end), (first, last) = (
            between(names, prefix) for names in (self.names.full_names, self.suspected))
        return end - start - (last - first)

    def rank(self, group):
        """Which of two names is the cause: that which is being typed, that which is not finished,
        and then that which is written less often."""
        if is_abbreviation(group.name):
            return 9, 0
        is_typed = self.typed is not None and group.name == self.typed.occurrence.text
        first = 0 if is_typed else 1 if 'name-end' in group.kinds else 2
        return first, group.count + ('undefined' not in group.kinds)

    def follows(self, group, cause):
        """Whether the faults of a name follow from those of another."""
        kinds = group.kinds
        if is_abbreviation(group.name):
            prefix = group.name[:-3]
            if 'several-full-names' in kinds:
                return self.is_one_without(prefix, cause)
            return 'no-full-name' in kinds and (
                cause.kinds & {'name-end', 'unused'}
                and alike(prefix, cause.name[:len(prefix)]) >= ALIKE)
        if kinds <= {'begins-another'}:
            is_known = group.name in self.names.names
            return cause.name.startswith(group.name) and (
                self.count_others(group.name) == is_known)
        if 'unused' in kinds and 'name-end' in cause.kinds and self.is_swallowed(group, cause):
            return True
        is_pair = 'undefined' in kinds and cause.kinds & {'unused', 'name-end'} or (
            'unused' in kinds and cause.kinds & {'undefined', 'name-end'})
        return is_pair and self.is_like(group.name, cause)

    def is_like(self, name, cause):
        """Whether a cause may be a misspelt name. One that is not finished has more than the name
        in it: only what is on its first line is compared."""
        if 'name-end' not in cause.kinds:
            return alike(name, cause.name) >= ALIKE
        front = self.unended_of(cause)[0]
        return bool(front) and (name.startswith(front) or alike(name, front) >= MUCH_ALIKE)

    def unended_of(self, cause):
        """Of a name without an end what is on its first line, and for each chunk the first place
        where it is written without one."""
        if cause.name not in self.unended:
            found, starts = self.names.found_as(cause.name), {}
            text, one = self.names.chunks[found[0].chunk].text, found[0].occurrence
            end = min(one.end, text.index(b'\n', one.start))
            for one in filter(self.names.is_unended, found):
                starts.setdefault(one.chunk, one.occurrence.start)
            front = plain_name(text[found[0].occurrence.start + 2:end])
            self.unended[cause.name] = front, starts
        return self.unended[cause.name]

    def is_one_without(self, prefix, cause):
        """Whether an abbreviation would have at most one full name without the suspects."""
        return cause.is_suspect and cause.name.startswith(prefix) and (
            cause.name in self.names.names and self.count_others(prefix) <= 1)

    def is_swallowed(self, group, cause):
        """Whether a name that is never used is written after a name without an end, in its section:
        there it is no use any more."""
        starts = self.unended_of(cause)[1]
        return any(one.occurrence.start > starts.get(one.chunk, one.occurrence.start)
                   for one in self.names.written(group.name, {MENTION}))

    def put_first(self, group):
        """What is shown of a name is a fault of its own, that it is not finished or an error if
        there is one. A name that is being typed is marked where that is done."""
        group.members.sort(key=lambda one: (
            one[1].name != 'name-end', one[1].subject not in (None, group.name),
            one[0].severity != 'error'))
        if self.typed is not None and group.members and group.name == self.typed.occurrence.text:
            fault, kind, _ = group.members[0]
            group.members[0] = fault, kind, self.names.places(self.typed)

    # ------------------------------------------------------------------ what may be meant

    def propose(self, group):
        """Finds the full names that may be meant, and more places of the name."""
        code, name = group.code, group.name
        if code == 'several-full-names':
            group.proposals = self.names.beginning_with(name[:-3])
        elif code in ('undefined', 'no-full-name'):
            group.proposals = self.names.nearest(name)
        elif code == 'unused':          # it may be misspelt where it is defined
            group.proposals = list(dict.fromkeys(
                kind.subject for _, kind, _ in group.members if kind.name == 'undefined'))
        if code == 'undefined':
            uses = self.names.written(name, {USE})[:group.most + 1]
            group.more = [self.names.places(one) for one in uses]

    def message(self, group):
        """The message of retangle for the first fault, and what helps."""
        text, names = shown(group.members[0][0].text) + unended.where(group), group.proposals
        listed = ', '.join('<%s>' % shown(one) for one in names[:MOST_NAMES])
        if len(names) > MOST_NAMES:
            listed += ' and %d more' % (len(names) - MOST_NAMES)
        if group.code == 'several-full-names' and names:
            return '%s: %s' % (text, listed)
        if names:
            return '%s; is it %s?' % (text, listed)
        if group.code == 'change-unused' and self.differs_in_ends(group):
            return text + ': its old lines differ from those of the web in their line ends alone'
        return text

    def differs_in_ends(self, group):
        """Whether the old lines of a change are in the web but for their line ends."""
        start, old = group.places[0], []
        for row in range(start.row + 1, start.row + 1000):
            line = self.line_of(start.file, row)
            if line[:2].lower() in (b'@x', b'@y', b'@z'):
                break
            if old or line.strip():
                old.append(line.rstrip())
        if not old:
            return False
        web, rows = self.lines_without_ends
        at = min(range(len(old)), key=lambda one: len(rows.get(old[one], ())))      # a rare line
        return any(web[max(row - at, 0):row - at + len(old)] == old
                   for row in rows.get(old[at], ()))

    @functools.cached_property
    def lines_without_ends(self):
        """The lines of the web without the white space at their ends, and the rows of each."""
        web = [line.rstrip() for chunk in self.names.chunks for line in chunk.text.split(b'\n')]
        rows = {}
        for row, line in enumerate(web):
            rows.setdefault(line, []).append(row)
        return web, rows
