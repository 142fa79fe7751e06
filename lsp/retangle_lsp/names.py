"""The sections and the names of a web, found again after each change where the text is another."""
import bisect
import collections
import functools
import heapq
import itertools
import operator
import re

from .files import common_back, common_front
from .scanning import NAME, USE, Scan, is_abbreviation, is_unended, plain_name
from .source import chunks_of

Place = collections.namedtuple('Place', 'file row column')
Place.__doc__ = """A place in a file of the web: the row from 0 on, and the bytes before it."""

Found = collections.namedtuple('Found', 'chunk occurrence')
Found.__doc__ = """An occurrence of a name, and the number of the chunk that it is in."""

NEAREST, NEAR = 3, .5           # how many near names are offered, and how near they have to be
MOST_COMPARED = 100             # names for which the near ones are kept


class Meanings:
    """What the names of a web resolve to, which stays while these are the same."""

    def __init__(self, names, abbreviations):
        self.names, self.abbreviations = names, abbreviations
        self.ordered = sorted(names)
        self.shorts = {}                # the abbreviations of a full name
        self.by_short = {}
        for text in abbreviations:
            at = bisect.bisect_left(self.ordered, text[:-3])
            found = [one for one in self.ordered[at:at + 2] if one.startswith(text[:-3])]
            if len(found) == 1:
                self.shorts.setdefault(found[0], []).append(text)
                self.by_short[text] = found[0]


class Names:
    """The names of a web. `files` gives the text of a file by its name, or None. What is the same
    as before is taken from there."""

    def __init__(self, files, web, change, before=None):
        self.chunks = chunks_of(files, web, change)
        self.texts = [chunk.text for chunk in self.chunks]
        self.ordered = self.scans(before)
        self.names = set().union(*(scan.full_names for scan in self.ordered))
        self.abbreviations = set().union(*(scan.abbreviations for scan in self.ordered))
        if before and (self.names, self.abbreviations) == (before.names, before.abbreviations):
            self.meanings = before.meanings
        else:
            self.meanings = Meanings(self.names, self.abbreviations)
        self.full_names = self.meanings.ordered

    def scans(self, before):
        """The scan of each chunk. The first one begins elsewhere and is no scan of another."""
        old, known = (before.texts, before.ordered) if before else ([], [])
        front = common_front(old, self.texts)
        most = min(len(old), len(self.texts)) - max(front, 1)
        back = max(0, min(common_back(old, self.texts, front), most))
        made = [Scan(text, number == 0) for number, text in enumerate(
            self.texts[front:len(self.texts) - back], front)]
        return known[:front] + made + known[len(old) - back:]

    @functools.cached_property
    def first_numbers(self):
        """The number of the sections that come before each chunk."""
        counts = (len(scan.sections) for scan in self.ordered)
        return [0, *itertools.accumulate(counts)]

    @functools.cached_property
    def parts(self):
        """For each file its parts in order: the start, the end, the chunk and the row in that."""
        found = {}
        for number, chunk in enumerate(self.chunks):
            row = 0
            for file, _, start, end in chunk.parts:
                found.setdefault(file, []).append((start, end, number, row))
                row += end - start
        return found

    @functools.cached_property
    def read_once(self):
        """The files of which each line is at most once among the source lines, in their order."""
        return {file for file, parts in self.parts.items()
                if all(map(operator.lt, parts, parts[1:]))}

    # ------------------------------------------------------------------ full names

    def beginning_with(self, prefix):
        """The full names that begin with some bytes."""
        start, end = between(self.full_names, prefix)
        return self.full_names[start:end]

    def resolved(self, name):
        """The full name that a name resolves to; None if there is none or several."""
        if not is_abbreviation(name):
            return name
        return self.meanings.by_short.get(name)

    @functools.cached_property
    def chunks_of_text(self):
        """For each text of a name the chunks that have exactly this text, in their order."""
        found = {}
        for number, scan in enumerate(self.ordered):
            for text in scan.texts:
                found.setdefault(text, []).append(number)
        return found

    def found_as(self, text):
        """Where the web has exactly this text of a name, in its order."""
        return [Found(number, one) for number in self.chunks_of_text.get(text, ())
                for one in self.ordered[number].by_text[text]]

    def written(self, name, roles=None):
        """Where a full name is written in these roles, in full or abbreviated."""
        found = self.found_as(name)
        short = self.meanings.shorts.get(name, ())
        for text in short:
            found += self.found_as(text)
        if short:
            found.sort(key=lambda one: (one.chunk, one.occurrence.start))
        return [one for one in found if roles is None or one.occurrence.role in roles]

    def found_in(self, chunk, role=None):
        """The occurrences in a chunk, in one role or in all."""
        return [Found(chunk, one) for one in self.ordered[chunk].occurrences
                if role in (None, one.role)]

    def counts(self):
        """How often each full name is used."""
        uses = collections.Counter(one.text for scan in self.ordered for one in scan.occurrences
                                   if one.role == USE)
        found = collections.Counter()
        for text, count in uses.items():
            found[self.resolved(text)] += count
        return found

    @functools.cached_property
    def defined(self):
        """The full names that have a definition."""
        return {self.resolved(name) for scan in self.ordered for section in scan.sections
                for name in section.names} - {None}

    def nearest(self, name):
        """The full names that are most like a name, which may be an abbreviation: it is compared
        with as much of them as it has."""
        found = (one for one in likely(name, self.defined)
                 if one[1] in self.defined and one[1] != name)
        return [other for _, other in heapq.nsmallest(NEAREST, found)]

    # ------------------------------------------------------------------ places

    def at(self, files, row):
        """The chunks that a row of a file is in, and the row in each. The file has these names."""
        for file in files:
            parts = self.parts.get(file, [])
            if file in self.read_once:
                at = bisect.bisect_left(parts, (row + 1,))
                parts = parts[max(at - 1, 0):at]
            for start, end, number, first in parts:
                if start <= row < end:
                    yield number, first + row - start

    def found_at(self, files, row, column):
        """The occurrence that is written at a column of a row of a file; else None."""
        for number, first in self.at(files, row):
            at = self.chunks[number].offset(first, column)
            these = self.ordered[number].occurrences
            before = bisect.bisect_left(these, (at + 1,))       # as many begin there, or before it
            if before and at < these[before - 1].end:
                return Found(number, these[before - 1])
        return None

    def name_at(self, files, row, column, line):
        """The full name at a place; also where its line was not read as C or as documentation,
        since a change takes it."""
        found = self.found_at(files, row, column)
        if found:
            return self.resolved(found.occurrence.text)
        for written in NAME.finditer(line):
            if written.start() <= column < written.end():
                return self.resolved(plain_name(written[1]))
        return None

    def place(self, chunk, at):
        return Place(*self.chunks[chunk].place(at))

    def places(self, found):
        """Where an occurrence begins and ends; it ends with the line if the rest is elsewhere, and
        if its closing code is missing."""
        start, end = (self.place(found.chunk, at)
                      for at in (found.occurrence.start, found.occurrence.end))
        if start.file == end.file and start <= end and (
                start.row == end.row or not self.is_unended(found)):
            return start, end
        text = self.chunks[found.chunk].text
        rest = text.index(b'\n', found.occurrence.start) - found.occurrence.start
        return start, start._replace(column=start.column + rest)

    def is_unended(self, found):
        return is_unended(self.chunks[found.chunk].text, found.occurrence)

    # ------------------------------------------------------------------ sections

    def section_of(self, found):
        """The number of the section that an occurrence is in, from 1 on."""
        before = bisect.bisect_left(self.ordered[found.chunk].sections,
                                    (found.occurrence.start + 1,))
        return self.first_numbers[found.chunk] + before

    def sections(self):
        """Each section: its number from 1 on, its chunk, and where it ends in that."""
        for number, scan in enumerate(self.ordered):
            ends = [section.start for section in scan.sections[1:]] + [len(scan.text)]
            for count, (section, end) in enumerate(zip(scan.sections, ends), 1):
                yield self.first_numbers[number] + count, number, section, end

    def title(self, number, chunk, section):
        """What is shown of a section: its names or first words."""
        text = self.chunks[chunk].text
        words = text[section.start + 2:text.find(b'\n', section.start + 1)].strip()
        if text[section.start + 1:section.start + 2] == b'\n':
            words = b''
        if section.is_starred:
            words = re.sub(rb'^\*|^\d+', b'', words).strip().split(b'.')[0]
        elif section.names:
            words = b', '.join(b'<%s>' % (self.resolved(name) or name) for name in section.names)
        elif words.startswith(b'@'):        # no documentation
            words = b''
        return (b'%d. %s' % (number, words)).rstrip()

    def extent(self, chunk, section, end):
        """The first and the last place of a section, the last one in the file of the first."""
        first = self.place(chunk, section.start)
        last = self.place(chunk, max(section.start, end - 1))
        if last.file == first.file and last >= first:
            return first, last
        row = first.row
        for part in self.chunks[chunk].parts:
            if part.file == first.file and part.start <= first.row < part.end:
                row = part.end - 1
        return first, Place(first.file, row, 0)


def between(ordered, prefix):
    """From where to where ordered names begin with some bytes."""
    front, end = prefix.rstrip(b'\xff'), len(ordered)
    if front:
        end = bisect.bisect_left(ordered, front[:-1] + bytes([front[-1] + 1]))
    return bisect.bisect_left(ordered, prefix), end


@functools.lru_cache(1 << 14)
def pairs_of(name):
    text = name.lower()
    return frozenset(zip(text, text[1:]))


def alike(one, other):
    """How alike two names are, from 0 to 1, by the pairs of bytes that they share."""
    first, second = pairs_of(one), pairs_of(other)
    both = len(first) + len(second)
    return 2 * len(first & second) / both if both else float(one == other)


compared = {}                   # name: the names that it was compared with, and those like it


def likely(name, names):
    """The names that are like a name, with how unlike they are. Only those are compared that were
    not before."""
    if len(compared) > MOST_COMPARED:
        compared.clear()
    seen, found = compared.setdefault(name, (set(), set()))
    wanted = name[:-3] if is_abbreviation(name) else name
    for other in names - seen:
        likeness = alike(wanted, other[:len(wanted)] if wanted is not name else other)
        if likeness >= NEAR:
            found.add((1 - likeness, other))
    seen |= names
    return found
