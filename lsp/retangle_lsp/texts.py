"""What an editor shows in a text or selects in it: tokens, links, section numbers, and ranges."""
import os

from . import tokens
from .documents import position
from .files import INCLUSION
from .requests import in_webs, sections_of, spots

MOST_KEPT = 8           # files of which the last tokens are kept, so that only what differs is sent


def web_with(workspace, path):
    """A web that has a file, its name there and its text; that in which most of it is read."""
    found = [(web, name) for web in workspace.webs_of(path) for name in web.files_at(path)[:1]]
    if not found:
        return None
    web, name = max(found, key=lambda one: (one[0].roles.change is None) == (
        one[0].roles.change != one[1]))
    return web, name, web.file(name)


class Tokens:
    """The semantic tokens of files, and what was sent of them last."""

    def __init__(self):
        self.sent, self.number = {}, 0  # path: the id and the numbers

    def data(self, workspace, path, start=0, end=None):
        found = web_with(workspace, path)
        if not found:
            return []
        web, name, text = found
        end = len(text.lines) if end is None else min(end, len(text.lines))
        return tokens.encoded(tokens.tokens_of(web, name, start, end))

    def full(self, workspace, path):
        data = self.data(workspace, path)
        return dict(self.keep(path, data), data=data)

    def delta(self, workspace, path, previous):
        known, old = self.sent.get(path, (None, None))
        if known is None or known != previous:
            return self.full(workspace, path)
        data = self.data(workspace, path)
        made = tokens.difference(old, data)
        is_other = made['deleteCount'] or made['data']
        return dict(self.keep(path, data), edits=[made] if is_other else [])

    def keep(self, path, data):
        self.number += 1
        self.sent.pop(path, None)
        self.sent[path] = str(self.number), data
        while len(self.sent) > MOST_KEPT:
            del self.sent[next(iter(self.sent))]
        return {'resultId': str(self.number)}


# ---------------------------------------------------------------------- inclusions

def inclusions(workspace, path):
    """The inclusions of a file: the web, the line, its row, the columns and the path that they
    name, which is there."""
    for web in workspace.webs_of(path):
        for name in web.files_at(path)[:1]:
            text = web.file(name)
            for row, included in text.inclusions:
                line = text.lines[row]
                found = INCLUSION.match(line)
                span = found.span(2 if found[1] is None else 1)
                if included and web.root.text(included) is not None:
                    yield web, (name, row), span, os.path.realpath(web.path(included))


def links(workspace, path):
    return in_webs({'range': web.range(*((*place, column) for column in span)),
                    'target': workspace.uri(target)}
                   for web, place, span, target in inclusions(workspace, path))


def included_at(workspace, path, row):
    """The locations of the files that the inclusion in a row names."""
    start = {'line': 0, 'character': 0}
    return in_webs({'uri': workspace.uri(target), 'range': {'start': start, 'end': start}}
                   for _, place, _, target in inclusions(workspace, path) if place[1] == row)


# ---------------------------------------------------------------------- sections

def hints(workspace, path, start, end):
    """The numbers of the sections that begin in these rows, each after its code."""
    made = []
    for web in workspace.webs_of(path)[:1]:
        for title, _, first, _ in sections_of(web, path):
            if start <= first.row <= end:
                line = web.line(first.file, first.row)
                column = min(first.column + 2, len(line))
                made.append({'position': position(line, first.row + 1, column),
                             'label': title.split('.')[0], 'paddingRight': True})
    return made


def selection(workspace, path, place):
    """The ranges around a place, each in the next: the name, the line, the part, the section."""
    spot = next(spots(workspace, path, place), None)
    if spot is None:
        at = dict(zip(('line', 'character'), place))
        return {'range': {'start': at, 'end': at}}
    web, file, names = spot.web, spot.files[0], spot.web.names()
    line = web.line(file, spot.row)
    ranges = [((file, spot.row, 0), (file, spot.row, len(line)))]
    found = names.found_at(spot.files, spot.row, spot.column)
    if found:
        ranges.insert(0, names.places(found))
    for number, first in names.at(spot.files, spot.row):
        at = names.chunks[number].offset(first, spot.column)
        ranges += [tuple(names.place(number, one) for one in span)
                   for span in spans_around(names, number, at)]
        break
    made = None
    for start, end in reversed(nested(ranges)):
        made = {'range': web.range(start, end), **({'parent': made} if made else {})}
    return made


def spans_around(names, number, at):
    """The part and the section of a chunk in which a place is: where they begin and end."""
    text, sections = names.ordered[number].text, names.ordered[number].sections
    starts = [one.start for one in sections if one.start <= at]
    if not starts:
        return
    start = starts[-1]
    end = next((one.start for one in sections if one.start > at), len(text))
    cuts = [start, end]
    for first, last, is_macro in tokens.Parts(text, number == 0).c_parts:
        if start <= first < end:
            cuts += [text.rfind(b'@', start, first), last]
    cuts = sorted(set(cuts))
    part = [one for one in zip(cuts, cuts[1:]) if one[0] <= at < one[1]]
    for first, last in part + [(start, end)]:
        yield first, max(first, last - 1)   # without its last line end


def nested(ranges):
    """The ranges of one file that contain all before them, and more."""
    made = []
    for start, end in map(lambda one: tuple(map(tuple, one)), ranges):
        if start[0] == end[0] and start <= end and (not made or (
                start <= made[-1][0] and made[-1][1] <= end and (start, end) != made[-1])):
            made.append((start, end))
    return made
