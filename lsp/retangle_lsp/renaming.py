"""Renaming a section in all webs that have one of its files, and through their change files: where
a change takes a line that gets the new name, its old line gets it, too."""
import functools
import os

from .changefiles import Traced
from .documents import position
from .files import path_in, text_of
from .names import Names, Place
from .protocol import REQUEST_FAILED, Problem, decoded, encoded, shown
from .requests import spots
from .roots import Roles
from .scanning import NAME, is_abbreviation, plain_name, written_name


def inner(names, found):
    """The places between which a name is written, without its codes; None where it is in two
    files."""
    text = names.chunks[found.chunk].text
    written = NAME.match(text, found.occurrence.start)
    start, end = (names.place(found.chunk, at) for at in written.span(1))
    return (start, end) if start.file == end.file and start <= end else None


class Reading:
    """The names of a web and its changes, whether one of its files is open or not."""

    def __init__(self, root, roles, before=None, files=None):
        self.root, self.roles = root, roles
        self.names = Names(files or root.text, roles.web, roles.change, before)
        self.traced = Traced(files or root.text, roles.web, roles.change)

    def found(self):
        """What all names are, and how the changes end."""
        return [(one.role, self.names.resolved(one.text) or one.text)
                for scan in self.names.ordered for one in scan.occurrences], self.traced.outcome()

    def described(self):
        change = self.roles.change
        return shown(self.roles.web) + (' with ' + shown(change) if change else '')


def to_rename(workspace, path, place):
    """The web, the places without codes and the full name at a place, or None."""
    for spot in spots(workspace, path, place):
        names, files = spot.web.names(), spot.files
        found = names.found_at(files, spot.row, spot.column)
        name = found and names.resolved(found.occurrence.text)
        if name is not None and inner(names, found):
            return spot.web, inner(names, found), name
        found = in_taken_line(spot) if spot.web.roles.change is not None else None
        if found:
            return found
    return None


def in_taken_line(spot):
    """The same where the place is in a line that a change takes, or in the old line for that: what
    the web has there without its changes."""
    roles, row, file = spot.web.roles, spot.row, spot.files[0]
    if roles.change in spot.files:
        traced = Traced(spot.web.root.text, roles.web, roles.change)
        file, row = traced.place_of(spot.row) or (None, None)
    names = Reading(spot.web.root, Roles(roles.web, None, None), spot.web.names()).names
    found = names.found_at([file], row, spot.column) if file is not None else None
    name = found and names.resolved(found.occurrence.text)
    if name is None or not inner(names, found):
        return None
    return spot.web, tuple(
        Place(spot.files[0], spot.row + one.row - row, one.column)
        for one in inner(names, found)), name


def prepare_rename(workspace, path, place):
    found = to_rename(workspace, path, place)
    if not found:
        return None
    web, places, name = found
    return {'range': web.range(*places), 'placeholder': shown(name)}


def rename(workspace, path, place, new):
    """The edits of a renaming, by URI: each place of the name gets the new one in full."""
    found = to_rename(workspace, path, place)
    if not found:
        raise Problem(REQUEST_FAILED, 'no section name is here')
    name, new = found[2], name_given(new)
    made, paths, seen, readings = {}, {path}, None, {}
    while paths != seen:                # another web may have a file that is changed for this one
        seen = set(paths)
        for web in webs_with(workspace, seen, readings):
            check_renaming(web, name, new)
            for one in web.names.written(name):
                places = inner(web.names, one)
                if places is None:
                    raise Problem(REQUEST_FAILED, 'the name is written in two files at once')
                made[web.root, places] = decoded(written_name(new))
                paths.add(path_in(web.root.folder, places[0].file))
    through_changes(readings.values(), made)
    check_readings(readings.values(), made, lambda one: new if one == name else one)
    return edits_by_uri(workspace, made)


def name_given(new):
    new = plain_name(written_name(encoded(new)))
    if not new or is_abbreviation(new):
        raise Problem(REQUEST_FAILED, 'this is no name of a section')
    return new


def webs_with(workspace, paths, readings):
    """The webs that have one of these files, open or not, with and without the change files that
    are beside them. The readings are kept by folder and roles."""
    opened = {document.path for document in workspace.documents.values() if document}
    for top in workspace.tops.values():
        named = workspace.webs_in(top, opened)
        these = {key: None for key, members in named.items() if members & paths}
        for folder, web in {(folder, roles.web): None for folder, roles in these}:
            these[folder, Roles(web, None, None)] = None
            path = path_in(folder, web)
            for change in top.pairs.beside(path, [
                    os.path.join(folder, roles.web) for folder, roles in named]):
                roles = Roles(web, os.path.relpath(change, folder), None)
                if not any(one.web == web and one.change == roles.change and where == folder
                           for where, one in these):
                    these[folder, roles] = None
        for folder, roles in these:
            if (folder, roles) not in readings:
                known = workspace.webs.get((folder, roles))
                readings[folder, roles] = Reading(top.root(folder), roles,
                                                  known and known.names())
            yield readings[folder, roles]


def check_renaming(web, name, new, short=()):
    """Refuses what would change the meaning of other names than this, and than those in short."""
    names = web.names
    if new != name and new in names.names:
        raise Problem(REQUEST_FAILED, 'there is a section <%s>' % shown(new))
    for text in names.abbreviations:
        if new.startswith(text[:-3]) and names.resolved(text) != name and text not in short:
            raise Problem(REQUEST_FAILED, '<%s> would be <%s>, too' % (shown(text), shown(new)))
    lines = web.root.lines(web.roles.change) if web.traced.changes else []
    for change in web.traced.changes:
        text = b'\n'.join(lines[change.row:change.end])
        for written in NAME.finditer(text):
            if names.resolved(plain_name(written[1])) == name:
                line = change.row + text.count(b'\n', 0, written.start()) + 1
                raise Problem(REQUEST_FAILED, 'the name is in the change file %s, at line %d, in a '
                              'change that is not used' % (shown(web.roles.change), line))


# ---------------------------------------------------------------------- change files

def through_changes(readings, made):
    """Adds to the edits those of the old lines that have the same text as an edited line."""
    for web in readings:
        for use in web.traced.used:
            rows = {place: at for at, place in enumerate(use.taken)
                    if web.traced.is_same(use, at)}
            for (root, places), text in list(made.items()) if rows else ():
                copied = in_change(web, use.change, rows, *places) if root is web.root else None
                if copied:
                    made[root, copied] = text


def in_change(web, change, rows, start, end):
    """The places in the old lines of a change that have the text between two places of the web;
    None where the change does not take it."""
    numbers = [rows.get((start.file, row)) for row in range(start.row, end.row + 1)]
    if all(number is None for number in numbers):
        return None
    first = numbers[0]
    if first is None or numbers != list(range(first, first + len(numbers))):
        why = 'the change at line %d of %s takes a part of the name alone'
        raise Problem(REQUEST_FAILED, why % (change.start + 1, shown(web.roles.change)))
    return tuple(Place(web.roles.change, change.row + one.row - start.row + first, one.column)
                 for one in (start, end))


def check_readings(readings, made, renamed):
    """Refuses edits after which a web would have other names than those that are renamed, or a
    change would match other lines."""
    texts = edited_texts(made)
    for web in readings:
        def files(name, root=web.root):
            return texts.get((root, name)) or root.text(name)
        after = Reading(web.root, web.roles, web.names, files).found()
        names, outcome = web.found()
        if after != ([(role, renamed(name)) for role, name in names], outcome):
            raise Problem(REQUEST_FAILED, 'the names or the changes of %s would not be the same '
                          'but for the new name' % web.described())


def edited_texts(made):
    """The texts after the edits, by root and name."""
    lines = {}
    for (root, (start, end)), text in sorted(
            made.items(), key=lambda one: one[0][1][0][1:], reverse=True):
        key = root, start.file
        if key not in lines:
            lines[key] = list(root.lines(start.file))
        these = lines[key]
        these[start.row:end.row + 1] = [these[start.row][:start.column] + encoded(text)
                                        + these[end.row][end.column:]]
    return {key: text_of(these, None, key[0].text(key[1])) for key, these in lines.items()}


def edits_by_uri(workspace, made):
    uri_of = functools.lru_cache(None)(
        lambda folder, name: workspace.uri(path_in(folder, name)))
    found = {}
    for (root, (start, end)), text in made.items():
        lines = root.lines(start.file)
        span = {key: position(lines[place.row], place.row + 1, place.column)
                for key, place in (('start', start), ('end', end))}
        edit = {'range': span, 'newText': text}
        found.setdefault(uri_of(root.folder, start.file), {})[repr(edit)] = edit
    return {uri: list(edits.values()) for uri, edits in found.items()}
