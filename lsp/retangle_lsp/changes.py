"""What changes files at a fault or at an abbreviation: the actions of a client."""
from . import fullnames
from .protocol import decoded, shown
from .renaming import edits_by_uri, inner
from .requests import spots
from .scanning import is_abbreviation, plain_name, written_name

MOST_ACTIONS = 10
MOST_BYTES = 200        # of a line in which the front of a name is sought


def workspace_edit(workspace, edits, has_versions):
    """Edits by URI as the client takes them."""
    if not has_versions:
        return {'changes': edits}
    versions = {uri: document.version for uri, document in workspace.documents.items() if document}
    return {'documentChanges': [
        {'textDocument': {'uri': uri, 'version': versions.get(uri)}, 'edits': these}
        for uri, these in edits.items()]}


# ---------------------------------------------------------------------- actions

def actions(workspace, path, start, end):
    """The actions in a range of a file: each a title, its edits by URI, and whether it mends a
    fault."""
    made = {}
    for web in workspace.webs_of(path):
        files = web.files_at(path)
        for group in web.groups:
            first, last = group.places
            if first.file in files and first.row <= end[0] and last.row >= start[0]:
                for title, edits in group_actions(workspace, web, group):
                    made.setdefault(title, (edits, True))
    for spot in spots(workspace, path, start):
        names = spot.web.names()
        found = names.found_at(spot.files, spot.row, spot.column)
        name = found and names.resolved(found.occurrence.text)
        if name is not None and is_abbreviation(found.occurrence.text):
            edits = written(workspace, spot.web, found, name)
            made.setdefault('Write <%s> in full' % shown(name), (edits, False))
    return [(title, edits, mends) for title, (edits, mends) in made.items() if edits][:MOST_ACTIONS]


def group_actions(workspace, web, group):
    """What can be done at a fault of a name."""
    names, start = web.names(), group.places[0]
    found = names.found_at([start.file], start.row, start.column)
    if not found:
        return
    if group.code == 'name-end':
        yield from ends_of_name(workspace, web, found)
        return
    for name in group.proposals:
        title = 'Write <%s>' if group.code != 'several-full-names' else 'Write <%s> in full'
        yield title % shown(name), written(workspace, web, found, name)
    text = found.occurrence.text
    if group.code == 'no-full-name' and fullnames.is_bare(names, text):
        yield fullnames.action(workspace, web, text)
    if group.code == 'undefined':
        yield ('Define <%s> here' % shown(group.name),
               definition(workspace, web, found, group.name))


def written(workspace, web, found, name):
    """The edit that writes a name in place of another."""
    places = inner(web.names(), found)
    if not places:
        return {}
    made = {(web.root, places): decoded(written_name(name))}
    return edits_by_uri(workspace, made)


def ends_of_name(workspace, web, found):
    """A name without an end becomes one that begins as it does."""
    names = web.names()
    start = names.place(found.chunk, found.occurrence.start + 2)
    rest = web.line(start.file, start.row)[start.column:]
    for length in range(min(len(rest), MOST_BYTES), 0, -1):
        prefix = b'' if rest[:length][-1:].isspace() else plain_name(rest[:length])
        these = [name for name in names.beginning_with(prefix) if name != found.occurrence.text]
        if prefix and these:
            places = start, start._replace(column=start.column + length)
            for name in these[:MOST_ACTIONS]:
                made = {(web.root, places): decoded(written_name(name)) + '@>'}
                yield 'Write <%s>' % shown(name), edits_by_uri(workspace, made)
            return


def definition(workspace, web, found, name):
    """A section that defines a name, after the section in which it is used."""
    names = web.names()
    for number, chunk, section, end in names.sections():
        if number == names.section_of(found):
            _, last = names.extent(chunk, section, end)
            break
    line = web.line(last.file, last.row)
    newline = '\r\n' if line.endswith(b'\r') else '\n'
    text = newline + '@ @<%s@>=' % decoded(written_name(name)) + newline
    column = len(line.rstrip(b'\r'))
    place = last._replace(column=column)
    return edits_by_uri(workspace, {(web.root, (place, place)): text})
