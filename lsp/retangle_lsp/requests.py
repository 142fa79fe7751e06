"""What a client asks of a place in a web, or of all its sections, and does not change."""
import collections
import os
import re

from .changefiles import lines_of_change_file
from .documents import column_of, position
from .protocol import decoded, shown
from .scanning import DEFINITION, MENTION, USE, plain_name, written_name
from .source import changes_of

MOST_C = 40             # lines of C that are shown of a section
MOST_SYMBOLS = 1000     # of a workspace
MOST_ITEMS = 200        # of a completion
MODULE, NAMESPACE, REFERENCE, CHANGE = 2, 3, 18, 24     # kinds of symbols, and of items
READ, WRITE = 2, 3                              # kinds of highlights

OPEN_NAME = re.compile(rb'@[<(](?=((?:[^@]|@@)*)$)')
REST_OF_NAME = re.compile(rb'(?:[^@]|@@)*@>')

Spot = collections.namedtuple('Spot', 'web files row column')
Spot.__doc__ = """A place in a file of a web: the file's names, the row and the bytes before."""


def spots(workspace, path, place):
    """The place in each web that has the file."""
    row, count = place
    for web in workspace.webs_of(path):
        files = web.files_at(path)
        line = web.line(files[0], row) if files else b''
        if files and row < len(web.file(files[0]).lines):
            yield Spot(web, files, row, column_of(line, count))


def named(workspace, path, place):
    """For each web that has a name at a place: the web and the full name."""
    for spot in spots(workspace, path, place):
        line = spot.web.line(spot.files[0], spot.row)
        name = spot.web.names().name_at(spot.files, spot.row, spot.column, line)
        if name is not None:
            yield spot.web, name


def in_webs(found):
    """Values of several webs, each once."""
    return list({repr(one): one for one in found}.values())


# ---------------------------------------------------------------------- places of a name

def located(workspace, path, place, roles):
    """The places, in these roles, of the name that is written at a place of a file."""
    return in_webs(web.location(web.names().places(found), web.uris(workspace.uri))
                   for web, name in named(workspace, path, place)
                   for found in web.names().written(name, roles))


def highlights(workspace, path, place):
    """The places of the name in the same file."""
    made = []
    for web, name in named(workspace, path, place):
        files = web.files_at(path)
        for found in web.names().written(name):
            places = web.names().places(found)
            if places[0].file in files:
                kind = WRITE if found.occurrence.role == DEFINITION else READ
                made.append({'range': web.range(*places), 'kind': kind})
    return in_webs(made)


# ---------------------------------------------------------------------- hover

def hover(workspace, path, place, has_markdown):
    """What is known of the name at a place; None where there is none."""
    for spot in spots(workspace, path, place):
        names = spot.web.names()
        found = names.found_at(spot.files, spot.row, spot.column)
        name = found and names.resolved(found.occurrence.text)
        if name is not None:
            about, code = about_name(spot.web, name), c_of_name(spot.web, name)
            if code and has_markdown:
                code = '```c\n%s\n```' % code
            kind = 'markdown' if has_markdown else 'plaintext'
            if has_markdown:
                about = re.sub(r'([\\`*_<>\[\]])', r'\\\1', about)
            value = about + ('\n\n' + code if code else '')
            return {'contents': {'kind': kind, 'value': value},
                    'range': spot.web.range(*names.places(found))}
    return None


def about_name(web, name):
    """The sections of a name's pieces and those that use it."""
    names = web.names()
    pieces, uses, mentions = (
        list(dict.fromkeys(names.section_of(found) for found in names.written(name, {role})))
        for role in (DEFINITION, USE, MENTION))
    parts = ['section %s' % listed(pieces) if pieces else 'not defined']
    if len(pieces) > 1:
        parts.append('%d pieces' % len(pieces))
    parts.append('used in %s' % listed(uses) if uses else 'never used')
    if mentions:
        parts.append('mentioned in %s' % listed(mentions))
    return '<%s>: %s' % (shown(name), ', '.join(parts))


def listed(numbers):
    text = ', '.join(map(str, numbers[:12]))
    return text + (' and %d more' % (len(numbers) - 12) if len(numbers) > 12 else '')


def c_of_name(web, name):
    """The C that a name gives, without line marks and not too long, as a text; empty where none is
    written."""
    names = web.names()
    numbers = [names.section_of(found) for found in names.written(name, {DEFINITION})]
    for output in outputs(web) if numbers else ():
        text = web.asked(lambda: web.retangle.show(output)) or b''
        mark = b'/*%d:*/' % numbers[0]
        start = text.find(mark) + len(mark)
        end = text.find(b'/*:%d*/' % numbers[-1], start)
        if len(mark) <= start <= end:
            return shown(b'\n'.join(without_marks(text[start:end])))
    return ''


def without_marks(text):
    lines = [line for line in text.split(b'\n')[:10 * MOST_C]
             if line.strip() and not line.startswith(b'#line ')]
    return lines[:MOST_C - 1] + [b'...'] if len(lines) > MOST_C else lines


def outputs(web):
    """The names of the output files that a web writes, the main file first."""
    if web.retangle is None:
        return []
    names, found = web.names(), [web.retangle.main]
    for number, scan in enumerate(names.ordered):
        text = names.chunks[number].text
        found += [names.resolved(one.text) for one in scan.occurrences
                  if text.startswith(b'(', one.start + 1)]
    return [name for name in dict.fromkeys(found) if name is not None
            and web.asked(lambda: web.retangle.show(name)) is not None]


# ---------------------------------------------------------------------- sections

def sections_of(web, path):
    """The sections of a file: title, whether it is starred, and the first and last places."""
    names, files = web.names(), web.files_at(path)
    for number, chunk, section, end in names.sections():
        if any(part.file in files for part in names.chunks[chunk].parts):
            first, last = names.extent(chunk, section, end)
            if first.file in files:
                title = shown(names.title(number, chunk, section))[:80]
                yield title, section.is_starred, first, last


def document_symbols(workspace, path, uri, is_hierarchical):
    made = [*changes_shown(workspace, path)]
    for web in workspace.webs_of(path)[:1]:
        for title, is_starred, first, last in sections_of(web, path):
            whole, line = (web.range(first._replace(column=0) if first != one else first,
                                     one._replace(column=len(web.line(one.file, one.row))))
                           for one in (last, first))
            whole['start'] = line['start']
            made.append({'name': title, 'kind': MODULE if is_starred else NAMESPACE,
                         'range': whole, 'selectionRange': line})
    if is_hierarchical:
        return made
    return [{'name': one['name'], 'kind': one['kind'],
             'location': {'uri': uri, 'range': one['range']}} for one in made]


def changes_shown(workspace, path):
    """The changes of a change file, each by its first old line."""
    lines = lines_of_change_file(workspace, path) or []
    for change in changes_of(lines):
        last = min(change.end, len(lines) - 1)
        whole, first = (
            {'start': position(lines[start], start + 1, 0),
             'end': position(lines[end], end + 1, len(lines[end]))}
            for start, end in ((change.start, last), (change.row, change.row)))
        yield {'name': shown(change.old[0].strip())[:80], 'kind': CHANGE,
               'range': whole, 'selectionRange': first}


def workspace_symbols(workspace, query):
    """The definitions of names that have the text of the query in them."""
    wanted, made = query.lower(), []
    for web in workspace.webs.values():
        names, of_file = web.names(), web.uris(workspace.uri)
        for name in names.full_names:
            if wanted not in shown(name).lower():
                continue
            for found in names.written(name, {DEFINITION}):
                location = web.location(names.places(found), of_file)
                made.append({'name': shown(name), 'kind': NAMESPACE, 'location': location,
                             'containerName': 'section %d' % names.section_of(found)})
            if len(made) >= MOST_SYMBOLS:
                return made[:MOST_SYMBOLS]
    return in_webs(made) if len(workspace.webs) > 1 else made


def folding_ranges(workspace, path):
    """The lines of each section, and of each change, that has more than one."""
    made = [{'startLine': change.start, 'endLine': change.end}
            for change in changes_of(lines_of_change_file(workspace, path) or [])]
    for web in workspace.webs_of(path)[:1]:
        made += [{'startLine': first.row, 'endLine': last.row}
                 for _, _, first, last in sections_of(web, path) if last.row > first.row]
    return made


# ---------------------------------------------------------------------- completion

def completion(workspace, path, place):
    """The section names that may be meant after a code that begins one."""
    for spot in spots(workspace, path, place):
        line = spot.web.line(spot.files[0], spot.row)
        found = OPEN_NAME.search(line[:spot.column])
        if found:
            return {'isIncomplete': True, 'items': items(spot, line, found)}
    return {'isIncomplete': False, 'items': []}


def items(spot, line, found):
    """The names that begin as what is typed, those that are used most first; then those that have
    it in them."""
    names, start = spot.web.names(), found.end()
    typed = plain_name(found[1]).removesuffix(b'...')
    here = names.found_at(spot.files, spot.row, found.start())
    rest = REST_OF_NAME.match(line, spot.column)
    place = start, rest.end() if rest else spot.column
    counts, ranked = names.counts(), []
    for name in names.full_names:
        at = name.lower().find(typed.lower())
        is_this = here is not None and name == here.occurrence.text
        if at >= 0 and not (is_this and names.written(name) == [here]) and (
                found[0] == b'@<' or is_file(names, name)):
            ranked.append((at > 0, -counts[name], name))
    edited = spot.web.range(*((spot.files[0], spot.row, column) for column in place))
    return [item(name, counts[name], number, edited)
            for number, (_, _, name) in enumerate(sorted(ranked)[:MOST_ITEMS])]


def is_file(names, name):
    return any(names.chunks[one.chunk].text.startswith(b'(', one.occurrence.start + 1)
               for one in names.written(name))


def item(name, uses, number, edited):
    return {'label': shown(name), 'kind': REFERENCE, 'sortText': '%05d' % number,
            'filterText': shown(name), 'detail': '%d use%s' % (uses, '' if uses == 1 else 's'),
            'textEdit': {'range': edited, 'newText': decoded(written_name(name)) + '@>'}}


# ---------------------------------------------------------------------- from a line to its C

def place_of_c(workspace, path, row):
    """The output, its row and its bytes that are nearest to a row of a file; what is after the row
    is nearer than what is before it. None where there is no C of the file."""
    for web in workspace.webs_of(path):
        found = web.retangle and web.asked(lambda: nearest(web, web.files_at(path), row + 1))
        if found:
            return found
    return None


def nearest(web, files, number):
    best = None
    for output in outputs(web):
        text = web.retangle.show(output)
        rows = text.split(b'\n')
        for row, origin in enumerate(web.retangle.origins(output)):
            if origin and origin[0] in files and not rows[row].startswith(b'#line '):
                distance = origin[1] - number
                key = (not rows[row].strip(), distance < 0, abs(distance))
                if best is None or key < best[0]:
                    best = key, output, row, text
    return best and best[1:]


def copy_of(folder, output, text):
    """A file with the bytes of an output, which cannot be written."""
    path = os.path.join(os.fsencode(folder), output.replace(b'/', b'_'))
    if os.path.exists(path):
        os.remove(path)
    with open(path, 'wb') as file:
        file.write(text)
    os.chmod(path, 0o444)
    return path
