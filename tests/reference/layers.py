"""What each layer makes of a web, in the lines of tangle_layers (docs/layers.md).

usage: layers.py FOLDER ARGUMENT..
"""
import io
import sys

import programs
from faults import fault_line, is_error
from graph import PROGRAM, affected
from tangling import Tangling, size_of, text_of

USAGE = b'usage: tangle_layers [flags] web [change [out]] [--and web [change [out]]]\n'

ESCAPES = {10: '\\n', 34: '\\"', 92: '\\\\'}

WITHOUT_VALUE = {'QuoteBreak': 'quote break', 'Blank': 'blank', 'LineEnd': 'line end',
                 'Defs': 'macros'}
TARGETS = {'NoFullName': 'no full name', 'Ambiguous': 'several full names'}


def row(*fields):
    """A line of these fields; one that is False is left out."""
    return ' '.join(str(field) for field in fields if field is not False)


def quoted(text):
    """Bytes in double quotes, as printable ASCII."""
    return '"%s"' % ''.join(map(shown_byte, text))


def shown_byte(byte):
    return ESCAPES.get(byte) or (chr(byte) if 32 <= byte <= 126 else '\\x%02x' % byte)


def shown_place(place):
    return 'nowhere' if place is None else '%s:%d' % (quoted(place[0]), place[1])


class Listing:
    """What is printed of files with roles."""

    def __init__(self, files, roles):
        self.files, self.roles = files, roles
        self.tangling = Tangling(files, roles)
        self.web, self.names = self.tangling.web, self.tangling.names
        self.graph = self.tangling.graph

    def lines(self):
        for part in (self.of_files, self.of_source, self.of_occurrences, self.of_items,
                     self.of_names, self.of_nodes, self.of_outputs):
            yield from part()

    def node(self, node):
        return 'program' if node is PROGRAM else 'name %d' % self.names.numbers[node]

    def of_faults(self, layer):
        for fault in self.tangling.faults_of[layer]:
            yield row('fault', layer, fault.kind, 'error' if is_error(fault) else 'warning',
                      shown_place(fault.place), quoted(fault.subject), fault.count)
            yield '  ' + quoted(fault_line(fault)[:-1])

    def of_files(self):
        yield row('web', quoted(self.roles.web))
        if self.roles.change is not None:
            yield row('change', quoted(self.roles.change))
        yield row('out', quoted(self.roles.out))
        for number, (name, lines) in enumerate(self.files):
            yield row('file', number, quoted(name), len(lines))

    def of_source(self):
        for number, (line, place, is_changed) in enumerate(self.tangling.source):
            yield row('line', number, shown_place(place), is_changed and 'changed', quoted(line))
        yield from self.of_faults('reading')

    def of_occurrences(self):
        yield row('sections', self.web.section_count)
        for number, one in enumerate(self.web.occurrences):
            mark = '@(' if one.is_file else '@<'
            form = 'abbreviated' if one.is_abbreviated else 'full'
            yield row('occurrence', number, shown_place(one.place), one.role, mark, form,
                      quoted(one.text), self.target(number))

    def target(self, occurrence):
        name = self.names.resolved[occurrence]
        return TARGETS[self.names.unresolved[occurrence]] if name is None else self.node(name)

    def of_items(self):
        for number, piece in enumerate(self.web.pieces):
            is_program = piece.occurrence is None
            owner = 'program' if is_program else row('occurrence', piece.occurrence)
            yield row('piece', number, 'section', piece.section, shown_place(piece.place), owner)
            yield from map(self.item, piece.items)
        for number, items in enumerate(self.web.macros):
            yield row('macro', number)
            yield from map(self.item, items)
        if self.web.has_all_macros:
            yield 'macros in pieces'
        yield from self.of_faults('scanning')

    def item(self, item):
        if item.kind in ('Word', 'Sign', 'Quoted', 'Verbatim'):
            span = '%d:%d-%d' % self.web.span(item)
            return '  ' + row(item.kind.lower(), span, quoted(item.value))
        if item.kind == 'LineMark':
            return '  ' + row('line mark', shown_place(item.value))
        if item.kind in ('Code', 'UseOf'):
            return '  ' + row('code' if item.kind == 'Code' else 'use', item.value)
        return '  ' + WITHOUT_VALUE[item.kind]

    def of_names(self):
        names = self.names
        for number, name in enumerate(names.full_names):
            file = name in names.first_file and row('file', names.first_file[name])
            yield row('name', number, quoted(name), 'occurrence', names.first[name], file)
        for text in names.full_names + [b'  ']:
            yield row('find', quoted(text), names.numbers.get(text, 'none'))
        yield from self.of_faults('names')

    def of_nodes(self):
        graph = self.graph
        for node in graph.nodes:
            yield row('node', self.node(node),
                      'weight', graph.weight[node], 'depth', graph.depth[node],
                      bool(graph.pieces[node]) and 'piece',
                      node in graph.expandable and 'expandable',
                      node in graph.self_containing and 'self-containing')
            for used in sorted(graph.uses[node], key=self.names.numbers.get):
                yield '  uses ' + self.node(used)
            for user in graph.users[node]:
                yield '  used by ' + self.node(user)
            is_same = graph.shape(node) == graph.shape(node)
            yield '  same shape as itself' if is_same else '  another shape than itself'
        yield from self.of_faults('graph')

    def of_outputs(self):
        yield row('expanded', len(self.graph.expandable))
        writer = self.tangling.writer()
        for number, output in enumerate(self.tangling.outputs()):
            text = text_of(output, writer)
            yield row('output', number, quoted(output.name), self.node(output.node),
                      output.has_macros and 'macros', output.has_piece and 'piece',
                      'size', size_of(output, writer), 'written', len(text))
            for line in io.BytesIO(text):
                yield '  ' + quoted(line)


def compared(old, new):
    """The lines about two listings, of which the second is of what an edit made of the first."""
    for node in old.graph.nodes:
        is_same = new.graph.shape(node) == old.graph.shape(node)
        is_there = node in new.graph.pieces
        yield row('and', old.node(node), ('same' if is_same else 'changed') if is_there else 'gone')
    found = affected(old.graph, new.graph)
    for node in new.graph.order():
        if node in found:
            yield row('affected', new.node(node), node is not PROGRAM and quoted(node))


def webs_of(arguments):
    """The arguments of each web: those before the first --and, and those after it."""
    if '--and' not in arguments:
        return [arguments]
    at = arguments.index('--and')
    return [arguments[:at], arguments[at + 1:]]


def run(arguments, folder):
    """The status, and what is printed on standard output and standard error."""
    webs = list(map(programs.read_words, webs_of(arguments)))
    if None in webs:
        return 2, b'', USAGE
    try:
        listings = [Listing(*programs.load(names, folder)) for names in webs]
    except programs.LoadFault as fault:
        return 3, b'', fault.line(b'tangle_layers')
    lines = list(listings[0].lines())
    if len(listings) == 2:
        lines += compared(*listings)
    return 0, ''.join(line + '\n' for line in lines).encode(), b''


def main():
    status, listing, errors = run(sys.argv[2:], programs.Folder(sys.argv[1]))
    sys.stdout.buffer.write(listing)
    sys.stderr.buffer.write(errors)
    return status


if __name__ == '__main__':
    sys.exit(main())
