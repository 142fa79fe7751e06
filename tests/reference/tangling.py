"""Plain tangling: the output files and the faults of files with roles (docs/output.md, docs/faults.md)."""
from collections import namedtuple
from functools import cached_property, lru_cache

from faults import Fault, status_of
from files import plain_form
from graph import PROGRAM, Graph
from names import Names
from output import Writer
from reading import Reading
from scanning import Web

# has_macros: all macros begin the file; has_piece: its node has one
Output = namedtuple('Output', 'name node has_macros has_piece')


class Tangling:
    def __init__(self, files, roles):
        self.out, self.marks = roles.out, roles.marks
        reading = Reading(files, roles)
        self.source = reading.source
        self.web = Web(reading.source)
        self.names = Names(self.web.occurrences)
        self.graph = Graph(self.web, self.names)
        self.has_program = bool(self.graph.pieces[PROGRAM])
        self.clashes, self.twice = self._taken_files()
        self.faults_of = {'reading': reading.faults, 'scanning': self.web.faults,
                          'names': self.names.faults,
                          'graph': self._faults_of_nodes() + self._no_program()}
        self.faults = sum(self.faults_of.values(), [])
        self.status = status_of(self.faults)

    def _no_program(self):
        return [] if self.has_program else [Fault('NoProgram', None)]

    def _taken_files(self):
        """The files that are the main file under another name or the same one, and those that are an earlier file."""
        clashes, twice, taken = [], [], set()
        for name in self.names.full_names:
            if name not in self.names.first_file or not self.graph.pieces[name]:
                continue
            form = plain_form(name)
            if form == plain_form(self.out):
                clashes.append(name)
            elif form in taken:
                twice.append(name)
            taken.add(form)
        return clashes, twice

    def _faults_of_nodes(self):
        occurrences, names, graph = self.web.occurrences, self.names, self.graph
        first_use = {}
        for occurrence, name in zip(occurrences, names.resolved):
            if occurrence.role == 'use':
                first_use.setdefault(name, occurrence.place)
        with_piece = [name for name in names.full_names if graph.pieces[name]]
        first = {name: occurrences[number].place for name, number in names.first.items()}
        first[PROGRAM] = None
        first_file = {name: occurrences[number].place for name, number in names.first_file.items()}
        return ([Fault('Undefined', first_use[name], name) for name in names.full_names
                 if not graph.pieces[name] and name in first_use]
                + [Fault('Unused', first[name], name) for name in with_piece
                   if name not in names.first_file and name not in first_use]
                + [Fault('SelfContaining', first[name], name) for name in names.full_names
                   if name in graph.self_containing]
                + [Fault('TooLarge', first[node], node or b'') for node in graph.nodes if self._is_too_large(node)]
                + [Fault('FileClash', first_file[name], name) for name in self.clashes]
                + [Fault('FileTwice', first_file[name], name) for name in self.twice])

    def _is_too_large(self, node):
        graph = self.graph
        return bool(graph.pieces[node]) and node not in graph.reaches_cycle and node not in graph.expandable

    def outputs(self):
        """The output files, in order."""
        graph = self.graph
        if not self.has_program or PROGRAM in graph.expandable:
            yield Output(self.out, PROGRAM, not self.web.has_all_macros, self.has_program)
        for name in sorted(self.names.first_file, key=self.names.first_file.get):
            if name in graph.expandable and name not in self.clashes + self.twice:
                yield Output(name, name, False, True)

    def writer(self):
        return Writer(self.web, self.graph, self.marks)

    def size(self):
        """How many bytes all output files have together."""
        writer = self.writer()
        return sum(size_of(output, writer) for output in self.outputs())

    @cached_property
    def files(self):
        """The name and bytes of each output file, in order."""
        writer = self.writer()
        return [(output.name, text_of(output, writer)) for output in self.outputs()]


def size_of(output, writer):
    """The length of an output file, found without making it."""
    front = len(writer.macros) if output.has_macros else 0
    return front + (writer.size(output.node) + 1 if output.has_piece else 0)


def text_of(output, writer):
    front = writer.macros if output.has_macros else b''
    return front + (writer.text(output.node) + b'\n' if output.has_piece else b'')


def tangling_of(files, roles):
    """The tangling of these files. The last ones are kept, since tests come back to the same files."""
    return _tangling_of(tuple((name, tuple(lines)) for name, lines in files), roles)


@lru_cache(maxsize=32)
def _tangling_of(files, roles):
    return Tangling(files, roles)
