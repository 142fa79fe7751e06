"""The C that is written for macros and nodes (docs/output.md)."""


def item_text(item):
    if item.kind == 'Code':
        return b'%d' % item.value
    if item.kind in ('Blank', 'UseOf'):
        return b' '
    return b'\n' if item.value is None else item.value


def without_end(items):
    """The items, or tokens, of a macro that are written. A backslash at its end is not written, since with it the line
    feed would not end the macro."""
    while items[-1].kind in ('White', 'Blank', 'LineEnd') or items[-1][:2] == ('Sign', b'\\'):
        items = items[:-1]
    return items


def macro_text(items):
    written = (b'\\\n' if item.kind == 'LineEnd' else item_text(item) for item in without_end(items))
    return b'#define ' + b''.join(written) + b'\n'


class Writer:
    """Writes nodes that can be expanded."""

    def __init__(self, web, graph, marks='full'):
        self.graph, self.marks = graph, marks
        self.macros = b''.join(map(macro_text, web.macros))
        self.texts, self.sizes = {}, {}

    def mark(self, place):
        if self.marks == 'bare':
            return b'\n'
        file, line = place
        return b'\n#line %d "%s"\n' % (line, file.replace(b'\\', b'\\\\').replace(b'"', b'\\"'))

    def own_text(self, node):
        """What is written of a node's own pieces: bytes, and between them the nodes that they use."""
        if node not in self.texts:
            self.texts[node] = self.text_of_pieces(self.graph.pieces[node])
        return self.texts[node]

    def text_of_pieces(self, pieces):
        made = [[]]
        for piece in pieces:
            made[-1] += [b'/*%d:*/' % piece.section, self.mark(piece.place)]
            for item in piece.items:
                self._add(made, item)
            made[-1].append(b'/*:%d*/' % piece.section)
        return [b''.join(one) if isinstance(one, list) else one for one in made]

    def _add(self, made, item):
        if item.kind == 'LineMark':
            made[-1].append(self.mark(item.value))
            return
        made[-1].append(item_text(item))
        if item.kind == 'Defs':
            made[-1].append(self.macros)
        used = self.graph.use(item) if item.kind == 'UseOf' else None
        if used is not None and self.graph.pieces[used]:
            made += [(used,), []]

    def size(self, node):
        """The length of a node's text, found without making it."""
        for one in self.graph.used_first:
            if one not in self.sizes and one in self.graph.expandable:
                self.sizes[one] = sum(self.sizes[each[0]] if isinstance(each, tuple) else len(each)
                                      for each in self.own_text(one))
        return self.sizes[node]

    def text(self, node):
        made, ahead = [], [iter(self.own_text(node))]
        while ahead:
            for each in ahead[-1]:
                if isinstance(each, tuple):
                    ahead.append(iter(self.own_text(each[0])))
                    break
                made.append(each)
            else:
                ahead.pop()
        return b''.join(made)
