"""Where the author wrote each byte of an output file, and which bytes are in stretches (docs/scanning.md)."""
from graph import TEXTS
from lines_of_c import GAP, continues
from output import item_text
from spacing import following, runs, with_spaces


class Written:
    """Of each byte of an output file: the place of the source line with its item, and whether the item is in a stretch;
    or None, if it belongs to no item with text."""

    def __init__(self, web, graph, writer):
        self.web, self.graph, self.writer, self.made = web, graph, writer, {}
        self.stretches = {id(piece): in_stretches(web, part, piece.place)
                          for piece, part in zip(web.pieces, web.piece_parts)}

    def of_output(self, output):
        front = self._none(self.writer.macros) if output.has_macros else []
        return front + (self._of_node(output.node) + [None] if output.has_piece else [])

    def _none(self, text):
        return [None] * len(text)

    def _of_node(self, node):
        if node not in self.made:
            self.made[node] = [each for piece in self.graph.pieces[node] for each in self._of_piece(piece)]
        return self.made[node]

    def _of_piece(self, piece):
        """A piece begins and ends with a comment."""
        stretches, comment = iter(self.stretches[id(piece)]), b'/*%d:*/' % piece.section
        yield from self._none(comment + self.writer.mark(piece.place))
        for item in piece.items:
            if item.kind in TEXTS:
                yield from [(self.web.place(item.at), next(stretches))] * len(item_text(item))
            else:
                yield from self._of_item(item)
        yield from self._none(comment)

    def _of_item(self, item):
        """An item without text. What is written for a use, or for all macros, follows."""
        if item.kind == 'LineMark':
            return self._none(self.writer.mark(item.value))
        used = self.graph.use(item) if item.kind == 'UseOf' else None
        after = self._none(self.writer.macros) if item.kind == 'Defs' else self._of_node(used) if used else []
        return self._none(item_text(item)) + after


def in_stretches(web, part, opening):
    """Of each item with text of a C part, whether it is in a stretch. `opening` is the place of its opening mark."""
    made, counted, before, is_in = [], opening, None, False
    tokens = with_spaces(part.tokens, False)
    for is_run, run, after in runs(tokens, GAP):
        end = after.at if after else part.at
        if is_run and any(token.kind == 'Join' for token in run):
            is_in = is_in or b'\n' in web.text[run[0].at:end]       # which are taken out
        elif is_run:
            for token, until in zip(run, [token.at for token in run[1:]] + [end]):
                if token.kind == 'LineEnd':
                    goes_on = before is not None and continues(before)
                    counted, is_expected = after_line_end(web, token, counted, goes_on)
                    before, is_in = None, goes_on and not is_expected
                else:
                    is_in = is_in or b'\n' in web.text[token.at:until]      # in a directive
        elif run[0].kind in ('UseOf', 'Defs'):
            counted, before, is_in = run[0].mark, None, False
        elif run[0].kind == 'QuoteBreak':
            counted, is_expected = after_line_end(web, run[0], counted, True)
            before, is_in = None, not is_expected
        else:
            made.append(is_in)
            before = run[0]
    return made


def after_line_end(web, token, counted, goes_on):
    """The counted place after a line end, and whether it is that of the next source line, if there is one."""
    expected, place = (counted[0], counted[1] + 1), following(web, token.at)
    is_expected = place is None or place == expected
    return (expected if goes_on or is_expected else place), is_expected
