"""The five rules of spacing: from the tokens of a part or macro to its items (docs/scanning.md)."""
from collections import namedtuple

from lines_of_c import GAP, continues, is_turn
from parts import Token

# at: the position in the web's text at which its own text begins
Item = namedtuple('Item', 'kind value at')

SPACE = ('White', 'LineEnd')
NAMING = ('Word', 'Code', 'Verbatim')           # items like these at the front of a macro are its name

# Signs that make no longer C token with any item next to them, and signs that make one with other signs alone.
SEPARATORS = b'()[]{};,~'
OPERATORS = b'!#%&*+-/:<=>?^|'


def kind_in_c(token):
    if token.kind == 'Sign':
        return 'separator' if token.value in SEPARATORS else 'operator' if token.value in OPERATORS else 'other'
    is_name = token.kind == 'Word' and not token.value[:1].isdigit()
    return 'plain' if is_name or token.kind == 'Quoted' else 'other'


def may_touch(one, other):
    """Whether a C compiler makes the same tokens of two items without white space between them as with it."""
    kinds = {kind_in_c(one), kind_in_c(other)}
    return 'separator' in kinds or kinds == {'operator', 'plain'}


def would_merge(one, other):
    """Whether an ASCII constant, which is written as a number, and an item that touches it would be read as one. A
    number goes on over an apostrophe."""
    if one.kind == 'Code' and other.kind == 'Quoted' and other.value[:1] == b"'":
        return True
    pairs = [(one, other), (other, one)]
    return any(constant.kind == 'Code' and (token.kind in ('Word', 'Code', 'Verbatim') or
                                            token.kind == 'Sign' and token.value in b'.\\')
               for constant, token in pairs)


def macro_items(tokens):
    kept = without_backslashes(without_joins(with_spaces(tokens, True)))
    return [Item(token.kind, token.value, token.at) for token in with_blanks(kept, True)]


def part_items(tokens, web, opening):
    kept = with_last_blank(with_blanks(without_joins(with_spaces(tokens, False)), False))
    return counted(with_marks(kept), web, opening)


def with_spaces(tokens, is_macro):
    """White space between words and constants that touch, and after a macro's name."""
    made, has_name = [], not is_macro
    for token, after in zip(tokens, list(tokens[1:]) + [None]):
        is_name = not has_name and token.kind not in GAP
        has_name = has_name or is_name
        made.append(token)
        if after is None:
            break
        if would_merge(token, after) or (is_name and after.kind not in GAP and after.value != b'('):
            made.append(Token('White', None, after.at))
    return made


def runs(tokens, kinds):
    """The longest runs of tokens that are of these kinds, and the other tokens alone, each with whether it is such a
    run, and with the token after it."""
    run = []
    for token, after in zip(tokens, list(tokens[1:]) + [None]):
        run.append(token)
        is_run = token.kind in kinds
        if not (is_run and after is not None and after.kind in kinds):
            yield is_run, run, after
            run = []


def without_joins(tokens):
    """Without the runs that hold a join."""
    kept = []
    for is_run, run, _ in runs(tokens, GAP):
        if not is_run or all(token.kind != 'Join' for token in run):
            kept += run
    return kept


def without_backslashes(tokens):
    """Without the backslashes of a macro that its author wrote before line ends: one is written at each line end."""
    made = []
    for at, token in enumerate(tokens):
        after = next((other.kind for other in tokens[at + 1:] if other.kind != 'White'), None)
        if (token.kind, token.value, after) != ('Sign', b'\\', 'LineEnd'):
            made.append(token)
    return made


def with_blanks(tokens, is_macro):
    """With blanks, and without other white space."""
    made = []
    for is_run, run, after in runs(tokens, SPACE):
        made += with_blank(made, run, after, is_macro) if is_run else run
    return made


def with_last_blank(tokens):
    """With a blank after the last item of a piece that would take the opening slash of its closing to itself: a slash,
    or the line end of a line that continues."""
    if not tokens:
        return tokens
    last = tokens[-1]
    is_slash = last.kind in ('Sign', 'Verbatim') and last.value.endswith(b'/')
    continued = last.kind == 'LineEnd' and len(tokens) > 1 and continues(tokens[-2])
    return tokens + [Token('Blank', None, last.at)] if is_slash or continued else tokens


def with_blank(made, run, after, is_macro):
    """A run of white space and line ends, after these tokens and before this one: its line ends, and a blank where one
    has to be between the two."""
    ends = [token for token in run if token.kind == 'LineEnd']
    blank = [Token('Blank', None, run[0].at)]
    if not made or after is None:
        return ends
    if not ends:
        return blank
    if is_macro:
        is_name = all(token.kind in NAMING for token in made)
        return (blank if is_name or not may_touch(made[-1], after) else []) + ends
    is_indented = len(ends) == 1 and run[-1].kind == 'White'
    return ends + (blank if continues(made[-1]) and is_indented else [])


def with_marks(tokens):
    made = []
    for token in tokens:
        made.append(token)
        if token.mark is not None:
            made.append(Token('LineMark', token.mark, token.at))
    return made


def counted(tokens, web, opening):
    """Each line end as such, or as a line mark where the next line is not the one that a compiler counts, and after a
    turn, since the compiler obeys no mark in a group that it leaves out. In a line that continues there is no mark,
    since the compiler would read it as a part of that line."""
    (file, line), items, line_start = opening, [], 0
    for token in tokens:
        kind, value = token.kind, token.value
        if kind == 'LineEnd' and not (items and continues(items[-1])):
            of_line = [item for item in items[line_start:] if item.kind != 'Blank']
            place = following(web, token.at)
            if place is not None and (place != (file, line + 1) or is_turn(of_line)):
                kind, value = 'LineMark', place
            line_start = len(items) + 1
        if kind == 'LineMark':
            file, line = value
            line_start = len(items) + 1
        elif kind in ('LineEnd', 'QuoteBreak'):
            line += 1
        items.append(Item(kind, value, token.at))
    return items


def following(web, at):
    """The place of the next source line, or None."""
    row = web.row(at) + 1
    return web.source[row].place if row < len(web.source) else None
