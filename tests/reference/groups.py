"""The groups of items of a part or macro that stand together: nothing but joins is between them (docs/tokens.md)."""
from lines_of_c import continues
from output import item_text, without_end
from spacing import SPACE, runs, with_spaces, without_backslashes, without_joins

ALONE = ('UseOf', 'Defs')


def groups_of(part):
    """The tokens of each group, after rules 1 and 2. A use, and all macros, are a group by themselves."""
    return [group for group in row_of(part) if group[0].kind != 'LineEnd']


def row_of(part):
    """The groups, and each line end between them as a list by itself, in their order."""
    tokens = without_joins(with_spaces(part.tokens, part.is_macro))
    if part.is_macro:
        tokens = without_end(without_backslashes(tokens))
    made = [[]]
    for is_run, run, _ in runs(tokens, SPACE):
        if is_run:
            rest = run if part.is_macro else _rest_of_gap(made[-1], run)
            made += [[token] for token in rest if token.kind == 'LineEnd'] + [[]] if rest else []
        elif run[0].kind in ALONE:
            made += [run, []]
        else:
            made[-1] += run
    return [group for group in made if group]


def _rest_of_gap(group, run):
    """What is left of the gap after a group when the end of a continued line, which a C compiler takes out, is added to
    the group."""
    ends = [at for at, token in enumerate(run) if token.kind == 'LineEnd']
    if not (ends and group and continues(group[-1])):
        return run
    group.append(run[ends[0]])
    return run[ends[0] + 1:]


def text_of(group, macros=b''):
    """The bytes of a group: none of a use, and these for all macros."""
    texts = {'UseOf': b'', 'Defs': macros}
    return b''.join(texts[token.kind] if token.kind in ALONE else item_text(token) for token in group)
