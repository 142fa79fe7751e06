"""Lines of C, and which of them are directives and turns (docs/scanning.md)."""

GAP = ('White', 'LineEnd', 'Join')              # what is between items
TURNS = (b'else', b'elif', b'elifdef', b'elifndef', b'endif')


def in_directive(tokens):
    """Whether what follows these tokens of a part is in a directive: in a line of C whose first item is #."""
    start = next(at for at in range(len(tokens), -1, -1) if begins_line(tokens, at))
    first = next((token for token in tokens[start:] if token.kind not in GAP), None)
    return first is not None and first.kind == 'Sign' and first.value == b'#'


def is_turn(items):
    """Whether a line of C of these items turns or ends a group of the preprocessor."""
    front = [(item.kind, item.value) for item in items[:2]]
    return front in [[('Sign', b'#'), ('Word', word)] for word in TURNS]


def begins_line(tokens, at):
    """Whether a line of C begins behind the first `at` tokens of a part."""
    if at == 0 or tokens[at - 1].kind in ('UseOf', 'Defs'):
        return True
    return tokens[at - 1].kind == 'LineEnd' and not (goes_on(tokens, at - 1) or is_removed(tokens, at - 1))


def goes_on(tokens, at):
    """Whether a line goes on after the line end with this number: its last item ends in a backslash."""
    while at > 0 and tokens[at - 1].kind == 'White':
        at -= 1
    return at > 0 and continues(tokens[at - 1])


def continues(token):
    """Whether a C compiler takes a line end after this item away, with the backslash before it."""
    return token.kind in ('Sign', 'Verbatim') and token.value.endswith(b'\\')


def is_removed(tokens, at):
    """Whether a join is in the run of joins, white space and line ends that the token with this number is in."""
    def joins(numbers):
        for number in numbers:
            if tokens[number].kind not in GAP:
                return False
            if tokens[number].kind == 'Join':
                return True
        return False
    return joins(range(at, -1, -1)) or joins(range(at, len(tokens)))
