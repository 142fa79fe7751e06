"""Random webs, and edits of each that keep every shape and move the borders of runs: words, signs
and single spaces side by side in a line of C, which the programs keep as one.

A piece is items with a gap between each two. A gap has one meaning, a blank, nothing or a line end,
and is written in one of several ways: `a b` is also `a<tab>b`, `a/* c */b` or `a@;b`, and `x+y` is
also `x@&+y`. An edit writes some gaps in other ways. It is left out where a shape would be another
one, which the reference says, so the ways need not fit each two items.

Between two of these edits there may be one that keeps most bytes and no shape, as `ab` and `a@&b`.

usage: borders.py SEED
"""
import random
import re
import sys

from files import ROLES, lines_of, table_of
from graph import affected
from parts import WORD
from tangling import tangling_of

EDITS = 10
TRIES = 25                  # for an edit

RUN = re.compile(rb'(?:[^ \t\r\v\f"\'/@]| (?=[^ \t\r\v\f"\'/@])|/(?![*/]))+')

ITEM = re.compile(WORD.pattern + rb'|[-+*=;,.]')

# The ways of a gap, the plain one first. INNER_END is a blank in a directive.
NOTHING = [b'', b'@&', b' @&', b'@& ', b'\t@&@&', b'@&/* j */', b'@;@&', b'@& @& ']
BLANK = [b' ', b'  ', b'\t', b'\r', b'\x0b', b'\x0c', b' \t', b'\t ', b'/* c */', b' /* c */ ', b'/**/ ', b' /* a b */',
         b'@;', b' @;', b'@, ', b'@/', b'@|', b'@#', b' @+ ', b'@!', b'@^i x@>', b' @q c@>', b'@t a@> ', b'@;@;']
INNER_END = [b' /* c\nd */', b'/* c\nd */ ', b'/*\nc d */', b' /* c d\n*/ ', b'@^x\ny@>', b'@; @q c\nd@>\t']
LINE_END = [b'\n', b'\t\n', b'\n ', b'\n   ', b' @;\n\t', b' // c d\n', b'//\n', b' /* c */\n', b'\n/* c */ ',
            b'/* c\nd */', b'/* c\n d */ ', b'@;\n', b'\n@; ', b' @^x\ny@>', b'@,\n@/', b'\x0c\n\x0b']
FRONT = [b' ', b'', b'\t', b'  ', b' /* c */', b'@;', b'@&', b' @& ', b'/* c */ ']
BACK = [b'', b'\t', b' /* c */', b' // c d', b'@;', b'@,@^i@>']

WORDS = [b'a', b'b', b'x1', b'int', b'long_name', b'$d', b'caf\xe9', b'\x80\xff', b'10', b'97', b'0x1f', b"1'0", b'include', b'define']
SIGNS = [bytes([sign]) for sign in b'+-*/=<>(){}[];,.!#&|^?:%~\\\x00\x7f'] + [b'/'] * 3 + [b'@@']
QUOTED = [b'"s"', b'"a b"', b"'c'", b"' '", b'"a@@b"', b'""', b'"/*"', b'"s\\\nt"']
RARE = [b"@'a'", b"@'@@'", b'@=v@>', b'@=a  b@>', b'@=@>', b'@=a\\@>', b'@=u@@v@>', b'@h']

# The heads of pieces of a name, or of the program, and the ways in which it is used. It uses those
# after it alone, so that none contains itself.
HEADS = [[b'@c', b'@p'], [b'@<One@>=', b'@<O...@>+=', b'@<One@>=='], [b'@<Two or more@>=', b'@<Two...@>='],
         [b'@(f.h@>='], []]
USES = [[], [b'@<One@>', b'@<On...@>', b'@< One @>'], [b'@<Two or more@>', b'@<Two...@>', b'@<Two  or more@>'],
        [b'@(f.h@>', b'@<f.h@>', b'@<f...@>'], [b'@<none@>']]


class Gap:
    """Some ways to write the same, and the one in which it is written."""

    def __init__(self, ways):
        self.ways, self.written = ways, None

    def write(self, chance, plain):
        """Writes it anew, with this chance in the plain way."""
        self.written = self.ways[0] if chance.random() < plain else chance.choice(self.ways)


class Web:
    """A web as texts and gaps in turn."""

    def __init__(self, chance):
        self.chance, self.parts = chance, []
        self.plain = chance.choice([.3, .6, .9, .97])
        for _ in range(chance.randint(2, 5)):
            self._add_section()
        self.gaps = [part for part in self.parts if isinstance(part, Gap)]
        for gap in self.gaps:
            gap.write(chance, self.plain)

    def lines(self):
        text = b''.join(part.written if isinstance(part, Gap) else part for part in self.parts)
        return lines_of(text)

    def _gap(self, ways):
        self.parts.append(Gap(ways))

    def _add_section(self):
        chance = self.chance
        self.parts.append(b'@ %s\n' % chance.choice([b'A.', b'', b'@d N 10', b'@d F(x) x  x']))
        self.node = chance.choice([0, 0, 1, 2, 3])
        self.parts.append(chance.choice(HEADS[self.node]))
        self._gap(LINE_END if chance.random() < .7 else FRONT)
        is_rare = chance.random() < .4
        for number in range(chance.randint(1, 4)):
            if number > 0:
                self._gap(LINE_END)
            self._add_line(is_rare)
        self._gap(BACK)
        self.parts.append(b'\n')

    def _add_line(self, is_rare):
        chance = self.chance
        if chance.random() < .12:
            self._add_directive()
        size = chance.randint(20, 200) if chance.random() < .03 else chance.randint(1, 9)
        for number in range(size):
            if number > 0 and not self._touches(is_rare):
                self._gap(BLANK)
            self._add_item(is_rare)
        if chance.random() < .06:
            self.parts.append(b'\\')                # the line continues

    def _touches(self, is_rare):
        """Puts nothing after the last item, if that is drawn."""
        if self.chance.random() < .6:
            return False
        self._gap(NOTHING[1:] if is_rare and self.chance.random() < .2 else NOTHING)
        return True

    def _add_item(self, is_rare):
        chance, drawn = self.chance, self.chance.random()
        if drawn < .06:
            self._gap(chance.choice(USES[self.node + 1:]))
        elif drawn < .14:
            self.parts.append(chance.choice(QUOTED))
        elif drawn < .22 and is_rare:
            self.parts.append(chance.choice(RARE))
        else:
            self.parts.append(chance.choice(SIGNS if drawn < .5 else WORDS))

    def _add_directive(self):
        """The front of a line for the preprocessor, some with a header. A blank in it may have a line end inside a
        comment or a control text."""
        blank = INNER_END if self.chance.random() < .4 else BLANK
        self.parts.append(b'#')
        if self.chance.random() < .4:
            self._gap(blank)
        if self.chance.random() < .5:
            self.parts.append(b'define')
            self._gap(blank)
        else:
            self.parts.append(b'include')
            self._gap(blank if self.chance.random() < .6 else NOTHING)
            self.parts.append(self.chance.choice([b'<p.h>', b'<p q>', b'<a/b.h>', b'"p q"', b'<']))
            self._gap(blank)


def joined(lines):
    return b''.join(line + b'\n' for line in lines)


class State:
    """The lines of a web with what they make."""

    def __init__(self, lines):
        self.lines = lines
        self.tangling = tangling_of(table_of({'a.w': joined(lines)}), ROLES)

    def has_shapes_of(self, other):
        """Whether both have the same faults and names, and each name the same shape."""
        mine, others = self.tangling, other.tangling
        return mine.faults == others.faults and mine.graph.nodes == others.graph.nodes and all(
            mine.graph.shape(node) == others.graph.shape(node) for node in mine.graph.nodes)


def with_other_borders(web, before):
    """The web with some gaps written otherwise, or None where no shape may change."""
    gaps, chance = web.gaps, web.chance
    count = len(gaps) if chance.random() < .05 else chance.choice([1, 1, 1, 2, 3, 5])
    some = chance.sample(gaps, min(count, len(gaps)))
    written = [gap.written for gap in some]
    for gap in some:
        gap.write(chance, .4)
    lines = web.lines()
    if lines != before.lines and len(lines) == len(before.lines):
        state = State(lines)
        if state.has_shapes_of(before):
            return state
    for gap, old in zip(some, written):
        gap.written = old
    return None


def replaced(old, new):
    """The lines that are other ones: (number, text) each."""
    return [(number, two) for number, (one, two) in enumerate(zip(old, new), 1) if one != two]


def moves_borders(old, new):
    """Whether there are other runs in the lines."""
    return [RUN.findall(line) for line in old] != [RUN.findall(line) for line in new]


def runs_changed(web, states):
    """How many of the edits move borders."""
    return sum(moves_borders(old, new) for old, new in zip([web] + states, states))


def edited_web(chance):
    """The lines of a web, and its lines after each of some edits. After the last one they are those
    at the start."""
    web = Web(chance)
    states = [State(web.lines())]
    while len(states) < EDITS:
        tries = (with_other_borders(web, states[-1]) for _ in range(TRIES))
        state = next((state for state in tries if state), None)
        if state is None:
            break
        states.append(state)
    assert not affected(states[-1].tangling.graph, states[0].tangling.graph)
    states = [state.lines for state in states]
    return states[0], states[1:] + states[:1]


def almost_same(chance, lines):
    """The lines with a join or blank more, or less, or an item that is another one of the same bytes."""
    at = chance.randrange(len(lines))
    line, drawn = lines[at], chance.random()
    words = list(ITEM.finditer(line))
    if drawn < .3 and words:
        start, end = chance.choice(words).span()
        text = line[start:end]
        line = line[:start] + (b"@'a'" if text == b'97' else b'@=' + text + b'@>') + line[end:]
    elif drawn < .6:
        start = chance.randint(0, len(line))
        line = line[:start] + chance.choice([b'@&', b'@&', b' ', b'@;']) + line[start:]
    else:
        line = line.replace(chance.choice([b' ', b'@&', b'\t', b'@;', b'/* c */']), b'', chance.randint(1, 2))
    return lines[:at] + [line.rstrip(b' ')] + lines[at + 1:]


def script_of_borders(seed):
    """The lines of a web, and its lines after each edit, which moves borders alone."""
    return edited_web(random.Random(seed * 17 + 7))


def script_of_items(seed):
    """The same, with an edit before each of these that almost keeps the shapes."""
    chance = random.Random(seed * 17 + 8)
    lines, states = edited_web(chance)
    made = []
    for before, after in zip([lines] + states, states):
        others = (almost_same(chance, before) for _ in range(TRIES))
        made += [other for other in others if other != before][:1] + [after]
    return lines, made


def main():
    for script in (script_of_borders, script_of_items):
        lines, states = script(int(sys.argv[1]))
        for number, line in enumerate(lines, 1):
            print('%4d %s' % (number, line))
        for old, new in zip([lines] + states, states):
            print('other runs' if moves_borders(old, new) else 'same runs', replaced(old, new))


if __name__ == '__main__':
    main()
