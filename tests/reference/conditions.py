"""Groups of the preprocessor at random: lines that begin, turn and end them, some over several lines of the web, some
with names and @h in them, and almost such lines."""

FRONTS = [b''] * 10 + [b' ', b'\t', b'/* c */', b'/* c\nd */', b'x /* c\nd */', b'@<A@>', b'@h ', b'@^i\nj@>', b'@;',
                       b'@&\n', b'\n@&', b'x;\n\n', b'x /* c\n\nd */ ']
AFTER_SIGN = [b''] * 10 + [b' ', b'\t ', b'/* c */', b'/* c\nd */', b'@&', b' @&\n', b'@^i\nj@>', b'@;']
BEGINS = [b'if a', b'if 0', b"if 1'000 > a", b'ifdef A', b'ifndef A', b'if a \\\n && b', b'if a /* c\nd */ + b', b'if']
TURNS = [b'else', b'else', b'elif a', b'elif', b'elifdef A', b'elifndef A', b'endif', b'endif', b'endif']
ENDS = [b''] * 10 + [b' // c', b' /* c */', b' /* c\n\nd */ x', b'@^i\nj@>', b' \\\n', b' \\\n  x', b' \\\t\n\ty', b' \\\n\n',
                     b'@&', b'@&\n', b'\n@& y', b' @<A@>', b' @h', b'@=\\@>\n', b'\\@&\n', b'\\@=@>', b' "s\\\nt"',
                     b'\n\n', b'\r', b'/', b' @d', b'/* open']

# Lines that look like turns, or hold the text of one.
ALMOST = [b'#Endif', b'#endiff', b'#elsee', b'##endif', b'%:endif', b'#en@&dif', b'#endif@&x', b'@=#endif@>', b'#@=endif@>',
          b'@=@>#endif', b'#@=@>endif', b'# \\\nendif', b'#en\\\ndif', b'\\\n#endif', b'x #endif', b'x@&\n#endif',
          b'x \\\n#endif', b'@=\\@>\n#endif', b'"s\\\n#endif"', b'@@#endif', b'#1 endif', b"#@'e'", b'/* #endif */',
          b'#include <a\n#endif', b'#@<A@> endif', b"don't\n#endif"]

MIDDLES = [b'x;', b'', b'  @<A@>;', b'@<v@> y', b'x @h', b'"s\\\nt" x', b'x /* c\nd */ y', b'x @&\n y',
           b'#define M a \\\n  b', b'@=#if@> z']


def begin_line(chance):
    return chance.choice(FRONTS) + b'#' + chance.choice(AFTER_SIGN) + chance.choice(BEGINS) + chance.choice(ENDS)


def turn_line(chance):
    if chance.random() < .12:
        return chance.choice(ALMOST)
    return chance.choice(FRONTS) + b'#' + chance.choice(AFTER_SIGN) + chance.choice(TURNS) + chance.choice(ENDS)


def group_lines(chance):
    """The lines of a group, or of a part of one: its begin and end may be in other pieces."""
    made = [begin_line(chance)] if chance.random() < .6 else []
    for _ in range(chance.choice([1, 1, 2, 3])):
        made += [chance.choice(MIDDLES) for _ in range(chance.choice([0, 1, 1, 2]))]
        made.append(turn_line(chance))
    return b'\n'.join(made).split(b'\n')
