"""Directives of C parts at random: lines for the preprocessor, most of them over several lines of the
web, with line ends inside comments and control texts, names and @h in them, and almost directives."""

FRONTS = [b''] * 8 + [b' ', b'x ', b'x@&\n', b'x \\\n', b'/* c\nd */', b'x /* c\nd */', b'@<A@> ',
                      b'@h ', b'@^i\nj@>', b'@&', b'@=\\@>\n', b'"s\\\nt"\n']
STARTS = [b'#define M', b'#define M', b'#define M(x)', b'#if a', b'#if a', b'# error', b'#', b'#include',
          b'#@,else', b'#/* c\nd */include', b'#\n', b'#\\\n', b'@=#@>if', b'%:if', b'#@&if', b'##']

INNER_ENDS = [b'/* c\nd */', b' /* c\n\nd */ ', b'/*\n*/', b'@^i\nj@>', b'@q c\nd@>', b' @t a@@\nb@>',
              b'/* c\n// d */', b'\\/* c\nd */']
TEXTS = [b' x', b' x', b'+', b'(', b' "a\\\nb"', b'<p@@q>', b' <p//q>', b'// c', b'@&', b"@'a'",
         b'@=v@>', b'@=v\\@>', b'.', b'# x', b'@,', b'@d']
LINE_ENDS = [b'\\\n', b' \\\n  ', b'\\\t\n', b'\n', b'@&\n', b'\n@& ', b'\\@&\n', b'\n# x',
             b'\n/* c\nd */ ']
USES = [b'@<A@>', b' @<v@> ', b'@<A\nB@>', b'@h', b' @H x', b'@<A@>=', b'@<A@>@,=', b'@(h.h@>',
        b'@<A@<B@>', b'@^i@h', b'/* open', b'@^open']
PARTS = [(.45, INNER_ENDS), (.75, TEXTS), (.9, LINE_ENDS), (1, USES)]


def directive_lines(chance):
    """The lines of a directive, or of what is almost one, and of what follows it."""
    made = chance.choice(FRONTS) + chance.choice(STARTS)
    for _ in range(chance.choice([1, 2, 2, 3, 4])):
        drawn = chance.random()
        made += chance.choice(next(parts for bound, parts in PARTS if drawn < bound))
    return (made + chance.choice([b'', b'', b' z', b'\nz'])).split(b'\n')
