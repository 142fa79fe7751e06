"""Macros over several lines, and lines of C parts that end in a backslash, at random: places whose line ends a C
compiler takes away. The lines end and begin in items of each kind that docs/scanning.md names, with white space,
comments, control codes and joins at the line ends."""

ITEMS = {
    'separator': [b'(', b')', b'[', b']', b'{', b'}', b';', b',', b'~'],
    'operator': [b'+', b'-', b'#', b'<', b'>', b'=', b'!', b'*', b'/', b'%', b'&', b':', b'?', b'^', b'|'],
    'plain': [b'do', b'x', b'_a', b'caf\xe9', b'$d', b'"s"', b"'c'", b'u8', b'"a@@b"'],
    'other': [b'10', b'1.', b'.', b'.5', b"@'a'", b'@=v@>', b'@=w\\@>', b'\\', b'`', b'@@', b'\x00', b'@=@>'],
}

# What is before a line end, the line end itself, and what is after it.
BEFORE = [b''] * 6 + [b' ', b' ', b'\t', b'/* c */', b' // c', b'@,', b'@^i@>', b'@&', b' @q c@> ']
LINE_ENDS = [b'\n'] * 8 + [b'\n\n', b'\n \n', b'/* c\nd */', b'@^i\nj@>', b'\n/* c\n\nd */']
AFTER = [b''] * 5 + [b' ', b'  ', b'\t', b'/* c */', b'@,', b'@^i@>', b'  @&', b' @q c@> ']

MACRO_NAMES = [b'N', b'N', b'F(x)', b'N@&y', b'N@&1', b"N@&@'a'", b'N@&@=v@>', b'N@&\ny', b'N 1', b'N x', b'N"s"',
               b'F@&(x)']
MACRO_ENDS = [b''] * 4 + [b'\\', b' \\', b'\\\n', b' \\ \\\n\\', b'@=v\\@>', b'\\ /* c */', b'\\@=@>', b'"s\\']

STARTS = [b'#define N'] * 3 + [b'#define F(x)', b'# define N', b'@=#define N@>', b'#if x', b'x', b'']
BACKSLASHES = [b'\\'] * 5 + [b' \\', b' \\', b'@=v\\@>', b' @=\\@>', b'\\ ', b'\\/* c */', b'\\@,', b'\\@&', b'\\@=@>',
                               b'']


def some_items(chance):
    """One to three items, each of any kind, some of which are next to each other."""
    made = b''
    for _ in range(chance.choice([1, 1, 2, 3])):
        made += chance.choice([b'', b' ']) + chance.choice(ITEMS[chance.choice(list(ITEMS))])
    return made


def macro_over_lines(chance):
    """The lines of a macro that has several, most of them."""
    made = chance.choice([b'@d ', b'@d ', b'@D\t', b'@d\n', b'@d@&']) + chance.choice(MACRO_NAMES)
    for _ in range(chance.choice([1, 1, 2, 3])):
        made += chance.choice(BEFORE) + chance.choice(LINE_ENDS) + chance.choice(AFTER) + some_items(chance)
    return (made + chance.choice(MACRO_ENDS)).split(b'\n')


def continued_lines(chance):
    """The lines of a #define of a C part, or of other text there, most of which continue the line before them."""
    made = chance.choice(STARTS)
    for _ in range(chance.choice([1, 1, 2, 3])):
        made += some_items(chance) + chance.choice(BACKSLASHES) + chance.choice(LINE_ENDS) + chance.choice(AFTER)
    return (made + some_items(chance)).split(b'\n')


def continuing(lines):
    """The numbers, from 0, of the lines that a backslash at the end of the line before them continues."""
    return [at for at in range(1, len(lines)) if lines[at - 1].rstrip().endswith((b'\\', b'\\@>'))]


def with_other_front(chance, line):
    """The line with other white space at its front."""
    return chance.choice([b'', b' ', b'\t ']) + line.lstrip(b' \t')
