"""C's preprocessing tokens, by the definitions of crates/c_tokens/specs, against those that a compiler reads.

usage: c_tokens.py TOP        TOP is the folder of the repository

`tokens` reads a text by the same grammar: each element is the longest one that can be at its place.
It gives the crate's worked texts the tokens that they have there. gcc's `cc -E -fdebug-cpp` writes
before each token where it is in the file, so that what is between two such notes is one token.
Generated texts, each between two markers, have the same tokens for both. Left out are
texts to which C23 gives no meaning (a quote or a comment that is not closed), directives, trigraphs,
and a backslash with white space and a line end after it, where gcc joins the lines. Of the characters
past 127 only a letter is tried: gcc reads others, as a multiplication sign, as tokens of their own.
gcc is asked for C23: in its own dialect it also reads raw strings as one token. It ends a number
before an apostrophe that `$` or a byte past 127 follows; such a number is left out, too.

The last line is 'N passed, M failed'.
"""
import os
import random
import re
import sys
import tempfile

from checks import check, lay, read, run_all, same
from running import run

TEXTS = 2000
LEAST = 100             # so often each kind of token is in the texts
WORKED = 80             # at least as many texts are worked

PUNCTUATORS = set(
    b'[ ] ( ) { } . -> ++ -- & * + - ~ ! / % << >> < > <= >= == != ^ | && || ? : :: ; ... = *= /= %= '
    b'+= -= <<= >>= &= ^= |= , # ## <: :> <% %> %: %:%:'.split())

# One element as a whole. A universal character name that a word or a number has is one letter.
WORD_BYTE = rb'[0-9A-Za-z_$\x80-\xff]'
LETTER = rb'(?:[A-Za-z_$\x80-\xff]|\\u[0-9a-fA-F]{4}|\\U[0-9a-fA-F]{8})'
KINDS = {
    'identifier': re.compile(LETTER + rb'(?:[0-9]|' + LETTER + rb')*'),
    'number': re.compile(rb"\.?[0-9](?:'" + WORD_BYTE + rb'|[eEpP][+-]|[0-9.]|' + LETTER + rb')*'),
    'character constant': re.compile(rb"(?:u8|[uUL])?'(?:\\[^\n]|[^'\\\n])+'"),
    'string literal': re.compile(rb'(?:u8|[uUL])?"(?:\\[^\n]|[^"\\\n])*"'),
    'punctuator': re.compile(b'|'.join(map(re.escape, sorted(PUNCTUATORS, key=len, reverse=True)))),
    'other character': re.compile(rb'[^ \t\n\v\f]'),
}
WHITE = re.compile(rb'[ \t\n\v\f]')
COMMENT = re.compile(rb'//[^\n]*|/\*(?:(?!\*/)[\s\S])*(?:\*/)?')

# Each of these forms takes as many bytes as it can, and a form that takes more than another one at
# the same place comes first.
ELEMENT = re.compile(b'|'.join(form.pattern for form in (
    COMMENT, KINDS['string literal'], KINDS['character constant'], KINDS['identifier'],
    KINDS['number'], KINDS['punctuator'], WHITE, KINDS['other character'])))


def kind(text):
    """The kind of a token: the first in the order of the standard. None if the text is none."""
    return next((name for name, form in KINDS.items() if form.fullmatch(text)), None)


def is_element(text):
    return bool(WHITE.fullmatch(text) or COMMENT.fullmatch(text) or kind(text))


def elements(text):
    """The white-space characters, comments and tokens of a text without continued lines."""
    return ELEMENT.findall(text)


def are_the_longest(found):
    """Whether each of these elements is the longest one that can be at its place in their text."""
    for at, element in enumerate(found):
        rest = b''.join(found[at + 1:])
        longer = (element + rest[:more] for more in range(1, len(rest) + 1))
        if not is_element(element) or any(map(is_element, longer)):
            return False
    return True


def spliced(text):
    return text.replace(b'\\\n', b'')


def tokens(text):
    return list(filter(kind, elements(spliced(text))))


# ---------------------------------------------------------------------- worked texts

READS = re.compile(rb'\bHasTokens\s+"((?:\\.|[^"\\])*)"\s+"((?:\\.|[^"\\])*)"')
ESCAPES = {b'n': b'\n', b't': b'\t'}


def unescaped(text):
    return re.sub(rb'\\(.)', lambda escape: ESCAPES.get(escape[1], escape[1]), text)


def test_worked_texts(top):
    rows = READS.findall(read(top, 'crates', 'c_tokens', 'proofs', 'WorkedTokens.antt'))
    check(len(rows) >= WORKED, 'worked texts', 'only %d' % len(rows))
    for text, words in rows:
        same(tokens(unescaped(text)), unescaped(words).split(b' '), 'tokens of %r' % text)


# ---------------------------------------------------------------------- the compiler

NOTE = re.compile(rb'\{P:[^}]*\}')


def read_by_compiler(texts):
    """The tokens of each text as the compiler reads them."""
    marked = b''.join(b'text_%d_\n%s\n' % (number, text) for number, text in enumerate(texts))
    with tempfile.TemporaryDirectory() as folder:
        lay(folder, {'texts.c': marked})
        output, errors, status = run(['cc', '-std=c2x', '-undef', '-w', '-E', '-P', '-fdebug-cpp',
                                    'texts.c'], folder)
    check(status == 0 and not errors, 'cc -E', errors.decode(errors='replace')[:1000])
    found = {}
    for token in filter(None, (each.strip() for each in NOTE.split(output))):
        marker = re.fullmatch(rb'text_(\d+)_', token)
        if marker:
            last = found.setdefault(int(marker[1]), [])
        else:
            last.append(in_ascii(token))
    return found


def in_ascii(token):
    """gcc writes a letter past 127 of an identifier as such a name, and that of a number as it is."""
    return token.replace(b'\xc3\xa9', b'\\U000000e9').replace(b'\\u00e9', b'\\U000000e9')


# ---------------------------------------------------------------------- texts

PIECES = (
    [bytes([each]) for each in b'!#%&*+-/:<=>?^|!#%&*+-/:<=>?^|()[]{};,~.@`']
    + [b'...', b'..', b'%:%:', b'<:', b':>', b'%:']
    + [b'a', b'e', b'E', b'p', b'x', b'_', b'$', b'L', b'u', b'U', b'u8', b'0x', b'while']
    + [b'\xc3\xa9', b'\\u00e9', b'\\U000000e9']
    + [b'0', b'1', b'8', b'1e', b'0xe', b'1.', b'.5', b'1p', b'1E+', b'2P-', b'1\\u00e9']
    + [b"1'0", b"0xF'F", b".5'0", b"'", b"'0'", b"'e+'"]
    + [b"'a'", b"'\\''", b'"s"', b'""', b'"a\\"b"', b'"/*"', b"'//'", b'"\\\\"', b'L"x"', b"u'y'"]
    + [b' ', b' ', b'\n', b'\t', b'\\\n', b'\\\n', b'\\']
    + [b'/**/', b'/*"*/', b'/* a */', b'//', b'// b\n', b'/*/*/', b'/', b'*/'])

ENDED_BY_GCC = re.compile(rb"\.?[0-9].*'[$\x80-\xff]")
TRIGRAPH = re.compile(rb"\?\?[=/'()!<>-]")
JOINED_BY_GCC = re.compile(rb'\\[ \t\v\f]+\n')


def is_defined(text):
    """Whether C23 and gcc read the tokens of this text, with no directive in it, by the same grammar."""
    first = True                # no token is before this element on its line
    for each in elements(spliced(text)):
        if first and each in (b'#', b'%:'):
            return False
        first = each == b'\n' or first and not kind(each)
    return is_read_alike(text + b'\n') and not text.endswith(b'\\')


def is_read_alike(text):
    """The same of a text of whole lines, whose directives are aside."""
    if TRIGRAPH.search(text) or JOINED_BY_GCC.search(text):
        return False
    found = elements(spliced(text))
    return not any(each in (b'"', b"'") or is_open(each) or ENDED_BY_GCC.match(each) for each in found)


def is_open(element):
    """A comment that does not end: it would go on."""
    return element.startswith(b'/*') and COMMENT.fullmatch(element + b' ')


def generated(chance):
    while True:
        text = b''.join(chance.choice(PIECES) for _ in range(chance.randint(1, 9)))
        if is_defined(text):
            return text


def test_generated_texts(top):
    chance = random.Random(64)
    texts = [generated(chance) for _ in range(TEXTS)]
    found = read_by_compiler(texts)
    times = dict.fromkeys(list(KINDS) + ['punctuator'], 0)
    for number, text in enumerate(texts):
        ours = tokens(text)
        check(are_the_longest(elements(spliced(text))), 'elements of %r' % text, 'one is not the longest')
        same([in_ascii(token) for token in ours], found.get(number), 'tokens of %r' % text)
        for token in ours:
            times[kind(token)] += 1
    for name, count in times.items():
        check(count >= LEAST, 'generated texts', 'only %d times: %s' % (count, name))


def main():
    return run_all((test_worked_texts, test_generated_texts), os.path.abspath(sys.argv[1]))


if __name__ == '__main__':
    sys.exit(main())
