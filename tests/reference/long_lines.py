"""Lines of C at the limit of a line's bytes, in ways that have the same items: one run, or many short
ones, or none."""
import limits

PLACE = 4                           # the number of the line in its web


def lines(front, end, *texts):
    """A line of each of these texts, as often as the longest fits between a front and an end."""
    count = (limits.LINE_BYTES - len(front) - len(end)) // max(map(len, texts))
    return [front + text * count + end for text in texts]


def web(line):
    """The lines of a web with this one in the middle of a piece."""
    return [b'@ A.', b'@c', b'x y', line, b'  z@<n@>', b'@ @<n@>=', b'1']


LINES = {
    'one word': lines(b'', b'', b'x'),
    'a word between signs': lines(b'+', b'@&+', b'x') + lines(b'+@&', b'+', b'x'),
    'signs': lines(b'', b'', b'+'),
    'bytes past 127': lines(b'', b'x', b'\xe9\xff'),
    'words of a byte': lines(b'', b'b', b'a ', b'a\t', b'a\x0b', b'a\x0c', b'a\r'),
    'words with blanks': lines(b'', b'b', b'ab ', b'ab  ', b'ab/**/', b'ab@;', b'ab @; ', b'ab /* c d */', b'ab\t\x0c'),
    'words and signs': lines(b'', b'b', b'ab+', b'ab@&+', b'ab+@&', b'ab @& + @& '),
    'words with joins': lines(b'', b'c', b'ab@&', b'ab @&', b'ab@& '),
    'slashes': lines(b'', b'b', b'a/', b'a/@&', b'a@&/'),
    'less-than signs': lines(b'', b'b', b'a<', b'a<@&', b'a@&<'),
    'what is defined': lines(b'#define F ', b'b', b'a <', b'a\t<', b'a/**/<') + lines(b'#\tdefine F ', b'b', b'a <'),
    'what is after a header': lines(b'#include <a  b> ', b'b', b'a ', b'a\t', b'a@;'),
    'what is after an open header': lines(b'#include ', b'', b'<', b'a'),
    'backslashes': lines(b'', b'\t', b'\\') + lines(b'', b'\x0c', b'\\') + lines(b'', b'@;', b'\\'),
    'quoted texts': lines(b'', b'b', b'a"s t"', b'a@&"s t"', b'a"s t"@&'),
    'apostrophes': lines(b'', b'b', b"a b' '", b"a\tb' '", b"a@;b@&' '"),
    'signs @': lines(b'', b'b', b'a@@', b'a@@@&', b'a@&@@'),
    'a long blank': [b'a b', b'a b\t', b'a' + b' ' * 65000 + b'b', b'a' + b' \t' * 32000 + b'b', b'a/*' + b'c ' * 32000 + b'*/b'],
    'no item': lines(b'', b'@;', b' \t', b'\t', b'@;'),
}
