"""All short webs over small alphabets, each kind aimed at one row of a table of the rules.

A kind is the text before, the alphabet, how many of its members are put together at most, and the text after.
"""
import random

EVERY_BYTE = [bytes([byte]) for byte in range(256) if byte != 10]
EVERY_CODE = [b'@' + byte for byte in EVERY_BYTE]
HEAD_SPACES = [b' ', b'/*', b'*/', b'//', b'@^', b'@>', b'@@', b'@,', b'@&', b'@h', b"@'a'", b'@d', b'@ ', b'+', b'=', b'x', b'\n']

KINDS = {
    'c_text': (b'@ @c\n', [b'@', b'<', b'>', b'=', b'"', b"'", b'\\', b'/', b'*', b'a', b'1', b'#', b' ', b'\n',
               b'&', b'h', b'('], 3, b''),
    'documentation': (b'@ ', [b'@', b'd', b'c', b'<', b'>', b'=', b'*', b' ', b'a', b'\n', b'f', b'('], 4, b''),
    'before_sections': (b'', [b'@', b'*', b' ', b'\t', b'c', b'<', b'>', b'q', b'F', b'\n'], 4, b''),
    'macro': (b'@ @d N', [b'@', b'<', b'>', b'=', b'"', b"'", b'd', b'c', b'f', b'h', b'a', b'1', b' ', b'\n',
              b'(', b'&', b'*'], 3, b''),
    'macro_begin': (b'@ @d', [b' ', b'\n', b'/*\n*/', b'@&', b'@,', b'N', b'3', b"@'a'", b'"s"', b'@^x@>', b'_',
                    b'$', b'\xe9', b'@h', b'@@', b'@d'], 3, b''),
    'constant': (b"@ @c\nx@'", [b'\\', b'0', b'3', b'7', b'8', b'a', b'?', b'@', b"'", b'"', b' ', b'\n'], 4, b"'y'"),
    'constant_escape': (b"@ @c\n@'\\", EVERY_BYTE[31:126], 1, b"'"),
    'constant_byte': (b"@ @c\n@'", EVERY_BYTE, 1, b"'"),
    'constant_octal': (b"@ @c\n@'\\", [b'0', b'1', b'3', b'4', b'7', b'8'], 4, b"'"),
    'head': (b'@ @<a@>', [b' ', b'\t', b'+', b'=', b'@', b'x', b'\n'], 5, b'=y'),
    'use': (b'@ @c\n@<a@>', [b' ', b'\t', b'+', b'=', b'@', b'x', b'\n'], 4, b'=y'),
    'head_space': (b'@ @<a@>', HEAD_SPACES, 4, b'=y'),
    'use_space': (b'@ @c\n@<a@>', HEAD_SPACES, 3, b'=y'),
    'name': (b'@ @c\n@<', [b'@', b'>', b'<', b' ', b'\n', b'a', b'.', b'*', b'c'], 4, b''),
    'name_in_documentation': (b'@ @<', [b'@', b'>', b'(', b' ', b'\n', b'a', b'=', b'*'], 4, b''),
    'quoted': (b'@ @c\n"', [b'"', b"'", b'\\', b'@', b'a', b'\n', b' '], 4, b'"'),
    'quoted_apostrophe': (b"@ @c\n'", [b'"', b"'", b'\\', b'@', b'a', b'\n'], 4, b''),
    'include_name': (b'@ @c\n#include <', [b'>', b'\\', b'@', b'a', b'\n', b'"', b' '], 4, b''),
    'include_before': (b'@ @c\n', [b'#', b' ', b'include', b'<a>', b'/*x*/', b'/*\n*/', b'@&', b'@,', b'\n', b'@@',
                       b'@h', b'x', b'@<n@>', b'@d', b"@'ab'"], 3, b'<b>'),
    'include_after_sign': (b'@ @c\n#', [b' ', b'include', b'Include', b'/*x*/', b'/*\n*/', b'@&', b'@^i@>', b'\n',
                            b'@@', b'@h', b'\t', b'@=v@>', b"@'a'", b'#'], 3, b'include<b@>'),
    'verbatim': (b'@ @c\na@=', [b'@', b'>', b'=', b'a', b'\n', b' ', b'"'], 4, b'@>b'),
    'comment': (b'@ @c\na/*', [b'*', b'/', b'@', b' ', b'\n', b'a'], 4, b'*/b'),
    'comment_begin': (b'@ @c\n/*', [b'*', b'/', b'@', b' ', b'\n', b'a'], 4, b''),
    'line_comment': (b'@ @c\na//', [b'*', b'/', b'@', b' ', b'\n', b'a', b'>'], 4, b'b'),
    'control_text': (b'@ @c\na@^', [b'@', b'>', b'<', b' ', b'\n', b'a', b'*'], 4, b'@>b'),
    'spacing': (b'@ @c\n', [b'a', b"@'x'", b' ', b'@&', b'\n', b'"s"', b'(', b'@<n@>', b'@h'], 4, b''),
    'macro_spacing': (b'@ @d N', [b'a', b"@'x'", b' ', b'@&', b'\n', b'"s"', b'(', b'@=@>', b'@,', b"@'xy'",
                      b'"\\\n"'], 3, b'@c'),
    'macro_line_end': (b'@ @d N', [b'\n', b' ', b'a', b'1', b'+', b'(', b'\\', b'"s"', b'@=v@>', b'@&'], 4, b'\nb'),
    'macro_line_end_byte': (b'@ @d N(x) ', EVERY_BYTE, 1, b'\n+'),
    'macro_line_begin_byte': (b'@ @d N(x) a\n', EVERY_BYTE, 1, b''),
    'macro_end': (b'@ @d N x', [b'\\', b' ', b'\n', b'@=\\@>', b'@&', b'/*\n*/', b'a'], 4, b'@d M'),
    'continued_line': (b'@ @c\nx\\', [b'\n', b' ', b'a', b'\\', b'@=\\@>', b'@&', b'/*\n*/', b'@<n@>'], 4, b'y\nz'),
    'directive': (b'@ @c\n', [b'#', b'x', b' ', b'/*\n*/', b'@^\n@>', b'\n', b'@&', b'\\', b'@<n@>', b'@h'], 4, b'\ny'),
    'directive_inner_end': (b'@ @c\n#', [b'/*\n*/', b'\n', b'\\', b'@&', b'include', b' ', b'@=\\@>', b'@<n@>', b'x', b'@,'], 4,
                            b'<b> @h'),
    'directive_and_use': (b'@ @c\n#x', [b'@^\n@>', b'\n', b'\\', b'@&', b'@h', b'@<n@>', b'@<n', b'=', b'@^i', b'#'], 4, b'\ny'),
    'turn_front': (b'@ @c\n', [b'#', b'x', b' ', b'/*\n*/', b'@^\n@>', b'\n', b'@&', b'\\', b'@<n@>', b'@h', b'@=@>', b'"\\\n"'], 3,
                   b'elif\ny'),
    'turn_middle': (b'@ @c\n#', [b' ', b'/*\n*/', b'@^\n@>', b'@&', b'\\', b'\n', b'x', b'@=@>', b'@<n@>', b"@''", b'#'], 3, b'else\ny'),
    'turn_word': (b'@ @c\n#', [b'end', b'if', b'el', b'else', b'def', b'ndef', b'@&', b'1', b'E', b'@='], 3, b'\ny'),
    'turn_end': (b'@ @c\n#endif', [b'\n', b' ', b'\\', b'@=\\@>', b'@&', b'/*\n*/', b'//', b'@<n@>', b'@h', b'x', b'"\\\n"', b'@ '], 4,
                 b'\ny\nz'),
    'turn_of_macro': (b'@ @d N #', [b'endif', b'\n', b'\n#', b' ', b'@c', b'x'], 4, b'\n@c\ny'),
    'number': (b'@ @c\n', [b"'", b"'", b'0', b'1', b'a', b'_', b'$', b'\xe9', b'.', b"@'a'", b'@&', b' ', b'\n'], 4, b"'0'"),
    'number_byte': (b"@ @c\n1'", EVERY_BYTE, 1, b"'"),
    'number_before_byte': (b'@ @c\n1', EVERY_BYTE, 1, b"'0'"),
    'number_in_macro': (b'@ @d N', [b' ', b"'", b'1', b'x', b"@'a'", b'//', b'\n', b'@&', b'('], 4, b"'0'"),
    'raw_prefix': (b'@ @c\n', [b'R', b'L', b'u', b'U', b'8', b'u8R', b'1', b"'", b' ', b'@&', b'@,', b'\n', b'@=R@>'], 3, b'"a"'),
    'raw_string': (b'@ @c\nR"', [b'(', b')', b'"', b'\\', b'a', b'@@', b'@', b' ', b'\n'], 4, b')"'),
    'raw_delimiter': (b'@ @c\nR"', [b'abcdefgh', b'(', b')', b'@@', b'\xe9', b'"'], 4, b')abcdefghabcdefgh"'),
    'raw_delimiter_byte': (b'@ @c\nu8R"', EVERY_BYTE, 1, b'(x)"'),
    'raw_delimiter_bytes': (b'@ @c\nR"abcdefghijklmn', [b'o', b'p', b'(x)', b'@@'], 4, b'abcdefghijklmnop"'),
    'raw_of_macro': (b'@ @d', [b' ', b'R', b'"', b'(', b')', b'\n', b'@&', b'u8R', b'x'], 4, b'"(a"'),
    'file_names': (b'@ @(d/h.h@>=x\n@ @(d/', [b'./', b'/', b'././', b'k', b'.k'], 3, b'h.h@>=y'),
    'name_of_the_main_file': (b'@ @c x\n@ @(./', [b'./', b'/', b'././', b'k', b'.k'], 3, b'a.c@>=y'),
    'code': (b'@ @c\n', EVERY_CODE, 1, b'z@>'),
    'documentation_code': (b'@ @', EVERY_BYTE, 1, b'z@>\n@c\ny'),
    'macro_code': (b'@ @d N @', EVERY_BYTE, 1, b'z@>\n@c\ny'),
    'code_before_sections': (b'x @', EVERY_BYTE, 1, b' y\n@c'),
    'byte': (b'@ @c\nx', EVERY_BYTE, 1, b'y'),
    'code_touching': (b'@ @c\nx@', EVERY_BYTE, 1, b'z@>'),
    'macro_code_touching': (b'@ @d N@', EVERY_BYTE, 1, b'z@>\n@c\ny'),
    'macro_first_byte': (b'@ @d', EVERY_BYTE, 1, b'z\n@c\ny'),
    'use_over_lines': (b'@ @c\n@<a\nb@>', [b' ', b'+', b'=', b'@', b'\n'], 4, b'=y'),
    'head_over_lines': (b'@ @<a\nb@>', [b' ', b'+', b'=', b'@', b'\n'], 4, b'=y'),
    'macro_format': (b'@ @d N @f', [b'"', b'@h', b'@c', b'/*', b' ', b'a', b'\n', b'@s', b'@d', b'@<x'], 3, b''),
    'macro_h': (b'@ @d N', [b'@h', b'a', b'"s"', b' ', b'@,', b'@&', b'\n'], 3, b''),
    'macro_h_after': (b'@ @d N x', [b'@h', b'a', b'"s"', b' ', b'@,', b'@&', b'\n'], 3, b''),
    'include_after_word': (b'@ @c\nx', [b'\n', b'/*\n*/', b'/* */', b'@&', b'@,', b'@^i@>', b'@^\n@>', b' ',
                            b'@h', b'@@', b'//', b'"s"'], 2, b'#include <b>'),
    'include_first': (b'@ @c\n', [b'\n', b'/*\n*/', b'/* */', b'@&', b'@,', b'@^i@>', b'@^\n@>', b' ', b'@h',
                      b'@@', b'@d', b"@'ab'"], 2, b'#include <b>'),
    'include_after_number_sign': (b'@ @c\n#', [b'\n', b'/*\n*/', b'/* */', b'@&', b'@,', b'@^i@>', b'@^\n@>',
                                   b' ', b'@h', b'@@', b'@d', b"@'ab'"], 2, b'include <b>'),
    'include_after_include': (b'@ @c\n#include', [b'\n', b'/*\n*/', b'/* */', b'@&', b'@,', b'@^i@>', b'@^\n@>',
                               b' ', b'@h', b'@@', b'@d', b"@'ab'"], 2, b'<b>'),
    'include_in_macro': (b'@ @d N\n', [b'\n', b'/*\n*/', b'/* */', b'@&', b'@,', b'@^i@>', b'@^\n@>', b' ', b'@h',
                         b'@@', b'x', b"@'ab'"], 2, b'#include <b>'),
    'run': (b'@ @c\n', [b'a', b'\xe9', b' ', b'\t', b'\x0b', b'\x0c', b'\r', b'+', b'/', b'@@', b'\\', b'<'], 4, b''),
    'run_byte': (b'@ @c\na ', EVERY_BYTE, 2, b' b c'),
    'run_and_byte': (b'@ @c\na b', EVERY_BYTE, 2, b'c d'),
    'run_and_quoted': (b'@ @c\na b', [b'"s t"', b"'c'", b'"', b"'", b' ', b'c', b'/', b'<', b'\\', b'@=v w@>'], 4, b'd e'),
    'run_and_comment': (b'@ @c\na b', [b'//', b'/*', b'*/', b'/', b'*', b' ', b'\n', b'c'], 4, b'd e'),
    'run_and_line_end': (b'@ @c\na b', [b'\\', b' ', b'\t', b'\x0c', b'\r', b'\n', b'c', b'@&', b'@;', b'/**/'], 4,
                         b'\n d e'),
    'run_and_code': (b'@ @c\na b', [b'@@', b'@&', b'@;', b"@'a'", b'@h', b'@<n@>', b'@=v w@>', b' ', b'c'], 4, b'd e'),
    'run_in_directive': (b'@ @c\n', [b'#', b' ', b'\t', b'include', b'define', b'<a b>', b'<', b'x', b'/**/', b'@@'], 4,
                         b'<c d> e f'),
    'run_after_head': (b'@ @<a b@>', [b'=', b'+', b' ', b'\t', b'a', b'@&', b'\n', b'/', b'"s"', b'@@', b'@;'], 4,
                       b'=y z'),
    'section_start': (b'@ @d N 1\n@c\nx', [b'@', b'*', b'\t', b'\n', b' ', b'c', b'd'], 4, b''),
}


def count(kind):
    """How many webs of this kind there are."""
    _, alphabet, most, _ = KINDS[kind]
    return sum(len(alphabet) ** size for size in range(most + 1))


def web(kind, number):
    """The web of this kind with this number, shorter ones first."""
    front, alphabet, most, back = KINDS[kind]
    for size in range(most + 1):
        if number < len(alphabet) ** size:
            break
        number -= len(alphabet) ** size
    middle = []
    for _ in range(size):
        number, member = divmod(number, len(alphabet))
        middle.append(alphabet[member])
    return front + b''.join(middle) + back


def some(kind, most):
    """The numbers of `most` webs of this kind, or of all: always the same ones, in order."""
    whole = count(kind)
    return range(whole) if whole <= most else sorted(random.Random(kind).sample(range(whole), most))
