"""What a C compiler reads of the bytes of a file: each token, at the file and line at which it counts it.

The definitions are those of crates/c_lines/specs/Counting.antt. A line of C, which ends at a line feed that is in no
comment, is a directive if its first token is #. After `#if`, `#ifdef` and `#ifndef`, which begin a group, and
after `#elif`, `#elifdef`, `#elifndef`, `#else` and `#endif` is a *region* each (docs/scanning.md), of which the compiler
reads all lines or none. A group that begins in a region that is left out is left out. Lines of both are counted, but a
`#line` is obeyed only in a region that is read.

Macros are not replaced. A `#line` has digits, and then a name in quotes or nothing; any other one counts for nothing.
"""
import re
from collections import namedtuple
from itertools import accumulate

from c_tokens import elements, kind, spliced
from running import run

# at: where the token begins in the bytes; place: the file and the line
Read = namedtuple('Read', 'at token place in_directive')

BEGINS = (b'if', b'ifdef', b'ifndef')
TURNS = (b'elif', b'elifdef', b'elifndef', b'else', b'endif')
SPLICE = re.compile(rb'\\\n')


def c_reads(choice, file, text):
    """What is read of a file of this name. `choice` says of each region, in order, whether it may be read; what is
    before the first one is."""
    found, choice, is_read, first = [], iter(choice), True, 1
    for line, rows in lines_of(text):               # `first` is the line number of the file's first row
        words = directive(line)
        if is_read:
            found += [Read(at, token, (file, first + row), words is not None) for at, row, token in line]
        if is_read and sets_line(words):
            first = int(words[1]) - rows
            file = name_of(words[2]) if words[2:] else file
        if words and words[0] in BEGINS + TURNS:
            is_read = next(choice, True) and (is_read or words[0] in TURNS)
    return found


def directive(line):
    """The tokens after the # of a directive, or None."""
    words = [token for _, _, token in line]
    return words[1:] if words and words[0] in (b'#', b'%:') else None


def sets_line(words):
    """Whether these are the tokens of a #line."""
    if not words or words[0] != b'line' or len(words) not in (2, 3):
        return False
    return words[1].isdigit() and (not words[2:] or words[2][:1] == b'"')


def name_of(literal):
    """The name in a string literal, in which a backslash stands for the byte after it."""
    return re.sub(rb'(?s)\\(.)', rb'\1', literal[1:-1])


def directives_of(text):
    """The tokens after the # of each directive."""
    return [words for words in (directive(line) for line, _ in lines_of(text)) if words is not None]


def lines_of(text):
    """The tokens of each line, each as where it begins, the number of line feeds before it and its bytes; and the
    number of line feeds up to the end of the line."""
    line, at, places = [], 0, places_of(text)
    for element in elements(spliced(text)):
        if element == b'\n':
            yield line, places[at][1] + 1
            line = []
        elif kind(element):
            line.append((*places[at], element))
        at += len(element)
    yield line, text.count(b'\n')


def places_of(text):
    """Of each byte that is left of the text: where it is, and the number of line feeds before it."""
    rows = [0, *accumulate(byte == 10 for byte in text)]
    taken = {at for splice in SPLICE.finditer(text) for at in range(*splice.span())}
    return [(at, rows[at]) for at in range(len(text)) if at not in taken]


def regions(tests):
    """Of each region, whether a compiler reads it that finds the conditions true or false, in the order of the file: a
    group begins, as ('begin', True), turns, as ('turn', True), or ends, as ('end', None)."""
    made, groups = [], []               # of each group: whether this region of it is read, whether one has been read
    for role, holds in tests:
        if role == 'end':
            groups.pop()
        elif role == 'turn':
            groups[-1] = [holds and not groups[-1][1], holds or groups[-1][1]]
        else:
            groups.append([holds] * 2)
        made.append(all(is_read for is_read, _ in groups))
    return made


# ---------------------------------------------------------------------- the compiler

NOTE = re.compile(rb'\{P:([^;]*);F:[^;]*;L:([0-9]+);[^}]*\}')


def read_by_compiler(folder, file, *options):
    """The tokens that gcc reads of a file of the folder, each with its place, and what it has to say. It writes before
    each one where it is."""
    output, errors, status = run(['cc', '-std=c2x', '-E', '-P', '-fdebug-cpp', *options, file], folder)
    _, *found = NOTE.split(output)
    tokens = [(token.strip(), (file, int(line))) for file, line, token in zip(*[iter(found)] * 3) if token.strip()]
    return tokens, errors if status == 0 else errors or b'%d' % status
