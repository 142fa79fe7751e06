"""What a fault of retangle is about (docs/faults.md), by its message."""
import collections
import functools
import re

Kind = collections.namedtuple('Kind', 'name subject')
Kind.__doc__ = """A kind of faults, and the section name that the fault is about, or None."""

ABOUT_NAMES = (
    ('no-full-name', rb'no full name for <(.*)>'),
    ('several-full-names', rb'several full names for <(.*)>'),
    ('begins-another', rb'begins another name: <(.*)>'),
    ('undefined', rb'undefined: <(.*)>'),
    ('unused', rb'never used: <(.*)>'),
    ('contains-itself', rb'contains itself: <(.*)>'),
    ('too-large', rb'too large: <(.*)>'),
    ('file-clash', rb"file name is the main file's: <(.*)>"),
    ('file-twice', rb'file has another name: <(.*)>'),
)
OTHERS = {
    b'@y or @z out of place': 'stray-mark',
    b'change without @y': 'missing-y',
    b'change without @z': 'missing-z',
    b'change without old lines': 'empty-old',
    b'change never used': 'change-unused',
    b'inclusion without a file name': 'include-no-name',
    b'inclusion too deep': 'include-too-deep',
    b'too many lines': 'source-too-long',
    b'code before the first section': 'limbo-code',
    b'definition code in C text': 'code-in-c',
    b'section name or @h in a preprocessor line': 'use-in-directive',
    b'section name in a macro': 'name-in-macro',
    b'@h in a macro': 'misplaced-h',
    b'macro must start with an identifier': 'macro-name',
    b'control text did not end': 'control-text',
    b'raw string': 'raw-string',
    b'single @ in quoted text': 'string-at',
    b'quoted text did not end': 'string-end',
    b'verbatim text did not end': 'verbatim-end',
    b'bad ASCII constant': 'ascii-bad',
    b'comment did not end': 'comment-end',
    b'section name did not end': 'name-end',
    b'missing section start before a definition': 'name-equals',
    b'no program text': 'no-program',
    b'too large: the unnamed program': 'program-too-large',
}
MISSING_FILE = b'included file not found: '
MISMATCH = b'old lines that do not match: '

NAMED = [(name, re.compile(pattern, re.S)) for name, pattern in ABOUT_NAMES]


@functools.lru_cache(1 << 14)
def kind_of(message):
    """The kind of a fault with this message; 'other' for one that is not known here."""
    if message in OTHERS:
        return Kind(OTHERS[message], None)
    if message.startswith(MISSING_FILE):
        return Kind('include-missing', None)
    if message.startswith(MISMATCH):
        return Kind('change-mismatch', None)
    for name, pattern in NAMED:
        found = pattern.fullmatch(message)
        if found:
            return Kind(name, found[1])
    return Kind('other', None)
