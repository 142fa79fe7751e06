"""The table of files, a list of (name, lines), and the three roles (docs/reading.md)."""
import os
from collections import namedtuple

import limits

# marks: 'full', or 'bare' for line marks that are a line feed alone
Roles = namedtuple('Roles', 'web change out marks')
Roles.__new__.__defaults__ = ('full',)

ROLES = Roles(b'a.w', None, b'a.c')     # where a test has no others


class Refused(Exception):
    """A call that is refused, with the refusal's name."""

    def __init__(self, refusal):
        Exception.__init__(self, refusal)
        self.refusal = refusal


def lines_of(text):
    """The lines of a file's bytes, without trailing spaces."""
    lines = text.split(b'\n')
    if lines[-1] == b'':
        lines.pop()
    return [line.rstrip(b' ') for line in lines]


def is_file_name(name):
    return 0 < len(name) <= limits.NAME_BYTES and b'\n' not in name


def plain_form(name):
    """A file's name without what makes no difference to it: empty parts between slashes, and single dots."""
    parts = [part for part in name.split(b'/') if part not in (b'', b'.')]
    return (b'/' if name.startswith(b'/') else b'') + b'/'.join(parts)


def add(files, name, text):
    """The table with one file more."""
    if not is_file_name(name):
        raise Refused('BadName')
    if any(other == name for other, _ in files):
        raise Refused('FileExists')
    if len(files) >= limits.FILES:
        raise Refused('TooManyFiles')
    lines = lines_of(text)
    if any(len(line) > limits.LINE_BYTES for line in lines):
        raise Refused('LineTooLong')
    if len(lines) > limits.FILE_LINES:
        raise Refused('TooManyLines')
    return files + [(name, lines)]


def table_of(files):
    """The table of these files, bytes by name."""
    table = []
    for name, text in files.items():
        table = add(table, os.fsencode(name), text)
    return table
