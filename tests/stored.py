#!/usr/bin/env -S python3 -B
"""Where a reference tangler first gives something else than a stored case, conversation or listing says.

usage: stored.py REFERENCE TOP      REFERENCE is tests/reference or a copy of it, TOP the folder of the repository

It prints the name of the first difference, or nothing. What a folder or a full disk does to a run is not modelled, so
a case whose run cannot write a file is left out, and so is the conversation that long_script.py made.
"""
import os
import sys

reference, top = (os.path.abspath(path) for path in sys.argv[1:3])
sys.path.insert(0, reference)
import layers
import programs
from checks import blocks_of, conversation_of, files_below, read, read_if_there
from limit_cases import CASES
from programs import Folder

MADE = ['a-thousand-edits-of-two-thousand-lines']


def folders_of(*path):
    """The folders in this one of tests/, with their names."""
    parent = os.path.join(top, 'tests', *path)
    return [('/'.join((*path, name)), os.path.join(parent, name)) for name in sorted(os.listdir(parent))]


def arguments_of(folder):
    return list(map(os.fsdecode, read(folder, 'arguments').split(b'\n')[:-1]))


def run(arguments, folder):
    names = programs.read_words(arguments)
    return (2, programs.USAGE, {}) if names is None else programs.tangled(names, folder)


def cases():
    """The runs of ctangle in tests/cases: what each has to end with, and what it ends with."""
    for page, _ in folders_of('cases'):
        for name, folder in folders_of(*page.split('/')):
            errors, expected = read(folder, 'stderr'), os.path.join(folder, 'expected')
            if b'ctangle: cannot write' in errors:
                continue
            files = {os.fsencode(file): read(expected, file) for file in files_below(expected)}
            status, faults, created = run(arguments_of(folder), Folder(os.path.join(folder, 'in')))
            created = {os.path.normpath(file): text for file, text in created.items()}
            yield name, (int(read(folder, 'status')), errors, files), (status, faults, created)


def conversations():
    """The same of the scripts of retangle in tests/conversations, and of the conversation of docs/sessions.md."""
    for name, folder in folders_of('conversations'):
        if os.path.basename(name) not in MADE:
            names = programs.read_retangle(read(folder, 'arguments').decode().split())
            found = programs.answered(names, Folder(os.path.join(folder, 'in')), read(folder, 'stdin'))
            yield name, (int(read(folder, 'status')), b'', read(folder, 'stdout')), found
    web, turns = conversation_of(top)
    script, answers = (b''.join(texts) for texts in zip(*turns))
    yield 'docs/sessions.md', (0, b'', answers), programs.answered((b'a.w', None, b'a.c'), Laid({b'a.w': web}), script)


def listings():
    """The same of the listings of tangle_layers in tests/layers, and of the example of docs/layers.md."""
    for name, folder in folders_of('layers'):
        expected = (int(read_if_there(folder, 'status') or 0), read(folder, 'layers'),
                    read_if_there(folder, 'stderr') or b'')
        yield name, expected, layers.run(arguments_of(folder), Folder(os.path.join(folder, 'in')))
    blocks = blocks_of(read(top, 'docs', 'layers.md'))
    at = next(at for at, block in enumerate(blocks) if block.startswith(b'web "a.w"\n'))
    yield 'docs/layers.md', (0, blocks[at], b''), layers.run(['a'], Laid({b'a.w': blocks[at - 1]}))


class Laid:
    """A folder with these files, by name."""

    def __init__(self, files):
        self.files = files

    def read(self, name):
        return self.files.get(name)


def at_limits():
    """The same of the runs and scripts at a limit (tests/limit_cases.py)."""
    for case in CASES:
        folder = Laid(case.files())
        if case.script is None:
            found = run(case.arguments, folder)
        else:
            found = programs.answered(programs.read_retangle(case.arguments), folder, case.script())
        yield case.name, case.expected, found


def main():
    for part in (cases, conversations, listings, at_limits):
        for name, expected, found in part():
            if found != expected:
                print(name)
                return 0
    return 0


if __name__ == '__main__':
    sys.exit(main())
