#!/usr/bin/env -S python3 -B
"""Each definition is held by a stored expectation: for each wrong definition in tests/wrong-definitions, a copy of the
reference tangler that has it gives something else than a stored case says (tests/stored.py).

usage: wrong_definitions.py TOP [PAGE..]      TOP is the folder of the repository

A file of tests/wrong-definitions is named as the page of docs/ that has its rules. A line '# HEADING' names the part of
that page whose rules are next. Then each wrong definition is

    FILE: what it says
    - the text of tests/reference/FILE that it replaces, which is there once
    + the text in its place

in which texts may have several lines. Each part of a page has one at least, but for those in WITHOUT. Where no stored
case sees a wrong definition, short and generated webs are tried, and the first one of these that sees it is shown: a
case like it has to be stored. The last line is 'N passed, M failed'.
"""
import os
import re
import subprocess
import sys
import tempfile
from collections import namedtuple
from concurrent.futures import ThreadPoolExecutor

from checks import check, finish, files_below, lay, read

TESTS = os.path.dirname(os.path.abspath(__file__))
SECONDS = 900               # for all that is stored, or all short and generated webs, over one wrong definition

# The parts of pages that have no rule of the reference: they sum up, show, or are about the machine.
WITHOUT = {
    'reading': ['What comes out'],
    'scanning': ['What comes out'],
    'output': ['What a C compiler reads'],
    'expansion': ['Order and cost'],
    'edits': ['Text that only moves', 'How the affected nodes are found', 'What is promised, and what is not'],
    'sessions': ['A conversation'],
    'programs': ['What is written', 'Whose web it is', 'What differs from CTANGLE', 'What C reads otherwise',
                 'An abbreviation without its full name', 'Faults and remedies'],
}

Wrong = namedtuple('Wrong', 'name file old new')


def wrong_definitions(page, text):
    """The wrong definitions for this page, and the headings under which they are."""
    found, headings, heading = [], [], ''
    for block in re.split(r'\n\n+', text.strip('\n')):
        first, *lines = block.split('\n')
        if first.startswith('# '):
            heading = first[2:]
            continue
        file, _, says = first.partition(': ')
        old, new = ('\n'.join(line[2:] for line in lines if line[:1] == sign) for sign in '-+')
        found.append(Wrong('%s, %s: %s' % (page, heading, says), file, old, new))
        headings.append(heading)
    return found, headings


def check_headings(page, text, headings):
    """Each part of the page has a wrong definition, and each of these is in a part of the page."""
    parts = re.findall(r'^##+ (.*?)(?: †)?$', text, re.M) or re.findall(r'^# (.*)$', text, re.M)
    for part in parts:
        check((part in headings) != (part in WITHOUT.get(page, [])), page, 'no wrong definition for %r' % part)
    for heading in dict.fromkeys(headings):
        check(heading in parts, page, 'no such part: %r' % heading)


def copy_with(wrong, folder, reference):
    """Makes a copy of the reference with the wrong definition; the problem where its text does not fit."""
    files = {name: read(reference, name) for name in files_below(reference) if name.endswith('.py')}
    text = files.get(wrong.file, b'').decode()
    if text.count(wrong.old) != 1 or not wrong.old:
        return 'its old text is %d times in %s' % (text.count(wrong.old), wrong.file)
    files[wrong.file] = text.replace(wrong.old, wrong.new).encode()
    lay(folder, files)
    return None


def asked(*arguments):
    """What one of the two scripts prints, or None and the problem."""
    try:
        done = subprocess.run([sys.executable, '-B', *arguments], stdout=subprocess.PIPE, stderr=subprocess.PIPE,
                              timeout=SECONDS)
    except subprocess.TimeoutExpired:
        return None, 'it did not end in time'
    if done.returncode:
        return None, done.stderr.decode().strip('\n').split('\n')[-1]
    return done.stdout.decode(), ''


def try_wrong(wrong, top):
    """Whether a stored case sees a wrong definition, and otherwise the problem."""
    with tempfile.TemporaryDirectory() as folder:
        problem = copy_with(wrong, folder, os.path.join(TESTS, 'reference'))
        if problem:
            return None, problem
        seen, problem = asked(os.path.join(TESTS, 'stored.py'), folder, top)
        if seen != '':
            return seen, problem
        web, problem = asked(os.path.join(TESTS, 'first_difference.py'), folder)
        return '', problem or 'no stored case sees it, but %s' % web if web != '' else 'no test sees it'


def main():
    top = os.path.abspath(sys.argv[1])
    folder = os.path.join(TESTS, 'wrong-definitions')
    pages = sys.argv[2:] or [name[:-len('.txt')] for name in sorted(os.listdir(folder))]
    ahead = []
    for page in pages:
        found, headings = wrong_definitions(page, read(folder, page + '.txt').decode())
        check_headings(page, read(top, 'docs', page + '.md').decode(), headings)
        ahead += found
    seen, problem = asked(os.path.join(TESTS, 'stored.py'), os.path.join(TESTS, 'reference'), top)
    check(seen == '', 'the reference itself', problem or 'another result than stored: %s' % seen)
    with ThreadPoolExecutor(os.cpu_count()) as tries:
        for wrong, (seen, problem) in zip(ahead, tries.map(lambda wrong: try_wrong(wrong, top), ahead)):
            check(seen, wrong.name, problem)
    return finish()


if __name__ == '__main__':
    sys.exit(main())
