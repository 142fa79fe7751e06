"""The stored cases of tangle_layers, the example of its page, and streams and memory that are
refused.

usage: layer_cases.py TANGLE_LAYERS REFUSE TOP

REFUSE is tests/refuse.c as a library, TOP the folder of the repository. A case is a folder of
tests/layers: in/ (the folder in which the program runs, empty if it is missing), arguments (one a
line), layers (what is printed), and, if they are there, stderr (otherwise nothing) and status
(otherwise 0). A run changes no file. The last line is 'N passed, M failed'.
"""
import difflib
import os
import shutil
import subprocess
import sys
import tempfile
from collections import namedtuple

from checks import blocks_of, check, finish, lay, read, same, shown

program, refuse, top = (os.path.abspath(path) for path in sys.argv[1:4])

SECONDS = 60
MOST = 100000           # the most allocations that are refused
DIFFERENCE = 20         # the most lines of a difference that are printed

NO_MEMORY = b'tangle_layers: NoMemory\n'

# These cases run with each allocation refused. Together they have lines that begin so.
REFUSED = ['each-fault-of-a-change-file-and-of-inclusions', 'each-fault-of-scanning',
           'abbreviations-of-no-name-and-of-two', 'each-fault-of-a-graph-but-too-large',
           'each-kind-of-item', 'named-files-in-the-order-of-their-first-marks',
           'edit-that-keeps-changes-drops-and-adds-names']
LINES = [b'change ', b'file 1 ', b'macro 0', b'macros in pieces', b'output 1 ', b'and ',
         b'affected ', b'fault reading ', b'fault scanning ', b'fault names ', b'fault graph ']

Ended = namedtuple('Ended', 'status listing errors')


class Case:
    """A run: its name, the folder in which it runs, the arguments, and how it has to end."""

    def __init__(self, name, folder, arguments, expected):
        self.name, self.folder, self.arguments = name, folder, arguments
        self.expected = expected
        self.files = files_in(folder)

    def run(self, stdout=subprocess.PIPE, stderr=subprocess.PIPE, **environment):
        done = subprocess.run([program] + self.arguments, cwd=self.folder, stdin=subprocess.DEVNULL,
                              stdout=stdout, stderr=stderr, timeout=SECONDS,
                              env=dict(os.environ, **environment))
        return Ended(done.returncode, done.stdout, done.stderr)

    def check_files(self):
        check(files_in(self.folder) == self.files, self.name, 'other files after its runs')


def files_in(folder):
    found = [os.path.join(path, name) for path, _, names in os.walk(folder) for name in names]
    return {name: read(name) for name in found}


def stored(name, temporary):
    """The case of tests/layers with this name, in a copy of its folder."""
    def text_of(file, default):
        path = os.path.join(case, file)
        return read(path) if os.path.exists(path) else default

    case, folder = os.path.join(top, 'tests', 'layers', name), os.path.join(temporary, name)
    if os.path.exists(os.path.join(case, 'in')):
        shutil.copytree(os.path.join(case, 'in'), folder)
    else:
        os.mkdir(folder)
    arguments = list(map(os.fsdecode, read(case, 'arguments').splitlines()))
    expected = Ended(int(text_of('status', b'0')), read(case, 'layers'), text_of('stderr', b''))
    return Case(name, folder, arguments, expected)


def example(temporary):
    """The example of docs/layers.md: its web is in the block before the listing."""
    blocks = blocks_of(read(top, 'docs', 'layers.md'))
    at = next(at for at, block in enumerate(blocks) if block.startswith(b'web "a.w"\n'))
    folder = os.path.join(temporary, 'example')
    lay(folder, {'a.w': blocks[at - 1]})
    return Case('the example of docs/layers.md', folder, ['a'], Ended(0, blocks[at], b''))


def check_end(holds, case, found, name):
    """Counts one run, and prints where it ended in another way."""
    check(holds, name, '' if holds else differences(case.expected, found))


def differences(expected, found):
    """The status and standard error, if they differ, and the first lines that do."""
    ends = [one._replace(listing='..') for one in (found, expected)]
    problem = '' if ends[0] == ends[1] else '%s, not %s' % tuple(map(shown, ends))
    listings = [one.listing.decode('latin-1').split('\n') for one in (expected, found)]
    lines = list(difflib.unified_diff(*listings, 'expected', 'found', lineterm=''))
    return problem + ''.join('\n    ' + line for line in lines[:DIFFERENCE])


def check_case(case):
    found = case.run()
    check_end(found == case.expected, case, found, case.name)
    case.check_files()


def survived(case, found):
    """Whether a run with a refused allocation needed no such memory, or says that it had none."""
    return found == case.expected or (
        found.status == 3 and found.errors == NO_MEMORY
        and case.expected.listing.startswith(found.listing))


def refuse_each(case, report, **environment):
    """Refuses each allocation of the case, one a run, until a run has no such allocation."""
    ended = 0
    for at in range(1, MOST):
        found = case.run(LD_PRELOAD=refuse, REFUSE_AT=str(at), REFUSE_REPORT=report, **environment)
        if not os.path.exists(report):
            break
        os.remove(report)
        ended += found.status == 3
        name = '%s, allocation %d refused' % (case.name, at)
        check_end(survived(case, found), case, found, name)
    check_end(found == case.expected, case, found, case.name + ', no allocation refused')
    check(ended, case.name, 'no refused allocation ended a run')
    case.check_files()


def check_refused_memory(cases, report):
    for line in LINES:
        has_line = any(b'\n' + line in case.expected.listing for case in cases)
        check(has_line, 'refused memory', 'no case has a line that begins with %r' % line)
    for case in cases:
        refuse_each(case, report)
    refuse_each(cases[-1], report, REFUSE_ALL='1')


def check_refused_streams(case):
    with open('/dev/full', 'wb') as full:
        same(case.run(stdout=full), Ended(3, None, b''), 'a listing cannot be written')
        case.arguments = []
        same(case.run(stderr=full), Ended(3, b'', None), 'the usage cannot be written')


def main():
    with tempfile.TemporaryDirectory() as temporary:
        names = sorted(os.listdir(os.path.join(top, 'tests', 'layers')))
        cases = {name: stored(name, temporary) for name in names}
        of_page = example(temporary)
        for case in [*cases.values(), of_page]:
            check_case(case)
        check_refused_memory([cases[name] for name in REFUSED], os.path.join(temporary, 'refused'))
        check_refused_streams(of_page)
    return finish()


if __name__ == '__main__':
    sys.exit(main())
