"""Conversations with the built retangle, with each allocation of a run refused, one at a time.

usage: refused.py RETANGLE REFUSE TOP       REFUSE is tests/refuse.c as a library, TOP the folder of the repository

Where an allocation fails, one edit is answered 'no NoMemory' and is not made or, in an open list,
not held; or one list is answered 'no NoMemory 0' and none of its edits is made; and the others are
made and answered. Or the run ends with status 3 after an answer, or before the first one; or it
needed no such memory, and all is answered. The last line is 'N passed, M failed'.
"""
import os
import sys
import tempfile

program, refuse, top = (os.path.abspath(path) for path in sys.argv[1:4])
sys.path[:0] = [os.path.join(top, 'tests'), os.path.join(top, 'tests', 'reference')]
from chain import chain
from checks import check, folder_with, run_all
from files import ROLES, table_of
from running import run as run_program
from scripts import Script
from sessions import Session

MOST = 100000
LONG_COMMAND, CHAIN = 'a long command', 'chain'

QUESTIONS = b'show a.c\nfaults\nwork\n'
CYCLE = b'@ P.\n@c\n@<A@>\n@ @<A@>=\n@<B@>\n@ @<B@>=\n@<A@>\n@ @(h.h@>=\nint h;\n'
FILE_COMES_AND_GOES = b'create b.w\nwork\ninsert 1 b.w\ny;\nwork\ndiscard b.w\n' + QUESTIONS
TWO_BRANCHES = (b'@ P.\n@c\n@<A@>@<S@>\n@ @<A@>=\n@<B@>\n@ @<B@>=\n@<C@>\n@ @<C@>=\n1\n'
                b'@ @<S@>=\n2\n')


# Webs with scripts that have every kind of command: an abbreviation of one name and then of two,
# names that use each other and a named file, two names of which one uses others below, line marks
# that are set, lists that are made, taken back, refused and cancelled, a chain of names, and a
# command that is read into more and more memory.
CONVERSATIONS = {
    'abbreviation': (
        b'@ A.\n@c\n@<Ini...@>\n@ @<Initialize@>=\nx=0;\n',
        QUESTIONS + b'insert 6 a.w\n@ @<Init table@>=\n' + QUESTIONS + b'replace 6 a.w\n@ @<Init table@>=\n' + QUESTIONS
        + b'remove 6 a.w\n' + QUESTIONS + b'insert 7 a.w\nx\n' + FILE_COMES_AND_GOES),
    'cycle': (
        CYCLE,
        b'work\nreplace 7 a.w\nb;\n' + QUESTIONS + b'insert 8 a.w\nc;\n' + QUESTIONS
        + b'remove 8 a.w\n' + QUESTIONS
        + b'remove 99 a.w\nshow h.h\nwork\ncreate b.w\ninsert 1 b.w\ny;\ninsert 3 a.w\n@i b.w\n' + QUESTIONS + b'discard b.w\nfaults\nremove 3 a.w\nwork\nnothing\nshow a.c\nreplace 7 a.w\n@<A@>\n'
        b'faults\nquit\n'),
    'a list that breaks a cycle': (
        CYCLE,
        b'insert 99 a.w\nx\nbegin\ninsert 7 a.w\nb;\nremove 8 a.w\ncommit\n' + QUESTIONS + b'show h.h\n'),
    'two branches': (
        TWO_BRANCHES,
        b'work\nreplace 9 a.w\n3\n' + QUESTIONS + b'replace 9 a.w\n3\n' + QUESTIONS + b'insert 10 a.w\n4\n' + QUESTIONS
        + b'remove 12 a.w\n' + QUESTIONS + FILE_COMES_AND_GOES),
    'marks': (
        TWO_BRANCHES,
        b'marks none\n' + QUESTIONS + b'insert 1 a.w\n% top\n' + QUESTIONS + b'marks none\nwork\n'
        b'marks full\n' + QUESTIONS),
    'lists': (
        TWO_BRANCHES,
        b'begin\nreplace 9 a.w\n3\ninsert 10 a.w\n4\n' + QUESTIONS + b'commit\n' + QUESTIONS
        + b'begin\nremove 10 a.w\nreplace 9 a.w\n1\ncommit\n' + QUESTIONS
        + b'commit\nbegin\nmarks none\nreplace 9 a.w\n5\ncommit\n' + QUESTIONS
        + b'begin\nmarks full\ncommit\n' + QUESTIONS
        + b'begin\nremove 10 a.w\nremove 99 a.w\ncommit\n' + QUESTIONS
        + b'begin\ncommit\nwork\nbegin\ncreate b.w\ninsert 1 b.w\nz\ndiscard a.w\ncommit\n'
        b'remove 1 b.w\nbegin\nremove 9 a.w\nremove 9 a.w\nmarks full\ncancel\nreplace 9 a.w\n6\n'
        + QUESTIONS + b'begin\nremove 9 a.w\nquit\n'),
    LONG_COMMAND: (
        b'@ A.\n@c\nint x;\n', b'work\ninsert 1 a.w\n' + b'x' * 100000 + b'\nquit\n'),
    CHAIN: (chain(40).encode(), b'work\nreplace 83 a.w\n2\nwork\nreplace 83 a.w\n2\nwork\n'),
}
FEWER = 41              # the nodes that the first edit of the chain expands; the second one expands none


class Refused(Script):
    """The answers where the edit of this number gets no memory, and the ends of the answers. A list
    that is committed counts as an edit more than those that it holds.

    needless: the numbers of what may need no memory, settings of the marks after an edit in a list.
    """

    def __init__(self, web, script, number):
        self.left, self.ends, self.needless = number, [0], set()
        super().__init__(Session(table_of({'a.w': web}), ROLES), script)

    def _make_or_hold(self, edit):
        self.left -= 1
        if edit[0] == 'marks' and self.held:
            self.needless.add(-self.left)
        return b'no NoMemory\n' if self.left == 0 else super()._make_or_hold(edit)

    def _list(self, line):
        if line == b'commit':
            self.left -= 1
            if self.left == 0:
                self.held = None
                return b'no NoMemory 0\n'
        return super()._list(line)

    def _write(self, text):
        super()._write(text)
        self.ends.append(len(self.written))


def expected(web, script):
    """The ways in which a run may end, (status, written), with what each of them lacks; and what
    has to be refused memory at some time."""
    whole = Refused(web, script, 0)
    ways = {(3, whole.written[:end]): 'the end' for end in whole.ends[:-1]}
    for number in range(-whole.left, 0, -1):
        refused = Refused(web, script, number)
        ways[refused.status, refused.written] = 'edit %d' % number
    ways[whole.status, whole.written] = 'nothing'
    needless = {'edit %d' % number for number in whole.needless}
    return ways, [way for way in ways.values() if way.startswith('edit') and way not in needless]


def run(folder, arguments, script, at, report):
    return run_program([program] + arguments, folder, script, LD_PRELOAD=refuse, REFUSE_AT=str(at),
                       REFUSE_REPORT=report)


def refuse_each(name, web, script, report):
    """Refuses each allocation, one a run: how many runs lack what, and after which answers a run
    ended."""
    (ways, edits), met, ends = expected(web, script), {}, set()
    folder = folder_with({'a.w': web})
    for at in range(1, MOST):
        done = run(folder.name, ['a'], script, at, report)
        way = ways.get((done.status, done.output))
        if not os.path.exists(report):
            break
        os.remove(report)
        ended = way == 'the end' and not done.output
        check(way and done.errors in ((b'', b'retangle: NoMemory\n') if ended else (b'',)), name,
              'allocation %d refused: status %s, %r, %r' % (at, done.status, done.output, done.errors))
        met[way] = met.get(way, 0) + 1
        if way == 'the end':
            ends.add(done.output)
    check(way == 'nothing', name, 'without a refusal: status %s, %r' % (done.status, done.output))
    for edit in edits:
        check(edit in met, name, 'no run was refused memory for %s' % edit)
    print('%s: of %d allocations that were refused %d ended the run, %d left an edit or a list out'
          % (name, at - 1, met.get('the end', 0), sum(met.get(edit, 0) for edit in edits)))
    return met, ends


# Arguments with what they end with: files that are named in each way and load others, arguments that
# are refused, and files that are refused. What is written is what a run without a refusal writes.
FILES = {'a.w': b'@i b.w\n@ A.\n@c\nint x;\n@i n.w\n', 'b.w': b'limbo\n@i c.w\n', 'c.w': b'\n',
         'a.ch': b'@x\nint x;\n@y\nint z;\n@z\n'}
SHOWN = b'= z.c 51\n/*1:*/\n#line 3 "a.w"\n\n#line 4 "a.ch"\nint z;\n/*:1*/\n'
ARGUMENTS = {
    'options': (['--change', 'a', '--out=z', 'a'], FILES, 1),
    'an argument that is no option': (['a', '--nothing'], FILES, 2),
    'help': (['--help'], FILES, 2),
    'no arguments': ([], FILES, 2),
    'a file too many': (['a', 'b'], FILES, 2),
    'a web that is not there': (['n'], FILES, 3),
    'a line that is too long': (['a'], {'a.w': b'x' * 65536}, 3),
}


def refuse_each_of_arguments(name, arguments, files, status, report):
    """Refuses each allocation, one a run, over a script of one question. What ends so answers nothing,
    and reports at most that it is out of memory; anything else ends as without a refusal."""
    folder, script = folder_with(files), b'show z.c\n'
    whole, lacking = run(folder.name, arguments, script, 0, report), 0
    check(whole.status == status, name, 'status %s' % whole.status)
    check(whole.output == (SHOWN if status == 1 else b''), name, whole)
    check(bool(whole.errors) == (status != 1), name, whole)
    for at in range(1, MOST):
        done = run(folder.name, arguments, script, at, report)
        if not os.path.exists(report):
            break
        os.remove(report)
        ended = done.status, done.output, done.errors
        is_lacking = ended in ((3, b'', b'retangle: NoMemory\n'), (3, b'', b''))
        lacking += is_lacking
        check(is_lacking or ended == (status, whole.output, whole.errors), name,
              'allocation %d refused: %r' % (at, ended))
    check(lacking, name, 'no run lacked memory')


def test_arguments(report):
    for name, (arguments, files, status) in ARGUMENTS.items():
        refuse_each_of_arguments(name, arguments, files, status, report)


def test_conversations(report):
    for name, (web, script) in CONVERSATIONS.items():
        met, ends = refuse_each(name, web, script, report)
        if name == LONG_COMMAND:
            check(b'work 1\n' in ends, name, 'no run ended between two commands: %r' % ends)
        if name == CHAIN:
            check(met.get('edit 1', 0) >= met.get('edit 2', 0) + FEWER, name,
                  'an edit that affects nothing makes no fewer allocations: %r' % met)


def main():
    with tempfile.TemporaryDirectory() as temporary:
        return run_all((test_arguments, test_conversations), os.path.join(temporary, 'refused'))


if __name__ == '__main__':
    sys.exit(main())
