"""Runs and scripts at a limit and one past it, and the order of refusals there. They are made here,
since they are long.

usage: limit_cases.py CTANGLE RETANGLE TOP      the last line is 'N passed, M failed'

tests/wrong_definitions.py asks the same of the reference tangler.
"""
import os
import sys
from collections import namedtuple

from chain import chain
from checks import finish, same
from running import run_over

# files, script: functions that make the files by name, and the script of retangle or None
# expected: the status, what is on standard error, and the files that are created, or the answers
Case = namedtuple('Case', 'name arguments files script expected')

CASES = []                                      # those that take the reference longest come last

NO_PROGRAM = b'warning: no program text\n'
ONE_PIECE = b'@ A.\n@c\nint x;\n'
BLANK = b'\n'


def runs(name, arguments, status, errors, created, **files):
    """A run of ctangle. A file's name is written with an underscore for its full stop."""
    makers = {key.replace('_', '.').encode(): made for key, made in files.items()}
    _add(name, arguments, lambda: {file: made() for file, made in makers.items()}, None,
         (status, errors, created))


def answers(name, arguments, files, turns, status=0):
    """A script: each line, or the lines of an edit, with what is answered."""
    expected = b''.join(answer + b'\n' for _, answer in turns)
    _add(name, arguments, lambda: files, lambda: b''.join(asked + b'\n' for asked, _ in turns),
         (status, b'', expected))


def _add(name, arguments, files, script, expected):
    CASES.append(Case(name, arguments.split(), files, script, expected))


def word(size):
    return lambda: b'x' * size


def lines(count, more=b''):
    return lambda: BLANK * count + more


def text(written):
    return lambda: written


# ------------------------------------------------------------------ bytes of a line and of a name

EMPTY = {b'a.c': b''}

runs('line of 65,536 bytes', 'a', 3, b'ctangle: a.w: LineTooLong\n', {}, a_w=word(65536))
runs('line of 65,535 bytes before its trailing spaces', 'a', 0, NO_PROGRAM, EMPTY,
     a_w=lambda: b'x' * 65535 + b' ' * 9)
runs('line of 65,536 bytes in an included file', 'a a', 3, b'ctangle: b.w: LineTooLong\n', {},
     a_w=text(b'@i b.w\n'), b_w=word(65536), a_ch=text(b''))
runs('line of 65,536 bytes in the change file', 'a a', 3, b'ctangle: a.ch: LineTooLong\n', {},
     a_w=text(b'@i b.w\n'), b_w=word(65536), a_ch=word(65536))

LONG_NAME = 'n' * 254

runs('web with a name of 256 bytes', LONG_NAME, 3,
     b'ctangle: %s.w: BadName\n' % LONG_NAME.encode(), {})
# the change file's name is looked at before the main file's, and both before any file is read
runs('change file with a name of 257 bytes', 'a %s %s' % (LONG_NAME, LONG_NAME), 3,
     b'ctangle: %s.ch: BadName\n' % LONG_NAME.encode(), {})
runs('main file with a name of 256 bytes', 'a - ' + LONG_NAME, 3,
     b'ctangle: %s.c: BadName\n' % LONG_NAME.encode(), {})
# such a file is not asked for
runs('inclusion with a name of 256 bytes', 'a', 1,
     b'a.w:1: error: included file not found: %snn\n' % LONG_NAME.encode() + NO_PROGRAM, EMPTY,
     a_w=text(b'@i %snn\n' % LONG_NAME.encode()))

# ------------------------------------------------------------------ bytes of a file and of a script

runs('file of 67,108,864 bytes in one line', 'a', 3, b'ctangle: a.w: LineTooLong\n', {},
     a_w=word(67108864))
runs('file of 67,108,865 bytes', 'a', 3, b'ctangle: cannot read a.w\n', {}, a_w=word(67108865))


def script_of(size):
    return lambda: b'work\n' + b'x' * (size - len(b'work\n\n')) + b'\n'


_add('script of 67,108,864 bytes', 'a', lambda: {b'a.w': ONE_PIECE}, script_of(67108864),
     (0, b'', b'work 1\nno BadCommand\n'))
_add('script of 67,108,865 bytes', 'a', lambda: {b'a.w': ONE_PIECE}, script_of(67108865),
     (3, b'', b'work 1\n'))

# ------------------------------------------------------------------ files


def included(count, **others):
    """A web that includes this number of files, f1.w and so on, each without a line."""
    files = {'f%d_w' % number: text(b'') for number in range(1, count + 1)}
    web = b''.join(b'@i f%d.w\n' % number for number in range(1, count + 1))
    return {**files, 'a_w': text(web), **others}


LAST_NOT_THERE = included(256)
del LAST_NOT_THERE['f256_w']

runs('256 files', 'a', 0, NO_PROGRAM, EMPTY, **included(255))
runs('257 files', 'a', 3, b'ctangle: f256.w: TooManyFiles\n', {}, **included(256))
runs('257 files, the last with a line of 65,536 bytes', 'a', 3,
     b'ctangle: f256.w: TooManyFiles\n', {}, **included(256, f256_w=word(65536)))
runs('257 files, of which the last one is not there', 'a', 1,
     b'a.w:256: error: included file not found: f256.w\n' + NO_PROGRAM, EMPTY, **LAST_NOT_THERE)

# ------------------------------------------------------------------ the order of refusals

LONG = b'x' * 65536
TOO_MANY = [(b'create f%d' % number, b'ok') for number in range(1, 256)]

answers('refusals of edits that have two reasons', 'a', {b'a.w': ONE_PIECE}, [
    (b'replace 3 a.w\n' + b'x' * 65535, b'ok'),
    (b'replace 3 a.w\n' + b'x' * 65535 + b'   ', b'ok'),
    (b'replace 3 a.w\n' + LONG, b'no LineTooLong'),
    (b'insert 5 a.w\n' + LONG, b'no NoSuchLine'),
    (b'replace 4 a.w\n' + LONG, b'no NoSuchLine'),
    (b'insert 1 zz\n' + LONG, b'no UnknownFile'),
    (b'insert 9 zz\nx', b'no UnknownFile'),
    (b'remove 9 zz', b'no UnknownFile'),
    (b'insert 9 \n' + LONG, b'no BadName'),
    (b'remove 9 ', b'no BadName'),
    (b'discard ', b'no BadName'),
    (b'discard a.w', b'no RoleFile'),
    (b'create ' + b'n' * 255, b'ok'),
    (b'create ' + b'n' * 256, b'no BadName'),
    (b'discard ' + b'n' * 256, b'no BadName')])
answers('refusals of a file that has two reasons', 'a', {b'a.w': ONE_PIECE}, TOO_MANY + [
    (b'create g', b'no TooManyFiles'),
    (b'create a.w', b'no FileExists'),
    (b'create f255', b'no FileExists'),
    (b'create ', b'no BadName'),
    (b'discard f255', b'ok'),
    (b'create g', b'ok')])

# ------------------------------------------------------------------ depth and weight


def chain_in_c(count):
    """The C of a chain of names, of which the last one stands for 1."""
    opened = b''.join(b'/*%d:*/\n#line %d "a.w"\n\n ' % (n, 2 * n) for n in range(1, count + 1))
    last = b'/*%d:*/\n#line %d "a.w"\n\n1\n/*:%d*/' % (count + 1, 2 * count + 2, count + 1)
    closed = b''.join(b'\n#line %d "a.w"\n\n/*:%d*/' % (2 * n + 1, n) for n in range(count, 0, -1))
    return opened + last + closed + b'\n'


runs('chain of 999 names below the program', 'a', 0, b'', {b'a.c': chain_in_c(999)},
     a_w=lambda: chain(999).encode())
runs('chain of 1,000 names below the program', 'a', 1,
     b'error: too large: the unnamed program\n', {}, a_w=lambda: chain(1000).encode())

HEAVY = b'y' * 60000 + b'\n' + b'z' * 5784 + b'\n'


def heavy_file(size):
    """A file with 255 uses of a name of weight 65,790, and a word of this size, weighs
    5 + 255 * (2 + 65,790) + size. Each use is a space, the C of the name and a line mark."""
    return lambda: b'@ P.\n@(s.h@>=\n%s%s\n@ @<a@>=\n%s' % (b'@<a@>' * 255, b'x' * size, HEAVY)


def heavy_c(size):
    used = b' /*2:*/\n#line 4 "a.w"\n\n%s/*:2*/\n#line 3 "a.w"\n' % HEAVY
    return b'/*1:*/\n#line 2 "a.w"\n\n%s%s\n/*:1*/\n' % (used * 255, b'x' * size)


runs('file of weight 16,777,216', 'a', 0, NO_PROGRAM, {b'a.c': b'', b's.h': heavy_c(251)},
     a_w=heavy_file(251))
runs('file of weight 16,777,217', 'a', 1, b'a.w:2: error: too large: <s.h>\n' + NO_PROGRAM, EMPTY,
     a_w=heavy_file(252))

# ------------------------------------------------------------------ lines of a file

runs('file of 1,000,001 lines', 'a', 3, b'ctangle: a.w: TooManyLines\n', {}, a_w=lines(1000001))
runs('file of 1,000,002 lines, the last of 65,536 bytes', 'a', 3,
     b'ctangle: a.w: LineTooLong\n', {}, a_w=lines(1000001, LONG))
runs('included file of 1,000,001 lines', 'a', 3, b'ctangle: b.w: TooManyLines\n', {},
     a_w=text(b'@i b.w\n'), b_w=lines(1000001))
runs('257 files, the last of 1,000,001 lines', 'a', 3, b'ctangle: f256.w: TooManyFiles\n', {},
     **included(256, f256_w=lines(1000001)))
runs('change file of 1,000,000 lines', 'a a', 0, NO_PROGRAM, EMPTY, a_w=text(b''),
     a_ch=lines(1000000))
FULL_CHANGES = {b'a.w': ONE_PIECE, b'a.ch': BLANK * 1000000}
answers('lines at the limit of a file', 'a --change a', FULL_CHANGES, [
    (b'insert 1000001 a.ch\nx', b'no TooManyLines'),
    (b'insert 1 a.ch\nx', b'no TooManyLines'),
    (b'insert 1000002 a.ch\nx', b'no NoSuchLine'),
    (b'insert 1 a.ch\n' + LONG, b'no LineTooLong'),
    (b'replace 1000000 a.ch\nx', b'ok'),
    (b'replace 1000001 a.ch\nx', b'no NoSuchLine')])

# ------------------------------------------------------------------ lines taken

WEB = b'@i b.w\n@i b.w\n'
LINES = b'o\n' * 999980                         # in b.w; the first change takes them once
CHANGES = b'@x\n%s@y\n@z\n@x\np\np\n@y\n' % LINES


def runs_at_the_end(name, status, faults, more, new=b'', after=b''):
    """A run that has taken 1,999,962 lines, in which the web ends with these more, and the second
    change with these new lines. The changes after it are never used."""
    runs(name, 'a a', status, faults + NO_PROGRAM, EMPTY, a_w=lambda: WEB + more, b_w=lambda: LINES,
         a_ch=lambda: CHANGES + new + b'@z\n' + after)


FILLED = b'l\n' * 36                            # 1,999,998 lines
TAKEN = b'p\np\n'

runs_at_the_end('a new line of a change is the last of 2,000,000 lines', 0, b'',
                FILLED[len(b'l\n'):] + TAKEN, new=b'r\n')
runs_at_the_end('each line that a change takes counts, and the changes after it are not looked at',
                1, b'a.w:41: error: too many lines\n', FILLED + TAKEN + b'q\n',
                after=b'@x\nnever\n@y\n@z\n')
runs_at_the_end('new lines count when they are read', 1,
                b'a.ch:999988: error: too many lines\n', FILLED + TAKEN, new=b'r\n')
runs_at_the_end('a change takes one line more than 2,000,000', 0, b'', FILLED + b'l\n' + TAKEN)


def main():
    ctangle, retangle = map(os.path.abspath, sys.argv[1:3])
    for case in CASES:
        files = {os.fsdecode(name): made for name, made in case.files().items()}
        if case.script is None:
            ended, created = run_over(files, [ctangle] + case.arguments)
            created = {os.fsencode(name): made for name, made in created.items()}
            same((ended.status, ended.errors, created), case.expected, case.name)
            same(ended.output, b'', case.name)
        else:
            ended, _ = run_over(files, [retangle] + case.arguments, case.script())
            same((ended.status, ended.errors, ended.output), case.expected, case.name)
    return finish()


if __name__ == '__main__':
    sys.exit(main())
