"""A C compiler reads what the built ctangle makes of macros over lines, and of lines that continue.

usage: compiler.py CTANGLE TOP        TOP is the folder of the repository

`cc -E -dM` lists each macro as the compiler has understood it.

- tests/compiler/NAME: the list for in/a.w, less that of an empty file, is the file macros. Or what
  the compiler reads of its C are the tokens in the file tokens. A program is compiled and run, with
  and without its change file if it has one, and prints the file printed.
- Generated webs: each macro, or each line for the preprocessor, is also written on one line, with
  one space wherever the web keeps two items apart. The compiler's lists of these lines and of what
  ctangle makes have the same macros, of the same C tokens; or it reads the same tokens of both. The
  lines are made from what the web is made of, and not from any output.
- Generated webs of two output files with groups, each with the macros of its conditions defined and
  undefined. The compiler says which tokens it reads, and at which line of which file each one is: as
  c_reads.py has it, where it is told which regions are read; and each word at its own line, unless
  the word is in a stretch.

The last line is 'N passed, M failed'.
"""
import os
import random
import re
import sys
import tempfile
from collections import Counter
from itertools import product

ctangle, top = (os.path.abspath(path) for path in sys.argv[1:3])
import random_directives
import random_groups
from c_reads import c_reads, read_by_compiler
from c_tokens import tokens
from checks import check, lay, read, run_all, same
from random_macros import KINDS, Web
from running import run

STORED = os.path.join(top, 'tests', 'compiler')
WEBS = 400
DIRECTIVES = 300        # webs with lines for the preprocessor
GROUPS = 150            # webs with groups, of which some are left out
TOGETHER = 50           # how many webs one run of the compiler reads
LEAST = 20              # so often each pair of kinds, and each other place, is in the generated webs

C23 = '-std=gnu2x'      # with what gcc adds to it, as raw strings
MACROS = ([], ['A'], ['B'], ['A', 'B'])         # those of the conditions that are defined
DEFINED = re.compile(rb'#define ([\w$]+)(\([^)]*\))?(?: (.*))?')


# ---------------------------------------------------------------------- running

def tangle(name, folder, *arguments):
    same(run([ctangle, 'a'] + list(arguments), folder), (b'', b'', 0), name + ', ctangle')


def listed(name, folder, file):
    """The compiler's list of the macros of a file, less that of an empty one. It has to read the
    file without a warning."""
    lay(folder, {'empty.c': b''})
    lists = []
    for each in ('empty.c', file):
        text, errors, status = run(['cc', '-E', '-dM', each], folder)
        check(status == 0 and not errors, name, errors.decode(errors='replace')[:1000])
        lists.append(Counter(text.splitlines()))
    return sorted((lists[1] - lists[0]).elements())


def preprocessed(name, folder, file):
    """The tokens that the preprocessor makes of a file, which it has to read without a warning."""
    text, errors, status = run(['cc', C23, '-E', '-P', '-I.', file], folder)
    check(status == 0 and not errors, name, errors.decode(errors='replace')[:1000])
    return tokens(text)


def read_where_defined(name, folder, file, macros):
    """The tokens that the compiler reads of a file where these macros are defined, each with its file and line."""
    found, errors = read_by_compiler(folder, file, *['-D' + macro for macro in macros])
    check(not errors, name, errors.decode(errors='replace')[:1000])
    return found


# ---------------------------------------------------------------------- stored webs

def test_stored_lists():
    for name in ('pairs-in-macros', 'pairs-in-continued-lines'):
        with tempfile.TemporaryDirectory() as folder:
            lay(folder, {'a.w': read(STORED, name, 'in', 'a.w')})
            tangle(name, folder)
            same(listed(name, folder, 'a.c'), read(STORED, name, 'macros').splitlines(), name)


def test_stored_tokens():
    for name in ('slashes-at-the-ends-of-pieces', 'constants-that-touch', 'backslashes-in-macros',
                 'heads-with-comments-and-codes', 'directives-over-several-lines', 'separators-and-raw-strings'):
        with tempfile.TemporaryDirectory() as folder:
            lay(folder, {'a.w': read(STORED, name, 'in', 'a.w')})
            tangle(name, folder)
            same(preprocessed(name, folder, 'a.c'), read(STORED, name, 'tokens').split(), name)


def test_program_of_slashes():
    name = 'program-of-heads-and-slashes'
    with tempfile.TemporaryDirectory() as folder:
        lay(folder, {'a.w': read(STORED, name, 'in', 'a.w')})
        tangle(name, folder)
        made = run(['cc', '-Wall', '-o', 'a', 'a.c'], folder)
        same(made, (b'', b'', 0), name + ', cc')
        same(run(['./a'], folder) if made[2] == 0 else None, (read(STORED, name, 'printed'), b'', 0), name)


def test_program():
    name = 'a program of macros over lines'
    with tempfile.TemporaryDirectory() as folder:
        lay(folder, {file: read(STORED, 'program', 'in', file) for file in ('a.w', 'a.ch')})
        for change, old in (('-', b'old'), ('a.ch', b'three times')):
            tangle(name, folder, change)
            made = run(['cc', '-Wall', '-o', 'a', 'a.c'], folder)
            same(made, (b'', b'', 0), name + ', cc')
            printed = read(STORED, 'program', 'printed').replace(b'three times', old)
            same(run(['./a'], folder) if made[2] == 0 else None, (printed, b'', 0), name)


# ---------------------------------------------------------------------- generated webs

def understood(lines):
    """The macros of a list: the parameters of each, if it has any, and the C tokens of its text."""
    found = {}
    for line in lines:
        defined = DEFINED.fullmatch(line)
        name, parameters, text = defined.groups() if defined else (line, None, None)
        found[name] = parameters, tokens(text or b'')
    return found


def test_generated():
    places, chance = Counter(), random.Random(49)
    for first in range(0, WEBS, TOGETHER):
        webs = [Web(chance, number) for number in range(first, first + TOGETHER)]
        with tempfile.TemporaryDirectory() as folder:
            check_webs('generated webs from %d on' % first, folder, webs)
        for web in webs:
            places.update(web.places)
    pairs = ['%s, %s over a line end of %s' % (one, other, where)
             for one in KINDS for other in KINDS for where in ('a macro', 'a C part')]
    others = ['a backslash at the end', 'a name made by a join', 'a join', 'verbatim text',
              'a change', 'a comment over a line end of a macro',
              'a comment over a line end of a C part', 'parameters']
    for place in pairs + others:
        check(places[place] >= LEAST, 'generated webs', 'only %d times: %s' % (places[place], place))


def check_webs(name, folder, webs):
    """What the compiler understands of the outputs of these webs, and of their macros on a line each."""
    lines = [line for web in webs for line in web.lines_in_c()]
    for web in webs:
        place = '%d' % web.number
        lay(folder, {os.path.join(place, file): text for file, text in web.files().items()})
        tangle('generated web ' + place, os.path.join(folder, place), 'a')
    texts = {'ours.c': b''.join(b'#include "%d/a.c"\n' % web.number for web in webs),
             'lines.c': b''.join(line + b'\n' for line in lines)}
    lay(folder, texts)
    expected, ours = (understood(listed(name, folder, file)) for file in ('lines.c', 'ours.c'))
    names = [macro for web in webs for macro in web.names()]
    same(sorted(expected), sorted(names), name + ', the macros on a line each')
    same(sorted(ours), sorted(names), name + ', the macros that ctangle makes')
    for web in webs:
        for macro in web.names():
            same(ours.get(macro), expected.get(macro), 'generated web %d, %s' % (web.number, macro.decode()))


def test_generated_directives():
    places, chance = Counter(), random.Random(68)
    for number in range(DIRECTIVES):
        name, web = 'generated directives %d' % number, random_directives.Web(chance)
        with tempfile.TemporaryDirectory() as folder:
            lay(folder, {**web.files(), 'lines.c': b''.join(line + b'\n' for line in web.lines_in_c())})
            tangle(name, folder, 'a')
            expected, ours = (preprocessed(name, folder, file) for file in ('lines.c', 'a.c'))
            same(ours, expected, name)
        places.update(web.places)
    names = [b'define', b'undef', b'include', b'if', b'ifdef', b'ifndef', b'elif', b'else', b'endif']
    for place in ['a line end in #%s' % name.decode() for name in names] + ['a change']:
        check(places[place] >= LEAST, 'generated directives', 'only %d times: %s' % (places[place], place))


def test_generated_groups():
    places, chance = Counter(), random.Random(83)
    for number in range(GROUPS):
        name, web = 'generated groups %d' % number, random_groups.Web(chance)
        with tempfile.TemporaryDirectory() as folder:
            lay(folder, web.files)
            tangle(name, folder, random_groups.CHANGE.decode())
            for file, macros in product(web.programs, MACROS):
                check_groups('%s, %s with %s' % (name, file, macros), folder, web, file, macros, places)
        places.update(web.places)
    print('%(words)d words at lines of their own, %(wrong)d at others' % places)
    forms = ['if', 'ifdef', 'ifndef', 'elif', 'elifdef', 'elifndef', 'else', 'endif']
    others = ['a change', 'an inclusion', 'a group over several pieces', 'counted', 'joined']
    for place in ['#' + form for form in forms] + others:
        check(places[place] >= LEAST, 'generated groups', 'only %d times: %s' % (places[place], place))


def check_groups(name, folder, web, file, macros, places):
    found = read_where_defined(name, folder, file, macros)
    ours = c_reads(web.regions(file, macros), file.encode(), read(folder, file))
    same([(each.token, each.place) for each in ours if not each.in_directive], found, name + ', the tokens')
    words = [(word, place) for word, place in found if random_groups.WORD.fullmatch(word)]
    same([word for word, _ in words], web.words_read(file, macros), name + ', the words')
    asked = [(word, place) for word, place in words if word not in web.in_stretches]
    wrong = [(word, place, web.place_of[word]) for word, place in asked if place != web.place_of[word]]
    places.update(words=len(asked) - len(wrong), wrong=len(wrong))
    same(wrong, [], name + ', words at wrong lines: each, where it is said to be, where it is')


def main():
    return run_all((test_stored_lists, test_stored_tokens, test_program, test_program_of_slashes, test_generated,
                    test_generated_directives, test_generated_groups))


if __name__ == '__main__':
    sys.exit(main())
