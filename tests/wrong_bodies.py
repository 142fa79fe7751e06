#!/usr/bin/env -S python3 -B
"""Tries the wrong bodies in tests/wrong-bodies, which the gate leaves out for their time: the
prover has to refuse each.

usage: tests/wrong_bodies.py [--twins] [CRATE..]

One check of a crate tries many, of each function one: a function is checked against its own clauses
and those of what it calls, whatever the bodies of the other functions are. What is no body, such as
a clause of an `impl`, is tried alone.

An edit is refused by the verdict of the function that it changes: `not proved`, or `no proof` of a
goal. It is not refused where that function is proved, whatever else is not, nor where its proof
files name what is gone: a goal, a step or a call of the code before. Then only the form of the edit
would be refused, and it needs another one.

With --twins it tries the right bodies in tests/right-bodies instead: each has to be proved.

It works on a copy of the crates. The last line is 'N passed, M failed'.
"""
import difflib
import glob
import os
import re
import shutil
import subprocess
import sys
import tempfile
from collections import namedtuple

from checks import check, finish

TOP = os.path.dirname(os.path.dirname(os.path.abspath(__file__)))
FUNCTION = re.compile(r'( *)(?:pub(?:\([a-z]+\))? )?fn (\w+)')
IMPL = re.compile(r'impl\b(?:<[^{]*?>)? (?:(\w+)(?:<(\w+))?[^{]* for )?(\w+)')
IN_SOURCE = re.compile(r'(?:so far: )?(?:note: )?(?:\./)?(src/[\w/]+\.rt):(\d+):\d+: ')
IN_PROOF = re.compile(r'(?:so far: )?(?:\./)?proofs/([\w/+-]+)\.antt:\d+:\d+: error')
VERDICT = re.compile(r'fn ([\w:]+): (proved|not proved|no proof)(?:: (.*))?')
# A line of an error after its first.
CONTINUED = re.compile(r'\n(?:so far: )? {2,}')
# What the prover says of names in a proof that mean nothing any more.
GONE = re.compile(r' has no field `| that can be named from here| not in scope|unbound name')
LONGEST = 400           # bytes of a line that is shown
IS_FALSE = 'the facts known there allow values at which this goal is false'

# A function of a file, with its first and its last line, counted from 0. It is named as the prover
# names it: by its type, with the trait if it is of one, as `RefusalFromNoMemory::from`, or else by
# its module.
Function = namedtuple('Function', 'file name first last')
# Lines that an edit takes out of a file, and the lines that it puts in their place.
Change = namedtuple('Change', 'file first last lines')
# What an edit changes: `functions` has the names of functions, and None where it is no function.
Edit = namedtuple('Edit', 'name changes functions')

# What becomes of an edit that is tried.
REFUSED, PROVED, OF_FORM, ELSEWHERE, UNREACHED = (
    'refused', 'proved', 'a name in the proof is gone', 'not at the function that is edited',
    'it did not reach the prover')
Tried = namedtuple('Tried', 'edit result line')


def functions_of(file, text):
    """The functions of a source file."""
    lines, found, owner = text.split('\n'), [], ''
    module = file[len('src/'):-len('.rt')]
    for number, line in enumerate(lines):
        impl = IMPL.match(line)
        owner = ''.join(part or '' for part in impl.group(3, 1, 2)) if impl else owner
        start = FUNCTION.match(line)
        if not start:
            continue
        indent, name = start.groups()
        last = next(at for at in range(number + 1, len(lines))
                    if re.match(indent + r'(}|\{\})', lines[at]))
        # A note about a function stands at the first of its attributes.
        first = number
        while lines[first - 1].lstrip().startswith(('#[', '//')):
            first -= 1
        found.append(Function(file, name_of((owner if indent else module, name)), first, last))
    return found


def name_of(path):
    """How a function is named here, by the last parts of its path."""
    return '::'.join(part for part in path[-2:] if part not in ('lib', 'main') or part is path[-1])


def read_texts(path, crate):
    """The texts of the files that an edit changes, as they are and as the edit makes them."""
    file, old, texts = '', '', {}
    with open(path, encoding='utf-8') as source:
        for line in source.read().split('\n'):
            word, _, rest = line.partition(' ')
            if word == 'file:':
                file = rest.strip()
            elif word == 'old:':
                old = rest
            elif word == 'new:':
                before, after = texts.get(file) or 2 * (read_file(crate, file),)
                if after.count(old) != 1:
                    return {}
                texts[file] = before, after.replace(old, rest)
    return texts


def read_file(*path):
    with open(os.path.join(*path), encoding='utf-8') as source:
        return source.read()


def read_edit(path, crate):
    """The edit of this file. It has no change where it does not fit the crate."""
    changes, functions = [], set()
    for file, (before, after) in read_texts(path, crate).items():
        old, new = before.split('\n'), after.split('\n')
        here = functions_of(file, before) if file.startswith('src/') else []
        for tag, first, last, a, b in difflib.SequenceMatcher(None, old, new, False).get_opcodes():
            if tag == 'equal':
                continue
            changes.append(Change(file, first, last, new[a:b]))
            inside = [it.name for it in here if it.first <= max(first, last - 1) <= it.last]
            functions.update(inside or [None])
    return Edit(os.path.basename(path), changes, functions)


def rounds_of(edits):
    """The edits in lists, none of which has two edits of one function. An edit of no function is
    alone."""
    alone = [[edit] for edit in edits if None in edit.functions]
    left, rounds = [edit for edit in edits if None not in edit.functions], []
    while left:
        taken, now = set(), []
        for edit in left:
            if not taken & edit.functions:
                now.append(edit)
                taken |= edit.functions
        left = [edit for edit in left if edit not in now]
        rounds.append(now)
    return rounds + alone


def make_changes(crate, edits):
    """Makes the changes of these edits in the crate. Returns the texts of its files before."""
    before = {}
    for file in {change.file for edit in edits for change in edit.changes}:
        before[file] = read_file(crate, file)
        lines = before[file].split('\n')
        changes = [it for edit in edits for it in edit.changes if it.file == file]
        for change in sorted(changes, key=lambda it: -it.first):
            lines[change.first:change.last] = change.lines
        write_file('\n'.join(lines), crate, file)
    return before


def write_file(text, *path):
    with open(os.path.join(*path), 'w', encoding='utf-8') as target:
        target.write(text)


def prove(crate):
    """Whether a check of the crate proves all of it, and what it prints."""
    ran = subprocess.run(['rt', 'check'], cwd=crate, text=True, stdin=subprocess.DEVNULL,
                         stdout=subprocess.PIPE, stderr=subprocess.STDOUT)
    return ran.returncode == 0, ran.stdout


def try_edits(crate, edits):
    """Whether a check proves the crate with these edits, what it prints, and the functions of its
    files then."""
    before = make_changes(crate, edits)
    functions = [it for file in before if file.startswith('src/')
                 for it in functions_of(file, read_file(crate, file))]
    is_proved, output = prove(crate)
    for file, text in before.items():
        write_file(text, crate, file)
    return is_proved, output, functions


def reasons(output, functions, edit):
    """The notes and errors at a function that the edit changes, and in its proof files; all of them
    if it changes no function."""
    found = []
    for line in CONTINUED.sub(' ', output).split('\n'):
        source, proof = IN_SOURCE.match(line), IN_PROOF.match(line)
        names = []
        if source:
            file, at = source.group(1), int(source.group(2))
            names = [it.name for it in functions
                     if it.file == file and it.first < at <= it.last + 1]
        elif proof:
            names = [name_of(proof.group(1).replace('+', '').split('/')[:-1])]
        if edit.functions.intersection(names) or None in edit.functions and (source or proof):
            found.append(line)
    return found


def own_verdicts(output, edit):
    """The verdicts of the functions that the edit changes, if these are about their own goals."""
    found = []
    for path, verdict, why in VERDICT.findall(output):
        if name_of(path.split('::')[1:]) in edit.functions and not why.startswith('it calls '):
            found.append((verdict, why))
    return found


def result_of(output, functions, edit):
    """What an edit came to in a check in which not all is proved."""
    lines = reasons(output, functions, edit)
    if None not in edit.functions:
        refusing = [why for verdict, why in own_verdicts(output, edit) if verdict != 'proved']
        if any(why and not why.startswith('expected answers ') for why in refusing):
            return Tried(edit, UNREACHED, refusing[0])      # the prover makes no goals of it
        if not refusing:
            return Tried(edit, ELSEWHERE, '')
        lines = lines or [why or 'not proved' for why in refusing]
    false = [line for line in lines if IS_FALSE in line]
    gone = [line for line in lines if GONE.search(line)]
    if not false and gone:
        return Tried(edit, OF_FORM, gone[0])
    return Tried(edit, REFUSED, (false + lines)[0]) if lines else Tried(edit, ELSEWHERE, '')


def results(crate, edits):
    """What each of these edits came to. One that a check with others did not refuse is tried
    alone."""
    is_proved, output, functions = try_edits(crate, edits)
    if is_proved:
        return [Tried(edit, PROVED, '') for edit in edits]
    if 'logic=not-proved' not in output:
        if len(edits) == 1:
            return [Tried(edits[0], UNREACHED, '')]
        middle = len(edits) // 2
        return results(crate, edits[:middle]) + results(crate, edits[middle:])
    found = [result_of(output, functions, edit) for edit in edits]
    if len(edits) == 1:
        return found
    unseen = [tried.edit for tried in found if tried.result == ELSEWHERE]
    return [tried for tried in found if tried.result != ELSEWHERE] + [
        tried for edit in unseen for tried in results(crate, [edit])]


def try_crate(top, bodies, name):
    """Tries the edits of a crate, and counts each that comes to what it has to."""
    crate = os.path.join(top, 'crates', name)
    paths = sorted(glob.glob(os.path.join(TOP, 'tests', bodies, name, '*.edit')))
    edits = [read_edit(path, crate) for path in paths]
    wanted = PROVED if bodies == 'right-bodies' else REFUSED
    for edit in edits:
        if not edit.changes:
            check(False, name + '/' + edit.name, 'it does not fit the crate')
    if not prove(crate)[0]:
        check(False, name, 'the crate itself is not proved')
        return
    for now in rounds_of([edit for edit in edits if edit.changes]):
        for edit, result, line in results(crate, now):
            said = '%s: %s' % (result, line[:LONGEST]) if line else result
            print('%s/%s: %s' % (name, edit.name, said), flush=True)
            check(result == wanted, name + '/' + edit.name, said)


def main(arguments):
    bodies = 'right-bodies' if arguments[:1] == ['--twins'] else 'wrong-bodies'
    names = [it for it in arguments if it != '--twins']
    names = names or sorted(os.listdir(os.path.join(TOP, 'tests', bodies)))
    with tempfile.TemporaryDirectory() as top:
        # What checks kept in out/ is copied too, so that the crates below are not proved again.
        shutil.copytree(os.path.join(TOP, 'crates'), os.path.join(top, 'crates'),
                        ignore=shutil.ignore_patterns('must-fail'))
        for file in ('crates.txt', 'HANDLES'):
            shutil.copy(os.path.join(TOP, file), top)
        for name in names:
            try_crate(top, bodies, name)
    return finish()


if __name__ == '__main__':
    sys.exit(main(sys.argv[1:]))
