#!/usr/bin/env -S python3 -B
"""Finds shorter proofs of a crate's lemmas and answers, and writes them in place of the longer.

usage: tests/shorter_proofs.py CRATE [FILE..]

A part of a proof has a goal of its own: the proof of an equation, a branch, a field, what follows a
`let`. For each part that takes several lines, copies of its lemma are written below the lemma, each
with a tactic in place of the part. One check tells of all copies which are proved. The largest
parts that a tactic proves are then replaced. A tactic is given the lemmas that the part cites.

The crate has to be proved before. With files it tries those whose path contains one of these words.
`rt fmt` and `rt tidy` come afterwards: the first lays the proofs out, the second drops imports that
nothing uses any more. The last line says how many lines went.
"""
import os
import re
import subprocess
import sys
from collections import namedtuple

WIDTH = 105                     # columns of a tactic; `rt fmt` breaks lines of over 118
STATEMENT = re.compile(r'( *)(?:pub )?([^\s(){};,:=]+) :(?: |$)')
TOKEN = re.compile(r'--[^\n]*|"(?:[^"\\]|\\.)*"|[()\[\]{},;|]|[^\s()\[\]{},;|"]+')
ERROR = re.compile(r'(?:\./)?(proofs/[\w/.+-]+\.antt):(\d+):\d+: error: (.*)')
CLOSING = {'(': ')', '[': ']', '{': '}'}
TACTICS = {'omega', 'grind', 'search', 'cc', 'simp', 'rw', 'first_of', 'assumption', 'hlevel'}
RELATIONS = ('≡', '≤', ' < ', '↔', '⊎', '≢', '⊥', 'goal.')
# What the types of laws begin with where they have no sign of a relation. Definitions have others,
# and are left as they are.
LAWS = ('Is', 'Are', 'Has', 'Have', 'Reads', 'All', 'Holds', 'Adds', 'Begins', 'Follows', 'Keeps',
        'If', 'On', 'Contains', 'Ends', 'Makes', 'Says', 'Reaches', 'Passes', 'Decides', 'Lead', 'Law')
IMPORTS = {'arith': 'Rattle.std.proofs.Common', 'rules': 'Rattle.std.proofs.Common',
           'nat_tests': 'Rattle.std.proofs.lemmas.Bool.Decides'}

# A lemma or an answer: the lines of its statement begin at `first`, and `equations` are the first
# line and the line after the last of each.
Lemma = namedtuple('Lemma', 'name first equations')
# A tactic in place of the text between two offsets of the lines of an equation.
Trial = namedtuple('Trial', 'file lemma lines start end tactic')


def is_blank(line):
    return not line.strip() or line.strip().startswith('--')


def indent_of(line):
    return len(line) - len(line.lstrip())


def end_of(lines, first, indent):
    """The line after a declaration that begins on the line `first`."""
    at = first + 1
    while at < len(lines):
        line = lines[at]
        inside = not is_blank(line) and indent_of(line) > indent
        closes = indent_of(line) == indent and line.strip()[:1] in ('}', ']', ')')
        before_more = (is_blank(line) and at + 1 < len(lines) and lines[at + 1].strip()
                       and indent_of(lines[at + 1]) > indent)
        if not (inside or closes or before_more):
            break
        at += 1
    while is_blank(lines[at - 1]):
        at -= 1
    return at


def is_law(statement):
    """Whether the type, after its last arrow outside brackets, says a property."""
    text, depth, last = statement.partition(' :')[2], 0, 0
    for at, letter in enumerate(text):
        depth += (letter in '({[') - (letter in ')}]')
        if letter == '→' and depth == 0:
            last = at + 1
    result = text[last:].strip()
    return result.startswith(LAWS) or any(sign in result for sign in RELATIONS)


def lemmas_of(lines):
    """The lemmas and answers of a file."""
    found, at = [], 0
    while at < len(lines):
        start = STATEMENT.match(lines[at])
        if not start:
            at += 1
            continue
        first, indent = at, len(start.group(1))
        at = end_of(lines, first, indent)
        statement, equations = '\n'.join(lines[first:at]), []
        equation = re.compile(' {%d}%s ' % (indent, re.escape(start.group(2))))
        while at < len(lines) and (is_blank(lines[at]) or equation.match(lines[at])
                                   or re.match(r' *(unfolding|using) ', lines[at])):
            if equation.match(lines[at]):
                equations.append((at, end_of(lines, at, indent)))
                at = equations[-1][1]
            else:
                at += 1
        if equations and is_law(statement):
            found.append(Lemma(start.group(2), first, tuple(equations)))
    return found


class Parts:
    """The parts of a proof that have goals of their own, as pairs of offsets."""

    def __init__(self, text):
        self.tokens = [(it.start(), it.end(), it.group()) for it in TOKEN.finditer(text)
                       if not it.group().startswith('--')]
        self.at, self.found = 0, []
        end = self.term(())
        if end:
            self.found.append((self.tokens[0][0], end))

    def word(self):
        return self.tokens[self.at][2] if self.at < len(self.tokens) else ''

    def past(self, wanted):
        """Goes past the next token outside brackets that `wanted` holds for, or to what closes
        them. Returns the words on the way."""
        depth, words = 0, []
        while self.word():
            word = self.word()
            if depth == 0 and (wanted(word) or word in ')]}'):
                self.at += wanted(word)
                break
            depth += (word in '([{') - (word in ')]}')
            words.append(word)
            self.at += 1
        return words

    def term(self, ends):
        """Reads a term up to one of these words, or to what closes a bracket. Returns its end."""
        begins, last, before = [], None, ''
        while self.word() and self.word() not in ends and self.word() not in ')]}':
            word = self.word()
            self.at += 1
            if word == 'let':
                self.bound_term()
                begins.append(self.at)
            elif word == 'λ':
                self.past(lambda it: it.endswith('.'))
                begins.append(self.at)
            elif word in CLOSING:
                self.inside(word, before)
            before, last = word, self.tokens[self.at - 1][1]
        for begin in begins:
            if begin < self.at:
                self.found.append((self.tokens[begin][0], last))
        return last

    def part(self, ends):
        begin = self.at
        end = self.term(ends)
        if end and begin < len(self.tokens):
            self.found.append((self.tokens[begin][0], end))

    def bound_term(self):
        has_type = ':' in self.past(lambda it: it == '=')
        if has_type:
            self.part(('in',))
        else:
            self.term(('in',))
        self.at += 1

    def inside(self, bracket, before):
        """Reads what is in brackets, and what closes them."""
        count = len(self.found)
        while self.word() and self.word() != CLOSING[bracket]:
            if bracket == '[':
                self.past(lambda it: it == '↦')
            elif bracket == '{':
                self.past(lambda it: it == '=')
            if self.word() != CLOSING[bracket]:
                self.part((',', ';', '|'))
            if self.word() and self.word() != CLOSING[bracket]:
                self.at += 1
        self.at += 1
        # Entries of a tactic's list have no goals, and braces alone hold arguments.
        if before in TACTICS or (bracket == '{' and before != 'record'):
            del self.found[count:]


def cited_lemmas(lines, lemmas):
    """The lemmas that the proofs of a file may cite: its own, and those that it imports."""
    cited = {lemma.name for lemma in lemmas}
    for line in lines:
        imported = re.match(r'use Rattle\.(\S+)\.\{(.*)\}', line)
        if imported and '.proofs.' in imported.group(1) and '.Common' not in imported.group(1):
            cited |= set(re.findall(r"[a-z][\w'≡≢<>≤-]*", imported.group(2)))
    return cited


def tactics_for(text, cited):
    """The tactics that are tried for a proof."""
    words = [it.group() for it in TOKEN.finditer(text)]
    lemmas = list(dict.fromkeys(word for word in words if word in cited))
    for name, items in (('search', ['rules'] + lemmas), ('grind', ['arith', 'nat_tests'] + lemmas)):
        one = items[0] if len(items) == 1 else '(%s)' % ', '.join(items)
        if len(one) < WIDTH:
            yield '%s %s' % (name, one)


def trials_of(file, lines):
    """The trials of a file, by the lemma."""
    lemmas = lemmas_of(lines)
    cited = cited_lemmas(lines, lemmas)
    for lemma in lemmas:
        for first, end in lemma.equations:
            text = '\n'.join(lines[first:end])
            sign = re.search(r' =\s', text)
            if not sign or ' where\n' in text + '\n':
                continue
            shift = sign.end() - 1
            for start, stop in sorted(set(Parts(text[shift:]).found)):
                if '\n' in text[shift + start:shift + stop]:
                    for tactic in tactics_for(text[shift + start:shift + stop], cited):
                        yield Trial(file, lemma, (first, end), shift + start, shift + stop, tactic)


def with_tactic(text, trial):
    return text[:trial.start] + trial.tactic + text[trial.end:]


def copy_of(lines, trial, number):
    """The lines of a lemma with the tactic, under a name of its own."""
    first, end = trial.lines
    text = with_tactic('\n'.join(lines[first:end]), trial)
    whole = lines[trial.lemma.first:first] + text.split('\n')
    whole += lines[end:trial.lemma.equations[-1][1]]
    name = r"(?<![\w.'≡≢<>≤-])%s(?![\w'≡≢<>≤-])" % re.escape(trial.lemma.name)
    text = re.sub(r'^( *)pub ', r'\1', '\n'.join(whole))
    return re.sub(name, 'copy__%d' % number, text).split('\n')


def with_imports(lines):
    """The lines with imports of the sets of lemmas that they name, and how many were added."""
    body = '\n'.join(line for line in lines if not line.startswith('use '))
    here = [line for line in lines if line.startswith('use ')]
    added = ['use %s.{%s}' % (path, name) for name, path in IMPORTS.items()
             if re.search(r'(?<![\w.-])%s(?![\w-])' % name, body)
             and not any(re.search(r'[{ ]%s[,}]' % name, line) for line in here)]
    at = next((at for at, line in enumerate(lines) if line.startswith('use ')), 0)
    return lines[:at] + added + lines[at:], len(added)


class Crate:
    """The files of a crate's proofs, as they are known to be proved."""

    def __init__(self, folder, parts):
        self.folder, self.lines = folder, {}
        for path, _, names in os.walk(os.path.join(folder, 'proofs')):
            for name in names:
                file = os.path.relpath(os.path.join(path, name), folder)
                if name.endswith('.antt') and (not parts or any(part in file for part in parts)):
                    with open(os.path.join(path, name), encoding='utf-8') as source:
                        self.lines[file] = source.read().split('\n')

    def write(self, lines_of):
        for file, lines in self.lines.items():
            with open(os.path.join(self.folder, file), 'w', encoding='utf-8') as target:
                target.write('\n'.join(lines_of.get(file, lines)))

    def errors(self):
        """What a check refuses: triples of a file, a line from 0 on and a message."""
        ran = subprocess.run(['rt', 'check'], cwd=self.folder, text=True, stdin=subprocess.DEVNULL,
                             stdout=subprocess.PIPE, stderr=subprocess.STDOUT)
        found = [(file, int(line) - 1, text) for file, line, text in ERROR.findall(ran.stdout)]
        if ran.returncode and not found:
            sys.exit(ran.stdout)
        return found

    def with_copies(self, trials):
        """The files with a copy for each trial, and the trial of each line of a copy."""
        lines_of, owners = {}, {}
        for file, lines in self.lines.items():
            made, owner = [], {}
            for at in range(len(lines) + 1):
                for number, trial in enumerate(trials):
                    if trial.file == file and trial.lemma.equations[-1][1] == at:
                        copy = copy_of(lines, trial, number)
                        owner.update({len(made) + 1 + it: trial for it in range(len(copy))})
                        made += [''] + copy + ['']
                made += lines[at:at + 1]
            lines_of[file], count = with_imports(made)
            owners.update({(file, at + count): trial for at, trial in owner.items()})
        return lines_of, owners

    def proved(self, trials):
        """The trials that hold. A copy that cannot be read ends the check of its file and of those
        that import it, so the others are then tried again without it."""
        while trials:
            lines_of, owners = self.with_copies(trials)
            self.write(lines_of)
            errors = self.errors()
            refused = {owners.get((file, line)) for file, line, _ in errors}
            unread = any('copy__' not in text for _, _, text in errors)
            left = [trial for trial in trials if trial not in refused]
            print('%d tried, %d proved' % (len(trials), len(left)), flush=True)
            if not unread or len(left) == len(trials):
                return left
            trials = left
        return []

    def replaced(self, trials):
        """The files with the largest of these parts replaced, and the trials that were taken."""
        taken = []
        for it in sorted(trials, key=lambda it: (it.start - it.end, len(it.tactic))):
            if not any(it.file == other.file and it.lines == other.lines
                       and it.start < other.end and other.start < it.end for other in taken):
                taken.append(it)
        lines_of = {file: list(lines) for file, lines in self.lines.items()}
        for it in sorted(taken, key=lambda it: (it.lines, it.start), reverse=True):
            lines, first = lines_of[it.file], it.lines[0]
            end = end_of(lines, first, indent_of(lines[first]))
            lines[first:end] = with_tactic('\n'.join(lines[first:end]), it).split('\n')
        return {file: with_imports(lines)[0] for file, lines in lines_of.items()}, taken

    def shorten(self):
        """Replaces what tactics prove. Returns how many lines went."""
        trials = [it for file, lines in self.lines.items() for it in trials_of(file, lines)]
        proved = self.proved(trials)
        while True:
            lines_of, taken = self.replaced(proved)
            self.write(lines_of)
            broken = {(file, name_at(lines_of[file], line)) for file, line, _ in self.errors()}
            if not broken:
                return sum(map(len, self.lines.values())) - sum(map(len, lines_of.values()))
            proved = [it for it in proved if (it.file, it.lemma.name) not in broken]


def name_at(lines, at):
    """The name of the lemma that a line belongs to."""
    return next((it.name for it in lemmas_of(lines) if it.first <= at < it.equations[-1][1]), None)


def main():
    top = os.path.dirname(os.path.dirname(os.path.abspath(__file__)))
    crate = Crate(os.path.join(top, 'crates', sys.argv[1]), sys.argv[2:])
    print('%d lines fewer' % crate.shorten())


if __name__ == '__main__':
    main()
