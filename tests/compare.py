"""Compares the built programs with the reference tangler of tests/reference.

usage: compare.py generated CTANGLE FIRST COUNT      generated webs, by their seeds
       compare.py short CTANGLE MOST                 short webs over small alphabets, at most
                                                     MOST of each kind
       compare.py cut CTANGLE WEB..                  webs cut after every byte
       compare.py scripts RETANGLE FIRST COUNT       generated projects with scripts, by their seeds
       compare.py edited RETANGLE WEB..              webs edited line by line into what a cut
                                                     leaves, and back, and so by lists
       compare.py borders RETANGLE FIRST COUNT       generated webs, of which edits move the borders
                                                     of runs and keep all shapes, by their seeds
       compare.py long_lines CTANGLE                 webs with a line of C at the limit
       compare.py edited_long_lines RETANGLE         webs with such a line, edited
       compare.py layers TANGLE_LAYERS FIRST COUNT   generated webs, by their seeds
       compare.py edited_layers TANGLE_LAYERS FIRST COUNT
                                                     pairs of a generated web with what an edit
                                                     makes of it, by their seeds
       compare.py layers_at_limits TANGLE_LAYERS     webs at the limits of weight and depth, each
                                                     with each as what an edit makes of it

Of a run every output file, all faults and the status are compared, of a script the answers and the
status, of a listing of layers each line.
The last line is 'N passed, M failed'.
"""
import itertools
import os
import shutil
import sys
import tempfile

sys.path.insert(0, os.path.join(os.path.dirname(os.path.abspath(__file__)), 'reference'))
import borders
import generator
import layers
import long_lines
import pairs
import programs
import short_webs
from checks import check, finish, lay, same
from files import ROLES, table_of
from hostile import chained
from running import run
from scripts import answer
from tangling import tangling_of

LONGEST_LINE = 200          # the most characters that are shown of a line


def tangled(arguments, folder):
    """The status, standard error and the output files that the reference gives."""
    names = programs.read_words(arguments)
    return (2, programs.USAGE, {}) if names is None else programs.tangled(names, programs.Folder(folder))


def make_folder(folder, files):
    """Makes a folder with these files, (name, lines) each."""
    shutil.rmtree(folder, ignore_errors=True)
    os.makedirs(folder)
    lay(os.fsencode(folder), {name: bytes_of(lines) for name, lines in files})


def make_folders_of(names, folder):
    """Makes the folders in which these files of a web are, since the programs make none."""
    for name in names:
        os.makedirs(os.path.join(os.fsencode(folder), os.path.dirname(name)), exist_ok=True)


def is_laid(folder, name, *projects):
    """Makes a folder with the files of these projects, unless one of them is too large to compare."""
    is_small = all(project.is_small() for project in projects)
    if is_small:
        make_folder(folder, [file for project in projects for file in project.files])
    else:
        print('%s is too large' % name)
    return is_small


def bytes_of(lines):
    return b''.join(line + b'\n' for line in lines)


def files_of(folder):
    found = {}
    for path, _, names in os.walk(os.fsencode(folder)):
        for name in names:
            full = os.path.join(path, name)
            with open(full, 'rb') as source:
                found[os.path.relpath(full, os.fsencode(folder))] = source.read()
    return found


def arguments_of(project, seed):
    """Arguments that name the project's files, with and without extensions and flags."""
    arguments = ['+s'] if seed % 5 == 0 else []
    web = os.fsdecode(project.web)
    arguments.append(web[:-len('.w')] if seed % 2 else web)
    has_out = project.out != b'a.c'
    if project.change:
        change = os.fsdecode(project.change)
        arguments.append(change[:-len('.ch')] if seed % 3 else change)
    elif has_out:
        arguments.append('-')
    if has_out:
        arguments.append(os.fsdecode(project.out))
    return arguments


class Comparison:
    def __init__(self, program):
        self.program = os.path.abspath(program)

    def compare_run(self, name, arguments, folder):
        status, faults, files = tangled(arguments, folder)
        before = files_of(folder)
        make_folders_of(files, folder)
        files = {os.path.normpath(file): text for file, text in files.items()}
        done = run([self.program] + arguments, folder)
        same((done.status, done.output, done.errors, files_of(folder)),
             (status, b'', faults, {**before, **files}), name)

    def each_generated(self, what, compare, folder, first, count):
        for seed in range(first, first + count):
            project = generator.Project(seed)
            name = '%s %d' % (what, seed)
            if is_laid(folder, name, project):
                compare(name, arguments_of(project, seed), folder)

    def generated(self, folder, first, count):
        self.each_generated('generated web', self.compare_run, folder, first, count)

    def cut(self, folder, webs):
        for web in webs:
            with open(web, 'rb') as source:
                text = source.read()
            for size in range(len(text) + 1):
                self.compare_web('%s cut after %d bytes' % (web, size), text[:size], folder)

    def compare_web(self, name, text, folder):
        make_folder(folder, [])
        lay(folder, {'a.w': text})
        self.compare_run(name, ['a'], folder)

    def short(self, folder, most):
        for kind in short_webs.KINDS:
            for number in short_webs.some(kind, most):
                self.compare_web('short web %s %d' % (kind, number), short_webs.web(kind, number), folder)

    def scripts(self, folder, first, count):
        for seed in range(first, first + count):
            project, text = generator.script(seed)
            make_folder(folder, project.files)
            arguments = ['a', '--out', os.fsdecode(project.out)] + (['--change', 'a'] if project.change else [])
            names = programs.read_retangle(arguments)
            try:
                status, errors, written = programs.answered(names, programs.Folder(folder), text, watch)
            except TooLarge:
                print('generated script %d is too large' % seed)
                continue
            same(run([self.program] + arguments, folder, text),
                 (written, errors, status), 'generated script %d' % seed)

    def edited(self, folder, webs):
        """A session that is edited from a whole web into one of its cuts, and back, edit by edit or
        by a list each, answers as a session started there."""
        cuts = 0
        for web in webs:
            with open(web, 'rb') as source:
                text = source.read()
            for size in range(len(text) + 1):
                self.compare_edited('%s edited into its first %d bytes' % (web, size), text, text[:size], folder)
            cuts += len(text) + 1
        print('%d cuts of %d webs, each made by edits of lines and undone by others' % (cuts, len(webs)))

    def compare_edited(self, name, whole, part, folder):
        whole, part = lines_of(whole), lines_of(part)
        there, back = edits_into_front(whole, part), edits_into_whole(whole, part)
        questions = questions_about(whole, part)
        of_part, of_whole = (answers_to(questions, lines) for lines in (part, whole))
        same(self.answers(folder, part, questions), (of_part.written, b'', of_part.status), name + ', started there')
        answers = b'ok\n' * len(there) + of_part.written + b'ok\n' * len(back) + of_whole.written
        script = b''.join(there) + questions + b''.join(back) + questions
        same(self.answers(folder, whole, script), (answers, b'', of_whole.status), name)
        answers = listed(there) + of_part.written + listed(back) + of_whole.written
        script = as_list(there) + questions + as_list(back) + questions
        same(self.answers(folder, whole, script), (answers, b'', of_whole.status), name + ', by lists')

    def borders(self, folder, first, count):
        """Edits that move the borders of runs expand nothing, and what is shown stays as it was. With
        edits between them that almost keep the shapes, the reference alone says what is answered."""
        made = others = 0
        for seed in range(first, first + count):
            name = 'edits of borders %d' % seed
            web, states = borders.script_of_borders(seed)
            shown = answers_to(questions_about(web), web).written
            edits = [borders.replaced(*pair) for pair in zip([web] + states, states)]
            expected = b''.join(listed(edit) + b'work 0\n' + shown for edit in edits)
            self.compare_edits(name, web, edits, expected, folder)
            made, others = made + len(edits), others + borders.runs_changed(web, states)
            web, states = borders.script_of_items(seed)
            edits = [borders.replaced(*pair) for pair in zip([web] + states, states)]
            self.compare_edits(name + ' and items', web, edits, None, folder)
        print('%d edits of borders, of which %d change the runs' % (made, others))

    def compare_edits(self, name, web, edits, expected, folder):
        """After each list of edits is asked what it expanded, and what there is. The answers are those
        of the reference, and these."""
        questions = b'work\n' + questions_about(web)
        script = b''.join(as_list(list(map(replacement, edit))) + questions for edit in edits)
        answers = answers_to(script, web)
        if expected is not None:
            same(answers.written, expected, name + ', by the reference')
        same(self.answers(folder, web, script), (answers.written, b'', answers.status), name)

    def long_lines(self, folder):
        for kind, lines in long_lines.LINES.items():
            for number, line in enumerate(lines):
                self.compare_web('long line of %s, %d' % (kind, number), bytes_of(long_lines.web(line)), folder)

    def edited_long_lines(self, folder):
        """Each line is edited into the next one that has the same items, and back."""
        for kind, lines in long_lines.LINES.items():
            edits = [[(long_lines.PLACE, line)] for line in lines[1:] + lines[::-1] + [lines[0] + b'y', lines[0]]]
            self.compare_edits('edits of a long line of ' + kind, long_lines.web(lines[0]), edits, None, folder)

    def layers(self, folder, first, count):
        self.each_generated('layers of generated web', self.compare_listing, folder, first, count)

    def edited_layers(self, folder, first, count):
        """Of half of the pairs the second project is the older one."""
        for seed in range(first, first + count):
            pair = pairs.pair(seed)
            name = 'layers of pair %d' % seed
            if is_laid(folder, name, *pair):
                old, new = pair if seed // 2 % 2 else pair[::-1]
                arguments = arguments_of(old, seed) + ['--and'] + arguments_of(new, seed)
                self.compare_listing(name, arguments, folder)

    def layers_at_limits(self, folder):
        webs = {'doubled': chained(30, '1', 2), 'deep': chained(999, '1'),
                'too-deep': chained(1000, '1'), 'cycle': chained(30, '@<n00000@>')}
        make_folder(folder, [])
        lay(folder, {name + '.w': ''.join(case.web).encode() for name, case in webs.items()})
        for old, new in itertools.product(webs, webs):
            name = 'layers of %s and %s names' % (old, new)
            self.compare_listing(name, [old, '--and', new], folder)

    def compare_listing(self, name, arguments, folder):
        status, listing, errors = layers.run(arguments, programs.Folder(folder))
        before = files_of(folder)
        done = run([self.program] + arguments, folder)
        if done.output != listing:
            problem = first_difference(listing, done.output)
            check(False, name, 'status %s, %s' % (done.status, problem))
        else:
            same((done.status, done.errors, files_of(folder)), (status, errors, before), name)

    def answers(self, folder, lines, script):
        make_folder(folder, [(b'a.w', lines)])
        return run([self.program, 'a'], folder, script)


def first_difference(expected, found):
    """The first line that is another one, after the two lines before it."""
    expected, found = (text.split(b'\n') for text in (expected, found))
    at = next(at for at in range(len(expected) + 1) if found[at:at + 1] != expected[at:at + 1])
    before = [b'  ' + line for line in expected[max(0, at - 2):at]]
    missing = [b'- ' + line for line in expected[at:at + 1]]
    added = [b'+ ' + line for line in found[at:at + 1]]
    return 'line %d\n' % (at + 1) + '\n'.join(map(shown_line, before + missing + added))


def shown_line(line):
    return '    ' + line.decode('latin-1')[:LONGEST_LINE]


def lines_of(text):
    lines = text.split(b'\n')
    return lines if lines[-1] else lines[:-1]


def edits_into_front(whole, part):
    """Edits that leave the first lines of a web, of which the last may be cut."""
    edits = [b'remove %d a.w\n' % number for number in range(len(whole), len(part), -1)]
    return edits + ([b'replace %d a.w\n%s\n' % (len(part), part[-1])] if part else [])


def edits_into_whole(whole, part):
    edits = [b'replace %d a.w\n%s\n' % (len(part), whole[len(part) - 1])] if part else []
    return edits + [b'insert %d a.w\n%s\n' % (number, whole[number - 1]) for number in range(len(part) + 1, len(whole) + 1)]


def replacement(line):
    return b'replace %d a.w\n%s\n' % line


def as_list(edits):
    return b'begin\n' + b''.join(edits) + b'commit\n'


def listed(edits):
    """What a list of these edits is answered, if it is made."""
    return b'ok\n' + b'held\n' * len(edits) + b'ok\n'


def questions_about(*webs):
    """What is asked of each of these webs: every output file that one of them has, and the faults."""
    names = {name for web in webs for name, _ in tangling_of(files_with(web), ROLES).files}
    return b''.join(b'show %s\n' % name for name in sorted(names | {b'a.c'})) + b'faults\n'


def answers_to(script, web):
    return answer({'a.w': bytes_of(web)}, script)


def files_with(lines):
    return table_of({'a.w': bytes_of(lines)})


class TooLarge(Exception):
    pass


def watch(tangling):
    if not generator.is_small(tangling):
        raise TooLarge()


def main():
    mode, rest = sys.argv[1], sys.argv[2:]
    comparison = Comparison(rest.pop(0))
    with tempfile.TemporaryDirectory() as temporary:
        folder = os.path.join(temporary, 'folder')
        compare = getattr(comparison, mode)
        if mode in ('cut', 'edited'):
            compare(folder, rest)
        else:
            compare(folder, *map(int, rest))
    return finish()


if __name__ == '__main__':
    sys.exit(main())
