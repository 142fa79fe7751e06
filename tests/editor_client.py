"""The client of examples/editor.py, as a program and as a class, over the built programs.

usage: editor_client.py CTANGLE RETANGLE TOP       TOP is the folder of the repository

- As a program: each command and the end of its answer, names of files, a buffer that is not saved,
  a retangle that ends, and a web that is not there.
- As a class: what it has of files that change while it starts, each save and buffer against what
  ctangle makes of the files, the end of a script, and the lines from C to web and back.

The last line is 'N passed, M failed'.
"""
import contextlib
import os
import random
import re
import signal
import subprocess
import sys
import tempfile

ctangle, retangle, top = (os.path.abspath(path) for path in sys.argv[1:4])
sys.path[:0] = [os.path.join(top, below) for below in ('lsp', 'tests', 'tests/reference')]
from checks import check, lay, new_folder, read, run_all, same, write
from limits import LINE_BYTES
from running import SECONDS, run
from retangle_lsp import edits, runs
from retangle_lsp.files import Unreadable, lines_of
from retangle_lsp.session import Retangle
from sessions import edited_lines

os.environ['RETANGLE'] = retangle

PROGRAM = [sys.executable, '-B', os.path.join(top, 'examples', 'editor.py')]
AS_NOBODY = ['setpriv', '--reuid=65534', '--regid=65534', '--clear-groups']


def script(folder, name, text):
    """A program of the shell that is used instead of retangle, whose name is REAL in the text."""
    path = os.path.join(folder, name)
    write(b'#!/bin/sh\n' + text.replace(b'REAL', os.fsencode(retangle)), path)
    os.chmod(path, 0o755)
    return path


# ---------------------------------------------------------------------- the client as a program

class Client:
    """The client as a program. It is passed a command when the answer to the last one has ended."""

    def __init__(self, folder, *arguments, program=retangle, runner=()):
        self.folder = folder
        self.process = subprocess.Popen(list(runner) + PROGRAM + list(arguments), cwd=folder,
                                        stdin=subprocess.PIPE, stdout=subprocess.PIPE,
                                        env=dict(os.environ, RETANGLE=program))

    def answer(self):
        """The lines of an answer, as a program finds its end."""
        found = b''
        for line in self.process.stdout:
            found += line
            if line in (b'ok\n', b'no\n'):
                break
            if line.startswith(b'= '):
                found += self.process.stdout.read(int(line.rsplit(b' ', 1)[1]))
        return found

    def prints(self, command, expected, end=b'ok\n'):
        self.process.stdin.write(command + b'\n')
        self.process.stdin.flush()
        same(self.answer(), expected + end, 'editor.py, %s' % command[:40].decode())

    def refuses(self, command, line):
        self.prints(command, line + b'\n', b'no\n')

    def saves(self, name, text, expected, end=b'ok\n'):
        """The same when a file was saved with this text, or removed."""
        if text is None:
            os.remove(os.path.join(self.folder, name))
        else:
            write(text, self.folder, name)
        self.prints(b'save ' + name.encode(), expected, end)

    def ends(self, status):
        self.process.stdin.close()
        same(self.process.stdout.read(), b'', 'editor.py, the end')
        same(self.process.wait(SECONDS), status, 'editor.py, the status')


WITH_B_AND_C = b'''\
/*1:*/
#line 2 "a.w"

int z= /*2:*/
#line 2 "b.w"

1
/*:2*/
#line 3 "a.w"
;
#line 1 "b.w"
int b;
/*:1*//*3:*/
#line 4 "b.w"

#line 1 "c.w"
int c;
/*:3*/
'''
NO_C = b'a.w:5: error: included file not found: c.w\n'
NO_V = b'a.w:3: error: undefined: <v>\n'
TOO_LONG = b'a.w was not taken: it has a line of more than 65,535 bytes\n'


def test_client(temporary):
    folder = new_folder(temporary, 'client',
                        {'a.w': b'@ A.\n@c\nint x;\n@i b.w\n', 'b.w': b'int y;\n'})
    client = Client(folder, 'a')
    client.prints(b'faults', b'')
    client.refuses(b'show a.h', b'a.h: no output file')

    # spaces at the end of a line are no change
    web = b'@ A.\n@c  \nint z=@<v@>;\n@i b.w\n@i c.w\n'
    client.saves('a.w', web, NO_C + NO_V + b'saved a.w: edits 2, faults 2\n')
    client.prints(b'faults', NO_C + NO_V)
    client.prints(b'work', b'1\n')

    # a new file, one that was included from the start, and one that is removed
    client.saves('c.w', b'int c;\n', NO_V + b'saved c.w: edits 2, faults 1\n')
    client.saves('b.w', b'int b;\n@ @<v@>=\n1\n@ @c\n', b'saved b.w: edits 4, faults 0\n')
    client.prints(b'show a.c', b'= a.c %d\n' % len(WITH_B_AND_C) + WITH_B_AND_C)
    client.saves('c.w', None, NO_C + b'saved c.w: edits 1, faults 1\n')
    client.refuses(b'save c.w', b'c.w: there is no such file')

    # from C to web and back
    client.prints(b'origin a.c 7', b'b.w:3\n')
    client.prints(b'origin ./a.c 9', b'a.w:3\n')
    client.refuses(b'origin a.c 1', b'a.c:1: from no line of the web')
    client.refuses(b'origin b.w 1', b'b.w: no output file')
    client.prints(b'where a.w 3', b'a.c:4\na.c:10\n')
    client.refuses(b'where a.w 5', b'a.w:5: in no output')

    # a refused file changes nothing, the others are saved, and it can be saved again
    long = web.replace(b'int z', b'int zz').replace(b'@i c.w', b'x' * (LINE_BYTES + 1))
    client.saves('a.w', long, TOO_LONG, b'no\n')
    client.prints(b'faults', NO_C)
    client.saves('b.w', b'@ @<v@>=\n1\n', NO_C + b'saved b.w: edits 2, faults 1\n')
    client.saves('a.w', None, b'a.w: there is no such file\n', b'no\n')
    client.saves('b.w', b'@ @<v@>=\n2\n', NO_C + b'saved b.w: edits 1, faults 1\n')
    client.saves('a.w', web.replace(b'@i c.w\n', b''), b'saved a.w: edits 1, faults 0\n')
    client.prints(b'quit', b'')
    client.ends(0)


def test_ends_of_the_client(temporary):
    folder = new_folder(temporary, 'ends', {})
    same(run(PROGRAM + ['a'], folder, b'faults\n'), (b'', b'retangle: cannot read a.w\n', 3),
         'editor.py without a web')
    same(run(PROGRAM + ['a'], folder, RETANGLE='./none'),
         (b'', b'retangle: it cannot be run: No such file or directory\n', 127),
         'editor.py without retangle')
    same(run(PROGRAM + ['a'], folder, RETANGLE='true'),
         (b'', b'retangle ended with status 0\n', 3), 'editor.py, another program')
    write(b'@ A.\n@c\n@<v@>\n', folder, 'a.w')
    same(run(PROGRAM + ['a'], folder, b'faults\nquit\nwork\n'), (NO_V + b'ok\nok\n', b'', 1),
         'editor.py, a fault at the end')
    write(b'@x\n@<v@>\n@y\n1\n@z\n', folder, 'b.ch')
    output = b'/*1:*/\n#line 2 "a.w"\n\n#line 4 "b.ch"\n1\n/*:1*/\n'
    same(run(PROGRAM + ['--change', 'b', '--out', 'z', 'a'], folder, b'show z.c\n'),
         (b'= z.c %d\n%sok\n' % (len(output), output), b'', 0), 'editor.py, change and out')


REASONS = {         # why a file cannot be saved
    b'below': b'it is a folder', b'pipe': b'it is no file with a text',
    b'none.w': b'there is no such file', b'a.w/x': b'there is no such file',
    b'a\0w': b'no file has this name',
}


def test_names(temporary):
    web = b'@ A.\n@c\n@i b.w\n@i ./b.w\n'
    folder = new_folder(temporary, 'names', {'a.w': web, 'b.w': b'int b;\n', 'o.w': b'@i c.w\n'})
    os.mkdir(os.path.join(folder, 'below'))
    os.mkfifo(os.path.join(folder, 'pipe'))
    os.symlink(folder, os.path.join(temporary, 'link'))
    client, full = Client(folder, 'a'), os.fsencode(folder)
    for name in (b'./a.w', b'below/../a.w', full + b'/a.w', os.path.dirname(full) + b'/link/a.w'):
        client.prints(b'save ' + name, b'saved %s: edits 0, faults 0\n' % name)
        client.refuses(b'where %s 1' % name, b'%s:1: in no output' % name)
    output = b'/*1:*/\n#line 2 "a.w"\n\n' + 2 * b'#line 1 "b.w"\nint b;\n' + b'/*:1*/\n'
    output = output.replace(b'"b', b'"./b').replace(b'"./b', b'"b', 1)
    client.prints(b'show %s/a.c' % full, b'= a.c %d\n' % len(output) + output)
    write(web + b'int z;\n', folder, 'a.w')
    client.prints(b'save ./a.w', b'saved ./a.w: edits 1, faults 0\n')
    client.prints(b'where %s/a.w 5' % full, b'a.c:9\n')

    # a file that has two names in the web
    write(b'int c;\n', folder, 'b.w')
    client.prints(b'save %s/b.w' % full, b'saved %s/b.w: edits 2, faults 0\n' % full)
    client.prints(b'where b.w 1', b'a.c:5\na.c:7\n')

    # a file that the web has not
    client.prints(b'save o.w', b'saved o.w: edits 0, faults 0\n')
    client.refuses(b'where o.w 1', b'o.w: no file of the web')
    for name, reason in REASONS.items():
        client.refuses(b'save ' + name, b'%s: %s' % (name, reason))
    client.refuses(b'save ', b'the empty name: no file has this name')
    client.refuses(b'update  1\nfaults', b'the empty name: no file has this name')
    client.refuses(b'update ./below 1\nfaults', b'./below: it is a folder')
    client.refuses(b'update ' + b'a' * 300, b'a name and a number must follow')
    client.prints(b'update %s 0' % (b'a' * 300), b'updated %s: edits 0, faults 0\n' % (b'a' * 300))
    client.refuses(b'', b'no such command')
    client.prints(b'faults', b'')
    client.ends(0)


def test_permissions(temporary):
    """A file that may not be read, for a user who is not root."""
    runner = AS_NOBODY if os.getuid() == 0 else []
    if run(runner + ['true'], temporary).status != 0:
        print('skipped: permissions (root, and setpriv does not work here)')
        return
    folder = new_folder(temporary, 'permissions', {'a.w': b'@ A.\n@c\n@i b.w\n', 'b.w': b'1\n'})
    os.chmod(temporary, 0o755)
    client = Client(folder, 'a', runner=runner)
    client.prints(b'faults', b'')
    os.chmod(os.path.join(folder, 'b.w'), 0)
    client.refuses(b'save b.w', b'b.w: it may not be read')
    client.refuses(b'save ./b.w', b'./b.w: it may not be read')
    os.chmod(os.path.join(folder, 'b.w'), 0o644)
    client.prints(b'save b.w', b'saved b.w: edits 0, faults 0\n')
    client.ends(0)


def test_update(temporary):
    folder = new_folder(temporary, 'update', {'a.w': b'@ A.\n@c\nint x;\n'})
    client = Client(folder, 'a')
    client.prints(b'update a.w 4\n@ A.\n@c\nint y;   \n@i b c.w',
                  b'a.w:4: error: included file not found: b\nupdated a.w: edits 2, faults 1\n')
    client.prints(b'update ./b 2\nint z;\nok', b'updated ./b: edits 3, faults 0\n')
    output = b'/*1:*/\n#line 2 "a.w"\n\nint y;\n#line 1 "b"\nint z;\nok\n/*:1*/\n'
    client.prints(b'show a.c', b'= a.c %d\n' % len(output) + output)
    client.prints(b'update b 0', b'updated b: edits 2, faults 0\n')
    client.refuses(b'update a.w x', b'a name and a number must follow')
    client.prints(b'update a.w 1\n' + b'x' * (LINE_BYTES + 1), TOO_LONG, b'no\n')
    client.saves('a.w', b'@ A.\n@c\nint x;\n', b'saved a.w: edits 2, faults 0\n')
    client.prints(b'outputs', b'a.c 36\n')

    # the input ends before all lines
    client.process.stdin.write(b'update a.w 2\n1\n')
    client.process.stdin.close()
    same(client.answer(), b'a.w was not updated: the input has ended\nno\n', 'update, the end')


def test_retangle_that_ends(temporary):
    folder = new_folder(temporary, 'killed',
                        {'a.w': b'@ A.\n@c\n@i b\n@i c\n', 'b': b'1\n', 'c': b'2\n'})
    client = Client(folder, 'a', program=script(folder, 'r', b'echo $$ >pid\nexec REAL "$@"\n'))
    again = b'retangle ended by signal 9; it was started again\n'

    def kill():
        os.kill(int(read(folder, 'pid')), signal.SIGKILL)

    # what was updated is kept, and all else is what the files hold
    client.prints(b'update b 1\nx', b'updated b: edits 1, faults 0\n')
    kill()
    write(b'y\n', folder, 'c')
    output = b'/*1:*/\n#line 2 "a.w"\n\n#line 1 "b"\nx\n#line 1 "c"\ny\n/*:1*/\n'
    client.prints(b'show a.c', again + b'= a.c %d\n' % len(output) + output)
    kill()
    client.saves('c', b'y\n"\n', again + b'c:2: error: quoted text did not end\n'
                 b'saved c: edits 0, faults 1\n')

    # it cannot be started; the session goes on
    kill()
    web = read(folder, 'a.w')
    os.remove(os.path.join(folder, 'a.w'))
    client.refuses(b'work', b'retangle ended by signal 9\n'
                   b'retangle ended with status 3 (cannot read a.w)')
    client.refuses(b'faults', b'retangle ended with status 3 (cannot read a.w)')
    write(web, folder, 'a.w')
    client.prints(b'faults', b'c:2: error: quoted text did not end\n')
    client.saves('c', b'2\n', b'saved c: edits 2, faults 0\n')
    kill()
    client.ends(128 + signal.SIGKILL)


def test_a_last_line_of_spaces(temporary):
    folder = new_folder(temporary, 'spaces',
                        {'a.w': b'@ A.\n@c\n@i b.w\nint x;\n  ', 'b.w': b'1\n '})
    client = Client(folder, 'a')
    client.prints(b'faults', b'')
    client.saves('b.w', b'1\n \n2\n   ', b'saved b.w: edits 2, faults 0\n')
    client.saves('a.w', b'@ A.\n@c\n@i b.w\nint x;\n\nint y;\n ', b'saved a.w: edits 2, faults 0\n')
    run([ctangle, 'a'], folder)
    output = read(folder, 'a.c')
    client.prints(b'show a.c', b'= a.c %d\n' % len(output) + output)
    client.saves('a.w', b'@ A.\n@c\n@i b.w\nint x;', b'saved a.w: edits 3, faults 0\n')
    client.saves('b.w', b'', b'saved b.w: edits 4, faults 0\n')
    client.saves('b.w', b'  ', b'saved b.w: edits 1, faults 0\n')
    client.ends(0)


# ---------------------------------------------------------------------- the edits of a file

def test_edits(_):
    """The edits of a save turn any lines into any others."""
    name, chance = 'the edits of a save', random.Random(1)
    for at in range(900):
        old, new = ([chance.choice([b'', b'a', b'b', b'c']) for _ in range(chance.randrange(9))]
                    for _ in range(2))
        edits.LARGEST = 4 if at % 3 == 0 else 1000000
        lines = old
        for request, text in edits.edits(b'f', old, new):
            kind, line, _ = request.decode().split(' ')
            lines = edited_lines(lines, kind, int(line), text or b'')
        same(lines, new, name)
    edits.LARGEST = 1000000
    same(edits.edits(b'f', [b'a', b'b', b'c'], [b'a', b'x', b'c']), [(b'replace 2 f', b'x')], name)


# ---------------------------------------------------------------------- the class

def open_client(folder, *arguments, program=retangle):
    return Retangle(*arguments, cwd=folder, program=program)


def check_shown(client, folder, files):
    """The outputs and the faults are those that ctangle makes of these files."""
    with tempfile.TemporaryDirectory() as other:
        lay(other, {name: text for name, text in files.items() if text is not None})
        errors = run([ctangle, 'a'] + ['a'] * ('a.ch' in files), other)[1]
        made = {os.fsencode(name): read(other, name) for name in os.listdir(other)
                if name not in files and name != 'below'}
    lines = [runs.fault_line(fault) for fault in client.faults()]
    same(lines, errors.split(b'\n')[:-1], 'the faults of the class')
    same({name: client.show(name) for name in client.outputs()}, made, 'the outputs of the class')
    for output in made:
        check_origins(client, output, files)


WORD = re.compile(rb'\w+')


def check_origins(client, output, files):
    """Each word of a line of an output is in the line from which it was written, and back."""
    in_macro, before = False, b''
    for at, text in enumerate(client.show(output).split(b'\n')[:-1]):
        in_macro = text.startswith(b'#define') or in_macro and before.endswith(b'\\')
        before = text
        origin = client.origins(output)[at]
        if origin:
            name = os.path.normpath(os.fsdecode(origin[0]))
            line = lines_of(files[name])[origin[1] - 1]
            words = set(WORD.findall(re.sub(rb'/\*:?\d+:?\*/', b'', text)))
            check(words <= set(WORD.findall(line)), 'origin', '%s in %s' % (text, line))
            check((output, at + 1) in client.places(*origin), 'places', origin)
        elif not in_macro and not text.startswith((b'#line', b'/*', b' /*')):
            same(text, b'', 'a line without an origin')


WEBS = {
    'a.w': b'limbo\n@ @d M 1\n@c\nint x=@<v@>; @h\n@i b.w\nint y;\n@i "c.w" \n'
           b'@i ./b.w\n@i below/d\n',
    'a.ch': b'@x\nint y;\n@y\nint z;\n@z\n@x\n@i d.w\n@y\n@i e.w\n@z\n',
    'b.w': b'@ @<v@>=\n 1  \n@ @(a.h@>=\nint @<v...@>;\n  ',
    'c.w': b'@ @(b  \n  h@>=\nb\n@ @c\nint c;',
    'd.w': b'int d;\n', 'e.w': b'int e;\n@i d.w\n', 'below/d': b'@ @d N @<v@>\n@c N\n\n \n',
}


def mutated(text, chance):
    """The text with a few of its lines removed, doubled, moved or swapped, and at times without its
    last line feed, or with spaces after it."""
    lines = text.split(b'\n')
    for _ in range(chance.randrange(1, 4)):
        at, others = chance.randrange(len(lines) + 1), min(len(lines), chance.randrange(3))
        lines[at:at + chance.randrange(3)] = chance.sample(lines, others)
    return b'\n'.join(lines) + chance.choice([b'\n', b'\n', b'', b'  ', b'\n  '])


class Tour:
    """Somebody works on the files of WEBS. `files` are those of the disk, `unsaved` the others."""

    def __init__(self, folder, chance):
        self.folder, self.chance, self.files = folder, chance, dict(WEBS)
        lay(folder, WEBS)
        self.client = open_client(folder, b'a', b'a')
        self.unsaved = {}

    def step(self):
        chance = self.chance
        name = chance.choice(sorted(WEBS))
        text = WEBS[name] if chance.randrange(3) == 0 else mutated(WEBS[name], chance)
        kind = chance.choice('save save save update update write remove kill'.split())
        if kind == 'update':
            self.unsaved[name] = text
            self.client.update(os.fsencode(name), lines_of(text))
        else:
            if kind == 'kill':
                os.kill(self.client.run.process.pid, signal.SIGKILL)
            elif kind != 'remove':
                self.write(name, text)
            elif name not in ('a.w', 'a.ch'):
                self.write(name, None)
            self.save(name if kind == 'save' else 'a.ch')
        check_shown(self.client, self.folder, {**self.files, **self.unsaved})

    def write(self, name, text):
        self.files[name] = text
        if text is not None:
            write(text, self.folder, name)
        elif os.path.exists(os.path.join(self.folder, name)):
            os.remove(os.path.join(self.folder, name))

    def save(self, name):
        self.unsaved.pop(name, None)
        with contextlib.suppress(Unreadable):
            self.client.save(os.fsencode(name))


def test_tours(temporary):
    """After each save and update the class shows what ctangle makes of the files."""
    for seed in range(4):
        folder = new_folder(temporary, 'tour %d' % seed, {})
        tour = Tour(folder, random.Random(seed))
        for _ in range(40):
            tour.step()
        tour.client.close()


# ---------------------------------------------------------------------- starting

# Each is run instead of retangle, and the first time it changes b.w: before retangle has read its
# files, after that and before the client reads its answer, or only while retangle reads.
FIRST = b'echo >>starts\n[ "$(wc -l <starts)" = 1 ] || exec REAL "$@"\n'
ANSWER_FIRST = b'REAL "$@" | (IFS= read -r line; %s; printf "%%s\\n" "$line"; cat)\n'
CHANGES = {
    'before': FIRST + b'echo 2 >b.w\nexec REAL "$@"\n',
    'after': FIRST + ANSWER_FIRST % b'echo 2 >b.w',
    'both': FIRST + b'echo 3 >b.w\n' + ANSWER_FIRST % b'echo 2 >b.w',
    'only then': FIRST + b'echo 3 >b.w\n' + ANSWER_FIRST % b'echo 1 >b.w',
    'not there then': FIRST + b'mv a.w c.w\nREAL "$@"\nstatus=$?\nmv c.w a.w\nexit $status\n',
}


def test_starts(temporary):
    """A file that changes while retangle starts is the one that the class has."""
    for name, text in CHANGES.items():
        files = {'a.w': b'@ A.\n@c\n@i b.w\n', 'b.w': b'1\n'}
        folder = new_folder(temporary, name, {'a.w': files['a.w'], 'b.w': files['b.w']})
        client = open_client(folder, b'a', program=script(folder, 'r', text))
        same(read(folder, 'starts'), b'\n\n', 'starts of retangle, %s' % name)
        check_saves(client, folder, dict(files, **{'b.w': read(folder, 'b.w')}))
        same(client.notices, [], 'notices, %s' % name)
        client.close()


def check_saves(client, folder, files):
    check_shown(client, folder, files)
    for text in (files['b.w'] + b'x\n', b'y\n' + files['b.w']):
        files['b.w'] = text
        write(text, folder, 'b.w')
        client.save(b'b.w')
        check_shown(client, folder, files)


def test_files_that_always_change(temporary):
    folder = new_folder(temporary, 'always', {'a.w': b'@ @c\n1\n'})
    program = script(folder, 'r', b'echo >>a.w\nexec REAL "$@"\n')
    try:
        open_client(folder, b'a', program=program)
        check(False, 'files that always change', 'retangle is started on them')
    except runs.Ended as ended:
        same(str(ended), 'retangle ended with status 3 (its files change all the time)', 'always')


# ---------------------------------------------------------------------- the end of a script

FULL = 'retangle was ended, since its script has no room for more; it was started again'


def test_long_scripts(temporary):
    """A script that would be too long is begun again before, with what the editor has."""
    files = {'a.w': b'@ A.\n@c\n@i b.w\n', 'b.w': b'1\n'}
    folder = new_folder(temporary, 'long', {'a.w': files['a.w'], 'b.w': files['b.w']})
    with limits_of(2000, 900):
        client = open_client(folder, b'a')
        for number in range(60):
            files['b.w'] = b'x\n' * (number % 7) + b'%d' % number
            client.update(b'b.w', lines_of(files['b.w']))
            check_shown(client, folder, files)
            check(client.run.sent <= 2000, 'a script', '%d bytes' % client.run.sent)
        check(len(client.notices) > 1, 'restarts', client.notices)
        same(set(client.notices), {FULL}, 'notices of restarts')

        # what no script can have is refused
        for ask in (lambda: client.update(b'b.w', [b'x' * 999]), lambda: client.show(b'x' * 2000)):
            try:
                ask()
                check(False, 'a list that is too long', 'it was sent')
            except runs.Refused as refused:
                same(refused.refusal, 'TooLong', 'a list that is too long')
        check_shown(client, folder, files)
        client.close()


@contextlib.contextmanager
def limits_of(script_bytes, list_bytes):
    before = runs.SCRIPT_BYTES, runs.LIST_BYTES
    runs.SCRIPT_BYTES, runs.LIST_BYTES = script_bytes, list_bytes
    try:
        yield
    finally:
        runs.SCRIPT_BYTES, runs.LIST_BYTES = before


def test_the_longest_script(temporary):
    """The limit is that of retangle: updates are taken beyond it."""
    web = [b'@ A.', b'@c', b'1', b'@ B.']
    folder = new_folder(temporary, 'longest', {'a.w': b'\n'.join(web)})
    client, total = open_client(folder, b'a'), 0
    for number in range(7):
        web[4:] = [b'%d' % number + b'x' * 60000] * 200
        client.update(b'a.w', web)
        total += sum(map(len, web))
    same((client.notices, total > runs.SCRIPT_BYTES), ([FULL], True), 'the longest script')
    same((client.close(), client.run.errors.read()), (0, b''), 'the longest script, the end')


def test_long_lists(temporary):
    """More edits than there is room for their answers in a pipe."""
    files = {'a.b.w': b'@ A.\n@c\n' + b'1\n' * 40000}
    folder = new_folder(temporary, 'lists', {})
    lay(folder, files)
    client = open_client(folder, b'a.b.w')
    lines = [b'@ A.', b'@c'] + [b'2'] * 40000
    same(client.update(b'a.b.w', lines), 40000, 'a long list')
    same(client.outputs(), [b'a.b.c'], 'outputs of a.b.w')
    same(client.show(b'a.b.c').count(b'\n2'), 40000, 'the output after a long list')
    client.close()


# ---------------------------------------------------------------------- from C to web and back

MAPPED = {
    'a.w': b'\n@ @d M 1\n@d N 2\n@c\n@h\n#define O M\nint x=@<v@>+\n  M;\n@i "b\\".w"\n'
           b'@ @(a.h@>=\n@<v@>',
    'a.ch': b'@x\n  M;\n@y\n  N\n;\n@z\n', 'b\\': b'@ @<v@>=\n(1\n)\n',
}
ORIGINS = {         # of each line of the outputs, where it is not a #line or one that has none
    b'a.c': '. . a.w:4 a.w:5 . . . . a.w:5 a.w:6 a.w:7 . b\\:1 b\\:2 b\\:3 . . . a.w:7 . '
            'a.ch:4 a.ch:5 . .',
    b'a.h': '. . a.w:10 . . b\\:1 b\\:2 b\\:3 . . . a.w:11 .',
}


def test_maps(temporary):
    folder = new_folder(temporary, 'maps', {})
    lay(folder, MAPPED)
    client = open_client(folder, b'a', b'a')
    same(client.outputs(), list(ORIGINS), 'outputs')
    for output, expected in ORIGINS.items():
        found = [b'%s:%d' % origin if origin else b'.' for origin in client.origins(output)]
        same(b' '.join(found).decode(), expected, 'origins of %s' % output.decode())
    same(client.places(b'./a.w', 7), [(b'a.c', 11), (b'a.c', 19)], 'places')
    same(client.places(b'b\\', 2), [(b'a.c', 14), (b'a.h', 7)], 'places in two outputs')
    same(client.places(b'none', 2), [], 'places of no file')
    asked = [(b'a.c', 20), (b'a.c', 12), (b'a.c', 1), (b'a.c', 0), (b'a.c', 99), (b'b.c', 1)]
    same([client.origin(*line) for line in asked],
         [(b'a.ch', 4), (b'b\\', 1), None, None, None, None], 'origin')

    # a name that is in full where it is not opened as a file
    client.update(b'a.w', [b'@ @(b...@>=', b'1', b'@ @<b@@c@>', b'@ @(unended'])
    same(client.outputs(), [b'a.c', b'b@c'], 'outputs of abbreviations')
    client.close()


def main():
    signal.alarm(10 * SECONDS)          # a test that waits for an answer ends
    with tempfile.TemporaryDirectory() as temporary:
        return run_all((test_client, test_ends_of_the_client, test_names, test_permissions,
                        test_update, test_retangle_that_ends, test_a_last_line_of_spaces,
                        test_edits, test_tours, test_starts, test_files_that_always_change,
                        test_long_scripts, test_the_longest_script, test_long_lists, test_maps),
                       temporary)


if __name__ == '__main__':
    sys.exit(main())
