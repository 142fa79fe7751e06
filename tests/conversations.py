"""Conversations with the built retangle, compared with the reference, and malformed and very long
scripts.

usage: conversations.py PROGRAM TOP        TOP is the folder of the repository

In a conversation each command is sent when the command before it is answered, through two pipes.
The last line is 'N passed, M failed'.
"""
import os
import resource
import select
import socket
import subprocess
import sys
import tempfile
import time

program, top = (os.path.abspath(path) for path in sys.argv[1:3])
sys.path[:0] = [os.path.join(top, 'tests'), os.path.join(top, 'tests', 'reference')]
from checks import check, conversation_of, folder_with, run_all
from files import ROLES, Roles
from limits import FILE_BYTES
from scripts import answer

PATIENCE = 60           # seconds for an answer, and for a script
LIST_BYTES = 10 ** 9    # what all held edits of a script fit into
WEB = b'@ A.\n@c\nint x;\n'


class Project:
    """A folder with these files, in which retangle runs."""

    def __init__(self, files):
        self.folder = folder_with(files)

    def start(self, arguments, **streams):
        running = subprocess.Popen([program] + arguments, cwd=self.folder.name, bufsize=0,
                                   stderr=subprocess.PIPE, **streams)
        running.project = self      # the folder is removed with its project
        return running


def read_within(pipe, end):
    """The next bytes of a pipe: none at its end, or where they do not come in time."""
    ready, _, _ = select.select([pipe], [], [], max(0, end - time.monotonic()))
    return os.read(pipe.fileno(), 65536) if ready else b''


def send(pipe, text, size):
    for at in range(0, len(text), size):
        pipe.write(text[at:at + size])
    pipe.close()


def run_script(project, arguments, script, size=1 << 20, **options):
    """What is written and the status for a script that is sent in chunks of this size, without
    waiting."""
    with tempfile.TemporaryFile() as answers:
        running = project.start(arguments, stdin=subprocess.PIPE, stdout=answers, **options)
        try:
            send(running.stdin, script, size)
        except BrokenPipeError:
            pass
        status = running.wait(PATIENCE)
        answers.seek(0)
        return answers.read(), status, running.stderr.read()


# ------------------------------------------------------------------ waiting for each answer

def converse(name, files, arguments, turns):
    """Sends each command and waits for its answer before the next one."""
    running = Project(files).start(arguments, stdin=subprocess.PIPE, stdout=subprocess.PIPE)
    for command, answer in turns:
        running.stdin.write(command)
        got, end = b'', time.monotonic() + PATIENCE
        while len(got) < len(answer):
            more = read_within(running.stdout, end)
            if not more:
                break
            got += more
        check(got == answer, name, 'to %r the answer is %r' % (command, got))
        if got != answer:
            break
    running.stdin.close()
    return running.wait(PATIENCE)


def test_document():
    web, turns = conversation_of(top)
    status = converse('docs/sessions.md', {'a.w': web}, ['a'], turns)
    check(status == 0, 'docs/sessions.md', 'status %d' % status)


def test_stored_conversations():
    folder = os.path.join(top, 'tests', 'conversations')
    for name in sorted(os.listdir(folder)):
        case = {}
        for part in ('arguments', 'stdin', 'stdout', 'status'):
            with open(os.path.join(folder, name, part), 'rb') as file:
                case[part] = file.read()
        files = {}
        for file_name in os.listdir(os.path.join(folder, name, 'in')):
            with open(os.path.join(folder, name, 'in', file_name), 'rb') as file:
                files[file_name] = file.read()
        for size in (1, 7, 1 << 20):
            written, status, errors = run_script(Project(files), case['arguments'].decode().split(), case['stdin'], size)
            check((written, status) == (case['stdout'], int(case['status'])), name, '%r, status %d' % (written, status))
            check(not errors, name, errors)


# ------------------------------------------------------------------ malformed and very long scripts

def answered(script, files={}, roles=ROLES):
    """What the reference answers over these files, and the web of one piece where it is not
    among them."""
    done = answer({'a.w': WEB, **files}, script, roles)
    return done.written, done.status


def check_script(name, script, expected, status=0, files=None, size=1 << 20):
    """What is written for a script over these files, the web of one piece if none are given."""
    written, ended, _ = run_script(Project(files or {'a.w': WEB}), ['a'], script, size)
    check((written, ended) == (expected, status), name,
          'to %r, in chunks of %d, the answer is %r, status %d'
          % (script[-100:], size, written[-200:], ended))


MALFORMED = [
    b'insert', b'insert ', b'insert 1', b'insert 1 ', b'insert  1 a.w', b'insert 1  a.w', b'insert -1 a.w', b'insert +1 a.w',
    b'insert 0x1 a.w', b'insert 1234567890 a.w', b'insert 000000001 a.w', b'insert 999999999 a.w', b'insert 0 a.w',
    b'insert 4 a.w', b'insert 5 a.w', b'Insert 1 a.w', b' insert 1 a.w', b'insert\t1 a.w', b'insert 1 a.w ', b'insert a.w 1',
    b'replace', b'replace ', b'replace 1', b'replace 0 a.w', b'replace 4 a.w', b'replace 1 zz', b'replace 1234567890 a.w',
    b'remove', b'remove ', b'remove 1', b'remove 1 ', b'remove 0 a.w', b'remove 4 a.w', b'remove x a.w', b'remove 1234567890 a.w',
    b'create', b'create ', b'create a.w', b'create ' + b'x' * 255, b'create ' + b'x' * 256, b'create  b', b'create b\xff\x00',
    b'discard', b'discard ', b'discard a.w', b'discard zz', b'discard b\xff\x00',
    b'show', b'show ', b'show zz', b'show a.c ', b'show  a.c', b'show a.c',
    b'faults ', b'faults 1', b'work ', b'work 1', b'Work', b'quit ', b'quit 1', b'begin ', b'Begin',
    b'begin 1', b' begin', b'commit ', b'Commit', b'commit 1', b'cancel ', b'Cancel', b'marks',
    b'marks ', b'marks bare', b'marks full ', b'Marks full', b'marks  none', b'marks none ',
    b'marks\tfull', b'marks full\r', b'marksfull', b'mark full', b'marks nonefull', b'marks full',
    b'commit', b'cancel', b'\x00', b'\xff\xfe', b'\r', b'work\r', b' ', b'', b'x' * 100000,
]


def malformed(lines):
    script = b''
    for line in lines:
        script += line + b'\n'
        if line.startswith((b'insert ', b'replace ')):
            script += b'@ \n'
    return script


def test_malformed():
    questions = b'show a.c\nfaults\nwork\n'
    in_a_list = malformed(line for line in MALFORMED if line not in (b'commit', b'cancel'))
    in_a_list = b'begin\n' + in_a_list + questions + b'commit\n' + questions
    for name, script in (('malformed lines', malformed(MALFORMED) + questions),
                         ('malformed lines in an open list', in_a_list)):
        for size in (1, 5, 4095, 4096, 4097, 1 << 20):
            check_script(name, script, *answered(script), size=size)
    for before in (b'work\n', b'begin\n'):
        for line in MALFORMED:                  # each as the last line, which nothing ends
            check_script('malformed last line', before + line, *answered(before + line))


# Scripts with their answers and statuses. The last line may have no line feed; an edit without a text
# is no command, an empty line is nothing but a text where one is taken.
ENDS = [
    (b'', b'', 0), (b'\n\n', b'', 0), (b'work', b'work 1\n', 0), (b'quit', b'ok\n', 0),
    (b'insert 1 a.w\n\n', b'ok\n', 0), (b'insert 1 a.w\ny', b'ok\n', 0),
    (b'replace 3 a.w\n"', b'ok\n', 1), (b'create a\ncreate b', b'ok\nok\n', 0),
] + [(line + end, b'no BadCommand\n', 0) for end in (b'', b'\n') for line in (
    b'insert 1 a.w', b'replace 999999999 a.w', b'insert 000000012 ', b'replace 0  a b ',
    b'insert 1234567890 a.w', b'insert 9', b'insert ', b'replace  1 a.w', b'replace -1 a.w',
    b'replace 1x a.w', b'replace 1\ta.w', b'replace a.w')]


def test_ends():
    for script, answers, status in ENDS:
        check_script('end of the script %r' % script, script, answers, status)
    held = b'begin\nreplace 3 a.w\n"x\n'         # an error, once it is made
    for script in (b'', b'\n', b'quit', b'quit\nwork\n', b'work\nquit\ninsert 1 a.w\n',
                   b'insert 1 a.w', b'insert 1 a.w\n', b'insert 1 a.w\n\n', b'insert 1 a.w\n@ ',
                   b'replace 3 a.w\n"x\n', b'discard b.w\nshow a.c\n', b'begin', b'begin\n',
                   b'begin\nquit', held, held + b'quit\n', held + b'quit\ncommit\n',
                   held + b'commit', held + b'cancel', held + b'insert 1 a.w',
                   held + b'insert 1 a.w\n',
                   held + b'replace 3 a.w\nx\ncommit\n', held + b'commit\nbegin\nremove 3 a.w\n',
                   b'begin\nmarks none\nquit\ncommit\n'):
        check_script('ends of scripts', script, *answered(script))


def test_long_texts():
    for size in (1 << 20, 4096, 1000):
        script = b'replace 3 a.w\n' + b'x' * 60000000 + b'\nwork\nshow a.c\n'
        start = time.monotonic()
        written, status, _ = run_script(Project({'a.w': WEB}), ['a'], script, size)
        check((written, status) == (b'no LineTooLong\nwork 1\n= a.c 36\n' + answered(b'show a.c\n')[0].split(b'\n', 1)[1], 0),
              'text of 60,000,000 bytes', 'in chunks of %d: %r, status %d' % (size, written[:100], status))
        check(time.monotonic() - start < 30, 'text of 60,000,000 bytes', 'it took too long')
    fits = b'replace 3 a.w\n' + b'x' * 65535 + b'\nreplace 3 a.w\n' + b'x' * 65535 + b'   \nreplace 3 a.w\n' + b'x' * 65536 + b'\n'
    written, status, _ = run_script(Project({'a.w': WEB}), ['a'], fits)
    check((written, status) == (b'ok\nok\nno LineTooLong\n', 0), 'texts at the limit', '%r' % written)
    check_script('texts at the limit, in a list', b'begin\n' + fits + b'commit\nwork\n',
                 b'ok\nheld\nheld\nheld\nno LineTooLong 3\nwork 1\n')


def test_longest_lists():
    """The longest script holds its edits, the shortest ones and those that take most memory, in
    less than 1 GB."""
    def limited():
        resource.setrlimit(resource.RLIMIT_AS, (LIST_BYTES, LIST_BYTES))
    for held, refusal in ((b'create \n', b'BadName'), (b'insert 1 x\ny\n', b'UnknownFile')):
        edits = (FILE_BYTES - len(b'begin\ncommit\n')) // len(held)
        script = b'begin\n' + held * edits + b'commit\n'
        written, status, _ = run_script(Project({'a.w': WEB}), ['a'], script, preexec_fn=limited)
        check((written, status) == (b'ok\n' + b'held\n' * edits + b'no %s 1\n' % refusal, 0),
              'longest list', '%r .. %r, status %d' % (written[:20], written[-40:], status))


def test_many_edits():
    script = b''.join(b'replace 3 a.w\nint x%d;\n' % (n % 7) if n % 3 else b'insert 4 a.w\n%d\nremove 4 a.w\n' % n
                      for n in range(7500)) + b'show a.c\nwork\n'
    written, status, _ = run_script(Project({'a.w': WEB}), ['a'], script)
    check(written.count(b'ok\n') == 10000 and status == 0, 'ten thousand edits', 'status %d' % status)
    check(written.endswith(answered(b'replace 3 a.w\nint x%d;\nshow a.c\n' % (7499 % 7))[0][3:] + b'work 1\n'), 'ten thousand edits',
          '%r' % written[-100:])


def test_long_lists():
    """A list of ten thousand edits is made, and is refused as a whole where the last one is; so is
    a list of one file too many."""
    edits = b''.join(b'insert 3 a.w\nint x%d;\n' % n for n in range(9999))
    for last in (b'replace 3 a.w\nint y;\n', b'remove 10003 a.w\n'):
        script = b'begin\n' + edits + last + b'commit\nshow a.c\nwork\n'
        check_script('a list of ten thousand edits', script, *answered(script))
    files = b''.join(b'create f%d\n' % n for n in range(256)) + b'insert 1 zz\nx\n'
    check_script('a list of 256 files', b'begin\n' + files + b'commit\nremove 1 f0\n',
                 b'ok\n' + b'held\n' * 257 + b'no TooManyFiles 256\nno UnknownFile\n')


def test_change_file():
    files = {'a.w': WEB, 'a.ch': b'@x\nint x;\n@y\nint z;\n@z\n'}
    script = (b'show a.c\ndiscard a.ch\nremove 1 a.ch\nfaults\ninsert 1 a.ch\n@x\nshow a.c\n'
              b'begin\nreplace 2 a.ch\nint q;\nreplace 3 a.w\nint q;\nmarks none\ncommit\n'
              b'show a.c\nwork\nbegin\nremove 1 a.ch\ndiscard a.ch\ncommit\nshow a.c\n')
    roles = Roles(b'a.w', b'a.ch', b'a.c')
    written, status, _ = run_script(Project(files), ['a', '--change', 'a'], script)
    check((written, status) == answered(script, files, roles), 'change file', '%r' % written)


def test_most_lines():
    files = {'a.w': WEB + b'@i b.w\n', 'b.w': b'\n' * 999999}
    script = (b'insert 1 b.w\nx\ninsert 1 b.w\ny\nremove 1 b.w\ninsert 1000000 b.w\nz\nreplace 1000000 b.w\nw\n'
              b'insert 1 b.w\nv\nbegin\nremove 1 b.w\ninsert 1 b.w\nu\ninsert 1 b.w\nt\ncommit\n'
              b'faults\nquit\n')
    check_script('a million lines', script,
                 b'ok\nno TooManyLines\nok\nok\nok\nno TooManyLines\nok\nheld\nheld\nheld\n'
                 b'no TooManyLines 3\nfaults 0\nok\n', files=files)


# ------------------------------------------------------------------ streams that fail

def test_failing_reader():
    """The reader fails in mid-line: what was ended is answered, and the rest is not carried out; an
    open list is dropped."""
    for rest, more in ((b'repl', b''), (b'insert 1 a.w\n% half', b''),
                       (b'begin\nreplace 3 a.w\nint y;\ncommi', b'ok\nheld\n')):
        server = socket.create_server(('127.0.0.1', 0))
        here = socket.create_connection(server.getsockname())
        there, _ = server.accept()
        running = Project({'a.w': WEB}).start(['a'], stdin=there, stdout=subprocess.PIPE)
        there.close()
        here.sendall(b'work\n' + rest)
        got, end = b'', time.monotonic() + PATIENCE
        while len(got) < len(b'work 1\n' + more) and time.monotonic() < end:
            got += read_within(running.stdout, end)
        time.sleep(0.2)
        here.setsockopt(socket.SOL_SOCKET, socket.SO_LINGER, b'\1\0\0\0\0\0\0\0')      # to close is to reset
        here.close()
        server.close()
        status = running.wait(PATIENCE)
        check((got + running.stdout.read(), status) == (b'work 1\n' + more, 3), 'failing reader',
              '%r: status %d' % (rest, status))
    folder = os.open('/', os.O_RDONLY)
    running = Project({'a.w': WEB}).start(['a'], stdin=folder, stdout=subprocess.PIPE)
    os.close(folder)
    check((running.stdout.read(), running.wait(PATIENCE)) == (b'', 3), 'standard input is a folder', 'another end')


def test_full_disk():
    full = open('/dev/full', 'wb')
    running = Project({'a.w': WEB}).start(['a'], stdin=subprocess.PIPE, stdout=full)
    send(running.stdin, b'work\n', 5)
    check(running.wait(PATIENCE) == 3, 'full disk', 'another status')


# ------------------------------------------------------------------ arguments and loading

# What is written on standard error about arguments. docs/retangle.1 says what the options mean.
HELP = b"""\
Tangles a CWEB web, and again after each edit that standard input asks for

Usage: retangle [OPTIONS] <WEB>

Arguments:
  <WEB>  The web

Options:
      --change <FILE>  The change file; - means none
      --out <FILE>     The main file; without it the web's name with .c
  -h, --help           Print help
  -V, --version        Print version
"""
VERSION = b'retangle 1.0\n'
USAGE = b'\nUsage: retangle [OPTIONS] <WEB>\n'
MORE = b"\nFor more information, try '--help'.\n"
NO_WEB = b'error: the following required arguments were not provided:\n  <WEB>\n'
UNEXPECTED = b"error: unexpected argument '%s' found\n"
TIP = b"\n  tip: to pass '%s' as a value, use '-- %s'\n"

ABOUT_ARGUMENTS = [
    (['--help'], HELP), (['-h'], HELP), (['a', '--help'], HELP),
    (['--version'], VERSION), (['-V'], VERSION),
    (['a', 'b'], UNEXPECTED % b'b' + USAGE + MORE),
    (['--nothing'], UNEXPECTED % b'--nothing' + TIP % (2 * (b'--nothing',)) + USAGE + MORE),
    (['-x', 'a'], UNEXPECTED % b'-x' + TIP % (2 * (b'-x',)) + USAGE + MORE),
    (['a', '--out'],
     b"error: a value is required for '--out <FILE>' but none was supplied\n" + MORE),
    (['a', '--change', 'b', '--change', 'b'],
     b"error: the argument '--change <FILE>' cannot be used multiple times\n" + USAGE + MORE),
    ([], NO_WEB + b'\nUsage: retangle <WEB>\n' + MORE),
    ([b'\xff'], NO_WEB + b'\nUsage: retangle <WEB>\n' + MORE),
    (['--change', 'b'], NO_WEB + b'\nUsage: retangle --change <FILE> <WEB>\n' + MORE),
]


def test_arguments():
    for arguments, said in ABOUT_ARGUMENTS:
        ended = run_script(Project({'a.w': WEB}), arguments, b'work\n')
        check(ended == (b'', 2, said), 'arguments', '%r: %r' % (arguments, ended))
    too_long = 'x' * 254
    for arguments, files, line in ((['none'], {}, b'cannot read none.w'),
                                   (['a', '--change', 'b'], {'a.w': WEB}, b'cannot read b.ch'),
                                   (['a'], {'a.w': b'x' * 65536}, b'a.w: LineTooLong'),
                                   (['a', '--out', too_long], {'a.w': WEB},
                                    b'%s.c: BadName' % too_long.encode())):
        written, status, errors = run_script(Project(files), arguments, b'work\n')
        check((written, status, errors) == (b'', 3, b'retangle: %s\n' % line), 'loading',
              '%r: %r, status %d' % (arguments, errors, status))
    _, text = answered(b'show a.c\n')[0].split(b'\n', 1)
    for arguments, name in ((['a', '--out', 'z'], b'z.c'), (['--out=d/z.h', 'a.w'], b'd/z.h'),
                            (['--change', '-', 'a'], b'a.c')):
        written, status, _ = run_script(Project({'a.w': WEB}), arguments, b'show %s\n' % name)
        check((written, status) == (b'= %s 36\n' % name + text, 0), 'arguments',
              '%r: %r' % (arguments, written))
    files = {'x/y.web': WEB, 'b.ch': b'@x\nint x;\n@y\nint y;\n@z\n'}
    written, status, _ = run_script(Project(files), ['--change=b', 'x/y.web'], b'show y.c\n')
    check((written, status) == (b'= y.c 55\n/*1:*/\n#line 2 "x/y.web"\n\n#line 4 "b.ch"\nint y;\n'
                                b'/*:1*/\n', 0), 'arguments', '%r' % written)


def main():
    return run_all((test_document, test_stored_conversations, test_malformed, test_ends,
                    test_change_file, test_arguments, test_failing_reader, test_full_disk,
                    test_many_edits, test_long_lists, test_most_lines, test_long_texts,
                    test_longest_lists))


if __name__ == '__main__':
    sys.exit(main())
