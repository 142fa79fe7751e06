"""Streams and files that fail at each byte, and which files are read, by a library that comes
before the calls of the C library.

usage: streams.py CTANGLE RETANGLE FAIL TOP

FAIL is tests/fail.c as a library, TOP the folder of the repository. What a script was answered before
the failure, and what a run had written, is what the reference gives.
The last line is 'N passed, M failed'.
"""
import os
import socket
import subprocess
import sys
import tempfile
from concurrent.futures import ThreadPoolExecutor

ctangle, retangle, fail, top = (os.path.abspath(path) for path in sys.argv[1:5])
sys.path[:0] = [os.path.join(top, 'tests'), os.path.join(top, 'tests', 'reference')]
from checks import check, folder_with, read, run_all, same
from faults import fault_line
from files import Roles, table_of
from limits import FILE_BYTES
from running import SECONDS, run_over
from scripts import answer
from tangling import Tangling

WEB = b'@ A.\n@c\nint x;\n'


def run(program, arguments, files, script=b'', **fails):
    """The status, what is on both streams, and the files that were created or written."""
    limits = {name.upper(): str(count) for name, count in fails.items()}
    (output, errors, status), made = run_over(files, [program] + arguments, script, LD_PRELOAD=fail,
                                              **limits)
    return status, output, errors, made


class Cases:
    """Runs that are compared side by side: where they fail, and what they end with."""

    def __init__(self, name):
        self.name, self.cases = name, []

    def add(self, arguments, expected, **fails):
        self.cases.append((arguments, fails, expected))

    def compare(self):
        with ThreadPoolExecutor(os.cpu_count()) as pool:
            found = pool.map(lambda case: run(*case[0], **case[1]), self.cases)
            for (_, fails, expected), ended in zip(self.cases, found):
                check(ended == expected, self.name, '%r: %r, not %r' % (fails, ended, expected))


def answers(files, script, **ends):
    done = answer(files, script, **ends)
    return done.status, done.written, b'', {}


# ------------------------------------------------------------------ scripts

# Every line of a script, malformed ones, empty ones and empty texts, and lists that are made,
# refused and cancelled.
EVERY_COMMAND = (b'work\n\nreplace 3 a.w\nint y;\nshow a.c\nshow b\nremove 9 a.w\nfaults\n'
                 b'create b.w\ninsert 1 b.w\n\ninsert 4 a.w\n@i b.w\nmarks none\nbegin\n'
                 b'replace 3 a.w\n"z\nwork\ndiscard b.w\nmarks full\ncommit\nshow a.c\nfaults\n'
                 b'begin\nremove 9 a.w\ncommit\nbegin\ncancel\ninsert 9\nx\nnothing\nquit\n')
# An edit after a question.
ONE_EDIT = b'work\nreplace 3 a.w\nint y;\nshow a.c\nremove 9 a.w\nfaults\nquit\n'
# Lists of one edit, of which the first is refused.
LISTS = (b'work\nreplace 3 a.w\nint y;\nshow a.c\nshow b\nfaults\nmarks none\nbegin\nremove 9 a.w\nwork\n'
         b'commit\nbegin\nreplace 3 a.w\nint z;\ncommit\nshow a.c\nbegin\ncancel\nquit\n')
SCRIPTS = {'every command': EVERY_COMMAND, 'one edit': ONE_EDIT, 'no quit': ONE_EDIT[:-5], 'lists': LISTS}


def test_failing_readers():
    """A reader that fails at each byte: what ended before is answered, and the status is 3. After `quit`
    nothing is read."""
    files = {'a.w': WEB}
    for name, script in SCRIPTS.items():
        cases = Cases('reader that fails, %s' % name)
        for size in range(len(script) + 1):
            expected = answers(files, script[:size], reader_fails=True)
            cases.add((retangle, ['a'], files, script), expected, fail_input=size)
            cases.add((retangle, ['a'], files, script), expected, fail_input=size, chunk=1)
        cases.compare()


# What is sent before the reader fails, with its answers: a command is carried out when it has ended,
# an edit when its text has.
UNENDED = ((b'', b''), (b'work\nrepl', b'work 1\n'), (b'work\nreplace 1 a.w\nint y', b'work 1\n'),
           (b'work\nreplace 1 a.w\n', b'work 1\n'), (b'work\nquit', b'work 1\n'))


def test_unended_commands():
    cases = Cases('reader that fails in a command')
    for sent, answered in UNENDED:
        for size in range(1, 12):
            cases.add((retangle, ['a'], {'a.w': WEB}, sent + b'\nwork\n'),
                      (3, answered, b'', {}), fail_input=len(sent), chunk=size)
    cases.compare()


def test_chunks():
    """A script with each kind of line, whose bytes come in chunks of each size."""
    stored = os.path.join(top, 'tests', 'conversations', 'each-line-of-a-script-and-its-near-misses')
    files, script = {'a.w': read(stored, 'in', 'a.w')}, read(stored, 'stdin')
    cases = Cases('script in chunks')
    for size in range(1, len(script) + 1):
        cases.add((retangle, ['a'], files, script), (0, read(stored, 'stdout'), b'', {}), chunk=size)
    cases.compare()


def test_failing_writers():
    """A writer that fails at each byte of the answers, and takes several bytes at once or one."""
    files = {'a.w': WEB}
    for name, script in SCRIPTS.items():
        cases = Cases('writer that fails, %s' % name)
        for size in range(len(answers(files, script)[1]) + 1):
            expected = answers(files, script, capacity=size)
            cases.add((retangle, ['a'], files, script), expected, fail_output=size)
            cases.add((retangle, ['a'], files, script), expected, fail_output=size, chunk=1)
        cases.compare()
    found = run(retangle, ['a'], files, ONE_EDIT, fail_output=7)
    check(found == (3, b'work 1\n', b'', {}), 'writer that fails after 7 bytes', '%r' % (found,))


def test_longest_scripts():
    """Line feeds alone, and line feeds between two questions: as many as a script may have, and more."""
    for size, status in ((FILE_BYTES, 0), (FILE_BYTES + 1, 3)):
        found = run(retangle, ['a'], {'a.w': WEB}, b'\n' * size)
        check(found == (status, b'', b'', {}), 'script of %d line feeds' % size, '%r' % (found,))
    whole = b'work\n' + b'\n' * (FILE_BYTES - 10) + b'work\n'
    for more, status in ((b'', 0), (b'\n', 3), (b'work\n', 3)):
        found = run(retangle, ['a'], {'a.w': WEB}, whole + more)
        check(found == (status, b'work 1\nwork 1\n', b'', {}), 'longest script', '%r' % (found,))
    for size, answered, status in ((FILE_BYTES, b'no BadCommand\n', 0), (FILE_BYTES + 1, b'', 3)):
        found = run(retangle, ['a'], {'a.w': WEB}, b'x' * size)
        check(found == (status, answered, b'', {}), 'line of %d bytes' % size, '%r' % (found,))


def test_longest_texts():
    """An edit with a long text, and `quit`. Their line feeds are the 14th byte and the
    19th besides the text: within what a script may have, or after it."""
    too_long = b'no LineTooLong\n'
    for size, answered, status, limits in (
            (60000000, too_long + b'ok\n', 0, {}), (60000000, too_long + b'ok\n', 0, {'chunk': 7}),
            (FILE_BYTES - 19, too_long + b'ok\n', 0, {}), (FILE_BYTES - 18, too_long, 3, {}),
            (FILE_BYTES - 14, too_long, 3, {}), (FILE_BYTES - 13, b'', 3, {})):
        script = b'insert 1 a.w\n' + b'x' * size + b'\nquit\nwork\n'
        found = run(retangle, ['a'], {'a.w': WEB}, script, **limits)
        check(found == (status, answered, b'', {}), 'text of %d bytes' % size, '%r' % (found,))


# ------------------------------------------------------------------ runs

# A web with a change file and an included file, in which one name is a file and one has a fault.
PROJECT = {
    'a.w': b'@ A.\n@d N 1\n@c\nint x;\nx=@<u@>@<v@>;\n@i b.w\n@ @(h.h@>=\nint h;\n',
    'a.ch': b'@x\nint x;\n@y\nint z;\n@z\n',
    'b.w': b'@ @<v@>=\nN\n',
}
ARGUMENTS = ['a', 'a']


# Arguments of ctangle, the files that are there, and the names that it asks for.
ASKED = (
    # the web and the change file first, then what they include, round by round
    (['a', 'a'], {'a.w': b'@i b.w\n', 'a.ch': b'', 'b.w': b'@i c.w\n@i d.w\n', 'c.w': b'', 'd.w': b''},
     ['a.w', 'a.ch', 'b.w', 'c.w', 'd.w']),
    # a name that stays missing is not asked for again
    (['a'], {'a.w': b'@i none.w\n@i b.w\n@i none.w\n', 'b.w': b'@i none.w\n@i c.w\n', 'c.w': b''},
     ['a.w', 'none.w', 'b.w', 'c.w']),
    # nor is a file that is there: one that includes itself, a web that is its own change file
    (['a'], {'a.w': b'@i b.w\n@i b.w\n', 'b.w': b'@i a.w\n@i b.w\n'}, ['a.w', 'b.w']),
    (['a', 'a.w'], {'a.w': b'@x\ny\n@y\n@z\n'}, ['a.w']),
    # a name that is too long is no file name
    (['a'], {'a.w': b'@i ' + b'n' * 255}, ['a.w', 'n' * 255]),
    (['a'], {'a.w': b'@i ' + b'n' * 256}, ['a.w']),
)


def names_asked(program, arguments, files):
    with tempfile.TemporaryDirectory() as temporary:
        to = os.path.join(temporary, 'names')
        run(program, arguments, files, names_to=to)
        return read(to).decode().splitlines()


def test_names_asked():
    for arguments, files, names in ASKED:
        same(names_asked(ctangle, arguments, files), names, 'files that ctangle asks for')
        options = [word for name in arguments[1:] for word in ('--change', name)]
        same(names_asked(retangle, arguments[:1] + options, files), names,
             'files that retangle asks for')


def tangled(files):
    tangling = Tangling(table_of(files), Roles(b'a.w', b'a.ch', b'a.c'))
    faults = b''.join(map(fault_line, tangling.faults))
    return tangling.status, faults, [(name.decode(), text) for name, text in tangling.files]


def test_failing_files():
    """Files that cannot be read from some byte on: the one that is read then is named, and nothing
    is written."""
    cases, read = Cases('file that cannot be read'), 0
    for name, text in PROJECT.items():
        first = read and read + 1
        read += len(text)
        for size in range(first, read + 1):
            reported = b'ctangle: cannot read %s\n' % name.encode()
            cases.add((ctangle, ARGUMENTS, PROJECT), (3, b'', reported, {}), fail_read=size)
            reported = b'retangle: cannot read %s\n' % name.encode()
            cases.add((retangle, ['a', '--change', 'a'], PROJECT, b'work\n'),
                      (3, b'', reported, {}), fail_read=size)
    status, faults, outputs = tangled(PROJECT)
    whole = status, b'', faults, dict(outputs)
    for fails in ({'fail_read': read + 1}, {'chunk': 1}, {'fail_read': read + 1, 'chunk': 3}):
        cases.add((ctangle, ARGUMENTS, PROJECT), whole, **fails)
    cases.compare()


def test_failing_outputs():
    """Files that cannot be written from some byte on: those before it are whole, it has its first
    bytes, and no other is made."""
    status, faults, outputs = tangled(PROJECT)
    cases, before, whole = Cases('output that cannot be written'), 0, {}
    for name, text in outputs:
        for size in range(len(text)):
            reported = faults + b'ctangle: cannot write %s\n' % name.encode()
            expected = 3, b'', reported, {**whole, name: text[:size]}
            cases.add((ctangle, ARGUMENTS, PROJECT), expected, fail_write=before + size)
            cases.add((ctangle, ARGUMENTS, PROJECT), expected, fail_write=before + size, chunk=1)
        before += len(text)
        whole[name] = text
    cases.add((ctangle, ARGUMENTS, PROJECT), (status, b'', faults, whole), fail_write=before)
    cases.compare()


def test_failing_errors():
    """Standard error that takes no more from some byte on: the status is 3, and no file is made."""
    status, faults, outputs = tangled(PROJECT)
    long_line = {'a.w': b'x' * 65536}
    runs = [(ctangle, ARGUMENTS, PROJECT, faults),
            (ctangle, [], {}, b'usage: ctangle [flags] web [change [out]]\n'),
            (ctangle, ['a'], {}, b'ctangle: cannot read a.w\n'),
            (ctangle, ['a'], long_line, b'ctangle: a.w: LineTooLong\n'),
            (retangle, ['a'], {}, b'retangle: cannot read a.w\n'),
            (retangle, ['a'], long_line, b'retangle: a.w: LineTooLong\n')]
    for arguments in ([], ['--help'], ['a', 'b']):      # the texts are clap's
        runs.append((retangle, arguments, {}, run(retangle, arguments, {})[2]))
    cases = Cases('standard error that fails')
    for program, arguments, files, reported in runs:
        for size in range(len(reported)):
            cases.add((program, arguments, files), (3, b'', reported[:size], {}), fail_errors=size)
    whole = status, b'', faults, dict(outputs)
    cases.add((ctangle, ARGUMENTS, PROJECT), whole, fail_errors=len(faults))
    cases.compare()


def test_faults_at_once():
    """The lines of the faults are one write, since each takes time. A packet is one write."""
    web = b'@ A.\n@c\n' + b''.join(b'@<n%d@>\n' % at for at in range(100))
    files = {**PROJECT, 'a.w': web}
    ours, theirs = socket.socketpair(socket.AF_UNIX, socket.SOCK_SEQPACKET)
    with folder_with(files) as folder:
        subprocess.run([ctangle] + ARGUMENTS, cwd=folder, stderr=theirs, timeout=SECONDS)
    theirs.close()
    written = list(iter(lambda: ours.recv(1 << 20), b''))
    ours.close()
    same(written, [tangled(files)[1]], 'faults at once')


def closed_pipe():
    """The end to write to of a pipe that nobody reads."""
    reader, writer = os.pipe()
    os.close(reader)
    return writer


def test_closed_pipes():
    """A pipe whose reader is gone is a stream that fails: no signal ends the program."""
    for program, arguments, stream in ((retangle, ['a'], 'stdout'), (retangle, ['--help'], 'stderr'),
                                   (ctangle, [], 'stderr'), (ctangle, ['a', 'a'], 'stderr')):
        pipe, streams = closed_pipe(), {'stdout': subprocess.DEVNULL, 'stderr': subprocess.DEVNULL}
        with folder_with(PROJECT) as folder:
            streams[stream] = pipe
            done = subprocess.run([program] + arguments, cwd=folder, input=b'work\n', timeout=SECONDS,
                                  **streams)
            made = sorted(os.listdir(folder))
        os.close(pipe)
        check((done.returncode, made) == (3, sorted(PROJECT)), 'pipe that is closed',
              '%r: status %d, files %r' % (arguments, done.returncode, made))


def main():
    return run_all((test_failing_readers, test_unended_commands, test_chunks, test_failing_writers,
                    test_longest_scripts, test_longest_texts, test_names_asked, test_failing_files,
                    test_failing_outputs, test_failing_errors, test_faults_at_once,
                    test_closed_pipes))


if __name__ == '__main__':
    sys.exit(main())
