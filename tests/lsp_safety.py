"""The language server over webs that come from anybody, and where the machine refuses something.

usage: lsp_safety.py CTANGLE RETANGLE TOP       TOP is the folder of the repository

- Included files that would be waited for, and folders: they are missing files.
- A retangle that does not answer: its web is not checked, and the others are; one that computes.
- Each end of the server: no process and no temporary file is left.
- No room for temporary files, names of outputs that cannot be written, a closed standard error.
- Numbers that JSON does not have, a file under two URIs, thousands of undefined names.

The last line is 'N passed, M failed'.
"""
import json
import os
import signal
import sys
import tempfile
import time

ctangle, retangle, top = (os.path.abspath(path) for path in sys.argv[1:4])
sys.path.insert(0, os.path.join(top, 'tests'))
from checks import check, folder_with, read, run_all, same, write
from lsp_client import PATIENCE, Client, children_of, framed, message, processor_seconds

os.environ['RETANGLE'] = retangle

WEB = b'@ A.\n@c\nint x=@<v@>;\n'
NO_V = 'a.w:3: error: undefined: <v>'
SOON = 8                # seconds: less than the 10 after which a retangle is ended


def script(folder, text):
    """A program of the shell that is used instead of retangle, whose name is REAL in the text."""
    path = os.path.join(folder, 'run')
    write(b'#!/bin/sh\n' + text.replace(b'REAL', os.fsencode(retangle)), path)
    os.chmod(path, 0o755)
    return path


def codes(client, name):
    return [one['code'] for one in client.diagnostics.get(name, [])]


# ---------------------------------------------------------------------- files that are not regular

ODD = {'pipe': 'it is no file with a text', '/dev/stdin': 'it is no file with a text',
       '/proc/self/fd/0': 'it is no file with a text', '/dev/zero': 'it is no file with a text',
       '/dev/tty': 'it is no file with a text', 'below': 'it is a folder', '.': 'it is a folder'}


def test_odd_files():
    """Each is a missing file, on the disk when its web is opened, and typed."""
    for name, why in ODD.items():
        web = WEB + b'@i %s\n' % name.encode()
        missing = 'a.w:4: error: included file not found: ' + name
        client = Client({'a.w': web, 'b.w': WEB, 'below/c.w': b''})
        os.mkfifo(client.path('pipe'))
        start = time.monotonic()
        client.open('a.w', web.decode())
        client.has([NO_V, missing], 'an inclusion of %s' % name)
        check(time.monotonic() - start < SOON, 'lsp, %s' % name, 'it was waited for')
        found = [one['message'] for one in client.diagnostics['a.w']
                 if one['code'] == 'include-missing']
        same(found, ['included file not found: %s (%s)' % (name, why)], 'lsp, why %s' % name)
        client.change('a.w', (((2, 8), (2, 9)), 'w'))
        client.has([NO_V.replace('<v>', '<w>'), missing], 'a change beside %s' % name)
        client.change('a.w', (None, WEB.decode()))
        client.has([NO_V], 'no inclusion of %s' % name)
        client.change('a.w', (None, web.decode()))
        client.has([NO_V, missing], 'a typed inclusion of %s' % name)
        client.open('b.w', WEB.decode())
        client.has([NO_V, missing, 'b.w:3: error: undefined: <v>'], 'a web beside %s' % name)
        same((client.shown, client.logged), ([], []), 'lsp, messages about %s' % name)
        client.end()


def test_odd_places():
    """A web, a change file or settings that are a FIFO, a file that becomes one and back."""
    client = Client({'b.w': WEB + b'@i c.w\n', 'c.w': b'@ @<v@>=\n1\n'})
    for name in 'a.w', 'b.ch', '.retangle':
        os.mkfifo(client.path(name))
    client.open('a.w', WEB.decode())
    client.open('b.w', WEB.decode() + '@i c.w\n')
    client.open('b.ch', '')
    client.has([], 'FIFOs')
    check(client.diagnostics['a.w'] != [], 'lsp, a web that is a FIFO', 'it looks faultless')
    os.remove(client.path('c.w'))
    os.mkdir(client.path('c.w'))
    client.has(['b.w:3: error: undefined: <v>', 'b.w:4: error: included file not found: c.w'],
               'a file that becomes a folder')
    os.rmdir(client.path('c.w'))
    write(b'@ @<v@>=\n1\n', client.path('c.w'))
    client.has([], 'a folder that becomes a file')
    client.end()


# ---------------------------------------------------------------------- answers that do not come

SLEEPS = b'for word; do :; done\n[ "$word" != a.w ] || { echo $$ >>pids; exec sleep 1000; }\n'


def stuck(files=None, **parts):
    """A client whose web a.w has a retangle that does not answer, and the folder of its program."""
    folder = folder_with({})
    program = script(folder.name, SLEEPS + b'exec REAL "$@"\n')
    return Client(files or {'a.w': WEB, 'b.w': WEB}, program, **parts), folder


def pids(client):
    """The processes that do not answer."""
    return list(map(int, read(client.path('pids')).split()))


def is_running(pid):
    try:
        with open('/proc/%d/stat' % pid) as file:
            return file.read().rpartition(')')[2].split()[0] != 'Z'
    except FileNotFoundError:
        return False


def test_no_answer():
    """A web of which retangle gives no answer is not checked, and its author is told."""
    client, _ = stuck()
    client.open('a.w', WEB.decode())
    client.open('b.w', WEB.decode())
    client.has(['b.w:3: error: undefined: <v>'], 'a web beside one without an answer')
    same(codes(client, 'a.w'), ['not-checked'], 'lsp, no answer')
    same(client.diagnostics['a.w'][0]['range']['start']['line'], 0, 'lsp, no answer, the line')
    same(client.shown, ['a.w: retangle was ended: it did not answer within 10 seconds'],
         'lsp, the message where there is no answer')
    start = time.monotonic()
    client.change('b.w', (((2, 8), (2, 9)), 'w'))
    client.change('a.w', (((2, 8), (2, 9)), 'w'))
    client.has(['b.w:3: error: undefined: <w>'], 'a change beside one without an answer')
    check(time.monotonic() - start < SOON, 'lsp, no answer', 'it was waited for again')
    same([len(pids(client)), any(map(is_running, pids(client)))], [1, False], 'lsp, it was ended')
    client.end()


COMPUTES = b'''exec %s -c '
import os, sys, time
end = time.monotonic() + 13
while time.monotonic() < end:
    pass
os.execv("REAL", ["REAL"] + sys.argv[1:])' "$@"
''' % os.fsencode(sys.executable)


def test_progress():
    """A retangle that computes is not ended."""
    with folder_with({}) as folder:
        client = Client({'a.w': WEB}, script(folder, COMPUTES))
        client.open('a.w', WEB.decode())
        client.has([NO_V], 'a retangle that takes long')
        same(client.shown, [], 'lsp, a retangle that takes long')
        client.end()


# ---------------------------------------------------------------------- ends

def left_in(folder):
    return sorted(os.listdir(folder))


ENDS = {
    'the end of the input': lambda client: None,
    'exit': lambda client: client.send(message(method='exit')),
    'SIGTERM': lambda client: client.process.send_signal(signal.SIGTERM),
    'SIGHUP': lambda client: client.process.send_signal(signal.SIGHUP),
}


def test_ends():
    """After each end no process and no temporary file is left, also where one does not answer."""
    begun = []
    for name, end in ENDS.items():
        for has_stuck in False, True:
            folder = tempfile.TemporaryDirectory()
            client, other = stuck(environment=dict(os.environ, TMPDIR=folder.name))
            client.open('b.w', WEB.decode())
            check('result' in client.c_of('b.w', 3), 'lsp, before ' + name, 'no C')
            check(left_in(folder.name), 'lsp, before ' + name, 'no copy of C')
            if has_stuck:
                client.open('a.w', WEB.decode())
                while not os.path.exists(client.path('pids')):
                    time.sleep(.01)
            begun.append((name, client, folder, other, children_of(client.process.pid)))
            end(client)
            if not name.startswith('SIG'):
                client.process.stdin.close()
    for name, client, folder, _, started in begun:
        same(client.process.wait(PATIENCE), 1, 'lsp, the status after ' + name)
        check(started, 'lsp, ' + name, 'no process was there')
        same([pid for pid in started if is_running(pid)], [], 'lsp, processes after ' + name)
        same(left_in(folder.name), [], 'lsp, temporary files after ' + name)


# ---------------------------------------------------------------------- refusals of the machine

NO_ROOM = ['sh', '-c', 'ulimit -f 0; exec "$@"', 'sh']


def test_no_room():
    """Without room for temporary files the faults are found; what needs one says so."""
    client = Client({'a.w': WEB, 'b.w': WEB + b'@i d\n', 'd/e': b''}, runner=NO_ROOM)
    client.open('a.w', WEB.decode())
    client.has([NO_V], 'no room for temporary files')
    same(client.c_of('a.w', 3).get('error', {}).get('code'), -32803, 'lsp, no room for C')
    client.open('b.w', WEB.decode() + '@i d\n')
    client.has([NO_V], 'no room for what stands in for a folder')
    found = client.diagnostics['b.w']
    same([(one['code'], one['range']['start']['line']) for one in found], [('not-checked', 0)],
         'lsp, no room for what stands in for a folder')
    check('temporary' in found[0]['message'], 'lsp, no room', found)
    same(client.logged, [], 'lsp, no room, the log')
    client.end()


def test_not_checked():
    """A web that is not checked has a diagnostic on its first line, until it is checked."""
    with folder_with({}) as folder:
        client = Client({'a.w': WEB}, os.path.join(folder, 'run'))
        client.open('a.w', WEB.decode())
        client.settle()
        found = client.diagnostics['a.w']
        same([(one['code'], one['range']['start']['line'], one['severity']) for one in found],
             [('not-checked', 0, 1)], 'lsp, no retangle')
        script(folder, b'exit 3\n')
        client.change('a.w', (((0, 0), (0, 0)), 'x'))
        client.settle()
        same(codes(client, 'a.w'), ['not-checked'], 'lsp, a retangle that ends')
        script(folder, b'exec REAL "$@"\n')
        client.change('a.w', (((0, 0), (0, 1)), ''))
        client.has([NO_V], 'a retangle that is there')
        same(codes(client, 'a.w'), ['undefined'], 'lsp, a retangle that is there')
        client.open('b.w', WEB.decode())
        client.settle()
        same(codes(client, 'b.w'), ['not-checked'], 'lsp, a web that is not saved')
        client.end()


def test_names_of_outputs():
    """The C of a file that cannot be written is refused, and the server goes on."""
    for name in '..', 'x' * 300, 'a\0b':
        web = '@ A.\n@(%s@>=\nint x;\n' % name
        client = Client({'a.w': web.encode()})
        client.open('a.w', web)
        answer = client.c_of('a.w', 3)
        same(answer.get('error', {}).get('code'), -32803, 'lsp, the C of %r' % name[:9])
        same(client.logged, [], 'lsp, the C of %r, the log' % name[:9])
        client.change('a.w', (None, WEB.decode()))
        client.has([NO_V], 'after the C of %r' % name[:9])
        client.end()


FAILS = '''import sys
sys.path.insert(0, %r)
from retangle_lsp import main, requests, webs
def fail(*_):
    raise RuntimeError('on purpose')
requests.hover = fail
webs.Folding = fail
sys.exit(main.main(%r))
'''


def test_standard_error():
    """A fault of the server itself, with a standard error that is closed or broken."""
    lsp = os.path.join(top, 'lsp')
    source, sink = os.pipe()
    os.close(source)
    for runner, errors in (['sh', '-c', 'shift 3; exec "$@" 2>&-', 'sh'], None), (
            ['sh', '-c', 'shift 3; exec "$@"', 'sh'], sink):
        program = [sys.executable, '-B', '-c', FAILS % (lsp, os.path.join(lsp, 'retangle-lsp'))]
        runner[2] = 'P=$1; shift 4; exec %s -B -c "$P" "$@"%s' % (
            sys.executable, '' if errors else ' 2>&-')
        client = Client({'a.w': WEB}, runner=[*runner, program[3]], errors=errors)
        client.open('a.w', WEB.decode())
        client.settle()
        same(codes(client, 'a.w'), ['not-checked'], 'lsp, a fault of the server')
        answer = client.ask('textDocument/hover', {
            'textDocument': {'uri': client.uri('a.w')}, 'position': {'line': 2, 'character': 8}})
        same(answer['error']['code'], -32603, 'lsp, a fault of the server')
        same(len([one for one in client.logged if 'on purpose' in one]), 2, 'lsp, the log')
        client.end()


# ---------------------------------------------------------------------- texts and times

def test_numbers():
    """A number that JSON cannot have is no JSON, and no message has one."""
    client = Client({'a.w': WEB})
    for number in '1e999', '-1e999', 'Infinity', 'NaN':
        text = json.dumps({'jsonrpc': '2.0', 'method': 'textDocument/didOpen', 'params': {
            'textDocument': {'uri': client.uri('a.w'), 'version': 7, 'text': WEB.decode()}}})
        client.send(framed(text.replace(': 7', ': ' + number).encode()))
        received = client.receive()
        same(received.get('error', {}).get('code'), -32700, 'lsp, the version ' + number)
    client.send(framed(text.encode()))
    same(client.receive()['params']['version'], 7, 'lsp, a version')
    client.end()


def test_two_uris():
    """A file and a link to it are one web, and both have its faults."""
    client = Client({'a.w': WEB})
    os.symlink('a.w', client.path('l.w'))
    client.open('a.w', WEB.decode())
    client.has([NO_V], 'a link beside a web')
    same([len(client.diagnostics.get(name, [])) for name in ('a.w', 'l.w')], [1, 0], 'lsp, a link')
    client.open('l.w', WEB.decode())
    client.settle()
    same(client.diagnostics['l.w'], client.diagnostics['a.w'], 'lsp, a web under two URIs')
    same(codes(client, 'l.w'), ['undefined'], 'lsp, a web under two URIs')
    client.change('l.w', (((2, 8), (2, 9)), 'w'))
    client.settle()
    same([client.diagnostics[name][0]['message'] for name in ('a.w', 'l.w')],
         ['undefined: <w>'] * 2, 'lsp, a change under one URI')
    client.about('didClose', 'l.w')
    client.settle()
    same((codes(client, 'a.w'), codes(client, 'l.w')), (['undefined'], []),
         'lsp, one URI is closed')
    client.has([NO_V], 'the text under the other URI')
    client.end()


NAMES, KEYS, SECONDS = 5000, 10, .25


def test_keys():
    """What a key takes of the processor in a web with thousands of undefined names."""
    web = '@ A.\n@c\n' + ''.join('@<Name %05d@>\n' % number for number in range(NAMES))
    client = Client({'a.w': web.encode()})
    client.open('a.w', web)
    client.settle()
    expected = ['a.w:%d: error: undefined: <Name %05d>' % (at + 3, at) for at in range(NAMES)]
    client.has(expected, 'thousands of undefined names')
    before = processor_seconds(client.process.pid)
    for number in range(KEYS):
        client.change('a.w', (((0, 2), (0, 2)), 'x'))
        client.settle()
    seconds = (processor_seconds(client.process.pid) - before) / KEYS
    check(seconds < SECONDS, 'lsp, a key', '%.2f seconds' % seconds)
    client.change('a.w', (((4000, 14), (4000, 14)), ' @<x@>'))
    client.settle()
    shown = [one['message'] for one in client.diagnostics['a.w']]
    check('undefined: <x>' in shown, 'lsp, a name that is typed after many', shown[-2:])
    client.end()


if __name__ == '__main__':
    sys.exit(run_all([test_odd_files, test_odd_places, test_no_answer, test_progress, test_ends,
                      test_no_room, test_not_checked, test_names_of_outputs, test_standard_error,
                      test_numbers, test_two_uris, test_keys]))
