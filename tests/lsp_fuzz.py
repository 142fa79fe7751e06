"""The language server by messages that are broken, and what it does to the machine.

usage: lsp_fuzz.py CTANGLE RETANGLE TOP       TOP is the folder of the repository

- 2,000 messages of a recorded session (tests/lsp_session.json), each with a fault: a value that is
  another, left out or moved, or bytes that are others. Each is followed by a request, which is
  answered; behind each 200 the diagnostics are those of ctangle on the same files.
- A session over a hostile web under strace, where that is there: the server runs retangle and
  nothing else, and writes and removes nothing but its own temporary files.

The last line is 'N passed, M failed'.
"""
import copy
import json
import os
import random
import re
import shutil
import sys
import tempfile

ctangle, retangle, top = (os.path.abspath(path) for path in sys.argv[1:4])
sys.path.insert(0, os.path.join(top, 'tests'))
from checks import check, folder_with, read, run_all, same
from lsp_client import Client, framed
from running import run

os.environ['RETANGLE'] = retangle


# ---------------------------------------------------------------------- messages with a fault

MESSAGES, BEHIND = 2000, 200
VALUES = [None, True, False, 0, 1, -1, 1.5, 1e300, 10 ** 9, 2 ** 63, 10 ** 40, '', 'x', '\0', '\n',
          '\udce9', '\ud800', '@<', '@i /dev/stdin\n', 'x' * 70000, [], {}, [[]], {'uri': 'x'},
          'file://', 'file:///', 'file:///%00', 'file:///dev/stdin', 'file:///../..', 'untitled:1',
          'http://x/a.w']
NUMBERS = [b'1e999', b'-1e999', b'1e-999', b'NaN', b'-0', b'9' * 5000, b'01', b'0x1', b'"']


def places_in(value):
    """The containers and keys of all that is in a value."""
    keys = range(len(value)) if isinstance(value, list) else value
    for key in keys if isinstance(value, (list, dict)) else ():
        yield value, key
        yield from places_in(value[key])


def with_another_value(chance, parts):
    """The message with some of its parts left out, replaced, or by those of another place."""
    for _ in range(chance.randrange(1, 4)):
        places = list(places_in(parts))
        if places:
            (holder, key), (other, there) = chance.choice(places), chance.choice(places)
            kind = chance.randrange(4)
            if kind == 0:
                del holder[key]
            elif kind == 1:
                holder[key] = copy.deepcopy(other[there])
            else:
                holder[key] = chance.choice(VALUES)
    return json.dumps(parts).encode()


def with_other_bytes(chance, parts):
    body = bytearray(json.dumps(parts).encode())
    for _ in range(chance.randrange(1, 5)):
        at, kind = chance.randrange(len(body) + 1), chance.randrange(6)
        if kind == 0:
            body[at:at + 1] = bytes([chance.randrange(256)])
        elif kind == 1:
            del body[at:at + chance.randrange(1, 9)]
        elif kind == 2:
            body[at:at] = body[chance.randrange(len(body) + 1):][:9] * chance.choice([1, 2, 900])
        else:
            numbers = list(re.finditer(rb'\d+', bytes(body)))
            if numbers:
                start, end = chance.choice(numbers).span()
                body[start:end] = chance.choice(NUMBERS)
        if not body:
            break
    return bytes(body)


def with_a_fault(chance, session, folder):
    """A message of the session with a fault; none that ends the server by right."""
    while True:
        parts = json.loads(json.dumps(chance.choice(session)).replace('FOLDER', folder))
        fault = chance.choice([with_another_value, with_other_bytes])
        body = fault(chance, parts)
        if not re.search(rb'"(?:exit|shutdown)"', body):
            return body


WEBS = [('@ A.\n@c\nint x=@<v@>;\n@i b.w\n', '@ @<w@>=\n1\n'),
        ('@ A.\n@c\n@<w@>\n@i b.w\n', '@ @<w@>=\n2 "\n'),
        ('@ A.\n@c\n@<w...@>\n@i b.w\n', '@ @<we@>=\n2\n@ @<wo@>=\n'),
        ('"\n@ A.\n@c\n@i b.w\n@i c.w', '')]


def check_diagnostics(client, number):
    """Opens both files again, with other texts: the diagnostics are right."""
    texts = dict(zip(('a.w', 'b.w'), WEBS[number // BEHIND % len(WEBS)]))
    for name, text in texts.items():
        client.about('didClose', name)
        client.open(name, text)
    client.faults()
    found = [line for name in texts for one in client.diagnostics[name]
             for line in one['data']['faults']]
    with folder_with({name: text.encode() for name, text in texts.items()}) as folder:
        expected = run([ctangle, 'a'], folder).errors.decode().splitlines()
    same(sorted(found), sorted(expected), 'lsp, the diagnostics behind %d messages' % (number + 1))


def test_messages():
    session = json.loads(read(top, 'tests', 'lsp_session.json'))
    chance = random.Random(82)
    with tempfile.TemporaryFile() as errors:
        client = Client({'a.w': WEBS[0][0].encode(), 'b.w': WEBS[0][1].encode()}, errors=errors)
        client.open('a.w', WEBS[0][0])
        client.open('b.w', WEBS[0][1])
        for number in range(MESSAGES):
            client.send(framed(with_a_fault(chance, session, client.folder.name)))
            client.settle()
            if (number + 1) % BEHIND == 0:
                check_diagnostics(client, number)
        failed = [one for one in client.errors if one['code'] == -32603]
        failed += [line for line in client.logged if 'Error(' in line]
        check(len(client.errors) > 500 and not failed, 'lsp, messages with a fault', failed)
        client.end()
        errors.seek(0)
        same(errors.read(), b'', 'lsp, standard error')


# ---------------------------------------------------------------------- what it does to the machine

HOSTILE = {
    'a.w': b'@ A.\n@c\nint x=@<v@>;\n@i ;touch${IFS}x;\n@i `id>y`\n@i fifo\n@i /dev/stdin\n'
           b'@i below\n@i b.w\n@ @(../out.c@>=\nint o;\n@ @(Makefile@>=\nall: ;id>z\n'
           b'@ @(a.w@>=\nint w;\n',
    'b.w': b'@ @<u@>=\n1\n', 'Makefile': b'all:\n', '.retangle': b'a.w - ;id>v\n', 'below/c': b'',
}
WRITES = re.compile(r'O_WRONLY|O_RDWR|O_CREAT|O_TRUNC|O_APPEND')
CHANGES = ('mkdir', 'mkdirat', 'unlink', 'unlinkat', 'rmdir', 'rename', 'renameat', 'renameat2',
           'link', 'linkat', 'symlink', 'symlinkat', 'truncate', 'mknod', 'mknodat', 'chmod',
           'fchmodat', 'chown', 'lchown', 'fchownat', 'utimensat', 'mount', 'creat')
NETWORK = ('socket', 'connect', 'bind', 'listen', 'accept', 'accept4', 'sendto')
CALL = re.compile(r'^\d+ +(\w+)\((.*)$')
PATH = re.compile(r'(?:(?:AT_FDCWD|\d+)<([^>]*)>, )?"((?:[^"\\]|\\.)*)"')


def session_of_an_author(client):
    """What an author does: opens, types, completes, follows, renames, shows C, saves and closes."""
    text = HOSTILE['a.w'].decode()
    client.open('a.w', text)
    client.change('a.w', (((2, 8), (2, 9)), 'u'))
    client.change('a.w', (((3, 0), (3, 0)), '@i |id>t\n'))
    place = {'textDocument': {'uri': client.uri('a.w')}, 'position': {'line': 2, 'character': 8}}
    for method in ('completion', 'hover', 'definition', 'references', 'documentHighlight',
                   'prepareRename'):
        client.ask('textDocument/' + method, dict(place, context={'includeDeclaration': True}))
    client.ask('textDocument/rename', dict(place, newName=';id>s'))
    client.ask('textDocument/codeAction', dict(place, range={
        'start': {'line': 0, 'character': 0}, 'end': {'line': 9, 'character': 0}}))
    client.ask('workspace/symbol', {'query': ''})
    for line in 3, 11, 13, 15:
        check('result' in client.c_of('a.w', line), 'lsp under strace', 'no C of line %d' % line)
    client.about('didSave', 'a.w')
    client.open('b.w', HOSTILE['b.w'].decode())
    client.settle()
    check(client.diagnostics['a.w'], 'lsp under strace', 'no faults')
    client.about('didClose', 'b.w')


def test_strace():
    with tempfile.TemporaryDirectory() as own:
        log = os.path.join(own, 'log')
        strace = ['strace', '-f', '-y', '-qq', '-s', '4096', '-o', log, '-e',
                  'trace=%file,%process,%network,kill,tkill,tgkill']
        if not shutil.which('strace') or run([*strace, 'true'], own).status != 0:
            print('skipped: a session under strace (strace is not there, or may not trace)')
            return
        temporary = os.path.join(own, 'temporary')
        os.mkdir(temporary)
        client = Client(HOSTILE, runner=strace, environment=dict(os.environ, TMPDIR=temporary))
        os.mkfifo(client.path('fifo'))
        session_of_an_author(client)
        there = {name: read(client.path(name)) for name in HOSTILE}
        same((there, sorted(os.listdir(client.folder.name))),
             (HOSTILE, sorted([*{name.split('/')[0] for name in HOSTILE}, 'fifo'])),
             'lsp under strace, the files of the web')
        client.end()
        same(os.listdir(temporary), [], 'lsp under strace, temporary files')
        check_calls(read(log).decode(errors='replace').splitlines(), temporary)


def check_calls(lines, temporary):
    """No call runs, writes or removes, or speaks to, what is not the server's own."""
    calls = [found.groups() for found in map(CALL.match, lines) if found]
    done = [(name, rest) for name, rest in calls if not re.search(r'\) += -1 E\w+', rest)]
    check(len(done) > 100, 'lsp under strace', 'only %d calls' % len(done))
    programs = {os.path.realpath(rest.split('"')[1]) for name, rest in done if name == 'execve'}
    same(programs, {os.path.realpath(sys.executable), os.path.realpath(retangle)},
         'lsp under strace, programs')
    written = [rest for name, rest in done if name in CHANGES or name in ('open', 'openat')
               and WRITES.search(rest.rpartition('"')[2])]
    paths = {os.path.join(folder, path) for rest in written for folder, path in PATH.findall(rest)}
    others = {path for path in paths if not path.startswith(temporary + '/')}
    same(others - {'/dev/null'}, set(), 'lsp under strace, what is written')
    check(any('c-of-a-web-' in path for path in paths), 'lsp under strace', 'no copy of C was seen')
    same([name for name, _ in done if name in NETWORK], [], 'lsp under strace, the network')


if __name__ == '__main__':
    sys.exit(run_all([test_messages, test_strace]))
