"""The language server on an author's bad day, by a client over pipes.

usage: lsp_days.py CTANGLE RETANGLE TOP         TOP is the folder of the repository

- One mistake: a text that does not end is one diagnostic, until it is closed.
- Included files that are beside the web and not in the root; a folder that the client's settings
  say; settings that come and go.
- Speed: 20,000 lines with 300 names that are not defined, pasted into a web of 35,000 lines.
- Progress of a slow start, requests that are cancelled, and keys that come fast.

The last line is 'N passed, M failed'.
"""
import os
import re
import shutil
import sys
import time

ctangle, retangle, top = (os.path.abspath(path) for path in sys.argv[1:4])
sys.path[:0] = [os.path.join(top, below) for below in ('bench', 'lsp', 'tests')]
import webs
from checks import check, folder_with, run_all, same, write
from lsp_client import Client, message, used_by_both
from running import run

os.environ['RETANGLE'] = retangle


def tangled(text):
    """The lines of ctangle for a web of one file, in an order of their own."""
    with folder_with({'a.w': text.encode()}) as folder:
        return sorted(run([ctangle, 'a'], folder).errors.decode().splitlines())


# ---------------------------------------------------------------------- one mistake

NAMES = ['%s name' % letter for letter in 'ABCDEFGHIJKLMNO']
USES = ''.join('@<%s@>\n' % name for name in NAMES)
REST = ''.join('@ @<%s@>=\n%d;\n' % (name, number) for number, name in enumerate(NAMES))


def shown(client, name='a.w'):
    """What is marked: the line, the column, the code and the message; and how many places each
    diagnostic leads to."""
    return [(one['range']['start']['line'] + 1, one['range']['start']['character'], one['code'],
             one['message'], len(one.get('relatedInformation', [])))
            for one in client.diagnostics.get(name, [])]


# What is typed, where, what is shown then, and how many faults of ctangle this stands for.
MISTAKES = {
    'a quote before three uses': (
        '@ P.\n@c\nx = @<A name@>+@<B name@>+@<C name@>;\n' + USES[33:], (2, 4), '"',
        (3, 4, 'string-end', 'quoted text did not end; it began on line 3', 4), 10),
    'a quote before others': (
        '@ P.\n@c\nf("%s", @<A name@>, "@@", @<B name@>);\n' + USES[22:], (2, 0), '"',
        (3, 24, 'string-end', 'quoted text did not end; it began on line 3', 4), 7),
    'a comment': ('@ P.\n@c\n' + USES, (2, 0), '/*',
                  (3, 0, 'comment-end', 'comment did not end; it began on line 3', 15), 16),
    'a comment before abbreviations': (
        '@ P.\n@c\n' + USES.replace(' name', ' n...'), (2, 0), '/*',
        (3, 0, 'comment-end', 'comment did not end; it began on line 3', 15), 16),
    'a comment in a macro': ('@ P.\n@d x 1\n@c\n' + USES, (1, 5), '/*',
                             (2, 5, 'comment-end', 'comment did not end; it began on line 2', 16),
                             17),
    'a comment before a definition': (
        '@ P.\n@c\n@<New@>@<New...@>\n' + USES + '@ N.\n@d y 1\n@<New@>=\n2\n', (19, 5), '/*',
        (20, 5, 'comment-end', 'comment did not end; it began on line 20', 1), 2),
    'a comment that another one ends': (
        '@ P.\n@c\n' + USES + 'x; /* the end */\n', (2, 0), '/*',
        (3, 0, 'unused', 'never used: <A name>; the comment that begins on line 3 has a use', 14),
        15),
    'a verbatim text': ('@ P.\n@c\n@<A name@>\n' + USES[11:], (2, 0), '@=',
                        (3, 0, 'string-at', 'single @ in quoted text', 1), 2),
    'a name': ('@ P.\n@c\nint x;\n' + USES, (2, 0), '@<Some',
               (3, 0, 'name-end', 'section name did not end; it began on line 3', 0), 2),
}


def test_mistakes():
    for name, (text, place, typed, expected, count) in MISTAKES.items():
        client = Client({'a.w': b''})
        client.open('a.w', text + REST)
        client.has([], name + ', before it')
        client.change('a.w', ((place, place), typed))
        lines = (text + REST).split('\n')
        row, column = place
        lines[row] = lines[row][:column] + typed + lines[row][column:]
        faults = client.faults()
        same((faults, len(faults)), (tangled('\n'.join(lines)), count), 'lsp days, ' + name)
        same(shown(client), [expected], 'lsp days, ' + name)
        client.change('a.w', ((place, (row, column + len(typed))), ''))
        client.has([], name + ', after it')
        client.end()


def test_other_mistakes():
    """A name that is misspelt stays a diagnostic, and so does one that is not used."""
    web = '@ P.\n@c\n"@<A name@>\n' + USES[22:] + '@<B nam@>\n' + REST + '@ @<Other@>=\n1\n'
    client = Client({'a.w': b''})
    client.open('a.w', web)
    client.settle()
    same([(code, text.split(';')[0]) for _, _, code, text, _ in sorted(shown(client))], [
        ('string-end', 'quoted text did not end'), ('undefined', 'undefined: <B nam>'),
        ('unused', 'never used: <Other>')],
         'lsp days, other mistakes')
    client.end()


# ---------------------------------------------------------------------- folders

MAIN = b'@ M.\n@c\n@<v@>\n@i types.w\n'
TYPES = b'@ @<v@>=\n1\n@i sub/more.h\n'


def test_beside():
    """A web whose included files are beside it, below a folder with a repository or a Makefile."""
    for mark in '.git/x', 'Makefile':
        files = {mark: b'', 'src/main.w': MAIN, 'src/types.w': TYPES, 'src/sub/more.h': b'int x;\n',
                 'other/o.w': b'@ @c\n@<v@>\n@i src/types.w\n'}
        client = Client(files)
        client.open('src/types.w', TYPES.decode())
        client.has(['src/types.w:3: error: included file not found: sub/more.h'],
                   'an included file of a web in the root')
        client.open('src/main.w', MAIN.decode())
        client.settle()
        same((client.diagnostics.get('src/main.w'), len(client.shown)), ([], 1), 'lsp days, beside')
        check(client.path('src') in client.shown[0], 'lsp days, beside', client.shown)
        same(client.places('definition', 'src/main.w', 3, 3), ['src/types.w:1:2-7'],
             'lsp days, a definition beside')
        edits = client.result('textDocument/rename', {
            'textDocument': {'uri': client.uri('src/main.w')},
            'position': {'line': 2, 'character': 3}, 'newName': 'w'})['changes']
        same(sorted(map(client.name, edits)), ['other/o.w', 'src/main.w', 'src/types.w'],
             'lsp days, a renaming beside')
        client.about('didSave', 'src/main.w')
        client.settle()
        os.remove(client.path('src/sub/more.h'))
        client.about('didClose', 'src/types.w')
        client.about('didSave', 'src/main.w')
        client.has(['types.w:3: error: included file not found: sub/more.h'],
                   'a file that is missing beside')
        same(len(client.shown), 1, 'lsp days, what is said once')
        client.end()


def test_not_beside():
    """Where as many files are in the root, it stays the folder in use."""
    client = Client({'Makefile': b'', 'src/main.w': MAIN, 'types.w': TYPES, 'src/types.w': b''})
    client.open('src/main.w', MAIN.decode())
    client.has(['types.w:3: error: included file not found: sub/more.h'], 'a file of the root')
    same(client.shown, [], 'lsp days, a file of the root')
    client.end()


def test_folder_of_settings():
    files = {'Makefile': b'', 'a/p/main.w': MAIN, 'a/types.w': b'@ @<v@>=\n1\n'}
    missing = ['a/p/main.w:4: error: included file not found: types.w',
               'a/p/main.w:3: error: undefined: <v>']
    for options, expected in ((None, missing), ({'folder': 'a'}, []), ({'folder': 7}, missing),
                              ({'retangle': {'folder': 'a/'}}, []), ({'folder': 'b'}, missing)):
        client = Client(files, options=options)
        client.open('a/p/main.w', MAIN.decode())
        client.has(expected, 'a folder by %r' % options)
        for settings, then in (({'retangle': {'folder': client.path('a')}}, []), ({}, []),
                               ({'retangle': {}}, missing)):
            client.notify('workspace/didChangeConfiguration', {'settings': settings})
            client.has(then, 'a folder by %r' % settings)
        client.end()


def test_settings_that_come():
    """They are seen by the next request, though no change of a file is reported."""
    change = b'@x\n@<v@>\n@y\n@<w@>\n@z\n'
    client = Client({'Makefile': b'', 's/a.w': b'@ @c\n@<v@>\n', 's/b.ch': change})
    client.open('s/a.w', '@ @c\n@<v@>\n')
    client.last = None
    client.has(['s/a.w:2: error: undefined: <v>'], 'no settings')
    write(b'a b\n', client.path('s/.retangle'))
    client.has(['b.ch:4: error: undefined: <w>'], 'settings that came')
    os.remove(client.path('s/.retangle'))
    client.has(['s/a.w:2: error: undefined: <v>'], 'settings that went')
    write(b's/a s/b\n', client.path('.retangle'))
    client.has(['s/b.ch:4: error: undefined: <w>'], 'settings of the root')
    client.end()


# ---------------------------------------------------------------------- speed

LINES, PASTED, UNDEFINED = 35000, 20000, 300
PASTE_SECONDS, KEY_SECONDS = 2, .3
WAITS = 800             # of the server at a key: each of 10,000 faults may end one


def pasted_lines(use):
    """Lines of C in sections of 1,000 lines, in which each second line uses a name."""
    code = [line for line in webs.c_program(LINES, '') if line.startswith(' ')]
    made = []
    for number in range(PASTED):
        made.append(use % (number // 2 % UNDEFINED) if number % 2 else code[number % len(code)])
    made[::1000] = ['@ A section.'] * (PASTED // 1000)
    made[1::1000] = ['@c'] * (PASTED // 1000)
    return made


def waits(client):
    """How often the server has waited for something."""
    with open('/proc/%d/status' % client.process.pid) as file:
        return int(re.search(r'^voluntary_ctxt_switches:\s*(\d+)', file.read(), re.M)[1])


def test_speed():
    lines = webs.named_program(LINES)
    row = next(row for row in range(LINES // 2, LINES) if lines[row].startswith('@ '))
    for use in '@<Missing piece %d of the text@>', '@<Missing %d of...@>':
        client = Client({'a.w': ('\n'.join(lines) + '\n').encode()})
        client.open('a.w', '\n'.join(lines) + '\n')
        client.settle()

        def seconds(place, text):
            client.diagnostics.clear()
            before = used_by_both(client)
            client.change('a.w', ((place, place), text))
            client.settle()
            check(len(client.diagnostics['a.w']) >= UNDEFINED, 'lsp days, ' + use, 'no faults')
            return used_by_both(client) - before

        took = seconds((row, 0), '\n'.join(pasted_lines(use)) + '\n')
        check(took <= PASTE_SECONDS, 'lsp days, a paste, ' + use, '%.2f seconds' % took)
        keys, counts = [], []
        for at in [100, row + 6, row + 20] * 3:
            before = waits(client)
            keys.append(seconds((at, 1), 'x'))
            counts.append(waits(client) - before)
        check(sorted(keys)[4] <= KEY_SECONDS, 'lsp days, a key, ' + use, keys)
        # Under load it waits for each part that the other process writes, so the least counts.
        check(min(counts) <= WAITS, 'lsp days, the waits of a key, ' + use, counts)
        size = len(str(client.diagnostics['a.w']))
        check(size < 1500000, 'lsp days, what is sent, ' + use, size)
        client.end()


# ---------------------------------------------------------------------- a slow start, fast keys

WEB = b'@ A.\n@c\nint x=@<v@>;\n'
SLOW = b'#!/bin/sh\nsleep %s\nexec "%s" "$@"\n'


def slow_client(seconds, capabilities):
    client = Client({'a.w': WEB, 'run': SLOW % (seconds, retangle.encode())}, initialize=False)
    os.chmod(client.path('run'), 0o755)
    folder = client.folder
    client.send(message(method='exit'))
    client.process.wait()
    client.process.stdin.close()
    client.process.stdout.close()
    client = Client({}, os.path.join(folder.name, 'run'), capabilities)
    shutil.copy(os.path.join(folder.name, 'a.w'), client.path('a.w'))
    return client, folder


def test_progress():
    """It is shown where a start takes over a second, by a client that has it."""
    has_it = {'window': {'workDoneProgress': True}}
    for seconds, capabilities, expected in (
            (b'1.7', has_it, ['window/workDoneProgress/create', 'begin', 'end']),
            (b'1.7', {}, []), (b'0', has_it, [])):
        client, folder = slow_client(seconds, capabilities)
        client.open('a.w', WEB.decode())
        client.has(['a.w:3: error: undefined: <v>'], 'a slow start')
        found = [one['params'].get('value', {}).get('kind', one['method']) for one in client.asked]
        same(found, expected, 'lsp days, progress')
        same(len({one['params']['token'] for one in client.asked}), bool(expected),
             'lsp days, the token')
        check(not expected or 'a.w' in client.asked[1]['params']['value']['title'],
              'lsp days, the title', client.asked)
        client.end()
        folder.cleanup()


def test_cancelled():
    client = Client({'a.w': WEB})
    client.open('a.w', WEB.decode())
    client.settle()
    params = {'textDocument': {'uri': client.uri('a.w')}, 'position': {'line': 2, 'character': 9}}

    def asked(number):
        return message(id=number, method='textDocument/hover', params=params)

    def cancel(number):
        return message(method='$/cancelRequest', params={'id': number})

    text = asked('a') + asked('b') + asked(7) + cancel('b') + asked('c') + cancel('7') + cancel(8)
    client.send(text)
    codes = [client.answer(number).get('error', {}).get('code') for number in ('a', 'b', 7, 'c')]
    same(codes, [None, -32800, None, None], 'lsp days, cancelled requests')
    client.send(cancel('a') + cancel(None) + message(method='$/cancelRequest', params=[]))
    client.has(['a.w:3: error: undefined: <v>'], 'cancelled too late')
    client.send(message(id='s', method='shutdown') + cancel('s'))
    same(client.answer('s'), {'jsonrpc': '2.0', 'id': 's', 'result': None}, 'lsp days, shutdown')
    client.send(message(method='exit'))
    same(client.process.wait(), 0, 'lsp days, exit')


def test_fast_keys():
    """Keys that come fast are answered, and the faults are those after the last of them; while they
    come, faults are shown each second or so."""
    lines = webs.named_program(LINES)
    client = Client({'a.w': b''})
    text = '\n'.join(lines) + '\n'
    client.open('a.w', text)
    client.settle()
    client.diagnostics.clear()
    for number in range(400):
        client.change('a.w', (((number, 0), (number, 0)), '"'))
        time.sleep(.005)
    changed = '\n'.join(['"' + line for line in lines[:400]] + lines[400:]) + '\n'
    client.has(tangled(changed), 'keys that come fast')
    client.end()


if __name__ == '__main__':
    sys.exit(run_all([test_mistakes, test_other_mistakes, test_beside, test_not_beside,
                      test_folder_of_settings, test_settings_that_come, test_speed, test_progress,
                      test_cancelled, test_fast_keys]))
