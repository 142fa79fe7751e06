"""The language server, by a client over pipes: messages, texts, webs, files and faults.

usage: lsp.py CTANGLE RETANGLE TOP         TOP is the folder of the repository

- Messages: split at every byte, no JSON, wrong headers, wrong parameters, at the wrong time.
- Texts: random changes of ranges and of whole texts, in which characters have one to four bytes
  and some bytes are no UTF-8. The diagnostics and the C are those of ctangle on the same files.
- Files: included ones, change files, files that are open, saved, closed, written by others, and
  without a web; several webs; settings; a retangle that ends or is not there.
- Thousands of faults, and how long they take.

The last line is 'N passed, M failed'.
"""
import json
import os
import random
import sys
import time

ctangle, retangle, top = (os.path.abspath(path) for path in sys.argv[1:4])
sys.path[:0] = [os.path.join(top, below) for below in ('lsp', 'tests', 'tests/reference')]
import generator
from checks import check, folder_with, read, run_all, same, write
from lsp_client import PATIENCE, Client, framed, message, processor_seconds, range_of
from running import run

os.environ['RETANGLE'] = retangle

def code_of(answer):
    return answer and answer.get('error', {}).get('code')


# ---------------------------------------------------------------------- messages

WEB = b'@ A.\n@c\nint x=@<v@>;\n'
NO_V = 'a.w:3: error: undefined: <v>'


def test_splits():
    """Each message is read from pieces of one byte, and from two pieces that end at each byte."""
    client = Client({'a.w': WEB}, initialize=False)
    uri = client.uri('a.w')
    texts = [message(id='first', method='initialize', params={'rootUri': client.uri('')}),
             message(method='initialized', params={}),
             message(method='textDocument/didOpen', params={'textDocument': {
                 'uri': uri, 'languageId': 'cweb', 'version': 1, 'text': WEB.decode()}})]
    for byte in b''.join(texts):
        client.send(bytes([byte]))
    check('result' in client.answer('first'), 'lsp, byte by byte', 'no result')
    client.has([NO_V], 'byte by byte')
    text = message(id='é', method='textDocument/documentSymbol',
                   params={'textDocument': {'uri': uri}})
    for at in range(len(text) + 1):
        client.send(text[:at])
        time.sleep(.001)
        client.send(text[at:])
        same(len(client.answer('é')['result']), 1, 'lsp, split at byte %d' % at)
    client.send(text * 50)
    for _ in range(50):
        client.answer('é')
    client.end()


BAD = {
    b'': -32700, b'{': -32700, b'{"jsonrpc":"2.0","id":7,"method":"shutdown"': -32700,
    b'nothing': -32700, b'\xff\xfe': -32700, b'[' * 100000: -32700, b'[NaN]': -32700,
    b'null': -32600, b'1': -32600, b'"exit"': -32600, b'[]': -32600, b'{}': -32600,
    b'[{"jsonrpc":"2.0","id":7,"method":"shutdown"}]': -32600,
    b'{"id":7,"method":"shutdown"}': -32600,
    b'{"jsonrpc":"1.0","id":7,"method":"shutdown"}': -32600,
    b'{"jsonrpc":"2.0","id":[],"method":"shutdown"}': -32600,
    b'{"jsonrpc":"2.0","id":true,"method":"shutdown"}': -32600,
    b'{"jsonrpc":"2.0","id":7,"method":7}': -32600, b'{"jsonrpc":"2.0","id":7}': -32600,
    b'{"jsonrpc":"2.0","id":7,"method":"x/y"}': -32601,
    b'{"jsonrpc":"2.0","id":7,"method":"$/x"}': -32601,
    b'{"jsonrpc":"2.0","id":7,"method":"textDocument/didOpen"}': -32601,
    b'{"jsonrpc":"2.0","id":7,"method":"initialize","params":{}}': -32600,
}
HEADERS = [
    b'Content-Length: x\r\n\r\n', b'Content-Length: -5\r\n\r\n', b'Content-Length:\r\n\r\n',
    b'Content-Length: 99999999999999999999999\r\n\r\n', b'Content-Length: 999999999999\r\n\r\n',
    b'Content-Type: x\r\n\r\n', b'nothing\n\n', b'\xff\x00\r\n\r\n',
    b'Content-Length: 1e3\r\n\r\n{"jsonrpc":"2.0","method":"exit"}',
    b'Length: 32\r\n\r\n{"jsonrpc":"2.0","method":"exit"}', b'x' * 200000 + b'\r\n\r\n',
]


def test_bad_messages():
    client = Client({'a.w': WEB})
    client.open('a.w', WEB.decode())
    client.has([NO_V], 'before bad messages')
    for body, code in BAD.items():
        client.send(framed(body))
        same(code_of(client.receive()), code, 'lsp, %r' % body[:60])
        client.has([NO_V], 'after a bad message')
    for header in HEADERS:
        client.send(header)
        same(code_of(client.receive()), -32700, 'lsp, %r' % header[:60])
        client.has([NO_V], 'after a wrong header')
    for header in (b'content-length:%d\r\n\r\n', b'Content-Type: x\r\nContent-Length: %d\r\n\r\n',
                   b'Content-Length: %d\r\nContent-Type: x\r\n\r\n',
                   b'\r\n\r\nContent-Length: %d\n\n'):
        body = b'{"jsonrpc":"2.0","id":"h","method":"x"}'
        client.send(header % len(body) + body)
        same(client.receive()['id'], 'h', 'lsp, %r' % header)
    whole = b'{"jsonrpc":"2.0","method":"exit"}'
    for length in range(1, len(whole) + 30):
        if length != len(whole):
            client.send(b'Content-Length: %d\r\n\r\n' % length + whole + message(method='x'))
            same(code_of(client.receive()), -32700, 'lsp, length %d' % length)
            client.send(message(method='x'))
            client.has([NO_V], 'after a wrong length')
    client.send(framed(b'{"jsonrpc":"2.0","id":"show-1","result":{"success":true}}'))
    client.send(framed(b'{"jsonrpc":"2.0","id":"show-1","error":{}}'))
    client.notify('$/cancelRequest', {'id': 1})
    client.has([NO_V], 'after answers and what may be ignored')
    client.end()


POSITION = {'line': 0, 'character': 0}
WRONG = [None, 1, 'x', [], {}, {'textDocument': 1}, {'textDocument': {}},
         {'textDocument': {'uri': 1}},
         {'textDocument': {'uri': 'http://x/a.w'}, 'position': POSITION},
         {'textDocument': {'uri': 'file://'}, 'position': POSITION}]


def test_wrong_parameters():
    client = Client({'a.w': WEB})
    client.open('a.w', WEB.decode())
    here = {'textDocument': {'uri': client.uri('a.w')}}
    places = [dict(here, position=place) for place in (
        None, 1, {}, {'line': 0}, {'line': -1, 'character': 0}, {'line': 0, 'character': 'x'},
        {'line': True, 'character': 0}, {'line': 0.5, 'character': 0})]
    for method in ('definition', 'references', 'completion', 'hover', 'documentHighlight',
                   'prepareRename', 'rename'):
        for params in WRONG + [here] + places:
            params = dict(params, newName='x') if isinstance(params, dict) else params
            answer = client.ask('textDocument/' + method, params)
            same(code_of(answer), -32602, 'lsp, %s, %r' % (method, params))
    for params in WRONG:
        for method in 'documentSymbol', 'foldingRange', 'codeAction':
            same(code_of(client.ask('textDocument/' + method, params)), -32602,
                 'lsp, %s, %r' % (method, params))
    for new in None, 1, [], {}:
        same(code_of(client.ask('textDocument/rename', dict(here, position=POSITION, newName=new))),
             -32602, 'lsp, a new name %r' % new)
    for params in None, 1, [], {}, {'query': 1}:
        same(code_of(client.ask('workspace/symbol', params)), -32602, 'lsp, symbol, %r' % params)
    for place in places:
        wrong = dict(here, range={'start': place['position'], 'end': POSITION})
        same(code_of(client.ask('textDocument/codeAction', wrong)), -32602,
             'lsp, codeAction, %r' % wrong)
    uri = client.uri('a.w')
    for params in [None, {}, {'command': 1}, {'command': 'x', 'arguments': []}] + [
            {'command': 'retangle.showC', 'arguments': arguments}
            for arguments in (None, [], [uri], [uri, -1], [uri, 'x'], [1, 1], [uri, 1, 1], {})]:
        same(code_of(client.ask('workspace/executeCommand', params)), -32602,
             'lsp, executeCommand, %r' % params)
    same(code_of(client.c_of('none.w', 1)), -32803, 'lsp, the C of a file that is not there')
    check_wrong_notices(client, uri)
    client.end()


def check_wrong_notices(client, uri):
    """They are logged, and change nothing."""
    item = {'uri': uri, 'version': 9}
    changes = [None, 1, [1], [{}], [{'text': 1}], [{'text': 'x', 'range': 1}],
               [{'text': 'x', 'range': {'start': POSITION}}],
               [{'text': 'x', 'range': {'start': POSITION, 'end': {'line': -1, 'character': 0}}}],
               [{'text': 'x', 'range': {'start': POSITION, 'end': POSITION}}, {'text': None}]]
    wrong = [('didChange', {'textDocument': item, 'contentChanges': one}) for one in changes]
    wrong += [(method, params) for params in WRONG
              for method in ('didOpen', 'didChange', 'didSave', 'didClose')]
    wrong += [(method, {'textDocument': {'uri': client.uri('b.w')}, 'contentChanges': []})
              for method in ('didChange', 'didSave', 'didClose')]
    wrong = [(method, params) for method, params in wrong if params != WRONG[-1]]
    for method, params in wrong:
        client.notify('textDocument/' + method, params)
    client.has([NO_V], 'after wrong notices')
    same(len(client.logged), len(wrong), 'lsp, wrong notices')


VALUES = [None, 1, -1, 1.5, True, 'x', '', [], {}, [1], 10 ** 9, '\udce9', '\ud800', POSITION,
          'file:///%00', 'file:///%0a', 'file:///../..', 'file://' + '/x' * 3000]


def mutated(chance, value, likely):
    """A value with some of its parts replaced or left out."""
    if chance.random() < likely:
        return chance.choice(VALUES)
    if isinstance(value, list):
        return [mutated(chance, one, likely) for one in value]
    if isinstance(value, dict):
        return {key: mutated(chance, one, likely) for key, one in value.items()
                if chance.random() > likely / 4}
    return value


def test_mutated_messages():
    """No message makes the server fail: that would be an error -32603."""
    chance, client = random.Random(4), Client({'a.w': WEB})
    here = {'textDocument': {'uri': client.uri('a.w'), 'version': 1, 'text': WEB.decode()},
            'position': {'line': 2, 'character': 8}, 'context': {'includeDeclaration': True},
            'contentChanges': [{'range': range_of((1, 0), (2, 1)), 'text': 'q'}],
            'command': 'retangle.showC', 'arguments': [client.uri('a.w'), 2], 'query': 'v',
            'newName': 'w', 'range': range_of((2, 8), (2, 9))}
    methods = ['textDocument/' + method for method in (
        'didOpen', 'didChange', 'didSave', 'didClose', 'definition', 'references',
        'documentSymbol', 'completion', 'hover', 'documentHighlight', 'foldingRange',
        'prepareRename', 'rename', 'codeAction')]
    methods += ['workspace/executeCommand', 'workspace/symbol', 'initialized', 'initialize',
                'workspace/didChangeWatchedFiles']
    for number in range(3000):
        parts = {'method': chance.choice(methods), 'params': mutated(chance, here, .04)}
        if chance.random() < .6:
            parts['id'] = 'm%d' % number
        body = bytearray(json.dumps(dict(parts, jsonrpc='2.0')).encode())
        if chance.random() < .1:
            body[chance.randrange(len(body))] = chance.randrange(256)
        client.send(framed(body))
        client.settle()
    failed = [one for one in client.errors if one['code'] == -32603]
    failed += [line for line in client.logged if 'Error(' in line]
    check(len(client.errors) > 500 and not failed, 'lsp, mutated messages', failed)
    client.end()


def test_order():
    client = Client({'a.w': WEB}, initialize=False)
    same(code_of(client.ask('shutdown')), -32002, 'lsp, before initialize')
    client.open('a.w', WEB.decode())
    client.number += 1
    client.ask('initialize', {'rootUri': client.uri('')})
    client.notify('initialized', {})
    client.last = None
    client.has([], 'a notice before initialize is dropped')
    same(client.ask('shutdown')['result'], None, 'lsp, shutdown')
    same(code_of(client.ask('shutdown')), -32600, 'lsp, after shutdown')
    client.open('a.w', WEB.decode())
    same(code_of(client.ask('x')), -32600, 'lsp, after shutdown')
    client.send(message(method='exit'))
    same(client.process.wait(PATIENCE), 0, 'lsp, exit')
    for last in (message(method='exit'), b'', b'Content-Length: 9\r\n\r\n{}', b'Content-Len'):
        client = Client({'a.w': WEB})
        client.open('a.w', WEB.decode())
        client.send(last)
        client.process.stdin.close()
        same(client.process.wait(PATIENCE), 1, 'lsp, an end without shutdown')


# ---------------------------------------------------------------------- texts

def bytes_of(text):
    return text.encode('utf-8', 'surrogateescape')


def tangled(files, *arguments):
    """What ctangle reports of these files, as Client.faults gives it, and the outputs."""
    with folder_with(files) as folder:
        os.makedirs(os.path.join(folder, 'd'), exist_ok=True)   # that of some outputs
        lines = run([ctangle, *arguments], folder).errors.decode(errors='replace').split('\n')[:-1]
        return sorted(lines), {name: read(folder, name) for name in os.listdir(folder)
                               if os.path.isfile(os.path.join(folder, name))}


def units(text):
    return len(text.encode('utf-16-le', 'surrogatepass')) // 2


def place_of(text, at):
    """The position of an index of a text."""
    lines = text[:at].split('\n')
    return len(lines) - 1, units(lines[-1])


PIECES = ['a', 'b c', 'é', '€', '😀', '𝒳y', '\udce9', '\udcff', ' ', '\n', '\r\n', '\t', '@<', '@>',
          '@>=', '@<v é😀@>', '@<v...@>', '\n@ @c\n', '\n@ @<v é😀@>=\n', '"', '"é"', '@', '/*',
          '*/', '@(h.h@>=']


def some_text(chance, most):
    return ''.join(chance.choice(PIECES) for _ in range(chance.randrange(most)))


def random_change(chance, text):
    """A change of a range, and the text after it."""
    start = chance.randrange(len(text) + 1)
    end = min(len(text), start + chance.choice([0, 0, 1, 3, 20]))
    new = some_text(chance, 4)
    return ((place_of(text, start), place_of(text, end)), new), text[:start] + new + text[end:]


def test_texts():
    """After each change the diagnostics and the C are those of ctangle on the same text."""
    chance, name = random.Random(3), 'lsp, a change of a text'
    client = Client({'a.w': b''})
    text = some_text(chance, 30)
    client.open('a.w', text)
    for number in range(150):
        changes = []
        for _ in range(chance.choice([1, 1, 2, 5])):
            change, text = random_change(chance, text)
            changes.append(change)
        if number % 20 == 19:
            text = '\n@ @c\nint x; ' + some_text(chance, 40)
            changes.append((None, text))
        client.change('a.w', *changes)
        faults, outputs = tangled({'a.w': bytes_of(text)}, 'a')
        same(client.faults(), faults, name)
        shown = client.c_of('a.w', 1).get('result')
        if shown:
            same(read(shown['file']), outputs[shown['output']], name + ', the C')
        for one in client.diagnostics.get('a.w', []):
            start, end = ((one['range'][key]['line'], one['range'][key]['character'])
                          for key in ('start', 'end'))
            lines = [line.rstrip(' ') for line in text.split('\n')]
            check(start <= end and end[1] <= units(lines[end[0]]), name + ', the range', one)
    client.end()


def test_positions():
    """Positions past the end of a line or of the text, and bytes that come as they are."""
    client = Client({'a.w': b''})
    client.open('a.w', '@ @c\n@<é😀x@>\r\n\n@<z@>')
    client.has(['a.w:2: error: undefined: <é😀x>', 'a.w:4: error: undefined: <z>'], 'positions')
    for place, text, names in (
            (((1, 3), (1, 5)), 'w', ['éwx', 'z']),              # the pair of a surrogate
            (((1, 2), (1, 4)), '😀😀', ['😀😀x', 'z']),
            (((1, 6), (1, 7)), '', ['😀😀', 'z']),
            (((1, 99), (1, 99)), '@<y@>', ['😀😀', 'y', 'z']),    # before the carriage return
            (((3, 3), (3, 2)), 'q', ['😀😀', 'y', 'zq']),         # an end before the start
            (((9, 9), (9, 9)), '@<e@>', ['😀😀', 'e', 'y', 'zq']),
            (((0, 99), (3, 0)), '\n', ['e', 'zq']),
            (((0, 0), (99, 0)), '@ @c\n@<all@>', ['all'])):
        client.change('a.w', (place, text))
        client.settle()
        found = [one['message'] for one in client.diagnostics['a.w']]
        same(sorted(found), ['undefined: <%s>' % name for name in sorted(names)],
             'lsp, positions, %r' % (place,))
    item = {'textDocument': {'uri': client.uri('a.w'), 'version': 2},
            'contentChanges': [{'text': '@ @c\n@<\udce9\udcff@>@<v@> '}]}
    raw = json.dumps({'jsonrpc': '2.0', 'method': 'textDocument/didChange', 'params': item},
                     ensure_ascii=False)
    client.send(framed(bytes_of(raw)))
    client.change('a.w', (((1, 6), (1, 9)), '@<a'))
    client.has(['a.w:2: error: undefined: <\ufffd\ufffd>', 'a.w:2: error: undefined: <a>'],
               'bytes that are no UTF-8')
    same(client.places('references', 'a.w', 2, 7), ['a.w:2:6-11'], 'lsp, after such bytes')
    client.change('a.w', (None, '@ @c\nx \ud800 \udfff "\n'))
    client.has(['a.w:2: error: quoted text did not end'], 'surrogates that are alone')
    client.end()


def test_generated():
    """The same of generated webs with inclusions and change files, a line at a time."""
    for seed in range(40):
        chance, project = random.Random(seed), generator.Project(seed)
        if not project.is_small():
            continue
        files = {os.fsdecode(name): b'\n'.join(lines) for name, lines in project.files}
        arguments = ['a', 'a.ch' if project.change else '-', os.fsdecode(project.out)]
        client = Client({**files, '.retangle': ' '.join(arguments).encode()})
        texts = {name: text.decode('utf-8', 'surrogateescape') for name, text in files.items()}
        opened = [name for name in ('a.w', 'a.ch') if name in texts]
        for name in opened:
            client.open(name, texts[name])
        for _ in range(5):
            name = chance.choice(sorted(texts)[:3])
            change, texts[name] = random_change(chance, texts[name])
            if name in opened:
                client.change(name, change)
            else:                       # an included file, by another program
                write(bytes_of(texts[name]), client.path(name))
            now = {name: bytes_of(text) for name, text in texts.items()}
            faults, _ = tangled(now, *arguments)
            same(client.faults(), faults, 'lsp, generated web %d' % seed)
        client.end()


# ---------------------------------------------------------------------- files

NO_B = 'a.w:4: error: included file not found: b.w'


def test_files():
    """Included files that are open, closed, saved, and written or removed by others."""
    web = '@ A.\n@c\n@<v@>\n@i b.w\n'
    unknown, unused = 'a.w:3: error: undefined: <v>', 'b.w:1: warning: never used: <w>'
    client = Client({'a.w': web.encode()})
    client.open('a.w', web)
    client.has([NO_B, unknown], 'an included file that is not there')
    client.open('b.w', '@ @<v@>=\n1\n@ @<w@>=\n2\n')
    client.has(['b.w:3: warning: never used: <w>'], 'an included file that is not saved')
    client.change('b.w', (((0, 0), (2, 0)), ''))
    client.has([unknown, unused], 'a change of an included file')
    client.about('didClose', 'b.w')
    client.has([NO_B, unknown], 'an included file that was never saved')
    same(client.diagnostics['b.w'], [], 'lsp, a file that had faults')

    write(b'@ @<w@>=\n2\n', client.path('b.w'))
    client.about('didSave', 'a.w')
    client.has([unknown, unused], 'a file that another program made')
    client.open('b.w', '@ @<w@>=\n2\n')
    client.change('b.w', (((0, 4), (0, 5)), 'v'))
    client.has([], 'both files are open')
    write(b'@ @<v@>=\n2 "\n', client.path('b.w'))
    client.change('a.w', (((0, 0), (0, 0)), '\n'))
    client.has([], 'a file that is open and written')
    client.about('didClose', 'b.w')
    client.has(['b.w:2: error: quoted text did not end'], 'a file that was closed')
    os.remove(client.path('b.w'))
    client.about('didSave', 'a.w')
    client.has(['a.w:5: error: included file not found: b.w', 'a.w:4: error: undefined: <v>'],
               'a file that was removed')
    client.end()
    test_names_of_files()


def test_names_of_files():
    client = Client({'a.w': b''})
    client.open('a.w', '@ @c\n@i d/c w.w\n@i "d/c w.w"\n@i ./b.w\n')
    client.open('d/c w.w', 'int x; @<x@>\n', client.uri('d/c%20w.w'))
    client.open('b.w', '@<b@>\n')
    client.settle()
    same(client.diagnostics.pop('d/c%20w.w')[0]['message'], 'undefined: <x>', 'lsp, a URI')
    client.has(['a.w:2: error: included file not found: d/c', './b.w:1: error: undefined: <b>'],
               'names of files')
    client.change('a.w', (None, '@ @c\n@i café.w\n@i \udce9.w\n'))
    client.open('é', '@<e@>\n', client.uri('caf%C3%A9.w'))
    client.open('é', '@<f@>\n', client.uri('%e9.w'))
    client.has(['café.w:1: error: undefined: <e>', '\ufffd.w:1: error: undefined: <f>'],
               'names of files beyond ASCII')
    client.end()


def test_change_file():
    """A change file by the settings, and one by its name beside the web alone."""
    web, change = '@ A.\n@c\nint x;\n', 'x\n@x\nint x;\n@y\nint y=@<v@>;\n@z\n'
    client = Client({'w/a.w': web.encode(), 'a.ch': change.encode(), '.retangle': b'w/a a o\n'})
    unused = 'a.ch:2: error: change never used'
    client.open('w/a.w', web)
    client.has(['a.ch:5: error: undefined: <v>'], 'a change file')
    client.change('w/a.w', (((2, 4), (2, 5)), 'z'))
    client.has([unused], 'a change that is not used')
    client.open('a.ch', change)
    client.change('a.ch', (((2, 4), (2, 5)), 'z'), (((4, 6), (4, 11)), '1'))
    client.has([], 'a change file that is open')
    shown = client.c_of('a.ch', 5)['result']
    same((shown['output'], read(shown['file']).split(b'\n')[shown['line']]), ('o.c', b'int y=1;'),
         'lsp, the C of a change file')
    client.about('didClose', 'a.ch')
    client.has([unused], 'a change file that was closed')
    client.end()
    client = Client({'a.w': web.encode(), 'a.ch': change.encode()})
    client.open('a.w', web)
    client.has([], 'a web without its change file')
    client.open('a.ch', change)
    client.has(['a.ch:5: error: undefined: <v>'], 'a change file that has the name of a web')
    client.change('a.w', (None, web.replace('\n', '\r\n')))
    client.has([unused], 'line ends of another system')
    check('line ends alone' in client.diagnostics['a.ch'][0]['message'], 'lsp, line ends',
          client.diagnostics)
    client.about('didClose', 'a.ch')
    client.has([], 'a change file that is closed')
    client.end()


def test_settings():
    """The lines of .retangle, right and wrong, and what it is after a change of it."""
    change = b'@x\nint x=@<v@>;\n@y\nint y=@<w@>;\n@z\n'
    no_w = 'b.ch:4: error: undefined: <w>'
    for settings, expected, parts in (
            (b'', [NO_V], []), (b'# nothing\n\n', [NO_V], []), (b'a\n', [NO_V], []),
            (b'a b o\n', [no_w], []), (b'  a.w   b.ch\n', [no_w], []), (b'a - o.c\n', [NO_V], []),
            (b'a\na b\n', [NO_V, no_w], []), (b'a c\n', [NO_V], ['there is no file c.ch']),
            (b'c\n', [NO_V], ['there is no file c.w']), (b'a b o p\n', [NO_V], ['more than']),
            (b'a \xff\n', [NO_V], ['there is no file']), (b'/ /\n', [NO_V], ['there is no file'])):
        client = Client({'a.w': WEB, 'b.ch': change, '.retangle': settings})
        client.open('a.w', WEB.decode())
        client.has(expected, 'settings %r' % settings)
        same([part in text for part, text in zip(parts, client.shown)], [True] * len(parts),
             'lsp, what is said of settings %r' % settings)
        same(len(client.shown), len(parts), 'lsp, settings %r' % settings)
        write(b'a b\n', client.path('.retangle'))
        client.notify('workspace/didChangeWatchedFiles', {'changes': []})
        client.has([no_w], 'settings that are others now')
        client.open('.retangle', '\n')
        client.has([NO_V], 'settings that are open')
        client.end()


def test_webs():
    """Each .w that no other includes is a web; a file of several has the faults of each."""
    part = b'@ @<v@>=\n1\n'
    files = {'a.w': WEB + b'@i p.h\n', 'b.w': b'@ B.\n@c\n@<u@>\n@i p.h\n', 'p.h': part,
             'c/c.w': WEB, 'd/Makefile': b'', 'd/d.w': WEB, 'd/e.w': b'@i d.w\n@ @<v@>=\n'}
    client = Client({**files, 'Makefile': b''})
    client.open('p.h', part.decode())
    never = 'p.h:1: warning: never used: <v>'
    client.has(['b.w:3: error: undefined: <u>', never], 'an included file alone')
    client.open('a.w', files['a.w'].decode())
    client.about('didClose', 'p.h')
    client.has([], 'one web of two')
    client.open('c/c.w', WEB.decode())
    client.has(['c/c.w:3: error: undefined: <v>'], 'a web in a folder of the root')
    client.open('d/d.w', WEB.decode())
    client.has(['c/c.w:3: error: undefined: <v>'], 'a web that another one includes')
    client.change('d/d.w', (((2, 8), (2, 9)), 'w'))
    found = client.faults()
    same(found, ['c/c.w:3: error: undefined: <v>', 'd.w:3: error: undefined: <w>',
                 'e.w:2: warning: never used: <v>'], 'lsp, a root in a root')
    same(sorted(name for name, these in client.diagnostics.items() if these),
         ['c/c.w', 'd/d.w', 'd/e.w'] if len(found) > 2 else [], 'lsp, files of a root in a root')
    same((client.shown, client.logged), ([], []), 'lsp, several webs')
    client.end()
    client = Client({'a.w': b'@i b.w\n@ @c\n1\n', 'b.w': b'@i a.w\n@ @c\n@<v@>\n'})
    client.open('a.w', '@i b.w\n@ @c\n1\n')
    check(client.faults(), 'lsp, webs that include each other', 'no faults')
    client.end()


def test_without_webs():
    """Files that are of no web, or of no folder, have no faults and no message."""
    client = Client({'a.w': WEB, 'b.h': b'"\n'})
    client.open('a.w', WEB.decode())
    client.open('b.h', '"\n')
    client.open('c.w', '', 'untitled:c.w')
    client.open('c.ch', '')
    item = {'textDocument': {'uri': 'untitled:c.w', 'version': 2}}
    client.notify('textDocument/didChange', dict(item, contentChanges=[{'text': 'x'}]))
    client.notify('textDocument/didSave', item)
    client.notify('textDocument/didClose', item)
    client.last = None
    client.has([NO_V], 'files of no web')
    same((client.shown, client.logged), ([], []), 'lsp, files of no web')
    client.end()


def test_unsaved_webs():
    """A web that is not there yet, or not any more, or under another name."""
    client = Client({})
    client.open('a.w', WEB.decode())
    client.has([], 'a web that is not saved')
    same(len(client.shown), 1, 'lsp, a web that is not saved')
    write(WEB, client.path('a.w'))
    client.has([NO_V], 'a web that is saved now')
    os.remove(client.path('a.w'))
    client.has([], 'a web that is gone')
    write(WEB, client.path('a.w'))
    client.has([NO_V], 'a web that is there again')
    write(WEB, client.path('b.w'))
    client.about('didSave', 'b.w')
    client.about('didClose', 'a.w')
    client.has(['b.w:3: error: undefined: <v>'], 'a web that is saved under another name')
    client.change('b.w', (((2, 8), (2, 9)), 'w'))
    client.has(['b.w:3: error: undefined: <w>'], 'a change under another name')
    same(len(client.shown), 1, 'lsp, webs that are not there')
    client.end()


def test_other_programs():
    """What other programs write is seen by a notification, and without one by its time."""
    watching = {'workspace': {'didChangeWatchedFiles': {'dynamicRegistration': True}}}
    client = Client({'a.w': WEB + b'@i p.h\n', 'p.h': b''}, capabilities=watching)
    client.open('a.w', WEB.decode() + '@i p.h\n')
    client.settle()
    same([one['method'] for one in client.asked], ['client/registerCapability'], 'lsp, asked')
    write(b'@ @<v@>=\n1\n', client.path('p.h'))
    client.notify('workspace/didChangeWatchedFiles', {'changes': [
        {'uri': client.uri('p.h'), 'type': 2}]})
    client.settle()
    same(client.diagnostics['a.w'], [], 'lsp, a file that is notified')
    write(b'@ @<w@>=\n1\n', client.path('p.h'))
    while not client.diagnostics['a.w']:
        client.receive()
    same(client.diagnostics['a.w'][0]['message'][:14], 'undefined: <v>', 'lsp, a file by its time')
    os.remove(client.path('p.h'))
    client.last = None
    while len(client.faults()) < 2 or 'p.h:1' in str(client.faults()):
        client.receive()
    client.has([NO_V, 'a.w:4: error: included file not found: p.h'], 'a file that is removed')
    client.end()


def test_lists():
    """A change is one list of edits, or an edit alone; none where the text stays as it was."""
    program = b'#!/bin/sh\ntee script | "%s" "$@"\n' % retangle.encode()
    with folder_with({'run': program}) as folder:
        os.chmod(os.path.join(folder, 'run'), 0o755)
        client = Client({'a.w': WEB}, os.path.join(folder, 'run'))
        client.open('a.w', WEB.decode())
        for count, changes in enumerate((
                [(((0, 0), (0, 0)), '\n'), (((3, 4), (3, 5)), 'y'), (((1, 0), (2, 0)), '@ B.\n\n')],
                [(None, '@ B.\n@c\nint z;\n\n@ C.\n')], [(((0, 2), (0, 3)), 'b')])):
            client.change('a.w', *changes)
            client.change('a.w', (((0, 0), (0, 0)), 'x'), (((0, 0), (0, 1)), ''))
            client.settle()
            lines = read(client.path('script')).split(b'\n')
            lists = min(count + 1, 2)
            same((lines.count(b'begin'), lines.count(b'commit'), lines.count(b'replace 1 a.w')),
                 (lists, lists, 1 + count // 2), 'lsp, lists of edits')
        client.end()


def test_refusals():
    """A text that retangle does not take is a fault of its file, until it can be taken."""
    client = Client({'a.w': WEB})
    client.open('a.w', WEB.decode())
    client.change('a.w', (((0, 0), (0, 0)), 'x' * 65536 + '\n'))
    found = client.faults()
    check(len(found) == 2 and '65,535' in found[0], 'lsp, a refused text', found)
    client.change('a.w', (((0, 0), (0, 1)), ''))
    client.has(['a.w:4: error: undefined: <v>'], 'a text that is taken again')
    client.end()


MANY, SECONDS = 5000, 3


def test_many_faults():
    """Thousands of faulty names in a section are opened in a time that grows as they do."""
    for line in '@<Name %d@>\n', '@<Name %d...@>@<Name %d a@>@<Name %d b@>\n':
        web = '@ A.\n@c\n' + ''.join(line.replace('%d', '%05d' % number) for number in range(MANY))
        client = Client({'a.w': web.encode()})
        before = processor_seconds(client.process.pid)
        client.open('a.w', web)
        client.settle()
        seconds = processor_seconds(client.process.pid) - before
        check(seconds < SECONDS, 'lsp, %d of %r' % (MANY, line), '%.1f seconds' % seconds)
        client.has(tangled({'a.w': web.encode()}, 'a')[0], '%d of %r' % (MANY, line))
        client.end()


def test_ends():
    """A retangle that is ended is started again; one that is not there is no end of the server."""
    files = {'a.w': WEB, 'run': b'#!/bin/sh\necho $$ >pid\nexec "%s" "$@"\n' % retangle.encode()}
    client = Client(files, initialize=False)
    os.chmod(client.path('run'), 0o755)
    client.end(1)
    with folder_with(files) as folder:
        program = os.path.join(folder, 'run')
        os.chmod(program, 0o755)
        client = Client(files, program)
        client.open('a.w', WEB.decode())
        client.has([NO_V], 'before retangle is ended')
        os.kill(int(read(client.path('pid'))), 9)
        client.change('a.w', (((2, 8), (2, 9)), 'w'))
        client.has(['a.w:3: error: undefined: <w>'], 'after retangle was ended')
        same(len(client.shown), 1, 'lsp, what is shown of that')
        os.remove(program)
        os.kill(int(read(client.path('pid'))), 9)
        for text in 'xyz':
            client.change('a.w', (((2, 8), (2, 9)), text))
        client.settle()
        write(files['run'], program)
        os.chmod(program, 0o755)
        client.change('a.w', (((2, 8), (2, 9)), 'u'))
        client.has(['a.w:3: error: undefined: <u>'], 'retangle is there again')
        client.end()
    without = {name: text for name, text in os.environ.items() if name != 'RETANGLE'}
    client = Client({'a.w': WEB}, environment=dict(without, PATH='/nowhere'))
    client.open('a.w', WEB.decode())
    client.has([], 'no retangle on the path')
    check(len(client.shown) == 1 and 'install it' in client.shown[0], 'lsp, no retangle',
          client.shown)
    client.end()
    client = Client({'a.w': WEB}, '/nowhere/retangle')
    client.open('a.w', WEB.decode())
    client.change('a.w', (((2, 8), (2, 9)), 'w'))
    client.has([], 'no retangle')
    same(len(client.shown), 1, 'lsp, no retangle')
    client.end()


if __name__ == '__main__':
    sys.exit(run_all([test_splits, test_bad_messages, test_wrong_parameters, test_mutated_messages,
                      test_order, test_texts, test_positions, test_generated, test_files,
                      test_change_file, test_settings, test_webs, test_without_webs,
                      test_unsaved_webs, test_other_programs, test_lists, test_refusals,
                      test_many_faults, test_ends]))
