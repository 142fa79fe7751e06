"""What the language server shows in a text: links, tokens, numbers, ranges, and pulled diagnostics.

usage: lsp_texts.py CTANGLE RETANGLE TOP            TOP is the folder of the repository

The tokens are also those of a new scan after each of many random changes, in generated webs and in
a web of 35,000 lines.

The last line is 'N passed, M failed'.
"""
import os
import random
import sys
import time

ctangle, retangle, top = (os.path.abspath(path) for path in sys.argv[1:4])
sys.path[:0] = [os.path.join(top, below) for below in ('bench', 'lsp', 'tests', 'tests/reference')]
import generator
import webs
from checks import check, run_all, same, write
from lsp_client import Client, item, range_of, used_by_both

os.environ['RETANGLE'] = retangle

WEB = '''\
% limbo
@* Sums. The \\TeX, |int| é😀 @<Add@>.
@d MOST 10 /* most */
@c
#include <stdio.h>
int main(void) { return "a\\
b"[0]+@<Add...@>; }
@i b.w
@ Last.
@<Add@>=
'x'+0x1f
'''
INCLUDED = '@ An included one.\n@<Add@>=\n+1\n'
FILES = {'a.w': WEB.encode(), 'b.w': INCLUDED.encode()}


def opened(files=FILES, name='a.w', **parts):
    client = Client(files, **parts)
    client.open(name, files[name].decode())
    client.settle()
    return client


# ---------------------------------------------------------------------- tokens

def decoded(client, data, text):
    """The tokens of numbers: the line, the text, and the type."""
    legend = client.capabilities['semanticTokensProvider']['legend']['tokenTypes']
    row = column = 0
    found, lines = [], text.split('\n')
    for number in range(0, len(data), 5):
        down, right, length, kind, _ = data[number:number + 5]
        row, column = row + down, right + (column if down == 0 else 0)
        line = lines[row].encode('utf-16-le')
        found.append((row + 1, line[2 * column:2 * (column + length)].decode('utf-16-le'),
                      legend[kind]))
    return found


def full(client, name='a.w'):
    return client.result('textDocument/semanticTokens/full', item(client, name))


def test_tokens():
    client = opened()
    found = decoded(client, full(client)['data'], WEB)
    expected = [
        (1, '% limbo', 'comment'),
        (2, '@*', 'decorator'), (2, ' Sums. The \\TeX, ', 'comment'), (2, 'int', 'type'),
        (2, ' é😀 ', 'comment'), (2, '@<', 'decorator'), (2, 'Add', 'namespace'),
        (2, '@>', 'decorator'), (2, '.', 'comment'),
        (3, '@d', 'decorator'), (3, 'MOST', 'macro'), (3, '10', 'number'),
        (3, '/* most */', 'comment'),
        (4, '@c', 'decorator'),
        (5, '#include', 'macro'), (5, '<stdio.h', 'string'),
        (6, 'int', 'type'), (6, 'void', 'type'), (6, 'return', 'keyword'), (6, '"a\\', 'string'),
        (7, 'b"', 'string'), (7, '0', 'number'), (7, '@<', 'decorator'),
        (7, 'Add...', 'namespace'), (7, '@>', 'decorator'),
        (8, '@i', 'decorator'), (8, ' b.w', 'string'),
        (9, '@ ', 'decorator'), (9, 'Last.', 'comment'),
        (10, '@<', 'decorator'), (10, 'Add', 'namespace'), (10, '@>', 'decorator'),
        (10, '=', 'decorator'),
        (11, "'x'", 'string'), (11, '0x1f', 'number')]
    same(found, expected, 'the tokens of a web')
    some = client.result('textDocument/semanticTokens/range', item(
        client, 'a.w', range=range_of((4, 0), (6, 0))))['data']
    same(decoded(client, some, WEB), [one for one in expected if 5 <= one[0] <= 7],
         'the tokens of some lines')
    client.open('b.w', INCLUDED)
    same([one[:2] for one in decoded(client, full(client, 'b.w')['data'], INCLUDED)],
         [(1, '@ '), (1, 'An included one.'), (2, '@<'), (2, 'Add'), (2, '@>'), (2, '='), (3, '1')],
         'the tokens of an included file')
    same(full(client, 'c.w')['data'], [], 'the tokens of a file of no web')
    client.end()


def test_tokens_of_changes():
    """The lines of a change file that are no source lines, and the web under it."""
    change = 'Text.\n@x here\nint x;\n@y\nint y; @<A@>\n@z\n'
    web = '@ A.\n@c\nint x;\n@ @<A@>=\n1\n'
    client = opened({'a.w': web.encode(), 'a.ch': change.encode()}, 'a.ch')
    same(decoded(client, full(client, 'a.ch')['data'], change),
         [(2, '@x', 'decorator'), (2, ' here', 'comment'), (4, '@y', 'decorator'),
          (5, 'int', 'type'), (5, '@<', 'decorator'), (5, 'A', 'namespace'),
          (5, '@>', 'decorator'), (6, '@z', 'decorator')], 'the tokens of a change file')
    client.open('a.w', web)
    check((3, 'int', 'type') in decoded(client, full(client)['data'], web),
          'a line that a change takes', full(client))
    client.end()


def test_deltas():
    """After random changes, the earlier tokens with the differences put in are all tokens."""
    pieces = ['x', '@<a@>', '\n', '"', '/*', '*/', '@ ', '\n@ @c\n', 'int é ', '😀', '@d N 1\n', '@']
    for seed in range(6):
        chance, project = random.Random(seed), generator.Project(seed)
        text = b'\n'.join(dict(project.files)[b'a.w']).decode('utf-8', 'replace') + '\n'
        client = opened({'a.w': text.encode()})
        sent = full(client)
        data = sent['data']
        for _ in range(25):
            place = chance.randrange(len(text) + 1)
            text = text[:place] + chance.choice(pieces) + text[place + chance.choice([0, 0, 1, 5]):]
            client.change('a.w', (None, text))
            sent = client.result('textDocument/semanticTokens/full/delta', item(
                client, 'a.w', previousResultId=sent['resultId']))
            for edit in sent.get('edits', []):
                data[edit['start']:edit['start'] + edit['deleteCount']] = edit['data']
            check('edits' in sent, 'a difference', sent)
            tokens = decoded(client, data, text)        # fails where a token is past its line
            check(all(one[1].strip('\0') for one in tokens), 'tokens of a change', tokens)
            client.notify('textDocument/didClose', item(client, 'a.w'))
            write(text.encode('utf-8', 'surrogatepass'), client.path('a.w'))
            client.open('a.w', text)
            fresh = full(client)
            same(fresh['data'], data, 'the tokens after a change')
            sent = fresh
        unknown = client.result('textDocument/semanticTokens/full/delta', item(
            client, 'a.w', previousResultId='none'))
        same(unknown['data'], data, 'a difference to what was not sent')
        client.end()


def test_much():
    """The tokens of 35,000 lines, and what a change makes of them."""
    text = '\n'.join(webs.named_program(35000)) + '\n'
    client = opened({'a.w': text.encode()})
    sent = full(client)
    seconds = used_by_both(client)
    check(seconds < 10, 'the tokens of a large web', seconds)
    client.change('a.w', (((20000, 0), (20000, 0)), 'int x;\n'))
    client.settle()
    before = used_by_both(client)
    sent = client.result('textDocument/semanticTokens/full/delta', item(
        client, 'a.w', previousResultId=sent['resultId']))
    seconds = used_by_both(client) - before
    check(seconds < 2, 'a difference in a large web', seconds)
    check(sum(len(one['data']) for one in sent['edits']) < 100, 'a small difference', sent)
    client.end()


# ---------------------------------------------------------------------- links, numbers, ranges

def test_links():
    files = {**FILES, 'c d.w': b'@ C.\n', 'a.w': b'@ A.\n@i b.w\n@i "c d.w" x\n@i none.w\n@c\n1\n'}
    client = opened(files)
    found = client.result('textDocument/documentLink', item(client, 'a.w'))
    same([(one['range'], client.name(one['target'])) for one in found],
         [(range_of((1, 3), (1, 6)), 'b.w'), (range_of((2, 4), (2, 9)), 'c%20d.w')], 'links')
    for line, expected in ((2, ['b.w:1:0-0']), (3, ['c%20d.w:1:0-0']), (4, []), (1, [])):
        same(client.places('definition', 'a.w', line, 1), expected, 'line %d, definition' % line)
    client.end()


def test_hints():
    client = opened()
    for name, span, expected in (
            ('a.w', ((0, 0), (99, 0)), [('1', 1, 2), ('3', 8, 2)]),
            ('a.w', ((2, 0), (99, 0)), [('3', 8, 2)]), ('b.w', ((0, 0), (9, 0)), [('2', 0, 2)])):
        found = client.result('textDocument/inlayHint', item(client, name, range=range_of(*span)))
        same([(one['label'], one['position']['line'], one['position']['character'])
              for one in found], expected, 'the numbers of sections in %s' % name)
    client.end()


def test_selection():
    client = opened()
    places = [{'line': 6, 'character': 8}, {'line': 1, 'character': 5}, {'line': 2, 'character': 4},
              {'line': 0, 'character': 1}, {'line': 99, 'character': 0}]
    found = client.result('textDocument/selectionRange', item(client, 'a.w', positions=places))
    line, section = range_of((6, 0), (6, 19)), range_of((1, 0), (6, 19))
    expected = [[range_of((6, 6), (6, 16)), line, range_of((3, 0), (6, 19)), section],
                [range_of((1, 0), (1, 37)), section],
                [range_of((2, 0), (2, 21)), section],
                [range_of((0, 0), (0, 7))], [range_of((99, 0), (99, 0))]]
    same([chain(one) for one in found], expected, 'ranges')
    client.end()


def chain(one):
    return [one['range']] + (chain(one['parent']) if 'parent' in one else [])


def test_pulled():
    """A client that asks for diagnostics, and takes no others, is sent none."""
    pulling = {'textDocument': {'diagnostic': {}},
               'workspace': {'diagnostics': {'refreshSupport': True}}}
    client = opened(capabilities=pulling)
    check('diagnosticProvider' in client.capabilities, 'a client that asks', client.capabilities)
    client.change('a.w', (((6, 6), (6, 12)), '@<None@>'))
    found = client.result('textDocument/diagnostic', item(client, 'a.w'))
    same(found['kind'], 'full', 'asked for')
    check(any('undefined: <None' in one['message'] for one in found['items']), 'asked for', found)
    items = client.result('workspace/diagnostic', {'previousResultIds': []})['items']
    check('a.w' in [client.name(one['uri']) for one in items], 'all that are asked for', items)
    same(client.diagnostics, {}, 'what is sent to a client that asks')
    check('workspace/diagnostic/refresh' in [one['method'] for one in client.asked],
          'that others are there', client.asked)
    client.end()
    both = {'textDocument': {'diagnostic': {}, 'publishDiagnostics': {}}}
    for capabilities in (None, both):
        client = opened(capabilities=capabilities)
        check('diagnosticProvider' not in client.capabilities, 'a client that is sent diagnostics',
              client.capabilities)
        check(client.diagnostics, 'a client that is sent diagnostics', client.diagnostics)
        client.end()


if __name__ == '__main__':
    sys.exit(run_all([test_tokens, test_tokens_of_changes, test_deltas, test_much, test_links,
                      test_hints, test_selection, test_pulled]))
