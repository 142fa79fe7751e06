"""What the language server knows of names: by a client over pipes, and against the layers' listing.

usage: lsp_names.py CTANGLE RETANGLE LAYERS TOP         TOP is the folder of the repository

- Requests: definitions, references, highlights, sections, folding, symbols, hover, completion,
  renaming and what it refuses, actions, the C of a line.
- Faults: where they are marked, which are one, and what is shown while a name is typed.
- The scanner: the source lines, the sections, the occurrences and what they resolve to, of 4,000
  generated webs, as tangle_layers lists them; each fault of these is marked in its line, on less
  than all of it; and after a change of a line the names are those of a new scan.

The last line is 'N passed, M failed'.
"""
import collections
import os
import random
import re
import subprocess
import sys

ctangle, retangle, layers, top = (os.path.abspath(path) for path in sys.argv[1:5])
sys.path[:0] = [os.path.join(top, below) for below in ('lsp', 'tests', 'tests/reference')]
import generator
from checks import check, folder_with, read, run_all, same
from lsp_client import Client, applied, at, item, range_of
from retangle_lsp.faults import Folding
from retangle_lsp.files import lines_of, text_of
from retangle_lsp.names import Names
from retangle_lsp.runs import fault_line, fault_of
from running import run

os.environ['RETANGLE'] = retangle
WEBS = 4000


# ---------------------------------------------------------------------- names and C

A = '''\
@<limbo@>
@* The program. More.
See @<Value of é😀@>.
@c
int x=@<Value...@>; /* @<no name@> */
char *s="@@<Value...@@>";
@i b.w
@ Last, @<Not
  there@>.
'''
B = '''\
@ @<Value
  of é😀@>=
1 @<Other@>
@
@d N 1
@<Value of é😀@>+=
+2
@ @(x/b.h@>=
@<Other@>
'''
CHANGE = '''\
@x
@<Other@>
@y
@<Value of é😀@>@<Not there@>
@z
'''
FILES = {'a.w': A.encode(), 'b.w': B.encode()}
CHANGED = {**FILES, 'a.ch': CHANGE.encode(), '.retangle': b'a a\n'}


def test_places():
    client = Client(CHANGED)
    client.open('a.w', A)
    pieces = ['b.w:1:2-10', 'b.w:6:0-16']
    uses = ['a.w:3:4-20', 'a.w:5:6-18', 'a.ch:4:0-16']
    for name, line, character in (('a.w', 5, 6), ('a.w', 5, 17), ('a.w', 3, 10), ('b.w', 1, 4),
                                  ('b.w', 2, 0), ('b.w', 6, 15), ('a.ch', 4, 0)):
        where = 'a name at %s:%d:%d' % (name, line, character)
        same(client.places('definition', name, line, character), pieces, where)
        same(client.places('references', name, line, character), uses, where)
        same(sorted(client.places('references', name, line, character,
                                  context={'includeDeclaration': True})), sorted(uses + pieces),
             where)
        found = client.result('textDocument/documentHighlight',
                              item(client, name, position=at(line, character)))
        here = [place for place in pieces + uses if place.startswith(name + ':')]
        same((len(found), sum(one['kind'] == 3 for one in found)),
             (len(here), sum(place in pieces for place in here)), where + ', highlights')
    for name, line, character in (('a.w', 5, 5), ('a.w', 5, 18), ('a.w', 1, 3), ('a.w', 5, 30),
                                  ('a.w', 6, 12), ('b.w', 4, 0), ('a.w', 99, 0), ('c.w', 1, 0)):
        where = 'no name at %s:%d:%d' % (name, line, character)
        same(client.places('definition', name, line, character), [], where)
        same(client.places('references', name, line, character), [], where)
        params = item(client, name, position=at(line, character))
        same(client.result('textDocument/hover', params), None, where + ', hover')
        same(client.result('textDocument/documentHighlight', params), [], where)
    same(client.places('references', 'b.w', 9, 3), ['b.w:3:2-11'], 'a name')
    same(client.places('references', 'a.ch', 2, 3), ['b.w:3:2-11'], 'a name in an old line')
    client.open('b.w', B)
    client.change('b.w', (((0, 0), (0, 0)), '\n😀 '))
    same(client.places('definition', 'a.w', 5, 6), ['b.w:2:5-10', 'b.w:7:0-16'],
         'a definition in a text that is not saved')
    client.end()


TITLES = {'a.w': ['1. The program', '5. Last, @<Not'],
          'b.w': ['2. <Value of é😀>', '3. <Value of é😀>', '4. <x/b.h>'], 'a.ch': [], 'c.w': []}


def test_sections():
    capabilities = {'textDocument': {'documentSymbol': {'hierarchicalDocumentSymbolSupport': True}}}
    for given in ({}, capabilities):
        client = Client(FILES, capabilities=given)
        client.open('a.w', A)
        for name, titles in TITLES.items():
            found = client.result('textDocument/documentSymbol', item(client, name))
            same([one['name'] for one in found], titles, 'the sections of ' + name)
        found = client.result('textDocument/documentSymbol', item(client, 'b.w'))
        ranges = [(one if given else one['location'])['range'] for one in found]
        expected = ((0, 0), (2, 11)), ((3, 0), (6, 2)), ((7, 0), (8, 9))
        same(ranges, [range_of(*one) for one in expected], 'the lines of sections')
        folds = client.result('textDocument/foldingRange', item(client, 'b.w'))
        same([(one['startLine'], one['endLine']) for one in folds], [(0, 2), (3, 6), (7, 8)],
             'folds')
        client.end()
    client = Client(FILES)
    client.open('a.w', A)
    for query, names in (('', ['Value of é😀', 'Value of é😀', 'x/b.h']),
                         ('VALUE', ['Value of é😀'] * 2), ('b.h', ['x/b.h']), ('nothing', [])):
        found = client.result('workspace/symbol', {'query': query})
        same([one['name'] for one in found], names, 'symbols for %r' % query)
    same([one['containerName'] for one in client.result('workspace/symbol', {'query': 'v'})],
         ['section 2', 'section 3'], 'the sections of symbols')
    client.end()


def test_hover():
    web = '@ A.\n@c\n@<Sum@>@<Sum@>@<None@>\n@ @<Sum@>=\n1\n+2;\n@ See @<Sum@>.\n@<Sum@>=\n+3;\n'
    for capabilities, front in ((None, '<Sum>: '), (
            {'textDocument': {'hover': {'contentFormat': ['markdown', 'plaintext']}}},
            '\\<Sum\\>: ')):
        client = Client({'a.w': web.encode()}, capabilities=capabilities)
        client.open('a.w', web)
        value = client.result('textDocument/hover', item(
            client, 'a.w', position=at(3, 3)))['contents']['value']
        check(value.startswith(front + 'section 2, 3, 2 pieces, used in 1, mentioned in 3'),
              'hover', value)
        check(re.search(r'1\n\+2;\n(.*\n)*\+3;', value) and '#line' not in value, 'hover, C', value)
        value = client.result('textDocument/hover', item(
            client, 'a.w', position=at(3, 16)))['contents']['value']
        check('not defined' in value, 'hover on a name that is not defined', value)
        many = '@ @c\n@<Many@>\n@ @<Many@>=\n' + 'x;\n' * 500
        client.change('a.w', (None, many))
        value = client.result('textDocument/hover', item(
            client, 'a.w', position=at(2, 3)))['contents']['value']
        check(value.count('x;') == 39 and '...' in value, 'hover, much C', value)
        client.end()


def test_completion():
    web = ('@ A.\n@c\n@<Two words@>@<Two words@>@<One@>@<One@>@<One@>@<Twin@@gle@>\n'
           '@ @<Two words@>=\n1\n@ @<One@>=\n1\n@ @<Twin@@gle@>=\n2\n@ @(one.h@>=\n1\n@ @c\n')
    client = Client({'a.w': web.encode()})
    client.open('a.w', web)
    for typed, labels in (('@<', ['One', 'Two words', 'Twin@gle', 'one.h']),
                          ('@<Tw', ['Two words', 'Twin@gle']), ('x @<two  w', ['Two words']),
                          ('@<Two...', ['Two words']), ('@<words', ['Two words']),
                          ('@(', ['one.h']), ('@(Tw', []), ('@<Nothing', []), ('', []),
                          ('@', []), ('@<One@>', []), ('@<One@> @<Twin@@', ['Twin@gle'])):
        client.change('a.w', (None, web + typed + '\n'))
        line = web.count('\n') + 1
        found = client.result('textDocument/completion',
                              item(client, 'a.w', position=at(line, len(typed))))['items']
        found.sort(key=lambda one: one['sortText'])
        same([one['label'] for one in found], labels, 'completion of %r' % typed)
        for one in found[:1]:
            edit = one['textEdit']
            start, end = edit['range']['start'], edit['range']['end']
            same((typed[:start['character']][-2:] in ('@<', '@('), end, edit['newText']),
                 (True, at(line, len(typed)), one['label'].replace('@', '@@') + '@>'),
                 'completion of %r, the edit' % typed)
    client.change('a.w', (None, web + '@<O w@>;\n'))
    found = client.result('textDocument/completion', item(client, 'a.w', position=at(line, 3)))
    same(found['items'][0]['textEdit']['range'], range_of((line - 1, 2), (line - 1, 7)),
         'completion of a name that has its end')
    client.end()


# ---------------------------------------------------------------------- renaming and actions

def test_rename():
    """All places of a name, in files that are not open, and in webs that are not."""
    texts = {'a.w': A, 'b.w': B.replace('\n', '\r\n')}
    other = '@ O.\n@c\n@<Value of é...@>\n@i b.w\n'
    for capabilities in (None, {'workspace': {'workspaceEdit': {'documentChanges': True}}}):
        client = Client({**{name: text.encode() for name, text in texts.items()},
                         'o.w': other.encode()}, capabilities=capabilities)
        client.open('a.w', A)
        params = item(client, 'a.w', position=at(5, 8))
        same(client.result('textDocument/prepareRename', params),
             {'range': range_of((4, 8), (4, 16)), 'placeholder': 'Value of é😀'},
             'before a renaming')
        edits = client.result('textDocument/rename', dict(params, newName='  Sum of\tx@y  '))
        found = applied(client, edits, {**texts, 'o.w': other})
        expected = {name: re.sub(r'Value(\s+of é😀|\.\.\.(?=@>;)| of é\.\.\.)', 'Sum of x@@y', text)
                    for name, text in {**texts, 'o.w': other}.items()}
        same(found, expected, 'a renaming')
        client.end()
    client = Client({'a.w': b'@ @c\n@<One@>@<Two@>@<Tw...@>\n@ @<One@>=\n@ @<Two@>=\n'})
    client.open('a.w', '@ @c\n@<One@>@<Two@>@<Tw...@>\n@ @<One@>=\n@ @<Two@>=\n')
    for place, new, why in (((2, 3), 'Two', 'there is a section'), ((2, 3), '', 'no name'),
                            ((2, 3), 'x...', 'no name'), ((2, 3), ' ', 'no name'),
                            ((2, 3), 'Twin', 'would be'), ((1, 3), 'x', 'no section name')):
        answer = client.ask('textDocument/rename', item(
            client, 'a.w', position=at(*place), newName=new))
        check(why in answer.get('error', {}).get('message', ''), 'a renaming that is refused',
              answer)
    same(client.result('textDocument/prepareRename', item(client, 'a.w', position=at(1, 0))), None,
         'no name to be renamed')
    client.end()


def actions(client, line, character):
    place = at(line, character)
    return {one['title']: one['edit'] for one in client.result('textDocument/codeAction', item(
        client, 'a.w', range={'start': place, 'end': place}, context={'diagnostics': []}))}


def test_actions():
    web = ('@ A.\n@c\n@<Globl variables@>@<New@>@<Gl...@>\n@<Globa...@>\n@ B.\n'
           '@ @<Global variables@>=\nint x;\n@ @<Globe@>=\n1\n')
    end = '@ @c\n@<Globe x;'
    for text, line, character, title, old, new in (
            (web, 3, 3, 'Write <Global variables>', '@<Globl variables@>', '@<Global variables@>'),
            (web, 3, 22, 'Define <New> here', '@<Globa...@>\n', '@<Globa...@>\n@ @<New@>=\n\n'),
            (web, 3, 28, 'Write <Globe> in full', '@<Gl...@>', '@<Globe@>'),
            (web, 4, 3, 'Write <Global variables> in full', '@<Globa...@>', '@<Global variables@>'),
            (web + end, 11, 3, 'Write <Globe>', '@<Globe x;', '@<Globe@> x;')):
        for ends in '\n', '\r\n':
            client = Client({'a.w': b''})
            client.open('a.w', text.replace('\n', ends))
            found = actions(client, line, character)
            check(title in found, title, 'not among %s' % list(found))
            if title in found:
                same(applied(client, found[title], {'a.w': text.replace('\n', ends)})['a.w'],
                     text.replace(old, new, 1).replace('\n', ends), title)
            client.end()


# ---------------------------------------------------------------------- faults

def marked(client, name='a.w'):
    """Each diagnostic of a file: what it is on, and its message."""
    client.faults()
    return [(one['range']['start']['line'] + 1, one['range']['start']['character'],
             one['range']['end']['character'], one['message'],
             len(one.get('relatedInformation', ()))) for one in client.diagnostics.get(name, [])]


def test_marks():
    """Each fault is on its name or its code."""
    for web, expected in (
            ('@ @c\n  x @<v@> y\n', (2, 4, 9, 'undefined: <v>')),
            ('@ @c\n@i none.h\n1\n', (2, 3, 9, 'included file not found: none.h')),
            ('@ @c\n@i "no h"\n1\n', (2, 4, 8, 'included file not found: no h')),
            ('@ @c\n@i\n1\n', (2, 0, 2, 'inclusion without a file name')),
            ('@ @c\nint é; "é\n', (2, 7, 9, 'quoted text did not end; it began on line 2')),
            ('@ @c\nx /* y\nz\n', (2, 2, 6, 'comment did not end; it began on line 2')),
            ('@ @c\nx @=y\nz\n', (2, 2, 5, 'verbatim text did not end; it began on line 2')),
            ("@ @c\nx @'yy' z\n", (2, 2, 7, 'bad ASCII constant')),
            ('@ @c\nx @^y\nz\n', (2, 2, 5, 'control text did not end; it began on line 2')),
            ('@ @c\nx @d y\n', (2, 2, 4, 'definition code in C text')),
            ('@ A.\n@d x @h y\n@c\n1\n', (2, 5, 7, '@h in a macro')),
            ('@ A.\n  @d 1\n@c\n1\n', (2, 2, 4, 'macro must start with an identifier')),
            ('@ @c\n"a@b"\n', (2, 0, 5, 'single @ in quoted text')),
            ('@ @c\nx @<Name\n@ B.\n', (2, 2, 8, 'section name did not end; it began on line 2')),
            ('@ @c\n1\n@ @<Name@>=\n', (3, 2, 10, 'never used: <Name>')),
            ('@ @c\n@<A@>\n@ @<A@>=\n@<A@>\n', (2, 0, 5, 'contains itself: <A>'))):
        client = Client({'a.w': web.encode()})
        client.open('a.w', web)
        same([one[:4] for one in marked(client)][:1], [expected], 'the mark of %r' % web)
        client.end()


USES = '@<Global variables@>\n@<Glob...@>\n@<Global...@>\n@<Gl...@>\n'
GLOBAL = '@ @<Global variables@>=\nint x;\n'


def test_folding():
    """All faults of a name are one diagnostic, and so is what follows from a wrong one."""
    for web, expected in (
            # misspelt where it is used
            ('@ @c\n' + USES + '@<Global varables@>\n' + GLOBAL,
             [(6, 'undefined: <Global varables>; is it <Global variables>?', 3)]),
            # misspelt where it is defined
            ('@ @c\n' + USES * 2 + GLOBAL.replace('Global v', 'Globul v'),
             [(10, 'never used: <Globul variables>; is it <Global variables>?', 5)]),
            # not finished
            ('@ @c\n' + USES + 'x=@<Glo\ny; @<Global...@>\n' + GLOBAL,
             [(6, 'section name did not end; it began on line 6', 1)]),
            # used once and not defined
            ('@ @c\n@<One@>\n@<One@>\n@<O...@>\n', [(2, 'undefined: <One>', 2)]),
            # an abbreviation of nothing, three times
            ('@ @c\n' + '@<Glbal...@>\n' * 3 + '@<Global variables@>\n' + GLOBAL,
             [(2, 'no full name for <Glbal...>; is it <Global variables>?', 2)]),
            # an abbreviation of two sections
            ('@ @c\n@<A...@>\n@<A...@>\n@<Ab@>@<Ac@>\n@ @<Ab@>=\n@ @<Ac@>=\n',
             [(2, 'several full names for <A...>: <Ab>, <Ac>', 1)])):
        client = Client({'a.w': web.encode()})
        client.open('a.w', web)
        same([(one[0],) + one[3:] for one in marked(client)], expected, 'the faults of %r' % web)
        faults = sorted(run([ctangle, 'a'], client.folder.name).errors.decode().splitlines())
        same(client.faults(), faults, 'the faults of %r' % web)
        client.end()


def test_typing():
    """A name is typed in a web of a hundred uses: nothing else is shown until it is done."""
    web = '@ @c\n' + USES * 25 + '\n' + GLOBAL
    client = Client({'a.w': web.encode()})
    client.open('a.w', web)
    line, typed = web.count('\n') - 2, ''
    for character in '@<Global variables@>;':
        client.change('a.w', (((line - 1, len(typed)), (line - 1, len(typed))), character))
        typed += character
        client.settle()
        found = client.diagnostics['a.w']
        check(len(found) <= 1 and not any('relatedInformation' in one for one in found)
              and all(one['range']['start']['line'] == line - 1 for one in found),
              'while %r is typed' % typed, found)
    same(client.diagnostics['a.w'], [], 'a name that was typed')
    client.change('a.w', (((line - 1, 5), (line - 1, 19)), '@>'))
    client.settle()
    found = client.diagnostics['a.w']
    same((len(found), [one.get('relatedInformation') for one in found]), (1, [None]),
         'a name that is cut')
    while not found[0].get('relatedInformation'):
        client.receive()
        found = client.diagnostics['a.w']
    check(len(found) == 1 and len(found[0]['relatedInformation']) == 25, 'after some time', found)
    client.change('a.w', (((0, 1), (0, 1)), ' '))
    client.settle()
    same(len(client.diagnostics['a.w']), 1, 'a change elsewhere')
    same(len(client.faults()), 2 + 25, 'all the faults')
    client.end()


def test_c():
    """The file that is shown has the C as it is now, and cannot be written."""
    capabilities = {'window': {'showDocument': {'support': True}}}
    web = '@ A.\n@c\nint x;\n\nint z;\n@ D.\n@ @(b.h@>=\nint b;\n'
    client = Client({'a.w': web.encode()}, capabilities=capabilities)
    client.open('a.w', web)
    for line, output, text in ((3, 'a.c', b'int x;'), (4, 'a.c', b'int z;'), (1, 'a.c', b'int x;'),
                               (6, 'b.h', b'int b;'), (8, 'b.h', b'int b;')):
        shown = client.c_of('a.w', line)['result']
        found = shown['output'], read(shown['file']).split(b'\n')[shown['line']]
        same(found, (output, text), 'the C of line %d' % line)
        same(os.stat(shown['file']).st_mode & 0o777, 0o444, 'who may write a copy')
        asked = client.asked.pop()
        line = asked['params']['selection']['start']['line']
        same((asked['method'], asked['params']['uri'], line),
             ('window/showDocument', shown['uri'], shown['line']), 'showDocument')
    same(shown['file'].startswith(client.folder.name), False, 'a copy')
    client.change('a.w', (((7, 4), (7, 5)), 'c'))
    shown = client.c_of('a.w', 8)['result']
    check(b'int c;' in read(shown['file']), 'a copy after a change', read(shown['file']))
    client.end()
    check(not os.path.exists(shown['file']), 'a copy', 'it is there after the end')


# ---------------------------------------------------------------------- the layers' listing

Listing = collections.namedtuple('Listing', 'source sections occurrences faults')
TEXT = rb'"((?:[^"\\]|\\.)*)"'
LINE = re.compile(rb'line \d+ %s:(\d+) (?:changed )?%s' % (TEXT, TEXT))
OCCURRENCE = re.compile(rb'occurrence \d+ %s:(\d+) (\w+) @. \w+ %s (.*)' % (TEXT, TEXT))
NAME = re.compile(rb'name (\d+) %s occurrence' % TEXT)


def plain(text):
    """The bytes of a text of a listing."""
    return re.sub(rb'\\(x[0-9a-f]{2}|.)', lambda found: {b'n': b'\n'}.get(found[1]) or (
        bytes.fromhex(found[1][1:].decode()) if found[1][:1] == b'x' else found[1]), text)


def listed(arguments, folder):
    """What tangle_layers lists of a web."""
    output = subprocess.run([layers, *arguments], cwd=folder, capture_output=True).stdout
    lines = output.split(b'\n')
    names = {b'name ' + found[1]: plain(found[2]) for found in map(NAME.match, lines) if found}
    source = [(plain(found[1]), int(found[2]), plain(found[3]))
              for found in map(LINE.fullmatch, lines) if found]
    occurrences = [(plain(found[1]), int(found[2]), found[3].decode(), plain(found[4]),
                    names.get(found[5])) for found in map(OCCURRENCE.fullmatch, lines) if found]
    counts = [int(line.split()[1]) for line in lines if line.startswith(b'sections ')]
    faults = [fault_of(plain(after.strip()[1:-1])) for line, after in zip(lines, lines[1:])
              if line.startswith(b'fault ')]
    return Listing(source, counts[0] if counts else None, occurrences, faults)


def found_in(names):
    """The same of the server's scanner."""
    source = [(part.file, row + 1, part.lines[row]) for chunk in names.chunks
              for part in chunk.parts for row in range(part.start, part.end)]
    occurrences = []
    for number, scan in enumerate(names.ordered):
        for one in scan.occurrences:
            place = names.place(number, one.start)
            occurrences.append((place.file, place.row + 1, one.role, one.text,
                                names.resolved(one.text)))
    return source, names.first_numbers[-1], occurrences


def test_scanner():
    """Generated webs, some with inclusions and change files. Each scan after the first keeps what
    it can of the scan of another web, as after a change."""
    fallen, marks, before = collections.Counter(), collections.Counter(), None
    for seed in range(WEBS):
        project = generator.Project(seed)
        if not project.is_small():
            continue
        files = {os.fsdecode(name): b'\n'.join(lines) for name, lines in project.files}
        arguments = ['a', 'a.ch' if project.change else '-', os.fsdecode(project.out)]
        with folder_with(files) as folder:
            listing = listed(arguments, folder)
        if listing.sections is None:            # it includes a folder, and cannot be read
            continue
        texts = {os.fsencode(name): text_of(lines_of(text)) for name, text in files.items()}
        before = names = Names(texts.get, b'a.w', b'a.ch' if project.change else None, before)
        source, count, occurrences = found_in(names)
        same(source, listing.source, 'project %d, source lines' % seed)
        same(count, listing.sections, 'project %d, sections' % seed)
        same(occurrences, listing.occurrences, 'project %d, occurrences' % seed)
        check_groups(names, texts, listing.faults, seed, fallen, marks)
    for kind, count in marks.items():
        check(fallen[kind] <= count // 50, 'marks of %s' % kind,
              '%d of %d are on a whole line' % (fallen[kind], count))


def check_groups(names, texts, faults, seed, fallen, marks):
    """Each fault is in one group, and marked in its line; how many are marked on all of it."""
    def line_of(file, row):
        text = texts.get(file)
        return text.lines[row] if text and 0 <= row < len(text.lines) else b''

    groups = Folding(names, [b'a.w', b'a.ch'], line_of).fold(faults)
    members = [one for group in groups for one in group.members]
    same(sorted(fault_line(fault) for fault, _, _ in members), sorted(map(fault_line, faults)),
         'project %d, the faults of groups' % seed)
    for fault, kind, (start, end) in members:
        line = line_of(start.file, start.row)
        is_there = start <= end and end.column <= len(line_of(end.file, end.row))
        check(is_there, 'project %d, a mark' % seed, '%s at %s-%s' % (fault, start, end))
        marks[kind.name] += 1
        whole = len(line) - len(line.lstrip()), len(line)
        if kind.name not in ('no-program', 'source-too-long', 'program-too-large', 'other') and (
                start.row == end.row and (start.column, end.column) == whole and whole[1] > 40):
            fallen[kind.name] += 1


def test_changes_of_texts():
    """After each change of lines the marked rows are those of the whole text, and the names those
    of a new scan."""
    chance = random.Random(7)
    pieces = [b'', b'@ A.', b'@*', b'@', b'@ @<v@>=', b'x \\', b'"a\\', b'@i b.w', b'@<v@>',
              b'/*', b'*/', b'@c', b'@I', b' @ x', b'@d N @<w', b'1@>']
    included = text_of([b'@ @<w@>=', b'@<u...@>', b'"x\\'])
    before = names = None
    lines = []
    for number in range(3000):
        at = chance.randrange(len(lines) + 1)
        new = [chance.choice(pieces) for _ in range(chance.choice([0, 1, 1, 2, 5]))]
        lines = lines[:at] + new + lines[at + chance.choice([0, 0, 1, 2, 6]):]
        text = text_of(lines, None, before)
        whole = text_of(list(lines))
        same(text, whole, 'a change of rows')
        names = Names({b'a.w': text, b'b.w': included}.get, b'a.w', None, names)
        fresh = Names({b'a.w': whole, b'b.w': included}.get, b'a.w', None)
        same(found_in(names), found_in(fresh), 'a change of names')
        before = text


if __name__ == '__main__':
    sys.exit(run_all([test_places, test_sections, test_hover, test_completion, test_rename,
                      test_actions, test_marks, test_folding, test_typing, test_c, test_scanner,
                      test_changes_of_texts]))
