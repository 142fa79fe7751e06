"""Change files in the language server, and full names for abbreviations: by a client over pipes.

usage: lsp_changes.py CTANGLE RETANGLE TOP          TOP is the folder of the repository

A change file is paired with its web by its name, by what it changes and by the settings; it has
faults, an outline and names; renaming goes through old and new lines, of change files that are not
open too, or is refused. After a renaming ctangle reports the same faults.

The last line is 'N passed, M failed'.
"""
import collections
import os
import random
import sys
from urllib.parse import quote, unquote_to_bytes

ctangle, retangle, top = (os.path.abspath(path) for path in sys.argv[1:4])
sys.path[:0] = [os.path.join(top, below) for below in ('lsp', 'tests', 'tests/reference')]
import generator
from checks import check, folder_with, read, run_all, same
from lsp_client import Client, applied, at, item, range_of
from running import run

os.environ['RETANGLE'] = retangle

WEB = '''\
@* Sums. A program.
@c
int main(void) { @<Sum...@> @<Print it@> }
@ @<Sum of the list@>=
int s=0;
@<Add all@>
@ @<Add all@>=
s+=1;
@ @<Print it@>=
puts("@@<Print it@@>");
'''
CHANGE = '''\
A change file.
@x lines 5 and 6
int s=0;
@<Add all@>
@y
long s=0; /* é😀 */ @<Add all@>
@<Add all@>@<Print it@>
@z
@x

@ @<Print it@>=
puts("@@<Print it@@>");
@y
@ @<Print it@>=
printf("%ld", s);
@ @<Print it@>=
puts("");
@z
'''
OTHER = '@ O.\n@c\nint o;\n@<Other@>\n@ @<Other@>=\n1\n'


def named(client, name):
    return [one['name'] for one in client.result('textDocument/documentSymbol', item(client, name))]


# ---------------------------------------------------------------------- pairs

def test_pairs():
    """A change file that is open alone has a web: that of its name, of its lines, of a setting."""
    wrong = CHANGE.replace('printf(', '@<Undefined@>; printf(')
    no_name = ':15: error: undefined: <Undefined>'
    for name, files in (
            ('sums.ch', {}),                                    # by its name
            ('linux.ch', {}),                                   # by its lines
            ('linux.ch', {'Makefile': b'', 'Sums.w': OTHER.encode(), 'lin.w': OTHER.encode()}),
            ('d/linux.ch', {'Makefile': b'', 'd/o.w': OTHER.encode()}),     # in another folder
            ('x.ch', {'.retangle': b'sums x\n'}), ('x.txt', {'.retangle': b'sums x.txt\n'})):
        client = Client({'o.w': OTHER.encode(), **files, 'sums.w': WEB.encode(),
                         name: wrong.encode()})
        client.open(name, wrong)
        client.has([name + no_name], '%s, alone' % name)
        same(client.places('definition', name, 7, 4), ['sums.w:7:2-13'], '%s, definition' % name)
        same(client.places('references', name, 7, 4), [name + ':6:20-31', name + ':7:0-11'],
             '%s, references' % name)
        same(client.places('definition', name, 4, 4), ['sums.w:7:2-13'],
             '%s, definition in an old line' % name)
        client.change(name, (((6, 0), (6, 0)), '@<Pr'))
        found = client.result('textDocument/completion', item(client, name, position=at(7, 4)))
        same([one['label'] for one in found['items']], ['Print it'], '%s, completion' % name)
        client.end()
    test_pairs_that_change()


def test_pairs_that_change():
    """A change file is paired as soon as its lines are in a web, and stays with it; one whose old
    lines are nowhere has no web."""
    client = Client({'sums.w': WEB.encode(), 'o.w': OTHER.encode(), 'new.ch': b''})
    client.open('new.ch', '@x\nint p;\n@y\n@z\n')
    client.has([], 'a change file of no web')
    same(named(client, 'new.ch'), ['int p;'], 'an outline of a change file of no web')
    client.change('new.ch', (((1, 4), (1, 5)), 'o'), (((2, 2), (2, 2)), '\n@<Undefined@>'))
    client.has(['new.ch:4: error: undefined: <Undefined>'], 'a change file that has a web now')
    client.change('new.ch', (((1, 4), (1, 5)), 'q'))
    client.has(['new.ch:1: error: change never used'], 'a change that does not match any more')
    client.end()


def test_outline():
    hierarchical = {'textDocument': {'documentSymbol': {'hierarchicalDocumentSymbolSupport': True}}}
    for given in ({}, hierarchical):
        client = Client({'sums.w': WEB.encode(), 'x.ch': CHANGE.encode()}, capabilities=given)
        client.open('x.ch', CHANGE)
        found = client.result('textDocument/documentSymbol', item(client, 'x.ch'))
        same([one['name'] for one in found],
             ['int s=0;', '@ @<Print it@>=', '4. <Print it>', '5. <Print it>'], 'an outline')
        ranges = [(one if given else one['location'])['range'] for one in found[:2]]
        same(ranges, [range_of((1, 0), (7, 2)), range_of((8, 0), (17, 2))], 'ranges of changes')
        if given:
            same([one['selectionRange'] for one in found[:2]],
                 [range_of((2, 0), (2, 8)), range_of((10, 0), (10, 15))], 'the first old lines')
        folds = client.result('textDocument/foldingRange', item(client, 'x.ch'))
        check({'startLine': 1, 'endLine': 7} in folds and {'startLine': 8, 'endLine': 17} in folds,
              'folds', folds)
        client.end()


def test_once():
    """While the web and its change file are open, a fault of both is shown once."""
    web = WEB.replace('int main', '@<Undefned@> int main') + '@ @<Undefined@>=\n2\n@ @<Last@>=\n3\n'
    change = CHANGE.replace('puts("");\n', 'puts("");\n@<Undefned@>@<Last@>\n')
    client = Client({'sums.w': web.encode(), 'sums.ch': change.encode()})
    client.open('sums.ch', change)
    client.open('sums.w', web)
    found = client.faults()
    same(len(found), len(set(found)), 'faults that are shown once')
    places = [(repr(one['range']), one['code']) for one in client.diagnostics['sums.w']]
    same(len(places), len(set(places)), 'diagnostics that are shown once')
    expected = set()
    for arguments in (['sums'], ['sums', 'sums']):
        expected.update(run([ctangle, *arguments], client.folder.name).errors.decode().splitlines())
    same(set(found), expected, 'the faults with the changes and without them')
    client.end()


# ---------------------------------------------------------------------- renaming

def renamed(client, name, line, character, new, texts):
    """The texts after a renaming, or why it is refused."""
    answer = client.ask('textDocument/rename', item(
        client, name, position=at(line, character), newName=new))
    if 'error' in answer:
        return answer['error']['message']
    return applied(client, answer['result'], texts)


def test_rename():
    """From the web, from a new line and from an old line; with the change file open, or beside."""
    texts = {'sums.w': WEB, 'linux.ch': CHANGE, 'o.w': OTHER}
    for old, name, line, opened in (
            ('Add all', 'sums.w', 6, ['sums.w']), ('Add all', 'linux.ch', 7, ['linux.ch']),
            ('Add all', 'linux.ch', 4, ['linux.ch']),
            ('Add all', 'linux.ch', 6, ['sums.w', 'linux.ch']),
            ('Print it', 'sums.w', 9, ['sums.w']), ('Print it', 'linux.ch', 11, ['linux.ch'])):
        client = Client({one: text.encode() for one, text in texts.items()})
        for one in opened:
            client.open(one, texts[one])
        row = texts[name].split('\n')[line - 1]
        character = len(row[:row.index('@<%s@>' % old) + 4].encode('utf-16-le')) // 2
        found = renamed(client, name, line, character, 'A@B', texts)
        where = 'a renaming of %s at line %d of %s' % (old, line, name)
        expected = {one: text.replace('@<%s@>' % old, '@<A@@B@>') for one, text in texts.items()}
        same(found, expected, where)
        prepared = client.result('textDocument/prepareRename', item(
            client, name, position=at(line, character)))
        start = character - 2
        same(prepared, {'range': range_of((line - 1, start), (line - 1, start + len(old))),
                        'placeholder': old}, where + ', before it')
        client.end()


def test_refusals():
    """What a renaming would break is refused, with the reason."""
    unused = '@x\nint s=0;\nx\n@y\n@z\n@x\nno line\n@y\n@<Add all@>\n@z\n'
    for web, change, line, new, why in (
            (WEB.replace('@<Add all@>=', '@<Add\nall@>='), '@x\nall@>=\n@y\nall@>=\n@z\n', 6, 'New',
             'two files at once'),
            (WEB, unused, 6, 'New',
             'the change file x.ch, at line 9, in a change that is not used'),
            (WEB, CHANGE, 6, 'Print it', 'there is a section'),
            (WEB.replace('@ @<Add all', '@ See @<Print\nit@>.\n@ @<Add all'),
             '@x\nit@>.\n@y\nother@>.\n@z\n', 7, 'New', 'x.ch')):
        client = Client({'sums.w': web.encode(), 'x.ch': change.encode(), '.retangle': b'sums x\n'})
        client.open('sums.w', web)
        row = web.split('\n')[line - 1]
        found = renamed(client, 'sums.w', line, row.index('@<') + 3, new, {'sums.w': web})
        check(isinstance(found, str) and why in found, 'a renaming that is refused', found)
        client.end()


def test_generated():
    """Generated webs with change files: after a renaming ctangle finds the same number of faults,
    with the changes and without them, and writes the same C; or it is refused."""
    done = refused = 0
    for seed in range(160):
        project = generator.Project(seed)
        if not (project.change and project.is_small()):
            continue
        files = {os.fsdecode(name): b'\n'.join(lines) for name, lines in project.files}
        texts = {name: text.decode('utf-8', 'surrogateescape') for name, text in files.items()}
        client, chance = Client(files), random.Random(seed)
        for name in ('a.w', 'a.ch'):
            client.open(name, texts[name])
        client.settle()
        found = of_one_file(client.result('workspace/symbol', {'query': ''}))
        for one in chance.sample(found, min(2, len(found))):
            place = one['location']['range']['start']
            answer = client.ask('textDocument/rename', {
                'textDocument': {'uri': one['location']['uri']}, 'newName': 'zz new name',
                'position': {'line': place['line'], 'character': place['character'] + 1}})
            if 'error' in answer:
                refused += 1
                continue
            done += 1
            quoted = {quote(os.fsencode(name)): text for name, text in texts.items()}
            after = {os.fsdecode(unquote_to_bytes(name)): text
                     for name, text in applied(client, answer['result'], quoted).items()}
            for arguments in (['a'], ['a', 'a']):
                same(outcome(after, arguments), outcome(texts, arguments),
                     'generated web %d, %s renamed' % (seed, one['name']))
        client.end()
    check(done > 20, 'renamings of generated webs', (done, refused))


def of_one_file(found):
    """The symbols whose names are not those of a file that has another name, too. This is a fault,
    which a renaming would mend."""
    paths = collections.Counter(['a.c', *map(os.path.normpath, {one['name'] for one in found})])
    return [one for one in found if paths[os.path.normpath(one['name'])] == 1]


def outcome(texts, arguments):
    """The outputs of ctangle without their line marks, and the number of faults, but for those that
    compare names."""
    files = {name: text.encode('utf-8', 'surrogateescape') for name, text in texts.items()}
    with folder_with(files) as folder:
        os.makedirs(os.path.join(folder, 'd'), exist_ok=True)   # that of some outputs
        lines = run([ctangle, *arguments], folder).errors.decode(errors='replace').split('\n')
        names = [os.path.relpath(os.path.join(below, name), folder)
                 for below, _, files_there in os.walk(folder) for name in files_there]
        made = [[line for line in read(folder, name).split(b'\n') if not line.startswith(b'#line')]
                for name in names if name not in files]
    return sorted(made), len([line for line in lines if 'begins another' not in line])


# ---------------------------------------------------------------------- full names

SHORT = '''\
@* PostScript.
@c
@<Types...@>
int main(void) { @<Types in...@> @<Print the...@> @<Ty...@> @<Whole@> }
@ @<Types...@>=
int t;
@ @<Print the...@>=
1;
@ @<Whole@>=
@<Types...@>
'''
FULL = SHORT.replace('@ @<Types...@>=', '@ @<Types in@>=')


def actions(client, name, line, character):
    place = at(line, character)
    return {one['title']: one for one in client.result('textDocument/codeAction', item(
        client, name, range={'start': place, 'end': place}, context={'diagnostics': []}))}


def test_full_names():
    """An abbreviation that no full name belongs to gets one, which all its uses resolve to."""
    client = Client({'a.w': SHORT.encode()})
    client.open('a.w', SHORT)
    client.settle()
    for line, short in ((3, 'Types...'), (4, 'Types in...'), (4, 'Ty...')):
        found = actions(client, 'a.w', line, 20).get('Give <%s> a full name' % short)
        check(found, 'an action for %s' % short, found)
        if found:
            same(applied(client, found['edit'], {'a.w': SHORT})['a.w'], FULL,
                 'a full name for %s' % short)
    client.change('a.w', (None, FULL))
    client.has(['a.w:4: error: no full name for <Print the...>',
                'a.w:7: error: no full name for <Print the...>'], 'after that')
    text = FULL.split('\n')[3]
    place = text.index('Print') + 1
    prepared = client.result('textDocument/prepareRename',
                             item(client, 'a.w', position=at(4, place)))
    same(prepared['placeholder'], 'Print the', 'before a name is asked for')
    for new, expected in (
            ('Print the list', FULL.replace('@ @<Print the...@>=', '@ @<Print the list@>=')),
            ('Show it', FULL.replace('@<Print the...@>', '@<Show it@>')),
            ('Whole', 'there is a section <Whole>'), ('Types', 'would be'), ('x...', 'no name')):
        found = renamed(client, 'a.w', 4, place, new, {'a.w': FULL})
        if isinstance(found, str):
            check(expected in found, 'the name %s' % new, found)
        else:
            same(found['a.w'], expected, 'the name %s' % new)
    client.end()


def test_full_names_in_changes():
    """The old lines of a change file, which is not open, stay those of the web."""
    change = '@x\n@ @<Types...@>=\nint t;\n@y\n@ @<Types...@>=\nlong t;\n@z\n'
    client = Client({'a.w': SHORT.encode(), 'b.ch': change.encode()})
    client.open('a.w', SHORT)
    client.settle()
    found = actions(client, 'a.w', 3, 4).get('Give <Types...> a full name')
    texts = applied(client, found['edit'], {'a.w': SHORT, 'b.ch': change}) if found else {}
    same(texts.get('a.w'), FULL, 'a full name through a change file')
    same(texts.get('b.ch'), change.replace('Types...', 'Types in'), 'an old line and a new one')
    client.end()


def test_page():
    """The change file of six lines in docs/programs.md, with its web."""
    page = read(top, 'docs', 'programs.md').decode()
    page = page[page.index('\n## An abbreviation without its full name'):]
    page = page[:page.index('\n## ', 4)]
    blocks = [[line[4:] for line in block.split('\n') if line.startswith('    ')]
              for block in page.split('\n\n')]
    blocks = [block for block in blocks if block]
    change = next(block for block in blocks if block[0] == '@x')
    web = next(block for block in blocks if block[0].startswith('@*'))
    same(len(change), 6, 'the lines of the change file')
    files = {name: '\n'.join(lines).encode() + b'\n'
             for name, lines in (('a.w', web), ('full.ch', change))}
    with folder_with(files) as folder:
        check(b'no full name' in run([ctangle, 'a'], folder).errors, 'the web of the page', '')
        same(run([ctangle, 'a', 'full'], folder)[::2], (b'', 0), 'the change file of the page')


if __name__ == '__main__':
    sys.exit(run_all([test_pairs, test_outline, test_once, test_rename, test_refusals,
                      test_generated, test_full_names, test_full_names_in_changes, test_page]))
