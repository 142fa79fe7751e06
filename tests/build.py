"""A web in a build: what is made again when a file changes, make try, and programs of other names.

usage: build.py CTANGLE RETANGLE TOP       TOP is the folder of the repository

- The rule of README.md, with the installed webs.mk, over included files, nested ones too, and a
  change file: each of them is touched, and the C is made again; otherwise it is not.
- What webs.mk reads as an inclusion, and a file that is not there or includes itself.
- A project of one's own: webs.mk, a change file, two outputs, in another folder by make -C.
- examples/Makefile: each source of its programs is touched.
- make try: the C of README.md's web; a web with its inclusions, change file and further outputs; an
  error; included files outside of the web's folder; files that cannot be read. A script stands for
  the kit's command, and runs CTANGLE. Without that command: one message.
- make install and make uninstall with PROGRAM_PREFIX.
- docs/programs.md: what differs and is one run; the web of each fault; the abbreviation's change
  file. Each message of docs/faults.md is in docs/ctangle.1.

The last line is 'N passed, M failed'.
"""
import os
import re
import shutil
import sys
import tempfile

import making
from checks import blocks_of, check, files_below, lay, new_folder, read, run_all, same, write
from running import run

ctangle, retangle, top = (os.path.abspath(path) for path in sys.argv[1:4])

def path_with(temporary):
    """A path on which ctangle and retangle are the programs under test."""
    folder = os.path.join(temporary, 'programs')
    if not os.path.exists(folder):
        making.copy_programs((ctangle, retangle), folder)
    return folder + os.pathsep + os.environ['PATH']


# ---------------------------------------------------------------------- prerequisites

def rule_of_readme(temporary):
    """The Makefile of README.md, with the webs.mk that make install copies."""
    found = [block for block in blocks_of(read(top, 'README.md')) if b'files_of,' in block]
    same(len(found), 1, 'README.md, blocks with files_of')
    prefix = os.path.join(temporary, 'local')
    if not os.path.exists(prefix):
        _, errors, status = run(['make', '-s'] + making.BUILT + ['install', 'PREFIX=' + prefix],
                                copy_of_top(temporary, 'installed'))
        check(status == 0, 'make install', errors)
        same(read(prefix, 'share', 'ctangle', 'webs.mk'), read(top, 'examples', 'webs.mk'), 'webs.mk')
    check(b'include /usr/local/share/' in found[0], 'README.md', 'includes no webs.mk')
    return found[0].replace(b'/usr/local', prefix.encode())


def is_made_again(folder, target, path):
    """Whether make writes the target, and what it says on standard error."""
    before = making.time_of(folder, target)
    _, errors, status = run(['make', target], folder, PATH=path)
    check(status == 0, 'make ' + target, errors)
    return making.time_of(folder, target) != before


def check_touched(folder, target, path, sources, others, name):
    """Touches each source of a target, and each other file."""
    _, errors, status = run(['make', target], folder, PATH=path)
    check(status == 0, '%s, make %s' % (name, target), errors)
    for touched in [None] + sources + others:
        making.set_back(folder)
        if touched:
            os.utime(os.path.join(folder, touched))
        same(is_made_again(folder, target, path), touched in sources,
             '%s: %s is made again after %s was touched' % (name, target, touched or 'nothing'))


PROJECT = {
    'hello.w': b'@ A.\n @i no.w\n@c\nint main(void) { return 0; }\n@i b.w\n@I "c.w" a note\n',
    'b.w': b'@include.w\n@i\tparts/d.w \xe9 other\n',
    'c.w': b'int c;\n',
    'nclude.w': b'int n;\r\n',
    'parts/d.w': b'int d;\n',
    'e.w': b'/* nothing */\n',
    'faster.ch': b'@x\nint c;\n@y\nint c = 1;\n@i e.w\n@z\n',
    'no.w': b'', 'f.w': b'',
}
INCLUDED = ['b.w', 'c.w', 'nclude.w', 'parts/d.w']


def test_rule(temporary):
    """The rule of README.md, without and with a change file, and a program of it."""
    makefile, path = rule_of_readme(temporary), path_with(temporary)
    folder = new_folder(temporary, 'rule', dict(PROJECT, Makefile=makefile))
    for target in ('hello.c', 'hello'):
        check_touched(folder, target, path, ['hello.w'] + INCLUDED, ['e.w', 'faster.ch', 'no.w', 'f.w'],
                      'README.md')
    check(b'int c;' in read(folder, 'hello.c'), 'README.md', 'no line of c.w')

    changed = makefile.replace(b'files_of,hello.w)', b'files_of,hello.w faster.ch)')
    changed = changed.replace(b'ctangle hello', b'ctangle hello faster')
    write(changed, folder, 'Makefile')
    os.remove(os.path.join(folder, 'hello.c'))
    check_touched(folder, 'hello', path, ['hello.w'] + INCLUDED + ['faster.ch', 'e.w'], ['no.w', 'f.w'],
                  'README.md, a change file')
    check(b'int c = 1;' in read(folder, 'hello.c'), 'README.md', 'no line of faster.ch')

    # an inclusion that is new counts from the next make on
    making.set_back(folder)
    write(b'int c;\n@i f.w\n', folder, 'c.w')
    check(is_made_again(folder, 'hello.c', path), 'README.md', 'c.w was changed')
    check_touched(folder, 'hello.c', path, ['f.w'], [], 'README.md, a new inclusion')

    # an error leaves no C
    write(b'"\n', folder, 'f.w')
    _, errors, status = run(['make', 'hello.c'], folder, PATH=path)
    check(status == 2 and b'f.w:1: error: quoted text did not end\n' in errors, 'README.md, an error', errors)
    check(not os.path.exists(os.path.join(folder, 'hello.c')), 'README.md', 'hello.c is there')


def test_missing(temporary):
    """A file that is not there stops make, unless a rule makes it; one may include itself."""
    path = path_with(temporary)
    folder = new_folder(temporary, 'missing', {'hello.w': b'@ A.\n@c\nint a;\n@i made.w\n',
                                               'Makefile': rule_of_readme(temporary)})
    _, errors, status = run(['make', 'hello.c'], folder, PATH=path)
    check(status == 2 and b"'made.w', needed by 'hello.c'" in errors, 'a file that is not there', errors)
    write(rule_of_readme(temporary) + b"made.w:\n\techo 'int made;' >$@\n", folder, 'Makefile')
    _, errors, status = run(['make', 'hello.c'], folder, PATH=path)
    check(status == 0 and b'int made;' in read(folder, 'hello.c'), 'a file that make makes', errors)

    # the change takes the inclusion away, and the file needs a rule without a recipe
    lay(folder, {'faster.ch': b'@x\n@i made.w\n@y\n@z\n', 'Makefile':
                 rule_of_readme(temporary).replace(b'hello.w)', b'hello.w faster.ch)').replace(b'e hello', b'e hello faster')
                 + b'made.w:\n'})
    os.remove(os.path.join(folder, 'made.w'))
    _, errors, status = run(['make', 'hello.c'], folder, PATH=path)
    check(status == 0 and b'made' not in read(folder, 'hello.c'), 'an inclusion that is taken away', errors)

    folder = new_folder(temporary, 'itself', {'hello.w': b'@ A.\n@c\nint a;\n@i b.w\n', 'b.w': b'@i b.w\n@i hello.w\n',
                                              'Makefile': rule_of_readme(temporary)})
    _, errors, status = run(['make', 'hello.c'], folder, PATH=path)
    check(status == 2 and b'b.w:1: error: inclusion too deep\n' in errors, 'a file that includes itself', errors)


TWO_OUTPUTS = {
    'src/a.w': b'@ A.\n@c\n#include "a.h"\nint main(void) { return N; }\n@ @(a.h@>=\n@i b.w\n',
    'src/b.w': b'#define N 7\n',
    'src/a.ch': b'@x\nint main(void) { return N; }\n@y\nint main(void) { return N - N; }\n@z\n',
    'src/Makefile': b'include %s\n.DELETE_ON_ERROR:\na: a.c\n'
                    b'a.c a.h &: $(call files_of,a.w a.ch)\n\tctangle a a\n',
}


def test_project(temporary):
    """A change file and two outputs, in a folder to which make is sent."""
    webs = os.path.join(temporary, 'local', 'share', 'ctangle', 'webs.mk').encode()
    folder = new_folder(temporary, 'project', dict(TWO_OUTPUTS, **{
        'src/Makefile': TWO_OUTPUTS['src/Makefile'] % webs}))
    path = path_with(temporary)
    _, errors, status = run(['make', '-C', 'src', 'a'], folder, PATH=path)
    check(status == 0, 'make -C', errors)
    same(run(['src/a'], folder)[2], 0, 'make -C, the program')
    check_touched(os.path.join(folder, 'src'), 'a.h', path, ['a.w', 'b.w', 'a.ch'], [], 'two outputs')


def test_examples(temporary):
    path, folder = path_with(temporary), os.path.join(temporary, 'examples')
    shutil.copytree(os.path.join(top, 'examples'), folder, ignore=shutil.ignore_patterns('out'))
    check_touched(folder, 'out/primes', path, ['primes.w', 'sieve.w'], ['primes.ch', 'hello.w'], 'examples')
    check_touched(folder, 'out/more-primes', path, ['primes.w', 'sieve.w', 'primes.ch'], ['hello.w'], 'examples')


# ---------------------------------------------------------------------- the Makefile at the top

# What `rt try --data NAME=FILE .. -- ARGUMENTS` does: the program runs in a new folder with copies of the files.
STANDS_FOR_RT = """#!/bin/sh
[ "$1" = try ] && new=$(mktemp -d) || exit 9
shift
while [ "$1" = --data ]; do
    mkdir -p "$(dirname "$new/${2%%=*}")" && cp "${2#*=}" "$new/${2%%=*}" || exit 8
    shift 2
done
[ "$1" = -- ] && shift && cd "$new" || exit 7
"$PROGRAM" "$@"
status=$?
rm -rf "$new"
echo "run=ended status=$status runners=1 proved=no" >&2
exit $status
"""


def copy_of_top(temporary, name):
    return making.copy_of_top(top, (ctangle, retangle), temporary, name)


def make_try(temporary, source, arguments=()):
    command = os.path.join(temporary, 'rt')
    if not os.path.exists(command):
        new_folder(temporary, 'rt', {'rt': STANDS_FOR_RT.encode()})
        os.chmod(os.path.join(command, 'rt'), 0o755)
    return run(['make', 'try'] + list(arguments), source, PROGRAM=ctangle,
               PATH=command + os.pathsep + os.environ['PATH'])


def test_try(temporary):
    source = copy_of_top(temporary, 'a source with spaces')
    printed, errors, status = make_try(temporary, source)
    check(status == 0, 'make try', errors)
    blocks = blocks_of(read(top, 'README.md'))
    same([block for block in blocks if block.startswith(b'@ ')], [read(top, 'examples', 'hello.w')],
         'the web of README.md is examples/hello.w')
    check(b'\nputs("hello, world");\n' in printed, 'make try', printed)
    check(b'Nothing was proved' in printed and b'Status 0' in printed, 'make try', printed)


TRIED = {
    'a.w': b'limbo\n@ A.\n@d N 10\n@c\n#include "sub/st.h"\nint main(void) { @<Do@> }\n@i "parts/b.w"\n'
           b'@ @(sub/st.h@>=\nint x;\n',
    'parts/b.w': b'@ @<Do@>=\nreturn N;\n@ @(o.c@>=\n@<sub/st.h@>\n@i parts/c.w\n@ @(o.c@>=\n2\n',
    'parts/c.w': b'int c;\n',
    'not.w': b'@i not.w\n',
    'a.ch': b'@x\n@ @(sub/st.h@>=\n@y\n@ New. @( sub/st.h@>=\n@z\n',
}


def test_try_web(temporary):
    """The files are those that ctangle writes in the web's folder, but for the folder in which they are."""
    source, out = copy_of_top(temporary, 'tried'), os.path.join(temporary, 'tried', 'bin', 'try')
    folder = new_folder(temporary, 'a web with spaces', TRIED)
    os.mkdir(os.path.join(folder, 'sub'))
    for arguments, given in ((['WEB=' + folder + '/a'], ['a']),
                             (['WEB=' + folder + '/a.w', 'CHANGE=' + folder + '/a.ch'], ['a', 'a'])):
        printed, errors, status = make_try(temporary, source, arguments)
        check(status == 0 and b'C: bin/try/a.c bin/try/o.c bin/try/sub/st.h\n' in printed,
              'make try ' + ' '.join(arguments), printed + errors)
        same(run([ctangle] + given, folder), (b'', b'', 0), 'ctangle ' + ' '.join(given))
        for name in ('a.c', 'o.c', 'sub/st.h'):
            same(read(out, name), read(folder, name), 'make try, ' + name)
    write(TRIED['a.w'] + b'@<none@>', folder, 'a.w')
    printed, errors, status = make_try(temporary, source, ['WEB=' + folder + '/a.w'])
    check(status == 0 and b'a.w:10: error: undefined: <none>\n' in printed and b'Status 1' in printed,
          'make try, an error', printed + errors)
    printed, errors, status = make_try(temporary, source, ['WEB=' + folder + '/b.w'])
    check(status == 2 and b'/b.w is not there\n' in errors, 'make try, no web', printed + errors)


OUTSIDE = {
    'w/a.w': b'@ A.\n@c\n@<Do@>\n@i ../o/b.w\n@i "../o/no.w"\n@i FULL/o/d.w\n@i p/../q.w now\n',
    'w/q.w': b'@ @(q.h@>=\n@<Do@>\n', 'w/p/x': b'',
    'w/a.ch': b'@x\n@i ../o/b.w\n@y\n@ New.\n@i ../o/b.w\n@z\n',
    'o/b.w': b'@ @<Do@>=\nint x;\n@i ../o/c\\\\c.w\n@<none@>\n',
    'o/c\\\\c.w': b'int c;\n@ @(o.h@>=\n"', 'o/d.w': b'@ @(q.h@>=\nint d;\n',
}


def test_try_outside(temporary):
    """A file outside of the web's folder has its own name in messages and in the C."""
    source, out = copy_of_top(temporary, 'outside'), os.path.join(temporary, 'outside', 'bin', 'try')
    folder = new_folder(temporary, 'around', {})
    lay(folder, {name: text.replace(b'FULL', folder.encode()) for name, text in OUTSIDE.items()})
    for given in (['a'], ['a', 'a']):
        arguments = ['WEB=' + folder + '/w/a'] + ['CHANGE=' + folder + '/w/a.ch'] * (len(given) - 1)
        printed, errors, status = make_try(temporary, source, arguments)
        _, said, ended = run([ctangle] + given, os.path.join(folder, 'w'))
        check(status == 0 and ended == 1 and said in printed and said.count(b'\n') == 3,
              'make try, files outside', printed + errors + said)
        for name in ('a.c', 'q.h', 'o.h'):
            same(read(out, name), read(folder, 'w', name), 'make try, files outside, ' + name)


def test_try_unreadable(temporary):
    """Each file that has no text is one message, and no run."""
    source = copy_of_top(temporary, 'unreadable')
    folder = new_folder(temporary, 'no webs', {
        'a.w': b'@ @c\n@i d.w\n', 'b.w': b'@ @c\n\0@(h\0.h@>', 'c.w': b'', 'e.w': b'@ @c\n@i c.w\n',
        'long.w': b'@ @c\n@ @(%s/x.h@>=\n1\n' % (b'x' * 300), 'ok.w': b'@ @c\nint x;\n'})
    os.mkdir(os.path.join(folder, 'd.w'))
    os.mkfifo(os.path.join(folder, 'f.w'))
    os.chmod(os.path.join(folder, 'c.w'), 0)
    cases = [(['WEB=d.w'], '%s/d.w is a folder'), (['WEB=b'], '%s/b.w is no text: it has a byte 0'),
             (['WEB=f'], '%s/f.w is no file with a text'), (['WEB=a'], '%s/d.w is a folder'),
             (['WEB=/proc/self/mem.'], '/proc/self/mem. is not there'), (['WEB=ok', 'CHANGE=d.w'], '%s/d.w is a folder'),
             (['WEB=ok', 'CHANGE=none'], '%s/none.ch is not there')]
    if os.getuid() != 0:        # who may read each file
        cases += [(['WEB=c'], '%s/c.w may not be read'), (['WEB=e'], '%s/c.w may not be read')]
    for words, message in cases:
        words = [re.sub('=(?!/)', '=' + folder + '/', word) for word in words]
        printed, errors, status = make_try(temporary, source, words)
        lines = [line for line in errors.decode().splitlines() if line.startswith('make try: ')]
        expected = message % folder if '%s' in message else message
        check(status == 2 and lines == ['make try: ' + expected] and b'Traceback' not in errors
              and b'C: ' not in printed, 'make try, ' + expected, printed + errors)
    printed, errors, status = make_try(temporary, source, ['WEB=' + folder + '/long'])
    check(b'Traceback' not in errors and b'cannot write' in printed, 'make try, a long name', printed + errors)


def test_no_kit(temporary):
    """Without the kit's command there is one plain message, and nothing else is tried."""
    source = copy_of_top(temporary, 'no kit')
    tools = new_folder(temporary, 'tools', {})
    for name in ('sh', 'make', 'find', 'python3'):
        os.symlink(shutil.which(name), os.path.join(tools, name))
    for arguments in (['try'], ['-B'], ['check']):
        printed, errors, status = run(['make'] + arguments, source, PATH=tools)
        lines = (printed + errors).splitlines()
        check(status == 2 and len(lines) == 2 and lines[0].startswith(b'This needs rt, ') and b'README.md' in lines[0],
              'make %s without rt' % arguments[0], printed + errors)


def stripped(source, name):
    """A built program as make install leaves it."""
    path = os.path.join(source, name)
    shutil.copy(os.path.join(source, 'bin', name), path)
    if shutil.which('strip'):
        run(['strip', path], source)
        check(b'.symtab' not in read(path), name, 'has a table of symbols')
    return read(path)


def test_prefix(temporary):
    """Other names leave the files of the usual ones, and are removed alone."""
    source, root = copy_of_top(temporary, 'prefix'), os.path.join(temporary, 'a root')
    make = ['make', '-s'] + making.BUILT + ['DESTDIR=' + root, 'PREFIX=/usr']
    names = 'ctangle', 'retangle', 'retangle-lsp'
    usual = (['usr/bin/' + name for name in names] + ['usr/share/ctangle/webs.mk']
             + ['usr/share/man/man1/%s.1' % name for name in names])
    proved = [re.sub(r'(retangle-lsp|ctangle|retangle)(?=$|\.1|/)', r'proved-\1', name) for name in usual]
    for arguments, expected in ((['install', 'PROGRAM_PREFIX=proved-'], proved), (['install'], usual + proved),
                                (['uninstall'], proved), (['install'], usual + proved),
                                (['uninstall', 'PROGRAM_PREFIX=proved-'], usual)):
        _, errors, status = run(make + arguments, source)
        check(status == 0, 'make ' + ' '.join(arguments), errors)
        found = files_below(root)
        # the modules of the language server are in a folder of its name
        same([name for name in found if '/retangle_lsp/' not in name], sorted(expected), 'make ' + ' '.join(arguments))
        folders = {os.path.join('usr', 'share', os.path.basename(name), 'retangle_lsp')
                   for name in expected if name.endswith('-lsp')}
        same({os.path.dirname(name) for name in found if '/retangle_lsp/' in name and name.endswith('.py')}, folders,
             'the modules after make ' + ' '.join(arguments))
        for name in expected:
            plain = os.path.basename(name).replace('proved-', '')
            if '.' in plain:
                same(read(root, name), read(top, 'docs' if plain.endswith('.1') else 'examples', plain), name)
            elif plain.endswith('-lsp'):
                same(read(root, name), read(source, 'lsp', plain), name)
            else:
                same(read(root, name), stripped(source, plain), name)
    same(run([os.path.join(root, 'usr', 'bin', 'ctangle')], temporary)[2], 2, 'an installed program')


# ---------------------------------------------------------------------- surprises, messages, README

def surprise(temporary, name, files, arguments, errors, status):
    """The folder in which ctangle was run."""
    folder = new_folder(temporary, name, files)
    same(run([ctangle] + arguments, folder), (b'', errors, status), name)
    return folder


def test_surprises(temporary):
    web = b'@ A.\n@c\nint a = %s;\n'
    folder = surprise(temporary, 'separators', {'a.w': web % b"10'000"}, ['a'], b'', 0)
    check(b"\nint a = 10'000;\n" in read(folder, 'a.c'), 'separators', read(folder, 'a.c'))
    surprise(temporary, 'an apostrophe after a full stop', {'a.w': web % b"0x1.F'Fp0"}, ['a'],
             b'a.w:3: error: quoted text did not end\n', 1)
    surprise(temporary, 'a raw string', {'a.w': web % b'R"(say "hi   there")"'}, ['a'], b'a.w:3: error: raw string\n', 1)

    folder = surprise(temporary, 'Latin-1', {'a.w': b'@l e9 eacute\n@ A.\n@c\nint caf\xe9;\n'}, ['a', '-l'], b'', 0)
    check(b'\nint caf\xe9;\n' in read(folder, 'a.c'), 'Latin-1', read(folder, 'a.c'))

    output = b'/*1:*/\n#line 2 "a.w"\n\nint a = 1;\n/*:1*/\n'
    folder = surprise(temporary, 'over the web', {'a.w': web % b'1'}, ['a', '-', 'a.w'], b'', 0)
    same(read(folder, 'a.w'), output, 'over the web')
    write(web % b'1', folder, 'b.w')
    same(run([ctangle, '--out', 'c.c', '-x', 'b'], folder)[1], b'ctangle: cannot read c.c\n', 'an unknown flag')
    ends = {'a.w': b'@ A.\r\n@c\r\nint a;\r\n', 'a.ch': b'@x\nint a;\n@y\nint b;\n@z\n'}
    surprise(temporary, 'other line ends', ends, ['a', 'a'], b'a.ch:1: error: change never used\n', 1)
    ends['a.ch'] = ends['a.ch'].replace(b'\n', b'\r\n')
    surprise(temporary, 'the same line ends', ends, ['a', 'a'], b'', 0)

    folder = surprise(temporary, 'over the web by its name', {'a.w': web % b'1' + b'@ @(a.w@>=\n2\n'}, ['a'], b'', 0)
    same(read(folder, 'a.w'), b'/*2:*/\n#line 4 "a.w"\n\n2\n/*:2*/\n', 'over the web by its name')


def test_abbreviation(temporary):
    """The web of docs/programs.md, its faults at each place of its two abbreviations, and the change
    file that mends it."""
    section = read(top, 'docs', 'programs.md').split(b'\n## An abbreviation', 1)[1].split(b'\n## ', 1)[0]
    web, change = blocks_of(section)
    same(change.count(b'\n'), 6, 'docs/programs.md, lines of the change file')
    errors = b''.join(b'a.w:%d: error: no full name for <%s...>\n' % one for one in (
        (3, b'Types'), (4, b'Print the'), (5, b'Types'), (7, b'Print the')))
    surprise(temporary, 'abbreviation', {'a.w': web}, ['a'], errors, 1)
    surprise(temporary, 'a mention by a change', {'a.w': web, 'full.ch': change}, ['a', 'full'], b'', 0)


# Webs that docs/programs.md says in words.
IN_WORDS = {
    'SourceTooLong': {'a.w': b'@i b.w\n' * 3, 'b.w': b'\n' * 1000000},
    'TooLarge': {'a.w': b'@ @c @<0@>\n' + b''.join(b'@ @<%d@>= @<%d@>@<%d@>\n' % (at, at + 1, at + 1)
                                                  for at in range(22)) + b'@ @<22@>= 1\n'},
    'NoProgram': {'a.w': b''},
}


def web_of(kind, cell):
    """The files of a row: NAME: LINE, LINE; NAME: LINE, each in code."""
    if kind in IN_WORDS:
        return IN_WORDS[kind]
    files = {'a.w': b''}
    for part in cell.split('; '):
        name, *lines = re.findall(r'`([^`]*)`', part)
        files[name] = ''.join(line + '\n' for line in lines).encode()
    return files


def test_remedies(temporary):
    """The web of each fault has it."""
    rows = re.findall(r'^\| `(\w+)` \| (.*?) \| (.*) \|$', read(top, 'docs', 'programs.md').decode(), re.M)
    kinds = re.findall(r'^\| `(\w+)`(, a warning)? \| `([^`]*)`', read(top, 'docs', 'faults.md').decode(), re.M)
    same([row[0] for row in rows], [kind[0] for kind in kinds], 'docs/programs.md, the kinds of faults')
    for (kind, warning, message), (_, cell, remedy) in zip(kinds, rows):
        files = web_of(kind, cell)
        folder = new_folder(temporary, kind, files)
        _, errors, status = run([ctangle, 'a'] + ['a'] * ('a.ch' in files), folder)
        text = re.sub(r'NAME|ABBREVIATION|COUNT', '.+', re.sub(r'([()<>.?*])', r'[\1]', message))
        found = re.search(r'^(?:\S+:\d+: )?%s: %s$' % ('warning' if warning else 'error', text), errors.decode(), re.M)
        check(found and (status == 1 or warning), 'docs/programs.md, ' + kind, errors)
        check(remedy.endswith('.'), 'docs/programs.md, ' + kind, 'no remedy')


def test_pages(_):
    page = re.sub(r'\\f[A-Z]', '', read(top, 'docs', 'ctangle.1').decode())
    messages = re.findall(r'^\| `\w+`[^|]*\|([^|]*)\|', read(top, 'docs', 'faults.md').decode(), re.M)
    check(len(messages) > 25, 'docs/faults.md', 'its table')
    for message in [one for row in messages for one in re.findall(r'`([^`]+)`', row)]:
        check('\n%s\n' % message in page, 'docs/ctangle.1', 'no message %s' % message)


def main():
    with tempfile.TemporaryDirectory() as temporary:
        return run_all((test_rule, test_missing, test_project, test_examples, test_try, test_try_web, test_try_outside,
                        test_try_unreadable, test_no_kit,
                        test_prefix, test_surprises, test_abbreviation, test_remedies, test_pages), temporary)


if __name__ == '__main__':
    sys.exit(main())
