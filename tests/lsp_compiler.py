"""What a compiler says of the C, in the web: by a client over pipes.

usage: lsp_compiler.py CTANGLE RETANGLE TOP         TOP is the folder of the repository

With cc and clang, where these are installed, and with commands that write what they are given: the
places of messages, when they come, move and go, and that no file of a folder has a command run. The
lines of docs/editors.md are tried in Neovim and Emacs, where these are installed.

The last line is 'N passed, M failed'.
"""
import os
import re
import shutil
import sys
import time

ctangle, retangle, top = (os.path.abspath(path) for path in sys.argv[1:4])
sys.path[:0] = [os.path.join(top, below) for below in ('lsp', 'tests')]
from checks import check, folder_with, read, run_all, same, write
from lsp_client import Client
from running import run

os.environ['RETANGLE'] = retangle

WEB = '''\
@ A.
@d N 1
@d M q+
  undefined
@c
@h
int unused(void) { return M; }
int main(void) { @<Do@>; return N+y; }
@ @<Do@>=
char *é="x"; int z=1; z =é; /* z */
@ Last.
'''
COMMAND = ['cc', '-fsyntax-only', '-Wall', '-x', 'c', '-']


def places(client, name='a.w'):
    """Where messages of a compiler are: the line, the text that is marked, and the severity."""
    lines, found = client.text.split('\n'), []
    for one in client.diagnostics.get(name, []):
        if one['source'] != 'retangle':
            start, end = one['range']['start'], one['range']['end']
            text = lines[start['line']].encode('utf-16-le')
            text = text[2 * start['character']:2 * end['character']].decode('utf-16-le')
            found.append((start['line'] + 1, text, one['severity']))
    return sorted(found)


def wait_for(client, is_so, name, seconds=60):
    """Waits for diagnostics or messages of which something holds."""
    end = time.monotonic() + seconds
    while not is_so() and time.monotonic() < end:
        time.sleep(.02)
        client.settle()
    check(is_so(), name, (client.diagnostics, client.shown))


def opened(text=WEB, files=(), **parts):
    """A client with an open web that is saved."""
    client = Client({'a.w': text.encode(), **dict(files)}, **parts)
    client.text = text
    client.open('a.w', text)
    client.settle()
    return client


def save(client, text=None):
    if text is not None:
        client.text = text
        client.change('a.w', (None, text))
    write(client.text.encode(), client.path('a.w'))
    client.about('didSave', 'a.w')


def test_compilers():
    """The messages of both compilers are at the words that they quote, in the web."""
    for name in ('cc', 'clang'):
        if not shutil.which(name):
            print('skipped: the messages of %s (it is not installed)' % name)
            continue
        for command in ([name] + COMMAND[1:], name + ' -fsyntax-only -Wall -I. {file}'):
            client = opened(options={'retangle': {'compiler': command}})
            same(places(client), [], '%s, before a save' % name)
            save(client)
            wait_for(client, lambda: places(client), '%s, after a save' % name)
            found = places(client)
            check((8, 'y', 1) in found, '%s, a line' % name, found)
            check((10, 'char', 2) in found or (10, 'int', 2) in found, '%s, a piece' % name, found)
            check((3, 'q', 1) in found or (7, 'return', 1) in found or (
                7, 'int unused(void) { return M; }', 1) in found, '%s, a macro' % name, found)
            check(all(line in (3, 4, 7, 8, 10) for line, _, _ in found),
                  '%s, the lines' % name, found)
            same(client.shown, [], '%s, what is shown' % name)
            client.end()


SAID = '''#!/bin/sh
echo run >>"%(folder)s/runs"
cat >"%(folder)s/given"
cat "%(folder)s/said"
exit $(cat "%(folder)s/status" 2>/dev/null || echo 0)
'''


def saying(text, said, **parts):
    """A client whose compiler says this."""
    client = opened(text, options={'compiler': ['./said.sh']}, **parts)
    write((SAID % {'folder': client.folder.name}).encode(), client.path('said.sh'))
    os.chmod(client.path('said.sh'), 0o755)
    write(said.encode(), client.path('said'))
    return client


def test_texts():
    """The format of gcc and of clang, and what is no message of theirs."""
    said = ('a.w: In function \u2018main\u2019:\n'
            'a.w:8:40: \x1b[01;31m\x1b[Kerror: \x1b[m\x1b[K\u2018y\u2019 undeclared '
            '(first use in this function)\n'
            '    8 | int main(void)\n      |      ^\n'
            'a.w:8:40: note: each is reported once\n'
            "a.w:10:23: warning: 'z' is bad [-Wbad-z]\n"
            'a.w:9:1: note: here it is\n'
            'a.w:10: fatal error: something else\n'
            "a.w:11: warning: of no line of C\n"
            "/usr/include/x.h:3:1: error: 'y' elsewhere\n"
            'a.w:99:1: error: beyond the end\n'
            '1 warning and 2 errors generated.\n')
    client = saying(WEB, said)
    save(client)
    wait_for(client, lambda: places(client), 'messages')
    line = "char *é=\"x\"; int z=1; z =é; /* z */"
    same(places(client), [(8, 'y', 1), (10, line, 1), (10, 'z', 2)], 'messages')
    one = [one for one in client.diagnostics['a.w'] if one.get('code') == '-Wbad-z']
    same([(each['source'], each['message']) for each in one],
         [('said.sh', "'z' is bad")], 'a warning')
    character = one[0]['range']['start']['character'] if one else None
    same(character, 22, 'of two places that which is nearest to the column of the C')
    same(read(client.path('given')).count(b'#line'), 4, 'the C that is given')
    client.end()


def test_macros():
    """A message on a macro that @h writes is on its line of the web."""
    client = saying(WEB, '')
    rows = read_c(client)
    at = next(row for row, line in enumerate(rows) if line.startswith('#define M'))
    mark = max(row for row in range(at) if rows[row].startswith('#line'))
    number = int(rows[mark].split()[1]) + at - mark - 1
    write(("a.w:%d:9: warning: 'M' redefined\n" % number).encode(), client.path('said'))
    save(client)
    wait_for(client, lambda: places(client), 'a macro')
    same(places(client), [(3, 'M', 2)], 'a macro')
    client.end()


def read_c(client):
    return read(client.c_of('a.w', 7)['result']['file']).decode().split('\n')


def test_changes():
    """Messages move with their lines, and go when these are others, or when a save has none."""
    client = saying(WEB, "a.w:8:1: error: 'y' is bad\na.w:10:1: warning: 'z' is bad\n")
    save(client)
    wait_for(client, lambda: len(places(client)) == 2, 'before a change')
    client.text = WEB.replace('@ A.', '@ A.\nMore.')
    client.change('a.w', (((0, 4), (0, 4)), '\nMore.'))
    client.settle()
    same(places(client), [(9, 'y', 1), (11, 'z', 2)], 'a line above')
    client.text = client.text.replace('N+y', 'N+1')
    client.change('a.w', (((8, 34), (8, 35)), '1'))
    client.settle()
    same(places(client), [(11, 'z', 2)], 'the line of a message is another one')
    write(b'', client.path('said'))
    save(client)
    wait_for(client, lambda: not places(client), 'a compiler that says nothing')
    write(b"a.w:9:1: error: 'N' is bad\n", client.path('said'))
    save(client)
    wait_for(client, lambda: places(client), 'a message again')
    runs = read(client.path('runs')).count(b'run')
    save(client, client.text + '@<Undefined@>\n@ @c\n@<Undefined@>\n')
    client.settle()
    same(places(client), [], 'a web with errors')
    time.sleep(.2)
    client.settle()
    same(read(client.path('runs')).count(b'run'), runs, 'a web with errors is not compiled')
    client.end()


def test_files():
    """All outputs are beside the file, also those whose names lead out of the folder."""
    web = '@ A.\n@c\n#include "b.h"\nint x=b;\n@ @(b.h@>=\nint b;\n@ @(../c.h@>=\nint c;\n'
    script = b'#!/bin/sh\nls -A "${1%/*}" | tr "\\n" " " >"$2/given"\ncat "$1" >>"$2/given"\n'
    client = opened(web, files={'d/run.sh': script}.items())
    folder = client.folder.name
    client.end()
    client = Client({'a.w': web.encode(), 'run.sh': script},
                    options={'compiler': 'sh ./run.sh {file} .'})
    client.text = web
    client.open('a.w', web)
    save(client)
    wait_for(client, lambda: os.path.exists(client.path('given'))
             and b'int x' in read(client.path('given')), 'a file')
    found = read(client.path('given')).decode()
    check(found.startswith('.._c.h a.c b.h '), 'the outputs', found)
    check('int x=b' in found and not os.path.exists(os.path.join(folder, '..', 'c.h')),
          'the C', found)
    client.end()


def test_runs():
    """A newer run replaces the one that is there; one that takes too long, or that cannot be
    started, is told once."""
    client = saying(WEB, "a.w:8:1: error: 'y' is bad\n")
    write(b'#!/bin/sh\necho run >>runs\n[ $(wc -l <runs) -gt 1 ] || sleep 100 & wait\n'
          b'exec cat said\n', client.path('said.sh'))
    save(client)
    wait_for(client, lambda: os.path.exists(client.path('runs')), 'a run')
    save(client)
    wait_for(client, lambda: places(client), 'a newer run')
    same(read(client.path('runs')), b'run\nrun\n', 'two runs')
    same(client.shown, [], 'a run that was replaced')
    write(b'#!/bin/sh\nsleep 100\n', client.path('said.sh'))
    start = time.monotonic()
    save(client)
    wait_for(client, lambda: client.shown, 'a run that takes too long')
    check(time.monotonic() - start > 9, 'ten seconds', time.monotonic() - start)
    check('after 10 seconds' in client.shown[0], 'a run that takes too long', client.shown)
    same(places(client), [], 'a run that was ended')
    client.end()
    client = opened(options={'compiler': ['no-such-compiler', '-']})
    for _ in range(3):
        save(client)
        client.settle()
    same([text for text in client.shown if 'no-such-compiler' in text], client.shown[:1],
         'no compiler')
    same(len(client.shown), 1, 'no compiler is told once')
    client.end()
    client = saying(WEB, 'sh: error: wrong flag\n')
    write(b'3', client.path('status'))
    save(client)
    wait_for(client, lambda: client.shown, 'a command that fails')
    same(client.shown, ['./said.sh ended with status 3: sh: error: wrong flag'],
         'a command that fails')
    client.end()


def test_opt_in():
    """The environment may name the command. Settings that come later, and files, do not."""
    spy = b'#!/bin/sh\ntouch ran\n'
    files = {'a.w': WEB.encode(), 'spy.sh': spy, '.retangle': b'a\n'}
    for environment, options, does_run in (
            ({}, None, False), ({'RETANGLE_COMPILER': 'sh spy.sh'}, None, True),
            ({'RETANGLE_COMPILER': 'sh spy.sh'}, {'compiler': ['true']}, False),
            ({}, {'compiler': 7}, False), ({'RETANGLE_COMPILER': '"'}, None, False)):
        client = Client(files, environment=dict(os.environ, **environment), options=options)
        client.text = WEB
        client.open('a.w', WEB)
        client.notify('workspace/didChangeConfiguration', {
            'settings': {'retangle': {'compiler': ['sh', 'spy.sh']},
                         'compiler': ['sh', 'spy.sh']}})
        save(client)
        if does_run:
            wait_for(client, lambda: os.path.exists(client.path('ran')), 'the environment')
        else:
            time.sleep(.3)
            client.settle()
            check(not os.path.exists(client.path('ran')), 'a command is run', options)
        is_wrong = options == {'compiler': 7} or environment.get('RETANGLE_COMPILER') == '"'
        same(len(client.shown), int(is_wrong), 'settings that are wrong')
        client.end()


# ---------------------------------------------------------------------- editors

def block_of_page(heading, language):
    """The first block of lines in a language under a heading of docs/editors.md."""
    page = read(top, 'docs', 'editors.md').decode()
    part = page[page.index('\n## %s\n' % heading):]
    return re.search(r'```%s\n(.*?)```' % language, part, re.S)[1]


SHOWN = """
local function find()
  for _, one in ipairs(vim.diagnostic.get(0)) do
    if one.source == 'cc' and one.message:find('undeclared') then return one end
  end
end
vim.cmd('edit a.w')
vim.wait(10000, function() return next(vim.lsp.buf_get_clients(0)) ~= nil end)
vim.wait(500, function() return false end)
vim.cmd('write!')
vim.wait(20000, function() return find() ~= nil end)
local one = find() or {lnum = -1, message = 'none'}
vim.fn.writefile({one.lnum + 1 .. ': ' .. one.message}, 'found')
vim.cmd('qall!')
"""
EMACS = """
(find-file "a.w")
(run-hooks 'post-command-hook)
(defun found ()
  (seq-find (lambda (one) (string-match-p "undeclared" (flymake-diagnostic-text one)))
            (flymake-diagnostics)))
(dotimes (_ 50) (unless eglot--managed-mode (accept-process-output nil .1)))
(set-buffer-modified-p t)
(save-buffer)
(dotimes (_ 200) (unless (found) (accept-process-output nil .1)))
(let ((text (if (found) (format "%d: %s" (line-number-at-pos (flymake-diagnostic-beg (found)))
                          (flymake-diagnostic-text (found))) "none")))
  (with-temp-file "found" (insert text)))
(kill-emacs)
"""


def test_editors():
    """The lines of docs/editors.md, of at most 15 each, and what they show in Neovim and Emacs."""
    blocks = {language: block_of_page('What the compiler says', language)
              for language in ('lua', 'elisp', 'vim', 'js')}
    for language, block in blocks.items():
        check(block.count('\n') <= 15, 'the lines for %s' % language, block)
    neovim = block_of_page('Neovim', 'lua')
    first = "cmd = {'retangle-lsp'},\n"
    check(first in neovim, 'the lines for Neovim', neovim)
    neovim = neovim.replace(first, first + blocks['lua'])
    emacs = ("(package-activate-all)\n" + block_of_page('Emacs', 'elisp') + blocks['elisp'] + EMACS)
    for program, name, text, arguments in (
            ('nvim', 'init.lua', neovim, ['--headless', '-n', '-i', 'NONE', '-u', 'init.lua',
                                          '-c', 'luafile shown.lua']),
            ('emacs', 'init.el', emacs, ['-q', '--batch', '-l', 'init.el'])):
        if not (shutil.which(program) and shutil.which('cc')):
            print('skipped: what the compiler says in %s (it is not installed)' % program)
            continue
        files = {'a.w': WEB.replace('return M', 'return 0').encode(), name: text.encode(),
                 'shown.lua': SHOWN.encode(), 'bin/retangle-lsp': b''}
        with folder_with(files) as folder:
            os.remove(os.path.join(folder, 'bin', 'retangle-lsp'))
            os.symlink(os.path.join(top, 'lsp', 'retangle-lsp'),
                       os.path.join(folder, 'bin', 'retangle-lsp'))
            path = os.path.join(folder, 'bin') + os.pathsep + os.environ['PATH']
            done = run([program, *arguments], folder, b'', 60, HOME=folder, PATH=path,
                       XDG_CONFIG_HOME=folder, TERM='dumb')
            found = read(folder, 'found').decode() if os.path.exists(
                os.path.join(folder, 'found')) else done.errors[-1000:]
            check(found[:2] == '8:' and 'undeclared' in found, 'what is shown in ' + program, found)


if __name__ == '__main__':
    sys.exit(run_all([test_compilers, test_texts, test_macros, test_changes, test_files, test_runs,
                      test_opt_in, test_editors]))
