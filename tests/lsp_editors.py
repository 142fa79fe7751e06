"""The language server in editors, with the lines of docs/editors.md: an author's day.

usage: lsp_editors.py CTANGLE RETANGLE TOP [words] [neovim] [emacs]

TOP is the folder of the repository.

In a web of 35,000 lines with an included file 300 edits are typed and undone, a name is completed,
hovered over, followed and renamed, the C of a line is shown, the branch is switched under the
editor, another program writes a file, and retangle and the server are killed; in Neovim the web is
also removed, written again, and saved under another name. After each step the faults that the
editor has are those of ctangle. An Emacs in batch completes names after their first word. Neovim
and Emacs are tried where they are installed; else their part is skipped, by its name.

RETANGLE_LSP in the environment names another server, as one that is installed. The last line is
'N passed, M failed'.
"""
import json
import os
import re
import shutil
import signal
import subprocess
import sys
import time

ctangle, retangle, top = (os.path.abspath(path) for path in sys.argv[1:4])
sys.path[:0] = [os.path.join(top, below) for below in ('bench', 'tests')]
import webs
from checks import check, folder_with, read, run_all, same, write
from running import run

server = os.environ.get('RETANGLE_LSP', os.path.join(top, 'lsp', 'retangle-lsp'))
LINES = 35000
SECONDS = 300


def lines_of_page(heading, language):
    """The first block of lines in a language under a heading of docs/editors.md."""
    page = read(top, 'docs', 'editors.md').decode()
    part = page[page.index('\n## %s\n' % heading):]
    return re.search(r'```%s\n(.*?)```' % language, part, re.S)[1]


def author(name):
    """A folder with the web, in a repository with two branches, with the programs on the path."""
    lines = webs.named_program(LINES) + ['@i b.w']
    included = ['@ See @<Part 17 of the program@>.', '@<Part 1 of the program@>=', 'int b;']
    folder = folder_with({'a.w': text_of(lines), 'b.w': text_of(included),
                          '.gitignore': b'*.c\n*.h\nsteps\n'})
    path = folder.name
    programs = os.path.join(path, '.git', 'programs')
    git(path, 'init', '-q')
    os.mkdir(programs)
    os.symlink(ctangle, os.path.join(programs, 'ctangle'))
    os.symlink(retangle, os.path.join(programs, 'retangle'))
    os.symlink(server, os.path.join(programs, 'retangle-lsp'))
    git(path, 'add', '.')
    git(path, 'commit', '-qm', name)
    git(path, 'checkout', '-qb', 'other')
    other = lines[:100] + ['@ A section of another branch.'] + lines[100:-500] + ['@i b.w']
    write(text_of(other), path, 'a.w')
    write(text_of(included + ['@<Missing@>']), path, 'b.w')
    git(path, 'commit', '-qam', 'other')
    git(path, 'checkout', '-q', '-')
    return folder, dict(os.environ, HOME=path, XDG_CONFIG_HOME=os.path.join(path, '.git'),
                        TERM='dumb', RETANGLE=retangle,
                        PATH=programs + os.pathsep + os.environ['PATH'])


def text_of(lines):
    return '\n'.join(lines).encode() + b'\n'


def git(folder, *arguments):
    done = run(['git', '-c', 'user.name=a', '-c', 'user.email=a@b', *arguments], folder)
    check(done.status == 0, 'git', done.errors)


def skip(name, missing):
    print('skipped: the language server in %s (%s is not installed)' % (name, missing))


# ---------------------------------------------------------------------- Neovim

def test_neovim():
    if not shutil.which('nvim'):
        return skip('Neovim', 'nvim')
    folder, environment = author('Neovim')
    write(lines_of_page('Neovim', 'lua').encode(), folder.name, '.git', 'init.lua')
    git(folder.name, 'config', 'user.name', 'a')
    git(folder.name, 'config', 'user.email', 'a@b')
    done = run(['nvim', '--headless', '-n', '-i', 'NONE', '-u', os.path.join('.git', 'init.lua'),
                '-c', 'luafile ' + os.path.join(top, 'tests', 'lsp_day.lua')],
               folder.name, b'', SECONDS, **environment)
    steps = read(folder.name, 'steps').decode().splitlines()
    for step in steps:
        check(step.startswith('ok '), 'Neovim', step)
    check(steps and 'another name' in steps[-1], 'Neovim, its end',
          (done.status, done.errors[-2000:]))
    folder.cleanup()


# ---------------------------------------------------------------------- Emacs

EMACS = '''
(setq published (make-hash-table :test 'equal))
(with-eval-after-load 'eglot
  (cl-defmethod eglot-handle-notification :before
    (_server (_method (eql textDocument/publishDiagnostics)) &key uri diagnostics &allow-other-keys)
    (puthash uri diagnostics published)))
(defun in-web () (set-buffer (find-buffer-visiting "a.w")))
(defun ask (method params)
  (eglot--signal-textDocument/didChange)
  (jsonrpc-request (eglot--current-server-or-lose) method params :timeout 60))
(defun faults ()
  (in-web)
  (save-some-buffers t)
  (ask :workspace/symbol '(:query "nothing"))
  (let (found)
    (maphash (lambda (_ these)
      (mapc (lambda (one)
        (setq found (append found (append (plist-get (plist-get one :data) :faults) nil)))) these))
      published)
    (json-encode (vconcat found))))
(defun at-line (number) (in-web) (goto-char (point-min)) (forward-line (1- number)))
(defun server-pid () (in-web) (process-id (jsonrpc--process (eglot-current-server))))
'''


class Emacs:
    """An Emacs that is sent expressions."""

    def __init__(self, folder, environment):
        self.folder, self.environment = folder, environment
        lines = '(package-activate-all)\n' + lines_of_page('Emacs', 'elisp') + EMACS
        write(lines.encode(), folder, '.git', 'init.el')
        self.socket = os.path.join(folder, '.git', 'emacs')
        self.process = subprocess.Popen(
            ['emacs', '-q', '--fg-daemon=' + self.socket, '-l', os.path.join('.git', 'init.el')],
            cwd=folder, env=environment, stdin=subprocess.DEVNULL, stdout=subprocess.DEVNULL,
            stderr=subprocess.DEVNULL)
        for _ in range(SECONDS):
            if os.path.exists(self.socket):
                break
            time.sleep(.1)

    def ask(self, expression):
        """What an expression gives, as a text."""
        done = run(['emacsclient', '-s', self.socket, '--eval', expression], self.folder, b'', 60,
                   **self.environment)
        check(done.status == 0, 'Emacs, %s' % expression[:60], done.output + done.errors)
        return done.output.decode(errors='replace').strip()

    def text(self, expression):
        """The same of an expression that gives a string."""
        found = self.ask('(prin1-to-string (encode-coding-string %s (quote utf-8)))' % expression)
        return unquoted(unquoted(found)) if found else ''

    def in_web(self, expressions):
        """Evaluates expressions in the buffer of the web, and gives what the last of them does."""
        return self.ask('(progn (in-web) %s)' % expressions)

    def faults(self):
        write(b'', self.folder, 'steps')
        self.ask('(let ((coding-system-for-write (quote utf-8)) (text (faults))) '
                 '(with-temp-file "steps" (insert text)))')
        text = read(self.folder, 'steps')
        return sorted(json.loads(text)) if text else None

    def holds(self, name):
        """After a save the faults are those of ctangle."""
        found = self.faults()
        faults = run([os.path.join('.git', 'programs', 'ctangle'), 'a'], self.folder).errors
        same(found, sorted(faults.decode(errors='replace').splitlines()), 'Emacs, ' + name)

    def wait(self, expression, name):
        for _ in range(100):
            if self.ask(expression) not in ('nil', ''):
                return
            time.sleep(.1)
        check(False, 'Emacs, ' + name, 'nil: ' + expression)

    def end(self):
        run(['emacsclient', '-s', self.socket, '--eval',
             '(progn (eglot-shutdown-all) (kill-emacs))'], self.folder, b'', 20, **self.environment)
        try:
            self.process.wait(10)
        except subprocess.TimeoutExpired:
            self.process.kill()
            self.process.wait()


def unquoted(text):
    return text[1:-1].replace('\\"', '"').replace('\\\\', '\\') if text.startswith('"') else text


TYPED = ['(insert "int é = 1;\\n")', '(end-of-line) (insert " /* c */")', '(insert "@<Part 3\\n")',
         '(insert "@<Part 3 of the program@>\\n")', '(kill-line 1)', '(delete-char 1)',
         '(insert "\\"open\\n")', '(insert "@ A section.\\n@c\\nint q;\\n")',
         '(insert "@<Part 5...@>\\n")', '(insert "@<Prt 7 of the program@>\\n")', '(join-line)']


def test_emacs():
    if not shutil.which('emacs') or not shutil.which('emacsclient'):
        return skip('Emacs', 'emacs')
    if run(['emacs', '-q', '--batch', '--eval', "(require 'eglot)"], '/').status != 0:
        return skip('Emacs', 'eglot')
    folder, environment = author('Emacs')
    emacs = Emacs(folder.name, environment)
    try:
        spend_day(emacs, folder.name)
    finally:
        emacs.end()
        folder.cleanup()


WORDS = '''
(setq eglot-sync-connect 60)
(find-file "a.w")
(apply 'eglot (append (eglot--guess-contact)))
(defun completed (typed)
  "What completion makes of the last line, when this was typed in it."
  (goto-char (point-max))
  (insert "\\n" typed)
  (eglot--signal-textDocument/didChange)
  (completion-at-point)
  (buffer-substring (line-beginning-position) (point-max)))
(princ (mapconcat 'completed '("@<Gre" "x = @<Gre" "@<Greet t" "@(gre" "@<greeting.h") "\\n"))
(eglot-shutdown-all)
'''
COMPLETED = [b'@<Greet the user@>', b'x = @<Greet the user@>', b'@<Greet the user@>', b'@(greeting.h@>',
             b'@<greeting.h@>']


def test_emacs_words():
    """A name is completed after its first word, and after the next one."""
    if not shutil.which('emacs') or run(['emacs', '-q', '--batch', '--eval', "(require 'eglot)"],
                                        '/').status != 0:
        return skip('Emacs, its words', 'emacs or eglot')
    files = {'a.w': b'@ P.\n@c\n@ @<Greet the user@>=\n1;\n@ @(greeting.h@>=\n@<Other@>\n@ @c\n'}
    lines = '(package-activate-all)\n' + lines_of_page('Emacs', 'elisp') + WORDS
    with folder_with({**files, 'words.el': lines.encode()}) as folder:
        os.symlink(server, os.path.join(folder, 'retangle-lsp'))
        done = run(['emacs', '-q', '--batch', '-l', 'words.el'], folder, HOME=folder,
                   RETANGLE=retangle, PATH=folder + os.pathsep + os.environ['PATH'])
        same(done.output.split(b'\n'), COMPLETED, 'Emacs, a word is completed')
        check(done.status == 0, 'Emacs, its words', done.errors[-1000:])


def spend_day(emacs, folder):
    # a daemon has no command after which eglot would start the server
    emacs.ask('(progn (find-file "%s/a.w") (run-hooks (quote post-command-hook)) t)' % folder)
    emacs.wait('(progn (in-web) (> (hash-table-count published) 0))', 'faults')
    emacs.holds('opened')
    for number in range(30):
        edits = ' '.join(
            '(undo-boundary) (at-line (1+ (mod %d (count-lines 1 (point-max))))) %s' % (
                one * 7919, TYPED[one % len(TYPED)])
            for one in range(10 * number, 10 * number + 10))
        emacs.in_web(edits + ' (eglot--signal-textDocument/didChange)')
        if number % 10 == 9:
            emacs.holds('typed %d' % (10 * number + 10))
    emacs.in_web('(buffer-enable-undo) (undo-start) (ignore-errors (undo-more 100))')
    emacs.holds('undone')
    git(folder, 'checkout', '-q', '.')
    emacs.in_web('(revert-buffer t t t)')
    emacs.holds('read again')
    use_names(emacs, folder)
    meet_others(emacs, folder)


def use_names(emacs, folder):
    emacs.in_web('(goto-char 1) (search-forward "@ A file of the program") (forward-line 2) '
                 '(insert "@<Part 17 of\\n") (backward-char)')
    emacs.in_web('(completion-at-point) t')
    emacs.wait('(progn (in-web) (save-excursion (goto-char 1) '
               '(search-forward "@<Part 17 of the program@>\\n" 40000 t)))', 'completed')
    emacs.holds('completed')
    emacs.in_web('(goto-char 1) (search-forward "@<Part 17 of the program@>") (backward-char 5) '
                 '(xref-find-definitions (xref-backend-identifier-at-point (quote eglot))) t')
    found = emacs.in_web('(thing-at-point (quote line))')
    check('@<Part 17 of the program@>=' in found, 'Emacs, definition', found)
    emacs.in_web('(goto-char 1) (search-forward "@<Part 17 of the program@>=") (backward-char 9) '
                 '(cl-letf (((symbol-function (quote y-or-n-p)) (lambda (&rest _) t))) '
                 '(eglot-rename "The renamed piece")) t')      # b.w is changed without a question
    emacs.holds('renamed')
    found = read(folder, 'b.w')
    check(b'@<The renamed piece@>' in found, 'Emacs, renamed elsewhere', found)
    found = emacs.in_web('(show-c) (list (buffer-name) buffer-read-only)')
    check('"a.c"' in found and found.endswith('t)'), 'Emacs, the C', found)


def meet_others(emacs, folder):
    git(folder, 'commit', '-qam', 'typed')
    git(folder, 'checkout', '-q', 'other')
    emacs.wait('(progn (in-web) (auto-revert-buffers) (goto-char 1) '
               '(search-forward "another branch" nil t))', 'the other branch')
    emacs.holds('the other branch')
    write(b'@ @<Unused@>=\n"\n', folder, 'b.w')
    emacs.ask('(progn (auto-revert-buffers) (sleep-for 2) t)')
    emacs.holds('a file that another program wrote')
    for whom in ('retangle', 'the server', 'both'):
        time.sleep(6)           # eglot starts a server again that has run for three seconds
        server = int(emacs.ask('(server-pid)'))
        killed = children(server) if whom != 'the server' else []
        for pid in killed + [server] * (whom != 'retangle'):
            os.kill(pid, signal.SIGKILL)
        if whom != 'retangle':
            emacs.wait('(progn (in-web) (and (eglot-current-server) (/= (server-pid) %d)))' % (
                server), whom)
        emacs.in_web('(sleep-for 2) (goto-char (point-max)) (insert "@<Undefined %s@>\\n")' % whom)
        emacs.holds(whom + ' killed')


def children(pid):
    with open('/proc/%d/task/%d/children' % (pid, pid)) as file:
        return list(map(int, file.read().split()))


if __name__ == '__main__':
    parts = {'words': test_emacs_words, 'neovim': test_neovim, 'emacs': test_emacs}
    sys.exit(run_all([parts[name] for name in sys.argv[4:] or parts]))
