"""What a new user does first, over the built programs.

usage: users.py CTANGLE RETANGLE TOP       TOP is the folder of the repository

- README.md: the web, its C and its fault, the rule for a Makefile.
- make install and make uninstall, with the manual pages and webs.mk.
- examples/several: both recipes.

The last line is 'N passed, M failed'.
"""
import os
import shutil
import sys
import tempfile

ctangle, retangle, top = (os.path.abspath(path) for path in sys.argv[1:4])
import making
from checks import blocks_of, check, files_below, new_folder, read, read_if_there, run_all, same, write
from running import run


def is_there(*path):
    return os.path.exists(os.path.join(*path))


# ---------------------------------------------------------------------- make install

def installed(temporary):
    """Where test_install installs."""
    return os.path.join(temporary, 'prefix')


def test_install(temporary):
    make = ['make', '-s'] + making.BUILT
    source = making.copy_of_top(top, (ctangle, retangle), temporary, 'source')
    root, prefix = os.path.join(temporary, 'an empty root'), installed(temporary)
    _, errors, status = run(make + ['install', 'PREFIX=/usr', 'DESTDIR=' + root], source)
    check(status == 0, 'make install', errors)
    programs = ['ctangle', 'retangle', 'retangle-lsp']
    pages = ['usr/share/man/man1/%s.1' % name for name in programs]
    modules = 'usr/share/retangle-lsp/retangle_lsp/'
    found = [name for name in files_below(root) if not name.startswith(modules)]
    same(found, sorted(['usr/bin/' + name for name in programs] + ['usr/share/ctangle/webs.mk'] + pages),
         'make install')
    same(sorted(name for name in os.listdir(os.path.join(root, modules)) if name.endswith('.py')),
         sorted(name for name in os.listdir(os.path.join(top, 'lsp', 'retangle_lsp'))
                if name.endswith('.py')), 'the modules of the language server')
    for page in pages:
        same(read_if_there(root, page), read(top, 'docs', os.path.basename(page)), page)
        check_page(os.path.join(root, page))
    run(make + ['uninstall', 'PREFIX=/usr', 'DESTDIR=' + root], source)
    same(files_below(root), [], 'make uninstall')

    run(make + ['install', 'PREFIX=' + prefix], source)
    same(run([os.path.join(prefix, 'bin', 'ctangle')], temporary),
         (b'', b'usage: ctangle [flags] web [change [out]]\n', 2), 'an installed program')
    check_server(make, source, prefix, temporary)
    check_man(os.path.join(prefix, 'share', 'man'))


def check_server(make, source, prefix, temporary):
    """An installed language server is started by its name, also under another one and by a link."""
    run(make + ['install', 'PROGRAM_PREFIX=proved-', 'PREFIX=' + prefix], source)
    link = os.path.join(temporary, 'server')
    os.symlink(os.path.join(prefix, 'bin', 'retangle-lsp'), link)
    for path, name in ((os.path.join(prefix, 'bin', 'retangle-lsp'), b'retangle-lsp'),
                       (os.path.join(prefix, 'bin', 'proved-retangle-lsp'), b'proved-retangle-lsp'),
                       (link, b'retangle-lsp')):
        output, errors, status = run([path, '--stdio', '--version'], '/')
        same((output.split()[:1], errors, status), ([name], b'', 0), 'an installed server')
        output, errors, status = run([path, '--help'], '/')
        same((output.startswith(b'usage: ' + name), errors, status), (True, b'', 0),
             'the help of an installed server')
    run(make + ['uninstall', 'PROGRAM_PREFIX=proved-', 'PREFIX=' + prefix], source)
    check(not is_there(prefix, 'share', 'proved-retangle-lsp'), 'make uninstall', 'modules are left')


def check_page(page):
    """groff, where it is, understands all of a manual page."""
    if shutil.which('groff'):
        _, errors, status = run(['groff', '-man', '-Tascii', '-wmac', '-z', page], '/')
        check(status == 0 and not errors, page, errors)


def check_man(pages):
    """man, where it is, finds both pages. In some containers it only says that it was left out."""
    for name in ('ctangle', 'retangle') if shutil.which('man') else ():
        page = os.path.join(pages, 'man1', name + '.1')
        found, errors, _ = run(['man', '-M', pages, '-w', name], '/')
        if b'minimized' not in found + errors:
            same(found.decode(), page + '\n', 'man -w ' + name)


# ---------------------------------------------------------------------- README

def block(begins):
    """The only block of README.md that begins so."""
    found = [block for block in blocks_of(read(top, 'README.md')) if block.startswith(begins)]
    same(len(found), 1, 'README.md, blocks that begin with %r' % begins)
    return found[0]


def test_readme(temporary):
    web = block(b'@ ')
    folder = new_folder(temporary, 'hello', {'hello.w': web})
    same(run([ctangle, 'hello'], folder), (b'', b'', 0), 'README.md, ctangle hello')

    write(b''.join(web.splitlines(True)[:-1]), folder, 'hello.w')
    same(run([ctangle, 'hello'], folder), (b'', block(b'hello.w:'), 1), 'README.md, the fault')

    write(web, folder, 'hello.w')
    path = os.path.join(installed(temporary), 'bin') + os.pathsep + os.environ['PATH']
    check_make(folder, path, 'make hello without a Makefile')
    rule = block(b'include /usr/local/')
    write(rule.replace(b'/usr/local', installed(temporary).encode()), folder, 'Makefile')
    check_make(folder, path, 'make hello by the rule of README.md')

    write(web + b'"\n', folder, 'hello.w')
    _, errors, status = run(['make', 'hello.c'], folder, PATH=path)
    check(status != 0 and b'hello.w:4: error: quoted text did not end\n' in errors,
          'make with an error', errors)
    check(not is_there(folder, 'hello.c'), 'make with an error', 'hello.c is there')


def remove(folder, name):
    if is_there(folder, name):
        os.remove(os.path.join(folder, name))


def check_make(folder, path, name):
    remove(folder, 'hello')
    remove(folder, 'hello.c')
    _, errors, status = run(['make', 'hello'], folder, PATH=path)
    check(status == 0, name, errors)
    same(run(['./hello'], folder), (b'hello, world\n', b'', 0), name + ', and ./hello')


OUTPUTS = ['calc.c', 'stack.c', 'stack.h']


# ---------------------------------------------------------------------- recipes

def times(folder, names):
    return [making.time_of(folder, name) for name in names]


def older(times):
    """What these times are after files were set back."""
    return [time and time - making.BACK for time in times]


def make(folder, makefile, web):
    """Whether make succeeds with this text of the web, and standard error."""
    making.set_back(folder)
    write(web, folder, 'calc.w')
    _, errors, status = run(['make', '-f', makefile, 'CTANGLE=' + ctangle], folder)
    return status == 0, errors


def must_make(folder, makefile, web, name):
    done, errors = make(folder, makefile, web)
    check(done and not errors, '%s, %s' % (makefile, name), errors)


def must_fail(folder, makefile, web):
    """A line that is added to the web is an error."""
    done, errors = make(folder, makefile, web + b'"\n')
    line = web.count(b'\n') + 1
    check(not done and b'calc.w:%d: error: quoted text did not end\n' % line in errors,
          makefile + ', an error', errors)


def calculates(folder, typed, expected, makefile):
    """The program that a recipe made prints this."""
    same(run(['./calc'] + typed.split(), folder).output, expected, '%s, calc %s' % (makefile, typed))


def test_recipe(temporary, makefile):
    """The folder in which a recipe made the program, and the web."""
    folder = os.path.join(temporary, makefile)
    shutil.copytree(os.path.join(top, 'examples', 'several'), folder)
    web = read(folder, 'calc.w')
    must_make(folder, makefile, web, 'make')
    calculates(folder, '2 3 + 4 x', b'20\n', makefile)
    calculates(folder, '2 3 -', b'-1\n', makefile)
    must_make(folder, makefile, web.replace(b'%g', b'%.2f'), 'another format')
    calculates(folder, '2 3 -', b'-1.00\n', makefile + ', another format')
    return folder, web


def test_several(temporary):
    folder, web = test_recipe(temporary, 'Makefile')
    must_fail(folder, 'Makefile', web)
    left = [name for name in OUTPUTS if is_there(folder, name)]
    same(left, [], 'Makefile, outputs after an error')


def test_unchanged(temporary):
    makefile = 'unchanged.mk'
    folder, web = test_recipe(temporary, makefile)
    must_make(folder, makefile, web, 'the first format')
    made = OUTPUTS + ['calc.o', 'stack.o', 'calc']
    before = times(folder, made)
    must_make(folder, makefile, web, 'make of the same web')
    same(times(folder, made), older(before), makefile + ', the same web')

    # the main file alone changes
    stack = ['stack.c', 'stack.h', 'stack.o']
    before = times(folder, stack)
    must_make(folder, makefile, web.replace(b'%g', b'%.2f'), 'make after one file changed')
    same(times(folder, stack), older(before), makefile + ', other files')
    calculates(folder, '1', b'1.00\n', makefile + ', one file')

    # an error changes no output, and a missing output is made again
    outputs = [read_if_there(folder, name) for name in OUTPUTS]
    must_fail(folder, makefile, web)
    same([read_if_there(folder, name) for name in OUTPUTS], outputs,
         makefile + ', outputs after an error')
    must_make(folder, makefile, web, 'make after an error')
    remove(folder, 'stack.h')
    _, errors, status = run(['make', '-f', makefile, 'CTANGLE=' + ctangle], folder)
    check(status == 0 and is_there(folder, 'stack.h'), makefile + ', a missing output', errors)


def main():
    with tempfile.TemporaryDirectory() as temporary:
        return run_all((test_install, test_readme, test_several, test_unchanged),
                       temporary)


if __name__ == '__main__':
    sys.exit(main())
