"""What examples/webs.mk makes of the names in webs that come from anybody.

usage: webs_mk.py TOP      TOP is the folder of the repository

- Names that a shell, sed or make would take as more than a name: none is run, written or read, each
  gets a warning, and the other prerequisites stay. In a web, and as an argument of files_of.
- Files that are not regular: a FIFO and the standard input are prerequisites and are not read.
- Names that are taken: with and without quotes, links, in folders.

The last line is 'N passed, M failed'.
"""
import os
import sys
import tempfile

top = os.path.abspath(sys.argv[1])
from checks import check, new_folder, read, run_all, same
from running import run

SECONDS = 60            # for a make that reads nothing but small files

MAKEFILE = b'''include %s/examples/webs.mk
a.c: $(call files_of,a.w)
\t@echo $^
clean:
\t@echo cleaned
''' % os.fsencode(top)


def made(folder, *arguments):
    """What make prints in a folder, and the files that are there after it."""
    ended = run(['make', *arguments], folder, seconds=SECONDS)
    return ended, sorted(os.listdir(folder))


# The name that is written in a web, and how the warning gives it.
ODD = [
    (b';touch${IFS}x;', b'?touch??IFS?x?'), (b'`id>x`', b'?id?x?'), (b'>b.w', b'?b.w'),
    (b'-es/^/id>x;/e', b'-es/?/id?x?/e'), (b'-f', b'-f'),
    (b'$(shell${IFS}touch', b'??shell??IFS?touch'),
    (b'$(shell\ttouch\tx)', b'??shell'), (b'"$(shell touch x)"', b'??shell?touch?x?'),
    (b'"a b.w"', b'a?b.w'), (b'b.w:;touch', b'b.w??touch'), (b'b.w|touch', b'b.w?touch'),
    (b'&touch', b'?touch'), (b'b.w&&touch', b'b.w??touch'), (b'%', b'?'), (b'%.w', b'?.w'),
    (b'b.w#', b'b.w?'), (b'b=c', b'b?c'), (b'*', b'?'), (b'?.w', b'?.w'), (b'[ab].w', b'?ab?.w'),
    (b'~', b'?'), (b'b\\', b'b?'),
    (b"b'", b'b?'), (b"';touch${IFS}x;'", b'??touch??IFS?x??'), (b'a\xe9.w', b'a?.w'),
    (b'\x1b[2J', b'??2J'), (b'a\0b', b'a?b'), (b'b,c', b'b?c'), (b'a(b)', b'a?b?'), (b'@i', b'?i'),
]


def test_odd_names(_):
    """Each name by itself, with a name after it that is taken."""
    for name, shown in ODD:
        files = {'a.w': b'@ A.\n@i %s\n@i b.w\n' % name, 'b.w': b'int b;\n', 'Makefile': MAKEFILE}
        with tempfile.TemporaryDirectory() as temporary:
            folder = new_folder(temporary, 'odd', files)
            ended, there = made(folder, '-n', 'clean')
            warning = b'Makefile:2: %s is no prerequisite, by its name (webs.mk)\n' % shown
            same((ended.output, ended.errors, ended.status),
                 (b'echo cleaned\n', warning, 0), 'webs.mk, make -n clean with %r' % name)
            ended, _ = made(folder, 'a.c')
            same((ended.output, ended.status), (b'a.w b.w\n', 0), 'webs.mk, with %r' % name)
            same((there, [read(folder, one) for one in there]),
                 (sorted(files), [files[one] for one in sorted(files)]),
                 'webs.mk, the files after %r' % name)


def test_odd_arguments(temporary):
    """The names that are passed may come from a folder that is not one's own."""
    files = {name: b'@i b.w\n' for name in (
        ';id>x;.w', '`id>y`.w', '-n.w', "';id>z;'.w", '$(shell${IFS}id>v).w', '%.w', 'a.w')}
    files.update({'b.w': b'', 'Makefile': b'include %s/examples/webs.mk\n'
                  b'all: $(call files_of,$(wildcard *.w))\n\t@echo $^\n' % os.fsencode(top)})
    folder = new_folder(temporary, 'arguments', files)
    ended, there = made(folder)
    same((ended.output, ended.status, there), (b'a.w b.w\n', 0, sorted(files)),
         'webs.mk, odd arguments')
    check(ended.errors.count(b' is no prerequisite, by its name (webs.mk)\n') == 6,
          'webs.mk, odd arguments', ended.errors)


def test_not_regular(temporary):
    """What is no regular file, or says that it is empty, is not read."""
    files = {'a.w': b'@i fifo\n@i /dev/stdin\n@i /proc/self/fd/0\n@i d\n@i /proc/version\n@i b.w\n',
             'b.w': b'', 'd/e.w': b'', 'Makefile': MAKEFILE}
    folder = new_folder(temporary, 'not regular', files)
    os.mkfifo(os.path.join(folder, 'fifo'))
    ended = run(['sh', '-c', 'exec make -n clean <>fifo'], folder, seconds=SECONDS)
    same(ended.output, b'echo cleaned\n', 'webs.mk, a FIFO')
    ended, _ = made(folder, 'a.c')
    same((ended.output, ended.status),
         (b'a.w fifo /dev/stdin /proc/self/fd/0 d /proc/version b.w\n', 0), 
         'webs.mk, files that are not regular')


def test_usual_names(temporary):
    """Names that are taken, and the lines that are no inclusions."""
    web = (b'@i b.w\n@I "c.w" x\n@include.w\n@i\td/e+f_g-1.w\n@i ./h.w "x"\n@i../out.w\n@i "d/i.w\n'
           b'@i b.w"c.w\n@i\n@i "\n @i no.w\n@@i no.w\nx@i no.w\n@ino')
    names = 'b.w', 'c.w', 'nclude.w', 'd/e+f_g-1.w', 'h.w', '../out.w', 'no'
    files = {'in/a.w': web + b'\n', 'in/Makefile': MAKEFILE, 'in/last.w': b'@i a.w\n'}
    files.update({os.path.join('in', name): b'' for name in names})
    files['in/d/i.w'] = b'@i last.w\r\n'
    folder = os.path.join(new_folder(temporary, 'usual', files), 'in')
    os.symlink('last.w', os.path.join(folder, 'link.w'))
    ended, _ = made(folder, 'a.c')
    same((ended.output, ended.errors, ended.status),
         (b'a.w b.w c.w nclude.w d/e+f_g-1.w h.w ../out.w d/i.w last.w no\n', b'', 0),
         'webs.mk, usual names')


def main():
    with tempfile.TemporaryDirectory() as temporary:
        return run_all((test_odd_names, test_odd_arguments, test_not_regular, test_usual_names),
                       temporary)


if __name__ == '__main__':
    sys.exit(main())
