#!/usr/bin/env python3
"""Tangles any web with ctangle as its sources are: unproved, by `rt try`, which compiles it first.

usage: try.py WEB [CHANGE]

`make try WEB=.. CHANGE=..` runs it. Names of included files are names in the web's folder, as if
ctangle ran there. All output files come into bin/try, in the place of what was there.

`rt try` runs a program in a new folder and keeps no file of it. So it gets copies of the web, the
change file and what they include, in which the names of output files, after `@(`, begin with the
full path of bin/try. A file outside of the web's folder has another name in that new folder: where
it is included, and until the messages and the C are shown.
"""
import contextlib
import os
import re
import shutil
import stat
import subprocess
import sys
import tempfile

TOP = os.path.dirname(os.path.dirname(os.path.abspath(__file__)))
OUT = os.path.join(TOP, 'bin', 'try')
PATH = os.fsencode(OUT).replace(b'@', b'@@') + b'/'

INCLUSION = re.compile(rb'^(@[iI][ \t\r\v\f]*)(?:"([^"\n]*)|([^ \t\r\v\f"\n]+))', re.M)
OUTPUT = re.compile(rb'@@|@\(\s*([^/\s@][^@]*?)\s*@>')     # a name that begins with / stays as it is
OUTSIDE = 'outside-of-the-folder/%d'
RENAMED = re.compile(rb'^((?:#line \d+ ")?)outside-of-the-folder/(\d+)(?=[":])', re.M)

MEANINGS = {
    0: 'no error.',
    1: 'the web has an error (above). Its C is written all the same; do not compile it.'}


def with_extension(path, extension):
    return path if '.' in os.path.basename(path) else path + extension


def stop(why):
    sys.exit('make try: ' + why)


def text_of(path):
    """The bytes of a file. Where it has no text this program stops, and says why."""
    try:
        mode = os.stat(path).st_mode
        if stat.S_ISDIR(mode):
            stop('%s is a folder' % path)
        if not stat.S_ISREG(mode):
            stop('%s is no file with a text' % path)
        with open(path, 'rb') as file:
            text = file.read()
    except FileNotFoundError:
        stop('%s is not there' % path)
    except PermissionError:
        stop('%s may not be read' % path)
    except OSError as error:
        stop('%s cannot be read: %s' % (path, error.strerror))
    if b'\0' in text:
        stop('%s is no text: it has a byte 0' % path)
    return text


def included_names(text):
    return [os.fsdecode(one or other) for _, one, other in INCLUSION.findall(text) if one or other]


def sources_of(folder, given):
    """These files, by name, and those that they include, at any depth. A file that is not there is
    left to ctangle."""
    found, ahead = {}, list(given.items())
    while ahead:
        name, path = ahead.pop()
        if name not in found and (name in given or os.path.exists(path)):
            found[name] = text_of(path)
            ahead += [(one, os.path.join(folder, one)) for one in included_names(found[name])]
    return found


def is_inside(name):
    """Whether a file of this name can be in the folder in which `rt try` runs a program."""
    return not name.startswith(('/', '../')) and os.path.normpath(name) == name and '=' not in name


def renamed_outside(sources, given):
    """The sources under names in the folder, and the names that were replaced, each under the
    number of its new name."""
    outside = [name for name in sources if name not in given and not is_inside(name)]
    new = {os.fsencode(name): os.fsencode(OUTSIDE % at) for at, name in enumerate(outside)}

    def included(found):
        begin, quoted, word = found.groups()
        name = new.get(word if quoted is None else quoted)
        return found[0] if name is None else begin + (b'' if quoted is None else b'"') + name

    return {os.fsdecode(new.get(os.fsencode(name), os.fsencode(name))): INCLUSION.sub(included, text)
            for name, text in sources.items()}, outside


def with_own_names(text, outside):
    """A text of ctangle in which files have their names again: in a #line the name is quoted."""
    def own(found):
        name = os.fsencode(outside[int(found[2])])
        return found[1] + (re.sub(rb'(["\\])', rb'\\\1', name) if found[1] else name)
    return RENAMED.sub(own, text) if outside else text


def moved_outputs(sources):
    """The sources with output files in bin/try, whose folders are made."""
    outputs = {name for text in sources.values() for name in OUTPUT.findall(text) if name}
    for name in outputs:
        with contextlib.suppress(OSError):      # ctangle says that it cannot be written
            os.makedirs(os.path.dirname(os.path.join(OUT, os.fsdecode(name))), exist_ok=True)
    named = re.compile(rb'@@|(@[(<])\s*(%s)(?=\s*@>)' % b'|'.join(map(re.escape, sorted(outputs))))

    def moved(found):
        return found[1] + PATH + found[2] if found[1] else found[0]
    return {name: named.sub(moved, text) if outputs else text for name, text in sources.items()}


def run(sources, arguments):
    """The status of ctangle and its messages; None where rt did not run it."""
    with tempfile.TemporaryDirectory() as folder:
        command = ['rt', 'try']
        for number, (name, text) in enumerate(sources.items()):
            copy = os.path.join(folder, str(number))
            with open(copy, 'wb') as file:
                file.write(text)
            command += ['--data', '%s=%s' % (name, copy)]
        done = subprocess.run(command + ['--'] + arguments, check=False, stdin=subprocess.DEVNULL,
                              stdout=subprocess.PIPE, stderr=subprocess.STDOUT,
                              cwd=os.path.join(TOP, 'crates', 'ctangle'))
    ended = re.search(rb'^run=ended status=(\d+) ', done.stdout, re.M)
    if not ended:
        return None, done.stdout
    said = re.sub(rb'^(?:checked|interpreter|races|run)[:=] ?.*\n', b'', done.stdout, flags=re.M)
    return int(ended[1]), said.replace(PATH, b'')


def main():
    if len(sys.argv) not in (2, 3):
        sys.exit('usage: make try WEB=path/to/web.w [CHANGE=path/to/changes.ch]')
    paths = [os.path.expanduser(with_extension(path, extension))
             for path, extension in zip(sys.argv[1:], ('.w', '.ch'))]
    folder, web = os.path.split(paths[0])
    names = [web] + [os.path.basename(path) for path in paths[1:]]
    sources, outside = renamed_outside(sources_of(folder, dict(zip(names, paths))), names)
    shutil.rmtree(OUT, ignore_errors=True)
    os.makedirs(OUT)

    print('Compiling ctangle without proofs, to run it once: a minute or two.', flush=True)
    out = os.path.join(OUT, os.path.splitext(web)[0] + '.c')
    status, said = run(moved_outputs(sources), [web] + (names[1:] or ['-']) + [out])
    sys.stdout.flush()
    sys.stdout.buffer.write(with_own_names(said, outside))
    if status is None:
        sys.exit('make try: rt did not run ctangle')

    written = sorted(os.path.join(path, one) for path, _, files in os.walk(OUT) for one in files)
    for path in written if outside else ():
        with open(path, 'r+b') as file:
            text = with_own_names(file.read(), outside)
            file.seek(0)
            file.truncate()
            file.write(text)
    print('C: %s' % (' '.join(os.path.relpath(path, TOP) for path in written) or 'none'))
    meaning = MEANINGS.get(status, 'ctangle stopped, for the reason above.')
    print('Status %d: %s' % (status, meaning))
    print('Nothing was proved or built: make does both.')
    print('docs/programs.md has all statuses, and a remedy for each fault.')
    return 0 if status < 2 else status


if __name__ == '__main__':
    sys.exit(main())
