"""What the tests of make share: copies of the repository in which nothing is built, and times of
files."""
import os
import shutil

SECONDS = 10 ** 9               # nanoseconds
BACK = 10 * SECONDS

# make takes these as they are
BUILT = ['-o', 'bin/ctangle', '-o', 'bin/retangle']


def copy_of_top(top, programs, temporary, name):
    """A folder with what the Makefile of the repository needs, and these programs, ctangle and
    retangle, as what it builds."""
    source = os.path.join(temporary, name)
    os.makedirs(os.path.join(source, 'crates', 'ctangle'))
    for folder in ('docs', 'examples', 'lsp'):
        shutil.copytree(os.path.join(top, folder), os.path.join(source, folder))
    for file in ('Makefile', 'crates.txt'):
        shutil.copy(os.path.join(top, file), source)
    copy_programs(programs, os.path.join(source, 'bin'))
    return source


def copy_programs(programs, folder):
    """A folder with these programs under the names of ctangle and retangle."""
    os.mkdir(folder)
    for program, name in zip(programs, ('ctangle', 'retangle')):
        shutil.copy(program, os.path.join(folder, name))
    return folder


def set_back(folder):
    """Makes all files ten seconds older, so that what is written or touched next is newer."""
    for path, _, names in os.walk(folder):
        for name in names:
            file = os.path.join(path, name)
            time = os.stat(file).st_mtime_ns - BACK
            os.utime(file, ns=(time, time))


def time_of(folder, name):
    """When a file was written last, or None where it is not there."""
    path = os.path.join(folder, name)
    return os.stat(path).st_mtime_ns if os.path.exists(path) else None
