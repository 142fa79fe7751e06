"""The arguments of both programs, loading, and what ctangle does (docs/programs.md).

usage: programs.py ctangle|retangle FOLDER ARGUMENT..

It writes no file: the outputs of ctangle are shown with their names and lengths on standard output.
"""
import os
import sys

import limits
from faults import fault_line
from files import Refused, Roles, add, is_file_name
from reading import Reading
from scripts import Script
from sessions import Session
from tangling import Tangling

USAGE = b'usage: ctangle [flags] web [change [out]]\n'


def with_extension(name, extension):
    return name if b'.' in name.rsplit(b'/', 1)[-1] else name + extension


def completed(web, change, out):
    web = with_extension(web, b'.w')
    if change is not None:
        change = None if change == b'-' else with_extension(change, b'.ch')
    if out is None:
        return web, change, web.rsplit(b'/', 1)[-1].rsplit(b'.', 1)[0] + b'.c'
    return web, change, with_extension(out, b'.c')


def is_utf8(name):
    try:
        name.decode()
    except UnicodeDecodeError:
        return False
    return True


def read_words(arguments):
    """The names of web, change file or None, and main file that the arguments of ctangle give, or None."""
    arguments = list(map(os.fsencode, arguments))
    if not all(map(is_utf8, arguments)):
        return None
    names = [argument for argument in arguments if len(argument) < 2 or argument[:1] not in (b'-', b'+')]
    if not 1 <= len(names) <= 3:
        return None
    return completed(*names + [None] * (3 - len(names)))


def read_retangle(arguments):
    """The same of retangle, for arguments without help and with options written out."""
    options = {b'--change': None, b'--out': None}
    arguments, names = [os.fsencode(argument) for argument in arguments], []
    while arguments:
        argument = arguments.pop(0)
        key, equals, value = argument.partition(b'=')
        if key in options and options[key] is None and (equals or arguments):
            options[key] = value if equals else arguments.pop(0)
        else:
            names.append(argument)
    if len(names) != 1 or names[0].startswith(b'-'):
        return None
    return completed(names[0], options[b'--change'], options[b'--out'])


class Folder:
    def __init__(self, path):
        self.path = os.fsencode(path)

    def read(self, name):
        """The bytes of a file, one more than may be at most; None where there is no such file."""
        try:
            name.decode('utf-8')
            with open(os.path.join(self.path, name), 'rb') as source:
                return source.read(limits.FILE_BYTES + 1)
        except (FileNotFoundError, ValueError):
            return None


class LoadFault(Exception):
    """A file that cannot be read, or that the table refuses."""

    def __init__(self, name, refusal=None):
        Exception.__init__(self, name, refusal)
        self.name, self.refusal = name, refusal

    def line(self, program):
        if self.refusal is None:
            return b'%s: cannot read %s\n' % (program, self.name)
        return b'%s: %s: %s\n' % (program, self.name, self.refusal.encode())


def loaded(files, name, folder, is_needed):
    """The files with this one too, or as they are where it is missing and not needed."""
    try:
        text = folder.read(name)
    except OSError:
        raise LoadFault(name)
    if text is None and not is_needed:
        return files
    if text is None or len(text) > limits.FILE_BYTES:
        raise LoadFault(name)
    try:
        return add(files, name, text)
    except Refused as refused:
        raise LoadFault(name, refused.refusal)


def load(names, folder):
    """Files and roles: the web, the change file, and in rounds what inclusions miss."""
    web, change, out = names
    for name in names:
        if name is not None and not is_file_name(name):
            raise LoadFault(name, 'BadName')
    files = loaded([], web, folder, True)
    if change not in (None, web):
        files = loaded(files, change, folder, True)
    roles, tried = Roles(web, change, out), set()
    while True:
        faults = Reading(files, roles).faults
        missing = dict.fromkeys(fault.subject for fault in faults if fault.kind == 'IncludeMissing')
        new = [name for name in missing if name not in tried]
        if not new:
            return files, roles
        tried.update(new)
        for name in filter(is_file_name, new):
            files = loaded(files, name, folder, False)


def tangled(names, folder):
    """What a run of ctangle gives: the status, what is on standard error, and the output files by name."""
    try:
        tangling = Tangling(*load(names, folder))
    except LoadFault as fault:
        return 3, fault.line(b'ctangle'), {}
    faults, created = b''.join(map(fault_line, tangling.faults)), {}
    for name, text in tangling.files:
        if not (name and is_utf8(name)):
            return 3, faults + b'ctangle: cannot write %s\n' % name, created
        created[name] = text
    return tangling.status, faults, created


def answered(names, folder, script, *watch):
    """What a run of retangle gives: the status, what is on standard error, and the answers."""
    try:
        files, roles = load(names, folder)
    except LoadFault as fault:
        return 3, fault.line(b'retangle'), b''
    done = Script(Session(files, roles, *watch), script)
    return done.status, b'', done.written


def run(program, arguments, folder):
    """The status, what is on standard error, and what is shown on standard output."""
    names = (read_retangle if program == 'retangle' else read_words)(arguments)
    if names is None:
        return 2, USAGE, b''
    if program == 'retangle':
        return answered(names, folder, sys.stdin.buffer.read())
    status, errors, files = tangled(names, folder)
    return status, errors, b''.join(b'= %s %d\n' % (name, len(text)) + text for name, text in files.items())


def main():
    status, errors, shown = run(sys.argv[1], sys.argv[3:], Folder(sys.argv[2]))
    sys.stderr.buffer.write(errors)
    sys.stdout.buffer.write(shown)
    return status


if __name__ == '__main__':
    sys.exit(main())
