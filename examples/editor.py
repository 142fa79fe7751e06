#!/usr/bin/env python3
"""An editor's side of a conversation with retangle, with Python's standard library alone.

usage: editor.py [--change FILE] [--out FILE] WEB

It starts retangle on the web and reads commands from standard input, a line each:

    save FILE       FILE is what it is on the disk: the editor has written it, or closed or removed
                    it. Sends all that retangle has otherwise
    update FILE N   FILE is what the next N lines of the input are, until it is saved. Sends this
    faults          the faults of the web
    work            how many names, the program being one, the last edits affected
    outputs         the output files, and how many bytes each of them has
    show FILE       the bytes of an output file
    origin FILE N   from C to web: the file and line from which line N of an output was written
    where FILE N    from web to C: the lines of the outputs that were written from line N
    quit            ends the conversation, as does the end of the input

FILE may have spaces. `./a.w` and a full path name the file `a.w` too. A file that is not updated is
what it is on the disk, also where a line begins to include it.

Every answer ends with the line `ok`; where a command cannot be carried out, with a line that says
why and the line `no`. No other line of an answer is one of these two, but for the bytes of `show`,
which come after their number:

    save, update        FILE:LINE: error: TEXT              each fault; or `warning` for `error`,
                        error: TEXT                         and without a place if it has none
                        saved FILE: edits N, faults N       or `updated`
    faults              the faults
    work                N
    outputs             FILE LENGTH                         each file, the main file first
    show                = FILE LENGTH                       and LENGTH bytes
    origin              FILE:LINE
    where               FILE:LINE                           each line

An answer begins with another line where retangle has ended, or where its script has no room for
more: it says so, with the status. retangle was started again then, with the files of the disk and
with what was updated and not saved.

The exit status is that of retangle: 1 if there is an error among the faults at the end.
RETANGLE in the environment names the program, if it is not `retangle` on the path.
An editor that is written in Python can use the class Retangle of the language server itself, whose
modules this program takes from ../lsp.
"""
import argparse
import os
import re
import sys

sys.path.insert(0, os.path.join(os.path.dirname(os.path.abspath(__file__)), '..', 'lsp'))
from retangle_lsp.files import Unreadable
from retangle_lsp.runs import Ended, Refused, fault_line
from retangle_lsp.session import Retangle


class Wrong(Exception):
    """A command cannot be answered; the text says why."""


def number_after(words):
    """What is before the last space, and the number after it."""
    name, space, number = words.rpartition(b' ')
    if not space or not re.fullmatch(rb'[0-9]{1,9}', number):
        raise Wrong('a name and a number must follow')
    return name, int(number)


def sent(project, done, name, count):
    """The answer to an edit that was made: the faults, and what was sent."""
    lines = [fault_line(fault) for fault in project.faults()]
    return lines + [b'%s %s: edits %d, faults %d' % (done, name, count, len(lines))]


def save(project, name):
    return sent(project, b'saved', name, project.save(name))


def update(project, words):
    name, count = number_after(words)
    lines = [line.removesuffix(b'\n') for _, line in zip(range(count), sys.stdin.buffer)]
    if len(lines) < count:
        raise Wrong('%s was not updated: the input has ended' % os.fsdecode(name))
    return sent(project, b'updated', name, project.update(name, lines))


def output_of(project, name):
    output = project.output(name)
    if output is None:
        raise Wrong('%s: no output file' % os.fsdecode(name))
    return output


def outputs(project, _):
    return [b'%s %d' % (name, len(project.show(name))) for name in project.outputs()]


def show(project, name):
    name = output_of(project, name)
    output = project.show(name)
    return [b'= %s %d' % (name, len(output))] + output.split(b'\n')[:-1]


def origin(project, words):
    name, line = number_after(words)
    found = project.origin(output_of(project, name), line)
    if found is None:
        raise Wrong('%s:%d: from no line of the web' % (os.fsdecode(name), line))
    return [b'%s:%d' % found]


def where(project, words):
    name, line = number_after(words)
    if not project.names(name):
        raise Wrong('%s: no file of the web' % os.fsdecode(name))
    found = project.places(name, line)
    if not found:
        raise Wrong('%s:%d: in no output' % (os.fsdecode(name), line))
    return [b'%s:%d' % place for place in found]


COMMANDS = {
    b'save': save, b'update': update, b'show': show, b'origin': origin, b'where': where,
    b'faults': lambda project, _: [fault_line(fault) for fault in project.faults()],
    b'work': lambda project, _: [b'%d' % project.work()],
    b'outputs': outputs,
}


def answer(project, line):
    """The lines that answer a command."""
    command, _, words = line.partition(b' ')
    try:
        if command not in COMMANDS:
            raise Wrong('no such command')
        lines = COMMANDS[command](project, words) + [b'ok']
    except (Wrong, Refused, Unreadable, Ended) as wrong:
        lines = [os.fsencode(str(wrong)), b'no']
    notices, project.notices = project.notices, []
    return [os.fsencode(notice) for notice in notices] + lines


def main():
    parser = argparse.ArgumentParser(description='The C and the faults of a web, by retangle.')
    parser.add_argument('--change')
    parser.add_argument('--out')
    parser.add_argument('web')
    arguments = parser.parse_args()
    names = [arguments.web, arguments.change, arguments.out]
    try:
        project = Retangle(*[None if name is None else os.fsencode(name) for name in names])
    except Ended as ended:
        print('retangle: ' + ended.reason if ended.reason else ended, file=sys.stderr)
        return exit_status(ended.status) or 3
    for line in sys.stdin.buffer:
        line = line.removesuffix(b'\n')
        lines = [b'ok'] if line == b'quit' else answer(project, line)
        sys.stdout.buffer.write(b''.join(line + b'\n' for line in lines))
        sys.stdout.buffer.flush()
        if line == b'quit':
            break
    return exit_status(project.close())


def exit_status(status):
    """A signal that ended retangle is above 128, as a shell has it."""
    return status if status >= 0 else 128 - status


if __name__ == '__main__':
    sys.exit(main())
