"""One run of retangle, and how it may end or refuse."""
import collections
import functools
import os
import re
import subprocess

from .gathering import gather
from .pipes import PATIENCE, Pipes, Silent
from .signals import signals

SCRIPT_BYTES = 67108864                 # the limit of retangle
LIST_BYTES = SCRIPT_BYTES - 1000000     # a list of this length has room in a script that begins
AT_ONCE = 5000          # requests that are sent before their answers are read: those fit in a pipe


class Refused(Exception):
    """A file was not taken, and is as it was to retangle.

    name is the file, number says which edit was refused, from 1 on; it is 0 if memory ran out.
    """

    REASONS = {
        'BadName': 'this is no name of a file',
        'LineTooLong': 'it has a line of more than 65,535 bytes',
        'TooManyLines': 'it has more than 1,000,000 lines',
        'TooManyFiles': 'the web has more than 256 files',
        'NoMemory': 'retangle has not enough memory',
        'TooLong': 'its edits are more than a script may have',
    }

    def __init__(self, refusal, number, name):
        Exception.__init__(self, refusal, number, name)
        self.refusal, self.number, self.name = refusal, number, name

    def __str__(self):
        reason = self.REASONS.get(self.refusal, self.refusal)
        return '%s was not taken: %s' % (os.fsdecode(self.name), reason)


class Full(Refused):
    """The script of this run has no room for a request. Another run may have it."""

    def __init__(self, request):
        Refused.__init__(self, 'TooLong', 0, request)


class Ended(Exception):
    """retangle ended without an answer. status is below 0 if a signal ended it."""

    def __init__(self, status, reason):
        Exception.__init__(self, status, reason)
        self.status, self.reason = status, reason

    def __str__(self):
        how = 'with status %d' % self.status if self.status >= 0 else 'by signal %d' % -self.status
        return 'retangle ended %s%s' % (how, self.reason and ' (%s)' % self.reason)


class Unanswered(Ended):
    """retangle was ended, since it gave no answer and made no progress."""

    def __str__(self):
        return 'retangle was ended: it did not answer within %d seconds' % PATIENCE


class NotStarted(Ended):
    """retangle was not started on a web, since it cannot read it."""

    def __init__(self, reason):
        Ended.__init__(self, 3, reason)

    def __str__(self):
        return self.reason


Fault = collections.namedtuple('Fault', 'file line severity text')
Fault.__doc__ = """A fault. file and line are None where it belongs to no line; severity is 'error'
or 'warning'; file and text are bytes."""


FAULT = re.compile(rb'(?:(.*?):(\d+): )?(error|warning): (.*)')


@functools.lru_cache(1 << 16)
def fault_of(line):
    file, number, severity, text = FAULT.fullmatch(line).groups()
    return Fault(file, number and int(number), severity.decode(), text)


def fault_line(fault):
    """The line that reports a fault."""
    place = b'' if fault.file is None else b'%s:%d: ' % (fault.file, fault.line)
    return b'%s%s: %s' % (place, fault.severity.encode(), fault.text)


class Run:
    """One run of retangle, which ends when it is closed. Requests and answers are bytes."""

    def __init__(self, arguments, folder):
        self.sent, self.is_over = 0, False
        try:
            # in memory: there may be no room for a file
            self.errors = open(os.memfd_create('errors'), 'r+b')
            with signals.held():
                self.process = subprocess.Popen(
                    arguments, cwd=folder, stdin=subprocess.PIPE, stdout=subprocess.PIPE,
                    stderr=self.errors, start_new_session=True)
                self.pipes = Pipes(self.process)
        except (OSError, ValueError) as error:
            reason = getattr(error, 'strerror', error)
            raise Ended(127, 'it cannot be run: %s' % reason) from None

    def make_room(self, request, size):
        """Nothing of a request is sent where all of it is more than the script may have."""
        if self.sent + size > SCRIPT_BYTES:
            raise Full(request)

    def send(self, text):
        self.sent += len(text)
        try:
            self.pipes.send(text)
        except BrokenPipeError:
            raise self.ended() from None
        except Silent:
            raise self.unanswered() from None

    def line(self):
        """The next line of an answer."""
        line = self.received(self.pipes.line)
        if not line.endswith(b'\n'):
            raise self.ended()
        return line[:-1]

    def bytes(self, length):
        """The next `length` bytes of an answer."""
        found = self.received(self.pipes.bytes, length)
        if len(found) < length:
            raise self.ended()
        return found

    def received(self, read, *arguments):
        try:
            return read(*arguments)
        except Silent:
            raise self.unanswered() from None

    def ask(self, request):
        """The first line of the answer to a request."""
        self.make_room(request, len(request) + 1)
        self.send(request + b'\n')
        return self.line()

    def ask_all(self, requests):
        """The answers to requests that are answered by a line each."""
        answers = []
        for at in range(0, len(requests), AT_ONCE):
            block = requests[at:at + AT_ONCE]
            self.send(b''.join(request + b'\n' for request in block))
            answers += self.lines(len(block))
        return answers

    def lines(self, count):
        """The next lines, which may be many."""
        found = []
        for at in range(0, count, AT_ONCE):
            gather(self.process)
            found += [self.line() for _ in range(min(AT_ONCE, count - at))]
        return found

    def fault_lines(self):
        return self.lines(int(self.ask(b'faults').split(b' ')[1]))

    def output(self, name):
        answer = self.ask(b'show ' + name)
        return None if answer == b'no NoOutput' else self.bytes(int(answer.rsplit(b' ', 1)[1]))

    def close(self):
        """Ends the run. The exit status."""
        self.is_over = True
        self.pipes.close()
        return self.process.returncode

    def kill(self):
        """Ends the run without waiting for it."""
        self.is_over = True
        self.pipes.kill()
        self.pipes.close()

    def unanswered(self):
        """The exception of a run that is ended, since it does not answer."""
        self.kill()
        return Unanswered(self.process.returncode, '')

    def ended(self):
        """The exception that says how the run ended."""
        status = self.close()
        self.errors.seek(0)
        said = b' '.join(self.errors.read().split(b'\n')).strip()
        return Ended(status, os.fsdecode(said.removeprefix(b'retangle: ')))
