"""The standard input and output of a program that is asked, and for which nobody waits for ever."""
import contextlib
import os
import select
import signal
import subprocess
import time

from .buffered import Buffered, usable
from .gathering import widen

PATIENCE = 10           # seconds without progress
STEP = .5               # seconds between two looks at it

running = set()         # the pipes of the processes that were not ended


def end_all():
    """Ends every process at once, whatever this program was doing with it."""
    for pipes in list(running):
        pipes.kill()


class Silent(Exception):
    """The program made no progress in time: it gave, took and computed nothing."""


class Pipes(Buffered):
    """The pipes of a process of subprocess, which is alone in its session."""

    def __init__(self, process):
        Buffered.__init__(self, process.stdout.fileno())
        self.process = process
        running.add(self)
        for stream in process.stdout, process.stdin:
            widen(stream)
            os.set_blocking(stream.fileno(), False)

    def wait(self, is_usable):
        """Waits until a pipe can be used. The time of the processor is progress, too."""
        used, since = None, time.monotonic()
        while not is_usable(STEP):
            before, used = used, processor_time(self.process.pid)
            if before not in (None, used):
                since = time.monotonic()
            elif time.monotonic() - since >= PATIENCE:
                raise Silent

    def has_room(self, seconds):
        """Whether something can be written within these seconds."""
        return bool(usable([self.process.stdin.fileno()], select.POLLOUT, seconds))

    def send(self, text):
        """BrokenPipeError where the program has ended."""
        rest = memoryview(text)
        while rest:
            self.wait(self.has_room)
            rest = rest[os.write(self.process.stdin.fileno(), rest):]

    def fill(self):
        self.wait(self.has_more)
        return Buffered.fill(self)

    def close(self):
        """Closes them, and waits for the end. A program that does not end in time is killed."""
        for stream in self.process.stdin, self.process.stdout:
            with contextlib.suppress(OSError):
                stream.close()
        self.descriptor = -1    # its number may be another file's from now on
        try:
            self.process.wait(PATIENCE)
        except subprocess.TimeoutExpired:
            pass
        self.kill()

    def kill(self):
        """Ends the process at once, and what it has started."""
        if self.process.poll() is None:
            with contextlib.suppress(OSError):
                os.killpg(self.process.pid, signal.SIGKILL)
            self.process.wait()
        running.discard(self)


def processor_time(pid):
    """What a process has used of a processor; None where that is not known."""
    try:
        with open('/proc/%d/stat' % pid, 'rb') as file:
            return file.read().rpartition(b')')[2].split()[11:13]
    except OSError:
        return None
