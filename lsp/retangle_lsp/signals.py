"""The signals that end this program, at any time but while it starts another one."""
import contextlib
import signal
import sys

ENDING = signal.SIGTERM, signal.SIGHUP


class Signals:
    """Whether the signals that end this program are held back, and whether one of them has come."""

    def __init__(self):
        self.are_held = self.is_due = False

    def take(self):
        """From now on these signals end this program, as the end of its input does."""
        for number in ENDING:
            signal.signal(number, self.leave)

    def ignore(self):
        for number in ENDING:
            signal.signal(number, signal.SIG_IGN)

    def leave(self, _number, _frame):
        self.is_due = True
        if not self.are_held:
            sys.exit(1)

    @contextlib.contextmanager
    def held(self):
        """Holds them back while a process is started: it has to be known, so that it is ended."""
        self.are_held = True
        try:
            yield
        finally:
            self.are_held = False
            if self.is_due:
                sys.exit(1)


signals = Signals()
