"""Runs of programs in folders, with a limit of time, which the tests over the built programs share."""
import os
import signal
import subprocess
from collections import namedtuple

from checks import folder_with, written_in

SECONDS = 60                    # for a run
LESS = 5                        # for a run after one that did not end in time

# What is on both streams, and the status, or one of these two.
Ended = namedtuple('Ended', 'output errors status')
TOO_LONG, NOT_RUN = 'it did not end in time', 'it cannot be run'

unended = []                    # the runs that did not end in time


def run(arguments, folder, text=b'', seconds=SECONDS, **changed):
    """Runs a program in a folder with this text on standard input, and with these variables of the
    environment changed; a make that runs the tests is hidden from it."""
    environment = {name: value for name, value in os.environ.items() if not name.startswith('MAKE')}
    try:
        running = subprocess.Popen(arguments, cwd=folder, env=dict(environment, **changed),
                                   stdin=subprocess.PIPE, stdout=subprocess.PIPE,
                                   stderr=subprocess.PIPE, start_new_session=True)
    except OSError as fault:
        return Ended(b'', str(fault).encode(), NOT_RUN)
    with running:
        try:
            limit = min(seconds, LESS) if unended else seconds
            return Ended(*running.communicate(text, limit), running.returncode)
        except subprocess.TimeoutExpired:
            unended.append(arguments)
            os.killpg(running.pid, signal.SIGKILL)      # with all that it has started
            return Ended(*running.communicate(), TOO_LONG)


def run_over(files, arguments, text=b'', seconds=SECONDS, **changed):
    """The same in a new folder with these files: what it ends with, and the files that it created
    or wrote."""
    with folder_with(files) as folder:
        ended = run(arguments, folder, text, seconds, **changed)
        return ended, written_in(folder, files)
