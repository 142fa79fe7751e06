"""What a compiler says of the C of a web, after a save: one run at a time, without waiting for it.

The command is the client's (settings). It gets the C on its standard input or, where `{file}` is
among its words, as a file beside the other outputs in a temporary folder.
"""
import os
import signal
import subprocess
import tempfile
import time

from .protocol import shown
from .remarks import Remarks
from .requests import outputs
from .signals import signals

SECONDS = 10            # for all the C of a web
MOST_BYTES = 1 << 20    # that are read of what a compiler says
MOST_SAID = 300         # bytes of a line that is shown
FILE = '{file}'


def path_of_output(folder, name):
    """Where an output is in a folder; one that would be elsewhere gets another name there."""
    is_inside = not name.startswith(b'/') and b'..' not in name.split(b'/')
    path = os.path.join(folder, name if is_inside else name.replace(b'/', b'_'))
    os.makedirs(os.path.dirname(path), exist_ok=True)
    return path


class Job:
    """A web whose C is compiled: one output after the other, each by a process."""

    def __init__(self, command, web):
        self.command, self.web = command, web
        self.outputs = {name: web.retangle.show(name) for name in outputs(web)}
        self.remarks = Remarks(web, self.outputs, os.path.basename(command[0]))
        self.ahead = [name for name in self.outputs
                      if name == web.retangle.main or name.endswith(b'.c')]
        self.end_at = time.monotonic() + SECONDS
        self.process, self.said, self.is_open = None, b'', False
        self.folder = None

    def start(self):
        """Starts the process for the next output."""
        self.output, self.said = self.ahead.pop(0), b''
        with tempfile.TemporaryFile() as text:
            text.write(self.outputs[self.output])
            text.seek(0)
            words, environment = self.words(), dict(os.environ, LC_ALL='C.UTF-8')
            with signals.held():
                self.process = subprocess.Popen(
                    words, cwd=self.web.root.folder, stdin=text, stdout=subprocess.PIPE,
                    stderr=subprocess.STDOUT, start_new_session=True, env=environment)
        self.is_open = True
        os.set_blocking(self.process.stdout.fileno(), False)

    def words(self):
        if not any(FILE in word for word in self.command):
            return self.command
        if self.folder is None:
            self.folder = tempfile.TemporaryDirectory(prefix='c-of-a-web-')
            for name, text in self.outputs.items():
                with open(path_of_output(os.fsencode(self.folder.name), name), 'wb') as file:
                    file.write(text)
        path = os.fsdecode(path_of_output(os.fsencode(self.folder.name), self.output))
        return [word.replace(FILE, path) for word in self.command]

    def read(self):
        """Reads what the process has said since. Whether it has ended."""
        while self.is_open:
            try:
                some = os.read(self.process.stdout.fileno(), 1 << 16)
            except BlockingIOError:
                break
            self.said += some[:MOST_BYTES - len(self.said)]
            self.is_open = bool(some)
        if not self.is_open:            # what has closed its output mostly ends then
            try:
                self.process.wait(.2)
                return True
            except subprocess.TimeoutExpired:
                pass
        return False

    def stop(self):
        """Ends the process, and all that it has started."""
        if self.process:
            try:
                os.killpg(self.process.pid, signal.SIGKILL)
            except ProcessLookupError:
                pass                    # all have ended
            self.process.wait()
            self.process.stdout.close()
            self.process = None
        if self.folder:
            self.folder.cleanup()
            self.folder = None


class Compiler:
    """Compiles the webs that were saved, one at a time. `say` shows a text once."""

    def __init__(self, say):
        self.say, self.command = say, []
        self.saved = set()              # the paths of files that were saved
        self.waiting, self.job = [], None

    def descriptors(self):
        """What can be read when a compiler has said something."""
        is_open = self.job and self.job.process and self.job.is_open
        return [self.job.process.stdout.fileno()] if is_open else []

    def take(self, webs):
        """Has those of the webs compiled that were saved; a run that is about one of them ends.
        Whether remarks went."""
        saved, self.saved = self.saved, set()
        for web in webs if self.command else ():
            if web.members & saved:
                if self.job and self.job.web is web:
                    self.finish()
                self.waiting = [one for one in self.waiting if one is not web] + [web]
        return self.begin(webs)

    def begin(self, webs):
        """Starts the next run, of one of these webs, if there is none. Whether remarks went: those
        on a web with errors do, whose C is not to be compiled."""
        have_gone = False
        while self.waiting and not self.job:
            web = self.waiting.pop(0)
            if web not in webs or web.retangle is None:
                continue
            if any(fault.severity == 'error' for fault in web.faults):
                have_gone = have_gone or web.remarks is not None
                web.remarks = None
                continue
            self.job = web.asked(lambda: Job(self.command, web))
            self.advance()
        return have_gone

    def advance(self):
        """Starts the next process of the run, or ends the run."""
        if self.job and not self.job.ahead:
            self.job.web.remarks = self.job.remarks
            self.finish()
        elif self.job:
            try:
                self.job.start()
            except (OSError, ValueError) as error:
                reason = getattr(error, 'strerror', None) or error
                self.drop('%s cannot be run: %s' % (self.command[0], reason))

    def drop(self, why):
        """Ends a run that says nothing of its web, and shows why."""
        self.say(why)
        self.job.web.remarks = None
        self.finish()

    def look(self, webs):
        """Takes what the compiler has said since. Whether a web has other remarks now."""
        web = self.job and self.job.web
        if web is None:
            return False
        if web not in webs or self.job.process is None:
            self.finish()
        elif self.job.read():
            self.collect()
            self.advance()
        elif time.monotonic() > self.job.end_at:
            self.drop('%s was ended after %d seconds' % (self.command[0], SECONDS))
        if self.job:
            return False
        return self.begin(webs) or web in webs

    def collect(self):
        """Takes over what was said of an output. It is shown where nothing else would tell that
        the command failed."""
        job, before = self.job, len(self.job.remarks.all)
        status = job.process.returncode
        job.process.stdout.close()
        job.process = None
        job.remarks.add(job.output, job.said)
        if status and len(job.remarks.all) == before:
            lines = [line for line in job.said.split(b'\n') if line]
            told = next((line for line in lines if b'error' in line), (lines or [b'no message'])[0])
            self.say('%s ended with status %d: %s' % (
                self.command[0], status, shown(told[:MOST_SAID])))

    def finish(self):
        if self.job:
            self.job.stop()
        self.job = None

    def end(self):
        self.finish()
        self.waiting = []
