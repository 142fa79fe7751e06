"""What retangle answers to a script (docs/sessions.md)."""
import re

import limits
from faults import fault_line
from files import ROLES, table_of
from sessions import Session

ADDRESS = re.compile(rb'([0-9]{1,9}) ((?s:.*))\Z')


class WriterFailed(Exception):
    pass


class Script:
    """Answers a script over a session.

    reader_fails: the reader fails after these bytes. capacity: how many bytes the writer takes
    before it fails.
    """

    def __init__(self, session, text, reader_fails=False, capacity=None):
        self.session, self.capacity = session, capacity
        self.is_broken = reader_fails or len(text) > limits.FILE_BYTES
        self.ahead = text[:limits.FILE_BYTES].split(b'\n')[::-1]    # the next line is last
        if self.is_broken or self.ahead[0] == b'':
            self.ahead.pop(0)                   # bytes after the last line feed are no line, or none are there
        self.held = None                        # the edits of an open list
        self.written = b''
        try:
            self.status = self._run()
        except WriterFailed:
            self.status = 3

    def _run(self):
        while self.ahead:
            line, text = self.ahead.pop(), None
            if line.startswith((b'insert ', b'replace ')):
                if not self.ahead and self.is_broken:
                    break                       # neither carried out nor answered
                text = self.ahead.pop() if self.ahead else None
            if line == b'quit':
                self._write(b'ok\n')
                return self._status()
            if line:
                self._write(self._answer(line, text))
        return 3 if self.is_broken else self._status()

    def _status(self):
        return self.session.tangling.status

    def _write(self, text):
        if self.capacity is not None and len(self.written) + len(text) > self.capacity:
            self.written = (self.written + text)[:self.capacity]
            raise WriterFailed()
        self.written += text

    def _answer(self, line, text):
        edit = self._edit(line, text)
        if edit is not None:
            return self._make_or_hold(edit)
        word, _, rest = line.partition(b' ')
        if word == b'show' and line != word:
            shown = self.session.output(rest)
            return b'no NoOutput\n' if shown is None else b'= %s %d\n' % (rest, len(shown)) + shown
        if line == b'faults':
            faults = self.session.tangling.faults
            return b'faults %d\n' % len(faults) + b''.join(map(fault_line, faults))
        if line == b'work':
            return b'work %d\n' % self.session.last_work
        is_open = self.held is not None
        if line == b'begin' and not is_open or line in (b'commit', b'cancel') and is_open:
            return self._list(line)
        return b'no BadCommand\n'

    def _edit(self, line, text):
        word, _, rest = line.partition(b' ')
        if word in (b'insert', b'replace', b'remove'):
            address = ADDRESS.match(rest)
            if address is None or (text is None and word != b'remove'):
                return None
            return (word.decode(), address.group(2), int(address.group(1))) + (() if text is None else (text,))
        if word in (b'create', b'discard') and line != word:
            return word.decode(), rest
        if line in (b'marks full', b'marks none'):
            return 'marks', 'full' if rest == b'full' else 'bare'
        return None

    def _make_or_hold(self, edit):
        if self.held is not None:
            self.held.append(edit)
            return b'held\n'
        refused = self.session.apply([edit])
        return b'ok\n' if refused is None else b'no %s\n' % refused[0].encode()

    def _list(self, line):
        held, self.held = self.held, [] if line == b'begin' else None
        refused = self.session.apply(held) if line == b'commit' else None
        return b'ok\n' if refused is None else b'no %s %d\n' % (refused[0].encode(), refused[1] + 1)


def answer(files, text, roles=ROLES, **ends):
    """A script over a new session of these files, by name."""
    return Script(Session(table_of(files), roles), text, **ends)
