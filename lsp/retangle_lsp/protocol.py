"""Messages of the language server protocol, over two streams of bytes, and their parameters."""
import contextlib
import json
import math
import os
import re
import threading
import traceback

from .buffered import Buffered

LONGEST_MESSAGE = 1 << 28       # bytes

PARSE_ERROR, INVALID_REQUEST, NO_METHOD, INVALID_PARAMS = -32700, -32600, -32601, -32602
INTERNAL, NOT_INITIALIZED, REQUEST_FAILED, CANCELLED = -32603, -32002, -32803, -32800
ERROR, WARNING, INFORMATION = 1, 2, 3           # of a diagnostic and of a message alike


class Problem(Exception):
    """What is answered to a message that cannot be obeyed: a code of the protocol and a text."""

    def __init__(self, code, text):
        Exception.__init__(self, code, text)
        self.code, self.text = code, text


def encoded(text):
    """The bytes of a text. A byte that is no UTF-8 is a lone surrogate in it."""
    try:
        return text.encode('utf-8', 'surrogateescape')
    except UnicodeEncodeError:          # a surrogate that is no byte
        return text.encode('utf-8', 'surrogatepass')


def decoded(line):
    return line.decode('utf-8', 'surrogateescape')


def shown(text):
    """Bytes as a text that every client can read."""
    return text.decode('utf-8', 'replace')


# ---------------------------------------------------------------------- messages

LENGTH = re.compile(rb'Content-Length[ \t]*:[ \t]*([0-9]{1,18})[ \t]*\r?\n$', re.I)
WHOLE_HEADER = re.compile(rb'(?:[^\r\n]+\r?\n)*?Content-Length[ \t]*:[ \t]*(\d{1,18})[ \t]*\r?\n'
                          rb'(?:[^\r\n]+\r?\n)*?\r?\n', re.I)


CANCEL = '$/cancelRequest'


class Input(Buffered):
    """The input of this program. EOFError at its end."""

    def fill(self):
        if not Buffered.fill(self):
            raise EOFError
        return True


class Messages:
    """Messages of the protocol, from a descriptor and to a stream of bytes."""

    def __init__(self, descriptor, sink):
        self.input, self.sink = Input(descriptor), sink
        self.writing = threading.Lock()         # progress is shown by a thread of its own

    def wait(self, seconds, others):
        """Whether there is something to read within these seconds, or until something is at another
        descriptor."""
        return bool(self.input.buffer) or self.input.has_more(seconds, others)

    def is_ready(self):
        """Whether a whole message is there, so that what it asks can be done with what was asked
        before. The end of the input is one, too."""
        try:
            while self.input.has_more(0):
                self.input.fill()
        except EOFError:
            return True
        return next(self.bodies(), None) is not None

    def bodies(self):
        """The bodies of the whole messages that are there and are not read yet."""
        at = 0
        while True:
            head = WHOLE_HEADER.match(self.input.buffer, at)
            if not head or len(self.input.buffer) - head.end() < int(head[1]):
                return
            at = head.end() + int(head[1])
            yield head.end(), at

    def is_cancelled(self, number):
        """Whether a message that is there cancels the request of this number."""
        self.is_ready()
        for start, end in self.bodies():
            if self.input.buffer.find(CANCEL.encode(), start, end) >= 0:
                try:
                    message = json.loads(decoded(self.input.buffer[start:end]))
                except (ValueError, RecursionError):
                    continue
                if part_or_none(message, 'method') == CANCEL and (
                        part_or_none(message, 'params', 'id') == number):
                    return True
        return False

    def read(self):
        """The next message. EOFError at the end of the input."""
        body = self.input.bytes(self.length())
        try:
            return json.loads(decoded(body), parse_constant=self.refuse, parse_float=finite)
        except (ValueError, RecursionError) as error:
            raise Problem(PARSE_ERROR, 'no JSON: %s' % error) from None

    def length(self):
        """The length in the next header.

        Where a header has none, its body is read as lines of the next header, whose length may be
        on the same line as the end of that body.
        """
        length, is_empty = None, True
        while True:
            line = self.input.line()
            found = LENGTH.search(line)
            if found:
                length = int(found[1])
            if line.strip(b'\r\n'):
                is_empty = False
            elif length is not None and length <= LONGEST_MESSAGE:
                return length
            elif not is_empty:
                raise Problem(PARSE_ERROR, 'a header without a length that can be taken')

    @staticmethod
    def refuse(constant):
        raise ValueError('%s is no number' % constant)

    def write(self, **message):
        body = json.dumps(dict(message, jsonrpc='2.0'), separators=(',', ':')).encode()
        with self.writing:
            self.sink.write(b'Content-Length: %d\r\n\r\n%s' % (len(body), body))
            self.sink.flush()

    def show(self, kind, text, method='window/showMessage'):
        """Has the client show a line to its user, or by another method write it into its log."""
        self.write(method=method, params={'type': kind, 'message': shown(encoded(text))})

    def log(self, text):
        self.show(ERROR, text, 'window/logMessage')

    def log_fault(self, what, error):
        """Logs a fault of this program, also on standard error if that can be written."""
        with contextlib.suppress(OSError):
            os.write(2, encoded(traceback.format_exc()))
        self.log('%s: %r' % (what, error))

    def fail(self, number, problem):
        """Answers a request by an error."""
        error = {'code': problem.code, 'message': shown(encoded(problem.text))}
        self.write(id=number, error=error)


def finite(text):
    """The number that JSON has here. One that is too large for a float has no JSON."""
    number = float(text)
    if math.isinf(number):
        raise ValueError('%s is no number' % text)
    return number


def is_number(number):
    """Whether it may be the id of a message; None where it has none."""
    return number is None or isinstance(number, (int, str)) and not isinstance(number, bool)


# ---------------------------------------------------------------------- parameters

def part(value, *keys, kind=object):
    """What is in the parameters under these keys."""
    for key in keys:
        if not isinstance(value, dict) or key not in value:
            raise Problem(INVALID_PARAMS, 'no %s' % '.'.join(keys))
        value = value[key]
    if not isinstance(value, kind) or kind is int and (isinstance(value, bool) or value < 0):
        raise Problem(INVALID_PARAMS, 'a wrong %s' % '.'.join(keys))
    return value


def part_or_none(value, *keys):
    """The same, or None where it is not there."""
    for key in keys:
        value = value.get(key) if isinstance(value, dict) else None
    return value


def place_in(params, *keys):
    """The line and the character of a position."""
    return tuple(part(params, *keys, key, kind=int) for key in ('line', 'character'))


def version_in(params):
    """The version of a document, or None."""
    version = part_or_none(params, 'textDocument', 'version')
    return version if isinstance(version, int) and not isinstance(version, bool) else None


def change_in(change):
    """The start, the end and the text of a change; the start is None for the whole text."""
    text = part(change, 'text', kind=str)
    if part_or_none(change, 'range') is None:
        return None, None, text
    return place_in(change, 'range', 'start'), place_in(change, 'range', 'end'), text
