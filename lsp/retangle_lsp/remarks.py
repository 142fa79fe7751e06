"""What a compiler says of the C of a web, at the places of the web that the #line marks name.

gcc and clang write FILE:LINE:COLUMN: SEVERITY: TEXT. The column is that of the C; on the line of
the web it is that of the word which the text quotes.
"""
import re

from .files import common_back, common_front
from .names import Place
from .origins import marked
from .protocol import ERROR, INFORMATION, WARNING, shown

MOST_REMARKS = 1000     # of a web
MESSAGE = re.compile(rb'(.+?):(\d+)(?::(\d+))?: (fatal error|error|warning|note): (.*?)'
                     rb'(?: \[(-W[^\]]*)\])?\r?$')
SEVERITIES = {b'warning': WARNING, b'note': INFORMATION}
COLOURS = re.compile(rb'\x1b\[[0-9;]*[mK]')
QUOTED = re.compile(rb"\xe2\x80\x98(.+?)\xe2\x80\x99|['`]([^']+)'")
WORD = rb'[A-Za-z0-9_\x80-\xff]'
DEFINE = re.compile(rb'#define (' + WORD + rb'+)')


def spans_of(word, line):
    """Where a word, or other text, is in a line."""
    pattern = re.escape(word)
    if re.match(WORD, word[:1]):
        pattern = rb'(?<!' + WORD + rb')' + pattern
    if re.match(WORD, word[-1:]):
        pattern += rb'(?!' + WORD + rb')'
    return [found.span() for found in re.finditer(pattern, line)]


class Remark:
    """One message, between two columns of a row of a file."""

    def __init__(self, file, row, span, severity, text, code):
        self.file, self.row, self.span = file, row, span
        self.severity, self.text, self.code = severity, text, code
        self.notes = []                 # remarks that belong to this one

    def places(self):
        return tuple(Place(self.file, self.row, column) for column in self.span)


class Remarks:
    """The remarks on a web, by its texts and outputs; `source` is the compiler."""

    def __init__(self, web, outputs, source):
        self.web, self.outputs, self.source, self.names = web, outputs, source, web.names()
        self.texts = dict(web.retangle.held)
        self.origins = {name: web.retangle.origins(name) for name in outputs}
        self.all = []

    # ------------------------------------------------------------------ what was said

    def add(self, output, said):
        """Takes the messages of a compiler that are about the web."""
        rows = self.outputs[output].split(b'\n')[:len(self.origins[output])]
        numbered = last = None
        for line in COLOURS.sub(b'', said).split(b'\n'):
            found = MESSAGE.match(line)
            if not found or len(self.all) >= MOST_REMARKS:
                continue
            if numbered is None:
                numbered = numbered_rows(rows)
            number = int(found[2]), int(found[3] or 0)
            at = numbered.get((found[1], number[0]), [])
            remark = self.remark(output, rows, at, found, number)
            if found[4] != b'note':
                last = remark
                self.all += [remark] if remark else []
            elif remark and last and remark.places() != last.places():
                last.notes.append(remark)

    def remark(self, output, rows, at, found, number):
        """The remark of a message, which is on one of these rows of the output; None where that is
        of no line of the web."""
        quoted = [one or other for one, other in QUOTED.findall(found[5])]
        origins = self.origins[output]
        at = sorted(at, key=lambda row: (
            not any(spans_of(word, rows[row]) for word in quoted), origins[row] is None))
        for row in at:
            place = origins[row] if origins[row] else self.macro_at(rows, row)
            text = place and self.texts.get(place[0])
            if text and place[1] <= len(text.lines):
                line = text.lines[place[1] - 1]
                span = span_in(line, quoted, rows[row], number[1])
                return Remark(place[0], place[1] - 1, span, SEVERITIES.get(found[4], ERROR),
                              shown(found[5]), found[6] and shown(found[6]))
        return None

    def macro_at(self, rows, row):
        """The file and the line of the macro that a row is of, which @h has put there."""
        while row > 0 and rows[row - 1].endswith(b'\\'):
            row -= 1
        found = DEFINE.match(rows[row])
        pattern = found and re.compile(
            rb'@[dD]\s*(' + re.escape(found[1]) + rb')(?!' + WORD + rb')')
        for chunk in self.names.chunks if found else ():
            definition = pattern.search(chunk.text)
            if definition:
                file, line, _ = chunk.place(definition.start(1))
                return file, line + 1
        return None

    # ------------------------------------------------------------------ what is shown

    def bring(self):
        """Brings the remarks to the texts as they are now: those on lines that are others go."""
        for name, old in list(self.texts.items()):
            now = self.web.file(name)
            if now is not old:
                self.texts[name] = now
                rows = rows_between(old, now)
                for remark in self.all:
                    for one in [remark, *remark.notes]:
                        if one.file == name and one.row is not None:
                            one.row = rows(one.row)
        for remark in self.all:
            remark.notes = [note for note in remark.notes if note.row is not None]
        self.all = [remark for remark in self.all if remark.row is not None]

    def diagnostics(self, of_file):
        """The diagnostics of each file that has some, by its URI."""
        self.bring()
        found = {}
        for one in self.all:
            made = {'range': self.web.range(*one.places()), 'severity': one.severity,
                    'source': self.source, 'message': one.text, 'data': {'faults': []}}
            if one.code:
                made['code'] = one.code
            if one.notes:
                made['relatedInformation'] = [
                    {'location': self.web.location(note.places(), of_file), 'message': note.text}
                    for note in one.notes]
            found.setdefault(of_file(one.file), []).append(made)
        return found


def numbered_rows(rows):
    """The rows of an output by the file and the line that a compiler counts for them."""
    found, file, number = {}, None, 0
    for row, text in enumerate(rows):
        mark = marked(text)
        if mark:
            file, number = mark
        else:
            found.setdefault((file, number), []).append(row)
            number += 1
    return found


def span_in(line, quoted, c_line, column):
    """The columns of the first quoted text that is in a line; else of all that is in the line. Of
    several places that is taken which is, in the C, nearest to the column."""
    for word in quoted:
        spans, others = spans_of(word, line), spans_of(word, c_line)
        if spans:
            nearest = min(range(len(others)), default=0,
                          key=lambda at: abs(others[at][0] + 1 - column))
            return spans[min(nearest, len(spans) - 1)]
    return len(line) - len(line.lstrip()), len(line)


def rows_between(old, new):
    """Gives the row at which a line of a text is in another text, or None."""
    if not (old and new):
        return lambda row: None
    front = common_front(old.lines, new.lines)
    back = len(old.lines) - common_back(old.lines, new.lines, front)
    moved = len(new.lines) - len(old.lines)
    return lambda row: row if row < front else row + moved if row >= back else None
