"""The tokens of a text of a web, by which an editor colours it: names, codes, TeX, C and macros."""
import re
import weakref

from .documents import units
from .files import INCLUSION
from .protocol import decoded
from .scanning import DEFINITION, NAME, Scan

TYPES = ['namespace', 'decorator', 'comment', 'keyword', 'type', 'number', 'string', 'macro']
SECTION_NAME, CODE, COMMENT, KEYWORD, TYPE, NUMBER, STRING, MACRO = range(len(TYPES))
MODIFIERS = ['definition']
LEGEND = {'tokenTypes': TYPES, 'tokenModifiers': MODIFIERS}

KEYWORDS = frozenset(b'''alignas alignof auto break case const constexpr continue default do else
    enum extern for goto if inline register restrict return sizeof static static_assert struct
    switch thread_local typedef typeof union volatile while'''.split())
BASIC_TYPES = frozenset(b'''bool char double float int long short signed unsigned void size_t FILE
    int8_t int16_t int32_t int64_t uint8_t uint16_t uint32_t uint64_t'''.split())
WORD = rb'[A-Za-z_\x80-\xff][\w\x80-\xff]*'
PIECE_OF_C = re.compile(rb'\.?\d(?:[eEpP][+-]|[\w.])*|\#[ \t]*[a-z]+|' + WORD)
FIRST_WORD = re.compile(rb'\s*(' + WORD + rb')')
TEX = re.compile(rb'@.|\|[^|\n]*\||[^@|]+|\|', re.S)
EQUALS = b'=', b'+=', b'==', b'+=='
CHANGE_MARK = re.compile(rb'@[xyzXYZ]')


class Parts(Scan):
    """A scan that notes where C is: the start, the end, and whether it is a macro."""

    def __init__(self, text, has_limbo):
        self.c_parts = []
        Scan.__init__(self, text, has_limbo, [])

    def c_text(self, at, is_macro):
        end = Scan.c_text(self, at, is_macro)
        self.c_parts.append((at, end, is_macro))
        return end


def pieces(text, has_limbo):
    """The tokens of a chunk in their order: the start, the end, the type and the modifiers."""
    scan, at, found = Parts(text, has_limbo), 0, []
    ahead = sorted([(one.start, one.end, one) for one in scan.occurrences]
                   + [(*span, None) for span in scan.tokens], key=lambda one: one[:2], reverse=True)
    for start, end, is_macro in scan.c_parts:
        tex(text, at, start, ahead, found)
        at = end
        c_part(text, start, end, is_macro, ahead, found)
    tex(text, at, len(text), ahead, found)
    return found


def tex(text, at, end, ahead, found):
    """The tokens of documentation, in which names and codes are."""
    while at < end:
        start, stop, name = ahead.pop() if ahead and ahead[-1][0] < end else (end, end, None)
        for one in TEX.finditer(text, at, max(at, start)):
            if one[0][:1] == b'@':
                found.append((*one.span(), CODE, 0))
            elif one[0][:1] == b'|':
                plain_c(text, *one.span(), found)
            else:
                found.append((*one.span(), COMMENT, 0))
        if name:
            name_pieces(text, start, stop, name, found)
        elif start < stop:
            found.append((start, stop, CODE, 0))
        at = max(at, stop)
        if name and name.role == DEFINITION:            # the equals sign, before its C
            is_sign = text[at:end].strip() in EQUALS
            found.append((at, end, CODE if is_sign else COMMENT, 0))
            return


def c_part(text, at, end, is_macro, ahead, found):
    """The tokens of C, in which names, codes, comments and quoted texts are."""
    first = FIRST_WORD.match(text, at, end) if is_macro else None
    if first:
        found.append((*first.span(1), MACRO, 1))
        at = first.end()
    while at < end:
        start, stop, name = ahead.pop() if ahead and ahead[-1][0] < end else (end, end, None)
        plain_c(text, at, start, found)
        if name:
            name_pieces(text, start, stop, name, found)
        elif at <= start < stop:
            special(text, start, stop, found)
        at = max(at, stop)


def special(text, start, stop, found):
    """A comment, a quoted text, a directive or a code."""
    front = text[start:start + 2]
    if front in (b'/*', b'//') or front[:1] == b'@' and front[1:] in b'^.:tTqQ':
        found.append((start, stop, COMMENT, 0))
    elif front[:1] in (b'"', b"'") or front in (b"@'", b'@='):
        found.append((start, stop, STRING, 0))
    elif front[:1] == b'#':
        header = text.find(b'<', start, stop)
        found.append((start, start + len(text[start:header].rstrip()), MACRO, 0))
        found.append((header, stop, STRING, 0))
    elif front not in (b'@<', b'@('):
        found.append((start, stop, CODE, 0))


def name_pieces(text, start, stop, name, found):
    """A name and its codes."""
    first, last = NAME.match(text, start).span(1)
    found.append((start, start + 2, CODE, 0))
    if last > first:
        found.append((first, last, SECTION_NAME, int(name.role == DEFINITION)))
    if stop > last:
        found.append((last, stop, CODE, 0))


def plain_c(text, at, end, found):
    for one in PIECE_OF_C.finditer(text, at, end):
        word = one[0]
        if word[:1] == b'#':
            found.append((*one.span(), MACRO, 0))
        elif word[:1].isdigit() or word[:1] == b'.':
            found.append((*one.span(), NUMBER, 0))
        elif word in KEYWORDS:
            found.append((*one.span(), KEYWORD, 0))
        elif word in BASIC_TYPES:
            found.append((*one.span(), TYPE, 0))


def on_rows(text, found):
    """Tokens as the row, the character, the length, the type and the modifiers, none over a line
    end."""
    made, row, line, end = [], 0, 0, text.find(b'\n')
    is_ascii = text.isascii()
    for start, stop, kind, modifiers in found:
        if not is_ascii:
            start, stop = after_character(text, start), after_character(text, stop)
        while start < stop:
            while start > end >= 0:
                row, line, end = row + 1, end + 1, text.find(b'\n', end + 1)
            last = min(stop, end) if end >= 0 else stop
            if last > start and text[start:last].strip():
                place = (start - line, last - start) if is_ascii else (
                    units(decoded(text[line:start])), units(decoded(text[start:last])))
                made.append((row, *place, kind, modifiers))
            start = last + 1
    return made


def after_character(text, at):
    """The place, or that after the character that it is in."""
    while at < len(text) and text[at] & 0xc0 == 0x80:
        at += 1
    return at


kept = weakref.WeakKeyDictionary()      # the scan of a chunk, which stays with it: its tokens


def chunk_tokens(names, number):
    scan = names.ordered[number]
    if scan not in kept:
        kept[scan] = on_rows(scan.text, pieces(scan.text, number == 0))
    return kept[scan]


def line_tokens(row, line):
    """The tokens of a line that is no source line: an inclusion, or one of a change file."""
    inclusion = INCLUSION.match(line)
    if inclusion:
        yield row, 0, 2, CODE, 0
        if inclusion.end() > 2:
            yield row, 2, units(decoded(line[2:inclusion.end()])), STRING, 0
    elif CHANGE_MARK.match(line):
        yield row, 0, 2, CODE, 0
        if line[2:].strip():
            yield row, 2, units(decoded(line[2:])), COMMENT, 0


def tokens_of(web, file, start, end):
    """The tokens of the rows of a file from one up to another."""
    names, text, done = web.names(), web.file(file), start
    for first, last, number, offset in [*sorted(names.parts.get(file, [])), (end, end, None, 0)]:
        for row in range(done, min(first, end)):
            yield from line_tokens(row, text.lines[row])
        low, high = max(first, done), min(last, end)
        if low < high:
            moved = first - offset
            for row, *rest in chunk_tokens(names, number):
                if low <= row + moved < high:
                    yield (row + moved, *rest)
        done = max(done, high)


def encoded(found):
    """Tokens as the protocol counts them: from the one before."""
    data, row, column = [], 0, 0
    for at, character, length, kind, modifiers in found:
        data += (at - row, character - (column if at == row else 0), length, kind, modifiers)
        row, column = at, character
    return data


def difference(old, new):
    """The edit of the protocol that makes the new numbers of the old ones."""
    front, most = 0, min(len(old), len(new))
    step = 1 << 12
    while front < most and old[front:front + step] == new[front:front + step]:
        front = min(front + step, most)
    while front < most and old[front] == new[front]:
        front += 1
    back = 0
    while back + step < most - front and old[len(old) - back - step:len(old) - back] == (
            new[len(new) - back - step:len(new) - back]):
        back += step
    while back < most - front and old[len(old) - back - 1] == new[len(new) - back - 1]:
        back += 1
    return {'start': front, 'deleteCount': len(old) - back - front,
            'data': new[front:len(new) - back]}
