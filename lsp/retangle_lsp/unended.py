"""What follows from a text of C that does not end: a quoted text, a comment, a verbatim text or a
control text. The names that are in it are not used there any more. All of that is one fault, where
the text begins. A quoted text with codes in it is one fault, too."""
import functools
import re

from .scanning import HEAD, NAME, Scan, is_abbreviation, plain_name

UNENDED = {'string-end', 'comment-end', 'verbatim-end', 'control-text'}
QUOTED = {'string-end', 'string-at', 'verbatim-end'}
ON_ITS_LINE = QUOTED | {'ascii-bad'}
SAY_WHERE = UNENDED | {'name-end'}
MOST_CAUSES = 20                # of which the consequences are sought
CODES = re.compile(rb'@[cCpP]')


def fold(groups, by_name, names, marker):
    """Folds what follows from texts that do not end into the groups of these."""
    causes = [group for group in groups
              if group.code in UNENDED | QUOTED and group.places in marker.spans]
    causes.sort(key=lambda group: group.code == 'string-at')
    for cause in causes[:MOST_CAUSES]:
        if cause.members:
            number, start, _ = marker.spans[cause.places]
            if cause.code in QUOTED:
                fold_line(cause, groups)
            for start, end in taken(marker, number, start):
                fold_taken(cause, groups, by_name, names, names.chunks[number].text[start:end])
    fold_comments(by_name, names, marker)


def where(group):
    """What a message says of where a text begins that does not end."""
    if group.code in SAY_WHERE and not group.is_typed and group.members[0][2]:
        return '; it began on line %d' % (group.places[0].row + 1)
    if group.cause is not None and group.code == 'unused':
        return '; the comment that begins on line %d has a use' % (group.cause.row + 1)
    return ''


def taken(marker, number, start):
    """The piece of C that begins there, and the quoted texts before it on its line: where a quote
    is missing, each of them is what was between two before."""
    text = marker.names.chunks[number].text
    line = text.rfind(b'\n', 0, start) + 1
    return [one for one in marker.tokens_in(number)
            if one[0] == start or line <= one[0] < start and text[one[0]] in b'"\'']


def fold_line(cause, groups):
    """Folds what is wrong with other quoted texts on the same line."""
    for group in groups:
        if group is not cause and group.members and group.kinds <= ON_ITS_LINE and (
                group.places[0][:2] == cause.places[0][:2]):
            cause.take(group)


def fold_taken(cause, groups, by_name, names, text):
    """Folds what follows from that this text is no C any more."""
    for found in NAME.finditer(text):
        name = plain_name(found[1])
        for group in groups_of(name, by_name, names):
            is_use = 'unused' in group.kinds
            is_definition = 'undefined' in group.kinds and HEAD.match(text, found.end())
            if group is not cause and (is_use or is_definition):
                cause.take(group)
        for group in by_name.values() if not is_abbreviation(name) else ():
            if group.kinds <= {'no-full-name'} and name.startswith(group.name[:-3]):
                cause.take(group)
    if CODES.search(text):
        for group in groups:
            if group.members and group.code == 'no-program':
                cause.take(group)


def groups_of(name, by_name, names):
    """The groups of the full names that a name may mean. An abbreviation that is written in no
    other place is none to retangle."""
    if not is_abbreviation(name):
        found = [name]
    else:
        found = [full for full in names.beginning_with(name[:-3]) if full in by_name][:2]
        found = found if len(found) == 1 else []
    return [by_name[one] for one in found if one in by_name and by_name[one].members]


# ---------------------------------------------------------------------- comments

def fold_comments(by_name, names, marker):
    """Names that are not used, since a comment has their uses in which another one begins, are one
    fault where the comment begins: its end is missing, and that of the other one has ended it."""
    groups = [group for group in by_name.values() if group.members and 'unused' in group.kinds]
    if len(groups) < 2:
        return
    for number, text in enumerate(names.texts):
        for start, end in comments_of(text, number == 0):
            found = [group for written in NAME.finditer(text[start:end])
                     for group in groups_of(plain_name(written[1]), by_name, names)
                     if 'unused' in group.kinds]
            found = list(dict.fromkeys(found))
            if len(found) > 1:
                places = marker.token_places(number, start, end)
                found[0].cause = places[0]
                fault, kind, _ = found[0].members[0]
                found[0].members[0] = fault, kind, places
                for group in found[1:]:
                    found[0].take(group)


@functools.lru_cache(1 << 14)
def comments_of(text, has_limbo):
    """Where comments of C are in which another one begins."""
    if not may_have_comments(text):
        return ()
    tokens = []
    Scan(text, has_limbo, tokens)
    return tuple((start, end) for start, end in tokens
                 if text.startswith(b'/*', start) and b'/*' in text[start + 2:end])


def may_have_comments(text):
    """Whether a comment begins before another one has ended, wherever that is."""
    at = text.find(b'/*')
    while at >= 0:
        end = text.find(b'*/', at + 2)
        if text.find(b'/*', at + 2, end if end >= 0 else len(text)) >= 0:
            return True
        at = text.find(b'/*', end + 2) if end >= 0 else -1
    return False
