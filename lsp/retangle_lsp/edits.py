"""The edits of retangle that turn the lines of a file into other lines."""
import difflib

from .files import common_back, common_front

LARGEST = 1000000       # lines times lines that difflib compares; it takes too long for more


def edits(name, old, new):
    """The edits that turn the old lines into the new ones; None instead of lines is no file.

    An edit is a request and its line of text, or None where it takes none.
    """
    if new is None:
        return [] if old is None else [(b'discard ' + name, None)]
    if old is None:
        return [(b'create ' + name, None)] + line_edits(name, [], new)
    return line_edits(name, old, new)


def line_edits(name, old, new):
    """From the end of the file to its front, so that no edit moves the lines of a later one."""
    front = common_front(old, new)
    back = common_back(old, new, front)
    old_part, new_part = old[front:len(old) - back], new[front:len(new) - back]
    made = []
    for start, end, new_start, new_end in reversed(blocks(old_part, new_part)):
        made += block_edits(name, front + start + 1, end - start, new_part[new_start:new_end])
    return made


def blocks(old, new):
    """What differs, as (START, END, NEW_START, NEW_END)."""
    if len(old) * len(new) <= LARGEST:
        found = difflib.SequenceMatcher(None, old, new).get_opcodes()
        return [block for kind, *block in found if kind != 'equal']
    if len(old) == len(new):
        return [(at, at + 1, at, at + 1) for at in range(len(old)) if old[at] != new[at]]
    return [(0, len(old), 0, len(new))]


def block_edits(name, line, count, texts):
    """The edits that replace `count` lines, of which `line` is the first, by these texts."""
    replaced = min(count, len(texts))
    made = [(b'replace %d %s' % (line + at, name), texts[at]) for at in range(replaced)]
    made += [(b'remove %d %s' % (line + replaced, name), None)] * (count - replaced)
    made += [(b'insert %d %s' % (line + at, name), texts[at]) for at in range(replaced, len(texts))]
    return made
