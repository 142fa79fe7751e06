"""Which line of a web a line of an output was written from, and the names of outputs."""
import re

NAME = re.compile(rb'@([<(])(?=((?:[^@]|@[^>]){0,2000})@>)')
SPACE = re.compile(rb'[ \t\r\v\f\n]+')


def file_names(text):
    """What may be the name of an output file: retangle says which of them are."""
    names = [(kind, SPACE.sub(b' ', name.replace(b'@@', b'@')).strip(b' '))
             for kind, name in NAME.findall(text)]
    prefixes = tuple(name[:-3] for kind, name in names if kind == b'(' and name.endswith(b'...'))
    return [name for kind, name in names if kind == b'(' or prefixes and name.startswith(prefixes)]


MARK = re.compile(rb'#line (\d+) "((?:[^"\\]|\\.)*)"')
NUMBERS = re.compile(rb'(?: ?/\*:?\d+:?\*/)+ ?')      # the comments around a piece alone
MACRO = re.compile(rb'#\s*define\s+(\w+)')


def marked(text):
    """The file and line that a #line names, or None."""
    mark = MARK.fullmatch(text)
    return mark and (re.sub(rb'\\(.)', rb'\1', mark[2]), int(mark[1]))


def origins(output, files):
    """Of each line of an output the file and line from which it was written, by its #lines, or
    None. The macros that @h gives have no #line: the C would count them as lines of the web."""
    found, file, number, is_macro = [], None, 0, False
    for text in output.split(b'\n')[:-1]:
        mark = marked(text)
        if mark:
            file, number = mark
            is_macro = False
            found.append(None)
            continue
        lines = files.get(file) or ()
        is_line = 1 <= number <= len(lines)
        if is_line and text.startswith(b'#define '):
            is_macro = is_macro or MACRO.findall(text)[:1] != MACRO.findall(lines[number - 1])[:1]
        is_written = is_line and not is_macro and not NUMBERS.fullmatch(text)
        found.append((file, number) if is_written else None)
        number += 1
    return found
