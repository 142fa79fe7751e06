"""Projects of sizes on both sides of powers of two, at which a number or a table of a program may
end, over the built programs, with memory for all of it.

usage: sizes.py CTANGLE RETANGLE TOP        TOP is the folder of the repository

Counted are names, nodes, outputs, nodes that an edit affects, changes, files, sections, uses,
macros, faults and the edits of a list; and sessions at the limits of reading and of expansion are
edited across them. The webs are regular, so each answer is written down here by the rules of
docs/output.md and docs/reading.md, with no graph of names; files are compared with the reference.
The last line is 'N passed, M failed'.
"""
import os
import sys

ctangle, retangle, top = (os.path.abspath(path) for path in sys.argv[1:4])
sys.path[:0] = [os.path.join(top, 'tests'), os.path.join(top, 'tests', 'reference')]
from chain import chain
from checks import check, difference, run_all
from hostile import mark, piece
from limits import FILES
from running import run_over
from scripts import answer

TURNS = (256, 4096, 65536)
NO_FAULTS = ('faults\n', 'faults 0\n')
NO_MAIN_FILE = ('show a.c\n', 'no NoOutput\n')
PROGRAM_TOO_LARGE = 'error: too large: the unnamed program'
SECONDS = 300


def around(before, after):
    """Each power, from so much before it to so much after it."""
    return [turn + step for turn in TURNS for step in range(-before, after + 1)]


def run(program, arguments, files, script=''):
    """The status, what is written on both streams, and the files that were created or written."""
    (output, errors, status), made = run_over(encoded(files), [program] + arguments,
                                              script.encode('latin-1'), SECONDS)
    made = {name: text.decode('latin-1') for name, text in made.items()}
    return status, output.decode('latin-1'), errors.decode('latin-1'), made


def encoded(files):
    return {name: text.encode('latin-1') for name, text in files.items()}


def converse(name, files, turns, status=0, arguments=('a',)):
    """A conversation, (script lines, answer) each."""
    script, expected = (''.join(parts) for parts in zip(*turns))
    ended, written, errors, _ = run(retangle, list(arguments), files, script)
    check((ended, errors) == (status, ''), name, 'status %s, %r' % (ended, errors[:200]))
    check(written == expected, name, difference(expected, written))


def in_list(edits, count):
    """So many edits that are made as a list."""
    return 'begin\n%scommit\n' % edits, 'ok\n' + 'held\n' * count + 'ok\n'


def shown(name, text):
    return 'show %s\n' % name, '= %s %d\n%s' % (name, len(text), text)


def tangle(name, files, expected, faults='', status=0, arguments=('a',)):
    """A run of ctangle, with the files that it creates."""
    ended, written, errors, made = run(ctangle, list(arguments), files)
    check((ended, written) == (status, ''), name, 'status %s' % ended)
    check(errors == faults, name, difference(faults, errors))
    check(set(made) == set(expected), name, '%d files, not %d' % (len(made), len(expected)))
    other = [file for file in expected if made.get(file) != expected[file]]
    check(not other, name, 'other bytes in %s' % other[:3])


# ------------------------------------------------------------------ names, nodes and affected nodes

class Names:
    """A program that uses all names but the last, a line each; each of these uses the last one.

    The program is section 1, name k is section k + 1.
    """

    def __init__(self, count):
        self.count, self.last, self.texts = count, '1', {}
        self.head_of_last = 3 * count

    def head(self, k):
        return self.count + 2 * k

    def web(self):
        names = range(1, self.count)
        return ('@ P.\n@c\n' + ''.join('@<n%05d@>\n' % k for k in names)
                + ''.join('@ @<n%05d@>=\n@<z@>\n' % k for k in names)
                + '@ @<z@>=\n%s\n' % self.last)

    def output(self):
        last = piece(self.count + 1, self.head_of_last, '\n%s\n' % self.last)
        lines = []
        for k in range(1, self.count):
            text = '\n ' + last + mark(self.head(k) + 1) + self.texts.get(k, '') + '\n'
            lines.append(' ' + piece(k + 1, self.head(k), text) + mark(k + 2) + '\n')
        return piece(1, 2, '\n' + ''.join(lines)) + '\n'

    def replace_last(self, text):
        self.last = text
        return 'replace %d a.w\n%s\n' % (self.head_of_last + 1, text), 'ok\n'

    def add_to(self, k, text):
        """Puts this text after the use in name k."""
        self.texts[k] = text
        return 'replace %d a.w\n@<z@>%s\n' % (self.head(k) + 1, text), 'ok\n'


def work(count):
    return 'work\n', 'work %d\n' % count


def test_names():
    """So many names, and one node more: all are expanded at a start, and for an edit of the last
    name."""
    for count in around(1, 1):
        names = Names(count)
        turns = [work(count + 1), names.replace_last('2'), work(count + 1),
                 shown('a.c', names.output()), names.replace_last('2'), work(0),
                 names.add_to(count - 1, ';'), work(2), names.add_to(1, ','), work(2),
                 shown('a.c', names.output()), NO_FAULTS]
        converse('%d names' % count, {'a.w': Names(count).web()}, turns)
    for count in TURNS:
        names = Names(count + 1)
        tangle('%d names in a run' % (count + 1), {'a.w': names.web()}, {'a.c': names.output()})


# ------------------------------------------------------------------ outputs

def file_name(k):
    return 'f%05d.h' % k


def named_file(k, first=4):
    """The file of section k + 1: of two lines each, from there on."""
    return piece(k + 1, first + 2 * k - 2, '\n%d\n' % k) + '\n'


def many_files(count):
    """A program and `count` named files."""
    files = range(1, count + 1)
    return '@ P.\n@c\nx\n' + ''.join('@ @(%s@>=\n%d\n' % (file_name(k), k) for k in files)


MAIN_FILE = piece(1, 2, '\nx\n') + '\n'


def check_outputs(count):
    """So many output files, with the main file. Then an edit makes one more, and another one takes
    it away."""
    new, at = file_name(count), 2 * count + 2
    some = [shown(file_name(k), named_file(k)) for k in sorted({1, count // 2, count - 1})]
    turns = [work(count), shown('a.c', MAIN_FILE)] + some
    comes = 'insert %d a.w\n@ @(%s@>=\ninsert %d a.w\n%d\n' % (at, new, at + 1, count)
    goes = 'remove %d a.w\nremove %d a.w\n' % (at + 1, at)
    turns += [in_list(comes, 2), work(1), shown(new, named_file(count))] + some
    turns += [('replace 5 a.w\ny\n', 'ok\n'), work(1),
              shown(file_name(1), named_file(1).replace('\n1\n', '\ny\n'))]
    turns += [in_list(goes, 2), work(0), ('show %s\n' % new, 'no NoOutput\n'), NO_FAULTS]
    converse('%d outputs' % count, {'a.w': many_files(count - 1)}, turns)


def test_outputs():
    for count in around(1, 1):
        check_outputs(count)
    for count in around(0, 1)[:-2] + [TURNS[-1] + 1]:
        files = {file_name(k): named_file(k) for k in range(1, count)}
        files['a.c'] = MAIN_FILE
        tangle('%d outputs in a run' % count, {'a.w': many_files(count - 1)}, files)


# ------------------------------------------------------------------ changes

def test_changes():
    """So many changes, each of one line. Then an edit takes the first line away from them, so that
    one is not used."""
    for count in around(1, 1):
        files = {'a.w': '@ P.\n@c\n' + 'a;\n' * count, 'a.ch': '@x\na;\n@y\nb;\n@z\n' * count}
        changed = ['\n#line %d "a.ch"\nb;' % (5 * k - 1) for k in range(1, count + 1)]
        whole = piece(1, 2, ''.join(changed) + '\n') + '\n'
        edited = piece(1, 2, '\nc;' + ''.join(changed[:-1]) + '\n') + '\n'
        unused = 'faults 1\na.ch:%d: error: change never used\n' % (5 * count - 4)
        turns = [work(1), shown('a.c', whole), NO_FAULTS, ('replace 3 a.w\nc;\n', 'ok\n'), work(1),
                 shown('a.c', edited), ('faults\n', unused)]
        converse('%d changes' % count, files, turns, 1, ('a', '--change', 'a'))
        tangle('%d changes in a run' % count, files, {'a.c': whole}, arguments=('a', 'a'))


# ------------------------------------------------------------------ files

def edits_of_files(last):
    """Edits of each kind, of which some need a file more; the last included file is this one."""
    return ['insert 3 a.w\ny', 'replace 1 %s\nz' % last, 'insert 1 i001.w\n@<u@>',
            'remove 1 i001.w', 'create new.w', 'insert 1 new.w\nnew', 'insert 3 a.w\n@i new.w',
            'create another.w',
            'discard %s' % last, 'create %s' % last, 'create more.w', 'marks none', 'marks full',
            'begin\ndiscard i001.w\ncreate one.w\ninsert 1 one.w\none\n'
            'replace 4 a.w\n@i one.w\ncommit',
            'begin\ncreate two.w\ncreate three.w\ncommit',
            'create a.w', 'create ' + 'f' * 256, 'create ' + 'f' * 255]


def test_files():
    """So many files, of which the web includes all others, edited in each way."""
    for count in (FILES - 2, FILES - 1, FILES):
        included = {'i%03d.w' % k: 'x%d\n' % k for k in range(1, count)}
        web = '@ P.\n@c\n' + ''.join('@i %s\n' % name for name in included)
        lines = edits_of_files('i%03d.w' % (count - 1))
        script = ''.join(line + '\nwork\nshow a.c\nfaults\n' for line in lines)
        expected = answer(encoded({'a.w': web, **included}), script.encode())
        turns = [(script, expected.written.decode('latin-1'))]
        converse('%d files' % count, {'a.w': web, **included}, turns, expected.status)


# ------------------------------------------------------------------ sections, uses, macros, lists

def test_sections():
    """Sections with a C part each, all of the program."""
    for count in around(1, 1):
        pieces = [piece(k, 2 * k - 1, '\nx\n') for k in range(1, count + 1)]
        turns = [shown('a.c', ''.join(pieces) + '\n'),
                 ('replace %d a.w\nx\n' % (2 * count), 'ok\n'), work(0)]
        converse('%d sections' % count, {'a.w': '@ @c\nx\n' * count}, turns)


def many_uses(count):
    """The main file of a program that uses a name so often, a line each."""
    used = piece(2, count + 3, '\n1\n')
    uses = [' %s%s\n' % (used, mark(k + 2)) for k in range(1, count + 1)]
    return piece(1, 2, '\n' + ''.join(uses)) + '\n'


def test_uses():
    """So many uses of one name in one piece, and one use more by an edit."""
    for count in around(1, 1):
        web = '@ P.\n@c\n' + '@<v@>\n' * count + '@ @<v@>=\n1\n'
        turns = [work(2), shown('a.c', many_uses(count)), ('insert 3 a.w\n@<v@>\n', 'ok\n'),
                 work(1), shown('a.c', many_uses(count + 1))]
        converse('%d uses' % count, {'a.w': web}, turns)


def test_macros():
    """So many macros, and as many of which each is a fault."""
    for count in around(1, 1):
        text = piece(1, count + 2, '\nx\n') + '\n'
        web = '@ P.\n' + '@d M 1\n' * count + '@c\nx\n'
        tangle('%d macros' % count, {'a.w': web}, {'a.c': '#define M 1\n' * count + text})
        web = '@ P.\n' + '@d 1\n' * count + '@c\nx\n'
        faults = ''.join('a.w:%d: error: macro must start with an identifier\n' % line
                         for line in range(2, count + 2))
        tangle('%d faults' % count, {'a.w': web}, {'a.c': text}, faults, 1)


def test_lists():
    """Lists of edits: one that is made, and one whose last edit is refused."""
    for count in around(1, 1):
        edits = ''.join('replace 3 a.w\nx%d\n' % k for k in range(1, count + 1))
        made = [work(1), shown('a.c', piece(1, 2, '\nx%d\n' % count) + '\n')]
        held = 'ok\n' + 'held\n' * count
        turns = [('begin\n' + edits + 'commit\n', held + 'ok\n')] + made
        turns += [('begin\n' + edits + 'remove 4 a.w\ncommit\n',
                   held + 'held\nno NoSuchLine %d\n' % (count + 1))] + made
        converse('a list of %d edits' % count, {'a.w': '@ P.\n@c\nx\n'}, turns)


# ------------------------------------------------------------------ limits of reading and expansion

def reported(*lines):
    return 'faults\n', 'faults %d\n' % len(lines) + ''.join(line + '\n' for line in lines)


def test_inclusions():
    """A file that includes itself, and no longer does, and does again."""
    files = {'a.w': '@ A.\n@c\n@i b.w\n', 'b.w': 'x\n@i b.w\n'}
    deep = [work(1), reported('b.w:2: error: inclusion too deep'),
            shown('a.c', '/*1:*/\n#line 2 "a.w"\n' + '\n#line 1 "b.w"\nx' * 9 + '\n/*:1*/\n')]
    flat = [work(1), NO_FAULTS,
            shown('a.c', '/*1:*/\n#line 2 "a.w"\n\n#line 1 "b.w"\nx\ny\n/*:1*/\n')]
    turns = deep + [('replace 2 b.w\ny\n', 'ok\n')] + flat
    turns += [('replace 2 b.w\n@i b.w\n', 'ok\n')] + deep
    converse('a file that includes itself', files, turns, 1)


def test_longest_texts():
    """A text of as many bytes as a line may have, of which the spaces at its end do not count, and
    one of a byte more."""
    longest = 'x' * 65535
    turns = [('insert 4 a.w\n%s   \n' % longest, 'ok\n'), work(1),
             shown('a.c', piece(1, 2, '\ny\n%s\n' % longest) + '\n'),
             ('insert 4 a.w\n%sx\n' % longest, 'no LineTooLong\n'), work(1)]
    converse('texts of 65,535 bytes and of one more', {'a.w': '@ P.\n@c\ny\n'}, turns)


def test_lines_taken():
    """More lines than are taken, by three inclusions of a million lines and by two, and fewer by
    one."""
    files = {'a.w': '@i b.w\n' * 3, 'b.w': '\n' * 1000000}
    none = 'warning: no program text'
    many = [work(0), shown('a.c', ''), reported('b.w:999999: error: too many lines', none)]
    turns = many + [('remove 3 a.w\n', 'ok\n')] + many
    turns += [('remove 2 a.w\n', 'ok\n'), work(0), shown('a.c', ''), reported(none),
              ('insert 1 b.w\nx\n', 'no TooManyLines\n'), ('insert 2 a.w\n@i b.w\n', 'ok\n')] + many
    converse('two million lines', files, turns, 1)


def too_large(count):
    """The faults of `count` names, each used first two lines after the one before it, and of the
    program."""
    names = ['a.w:%d: error: too large: <n%02d>' % (3 + 2 * k, k) for k in range(count)]
    return reported(*names + [PROGRAM_TOO_LARGE])


def test_weights():
    """Names that each use the next one twice: those before the 21st from the end are too large. One
    that uses the next one once is not, and those before it are."""
    pairs = ['@ @<n%02d@>=\n%s\n' % (k, '@<n%02d@>' % (k + 1) * 2) for k in range(29)]
    web = '@ P.\n@c\n@<n00@>\n' + ''.join(pairs) + '@ @<n29@>=\n1\n@ @(s.h@>=\n1\n'
    files = [NO_MAIN_FILE, shown('s.h', '/*32:*/\n#line 64 "a.w"\n\n1\n/*:32*/\n')]
    turns = [work(22), too_large(9)] + files
    turns += [('replace 21 a.w\n@<n09@>\n', 'ok\n'), work(1), too_large(8)] + files
    turns += [('replace 21 a.w\n@<n09@>@<n09@>\n', 'ok\n'), work(0), too_large(9)] + files
    converse('names that double', {'a.w': web}, turns, 1)


def test_depths():
    """A chain of 1,000 names below the program, which is too deep, and of 999, which is not."""
    text = piece(1000, 2000, '\n1\n')
    for k in range(999, 0, -1):
        text = piece(k, 2 * k, '\n ' + text + mark(2 * k + 1) + '\n')
    deep = [work(1000), NO_MAIN_FILE, reported(PROGRAM_TOO_LARGE)]
    flat = [work(1000), shown('a.c', text + '\n'), NO_FAULTS]
    shorter = [in_list('replace 2001 a.w\n1\nremove 2003 a.w\nremove 2002 a.w\n', 3)]
    longer = [in_list('replace 2001 a.w\n@<k1000@>\ninsert 2002 a.w\n@ @<k1000@>=\n'
                      'insert 2003 a.w\n1\n', 3)]
    turns = deep + shorter + flat + longer + deep
    converse('a chain of 1,000 names', {'a.w': chain(1000)}, turns, 1)
    turns = flat + longer + deep + shorter + flat
    converse('a chain of 999 names', {'a.w': chain(999)}, turns)


def main():
    return run_all((test_names, test_outputs, test_changes, test_files, test_sections, test_uses,
                    test_macros, test_lists, test_inclusions, test_longest_texts, test_lines_taken,
                    test_weights, test_depths))


if __name__ == '__main__':
    sys.exit(main())
