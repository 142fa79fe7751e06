"""A C compiler reads the tokens of an output file at the lines of the web.

usage: read_outputs.py CTANGLE TOP        TOP is the folder of the repository

c_reads.py says what a compiler reads of the bytes of a file, and at which file and line it counts it.

- The worked texts of crates/c_lines, typed from the standard: `c_reads` gives what is typed there, as the logic does,
  and so does gcc. Each wrong reader gives something else of one of them.
- Output files of generated webs, of which some pieces are in no file, or in several. Each token that `c_reads` gives,
  whichever regions are read, is at the place where the author wrote it, outside of stretches, by the reference
  (places.py there), if the premises of the law of tokens hold and no directive is hidden. Typed webs with hidden
  directives are read at other places.
- The same files: gcc reads what `c_reads` gives. Left out are files that gcc refuses, or to which C23 gives no meaning
  (c_tokens.py); those with groups, which compiler.py has; and those with a macro that stands for one of their words.

The last line is 'N passed, M failed'.
"""
import os
import random
import re
import sys
import tempfile
from collections import Counter

sys.path.insert(0, os.path.join(os.path.dirname(os.path.abspath(__file__)), 'reference'))
import c_reads
import generator
import web_tokens
from c_tokens import in_ascii, is_read_alike, tokens, unescaped
from checks import check, lay, read, read_if_there, run_all, same
from compare import arguments_of, make_folder, make_folders_of
from files import ROLES, table_of
from lines_of_c import GAP, goes_on
from output import item_text
from places import Written
from running import run
from tangling import Tangling, text_of

SEEDS = 650
CHOICES = 3             # of regions, besides that of all
LEAST = {'files': 200, 'whole': 400, 'groups': 40}
FORMS = {b'define', b'undef', b'line'}          # the directives that they may have

ctangle = os.path.abspath(sys.argv[1])

# ---------------------------------------------------------------------- worked texts

COUNTS = re.compile(rb'\bCounts\s+(\[\]|\([^)]*\))\s+"((?:\\.|[^"\\])*)"\s+"((?:\\.|[^"\\])*)"')
BEGINS = re.compile(rb'\bBegins\s+"((?:\\.|[^"\\])*)"\s+"((?:\\.|[^"\\])*)"')
WORKED = 30             # at least as many texts are worked


def worked_texts(top):
    """The choice, the text, and its tokens with their places."""
    for choice, text, words in COUNTS.findall(read(top, 'crates', 'c_lines', 'proofs', 'WorkedCounting.antt')):
        read_of = [each.rsplit(b' ', 2) for each in unescaped(words).split(b',') if each]
        yield ([word == b'true' for word in re.findall(rb'true|false', choice)], unescaped(text),
               [(token, (file, int(line))) for token, file, line in read_of])


def read_by(reads, choice, file, text):
    return [(each.token, each.place) for each in reads(choice, file, text) if not each.in_directive]


def test_worked_texts(top):
    worked = list(worked_texts(top))
    check(len(worked) >= WORKED, 'worked texts', 'only %d' % len(worked))
    with tempfile.TemporaryDirectory() as folder:
        for choice, text, expected in worked:
            same(read_by(c_reads.c_reads, choice, b'a.c', text), expected, 'what is read of %r' % text)
            lay(folder, {'a.c': text})
            same(c_reads.read_by_compiler(folder, 'a.c', '-w'), (expected, b''), 'what gcc reads of %r' % text)
    begins = BEGINS.findall(read(top, 'crates', 'c_lines', 'proofs', 'WorkedCounting.antt'))
    check(begins != [], 'worked texts', 'none says where tokens begin')
    for text, words in begins:
        found = c_reads.c_reads((), b'a.c', unescaped(text))
        same(b','.join(b'%d %s' % (each.at, each.token) for each in found), unescaped(words),
             'where the tokens of %r begin' % text)


# Changes of c_reads.py.
WRONG = {
    'obeys each #line': ('if is_read and sets_line', 'if sets_line'),
    'reads each region': ('next(choice, True) and', 'True and'),
    'reads no region after one that is left out': ('(is_read or words[0] in TURNS)', 'is_read'),
    'reads a group in a region that is left out': (' and (is_read or words[0] in TURNS)', ''),
    'counts no line feed that is taken out': (
        'accumulate(byte == 10 for byte in text)',
        "accumulate(byte == 10 and text[at - 1:at] != b'\\\\' for at, byte in enumerate(text))"),
    'counts no line that is left out': ('        if is_read:', '        first -= not is_read\n        if is_read:'),
    'ignores names': ('file = name_of(words[2]) if words[2:] else file', 'pass'),
    'keeps backslashes in names': ("rb'\\1', literal", "rb'\\\\\\1', literal"),
    'counts the line of a #line': ('int(words[1]) - rows', 'int(words[1]) - rows + 1'),
    'counts from the first row of a directive': ('int(words[1]) - rows', 'int(words[1]) - line[0][1] - 1'),
    'knows no digraph': ("(b'#', b'%:')", "(b'#',)"),
    'reads directives as text': ('words is not None) for', 'False) for'),
}


def test_wrong_readers(top):
    source, worked = read(top, 'tests', 'c_reads.py').decode(), list(worked_texts(top))
    for name, (old, new) in WRONG.items():
        check(source.count(old) == 1, name, '%r is there %d times' % (old, source.count(old)))
        wrong = {}
        exec(source.replace(old, new), wrong)
        check(any(read_by(wrong['c_reads'], choice, b'a.c', text) != expected for choice, text, expected in worked),
              'a reader that ' + name, 'no worked text sees it')


# ---------------------------------------------------------------------- generated webs

# Bytes that gcc reads otherwise (c_tokens.py), and what is there instead of them.
REPLACED = ((b'\xe9', b'\xc3\xa9'), (b'\xff', b''), (b'\xfe', b''), (b'\x00', b''), (b'\x7f', b''), (b'\r', b'\t'))


class Project(generator.Project):
    def __init__(self, seed):
        generator.Project.__init__(self, seed)
        self.files = [(name, list(map(readable, lines))) for name, lines in self.files]


def readable(line):
    for old, new in REPLACED:
        line = line.replace(old, new)
    return line


def test_generated_webs(top):
    found = Counter()
    with tempfile.TemporaryDirectory() as temporary:
        for seed in range(SEEDS):
            project, folder = Project(seed), os.path.join(temporary, 'folder')
            if project.is_small():
                tangling = Tangling(*project.loaded())
                files = {output.name: File(tangling, output) for output in tangling.outputs()}
                for file in files.values():
                    check_choices('%r of generated web %d' % (file.name, seed), file, random.Random(seed), found)
                if any(is_readable(file.text) for file in files.values()):
                    check_files(project, seed, folder, files, found)
    print('%(files)d files are read as gcc reads them, and %(whole)d, %(groups)d of them with groups, by choices; '
          '%(own)d tokens are at lines of their own' % found)
    for kind, least in LEAST.items():
        check(found[kind] >= least, 'generated webs', 'only %d: %s' % (found[kind], kind))


class File:
    """An output file, by the reference."""

    def __init__(self, tangling, output):
        self.name, self.writer = output.name, tangling.writer()
        self.text = text_of(output, self.writer)
        self.written = Written(tangling.web, tangling.graph, self.writer).of_output(output)
        self.is_whole = self._is_whole(tangling.web, tangling.graph, output)

    def _is_whole(self, web, graph, output):
        """The premises of the laws hold: those of the law of tokens, and no directive is hidden."""
        nodes = [node for node in graph.nodes if output.node in graph.reaching({node})]
        sections = {piece.section for node in nodes for piece in graph.pieces[node]}
        pieces = [(piece, part) for piece, part in zip(web.pieces, web.piece_parts) if piece.section in sections]
        parts = web.macro_parts + [part for _, part in pieces]
        return (not any(web_tokens.Part(part, b'', self.writer.macros, b'', {}).broken() for part in parts)
                and not any(has_hidden_directive(piece.items) for piece, _ in pieces))


def has_hidden_directive(items):
    """A line of C is a directive that begins, turns or ends a group, and the rules do not see it; or it is a #line."""
    for line in lines_of_items(items):
        words = c_reads.directive([(0, 0, token) for token in tokens(b''.join(map(item_text, line)))])
        seen = [(item.kind, item.value) for item in line if item.kind not in GAP + ('Blank',)][:2]
        if words and (words[0] == b'line' or is_border(words) and seen != [('Sign', b'#'), ('Word', words[0])]):
            return True
    return False


def lines_of_items(items):
    line = []
    for at, item in enumerate(items):
        if item.kind in ('UseOf', 'Defs', 'LineMark') or item.kind == 'LineEnd' and not goes_on(items, at):
            yield line
            line = []
        else:
            line.append(item)
    yield line


# Directives that C obeys and the rules do not see, after a group that is left out with a line mark in it: no mark is
# written after them, so that the next line is at another place than its own.
HIDDEN = (b'%:endif', b'@=#endif@>', b'#en@&dif', b'#\\\nendif', b'#en\\\ndif', b'#endif\n#line 2 "b"')


def test_hidden_directives(top):
    for ending in (b'#endif',) + HIDDEN:
        web = b'@ @c\n#if 0\n@<u@>\n' + ending + b'\nx\n@ @<u@>=\ny\n'
        tangling = Tangling(table_of({'a.w': web}), ROLES)
        file, = (File(tangling, output) for output in tangling.outputs())
        same(file.is_whole, ending not in HIDDEN, 'the premises of %r' % web)
        read, = (each for each in c_reads.c_reads((False, True), b'a.c', file.text) if each.token == b'x')
        same(read.place == file.written[read.at][0], ending not in HIDDEN, 'the place of x in %r' % web)


def check_choices(name, file, chance, found):
    """Whichever regions are read, each token that is read is at the author's place, outside of stretches."""
    if not file.is_whole:
        return
    count = sum(is_border(words) for words in c_reads.directives_of(file.text))
    choices = [[True] * count] + [[chance.random() < .5 for _ in range(count)] for _ in range(CHOICES if count else 0)]
    found.update(whole=1, groups=count > 0)
    for choice in choices:
        for at, token, place, in_directive in c_reads.c_reads(choice, file.name, file.text):
            own, is_in_stretch = file.written[at] or (None, in_directive)       # no item is in a line mark
            found['own'] += not is_in_stretch
            check(is_in_stretch or place == own, '%s, read by %s' % (name, choice), '%r is at %s' % (token, place))


def is_border(directive):
    return directive[:1] != [] and directive[0] in c_reads.BEGINS + c_reads.TURNS


def check_files(project, seed, folder, files, found):
    """What ctangle writes, and gcc reads."""
    make_folder(folder, project.files)
    make_folders_of(list(files), folder)
    if run([ctangle] + arguments_of(project, seed), folder).status == 3:        # it includes a folder
        return
    for name, file in files.items():
        same(read_if_there(folder, os.fsdecode(name)), file.text, '%r of generated web %d' % (name, seed))
        if is_readable(file.text):
            check_file('%r of generated web %d' % (name, seed), folder, file, found)


def is_readable(text):
    """Whether C23 gives a meaning to it, it has tokens and no group, and a macro stands for none of its words."""
    if not is_read_alike(text):
        return False
    directives = c_reads.directives_of(text)
    if not {words[0] for words in directives if words} <= FORMS:
        return False
    words = {token for token, _ in read_by(c_reads.c_reads, (), b'', text)}
    return words and not words & {each[1] for each in directives if each[:1] == [b'define']}


def check_file(name, folder, file, found):
    lay(folder, {'read.c': file.text})
    by_compiler, errors = c_reads.read_by_compiler(folder, 'read.c', '-undef', '-w')
    if not errors:
        reads = c_reads.c_reads((), b'read.c', file.text)
        same([(in_ascii(each.token), each.place) for each in reads if not each.in_directive],
             [(in_ascii(token), place) for token, place in by_compiler], name + ', what is read')
        found['files'] += 1


def main():
    return run_all((test_worked_texts, test_wrong_readers, test_hidden_directives, test_generated_webs),
                   os.path.abspath(sys.argv[2]))


if __name__ == '__main__':
    sys.exit(main())
