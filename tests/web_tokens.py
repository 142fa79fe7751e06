"""A C compiler reads the tokens of the web: the law of docs/tokens.md, over webs.

usage: web_tokens.py CTANGLE FIRST COUNT      generated webs, by their seeds

The items of a part or macro that stand together are a group (tests/reference/groups.py). The tokens
of the bytes that are written for a macro, or for a piece, are those of its groups, one group after
another, and in a piece those of its line marks, at the line ends, uses and @h where the rules leave
one. c_tokens.py says what tokens are. PREMISES has the premises of the law.

- Typed webs: what is written for them has the tokens of their groups, and wrong texts do not.
- Each premise is needed: typed webs break no other one, and are read otherwise.
- Generated webs, each macro and piece without faults that breaks no premise. The bytes are those of
  the reference: compare.py compares all outputs of these webs with those of ctangle, byte for byte.
- Generated webs, each output file of ctangle to which the law applies as a whole: its tokens are
  those of the macros and of the groups, where a name stands for what it gives.

The bytes of a piece are its own, without those of the names that it uses. A macro is also one line
for C, and has parameters where the web has them.
The last line is 'N passed, M failed'.
"""
import os
import sys
import tempfile
from collections import Counter

sys.path.insert(0, os.path.join(os.path.dirname(os.path.abspath(__file__)), 'reference'))
import generator
import programs
from c_tokens import COMMENT, elements, kind, spliced, tokens
from checks import check, read_if_there, run_all, same
from compare import arguments_of, make_folder, make_folders_of
from files import ROLES, table_of
from groups import ALONE, row_of, text_of
from output import macro_text
from running import run
from tangling import Tangling

LEAST = 90              # the premises hold for at least this percentage of parts without faults
FILES = 1200            # at least as many output files that have tokens are read as a whole


class Part:
    """A macro or piece: its row of groups and line marks, each with its text, and the bytes that are written for it.
    `marks` has what is written for the marks of a piece, by the place of the line end, use or @h before each."""

    def __init__(self, part, written, macros, front, marks):
        self.is_macro, self.written = part.is_macro, written
        self.row = [(None, front)]
        for group in row_of(part):
            first = group[0]
            if first.kind != 'LineEnd':
                self.row.append((group, text_of(group, macros)))
            if first.kind == 'LineEnd' or first.kind in ALONE:
                self.row.append((None, marks.get(first.at, b'')))
        self.groups = [group for group, _ in self.row if group]
        self.texts = [text for group, text in self.row if group]

    def tokens(self):
        """The tokens of the row, one text after another."""
        return [token for _, text in self.row for token in tokens(text)]

    def has_all_macros(self):
        return any(group[0].kind == 'AllMacros' for group in self.groups)

    def is_read_as_meant(self, written):
        """The law, if this is what is written."""
        return tokens(written) == self.tokens() and (not self.is_macro or self.is_macro_as_meant(written))

    def is_macro_as_meant(self, written):
        has_them = has_parameters(b'#define ' + self.texts[0])
        return spliced(written).count(b'\n') == 1 and has_parameters(written) == has_them

    def broken(self):
        """The premises of the law that do not hold."""
        return {name for name, breaks in PREMISES.items() if breaks(self)}


def has_parameters(macro):
    """Whether a macro has parameters for C: a parenthesis is directly after its name."""
    _, _, _, name, *rest = elements(spliced(macro))
    return kind(name) == 'identifier' and rest[:1] == [b'(']


# ---------------------------------------------------------------------- the premises

def has_half_a_token(part):
    return any(is_unfinished(each) for text in part.texts for each in elements(spliced(text)))


def is_unfinished(element):
    """A comment that is still open, or a quote that no other one closes."""
    return element in (b'"', b"'") or COMMENT.fullmatch(element + b' ')


def hides_slash(part):
    """A piece ends in a slash, but its last item is a verbatim text without bytes."""
    if part.is_macro or not part.groups:
        return False
    last = part.groups[-1][-1]
    ends_in_slash = spliced(part.texts[-1]).endswith(b'/')
    return ends_in_slash and (last.kind, last.value) == ('Verbatim', b'')


def ends_in_backslash(part):
    """A group of a piece, or the last one of a macro: it could take out the line feed after it."""
    texts = part.texts[-1:] if part.is_macro else part.texts
    return any(text.endswith(b'\\') for text in texts)


def has_open_number(part):
    """A number of several items could take what follows, over the next line end of a macro."""
    return part.is_macro and any(map(ends_in_open_number, part.groups[:-1]))


def ends_in_open_number(group):
    text, item = text_of(group), text_of(group[-1:])
    last = elements(spliced(text))[-1] if text else b''
    return kind(last) == 'number' and last[-1:] in b'eEpP+-' and len(last) > len(item)


def has_universal_name(part):
    """The name of a macro has a universal character name, so that it is not made of words alone."""
    return part.is_macro and b'\\' in tokens(part.texts[0])[0]


def has_header_name(part):
    """An operator could take the last byte of a header name, over the next line end of a macro."""
    items = (item for group in part.groups for item in group)
    return part.is_macro and any(item.kind == 'Quoted' and item.value[:1] == b'<' for item in items)


PREMISES = {
    'whole tokens': has_half_a_token,
    'no slash before an empty verbatim text': hides_slash,
    'no backslash at the end of a group': ends_in_backslash,
    'no number that goes on': has_open_number,
    'no universal character name in the name of a macro': has_universal_name,
    'no header name in a macro': has_header_name,
}


# ---------------------------------------------------------------------- parts of webs

class Web:
    """The macros and pieces of a web, and the tokens of its output files."""

    def __init__(self, tangling):
        web, self.writer, self.tangling = tangling.web, tangling.writer(), tangling
        self.macros = [self._part(part, macro_text(items), b'#define', {})
                       for part, items in zip(web.macro_parts, web.macros)]
        self.pieces = {piece.section: self._part(part, self._own_bytes(piece), self.writer.mark(piece.place),
                                                 self._marks_of(piece))
                       for part, piece in zip(web.piece_parts, web.pieces)}

    def _part(self, part, written, front, marks):
        return None if part.has_fault else Part(part, written, self.writer.macros, front, marks)

    def _marks_of(self, piece):
        return {item.at: self.writer.mark(item.value) for item in piece.items if item.kind == 'LineMark'}

    def _own_bytes(self, piece):
        """What is written for a piece, without what is written for the names that it uses."""
        parts = self.writer.text_of_pieces([piece])
        return b''.join(each for each in parts if isinstance(each, bytes))

    def parts(self):
        """Those that have no fault."""
        return [part for part in self.macros + list(self.pieces.values()) if part]

    def files(self):
        """The output files to which the law applies as a whole, each with its tokens."""
        for output in self.tangling.outputs():
            parts = self._parts_of(output)
            if output.name and programs.is_utf8(output.name) and all(part and not part.broken() for part in parts):
                macros = self.macros if output.has_macros else []
                found = [token for part in macros for token in part.tokens()]
                yield output.name, found + self._tokens_of(output.node)

    def _parts_of(self, output):
        """The pieces of which the file is made, and the macros, if it begins with them or has @h."""
        graph, nodes = self.tangling.graph, [output.node]
        for node in nodes:                      # which grows meanwhile
            nodes += [used for used in graph.uses[node] if used not in nodes]
        pieces = [self.pieces[piece.section] for node in nodes for piece in graph.pieces[node]]
        has_macros = output.has_macros or any(part and part.has_all_macros() for part in pieces)
        return pieces + (self.macros if has_macros else [])

    def _tokens_of(self, node):
        """The tokens of the pieces of a node; those of a name that they use are in its place."""
        found, graph = [], self.tangling.graph
        for piece in graph.pieces[node]:
            part = self.pieces[piece.section]
            for group, text in part.row:
                used = graph.use(group[0]) if group and group[0].kind == 'UseOf' else None
                found += tokens(text) if used is None else self._tokens_of(used)
        return found


def parts_of_text(web):
    return Web(Tangling(table_of({'a.w': web}), ROLES)).parts()


# ---------------------------------------------------------------------- typed webs

# Webs of one macro or piece, each with what is written for that, and wrong texts.
OPENING = b'/*1:*/\n#line 1 "a.w"\n'
TYPED = (
    (b'@ @d f(x) x->y\n', b'#define f(x) x->y\n',
     (b'#define f (x) x->y\n', b'#define f(x) x- >y\n',             # a blank of ours
      b'#define f(x) x->y y\n', b'#define f(x) x->y;\n')),          # an item twice, and a byte
    (b'@ @d f(x)\nx\n', b'#define f(x)\\\nx\n',
     (b'#define f(x)\nx\n', b'#define\\\nf(x)x\n')),                # two lines, and no space
    (b'@ @d a\n(x) +\n+x\n', b'#define a \\\n(x) + \\\n+x\n',
     (b'#define a\\\n(x) + \\\n+x\n', b'#define a \\\n(x) +\\\n+x\n')),
    (b'@ @c a-/@ B.\n', OPENING + b'a-/ /*:1*/', (OPENING + b'a-//*:1*/',)),
    (b"@ @c @'a'.b\n", OPENING + b'97 .b\n/*:1*/', (OPENING + b'97.b\n/*:1*/',)),
    (b'@ @c a\\\nb\n', OPENING + b'a\\\nb\n/*:1*/', (OPENING + b'a\\\n b\n/*:1*/',)),
    (b'@ @c a@&\nb\nc\n', OPENING + b'ab\n#line 3 "a.w"\nc\n/*:1*/',
     (OPENING + b'ab\nc\n/*:1*/', b'/*1:*/ab\n#line 3 "a.w"\nc\n/*:1*/',                 # no mark
      OPENING + b'ab\nc\n#line 3 "a.w"\n/*:1*/', OPENING + b'ab\n#line 2 "a.w"\nc\n/*:1*/')),
)


def test_typed_webs():
    for web, written, others in TYPED:
        part, = parts_of_text(web)
        same((part.written, part.broken()), (written, set()), 'what is written for %r' % web)
        check(part.is_read_as_meant(written), web, 'the law does not hold of %r' % written)
        for other in others:
            check(not part.is_read_as_meant(other), web, 'the law holds of %r' % other)


# Webs whose first part breaks this premise alone, and is read otherwise than meant.
NEEDED = {
    'whole tokens': (b'@ @c a /@&* b\n', b'@ @c @="a@> b @=c"@>\n', b'@ @c a @=//@> b\n'),
    'no slash before an empty verbatim text': (b'@ @c a /@=@>@ B.\n', b'@ @c a /\\\n@=@>@ B.\n'),
    'no backslash at the end of a group': (b'@ @d a @=\\@>\n@d b 2\n', b'@ @c a \\@h\n'),
    'no number that goes on': (b'@ @d a 1.e\n+5\n', b'@ @d a 1@&p\n-5\n', b'@ @d a 1e+\nx\n',
                                 b"@ @d a 1e+\n'b'\n"),
    'no universal character name in the name of a macro': (b'@ @d a@&\\u00e9\n(x)\n',),
    'no header name in a macro': (b'@ @d a\n#include <b>\n=c\n',),
}


def test_needed_premises():
    same(sorted(NEEDED), sorted(PREMISES), 'the premises')
    for premise, webs in NEEDED.items():
        for web in webs:
            part = parts_of_text(web)[0]
            same(part.broken(), {premise}, 'premises of %r' % web)
            check(not part.is_read_as_meant(part.written), web, 'it is read as meant')


# ---------------------------------------------------------------------- generated webs

def test_generated_webs():
    first, count = map(int, sys.argv[2:4])
    found = Counter()
    with tempfile.TemporaryDirectory() as temporary:
        for seed in range(first, first + count):
            project = generator.Project(seed)
            if project.is_small():
                web = Web(Tangling(*project.loaded()))
                check_parts(web, seed, found)
                check_files(web, seed, found, project, os.path.join(temporary, 'folder'))
    counts = ('the premises hold of %(held)d of %(parts)d macros and pieces, '
              '%(files)d files are read as a whole' % found)
    print(counts)
    check(found['held'] * 100 >= found['parts'] * LEAST, 'generated webs', counts)
    check(found['files'] >= FILES, 'generated webs', counts)


def check_parts(web, seed, found):
    """Parts of the same texts count as one: a web that includes itself has many of them."""
    hold = {}
    for part in web.parts():
        holds = hold[(part.is_macro, *part.texts)] = not part.broken()
        if holds:
            check(part.is_read_as_meant(part.written), 'tokens of generated web %d' % seed,
                  '%r is not read as %r' % (part.written, part.texts))
    found.update(parts=len(hold), held=sum(hold.values()))


def check_files(web, seed, found, project, folder):
    files = list(web.files())
    if files:
        make_folder(folder, project.files)
        make_folders_of([output.name for output in web.tangling.outputs()], folder)
        ended = run([os.path.abspath(sys.argv[1])] + arguments_of(project, seed), folder)
        if ended.status == 3:           # it includes a folder; compare.py has this outcome
            return
    for name, expected in files:
        found['files'] += expected != []
        text = read_if_there(folder, os.fsdecode(name))
        same(None if text is None else tokens(text), expected, 'tokens of %r of generated web %d' % (name, seed))


def main():
    return run_all((test_typed_webs, test_needed_premises, test_generated_webs))


if __name__ == '__main__':
    sys.exit(main())
