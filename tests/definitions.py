"""Makes docs/generated/definitions.md from the definitions, the contracts and the code.

usage: definitions.py [FOLDER]      the folder of the repository, into which the page is written

The page has the definitions on which a clause of a public function rests: those that it cites,
and those of which these are made. PAGES says which page of docs/ explains them. The definitions
from one comment up to the next are a row: the first sentence of the comment, the definitions, and
functions whose contracts cite one of them. What a text cites is found by its words: the names that
its file imports or has itself.
"""
import os
import re
import sys
from collections import Counter, namedtuple

from sources import crates_in, exported_of, functions_in

# The page that explains a crate, or a file as CRATE/FILE, which goes before its crate.
PAGES = {
    'PROOFS.md': [
        'tangle_session/Headline', 'tangle_session/Sessions', 'tangle_streams'],
    'docs/reading.md': ['tangle_files', 'tangle_lines'],
    'docs/scanning.md': ['tangle_text', 'tangle_lexer', 'tangle_scan'],
    'docs/names.md': [
        'tangle_text/NameBytes', 'tangle_lexer/Names', 'tangle_lexer/Occurrences', 'tangle_names'],
    'docs/tokens.md': [
        'c_tokens', 'c_lines', 'tangle_c_tokens', 'tangle_c_lines',
        'ctangle_cli/WhatTheCompilerReads'],
    'docs/graphs.md': ['digraph'],
    'docs/expansion.md': ['tangle_bodies', 'tangle_expansion', 'tangle_graph'],
    'docs/output.md': [
        'tangle_scan/ItemBytes', 'tangle_scan/MacroBytes', 'tangle_expansion/Numbers',
        'tangle_expansion/PieceBytes', 'tangle_expansion/Outputs', 'tangle_expansion/Location',
        'tangle_graph/Outputs', 'tangle_graph/PlainForms', 'tangle_session/Writes'],
    'docs/faults.md': [
        'tangle_faults', 'tangle_names/Faults', 'tangle_graph/Faults', 'tangle_session/Laws'],
    'docs/edits.md': [
        'tangle_expansion/Affected', 'tangle_graph/Affected', 'tangle_graph/Keeping', 'tangle_session/Moves'],
    'docs/sessions.md': [
        'tangle_files/Edits', 'tangle_files/Edited', 'tangle_session/Edits', 'tangle_script',
        'ctangle_cli/RetangleArguments', 'ctangle_cli/Conversation'],
    'docs/programs.md': ['tangle_folders', 'tangle_memory_folder', 'tangle_loading', 'ctangle_cli'],
}

# Files after whose rows the page has the files of all definitions of which theirs are made.
LEADING = [('tangle_session', 'Headline'), ('ctangle_cli', 'WhatTheCompilerReads')]

NOTES = {
    'PROOFS.md':
        'The headline is the page `tangle_session/specs/Headline.antt`, to be read from its top.',
    'docs/scanning.md':
        '`next_block` of `tangle_lexer` promises what is at a position, and `scan: web` of\n'
        '`tangle_scan` what a whole web is: its definition `web_of` is made of these.',
}

TOP = '''# Definitions

`make documents` makes this page from the sources, and `tests/documents.py` checks that it is what
they give.

The meaning of a rule is a definition in `specs/`: of whole lists, to be read without the code. It
is promised where a clause of a public function cites it, or cites a definition that is made of it.
All definitions that are promised so are below, by the page of `docs/` that has their rules, and by
the file of `specs/` that they are in.

A line has definitions; in brackets their code; and their rule, which is the first sentence of the
comment beside them, with the kinds of faults that they name. The code is at most two functions
whose contracts cite one of the definitions, or the nearest function whose contract cites one that
is made of them. A public function has its clauses, as `CALL: CLAUSE`. *Promised by* has the public
functions that are nearest to the lines without one. A file without a folder is in `src/` of the
crate of the definitions.
'''

BOTTOM = '''
## Promised by no clause

Private functions and proofs alone cite %d definitions of the files above, and all of these files:
they say how a value is held in memory, or what a function has done so far.

'''

FEW = 2                 # the most functions of a row
PROGRAMS = 'ctangle_cli'
MANY_KINDS = 6          # a row that names more kinds of faults is about all of them

HEAD = re.compile(
    r'^ *(?:(?:abbrev|unfoldable) (?:pub )?|pub (?:record |data |(?!mod |use )))([^\s:]+)')
VALUE = re.compile(r'^ +(\S+) :(?: |$)', re.M)
IMPORT = re.compile(
    r'^ *(?:ghost )?use Rattle\.(\w+)\.specs\.(\w+)((?:\.\w+)*?)(?:\.\{([^}]*)\}| as (\w+))', re.M)
LAW = re.compile(r'fn \w+(?:<[^(]*>)?\(\)(?!\s*->)')           # it has no arguments and no result
CLAUSE = re.compile(r'\b(ensures|requires)\b(?: (\w+))? \{')
TRAIT = re.compile(r'^(?:pub trait|impl\b[^{]* for) .*?^\}', re.M | re.S)
MEANING = re.compile(
    r'^(?:impl\b[^{;]*? for|pub trait) (\w+)[^{;]*\{\n(?:    ghost .*\n|\n)+', re.M)
WORD = re.compile(r'[^\s(){}\[\],;]+')

Definition = namedtuple('Definition', 'crate file name')
Row = namedtuple('Row', 'rule texts')       # the sentence, and the definitions by their names
Contract = namedtuple('Contract', 'crate file call clause is_public is_law cited')

KIND = Definition('tangle_faults', 'declared', 'FaultKind')


# ------------------------------------------------------------------ the files of specs/

def first_sentence(comment):
    """It ends at a full stop, or with a line after which the next one begins like a sentence."""
    text = comment[0]
    for line in comment[1:]:
        if re.match(r'(?:[A-Z][a-z]+|A|So) ', line) and not re.search(r'[,;:]$', text):
            break
        text += ' ' + line
    return re.match(r'.+?[^.]\.(?= |$)|.*', text).group().rstrip('.')


def rows_of(text):
    """The first sentence of a file, and its rows. A comment before an empty line is a row, too."""
    rows, comment, name, indent = [], [], None, -1          # the last definition, and its indent
    for line in text.split('\n'):
        here, head = len(line) - len(line.lstrip()), HEAD.match(line)
        if line.strip().startswith('module'):
            name, indent = None, -1
        if 0 <= indent < here or not (head or line.strip().startswith('--')):
            if name and line.strip():
                rows[-1].texts[name] += '\n' + line
            elif comment:
                rows.append(Row(first_sentence(comment), {}))
                name = None
            comment = []
        elif head:
            if comment or len(rows) == 1:
                rows.append(Row(first_sentence(comment) if comment else '', {}))
            comment, name, indent = [], head.group(1), here
            rows[-1].texts[name] = line
        else:
            comment.append(line.strip()[2:].strip())
    return rows[0].rule, rows[1:]


class Specs:
    """A file of specs/: its first sentence and rows, what it imports, what its definitions cite."""

    def __init__(self, crate, file, text):
        self.crate, self.file = crate, file
        self.title, self.rows = rows_of(text)
        self.imports = imports_of(text)
        texts = {name: text for row in self.rows for name, text in row.texts.items()}
        # A value of a type is cited for the type.
        self.own = {value: Definition(crate, file, name) for name, text in texts.items()
                    for value in [*(VALUE.findall(text) if 'pub data ' in text else ()), name]}
        names = {**self.imports, **self.own}
        self.cited = {self.own[name]: set(cited_in(text, names)) - {self.own[name]}
                      for name, text in texts.items()}

    def place(self):
        return self.crate, self.file

    def kinds_in(self, row):
        """The kinds of faults that the definitions of a row name."""
        words = [word for text in row.texts.values() for word in words_in(text)]
        found = dict.fromkeys(member or name for name, member in words
                              if self.imports.get(name) == KIND and name != KIND.name)
        found = [kind for kind in found if kind[0].isupper()]       # no name of an import
        return found if len(found) <= MANY_KINDS else []


# ------------------------------------------------------------------ what a text cites

def imports_of(text):
    """What a text cites by each name that it imports. For a value that is the type, and for a file
    it is a definition without a name."""
    found = {}
    for crate, file, types, names, alias in IMPORT.findall(text):
        types = [word for word in types.split('.') if word and word != 'TheVariants']
        for word in names.split(',') if names else [alias]:
            name, _, other = word.strip().partition(' as ')
            kind = types[-1] if types else '' if alias else name
            found[other or name] = Definition(crate, file, kind)
    return found


def words_in(text):
    """The words of a text, each with what is after its first full stop."""
    for word in WORD.findall(re.sub(r'--.*', '', text)):
        name, _, members = word.partition('.')
        yield name, members.partition('.')[0]


def cited_in(text, imports):
    for name, member in words_in(text):
        if name in imports:
            yield imports[name] if imports[name].name else imports[name]._replace(name=member)


def braced_after(text, start):
    """What is up to the brace that closes the one before a position."""
    depth, end = 1, start
    while depth:
        depth += (text[end] == '{') - (text[end] == '}')
        end += 1
    return text[start:end - 1]


def contracts_of(crate, here):
    """The clauses of the functions of a crate, and what its types are to clauses. The functions of
    a trait are public, too."""
    exported = exported_of(here)
    for file, text in here.code.items():
        imports = imports_of(text)
        of_traits = {name for part in TRAIT.findall(text)
                     for name in re.findall(r'^    fn (\w+)', part, re.M)}
        for _, kind, name, is_public, function in functions_in(text):
            is_public = (kind or name) in exported and (is_public or name in of_traits)
            call = '%s::%s' % (kind, name) if kind else name
            for found in CLAUSE.finditer(function):
                clause = found.group(2) or '' if found.group(1) == 'ensures' else 'requires'
                cited = cited_in(braced_after(function, found.end()), imports)
                is_law = bool(LAW.search(function))
                yield Contract(crate, file, call, clause, is_public, is_law, frozenset(cited))
        for found in MEANING.finditer(text):
            cited = cited_in(found.group(), imports)
            yield Contract(crate, file, found.group(1), 'type', False, False, frozenset(cited))


class Definitions:
    """The definitions of all crates, what cites them, and on which of them public clauses rest."""

    def __init__(self, crates):
        self.specs = {(crate, name[:-len('.antt')]): Specs(crate, name[:-len('.antt')], text)
                      for crate, here in crates.items() for name, text in here.specs.items()
                      if name != 'Lib.antt'}
        self.cited = {one: self.known(found) for specs in self.specs.values()
                      for one, found in specs.cited.items()}
        self.contracts, self.public = {one: [] for one in self.cited}, {}
        for crate, here in crates.items():
            for contract in contracts_of(crate, here):
                for one in self.known(contract.cited):
                    self.contracts[one].append(contract)
                if contract.is_public:
                    self.public.setdefault(contract[:3], []).append(contract)
        self.resting = self.below(one for one, found in self.contracts.items()
                                  if any(contract.is_public for contract in found))
        self.users = {one: [] for one in self.cited}
        for user in sorted(self.cited):
            for one in self.cited[user]:
                self.users[one].append(user)

    def known(self, found):
        """Those that are in specs/, a type in the place of its values."""
        places = ((self.specs.get((one.crate, one.file)), one.name) for one in found)
        return {specs.own[name] for specs, name in places if specs and name in specs.own}

    def below(self, definitions):
        """These, and those of which they are made."""
        ahead, found = list(definitions), set()
        while ahead:
            one = ahead.pop()
            if one not in found:
                found.add(one)
                ahead += self.cited[one]
        return found

    def nearest(self, definitions, fits):
        """Of the contracts that fit, those that cite one of these definitions or, where none does,
        one that is made of them, and so on."""
        layer, seen = list(definitions), set(definitions)
        while layer:
            found = [one for cited in layer for one in self.contracts[cited] if fits(one)]
            if found:
                return found
            layer = [user for one in layer for user in self.users[one]
                     if user not in seen and not seen.add(user)]
        return []


# ------------------------------------------------------------------ the page

def page_of(crate, file):
    """The page that explains a file, if there is one."""
    for name in ('%s/%s' % (crate, file), crate):
        for page, explained in PAGES.items():
            if name in explained:
                return page
    return None


def promises(contract):
    return contract.is_public and contract.clause != 'requires'


def calls_of(contracts, crate):
    """Functions behind their files, with the clauses of public ones; a file of the crate without
    its folder."""
    clauses = {}
    for contract in contracts:
        names = clauses.setdefault(contract[:3], {})
        if contract.is_public and contract.clause:
            names[contract.clause] = True
    texts, before = [], None
    for (where, file, call), names in list(clauses.items())[:FEW]:
        folder = '' if where == crate else where + '/src/'
        texts.append(('`%s%s` ' % (folder, file) if (where, file) != before else '')
                     + '`%s%s`' % (call, ': ' + ', '.join(names) if names else ''))
        before = where, file
    return ', '.join(texts) + (', ..' if len(clauses) > FEW else '')


def shows_public(contracts):
    """Whether calls_of gives a public function, or a type, whose public functions are beside it."""
    shown = list(dict.fromkeys(contract[:3] for contract in contracts))[:FEW]
    return any(contract.is_public or contract.clause == 'type'
               for contract in contracts if contract[:3] in shown)


class Part:
    """The part of the page that is about a file of specs/."""

    def __init__(self, definitions, specs):
        self.definitions, self.specs = definitions, specs
        found = ((row, [one for one in map(specs.own.get, row.texts) if one in definitions.resting])
                 for row in specs.rows)
        self.rows = [(row, listed, self.code(listed)) for row, listed in found]

    def listed(self):
        return {one for _, listed, _ in self.rows for one in listed}

    def is_own(self, contract):
        return contract.crate == self.specs.crate and not contract.is_law

    def code(self, listed):
        """What cites one of these: functions of the crate first, public ones, and those whose
        clauses cite little else. Where none of the crate does, its nearest, a private one if there
        is one, and then those of other crates, private ones first; but for those of the programs,
        which rest on all that is promised of C. Laws come last."""
        found = [contract for one in listed for contract in self.definitions.contracts[one]]
        found = [one for one in found if one.clause != 'requires'] or found
        if any(map(self.is_own, found)):
            return sorted(found, key=lambda one: (
                not self.is_own(one), one.is_law, not one.is_public, len(one.cited)))
        nearest = self.definitions.nearest
        first = nearest(listed, lambda one: self.is_own(one) and not one.is_public) \
            or nearest(listed, self.is_own)
        if all(one.is_law for one in found):
            first = first or nearest(listed, lambda one: not (
                one.is_law or one.is_public or one.crate == PROGRAMS))
        others = sorted(found, key=lambda one: (one.is_law, one.is_public, len(one.cited)))
        first = [one for one in first if one[:3] == first[0][:3]]
        return first + others or nearest(listed, promises)

    def promised(self):
        """The nearest public functions for the rows that show none, with their clauses that rest on
        this file."""
        times, all_listed = Counter(), self.listed()
        for _, listed, code in self.rows:
            if not shows_public(code):
                nearest = self.definitions.nearest(listed, promises)
                times.update({contract[:3] for contract in nearest})
        calls = sorted(times, key=lambda call: (call[0] != self.specs.crate, -times[call], call))
        clauses = [contract for call in calls for contract in self.definitions.public[call]
                   if promises(contract)]
        return calls_of([contract for contract in clauses if all_listed & self.definitions.below(
            self.definitions.known(contract.cited))], self.specs.crate)

    def lines(self):
        """A line for each row, and one for each comment above rows that is about no definition."""
        lines, heading = [], ''
        for row, listed, code in self.rows:
            if not row.texts:
                heading = row.rule
            elif listed:
                lines += ['\n%s:\n' % heading] if heading else []
                lines.append('- %s (%s)%s' % (coded(one.name for one in listed),
                                              calls_of(code, self.specs.crate), self.rule(row)))
                heading = ''
        return lines

    def rule(self, row):
        kinds = coded(self.specs.kinds_in(row))
        return (': ' + row.rule if row.rule else '') + (' (%s)' % kinds if kinds else '')

    def text(self):
        promised = self.promised()
        return '\n### `%s/specs/%s.antt`\n\n%s%s\n\n%s\n' % (
            self.specs.crate, self.specs.file, self.specs.title,
            ', *promised by* ' + promised if promised else '', '\n'.join(self.lines()).lstrip('\n'))


def link_to(crate, file):
    path = '%s/specs/%s.antt' % (crate, file)
    return '[`%s`](#%s)' % (path, re.sub(r'[^\w-]', '', path.lower()))


def made_of(definitions, part):
    """The files, by their pages, of the definitions of which those of a part are made."""
    files = {one[:2] for one in definitions.below(part.listed())} - {part.specs.place()}
    pages = {}
    for crate, file in sorted(files):
        pages.setdefault(page_of(crate, file), []).append(link_to(crate, file))
    return '\nMade of definitions of these files:\n\n' + ''.join(
        '- `%s`: %s\n' % (name, ', '.join(pages[name])) for name in PAGES if name in pages)


def coded(names):
    return ', '.join('`%s`' % name for name in names)


def files_of(crates, page):
    """The files that a page explains, (crate, file), in the order of PAGES and of the crate."""
    for name in PAGES[page]:
        crate, _, one = name.partition('/')
        files = re.findall(r'^pub mod (\w+)', crates[crate].specs['Lib.antt'], re.M)
        for file in [one] if one else files:
            if one or page_of(crate, file) == page:
                yield crate, file


def unlisted_in(definitions):
    """How many definitions of the listed files are not on the page, and the other files."""
    files = {one[:2] for one in definitions.resting}
    count = sum(one[:2] in files for one in definitions.cited) - len(definitions.resting)
    others = {}
    for crate, file in definitions.specs.keys() - files:
        others.setdefault(crate, []).append('%s.antt' % file)
    return count, others


def page(crates):
    """The text of docs/generated/definitions.md."""
    definitions = Definitions(crates)
    texts = [TOP]
    for name in PAGES:
        texts.append('\n## `%s`\n' % name + ('\n%s\n' % NOTES[name] if name in NOTES else ''))
        parts = [Part(definitions, definitions.specs[at]) for at in files_of(crates, name)]
        for part in parts:
            if part.listed():
                texts.append(part.text())
                if part.specs.place() in LEADING:
                    texts.append(made_of(definitions, part))
    count, others = unlisted_in(definitions)
    texts.append(BOTTOM % count)
    texts += ['- `%s`: %s\n' % (crate, coded(sorted(others[crate]))) for crate in sorted(others)]
    return ''.join(texts)


def main():
    here = os.path.dirname(os.path.abspath(__file__))
    top = sys.argv[1] if len(sys.argv) > 1 else os.path.join(here, '..')
    with open(os.path.join(top, 'docs', 'generated', 'definitions.md'), 'w', encoding='utf-8') as file:
        file.write(page(crates_in(top)))


if __name__ == '__main__':
    main()
