"""The documents name what is there, and wrong bodies are tried for what is public.

usage: documents.py [FOLDER]      the folder of the repository

- docs/generated/definitions.md is what tests/definitions.py makes of the sources; bugs that are
  planted in a copy of these change it. Each page of docs/ that leads to it has a part there. It has
  just the files of specs/ on which clauses of public functions rest, and each kind of fault.
- docs/faults.md: the kinds of faults, their messages and levels are those of the code.
- docs/words.md: each name of the code is in the crate beside it. The names of types are made of its
  words and of PLAIN. No word that these replaced is in the sources, the definitions, the proofs or
  the documents, and no phrase of STIFF in a page.
- docs/DECISIONS.md: each crate exports what the table of the surface says, and besides only laws.
- docs/promises.md: the page has each crate below those that it uses. Each public call has a
  comment, and a clause unless the page says that it has none.
- Each file, name and make target of docs/promises.md and CONTRIBUTING.md is there. What
  CONTRIBUTING.md quotes is in the file that it names.
- docs/layers.md: each definition of its first two tables is in the file beside it.
- docs/sessions.md: the reference gives the answers of its conversation; each line of a script is in
  its table and in docs/retangle.1.
- Every page: what its links lead to is there, headings too, and so is each path that it has in code.
  A path before other words is that of a command.
  docs/README.md names each page of docs/. README.md and PROOFS.md are short.
- The manual pages, CHANGELOG.md and `retangle --version` have the same version, and the manual pages
  the date of CHANGELOG.md.
- crates/*/must-fail and tests/wrong-bodies: each public function that is no law has an edit of its own, or of a private
  function that it calls, unless docs/wrong-bodies.md has it in a row '| `CRATE` | without an edit: `TYPE::NAME`, `NAME` |
  why |'. Each text that an edit replaces is once in its file.
- docs/wrong-bodies.md: a table has each edit of the gate, with the clause that refuses it. Each of these has a right
  twin in tests/right-bodies, and each twin replaces the same texts as the edit of its name.
- The crates from the expansions upwards: works are begun, nodes expanded and expansions written where
  CALLS and MADE say, and nowhere else; bugs that are planted in a copy of the code are seen.
The last line is 'N passed, M failed'.
"""
import copy
import glob
import os
import re
import sys

import definitions
from sources import crates_in, exported_of, functions_in, functions_of, page_in, surface_of

sys.path.insert(0, os.path.join(os.path.dirname(os.path.abspath(__file__)), 'reference'))
from checks import check, conversation_of, finish
from scripts import answer

CODED = re.compile(r'`([^`]+)`')

# Words that those of docs/words.md replaced.
REPLACED = re.compile(
    r'\b(?:told|tells?|wanted|wants|talk|put\s+out|hands\s+on|handed\s+on|handed\s+over|Ground|Tangled|byte_count|Spot|'
    r'RoleNames|ItemCode|NodeText|Placed|is_extended|name_after_mark|PutsOut|Telling|behind(?!\s+an\s+`Rc`))\b')

# Words of plain English, of Rust and of C in the names of types.
PLAIN = set(
    'after arguments asked bodies buffer buffers builder built by counts created discarding disk '
    'ended equals failed found graph growing include io left list load last matched memory next no '
    'notes old one resolved rest retangle search shared slice start state stuck unwritten values '
    'write'.split())

# Phrases that a reader has to read twice, and that plain sentences replaced.
STIFF = re.compile('|'.join(phrase.replace(' ', r'\s+') for phrase in (
    'stays apart for', 'with just the accepted edits made', 'that report bytes', 'holds of what', 'Readers judge',
    'are those affected, each', 'is at its line for', 'there only where it holds', 'at its front belongs to',
    'always does so', 'its result cannot refuse', 'where reader, writer or folder report', 'refuse such a body')))

# The folders whose pages' links are followed, and those to which a path in code leads.
LINKED = ('', 'docs', 'docs/generated', 'bench', 'tests', 'tests/reference')
FOLDERS = ('crates', 'docs', 'examples', 'tests', 'bench')

# The crates in which nodes are expanded and expansions written.
EXPANDING = ('tangle_bodies', 'tangle_expansion', 'tangle_graph', 'tangle_session', 'ctangle_cli', 'ctangle',
             'retangle')

# Which function calls what, once in its text. A session begins one work in a start and one in a
# list of edits (one edit is made as a list), and starts no other session; each expansion is made in
# `expand`, which notes its node in the work. So last_work() counts all that was expanded. Outputs
# are written into the writer as they are made, and only where they are asked for, so that no
# session holds them.
CALLS = {
    'Work::new': ['tangle_session/session.rt: start', 'tangle_session/tangling.rt: tangle_again'],
    'expand_all': ['tangle_session/session.rt: start'],
    'expand_again': ['tangle_session/tangling.rt: tangle_again'],
    'affected': [],
    'reaching_new_shapes': ['tangle_graph/edits.rt: affected', 'tangle_graph/keeping.rt: expand_again'],
    'expand_next': ['tangle_graph/keeping.rt: expand_all', 'tangle_graph/keeping.rt: expand_again'],
    'expand': ['tangle_graph/keeping.rt: expand_next', 'tangle_graph/store.rt: expand'],
    'expansion_of': ['tangle_expansion/expanding.rt: expand'],
    'make': ['tangle_graph/bodies.rt: body_after'],
    'write_text_after': ['tangle_expansion/writing.rt: write_text_after', 'tangle_expansion/writing.rt: write_text',
                         'tangle_expansion/outputs.rt: write_file'],
    'write_text': [],
    'write_file': ['tangle_expansion/outputs.rt: file_size', 'tangle_session/session.rt: write_output_at'],
    'create_output': ['ctangle_cli/writing.rt: create_outputs'],
    'Session::start': ['ctangle_cli/run.rt: start_session', 'tangle_session/histories.rt: start_and_edit'],
    'Analysis::build': ['tangle_session/session.rt: start', 'tangle_session/tangling.rt: tangle_again'],
    'tangle_again': ['tangle_session/session.rt: apply_all'],
    'apply_all': ['tangle_session/session.rt: apply', 'tangle_session/histories.rt: apply_each',
                  'ctangle_cli/conversation.rt: commit'],
    'write_output_at': ['tangle_session/session.rt: write_output', 'ctangle_cli/writing.rt: create_output'],
    'write_output': ['ctangle_cli/conversation.rt: show'],
    'file_size': ['tangle_session/session.rt: output_size'],
}

# Where a value is made by its fields. A second work or expansion is made in no other way: neither
# type is copied, and a share of an expansion expands nothing.
MADE = {
    'Work': ['tangle_expansion/work.rt: new'],
    'SharedExpansion': ['tangle_expansion/expanding.rt: expansion_of'],
    'Expansion': ['tangle_expansion/expanding.rt: expansion_of', 'tangle_expansion/expansion.rt: share'],
}

# The callers that have a loop, and what they do in it: nodes are expanded in their order, what an
# expansion uses is written where it is used, and the outputs are written one by one.
LOOPS = ['tangle_graph/keeping.rt: expand_all', 'tangle_graph/keeping.rt: expand_again',
         'tangle_expansion/expanding.rt: expansion_of', 'tangle_expansion/writing.rt: write_text_after',
         'tangle_session/histories.rt: apply_each', 'ctangle_cli/writing.rt: create_outputs']

# Bugs that no clause sees, in a file of a crate: what is replaced and by what, in turn.
PLANTED = {
    'all nodes are expanded in a second work at each edit': (
        'tangle_graph', 'keeping.rt', '    let flags = reaching_new_shapes(alloc, new, new_shapes, order)?;\n',
        '    let flags = reaching_new_shapes(alloc, new, new_shapes, order)?;\n'
        '    let mut second = Work::new(alloc);\n    drop(expand_all(alloc, new, &mut second)?);\n'),
    'each node is expanded in a second work too': (
        'tangle_graph', 'store.rt', '        expand(alloc, node, &bodies[node.number()], kept, work)\n',
        '        let mut second = Work::new(alloc);\n'
        '        drop(expand(alloc, node, &bodies[node.number()], kept, &mut second)?);\n'
        '        expand(alloc, node, &bodies[node.number()], kept, work)\n'),
    'an expansion is made twice and noted once': (
        'tangle_expansion', 'expanding.rt', '    work.add(node)?;\n',
        '    drop(expansion_of(alloc, body, kept)?);\n    work.add(node)?;\n'),
    'an expansion is made twice in a loop and noted once': (
        'tangle_expansion', 'expanding.rt', '    let expansion = expansion_of(alloc, body, kept)?;\n',
        '    let mut made = Vec::new(alloc);\n    for _ in 0..2 {\n'
        '        made.push(expansion_of(alloc, body, kept)?)?;\n    }\n    let expansion = made.pop().unwrap();\n'),
    'a function that expands goes by another name': (
        'tangle_graph', 'keeping.rt', '    let expansion = store.expand(alloc, node, kept, work)?;\n',
        '    let twice = Store::expand;\n    let expansion = twice(store, alloc, node, kept, work)?;\n'),
    'a work is made by its fields': (
        'tangle_expansion', 'expanding.rt', '    work.add(node)?;\n',
        '    let second = Work { nodes: Vec::new(alloc) };\n    drop(second);\n    work.add(node)?;\n'),
    'a session writes its outputs when it starts': (
        'tangle_session', 'session.rt', '        let mut work = Work::new(alloc);\n',
        '        write_text(&expansion, node, &analysis.numbers, &mut sink)?;\n        let mut work = Work::new(alloc);\n'),
    'a second session is started for a list of edits': (
        'tangle_session', 'session.rt', '        let marks = mode_after(&self.roles, edits);\n',
        '        if let (Ok(files), Ok(roles)) = (self.state.files.copy(), roles_of(&self.roles)) {\n'
        '            drop(Session::start(self.alloc, files, roles));\n        }\n'
        '        let marks = mode_after(&self.roles, edits);\n'),
    'a session holds the bytes of its outputs': (
        'tangle_session', 'session.rt', '    alloc: Global,\n}\n',
        '    alloc: Global,\n    outputs: IoSink<Vec<u8>>,\n}\n', '        self.state = next;\n',
        '        self.state = next;\n        for name in self.output_names() {\n'
        '            let _ = self.write_output(name, &mut self.outputs);\n        }\n'),
}

# Bugs that change docs/generated/definitions.md, in a file of a crate: what is replaced, and by what.
MISTAKEN = {
    'a clause promises less': (
        'tangle_lines', 'code', 'reading.rt', 's ≡ source_of files.entry.now roles.now', 's ≡ s'),
    'a definition has another name': (
        'tangle_scan', 'specs', 'Rules.antt', 'abbrev pub has_join ', 'abbrev pub has_joint '),
    'a rule is another one': (
        'tangle_names', 'specs', 'Names.antt', '-- the name begins with', '-- the name ends with'),
    'a function has another name': (
        'tangle_scan', 'code', 'macro_items.rt', 'fn may_follow_name', 'fn may_come_next'),
}


# ------------------------------------------------------------------ definitions and faults

def check_definitions(crates, top):
    name = 'docs/generated/definitions.md'
    text, found = page_in(top, name), definitions.Definitions(crates)
    check(text == definitions.page(crates), name, 'is not made of these sources: run make documents')
    for bug, (crate, part, file, old, new) in MISTAKEN.items():
        texts = getattr(crates[crate], part)
        check(texts[file].count(old) == 1, 'a planted bug', 'where %s is planted' % bug)
        mistaken = copy.copy(crates[crate])
        setattr(mistaken, part, {**texts, file: texts[file].replace(old, new)})
        check(definitions.page({**crates, crate: mistaken}) != text, 'a planted bug',
              '%s, and it is not seen' % bug)
    for page in pages_of(top, 'docs'):
        leads = '`%s` leads from each rule' % name in page_in(top, page)
        check(not leads or '\n## `%s`\n' % page in text, name, 'nothing of %s' % page)
    for page in definitions.PAGES:
        check(os.path.exists(os.path.join(top, page)), name, 'no page %s' % page)
    resting = {(one.crate, one.file) for one in found.resting}
    for crate, file in found.specs:
        has_part = '\n### `%s/specs/%s.antt`\n' % (crate, file) in text
        rests = (crate, file) in resting
        check(has_part == rests, name, '%s.antt of %s has %s part, and %s public clause rests on it'
              % (file, crate, 'a' if has_part else 'no', 'a' if rests else 'no'))


def check_faults(crates, top):
    """The rows of docs/faults.md, KIND or KIND, a warning | message | line, are the kinds of the
    code, in their order."""
    name = 'docs/faults.md'
    rows = re.findall(r'^\| `(\w+)`(, a warning)? \| `([^`]*)`', page_in(top, name), re.M)
    code, specs = crates['tangle_faults'].code, crates['tangle_faults'].specs
    enum = re.search(r'pub enum FaultKind \{(.*?)\n\}', code['faults.rt'], re.S).group(1)
    kinds = re.findall(r'^    (\w+),', enum, re.M)
    check([row[0] for row in rows] == kinds, name, 'other kinds than FaultKind has')
    messages = dict(re.findall(r'FaultKind::(\w+) => \(\s*b"([^"]*)"', code['fault_line.rt']))
    page = page_in(top, 'docs/generated/definitions.md')
    for kind, warning, message in rows:
        check(message.startswith(messages.get(kind, '?')), name, 'another message of %s' % kind)
        is_warning = 'is_error_kind %s = false' % kind in specs['Faults.antt']
        check(is_warning == bool(warning), name, '%s is a warning, or none' % kind)
        check('`%s`' % kind in page, 'docs/generated/definitions.md', 'nothing of %s' % kind)


# ------------------------------------------------------------------ the conversation

def check_conversation(top):
    """The reference gives the answers of the conversation in docs/sessions.md."""
    web, turns = conversation_of(top)
    typed, answered = (b''.join(parts) for parts in zip(*turns))
    check(answer({'a.w': web}, typed).written == answered, 'docs/sessions.md', 'another conversation')


def check_commands(crates, top):
    """Each line of a script, by the table of specs/, is a row of docs/sessions.md and an entry of
    docs/retangle.1."""
    table = crates['tangle_script'].specs['Table.antt']
    commands = {word.strip() for word in re.findall(r'^IsRow c .*?codes "([^"]+)"', table, re.M)}
    with open(os.path.join(top, 'docs', 'sessions.md'), encoding='utf-8') as source:
        first_cells = ' '.join(re.findall(r'^\|([^|]*)\|', source.read(), re.M))
    rows = {re.match(r'[a-z ]*', word).group().strip() for word in CODED.findall(first_cells)}
    with open(os.path.join(top, 'docs', 'retangle.1'), encoding='utf-8') as source:
        entries = set(re.findall(r'^\.TP\n\.BI? ([a-z ]*[a-z])', source.read(), re.M))
    check(commands, 'specs/Table.antt', 'no line of a script is found')
    for command in sorted(commands):
        check(command in rows, 'docs/sessions.md', '%s is in no table' % command)
        check(command in entries, 'docs/retangle.1', '%s has no entry' % command)


# ------------------------------------------------------------------ words

def check_words(top, crates):
    """The rows of docs/words.md: WORD | MEANING | its crate | NAME, .. | CWEB's word. A name may be TYPE::NAME."""
    with open(os.path.join(top, 'docs', 'words.md'), encoding='utf-8') as source:
        rows = [line.strip('|').split(' | ') for line in re.findall(r'^\|.*\|$', source.read(), re.M)[2:]]
    check(rows, 'docs/words.md', 'no row')
    for row in rows:
        names = CODED.findall(row[3]) if len(row) == 5 else []
        crate = crates.get(row[2].strip(' `')) if names else None
        check(crate, 'docs/words.md', 'no row: %s' % ' | '.join(row))
        for name in names if crate else []:
            texts = '\n'.join([crate.whole, *crate.specs.values()])
            found = all(re.search(r'\b%s\b' % word, texts) for word in name.split('::'))
            check(found, 'docs/words.md', '%s is not in %s' % (name, row[2].strip(' `')))


def check_types(top, crates):
    """Each word in the name of a type is in the first or the fourth column of docs/words.md, or in
    PLAIN."""
    page = page_in(top, 'docs/words.md')
    rows = re.findall(r'^\|([^|]*)\|[^|]*\|[^|]*\|([^|]*)\|', page, re.M)
    known = {word.lower() for row in rows for cell in row
             for word in re.findall('[A-Z]?[a-z]+|[A-Z]+', cell)}
    for crate, here in crates.items():
        for name in re.findall(r'^(?:pub(?:\(crate\))? )?(?:struct|enum|trait) (\w+)', here.whole,
                               re.M):
            for word in re.findall('[A-Z][a-z]*', name):
                forms = {word.lower(), word.lower() + 's', word.lower().rstrip('s')}
                check(forms & (known | PLAIN), 'docs/words.md',
                      'no %s, as in %s of %s' % (word, name, crate))


def check_replaced_words(top):
    """None of REPLACED is in the sources, the definitions, the proofs or the documents."""
    folders = [os.path.join('crates', crate, part) for crate in sorted(os.listdir(os.path.join(top, 'crates')))
               for part in ('src', 'specs', 'proofs')]
    paths = pages_of(top, '') + [os.path.relpath(os.path.join(folder, file), top)
                                 for part in folders + ['docs']
                                 for folder, _, files in os.walk(os.path.join(top, part)) for file in sorted(files)]
    for path in paths:
        with open(os.path.join(top, path), encoding='utf-8') as source:
            text = source.read()
        words = list(REPLACED.finditer(text)) + [word for word in STIFF.finditer(text) if path.endswith('.md')]
        found = ['line %d: %s' % (text.count('\n', 0, word.start()) + 1, word.group()) for word in words]
        check(not found, path, ', '.join(found))


# ------------------------------------------------------------------ links, lengths and versions

def pages_of(top, folder):
    """The pages of a folder, in their order."""
    return [os.path.join(folder, name) for name in sorted(os.listdir(os.path.join(top, folder))) if name.endswith('.md')]


def anchors_of(text):
    """What a link after # may name: the headings, in small letters, with hyphens for spaces."""
    return {re.sub(r'[^\w\- ]', '', heading.lower()).replace(' ', '-')
            for heading in re.findall(r'^#+ (.*)', without_blocks(text), re.M)}


def without_blocks(text):
    return re.sub(r'^    .*', '', text, flags=re.M)


def check_links(top):
    """What the links of all pages lead to is there, and so is each path of this repository that a page has in code."""
    pages = [page for folder in LINKED for page in pages_of(top, folder)]
    for page in pages:
        text = without_blocks(page_in(top, page))
        for link in re.findall(r'\]\(([^)]*)\)', text):
            path, _, anchor = link.partition('#')
            to = os.path.normpath(os.path.join(os.path.dirname(page), path)) if path else page
            is_there = os.path.exists(os.path.join(top, to))
            check(is_there, page, '%s leads to no file' % link)
            if is_there and anchor:
                check(anchor in anchors_of(page_in(top, to)), page, '%s leads to no heading' % link)
        for path in re.findall(r'`((?:%s)/[^`\s]*)' % '|'.join(FOLDERS), text):
            found = glob.glob(os.path.join(top, re.sub('[A-Z]{4,}', '*', path)))
            check(found, page, '%s is not there' % path)
        for path in re.findall(r'`(tests/[\w.]+) [^`]*`', text):
            check(os.access(os.path.join(top, path), os.X_OK), page, '%s is no command' % path)
    listed = page_in(top, 'docs/README.md')
    for name in sorted(os.listdir(os.path.join(top, 'docs'))):
        check(name == 'README.md' or '](%s' % name in listed, 'docs/README.md', 'docs/%s is not in it' % name)


def check_lengths(top):
    for page, most in (('README.md', 450), ('PROOFS.md', 600)):
        words = len(page_in(top, page).split())
        check(words <= most, page, '%d words' % words)


def check_versions(crates, top):
    """The version and the day of CHANGELOG.md's first heading are those of the manual pages, NAME, version and day by
    .TH, and the version that of retangle."""
    newest = re.findall(r'^## (\S+), (.*)', page_in(top, 'CHANGELOG.md'), re.M)[:1]
    for version in re.findall(r'\.version\("([^"]*)"\)', crates['ctangle_cli'].whole):
        check([version] == [one[0] for one in newest], 'CHANGELOG.md', 'retangle has the version %s' % version)
    for page in sorted(name for name in os.listdir(os.path.join(top, 'docs')) if name.endswith('.1')):
        head = re.match(r'\.TH \S+ 1 "([^"]*)" "%s ([^"]*)"' % page[:-2], page_in(top, 'docs/' + page))
        found = [(head.group(2), head.group(1))] if head else []
        check(found == newest, 'docs/' + page, 'its version and date are not those of CHANGELOG.md')


# ------------------------------------------------------------------ crates and calls

def check_surface(crates, top):
    """The names in the table of docs/DECISIONS.md, CRATE | of its own | re-exported, are what the crate exports, but for
    laws."""
    name = 'docs/DECISIONS.md'
    with open(os.path.join(top, name), encoding='utf-8') as source:
        table = re.search(r'^\| Crate \| Of its own \| Re-exported \|\n.*\n((?:\|.*\n)*)', source.read(), re.M)
    check(table, name, 'no table of the surface')
    for row in table.group(1).splitlines() if table else []:
        crate, *words = CODED.findall(row)
        check(crate in crates and words, name, 'no row: %s' % row)
        if crate not in crates:
            continue
        exported = exported_of(crates[crate])
        for word in words:
            check(word in exported, name, '%s does not export %s' % (crate, word))
        laws = {one[3] for one in functions_of(crates[crate]) if definitions.LAW.search(one[5])}
        missing = sorted(exported - laws - set(words))
        check(not missing, name, '%s exports %s' % (crate, ', '.join(missing)))


def check_crates(crates, top):
    """The table of docs/promises.md names each crate below those that it uses."""
    name = 'docs/promises.md'
    cells = re.findall(r'^\| (`.*?) \|', page_in(top, name), re.M)
    named = CODED.findall(' '.join(cells))
    check(sorted(named) == sorted(crates), name, 'other crates: %s' % ', '.join(named))
    for crate, libraries in re.findall(r'^(\w+):(.*)', page_in(top, 'crates.txt'), re.M):
        above = named[:named.index(crate)] if crate in named else []
        used = [library for library in libraries.split() if library in crates]
        missing = [library for library in used if library not in above]
        check(not missing, name, '%s is not below %s' % (crate, ', '.join(missing)))


def check_calls_say(crates, top):
    """Each public call has a comment, and a clause unless docs/promises.md says that it has none."""
    without = set(re.findall(r'`(\w+)` has no clause', page_in(top, 'docs/promises.md')))
    for crate, here in crates.items():
        for file, start, _, call, _, function in surface_of(here, functions_of(here)):
            before = re.sub(r'^ *#\[.*\n', '', here.code[file][:start], flags=re.M).rstrip()
            check(before.split('\n')[-1].lstrip().startswith('///'), crate, '%s has no comment' % call)
            says = re.search(r'\bensures\b', function) or call in without
            check(says, crate, '%s has no clause' % call)


# ------------------------------------------------------------------ what pages name

def check_names(crates, top, page):
    """Each file, make target and name that a page has in code is there, a name in a crate or in a
    file of the page."""
    words = CODED.findall(re.sub(r'^    .*', '', page_in(top, page), flags=re.M))
    targets = re.findall(r'^(\w+):', page_in(top, 'Makefile'), re.M)
    texts = [text for here in crates.values() for text in [here.whole, *here.specs.values()]]
    texts += [page_in(top, word) for word in words if os.path.isfile(os.path.join(top, word))]
    known = {*re.findall(r'\w+', '\n'.join(texts)), *crates, 'must', 'fail'}
    for word in words:
        first, _, rest = word.partition(' ')
        if first == 'make':
            check(not rest or rest in targets, page, 'no target %s' % rest)
        elif '/' in first or first.endswith('.md'):
            check(os.path.exists(os.path.join(top, first)), page, 'no file %s' % first)
        elif first not in ('rt', 'python3') and re.match(r'\w', word):
            missing = set(re.findall(r'\w+', word)) - known
            check(not missing, page, '%s: no %s' % (word, ', '.join(sorted(missing))))


def check_forms(crates, top):
    """A cell `NAME`, .. in `FILE` has names that the file of specs/ defines."""
    cells = re.findall(r'\| ((?:`\w+`(?:, )?)+) in `crates/(\w+)/specs/(\w+\.antt)` \|', page_in(top, 'docs/layers.md'))
    check(len(cells) > 20, 'docs/layers.md', 'no definitions')
    for names, crate, file in cells:
        for name in CODED.findall(names):
            found = re.search(r'^ *abbrev pub %s :' % name, crates[crate].specs.get(file, ''), re.M)
            check(found, 'docs/layers.md', '%s is not in %s' % (name, file))


def check_quotes(top, page):
    """A block after a paragraph that ends in a colon has lines of the file that this names last."""
    blocks = r'((?:^(?!    ).+\n)*^(?!    ).+:\n)\n((?:^    .*\n)+)'
    for before, block in re.findall(blocks, page_in(top, page), re.M):
        file = (CODED.findall(before) or [''])[-1]
        check(os.path.isfile(os.path.join(top, file)), page, 'no file before %s' % block)
        if os.path.isfile(os.path.join(top, file)):
            lines = [line.strip() for line in page_in(top, file).split('\n')]
            for line in block.splitlines():
                check(line.strip() in lines, page, '%s does not have: %s' % (file, line.strip()))


# ------------------------------------------------------------------ wrong bodies

def check_edits(crate, here, excused):
    edits = [*here.edits.values(), *here.further_edits.values()]
    edited = set().union(*(edited_functions(here, text) for text in edits))
    if not edited:
        return
    functions = functions_of(here)
    surface = surface_of(here, functions)
    private = {one[3]: one for one in functions if one not in surface}
    for one in surface:
        file, _, kind, name, _, text = one
        if not is_law(text) and not {kind, name, '%s::%s' % (kind, name)} & excused:
            check(edited & reached(one, private), '%s/must-fail' % crate, '%s of %s has no edit' % (name, kind or file))


def turns_of(edit):
    """What an edit replaces, in turn: the file if it is named anew, the old text and the new one."""
    return re.findall(r'^(?:file: (\S+)\n)?old: ?(.*)\nnew: ?(.*)', edit, re.M)


def has_clause(here, cell):
    """Whether a crate has what a cell names: `CLAUSE` of `FUNCTION`, `FUNCTION` alone if its clause has no name, or the
    invariant of `TYPE`."""
    *clause, name = CODED.findall(cell) or ['']
    kind, _, called = name.rpartition('::')
    if cell.startswith('the invariant of '):
        return re.search(r'^impl Model for %s \{\n(?:    .*\n|\n)*    ghost invariant = ' % name, here.whole, re.M)
    texts = [one[5] for one in functions_of(here) if one[3] == called and kind in ('', one[2])]
    return any(re.search(r'\bensures\s+%s\s*\{' % ''.join(clause), text) for text in texts)


def check_gate_table(crates, page):
    """The rows CRATE | EDIT | CLAUSE are the edits of the gate, each with a clause that is there. Each edit has a twin."""
    name = 'docs/wrong-bodies.md'
    table = re.search(r'^\| Crate \| Edit \| Refused at \|\n.*\n((?:\|.*\n)*)', page, re.M)
    rows = re.findall(r'^\| `(\w+)` \| `([\w-]+)` \| (.*) \|$', table.group(1) if table else '', re.M)
    edits = [(crate, edit[:-len('.edit')]) for crate, here in crates.items() for edit in here.edits]
    check([row[:2] for row in rows] == edits, name, 'its table does not have just the edits of the gate')
    for crate, edit, cell in rows:
        check(crate in crates and has_clause(crates[crate], cell), name, '%s: no such clause: %s' % (edit, cell))
    for crate, edit in edits:
        check(edit + '.edit' in crates[crate].twins, name, '%s has no twin' % edit)


def check_twins(crate, here):
    """Each twin has the name of an edit, and replaces the same texts."""
    edits = {**here.edits, **here.further_edits}
    for name, twin in here.twins.items():
        olds = [turn[:2] for turn in turns_of(twin)]
        check(olds and olds == [turn[:2] for turn in turns_of(edits.get(name, ''))],
              'tests/right-bodies/%s/%s' % (crate, name), 'no edit of this name replaces the same texts')


def check_edits_apply(crate, here):
    """Each text that an edit replaces is once in its file, when its turn comes."""
    files = {**{'src/' + file: text for file, text in here.code.items()},
             **{'specs/' + file: text for file, text in here.specs.items()}}
    for name, edit in [*here.edits.items(), *here.further_edits.items(), *here.twins.items()]:
        texts, file = dict(files), None
        turns = turns_of(edit)
        check(turns, '%s/must-fail/%s' % (crate, name), 'nothing is replaced')
        for named, old, new in turns:
            file = named or file
            times = texts.get(file, '').count(old)
            check(times == 1, '%s/must-fail/%s' % (crate, name), '%d times %s' % (times, old))
            texts[file] = texts.get(file, '').replace(old, new, 1)


def code_of(text):
    """Without comments and imports."""
    text = re.sub(r'//.*', '', text)
    return re.sub(r'^\s*(?:ghost )?(?:pub(?:\(crate\))? )?use [^;]*;', '', text, flags=re.M)


def uses_of(texts, word):
    """Where a word is that has this form: FILE: FUNCTION, once for each time."""
    found = []
    for file, text in texts.items():
        functions = list(functions_in(text))
        before = functions[0][0] if functions else len(text)
        found += ['%s: no function' % file for _ in re.findall(word, text[:before])]
        found += ['%s: %s' % (file, one[2]) for one in functions for _ in re.findall(word, one[4])]
    return found


def problems_of_calls(sources):
    """What is not as CALLS, MADE and LOOPS say; sources has the code of each file, by CRATE/FILE."""
    texts = {file: code_of(text) for file, text in sources.items()}
    whole = '\n'.join(texts.values())
    problems = ['%s has another name' % word for word in {*(called.split('::')[0] for called in CALLS), *MADE}
                for text in sources.values() if re.search(r'\b%s\s+as\b' % word, re.sub(r'//.*', '', text))]
    for called, expected in CALLS.items():
        name = r'(?<!fn )(?<!\w)%s(?!\w)' % called.replace('::', r'\s*>?\s*::\s*')
        found = uses_of(texts, name)
        if sorted(found) != sorted(expected):
            problems.append('%s is in %s' % (called, ', '.join(found) or 'no function'))
        if re.search(name + r'(?!\s*(?:::\s*<[^>]*>)?\s*\()', whole):
            problems.append('%s is where it is not called' % called)
    for made, expected in MADE.items():
        found = uses_of(texts, r'(?<!impl )(?<!for )(?<!struct )(?<!-> )(?<!\w)%s \{' % made)
        if sorted(found) != sorted(expected):
            problems.append('%s is made in %s' % (made, ', '.join(found) or 'no function'))
        if re.search(r'\btype\s[^;]*=[^;]*\b%s\b' % made, whole):
            problems.append('%s has another name' % made)
        if re.search(r'#\[derive\((?!Drop\)\])[^\]]*\]\s*pub(?:\(crate\))? struct %s\b' % made, whole):
            problems.append('%s may be copied' % made)
    for kind, file in (('Work', 'tangle_expansion/work.rt'), ('Session', 'tangle_session/session.rt')):
        if re.search(r'\bSelf\s*(?:\{|::)', texts[file]):
            problems.append('%s has another name in %s' % (kind, file))
    callers = set().union(*CALLS.values(), *MADE.values()) - {'tangle_expansion/work.rt: new'}
    for file, text in texts.items():
        for _, _, name, _, body in functions_in(text):
            caller = '%s: %s' % (file, name)
            body = re.match(r'\n*( *)(?s:.*?)(?:\n\1\}|\Z)', body).group()
            loops = len(re.findall(r'\b(?:for|while|loop)\b|\|[\w\s,&]*\|', body))
            if caller in callers and loops != (caller in LOOPS):
                problems.append('%s has %d loops' % (caller, loops))
    return problems


def check_calls(crates):
    sources = {'%s/%s' % (crate, file): text
               for crate in EXPANDING for file, text in crates[crate].code.items()}
    for problem in problems_of_calls(sources) or ['']:
        check(not problem, 'what expands and writes', problem)
    for bug, (crate, file, *texts) in PLANTED.items():
        path = '%s/%s' % (crate, file)
        planted = dict(sources)
        for old, new in zip(texts[::2], texts[1::2]):
            check(planted[path].count(old) == 1, 'a planted bug', 'where %s is planted' % bug)
            planted[path] = planted[path].replace(old, new)
        check(problems_of_calls(planted), 'a planted bug', '%s, and it is not seen' % bug)


def is_law(text):
    """A law has neither parameters nor a result, and its body is empty or only calls laws."""
    text = re.sub(r'^\s*(//|#\[).*$', '', text, flags=re.M).rstrip()
    return definitions.LAW.search(text) and re.search(r'\{(\s*\w+\(\);)*\s*\}\s*\Z', text)


def edited_functions(here, edit):
    """The functions that an edit changes; its replacements are made one after the other. An edit of a definition changes
    none."""
    file = (re.search(r'^file: src/(\S+)', edit, re.M) or [None, None])[1]
    text, found = here.code.get(file, ''), set()
    for old, new in re.findall(r'^old: ?(.*)\nnew: ?(.*)', edit, re.M):
        at = text.find(old)
        inside = [(file, one[1:4]) for one in functions_in(text) if one[0] <= at]
        found |= set(inside[-1:])
        text = text.replace(old, new, 1)
    return found


def identity(one):
    """A function by its file, type, name and whether it is public; positions change while an edit is made."""
    return one[0], one[2:5]


def reached(one, private):
    """The function, and the private ones that it calls, and those that they call."""
    found, ahead = {identity(one)}, [one]
    while ahead:
        for word in re.findall(r'\b(\w+)\(', ahead.pop()[5]):
            called = private.get(word)
            if called and identity(called) not in found:
                found.add(identity(called))
                ahead.append(called)
    return found


def main():
    top = sys.argv[1] if len(sys.argv) > 1 else os.path.join(os.path.dirname(os.path.abspath(__file__)), '..')
    crates = crates_in(top)
    check_definitions(crates, top)
    check_faults(crates, top)
    check_conversation(top)
    check_commands(crates, top)
    check_words(top, crates)
    check_types(top, crates)
    check_replaced_words(top)
    check_links(top)
    check_lengths(top)
    check_versions(crates, top)
    check_surface(crates, top)
    check_crates(crates, top)
    check_calls_say(crates, top)
    check_names(crates, top, 'docs/promises.md')
    check_names(crates, top, 'CONTRIBUTING.md')
    check_quotes(top, 'CONTRIBUTING.md')
    check_forms(crates, top)
    page = page_in(top, 'docs/wrong-bodies.md')
    rows = re.findall(r'^\| `(\w+)` \| without an edit: ([^|]*)', page, re.M)
    check_gate_table(crates, page)
    for crate, here in crates.items():
        check_twins(crate, here)
        check_edits(crate, here, {name for row in rows if row[0] == crate for name in CODED.findall(row[1])})
        check_edits_apply(crate, here)
    check_calls(crates)
    return finish()


if __name__ == '__main__':
    sys.exit(main())
