"""Measures the built programs on generated webs, and prints tables with ratios and limits. It
passes or fails nothing.

usage: bench/run.py CTANGLE RETANGLE [PART..]
parts: cutting, reading, scanning, names, whole, kinds, files, session, edits, marks, lists

Where WEBS names a folder, whole runs over each web in it are measured too. Another ctangle on the
path is measured beside ours, in turn with it. Seconds are those of the processor, the least of
some runs; below a table of them is the load of the machine.

What a layer takes is found by where a run ends, and by what it finds. A change file that is not
there ends it once the web is cut into lines, an inclusion that cannot be read once the sources
were read, and a fault that cannot be reported, since standard error is full, once all is tangled
and before the first file is written. Scanning has no end of its own. But a part whose name is an
abbreviation of no name is read and scanned like any other, and then dropped: no body, weight or
number of it is made. So a run over such parts that ends at its first fault is a run up to the end
of scanning, but for what these names and their faults take, which is found by two webs with the
names alone and with control texts in their place. Where parts with names are compared with
dropped ones, what is after scanning lies between two numbers: with the table of names in it, and
without, but also without the faults of names that are none. What an edit or a list of edits takes
is found by two scripts, one with more of them than the other. Instructions are counted by perf
where it counts them here, else by valgrind; without both they are left out.
"""
import glob
import os
import shutil
import subprocess
import sys
import tempfile

import webs
from dense import dense_webs
from kinds import KINDS, Kind
from measuring import HERE, RUNS, UNREPORTED, Bench, Command, lines_of, own_instructions

DROPPED = '...'             # after the names of parts: they are abbreviations of none
REQUIRED = {'hiformat.w': 0.29, 'mp.w': 0.30, 'hitex.w': 0.40,     # beside CTANGLE 4.11
            'dense, 10,000 lines': 0.34, 'dense, 100,000 lines': 0.34,
            'dense, 1,000,000 lines, long parts': 0.24}


def table(title, head, rows):
    print('\n' + title)
    rows = [head] + [list(map(show, row)) for row in rows]
    widths = [max(len(row[column]) for row in rows) for column in range(len(head))]
    for row in rows:
        cells = [cell.rjust(width) for cell, width in zip(row[1:], widths[1:])]
        print('  ' + '  '.join([row[0].ljust(widths[0])] + cells))
    if any('seconds' in cell for row in rows for cell in row):
        load, processors = os.getloadavg()[0], os.cpu_count()
        print('  (load of the machine: %.1f, processors: %d)' % (load, processors))
    sys.stdout.flush()


def show(value):
    if isinstance(value, str):
        return value
    if value is None:
        return '-'
    return '{:,}'.format(value) if isinstance(value, int) else '%.3f' % value


def ratio(one, other):
    return one / other if one is not None and other else None


def per(total, count, unit):
    return None if total is None else total * unit // count


def size_of(lines):
    return sum(len(line) + 1 for line in lines)


def bench_cutting(bench):
    lines = webs.plain_lines(1000000, 50)
    folder = bench.folder({'a.w': lines})
    ours = bench.measure(folder, ['a', 'none'])
    rows = [['ctangle', ours.seconds, ours.kilobytes, '1.000']]
    rust = os.path.join(bench.temporary, 'cut_lines')
    source = os.path.join(HERE, 'cut_lines.rs')
    if shutil.which('rustc') and subprocess.call(['rustc', '-O', '-o', rust, source]) == 0:
        theirs = bench.measure(folder, ['a.w'], rust, ends=(0,))
        quotient = ratio(ours.seconds, theirs.seconds)
        rows.append(['Rust, Vec<Vec<u8>>', theirs.seconds, theirs.kilobytes, quotient])
    else:
        rows.append(['Rust, Vec<Vec<u8>>', 'no rustc', '', ''])
    table('Cutting 50,000,000 bytes into 1,000,000 lines (required: at most as long as Rust)',
          ['', 'seconds', 'KB', 'ctangle to it'], rows)


def bench_reading(bench):
    lines = webs.plain_lines(999999, 30)
    included = {'a.w': ['@i b.w'], 'b.w': lines + ['@i d'], 'd': None}
    changes = dict(included, **{'a.ch': webs.change_file(lines, 10000)})
    cut = bench.measure(bench.folder({'a.w': lines}), ['a', 'none']).seconds
    plain = bench.measure(bench.folder(included), ['a']).seconds - cut
    changed = bench.measure(bench.folder(changes), ['a', 'a']).seconds - cut
    table('Reading 1,000,000 included lines, without the cutting',
          ['', 'seconds', 'ratio', 'required'],
          [['cutting them', cut, '', ''],
           ['reading them', plain, ratio(plain, cut), 'at most 1.5 times cutting'],
           ['with 10,000 changes', changed, ratio(changed, plain), 'at most 2 times without']])


def scanned(bench, lines, names):
    """The instructions over a web whose parts are dropped, since their names are these.

    The first are those up to the end of scanning, the second those with the names.
    """
    if not bench.counter:
        return None, None
    over, as_names, as_texts = (
        bench.instructions(bench.folder({'a.w': web + [UNREPORTED]}), ['a'])
        for web in (lines, webs.uses_alone(names, '@<'), webs.uses_alone(names, '@^')))
    return over - (as_names - as_texts), over


def bench_scanning(bench):
    # The parts are scanned and dropped. A run that lacks its change file ends when the lines are
    # cut, so the difference is reading and scanning.
    rows = []
    for count in (10000, 100000, 1000000):
        lines = webs.c_program(count - 1, '@<Functions...@>=')
        folder = bench.folder({'a.w': lines + [UNREPORTED]})
        names = ['Functions...'] * sum(line == '@<Functions...@>=' for line in lines)
        until, _ = scanned(bench, lines, names)
        cut = bench.instructions(folder, ['a', 'none'])
        run = bench.measure(folder, ['a'], runs=1 if count > 100000 else RUNS)
        whole = bench.instructions(bench.folder({'a.w': webs.c_program(count)}), ['a'])
        rows.append(['{:,} lines'.format(count), per(until and until - cut, count, 1000),
                     per(whole, count, 1000), run.seconds,
                     (run.kilobytes - bench.least) * 1024 / size_of(lines)])
    table('Lines of C: reading and scanning (required: at most 900,000 instructions per 1,000 '
          'lines, flat; at most 4 bytes of memory a byte)',
          ['', 'instructions per 1,000', 'a whole run, with loading and writing', 'seconds',
           'memory per byte'], rows)


def bench_names(bench):
    # What names take, in time and memory, is found by a web with control texts in their place. A
    # run whose faults can't be reported ends when the session is started: the table of names, the
    # graph and the expansions are made, and no output.
    rows = []
    for count in (1000, 10000, 50000, 100000):
        named, plain = (bench.folder({'a.w': webs.names(count, as_names) + [UNREPORTED]})
                        for as_names in (True, False))
        with_names, without = bench.instructions(named, ['a']), bench.instructions(plain, ['a'])
        run, other = bench.measure(named, ['a'], runs=1), bench.measure(plain, ['a'], runs=1)
        rows.append(['{:,} names'.format(count),
                     per(with_names and with_names - without, 2 * count, 1),
                     run.seconds, (run.kilobytes - other.kilobytes) / 1024])
    table('Names, each defined once and used once by an abbreviation: their table, their graph and '
          'expansions',
          ['', 'instructions an occurrence', 'seconds of the run', 'MB of names'], rows)


class Web:
    """A web of a whole run: a file in a folder."""

    def __init__(self, title, folder, arguments, lines, size):
        self.title, self.folder, self.arguments = title, folder, arguments
        self.lines, self.size = lines, size
        self.dropped = None                     # its lines with all parts dropped
        # the most that it may take of the instructions of CTANGLE
        self.required = REQUIRED.get(title, '')


def generated(bench, title, lines):
    return Web(title, bench.folder({'a.w': lines}), ['a.w'], len(lines), size_of(lines))


def generated_dense(bench, title, dense):
    files = dense.files()
    return Web(title, bench.folder(files), ['syn', 'syn'], len(dense.lines),
               sum(map(size_of, files.values())))


def whole_webs(bench):
    """The webs of the folder that WEBS names, and generated ones."""
    if 'WEBS' in os.environ:
        for path in sorted(glob.glob(os.path.join(os.environ['WEBS'], '*.w'))):
            with open(path, 'rb') as file:
                text = file.read()
            name = os.path.basename(path)
            yield Web(name, bench.folder_of(path), [name], text.count(b'\n'), len(text))
    for count in (10000, 100000, 1000000):
        web = generated(bench, '{:,} lines'.format(count), webs.named_program(count))
        web.dropped = webs.named_program(count, tail=DROPPED)
        yield web
    yield generated(bench, '40,000 sections, 30,000 names', webs.many_names(40000, 30000))
    for title, dense in dense_webs():
        yield generated_dense(bench, title, dense)


def bench_whole(bench):
    """Whole runs, beside another ctangle on the path, which has limits of its own."""
    other = shutil.which('ctangle')
    rows, beside = [], []
    for web in whole_webs(bench):
        runs = bench.whole(web, [bench.program] + ([other] if other else []))
        ours = runs[0]
        until = (None, None)
        if web.dropped:
            until = scanned(bench, web.dropped, webs.names_in(web.dropped))
        counts = [ours.instructions] + [it and ours.instructions - it for it in reversed(until)]
        held = (ours.kilobytes - bench.least) * 1024 / web.size
        rows.append([web.title] + [per(count, web.lines, 1000) for count in counts] +
                    [ours.seconds * 1000, ours.kilobytes, held, str(ours.status)])
        if other:
            beside.append([web.title] + compared(*runs) + [web.required])
    table('Whole runs (required from 100,000 lines on: at most 1,100,000 instructions per 1,000 '
          'lines of generated webs, flat within an eighth, of them at most 250,000 after scanning, '
          'for store, expansions and writing; at most 5 bytes of memory a byte)',
          ['', 'instructions per 1,000 lines', 'after scanning, at least', 'at most',
           'milliseconds', 'KB', 'memory per byte', 'status'], rows)
    if other:
        compare_table('Whole runs beside ' + other, beside)


def compared(ours, theirs):
    """What two runs took, and the ratios where neither reported an error."""
    pairs = ((ours.instructions, theirs.instructions),
             (ours.seconds * 1000, theirs.seconds * 1000),
             (ours.kilobytes, theirs.kilobytes))
    are_whole = ours.is_whole() and theirs.is_whole()
    return [cell for one, two in pairs
            for cell in (one, two, ratio(one, two) if are_whole else None)]


def compare_table(title, rows):
    table(title, ['', 'instructions', 'of it', 'ratio', 'milliseconds', 'of it', 'ratio', 'KB',
                  'of it', 'ratio', 'required of instructions, at most'], rows)


def bench_kinds(bench):
    """Webs of one kind of line each, beside another ctangle on the path."""
    other = shutil.which('ctangle')
    rows = []
    for title in KINDS:
        web = generated(bench, title.replace('_', ' '), Kind(title, 5000).lines())
        ours, *theirs = bench.whole(web, [bench.program] + ([other] if other else []))
        held = (ours.kilobytes - bench.least) * 1024 / web.size
        beside = [ratio(ours.instructions, it.instructions) if it.is_whole() else None
                  for it in theirs]
        rows.append([web.title, per(ours.instructions, web.lines, 1000), held] +
                    (beside or ['no ctangle']))
    table('Webs of 5,000 lines of one kind each',
          ['', 'instructions per 1,000 lines', 'memory per byte', 'to CTANGLE'], rows)


def bench_files(bench):
    """Webs of many output files, beside another ctangle on the path."""
    other = shutil.which('ctangle')
    rows, beside, first = [], [], None
    for count in (10000, 40000):
        web = generated(bench, '{:,} files'.format(count), webs.named_files(count))
        runs = bench.whole(web, [bench.program] + ([other] if other else []))
        ours = runs[0]
        if ours.status != 0:
            sys.exit('%s: status %d' % (web.title, ours.status))
        each = [per(ours.instructions, count, 1), ours.seconds * 1e6 / count]
        first = first or each
        rows.append([web.title, each[0], ratio(each[0], first[0]), ours.seconds, each[1],
                     ratio(each[1], first[1]), ours.kilobytes])
        if other:
            beside.append([web.title] + compared(*runs) + [''])
    table('Output files, each of one part of one line (required: one of 40,000 takes at most 1.3 times '
          'what one of 10,000 takes)',
          ['', 'instructions a file', 'ratio', 'seconds', 'microseconds a file', 'ratio', 'KB'],
          rows)
    if other:
        compare_table('Output files beside ' + other, beside)


def bench_session(bench):
    """What the calls of a session take beside the layers: a run that called these itself would not
    need it. Inlined parts of them count too."""
    rows = []
    for name, lines in (('35,000 lines, 3,000 names', webs.leaves(35000, 3000)),
                        ('100,000 lines', webs.named_program(100000))):
        folder = bench.folder({'a.w': lines})
        whole, own = own_instructions(bench.program, folder, 'tangle_session::session::')
        rows.append([name, whole, own, ratio(own, whole)])
    table('What the session itself takes of a run (required: at most 0.03)',
          ['', 'instructions', 'its own', 'ratio'], rows)


def bench_edits(bench):
    """Edits over a web of 35,000 lines with 3,000 names."""
    lines, dropped = webs.leaves(35000, 3000), webs.leaves(35000, 3000, tail=DROPPED)
    folder = bench.folder({'a.w': lines})
    whole = bench.counter and bench.counter([bench.program, 'a'], folder, os.devnull)
    edit, moves, name, use = (bench.cost_of_one(folder, edits(lines, 12)) for edits in
                              (replaces, insertions, names_more, uses_more))
    # The same edits where the parts are dropped: copying, reading and scanning, and the names that
    # are no names. And the same part of a whole run.
    names = webs.names_in(dropped)
    others = (dropped, webs.uses_alone(names, '@<'), webs.uses_alone(names, '@^'))
    until, as_names, as_texts = (
        bench.cost_of_one(bench.folder({'a.w': web}), replaces(web, 12)) for web in others)
    least, most, of_whole = None, None, None
    if edit is not None:
        least, most = edit - until, edit - until + as_names - as_texts
        of_whole = whole - scanned(bench, dropped + [UNREPORTED], names)[0]
    refused = bench.cost_of_one(folder, refusals(110), few=10)
    chain = webs.chain(3000)
    in_chain = bench.cost_of_one(bench.folder({'a.w': chain}), replaced_printing(chain, 12))
    few, many = (bench.run_of_script(folder, lines_of(replaces(lines, count))).kilobytes
                 for count in (10, 1000))
    table('Edits by retangle of a web of 35,000 lines with 3,000 names, of which ctangle takes %s '
          'instructions, after scanning %s' % (show(whole), show(of_whole)),
          ['', 'instructions or KB', 'ratio', 'required'],
          [['one replace of a line of a leaf', edit, ratio(edit, whole),
            'at most 0.65 of a whole run, and 43,000,000'],
           ['one line more before all others', moves, ratio(moves, whole), 'no more than it'],
           ['one use more', use, ratio(use, whole), 'at most 0.9 of a whole run'],
           ['one name more', name, ratio(name, whole), 'at most 0.9 of a whole run'],
           ['after scanning one replace takes at least', least, ratio(least, of_whole),
            'at most 0.05 of the same part of a whole run'],
           ['  at most, with the table of names', most, ratio(most, of_whole), ''],
           ['one replace in a chain of 3,000 names, {:,} lines'.format(len(chain)), in_chain, '',
            'at most 44,000,000'],
           ['one refused edit', refused, '', 'under 10,000'],
           # A replaced line has a text of its own; the rest is free memory between blocks.
           ['most memory in 1,000 edits, KB', many, ratio(many, few), 'at most 1.1 of ten']])


def bench_marks(bench):
    """The setting of line marks, and an edit of a line of documentation: they affect no node."""
    lines = webs.leaves(35000, 3000)
    folder = bench.folder({'a.w': lines})
    marks = bench.cost_of_one(folder, settings(12))
    edit = bench.cost_of_one(folder, rewordings(lines, 12))
    table('The setting of line marks by retangle, over the web of 35,000 lines',
          ['', 'instructions', 'ratio', 'required'],
          [['an edit that affects no node', edit, '', ''],
           ['marks none and marks full in turn', marks, ratio(marks, edit), 'within 0.02 of it']])


def bench_lists(bench):
    """Lists of edits: one of 100 beside one edit, and the seconds of one of 10,000 inserts."""
    lines = webs.leaves(35000, 3000)
    folder = bench.folder({'a.w': lines})
    edit = bench.cost_of_one(folder, replaces(lines, 12))
    edits = replaces(lines, 600)
    lists = [as_list(edits[start:start + 100]) for start in range(0, 600, 100)]
    hundred = bench.cost_of_one(folder, lists)
    table('A list of edits by retangle of the web of 35,000 lines',
          ['', 'instructions', 'ratio', 'required'],
          [['one replace', edit, '', ''],
           ['a list of 100 replaces, each in another leaf', hundred, ratio(hundred, edit),
            'at most 1.1 of one']])
    folder = bench.folder({'a.w': webs.named_program(100000)})
    inserts = [as_list([Command(['insert 1 a.w', 'text'], ['ok'])] * 10000)]
    bench.check(folder, inserts)
    alone, given = (bench.run_of_script(folder, script, runs=3)
                    for script in ([], lines_of(inserts)))
    table('A list of 10,000 inserts at line 1 of a web of 100,000 lines',
          ['', 'seconds', 'KB', 'required'],
          [['a run without it', alone.seconds, alone.kilobytes, ''],
           ['with it', given.seconds, given.kilobytes, ''],
           ['the list', given.seconds - alone.seconds, given.kilobytes - alone.kilobytes,
            'at most 5 seconds']])


def replaces(lines, count):
    """Commands that each replace the last line of another leaf, or of a web without any."""
    heads = [number for number, line in enumerate(lines) if line.startswith('@ Leaf')]
    ends = heads[1:] or [len(lines)]            # counted from 1
    return [Command(['replace %d a.w' % ends[number * 37 % len(ends)], 'edited(%d);' % number],
                    ['ok']) for number in range(count)]


def replaced_printing(lines, count):
    """Commands that each replace another line of C with a quoted text."""
    at = [number for number, line in enumerate(lines, 1) if line.startswith('  printf')]
    return [Command(['replace %d a.w' % at[number * 37 * 7 % len(at)], '  edited(%d, "x");' % number],
                    ['ok']) for number in range(count)]


def insertions(lines, count):
    """Commands that each insert a line before all sections, and so move all others."""
    return [Command(['insert 1 a.w', '% line ' + str(number), 'work'], ['ok', 'work 0'])
            for number in range(count)]


def uses_more(lines, count):
    """Commands that each make the last line of a leaf a use of another leaf."""
    return used_at_ends(lines, count, 'Leaf %d of the program')


def names_more(lines, count):
    """Commands that each make the last line of a leaf a use of a name that is new."""
    return used_at_ends(lines, count, 'Leaf %d, which is new')


def used_at_ends(lines, count, name):
    """Commands that each make the last line of a leaf a use of the name with a number."""
    made = replaces(lines, count)
    for number, command in enumerate(made):
        command.lines[1] = '@<' + name % (1000 + number) + '@>;'
    return made


def rewordings(lines, count):
    """Commands that each replace a line of documentation, which affects no node."""
    heads = [number for number, line in enumerate(lines) if line.startswith('@ Leaf')]
    return [Command(['replace %d a.w' % (heads[number * 37] + 1), '@ Leaf, edited.', 'work'],
                    ['ok', 'work 0']) for number in range(count)]


def settings(count):
    """Commands that each set the line marks as they are not, which affects no node."""
    return [Command(['marks full' if number % 2 else 'marks none', 'work'], ['ok', 'work 0'])
            for number in range(count)]


def refusals(count):
    return [Command(['replace 99999 a.w', 'x'], ['no NoSuchLine'])] * count


def as_list(edits):
    """The edits as one list."""
    answers = ['ok'] + ['held'] * len(edits) + ['ok']
    return Command(['begin'] + lines_of(edits) + ['commit'], answers)


PARTS = {'cutting': bench_cutting, 'reading': bench_reading, 'scanning': bench_scanning,
         'names': bench_names, 'whole': bench_whole, 'kinds': bench_kinds, 'files': bench_files,
         'session': bench_session, 'edits': bench_edits, 'marks': bench_marks, 'lists': bench_lists}


def main():
    os.environ['CWEBINPUTS'] = '.'                  # where another ctangle looks for its webs
    program, retangle = map(os.path.abspath, sys.argv[1:3])
    with tempfile.TemporaryDirectory() as temporary:
        bench = Bench(program, retangle, temporary)
        for part in sys.argv[3:] or PARTS:
            PARTS[part](bench)


if __name__ == '__main__':
    main()
