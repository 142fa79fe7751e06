"""The webs that the benchmark runs on, as lists of lines."""
import random

FUNCTION = '''\
@ Function {n} adds up a part of the table, and this line repeats it with |code| between bars.
The sum stops at a limit that grows with the number of the function.
@d LIMIT_{n} ({n} * 10)

{head}
/* the sum of the first entries of the table */
static int sum_{n}(int count, const char *text)
{{
    int sum = 0; /* what was added so far */
    for (int i = 0; i < count; i++) {{
        sum += table[i] * 17 + text[i] - 'a';
        if (sum > LIMIT_{n})
            printf("sum %d of \\"%s\\" is past %d\\n", sum, text, LIMIT_{n});
    }}
    return sum;
}}
'''


def c_program(lines, head='@c'):
    """A web of `lines` lines of documentation, macros and C, in parts with this head."""
    made = []
    number = 0
    while len(made) < lines:
        made += FUNCTION.format(n=number, head=head).splitlines()
        number += 1
    return made[:lines]


def plain_lines(count, width):
    """Lines of one width, each another, that are all before the first section."""
    return [('line %d ' % number).ljust(width - 1, 'x') for number in range(count)]


def change_file(lines, count):
    """Changes, evenly spread, that each replace one of these lines."""
    made = []
    for line in lines[::len(lines) // count][:count]:
        made += ['@x', line, '@y', line + ', changed', '@z']
    return made


def names(count, as_names=True):
    """A web that defines `count` names, and uses each by an abbreviation.

    Without names the same text is in control texts.
    """
    opener = '@<' if as_names else '@^'
    head = '@>=' if as_names else '@>@c'
    numbers = list(range(count))
    random.Random(count).shuffle(numbers)
    made = ['@ The program uses each name.', '@c']
    made += ['%sPart %07d...@>' % (opener, number) for number in numbers]
    random.Random(count + 1).shuffle(numbers)
    for number in numbers:
        made += ['@ %sPart %07d of a long list of parts%s' % (opener, number, head),
                 'part(%d);' % number]
    return made


def named_program(lines, parts=1000, files=10, tail=''):
    """A program of `lines` lines in parts with names, which the program and named files use.

    There are at most `parts` parts, and each tenth begins a named file or the program: it uses
    those after it. The tail is the end of each name but a file's; dots make it an abbreviation.
    """
    size = max(16, lines // parts)
    made, bodies = [], []
    while sum(map(len, bodies)) + 4 * len(bodies) < lines:
        bodies.append(c_program(size - 4, '')[3:] or [''])
    count = len(bodies)
    groups = min(files + 1, count)
    for group in range(groups):
        members = range(group, count, groups)
        made += ['@ A file of the program.', '@c' if group == 0 else '@(part%d.h@>=' % group]
        made += ['@<Part %d of the program%s@>' % (number, tail) for number in members]
    for number, body in enumerate(bodies):
        made += ['@ Part %d.' % number, '@<Part %d of the program%s@>=' % (number, tail)]
        made += [line for line in body if not line.startswith('@')]
    return made[:lines]


def leaves(lines, names, groups=30, tail=''):
    """A program of `lines` lines and `names` names: it uses groups, and these leaves, which use nothing.

    The tail is the end of each leaf's name; dots make it an abbreviation.
    """
    count = names - groups
    made = ['@ The program uses each group.', '@c']
    made += ['@<Group %d@>' % group for group in range(groups)]
    for group in range(groups):
        made += ['@ Group %d.' % group, '@<Group %d@>=' % group]
        members = range(group, count, groups)
        made += ['@<Leaf %d of the program%s@>' % (number, tail) for number in members]
    code = [line for line in c_program(2 * lines, '') if line and not line.startswith(('@', 'The'))]
    left = lines - len(made)
    for number in range(count):
        size = left * (number + 1) // count - left * number // count - 2
        made += ['@ Leaf %d.' % number, '@<Leaf %d of the program%s@>=' % (number, tail)]
        made += [code[(8 * number + line) % len(code)] for line in range(size)]
    return made


def chain(names):
    """A program of `names` names, each a part of six lines with a quoted text in each, and a use of the next."""
    made = ['@ The program.', '@c', '@<Part 0 of the chain@>']
    for number in range(names):
        made += ['@ Part %d.' % number, 'It prints entries of the table.', 'The next part follows.',
                 '@<Part %d of the chain@>=' % number]
        made += ['  printf("value %d of %%d\\n", table[%d] * 17);' % (entry, entry % 6)
                 for entry in range(6 * number, 6 * number + 6)]
        if number + 1 < names:
            made.append('@<Part %d of the chain@>' % (number + 1))
    return made


def names_in(lines):
    """The abbreviations that are alone in their lines, uses and definitions, as often as there."""
    return [line[2:line.index('@>')] for line in lines if line.startswith('@<') and '...@>' in line]


def uses_alone(names, opener):
    """A piece that uses these names; with another opener they are control texts."""
    return ['@ The piece.', '@c'] + ['%s%s@>' % (opener, name) for name in names] + ['end();']


def many_names(sections, names):
    """`sections` sections, each a part of one of `names` names; the program uses each name."""
    made = ['@ The program uses each name.', '@c']
    made += ['@<Name %05d@>' % number for number in range(names)]
    for number in range(sections - 1):
        made += ['@ @<Name %05d@>=' % (number % names), 'part(%d);' % number]
    return made


def named_files(count):
    """A program, and `count` named files in no order, each of one part of one line."""
    numbers = list(range(count))
    random.Random(count).shuffle(numbers)
    made = ['@ The program.', '@c', 'main();']
    for number in numbers:
        made += ['@ @(file%05d.h@>=' % number, 'part();']
    return made
