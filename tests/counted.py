"""Counts the allocations of starts, of edits, of commands and of questions. An expansion takes
allocations, so one that is made needlessly is seen here: twice, or in a second work.

usage: counted.py RETANGLE REFUSE      REFUSE is tests/refuse.c as a library

A conversation is counted with and without its last edit: the difference is what this edit took.
Files are read and scanned anew for each edit and at a start, with allocations for each name; what
names resolve to is kept by an edit that leaves them written as they were, and so are the bodies of
nodes whose pieces it leaves. These allocations are the same in both of what is compared here. What
is left is the expansions, the bodies of the nodes that changed, and some lists, whose capacity
doubles.
The last line is 'N passed, M failed'.
"""
import os
import sys

from chain import chain
from checks import check, folder_with, read, run_all
from running import run

retangle, refuse = (os.path.abspath(path) for path in sys.argv[1:3])

SIZES = (10, 1000, 10000)

# What an edit takes for a node that it changed, and that uses none: the expansion; and for its body
# the name, the bytes, the tags, and what holds these. For the first such node also the list of the
# work. An edit that changes no node has the buffers too in which bodies are built: the new ones are
# compared there with the old ones.
ANOTHER = 5
ONE_NODE = ANOTHER + 1
# Allocations of lists with an entry for each node: each of them doubles the capacity of one list.
DOUBLINGS = 60
CYCLE = '@<z@>'


def converse(web, script):
    """What a conversation is answered, and how many allocations it takes."""
    with folder_with({'a.w': web.encode()}) as folder:
        counted = os.path.join(folder, 'counted')
        done = run([retangle, 'a'], folder, script.encode(), LD_PRELOAD=refuse, COUNT_TO=counted)
        return done.output.decode(), int(read(counted).split()[0])


def allocations(web, script, answers):
    """How many allocations a conversation with these answers takes."""
    written, count = converse(web, script)
    check(written == answers, 'a conversation', '%r, not %r' % (written[:200], answers[:200]))
    return count


class Project:
    """A program that uses `count` names, a line each. These all use a last one. Two files use none,
    and nothing uses them.

    last: the text of the last name. If that name uses itself, the files alone can be expanded.
    """

    def __init__(self, count, last):
        names = range(1, count + 1)
        lines = ['@ P.', '@c'] + ['@<n%05d@>' % k for k in names]
        for k in names:
            lines += ['@ @<n%05d@>=' % k, '@<z@>']
        lines += ['@ @<z@>=', last, '@ @(s.h@>=', '1', '@ @(t.h@>=', '1']
        self.web = '\n'.join(lines) + '\n'
        self.line_of_last = len(lines) - 4
        self.lines_of_files = len(lines) - 2, len(lines)
        work = 2 if last == CYCLE else count + 4
        self.start = allocations(self.web, 'work\n', 'work %d\n' % work)


def edits(lines):
    return ''.join('replace %d a.w\n%s\n' % line for line in lines)


def taken(project, before, edit, work):
    """The allocations of an edit, or of a list of several, that affects `count` nodes. The edits
    before it are made one by one."""
    front, answers = edits(before), 'ok\n' * len(before)
    script = edits(edit)
    if len(edit) > 1:
        script = 'begin\n' + script + 'commit\n'
        reported = 'ok\n' + 'held\n' * len(edit) + 'ok\n'
    else:
        reported = 'ok\n'
    whole = allocations(project.web, front + script + 'work\n',
                        answers + reported + 'work %d\n' % work)
    return whole - allocations(project.web, front, answers)


def check_one(name, project, before):
    """An edit that affects one node takes ONE_NODE allocations more than one that affects none, and
    one that affects two nodes takes ANOTHER more: whatever else the project has, and after other
    edits."""
    first, second = project.lines_of_files
    nothing = taken(project, before, [(first, '1')], 0)
    one = taken(project, before, [(first, '2')], 1) - nothing
    check(one == ONE_NODE, name, 'for one node %d allocations, not %d' % (one, ONE_NODE))
    two = (taken(project, before, [(first, '2'), (second, '2')], 2)
           - taken(project, before, [(first, '1'), (second, '1')], 0))
    check(two == ONE_NODE + ANOTHER, name,
          'for two nodes %d allocations, not %d' % (two, ONE_NODE + ANOTHER))
    return nothing


def check_size(count):
    name = '%d names' % count
    project, cyclic = Project(count, '1'), Project(count, CYCLE)
    nothing = check_one(name, project, [])
    check_one(name + ', after an edit', project, [(project.line_of_last, '3')])

    # An edit or a list that affects nothing expands nothing, though all could be expanded.
    both = [(line, '1') for line in project.lines_of_files]
    for kind, edit in (('an edit', both[:1]), ('a list of edits', both)):
        somewhere, in_cycle = (taken(one, [], edit, 0) for one in (project, cyclic))
        check(abs(somewhere - in_cycle) <= DOUBLINGS, name,
              '%s that affects nothing: %d allocations, and %d where nothing can be expanded'
              % (kind, somewhere, in_cycle))

    # The expansion of the last name takes one allocation, and that of each name that uses it two,
    # since it has a list of its uses. The program's list doubles its capacity. So do lists of names
    # that may have a fault, which are longer where nothing can be expanded.
    least = 2 * count + 1
    start = project.start - cyclic.start
    check(abs(start - least) <= DOUBLINGS, name,
          'expansions at the start: %d allocations, about %d' % (start, least))
    everything = taken(project, [], [(project.line_of_last, '2')], count + 2) - nothing
    check(least <= everything <= least + DOUBLINGS, name,
          'expansions for an edit: %d allocations, at least %d' % (everything, least))
    print('%s: an edit that affects no node takes %d allocations, and one that affects all takes '
          '%d more' % (name, nothing, everything))


def test_commands():
    """A command takes no memory where it has at most 4,096 bytes with its text and line feeds. A
    long one does."""
    web, name = '@ A.\n@c\nint x;\n', 'a command of %d bytes'
    without = allocations(web, 'work\nquit\n', 'work 1\nok\n')
    for size in (0, 86, 4077, 4081, 4082, 100000):
        edit = 'insert x a.w\n' + 'x' * size + '\n'       # it is no command, and has a text
        more = allocations(web, 'work\n' + edit + 'quit\n', 'work 1\nno BadCommand\nok\n') - without
        check((more > 0) == (len(edit) > 4096), name % len(edit), '%d allocations' % more)


# Questions, with how their answers begin.
QUESTIONS = {'show a.c\n': '= a.c ', 'show s.h\n': '= s.h ', 'show t.h\n': 'no NoOutput\n',
             'faults\n': 'faults 1\na.w:', 'work\n': 'work '}
# A name in a name and so on, a named file with more text than fits into a buffer, and a name that is
# not used.
ASKED = chain(40) + '@ @(s.h@>=\n' + 'x\n' * 10000 + '@ @<u@>=\n1\n'


def test_questions():
    """A question that is asked again takes no memory: after a start, after an edit, and in an open
    list."""
    for before in ('', 'insert 1 a.w\n% top\n', 'begin\nremove 1 a.w\n'):
        first = converse(ASKED, before)[0]
        for question, answer in QUESTIONS.items():
            name = '%r after %r' % (question, before)
            once, count = converse(ASKED, before + question)
            answered = once[len(first):]
            check(once.startswith(first) and answered.startswith(answer), name, '%r' % once[:200])
            often, more = converse(ASKED, before + question * 9)
            check(often == first + answered * 9, name, '%r' % often[:200])
            check(count == more, name,
                  '%d allocations, and %d if it is asked nine times' % (count, more))


def test_sizes():
    for count in SIZES:
        check_size(count)


def main():
    return run_all((test_sizes, test_commands, test_questions))


if __name__ == '__main__':
    sys.exit(main())
