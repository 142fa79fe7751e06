"""What runs over a web of 40,000 names take, compared with runs over one of 10,000, and over a web
of 1,000,000 short runs of words, compared with one of 250,000: four times as much, and not sixteen
times.

usage: growing.py CTANGLE RETANGLE MEASURE REFUSE TOP

MEASURE is tests/measure.c as a program, REFUSE tests/refuse.c as a library, TOP the folder of the
repository. Compared are the bytes that a run asks memory for, the most that it holds, and its
instructions, or where nothing counts them its time. The last line is 'N passed, M failed'.
"""
import os
import subprocess
import sys

from checks import check, finish, folder_with

ctangle, retangle, measure, refuse, top = (os.path.abspath(path) for path in sys.argv[1:6])
sys.path.insert(0, os.path.join(top, 'bench'))
from measuring import find_counter

NAMES = 10000, 40000
WORDS = 250000, 1000000
ROW = 10000                 # the number of words on a line
MOST = 4.5                  # times as much, where four times is meant
MOST_TIME = 7               # the same of times, which vary
NOTHING = os.devnull


def star(count):
    """The program uses all names, and each of them the last one."""
    names = range(count)
    return (['@ P.', '@c'] + ['@<n%05d@>' % k for k in names]
            + [line for k in names for line in ('@ @<n%05d@>=' % k, '@<z@>')] + ['@ @<z@>=', '1'])


def chain(count, last='1'):
    """The program uses the first name, and each name the next one."""
    lines = ['@ P.', '@c', '@<n00000@>']
    for k in range(count - 1):
        lines += ['@ @<n%05d@>=' % k, '@<n%05d@>' % (k + 1)]
    return lines + ['@ @<n%05d@>=' % (count - 1), last]


def cycle(count):
    return chain(count, '@<n00000@>')


def files(count):
    """Each hundredth name is a file that uses the names before it."""
    lines = ['@ P.', '@c', 'x']
    for k in range(count):
        used = ''.join('@<n%05d@>' % n for n in range(k - 99, k)) if k % 100 == 99 else '1'
        lines += [('@ @(n%05d@>=' if k % 100 == 99 else '@ @<n%05d@>=') % k, used]
    return lines


def joined(count):
    """Words with joins between them, all of them one for a C compiler."""
    return ['@ P.', '@c'] + ['ab@&' * ROW] * (count // ROW)


def apart(count):
    """Words, each of them on its own: the white space between them is no single space."""
    return ['@ P.', '@c'] + ['ab\t' * ROW] * (count // ROW)


def no_script(_):
    return ''


def edits(count):
    """Edits of a chain that move all lines, and one of the name that all others reach."""
    return ('insert 1 a.w\n%% top\nwork\nremove 1 a.w\nwork\nreplace %d a.w\n2\nwork\n'
            % (2 * count + 3))


def edits_of_borders(_):
    """Edits of a line of words that are apart: they are one run, and apart again."""
    return 'replace 9 a.w\n%s\nwork\nreplace 9 a.w\n%s\nwork\n' % ('ab ' * ROW, 'ab\t' * ROW)


class Taken:
    """What a run over a web takes."""

    def __init__(self, lines, arguments, script, counter):
        web = '\n'.join(lines) + '\n'
        with folder_with({'a.w': web.encode(), 'script': script.encode()}) as folder:
            given, used = os.path.join(folder, 'script'), os.path.join(folder, 'used')
            self.run([measure, used] + arguments, folder, given)
            with open(used) as reported:
                self.time, self.held = map(int, reported.read().split())
            self.run(arguments, folder, given, LD_PRELOAD=refuse, COUNT_TO=used)
            with open(used) as reported:
                self.allocations, self.asked = map(int, reported.read().split())
            self.instructions = counter and counter(arguments, folder, NOTHING, given)

    @staticmethod
    def run(command, folder, given, **variables):
        with open(given) as script, open(NOTHING, 'w') as dropped:
            subprocess.run(command, cwd=folder, env=dict(os.environ, **variables), stdin=script,
                           stdout=dropped, stderr=dropped)


def compare(name, sizes, few, many):
    kinds = [('bytes asked for', 'asked'), ('allocations', 'allocations'), ('KB held', 'held')]
    kinds.append(('instructions', 'instructions') if few.instructions else ('microseconds', 'time'))
    reported = []
    for kind, key in kinds:
        before, after = getattr(few, key), getattr(many, key)
        reported.append('%s %.1f' % (kind, after / max(before, 1)))
        most = MOST_TIME if key == 'time' else MOST
        check(after <= most * before, name, '%d %s for %d, %d for %d'
              % (before, kind, sizes[0], after, sizes[1]))
    print('%s: times as much: %s' % (name, ', '.join(reported)))


WEBS = [('a star of names', star, NAMES, 'ctangle', no_script),
        ('a cycle of names', cycle, NAMES, 'ctangle', no_script),
        ('named files', files, NAMES, 'ctangle', no_script),
        ('a chain of names', chain, NAMES, 'retangle', edits),
        ('joined words', joined, WORDS, 'ctangle', no_script),
        ('words apart', apart, WORDS, 'ctangle', no_script),
        ('words apart, edited', apart, WORDS, 'retangle', edits_of_borders)]


def main():
    counter, programs = find_counter(), {'ctangle': ctangle, 'retangle': retangle}
    for name, web, sizes, program, script in WEBS:
        few, many = (Taken(web(count), [programs[program], 'a'], script(count), counter)
                     for count in sizes)
        compare(name, sizes, few, many)
    return finish()


if __name__ == '__main__':
    sys.exit(main())
