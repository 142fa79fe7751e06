"""Webs whose graph of names is made to cost time, with what a run over each has to write.

usage: hostile.py NAME FOLDER      makes FOLDER/in, FOLDER/expected, FOLDER/stderr and FOLDER/status; without arguments, the names

Each output and each fault is written down here by the rules of docs/expansion.md, with no graph: the webs are regular.
"""
import os
import sys

LIMIT = 1 << 24
DEEPEST = 1000


def mark(line):
    return '\n#line %d "a.w"\n' % line


def piece(section, line, text):
    return '/*%d:*/%s%s/*:%d*/' % (section, mark(line), text, section)


def too_large(line, name):
    return 'a.w:%d: error: too large: <%s>\n' % (line, name)


LARGE_PROGRAM = 'error: too large: the unnamed program\n'


class Case:
    def __init__(self):
        self.web = ['@ P.\n@c\n']
        self.files = {}
        self.faults = []
        self.status = 1


def chained(count, last, uses=1):
    """The program uses n00000, and each name the next, so often on one line; the last one is this text. All names are
    of one length, so that none begins another."""
    case = Case()
    case.web.append('@<n00000@>\n')
    for k in range(count - 1):
        case.web.append('@ @<n%05d@>=\n%s\n' % (k, '@<n%05d@>' % (k + 1) * uses))
    case.web.append('@ @<n%05d@>=\n%s\n' % (count - 1, last))
    return case


# Name k is used first in line 2k + 3, by the program or by the name before it.
def one_cycle(count=50000):
    case = chained(count, '@<n00000@>')
    case.faults = ['a.w:%d: error: contains itself: <n%05d>\n' % (2 * k + 3, k) for k in range(count)]
    return case


def linked(count, leads_back, contains_itself):
    """A chain in which each name also uses those that `leads_back` gives for it: itself, or names before it. Each
    name reaches a cycle."""
    case = Case()
    case.web.append('@<n00000@>\n')
    for k in range(count):
        used = ([k + 1] if k + 1 < count else []) + leads_back(k)
        case.web.append('@ @<n%05d@>=\n%s\n' % (k, ''.join('@<n%05d@>' % n for n in used) or '1'))
    case.faults = ['a.w:%d: error: contains itself: <n%05d>\n' % (2 * k + 3, k) for k in range(count)
                   if contains_itself(k)]
    return case


def chain_to_a_cycle(count=50000):
    return linked(count, lambda k: [k] if k == count - 1 else [], lambda k: k == count - 1)


def each_uses_itself(count=50000):
    return linked(count, lambda k: [k], lambda k: True)


def two_of_three(count=50000):
    """Of each three names the second uses the first; the last name is such a second one."""
    return linked(count, lambda k: [k - 1] if k % 3 == 1 else [], lambda k: k % 3 < 2)


def cycles_in_cycles(count=50000):
    """Each name of the second half leads back to one of the first."""
    return linked(count, lambda k: [count - 1 - k] if k >= count // 2 else [], lambda k: True)


def chain(count=50000):
    case = chained(count, '1')
    case.faults = [too_large(2 * k + 3, 'n%05d' % k) for k in range(count) if count - k > DEEPEST] + [LARGE_PROGRAM]
    return case


def doubling(count):
    """The last name weighs 6; each one before it twice what comes after it, two uses, and what is around them."""
    case = chained(count, '1', 2)
    weight, weights = 6, [6]
    for _ in range(count - 1):
        weight = min(2 * weight + 9, LIMIT + 1)
        weights.insert(0, weight)
    case.faults = [too_large(2 * k + 3, 'n%05d' % k) for k in range(count) if weights[k] > LIMIT or count - k > DEEPEST]
    return finished(case)


def finished(case):
    case.faults.append(LARGE_PROGRAM)
    return case


def themselves_or_a_partner(count=25000):
    case = Case()
    case.web.append('x\n')
    for k in range(count):
        used = k if k < count // 2 else k ^ 1
        case.web.append('@ @<n%05d@>=\n@<n%05d@>\n' % (k, used))
    for k in range(count):
        line = 2 * k + 4
        if k >= count // 2 and k & 1:
            line -= 1
        case.faults.append('a.w:%d: error: contains itself: <n%05d>\n' % (line, k))
    case.files['a.c'] = piece(1, 2, '\nx\n') + '\n'
    return case


def many_pieces(count=100000):
    case = Case()
    case.status = 0
    case.web.append('@<n@>\n' + '@ @<n@>=\nx\n' * count)
    text = ''.join(piece(k + 2, 2 * k + 4, '\nx\n') for k in range(count))
    case.files['a.c'] = piece(1, 2, '\n ' + text + mark(3) + '\n') + '\n'
    return case


def many_uses(count=300000, row=300):
    case = Case()
    case.status = 0
    case.web.append(('@<u@>' * row + '\n') * (count // row) + '@ @<u@>=\n1\n')
    used = ' ' + piece(2, count // row + 3, '\n1\n')
    rows = ''.join((used + mark(line)) * row + '\n' for line in range(3, count // row + 3))
    case.files['a.c'] = piece(1, 2, '\n' + rows) + '\n'
    return case


def undefined(count=300000, row=300):
    case = Case()
    case.web.append(('@<u@>' * row + '\n') * (count // row))
    case.faults = ['a.w:3: error: undefined: <u>\n']
    rows = ''.join((' ' + mark(line)) * row + '\n' for line in range(3, count // row + 3))
    case.files['a.c'] = piece(1, 2, '\n' + rows) + '\n'
    return case


def by_the_next_ten(count=100000):
    """Each name uses the ten before it; the program uses none. A weight past the limit stays past it."""
    case = Case()
    case.web.append('x\n')
    weights = []
    for k in range(count):
        used = range(max(k - 10, 0), k)
        case.web.append('@ @<n%05d@>=\n%s\n' % (k, ''.join('@<n%05d@>' % n for n in used) or '1'))
        weights.append(6 if not used else min(5 + sum(weights[n] + 2 for n in used), LIMIT + 1))
    case.faults.append('a.w:%d: warning: never used: <n%05d>\n' % (2 * count + 2, count - 1))
    case.faults += [too_large(2 * k + 4, 'n%05d' % k) for k in range(count) if weights[k] > LIMIT or k >= DEEPEST]
    case.files['a.c'] = piece(1, 2, '\nx\n') + '\n'
    return case


CASES = {
    'one cycle of 50,000 names': one_cycle,
    '25,000 names that use themselves or a partner': themselves_or_a_partner,
    'chain of 50,000 names to one that uses itself': chain_to_a_cycle,
    'chain of 50,000 names that each use themselves': each_uses_itself,
    'chain of 50,000 names with cycles of two': two_of_three,
    'chain of 50,000 names with cycles in cycles': cycles_in_cycles,
    'chain of 50,000 names': chain,
    'name with 100,000 pieces': many_pieces,
    'piece with 300,000 uses of one name': many_uses,
    '100,000 names each used by the next ten': by_the_next_ten,
    'doubling chain of 29 names': lambda: doubling(30),
    'doubling chain of 400 names': lambda: doubling(401),
    'undefined name used 300,000 times': undefined,
}


def main():
    if len(sys.argv) == 1:
        print('\n'.join(CASES))
        return
    case, folder = CASES[sys.argv[1]](), sys.argv[2]
    for below in ('in', 'expected'):
        os.makedirs(os.path.join(folder, below), exist_ok=True)
    texts = {'in/a.w': ''.join(case.web), 'stderr': ''.join(case.faults), 'status': '%d\n' % case.status, 'arguments': 'a\n'}
    texts.update(('expected/' + name, text) for name, text in case.files.items())
    for name, text in texts.items():
        with open(os.path.join(folder, name), 'w', encoding='latin-1') as out:
            out.write(text)


if __name__ == '__main__':
    main()
