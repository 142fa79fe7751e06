"""The web of a chain of names: the program uses k0001, k0001 uses k0002, and so on."""


def chain(count):
    """The program takes three lines, and each name two: its definition, and its use of the next one."""
    names = ['@ @<k%04d@>=\n@<k%04d@>\n' % (k, k + 1) for k in range(1, count)]
    return '@ P.\n@c\n@<k0001@>\n' + ''.join(names) + '@ @<k%04d@>=\n1\n' % count
