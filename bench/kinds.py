"""Webs of one kind of line each, for what that kind costs. They are made for the scanner alone:
their C does not compile."""
import random

WORDS = ('the of graph vertex arc list table buffer node token line value stack pointer array '
         'string output input').split()
CHARACTERS = 'abcdefgxyz0123'


class Kind:
    """A web of some lines of one kind, in sections of thirty."""

    def __init__(self, title, lines):
        self.title, self.wanted = title, lines
        self.chance = random.Random(title)

    def lines(self):
        return getattr(self, self.title)()

    def words(self, count):
        return ' '.join(self.chance.choice(WORDS) for _ in range(count))

    def identifier(self):
        return '%s_%s' % (self.chance.choice(WORDS), self.chance.choice(WORDS))

    def statement(self):
        return '  %s=%s+%s*%d;' % (self.identifier(), self.identifier(), self.identifier(),
                                   self.chance.randint(0, 99))

    def repeated(self, section):
        """Sections that this function makes, until there are as many lines as are wanted."""
        made = []
        while len(made) < self.wanted:
            made += ['@ ' + self.words(8)] + section()
        return made

    def code(self, line):
        """Sections of thirty lines of C that this function makes."""
        return self.repeated(lambda: ['@c'] + [line() for _ in range(30)])

    def row(self, form, choices, count):
        """A line of C with a row of constants of this form."""
        return '  ' + ','.join(form % self.chance.choice(choices) for _ in range(count)) + ','

    def characters(self):
        return self.code(lambda: self.row("'%s'", CHARACTERS, 16))

    def short_strings(self):
        return self.code(lambda: self.row('"%s"', WORDS, 9))

    def ascii_constants(self):
        return self.code(lambda: self.row("@'%s'", CHARACTERS, 16))

    def short_macros(self):
        return self.repeated(lambda: ['@d %s %s+1 /* %s */' % (self.identifier(), self.identifier(),
                                                              self.words(3)) for _ in range(5)])

    def macros_with_arguments(self):
        def macro():
            return ['@d %s(x,y) do { %s=x; \\' % (self.identifier(), self.identifier()),
                    '  %s(y); } while(0)' % self.identifier()]
        return self.repeated(lambda: macro() + macro() + macro() + ['@c', self.statement()])

    def short_lines(self):
        return self.code(lambda: self.chance.choice(['}', '{', ';', 'a', 'b;', '']))

    def empty_lines(self):
        return self.code(lambda: '')

    def undefined_names(self):
        return self.repeated(lambda: ['@c', self.statement(), '@<Do %s@>' % self.words(6)])

    def unused_names(self):
        return self.repeated(lambda: ['@<Do %s@>=' % self.words(6), self.statement(),
                                      self.statement()])

    def names_in_documentation(self):
        def section():
            mentions = ['%s |@<All@>| and |@<Oth...@>| %s' % (self.words(3), self.words(2))
                        for _ in range(8)]
            return mentions + ['@<All@>=', 'x;']
        return (['@ The program.', '@c', '@<All@>', '@ @<Other things to do@>=', 'y;']
                + self.repeated(section))


KINDS = ['characters', 'short_strings', 'ascii_constants', 'short_macros', 'macros_with_arguments',
         'short_lines', 'empty_lines', 'undefined_names', 'unused_names', 'names_in_documentation']
