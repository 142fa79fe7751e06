"""Dense webs: nearly each C part has a join, an ASCII constant, a code or a verbatim text, as the
webs of CWEB's own authors have. The C that they hold compiles."""
import random

NOUNS = ('the a of graph vertex arc list table buffer node token line value stack pointer array '
         'string output input section name file macro index code number memory field link state '
         'current next previous first last empty full step loop case error message user program '
         'routine data structure order time space simple fast slow new old left right upper lower '
         'bound limit count').split()
VERBS = ('Initialize Compute Update Insert Remove Scan Print Flush Copy Compare Advance Check Build '
         'Reset Store Find Sort Merge Split Report').split()
LOCALS = 'a b c n'.split()
OPERATORS = ['+', '-', '*', '<<1 |', '&&', '||', '==', '<=', '>=', '!=', '<', '>', ' - ', '^']
CONSTANTS = "abcxyzABC019+-*"
GLOBALS = 400               # identifiers that the program declares


class DenseWeb:
    """A program of about `lines` lines in sections of about `size`: the lines of its web `syn.w`, of
    its included files, and of its change file."""

    def __init__(self, lines, size=25, inclusions=3, changes=20, outputs=2, macros=0.3):
        self.wanted, self.size = lines, size
        self.outputs, self.macros_likely = outputs, macros
        self.chance = random.Random(repr((lines, 1, size, inclusions, changes, outputs, macros,
                                          GLOBALS)))
        self.identifiers = ['%s_%s_%d' % (self.one(NOUNS), self.one(NOUNS), number)
                            for number in range(GLOBALS)]
        self.lines, self.names, self.macro_count = [], 0, 0
        self.macros, self.functions = [], []
        self.parts = []                     # the ranges of lines that are included files
        self.make(inclusions)
        self.made_changes = self.change_lines(changes)

    def files(self):
        """The files by name, each a list of lines."""
        web, included, start = [], {}, 0
        for number, (first, end) in enumerate(self.parts):
            name = 'syn%d.i' % number
            web += self.lines[start:first] + ['@i ' + name]
            included[name] = self.lines[first:end]
            start = end
        return {'syn.w': web + self.lines[start:], 'syn.ch': self.made_changes, **included}

    def one(self, choices):
        return self.chance.choice(choices)

    def number(self, least, most):
        return self.chance.randint(least, most)

    def words(self, count):
        return ' '.join(self.one(NOUNS) for _ in range(count))

    def add(self, *lines):
        self.lines += lines

    # The documentation and the head of a section.

    def documentation_line(self):
        drawn, count = self.chance.random(), self.number(6, 11)
        if drawn < .15:
            return '%s |%s+%d| %s' % (self.words(count // 2), self.one(self.identifiers),
                                      self.number(1, 9), self.words(count // 2))
        if drawn < .20:
            return '%s $x_{%d}\\le y^%d$,' % (self.words(count), self.number(1, 99),
                                              self.number(2, 9))
        if drawn < .24:
            return '@^%s@>' % self.words(2)
        if drawn < .27:
            return '@.%s@>' % self.words(2)
        if drawn < .30:
            return '\\smallskip\\item{%d)} %s; see \\.{user@@host}' % (self.number(1, 9),
                                                                     self.words(count))
        if drawn < .32:
            return self.words(count) + '   '
        return self.words(count) + self.one(['', '', ',', '.'])

    def begin_section(self, has_title=False):
        count = max(1, int(self.size * self.chance.uniform(.2, .5)))
        if has_title:
            self.add('@* %s.' % self.words(3).capitalize())
        elif self.chance.random() < .3:
            self.add(self.one(['@ ', '@']))
        else:
            self.add('@ ' + self.words(6).capitalize())
        for _ in range(count):
            self.add(self.documentation_line())
        if self.chance.random() < .08:
            self.add('@f %s_type int' % self.one(NOUNS))
        likely = self.macros_likely
        while self.chance.random() < likely:
            self.add_macro()
            likely *= .5

    def add_macro(self):
        self.macro_count += 1
        drawn = self.chance.random()
        name = '%s_mac_%d' % (self.one(NOUNS), self.macro_count)
        if drawn < .6:
            self.add('@d %s %d /* %s */' % (name, self.number(0, 999), self.words(4)))
            self.macros.append(name)
        elif drawn < .85:
            self.add('@d %s(x,y) ((x)+%d*(y))' % (name, self.number(1, 9)))
            self.macros.append('%s(a,%d)' % (name, self.number(1, 9)))
        else:
            self.add('@d %s(x) (x)' % name)
            self.add('  +%d /* %s */' % (self.number(1, 9), self.words(3)))
            self.add('  -(%s)' % self.one(self.identifiers))
            self.macros.append(name + '(b)')
        if len(self.macros) > 200:
            self.macros.pop(0)

    # Expressions and statements of C.

    def expression(self, depth=0):
        drawn = self.chance.random()
        if drawn < .25:
            return self.one(LOCALS)
        if drawn < .45:
            return self.one(self.identifiers)
        if drawn < .60:
            return str(self.number(0, 9999))
        if drawn < .64:
            return "@'%s'" % self.one(CONSTANTS)
        if drawn < .66:
            return "@'\\%s'" % self.one(['n', 't', '033', '177', '\\'])
        if drawn < .69:
            return "'%s'" % self.one(['a', 'z', '\\n', '\\\'', '@@', '"'])
        if drawn < .71:
            return self.one(['0x1fUL', '077', '0xFFu', '0xFEL'])
        if drawn < .76 and self.macros:
            return self.one(self.macros)
        if drawn < .80 and self.functions:
            return '%s(%s,%s)' % (self.one(self.functions), self.one(LOCALS),
                                  self.one(self.identifiers))
        if depth > 3:
            return self.one(LOCALS)
        return '(%s%s%s)' % (self.expression(depth + 1), self.one(OPERATORS),
                             self.expression(depth + 1))

    def statement(self):
        """The lines of a statement."""
        drawn = self.chance.random()
        indent = self.one(['', '  ', '  ', '    '])
        kinds = [(.50, self.assignment), (.64, self.control), (.79, self.printing_or_comment),
                 (.88, self.codes)]
        for bound, kind in kinds:
            if drawn < bound:
                return kind(drawn, indent)
        if drawn < .93:
            return ['']
        return ['%swhile (a>%d) a/=2;' % (indent, self.number(1, 9))]

    def assignment(self, drawn, indent):
        if drawn < .40:
            return ['%s%s%s(int)(%s);' % (indent, self.one(self.identifiers),
                                          self.one(['=', '+=', '-=', '|=', '=']),
                                          self.expression())]
        return ['%s%s=%s+%s;@+ %s++; /* %s */' % (indent, self.one(LOCALS), self.one(LOCALS),
                                                  self.expression(2), self.one(LOCALS),
                                                  self.words(5))]

    def control(self, drawn, indent):
        if drawn < .58:
            return ['%sif (%s) %s--;' % (indent, self.expression(), self.one(self.identifiers)),
                    '%selse@, %s++;' % (indent, self.one(self.identifiers))]
        return ['%sfor (n=0; n<%d; n++) {' % (indent, self.number(2, 99)),
                '%s  %s=(int)(%s);@/' % (indent, self.one(self.identifiers), self.expression()),
                indent + '}']

    def printing_or_comment(self, drawn, indent):
        if drawn < .72:
            tail = self.one(['', ' " at@@ \\"%d\\" "'])
            return ['%sprintf("%s %%d\\n"%s,%s,%s);' % (indent, self.words(3), tail,
                                                       self.one(LOCALS), self.one(LOCALS))]
        if drawn < .76:
            return ['%s/* %s' % (indent, self.words(8)),
                    '   %s, |%s| */' % (self.words(7), self.one(self.identifiers))]
        return ['%s%s=%d; // %s' % (indent, self.one(LOCALS), self.number(1, 9), self.words(6))]

    def codes(self, drawn, indent):
        if drawn < .82:
            return ['%sswitch (%s&3) {' % (indent, self.one(LOCALS)),
                    '%scase 0: %s=1; @=/* fall through */@>@;' % (indent, self.one(LOCALS)),
                    '%scase 1:@t\\4@> %s=2; break;' % (indent, self.one(LOCALS)),
                    indent + 'default: break;',
                    indent + '}@#']
        if drawn < .84:
            return ['#ifdef DEBUG', '%s%s=0;' % (indent, self.one(self.identifiers)), '#endif']
        if drawn < .86:
            return ['%s%s=var@&_%d;' % (indent, self.one(LOCALS), self.number(0, 9))]
        return ['%sreal=real*%s+%d.5;' % (indent,
                                          self.one(['1.5e-3', '.25', '2E+10f', '3.', '0x1p-3']),
                                          self.number(1, 9))]

    def add_statements(self, count):
        while count > 0:
            lines = self.statement()
            count -= len(lines)
            self.add(*lines)

    # Sections.

    def new_name(self):
        self.names += 1
        return '%s %s %d %s %s' % (self.one(VERBS), self.words(2), self.names,
                                   self.one(['when', 'if', 'so that', 'before']),
                                   self.words(self.number(2, 5)))

    def occurrence(self, name):
        """The name with its marks, maybe as an abbreviation, with more spaces or over two lines."""
        if self.chance.random() < .5:
            words = name.split(' ')
            end = next(at for at, word in enumerate(words) if word.isdigit()) + 1
            return '@<%s %s...@>' % (' '.join(words[:end]), words[end][0])
        if self.chance.random() < .1:
            return '@<%s @>' % name.replace(' ', '  ', 1)
        if self.chance.random() < .05:
            first, rest = name.split(' ', 1)
            return '@<%s\n  %s@>' % (first, rest)
        return '@<%s@>' % name

    def add_lines(self, text):
        self.add(*text.split('\n'))

    def body_size(self):
        return max(2, int(self.size * self.chance.uniform(.3, .8)))

    def add_section_of(self, name, depth):
        """The section of a name, and those of the names that it uses."""
        goes_on = depth < 6 and len(self.lines) < self.wanted
        used = [self.new_name() for _ in range(self.one([0, 0, 1, 1, 2, 2]) if goes_on else 0)]
        self.begin_section()
        self.add_lines('@<%s@>%s' % (name, self.one(['=', '=', '+=', '==', ' ='])))
        count = self.body_size()
        self.add_statements(count // 2)
        for other in used:
            self.add_lines('  ' + self.occurrence(other) + self.one(['@;', ';', '']))
        self.add_statements(count - count // 2)
        for other in used:
            self.add_section_of(other, depth + 1)
        if self.chance.random() < .1:
            self.begin_section()
            self.add_lines(self.occurrence(name) + '+=')
            self.add_statements(self.body_size())

    def add_function(self, number):
        used = [self.new_name() for _ in range(self.number(1, 3))]
        self.begin_section(self.chance.random() < .2)
        self.add('@c', 'static int fun_%d(int a,@, int b)' % number, '{@+ int c=0,n=0;')
        self.add_statements(self.body_size() // 2)
        for name in used:
            self.add_lines('  ' + self.occurrence(name) + '@;')
        self.add('  return a+b+c+n;', '}')
        for name in used:
            self.add_section_of(name, 2)
        self.begin_section()
        self.add('@<Prototypes@>=', 'static int fun_%d(int,int);' % number)
        self.functions.append('fun_%d' % number)
        if len(self.functions) > 100:
            self.functions.pop(0)

    def add_output(self, number):
        self.begin_section()
        self.add('@(file%d.h@>=' % number)
        for _ in range(self.body_size()):
            self.add('extern int %s_%d_x; /* %s */' % (self.one(NOUNS), self.number(1, 999999),
                                                      self.words(3)))
        self.begin_section()
        self.add('@(file%d.h@>=' % number, '  @<Shared constants@>@;')

    def add_front(self):
        self.add('% a synthetic web for tests', '\\def\\title{SYN}',
                 '\\nocon % omit table of contents', '@s graph_type int')
        self.limbo = len(self.lines)
        self.begin_section(True)
        self.add('@c', '#include <stdio.h>', '#include <stdlib.h>', '@<Global variables@>@;',
                 '@<Prototypes@>@;', '@h', *('int var_%d;' % number for number in range(10)),
                 'double real=1.0;')
        for start in range(0, GLOBALS, GLOBALS // 20):
            self.begin_section()
            self.add('@<Global variables@>=')
            for name in self.identifiers[start:start + GLOBALS // 20]:
                self.add('static int %s; /* %s */' % (name, self.words(3)))

    def make(self, inclusions):
        self.add_front()
        start, outputs, functions = len(self.lines), 0, 0
        part_size = self.wanted / (inclusions + 1)
        while len(self.lines) < self.wanted:
            next_output = self.wanted * (outputs + .5) / max(1, self.outputs)
            if outputs < self.outputs and len(self.lines) > next_output:
                self.add_output(outputs)
                outputs += 1
            functions += 1
            self.add_function(functions)
            if len(self.parts) < inclusions and len(self.lines) - start >= part_size:
                self.parts.append((start, len(self.lines)))
                start = len(self.lines)
        self.begin_section()
        self.add('@<Shared constants@>=', 'enum { shared_one=1 };')
        self.begin_section(True)
        self.add('@c', 'int main(void) {', '  return fun_%d(1,2);' % functions, '}', '@* Index.')

    # The change file.

    def part_at(self, line):
        return next((number for number, (first, end) in enumerate(self.parts)
                     if first <= line < end), None)

    def is_statement(self, line, before):
        """Whether a change may begin at this line: a statement that is not among those before it."""
        text = self.lines[line].rstrip(' ')
        if not text.strip() or text[0] == '@' or '@<' in text or text.startswith('#'):
            return False
        if text in before:
            return False
        if text.startswith(('int ', 'static', 'extern', 'enum', 'double')):
            return False
        if text.lstrip().startswith('if') or not text.endswith(';'):
            return False
        if '"' in text and self.chance.random() < .5:
            return False
        return self.part_at(line) == self.part_at(line + 2)

    def change_lines(self, count):
        made, done, start, last = ['% changes for tests'], 0, self.limbo, len(self.lines) - 10
        step = max(8, (last - self.limbo) // count)
        while done < count and start < last:
            first = start + self.number(0, max(1, step // 2))
            before = {line.rstrip(' ') for line in self.lines[start:first]}
            found = None
            for line in range(first, min(first + 200, last)):
                if self.is_statement(line, before):
                    found = line
                    break
                before.add(self.lines[line].rstrip(' '))
            if found is None:
                start = first + 1
                continue
            old = self.lines[found].rstrip(' ')
            made += ['@x', old, '@y', '  /* changed %d */' % done, old,
                     '  var_%d+=%d;' % (done % 10, done), '@z', '']
            start = found + 1
            step = max(8, (last - start) // (count - done))
            done += 1
        return made


def dense_webs():
    """Three dense webs with their titles; the last has long parts and few macros."""
    yield 'dense, 10,000 lines', DenseWeb(10000)
    yield 'dense, 100,000 lines', DenseWeb(100000, inclusions=5, changes=100, outputs=5)
    yield 'dense, 1,000,000 lines, long parts', DenseWeb(
        1000000, size=320, inclusions=5, changes=200, outputs=5, macros=0.1)
