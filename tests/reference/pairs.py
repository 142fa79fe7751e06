"""Random pairs of a project with the one that an edit makes of it. The files of the second have
names in the folder new, so that one command can name both.

usage: pairs.py SEED
"""
import copy
import random
import re
import sys

from files import lines_of
from generator import Project, clean, section, used_name
from parts import is_section_start
from reading import included_name

NEW = b'new/'

NAME = re.compile(rb'@[<(].*?@>')
LIKELY = b'@ @\n<>(="\'\\/*.cdh&x1'


def with_other_lines(chance, lines):
    """Other lines, or none, at the place of one or two, or of none."""
    at, count = chance.randint(0, len(lines)), chance.choice([0, 1, 1, 2])
    made = section(chance, chance.random() < .5)
    made = chance.sample(made, min(len(made), chance.choice([0, 1, 1, 2])))
    return lines[:at] + list(map(clean, made)) + lines[at + count:]


def with_a_word_more(chance, lines):
    at = chance.randint(0, len(lines))
    return lines[:at] + [line + b' z' for line in lines[at:at + 1]] + lines[at + 1:]


def with_another_name(chance, lines):
    """A section name that is another one, or is opened by another mark."""
    places = [(at, found.span()) for at, line in enumerate(lines) for found in NAME.finditer(line)]
    if not places:
        return lines
    at, (start, end) = chance.choice(places)
    line = lines[at]
    name = line[start:end]
    if chance.random() < .3:
        name = (b'@<' if name[1:2] == b'(' else b'@(') + name[2:]
    else:
        name = used_name(chance)
    return lines[:at] + [line[:start] + name + line[end:]] + lines[at + 1:]


def with_more_in_front(chance, lines):
    """Lines or sections more, after which each section has another number or other lines."""
    return chance.choice([[b'% top'], [b'@ Another.'], [b'@*', b'text'], [b'', b'']]) + lines


def with_a_section_moved(chance, lines):
    starts = [at for at, line in enumerate(lines)
              if line[:1] == b'@' and is_section_start((line + b'\n')[1])]
    if len(starts) < 2:
        return lines
    at = chance.randrange(len(starts))
    start, end = starts[at], (starts + [len(lines)])[at + 1]
    others = lines[:start] + lines[end:]
    to = chance.choice([place if place <= start else place - (end - start) for place in starts])
    return others[:to] + lines[start:end] + others[to:]


def cut(chance, lines):
    text = b'\n'.join(lines)
    return lines_of(text[:chance.randint(0, len(text))])


def spoiled(chance, lines):
    """With a byte that is another one."""
    text = b'\n'.join(lines)
    if not text:
        return lines
    at = chance.randrange(len(text))
    byte = chance.choice(LIKELY) if chance.random() < .7 else chance.randrange(256)
    return lines_of(text[:at] + bytes([byte]) + text[at + 1:])


EDITS = ([with_other_lines] * 5 + [with_a_word_more] * 5 + [with_another_name] * 4
         + [with_more_in_front] * 2 + [with_a_section_moved] * 3 + [cut] * 3 + [spoiled] * 4)


def web_of_many_names(chance):
    """The lines of a web with many small sections. Most names use names of higher numbers, so that
    few contain themselves, and of many several could be expanded next."""
    numbers = list(range(chance.randint(4, 14)))
    lines = [b'@ P.', b'@c', some_uses(chance, numbers)]
    for number in chance.sample(numbers, len(numbers)):
        if chance.random() < .9:
            used = numbers[number + 1:] if chance.random() < .95 else numbers
            lines += [b'@ @<n%d@>=' % number, some_uses(chance, used)]
    return lines


def some_uses(chance, numbers):
    used = chance.sample(numbers, chance.randint(0, min(len(numbers), 4)))
    used += chance.choice([[], [], used[:1]])
    return b';'.join([b'x'] + [b'@<n%d@>' % number for number in used])


def edited(chance, project):
    """The project with the lines of a file edited, or without its change file, or as it was."""
    made, drawn = copy.copy(project), chance.random()
    if drawn < .03 and project.change:
        made.change = None
    elif drawn > .02:
        at = 0 if chance.random() < .7 else chance.randrange(len(project.files))
        name, lines = project.files[at]
        edit = chance.choice(EDITS)
        made.files = project.files[:at] + [(name, edit(chance, lines))] + project.files[at + 1:]
    return made


def in_new(project):
    """The project with its files in the folder new, and inclusions that ask for them there."""
    made, names = copy.copy(project), [name for name, _ in project.files]
    made.files = [(NEW + name, [with_new_name(line, names) for line in lines])
                  for name, lines in project.files]
    made.web = NEW + project.web
    made.change = project.change and NEW + project.change
    return made


def with_new_name(line, names):
    name = included_name(line)
    return line if name not in names else line[:2] + line[2:].replace(name, NEW + name, 1)


def pair(seed):
    """A project, and the one that an edit makes of it."""
    chance = random.Random(seed * 13 + 3)
    project = Project(seed)
    if seed % 4 == 0:
        project.files = [(project.web, web_of_many_names(chance))]
        project.change = None
    return project, in_new(edited(chance, project))


def main():
    for project in pair(int(sys.argv[1])):
        for name, lines in project.files:
            print(name)
            for number, line in enumerate(lines, 1):
                print('%4d %s' % (number, line))


if __name__ == '__main__':
    main()
