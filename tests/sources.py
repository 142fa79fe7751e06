"""The files of a crate, and the functions in them; what the tests over the sources share."""
import os
import re

FUNCTION = re.compile(r'^\s*(pub |pub\(crate\) )?(?:const )?fn (\w+)', re.M)
IMPL = re.compile(
    r'^(?:impl(?:<[^>{]*>)? (?:\w+(?:<[^{]*?>)? for )?|pub trait |trait )(\w+)', re.M)


def texts_in(folder, ending):
    found = {}
    if os.path.isdir(folder):
        for name in sorted(os.listdir(folder)):
            if name.endswith(ending):
                with open(os.path.join(folder, name), encoding='utf-8') as source:
                    found[name] = source.read()
    return found


class Crate:
    def __init__(self, folder):
        tests, name = os.path.join(folder, '../../tests'), os.path.basename(folder)
        self.specs = texts_in(os.path.join(folder, 'specs'), '.antt')
        self.code = texts_in(os.path.join(folder, 'src'), '.rt')
        self.edits = texts_in(os.path.join(folder, 'must-fail'), '.edit')
        self.further_edits = texts_in(os.path.join(tests, 'wrong-bodies', name), '.edit')
        self.twins = texts_in(os.path.join(tests, 'right-bodies', name), '.edit')
        self.whole = '\n'.join(self.code.values())


def crates_in(top):
    """The crates of a repository, by their names."""
    folder = os.path.join(top, 'crates')
    return {name: Crate(os.path.join(folder, name)) for name in sorted(os.listdir(folder))}


def page_in(top, name):
    with open(os.path.join(top, name), encoding='utf-8') as source:
        return source.read()


def functions_in(text):
    """The functions of a file: (start, type of the impl or '', name, whether public, text)."""
    starts = [(found.start(), found) for found in FUNCTION.finditer(text)]
    impls = [(found.start(), found.group(1)) for found in IMPL.finditer(text)]
    for number, (start, found) in enumerate(starts):
        end = starts[number + 1][0] if number + 1 < len(starts) else len(text)
        before = [name for at, name in impls if at < start]
        is_method = text[found.start():found.end()].lstrip('\n').startswith(' ')
        kind = before[-1] if is_method and before else ''
        yield start, kind, found.group(2), found.group(1) == 'pub ', text[start:end]


def functions_of(here):
    return [(file,) + one for file, text in here.code.items() for one in functions_in(text)]


def exported_of(here):
    """The names that the crate exports; a program exports none."""
    root = here.code.get('lib.rt', '')
    passed_on = ' '.join(re.findall(r'^pub use (?:\w+::)*([^;]*);', root, re.M))
    own = re.findall(r'^pub (?:struct|enum|trait|fn) (\w+)', root, re.M)
    return {*re.findall(r'\w+', passed_on), *own}


def surface_of(here, functions):
    """The public functions that the crate passes on, and the methods of the types that it does."""
    exported = exported_of(here)
    return [one for one in functions if one[4] and (one[2] or one[3]) in exported]
