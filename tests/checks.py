"""What the tests over the built programs share: counted checks, files, conversations and differences."""
import os
import re
import tempfile

SHOWN = 100             # the most problems that are printed
LONGEST = 2000          # so much of a value is printed

counts = {True: 0, False: 0}


def check(holds, name, problem):
    """Counts one check, and prints the problem where it does not hold, if it is one of the first."""
    counts[bool(holds)] += 1
    if not holds and counts[False] <= SHOWN:
        print('FAIL %s: %s' % (name, problem))


def same(found, expected, name):
    """Counts one comparison, and prints both where they differ."""
    holds = found == expected
    check(holds, name, '' if holds else '%s, not %s' % (shown(found), shown(expected)))


def shown(value):
    text = repr(value)
    return text if len(text) <= LONGEST else text[:LONGEST] + ' ..'


def finish():
    """Prints 'N passed, M failed', and returns the status of the program."""
    print('%d passed, %d failed' % (counts[True], counts[False]))
    return 1 if counts[False] else 0


def run_all(tests, *arguments):
    """Runs the tests one after another, each with these arguments, and finishes. A test that ends
    early, since a program left something that no test expects, has failed."""
    for test in tests:
        try:
            test(*arguments)
        except Exception as fault:
            check(False, test.__name__, '%s: %s' % (type(fault).__name__, fault))
    return finish()


def read(*path):
    with open(os.path.join(*path), 'rb') as file:
        return file.read()


def read_if_there(*path):
    """The same of a file that may not be there: then None."""
    return read(*path) if os.path.isfile(os.path.join(*path)) else None


def write(text, *path):
    with open(os.path.join(*path), 'wb') as file:
        file.write(text)


def lay(folder, files):
    """Writes these files, by name, into the folder, and makes the folders that they are in."""
    for name, text in files.items():
        os.makedirs(os.path.dirname(os.path.join(folder, name)), exist_ok=True)
        write(text, folder, name)


def new_folder(temporary, name, files):
    """A folder of this name with these files."""
    folder = os.path.join(temporary, name)
    os.mkdir(folder)
    lay(folder, files)
    return folder


def files_below(folder):
    """The paths of all files of a folder and the folders in it."""
    return sorted(os.path.relpath(os.path.join(path, name), folder)
                  for path, _, names in os.walk(folder) for name in names)


def written_in(folder, files):
    """The files of the folder that were created there, or no longer have these bytes."""
    found = {name: read(folder, name) for name in os.listdir(folder)}
    return {name: text for name, text in found.items() if files.get(name) != text}


def folder_with(files):
    """A folder with these files, which is removed when it is no longer used."""
    folder = tempfile.TemporaryDirectory()
    lay(folder.name, files)
    return folder


def blocks_of(text):
    """The indented blocks of a document."""
    blocks = re.findall(rb'(?:^(?:    .*)?\n)*^    .*\n', text, re.M)
    return [re.sub(b'^    ', b'', block, flags=re.M).strip(b'\n') + b'\n' for block in blocks]


def turns_of(block):
    """The turns of a conversation, [typed, answered] each. Its first line is the command; each line
    that is typed is after '> '. An edit is typed with its line of text."""
    turns, takes_text = [], False
    for line in block.splitlines(True)[1:]:
        typed = line[2:]
        if not line.startswith(b'> '):
            turns[-1][1] += line
        elif takes_text:
            turns[-1][0] += typed
            takes_text = False
        else:
            turns.append([typed, b''])
            takes_text = typed.startswith((b'insert ', b'replace '))
    return turns


def conversation_of(top):
    """The web and the turns of docs/sessions.md: the web is in the block before the conversation."""
    blocks = blocks_of(read(top, 'docs', 'sessions.md'))
    at = next(at for at, block in enumerate(blocks) if block.startswith(b'$ retangle a\n'))
    return blocks[at - 1], turns_of(blocks[at])


def difference(expected, found):
    """Where the text that was found first differs."""
    shorter = min(len(expected), len(found))
    at = next((at for at in range(shorter) if expected[at] != found[at]), shorter)
    return 'at byte %d of %d: %r, not %r' % (at, len(expected), found[at:at + 60],
                                             expected[at:at + 60])
