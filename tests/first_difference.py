"""Shows the first short or generated web, or generated script, from which two reference tanglers make something else.

usage: first_difference.py REFERENCE      compares this folder with tests/reference; prints nothing where none differs

Webs and scripts are made by tests/reference. Either folder's code runs in a process of its own.
"""
import os
import subprocess
import sys

TRUE = os.path.join(os.path.dirname(os.path.abspath(__file__)), 'reference')
SHORT = 50                  # webs of each kind
GENERATED = 1000            # webs, and half as many scripts


def made():
    """The name, files, roles and script of each."""
    import generator
    import short_webs
    from files import ROLES, table_of
    for kind in short_webs.KINDS:
        for number in short_webs.some(kind, SHORT):
            yield 'short web %s %d' % (kind, number), table_of({'a.w': short_webs.web(kind, number)}), ROLES, b''
    for seed in range(GENERATED):
        project, script = generator.script(seed)
        if project.is_small():
            yield 'generated web %d' % seed, *project.loaded(), script if seed % 2 else b''


def results():
    """Prints what the reference in sys.path makes of each that standard input names."""
    import pickle
    from files import Roles
    from layers import Listing
    from scripts import Script
    from sessions import Session
    while True:
        try:
            files, roles, script = pickle.load(sys.stdin.buffer)
        except EOFError:
            return
        roles = Roles(*roles)
        listing = list(Listing(files, roles).lines())
        answers = Script(Session(files, roles), script).written if script else b''
        pickle.dump((listing, answers), sys.stdout.buffer)
        sys.stdout.buffer.flush()


def main():
    import pickle
    if len(sys.argv) > 2:
        sys.path.insert(0, sys.argv[1])
        return results()
    sys.path.insert(0, TRUE)
    sides = [subprocess.Popen([sys.executable, '-B', __file__, folder, 'results'], stdin=subprocess.PIPE,
                              stdout=subprocess.PIPE) for folder in (TRUE, sys.argv[1])]
    for name, files, roles, script in made():
        for side in sides:
            pickle.dump((files, tuple(roles), script), side.stdin)
            side.stdin.flush()
        expected, found = (pickle.load(side.stdout) for side in sides)
        if expected != found:
            web = b'\n'.join(dict(files)[b'a.w'])
            print('%s: %r' % (name, web if len(files) == 1 and not script else dict(files)))
            break
    for side in sides:
        side.stdin.close()
        side.wait()


if __name__ == '__main__':
    sys.exit(main())
