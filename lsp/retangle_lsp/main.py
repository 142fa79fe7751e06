"""The program: its arguments, and the retangle that it starts."""
import argparse
import gc
import os
import shutil
import sys

from .pipes import end_all
from .protocol import Messages
from .server import Server
from .signals import signals

VERSION = '1.0'
# What a change makes is soon dropped, and is in no cycle: the collector would look at a whole web
# at each change, and find nothing.
OBJECTS = 200000


def find_retangle(program):
    """The retangle beside this program, else that on the path; its name is that of this program
    without `-lsp`, or `retangle`. None where there is none."""
    folder, name = os.path.split(program)
    names = dict.fromkeys([name.removesuffix('-lsp'), 'retangle'])
    beside = [os.path.join(folder, name) for name in names]
    found = [path for path in beside if os.path.isfile(path) and os.access(path, os.X_OK)
             and os.path.realpath(path) != os.path.realpath(program)]
    found += filter(None, map(shutil.which, names))
    return found[0] if found else None


def open_streams():
    """What is opened later must not get the number of a standard stream that is closed."""
    for number in range(3):
        try:
            os.fstat(number)
        except OSError:
            os.open(os.devnull, os.O_RDWR)


def main(program):
    parser = argparse.ArgumentParser(
        prog=os.path.basename(program),
        description='A language server for webs, which an editor starts. It speaks the language '
                    'server protocol on standard input and output, and has retangle find the '
                    'faults of the webs.')
    parser.add_argument('--stdio', action='store_true', help='the only way to speak, also without')
    parser.add_argument('--retangle', metavar='PATH', help='the program to use')
    parser.add_argument('--version', action='version', version='%(prog)s ' + VERSION)
    arguments = parser.parse_args()
    gc.set_threshold(OBJECTS)
    open_streams()
    signals.take()
    named = arguments.retangle or os.environ.get('RETANGLE')
    server = Server(Messages(0, open(1, 'wb', closefd=False)),
                    lambda: named or find_retangle(program), VERSION)
    try:
        return server.serve()
    except BrokenPipeError:             # the client has ended
        os.dup2(os.open(os.devnull, os.O_WRONLY), 1)
        return 1
    finally:
        signals.ignore()
        server.end()
        end_all()
