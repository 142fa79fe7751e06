"""What the client's settings say. They come with `initialize`, under `retangle` or by themselves.

A command comes from there or from the environment, and from nowhere else: editors take other
settings out of a file of the folder, too, and to open a folder must run nothing that it names.
"""
import os
import shlex

from .protocol import part_or_none

COMPILER = 'RETANGLE_COMPILER'


def words_of(given):
    """The words of a command, which is one text or a list of them; None where it is neither."""
    if isinstance(given, str):
        try:
            return shlex.split(given)
        except ValueError:              # a quote without its end
            return None
    is_list = isinstance(given, list) and all(isinstance(one, str) for one in given)
    return given if is_list else None


class Settings:
    """The settings of a client; `wrong` says what is wrong with them."""

    def __init__(self, options=None):
        self.wrong = []
        own = part_or_none(options, 'retangle')
        self.given = own if isinstance(own, dict) else options
        self.compiler = self.command('compiler', COMPILER)

    def command(self, key, variable):
        """The words of a command, by its setting or by a variable of the environment."""
        given = part_or_none(self.given, key)
        if given is None:
            key, given = variable, os.environ.get(variable, '')
        words = words_of(given)
        if words is None or any('\0' in word for word in words):
            self.wrong.append('%s: this is no command' % key)
        return [] if words is None else words
