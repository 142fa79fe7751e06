"""A web some of whose lines come from a change file."""


class ChangedLines:
    """The lines of a.w and of a.ch that give this text, and the place of each line of the text."""

    def __init__(self, chance, text):
        self.lines, self.changes = text.split(b'\n')[:-1], []
        self.places = [(b'a.w', number) for number in range(1, len(self.lines) + 1)]
        for at in range(1, len(self.lines)):
            if chance.random() < .15:
                self._change(at)

    def _change(self, at):
        """This line is another one in the web."""
        old = b'old line %d' % at
        self.changes += [b'@x', old, b'@y', self.lines[at], b'@z']
        self.lines[at], self.places[at] = old, (b'a.ch', len(self.changes) - 1)

    def files(self):
        return {'a.w': bytes_of(self.lines), 'a.ch': bytes_of(self.changes)}


def bytes_of(lines):
    return b''.join(line + b'\n' for line in lines)
