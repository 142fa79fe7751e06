"""A folder that stands in for that of a web while retangle starts."""
import os
import tempfile

from .runs import NotStarted


class StandIn:
    """A temporary folder with files of these names, without lines. NotStarted where there is no
    room for it, or where a file would not be in it."""

    def __init__(self, names):
        self.names, self.folder = names, None

    def __enter__(self):
        for name in self.names:
            if name.startswith(b'/') or b'..' in name.split(b'/'):
                raise NotStarted('it includes what is no file with a text, and %s is not in the '
                                 'root' % os.fsdecode(name))
        try:
            self.folder = tempfile.TemporaryDirectory(prefix='start-of-a-web-')
            for name in set(self.names):
                path = os.path.join(os.fsencode(self.folder.name), name)
                os.makedirs(os.path.dirname(path), exist_ok=True)
                open(path, 'xb').close()
        except OSError as error:
            self.__exit__()
            raise NotStarted('no temporary file can be written: %s' % error.strerror) from None
        return self.folder.name

    def __exit__(self, *_):
        if self.folder:
            self.folder.cleanup()
