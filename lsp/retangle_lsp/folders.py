"""The folder of a project, as the client's settings say it."""
import os

from .documents import path_of
from .protocol import encoded, part_or_none


def said_folder(settings, parameters):
    """The folder that settings say, under `retangle` or by themselves, without links; None where
    they say none. A relative one is in the folder of the client, which its first message has."""
    own = part_or_none(settings, 'retangle')
    said = part_or_none(own if isinstance(own, dict) else settings, 'folder')
    if not isinstance(said, str) or not said or '\0' in said:
        return None
    uri = part_or_none(parameters, 'rootUri')
    base = path_of(uri) if isinstance(uri, str) else None
    return os.path.realpath(os.path.join(base or b'/', os.path.expanduser(encoded(said))))
