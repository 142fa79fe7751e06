"""A project over edits, tangled anew at each one (docs/sessions.md)."""
import limits
from files import Refused, is_file_name
from graph import affected
from tangling import tangling_of


def edited(files, roles, edit):
    """The files and roles after an edit: ('insert', file, at, text), ('remove', file, at), ('replace', file, at, text),
    ('create', file), ('discard', file) or ('marks', mode)."""
    kind, name = edit[:2]
    if kind == 'marks':
        return files, roles._replace(marks=name)
    if not is_file_name(name):
        raise Refused('BadName')
    names = [other for other, _ in files]
    if kind == 'create':
        if name in names:
            raise Refused('FileExists')
        if len(files) >= limits.FILES:
            raise Refused('TooManyFiles')
        return files + [(name, [])], roles
    if name not in names:
        raise Refused('UnknownFile')
    at = names.index(name)
    if kind == 'discard':
        if name in (roles.web, roles.change):
            raise Refused('RoleFile')
        return files[:at] + files[at + 1:], roles
    return files[:at] + [(name, edited_lines(files[at][1], *edit[:1] + edit[2:]))] + files[at + 1:], roles


def edited_lines(lines, kind, at, text=b''):
    if not 1 <= at <= len(lines) + (kind == 'insert'):
        raise Refused('NoSuchLine')
    if kind == 'remove':
        return lines[:at - 1] + lines[at:]
    if b'\n' in text:
        raise Refused('BadLine')
    text = text.rstrip(b' ')
    if len(text) > limits.LINE_BYTES:
        raise Refused('LineTooLong')
    if kind == 'insert' and len(lines) >= limits.FILE_LINES:
        raise Refused('TooManyLines')
    return lines[:at - 1] + [text] + lines[at if kind == 'replace' else at - 1:]


class Session:
    """`watch` is called with each new tangling, and may raise where it is too large."""

    def __init__(self, files, roles, watch=lambda tangling: None):
        self.files, self.roles, self.watch = files, roles, watch
        self.tangling = tangling_of(files, roles)
        watch(self.tangling)
        self.last_work = len(self.tangling.graph.expandable)

    def apply(self, edits):
        """Makes these edits, all or none: None, or the refusal and the number of the refused edit from 0."""
        files, roles = self.files, self.roles
        for number, edit in enumerate(edits):
            try:
                files, roles = edited(files, roles, edit)
            except Refused as refused:
                return refused.refusal, number
        new = tangling_of(files, roles)
        self.watch(new)
        work = len(affected(self.tangling.graph, new.graph))
        self.files, self.roles, self.tangling, self.last_work = files, roles, new, work
        return None

    def output(self, name):
        return dict(self.tangling.files).get(name)
