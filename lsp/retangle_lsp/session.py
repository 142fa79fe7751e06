"""A web, its files as they are on the disk or in an editor, and the C and the faults of it."""
import os

from . import runs
from .edits import edits
from .files import Unreadable, path_in, read_text, text_of, with_extension
from .origins import file_names, marked, origins
from .runs import Ended, Full, NotStarted, Refused, Run, Unanswered, fault_of
from .standin import StandIn

STARTS = 100            # so often retangle is started while its files change


class Retangle:
    """A web that retangle tangles again and again.

    Names, lines and outputs are bytes. A name is a name in the folder `cwd`, or a full path.
    All calls but close may raise Ended, where retangle cannot be started; the next call starts it
    again. One that ends later is started again without that, and `notices` gets a line of text.
    """

    def __init__(self, web, change=None, out=None, cwd=b'.', program=None, buffers=None):
        program = program or os.environ.get('RETANGLE', 'retangle')
        self.folder = os.path.abspath(os.fsencode(cwd))
        self.arguments = [os.path.abspath(program) if '/' in program else program, b'--', web]
        self.roles = [with_extension(web, b'.w')]
        if change is not None:
            self.arguments[1:1] = [b'--change=' + change]
            if change != b'-':
                self.roles.append(with_extension(change, b'.ch'))
        if out is not None:
            self.arguments[1:1] = [b'--out=' + out]
        main = web.rsplit(b'/', 1)[-1].rsplit(b'.', 1)[0] + b'.c'
        self.main = main if out is None else with_extension(out, b'.c')
        # path: text, of the files that the editor has not saved; several webs may share them
        self.buffers = {} if buffers is None else buffers
        self.readings = {}      # path: text, of the files on the disk
        self.unreadable = {}    # name: why, of the files that are there and cannot be read
        self.held = {}          # name: text, of the files as retangle has them
        self.refused = {}       # name: text, of the files that retangle did not take so
        self.reasons = {}       # name: why it did not
        self.notices = []
        self.start()

    # ------------------------------------------------------------------ starting

    def start(self):
        """Starts retangle, and gives it what the editor has not saved."""
        self.forget()
        texts = self.texts_on_disk()
        if self.unreadable:
            self.run, self.held = self.start_beside()
        else:
            self.run, texts = self.start_on(texts)
            self.held = {name: self.text_at_start(name, text) for name, text in texts.items()}
        try:
            self.bring()
        except Refused as refused:
            self.notices.append(str(refused))

    def start_on(self, before):
        """A run of which it is known what it has read. It has read all files when it answers the
        first question. They are read here before it starts and after that; it is started again
        where they are not the same."""
        for _ in range(STARTS):
            run, ended = Run(self.arguments, self.folder), None
            try:
                run.fault_lines()
            except Unanswered:
                raise
            except Ended as error:
                ended = error
            after = self.texts_on_disk()
            if after == before and ended:
                raise ended
            if after == before:
                return run, after
            run.close()
            before = after
        raise Ended(3, 'its files change all the time')

    def start_beside(self):
        """A run on files without lines, where retangle would end at an included file, or wait for
        it: it gets the texts of the others by edits. And what it has then."""
        for name in self.roles:
            if name in self.unreadable:
                raise NotStarted('%s: %s' % (os.fsdecode(name), self.unreadable[name]))
        with StandIn(self.roles) as folder:
            run = Run(self.arguments, folder)
            run.fault_lines()
        return run, {name: text_of([]) for name in self.roles}

    def texts_on_disk(self):
        self.readings = {}
        return self.texts({})

    def text_at_start(self, name, text):
        """What retangle has of a file that is in the roles, or that some line includes. A change
        may have taken this line, so that the file was not read; then it is created here."""
        if text is None or name in self.roles:
            return text
        answer = self.run.ask(b'create ' + name)
        return {b'no FileExists': text, b'ok': text_of([])}.get(answer)

    def answer(self, question):
        """The answer of the run to a question. A run that has ended is started again, once, and so
        is one of which the script has no room for the question."""
        if self.run.is_over:
            self.start()
        try:
            return question()
        except Full:
            self.run.close()
            why = 'retangle was ended, since its script has no room for more'
        except Ended as ended:
            why = str(ended)
        try:
            self.start()
        except Ended:
            self.notices.append(why)
            raise
        self.notices.append(why + '; it was started again')
        return question()

    # ------------------------------------------------------------------ the files

    def path(self, name):
        """Where a file is. Two names of it have one path."""
        return path_in(self.folder, name)

    def names(self, name):
        """The names by which the web has a file."""
        path = self.path(name)
        return [known for known, text in self.held.items()
                if text is not None and self.path(known) == path]

    def text(self, name, buffers):
        """The text of a file, or None where it cannot be read: it cannot be included then. The web
        and the change file stay as they were, since retangle does not discard them."""
        path = None
        try:
            path = self.path(name)
            if path not in buffers:
                self.readings[path] = read_text(name, path, self.readings.get(path))
        except Unreadable as unreadable:
            if path is not None and not unreadable.is_missing:
                self.unreadable[name] = unreadable.reason
            if name in self.roles:
                return self.readings.get(path)
            self.readings.pop(path, None)
            return None
        return buffers.get(path) or self.readings[path]

    def texts(self, buffers):
        """The files of the web by name: those of the arguments, and what lines of them include."""
        found, names = {}, list(self.roles)
        self.unreadable = {}
        while names:
            name = names.pop(0)
            if name not in found:
                found[name] = text = self.text(name, buffers)
                names += [included for _, included in text.inclusions] if text else []
        return found

    def update(self, name, lines):
        """The file is these lines in the editor. The number of edits that were made for that."""
        if b'\n' in b''.join(lines):
            raise ValueError('a line with a line feed')
        path = self.path(name)
        if os.path.isdir(path):
            raise Unreadable(name, 'it is a folder')
        before = {path: self.buffers[path]} if path in self.buffers else {}
        self.buffers[path] = text_of([line.rstrip(b' ') for line in lines])
        try:
            return self.refresh()
        except Refused as refused:
            if self.path(refused.name) == path:
                del self.buffers[path]
                self.buffers.update(before)
            raise

    def save(self, name):
        """The file is as it is on the disk, from now on. The number of edits."""
        path = self.path(name)
        try:
            self.readings[path] = read_text(name, path)
        except Unreadable as unreadable:
            known = self.names(name)
            if not (unreadable.is_missing and known) or set(known) & set(self.roles):
                raise
        self.buffers.pop(path, None)
        return self.refresh()

    def refresh(self):
        """Brings retangle to the files as they are now. The number of edits."""
        return self.answer(self.bring)

    def bring(self):
        """Sends all that is not as retangle has it. The number of edits."""
        texts, first = self.texts(self.buffers), None
        while True:
            made = self.edits(texts)
            if made:
                self.forget()
            try:
                self.commit(made)
                break
            except Refused as refused:
                if not refused.number:
                    raise
                first = first or refused
                self.refused[refused.name] = texts[refused.name]
                self.reasons[refused.name] = str(refused)
        for name, text in texts.items():
            if self.refused.get(name, '') is not text:
                self.held[name] = text
        if first:
            raise first
        return len(made)

    def edits(self, texts):
        """The edits that bring retangle to these texts, with the names of their files before them.
        A text that was refused is not tried again, so that other files can be sent."""
        made = []
        for name, text in texts.items():
            old = self.held.get(name)
            if text is not old and self.refused.get(name, '') is not text:
                made += [(name,) + edit
                         for edit in edits(name, old and old.lines, text and text.lines)]
        return made

    def commit(self, made):
        """Sends a list of edits. All of them are made, or none."""
        if not made:
            return
        lines = [request if text is None else request + b'\n' + text for _, request, text in made]
        size = len(b'begin\ncommit\n') + sum(map(len, lines)) + len(lines)
        if size > runs.LIST_BYTES:
            raise Refused('TooLong', 1, made[0][0])
        self.run.make_room(made[0][0], size)
        if len(made) == 1:              # an edit alone is answered sooner than a list
            answer = self.run.ask(lines[0]).split(b' ') + [b'1']
        else:
            if set(self.run.ask_all([b'begin', *lines])[1:]) != {b'held'}:
                self.run.ask(b'cancel')
                raise Refused('NoMemory', 0, made[0][0])
            answer = self.run.ask(b'commit').split(b' ')
        if answer[0] == b'no':
            number = 0 if answer[1] == b'NoMemory' else int(answer[2])
            raise Refused(answer[1].decode(), number, made[max(number, 1) - 1][0])

    # ------------------------------------------------------------------ questions

    def faults(self):
        """The faults, as a list of Fault."""
        return [fault_of(line) for line in self.answer(lambda: self.run.fault_lines())]

    def work(self):
        """How many names, the program being one, the last list of edits had to expand."""
        return int(self.answer(lambda: self.run.ask(b'work')).split(b' ')[1])

    def show(self, name):
        """The bytes of an output file, or None where there is none of this name."""
        if name not in self.shown and b'\n' not in name:
            self.shown[name] = self.answer(lambda: self.run.output(name))
        return self.shown.get(name)

    def output(self, name):
        """The name that the web has for an output file, of which this may be another name."""
        if self.show(name) is not None:
            return name
        path = self.path(name)
        return next((known for known in self.outputs() if self.path(known) == path), None)

    def outputs(self):
        """The names of the output files, the main file first."""
        if self.listed is None:
            names = [self.main]
            for text in filter(None, self.held.values()):
                names += file_names(b'\n'.join(text.lines))
            self.listed = [name for name in dict.fromkeys(names) if self.show(name) is not None]
        return self.listed

    def forget(self):
        """Before the outputs change: what is kept of them is dropped."""
        self.shown, self.mapped, self.listed = {}, {}, None

    def close(self):
        """Ends the conversation. The exit status of retangle."""
        return self.run.close()

    def kill(self):
        """Ends it without waiting for retangle."""
        self.run.kill()

    # ------------------------------------------------------------------ from C to web and back

    def origins(self, output):
        """Of each line of an output file the file and line from which it was written, or None."""
        shown = self.show(output) or b''
        if output not in self.mapped:
            files = {name: text.lines for name, text in self.held.items() if text}
            self.mapped[output] = origins(shown, files)
        return self.mapped[output]

    def origin(self, output, line):
        """The file and line from which a line of an output was written, or None. A #line has the
        file and line that it names."""
        lines = (self.show(output) or b'').split(b'\n')[:-1]
        if not 1 <= line <= len(lines):
            return None
        return marked(lines[line - 1]) or self.origins(output)[line - 1]

    def places(self, name, line):
        """The lines of outputs that were written from a line of a file, as (OUTPUT, LINE)."""
        origins = {(known, line) for known in self.names(name)}
        return [(output, at) for output in self.outputs()
                for at, origin in enumerate(self.origins(output), 1) if origin in origins]
