"""Runs the programs that are measured, and counts what they take."""
import os
import re
import shutil
import subprocess
import sys
import tempfile

HERE = os.path.dirname(os.path.abspath(__file__))
RUNS = 5
RUNS_OF_LARGE = 3           # over more than 100,000 lines
UNREPORTED = '@i'           # an inclusion without a name: a fault at once, and no further file


class Run:
    """What a run took: seconds of the processor, and the most memory."""

    def __init__(self, seconds, kilobytes, status):
        self.seconds, self.kilobytes, self.status = seconds, kilobytes, status
        self.instructions = None

    def is_whole(self):
        """Whether it reported no error: CTANGLE ends with 1 where one of its tables is full, too."""
        return self.status == 0


class Bench:
    """A temporary folder with folders and scripts, in which the programs run."""

    def __init__(self, program, retangle, temporary):
        self.program, self.retangle, self.temporary = program, retangle, temporary
        self.measurer = os.path.join(temporary, 'measure')
        source = os.path.join(HERE, '..', 'tests', 'measure.c')
        subprocess.check_call(['cc', '-O2', '-o', self.measurer, source])
        self.counter = find_counter()
        self.least = self.measure(self.folder({'a.w': []}), ['a']).kilobytes

    def folder(self, files):
        """A new folder with these files, each a list of lines; of None a folder is made."""
        path = tempfile.mkdtemp(dir=self.temporary)
        for name, lines in files.items():
            if lines is None:
                os.mkdir(os.path.join(path, name))
                continue
            with open(os.path.join(path, name), 'w') as out:
                out.writelines(line + '\n' for line in lines)
        return path

    def folder_of(self, path):
        """A new folder with a copy of this file."""
        folder = self.folder({})
        shutil.copy(path, folder)
        return folder

    def script(self, lines):
        """A new file with these lines."""
        handle, path = tempfile.mkstemp(dir=self.temporary)
        with os.fdopen(handle, 'w') as out:
            out.writelines(line + '\n' for line in lines)
        return path

    def run_once(self, command, folder, errors='/dev/full', script=os.devnull):
        used = os.path.join(self.temporary, 'used')
        with open(errors, 'w') as reported, open(script) as given:
            status = subprocess.call([self.measurer, used] + command, cwd=folder, stdin=given,
                                     stdout=subprocess.DEVNULL, stderr=reported)
        with open(used) as taken:
            microseconds, kilobytes = map(int, taken.read().split())
        return Run(microseconds / 1e6, kilobytes, status)

    def measure(self, folder, arguments, program=None, runs=RUNS, ends=(3,)):
        """The fastest of some runs that can report nothing, and have to end with such a status."""
        command = [program or self.program] + arguments
        best = fastest(self.run_once(command, folder) for _ in range(runs))
        if best.status not in ends:
            sys.exit('%s ended with status %d' % (' '.join(command), best.status))
        return best

    def whole(self, web, programs):
        """The fastest run of each program over a web, with its instructions. They run in turn."""
        commands = [[program] + web.arguments for program in programs]
        turns = [[self.run_once(command, web.folder, os.devnull) for command in commands]
                 for _ in range(RUNS_OF_LARGE if web.lines > 100000 else RUNS)]
        best = [fastest(runs) for runs in zip(*turns)]
        for run, command in zip(best, commands):
            run.instructions = self.counter and self.counter(command, web.folder, os.devnull)
        return best

    def instructions(self, folder, arguments, program=None):
        return self.counter and self.counter([program or self.program] + arguments, folder)

    def of_script(self, folder, lines):
        """The instructions of a run of retangle that is given these lines."""
        if not self.counter:
            return None
        return self.counter([self.retangle, 'a'], folder, os.devnull, self.script(lines))

    def run_of_script(self, folder, lines, runs=1):
        """The fastest run of retangle that is given these lines."""
        script = self.script(lines)
        command = [self.retangle, 'a']
        return fastest(self.run_once(command, folder, os.devnull, script) for _ in range(runs))

    def answers(self, folder, lines):
        with open(self.script(lines)) as given:
            run = subprocess.run([self.retangle, 'a'], cwd=folder, stdin=given,
                                 stdout=subprocess.PIPE)
        return run.stdout.decode().splitlines()

    def check(self, folder, commands):
        """Ends the benchmark where commands are answered otherwise than they have to be."""
        required = [answer for command in commands for answer in command.answers]
        answers = self.answers(folder, lines_of(commands))
        if answers != required:
            pairs = zip(answers + [None], required + [None])
            sys.exit('wrong answer: %s' % next(pair for pair in pairs if pair[0] != pair[1])[0])

    def cost_of_one(self, folder, commands, few=2):
        """The instructions that one takes of the commands after the first few."""
        self.check(folder, commands)
        if not self.counter:
            return None
        whole = self.of_script(folder, lines_of(commands))
        return (whole - self.of_script(folder, lines_of(commands[:few]))) // (len(commands) - few)


class Command:
    """Some lines of a script, and how they have to be answered."""

    def __init__(self, lines, answers):
        self.lines, self.answers = lines, answers


def lines_of(commands):
    return [line for command in commands for line in command.lines]


def fastest(runs):
    return min(runs, key=lambda run: run.seconds)


def count_by_perf(command, folder, errors='/dev/full', script=os.devnull):
    with tempfile.NamedTemporaryFile('r') as log, open(script) as given:
        full = ['sh', '-c', 'exec "$@" 2>' + errors, 'sh'] + command
        perf = ['perf', 'stat', '-x,', '-o', log.name, '-e', 'instructions:u']
        subprocess.run(perf + full, cwd=folder, stdin=given, stdout=subprocess.DEVNULL)
        found = re.search(r'^(\d+),', log.read(), re.M)
    return int(found.group(1)) if found else None


def count_by_valgrind(command, folder, errors='/dev/full', script=os.devnull):
    with tempfile.NamedTemporaryFile('r') as log, open(errors, 'w') as full, open(script) as given:
        valgrind = ['valgrind', '--tool=cachegrind', '--cache-sim=no',
                    '--cachegrind-out-file=/dev/null', '--log-file=' + log.name]
        subprocess.run(valgrind + command, cwd=folder, stdin=given, stdout=subprocess.DEVNULL,
                       stderr=full)
        found = re.search(r'I\s+refs:\s+([\d,]+)', log.read())
    return int(found.group(1).replace(',', '')) if found else None


def find_counter():
    for tool, counter in (('perf', count_by_perf), ('valgrind', count_by_valgrind)):
        if shutil.which(tool) and counter(['true'], '.'):
            return counter
    return None


def own_instructions(program, folder, module):
    """The instructions of a run, and of the functions of one module without what they call."""
    if not shutil.which('valgrind'):
        return None, None
    with tempfile.NamedTemporaryFile('r') as log, open(os.devnull, 'w') as dropped:
        valgrind = ['valgrind', '--tool=callgrind', '--callgrind-out-file=' + log.name]
        subprocess.run(valgrind + [program, 'a'], cwd=folder, stdin=subprocess.DEVNULL,
                       stdout=dropped, stderr=dropped)
        names, whole, own, here, is_call = {}, 0, 0, False, False
        for line in log:
            found = re.match(r'(c?)fn=(\(\d+\))(?: (.*))?', line)
            if found:
                name = names.setdefault(found.group(2), found.group(3))
                here = here if found.group(1) else name.startswith(module)
            elif line.startswith('calls='):
                is_call = True
            elif re.match(r'[+\-*\d]\S* \d+$', line):
                count = 0 if is_call else int(line.split()[1])
                whole, own, is_call = whole + count, own + count * here, False
    return whole, own
