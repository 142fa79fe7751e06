"""Many answers of a program at once. It writes each by itself, and each would end the wait for it:
a change of processes for each answer takes seconds on a machine that is at work."""
import array
import fcntl
import termios
import time

PIPE_BYTES, SET_PIPE_SIZE = 1 << 20, 1031       # of Linux, which may refuse it
ENOUGH = 1 << 15        # bytes that are worth a read
SHORTEST, LONGEST = .0002, .004                 # seconds between two looks


def widen(stream):
    """Gives a pipe room for many answers, if it can have that."""
    try:
        fcntl.fcntl(stream.fileno(), SET_PIPE_SIZE, PIPE_BYTES)
    except OSError:
        pass


def gather(process):
    """Waits while the program is at work and has not written much."""
    pause = SHORTEST
    while is_at_work(process.pid) and available(process.stdout.fileno()) < ENOUGH:
        time.sleep(pause)
        pause = min(2 * pause, LONGEST)


def is_at_work(pid):
    """Whether a process runs, or could, and waits for nothing. False where that is not known."""
    try:
        with open('/proc/%d/stat' % pid, 'rb') as file:
            return file.read().rpartition(b')')[2].split()[0] == b'R'
    except OSError:
        return False


def available(descriptor):
    """How many bytes a pipe has."""
    count = array.array('i', [0])
    fcntl.ioctl(descriptor, termios.FIONREAD, count)
    return count[0]
