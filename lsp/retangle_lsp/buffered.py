"""What a descriptor gives, as lines and as numbers of bytes."""
import os
import select

AT_ONCE = 1 << 16       # bytes that are read at a time


def usable(descriptors, event, seconds):
    """Which of these descriptors have an event of `poll` within these seconds; None is for ever."""
    poll = select.poll()
    for descriptor in descriptors:
        poll.register(descriptor, event)
    return dict(poll.poll(None if seconds is None else 1000 * seconds))


class Buffered:
    """What was read from a descriptor and not yet taken. Whether there is more can be asked
    without waiting for it."""

    def __init__(self, descriptor):
        self.descriptor, self.buffer = descriptor, bytearray()

    def has_more(self, seconds, others=()):
        """Whether something can be read within these seconds; None is for ever. It is not waited
        for any longer if there is something at another descriptor."""
        return self.descriptor in usable([self.descriptor, *others], select.POLLIN, seconds)

    def fill(self):
        """Whether more could be read, which is waited for. At the end there is no more."""
        some = os.read(self.descriptor, AT_ONCE)
        self.buffer += some
        return bool(some)

    def line(self):
        """The next line; what is left without a line feed at the end."""
        at = 0
        while True:
            end = self.buffer.find(b'\n', at)
            if end >= 0:
                return self.taken(end + 1)
            at = len(self.buffer)
            if not self.fill():
                return self.taken(at)

    def bytes(self, length):
        """The next bytes; fewer at the end."""
        while len(self.buffer) < length and self.fill():
            pass
        return self.taken(length)

    def taken(self, length):
        found = bytes(self.buffer[:length])
        del self.buffer[:length]
        return found
