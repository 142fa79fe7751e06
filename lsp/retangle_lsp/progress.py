"""What a client shows its user while something takes long."""
import itertools
import threading

SECONDS = 1             # what takes less is not shown
numbers = itertools.count(1)


class Progress:
    """Shows that something goes on, while this is entered, if it takes over a second."""

    def __init__(self, messages, title):
        self.messages, self.title = messages, title
        self.token = 'progress-%d' % next(numbers)
        self.lock, self.is_over, self.is_shown = threading.Lock(), False, False
        self.timer = threading.Timer(SECONDS, self.begin)
        self.timer.daemon = True

    def __enter__(self):
        self.timer.start()

    def __exit__(self, *_):
        self.timer.cancel()
        with self.lock:
            self.is_over = True
            if self.is_shown:
                self.say(kind='end')

    def begin(self):
        with self.lock:
            if not self.is_over:
                self.is_shown = True
                self.messages.write(id=self.token, method='window/workDoneProgress/create',
                                    params={'token': self.token})
                self.say(kind='begin', title=self.title)

    def say(self, **value):
        self.messages.write(method='$/progress', params={'token': self.token, 'value': value})
