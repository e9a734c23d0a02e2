"""A line on standard error that shows how far a long run is: `417 of 1397 cases, 12 s left`.

    with Progress(len(cases), "cases") as progress:
        for case in cases:
            if why := failure_of(case):
                progress.print(why)
            progress.step()

The line is only drawn where standard error is a terminal. It is drawn anew in place, at most five times a second, and it is
gone at the end. Text that is printed meanwhile goes through `print`, which takes the line away first. All threads of a run
can share one object.
"""
import sys
import threading
import time

SECONDS_BETWEEN = 0.2
CLEAR = "\r\x1b[K"


def duration(seconds):
    """Returns a time as a reader estimates it: `40 s`, `3 min`, `1 h 20 min`."""
    if seconds < 99.5:
        return f"{seconds:.0f} s"
    hours, minutes = divmod(round(seconds / 60), 60)
    return f"{hours} h {minutes} min" if hours else f"{minutes} min"


class Progress:
    def __init__(self, total, what, stream=None):
        self.total, self.what, self.stream = total, what, stream or sys.stderr
        self.done, self.begun, self.drawn = 0, time.monotonic(), 0.0
        self.is_shown = self.stream.isatty()
        self.lock = threading.Lock()

    def __enter__(self):
        return self

    def __exit__(self, *_):
        with self.lock:
            self._clear()

    def step(self, count=1):
        """Counts what is done."""
        with self.lock:
            self.done += count
            now = time.monotonic()
            if self.is_shown and now - self.drawn >= SECONDS_BETWEEN:
                self.drawn = now
                self.stream.write(f"{CLEAR}{self.text(now)}")
                self.stream.flush()

    def print(self, text):
        """Prints text on standard output, without the line in its way."""
        with self.lock:
            self._clear()
            print(text, flush=True)

    def text(self, now):
        left = (now - self.begun) * (self.total - self.done) / self.done if self.done else 0
        return f"{self.done} of {self.total} {self.what}" + (f", {duration(left)} left" if self.done else "")

    def _clear(self):
        if self.is_shown and self.drawn:
            self.stream.write(CLEAR)
            self.stream.flush()
            self.drawn = 0.0
