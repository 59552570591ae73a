"""What takes long, told on standard error: each part by a line, and on a terminal by a bar too."""
import sys
import time

WIDTH = 24


def told(seconds):
    """A time, as people say it."""
    minutes, seconds = divmod(round(seconds), 60)
    return f"{minutes} min {seconds} s" if minutes else f"{seconds} s"


class Progress:
    """Work of which it is known how far it is, as a part of 1, and what is under way."""

    def __init__(self, out=None):
        self.out = out or sys.stderr
        self.is_terminal = self.out.isatty()
        self.begun = time.monotonic()

    def taken(self):
        """The seconds since the work began."""
        return time.monotonic() - self.begun

    def line(self, text):
        """Tells something that stays on the terminal."""
        self._clear()
        print(f"invar: {text}", file=self.out, flush=True)

    def bar(self, part, text):
        """Shows how far the work is; on a terminal alone."""
        if self.is_terminal:
            full = round(WIDTH * min(part, 0.99))
            bar = "#" * full + "." * (WIDTH - full)
            self._clear()
            self.out.write(f"invar: [{bar}] {told(self.taken())}, {text}"[:100])
            self.out.flush()

    def _clear(self):
        if self.is_terminal:
            self.out.write("\r\033[K")

    def end(self):
        """Takes the bar away."""
        self._clear()
        self.out.flush()
