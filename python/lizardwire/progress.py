"""How far a long run is, on standard error where that is a terminal, and nowhere otherwise."""
import sys
import time
from typing import Optional


class Progress:
    """Counts what is done. ``whole`` is how much there is to do, in the measure that ``step`` is given, where that is known."""

    def __init__(self, what: str, whole: Optional[int] = None) -> None:
        self.what, self.whole = what, whole
        self.count, self.done = 0, 0
        self.start = self.next = time.monotonic()
        self.next += 0.5
        self.shown = False
        self.on = sys.stderr is not None and sys.stderr.isatty()

    def step(self, done: int = 1, count: int = 1) -> None:
        """So many more are done, and so much of the whole."""
        self.count += count
        self.done += done
        if self.on and time.monotonic() >= self.next:
            self._show()

    def _show(self) -> None:
        now = time.monotonic()
        self.next = now + 0.1
        words = f"{self.count:,} {self.what}, {self.count / max(now - self.start, 1e-9):,.0f} a second"
        if self.whole:
            words += f", {min(100, 100 * self.done // self.whole)} %"
        self._put("\r\x1b[K" + words)
        self.shown = True

    def end(self) -> None:
        """Takes the line away, until the next one."""
        if self.shown:
            self._put("\r\x1b[K")
            self.shown = False

    def __enter__(self) -> "Progress":
        return self

    def __exit__(self, *raised: object) -> None:
        self.end()

    def _put(self, text: str) -> None:
        """On a terminal that has gone away nothing is shown."""
        try:
            sys.stderr.write(text)
            sys.stderr.flush()
        except OSError:
            self.on = False
