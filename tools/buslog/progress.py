"""A line on a terminal that says how far the work is; nothing where standard error is none."""

from __future__ import annotations

import sys
import time


class Progress:
    """`of` is how much there is to do, 0 where nobody knows."""

    SECONDS = 0.2
    # Set where the result goes to the same terminal, and in processes of which there are several.
    quiet = False

    def __init__(self, of: int, unit: str, scale: int = 1) -> None:
        self.of, self.unit, self.scale = of, unit, scale
        self.shown = not Progress.quiet and sys.stderr is not None and sys.stderr.isatty()
        self.next = time.monotonic() + self.SECONDS

    def at(self, done: int) -> None:
        """So much is done."""
        if self.shown and time.monotonic() >= self.next:
            of = f" of {self.of // self.scale:,}" if self.of else ""
            sys.stderr.write(f"\r\x1b[Kbin/buslog: {done // self.scale:,}{of} {self.unit}")
            sys.stderr.flush()
            self.next = time.monotonic() + self.SECONDS

    def over(self) -> None:
        """The line goes away."""
        if self.shown:
            sys.stderr.write("\r\x1b[K")
            sys.stderr.flush()


def silence() -> None:
    """No such line from here on."""
    Progress.quiet = True
