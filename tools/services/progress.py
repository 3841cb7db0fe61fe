"""One line on a terminal that says how far the run is; nothing where standard error is no terminal."""
from __future__ import annotations

import shutil
import time
from typing import TextIO

EVERY = 0.2  # seconds between two states of the line


class Progress:
    """The line of the step that is under way."""

    def __init__(self, stream: TextIO):
        self.stream, self.there = stream, stream.isatty()
        self.title, self.wanted, self.began, self.last = "", 0, 0.0, 0.0

    def begin(self, title: str, wanted: int) -> None:
        """A step begins, with so many requests to make."""
        self.title, self.wanted, self.began, self.last = title, wanted, time.monotonic(), 0.0
        self.show(0)

    def show(self, done: int, ending: bool = False) -> None:
        """The state after so many requests, not too often."""
        now = time.monotonic()
        if not self.there or now - self.last < EVERY and not ending:
            return
        self.last = now
        rate = done / (now - self.began) if now > self.began else 0.0
        text = f"{self.title}: {done} of {self.wanted} requests, {rate:.1f} a second"
        text += "; ending once those under way are answered" if ending else ""
        self.write("\r" + text[:max(shutil.get_terminal_size().columns - 1, 20)] + "\x1b[K")

    def clear(self) -> None:
        """Takes the line away, before anything else is written."""
        if self.there and self.last:
            self.write("\r\x1b[K")
            self.last = 0.0

    def write(self, text: str) -> None:
        try:
            self.stream.write(text)
            self.stream.flush()
        except OSError:
            self.there = False
