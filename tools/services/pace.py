"""How fast a service is called: at most so many calls a second, and none while it has asked to wait."""
from __future__ import annotations

import threading
import time
from typing import Optional

from .faults import Stopped


class Pace:
    """The times at which calls of one service may begin, shared by all workers."""

    def __init__(self, rate: Optional[float], stop: threading.Event):
        self.gap = 1 / rate if rate else 0.0
        self.stop, self.lock = stop, threading.Lock()
        self.next = self.not_before = 0.0

    def turn(self) -> None:
        """Waits until the next call may begin."""
        while True:
            with self.lock:
                now = time.monotonic()
                begin = max(self.next, self.not_before)
                if begin <= now:
                    self.next = now + self.gap
                    return
            self.wait(begin - now)

    def pause(self, seconds: float) -> None:
        """Lets no call begin before so many seconds have gone by."""
        with self.lock:
            self.not_before = max(self.not_before, time.monotonic() + seconds)

    def wait(self, seconds: float) -> None:
        """Waits, unless the run ends meanwhile."""
        if self.stop.wait(seconds):
            raise Stopped("stopped")
