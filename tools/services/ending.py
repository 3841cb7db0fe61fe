"""How a run ends before its time: by a signal of the user, or since a request failed."""
from __future__ import annotations

import signal
import threading
from contextlib import contextmanager
from dataclasses import dataclass, field
from typing import Iterator, Optional

from .faults import Stopped

SIGNALS = (signal.SIGINT, signal.SIGTERM)


@dataclass
class Ending:
    """Whether the run is to end, and the signal that says so."""

    event: threading.Event = field(default_factory=threading.Event)
    signal: Optional[int] = None

    def by_signal(self, number: int, _frame: object) -> None:
        """Notes a first signal; a second one ends the program at once."""
        self.signal = number
        self.event.set()
        for each in SIGNALS:
            signal.signal(each, signal.SIG_DFL)

    @contextmanager
    def watched(self) -> Iterator[None]:
        """While this lasts, a signal asks the run to end."""
        before = [signal.signal(each, self.by_signal) for each in SIGNALS]
        try:
            yield
        finally:
            for each, handler in zip(SIGNALS, before):
                signal.signal(each, handler)

    def stopped(self, what: str) -> Stopped:
        """The fault of a run that a signal has ended."""
        fault = Stopped(what)
        fault.status = 128 + (self.signal or signal.SIGINT)
        return fault
