"""Values that come from the environment, and that nothing which is printed may show."""
from __future__ import annotations

from dataclasses import dataclass, field
from typing import Mapping
from urllib.parse import quote, quote_plus

from .faults import MachineFault

SHORTEST = 4  # a shorter value would stand in any text


@dataclass(frozen=True)
class FromEnvironment:
    """A text that stands in a variable of the environment, behind a text of the file, as `Bearer `."""

    name: str
    before: str = ""


@dataclass
class Secrets:
    """The environment, and the values that were taken from it."""

    environment: Mapping[str, str]
    taken: set = field(default_factory=set)

    def text(self, value: str | FromEnvironment) -> str:
        """What a text of the file stands for."""
        if isinstance(value, str):
            return value
        found = self.environment.get(value.name, "").rstrip("\r\n")  # a text that was read from a file may have one
        if not found:
            raise MachineFault(f"environment: {value.name} is not set")
        self.taken.add(found)
        return value.before + found

    def hidden(self, text: str) -> str:
        """The text with stars in place of each value that was taken."""
        for secret in sorted(self.taken, key=len, reverse=True):
            for written in (secret, quote(secret, safe=""), quote_plus(secret)):
                if len(written) >= SHORTEST:
                    text = text.replace(written, "***")
        return text
