"""The keys of a table of the services file: each is taken by its name and type, and what is left over is refused."""
from __future__ import annotations

from typing import Dict, Mapping, Optional, Sequence, Tuple

from .faults import TextFault

REQUIRED = object()


class Keys:
    """The keys of one table, and where it stands."""

    def __init__(self, where: str, values: Mapping[str, object]):
        self.where, self.values, self.taken = where, values, set()

    def fault(self, what: str) -> TextFault:
        return TextFault(f"services: {self.where}: {what}" if self.where else f"services: {what}")

    def inner(self, name: str) -> str:
        return f"{self.where}: {name}" if self.where else name

    def finish(self) -> None:
        """Refuses the first key that nothing has taken."""
        for name in self.values:
            if name not in self.taken:
                raise self.fault(f"unknown key {name!r}")

    def any(self, name: str, default: object = None) -> object:
        """The value of a key, of any type."""
        self.taken.add(name)
        value = self.values.get(name, default)
        if value is REQUIRED:
            raise self.fault(f"the key {name} is missing")
        return value

    def typed(self, name: str, default: object, kind: type, called: str) -> object:
        value = self.any(name, default)
        if value is not default and (not isinstance(value, kind) or isinstance(value, bool) != (kind is bool)):
            raise self.fault(f"{name} has to be {called}")
        return value

    def text(self, name: str, default: object = REQUIRED) -> str:
        return self.typed(name, default, str, "a text")

    def flag(self, name: str, default: bool) -> bool:
        return self.typed(name, default, bool, "true or false")

    def table(self, name: str, default: object = REQUIRED) -> Mapping[str, object]:
        return self.typed(name, default, dict, "a table")

    def tables(self, name: str) -> Dict[str, Keys]:
        """The tables below a key, as `[method.NAME]`."""
        found = {}
        for key, value in self.table(name, {}).items():
            found[key] = Keys(f"{name} {key}", value if isinstance(value, dict) else {})
            if not isinstance(value, dict):
                raise found[key].fault("it has to be a table")
        return found

    def choice(self, name: str, choices: Sequence[str], default: object = REQUIRED) -> str:
        value = self.text(name, default)
        if value not in choices:
            raise self.fault(f"{name} has to be one of {', '.join(choices)}")
        return value

    def whole(self, name: str, default: int, least: int, most: int) -> int:
        value = self.typed(name, default, int, "a whole number")
        if not least <= value <= most:
            raise self.fault(f"{name} has to be from {least} to {most}")
        return value

    def number(self, name: str, default: Optional[float], least: float = 0, above: Optional[float] = None) -> Optional[float]:
        """A number of seconds, or of calls a second."""
        value = self.any(name, default)
        if value is default:
            return default
        if not isinstance(value, (int, float)) or isinstance(value, bool) or not value < 1e6 or value < least:
            raise self.fault(f"{name} has to be a number from {least:g} to 1000000")
        if above is not None and value <= above:
            raise self.fault(f"{name} has to be more than {above:g}")
        return float(value)

    def texts(self, name: str) -> Tuple[str, ...]:
        """A list of texts, none by default."""
        values = self.any(name, [])
        if not isinstance(values, list) or not all(isinstance(value, str) for value in values):
            raise self.fault(f"{name} has to be a list of texts")
        return tuple(values)

    def statuses(self, name: str) -> Tuple[int, ...]:
        """HTTP statuses, none by default."""
        values = self.any(name, [])
        if not isinstance(values, list) or not all(type(value) is int and 200 <= value <= 499 and value != 429 for value in values):
            raise self.fault(f"{name} has to be a list of statuses from 200 to 499 without 429")
        return tuple(values)
