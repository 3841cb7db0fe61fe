"""What can go wrong, one class for each status of the table in docs/GUIDE.md.

A fault that a request meets is raised without its place, by a service that knows none; `at` adds the step and the request on the way up.
"""
from __future__ import annotations

LONGEST = 300  # characters of what came from elsewhere


class Fault(Exception):
    """Why no answer is written: one line, and the status that the program ends with."""

    status = 1


class WordsFault(Fault):
    """The words after the program's name are none of its forms."""

    status = 3


class TextFault(Fault):
    """The schema, the plan or the services file is not what it should be."""

    status = 4


class FileFault(Fault):
    """A file is missing or cannot be read."""

    status = 5


class OutputFault(Fault):
    """The answer could not be written."""

    status = 6


class CapFault(Fault):
    """The next step would make more requests than are allowed."""

    status = 7


class MemoryFault(Fault):
    """There was no memory left."""

    status = 8


class CallFault(Fault):
    """A service gave no answer: no connection, no time left, or a status that says no."""

    status = 9


class AnswerFault(Fault):
    """What a service gave is no answer to the request."""

    status = 10


class JournalFault(Fault):
    """The journal is none, or is locked."""

    status = 11


class MachineFault(Fault):
    """Something is not there on this machine: a variable of the environment, a module, a version of Python."""

    status = 12


class Stopped(Fault):
    """The user ended the run."""

    status = 130


def at(place: str, fault: Fault) -> Fault:
    """The fault with the place where it was met before it."""
    return type(fault)(f"{place}: {fault}")


def visible(text: str) -> str:
    """A text from elsewhere in one line that a terminal shows as it is, and not too long."""
    line = "".join(char if char.isprintable() else " " for char in text).strip()
    return line if len(line) <= LONGEST else line[:LONGEST] + ".."
