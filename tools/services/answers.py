"""The text of an answer, and where it goes: all of it, once it is complete."""
from __future__ import annotations

import os
import sys
import tempfile
from typing import Iterable, Optional, Sequence, TextIO

from .faults import OutputFault, visible
from .texts import Row

QUOTED = (",", '"', "\r", "\n")


def csv_field(value: str) -> str:
    if any(mark in value for mark in QUOTED):
        return '"' + value.replace('"', '""') + '"'
    return value


def csv_line(values: Sequence[str]) -> str:
    """A row as `pdq exec` writes it; that of one empty value has two quotes."""
    return (",".join(map(csv_field, values)) or '""') + "\n"


def csv_text(names: Sequence[str], rows: Iterable[Row]) -> bytes:
    """The line of names, and the rows, which are distinct and ascend."""
    return (csv_line(names) + "".join(map(csv_line, rows))).encode("utf-8")


def check_place(path: Optional[str]) -> None:
    """Refuses, before anything is asked, a file that cannot be written."""
    if path is None:
        return
    folder = os.path.dirname(os.path.realpath(path))
    is_taken = os.path.exists(path) and not os.path.isfile(path)  # by a folder or a device
    if is_taken or not os.path.isdir(folder) or not os.access(folder, os.W_OK):
        raise OutputFault(f"output {visible(path)}: it cannot be written there")


def write(path: Optional[str], text: bytes) -> None:
    """Writes the whole answer; a file of that name has the old text or the whole new one."""
    try:
        if path is None:
            sys.stdout.buffer.write(text)
            sys.stdout.buffer.flush()
        else:
            replace(os.path.realpath(path), text)
    except OSError as fault:
        if path is None:
            silence(sys.stdout)
        raise OutputFault(f"output {visible(path)}: {fault.strerror}" if path else "write failed") from None


def silence(stream: TextIO) -> None:
    """Lets the end of the program not try once more to write what the stream did not take."""
    os.dup2(os.open(os.devnull, os.O_WRONLY), stream.fileno())


def say(line: str) -> None:
    """Writes a line to standard error; where that does not take it, the line is lost."""
    try:
        sys.stderr.write(line + "\n")
        sys.stderr.flush()
    except OSError:
        silence(sys.stderr)


def replace(path: str, text: bytes) -> None:
    number, beside = tempfile.mkstemp(prefix=os.path.basename(path) + ".", dir=os.path.dirname(path))
    try:
        with os.fdopen(number, "wb") as file:
            file.write(text)
            file.flush()
            os.fsync(file.fileno())
        os.chmod(beside, mode_for(path))
        os.replace(beside, path)
    except BaseException:
        os.unlink(beside)
        raise


def mode_for(path: str) -> int:
    """The permissions of the file that is replaced, or those of a new file."""
    try:
        return os.stat(path).st_mode & 0o777
    except FileNotFoundError:
        mask = os.umask(0)
        os.umask(mask)
        return 0o666 & ~mask
