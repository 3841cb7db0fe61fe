"""What a tool reads and writes: texts of at most 1 MiB, and outputs that may be full or closed."""
import argparse
import os

from pdq_texts import MOST_BYTES, Misfit

DONE, REFUSED, NOT_WRITTEN = 0, 2, 6
STATUSES = """exit status:
  0  all was written
  2  the words or a text were refused; standard error has the reason
  6  standard output was full or closed, which `write failed` reports; nothing is reported where it is a pipe whose reader has ended
"""


class Words(argparse.ArgumentParser):
    """The words of a tool. Its help and its refusals are written as all else is."""

    def __init__(self, about):
        super().__init__(description=about, epilog=STATUSES, allow_abbrev=False, formatter_class=argparse.RawDescriptionHelpFormatter)

    def print_help(self, file=None):
        raise SystemExit(finish(self.format_help))

    def error(self, message):
        report(f"{self.format_usage()}{self.prog}: error: {message}")
        raise SystemExit(REFUSED)


def read(name, most=MOST_BYTES):
    """The bytes of the file, or of standard input where there is no name; no more are read than the most and one."""
    shown = "standard input" if name is None else name
    try:
        with open(0 if name is None else name, "rb", closefd=name is not None) as file:
            text = file.read(most + 1)
    except FileNotFoundError:
        raise Misfit(f"read {shown}: missing") from None
    except OSError:
        raise Misfit(f"read {shown}: failed") from None
    if len(text) > most:
        raise Misfit(f"read {shown}: too large")
    return text


def write(output, text):
    """Writes the text to the output of this number: 1 is standard output, and 2 standard error."""
    left = memoryview(text.encode("utf-8", "backslashreplace"))
    while left:
        left = left[os.write(output, left):]


def report(line):
    """Writes a line to standard error; where that does not take it, the line is lost."""
    try:
        write(2, line + "\n")
    except OSError:
        pass


def finish(make):
    """Writes the text that `make` gives to standard output, or reports why there is none; gives the exit status."""
    try:
        text = make()
    except Misfit as misfit:
        report(str(misfit))
        return REFUSED
    try:
        write(1, text)
    except BrokenPipeError:
        return NOT_WRITTEN
    except OSError:
        report("write failed")
        return NOT_WRITTEN
    return DONE
