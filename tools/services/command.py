"""The words of `tools/carry_out`, what they do in which order, and the status that the program ends with."""
from __future__ import annotations

import argparse
import csv
import os
import re
import sys
import time
import traceback
from typing import Dict, List, Mapping, Optional, Sequence

from pdq_texts import Misfit, Plan, Schema, first_fault, read_plan, read_schema, shown_name

from . import answers
from .asking import Asker, Limits, Sources
from .ending import Ending
from .faults import Fault, FileFault, MemoryFault, Stopped, TextFault, WordsFault, visible
from .journal import Journal
from .progress import Progress
from .reading import read_settings
from .rounds import Run
from .secrets import Secrets
from .settings import MethodSettings
from .texts import is_utf_8

UNITS = {"": 1, "s": 1, "m": 60, "h": 3600, "d": 86400}
MOST_WORKERS, MOST_CALLS = 64, 10_000_000
ABOUT = "Carries out a plan over the services of a file, and writes its rows as `pdq exec` does."


class Parser(argparse.ArgumentParser):
    """A parser whose faults end with the status of this program."""

    def error(self, message: str) -> None:
        raise WordsFault(f"words: {message}")


def seconds(text: str) -> float:
    found = re.fullmatch(r"([0-9]{1,9}(?:\.[0-9]{1,3})?)([smhd]?)", text)
    if not found:
        raise argparse.ArgumentTypeError(f"{text!r} is no time as 90s, 15m, 12h or 7d")
    return float(found[1]) * UNITS[found[2]]


def whole(least: int, most: int):
    def number(text: str) -> int:
        if not re.fullmatch(r"0|[1-9][0-9]{0,9}", text) or not least <= int(text) <= most:
            raise argparse.ArgumentTypeError(f"{text!r} is no number from {least} to {most}")
        return int(text)
    return number


def rate(text: str) -> float:
    if not re.fullmatch(r"[0-9]{1,6}(\.[0-9]{1,6})?", text) or float(text) == 0:
        raise argparse.ArgumentTypeError(f"{text!r} is no number of calls a second")
    return float(text)


def parser() -> Parser:
    words = Parser(prog="carry_out", description=ABOUT, allow_abbrev=False)
    words.add_argument("plan", metavar="PLAN", nargs="?", help="the file of the plan; without it, standard input")
    words.add_argument("--schema", required=True, help="the schema of the plan")
    words.add_argument("--services", required=True, help="the file that says how requests become calls")
    words.add_argument("--output", metavar="FILE", help="write the answer there, and not to standard output")
    words.add_argument("--names", help="the names of the columns, with commas between them, in place of column1,column2")
    words.add_argument("--journal", metavar="FILE", help="keep each answer there, and take those that are there")
    words.add_argument("--fresh", metavar="TIME", type=seconds, help="take no answer of the journal that is older, as 90s, 15m, 12h or 7d")
    words.add_argument("--workers", metavar="N", type=whole(1, MOST_WORKERS), default=1, help="how many requests are made at once")
    words.add_argument("--rate", metavar="N", type=rate, help="how many calls a second each service gets at most")
    words.add_argument("--calls", metavar="N", type=whole(0, MOST_CALLS), default=100_000, help="how many requests may be made")
    words.add_argument("--dry-run", action="store_true", help="make no request; say how many each step would make")
    return words


def read(name: Optional[str]) -> bytes:
    """The bytes of a file, or of standard input."""
    try:
        if name is None:
            return sys.stdin.buffer.read()
        with open(name, "rb") as file:
            return file.read()
    except FileNotFoundError:
        raise FileFault(f"read {visible(name)}: missing") from None
    except (OSError, ValueError):
        raise FileFault(f"read {visible(name or 'standard input')}: failed") from None


def plan_of(text: bytes, schema: Schema) -> Plan:
    """The plan that a text is, where it is lawful. A text in which `pdq explain` says that there is none is refused as that."""
    begin = text[:100].decode("utf-8", "replace").split("\n")[0]
    if begin == "no plan" or begin.startswith("undecided after "):
        raise TextFault(f"plan: there is none: the text begins with `{begin}`")
    plan = read_plan(text)
    fault = first_fault(plan, schema)
    if fault:
        raise TextFault(fault)
    return plan


def used_methods(plan: Plan, settings: Mapping[str, MethodSettings]) -> Dict[str, MethodSettings]:
    """The settings of the methods of a plan, in its order."""
    used = {}
    for access in (access for branch in plan.branches for access in branch.accesses):
        if access.method not in settings:
            raise TextFault(f"services: there is no method {shown_name(access.method)}, which the plan uses")
        used[access.method] = settings[access.method]
    return used


def names_of(plan: Plan, asked: Optional[str]) -> List[str]:
    """The names of the columns of the answer."""
    if asked is None:
        return [f"column{number}" for number in range(1, plan.width + 1)]
    names = next(csv.reader([asked]), [])
    if not is_utf_8(asked):
        raise WordsFault("words: --names is not UTF-8")
    if len(names) != plan.width:
        raise WordsFault(f"words: --names has {len(names)} names, and the plan has {plan.width} columns")
    return names


def carry_out(words: argparse.Namespace, secrets: Secrets) -> None:
    """Reads everything, then asks, and last writes."""
    if words.fresh is not None and words.journal is None:
        raise WordsFault("words: --fresh belongs to --journal")
    schema = read_schema(read(words.schema))
    settings = read_settings(read(words.services), schema, os.path.dirname(os.path.abspath(words.services)))
    plan = plan_of(read(words.plan), schema)
    names, methods, ending = names_of(plan, words.names), used_methods(plan, settings), Ending()
    answers.check_place(words.output)
    limits = Limits(words.workers, words.calls, words.rate)
    sources = Sources(methods, secrets, limits.rate, ending)
    journal = Journal(words.journal, words.fresh) if words.journal is not None else None
    asker = Asker(methods, sources, journal, limits, ending, Progress(sys.stderr))
    try:
        run = Run(plan, methods, asker)
        if words.dry_run:
            answers.write(None, "".join(f"{line}\n" for line in run.outlook()).encode())
            return
        with ending.watched():
            rows = run.rows()
        answers.write(words.output, answers.csv_text(names, rows))
        if journal is not None and journal.used:
            since = time.strftime("%Y-%m-%d %H:%M:%S", time.localtime(journal.oldest))
            answers.say(f"journal: {journal.used} answer{'s' * (journal.used > 1)} used, the oldest of {since}")
    finally:
        asker.close()
        if journal is not None:
            journal.close()


def main(words: Sequence[str]) -> int:
    """Runs the command, and gives its status. A line on standard error says why there is no answer."""
    secrets = Secrets(os.environ)
    try:
        carry_out(parser().parse_args(words), secrets)
        return 0
    except Misfit as misfit:
        fault: Fault = TextFault(str(misfit))
    except Fault as found:
        fault = found
    except MemoryError:
        fault = MemoryFault("out of memory")
    except KeyboardInterrupt:
        fault = Stopped("stopped before anything was asked")
    except Exception:  # a fault of this program: what Python says of it, without secrets
        fault = Fault(traceback.format_exc().rstrip())
    answers.say(secrets.hidden(str(fault)))
    return fault.status
