"""Makes the requests of a step: each once, several at a time, with the answers that the journal has in place of calls."""
from __future__ import annotations

import threading
import time
from concurrent.futures import Future, ThreadPoolExecutor
from dataclasses import dataclass, field
from typing import Dict, List, Mapping, Optional, Protocol, Sequence

from pdq_texts import is_integer

from .calls import Caller
from .databases import Connections, DatabaseSource, module_connections, sqlite_connections
from .ending import Ending
from .faults import AnswerFault, CapFault, Fault, MemoryFault, Stopped, at
from .files import FileSource
from .journal import Journal
from .pace import Pace
from .progress import Progress
from .secrets import Secrets
from .settings import Folder, MethodSettings, Service, WebService
from .texts import Row, shown
from .web import WebSource

LOOK = 0.1  # seconds between two looks at what has come


class Source(Protocol):
    """What answers the requests of one method."""

    def rows(self, asked: Row) -> List[Row]:
        """The distinct rows that have these values at the inputs."""


@dataclass
class Limits:
    """What the words of the command allow."""

    workers: int = 1
    calls: int = 100_000
    rate: Optional[float] = None


@dataclass
class Tally:
    """How many of the requests of a step have ended."""

    wanted: int
    done: int = 0
    lock: threading.Lock = field(default_factory=threading.Lock)
    complete: threading.Event = field(default_factory=threading.Event)

    def one_more(self, _: Future) -> None:
        with self.lock:
            self.done += 1
            if self.done == self.wanted:
                self.complete.set()


def request_text(settings: MethodSettings, asked: Row) -> str:
    """A request, for a message."""
    pairs = ", ".join(f"{name} {shown(value)}" for name, value in zip(settings.form.inputs, asked))
    return f"{settings.method.name}({pairs})"


class Sources:
    """The sources of the methods of a plan. Those of one service share its pace and its connections."""

    def __init__(self, methods: Mapping[str, MethodSettings], secrets: Secrets, rate: Optional[float], ending: Ending):
        self.secrets, self.rate, self.ending = secrets, rate, ending
        self.shared: Dict[str, object] = {}
        self.of: Dict[str, Source] = {name: self.source(settings) for name, settings in methods.items()}

    def source(self, settings: MethodSettings) -> Source:
        service = settings.service
        if isinstance(service, Folder):
            return FileSource(settings)
        if service.name not in self.shared:
            self.shared[service.name] = self.shared_by_all(service)
        if isinstance(service, WebService):
            return WebSource(settings, self.shared[service.name], self.secrets)
        return DatabaseSource(settings, self.shared[service.name])

    def shared_by_all(self, service: Service) -> object:
        """What the methods of a service have in common."""
        rates = [rate for rate in (service.rate, self.rate) if rate is not None]
        pace = Pace(min(rates, default=None), self.ending.event)
        if isinstance(service, WebService):
            return Caller(service, self.secrets, pace)
        if service.kind == "sqlite":
            return sqlite_connections(service, pace)
        return module_connections(service, self.secrets, pace)

    def close(self) -> None:
        for shared in self.shared.values():
            if isinstance(shared, Connections):
                shared.close()


class Asker:
    """Makes requests, counts them, and keeps their answers in the journal."""

    def __init__(self, methods: Mapping[str, MethodSettings], sources: Sources, journal: Optional[Journal], limits: Limits,
                 ending: Ending, progress: Progress):
        self.methods, self.sources, self.journal, self.limits = methods, sources, journal, limits
        self.ending, self.progress = ending, progress
        self.sums = {name: settings.sum() for name, settings in methods.items()}
        self.made = 0
        self.pool = ThreadPoolExecutor(limits.workers, "request")

    def close(self) -> None:
        self.pool.shutdown(wait=True, cancel_futures=True)
        self.sources.close()

    def is_file(self, method: str) -> bool:
        return isinstance(self.methods[method].service, Folder)

    def fitting(self, method: str, rows: List[Row]) -> List[Row]:
        """The rows, which are refused where one has another text than an integer at a column of integers."""
        settings = self.methods[method]
        for place in settings.integers:
            for row in rows:
                if not is_integer(row[place]):
                    raise AnswerFault(f"{shown(row[place])} for {settings.form.columns[place].name} is no integer")
        return rows

    def fits(self, method: str, rows: List[Row]) -> bool:
        try:
            return self.fitting(method, rows) is rows
        except AnswerFault:
            return False

    def kept(self, method: str, requests: Sequence[Row]) -> Dict[Row, List[Row]]:
        """The answers that the journal has. Where a column was declared to hold integers since, one that does not fit is not taken."""
        found: Dict[Row, List[Row]] = {}
        for asked in requests if self.journal is not None else ():
            rows = self.journal.find(method, self.sums[method], asked)
            if rows is not None and self.fits(method, rows):
                found[asked] = rows
        return found

    def from_file(self, place: str, method: str, requests: Sequence[Row]) -> Dict[Row, List[Row]]:
        """The answers of a file, which need no workers; they can be read again, and so the journal does not have them."""
        try:
            answers = {asked: self.sources.of[method].rows(asked) for asked in requests}
        except Fault as fault:
            raise self.in_place(place, method, requests[0], fault) from None
        for asked, rows in answers.items():
            try:
                self.fitting(method, rows)
            except AnswerFault as fault:
                raise self.in_place(place, method, asked, fault) from None
        return answers

    def without_calls(self, place: str, method: str, requests: Sequence[Row]) -> Dict[Row, List[Row]]:
        """The answers for which no service is called: those of the journal, and of files."""
        return self.from_file(place, method, requests) if self.is_file(method) else self.kept(method, requests)

    def in_place(self, place: str, method: str, asked: Row, fault: Fault) -> Fault:
        return at(f"{place}: {request_text(self.methods[method], asked)}", fault)

    def answers(self, place: str, method: str, requests: Sequence[Row]) -> Dict[Row, List[Row]]:
        """The rows of each request of a step, which makes those that the journal lacks."""
        found = {} if self.is_file(method) else self.kept(method, requests)
        wanted = [asked for asked in requests if asked not in found]
        if self.ending.signal is not None:
            raise self.ending.stopped(f"stopped before {place}")
        if self.made + len(wanted) > self.limits.calls:
            raise CapFault(f"{place} {method}: call cap: {self.made} made, {len(wanted)} wanted, cap {self.limits.calls}")
        if wanted:
            found.update(self.from_file(place, method, wanted) if self.is_file(method) else self.asked(place, method, wanted))
        self.made += len(wanted)
        return found

    def asked(self, place: str, method: str, wanted: Sequence[Row]) -> Dict[Row, List[Row]]:
        """Makes the requests. Where one fails no further one begins, and those under way are awaited and kept."""
        self.progress.begin(f"{place} {method}", len(wanted))
        tally = Tally(len(wanted))
        futures = {self.pool.submit(self.answer, method, asked): asked for asked in wanted}
        for future in futures:
            future.add_done_callback(tally.one_more)
        while not tally.complete.wait(LOOK):
            self.progress.show(tally.done, self.ending.event.is_set())
        self.progress.clear()
        answers, faults = self.sorted_out(futures)
        if self.ending.signal is not None:
            kept = "; the journal has their answers" if self.journal is not None else ""
            raise self.ending.stopped(f"stopped in {place}: {len(answers)} of {len(wanted)} requests of {method} were answered{kept}")
        if faults:
            asked = min(faults)
            raise self.in_place(place, method, asked, faults[asked])
        return answers

    def sorted_out(self, futures: Mapping[Future, Row]):
        """The answers, and the faults of the requests that failed by themselves."""
        answers: Dict[Row, List[Row]] = {}
        faults: Dict[Row, Fault] = {}
        for future, asked in futures.items():
            try:
                answers[asked] = future.result()
            except Stopped:
                pass
            except Fault as fault:
                faults[asked] = fault
        return answers, faults

    def answer(self, method: str, asked: Row) -> List[Row]:
        """The rows of one request, by one worker; it is kept before the worker takes another one."""
        if self.ending.event.is_set():
            raise Stopped("not begun")
        began = time.time()
        try:
            rows = self.fitting(method, self.sources.of[method].rows(asked))
            if self.journal is not None:
                self.journal.keep(method, self.sums[method], asked, began, rows)
            return rows
        except Stopped:
            raise
        except MemoryError:
            self.ending.event.set()
            raise MemoryFault("out of memory") from None
        except BaseException:
            self.ending.event.set()
            raise
