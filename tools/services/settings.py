"""What the services file says: which services there are, and how a request of each method becomes a call. `reading` reads it."""
from __future__ import annotations

import hashlib
import json
from dataclasses import asdict, dataclass
from typing import Optional, Tuple, Union

from pdq_texts import Method

from .secrets import FromEnvironment
from .templates import Statement, Template
from .texts import Pointer, RowForm

Value = Union[str, FromEnvironment]
Pair = Tuple[str, Union[Template, FromEnvironment]]


@dataclass(frozen=True)
class WebService:
    """A server that is asked by HTTP."""

    name: str
    url: str
    headers: Tuple[Tuple[str, Value], ...]
    rate: Optional[float]  # calls a second, at most
    timeout: float
    retries: int
    wait: float  # seconds before the first retry; each further one waits twice as long
    max_wait: float
    max_bytes: int
    pages: int

    def meaning(self) -> object:
        return ["http", self.url, [[name, repr(value)] for name, value in self.headers]]


@dataclass(frozen=True)
class Database:
    """A file of SQLite, or a database by a module of the DB-API."""

    name: str
    kind: str
    file: str
    module: str
    connect: Union[FromEnvironment, Tuple[Tuple[str, object], ...]]
    rate: Optional[float]
    timeout: float
    max_rows: int

    def meaning(self) -> object:
        return [self.kind, self.file, self.module, repr(self.connect)]


@dataclass(frozen=True)
class Folder:
    """A folder of CSV files."""

    name: str
    folder: str
    max_bytes: int

    def meaning(self) -> object:
        return ["csv", self.folder]


Service = Union[WebService, Database, Folder]


@dataclass(frozen=True)
class WebCall:
    """A request by HTTP, and where its answer has the rows."""

    url: Template  # the whole URL, with that of the service before it
    query: Tuple[Pair, ...]
    verb: str
    json: object  # a value of JSON with templates in place of texts, or None
    numbers: Tuple[str, ...]  # inputs that are written into the JSON as numbers
    form: Tuple[Pair, ...]
    headers: Tuple[Tuple[str, Value], ...]
    format: str
    rows: Pointer
    single: bool
    empty: Tuple[int, ...]  # statuses that say that there is no row
    next: str  # a JSON pointer, `Link`, or nothing
    next_parameter: str


@dataclass(frozen=True)
class Select:
    """A SELECT with parameters."""

    statement: Statement


@dataclass(frozen=True)
class DataFile:
    """A CSV file."""

    file: str


@dataclass(frozen=True)
class MethodSettings:
    """How the requests of one method are made."""

    method: Method
    service: Service
    call: Union[WebCall, Select, DataFile]
    form: RowForm
    integers: Tuple[int, ...] = ()  # the places of the columns that hold integers

    def sum(self) -> str:
        """A sum over all that decides which rows a request has; the times, limits and rates of a service, and sorts, do not."""
        text = json.dumps([self.service.meaning(), asdict(self.call), asdict(self.form)], sort_keys=True, default=repr)
        return hashlib.sha256(text.encode("utf-8", "surrogatepass")).hexdigest()
