"""Requests to tables of a database: a file of SQLite, which is opened for reading alone, or a module of the DB-API.

Each worker has a connection of its own, unless the module's threads may not share it; then all share one and take turns. Nothing is
committed.
"""
from __future__ import annotations

import importlib
import os
import sqlite3
import threading
import time
from contextlib import nullcontext
from dataclasses import dataclass, field
from typing import Callable, List
from urllib.parse import quote

from .faults import AnswerFault, CallFault, Fault, MachineFault, visible
from .pace import Pace
from .secrets import FromEnvironment, Secrets
from .settings import Database, MethodSettings
from .texts import Row, places_in

STEPS = 10_000  # of SQLite's machine between two looks at the clock
AT_ONCE = 1000  # rows


@dataclass
class Connections:
    """The connections to one database: how one is opened, and those that were."""

    service: Database
    open: Callable[[], object]
    style: str  # of parameters
    shared: bool  # whether all workers have one connection
    pace: Pace
    own: threading.local = field(default_factory=threading.local)
    opened: list = field(default_factory=list)
    lock: threading.Lock = field(default_factory=threading.Lock)

    def mine(self) -> object:
        """The connection of this worker."""
        if self.shared and self.opened:
            return self.opened[0]
        if getattr(self.own, "connection", None) is None:
            try:
                connection = self.open()
            except Exception as fault:  # a module may raise what it likes before there is a connection
                raise CallFault(f"no connection: {said(fault)}") from None
            self.own.connection = connection
            self.opened.append(connection)
        return self.own.connection

    def close(self) -> None:
        for connection in self.opened:
            try:
                connection.close()
            except Exception:  # the answer is there, and nothing was to be written
                pass


def said(fault: BaseException) -> str:
    return visible(f"{type(fault).__name__}: {fault}")


def sqlite_connections(service: Database, pace: Pace) -> Connections:
    if not os.path.exists(service.file):
        raise MachineFault(f"service {service.name}: there is no file {visible(service.file)}")

    def opened() -> sqlite3.Connection:
        name = f"file:{quote(os.path.abspath(service.file))}?mode=ro"
        return sqlite3.connect(name, uri=True, timeout=service.timeout, check_same_thread=False, isolation_level=None)

    return Connections(service, opened, "named", False, pace)


def module_connections(service: Database, secrets: Secrets, pace: Pace) -> Connections:
    try:
        module = importlib.import_module(service.module)
        connect, style, threads = module.connect, module.paramstyle, module.threadsafety
    except ImportError as fault:
        raise MachineFault(f"service {service.name}: the Python module {service.module} cannot be loaded: {said(fault)}") from None
    except AttributeError as fault:
        raise MachineFault(f"service {service.name}: {service.module} is no module of the DB-API: {said(fault)}") from None
    if isinstance(service.connect, FromEnvironment):
        words, named = [secrets.text(service.connect)], {}
    else:
        words = []
        named = {name: secrets.text(value) if isinstance(value, (str, FromEnvironment)) else value for name, value in service.connect}
    return Connections(service, lambda: connect(*words, **named), style, threads < 1, pace)


class DatabaseSource:
    """Answers the requests of one method by a SELECT."""

    def __init__(self, settings: MethodSettings, connections: Connections):
        self.statement, self.form, self.connections = settings.call.statement, settings.form, connections

    def rows(self, asked: Row) -> List[Row]:
        self.connections.pace.turn()
        with self.connections.lock if self.connections.shared else nullcontext():
            connection = self.connections.mine()
            try:
                names, found = self.selected(connection, dict(zip(self.form.inputs, asked)))
            except Fault:
                raise
            except Exception as fault:  # those of the module, and what a module lets through
                raise self.refused(fault) from None
        places = places_in(names, self.form)
        return self.form.rows(([None if place is None else row[place] for place in places] for row in found), asked)

    def refused(self, fault: Exception) -> CallFault:
        if isinstance(fault, sqlite3.OperationalError) and str(fault) == "interrupted":
            return CallFault(f"no answer within {self.connections.service.timeout:g} seconds")
        return CallFault(f"the database refused: {said(fault)}")

    def selected(self, connection, values):
        """The names of the columns, and the rows."""
        service = self.connections.service
        if service.kind == "sqlite":
            until = time.monotonic() + service.timeout
            connection.set_progress_handler(lambda: time.monotonic() > until, STEPS)
        cursor = connection.cursor()
        try:
            cursor.execute(*self.statement.in_style(self.connections.style, values))
            if cursor.description is None:
                raise AnswerFault("the statement gives no rows")
            rows = []
            while True:
                some = cursor.fetchmany(AT_ONCE)
                if not some:
                    break
                rows += some
                if len(rows) > service.max_rows:
                    raise AnswerFault(f"there are more than the {service.max_rows} rows of max_rows")
            return [column[0] for column in cursor.description], rows
        finally:
            cursor.close()
            if service.kind == "dbapi":
                connection.rollback()
