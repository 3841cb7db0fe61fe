"""The journal: a file of SQLite that keeps the rows of each request that was answered, one transaction each.

A row of the journal belongs to a method, the values at its inputs and a sum over the method's definition in the services file. So a journal
may serve several plans, schemas and services files, and a changed definition finds no answer in it. SQLite's locks let several runs use it.
"""
from __future__ import annotations

import json
import sqlite3
import threading
import time
from typing import List, Optional

from .faults import JournalFault, visible
from .texts import Row

APPLICATION = 0x5044514A  # the letters PDQJ
FORM = 1
PATIENCE = 60.0  # seconds for a lock of another run
TABLE = """CREATE TABLE answers (method TEXT NOT NULL, definition TEXT NOT NULL, inputs TEXT NOT NULL, asked REAL NOT NULL,
           rows TEXT NOT NULL, PRIMARY KEY (method, definition, inputs)) WITHOUT ROWID"""


class Journal:
    """A journal that is open. All workers share it, and take turns."""

    def __init__(self, path: str, fresh: Optional[float], patience: float = PATIENCE):
        self.path, self.fresh, self.lock = path, fresh, threading.Lock()
        self.used, self.oldest = 0, None  # how many answers were taken from it, and when the oldest of them came
        try:
            self.file = sqlite3.connect(path, timeout=patience, check_same_thread=False, isolation_level=None)
            self.begin()
        except sqlite3.Error as fault:
            raise self.broken(fault) from None

    def begin(self) -> None:
        """Makes the table in a new file, and refuses a file that is no journal."""
        self.file.execute("PRAGMA synchronous = NORMAL")
        self.file.execute("BEGIN IMMEDIATE")
        try:
            application = self.file.execute("PRAGMA application_id").fetchone()[0]
            form = self.file.execute("PRAGMA user_version").fetchone()[0]
            tables = self.file.execute("SELECT count(*) FROM sqlite_master").fetchone()[0]
            if not tables and not application and not form:
                self.file.execute(f"PRAGMA application_id = {APPLICATION}")
                self.file.execute(f"PRAGMA user_version = {FORM}")
                self.file.execute(TABLE)
            elif application != APPLICATION:
                raise JournalFault(f"journal {visible(self.path)}: it is a database, and no journal")
            elif form != FORM:
                raise JournalFault(f"journal {visible(self.path)}: its form is {form}, and {FORM} is known")
        finally:
            self.file.execute("COMMIT")

    def broken(self, fault: Exception) -> JournalFault:
        return JournalFault(f"journal {visible(self.path)}: {visible(str(fault))}")

    def find(self, method: str, definition: str, inputs: Row) -> Optional[List[Row]]:
        """The rows that were kept for a request, unless they are too old."""
        with self.lock:
            try:
                found = self.file.execute("SELECT rows, asked FROM answers WHERE method = ? AND definition = ? AND inputs = ?",
                                          (method, definition, json.dumps(inputs))).fetchone()
                if found is None or self.fresh is not None and not time.time() - self.fresh <= found[1]:
                    return None
                self.used += 1
                self.oldest = min(found[1], self.oldest or found[1])
                return [tuple(row) for row in json.loads(found[0])]
            except (sqlite3.Error, ValueError) as fault:
                raise self.broken(fault) from None

    def keep(self, method: str, definition: str, inputs: Row, asked: float, rows: List[Row]) -> None:
        """Keeps the rows of a request that was made at this time, in place of older ones."""
        with self.lock:
            try:
                self.file.execute("INSERT OR REPLACE INTO answers VALUES (?, ?, ?, ?, ?)",
                                  (method, definition, json.dumps(inputs), asked, json.dumps(rows)))
            except sqlite3.Error as fault:
                raise self.broken(fault) from None

    def close(self) -> None:
        self.file.close()
