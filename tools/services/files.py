"""Requests to CSV files: a file is read once, and its rows are kept by the values at the inputs."""
from __future__ import annotations

import os
from typing import Dict, List, Optional

from .faults import AnswerFault, CallFault, visible
from .settings import MethodSettings
from .texts import RowForm, Row, csv_rows


class FileSource:
    """Answers the requests of one method from a CSV file."""

    def __init__(self, settings: MethodSettings):
        self.form, self.most = settings.form, settings.service.max_bytes
        self.path = os.path.join(settings.service.folder, settings.call.file)
        self.kept: Optional[Dict[Row, List[Row]]] = None

    def rows(self, asked: Row) -> List[Row]:
        if self.kept is None:
            self.kept = self.read()
        return self.kept.get(asked, [])

    def read(self) -> Dict[Row, List[Row]]:
        """The rows of the file, by the values at the inputs."""
        everything = RowForm(self.form.columns, ())
        rows = everything.rows(csv_rows(self.content(), self.form), ())
        places = [place for place, column in enumerate(self.form.columns) if column.name in self.form.inputs]
        kept: Dict[Row, List[Row]] = {}
        for row in rows:
            kept.setdefault(tuple(row[place] for place in places), []).append(row)
        return kept

    def content(self) -> str:
        try:
            with open(self.path, "rb") as file:
                data = file.read(self.most + 1)
        except OSError as fault:
            raise CallFault(f"the file {visible(self.path)} cannot be read: {fault.strerror}") from None
        if len(data) > self.most:
            raise AnswerFault(f"the file has more than the {self.most} bytes of max_bytes")
        try:
            return data.decode("utf-8")
        except UnicodeDecodeError as fault:
            raise AnswerFault(f"the file is not UTF-8 at byte {fault.start}") from None
