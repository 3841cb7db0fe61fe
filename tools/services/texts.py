"""The one text form of each value that a service gives, and the rows that are read from an answer.

A text is itself. A number of a JSON text is its digits as they stand there. A boolean is `true` or `false`. Null is no value: the row is
dropped, or the answer refused, as the services file says.
"""
from __future__ import annotations

import csv
import datetime
import decimal
import io
import json
import uuid
from dataclasses import dataclass
from typing import Iterable, Iterator, List, Mapping, Optional, Sequence, Tuple

from .faults import AnswerFault, visible

Row = Tuple[str, ...]


class Number(str):
    """A number of a JSON text, by its digits as they stand there."""


class Missing:
    """What stands where a JSON text has nothing."""


MISSING = Missing()
MARK = "\ufeff"
csv.field_size_limit(1 << 30)


def refuse_constant(word: str) -> None:
    raise AnswerFault(f"no JSON: {word} is no value of JSON")


def json_value(text: str) -> object:
    """What a JSON text says, with its numbers as they are written."""
    try:
        return json.loads(text, parse_int=Number, parse_float=Number, parse_constant=refuse_constant)
    except ValueError as fault:
        raise AnswerFault(f"no JSON ({fault}): {first_line(text)}") from None
    except RecursionError:
        raise AnswerFault("no JSON that can be read: it is nested too deeply") from None


def first_line(text: str) -> str:
    """The first line that has something, for a message."""
    lines = [line for line in text.split("\n") if line.strip()]
    return f"`{visible(lines[0])}`" if lines else "nothing"


@dataclass(frozen=True)
class Pointer:
    """A JSON Pointer, the path to a value inside a JSON text: `/flights/0/day`; the empty one is the whole."""

    written: str

    @property
    def names(self) -> List[str]:
        return [name.replace("~1", "/").replace("~0", "~") for name in self.written.split("/")[1:]]

    def value_in(self, value: object) -> object:
        """The value that the pointer leads to, or MISSING."""
        for name in self.names:
            if isinstance(value, dict) and name in value:
                value = value[name]
            elif isinstance(value, list) and name.isascii() and name.isdigit() and int(name) < len(value):
                value = value[int(name)]
            else:
                return MISSING
        return value


def text_form(value: object) -> Optional[str]:
    """The text that a value is, or None for null. What has no text form is refused by the name of its type."""
    if value is None:
        return None
    if isinstance(value, str):
        return str(value)
    if isinstance(value, bool):
        return "true" if value else "false"
    if isinstance(value, int):
        return str(value)
    if isinstance(value, float) and value == value and value not in (float("inf"), float("-inf")):
        return repr(value)
    if isinstance(value, decimal.Decimal) and value.is_finite():
        return format(value, "f")
    if isinstance(value, datetime.datetime):
        return value.isoformat(" ")
    if isinstance(value, (datetime.date, datetime.time)):
        return value.isoformat()
    if isinstance(value, uuid.UUID):
        return str(value)
    raise AnswerFault(f"a value of the type {type(value).__name__}, which has no text form")


@dataclass(frozen=True)
class Column:
    """Where the value of a column stands in a row of an answer."""

    name: str
    at: str  # a JSON pointer, or the name of a column of the CSV or of the select; without a meaning where the value is that of the request
    asked: bool = False  # whether it is the value that was asked for
    drops_null: bool = False  # whether a row with null here is dropped, and not refused
    optional: bool = False  # whether a row without it has null here


@dataclass(frozen=True)
class RowForm:
    """How rows of a relation are made of what a service gives."""

    columns: Tuple[Column, ...]
    inputs: Tuple[str, ...]  # the columns that a request has values for, in the order of the relation's columns

    def rows(self, found: Iterable[Sequence[object]], asked: Row) -> List[Row]:
        """The distinct rows, in the order in which they come first. Each has what was asked for at the inputs."""
        known, rows = dict(zip(self.inputs, asked)), {}
        for number, values in enumerate(found, 1):
            row = self.row(number, values, known)
            if row is not None:
                rows.setdefault(row)
        return list(rows)

    def row(self, number: int, values: Sequence[object], known: Mapping[str, str]) -> Optional[Row]:
        """One row, or None where it is dropped."""
        texts, dropped = [], False
        for column, value in zip(self.columns, values):
            text = known[column.name] if column.asked else self.text(number, column, value)
            if text is None:
                dropped = True
            elif text != known.get(column.name, text):
                raise AnswerFault(f"row {number} has {shown(text)} for {column.name}, and {shown(known[column.name])} was asked for")
            texts.append(text)
        return None if dropped else tuple(texts)

    def text(self, number: int, column: Column, value: object) -> Optional[str]:
        if value is MISSING and not column.optional:
            raise AnswerFault(f"row {number} has no {column.name}: nothing is at {column.at!r}")
        try:
            text = None if value is MISSING else text_form(value)
        except AnswerFault as fault:
            raise AnswerFault(f"row {number} has {fault} for {column.name}") from None
        if text is None and not column.drops_null:
            raise AnswerFault(f"row {number} has null for {column.name}")
        if text is not None and not is_utf_8(text):
            raise AnswerFault(f"row {number} has a text that is not Unicode for {column.name}")
        return text


def shown(value: str) -> str:
    """A value for a message, as the program prints it, and not too long."""
    return "'" + visible(value).replace("'", "''") + "'"


def is_utf_8(text: str) -> bool:
    """Whether the text can be written as UTF-8; half a surrogate pair in a JSON text cannot."""
    try:
        text.encode("utf-8")
    except UnicodeEncodeError:
        return False
    return True


def json_rows(text: str, value: object, rows: Pointer, single: bool, form: RowForm) -> Iterator[List[object]]:
    """The values of each row of a JSON text, which says this value, column by column."""
    found = rows.value_in(value)
    if single and isinstance(found, dict):
        found = [found]
    if not isinstance(found, list):
        wanted = "object" if single else "list"
        raise AnswerFault(f"no {wanted} is at {rows.written!r}: {first_line(text)}")
    pointers = [Pointer(column.at) for column in form.columns]
    for row in found:
        yield [None if column.asked else pointer.value_in(row) for column, pointer in zip(form.columns, pointers)]


def csv_rows(text: str, form: RowForm) -> Iterator[List[object]]:
    """The values of each row of a CSV text with a header, column by column."""
    try:
        records = [record for record in csv.reader(io.StringIO(text.lstrip(MARK), newline="")) if record]
    except csv.Error as fault:
        raise AnswerFault(f"no CSV: {fault}") from None
    if not records:
        raise AnswerFault("no CSV: there is no header")
    places = places_in(records[0], form)
    for number, record in enumerate(records[1:], 1):
        if len(record) != len(records[0]):
            raise AnswerFault(f"row {number} has {len(record)} fields, and the header has {len(records[0])}")
        yield [None if place is None else record[place] for place in places]


def places_in(header: Sequence[str], form: RowForm) -> List[Optional[int]]:
    """Where each column stands among the named ones; each stands there once."""
    places: List[Optional[int]] = []
    for column in form.columns:
        if not column.asked and list(header).count(column.at) != 1:
            raise AnswerFault(f"no column {column.name}: {column.at!r} does not stand once in {first_line(', '.join(header))}")
        places.append(None if column.asked else list(header).index(column.at))
    return places
