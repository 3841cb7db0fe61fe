"""Templates: texts of the services file in which the values of a request stand at the names of its columns.

`{day}` in a URL, a form or a JSON body stands for the value of the column `day`, and `{{` and `}}` for the braces. In a SELECT `:day` or
`:"full name"` is a parameter; the statement is cut at its parameters, so that it can be put into the style that a database module wants.
"""
from __future__ import annotations

import re
from dataclasses import dataclass
from typing import Callable, Mapping, Sequence, Tuple
from urllib.parse import quote

PIECE = re.compile(r"(?P<open>\{\{)|(?P<close>\}\})|\{(?P<name>[^{}]+)\}|(?P<wrong>[{}])")
SQL = re.compile(r"""
      (?P<skipped> '(?:[^']|'')*' | "(?:[^"]|"")*" | --[^\n]* | /\*.*?\*/ | :: | \[[^\]\n]*\] )
    | :(?P<word>[A-Za-z_][A-Za-z0-9_]*)
    | :"(?P<quoted>(?:[^"]|"")+)"
    """, re.VERBOSE | re.DOTALL)


class NoTemplate(ValueError):
    """The text has a brace that is none of a template's."""


@dataclass(frozen=True)
class Name:
    """The place of a column's value in a template."""

    column: str


def percent_encoded(value: str) -> str:
    """The value as it may stand in any part of a URL."""
    return quote(value, safe="")


@dataclass(frozen=True)
class Template:
    """Texts and names of columns, in turn."""

    written: str
    pieces: Tuple[object, ...]

    @staticmethod
    def of(written: str) -> Template:
        pieces, at = [], 0
        for found in PIECE.finditer(written):
            if found["wrong"]:
                raise NoTemplate(f"a single {found['wrong']} in {written!r}; write {{column}}, or the brace twice")
            pieces += [written[at:found.start()], Name(found["name"]) if found["name"] else found.group()[0]]
            at = found.end()
        return Template(written, tuple(piece for piece in pieces + [written[at:]] if piece != ""))

    @property
    def columns(self) -> set:
        return {piece.column for piece in self.pieces if isinstance(piece, Name)}

    def filled(self, values: Mapping[str, str], encode: Callable[[str], str] = str) -> str:
        return "".join(encode(values[piece.column]) if isinstance(piece, Name) else piece for piece in self.pieces)


@dataclass(frozen=True)
class Statement:
    """A SELECT, cut at its parameters: one text more than there are parameters."""

    written: str
    texts: Tuple[str, ...]
    parameters: Tuple[str, ...]

    @staticmethod
    def of(written: str) -> Statement:
        texts, parameters, at = [], [], 0
        for found in SQL.finditer(written):
            if found["skipped"] is None:
                texts.append(written[at:found.start()])
                parameters.append(found["word"].lower() if found["word"] else found["quoted"].replace('""', '"'))
                at = found.end()
        return Statement(written, tuple(texts + [written[at:]]), tuple(parameters))

    def in_style(self, style: str, values: Mapping[str, str]) -> Tuple[str, Sequence | Mapping]:
        """The statement and what its parameters are, in a style of the DB-API."""
        marks = {"qmark": lambda number: "?", "numeric": lambda number: f":{number}", "named": lambda number: f":p{number}",
                 "format": lambda number: "%s", "pyformat": lambda number: f"%(p{number})s"}[style]
        percents = style in ("format", "pyformat")
        text = ""
        for number, part in enumerate(self.texts):
            text += (marks(number) if number else "") + (part.replace("%", "%%") if percents else part)
        given = [values[name] for name in self.parameters]
        if style in ("named", "pyformat"):
            return text, {f"p{number}": value for number, value in enumerate(given, 1)}
        return text, given
