"""Requests to a web service: the URL and the body of a request, its pages, and their rows.

Pages are followed on the same server alone, since the headers with the secrets go there too.
"""
from __future__ import annotations

import http.client
import json
import re
from typing import Dict, List, Mapping, Optional, Sequence, Tuple
from urllib.parse import parse_qsl, quote, urlencode, urljoin, urlsplit, urlunsplit
from urllib.request import Request

from .calls import Caller, Reply, header_text
from .faults import AnswerFault, CallFault, visible
from .secrets import FromEnvironment, Secrets
from .settings import MethodSettings, Pair, WebCall
from .templates import Name, Template, percent_encoded
from .texts import MISSING, Number, Pointer, Row, csv_rows, first_line, json_rows, json_value, shown

IN_URLS = "%:/?#[]@!$&'()*+,;="
NUMBER = re.compile(r"-?(0|[1-9][0-9]*)(\.[0-9]+)?([eE][+-]?[0-9]+)?")
LINK = re.compile(r"<([^>]*)>((?:\s*;\s*[\w!#$&+.^`|~-]+\*?\s*(?:=\s*(?:\"[^\"]*\"|[^\s\",;]+))?)*)")
RELATION = re.compile(r";\s*rel\s*=\s*(?:\"([^\"]*)\"|([^\s\",;]+))", re.IGNORECASE)


def server_of(url: str) -> Tuple[str, Optional[str], int]:
    """Where a URL leads to, without what is asked for there."""
    parts = urlsplit(url)
    return parts.scheme, parts.hostname, parts.port or {"http": 80, "https": 443}.get(parts.scheme, 0)


def next_link(headers: http.client.HTTPMessage) -> Optional[str]:
    """The URL with the relation `next` among the Link headers."""
    for header in headers.get_all("Link", []):
        for found in LINK.finditer(header):
            relation = RELATION.search(found[2])
            if relation and "next" in (relation[1] or relation[2]).lower().split():
                return found[1]
    return None


def with_parameter(url: str, name: str, value: str) -> str:
    """The URL with the parameter of this name alone set anew."""
    parts = urlsplit(url)
    pairs = [pair for pair in parse_qsl(parts.query, keep_blank_values=True) if pair[0] != name]
    return urlunsplit(parts._replace(query=urlencode(pairs + [(name, value)], quote_via=quote)))


class WebSource:
    """Answers the requests of one method by HTTP."""

    def __init__(self, settings: MethodSettings, caller: Caller, secrets: Secrets):
        self.call: WebCall = settings.call
        self.form, self.caller, self.secrets = settings.form, caller, secrets
        own = [(name, header_text(name, secrets.text(value))) for name, value in self.call.headers]
        self.headers: Dict[str, str] = {}
        for name, text in [("User-Agent", "pdq carry_out"), ("Accept", "text/csv" if self.call.format == "csv" else "application/json"),
                           ("Accept-Encoding", "identity")] + caller.headers + own:
            self.headers[name.title()] = text
        if self.call.verb == "POST":
            self.headers.setdefault("Content-Type", "application/x-www-form-urlencoded" if self.call.json is None else "application/json")
        self.query, self.fields = self.known(self.call.query), self.known(self.call.form)

    def known(self, pairs: Sequence[Pair]) -> List[Tuple[str, Template]]:
        """Parameters or fields, with the values of the environment as texts in which no column stands."""
        return [(name, Template("", (self.secrets.text(part),)) if isinstance(part, FromEnvironment) else part) for name, part in pairs]

    def rows(self, asked: Row) -> List[Row]:
        """The rows of a request: those of all its pages."""
        values = dict(zip(self.form.inputs, asked))
        url, body, found = self.first_url(values), self.body(values), []
        seen, left = set(), self.caller.service.max_bytes
        while url:
            if url in seen:
                raise AnswerFault(f"the pages lead round: page {len(seen)} leads back to one before it")
            if len(seen) == self.caller.service.pages:
                raise AnswerFault(f"there are more than the {len(seen)} pages of the key pages")
            seen.add(url)
            reply = self.caller.reply(Request(url, body, self.headers, method=self.call.verb), self.call.empty, left)
            left -= len(reply.body)
            if reply.status in self.call.empty:
                break
            rows, url = self.page(reply, url)
            found += rows
        return self.form.rows(found, asked)

    def page(self, reply: Reply, url: str) -> Tuple[List[List[object]], Optional[str]]:
        """The rows of a page, and the URL of the next one."""
        if self.call.format == "csv":
            if not reply.says_its_end():  # a JSON text that was cut is none, but a CSV text lacks rows
                raise AnswerFault("a CSV text without Content-Length, of which rows may be missing")
            rows, value = list(csv_rows(reply.text(), self.form)), None
        else:
            text = reply.text()
            value = json_value(text)
            rows = list(json_rows(text, value, self.call.rows, self.call.single, self.form))
        following = next_link(reply.headers) if self.call.next == "Link" else self.by_path(value)
        if following is None:
            return rows, None
        if self.call.next_parameter:
            return rows, with_parameter(url, self.call.next_parameter, following)
        return rows, same_server(url, following)

    def by_path(self, value: object) -> Optional[str]:
        """What stands where the JSON text says how it goes on: null, an empty text or nothing is the end."""
        found = Pointer(self.call.next).value_in(value) if self.call.next else None
        if found in (None, MISSING, ""):
            return None
        if isinstance(found, str) and (self.call.next_parameter or not isinstance(found, Number)):
            return str(found)
        raise AnswerFault(f"what is at {self.call.next!r} is no next page: {first_line(str(found))}")

    def first_url(self, values: Mapping[str, str]) -> str:
        url = self.call.url.filled(values, percent_encoded)
        self.check_path(url)
        if self.query:
            pairs = [(name, text.filled(values)) for name, text in self.query]
            url += ("&" if "?" in url else "?") + urlencode(pairs, quote_via=quote)
        return url

    def check_path(self, url: str) -> None:
        """Refuses a value that would make another path of this one: between two slashes none may be empty, `.` or `..`."""
        plain = self.call.url.filled({name: "x" for name in self.form.inputs})
        for segment, written in zip(urlsplit(url).path.split("/"), urlsplit(plain).path.split("/")):
            if segment != written and segment in ("", ".", ".."):
                raise CallFault(f"the value {shown(segment)} cannot be sent as a part of the path")

    def body(self, values: Mapping[str, str]) -> Optional[bytes]:
        """The body of a POST."""
        if self.call.verb != "POST":
            return None
        if self.call.json is not None:
            return json.dumps(self.json(self.call.json, values), ensure_ascii=False).encode("utf-8")
        return urlencode([(name, text.filled(values)) for name, text in self.fields]).encode("ascii")

    def json(self, value: object, values: Mapping[str, str]) -> object:
        """The JSON body with the values in place of the templates."""
        if isinstance(value, Template):
            only = value.pieces[0] if len(value.pieces) == 1 else None
            if isinstance(only, Name) and only.column in self.call.numbers:
                return number_of(values[only.column])
            return value.filled(values)
        if isinstance(value, dict):
            return {name: self.json(inner, values) for name, inner in value.items()}
        return [self.json(inner, values) for inner in value] if isinstance(value, list) else value


def number_of(text: str) -> object:
    """The number of JSON that a value is."""
    if not NUMBER.fullmatch(text) or len(text) > 300:
        raise CallFault(f"the value {shown(text)} cannot be sent: it is no number")
    return int(text) if re.fullmatch(r"-?[0-9]+", text) else float(text)


def same_server(url: str, following: str) -> str:
    """The URL of the next page, which has to be on the server that gave this one."""
    try:
        found = quote(urljoin(url, following.strip()), safe=IN_URLS)
        if server_of(found) == server_of(url):
            return urlunsplit(urlsplit(found)._replace(fragment=""))
    except ValueError:
        pass
    raise AnswerFault(f"the next page is on another server, and is not asked for: {visible(following)}")
