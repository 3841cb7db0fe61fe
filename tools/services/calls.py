"""Calls of a web service by HTTP.

A call is repeated after 429, 5xx and lost connections, each time after a longer wait or as long as `Retry-After` says; any other status that is
not 2xx ends the run, and so does a redirection, since the headers with the secrets would go to where it leads.
"""
from __future__ import annotations

import email.utils
import http.client
import socket
import ssl
import time
from dataclasses import dataclass
from typing import Optional, Tuple
from urllib.error import HTTPError, URLError
from urllib.request import HTTPRedirectHandler, OpenerDirector, Request, build_opener

from .faults import AnswerFault, CallFault, MachineFault, visible
from .pace import Pace
from .secrets import Secrets
from .settings import WebService
from .texts import MARK, first_line

PIECE = 1 << 16


class NoRedirection(HTTPRedirectHandler):
    """Leaves a redirection as the answer that it is."""

    def redirect_request(self, *_):
        return None


class Again(Exception):
    """A call that may be repeated: why it failed, and how long the service asked to wait."""

    def __init__(self, fault: CallFault, seconds: Optional[float] = None):
        super().__init__(str(fault))
        self.fault, self.seconds = fault, seconds


@dataclass(frozen=True)
class Reply:
    """What came back: the status, the headers and the body."""

    status: int
    headers: http.client.HTTPMessage
    body: bytes

    def text(self) -> str:
        """The body, in the character set that its header says, or in UTF-8."""
        coding = self.headers.get("Content-Encoding", "identity").strip().lower()
        if coding not in ("identity", ""):
            raise AnswerFault(f"the body is packed as {visible(coding)}, which was not asked for")
        charset = self.headers.get_content_charset("utf-8")
        try:
            return self.body.decode(charset).lstrip(MARK)
        except LookupError:
            raise AnswerFault(f"the character set {visible(charset)} is not known") from None
        except UnicodeDecodeError as fault:
            raise AnswerFault(f"the body is not {visible(charset)} at byte {fault.start}") from None

    def says_its_end(self) -> bool:
        """Whether a body that was cut would have been seen to be cut."""
        return "Content-Length" in self.headers or "chunked" in self.headers.get("Transfer-Encoding", "").lower()

    def first_line(self) -> str:
        return first_line(self.body[:PIECE].decode("utf-8", "replace"))


def seconds_to_wait(header: Optional[str]) -> Optional[float]:
    """How long `Retry-After` says to wait: seconds, or until a time."""
    if header is None:
        return None
    if header.strip().isascii() and header.strip().isdigit():
        return float(header.strip()[:9])
    try:
        return max(0.0, email.utils.parsedate_to_datetime(header).timestamp() - time.time())
    except (TypeError, ValueError, OverflowError):
        return None


class Caller:
    """Makes the calls of one web service, for all its methods and workers."""

    def __init__(self, service: WebService, secrets: Secrets, pace: Pace):
        self.service, self.pace = service, pace
        self.headers = [(name, header_text(name, secrets.text(value))) for name, value in service.headers]
        self.opener: OpenerDirector = build_opener(NoRedirection())

    def reply(self, request: Request, empty: Tuple[int, ...], left: int) -> Reply:
        """The reply to a request, after as many calls as it takes; its body has at most `left` bytes."""
        wait = self.service.wait
        for attempt in range(self.service.retries + 1):
            self.pace.turn()
            try:
                return self.called(request, empty, left)
            except Again as again:
                if attempt == self.service.retries:
                    raise CallFault(f"{again.fault}, after {attempt + 1} call{'s' * (attempt > 0)}") from None
                self.before_next(again, wait)
                wait = min(2 * wait, self.service.max_wait)
        raise AssertionError("the loop returns or raises")

    def before_next(self, again: Again, wait: float) -> None:
        """Waits before the next call of this request; where the service asked to wait, no other call begins either."""
        if again.seconds is None:
            self.pace.wait(wait)
        elif again.seconds > self.service.max_wait:
            raise CallFault(f"{again.fault}, and asks to wait {again.seconds:.0f} seconds, more than max_wait")
        else:
            self.pace.pause(again.seconds)

    def called(self, request: Request, empty: Tuple[int, ...], left: int) -> Reply:
        """The reply to one call."""
        until = time.monotonic() + self.service.timeout
        try:
            with self.opened(request) as response:
                body = self.body(response, until, left)
                reply = Reply(response.status, response.headers, body)
        except (socket.timeout, TimeoutError):
            raise Again(CallFault(f"no answer within {self.service.timeout:g} seconds")) from None
        except URLError as fault:
            raise unreached(fault.reason, self.service.timeout) from None
        except (OSError, http.client.HTTPException) as fault:
            raise unreached(fault, self.service.timeout) from None
        except ValueError as fault:  # a host or a URL that the library refuses
            raise CallFault(f"no connection: {visible(str(fault))}") from None
        if 200 <= reply.status <= 299 or reply.status in empty:
            return reply
        raise refused(reply)

    def opened(self, request: Request):
        """The response, whatever its status."""
        try:
            return self.opener.open(request, timeout=self.service.timeout)
        except HTTPError as response:
            return response

    def body(self, response, until: float, left: int) -> bytes:
        """The bytes of the body, in pieces, so that a slow or endless one ends."""
        pieces, size = [], 0
        while True:
            piece = response.read1(PIECE) if hasattr(response, "read1") else response.read(PIECE)
            if not piece:
                break
            pieces.append(piece)
            size += len(piece)
            if size > left:
                raise AnswerFault(f"the answer has more than the {self.service.max_bytes} bytes of max_bytes")
            if time.monotonic() > until:
                raise TimeoutError
        wanted = response.headers.get("Content-Length", "")
        if wanted.isdigit() and size < int(wanted):
            raise http.client.IncompleteRead(b"", int(wanted) - size)
        return b"".join(pieces)


def unreached(reason: object, timeout: float) -> Exception:
    """What a lost connection is: a call to repeat, unless the server's certificate is wrong."""
    if isinstance(reason, (socket.timeout, TimeoutError)):
        return Again(CallFault(f"no answer within {timeout:g} seconds"))
    said = visible(f"{type(reason).__name__}: {reason}" if str(reason) else type(reason).__name__)
    fault = CallFault(f"no connection: {said}")
    return fault if isinstance(reason, ssl.SSLCertVerificationError) else Again(fault)


def refused(reply: Reply) -> Exception:
    """What a status that is not 2xx is: a call to repeat, or the end."""
    if 300 <= reply.status <= 399:
        target = visible(reply.headers.get("Location", "nowhere"))
        return CallFault(f"status {reply.status}, a redirection to {target}, which is not followed: write that URL")
    fault = CallFault(f"status {reply.status}: {reply.first_line()}")
    if reply.status == 429 or 500 <= reply.status <= 599:
        return Again(fault, seconds_to_wait(reply.headers.get("Retry-After")))
    return fault


def header_text(name: str, text: str) -> str:
    """A value that may stand in a header."""
    if not text.isprintable() or not text.isascii():
        raise MachineFault(f"environment: the header {name} would have a character that no header may have")
    return text
