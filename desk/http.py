"""Requests and answers: what a client sends is looked at here before anything else sees it."""

from __future__ import annotations

import re
from collections.abc import Callable
from http import HTTPStatus
from typing import Any, NamedTuple

# The most bytes of one part, and of an answer's pieces.
BODY_MOST, PIECE = 1 << 20, 1 << 14

# No sign, no blank, no other script's digits; far below what a database's number holds.
WHOLE_NUMBER = re.compile(r"0|[1-9][0-9]{0,14}", re.ASCII)

POLICY = "default-src 'none'; style-src 'unsafe-inline'; img-src data:; form-action 'none'; frame-ancestors 'none'; base-uri 'none'"
TEXT, HTML, CSV = "text/plain; charset=utf-8", "text/html; charset=utf-8", "text/csv; charset=utf-8; header=present"
JSON, BYTES = "application/json", "application/octet-stream"


class Response(NamedTuple):
    """A status, a body with its content type, and headers besides."""

    status: int
    body: bytes = b""
    kind: str = TEXT
    headers: tuple[tuple[str, str], ...] = ()
    policy: str = POLICY


class Refuse(Exception):
    """The request gets this answer, and nothing is changed."""

    def __init__(self, status: int, words: str, *headers: tuple[str, str]) -> None:
        super().__init__(words)
        self.response = Response(status, (words + "\n").encode(), TEXT, headers)


def number_of(text: str | None) -> int | None:
    """A whole number as a header has it; None for anything else."""
    return int(text) if text is not None and WHOLE_NUMBER.fullmatch(text) else None


class Request:
    """What a WSGI server hands over."""

    def __init__(self, environ: dict[str, Any]) -> None:
        self._environ = environ
        self.method: str = environ["REQUEST_METHOD"]
        self.path: str = environ.get("PATH_INFO", "")

    def header(self, name: str) -> str | None:
        """A header's text, or None."""
        plain = name.upper().replace("-", "_")
        return self._environ.get(plain if plain in ("CONTENT_TYPE", "CONTENT_LENGTH") else "HTTP_" + plain) or None

    def body(self) -> bytes:
        """All bytes that the client said it would send; one that ends early is refused."""
        if self.header("Transfer-Encoding"):
            raise Refuse(411, "send a Content-Length: a body without one is not taken")
        length = number_of(self.header("Content-Length") or "0")
        if length is None:
            raise Refuse(400, "Content-Length is no number")
        if length > BODY_MOST:
            raise Refuse(413, f"a part has at most {BODY_MOST} bytes: send it in smaller parts")
        try:
            body = self._environ["wsgi.input"].read(length) if length else b""
        except OSError as error:  # the client is too slow, or went away
            raise Refuse(408, "the part did not come in time: nothing of it is taken") from error
        if len(body) != length:
            raise Refuse(400, "the part ended early: nothing of it is taken")
        return body


def headers_of(response: Response) -> list[tuple[str, str]]:
    """Those that every answer has, and its own; an answer without a body has no content type."""
    kind = [("Content-Type", response.kind), ("Content-Length", str(len(response.body)))]
    return [
        *(kind if response.status != HTTPStatus.NO_CONTENT else []),
        ("X-Content-Type-Options", "nosniff"),
        ("Content-Security-Policy", response.policy),
        ("Referrer-Policy", "no-referrer"),
        ("Cross-Origin-Resource-Policy", "same-origin"),
        ("Cache-Control", "no-store"),
        *response.headers,
    ]


def send(response: Response, method: str, start_response: Callable[..., Any]) -> list[bytes]:
    """The answer, in pieces, so that a slow network has time for each."""
    start_response(f"{response.status} {HTTPStatus(response.status).phrase}", headers_of(response))
    body = b"" if method == "HEAD" or response.status == HTTPStatus.NO_CONTENT else response.body
    return [body[at : at + PIECE] for at in range(0, len(body), PIECE)]
