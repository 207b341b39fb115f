"""Who may do what: tokens with roles. Without a file of tokens everyone on this machine may do everything, and nobody else gets in."""

from __future__ import annotations

import base64
import binascii
import hmac
from typing import NamedTuple

ADVISER, OFFICE, MEMBER = "adviser", "office", "member"
LOOPBACK = ("127.0.0.1", "localhost", "[::1]")


class BadTokens(Exception):
    """The file of tokens is not as it should be."""


class Person(NamedTuple):
    """Who asks: a role, a name, and of a member the farm."""

    role: str
    name: str
    farm: str = ""

    @property
    def may_send(self) -> bool:
        return self.role == ADVISER

    @property
    def may_read_all(self) -> bool:
        return self.role in (ADVISER, OFFICE)


# Everyone, where there are no tokens.
ANYONE = Person(ADVISER, "this machine")


def read_tokens(text: str) -> list[tuple[str, Person]]:
    """A line each: TOKEN ROLE NAME [FARM]; blank lines and those that begin with # are passed over."""
    people: list[tuple[str, Person]] = []
    for number, line in enumerate(text.splitlines(), 1):
        words = line.split()
        if not words or words[0].startswith("#"):
            continue
        if not _is_right(words):
            raise BadTokens(f"line {number} of the tokens is not TOKEN adviser|office NAME, nor TOKEN member NAME FARM")
        if any(hmac.compare_digest(words[0].encode(), token.encode()) for token, _ in people):
            raise BadTokens(f"line {number} of the tokens has a token that stands before it")
        people.append((words[0], Person(words[1], words[2], words[3] if len(words) > 3 else "")))
    if not people:
        raise BadTokens("there is no token in the file")
    return people


def _is_right(words: list[str]) -> bool:
    if not words[0].isascii():  # a header has no other letters
        return False
    if len(words) == 3:
        return words[1] in (ADVISER, OFFICE)
    return len(words) == 4 and words[1] == MEMBER and words[3].isascii() and words[3].isdigit() and str(int(words[3])) == words[3]


def token_of(authorization: str) -> str:
    """The token of a header: Bearer TOKEN, or the password of Basic."""
    scheme, _, rest = authorization.strip().partition(" ")
    if scheme.lower() == "bearer":
        return rest.strip()
    if scheme.lower() != "basic":
        return ""
    try:
        return base64.b64decode(rest.strip(), validate=True).decode().partition(":")[2]
    except (binascii.Error, UnicodeDecodeError):
        return ""


def person_of(people: list[tuple[str, Person]], authorization: str) -> Person | None:
    """Whose token it is. All tokens are looked at, each in constant time."""
    given, found = token_of(authorization).encode(), None
    for token, person in people:
        if hmac.compare_digest(token.encode(), given):
            found = person
    return found


def is_here(host: str) -> bool:
    """Whether a Host header names this machine, with any port: a page from elsewhere can't name it so."""
    name, colon, port = host.rpartition(":")
    return (name if colon and port.isdigit() else host) in LOOPBACK
