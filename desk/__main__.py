"""bin/desk: the office's desk, or a check of all that it keeps."""

from __future__ import annotations

import argparse
import ipaddress
import os
import sys
from pathlib import Path

from desk import access, farmbook, server
from desk.application import Desk
from desk.check import check
from desk.store import Store, Unavailable, is_address

ABOUT = "Takes books part by part from tablets, keeps them, and shows them to the office and to members."
MORE = """A file of tokens has a line for each person. A token is a word that nobody guesses: `openssl rand -hex 16` prints one.
  TOKEN adviser NAME       sends books, reads all
  TOKEN office NAME        reads all
  TOKEN member NAME FARM   reads the page and the sheet of that farm's closed books
Without it everyone on this machine may do everything, and nobody else gets in.

Stop it with Ctrl-C. It may be stopped or killed at any moment: what was answered is kept.
"""


class Wrong(Exception):
    """Why it does not start, in words."""


def listen_at(text: str) -> tuple[str, int]:
    """HOST:PORT."""
    host, _, port = text.rpartition(":")
    if not host or not port.isascii() or not port.isdigit() or int(port) > 65535:
        raise argparse.ArgumentTypeError(f"{text} is not HOST:PORT, as 127.0.0.1:8080")
    return host.strip("[]"), int(port)


def tokens_in(name: str) -> list[tuple[str, access.Person]]:
    """The people of a file of tokens."""
    try:
        return access.read_tokens(Path(name).read_text(encoding="utf-8"))
    except (OSError, UnicodeDecodeError, access.BadTokens) as error:
        raise argparse.ArgumentTypeError(f"{name}: {getattr(error, 'strerror', None) or error}") from error


def is_loopback(host: str) -> bool:
    try:
        return ipaddress.ip_address(host).is_loopback
    except ValueError:
        return host == "localhost"


def arguments() -> argparse.Namespace:
    parser = argparse.ArgumentParser("bin/desk", None, ABOUT, MORE, formatter_class=argparse.RawDescriptionHelpFormatter)
    parser.add_argument("--listen", type=listen_at, default="127.0.0.1:8080", metavar="HOST:PORT", help="where it listens (127.0.0.1:8080)")
    parser.add_argument("--store", default="farmbook.db", metavar="FILE|postgresql://..", help="where books are kept (farmbook.db)")
    parser.add_argument("--tokens", type=tokens_in, metavar="FILE", help="who may do what")
    parser.add_argument("--check", action="store_true", help="read everything that is kept once more, and say what differs")
    parser.add_argument("--look", action="store_true", help=argparse.SUPPRESS)  # at the arguments alone, for bin/desk
    said = parser.parse_args()
    if said.tokens is None and not is_loopback(said.listen[0]):
        parser.error("without --tokens it listens on this machine's own address alone, 127.0.0.1")
    if said.check and not is_address(said.store) and not os.path.exists(said.store):
        parser.error(f"there is no store {said.store}: name the one to check by --store")
    return said


def main() -> int:
    said = arguments()
    if said.look:
        return 0
    try:
        farmbook.library()
        store = opened(said.store)
        return say_check(store) if said.check else start(Desk(store, said.tokens), *said.listen)
    except (Wrong, OSError, Unavailable) as error:
        print(f"bin/desk: {error}", file=sys.stderr)
        return 2


def opened(place: str) -> Store:
    """The store, or why it can't be had."""
    try:
        return Store(place)
    except Unavailable as error:
        raise Wrong(f"the store {'' if is_address(place) else place + ' '}can't be opened or written: {error}") from error
    except ImportError as error:
        raise Wrong(f"PostgreSQL wants psycopg2, which {sys.executable} does not have: apt-get install python3-psycopg2") from error


def say_check(store: Store) -> int:
    found = check(store)
    for words in found:
        print(words)
    print(f"{len(store.books())} books were read again, {len(found)} differences")
    return 1 if found else 0


def start(desk: Desk, host: str, port: int) -> int:
    try:
        server.serve(desk, host, port)
    except KeyboardInterrupt:
        print("the desk is closed; what was sent is kept", flush=True)
    except OSError as error:
        raise Wrong(f"it can't listen at {host}, port {port}: {error.strerror}; --listen names another place") from error
    return 0


if __name__ == "__main__":
    sys.exit(main())
