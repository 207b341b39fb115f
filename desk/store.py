"""Where books are kept: for each its image and what was sent, for each part its bytes and lines, in one transaction a part.

A store is SQLite (one machine) or PostgreSQL (many): the same statements, by a dialect each. An answer comes after the commit is on the disk.
"""

from __future__ import annotations

import contextlib
import secrets
import sqlite3
import threading
import time
from collections.abc import Callable, Iterator
from dataclasses import dataclass
from typing import Any, NamedTuple

from desk import farmbook

TABLES = (
    "CREATE TABLE IF NOT EXISTS books (id TEXT PRIMARY KEY, sender TEXT NOT NULL, begun {real} NOT NULL, heard {real} NOT NULL,"
    " length BIGINT, image {bytes} NOT NULL, code BIGINT NOT NULL, taken BIGINT NOT NULL)",
    "CREATE TABLE IF NOT EXISTS parts (book TEXT NOT NULL REFERENCES books, first BIGINT NOT NULL, bytes {bytes} NOT NULL,"
    " lines {bytes} NOT NULL, PRIMARY KEY (book, first))",
)
COLUMNS = "id, sender, begun, heard, length, image, code, taken"


class Unavailable(Exception):
    """The store does not answer, or can't keep what it is given. Nothing of the transaction is there."""


class Book(NamedTuple):
    """A book as far as it was sent: by whom, when it began and was last heard of, its whole length where that is known, its state's image, the
    desk's code after the last part, and the bytes taken."""

    id: str
    sender: str
    begun: float
    heard: float
    length: int | None
    image: bytes
    code: int
    taken: int


class Taken(NamedTuple):
    """What became of a part: the book after it, whether its offset was right, and how many of its bytes were taken."""

    book: Book
    right: bool
    count: int


@dataclass(frozen=True)
class Dialect:
    """What the two databases say differently. `errors` are those by which they say that they can't."""

    connect: Callable[[], Any]
    begin: str
    lock: str
    mark: str
    types: dict[str, str]
    errors: tuple[type[Exception], ...]


def sqlite(path: str) -> Dialect:
    """One file, written ahead, each commit on the disk before it is answered."""

    def connect() -> sqlite3.Connection:
        connection = sqlite3.connect(path, timeout=20, isolation_level=None)
        connection.execute("PRAGMA journal_mode = WAL")
        connection.execute("PRAGMA synchronous = FULL")
        connection.execute("PRAGMA foreign_keys = ON")
        return connection

    return Dialect(connect, "BEGIN IMMEDIATE", "", "?", {"real": "REAL", "bytes": "BLOB"}, (sqlite3.Error,))


def postgresql(address: str) -> Dialect:
    """A server for many machines; a part locks its book's row."""
    import psycopg2  # Debian's python3-psycopg2, asked for here alone

    def connect() -> Any:
        connection = psycopg2.connect(address, connect_timeout=10)
        connection.autocommit = True
        return connection

    return Dialect(connect, "BEGIN", " FOR UPDATE", "%s", {"real": "DOUBLE PRECISION", "bytes": "BYTEA"}, (psycopg2.Error,))


def is_address(place: str) -> bool:
    """Whether --store names an address of PostgreSQL; else it is a file."""
    return place.startswith(("postgresql://", "postgres://"))


def dialect_of(place: str) -> Dialect:
    return postgresql(place) if is_address(place) else sqlite(place)


class Store:
    """The books of an office. Each thread has a connection of its own; one that failed is closed, and the next transaction opens another."""

    def __init__(self, place: str) -> None:
        self._dialect = dialect_of(place)
        self._own = threading.local()
        with self._transaction() as ask:
            for table in TABLES:
                ask(table.format(**self._dialect.types))

    @contextlib.contextmanager
    def _transaction(self) -> Iterator[Callable[..., list[tuple[Any, ...]]]]:
        """All or nothing: committed where the block comes to its end."""
        try:
            if getattr(self._own, "connection", None) is None:
                self._own.connection = self._dialect.connect()
            cursor = self._own.connection.cursor()
            cursor.execute(self._dialect.begin)
            yield lambda words, *values: self._ask(cursor, words, values)
            cursor.execute("COMMIT")
        except self._dialect.errors as error:
            self._drop()
            raise Unavailable(str(error).strip()) from error
        except BaseException:
            self._drop()
            raise

    def _drop(self) -> None:
        """Without its commit a transaction ends with its connection."""
        connection, self._own.connection = getattr(self._own, "connection", None), None
        if connection is not None:
            with contextlib.suppress(Exception):
                connection.close()

    def _ask(self, cursor: Any, words: str, values: tuple[Any, ...]) -> list[tuple[Any, ...]]:
        cursor.execute(words.replace("?", self._dialect.mark), values)
        return cursor.fetchall() if cursor.description else []

    def begin(self, sender: str, length: int | None) -> Book:
        """A new book, of which nothing was sent."""
        now = time.time()
        book = Book(secrets.token_hex(16), sender, now, now, length, bytes(farmbook.IMAGE_BYTES), farmbook.UNFINISHED, 0)
        with self._transaction() as ask:
            ask(f"INSERT INTO books ({COLUMNS}) VALUES (?, ?, ?, ?, ?, ?, ?, ?)", *book)
        return book

    def take(self, book_id: str, offset: int, part: bytes) -> Taken | None:
        """The next part of a book: offset looked at, the part read by proved code, image, bytes and lines kept, all in one transaction. A book that
        is closed or refused takes nothing; None where there is no such book."""
        with self._transaction() as ask:
            found = ask(f"SELECT {COLUMNS} FROM books WHERE id = ?{self._dialect.lock}", book_id)
            if not found:
                return None
            book = _book(found[0])
            if offset != book.taken:
                return Taken(book, False, 0)
            farm = farmbook.Farm(book.image)
            answer = farm.feed(part)
            if answer.code == farmbook.NO_IMAGE:
                raise Unavailable("the image of this book is no state's: bin/desk --check says more")
            if not answer.taken:  # after a close or a refusal, or an empty part: nothing is changed, and nothing was heard
                return Taken(book, True, 0)
            ask("INSERT INTO parts (book, first, bytes, lines) VALUES (?, ?, ?, ?)", book_id, offset, part[: answer.taken], answer.lines)
            after = book._replace(image=farm.image, code=answer.code, taken=offset + answer.taken, heard=time.time())
            ask("UPDATE books SET image = ?, code = ?, taken = ?, heard = ? WHERE id = ?", after.image, after.code, after.taken, after.heard, book_id)
        return Taken(after, True, answer.taken)

    def finish_length(self, book_id: str, length: int) -> None:
        """The whole length of a book that began without one."""
        with self._transaction() as ask:
            ask("UPDATE books SET length = ? WHERE id = ? AND length IS NULL", length, book_id)

    def book(self, book_id: str) -> Book | None:
        """One book."""
        with self._transaction() as ask:
            found = ask(f"SELECT {COLUMNS} FROM books WHERE id = ?", book_id)
        return _book(found[0]) if found else None

    def books(self) -> list[Book]:
        """All of them, in the order in which they began."""
        with self._transaction() as ask:
            return [_book(row) for row in ask(f"SELECT {COLUMNS} FROM books ORDER BY begun, id")]

    def sent(self, book_id: str) -> tuple[bytes, bytes]:
        """The bytes of a book that were taken, and the lines that they gave."""
        with self._transaction() as ask:
            rows = ask("SELECT bytes, lines FROM parts WHERE book = ? ORDER BY first", book_id)
        return b"".join(bytes(row[0]) for row in rows), b"".join(bytes(row[1]) for row in rows)


def _book(row: tuple[Any, ...]) -> Book:
    values = list(row)
    values[5] = bytes(values[5])  # PostgreSQL gives a view of the bytes
    return Book(*values)
