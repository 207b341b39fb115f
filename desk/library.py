"""What is known of the books in a store, as the proved programs say it."""

from __future__ import annotations

import csv
import io
from typing import NamedTuple

from desk import programs
from desk.access import Person
from desk.store import Book, Store


class Facts(NamedTuple):
    """A row of `table`."""

    farm: str
    year: str
    state: str
    records: str

    @property
    def closed(self) -> bool:
        return self.state == "closed"

    @property
    def refused(self) -> bool:
        return self.state.startswith("refused")


Known = tuple[Book, Facts]


class Library:
    """A store with what is known of each book. A book is read again only when more of it was sent."""

    def __init__(self, store: Store) -> None:
        self.store = store
        self._known: dict[str, tuple[int, Facts]] = {}
        self._headings: dict[str, tuple[int, str]] = {}

    def facts(self, books: list[Book]) -> dict[str, Facts]:
        """Of each of the books, by its id: one run of `table` for all that are not known."""
        new = {book.id: book.taken for book in books if self._known.get(book.id, (None,))[0] != book.taken}
        for row in programs.table((name, self.store.sent(name)[0]) for name in new):
            if row[0] in new:
                self._known[row[0]] = (new[row[0]], Facts(*row[1:5]))
        return {book.id: self._known[book.id][1] for book in books}

    def of(self, book: Book) -> Facts:
        """Of one book."""
        return self.facts([book])[book.id]

    def seen_by(self, person: Person) -> list[Known]:
        """The books that a person may read and of which something came, with what is known of them, in the order in which they began."""
        books = [book for book in self.store.books() if book.taken]
        facts = self.facts(books)
        return [(book, facts[book.id]) for book in books if may_read(person, facts[book.id])]

    def headings(self, known: list[Known]) -> dict[str, str]:
        """The last heading of each book that stands and is not closed, by its id: where its next part goes on. A run of `records` for each."""
        stands = standing(known)
        return {book.id: self._heading(book) for book, facts in known if book.id in stands and not facts.closed}

    def _heading(self, book: Book) -> str:
        taken, words = self._headings.get(book.id, (None, ""))
        if taken != book.taken:
            words = _last_heading(self.store.sent(book.id)[0])
            self._headings[book.id] = (book.taken, words)
        return words


def may_read(person: Person, facts: Facts) -> bool:
    """Advisers and the office read all; a member the closed books of the own farm."""
    return person.may_read_all or (facts.closed and facts.farm != "" and facts.farm == person.farm)


def standing(known: list[Known]) -> set[str]:
    """Of each farm and year the newest delivery, and the newest closed one, which is the farm's page; these two replace all others. A book without a
    farm replaces none."""
    newest: dict[tuple[str, ...], str] = {}
    for book, facts in known:
        place = (facts.farm, facts.year) if facts.farm else (book.id,)
        newest[place] = book.id
        if facts.closed:
            newest[(*place, "closed")] = book.id
    return set(newest.values())


def _last_heading(book: bytes) -> str:
    """As it is typed: group, class, head."""
    text = programs.on_book("records", book).output.decode("ascii")
    typed = [row["typed"] for row in csv.DictReader(io.StringIO(text, newline="")) if row["name"] == "heading"]
    return typed[-1].partition(" ")[2] if typed else ""
