"""Everything that is kept, read again: bytes, image and lines of each book agree, or what differs is said."""

from __future__ import annotations

from desk import farmbook
from desk.store import Book, Store


def check(store: Store) -> list[str]:
    """A sentence for each thing that differs; none where all agree."""
    return [f"book {book.id}: {words}" for book in store.books() for words in differences(book, *store.sent(book.id))]


def differences(book: Book, sent: bytes, lines: bytes) -> list[str]:
    """What is kept of one book beside what its bytes give, read in one go from no record."""
    whole, farm = farmbook.lines(sent), farmbook.Farm()
    again = farm.feed(sent)
    found = []
    if len(sent) != book.taken:
        found.append(f"{book.taken} bytes were answered for, and {len(sent)} are kept")
    if whole.lines != lines or again.lines != lines:
        found.append("its lines are not those of its bytes")
    if farm.image != book.image:
        found.append("its image is not that of its bytes")
    if again.code != book.code or whole.code != book.code:
        found.append(f"its code is {book.code}, and its bytes give {whole.code}")
    return found
