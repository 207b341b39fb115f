"""Parts come in by tus 1.0.0 (core, creation, creation-defer-length): begun, asked how far, and sent on from there."""

from __future__ import annotations

from desk import farmbook, programs
from desk.http import TEXT, Refuse, Request, Response, number_of
from desk.store import Book, Store

VERSION = "1.0.0"
PART = "application/offset+octet-stream"
RESUMABLE = ("Tus-Resumable", VERSION)


def options() -> Response:
    """What this server can do."""
    return Response(204, headers=(RESUMABLE, ("Tus-Version", VERSION), ("Tus-Extension", "creation,creation-defer-length")))


def wants_version(request: Request) -> None:
    """Both sides mean the same protocol, or nothing is taken."""
    if request.header("Tus-Resumable") != VERSION:
        raise Refuse(412, f"this server speaks tus {VERSION}: send Tus-Resumable: {VERSION}", RESUMABLE, ("Tus-Version", VERSION))


def standing(book: Book) -> tuple[tuple[str, str], ...]:
    """How far a book is."""
    return (RESUMABLE, ("Upload-Offset", str(book.taken)), length_header(book))


def length_header(book: Book) -> tuple[str, str]:
    """The whole length, or that it is not known yet."""
    return ("Upload-Defer-Length", "1") if book.length is None else ("Upload-Length", str(book.length))


def begin(request: Request, store: Store, sender: str) -> Response:
    """A new book; its parts go to the Location."""
    wants_version(request)
    if request.body():
        raise Refuse(400, "a book is begun without bytes: send them as parts", RESUMABLE)
    length = number_of(request.header("Upload-Length"))
    deferred = request.header("Upload-Defer-Length") == "1"
    if (length is None) != deferred or (deferred and request.header("Upload-Length")):
        raise Refuse(400, "a book is begun with Upload-Length, or with Upload-Defer-Length: 1", RESUMABLE)
    book = store.begin(sender, length)
    return Response(201, headers=(*standing(book), ("Location", f"/books/{book.id}")))


def how_far(request: Request, book: Book) -> Response:
    """Where the next part begins."""
    wants_version(request)
    return Response(200, headers=standing(book))


def take(request: Request, store: Store, book: Book) -> Response:
    """The next part. It is answered when it is kept."""
    wants_version(request)
    if request.header("Content-Type") != PART:
        raise Refuse(415, f"a part is sent as {PART}", *standing(book))
    offset = number_of(request.header("Upload-Offset"))
    if offset is None:
        raise Refuse(400, "Upload-Offset is no number", *standing(book))
    part = request.body()
    length = length_said(request, store, book)
    if length is not None and offset + len(part) > length:
        raise Refuse(400, f"the part goes past the book's {length} bytes", *standing(book))
    taken = store.take(book.id, offset, part)
    if taken is None:
        raise Refuse(404, "there is no such book", RESUMABLE)
    if not taken.right:
        raise Refuse(409, f"the next byte is {taken.book.taken}, not {offset}", *standing(taken.book))
    return after(store, taken.book, len(part) - taken.count)


def length_said(request: Request, store: Store, book: Book) -> int | None:
    """A book that began without its length may say it with a part, once."""
    text = request.header("Upload-Length")
    if text is None:
        return book.length
    said = number_of(text)
    if said is None or book.length not in (None, said):
        raise Refuse(400, "Upload-Length is not the length of this book", *standing(book))
    if book.length is None:
        store.finish_length(book.id, said)
    return said


def after(store: Store, book: Book, left: int) -> Response:
    """The answer once a part is kept: what is left of it stands after the close, or after a refusal."""
    if book.code in (farmbook.UNFINISHED, farmbook.CLOSED) and left == 0:
        return Response(204, headers=standing(book))
    if book.code == farmbook.CLOSED:
        raise Refuse(409, f"the book is closed: {left} bytes after its close are not taken", *standing(book))
    return Response(422, programs.on_book("why", store.sent(book.id)[0]).output, TEXT, standing(book))
