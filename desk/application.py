"""The desk as a WSGI application: who asks, for what, and which answer."""

from __future__ import annotations

import json
import re
import sys
import time
import traceback
from collections.abc import Callable
from typing import Any

from desk import access, app_page, pages, programs, uploads
from desk.access import Person
from desk.http import BYTES, CSV, HTML, JSON, TEXT, Refuse, Request, Response, send
from desk.library import Facts, Library, may_read, standing
from desk.store import Book, Store, Unavailable

BOOK = re.compile(r"/books/([0-9a-f]{32})(?:/(book|page|sheet\.csv|why|compare/([0-9a-f]{32})))?", re.ASCII)
CHALLENGE = ("WWW-Authenticate", 'Basic realm="farm book", charset="UTF-8"')


class Desk:
    """The office's desk over a store. People are known by tokens; without any, everyone on this machine is one person."""

    def __init__(self, store: Store, people: list[tuple[str, Person]] | None) -> None:
        self._store = store
        self._library = Library(store)
        self._people = people

    def __call__(self, environ: dict[str, Any], start_response: Callable[..., Any]) -> list[bytes]:
        request = Request(environ)
        return send(self._answer(request), request.method, start_response)

    def _answer(self, request: Request) -> Response:
        try:
            return self._route(request, self._person(request))
        except Refuse as refused:
            return refused.response
        except Unavailable as error:
            return Response(503, f"the store does not answer: {error}\n".encode(), headers=(("Retry-After", "5"),))
        except programs.Failed as error:
            return Response(503, f"this can't be shown now: {error}\n".encode(), headers=(("Retry-After", "5"),))
        except Exception:  # a fault of this program: said on its standard error, and to the client without its words
            traceback.print_exc(file=sys.stderr)
            return Response(500, b"the desk made a mistake; what was answered before is kept\n")

    def _person(self, request: Request) -> Person:
        if self._people is None:
            if not access.is_here(request.header("Host") or ""):
                raise Refuse(403, "this desk serves its own machine alone: start it with --tokens for others")
            return access.ANYONE
        person = access.person_of(self._people, request.header("Authorization") or "")
        if person is None:
            raise Refuse(401, "a token is needed", CHALLENGE)
        return person

    def _route(self, request: Request, person: Person) -> Response:
        if request.path == "/books":
            return self._begin(request, person)
        found = BOOK.fullmatch(request.path)
        if found:
            return self._of_book(request, person, *found.groups())
        shown = {"/": self._overview, "/table.csv": self._table}.get(request.path)
        if shown is None:
            answer = app_page.answer(request.path)
            if answer is None:
                raise Refuse(404, "there is nothing here")
            _only(request, "GET", "HEAD")
            return answer
        _only(request, "GET", "HEAD")
        return shown(person)

    def _begin(self, request: Request, person: Person) -> Response:
        _only(request, "POST", "OPTIONS")
        if request.method == "OPTIONS":
            return uploads.options()
        _may(person.may_send, "send books")
        return uploads.begin(request, self._store, person.name)

    def _of_book(self, request: Request, person: Person, book_id: str, what: str | None, other: str | None) -> Response:
        if what is None and request.method in ("HEAD", "PATCH"):
            _may(person.may_send, "send books")
            book = self._book(book_id)
            return uploads.how_far(request, book) if request.method == "HEAD" else uploads.take(request, self._store, book)
        _only(request, *(("GET", "HEAD", "PATCH") if what is None else ("GET", "HEAD")))
        book = self._book(book_id)
        facts = self._library.of(book)
        if not may_read(person, facts):
            raise Refuse(404, "there is no such book")
        if not person.may_read_all and what not in ("page", "sheet.csv"):
            raise Refuse(403, "a member reads the page and the sheet of a closed book")
        if other is not None:
            return _printed(programs.compare(self._store.sent(self._book(other).id)[0], self._store.sent(book_id)[0]).output, TEXT)
        return self._shown(book, facts, what)

    def _book(self, book_id: str) -> Book:
        book = self._store.book(book_id)
        if book is None:
            raise Refuse(404, "there is no such book")
        return book

    def _shown(self, book: Book, facts: Facts, what: str | None) -> Response:
        if what is None:
            said = {"id": book.id, "farm": _number(facts.farm), "year": _number(facts.year), "state": facts.state}
            return Response(200, json.dumps(said | {"records": _number(facts.records), "offset": book.taken}).encode() + b"\n", JSON)
        sent = self._store.sent(book.id)[0]
        if what == "book":
            return _printed(sent, BYTES, f"farm-{facts.farm or 'unknown'}-{facts.year or 'unknown'}.book")
        if what == "why":
            return _printed(programs.on_book("why", sent).output, TEXT)
        if what == "page":  # of a book that is not closed it says `Not for members`, and why
            return _printed(programs.on_book("page", sent).output, HTML)._replace(status=200 if facts.closed else 409)
        if not facts.closed:
            raise Refuse(409, f"the book is not closed ({facts.state}): it has no sheet")
        return _printed(programs.on_book("sheet", sent).output, CSV, f"farm-{facts.farm}-{facts.year}.csv")

    def _overview(self, person: Person) -> Response:
        known = self._library.seen_by(person)
        headings = self._library.headings(known) if person.may_read_all else {}
        return _printed(pages.overview(person, known, headings, time.time()).encode(), HTML)

    def _table(self, person: Person) -> Response:
        _may(person.may_read_all, "read the table of all farms")
        known = self._library.seen_by(person)
        stands = standing(known)
        rows = programs.table([(book.id, self._store.sent(book.id)[0]) for book, _ in known if book.id in stands])
        if not rows:
            raise Refuse(404, "there is no book yet")
        return _printed("".join(",".join(row) + "\r\n" for row in rows).encode(), CSV, "table.csv")


def _only(request: Request, *methods: str) -> None:
    if request.method not in methods:
        raise Refuse(405, "this can't be done here", ("Allow", ", ".join(methods)))


def _may(allowed: bool, what: str) -> None:
    if not allowed:
        raise Refuse(403, f"your token does not let you {what}")


def _number(text: str) -> int | None:
    return int(text) if text else None


def _printed(body: bytes, kind: str, name: str = "") -> Response:
    return Response(200, body, kind, (("Content-Disposition", f'attachment; filename="{name}"'),) if name else ())
