"""Parts that come in: offsets, lost answers, ends, refusals."""

import contextlib
import json
import socket
import sqlite3
import tempfile
import unittest
from unittest import mock

from desk import farmbook
from desk.check import check
from desk.http import number_of
from desk.store import Store, Unavailable
from desk.tests.support import REFUSED, SAMPLE, Server, Tablet
from desk.uploads import PART, VERSION


def received(line: socket.socket) -> bytes:
    """What comes within some seconds."""
    line.settimeout(5)
    with contextlib.suppress(TimeoutError):
        return line.recv(4096)
    return b""


class Uploads(unittest.TestCase):
    @classmethod
    def setUpClass(cls) -> None:
        cls.server = Server()

    @classmethod
    def tearDownClass(cls) -> None:
        cls.server.close()

    def tablet(self, book: bytes = SAMPLE) -> Tablet:
        tablet = Tablet(self.server, book)
        tablet.begin()
        return tablet

    def test_part_by_part(self) -> None:
        tablet = self.tablet()
        for at in range(len(SAMPLE)):
            answer = tablet.send(at, SAMPLE[at : at + 1])
            self.assertEqual((answer.status, answer.offset), (204, at + 1))
        self.assertEqual(self.server.ask("GET", tablet.path + "/book").body, SAMPLE)

    def test_a_lost_answer_is_mended_by_asking(self) -> None:
        tablet = self.tablet()
        tablet.send(0, SAMPLE[:40])
        again = tablet.send(0, SAMPLE[:40])
        self.assertEqual(again.status, 409)
        self.assertEqual((again.offset, tablet.how_far()), (40, 40))
        self.assertEqual(tablet.send(41, SAMPLE[41:]).status, 409)
        self.assertEqual(tablet.send(40, SAMPLE[40:]).status, 204)
        self.assertEqual(self.server.ask("GET", tablet.path + "/book").body, SAMPLE)

    def test_bytes_after_the_close_are_not_taken(self) -> None:
        tablet = self.tablet()
        answer = tablet.send(0, SAMPLE + b"more")
        self.assertEqual((answer.status, answer.offset), (409, len(SAMPLE)))
        self.assertEqual(tablet.send(len(SAMPLE), b"more").status, 409)
        self.assertEqual(self.server.ask("GET", tablet.path + "/book").body, SAMPLE)

    def test_a_refused_book_says_why_and_stays(self) -> None:
        tablet = self.tablet()
        first = tablet.send(0, REFUSED)
        self.assertEqual(first.status, 422)
        self.assertTrue(first.body.startswith(b"refused "))
        later = tablet.send(first.offset, b"\0\0\0")
        self.assertEqual((later.status, later.offset, later.body), (422, first.offset, first.body))
        self.assertEqual(self.server.ask("GET", tablet.path + "/book").body, REFUSED[: first.offset])

    def test_a_part_that_ends_early_is_not_taken(self) -> None:
        tablet = self.tablet()
        with socket.create_connection(("127.0.0.1", self.server.port)) as line:
            head = f"PATCH {tablet.path} HTTP/1.1\r\nHost: 127.0.0.1\r\nTus-Resumable: {VERSION}\r\nContent-Type: {PART}\r\nUpload-Offset: 0\r\n"
            line.sendall(head.encode() + b"Content-Length: 80\r\n\r\n" + SAMPLE[:30])
            line.shutdown(socket.SHUT_WR)
            self.assertIn(b" 400 ", received(line))
        self.assertEqual(tablet.how_far(), 0)

    def test_a_part_of_more_than_a_mebibyte(self) -> None:
        tablet = self.tablet()
        with socket.create_connection(("127.0.0.1", self.server.port)) as line:
            head = f"PATCH {tablet.path} HTTP/1.1\r\nHost: 127.0.0.1\r\nTus-Resumable: {VERSION}\r\nContent-Type: {PART}\r\nUpload-Offset: 0\r\n"
            line.sendall(head.encode() + b"Content-Length: 1048577\r\n\r\n")
            self.assertIn(b" 413 ", received(line))

    def test_nothing_is_heard_after_the_close(self) -> None:
        tablet = self.tablet()
        tablet.send(0, SAMPLE)
        store = Store(self.server.store)
        before = store.book(tablet.path[7:])
        for part in (b"", b"more"):
            tablet.send(len(SAMPLE), part)
        self.assertEqual(store.book(tablet.path[7:]), before)

    def test_numbers(self) -> None:
        for text in ("0", "7", "999999999999999"):
            self.assertEqual(number_of(text), int(text))
        for text in (None, "", "-1", "+1", " 1", "1 ", "01", "1_0", "\u00b2", "\u0663", "1e3", "1" * 16):
            self.assertIsNone(number_of(text), text)

    def test_every_answer_has_its_type_and_policy(self) -> None:
        tablet = self.tablet()
        tablet.send(0, SAMPLE)
        places = ("/", "/table.csv", "/app", "/app/worker.js", "/nothing", "/books", "/books/x", tablet.path)
        for path in (*places, *(f"{tablet.path}/{what}" for what in ("book", "page", "sheet.csv", "why"))):
            answer = self.server.ask("GET", path)
            for name in ("Content-Type", "X-Content-Type-Options", "Content-Security-Policy", "Cache-Control"):
                self.assertIn(name, answer.headers, path)
            self.assertEqual(answer.headers["X-Content-Type-Options"], "nosniff")
            self.assertTrue(answer.headers["Content-Security-Policy"].startswith("default-src 'none';"))

    def test_json(self) -> None:
        tablet = self.tablet()
        tablet.send(0, SAMPLE[:40])
        said = json.loads(self.server.ask("GET", tablet.path).body)
        self.assertEqual((said["state"], said["offset"]), ("unfinished", 40))

    def test_a_page_that_is_not_for_members(self) -> None:
        tablet = self.tablet()
        tablet.send(0, SAMPLE[:40])
        answer = self.server.ask("GET", tablet.path + "/page")
        self.assertEqual((answer.status, b"Not for members" in answer.body), (409, True))
        self.assertEqual(self.server.ask("GET", tablet.path + "/sheet.csv").status, 409)

    def test_the_whole_length(self) -> None:
        answer = self.server.ask("POST", "/books", Tus_Resumable=VERSION, Upload_Length="10")
        tablet = Tablet(self.server, SAMPLE)
        tablet.path = answer.headers["Location"]
        self.assertEqual(answer.headers["Upload-Length"], "10")
        self.assertEqual(tablet.send(0, SAMPLE[:11]).status, 400)
        self.assertEqual(tablet.send(0, SAMPLE[:10]).status, 204)
        self.assertEqual(self.server.ask("POST", "/books", Tus_Resumable=VERSION).status, 400)

    def test_another_version(self) -> None:
        self.assertEqual(self.server.ask("POST", "/books", Tus_Resumable="0.2.2", Upload_Length="10").status, 412)
        self.assertEqual(self.server.ask("OPTIONS", "/books").headers["Tus-Version"], VERSION)

    def test_another_host(self) -> None:
        self.assertEqual(self.server.ask("GET", "/", Host="farm.example").status, 403)


class AllOrNothing(unittest.TestCase):
    def test_a_part_is_kept_as_a_whole(self) -> None:
        with tempfile.TemporaryDirectory() as folder:
            store = Store(f"{folder}/books.db")
            book = store.begin("test", None)
            real = store._ask

            def failing(cursor: object, words: str, values: tuple[object, ...]) -> list[tuple[object, ...]]:
                if words.startswith("UPDATE books"):
                    raise sqlite3.OperationalError("the disk is gone")
                return real(cursor, words, values)

            with mock.patch.object(store, "_ask", failing), self.assertRaises(Unavailable):
                store.take(book.id, 0, SAMPLE)
            again = Store(f"{folder}/books.db")
            self.assertEqual((again.sent(book.id), again.book(book.id)), ((b"", b""), book))
            self.assertEqual(store.take(book.id, 0, SAMPLE).book.code, farmbook.CLOSED)
            self.assertEqual(check(again), [])
