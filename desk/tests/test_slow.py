"""Clients that are slow, go away, or still send when they have their answer."""

import contextlib
import socket
import tempfile
import threading
import time
import unittest
from collections.abc import Iterator
from unittest import mock

from desk import server
from desk.application import Desk
from desk.store import Store
from desk.tests.support import SAMPLE
from desk.uploads import PART, VERSION

HEAD = f"PATCH /books/%s HTTP/1.1\r\nHost: 127.0.0.1\r\nTus-Resumable: {VERSION}\r\nContent-Type: {PART}\r\nUpload-Offset: 0\r\n"


class Slow(unittest.TestCase):
    def setUp(self) -> None:
        folder = tempfile.TemporaryDirectory()
        self.addCleanup(folder.cleanup)
        self.store = Store(f"{folder.name}/books.db")
        patience = mock.patch.object(server, "SECONDS", 1)
        patience.start()
        self.addCleanup(patience.stop)
        served = server.Server(("127.0.0.1", 0))
        served.set_app(Desk(self.store, None))
        threading.Thread(target=served.serve_forever, daemon=True).start()
        self.addCleanup(served.server_close)
        self.addCleanup(served.shutdown)
        self.port = served.server_port

    @contextlib.contextmanager
    def line(self) -> Iterator[socket.socket]:
        with socket.create_connection(("127.0.0.1", self.port), timeout=10) as line:
            yield line

    def test_a_client_that_drips_is_left(self) -> None:
        begun = time.monotonic()
        with self.line() as line, contextlib.suppress(ConnectionError):
            line.settimeout(0.2)
            while time.monotonic() - begun < 6:
                line.sendall(b"x")
                with contextlib.suppress(TimeoutError):
                    self.assertEqual(line.recv(100), b"")
                    break
        self.assertLess(time.monotonic() - begun, 4)

    def test_a_part_that_stops_coming(self) -> None:
        book = self.store.begin("test", None)
        with self.line() as line:
            line.sendall((HEAD % book.id).encode() + b"Content-Length: 80\r\n\r\n" + SAMPLE[:30])
            self.assertIn(b" 408 ", line.recv(4096))
        self.assertEqual(self.store.sent(book.id), (b"", b""))

    def test_an_answer_reaches_a_client_that_still_sends(self) -> None:
        with self.line() as line:
            try:
                line.sendall((HEAD % ("0" * 32)).encode() + b"Content-Length: 900000\r\n\r\n")
                for _ in range(3):
                    line.sendall(bytes(300000))
                    time.sleep(0.2)
            except ConnectionError as error:
                self.fail(f"the line was cut while the client was sending: {error}")
            self.assertIn(b" 404 ", line.recv(4096))

    def test_what_is_no_request_gets_words_too(self) -> None:
        for sent, status in ((b"garbage\r\n\r\n", b" 400 "), (b"GET /" + b"x" * 20000 + b" HTTP/1.1\r\n\r\n", b" 414 "),
                             (b"GET / HTTP/1.1\r\nX: " + b"x" * 20000 + b"\r\n\r\n", b" 431 ")):
            with self.line() as line:
                line.sendall(sent)
                head = line.recv(4096)
            self.assertIn(status, head.split(b"\r\n")[0])
            for name in (b"Content-Type: text/plain", b"X-Content-Type-Options: nosniff", b"Content-Security-Policy: default-src 'none'"):
                self.assertIn(name, head)
