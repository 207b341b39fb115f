"""Ten thousand wrong requests: never a 500, and the store is as it was."""

import contextlib
import os
import random
import socket
import sqlite3
import unittest

from desk.tests.support import SAMPLE, Server, Tablet
from desk.uploads import PART, VERSION

COUNT = int(os.environ.get("WRONG", "10000"))
METHODS = ("GET", "HEAD", "PATCH", "POST", "PUT", "DELETE", "OPTIONS", "TRACE", "", "P\x00ST", "GET" * 50)
NUMBERS = ("", "-1", "+5", "1e3", "3_2", "\u00b2", "007", "99999999999999999999999", "4 4", "0x10", "nan")
PATHS = ("/..", "/../../etc/passwd", "//", "/books/", "/books/x", "/books/%00", "/app/../books", "/table.csv/", "/\u00e9", "/books/" + "g" * 32)


class Wrong(unittest.TestCase):
    def test_wrong_requests(self) -> None:
        chance = random.Random(41)
        with Server() as server:
            tablet = Tablet(server, SAMPLE)
            tablet.begin()
            tablet.send(0, SAMPLE[:40])
            before = kept(server.store)
            statuses = [ask(server.port, request(chance, tablet.path)) for _ in range(COUNT)]
            self.assertEqual(server.said()[-1500:], "")
            self.assertEqual(kept(server.store), before)
            self.assertEqual([status for status in statuses if status >= 500], [])
            self.assertGreater(len(set(statuses)), 5, sorted(set(statuses)))
            self.assertEqual(tablet.send(40, SAMPLE[40:]).status, 204)
            print(f"desk: {COUNT} wrong requests, answers {sorted(set(statuses))} (0: the line was left), the store as before")


def kept(store: str) -> list[tuple[object, ...]]:
    with sqlite3.connect(store) as connection:
        return connection.execute("SELECT * FROM books").fetchall() + connection.execute("SELECT * FROM parts").fetchall()


def request(chance: random.Random, path: str) -> bytes:
    """A request with at least one thing wrong, so that none of them may change anything."""
    wrong = chance.choice(("method", "offset", "length", "path", "version", "type", "early", "large", "garbage", "headers"))
    if wrong == "garbage":
        return chance.randbytes(chance.randint(1, 300))
    method = chance.choice(METHODS[4:]) if wrong == "method" else "PATCH"
    place = chance.choice(PATHS) if wrong == "path" else path
    part = SAMPLE[40 : 40 + chance.randint(1, 30)]
    headers = {
        "Host": "127.0.0.1",
        "Tus-Resumable": chance.choice(("", "1.0", "2.0.0")) if wrong == "version" else VERSION,
        "Content-Type": "text/plain" if wrong == "type" else PART,
        "Upload-Offset": chance.choice(NUMBERS + ("0", "39", "41")) if wrong == "offset" else "40",
        "Content-Length": {"length": chance.choice(NUMBERS[1:]), "early": "400", "large": "2000000"}.get(wrong, str(len(part))),
    }
    if wrong == "headers":
        headers |= {f"X-{number}": "x" * 300 for number in range(chance.choice((60, 120, 300)))}
    lines = [f"{method} {place} HTTP/1.1"] + [f"{name}: {value}" for name, value in headers.items()]
    return "\r\n".join(lines).encode("utf-8") + b"\r\n\r\n" + part


def ask(port: int, sent: bytes) -> int:
    """The status, or 0 where the line was left without one."""
    with socket.create_connection(("127.0.0.1", port), timeout=20) as line:
        with contextlib.suppress(OSError):  # answered and left before all was sent
            line.sendall(sent)
            line.shutdown(socket.SHUT_WR)
        try:
            words = line.recv(4096).split(b" ", 2)
        except OSError:
            return 0
    return int(words[1]) if len(words) > 1 and words[1].isdigit() else 0
