"""How fast parts are kept, beside the database's own commits, and that memory does not grow with them."""

import os
import sqlite3
import tempfile
import time
import unittest
from pathlib import Path

from desk.store import Store, sqlite
from desk.tests.support import SAMPLE, Server, Tablet

# A million with desk/test all; memory is looked at after ten thousand of them, and after all.
PARTS = int(os.environ.get("PARTS", "20000"))
EARLY = min(PARTS // 10, 10000)
SIZE = 8


def commits_a_second(path: str, count: int) -> float:
    """Rows like a part's, each in a transaction of its own, by SQLite alone."""
    connection: sqlite3.Connection = sqlite(path).connect()
    connection.execute("CREATE TABLE IF NOT EXISTS plain (id INTEGER PRIMARY KEY, bytes BLOB)")
    begun = time.perf_counter()
    for _ in range(count):
        connection.execute("BEGIN IMMEDIATE")
        connection.execute("INSERT INTO plain (bytes) VALUES (?)", (bytes(SIZE),))
        connection.execute("COMMIT")
    connection.close()
    return count / (time.perf_counter() - begun)


def fill(store: Store, count: int) -> None:
    """So many parts, of as many books as they make."""
    while count > 0:
        book = store.begin("measure", None)
        for at in range(0, len(SAMPLE), SIZE):
            store.take(book.id, at, SAMPLE[at : at + SIZE])
            count -= 1


def memory() -> int:
    """The bytes of this process that are in memory."""
    return int(Path("/proc/self/statm").read_text().split()[1]) * os.sysconf("SC_PAGE_SIZE")


class Measure(unittest.TestCase):
    def test_parts_a_second_and_memory(self) -> None:
        with tempfile.TemporaryDirectory() as folder:
            plain = commits_a_second(f"{folder}/plain.db", 2000)
            store = Store(f"{folder}/books.db")
            fill(store, EARLY)
            early, begun = memory(), time.perf_counter()
            fill(store, PARTS - EARLY)
            rate = (PARTS - EARLY) / (time.perf_counter() - begun)
            late = memory()
            again = commits_a_second(f"{folder}/plain.db", 2000)
        print(f"desk: {rate:.0f} parts a second kept by the store, SQLite's own commits {plain:.0f} before and {again:.0f} after; "
              f"memory {early >> 10} KB after {EARLY} parts, {late >> 10} KB after {PARTS}")
        self.assertLess(late - early, 4 << 20)

    def test_parts_a_second_over_the_network(self) -> None:
        with Server() as server:
            tablet = Tablet(server, SAMPLE)
            tablet.begin()
            begun = time.perf_counter()
            for at in range(len(SAMPLE)):
                tablet.send(at, SAMPLE[at : at + 1])
            print(f"desk: {len(SAMPLE) / (time.perf_counter() - begun):.0f} parts a second of one tablet, each a request of its own")
