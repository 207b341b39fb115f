"""Four hundred tablets at a time, and a server that is killed in between."""

import concurrent.futures
import os
import random
import threading
import time
import unittest

from desk import farmbook
from desk.check import check
from desk.store import Store
from desk.tests.support import Server, Tablet, fresh_books

TABLETS, KILLS = 400, 20


class Storm(unittest.TestCase):
    def test_killed_in_between(self) -> None:
        chance = random.Random(int(os.environ.get("SEED", "12")))
        books = fresh_books(chance.randrange(1 << 30), TABLETS + 60)[:TABLETS]
        self.assertEqual(len(books), TABLETS)
        with Server() as server:
            tablets = [Tablet(server, book) for book, _, _ in books]
            ended = threading.Event()
            killer = threading.Thread(target=kill_often, args=(server, ended, random.Random(5)))
            killer.start()
            with concurrent.futures.ThreadPoolExecutor(TABLETS) as pool:
                list(pool.map(lambda pair: pair[1].send_all(random.Random(pair[0])), enumerate(tablets)))
            ended.set()
            killer.join()
            store = Store(server.store)
            self.assertEqual(check(store), [])
            for tablet, (book, code, lines) in zip(tablets, books):
                sent, given = store.sent(tablet.path[7:])
                self.assertEqual(given, lines)
                self.assertTrue(book.startswith(sent))
                self.assertEqual(farmbook.lines(book).code, code)
            print(f"desk: {TABLETS} tablets at a time, the server killed {KILLS} times: each book's lines are herd_desk's, none lost, none twice")


def kill_often(server: Server, ended: threading.Event, chance: random.Random) -> None:
    """So many times, whether or not the tablets are still sending at the last ones."""
    for _ in range(KILLS):
        ended.wait(chance.uniform(0.1, 0.6))
        server.kill()
        time.sleep(0.05)
        server.start()
