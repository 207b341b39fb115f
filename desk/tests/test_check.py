"""What is kept, read again: each thing that differs is said."""

import tempfile
import unittest

from desk import farmbook
from desk.check import check
from desk.store import Store
from desk.tests.support import SAMPLE


class Check(unittest.TestCase):
    def test_what_differs_is_said(self) -> None:
        wrong = {
            "UPDATE parts SET lines = zeroblob(length(lines))": "its lines are not those of its bytes",
            "UPDATE parts SET bytes = substr(bytes, 1, 50)": f"{len(SAMPLE)} bytes were answered for, and 50 are kept",
            "UPDATE books SET image = zeroblob(132)": "its image is not that of its bytes",
            "UPDATE books SET code = 17": f"its code is {farmbook.UNFINISHED}, and its bytes give {farmbook.CLOSED}",
        }
        for words, wanted in wrong.items():
            with tempfile.TemporaryDirectory() as folder:
                store = Store(f"{folder}/books.db")
                book = store.begin("test", None)
                store.take(book.id, 0, SAMPLE)
                self.assertEqual(check(store), [])
                with store._transaction() as ask:
                    ask(words)
                self.assertIn(f"book {book.id}: {wanted}", check(store))
