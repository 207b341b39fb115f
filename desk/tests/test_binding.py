"""The binding by itself."""

import random
import re
import unittest

from desk import farmbook
from desk.tests.support import SAMPLE, fresh_books


class Binding(unittest.TestCase):
    def test_numbers_are_the_header_s(self) -> None:
        header = (farmbook.ROOT / "host" / "herd_desk.h").read_text()
        said = {name: text for name, text in re.findall(r"#define (HERD_\w+) (.+)", header)}
        codes = {name: int(number) for name, number in re.findall(r"(HERD_DESK_\w+) = (\d+)", header)}
        self.assertEqual(farmbook.IMAGE_BYTES, int(said["HERD_IMAGE_BYTES"]))
        self.assertEqual(str(farmbook.LINES_MAX), str(eval(said["HERD_DESK_LINES_MAX"])))  # the header's own sum
        names = ("CLOSED", "NO_IMAGE", "FULL", "UNFINISHED", "MORE_BYTES")
        self.assertEqual([getattr(farmbook, name) for name in names], [codes["HERD_DESK_" + name] for name in names])

    def test_sample(self) -> None:
        lines = (farmbook.ROOT / "samples" / "sample.lines").read_bytes()
        self.assertEqual(farmbook.lines(SAMPLE), farmbook.Answer(farmbook.CLOSED, lines, len(SAMPLE)))

    def test_parts_of_any_size(self) -> None:
        sizes = random.Random(7)
        for book, code, lines in fresh_books(sizes.randrange(1 << 30), 60):
            farm, at, given, answer = farmbook.Farm(), 0, b"", farmbook.Answer(farmbook.UNFINISHED, b"", 0)
            while at < len(book) and answer.code == farmbook.UNFINISHED:
                farm = farmbook.Farm(farm.image)  # kept and read again between two parts
                answer = farm.feed(book[at : at + sizes.randint(1, 90)])
                at, given = at + answer.taken, given + answer.lines
            self.assertEqual(given, lines)
            self.assertEqual(farmbook.MORE_BYTES if answer.code == farmbook.CLOSED and at < len(book) else answer.code, code)

    def test_more_lines_than_room(self) -> None:
        farm = farmbook.Farm()
        before, farmbook.ROOM = farmbook.ROOM, 116
        try:
            self.assertEqual(farm.feed(SAMPLE).lines, farmbook.lines(SAMPLE).lines)
        finally:
            farmbook.ROOM = before

    def test_no_image(self) -> None:
        for image in (b"", bytes(131), b"\xff" * 132):
            farm = farmbook.Farm(image)
            self.assertEqual(farm.feed(SAMPLE), farmbook.Answer(farmbook.NO_IMAGE, b"", 0))
            self.assertEqual(farm.image, image)
