"""The farms at a glance: what needs a call, what is the farm's page, what was replaced; and the page for the tablet."""

import re
import tempfile
import unittest
from pathlib import Path
from unittest import mock

from desk import app_page, pages
from desk.access import Person
from desk.library import Facts, Known, standing
from desk.store import Book
from desk.tests.support import REFUSED, SAMPLE, Server, Tablet

NOW = 1_000_000_000.0
OFFICE = Person("office", "Olga")


def delivery(number: int, farm: str, state: str, days: float = 0, year: str = "2010") -> Known:
    """One that began as the so manieth, and was last heard of so many days ago."""
    heard = NOW - days * pages.DAY
    return Book(f"{number:032x}", "Anna <&>", NOW - 1000 + number, heard, None, b"", 0, 40), Facts(farm, year, state, "3")


def sections(page: str) -> dict[str, list[int]]:
    """The deliveries under each title, in the page's order."""
    found = re.split(r"<h2>(.*?)</h2>", page)[1:]
    return {title: [int(each, 16) for each in re.findall(r'data-book="(\w+)"', text)] for title, text in zip(found[::2], found[1::2])}


class Overview(unittest.TestCase):
    def shown(self, *known: Known, person: Person = OFFICE) -> dict[str, list[int]]:
        return sections(pages.overview(person, list(known), {}, NOW))

    def test_what_needs_a_call_is_first(self) -> None:
        known = (delivery(1, "7", "closed", 9), delivery(2, "8", "unfinished", 1), delivery(3, "9", "unfinished", 4),
                 delivery(4, "10", "refused 7", 1))
        wanted = {"Needs a call": [4, 3], "Coming in": [2], "Closed": [1], "Replaced": []}
        self.assertEqual(self.shown(*known), wanted)
        self.assertEqual(list(self.shown(*known)), list(wanted))

    def test_the_newest_closed_one_is_the_farm_s_page(self) -> None:
        known = (delivery(1, "7", "closed"), delivery(2, "7", "closed"), delivery(3, "7", "refused 7"), delivery(4, "7", "closed", year="2011"))
        self.assertEqual(self.shown(*known), {"Needs a call": [3], "Coming in": [], "Closed": [2, 4], "Replaced": [1]})

    def test_a_corrected_book_needs_no_call(self) -> None:
        known = (delivery(1, "7", "refused 7"), delivery(2, "7", "unfinished", 8), delivery(3, "7", "closed"), delivery(4, "", "refused 3", 1))
        self.assertEqual(self.shown(*known), {"Needs a call": [4], "Coming in": [], "Closed": [3], "Replaced": [1, 2]})
        self.assertEqual(standing([delivery(1, "", "refused 3"), delivery(2, "", "refused 3")]), {f"{1:032x}", f"{2:032x}"})

    def test_compare_is_a_link_to_the_one_before(self) -> None:
        known = [delivery(1, "7", "refused 7"), delivery(2, "8", "closed"), delivery(3, "7", "closed")]
        page = pages.overview(OFFICE, known, {}, NOW)
        self.assertEqual(re.findall(r"/books/(\w+)/compare/(\w+)", page), [(f"{3:032x}", f"{1:032x}")])

    def test_a_member_sees_pages_and_sheets(self) -> None:
        page = pages.overview(Person("member", "Mia", "7"), [delivery(1, "7", "closed"), delivery(2, "7", "closed")], {}, NOW)
        self.assertEqual(sections(page), {"Closed": [2], "Replaced": [1]})
        self.assertEqual(set(re.findall(r'href="([^"]*)"', page)), {f"/books/{n:032x}/{what}" for n in (1, 2) for what in ("page", "sheet.csv")})

    def test_what_people_wrote_is_text(self) -> None:
        self.assertIn("Anna &lt;&amp;&gt;", pages.overview(OFFICE, [delivery(1, "7", "closed")], {}, NOW))


class Served(unittest.TestCase):
    def test_the_table_has_each_farm_once(self) -> None:
        with Server() as server:
            self.assertEqual(server.ask("GET", "/table.csv").status, 404)
            Tablet(server, b"").begin()  # nothing of it comes
            for book in (SAMPLE, SAMPLE[:60], REFUSED, SAMPLE):
                tablet = Tablet(server, book)
                tablet.begin()
                tablet.send(0, book)
            rows = server.ask("GET", "/table.csv").body.decode().split("\r\n")
            self.assertEqual(sum(tablet.path[7:] in row for row in rows), 1)
            self.assertEqual([row.split(",")[4] for row in rows if row.startswith("all,")], ["1"])
            overview = server.ask("GET", "/").body.decode()
            self.assertEqual(sum(map(len, sections(overview).values())), 4)
            self.assertIn("/compare/", overview)


class App(unittest.TestCase):
    def page(self, text: str) -> app_page.Response | None:
        with tempfile.TemporaryDirectory() as folder:
            place = Path(folder) / "farmbook.html"
            place.write_text(text)
            with mock.patch.object(app_page, "PLACES", (place,)):
                return app_page.answer("/app")

    def test_the_page_may_talk_to_the_desk_alone(self) -> None:
        answer = self.page("<meta http-equiv=\"Content-Security-Policy\" content=\"default-src 'none'; script-src 'sha256-x'\">\n<title>x</title>\n")
        assert answer is not None
        for policy in (answer.policy, answer.body.decode()):
            self.assertIn("default-src 'none'; ", policy)
            self.assertEqual(re.findall(r"connect-src ([^;]*);", policy), ["'self'"])
        self.assertIn(b'<link rel="manifest" href="/app/manifest.webmanifest" crossorigin="use-credentials">\n', answer.body)

    def test_another_page_is_not_served(self) -> None:
        for text in ("", "<title>x</title>"):
            self.assertEqual(self.page(text).status, 404)
