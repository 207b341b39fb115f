"""Who may do what."""

import base64
import json
import socket
import tempfile
import unittest
from unittest import mock

from desk import access
from desk.tests.support import SAMPLE, Server, Tablet

TOKENS = "# the office\nanna-token adviser Anna\nbert-token adviser Bert\nolga-token office Olga\nmia-token member Mia 7\nmax-token member Max 8\n"
UNKNOWN = "/books/" + "0" * 32


class Roles(unittest.TestCase):
    @classmethod
    def setUpClass(cls) -> None:
        cls.file = tempfile.NamedTemporaryFile("w", suffix=".tokens")
        cls.file.write(TOKENS)
        cls.file.flush()
        cls.server = Server("--tokens", cls.file.name)
        cls.closed, cls.open = Tablet(cls.server, SAMPLE, "anna-token"), Tablet(cls.server, SAMPLE, "anna-token")
        for tablet, part in ((cls.closed, SAMPLE), (cls.open, SAMPLE[:40])):
            tablet.begin()
            tablet.send(0, part)

    @classmethod
    def tearDownClass(cls) -> None:
        cls.server.close()
        cls.file.close()

    def status(self, token: str, path: str, method: str = "GET") -> int:
        return self.server.ask(method, path, **({"Authorization": f"Bearer {token}"} if token else {})).status

    def test_without_a_token(self) -> None:
        for path in ("/", "/table.csv", "/app", self.closed.path, UNKNOWN, "/nothing"):
            self.assertEqual([self.status(token, path) for token in ("", "wrong", "mia-token2")], [401] * 3, path)

    def test_a_member_reads_page_and_sheet_of_the_own_farm(self) -> None:
        for what, wanted in (("/page", 200), ("/sheet.csv", 200), ("", 403), ("/book", 403), ("/why", 403)):
            self.assertEqual(self.status("mia-token", self.closed.path + what), wanted, what)
            self.assertEqual(self.status("max-token", self.closed.path + what), 404, what)
            self.assertEqual(self.status("mia-token", self.open.path + what), 404, what)
        self.assertEqual(self.status("mia-token", "/table.csv"), 403)

    def test_a_member_s_overview(self) -> None:
        mine, other = (self.server.ask("GET", "/", Authorization=f"Bearer {name}-token").body.decode() for name in ("mia", "max"))
        self.assertIn(self.closed.path, mine)
        self.assertNotIn(self.open.path, mine)
        self.assertNotIn("/books/", other)

    def test_who_may_send(self) -> None:
        for token, wanted in (("olga-token", 403), ("mia-token", 403), ("bert-token", 412)):
            self.assertEqual(self.status(token, "/books", "POST"), wanted)
            self.assertEqual(self.status(token, self.open.path, "PATCH"), wanted)
        tablet = Tablet(self.server, SAMPLE, "bert-token")
        tablet.path = self.open.path
        self.assertEqual(tablet.how_far(), 40)  # an adviser goes on with another's book

    def test_the_office_reads_all(self) -> None:
        for what in ("", "/book", "/page", "/sheet.csv", "/why", f"/compare/{self.open.path[7:]}"):
            self.assertEqual(self.status("olga-token", self.closed.path + what), 200, what)
        said = json.loads(self.server.ask("GET", self.closed.path, Authorization="Bearer olga-token").body)
        wanted = {"id": self.closed.path[7:], "farm": 7, "year": 2010, "state": "closed", "records": 6, "offset": len(SAMPLE)}
        self.assertEqual(said, wanted)

    def test_basic(self) -> None:
        for text, wanted in (("Mia:mia-token", 200), ("mia-token:", 401), ("x", 401)):
            given = "Basic " + base64.b64encode(text.encode()).decode()
            self.assertEqual(self.server.ask("GET", "/", Authorization=given).status, wanted)
        self.assertEqual(self.server.ask("GET", "/", Authorization="Basic ~~~").status, 401)

    def test_files_of_tokens(self) -> None:
        wrong = ("", "a\n", "a clerk b\n", "a member b\n", "a member b c\n", "a member b 07\n", "a adviser b 7\n")
        for text in (*wrong, "a office b\na office c\n", "\u00e4 office b\n"):
            with self.assertRaises(access.BadTokens, msg=text):
                access.read_tokens(text)

    def test_tokens_are_compared_in_constant_time(self) -> None:
        people = access.read_tokens(TOKENS)
        for given in ("anna-token", "max-token", "wrong", ""):
            with mock.patch.object(access.hmac, "compare_digest", side_effect=lambda one, other: one == other) as compared:
                found = access.person_of(people, f"Bearer {given}")
            self.assertEqual(compared.call_count, len(people))  # all of them, found or not
            self.assertEqual(found is None, not given.startswith(("anna", "max")))
            with mock.patch.object(access.hmac, "compare_digest", return_value=False):
                self.assertIsNone(access.person_of(people, f"Bearer {given}"))  # by nothing else

    def test_no_token_is_logged(self) -> None:
        for token in ("anna-token", "wrong-token"):
            for path in ("/", "/nothing", self.closed.path + "/page"):
                self.server.ask("GET", path, Authorization=f"Bearer {token}")
            with socket.create_connection(("127.0.0.1", self.server.port), timeout=20) as line:
                line.sendall(f"GET /?{token} HTTP/1.1 {token}\r\nAuthorization: Bearer {token}\r\n\r\n".encode())
                line.recv(4096)
        self.assertNotIn("token", self.server.said())

    def test_names_of_this_machine(self) -> None:
        for host in ("127.0.0.1", "127.0.0.1:8080", "localhost:1", "[::1]:80", "[::1]"):
            self.assertTrue(access.is_here(host), host)
        for host in ("", "farm.example", "127.0.0.1.example", "localhost.example:80", "127.0.0.1:", "127.0.0.1:80:80"):
            self.assertFalse(access.is_here(host), host)
