"""A desk that is started, killed and asked, and a tablet that sends to it."""

from __future__ import annotations

import http.client
import os
import random
import resource
import socket
import subprocess
import sys
import tempfile
import time
from pathlib import Path

from desk.farmbook import ROOT
from desk.uploads import PART, VERSION

SAMPLE = (ROOT / "samples" / "sample.book").read_bytes()
REFUSED = (ROOT / "samples" / "refused.book").read_bytes()
SECOND = ROOT / "target" / "second" / "second"


def fresh_books(seed: int, count: int) -> list[tuple[bytes, int, bytes]]:
    """Books of the second program, each with the code and the lines that it works out; those whose room was too small are left out."""
    text = subprocess.run([str(SECOND), "desk", str(seed), str(count)], capture_output=True, check=True, text=True).stdout
    books = []
    for line in text.splitlines():
        book, _, number, lines = line.split(" ")
        if int(number, 16) >> 32 != 16:
            books.append((_bytes(book), int(number, 16) >> 32, _bytes(lines)))
    return books


def _bytes(text: str) -> bytes:
    return b"" if text == "-" else bytes.fromhex(text)


class Server:
    """bin/desk's own program as a process, on a port that stays the same when it is started again."""

    def __init__(self, *words: str, store: str | None = None, environment: dict[str, str] | None = None, most: int | None = None) -> None:
        self.folder = tempfile.TemporaryDirectory()
        self.store = store or str(Path(self.folder.name) / "books.db")
        self.port = free_port()
        self._words = words
        self._said = open(f"{self.folder.name}/said", "ab")
        self.most = most  # the bytes of the longest file that it may write: a disk that is full
        self._environment = {**os.environ, "PYTHONPATH": str(ROOT), **(environment or {})}
        self.start()

    def start(self) -> None:
        words = [sys.executable, "-m", "desk", "--listen", f"127.0.0.1:{self.port}", "--store", self.store, *self._words]
        most = self.most
        limit = None if most is None else lambda: resource.setrlimit(resource.RLIMIT_FSIZE, (most, most))
        self.process = subprocess.Popen(words, env=self._environment, stdout=subprocess.PIPE, stderr=self._said, preexec_fn=limit)
        assert self.process.stdout is not None
        if not self.process.stdout.readline().startswith(b"the desk is at"):
            raise RuntimeError(self.said())

    def said(self) -> str:
        """What it said on its standard error."""
        return Path(f"{self.folder.name}/said").read_text()

    def kill(self) -> None:
        """As when the machine's plug is pulled from the program."""
        self.process.kill()
        self.process.wait()
        if self.process.stdout is not None:
            self.process.stdout.close()

    def close(self) -> None:
        self.kill()
        self._said.close()
        self.folder.cleanup()

    def __enter__(self) -> Server:
        return self

    def __exit__(self, *_: object) -> None:
        self.close()

    def ask(self, method: str, path: str, body: bytes = b"", **headers: str) -> Answer:
        """One request, and its answer. Headers' names are written with _ for -."""
        connection = http.client.HTTPConnection("127.0.0.1", self.port, timeout=60)
        try:
            connection.request(method, path, body, {name.replace("_", "-"): value for name, value in headers.items()})
            answer = connection.getresponse()
            return Answer(answer.status, answer.read(), dict(answer.getheaders()))
        finally:
            connection.close()


class Answer:
    """A status, a body, headers."""

    def __init__(self, status: int, body: bytes, headers: dict[str, str]) -> None:
        self.status, self.body, self.headers = status, body, headers

    @property
    def offset(self) -> int:
        if "Upload-Offset" not in self.headers:
            raise ConnectionError(f"the answer {self.status} has no offset: it was cut, or should have one")
        return int(self.headers["Upload-Offset"])


class Tablet:
    """Sends one book in parts; a lost answer is mended by asking."""

    def __init__(self, server: Server, book: bytes, token: str = "") -> None:
        self.server, self.book = server, book
        self._own = {"Tus_Resumable": VERSION} | ({"Authorization": f"Bearer {token}"} if token else {})
        self.path = ""

    def begin(self) -> None:
        answer = answered(self.server.ask("POST", "/books", Upload_Defer_Length="1", **self._own))
        assert answer.status == 201, (answer.status, answer.body)
        self.path = answer.headers["Location"]

    def how_far(self) -> int:
        return answered(self.server.ask("HEAD", self.path, **self._own)).offset

    def send(self, offset: int, part: bytes) -> Answer:
        return self.server.ask("PATCH", self.path, part, Content_Type=PART, Upload_Offset=str(offset), **self._own)

    def send_all(self, sizes: random.Random) -> Answer:
        """In parts of any sizes; goes on where the desk says, and waits where it does not answer. A tablet that began no book begins one."""
        at, answer = 0, None
        while answer is None or (at < len(self.book) and answer.status in (204, 409) and not self._ended(answer)):
            try:
                if not self.path:
                    self.begin()
                if sizes.random() < 0.1:
                    at = self.how_far()
                wrong = sizes.random() < 0.05
                answer = answered(self.send(at + (1 if wrong else 0), self.book[at : at + sizes.randint(1, 400)]))
                at = answer.offset
            except (OSError, http.client.HTTPException):
                time.sleep(0.05)
                at = self._asked(at)
        return answer

    @staticmethod
    def _ended(answer: Answer) -> bool:
        return answer.status == 409 and b"closed" in answer.body

    def _asked(self, at: int) -> int:
        try:
            return self.how_far() if self.path else at
        except (OSError, KeyError, http.client.HTTPException):
            return at


def answered(answer: Answer) -> Answer:
    """A store that does not answer is asked again later."""
    if answer.status == 503:
        raise ConnectionError(answer.body)
    return answer


def free_port() -> int:
    """One below those that the system gives to clients, so that it stays free while a server is down."""
    while True:
        port = random.randint(20000, 30000)
        with socket.socket() as held:
            if held.connect_ex(("127.0.0.1", port)) != 0:
                return port
