"""Two servers on one PostgreSQL, which is itself stopped as by a crash in between."""

import concurrent.futures
import glob
import os
import pwd
import random
import shutil
import subprocess
import tempfile
import threading
import time
import unittest
from pathlib import Path

from desk.check import check
from desk.store import Store
from desk.tests.support import Server, Tablet, fresh_books, free_port

TABLETS, CRASHES = 400, 5


class Cluster:
    """A PostgreSQL of its own in a folder of its own, by Debian's packages."""

    def __init__(self) -> None:
        self.folder = tempfile.mkdtemp()
        self.port = free_port()
        self._programs = Path(sorted(glob.glob("/usr/lib/postgresql/*/bin"))[-1])
        if os.getuid() == 0:
            shutil.chown(self.folder, "postgres")
        self._run("initdb", "-D", f"{self.folder}/data", "-U", "desk", "--auth=trust")
        self.start()
        self._run("createdb", "-h", "127.0.0.1", "-p", str(self.port), "-U", "desk", "desk")
        self.address = f"postgresql://desk@127.0.0.1:{self.port}/desk"

    def _run(self, name: str, *words: str) -> None:
        own = ["setpriv", "--reuid=postgres", "--regid=postgres", "--clear-groups"] if os.getuid() == 0 else []
        subprocess.run([*own, str(self._programs / name), *words], check=True, stdout=subprocess.DEVNULL, cwd=self.folder)

    def start(self) -> None:
        options = f"-c listen_addresses=127.0.0.1 -c port={self.port} -c unix_socket_directories={self.folder} -c max_connections=600"
        self._run("pg_ctl", "-D", f"{self.folder}/data", "-l", f"{self.folder}/log", "-w", "-o", options, "start")

    def crash(self) -> None:
        self._run("pg_ctl", "-D", f"{self.folder}/data", "-m", "immediate", "stop")

    def close(self) -> None:
        self.crash()
        shutil.rmtree(self.folder, ignore_errors=True)


def missing() -> str:
    """What is not here for this test."""
    try:
        import psycopg2  # noqa: F401
    except ImportError:
        return "python3-psycopg2"
    if not glob.glob("/usr/lib/postgresql/*/bin/initdb"):
        return "postgresql"
    try:
        pwd.getpwnam("postgres")
    except KeyError:
        return "the user postgres"
    return ""


class PostgreSql(unittest.TestCase):
    def setUp(self) -> None:
        if missing():
            self.fail(f"{missing()} is not here: run .ci/setup postgresql")
        self.cluster = Cluster()
        self.addCleanup(self.cluster.close)

    def test_two_servers_and_a_database_that_crashes(self) -> None:
        books = fresh_books(random.Random(23).randrange(1 << 30), TABLETS + 60)[:TABLETS]
        with Server(store=self.cluster.address) as one, Server(store=self.cluster.address) as two:
            tablets = [Tablet(random.Random(number).choice((one, two)), book) for number, (book, _, _) in enumerate(books)]
            ended = threading.Event()
            crasher = threading.Thread(target=self.crash_often, args=(ended, (one, two)))
            crasher.start()
            with concurrent.futures.ThreadPoolExecutor(TABLETS) as pool:
                list(pool.map(lambda pair: pair[1].send_all(random.Random(pair[0])), enumerate(tablets)))
            ended.set()
            crasher.join()
            store = Store(self.cluster.address)
            self.assertEqual(check(store), [])
            for tablet, (book, _, lines) in zip(tablets, books):
                sent, given = store.sent(tablet.path[7:])
                self.assertEqual(given, lines)
                self.assertTrue(book.startswith(sent))
        print(f"desk: {TABLETS} tablets, two servers on one PostgreSQL, which crashed {CRASHES} times: none lost, none twice")

    def crash_often(self, ended: threading.Event, servers: tuple[Server, ...]) -> None:
        for turn in range(CRASHES):
            ended.wait(1)
            self.cluster.crash()
            if turn % 2:
                servers[turn // 2 % 2].kill()
            time.sleep(0.1)
            self.cluster.start()
            for server in servers:
                if server.process.poll() is not None:
                    server.start()
