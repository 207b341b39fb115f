"""What a person sees who starts bin/desk, rightly and wrongly."""

import os
import signal
import socket
import subprocess
import tempfile
import unittest
from pathlib import Path

from desk.farmbook import ROOT
from desk.tests.support import free_port

DESK = str(ROOT / "bin" / "desk")


class Start(unittest.TestCase):
    def setUp(self) -> None:
        folder = tempfile.TemporaryDirectory()
        self.addCleanup(folder.cleanup)
        self.folder = folder.name

    def said(self, *words: str) -> tuple[int, str]:
        """The status, and all that is printed."""
        done = subprocess.run([DESK, *words], cwd=self.folder, capture_output=True, text=True, check=False, timeout=300)
        return done.returncode, done.stdout + done.stderr

    def wrong(self, wanted: str, *words: str) -> None:
        status, printed = self.said(*words)
        self.assertEqual(status, 2, printed)
        self.assertIn(wanted, printed)
        self.assertNotIn("Traceback", printed)

    def test_help(self) -> None:
        status, printed = self.said("--help")
        self.assertEqual(status, 0)
        for words in ("--listen", "--store", "--tokens", "--check", "TOKEN member NAME FARM", "Ctrl-C"):
            self.assertIn(words, printed)

    def test_wrong_arguments(self) -> None:
        (Path(self.folder) / "tokens").write_text("a clerk b\n")
        self.wrong("unrecognized arguments: --frob", "--frob")
        self.wrong("8080 is not HOST:PORT", "--listen", "8080")
        self.wrong("without --tokens it listens on this machine's own address alone", "--listen", "0.0.0.0:8080")
        self.wrong("nothing: No such file", "--tokens", "nothing")
        self.wrong("tokens: line 1 of the tokens is not", "--tokens", "tokens")
        self.wrong("there is no store nothing.db", "--check", "--store", "nothing.db")
        self.assertEqual(os.listdir(self.folder), ["tokens"])

    def test_a_place_that_can_not_be_had(self) -> None:
        self.wrong("the store nowhere/books.db can't be opened or written", "--store", "nowhere/books.db")
        with socket.socket() as other:
            other.bind(("127.0.0.1", 0))
            other.listen()
            self.wrong("Address already in use; --listen names another place", "--listen", f"127.0.0.1:{other.getsockname()[1]}")

    def test_started_and_stopped(self) -> None:
        port = free_port()
        # A shell that starts the tests in the background has them ignore Ctrl-C; the desk is started as from a terminal.
        with subprocess.Popen([DESK, "--listen", f"127.0.0.1:{port}"], cwd=self.folder, stdout=subprocess.PIPE, text=True,
                              preexec_fn=lambda: signal.signal(signal.SIGINT, signal.SIG_DFL)) as process:
            assert process.stdout is not None
            self.addCleanup(process.kill)
            self.assertEqual(process.stdout.readline(), f"the desk is at http://127.0.0.1:{port}/\n")
            process.send_signal(signal.SIGINT)
            self.assertEqual(process.communicate(timeout=60)[0], "the desk is closed; what was sent is kept\n")
            self.assertEqual(process.returncode, 0)
        self.assertEqual(self.said("--check"), (0, "0 books were read again, 0 differences\n"))
