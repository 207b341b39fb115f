"""An answer comes after the commit is on the disk: with a slow fsync the answer is slow. And a store that can't keep a part says so."""

import shutil
import subprocess
import tempfile
import time
import unittest
from pathlib import Path

from desk.check import check
from desk.store import Store
from desk.tests.support import SAMPLE, Server, Tablet

SLOW = """
#define _GNU_SOURCE
#include <dlfcn.h>
#include <unistd.h>
static int slowly(const char *name, int file) {
    int (*real)(int) = (int (*)(int))dlsym(RTLD_NEXT, name);
    usleep(300000);
    return real(file);
}
int fsync(int file) { return slowly("fsync", file); }
int fdatasync(int file) { return slowly("fdatasync", file); }
"""


class Disk(unittest.TestCase):
    def test_an_answer_comes_after_the_disk(self) -> None:
        if shutil.which("cc") is None:
            self.fail("the C compiler is not there: fsync is not slowed down")
        with tempfile.TemporaryDirectory() as folder:
            source, library = Path(folder) / "slow.c", Path(folder) / "slow.so"
            source.write_text(SLOW)
            subprocess.run(["cc", "-shared", "-fPIC", "-o", str(library), str(source), "-ldl"], check=True)
            with Server(environment={"LD_PRELOAD": str(library)}) as server:
                tablet = Tablet(server, SAMPLE)
                tablet.begin()
                begun = time.perf_counter()
                answer = tablet.send(0, SAMPLE[:30])
                took = time.perf_counter() - begun
        self.assertEqual(answer.status, 204)
        self.assertGreaterEqual(took, 0.3)

    def test_a_full_disk(self) -> None:
        with Server(most=200_000) as server:
            tablet, at, answer = Tablet(server, SAMPLE), 0, None
            while answer is None or answer.status == 204:
                if at == 0 or at == len(SAMPLE):
                    tablet, at = Tablet(server, SAMPLE), 0
                    tablet.begin()
                answer = tablet.send(at, SAMPLE[at : at + 10])
                at = answer.offset if answer.status == 204 else at
            self.assertEqual(answer.status, 503)
            self.assertIn(b"the store does not answer", answer.body)
            server.kill()
            server.most = None
            server.start()
            self.assertEqual(tablet.how_far(), at)
            self.assertEqual(check(Store(server.store)), [])
