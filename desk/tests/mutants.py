"""desk/tests/mutants.py [NAME...]: wrong versions of the desk and of Send, each refused by the test that it names. An edit's first line names the
file, the second says what goes wrong and which test sees it; then `- ` what stands there once, `+ ` what takes its place. A test `browser NAME` is
one of web/test/sending.py, on a page that is built of the changed modules and the programs of target/farmbook.html."""

from __future__ import annotations

import os
import shutil
import subprocess
import sys
import tempfile
from pathlib import Path

ROOT = Path(__file__).resolve().parent.parent.parent
HERE = Path(__file__).resolve().parent


def linked(place: Path, folder: Path, but: tuple[str, ...]) -> None:
    """A link to each part of a place, but for these."""
    folder.mkdir(exist_ok=True)
    for each in place.iterdir():
        if each.name not in but:
            (folder / each.name).symlink_to(each)


def mutated(edit: Path, folder: Path) -> None:
    """A folder like this repository, in which desk/ and web/ are copies with one place changed, target/ has no page, and all else is a link."""
    name, *lines = edit.read_text().splitlines()
    linked(ROOT, folder, ("desk", "web", "target"))
    linked(ROOT / "target", folder / "target", ("farmbook.html", "pictures"))
    for each in ("desk", "web"):
        shutil.copytree(ROOT / each, folder / each, ignore=shutil.ignore_patterns("__pycache__"))
    old, new = ("\n".join(line[2:] for line in lines if line.startswith(mark)) for mark in ("- ", "+ "))
    text = (folder / name).read_text()
    if text.count(old) != 1:
        raise SystemExit(f"{edit.name}: what it changes stands {text.count(old)} times in {name}")
    (folder / name).write_text(text.replace(old, new))


def words_of(test: str) -> list[str]:
    """The command of a test."""
    if test == "send":
        return ["node", "desk/tests/send.mjs"]
    if test.startswith("browser "):
        page = "target/farmbook.html"
        return ["sh", "-c", f"WASM={ROOT}/{page} web/build {page} && exec {sys.executable} web/test/sending.py {test.partition(' ')[2]}"]
    return [sys.executable, "-m", "unittest", "-q", f"desk.tests.test_{test}"]


def refused(edit: Path) -> str:
    """The failure by which its test refuses it; nothing where the test passes or can't run."""
    test = edit.read_text().splitlines()[1].partition("test: ")[2]
    seconds = {"PYTHONDONTWRITEBYTECODE": "1", "PATIENCE": "15"}  # until a wait for what a wrong version never does is given up
    with tempfile.TemporaryDirectory() as name:
        folder = Path(name)
        mutated(edit, folder)
        done = subprocess.run(words_of(test), cwd=folder, capture_output=True, text=True, check=False, env={**os.environ, **seconds})
    said = [line for line in (done.stdout + done.stderr).splitlines() if line.startswith(("failed: ", "FAIL: ")) or ": failed: " in line]
    return said[0] if said and done.returncode == 1 else ""


def main() -> int:
    edits = [HERE / "mutants" / f"{name}.edit" for name in sys.argv[1:]] or sorted((HERE / "mutants").glob("*.edit"))
    for edit in edits:
        words = refused(edit)
        if not words:
            print(f"{edit.name}: nothing refuses it", file=sys.stderr)
            return 1
        print(f"{edit.name}: refused ({words.rpartition('failed: ')[2].removeprefix('FAIL: ').split(' (')[0]})", flush=True)
    print(f"desk: {len(edits)} wrong versions, each refused by its test")
    return 0


if __name__ == "__main__":
    sys.exit(main())
