"""The proved programs, on a book's bytes: what they print is what is shown."""

from __future__ import annotations

import os
import subprocess
import tempfile
from collections.abc import Iterable
from pathlib import Path
from typing import NamedTuple

from desk.farmbook import ROOT

# A book is read in milliseconds: a program that takes longer has stopped.
SECONDS = 60


class Printed(NamedTuple):
    """What a program printed, what it said besides, and its exit status."""

    output: bytes
    remarks: bytes
    status: int


class Failed(Exception):
    """A program could not be run to its end."""


def run(name: str, *arguments: str, given: bytes = b"") -> Printed:
    """bin/NAME with those arguments, and bytes for its standard input."""
    try:
        done = subprocess.run([str(ROOT / "bin" / name), *arguments], input=given, capture_output=True, timeout=SECONDS, check=False)
    except (OSError, subprocess.TimeoutExpired) as error:
        raise Failed(f"bin/{name} did not come to its end: {error}") from error
    if done.returncode not in (0, 1):
        raise Failed(f"bin/{name} ended with status {done.returncode}: {done.stderr.decode(errors='replace').strip()}")
    return Printed(done.stdout, done.stderr, done.returncode)


def on_book(name: str, book: bytes) -> Printed:
    """A program that takes one book."""
    return run(name, "-", given=book)


def compare(old: bytes, new: bytes) -> Printed:
    """What differs between two books."""
    with tempfile.TemporaryDirectory() as folder:
        place = Path(folder) / "new"
        place.write_bytes(new)
        return run("compare", "-", str(place), given=old)


def table(books: Iterable[tuple[str, bytes]]) -> list[list[str]]:
    """`bin/table` of some books, by their names: its rows without the folder, header and last row among them. None for no book."""
    with tempfile.TemporaryDirectory() as folder:
        places = []
        for name, book in books:
            place = os.path.join(folder, name)
            with open(place, "wb") as file:
                file.write(book)
            places.append(place)
        if not places:
            return []
        rows = [row.split(",") for row in run("table", *places).output.decode("ascii").splitlines()]
    return [[row[0].removeprefix(folder + "/"), *row[1:]] for row in rows]
