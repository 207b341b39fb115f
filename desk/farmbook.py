"""The proved herd desk in Python: the lines of a farm book, whole or part by part.

    lines(book)             the lines of a whole book, and the code that host/herd_desk.h explains
    Farm(image).feed(part)  the lines of the next part; Farm.image is the state after it, 132 bytes to be kept anywhere

The library is target/MACHINE/libdesk.so, which ports/make makes of the proved archive; FARMBOOK_LIBRARY names another.
"""

from __future__ import annotations

import ctypes
import functools
import os
import platform
from pathlib import Path
from typing import NamedTuple

ROOT = Path(__file__).resolve().parent.parent

# As host/herd_desk.h has them; the test compares.
IMAGE_BYTES = 132
LINES_MAX = 4094 * 54 + 62
CLOSED, NO_IMAGE, FULL, UNFINISHED, MORE_BYTES = 0, 13, 16, 17, 18

# Room for the lines of one call: a part with more of them is read in several.
ROOM = 1 << 16


class Answer(NamedTuple):
    """What some bytes gave: the desk's code, the lines, and how many of the bytes were taken."""

    code: int
    lines: bytes
    taken: int


def library_path() -> Path:
    """Where the shared library is looked for."""
    named = os.environ.get("FARMBOOK_LIBRARY")
    return Path(named) if named else ROOT / "target" / platform.machine() / "libdesk.so"


@functools.cache
def library() -> ctypes.CDLL:
    """The shared library, loaded once."""
    desk = ctypes.CDLL(str(library_path()))
    size = ctypes.c_size_t
    desk.herd_desk.restype = ctypes.c_uint64
    desk.herd_desk.argtypes = [ctypes.c_char_p, size, ctypes.c_char_p, size]
    desk.herd_call.restype = ctypes.c_uint64
    desk.herd_call.argtypes = [ctypes.c_char_p, size, ctypes.c_void_p, size, ctypes.c_char_p, size, ctypes.POINTER(ctypes.c_uint64)]
    return desk


def lines(book: bytes) -> Answer:
    """A whole book: its lines and its code. Of a book that is not closed the code says why."""
    room = ctypes.create_string_buffer(LINES_MAX)
    number = library().herd_desk(book, len(book), room, LINES_MAX)
    return Answer(number >> 32, room.raw[: number & 0xFFFFFFFF], len(book))


class Farm:
    """A farm's book that comes in parts: its state between them is an image."""

    def __init__(self, image: bytes = bytes(IMAGE_BYTES)) -> None:
        self._image = ctypes.create_string_buffer(bytes(image), max(len(image), 1))
        self._length = len(image)

    @property
    def image(self) -> bytes:
        """The state, in bytes that may be stored and copied."""
        return self._image.raw[: self._length]

    def feed(self, part: bytes) -> Answer:
        """Read the next part. All of it is taken, up to a close or a refusal; no image (13) takes nothing."""
        room, taken, given = ctypes.create_string_buffer(ROOM), ctypes.c_uint64(0), []
        bytes_of_part = ctypes.create_string_buffer(part, max(len(part), 1))
        start, at, code = ctypes.addressof(bytes_of_part), 0, FULL
        while code == FULL:
            number = library().herd_call(self._image, self._length, start + at, len(part) - at, room, ROOM, ctypes.byref(taken))
            code, written = number >> 32, number & 0xFFFFFFFF
            given.append(room.raw[:written])
            at += taken.value
        return Answer(code, b"".join(given), at)
