"""The desk on a port, by the standard library: a thread for each client that is being served, and none for one that is slow without end."""

from __future__ import annotations

import contextlib
import io
import socket
import socketserver
import sys
import threading
import time
from http import HTTPStatus
from typing import Any
from wsgiref.simple_server import ServerHandler, WSGIRequestHandler, WSGIServer

from desk.application import Desk
from desk.http import BODY_MOST, Response, headers_of, number_of

# Seconds for a request's head, and for a body beside one for each SLOWEST bytes of it; so many clients are served at a time, and the others wait. A
# client that still sends after its answer is listened to for a moment: else the answer would not reach it.
SECONDS, SLOWEST, CLIENTS, LINGER = 30, 1000, 256, 1
HEADER_BYTES = 16 * 1024


class Patience(io.RawIOBase):
    """What a client sends, up to a moment: one that sends a byte now and then is left too."""

    def __init__(self, line: socket.socket) -> None:
        super().__init__()
        self._line, self._until = line, 0.0
        self.wait(SECONDS)

    def wait(self, seconds: float) -> None:
        """So long from now."""
        self._until = time.monotonic() + seconds

    def readable(self) -> bool:
        return True

    def readinto(self, room: Any) -> int:
        left = self._until - time.monotonic()
        if left <= 0:
            raise TimeoutError("the client is too slow")
        self._line.settimeout(left)
        try:
            return self._line.recv_into(room)
        finally:
            self._line.settimeout(SECONDS)  # of an answer each piece


class Handler(WSGIRequestHandler):
    """One request a connection. Nothing of a header is logged: a token may stand there."""

    timeout = SECONDS
    wbufsize = 1 << 16  # a small answer goes out as one piece
    server_version = "farmbook"
    sys_version = ""

    def setup(self) -> None:
        super().setup()
        self.rfile.close()
        self._patience = Patience(self.connection)
        self.rfile = io.BufferedReader(self._patience)

    def handle(self) -> None:
        with contextlib.suppress(TimeoutError, ConnectionError):
            self._handle()
        self.close_connection = True

    def _handle(self) -> None:
        self.raw_requestline = self.rfile.readline(HEADER_BYTES + 1)
        if len(self.raw_requestline) > HEADER_BYTES:
            self.requestline = self.request_version = self.command = ""
            self.send_error(414)
        elif self.parse_request():
            if sum(len(name) + len(value) for name, value in self.headers.items()) > HEADER_BYTES:
                self.send_error(431)
            else:
                self._patience.wait(SECONDS + min(number_of(self.headers.get("Content-Length")) or 0, BODY_MOST) / SLOWEST)
                handler = ServerHandler(self.rfile, self.wfile, sys.stderr, self.get_environ(), multithread=True)
                handler.server_software = self.server_version
                handler.request_handler = self  # type: ignore[attr-defined]  # as the library has it
                handler.run(self.server.get_app())  # type: ignore[attr-defined]

    def finish(self) -> None:
        with contextlib.suppress(OSError):
            self.wfile.flush()
            self.connection.shutdown(socket.SHUT_WR)
            self._patience.wait(LINGER)
            while self.rfile.read1(1 << 16):
                pass
        super().finish()

    def send_error(self, code: int, message: str | None = None, explain: str | None = None) -> None:
        """What the library refuses by itself is answered as everything else."""
        self.request_version = "HTTP/1.0"  # a client that names no version gets a status too
        answer = Response(code, f"{HTTPStatus(code).phrase}: the request is not one that the desk reads\n".encode())
        self.send_response(code)
        for name, value in headers_of(answer):
            self.send_header(name, value)
        self.end_headers()
        self.wfile.write(answer.body)

    def log_message(self, format: str, *args: Any) -> None:  # noqa: A002
        """A line for each request would say who reads what: none."""


class Server(socketserver.ThreadingMixIn, WSGIServer):
    """Many clients at a time."""

    daemon_threads = True
    request_queue_size = 1024
    allow_reuse_address = True

    def __init__(self, address: tuple[str, int]) -> None:
        self._room = threading.BoundedSemaphore(CLIENTS)
        self.address_family = socket.AF_INET6 if ":" in address[0] else socket.AF_INET
        super().__init__(address, Handler)

    def process_request(self, request: Any, client_address: Any) -> None:
        self._room.acquire()
        super().process_request(request, client_address)

    def process_request_thread(self, request: Any, client_address: Any) -> None:
        try:
            super().process_request_thread(request, client_address)
        finally:
            self._room.release()

    def handle_error(self, request: Any, client_address: Any) -> None:
        """A client that went away is no error."""


def serve(desk: Desk, host: str, port: int) -> None:
    """Until it is stopped."""
    with Server((host, port)) as server:
        server.set_app(desk)
        print(f"the desk is at http://{f'[{host}]' if ':' in host else host}:{server.server_port}/", flush=True)
        server.serve_forever()
