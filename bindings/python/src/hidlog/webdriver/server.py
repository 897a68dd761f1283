"""The HTTP server of the proxy. It serves the requests that gate.py accepts. The time of each wait is limited."""

from __future__ import annotations

import re
import socket
import sys
import threading
import time
from collections.abc import Callable
from contextlib import suppress
from http import HTTPStatus
from http.server import BaseHTTPRequestHandler, ThreadingHTTPServer
from typing import Any

from .errors import DriverError, Response, print_error
from .gate import Head, Policy, admit

# Maximum number of seconds that a connection may be idle, and that the head, the body and the response of a request may
# take.
IDLE_SECONDS = 600.0
HEAD_SECONDS = 10.0
BODY_SECONDS = 120.0
MAX_CONNECTIONS = 128
_READ_BYTES = 1 << 16
# The request line (RFC 9112 section 3).
_REQUEST_LINE = re.compile(rb"[A-Z]+ [\x21-\x7e]+ HTTP/1\.[0-9]\r?\n\Z")
# A header name (RFC 9110 section 5.6.2).
_TOKEN = re.compile(r"[!#$%&'*+.^_`|~0-9A-Za-z-]+\Z")
# A control character other than a tab and the line end, or a continuation line.
_INVALID_VALUE = re.compile(rb"\A[ \t]|[\x00-\x08\x0b\x0c\x0e-\x1f\x7f]|\r(?!\n)")

Serve = Callable[[str, str, bytes], Response]


class _HeadReader:
    """The data of a connection, with checks that http.server lacks: whether the last line of a head has arrived, and
    whether the head has control characters, of which some end a line only for the parser of http.server."""

    def __init__(self, file: Any):
        self._file = file
        self.last, self.is_clean = b"", True
        self.peek, self.read1, self.close = file.peek, file.read1, file.close

    def readline(self, most: int) -> bytes:
        """Reads a line of a head."""
        self.last = self._file.readline(most)
        self.is_clean = self.is_clean and not _INVALID_VALUE.search(self.last)
        return self.last


class _Handler(BaseHTTPRequestHandler):
    """A connection. The server closes it at the deadline, which is None while a command is served."""

    protocol_version = "HTTP/1.1"
    disable_nagle_algorithm = True
    wbufsize = _READ_BYTES
    server: Server
    raw_requestline: bytes

    def setup(self) -> None:
        super().setup()
        self._lines = self.rfile = _HeadReader(self.rfile)  # type: ignore[assignment]
        self.deadline: float | None = None
        self.is_idle = True
        self.server.record_handler(self)

    def finish(self) -> None:
        with suppress(OSError):
            super().finish()

    def handle(self) -> None:
        with suppress(OSError):
            super().handle()

    def _wait(self, seconds: float | None) -> None:
        self.deadline = None if seconds is None else time.monotonic() + seconds

    def handle_one_request(self) -> None:
        self.is_idle = True
        self._wait(IDLE_SECONDS)
        is_open = bool(self._lines.peek(1))
        self.is_idle = False
        if not is_open:
            self.close_connection = True
            return
        self._lines.is_clean = True
        self._wait(HEAD_SECONDS)
        super().handle_one_request()

    def handle_expect_100(self) -> bool:
        return True  # rejected requests are not handled further

    def _parse_head(self) -> Head:
        def values(name: str) -> list[str]:
            return list(self.headers.get_all(name, []))

        is_sound = self._lines.is_clean and not self.headers.defects and not self.headers.get_payload()
        if not is_sound or not all(map(_TOKEN.match, self.headers.keys())):
            raise DriverError("invalid argument", "a header is malformed", 400)
        # http.server changes paths that start with two slashes.
        self.path = self.raw_requestline.decode("latin-1").split(" ")[1]
        return Head(
            self.command,
            self.path,
            values("Host"),
            values("Origin"),
            values("Sec-Fetch-Site"),
            values("Content-Type"),
            values("Content-Length"),
            values("Transfer-Encoding"),
        )

    def _make_policy(self) -> Policy:
        address = str(self.connection.getsockname()[0]).replace("::ffff:", "")
        return Policy(self.server.port, address, self.server.hosts)

    def _read_body(self, length: int) -> bytes | None:
        """Reads the body. Returns None if the client disconnects before the end of the body."""
        blocks = []
        while length:
            block = self._lines.read1(min(length, _READ_BYTES))
            if not block:
                return None
            blocks.append(block)
            length -= len(block)
        return b"".join(blocks)

    def _serve(self) -> None:
        if not _REQUEST_LINE.match(self.raw_requestline):
            self.send_error(HTTPStatus.BAD_REQUEST)
            return
        if self._lines.last not in (b"\r\n", b"\n"):
            self.close_connection = True
            return
        try:
            length = admit(self._parse_head(), self._make_policy())
        except DriverError as error:
            self._respond_refused(error)
            return
        self._wait(BODY_SECONDS)
        if "100-continue" in self.headers.get("Expect", "").lower():
            self.wfile.write(b"HTTP/1.1 100 Continue\r\n\r\n")
            self.wfile.flush()
        body = self._read_body(length)
        if body is None:
            self.close_connection = True
            return
        self._wait(None)
        self._respond(self.server.response(self.command, self.path, body))

    def _respond_refused(self, error: DriverError) -> None:
        """Responds with an error, and closes the connection, because the meaning of the following data is unknown."""
        self.close_connection = True
        self._respond(error.response)

    def _respond(self, response: Response) -> None:
        self._wait(BODY_SECONDS)
        self.send_response_only(response.status)
        self.send_header("Content-Type", "application/json; charset=utf-8")
        self.send_header("Cache-Control", "no-cache")
        self.send_header("Content-Length", str(len(response.data)))
        if self.close_connection:
            self.send_header("Connection", "close")
        self.end_headers()
        self.wfile.write(response.data)

    do_GET = do_POST = do_DELETE = _serve

    def send_error(self, code: int, message: str | None = None, explain: str | None = None) -> None:
        """Responds to a request that http.server itself rejects."""
        name = "unknown method" if code == HTTPStatus.NOT_IMPLEMENTED else "invalid argument"
        status = 405 if code == HTTPStatus.NOT_IMPLEMENTED else code
        # If the head was not read, the version of HTTP is unknown.
        self.request_version = "HTTP/1.1"
        self._respond_refused(DriverError(name, f"invalid request: {message or HTTPStatus(code).phrase}", status))

    def log_message(self, *_: Any) -> None:
        """Does not log requests."""


class Server(ThreadingHTTPServer):
    """Serves commands at an address [default: only on this machine]. The number of connections is limited."""

    daemon_threads = True
    request_queue_size = MAX_CONNECTIONS

    def __init__(self, serve: Serve, port: int, address: str = "127.0.0.1", hosts: tuple[str, ...] = ()):
        self.hosts = hosts
        self._serve = serve
        # Handlers by socket. The value is None until the handler has started.
        self._open: dict[socket.socket, _Handler | None] = {}
        self._lock = threading.Lock()
        self.address_family = socket.AF_INET6 if ":" in address else socket.AF_INET
        super().__init__((address, port), _Handler)
        self.port: int = self.server_address[1]

    def server_bind(self) -> None:
        """Binds the socket without looking up the name of this machine."""
        self.socket.setsockopt(socket.SOL_SOCKET, socket.SO_REUSEADDR, 1)
        self.socket.bind(self.server_address)
        self.server_address = self.socket.getsockname()

    def response(self, method: str, path: str, body: bytes) -> Response:
        """Serves a command. Any failure is reported as a WebDriver error."""
        try:
            return self._serve(method, path, body)
        except DriverError as error:
            return error.response
        except (OSError, ValueError, RuntimeError, MemoryError) as error:
            return DriverError("unknown error", f"{type(error).__name__}: {error}").response

    # Connections.

    def record_handler(self, handler: _Handler) -> None:
        """Stores the handler of a connection."""
        with self._lock:
            self._open[handler.connection] = handler

    def get_request(self) -> tuple[socket.socket, Any]:
        try:
            return super().get_request()
        except OSError:
            time.sleep(0.05)  # no descriptors are left; the connection stays pending
            raise

    def process_request(self, request: Any, client_address: Any) -> None:
        """Serves a connection. If there are too many, closes the connection that has been idle longest."""
        with self._lock:
            idle = [handler for handler in self._open.values() if handler and handler.is_idle]
            is_full = len(self._open) >= MAX_CONNECTIONS
            if is_full and idle:
                oldest = min(idle, key=lambda handler: handler.deadline or 0).connection
                del self._open[oldest]
                _shut_down(oldest)
            if not is_full or idle:
                self._open[request] = None
        if is_full and not idle:
            self.shutdown_request(request)
            return
        super().process_request(request, client_address)

    def shutdown_request(self, request: Any) -> None:
        with self._lock:
            self._open.pop(request, None)
        super().shutdown_request(request)

    def service_actions(self) -> None:
        """Closes connections past their deadline."""
        now = time.monotonic()
        with self._lock:
            handlers = [item for item in self._open.values() if item]
        for handler in handlers:
            if handler.deadline is not None and handler.deadline < now:
                _shut_down(handler.connection)

    def handle_error(self, request: Any, client_address: Any) -> None:
        """Reports in one line the error that ended a connection."""
        print_error(f"a connection failed: {sys.exc_info()[1]!r}")


def _shut_down(connection: socket.socket) -> None:
    with suppress(OSError):
        connection.shutdown(socket.SHUT_RDWR)
