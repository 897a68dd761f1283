#!/usr/bin/python3
"""Hostile connections to the proxy: ambiguous requests, floods, and idle clients. The driver is a stub that records
requests.

    tests/webdriver/sockets.py
"""

from __future__ import annotations

import json
import socket
import sys
import threading
from collections.abc import Callable, Iterator
from contextlib import contextmanager
from http.server import BaseHTTPRequestHandler, ThreadingHTTPServer
from pathlib import Path
from typing import Any

sys.path.insert(0, str(Path(__file__).resolve().parents[2] / "bindings" / "python" / "src"))

from hidlog.webdriver import server as server_module
from hidlog.webdriver.driver import Driver
from hidlog.webdriver.proxy import Proxy
from hidlog.webdriver.server import Server

TIMEOUT_SECONDS = 600


class RecordingDriver(BaseHTTPRequestHandler):
    """A driver that records its requests, and responds with null, except to unknown sessions."""

    protocol_version = "HTTP/1.1"
    disable_nagle_algorithm = True
    asked: list[tuple[str, str, bytes]]
    connections: list[Any]

    def setup(self) -> None:
        super().setup()
        self.connections.append(self.client_address)

    def serve(self) -> None:
        body = self.rfile.read(int(self.headers.get("Content-Length") or 0))
        self.asked.append((self.command, self.path, body))
        status, value = 200, None
        if self.path == "/session":
            value = {"sessionId": "known", "capabilities": {}}
        elif "/unknown" in self.path:
            status, value = 404, {"error": "invalid session id", "message": "", "stacktrace": ""}
        data = json.dumps({"value": value}).encode()
        self.send_response(status)
        self.send_header("Content-Length", str(len(data)))
        self.end_headers()
        self.wfile.write(data)

    do_GET = do_POST = do_DELETE = serve

    def log_message(self, *_: Any) -> None:
        """Does not log requests."""


class ProxyFixture:
    """A proxy in this process, which passes requests on to a recording driver."""

    def __init__(self, driver: Any, proxy: Proxy, server: Server):
        self.handler, self.proxy, self.server = driver, proxy, server
        self.port = server.port

    def open_connection(self) -> socket.socket:
        return socket.create_connection(("127.0.0.1", self.port), timeout=TIMEOUT_SECONDS)

    def exchange_bytes(self, data: bytes) -> bytes:
        """Sends bytes, and returns the data that is received until the server closes the connection."""
        with self.open_connection() as connection:
            connection.sendall(data)
            connection.shutdown(socket.SHUT_WR)
            return read_all(connection)

    def make_head(self, line: str, *headers: str) -> bytes:
        return "\r\n".join([line, f"Host: 127.0.0.1:{self.port}", *headers, "", ""]).encode("latin-1")

    def post(self, path: str, body: bytes) -> bytes:
        """Posts JSON on a new connection."""
        head = self.make_head(f"POST {path} HTTP/1.1", "Content-Type: application/json", f"Content-Length: {len(body)}")
        return self.exchange_bytes(head + body)

    def take_requests(self) -> list[tuple[str, str, bytes]]:
        """Returns the requests that the driver received since the last call."""
        asked = list(self.handler.asked)
        self.handler.asked.clear()
        return asked


def read_all(connection: socket.socket) -> bytes:
    data = b""
    try:
        while block := connection.recv(65536):
            data += block
    except ConnectionResetError:
        pass
    return data


def parse_status(response: bytes) -> int:
    """Returns the status of a response, which must be a valid WebDriver response."""
    head, _, body = response.partition(b"\r\n\r\n")
    status = int(head.split()[1])
    value = json.loads(body)["value"]
    assert status == 200 or set(value) == {"error", "message", "stacktrace"}, response
    assert b"Traceback" not in response
    return status


@contextmanager
def make_proxy(**limits: float) -> Iterator[ProxyFixture]:
    """Provides a proxy. The arguments replace the limits in server.py with the same names."""
    before = {name: getattr(server_module, name) for name in limits}
    for name, value in limits.items():
        setattr(server_module, name, value)
    handler = type("Driver", (RecordingDriver,), {"asked": [], "connections": []})
    driver = ThreadingHTTPServer(("127.0.0.1", 0), handler)
    driver.daemon_threads = True
    proxy = Proxy(Driver(f"http://127.0.0.1:{driver.server_address[1]}"))
    server = Server(proxy.serve, 0)
    threads = [threading.Thread(target=one.serve_forever, args=(0.05,), daemon=True) for one in (driver, server)]
    for thread in threads:
        thread.start()
    try:
        yield ProxyFixture(handler, proxy, server)
    finally:
        for one in (server, driver):
            one.shutdown()
            one.server_close()
        proxy.close()
        for name, value in before.items():
            setattr(server_module, name, value)


def test_plain_text_post() -> None:
    """A POST of text/plain from a page starts no session, and neither does a request with a rebound host name."""
    with make_proxy() as rig:
        body = b'{"capabilities":{"alwaysMatch":{"goog:chromeOptions":{"args":["--renderer-cmd-prefix=bash -c id>PWNED"]}}}}'
        for headers in (
            ("Origin: http://evil.example", "Content-Type: text/plain"),
            ("Origin: http://evil.example", "Content-Type: application/json"),
            ("Origin: null", "Content-Type: application/json"),
            ("Content-Type: text/plain",),
        ):
            response = rig.exchange_bytes(
                rig.make_head("POST /session HTTP/1.1", *headers, f"Content-Length: {len(body)}") + body
            )
            assert parse_status(response) in (403, 415), response
        head = f"POST /session HTTP/1.1\r\nHost: evil.example\r\nContent-Length: {len(body)}\r\n"
        assert parse_status(rig.exchange_bytes(head.encode() + b"Content-Type: application/json\r\n\r\n" + body)) == 403
        preflight = rig.exchange_bytes(rig.make_head("OPTIONS /session HTTP/1.1", "Origin: http://evil.example"))
        assert parse_status(preflight) == 405 and b"access-control" not in preflight.lower(), preflight
        assert rig.take_requests() == [], rig.take_requests()
        assert parse_status(rig.post("/session", body)) == 200 and rig.take_requests() == [("POST", "/session", body)]


def test_ambiguous_requests() -> None:
    """An ambiguous request is rejected, and the bytes after it are never handled as a request."""
    with make_proxy() as rig:
        hidden = rig.make_head("DELETE /session/known HTTP/1.1")
        good = rig.make_head("GET /status HTTP/1.1")
        typed = "Content-Type: application/json"
        for first in (
            rig.make_head("POST /session/known/url HTTP/1.1", typed, "Content-Length: 0", "Transfer-Encoding: chunked"),
            rig.make_head("POST /session/known/url HTTP/1.1", typed, "Transfer-Encoding: chunked"),
            rig.make_head(
                "POST /session/known/url HTTP/1.1", typed, "Transfer-Encoding : chunked", "Content-Length: 0"
            ),
            rig.make_head(
                "POST /session/known/url HTTP/1.1", typed, "Content-Length: 0", " Transfer-Encoding: chunked"
            ),
            rig.make_head(
                "POST /session/known/url HTTP/1.1", typed, "Content-Length: 0", f"Content-Length: {len(hidden)}"
            ),
            rig.make_head("POST /session/known/url HTTP/1.1", typed, "Content-Length: -1"),
            rig.make_head("POST /session/known/url HTTP/1.1", typed, f"Content-Length: {10**11}"),
            rig.make_head("POST /session/known/url HTTP/1.1", typed, f"Content-Length: {'9' * 5000}"),
            rig.make_head("GET /session/known/url HTTP/1.1", f"Host: 127.0.0.1:{rig.port}"),
            rig.make_head("GET http://evil.example/status HTTP/1.1"),
            rig.make_head("GET /session/\u00e4 HTTP/1.1"),
            rig.make_head("GET /session/x\x00 HTTP/1.1"),
            rig.make_head("GET /../status HTTP/1.1"),
            rig.make_head("GET /shutdown HTTP/1.1"),
            rig.make_head("GET /status HTTP/1.1", "A:" + "a" * 70000),
            rig.make_head("GET /status HTTP/1.1", *[f"A{number}: b" for number in range(200)]),
            rig.make_head("GET /" + "a" * 70000 + " HTTP/1.1"),
            rig.make_head("GET /status"),
            rig.make_head("GET /status HTTP/9.9"),
            rig.make_head("GET /status HTTP/1.1 x"),
            rig.make_head("GET /status HTTP/1.0").replace(b"Host", b"Hose"),
            b"\x16\x03\x01\x02\x00\x01\x00\x01\xfc\x03\x03\r\n\r\n",
        ):
            response = rig.exchange_bytes(first + hidden)
            statuses = response.count(b"HTTP/1.1 ")
            if b"shutdown" in first:
                assert response.startswith(b"HTTP/1.1 404") and rig.take_requests() == [
                    ("DELETE", "/session/known", b"")
                ]
            else:
                assert parse_status(response) >= 400 and statuses == 1 and rig.take_requests() == [], (first, response)
        assert (
            rig.exchange_bytes(good + good).count(b"HTTP/1.1 200") == 2
        ), "expected two responses to two requests in one write"


def test_invalid_json() -> None:
    """JSON that is invalid, deeply nested, or not an object causes a WebDriver error."""
    with make_proxy() as rig:
        path = "/session/known/webauthn/authenticator"
        for body in (b"[" * 100_000, b'{"a":' * 100_000, b"[]", b"1", b"null", b"{", b"\xff", b'"x"', b"{}", b"NaN"):
            assert parse_status(rig.post(path, body)) == 400, body[:20]
        deep = b'{"a":' * 150_000 + b"1" + b"}" * 150_000
        assert parse_status(rig.post(path, deep)) == 400
        assert (
            parse_status(rig.post("/session/known/url", deep)) == 200
        ), "a command for the driver was not passed on unchanged"


def test_unknown_sessions() -> None:
    """Sessions that the driver doesn't know are not stored."""
    with make_proxy() as rig:
        for number in range(200):
            rig.post(f"/session/unknown{number}/url", b"{}")
            rig.post(f"/session/unknown{number}/webauthn/authenticator", b'{"protocol":"ctap2","transport":"usb"}')
        assert len(rig.proxy._sessions) == 0, rig.proxy._sessions
        assert len(rig.handler.connections) < 20, "the proxy opened too many connections to the driver"


def read_until_closed(connection: socket.socket) -> bytes:
    """Returns the data that is received until the server closes the connection. If the server does not, the test hangs
    and fails."""
    with connection:
        return read_all(connection)


def test_silent_clients() -> None:
    """A connection on which no data, half a head or half a body arrives is closed."""
    with make_proxy(IDLE_SECONDS=0.2, HEAD_SECONDS=0.2, BODY_SECONDS=0.2) as rig:
        typed = ("Content-Type: application/json", "Content-Length: 10")
        for data in (
            b"",
            b"G",
            rig.make_head("GET /status HTTP/1.1")[:-2],
            rig.make_head("POST /session HTTP/1.1", *typed) + b"{",
        ):
            connection = rig.open_connection()
            connection.sendall(data)
            assert read_until_closed(connection) == b"", data
        assert rig.take_requests() == []


def test_slow_head() -> None:
    """A connection whose head arrives byte by byte is closed."""
    with make_proxy(HEAD_SECONDS=0.5) as rig:
        connection = rig.open_connection()
        connection.sendall(b"G")
        is_over = threading.Event()

        def send() -> None:
            try:
                while not is_over.wait(0.05):
                    connection.sendall(b"G")
            except OSError:
                pass

        sender = threading.Thread(target=send)
        sender.start()
        data = read_all(connection)
        is_over.set()
        sender.join()
        connection.close()
        assert data == b""


def test_many_connections() -> None:
    """The number of connections is bounded: a new connection replaces an idle one."""
    with make_proxy(MAX_CONNECTIONS=8) as rig:
        held = [rig.open_connection() for _ in range(100)]
        response = b""
        for _ in range(TIMEOUT_SECONDS):
            response = rig.exchange_bytes(rig.make_head("GET /status HTTP/1.1"))
            if response:
                break
        assert parse_status(response) == 200
        with rig.server._lock:
            assert len(rig.server._open) <= 9, len(rig.server._open)
        for connection in held:
            connection.close()


def test_expect_continue() -> None:
    """A client that sends Expect: 100-continue gets a response only after the gate has accepted the request."""
    with make_proxy() as rig:
        head = rig.make_head(
            "POST /session HTTP/1.1", "Content-Type: application/json", "Content-Length: 2", "Expect: 100-continue"
        )
        with rig.open_connection() as connection:
            connection.sendall(head)
            assert connection.recv(65536).startswith(b"HTTP/1.1 100 ")
            connection.sendall(b"{}")
            assert connection.recv(65536).startswith(b"HTTP/1.1 200 ")
        refused = rig.exchange_bytes(head.replace(b"/json", b"/text"))
        assert parse_status(refused) == 415 and refused.count(b"HTTP/1.1") == 1


TESTS: list[Callable[[], None]] = [
    test_plain_text_post,
    test_ambiguous_requests,
    test_invalid_json,
    test_unknown_sessions,
    test_silent_clients,
    test_slow_head,
    test_many_connections,
    test_expect_continue,
]


def main() -> int:
    failed = False
    for test in TESTS:
        try:
            test()
            print(f"ok  {test.__doc__}")
        except (AssertionError, OSError) as error:
            print(f"FAILED  {test.__doc__} {error!r}"[:2000])
            failed = True
    return 1 if failed else 0


if __name__ == "__main__":
    sys.exit(main())
