"""The driver to which the proxy passes commands: a process that the proxy starts, or an address."""

from __future__ import annotations

import base64
import http.client
import json
import os
import select
import socket
import ssl
import subprocess
import sys
import threading
import time
from contextlib import suppress
from pathlib import Path
from typing import Any
from urllib.parse import SplitResult, unquote, urlsplit

from .errors import DriverError, Response

# Timeout of a command in seconds. A command may take as long as the test suite allows a page to load.
_TIMEOUT_SECONDS = 600
_START_SECONDS = 30
_END_SECONDS = 20
# Maximum length of a response, enough for a screenshot of a long page in base64.
_MAX_RESPONSE = 256 * 1024 * 1024
_SUPERVISOR = Path(__file__).with_name("supervisor.py")
_DEFAULT_PORTS = {"http": 80, "https": 443}


def is_address(address: str) -> bool:
    """Returns whether `--driver` is an address, not a command."""
    return "://" in address


def _split_address(address: str) -> SplitResult:
    """Splits a driver's address. Error messages do not contain the user name and password in the address."""
    shown = address if "@" not in address else f"{address.split('://')[0]}://...@{address.rsplit('@', 1)[1]}"
    try:
        parts = urlsplit(address)
        is_right = parts.scheme in _DEFAULT_PORTS and parts.hostname and parts.port != 0
    except ValueError:
        is_right = False
    if not is_right or parts.query or parts.fragment or not address.isascii() or not address.isprintable():
        raise DriverError("session not created", f"--driver is {shown!r}; expected http://HOST:PORT or https://HOST")
    return parts


class Driver:
    """A driver at an address on this machine or elsewhere."""

    def __init__(self, address: str, process: subprocess.Popen[bytes] | None = None):
        parts = _split_address(address)
        self._scheme, self._host = parts.scheme, parts.hostname or ""
        self._port, self._path = parts.port or _DEFAULT_PORTS[parts.scheme], parts.path.rstrip("/")
        self._headers = {"Content-Type": "application/json; charset=utf-8"}
        if parts.username is not None:
            pair = f"{unquote(parts.username)}:{unquote(parts.password or '')}"
            self._headers["Authorization"] = f"Basic {base64.b64encode(pair.encode()).decode()}"
        self._process = process
        # Idle connections. Their number is the maximum number of concurrent commands so far.
        self._idle: list[http.client.HTTPConnection] = []
        self._lock = threading.Lock()

    @property
    def is_own(self) -> bool:
        """Whether the proxy has started the driver."""
        return self._process is not None

    @property
    def is_local(self) -> bool:
        """Whether the driver, and so the debugger of its browser, runs on this machine."""
        return self._host in ("127.0.0.1", "localhost", "::1")

    @property
    def address(self) -> str:
        """The address without user name and password."""
        host = f"[{self._host}]" if ":" in self._host else self._host
        return f"{self._scheme}://{host}:{self._port}{self._path}"

    def _connect(self, seconds: float) -> http.client.HTTPConnection:
        if self._scheme == "https":
            context = ssl.create_default_context()
            return http.client.HTTPSConnection(self._host, self._port, timeout=seconds, context=context)
        return http.client.HTTPConnection(self._host, self._port, timeout=seconds)

    def _reuse_connection(self) -> http.client.HTTPConnection | None:
        """Returns an open idle connection, if any."""
        with self._lock:
            while self._idle:
                connection = self._idle.pop()
                # If the connection is readable before a request, the driver has closed it.
                if connection.sock and not select.select([connection.sock], [], [], 0)[0]:
                    return connection
                connection.close()
        return None

    def send(self, method: str, path: str, body: bytes | None, seconds: float = _TIMEOUT_SECONDS) -> Response:
        """Sends a command, and returns the unparsed response."""
        connection = None
        try:
            connection = self._reuse_connection() or self._connect(seconds)
            connection.timeout = seconds
            if connection.sock:
                connection.sock.settimeout(seconds)
            connection.request(method, self._path + path, body, self._headers)
            response = connection.getresponse()
            data = response.read(_MAX_RESPONSE + 1)
            if len(data) > _MAX_RESPONSE:
                raise DriverError("unknown error", f"the driver's response has more than {_MAX_RESPONSE} bytes")
            if not response.will_close:
                with self._lock:
                    self._idle.append(connection)
                connection = None
            return Response(response.status, data)
        except (OSError, http.client.HTTPException, ValueError) as error:
            raise DriverError(
                "unknown error", f"no valid response from the driver at {self.address}: {error}"
            ) from None
        finally:
            if connection:
                connection.close()

    def call(self, method: str, path: str, parameters: Any = None, seconds: float = _TIMEOUT_SECONDS) -> Any:
        """Runs a command, and returns its value."""
        body = None if method in ("GET", "DELETE") else json.dumps(parameters or {}).encode()
        response = self.send(method, path, body, seconds)
        try:
            value = response.value
        except ValueError:
            raise DriverError("unknown error", "the driver's response is not JSON") from None
        if response.status != 200:
            found = value if isinstance(value, dict) else {}
            raise DriverError(
                str(found.get("error", "unknown error")),
                str(found.get("message", f"the driver returned status {response.status} without a message")),
            )
        return value

    def close(self) -> None:
        """Ends the process that the proxy started, and its child processes."""
        with self._lock:
            idle, self._idle = self._idle, []
        for connection in idle:
            with suppress(OSError):
                connection.close()
        if self._process and self._process.stdin:
            # The supervisor ends the driver when its standard input ends, at the latest when this process ends.
            with suppress(OSError):
                self._process.stdin.close()
                self._wait_for(self._process)

    @staticmethod
    def _wait_for(process: subprocess.Popen[bytes]) -> None:
        """Waits for the supervisor, which exits after the driver and its child processes."""
        end = time.monotonic() + _END_SECONDS
        while time.monotonic() < end:
            with suppress(OSError, subprocess.TimeoutExpired):
                process.wait(max(0.0, end - time.monotonic()))
                return
            time.sleep(0.02)


def _find_free_port() -> int:
    with socket.socket() as free:
        free.bind(("127.0.0.1", 0))
        port: int = free.getsockname()[1]
        return port


def start(words: list[str]) -> Driver:
    """Starts a driver, such as chromedriver, on a free port, and waits until it listens."""
    if os.name == "nt":  # the supervisor needs process groups
        raise RuntimeError("on Windows, start the driver yourself and pass its URL as --driver")
    port = _find_free_port()
    supervised = [sys.executable, "-I", "-S", str(_SUPERVISOR), *words, f"--port={port}"]
    process = subprocess.Popen(
        supervised, stdin=subprocess.PIPE, stdout=subprocess.DEVNULL, start_new_session=True, bufsize=0
    )
    driver = Driver(f"http://127.0.0.1:{port}", process)
    end = time.monotonic() + _START_SECONDS
    try:
        while True:
            try:
                socket.create_connection(("127.0.0.1", port)).close()
                return driver
            except OSError:
                if process.poll() is not None or time.monotonic() > end:
                    raise DriverError("session not created", f"{words[0]} exited or did not listen in time") from None
                time.sleep(0.02)
    except BaseException:
        driver.close()
        raise
