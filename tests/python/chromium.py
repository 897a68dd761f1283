"""Chromium, driven by chromedriver, with a page on http://localhost that loads the key of bindings/web/dist."""

from __future__ import annotations

import json
import os
import shutil
import socket
import subprocess
import threading
import time
import urllib.request
from collections.abc import Iterator
from contextlib import contextmanager
from http.server import BaseHTTPRequestHandler, ThreadingHTTPServer
from pathlib import Path
from typing import Any

KEY_SCRIPT = Path(os.environ["HIDLOG_EXAMPLES"]).parent / "bindings" / "web" / "dist" / "security_key.js"


class PageHandler(BaseHTTPRequestHandler):
    """Serves an empty page, and the key's script for pages."""

    def do_GET(self) -> None:
        """Responds to any path."""
        is_script = self.path == "/security_key.js"
        self.send_response(200)
        self.send_header("Content-Type", "text/javascript" if is_script else "text/html")
        self.end_headers()
        self.wfile.write(KEY_SCRIPT.read_bytes() if is_script else b'<script src="security_key.js"></script>')

    def log_message(self, *_: Any) -> None:
        """Does not log requests."""


class Driver:
    """A session of chromedriver."""

    def __init__(self, port: int):
        self.origin = ""
        self.url = f"http://127.0.0.1:{port}/session"
        options = {"args": ["--headless=new", "--no-sandbox", "--disable-dev-shm-usage"]}
        started = self.call("", {"capabilities": {"alwaysMatch": {"goog:chromeOptions": options}}})
        self.url += f"/{started['sessionId']}"

    def call(self, path: str, given: Any, method: str = "POST") -> Any:
        """Runs a WebDriver command, and returns its value."""
        body = json.dumps(given).encode() if method == "POST" else None
        kind = {"Content-Type": "application/json"}
        request = urllib.request.Request(self.url + path, body, kind, method=method)
        with urllib.request.urlopen(request, timeout=600) as answer:
            return json.load(answer)["value"]

    def send_devtools_command(self, command: str, **parameters: Any) -> Any:
        """Sends a DevTools command."""
        return self.call("/goog/cdp/execute", {"cmd": command, "params": parameters})

    def run(self, script: str, *words: Any, waits: bool = False) -> Any:
        """Runs a script in the page."""
        return self.call(f"/execute/{'async' if waits else 'sync'}", {"script": script, "args": words})


def wait_for_port(port: int) -> None:
    """Waits up to ten minutes until a local port is listening. Only a server that hangs takes this long."""
    for _ in range(6000):
        try:
            socket.create_connection(("127.0.0.1", port)).close()
            return
        except ConnectionRefusedError:
            time.sleep(0.1)
    raise TimeoutError(f"nothing listens on port {port} after ten minutes")


def is_installed() -> bool:
    """Returns whether chromedriver is installed."""
    return shutil.which("chromedriver") is not None


@contextmanager
def open_page() -> Iterator[Driver]:
    """Provides a page whose origin is secure."""
    server = ThreadingHTTPServer(("127.0.0.1", 0), PageHandler)
    threading.Thread(target=server.serve_forever, daemon=True).start()
    with socket.socket() as free:
        free.bind(("127.0.0.1", 0))
        port = free.getsockname()[1]
    process = subprocess.Popen(["chromedriver", f"--port={port}"], stdout=subprocess.DEVNULL, stderr=subprocess.DEVNULL)
    try:
        wait_for_port(port)
        driver = Driver(port)
        driver.origin = f"http://localhost:{server.server_address[1]}"
        driver.call("/url", {"url": f"{driver.origin}/"})
        yield driver
        driver.call("", None, "DELETE")
    finally:
        process.terminate()
        process.wait()
        server.shutdown()
        server.server_close()
