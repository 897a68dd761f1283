"""Drives Chromium through chromedriver's HTTP API: opens pages, runs scripts, and sends DevTools commands."""

import json
import shutil
import socket
import subprocess
import time
import urllib.error
import urllib.request

# Timeouts in seconds. Only a page that hangs takes this long.
TIMEOUT_SECONDS = 600
START_TIMEOUT_SECONDS = 600


def find_free_port():
    """Returns a TCP port that is free."""
    with socket.socket() as listener:
        listener.bind(("127.0.0.1", 0))
        return listener.getsockname()[1]


def is_installed():
    """Returns whether chromedriver is installed."""
    return shutil.which("chromedriver") is not None


class Driver:
    """A browser with one window. It is a context manager, which closes the browser at its end."""

    def __init__(self):
        port = find_free_port()
        command = ["chromedriver", f"--port={port}"]
        self._process = subprocess.Popen(command, stdout=subprocess.DEVNULL, stderr=subprocess.DEVNULL)
        self._address = f"http://127.0.0.1:{port}"
        self._session = ""

    def __enter__(self):
        options = {"args": ["--headless=new", "--no-sandbox", "--disable-dev-shm-usage"]}
        capabilities = {"capabilities": {"alwaysMatch": {"goog:chromeOptions": options}}}
        end = time.monotonic() + START_TIMEOUT_SECONDS
        while not self._session:
            try:
                self._session = f"/session/{self.call('/session', capabilities)['sessionId']}"
            except (urllib.error.URLError, ConnectionError):
                if time.monotonic() > end:
                    self._process.kill()
                    raise
                time.sleep(0.05)
        self.call("/timeouts", {"script": 1000 * TIMEOUT_SECONDS})
        return self

    def __exit__(self, *_):
        try:
            request = urllib.request.Request(f"{self._address}{self._session}", method="DELETE")
            urllib.request.urlopen(request, timeout=TIMEOUT_SECONDS).close()
        finally:
            self._process.terminate()
            self._process.wait()

    def call(self, path, parameters):
        """Sends a WebDriver command and returns its value: a GET if `parameters` is None, otherwise a POST."""
        headers = {"Content-Type": "application/json"}
        body = None if parameters is None else json.dumps(parameters).encode()
        request = urllib.request.Request(f"{self._address}{self._session}{path}", body, headers)
        with urllib.request.urlopen(request, timeout=TIMEOUT_SECONDS) as response:
            return json.load(response)["value"]

    def wait_for(self, condition):
        """Waits until a JavaScript expression is true in the page."""
        end = time.monotonic() + TIMEOUT_SECONDS
        while not self.run(f"arguments[arguments.length - 1](Boolean({condition}))"):
            if time.monotonic() > end:
                raise SystemExit(f"the page timed out waiting for: {condition}")
            time.sleep(0.05)

    def open(self, url):
        """Opens a page."""
        self.call("/url", {"url": url})

    def get_window(self):
        """Returns the WebDriver handle of the current tab."""
        return self.call("/window", None)

    def open_tab(self):
        """Opens a tab and makes it the current one. Returns its handle."""
        handle = self.call("/window/new", {"type": "tab"})["handle"]
        self.switch(handle)
        return handle

    def switch(self, handle):
        """Makes another tab the current one."""
        self.call("/window", {"handle": handle})

    def send_devtools_command(self, command, **parameters):
        """Sends a DevTools command and returns its result."""
        return self.call("/goog/cdp/execute", {"cmd": command, "params": parameters})

    def run(self, script, *args):
        """Runs a script in the page and returns the value that it passes to its last argument, a callback."""
        return self.call("/execute/async", {"script": script, "args": args})
