#!/usr/bin/env python3
"""Runs test modules in a browser, one after the other: serve.py FOLDER MODULE[,MODULE..] BROWSER [ARGUMENT..]

A MODULE is a file of this folder without .js, which page.html loads, and may be followed by &NAME=VALUE.

Serves the repository's files on 127.0.0.1 only, with the relying party under /rp/, starts the browser with the first
module's URL as its last argument, and waits for the results that each module posts to /done. The logs that the modules
recorded are written to FOLDER. The exit status is 0 if all tests passed.
"""

import contextlib
import json
import os
import signal
import subprocess
import sys
import tempfile
import threading
import time
from base64 import b64decode
from http.server import SimpleHTTPRequestHandler, ThreadingHTTPServer
from urllib.parse import parse_qs, urlsplit

from relying_party import RelyingParty

TOP = os.path.abspath(os.path.join(os.path.dirname(__file__), "..", ".."))
# A test hangs if it takes this much processor time, or this long by the clock with less than IDLE_CPU_SHARE of that time.
TIMEOUT_SECONDS = 900
IDLE_CPU_SHARE = 0.02
# A page's own thread reports every 5 seconds that the page is alive, so after this silence its process is gone.
MAX_SILENT_SECONDS = 600
# How many of the browser's last lines of output are printed.
SHOWN_LINES = 15


def is_in_session(session, process):
    """Returns whether a process belongs to a session."""
    with open(f"/proc/{process}/stat", encoding="ascii", errors="replace") as file:
        return file.read().rpartition(")")[2].split()[3] == str(session)


def read_processor_seconds(session):
    """Returns the processor time of all threads of a session's processes, from Linux's scheduler statistics."""
    nanoseconds = 0
    for process in filter(str.isdigit, os.listdir("/proc")):
        try:
            threads = os.listdir(f"/proc/{process}/task") if is_in_session(session, process) else []
            for thread in threads:
                with open(f"/proc/{process}/task/{thread}/schedstat", encoding="ascii") as file:
                    nanoseconds += int(file.read().split()[0])
        except OSError:
            continue
    return nanoseconds / 1e9


def read_peak_memory(process):
    """Returns a process's peak resident memory in megabytes, or 0 if it has ended."""
    try:
        with open(f"/proc/{process}/status", encoding="ascii", errors="replace") as file:
            return sum(int(line.split()[1]) for line in file if line.startswith("VmHWM")) // 1024
    except OSError:
        return 0


def read_session_peak_memory(session):
    """Returns the largest peak resident memory of a session's processes, in megabytes."""
    with contextlib.suppress(OSError):
        return max(
            read_peak_memory(name) for name in os.listdir("/proc") if name.isdigit() and is_in_session(session, name)
        )
    return 0


def make_long_log(name, megabytes):
    """Returns the records of an example, and how often to repeat them for this size."""
    with open(os.path.join(TOP, "examples", os.path.basename(name)), "rb") as file:
        part = b"".join(line for line in file if line[:1] not in (b"=", b"#"))
    return part, megabytes * 1024 * 1024 // len(part)


class PageHandler(SimpleHTTPRequestHandler):
    """Serves the files and the relying party, and collects the pages' results."""

    def __init__(self, *rest):
        super().__init__(*rest, directory=TOP)

    def end_headers(self):
        # Cross-origin isolated pages get a clock with a resolution of 5 microseconds.
        self.send_header("Cross-Origin-Opener-Policy", "same-origin")
        self.send_header("Cross-Origin-Embedder-Policy", "require-corp")
        self.send_header("Cross-Origin-Resource-Policy", "cross-origin")
        self.send_header("Cache-Control", "no-store")
        # A page chooses its own policy in the query of its URL.
        for policy in parse_qs(urlsplit(self.path).query).get("csp", []):
            self.send_header("Content-Security-Policy", policy)
        super().end_headers()

    def log_message(self, *_):
        """Doesn't log requests."""

    def do_GET(self):
        """Serves a file, or a long log made from an example."""
        parts = urlsplit(self.path)
        if not parts.path.startswith("/long/"):
            super().do_GET()
            return
        part, count = make_long_log(parts.path, int(parse_qs(parts.query)["megabytes"][0]))
        self.send_response(200)
        self.send_header("Content-Length", str(len(part) * count))
        self.end_headers()
        for _ in range(count):
            self.wfile.write(part)

    def handle_request(self, path, request):
        """Responds to a request of the page."""
        self.server.last_heard = time.monotonic()
        if path == "/lives":
            return {}
        if path == "/begun":
            self.server.test = (
                request["module"],
                request["test"],
                time.monotonic(),
                read_processor_seconds(self.server.browser),
            )
            return {}
        if path == "/done":
            self.server.results.append(request)
            if self.server.pages:
                return {"next": self.server.pages.pop(0)}
            self.server.is_done.set()
            return {}
        if path == "/processor":
            return {"seconds": read_processor_seconds(self.server.browser)}
        return getattr(self.server.relying_party, path.removeprefix("/rp/"))(**request)

    def do_POST(self):
        """Responds to a request of the page; to a failing one with the error's text."""
        request = json.loads(self.rfile.read(int(self.headers["Content-Length"])))
        try:
            status, answer = 200, self.handle_request(self.path, request)
        except Exception as error:
            status, answer = 400, {"error": f"{type(error).__name__}: {error}"}
        body = json.dumps(answer).encode()
        self.send_response(status)
        self.send_header("Content-Type", "application/json")
        self.send_header("Content-Length", str(len(body)))
        self.end_headers()
        # The browser may have closed the connection.
        with contextlib.suppress(ConnectionError):
            self.wfile.write(body)


def wait_for_results(server, started):
    """Waits for the results. Returns why there are none, or an empty string."""
    while not server.is_done.wait(1):
        server.memory = max(server.memory, read_session_peak_memory(started.pid))
        module, test, began, used = server.test
        where = f"in {module}, test {test!r}, at a peak of {server.memory} MB in one process"
        now = time.monotonic()
        if started.poll() is not None:
            return f"the browser ended with status {started.returncode} {where}"
        if now - server.last_heard > MAX_SILENT_SECONDS:
            return f"the tab is gone (it crashed, or was killed) {where}"
        used = read_processor_seconds(started.pid) - used
        if used > TIMEOUT_SECONDS or now - began > TIMEOUT_SECONDS and used < IDLE_CPU_SHARE * (now - began):
            return f"the page hangs: {now - began:.0f} s, of them {used:.0f} s of processor time, {where}"
    server.memory = max(server.memory, read_session_peak_memory(started.pid))
    return ""


def run_browser(arguments, url, server):
    """Starts the browser with a new profile and waits for the results. Returns why there are none, or ''."""
    with tempfile.TemporaryDirectory(ignore_cleanup_errors=True) as profile, tempfile.TemporaryFile() as output:
        command = [argument.replace("PROFILE", profile) for argument in arguments]
        started = subprocess.Popen([*command, url], stdout=output, stderr=output, start_new_session=True)
        server.browser = started.pid
        why = wait_for_results(server, started)
        with contextlib.suppress(ProcessLookupError):
            os.killpg(started.pid, signal.SIGTERM)
        started.wait()
        if why:
            output.seek(0)
            last = output.read().decode(errors="replace").splitlines()[-SHOWN_LINES:]
            print(*(f"    {line[:300]}" for line in last), sep="\n")
    return why


def print_results(results, folder):
    """Prints the result of each test of a page and writes its logs. Returns whether all passed."""
    for name, text in results["logs"].items():
        data = b64decode(text) if name.endswith(".snapshot") else text.encode()
        with open(os.path.join(folder, name), "wb") as file:
            file.write(data)
    for test in results["tests"]:
        took = f" ({test['seconds']:.1f} s)" if test["seconds"] >= 1 else ""
        print(f"{'FAILED' if test['error'] else 'ok'}  {test['name']}{took}{test['error'] and ': ' + test['error']}")
    for line in results["figures"]:
        print(f"    {line}")
    return bool(results["tests"]) and not any(test["error"] for test in results["tests"])


def main():
    folder, listed, *arguments = sys.argv[1:]
    first, *rest = listed.split(",")
    server = ThreadingHTTPServer(("127.0.0.1", 0), PageHandler)
    origin = f"http://localhost:{server.server_address[1]}"
    server.relying_party, server.results, server.is_done = RelyingParty(origin), [], threading.Event()
    server.pages = [f"{origin}/tests/web/page.html?module={module}" for module in rest]
    server.last_heard, server.memory = time.monotonic(), 0
    server.test = (first, "the first", time.monotonic(), 0.0)
    threading.Thread(target=server.serve_forever, daemon=True).start()
    why = run_browser(arguments, f"{origin}/tests/web/page.html?module={first}", server)
    passed = [print_results(result, folder) for result in server.results]
    print(f"    the browser's largest process had {server.memory} MB at its peak")
    if why:
        print(f"FAILED  {why}")
    return 0 if not why and all(passed) else 1


if __name__ == "__main__":
    sys.exit(main())
