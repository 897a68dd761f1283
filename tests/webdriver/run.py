#!/usr/bin/python3
"""Runs Selenium suites, written for Chromium's virtual authenticator, with chromedriver and with the proxy, and
compares the results of each test; then tests features that only the proxy has. Checks the recordings with
HIDLOG_PROGRAM.

    tests/webdriver/run.py        exits with 3 if chromedriver or python3-selenium is missing
"""

from __future__ import annotations

import json
import os
import shutil
import socket
import subprocess
import sys
import tempfile
import threading
import time
import urllib.error
import urllib.request
from collections.abc import Iterator
from contextlib import contextmanager
from functools import partial
from http.server import BaseHTTPRequestHandler, SimpleHTTPRequestHandler, ThreadingHTTPServer
from pathlib import Path
from typing import Any

HERE = Path(__file__).resolve().parent
TOP = HERE.parents[1]
PROGRAM = os.environ.get("HIDLOG_PROGRAM", str(TOP / "hidlog"))
SUITES = {"Python": ["/usr/bin/python3", str(HERE / "suite.py")], "Ruby": ["ruby", str(HERE / "suite.rb")]}
# The expected differences from chromedriver, with their reasons.
KNOWN_DIFFERENCES = {
    "test_broken_private_key": "chromedriver returns unknown error; the standard says invalid argument",
    "test_two_windows": "Chromium's authenticator belongs to one window, that of the standard to all windows of the session",
}
ENVIRONMENT = {**os.environ, "PYTHONPATH": str(TOP / "bindings" / "python" / "src"), "PYTHONDONTWRITEBYTECODE": "1"}
PRIVATE_KEY = (
    "MIGHAgEAMBMGByqGSM49AgEGCCqGSM49AwEHBG0wawIBAQQg8_zMDQDYAxlU-Qhk1Dwkf0v18GZca1DMF3SaJ9HPdmShRANCAASNYX5lyVCOZLzF"
)
PRIVATE_KEY += "ZzrIKmeZ2jwURmgsJYxGP__fWN_S-j5sN4tT15XEpN_7QZnt14YvI6uvAgO0uJEboFaZlOEB"
# A timeout in seconds. Only a call that hangs takes this long.
TIMEOUT_SECONDS = 300
MIN_TESTS = {"Python": 27, "Ruby": 22}
# The separate tests. Each test runs the parts that need no chromedriver if it is missing.
SEPARATE_TESTS = [
    "gate.py",
    "sockets.py",
    "../fuzz/webdriver.py",
    "messages.py",
    "websockets.py",
    "processes.py",
    "faults.py",
]
SEPARATE_TESTS += ["browsers.py", "origins.py", "seen.py", "cases.py"]


class FileHandler(SimpleHTTPRequestHandler):
    """Serves the page under test."""

    def log_message(self, *_: Any) -> None:
        """Does not log requests."""


def find_free_port() -> int:
    with socket.socket() as listener:
        listener.bind(("127.0.0.1", 0))
        port: int = listener.getsockname()[1]
        return port


@contextmanager
def start_server(handler: Any) -> Iterator[int]:
    """Starts a server, and provides its port."""
    server = ThreadingHTTPServer(("127.0.0.1", 0), handler)
    server.daemon_threads = True
    threading.Thread(target=server.serve_forever, daemon=True).start()
    try:
        yield server.server_address[1]
    finally:
        server.shutdown()
        server.server_close()


def wait_for_port(port: int, started: subprocess.Popen[bytes]) -> None:
    """Waits until a started process is listening."""
    end = time.monotonic() + TIMEOUT_SECONDS
    while time.monotonic() < end:
        with socket.socket() as client:
            if client.connect_ex(("127.0.0.1", port)) == 0:
                return
        if started.poll() is not None:
            raise SystemExit(
                f"FAILED  {started.args!r} ended with status {started.returncode} before it listened on port {port}"
            )
        time.sleep(0.1)
    raise SystemExit(f"FAILED  {started.args!r} doesn't listen after {TIMEOUT_SECONDS} seconds")


@contextmanager
def start_process(words: list[str], port: int) -> Iterator[str]:
    """Starts a driver or a proxy, and provides its address."""
    started = subprocess.Popen([*words, f"--port={port}"], stdout=subprocess.DEVNULL, env=ENVIRONMENT)
    try:
        wait_for_port(port, started)
        yield f"http://127.0.0.1:{port}"
    finally:
        started.terminate()
        started.wait()


def make_proxy_command(driver: str, folder: Path) -> list[str]:
    return [sys.executable, "-m", "hidlog.webdriver", "--driver", driver, "--recordings", str(folder)]


def call(method: str, url: str, given: Any = None) -> tuple[int, Any]:
    """Sends a WebDriver command, and returns the status and the value."""
    body = None if method in ("GET", "DELETE") else json.dumps(given).encode()
    request = urllib.request.Request(url, body, {"Content-Type": "application/json"}, method=method)
    try:
        with urllib.request.urlopen(request, timeout=600) as answer:
            return answer.status, json.load(answer)["value"]
    except urllib.error.HTTPError as error:
        return error.code, json.load(error)["value"]


def run_suite(language: str, url: str, page: str) -> dict[str, Any]:
    """Runs a test suite, and returns the results of its tests."""
    ran = subprocess.run([*SUITES[language], url, page], capture_output=True, text=True, timeout=1500, check=False)
    if ran.returncode:
        raise SystemExit(f"FAILED  the suite in {language} at {url}: {ran.stderr[-2000:]}")
    return dict(json.loads(line) for line in ran.stdout.splitlines())


def print_differences(language: str, at_driver: dict[str, Any], at_proxy: dict[str, Any], kind: str) -> bool:
    """Prints the differences between two results of a suite. Returns whether all of them are expected."""
    assert len(at_driver) >= MIN_TESTS[language], at_driver
    wrong = {name: (at_driver[name], at_proxy.get(name)) for name in at_driver if at_proxy.get(name) != at_driver[name]}
    for name in set(wrong) & set(KNOWN_DIFFERENCES):
        print(f"    {name}: {KNOWN_DIFFERENCES[name]}")
        del wrong[name]
    unforeseen = [outcome for outcome in at_driver.values() if isinstance(outcome, str) and "NoMethodError" in outcome]
    ok = not wrong and not unforeseen
    print(
        f"{'ok' if ok else 'FAILED'}  {len(at_driver)} tests in {language} at chromedriver and {kind}: {wrong or 'same'}"
    )
    return ok


class DriverWithoutDevTools(BaseHTTPRequestHandler):
    """A driver without the commands for DevTools and virtual authenticators. It passes other commands on to
    chromedriver."""

    protocol_version = "HTTP/1.1"

    def __init__(self, driver: str, *rest: Any):
        self.driver = driver
        super().__init__(*rest)

    def serve(self) -> None:
        body = self.rfile.read(int(self.headers.get("Content-Length") or 0))
        if "/goog/cdp/" in self.path or "/webauthn/" in self.path:
            status: int = 404
            value: Any = {"error": "unknown command", "message": "", "stacktrace": ""}
        else:
            status, value = call(self.command, self.driver + self.path, json.loads(body) if body else {})
            if self.path == "/session" and status == 200:
                value["capabilities"].pop("goog:chromeOptions")
        data = json.dumps({"value": value}).encode()
        self.send_response(status)
        self.send_header("Content-Length", str(len(data)))
        self.end_headers()
        self.wfile.write(data)

    do_GET = do_POST = do_DELETE = serve

    def log_message(self, *_: Any) -> None:
        """Does not log requests."""


class CommandTests:
    """A session at the proxy, with tests of commands that only the proxy has."""

    def __init__(self, url: str, page: str, has_devtools: bool = True):
        self.page, self.has_devtools = page, has_devtools
        options = {"args": ["--headless=new", "--no-sandbox", "--disable-dev-shm-usage"]}
        wanted = {"capabilities": {"alwaysMatch": {"goog:chromeOptions": options}}}
        self.url = f"{url}/session/{call('POST', f'{url}/session', wanted)[1]['sessionId']}"
        self.post("/timeouts", {"script": 1000 * TIMEOUT_SECONDS})
        self.post("/url", {"url": page})

    def post(self, path: str, given: Any) -> tuple[int, Any]:
        return call("POST", self.url + path, given)

    def call_page(self, function: str, **words: Any) -> Any:
        script = f"{function}(arguments[0]).then(arguments[1])"
        return self.post("/execute/async", {"script": script, "args": [words]})[1]

    def add_authenticator(self, **more: Any) -> str:
        given = {"protocol": "ctap2", "transport": "usb", "hasResidentKey": True, **more}
        status, name = self.post("/webauthn/authenticator", given)
        assert status == 200, name
        return f"/webauthn/authenticator/{name}"

    def expect_error(self, code: str, expected: str, path: str, body: Any) -> None:
        """Checks that a command causes a WebDriver error with this code, whose message contains the expected values."""
        status, value = self.post(path, body)
        assert status >= 400 and value["error"] == code and expected in value["message"], (path, body, status, value)
        assert set(value) == {"error", "message", "stacktrace"}

    def test_options(self) -> None:
        """Unsupported options are rejected by name."""
        good = {"protocol": "ctap2", "transport": "usb"}
        at = "/webauthn/authenticator"
        self.expect_error("invalid argument", "ctap1/u2f, ctap2, ctap2_1", at, {**good, "protocol": "ctap3"})
        self.expect_error("invalid argument", "internal", at, {**good, "transport": "pigeon"})
        self.expect_error("invalid argument", "transport", at, {"protocol": "ctap2"})
        self.expect_error("invalid argument", "hasUserVerification", at, {**good, "hasUserVerification": 1})
        self.expect_error(
            "invalid argument", "ctap1/u2f", at, {**good, "protocol": "ctap1/u2f", "hasResidentKey": True}
        )
        self.expect_error("unsupported operation", "largeBlob", at, {**good, "extensions": ["prf", "uvm"]})
        self.expect_error("invalid argument", "ctap2_1", at, {**good, "extensions": ["prf", "largeBlob"]})
        self.expect_error("invalid argument", "-257", at, {**good, "algorithms": [-8]})
        self.expect_error("invalid argument", "basic", at, {**good, "attestation": "packed"})
        self.expect_error("invalid argument", "no authenticator", f"{at}/nobody/uv", {"isUserVerified": True})
        key = self.add_authenticator()
        self.expect_error("unsupported operation", "already has an authenticator", at, good)
        self.expect_error("invalid argument", "rpId", f"{key}/credential", {"isResidentCredential": False})
        self.expect_error("invalid argument", "isUserVerified", f"{key}/uv", {})
        self.expect_error("unknown method", "POST", f"{key}/credentials", {})
        assert call("DELETE", self.url + key) == (200, {})

    def test_presence_and_faults(self) -> None:
        """Features that the proxy adds to virtual authenticators: a script for user presence, faults, and the
        recording."""
        key = self.add_authenticator()
        made = self.call_page("register", residentKey="required")
        assert self.post(f"{key}/presence", {"presence": ["denied", "timeout", "granted"]}) == (200, None)
        assert self.call_page("signIn") == "NotAllowedError"
        message = self.post("/execute/sync", {"script": "return lastMessage", "args": []})[1]
        assert ": the user refused)" in message, message
        self.post("/refresh", {})
        assert [self.call_page("signIn"), self.call_page("signIn")["id"]] == ["NotAllowedError", made["id"]]
        self.expect_error("invalid argument", "granted, denied", f"{key}/presence", {"presence": "yes"})
        assert self.post(f"{key}/faults", {"status": "KEY_STORE_FULL"}) == (200, None)
        assert self.call_page("register") == "NotAllowedError"
        assert self.post(f"{key}/faults", {}) == (200, None)
        assert self.call_page("register", name="bob")["flags"] == 0x41
        self.expect_error("invalid argument", "truncateBy", f"{key}/faults", {"wrong": 1})
        ((origin, parts),) = call("GET", f"{self.url}{key}/log")[1].items()
        assert self.page.startswith(origin) and "# fault: the response has status 0x28" in parts[-1]["log"]
        assert sum(part["log"].count(" denied\n") for part in parts) == 1, parts
        assert [recording["index"] for recording in parts] == list(range(1, len(parts) + 1)), parts
        assert call("DELETE", self.url + key) == (200, {})

    def test_pending_requests(self) -> None:
        """A change by a command applies to a pending request of a page."""
        key = self.add_authenticator(isUserConsenting=False, autofill="selected")
        self.post("/execute/sync", {"script": "window.made = register({ residentKey: 'required' })", "args": []})
        assert self.post(f"{key}/presence", {"presence": "granted"}) == (200, None)
        status, made = self.post("/execute/async", {"script": "made.then(arguments[0])", "args": []})
        assert status == 200 and made["id"], made
        assert call("DELETE", f"{self.url}{key}/credentials") == (200, {})
        options = "{ mediation: 'conditional', publicKey: { challenge: new Uint8Array(9) } }"
        begin = f"window.used = navigator.credentials.get({options}).then((credential) => credential.id, String)"
        self.post("/execute/sync", {"script": begin, "args": []})
        credential: dict[str, Any] = {
            "isResidentCredential": True,
            "rpId": "localhost",
            "privateKey": PRIVATE_KEY,
            "signCount": 0,
        }
        added = {**credential, "credentialId": "AQID", "userHandle": "AQ"}
        assert self.post(f"{key}/credential", added) == (200, {})
        choose = "hidlogKey.installedKey().selectAccount().then(() => used).then(arguments[0], (error) => arguments[0](`${error}`))"
        assert self.post("/execute/async", {"script": choose, "args": []}) == (200, "AQID")
        self.post("/execute/sync", {"script": begin, "args": []})
        assert self.post(f"{key}/account", {"account": "AQID"}) == (200, None)
        assert self.post("/execute/async", {"script": "used.then(arguments[0])", "args": []}) == (200, "AQID")
        assert call("DELETE", self.url + key) == (200, {})

    def test_accounts(self) -> None:
        """If there are several accounts, a command selects the account that signs in."""
        key = self.add_authenticator()
        for name in ("ann", "bob", "eve"):
            self.call_page("register", residentKey="required", name=name)
        for account, user in ((0, "eve"), ("ann", "ann"), (1, "bob")):
            assert self.post(f"{key}/account", {"account": account}) == (200, None)
            assert self.call_page("signIn")["user"] == user
        self.expect_error("invalid argument", "a user name", f"{key}/account", {"account": True})
        assert call("DELETE", self.url + key) == (200, {})

    def test_other_origins(self) -> None:
        """On each origin, the credentials are those of the session."""
        key = self.add_authenticator()
        self.call_page("register", residentKey="required")
        self.post("/url", {"url": self.page.replace("localhost", "a.localhost")})
        self.call_page("register", residentKey="required", name="bob")
        status, listed = call("GET", f"{self.url}{key}/credentials")
        assert status == 200 and sorted(credential["rpId"] for credential in listed) == [
            "a.localhost",
            "localhost",
        ], listed
        self.post("/url", {"url": self.page})
        assert self.call_page("signIn")["user"] == "ann"
        self.post("/execute/sync", {"script": "localStorage.clear()", "args": []})
        self.post("/refresh", {})
        assert self.call_page("signIn")["user"] == "ann", "sign-in fails after the page cleared its storage"
        assert call("DELETE", self.url + key) == (200, {})

    def test_other_commands(self) -> None:
        """All other commands go to the driver unchanged, with and without an authenticator."""
        assert self.post("/nothing", {})[1]["error"] == "unknown command"
        key = self.add_authenticator()
        self.post("/execute/sync", {"script": "setTimeout(() => alert('stop'), 0)", "args": []})
        end = time.monotonic() + TIMEOUT_SECONDS
        while (alert := call("GET", f"{self.url}/alert/text")) != (200, "stop") and time.monotonic() < end:
            time.sleep(0.1)
        assert alert == (200, "stop"), alert
        assert self.post("/alert/accept", {}) == (200, None)
        assert call("DELETE", self.url + key) == (200, {})
        text = {
            "script": "return document.getElementById('at-first').textContent + (hidlogKey.installedKey() ?? '')",
            "args": [],
        }
        self.post("/url", {"url": self.page})
        assert self.post("/execute/sync", {**text, "script": "return typeof hidlogKey"}) == (200, "undefined")
        key = self.add_authenticator()
        self.post("/url", {"url": self.page})
        first = {"script": "return document.getElementById('at-first').textContent", "args": []}
        is_native = str(not self.has_devtools).lower()
        assert self.post("/execute/sync", first) == (
            200,
            is_native,
        ), "the key was not installed before the first script"
        assert call("DELETE", self.url + key) == (200, {})

    def end_session(self) -> None:
        call("DELETE", self.url)


def run_commands(url: str, page: str, has_devtools: bool = True) -> bool:
    commands = CommandTests(url, page, has_devtools)
    failed = False
    for test in (
        commands.test_options,
        commands.test_presence_and_faults,
        commands.test_pending_requests,
        commands.test_accounts,
        commands.test_other_origins,
        commands.test_other_commands,
    ):
        try:
            test()
            print(f"ok  {test.__doc__}")
        except AssertionError as error:
            print(f"FAILED  {test.__doc__} {error}")
            failed = True
    commands.end_session()
    return not failed


def check_recordings(folder: Path) -> bool:
    """Checks the saved recordings with the program and with check-many. Returns whether all are correct."""
    logs = sorted(folder.rglob("*.log"))
    wrong = []
    for log in logs:
        snapshot = log.with_name(f"{log.name}.snapshot")
        words = ["--load", str(snapshot)] if snapshot.exists() else []
        if subprocess.run([PROGRAM, "check", *words, str(log)], capture_output=True, check=False).returncode:
            wrong.append(str(log))
    many = subprocess.run(
        [sys.executable, "-m", "hidlog", "check-many", str(folder)],
        capture_output=True,
        text=True,
        env=ENVIRONMENT,
        check=False,
    )
    others = [str(path) for path in folder.rglob("*") if path.is_file() and path.stat().st_mode & 0o777 != 0o600]
    has_snapshot = sum(log.with_name(f"{log.name}.snapshot").exists() for log in logs)
    is_same = many.returncode == 0 and many.stderr.strip() == f"{len(logs)} match"
    ok = len(logs) > 20 and has_snapshot > 10 and not wrong and is_same and not others
    text = (
        f"hidlog check of {len(logs)} recordings, {has_snapshot} with a snapshot, and check-many: {many.stderr.strip()}"
    )
    print(f"{'ok' if ok else 'FAILED'}  {text} {wrong or ''} {many.stdout} {others or ''}")
    return ok


def run_suites(driver: str, page: str, folder: Path) -> list[bool]:
    """Runs each suite with the driver, with the proxy, and with a proxy in front of a driver without DevTools."""
    results = []
    with start_process(make_proxy_command(driver, folder), find_free_port()) as proxy, start_server(
        partial(DriverWithoutDevTools, driver)
    ) as bare:
        with start_process(make_proxy_command(f"http://127.0.0.1:{bare}", folder), find_free_port()) as late:
            for language, words in SUITES.items():
                if not shutil.which(words[0]):
                    print(f"    {words[0]} is missing, and its suite wasn't run")
                    continue
                at_driver = run_suite(language, driver, page)
                results.append(print_differences(language, at_driver, run_suite(language, proxy, page), "the proxy"))
                without = "the proxy before a driver without DevTools"
                results.append(print_differences(language, at_driver, run_suite(language, late, page), without))
            results.append(run_commands(late, page, False))
        results.append(run_commands(proxy, page))
    return results


def run_separate_tests() -> bool:
    """Runs the separate tests. Returns whether all passed."""
    statuses = [subprocess.run([sys.executable, str(HERE / part)], check=False).returncode for part in SEPARATE_TESTS]
    return all(status in (0, 3) for status in statuses)


def main() -> int:
    passed = run_separate_tests()
    has_selenium = subprocess.run(
        ["/usr/bin/python3", "-c", "import selenium, cryptography"], capture_output=True, check=False
    )
    if not shutil.which("chromedriver") or has_selenium.returncode:
        print("tests/webdriver: chromedriver or python3-selenium is missing", file=sys.stderr)
        return 3 if passed else 1
    with tempfile.TemporaryDirectory() as work_dir, start_server(partial(FileHandler, directory=str(HERE))) as port:
        folder = Path(work_dir)
        with start_process(["chromedriver", "--log-level=OFF"], find_free_port()) as driver:
            results = run_suites(driver, f"http://localhost:{port}/page.html", folder)
        results.append(check_recordings(folder))
    return 0 if passed and all(results) else 1


if __name__ == "__main__":
    sys.exit(main())
