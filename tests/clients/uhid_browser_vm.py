#!/usr/bin/env python3
"""A page registers and signs in with an unmodified browser, for which the key is a device of the kernel:
uhid_package_vm.sh runs this in its virtual machine.

    uhid_browser_vm.py firefox|chromium

It serves the page at http://localhost:8000, starts the browser as the user tester, and verifies what the page sends:
the client data, the RP ID hash, the flag UP, the signature, and that the signature counter increases.
"""

from __future__ import annotations

import base64
import hashlib
import http.server
import json
import os
import queue
import subprocess
import sys
import threading
import urllib.request
from pathlib import Path

from cryptography.hazmat.primitives import hashes, serialization
from cryptography.hazmat.primitives.asymmetric import ec

TIMEOUT_SECONDS = 800
PAGE = """<!doctype html><title>A service</title><p>signing in<script>
const text = (bytes) => btoa(String.fromCharCode(...new Uint8Array(bytes)));
const send = (said) => fetch("/said", { method: "POST", body: JSON.stringify(said) });
const run = async () => {
    const challenge = crypto.getRandomValues(new Uint8Array(32));
    const publicKey = {
        rp: { id: "localhost", name: "A service" }, challenge, timeout: 600000,
        user: { id: new Uint8Array([1]), name: "ann", displayName: "Ann" },
        pubKeyCredParams: [{ type: "public-key", alg: -7 }],
        authenticatorSelection: { authenticatorAttachment: "cross-platform", userVerification: "discouraged" },
    };
    const made = await navigator.credentials.create({ publicKey });
    await send({ made: text(made.response.getPublicKey()), browser: navigator.userAgent });
    for (let count = 0; count < 2; count++) {
        const used = await navigator.credentials.get({ publicKey: {
            challenge, rpId: "localhost", timeout: 600000, userVerification: "discouraged",
            allowCredentials: [{ type: "public-key", id: made.rawId, transports: ["usb"] }],
        } });
        await send({ data: text(used.response.authenticatorData), client: text(used.response.clientDataJSON),
            signature: text(used.response.signature), challenge: text(challenge) });
    }
};
run().catch((error) => send({ error: `${error}` }));
</script>"""
MESSAGES: queue.Queue[dict[str, str]] = queue.Queue()
PAGE_REQUESTED = threading.Event()


class Service(http.server.BaseHTTPRequestHandler):
    """Serves the page, and receives messages from it."""

    def do_GET(self) -> None:
        print("asked for", self.path, flush=True)
        PAGE_REQUESTED.set()
        self.send_text(PAGE.encode() if self.path == "/" else b"")

    def do_POST(self) -> None:
        MESSAGES.put(json.loads(self.rfile.read(int(self.headers["Content-Length"]))))
        self.send_text(b"")

    def send_text(self, text: bytes) -> None:
        self.send_response(200)
        self.send_header("Content-Type", "text/html")
        self.send_header("Content-Length", str(len(text)))
        self.end_headers()
        self.wfile.write(text)

    def log_message(self, *_: object) -> None:
        pass


def make_browser_command(browser: str) -> list[str]:
    """Returns the command with which the browser is started."""
    home = Path("/home/tester") / browser
    home.mkdir(exist_ok=True)
    os.chown(home, 1234, 1234)
    if browser == "chromium":
        # Under emulation, Chromium kills its network process because it starts slowly, and the first page is lost.
        words = ["chromium", "--headless=new", "--no-sandbox", "--disable-gpu", "--no-first-run"]
        words += ["--enable-features=NetworkServiceInProcess2", "--remote-debugging-port=9222"]
        return [
            *words,
            f"--user-data-dir={home}",
            "--enable-logging=stderr",
            "--vmodule=device_event_log*=2,*authenticator*=1,*/webauthn/*=2",
        ]
    return ["firefox-esr", "--headless", "--no-remote", "--profile", str(home)]


def reopen_page() -> None:
    """Opens the page in another tab, because Chromium may have lost the first one."""
    address = "http://127.0.0.1:9222/json/new?http://localhost:8000/"
    try:
        urllib.request.urlopen(urllib.request.Request(address, method="PUT"), timeout=60).close()
    except OSError as error:
        print("no tab was opened:", error, flush=True)


def wait_for_message(process: subprocess.Popen[bytes]) -> dict[str, str]:
    """Returns the next message from the page."""
    for second in range(1, TIMEOUT_SECONDS):
        try:
            found = MESSAGES.get(timeout=1)
        except queue.Empty:
            if second % 90 == 0 and not PAGE_REQUESTED.is_set():
                reopen_page()
            assert process.poll() is None, f"the browser ended with {process.returncode}"
            continue
        assert "error" not in found, found["error"]
        return found
    raise AssertionError(f"the page sent nothing within {TIMEOUT_SECONDS} s")


def verify_sign_in(public: ec.EllipticCurvePublicKey, used: dict[str, str]) -> int:
    """Verifies a sign-in, and returns its signature counter."""
    data, client = base64.b64decode(used["data"]), base64.b64decode(used["client"])
    public.verify(
        base64.b64decode(used["signature"]), data + hashlib.sha256(client).digest(), ec.ECDSA(hashes.SHA256())
    )
    facts = json.loads(client)
    challenge = base64.urlsafe_b64encode(base64.b64decode(used["challenge"])).decode().rstrip("=")
    assert (facts["type"], facts["challenge"], facts["origin"]) == ("webauthn.get", challenge, "http://localhost:8000")
    assert data[:32] == hashlib.sha256(b"localhost").digest() and data[32] & 1, data.hex()
    return int.from_bytes(data[33:37], "big")


def main() -> int:
    browser = sys.argv[1]
    server = http.server.ThreadingHTTPServer(("127.0.0.1", 8000), Service)
    threading.Thread(target=server.serve_forever, daemon=True).start()
    user = ["setpriv", "--reuid=tester", "--regid=tester", "--init-groups"]
    home = ["env", "HOME=/home/tester", "XDG_RUNTIME_DIR=/home/tester", "MOZ_LOG=webauthn:5,authenticator:5"]
    with open("browser.err", "wb") as errors:
        words = [*user, *home, *make_browser_command(browser), "http://localhost:8000/"]
        process = subprocess.Popen(words, stdout=errors, stderr=errors, stdin=subprocess.DEVNULL)
        try:
            made = wait_for_message(process)
            public = serialization.load_der_public_key(base64.b64decode(made["made"]))
            assert isinstance(public, ec.EllipticCurvePublicKey)
            counters = [verify_sign_in(public, wait_for_message(process)) for _ in range(2)]
        except AssertionError as wrong:
            print(wrong)
            lines = Path("browser.err").read_text(errors="replace").splitlines()
            print(*[line for line in lines if "dbus" not in line][-50:], sep="\n")
            return 1
        finally:
            process.kill()
            process.wait()
    # Firefox first sends a request that needs no user presence. Its signature increments the counter, too.
    assert 0 < counters[0] < counters[1], counters
    Path("versions").write_text(f"{browser}: {made['browser']}, counters {counters}\n")
    return 0


if __name__ == "__main__":
    sys.exit(main())
