#!/usr/bin/python3
"""Isolation of credentials between origins, in Chromium.

A page must learn nothing about the credentials of another origin, whatever built-in functions it replaces; with
DevTools, it must not learn its own private keys either. A page must not be able to lose its credentials.

    tests/webdriver/origins.py        exits with 3 if chromedriver is missing
"""

from __future__ import annotations

import base64
import json
import shutil
import sys
import time
from collections.abc import Callable
from functools import partial
from pathlib import Path
from tempfile import TemporaryDirectory
from typing import Any

HERE = Path(__file__).resolve().parent
sys.path.insert(0, str(HERE))

import run
from cryptography.hazmat.primitives import serialization
from cryptography.hazmat.primitives.asymmetric import ec

TIMEOUT_SECONDS = 600


def to_base64url(data: bytes) -> str:
    return base64.urlsafe_b64encode(data).decode().rstrip("=")


def make_credential(rp_id: str, name: str) -> dict[str, Any]:
    private = ec.generate_private_key(ec.SECP256R1()).private_bytes(
        serialization.Encoding.DER, serialization.PrivateFormat.PKCS8, serialization.NoEncryption()
    )
    made = {"credentialId": to_base64url(name.encode()), "isResidentCredential": True, "rpId": rp_id}
    made["privateKey"] = to_base64url(private)
    return {**made, "userHandle": to_base64url(name.encode()), "signCount": 7}


def list_credential_texts(held: dict[str, Any]) -> set[str]:
    """Returns the texts by which a credential would be recognized: its ID and its private key, in each encoding that a
    script may use."""
    found = set()
    for text in (held["credentialId"], held["privateKey"]):
        data = base64.urlsafe_b64decode(text + "==")
        # The private key is in the middle of PKCS #8, so its base64 encoding depends on the offset.
        part = data[36:68] if len(data) > 100 else data
        found |= {json.dumps(list(part), separators=(",", ":"))[1:-1], part.hex()}
        found |= {base64.b64encode(bytes(shift) + part).decode()[4 + shift : -4] for shift in range(3)}
    found |= {text.replace("+", "-").replace("/", "_") for text in found}
    return found


class ProxySession(run.CommandTests):
    """A session at the proxy."""

    def __init__(self, url: str, page: str, has_devtools: bool):
        super().__init__(url, page, has_devtools)
        self.hostile = page.replace("page.html", "hostile.html")
        self.other = self.hostile.replace("localhost", "a.localhost")
        self.key = self.add_authenticator(hasUserVerification=True, isUserVerified=True)

    def open(self, url: str) -> None:
        assert self.post("/url", {"url": url})[0] == 200

    def run(self, script: str, *words: Any) -> Any:
        status, value = self.post("/execute/sync", {"script": script, "args": list(words)})
        assert status == 200, value
        return value

    def run_async(self, script: str) -> Any:
        status, value = self.post("/execute/async", {"script": f"({script})().then(arguments[0])", "args": []})
        assert status == 200, value
        return value

    def list_credentials(self) -> list[dict[str, Any]]:
        status, listed = run.call("GET", f"{self.url}{self.key}/credentials")
        assert status == 200, listed
        return list(listed)

    def read_attacker_data(self) -> str:
        return str(self.run_async("everything"))

    def close(self) -> None:
        self.end_session()


def find_leaked_texts(loot: str, held: dict[str, Any]) -> set[str]:
    return {text for text in list_credential_texts(held) if text in loot}


def test_other_origin(suite: ProxySession) -> None:
    """A page that replaces built-in functions can't see credentials of another origin."""
    suite.call_page("register", residentKey="required")
    assert suite.post(f"{suite.key}/credential", make_credential("localhost", "the bank's"))[0] == 200
    suite.run("localStorage.clear(); sessionStorage.clear()")
    secret = suite.list_credentials()
    assert len(secret) == 2
    suite.open(suite.other)
    suite.list_credentials()
    own = suite.call_page("register", residentKey="required", name="bob")
    assert isinstance(own, dict), own
    assert suite.post(f"{suite.key}/credential", make_credential("a.localhost", "carol"))[0] == 200
    assert suite.post(f"{suite.key}/uv", {"isUserVerified": True})[0] == 200
    assert isinstance(suite.call_page("signIn", allow=[own["id"]]), dict)
    suite.list_credentials()
    loot = suite.read_attacker_data()
    assert len(loot) > 10_000 and own["id"] in loot, "the attacker's page did not store the data that it can read"
    for held in secret:
        assert not find_leaked_texts(loot, held), (held["credentialId"], find_leaked_texts(loot, held))
    mine = [credential for credential in suite.list_credentials() if credential["rpId"] == "a.localhost"]
    assert len(mine) == 2
    numbers = [{**credential, "credentialId": credential["privateKey"]} for credential in mine]
    if suite.has_devtools:
        assert not any(find_leaked_texts(loot, number) for number in numbers), "the page got a private key"
        assert suite.call_page("signIn", allow=[secret[0]["credentialId"]]) == "NotAllowedError"
    suite.open(suite.page)
    assert suite.call_page("signIn", allow=[secret[0]["credentialId"]])["id"] == secret[0]["credentialId"]


def test_own_storage(suite: ProxySession) -> None:
    """A page's storage has no private key in clear text."""
    suite.call_page("register", residentKey="required")
    storage = "return JSON.stringify([{ ...localStorage }, { ...sessionStorage }])"
    before = suite.run(storage)
    suite.run("localStorage.setItem('x', 1)")
    for held in suite.list_credentials():
        for text in (before, suite.run(storage)):
            assert not find_leaked_texts(text, {**held, "credentialId": held["privateKey"]}), text


def test_cleared_storage(suite: ProxySession) -> None:
    """A page that clears its storage after each call loses no credentials."""
    clear = "localStorage.clear(); sessionStorage.clear(); indexedDB.databases()"
    suite.run(
        "const create = navigator.credentials.create.bind(navigator.credentials);"
        f"navigator.credentials.create = async (...given) => {{ const it = await create(...given); await {clear};"
        "return it; }"
    )
    made = suite.call_page("register", residentKey="required")
    suite.run(clear)
    suite.post("/refresh", {})
    assert suite.call_page("signIn")["id"] == made["id"]
    assert [credential["credentialId"] for credential in suite.list_credentials()] == [made["id"]]


def test_navigation(suite: ProxySession) -> None:
    """A page that navigates away right after a call loses no credentials."""
    suite.run("register({ residentKey: 'required' }).then((made) => { location.href = `?made=${made.id}`; })")
    end = time.monotonic() + TIMEOUT_SECONDS
    while "made=" not in (url := str(run.call("GET", f"{suite.url}/url")[1])) and time.monotonic() < end:
        time.sleep(0.05)
    made = url.partition("made=")[2]
    assert suite.call_page("signIn")["id"] == made
    assert [credential["credentialId"] for credential in suite.list_credentials()] == [made]


ADD_FRAME_SCRIPT = """const frame = document.createElement("iframe"); frame.src = arguments[0];
frame.allow = "publickey-credentials-create *; publickey-credentials-get *";
frame.onload = arguments[1]; document.body.append(frame);"""


def test_frames(suite: ProxySession) -> None:
    """A frame of another origin can't see the credentials of the page. A frame of the same origin shares them."""
    made = suite.call_page("register", residentKey="required")
    for url, is_same in ((suite.other, False), (suite.hostile, True)):
        suite.open(suite.page)
        assert suite.post("/execute/async", {"script": ADD_FRAME_SCRIPT, "args": [url]})[0] == 200
        assert suite.post("/frame", {"id": 0})[0] == 200
        suite.list_credentials()
        if is_same:
            assert suite.call_page("signIn")["id"] == made["id"]
        else:
            if suite.has_devtools:
                assert suite.call_page("signIn") == "NotAllowedError"
            assert not any(find_leaked_texts(suite.read_attacker_data(), held) for held in suite.list_credentials())
        assert suite.post("/frame", {"id": None})[0] == 200


def test_frame_is_current(suite: ProxySession) -> None:
    """If an authenticator is added while a frame of another origin is current, it is not installed in that frame."""
    held = make_credential("localhost", "the bank's")
    assert run.call("DELETE", suite.url + suite.key) == (200, {})
    suite.open(suite.page)
    assert suite.post("/execute/async", {"script": ADD_FRAME_SCRIPT, "args": [suite.other]})[0] == 200
    assert suite.post("/frame", {"id": 0})[0] == 200
    suite.key = suite.add_authenticator(hasUserVerification=True, isUserVerified=True)
    assert suite.post(f"{suite.key}/credential", held)[0] == 200
    suite.list_credentials()
    assert not find_leaked_texts(suite.read_attacker_data(), held)
    suite.open(suite.page)
    assert suite.call_page("signIn")["id"] == held["credentialId"]


def test_windows(suite: ProxySession) -> None:
    """A window that a page opens has the key, and its registrations are available in both windows."""
    first = run.call("GET", f"{suite.url}/window")[1]
    suite.run("window.open('page.html?second')")
    end = time.monotonic() + TIMEOUT_SECONDS
    while len(handles := run.call("GET", f"{suite.url}/window/handles")[1]) < 2 and time.monotonic() < end:
        time.sleep(0.05)
    (second,) = set(handles) - {first}
    assert suite.post("/window", {"handle": second})[0] == 200
    while suite.run("return document.readyState") != "complete" and time.monotonic() < end:
        time.sleep(0.05)
    if suite.has_devtools:
        at_first = suite.run("return document.getElementById('at-first').textContent")
        assert at_first == "false", "the key was not installed before the first script of a window"
    made = suite.call_page("register", residentKey="required")
    assert run.call("DELETE", f"{suite.url}/window")[0] == 200
    assert suite.post("/window", {"handle": first})[0] == 200
    assert suite.call_page("signIn")["id"] == made["id"]


def test_removal(suite: ProxySession) -> None:
    """After the authenticator is removed, no part of it remains in pages."""
    suite.call_page("register")
    assert run.call("DELETE", suite.url + suite.key) == (200, {})
    names = "return Object.getOwnPropertyNames(globalThis).filter((name) => /hidlog/i.test(name))"
    assert suite.run(names) == [], suite.run(names)
    assert suite.run("return /native code/.test(navigator.credentials.create)")
    stored = suite.run("return Object.keys({ ...localStorage, ...sessionStorage })")
    assert not [name for name in stored if name.startswith("hidlog")], stored
    suite.post("/refresh", {})
    assert suite.run(names) == [], "a new document has parts of the authenticator"


TESTS: list[Callable[[ProxySession], None]] = [
    test_other_origin,
    test_own_storage,
    test_cleared_storage,
    test_navigation,
    test_frames,
    test_frame_is_current,
    test_windows,
    test_removal,
]


def run_tests(url: str, page: str, has_devtools: bool) -> bool:
    failed = False
    kind = "with DevTools" if has_devtools else "without DevTools"
    for test in TESTS:
        suite = ProxySession(url, page, has_devtools)
        try:
            test(suite)
            print(f"ok  {kind}: {test.__doc__}")
        except (AssertionError, TypeError, KeyError) as error:
            print(f"FAILED  {kind}: {test.__doc__} {error!r}"[:1500])
            failed = True
        finally:
            suite.close()
    return not failed


def main() -> int:
    if not shutil.which("chromedriver"):
        print("tests/webdriver: chromedriver is missing (apt-get install chromium-driver)", file=sys.stderr)
        return 3
    with TemporaryDirectory() as work_dir, run.start_server(partial(run.FileHandler, directory=str(HERE))) as port:
        page = f"http://localhost:{port}/page.html"
        with run.start_process(["chromedriver", "--log-level=OFF"], run.find_free_port()) as driver:
            with run.start_process(run.make_proxy_command(driver, Path(work_dir)), run.find_free_port()) as proxy:
                passed = [run_tests(proxy, page, True)]
            with run.start_server(partial(run.DriverWithoutDevTools, driver)) as bare:
                words = run.make_proxy_command(f"http://127.0.0.1:{bare}", Path(work_dir))
                with run.start_process(words, run.find_free_port()) as proxy:
                    passed.append(run_tests(proxy, page, False))
    return 0 if all(passed) else 1


if __name__ == "__main__":
    sys.exit(main())
