#!/usr/bin/env python3
"""`hidlog browser` of the npm package and of the Python package: both must return the same results for the same
commands, and the examples in other languages must pass with each.

    tests/browser_process/run.py      exits with 3 if node is missing
"""

from __future__ import annotations

import json
import os
import shlex
import shutil
import subprocess
import sys
import tempfile
from hashlib import sha256
from pathlib import Path
from typing import Any

TOP = Path(__file__).resolve().parents[2]
sys.path.insert(0, str(TOP / "bindings" / "python" / "src"))

from cryptography.hazmat.primitives import hashes
from cryptography.hazmat.primitives.asymmetric import ec
from cryptography.hazmat.primitives.serialization import load_der_public_key

from hidlog.webauthn_json import b64url_decode

Json = dict[str, Any]
ORIGIN = "https://example.com"
PROGRAM = os.environ.get("HIDLOG_PROGRAM", str(TOP / "hidlog"))
CREATION: Json = {
    "rp": {"id": "example.com", "name": "Example"},
    "user": {"id": "YW5u", "name": "ann", "displayName": "Ann"},
    "challenge": "AAECAwQFBgcICQoLDA0ODw",
    "pubKeyCredParams": [{"type": "public-key", "alg": -7}],
}
REQUEST: Json = {"challenge": "AAECAwQFBgcICQoLDA0ODw", "rpId": "example.com"}
DISCOVERABLE_CREATION = {**CREATION, "authenticatorSelection": {"residentKey": "required"}}
UV = {**CREATION, "authenticatorSelection": {"userVerification": "required"}}
EXAMPLES = {
    "Ruby": ["ruby", "sign_in.rb"],
    "Perl": ["perl", "sign_in.pl"],
    "Go": ["go", "run", "sign_in.go"],
    "Java": ["java", "SignIn.java"],
    "PHP": ["php", "sign_in.php"],
}


def install_npm_package(work_dir: Path) -> list[str]:
    """Copies the files of the npm package to a directory, and returns the command."""
    names = [
        "bindings/web/core.js",
        "bindings/web/dist/bytes.js",
        "release/hidlog.wasm",
        "packages/npm/cli.mjs",
        "packages/npm/browser.mjs",
        "packages/npm/node.mjs",
        "packages/npm/node18.mjs",
    ]
    names += [f"bindings/web/dist/security_key.{ending}" for ending in ("js", "mjs")] + ["packages/npm/package.json"]
    for name in names:
        shutil.copy(TOP / name, work_dir)
    return ["node", str(work_dir / "cli.mjs"), "browser"]


class Browser:
    """A process that responds to each line with a line."""

    def __init__(self, command: list[str]):
        self._process = subprocess.Popen(
            [*command, "--origin", ORIGIN], stdin=subprocess.PIPE, stdout=subprocess.PIPE, text=True
        )

    def exchange_line(self, line: str) -> Json:
        """Sends a line, and returns the response."""
        assert self._process.stdin and self._process.stdout
        self._process.stdin.write(line + "\n")
        self._process.stdin.flush()
        answer: Json = json.loads(self._process.stdout.readline())
        return answer

    def call(self, name: str, given: Any = None, **more: Any) -> Any:
        """Sends a command, and returns the value or the error's name."""
        answer = self.exchange_line(json.dumps({name: given, **more}))
        return answer["value"] if "value" in answer else answer["error"]

    def close(self) -> int:
        assert self._process.stdin
        self._process.stdin.close()
        return self._process.wait(600)


def read_flags(answer: Json) -> int:
    data: bytes = b64url_decode(answer["response"]["authenticatorData"])
    return data[32]


def test_register_and_sign_in(browser: Browser) -> Any:
    """A registration and two sign-ins, with verified signatures."""
    made = browser.call("create", CREATION)
    key = load_der_public_key(b64url_decode(made["response"]["publicKey"]))
    assert isinstance(key, ec.EllipticCurvePublicKey)
    allowed = [{"type": "public-key", "id": made["id"]}]
    counts = []
    for _ in range(2):
        used = browser.call("get", {"publicKey": {**REQUEST, "allowCredentials": allowed}})
        parts = {name: b64url_decode(text) for name, text in used["response"].items()}
        signed = parts["authenticatorData"] + sha256(parts["clientDataJSON"]).digest()
        key.verify(parts["signature"], signed, ec.ECDSA(hashes.SHA256()))
        assert json.loads(parts["clientDataJSON"])["origin"] == ORIGIN and used["id"] == made["id"]
        counts.append(int.from_bytes(parts["authenticatorData"][33:37], "big"))
    return sorted(made), sorted(made["response"]), sorted(used["response"]), read_flags(made), counts


def test_dom_errors(browser: Browser) -> Any:
    """Errors with the DOM's names."""
    cases: list[tuple[str, Any]] = [
        ("create", {}),
        ("create", {**CREATION, "challenge": "!"}),
        ("create", {**CREATION, "rp": {"id": "other.com", "name": "x"}}),
        ("create", UV),
        ("create", {**CREATION, "pubKeyCredParams": [{"type": "public-key", "alg": -257}]}),
        ("get", REQUEST),
        ("create", None),
        ("get", []),
    ]
    return [browser.call(*case) for case in cases]


def test_commands(browser: Browser) -> Any:
    """Presence, verification, accounts, faults and credentials by commands."""
    seen: list[Any] = []
    for name in ("ann", "bob"):
        user = {"id": name, "name": name, "displayName": name}
        seen.append(
            read_flags(
                browser.call(
                    "create", {**DISCOVERABLE_CREATION, "user": {**user, "id": "YW5u" if name == "ann" else "Ym9i"}}
                )
            )
        )
    browser.call("selectAccount", "ann")
    seen.append(browser.call("get", REQUEST)["response"]["userHandle"])
    browser.call("selectAccount", 0)
    for word in ("denied", "timeout", "granted"):
        browser.call("setPresence", word)
        answer = browser.call("get", REQUEST)
        seen.append(answer if isinstance(answer, str) else answer["response"]["userHandle"])
    browser.call(
        "setAuthenticatorOptions", {"hasUserVerification": True, "isUserVerified": True, "transport": "internal"}
    )
    made = browser.call("create", UV)
    seen += [read_flags(made), made["authenticatorAttachment"], made["response"]["transports"]]
    browser.call("setUserVerified", False)
    seen.append(browser.call("create", UV))
    browser.call("setAuthenticatorOptions", {"hasUserVerification": False, "isUserVerified": False, "transport": "usb"})
    browser.call("setFaults", {"status": "KEY_STORE_FULL"})
    seen.append(browser.call("create", CREATION))
    browser.call("clearFaults")
    added = browser.call("addCredential", {"rpId": "example.com", "credentialId": "AQID", "signCount": 9})
    used = browser.call("get", {**REQUEST, "allowCredentials": [{"type": "public-key", "id": "AQID"}]})
    seen += [added["credentialId"], used["id"], b64url_decode(used["response"]["authenticatorData"])[36]]
    listed = browser.call("getCredentials")
    names = ("isResidentCredential", "rpId", "userHandle", "userName", "signCount", "backupEligibility", "backupState")
    seen.append([[credential[name] for name in names] for credential in listed])
    browser.call("removeCredential", "AQID")
    seen.append(len(browser.call("getCredentials")))
    browser.call("clearCredentials")
    seen.append(browser.call("getCredentials"))
    return seen


def test_invalid_lines(browser: Browser) -> Any:
    """An invalid line gets an error with the expected values, and the next line works."""
    lines = ["{", "[]", "7", "{}", '{"creat": {}}', '{"create": {}, "get": {}}', '{"setPresence": "yes", "id": 5}']
    lines += [
        '{"setAuthenticatorOptions": {"isUserVerified": true}}',
        '{"setAuthenticatorOptions": {"transports": "usb"}}',
    ]
    lines += ['{"get": {}, "mediation": "conditional"}', '{"setFaults": {"wrong": 1}}', '{"removeCredential": "AQ"}']
    lines += ['{"addCredential": {}}', '{"setUserVerified": true}']
    answers = [browser.exchange_line(line) for line in lines]
    assert all(answer["message"] and "\n" not in answer["message"] for answer in answers), answers
    assert "create, get" in answers[4]["message"] and "granted" in answers[6]["message"]
    browser.call("setPresence", "granted")
    return (
        [answer["error"] for answer in answers],
        answers[6]["id"],
        browser.exchange_line('{"getLog": null, "id": "a"}')["id"],
    )


TESTS = (test_register_and_sign_in, test_dom_errors, test_commands, test_invalid_lines)


def find_recording_error(browser: Browser) -> str:
    """Returns an error in the recordings of a browser, or an empty string."""
    for recording in browser.call("getRecordings"):
        with tempfile.NamedTemporaryFile() as snapshot:
            snapshot.write(b64url_decode(recording["snapshot"]) if recording["snapshot"] else b"")
            snapshot.flush()
            words = ["--load", snapshot.name] if recording["snapshot"] else []
            done = subprocess.run(
                [PROGRAM, "check", *words], input=recording["log"].encode(), capture_output=True, check=False
            )
            if done.returncode:
                return str(done.stderr)
    return "" if any(recording["log"].startswith(">") for recording in browser.call("getRecordings")) else "no log"


def run_tests(commands: dict[str, list[str]]) -> bool:
    """Runs the tests with each process. Returns whether the results are equal and the recordings are correct."""
    browsers = {name: Browser(command) for name, command in commands.items()}
    failed = False
    for test in TESTS:
        seen = {name: test(browser) for name, browser in browsers.items()}
        one, other = seen.values()
        failed |= one != other
        print(f"{'ok' if one == other else 'FAILED'}  {test.__doc__} {'' if one == other else seen}")
    for name, browser in browsers.items():
        wrong = find_recording_error(browser) or browser.close()
        failed |= bool(wrong)
        print(f"{'FAILED' if wrong else 'ok'}  the recordings of {name} {wrong or ''}")
    return not failed


def run_example(words: list[str], command: list[str]) -> tuple[bool, str]:
    """Runs an example with a browser. Returns whether it passed, and what it printed."""
    path = TOP / "examples" / "browser_process"
    environment = {**os.environ, "GOPATH": "/usr/share/gocode", "GO111MODULE": "off"}
    done = subprocess.run(
        [*words, *command], cwd=path, env=environment, capture_output=True, text=True, check=False, timeout=600
    )
    return done.stdout.strip() == "ok", f"{done.stdout}{done.stderr}"[-600:].strip()


# Debian 12's module. Debian 13 has its successor, with another path.
GO_SOURCES = Path("/usr/share/gocode/src/github.com/duo-labs/webauthn")


def add_other_origin(command: list[str]) -> list[str]:
    """Returns a command for a browser at another origin of the relying party. Further arguments are ignored."""
    return ["sh", "-c", f"exec {shlex.join(command)} --origin https://login.example.com"]


def run_examples(commands: dict[str, list[str]]) -> bool:
    """Runs the examples in other languages with both processes, and with a browser at another origin."""
    failed = False
    for language, words in EXAMPLES.items():
        if not shutil.which(words[0]):
            print(f"    {words[0]} is missing, and its example wasn't run")
            continue
        if language == "Go" and not GO_SOURCES.is_dir():
            print("    golang-github-duo-labs-webauthn-dev is missing, and Go's example wasn't run")
            continue
        for name, command in commands.items():
            passed, printed = run_example(words, command)
            failed |= not passed
            print(f"{'ok' if passed else 'FAILED'}  {language} with {name} {'' if passed else printed}")
        passed, printed = run_example(words, add_other_origin(commands["the npm package"]))
        refused = not passed and ("rigin" in printed or "client data" in printed)
        failed |= not refused
        print(f"{'ok' if refused else 'FAILED'}  {language} refuses another origin: {printed.splitlines()[:1]}")
    return not failed


def main() -> int:
    if not shutil.which("node"):
        print("tests/browser_process: node is missing (apt-get install nodejs)", file=sys.stderr)
        return 3
    os.environ["PYTHONPATH"] = str(TOP / "bindings" / "python" / "src")
    with tempfile.TemporaryDirectory() as work_dir:
        commands = {
            "the npm package": install_npm_package(Path(work_dir)),
            "the Python package": [sys.executable, "-m", "hidlog.browser_process"],
        }
        results = [run_tests(commands), run_examples(commands)]
    return 0 if all(results) else 1


if __name__ == "__main__":
    sys.exit(main())
