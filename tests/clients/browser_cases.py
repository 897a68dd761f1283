#!/usr/bin/env python3
"""Runs the registrations and sign-ins of tests/python/browser_cases.json in a browser of another language, and compares
the results with the expected ones.

    browser_cases.py LANGUAGE COMMAND ..    LANGUAGE is go or rust, and COMMAND its program of tests/clients/cases; or
                                            LANGUAGE is npm, and COMMAND cases/server.mjs in node
    browser_cases.py --print LANGUAGE COMMAND ..    prints the results that are not expected, as JSON

For each line on standard input, a program of tests/clients/cases writes one line. Words are separated by tabs:

    key OPTION ..                             starts a browser with a new key: done
    create MEDIATION PRESENCE OPTIONS         registers: made JSON, error NAME MESSAGE, or failed MESSAGE
    get MEDIATION PRESENCE OPTIONS            signs in
    fail                                      from now on, user verification fails: done
    recording                                 done LOG, in hexadecimal
"""

from __future__ import annotations

import json
import os
import subprocess
import sys
from pathlib import Path
from typing import Any
from uuid import UUID

TOP = Path(__file__).resolve().parents[2]
sys.path[:0] = [str(TOP / "tests" / "python"), str(TOP / "bindings" / "python" / "src")]
os.environ.setdefault("HIDLOG_EXAMPLES", str(TOP / "examples"))

import hidlog  # noqa: E402
from hidlog.webauthn_json import b64url_decode  # noqa: E402
from implementations import (  # noqa: E402
    EXTENDED_CASES,
    CASES,
    Case,
    Json,
    ServiceError,
    get_expected_result,
    run_calls,
    to_devtools_options,
)


class LineProcess:
    """A process that writes one line for each line that it reads."""

    def __init__(self, command: list[str]):
        self._process = subprocess.Popen(command, stdin=subprocess.PIPE, stdout=subprocess.PIPE, text=True)

    def send(self, line: str) -> str:
        """Sends a line, and returns the response."""
        assert self._process.stdin and self._process.stdout
        self._process.stdin.write(line + "\n")
        self._process.stdin.flush()
        return self._process.stdout.readline().rstrip("\n")

    def close(self) -> int:
        """Ends the process, and returns its exit status."""
        self._process.communicate()
        return self._process.returncode


class Program(LineProcess):
    """A program of tests/clients/cases."""

    def ask(self, *words: str) -> list[str]:
        """Sends a line, and returns the words of the response after the first."""
        kind, *rest = self.send("\t".join(words)).split("\t")
        if kind == "error":
            raise ServiceError(*rest)
        if kind not in ("done", "made"):
            raise AssertionError(f"{words}: {kind} {rest}")
        return rest

    def set_up_key(self, key: Json) -> None:
        """Starts a browser with a new key."""
        self.ask("key", *list_options(key))

    def call(self, method: str, options: Any, mediation: str, presence: str) -> Any:
        """Calls create or get."""
        return json.loads(self.ask(method, mediation, presence, json.dumps(options))[0])

    def fail_verification(self) -> None:
        """Makes user verification fail."""
        self.ask("fail")

    def read_recordings(self) -> list[tuple[bytes, bytes]]:
        """Returns each recording: the snapshot and the log."""
        return [(b"", bytes.fromhex(self.ask("recording")[0]))]


class BrowserProcess(LineProcess):
    """A program with the commands of `hidlog browser`."""

    def ask(self, command: str, parameter: Any, **more: Any) -> Any:
        """Sends a command, and returns the value."""
        answer = json.loads(self.send(json.dumps({command: parameter, **more})))
        if "error" in answer:
            raise ServiceError(answer["error"], answer["message"])
        return answer["value"]

    def set_up_key(self, key: Json) -> None:
        """Removes the credentials, and sets the key's options."""
        self.ask("clearCredentials", None)
        devtools = to_devtools_options(key)
        names = ["transport", "hasResidentKey", "hasUserVerification", "isUserVerified"]
        names += ["defaultBackupEligibility", "defaultBackupState"]
        outside: Json = {"attestation": "self", "aaguid": str(UUID(int=0)), "algorithms": [-7], "autofill": "selected"}
        outside.update({name: value for name, value in key.items() if name in outside})
        extensions = key.get("extensions", [])
        protocol = devtools.get("ctap2Version", "ctap2")
        options = {name: devtools[name] for name in names}
        self.ask("setAuthenticatorOptions", {**options, **outside, "extensions": extensions, "protocol": protocol})

    def call(self, method: str, options: Any, mediation: str, presence: str) -> Any:
        """Calls create or get."""
        self.ask("setPresence", presence)
        return self.ask(method, options, mediation=mediation)

    def fail_verification(self) -> None:
        """Makes user verification fail."""
        self.ask("setUserVerified", False)

    def read_recordings(self) -> list[tuple[bytes, bytes]]:
        """Returns each recording: the snapshot and the log."""
        listed = self.ask("getRecordings", None)
        return [(b64url_decode(one["snapshot"]), one["log"].encode()) for one in listed]


def list_options(key: Json) -> list[str]:
    """Returns the program's words for the options of a case's key. A key of Go or Rust has no certificate, algorithms or
    extensions."""
    known = {
        "no resident keys": key.get("has_resident_key") is False,
        "platform": key.get("attachment") == "platform",
        "backup eligible": key.get("default_backup_eligibility"),
        "backed up": key.get("default_backup_state"),
        "no attestation": key.get("attestation") == "basic",
    }
    verification = key.get("verification", "none")
    return [name for name, is_set in known.items() if is_set] + [verification] * (verification != "none")


def run_case(case: Case, browser: Program | BrowserProcess) -> Json:
    """Runs a case, checks its recordings, and returns the result."""
    browser.set_up_key(case.get("key", {}))

    def call(name: str, options: Any, more: Json) -> Json:
        presence = case.get("presence", "granted") if name == case["call"] else "granted"
        wrapped = {"publicKey": options} if "raw" in case or case.get("wrapped") else options
        made: Json = browser.call(name, wrapped, more.get("mediation", "optional"), presence)
        return made

    try:
        result = run_calls(call, case, browser.fail_verification)
    except AssertionError as error:
        if not isinstance(error.__cause__, ServiceError):
            raise
        result = {"before": {"error": error.__cause__.name}}
    for snapshot, log in browser.read_recordings():
        hidlog.check(log, snapshot).raise_for_fault()
    return result


def main(words: list[str]) -> int:
    is_printing = words[:1] == ["--print"]
    language, *command = words[is_printing:]
    browser: Program | BrowserProcess = Program(command) if language in ("go", "rust") else BrowserProcess(command)
    cases = {**CASES, **EXTENDED_CASES}
    found = {name: run_case(case, browser) for name, case in cases.items()}
    assert browser.close() == 0
    wrong = {name: result for name, result in found.items() if result != get_expected_result(name, language)}
    if is_printing:
        print(",\n".join(f" {json.dumps(name)}: {json.dumps(result)}" for name, result in wrong.items()))
        return 0
    for name, result in wrong.items():
        print(
            f"FAILED: {name}\n    actual   {json.dumps(result)}\n    expected {json.dumps(get_expected_result(name, language))}"
        )
    print(f"{language}: {len(found)} cases, {len(wrong)} not as expected")
    return 1 if wrong else 0


if __name__ == "__main__":
    sys.exit(main(sys.argv[1:]))
