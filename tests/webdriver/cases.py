#!/usr/bin/env python3
"""Runs the registrations and sign-ins of tests/python/browser_cases.json by URL, with `hidlog webdriver`, and compares the
results with the expected ones. Checks the recordings. All authenticators are added in one document.

    tests/webdriver/cases.py           exits with 3 if chromedriver is missing
"""

from __future__ import annotations

import json
import os
import shutil
import sys
import tempfile
from functools import partial
from pathlib import Path
from typing import Any

from run import ENVIRONMENT, FileHandler, call, find_free_port, make_proxy_command, start_process, start_server

HERE = Path(__file__).resolve().parent
TOP = HERE.parents[1]
sys.path[:0] = [str(TOP / "tests" / "python"), ENVIRONMENT["PYTHONPATH"]]
os.environ.setdefault("HIDLOG_EXAMPLES", str(TOP / "examples"))

import hidlog  # noqa: E402
from implementations import EXTENDED_CASES, CASES, RUN_SCRIPT, Case, Json, ServiceError  # noqa: E402
from implementations import get_expected_result, get_wait_ms, run_calls, to_devtools_options  # noqa: E402

# The members of DevTools' options that WebDriver has, too.
OPTIONS = ["transport", "hasResidentKey", "hasUserVerification", "isUserVerified"]
OPTIONS += ["defaultBackupEligibility", "defaultBackupState"]


class Session:
    """A session of the proxy, with one authenticator at a time."""

    def __init__(self, url: str, page: str):
        options = {"args": ["--headless=new", "--no-sandbox", "--disable-dev-shm-usage"]}
        wanted = {"capabilities": {"alwaysMatch": {"goog:chromeOptions": options}}}
        self._url = f"{url}/session/{call('POST', f'{url}/session', wanted)[1]['sessionId']}"
        self._key = ""
        self._post("/timeouts", {"script": 300_000})
        self._post("/url", {"url": page})

    def _post(self, path: str, given: Any) -> Any:
        status, value = call("POST", self._url + path, given)
        assert status == 200, (path, given, value)
        return value

    def end_session(self) -> None:
        call("DELETE", self._url)

    def set_up_key(self, key: Json) -> None:
        """Adds an authenticator."""
        devtools = to_devtools_options(key)
        extensions = key.get("extensions", [])
        protocol = "ctap2_1" if extensions else "ctap2"
        options = {name: devtools[name] for name in OPTIONS}
        given = {**options, "protocol": protocol, "extensions": extensions, "isUserConsenting": True}
        self._key = f"/webauthn/authenticator/{self._post('/webauthn/authenticator', given)}"

    def call(self, method: str, options: Any, more: Json, presence: str, wait_ms: int) -> Json:
        """Calls create or get in the page, and stops the call after `wait_ms` milliseconds."""
        self._post(f"{self._key}/presence", {"presence": presence})
        answer = self._post("/execute/async", {"script": RUN_SCRIPT, "args": [method, options, more, wait_ms]})
        if "error" in answer:
            raise ServiceError(answer["error"], answer["text"])
        made: Json = answer["json"]
        return made

    def fail(self) -> None:
        """Makes user verification fail."""
        self._post(f"{self._key}/uv", {"isUserVerified": False})

    def remove(self) -> None:
        """Checks the authenticator's recordings, and removes it."""
        for recordings in call("GET", f"{self._url}{self._key}/log")[1].values():
            for one in recordings:
                hidlog.check(one["log"].encode(), bytes(one["snapshot"])).raise_for_fault()
        call("DELETE", self._url + self._key)


def run_case(case: Case, session: Session) -> Json:
    """Runs a case, and returns the result."""
    session.set_up_key(case.get("key", {}))

    def call_page(name: str, options: Any, more: Json) -> Json:
        presence = case.get("presence", "granted") if name == case["call"] else "granted"
        return session.call(name, options, more, presence, get_wait_ms(case, name))

    result = run_calls(call_page, case, session.fail)
    session.remove()
    return result


def main() -> int:
    if not shutil.which("chromedriver"):
        print("tests/webdriver: chromedriver is missing (apt-get install chromium-driver)", file=sys.stderr)
        return 3
    page, cases = partial(FileHandler, directory=str(HERE)), {**CASES, **EXTENDED_CASES}
    with start_server(page) as port, tempfile.TemporaryDirectory() as folder:
        with start_process(make_proxy_command("chromedriver", Path(folder)), find_free_port()) as url:
            session = Session(url, f"http://localhost:{port}/page.html")
            try:
                found = {name: run_case(case, session) for name, case in cases.items()}
            finally:
                session.end_session()
    wrong = {name: result for name, result in found.items() if result != get_expected_result(name, "url")}
    for name, result in wrong.items():
        print(f"FAILED  {name}: {json.dumps(result)}, expected {json.dumps(get_expected_result(name, 'url'))}")
    print(f"{'FAILED' if wrong else 'ok'}  {len(found)} cases by URL, {len(wrong)} not as expected")
    return 1 if wrong else 0


if __name__ == "__main__":
    sys.exit(main())
