"""Tests of the reports: order, members of a failure, selection of cases, and faults that occur rarely."""

from __future__ import annotations

import argparse
import io
import json
import os
import resource
import signal
import tempfile
from contextlib import contextmanager, redirect_stdout
from typing import Any, Dict, Iterator, List

from hidlog_conformance import report, run
from hidlog_conformance.device_info import DeviceInfo
from hidlog_conformance.results import FAILED, UNSTABLE, Outcome
from hidlog_conformance.reference.authenticator import Authenticator
from hidlog_conformance.reference.device import ReferenceDevice
from hidlog_conformance.reference.traits import DeviceTraits
from hidlog_conformance.response_reader import GOES_ON
from mutant import replace_method
from trying import Test, check_detected, run_command

# A fault occurs once in this number of starts, and a case is played this number of times.
ONE_IN, STARTS = 50, 150
# The status and section of an error with data.
WITH_DATA = ("not ok", "11.2.9.1.2")


def make_outcomes() -> List[Outcome]:
    """Returns an outcome of each kind, the least severe first."""
    sessions = run.all_sessions("ping/")
    rows: List[Dict[str, Any]] = [
        {"status": "ok"},
        {"status": "skip", "reason": "the device does not support: x"},
        {"status": "warn", "expected": "a", "actual": "b"},
        {"status": UNSTABLE, "expected": "a", "actual": "b"},
        {"status": "not ok", "expected": "a signature counter above 1", "actual": "1", "line": 21, "broken": "6.2.2"},
        {"status": "not ok", "expected": GOES_ON, "actual": "the command exited", "broken": "6.4"},
    ]
    return [Outcome(session, **row) for session, row in zip(sessions, rows)]


def write_report(kind: str, outcomes: List[Outcome]) -> str:
    """Returns a report."""
    written = io.StringIO()
    with redirect_stdout(written):
        report.write(kind, outcomes, {"device": "x"})
    return written.getvalue()


def test_severity() -> None:
    """The text report has the most severe results first."""
    outcomes = make_outcomes()
    lines = [line for line in write_report("text", outcomes).splitlines() if not line.startswith((" ", "violated"))]
    names = [
        line.split()[1].rstrip(":") for line in lines if line.split()[0] in ("failed", UNSTABLE, "warned", "skipped")
    ]
    assert names == [outcome.session.name for outcome in outcomes[:0:-1]], names


def test_members() -> None:
    """In JSON a failure has its file, line, expected and actual as members; others do not."""
    cases = json.loads(write_report("json", make_outcomes()))["cases"]
    found = [tuple(case.get(name) for name in ("file", "line", "expected", "actual")) for case in cases]
    assert found[4] == (make_outcomes()[4].session.file, 21, "a signature counter above 1", "1"), found[4]
    assert found[:2] == [(None,) * 4] * 2 and found[4][0].endswith(".log"), found[:2]


def test_no_case() -> None:
    """If --skip excludes all cases, the error names it."""
    for words, reasons in (
        (["--only", "ping/", "--skip", "ping", "--skip", "x"], ["--only 'ping/'", "--skip 'ping' and --skip 'x'"]),
        (["--skip", "/"], ["--skip '/'"]),
        (["--only", "no such case"], ["no case contains 'no such case'"]),
    ):
        status, _, heard = run_command([*words])
        assert status == 2 and all(reason in heard for reason in reasons), (words, heard)


class RareFault(ReferenceDevice):
    """Responds for another RP at each fiftieth start, while the runner is late."""

    late = 1.0
    starts = 0

    def start(self) -> None:
        """Starts a new authenticator."""
        super().start()
        self.late, self.starts = 1.0, self.starts + 1
        if self.starts % ONE_IN == 0:
            setattr(self.authenticator, "data", self.wrong_data)

    def wrong_data(self, asked: Any, one: Any, *words: Any) -> bytes:
        """Returns authenticator data with a wrong RP ID hash."""
        return bytes(32) + bytes(Authenticator.data(self.authenticator, asked, one, *words)[32:])


def test_rare_fault() -> None:
    """A case that fails at one start in fifty is never reported as passed, even if the runner is late."""
    options: argparse.Namespace = run.parse_options(["--device", "reference", "--touch-line", "touch", "--reset"])
    device = RareFault(DeviceTraits())
    device_info = DeviceInfo.ask(device, True)
    (session,) = run.all_sessions("make/answer")
    failed = 0
    for _ in range(STARTS):
        before = device.starts
        outcome = run.play_one(device, session, options, device_info)
        was_wrong = any(number % ONE_IN == 0 for number in range(before + 1, device.starts + 1))
        assert (outcome.status in FAILED) == was_wrong, (device.starts, outcome.status)
        failed += was_wrong
    assert failed == STARTS // ONE_IN, failed


def pass_again(first: Outcome, second: Outcome, late: float) -> Outcome:
    """Returns the second outcome alone."""
    return second


def refuse_with_data(key: Authenticator, command: int, status: int) -> bytes:
    """Returns an error status with data, which no choice allows."""
    return bytes([status]) + b"\xa0"


def test_other_choice() -> None:
    """A case about a choice of the profile is skipped if the device chooses otherwise, and fails if its response
    violates a MUST."""
    options: argparse.Namespace = run.parse_options(["--device", "reference", "--touch-line", "touch", "--reset"])
    (session,) = run.all_sessions("make/hash_of_31")
    traits, change = DeviceTraits(wrong_length=0x02), replace_method("refusal", refuse_with_data)
    for device, expected in ((ReferenceDevice(traits), ("skip", "")), (ReferenceDevice(traits, change), WITH_DATA)):
        outcome = run.play_one(device, session, options, DeviceInfo.ask(device, True))
        assert (outcome.status, outcome.broken) == expected, (outcome.status, outcome.broken, outcome.actual)


def test_full_disk() -> None:
    """If the file of --resume cannot be written any more, the run goes on, and its report has all results."""
    with tempfile.TemporaryDirectory() as folder:
        path = os.path.join(folder, "results")
        words = ["--only", "init/nonce", "--resume", path]
        with limit_file_size(0):
            status, _, heard = run_command(words)
        assert status == 2 and path in heard, (status, heard)
        os.remove(path)
        with limit_file_size(400):
            status, out, heard = run_command(words)
        assert status == 0 and "4 passed" in out, (status, out)
        assert heard.count(f"{path}: File too large: the results from init/nonce_") == 1, heard
        os.remove(path)
        os.mkfifo(path)
        status, _, heard = run_command(words)
        assert status == 2 and "is not a regular file" in heard, (status, heard)


@contextmanager
def limit_file_size(size: int) -> Iterator[None]:
    """Limits the size of files, like a full disk."""
    before = resource.getrlimit(resource.RLIMIT_FSIZE)
    handler = signal.signal(signal.SIGXFSZ, signal.SIG_IGN)
    resource.setrlimit(resource.RLIMIT_FSIZE, (size, before[1]))
    try:
        yield
    finally:
        resource.setrlimit(resource.RLIMIT_FSIZE, before)
        signal.signal(signal.SIGXFSZ, handler)


def test_wrong_list() -> None:
    """A list of expected failures that cannot be read is found before the run."""
    status, out, heard = run_command(["--only", "init/nonce", "--expected-failures", "/nothing"])
    assert (status, out, heard) == (2, "", "hidlog-conformance: /nothing: No such file or directory\n"), (out, heard)


TESTS: Dict[str, Test] = {
    "reports/severity": check_detected(test_severity, (report, "rank_severity", lambda outcome: 0)),
    "reports/members": test_members,
    "reports/no_case": test_no_case,
    "reports/full_disk": test_full_disk,
    "reports/wrong_list": test_wrong_list,
    "reports/other_choice": check_detected(test_other_choice, (run, "is_choice", lambda *words: False)),
    "reports/rare_fault": check_detected(test_rare_fault, (run, "mark_unstable", pass_again)),
}
