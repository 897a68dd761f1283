"""Tests that an interrupted run leaves a whole report with the cases so far, and no processes."""

from __future__ import annotations

import json
import os
import signal
import subprocess
import sys
import tempfile
import time
import xml.etree.ElementTree as xml
from typing import Dict, List, Set, Tuple

from hidlog_conformance.run import all_sessions
from trying import HERE, Test, make_device_arguments

RUN = [sys.executable, os.path.join(HERE, "..", "run.py")]
CLIENT = os.path.join(HERE, "..", "clients", "python_fido2.py")
# A word in the arguments of this process's devices, by which it finds them among those of other tests.
MARK = f"an_interrupted_run_{os.getpid()}"
ENDED = 130


def list_commands(process: "subprocess.Popen[str]") -> Set[str]:
    """Returns the IDs of a process's commands that are running."""
    return set(
        subprocess.run(["ps", "--ppid", str(process.pid), "-o", "pid="], capture_output=True, text=True).stdout.split()
    )


def interrupt(words: List[str], commands: int, number: int = signal.SIGINT) -> Tuple[int, str, str]:
    """Runs the tests, and sends a signal twice once they started this number of commands. Returns the exit status,
    standard output and standard error."""
    with tempfile.TemporaryFile("w+") as out, tempfile.TemporaryFile("w+") as heard:
        process = subprocess.Popen([*RUN, *words], stdout=out, stderr=heard, text=True, start_new_session=True)
        seen: Set[str] = set()
        while len(seen) < commands and process.poll() is None:
            seen |= list_commands(process)
        if process.poll() is not None:
            heard.seek(0)
            raise AssertionError(f"the run ended too early: {heard.read()}")
        for _ in range(2):
            # As Ctrl-C does: to all processes of the group.
            os.killpg(process.pid, number)
            time.sleep(0.02)
        process.wait(120)
        out.seek(0)
        heard.seek(0)
        return process.returncode, out.read(), heard.read()


def list_running_commands() -> str:
    """Returns the running commands of this test's devices."""
    lines = subprocess.run(["ps", "-eo", "args"], capture_output=True, text=True, check=True).stdout.splitlines()
    return "\n".join(line for line in lines if line.endswith(MARK))


def check_none_left() -> None:
    """Checks that no command is running. A command that was just starting exits at the end of its input."""
    end = time.monotonic() + 60
    while list_running_commands() and time.monotonic() < end:
        time.sleep(0.2)
    assert not list_running_commands(), list_running_commands()


def test_text_report() -> None:
    """The text report of an interrupted run has the cases so far, none of which failed."""
    for number in (signal.SIGINT, signal.SIGTERM):
        status, out, heard = interrupt(
            [*make_device_arguments(f"plain {MARK}"), "--jobs", "2", "--only", "ping/"], 9, number
        )
        assert status == ENDED and "Traceback" not in heard, (status, heard)
        passed, _, rest = out.splitlines()[-1].partition(" passed, 0 failed, 0 warned, ")
        assert int(passed) >= 5 and rest == "0 skipped", out
        assert f"\ninterrupted: after {passed} of 30 cases\n" in out, out
        check_none_left()
    print("interrupted runs: a whole report in text")


def test_other_reports() -> None:
    """The JSON and JUnit reports of an interrupted run are complete, also for this repository's program."""
    no_device: List[str] = []
    for device in (make_device_arguments(f"plain {MARK}"), no_device):
        status, out, heard = interrupt([*device, "--report", "json"], 4)
        report = json.loads(out)
        assert status == ENDED and report["interrupted"].startswith(f"after {len(report['cases'])} of "), heard
        assert not report["totals"]["failed"] and not report["totals"]["unstable"], report["totals"]
    status, out, heard = interrupt([*make_device_arguments(f"plain {MARK}"), "--report", "junit", "--only", "ping/"], 7)
    suite = xml.fromstring(out)
    assert status == ENDED and suite.get("failures") == "0" and suite.findall("testcase"), heard
    check_none_left()
    print("interrupted runs: whole reports in JSON and JUnit")


def test_before_first_case() -> None:
    """A run that is interrupted before its first case has a report without cases."""
    status, out, heard = interrupt(["--device", "sleep 29.4321"], 1)
    assert status == ENDED and "Traceback" not in heard, (status, heard)
    assert f"\ninterrupted: after 0 of {len(all_sessions())} cases\n" in out and "\n0 passed, 0 failed" in out, out
    print("interrupted runs: a report before the first case")


def test_client_report() -> None:
    """The report of an interrupted run of a client has the cases so far."""
    status, out, heard = interrupt(["--client", f"{sys.executable} {CLIENT}", "--report", "json"], 7)
    report = json.loads(out)
    assert status == ENDED and report["interrupted"].startswith(f"after {len(report['cases'])} of "), heard
    print("interrupted runs: a whole report on a client")


def list_played(heard: str) -> Set[str]:
    """Returns the names of the cases that a run began."""
    return {line.partition(" ")[2] for line in heard.splitlines() if line.startswith("playing ")}


def test_resumed_run() -> None:
    """A run with --resume continues after an interrupt, also after a line that was cut, and has all results."""
    with tempfile.TemporaryDirectory() as room:
        path = os.path.join(room, "results")
        words = [*make_device_arguments(f"plain {MARK}"), "--jobs", "2", "--only", "ping/", "--resume", path]
        interrupt(words, 9)
        with open(path, encoding="utf-8") as file:
            written = [json.loads(line)["name"] for line in file.readlines()[1:]]
        assert len(written) >= 5, written
        with open(path, "a", encoding="utf-8") as file:
            file.write('{"name": "ping/')
        again = subprocess.run([*RUN, *words], capture_output=True, text=True)
        assert again.returncode == 0 and again.stdout.endswith(
            "\n23 passed, 0 failed, 0 warned, 7 skipped\n"
        ), again.stdout
        played = list_played(again.stderr)
        assert len(played) == 30 - len(written) and not played & set(written), (played, written)
        other = subprocess.run([*RUN, *words, "--warnings-as-errors"], capture_output=True, text=True)
        assert other.returncode == 2 and "belongs to another run: warnings_as_errors" in other.stderr, other.stderr
    check_none_left()
    print("interrupted runs: continued by --resume")


TESTS: Dict[str, Test] = {
    "interrupted/resumed": test_resumed_run,
    "interrupted/text": test_text_report,
    "interrupted/formats": test_other_reports,
    "interrupted/before": test_before_first_case,
    "interrupted/client": test_client_report,
}
