"""Tests the connections to a device (pipe and hidraw), and the reports.

A terminal without line editing replaces /dev/hidrawN, and others/python_key.py the device behind it. Report descriptors
and the kernel's driver are not tested.
"""

from __future__ import annotations

import fnmatch
import glob
import io
import os
import pty
import re
import select
import subprocess
import sys
import tempfile
import threading
import time
import tty
import xml.etree.ElementTree as xml
from contextlib import redirect_stderr, redirect_stdout
from typing import List


from hidlog_conformance import run
from hidlog_conformance.client_runner import client_sessions
from hidlog_conformance.device_info import DeviceInfo
from hidlog_conformance.devices import LiveDevice, PipeDevice
from hidlog_conformance.results import UNSTABLE
from hidlog_conformance.outline import count_touches
from hidlog_conformance.session_cache import sessions_folder
from python_key import Key

HERE = os.path.join(os.path.dirname(os.path.abspath(__file__)), "..")
# A case in the table of requirements, or several by a pattern.
CASE_NAME = re.compile(r"`([a-z]+/[a-z0-9_*]+)`")


class Terminal:
    """Runs python_key.py on a terminal; counts resets, and reports without the report number 0."""

    def __init__(self) -> None:
        self.master, slave = pty.openpty()
        tty.setraw(slave)
        self.path = os.ttyname(slave)
        self.resets = 0
        self.wrong = 0
        self.ended = False
        self.thread = threading.Thread(target=self.serve, daemon=True)
        self.thread.start()

    def serve(self) -> None:
        """Runs until the end."""
        key, start, rest = Key(), time.monotonic(), b""
        while not self.ended:
            ready, _, _ = select.select([self.master], [], [], 0.02)
            at = int((time.monotonic() - start) * 1000)
            rest += os.read(self.master, 65) if ready else b""
            while len(rest) >= 65:
                report, rest = rest[:65], rest[65:]
                self.wrong += report[0] != 0
                self.resets += report[5] == 0x90 and report[8] == 7
                key.hid.packet(at, report[1:])
            key.hid.tick(at)
            for packet in key.hid.out:
                self.write_out(packet)
            key.hid.out.clear()

    def write_out(self, packet: bytes) -> None:
        """Writes a packet."""
        os.write(self.master, packet)


def get_output(words: List[str]) -> str:
    """Returns the output of run.py."""
    out = io.StringIO()
    with redirect_stdout(out), redirect_stderr(io.StringIO()):
        run.main(words)
    return out.getvalue()


def test_hidraw() -> None:
    """Runs some cases as with /dev/hidrawN."""
    terminal = Terminal()
    for only in ("init/", "reset/"):
        text = get_output(["--device", terminal.path, "--only", only])
        print(f"by a terminal, {only}: {text.splitlines()[-1]}")
        assert " 0 failed" in text, text
    terminal.ended = True
    terminal.thread.join()
    assert terminal.wrong == 0, "a packet does not begin with report ID 0"
    assert terminal.resets == 0, "the device was reset without --reset"


def test_pipe() -> None:
    """Runs some cases over a pipe, with touches and resets."""
    command = f"{sys.executable} {os.path.join(HERE, 'others', 'python_key.py')}"
    text = get_output(["--device", command, "--touch-line", "touch", "--reset", "--only", "selection/"])
    print(f"by a pipe, selection/: {text.splitlines()[-1]}")
    assert " 0 failed" in text, text


def test_power_cycles() -> None:
    """Runs power cycles over a pipe: the command is restarted with its credentials."""
    with tempfile.TemporaryDirectory() as room:
        command = f"{sys.executable} {os.path.join(HERE, 'others', 'persistent_key.py')} {room}/state"
        words = ["--device", command, "--touch-line", "touch", "--only", "power/c"]
        text = get_output([*words, "--persistent"])
        print(f"by a pipe, power/c*: {text.splitlines()[-1]}")
        count = len(glob.glob(os.path.join(sessions_folder(), "power", "c*.log")))
        assert count >= 4 and text.endswith(f"\n{count} passed, 0 failed, 0 warned, 0 skipped\n"), text
        text = get_output(words)
        assert text.endswith(f"\n0 passed, 0 failed, 0 warned, {count} skipped\n"), text


def test_reports() -> None:
    """Parses the JUnit and TAP reports."""
    found = xml.fromstring(get_output(["--only", "ping/", "--report", "junit"]))
    cases = found.findall("testcase")
    assert cases and len(cases) == int(found.attrib["tests"]), "the JUnit report has a wrong number of cases"
    assert all(len(case.findall("properties/property")) == 2 for case in cases), "a case has no rule"
    lines = get_output(["--only", "ping/", "--report", "tap"]).splitlines()
    assert lines[:2] == ["TAP version 13", f"1..{len(cases)}"], f"unexpected first lines of the TAP report: {lines[:2]}"
    assert sum(line.startswith("# rule: ") for line in lines) == len(cases), "a case has no rule"
    print(f"reports: JUnit and TAP, {len(cases)} cases with their rules")


def test_sentence_table() -> None:
    """Checks that each case in the table of requirements exists."""
    words = [sys.executable, os.path.join(HERE, "make.py"), "--sentences"]
    output = subprocess.run(words, capture_output=True, check=True, text=True).stdout
    lines = [line for line in output.splitlines() if line.startswith("|")]
    client_names = [session.name for session, _ in client_sessions()]
    count = 0
    for line in lines:
        before, _, of_clients = line.partition("client: ")
        for name in CASE_NAME.findall(before):
            assert glob.glob(f"{sessions_folder()}/{name}.log"), f"the table names {name}, which does not exist"
            count += 1
        for name in CASE_NAME.findall(of_clients):
            assert fnmatch.filter(client_names, name), f"the table names client: {name}, which does not exist"
            count += 1
    assert count > 100, f"the table names only {count} cases"
    print(f"the table names {count} cases, which all exist")


def test_invalid_devices() -> None:
    """Invalid devices are reported at once."""
    wrong = {
        "./nothing": "No such file",
        "yes": "b'y', expected 128 hexadecimal digits",
        "false": "the command exited",
        "sleep 39": "no packet was received; a command must flush each line",
        "": "--device is empty",
        "/dev/null": "cannot be read",
    }
    for device, expected in wrong.items():
        heard = io.StringIO()
        with redirect_stdout(io.StringIO()), redirect_stderr(heard):
            status = run.main(["--device", device, "--only", "ping/bytes_0000"])
        assert status == 2 and expected in heard.getvalue(), (device, heard.getvalue())
    print(f"{len(wrong)} invalid devices are reported")


def test_help() -> None:
    """Checks --help."""
    shown = subprocess.run([sys.executable, os.path.join(HERE, "run.py"), "--help"], capture_output=True, check=True)
    for word in (b"--touch", b"--reset", b"--client", b"--report"):
        assert word in shown.stdout, word


def test_order() -> None:
    """Cases that need no touch run before all cases that need one."""
    sessions = run.all_sessions()
    asking, alone = (run.parse_options(["--device", "x", *words]) for words in (["--touch"], ["--touch-line", "touch"]))
    with redirect_stderr(io.StringIO()):
        played = run.order_sessions(LiveDevice(), sessions, asking, DeviceInfo())
    counts = [count_touches(session) for session in played]
    assert counts == sorted(counts) and counts[0] == 0 < counts[-1], counts[:9]
    assert {session.name for session in played} == {session.name for session in sessions}
    assert run.order_sessions(LiveDevice(), sessions, alone, DeviceInfo()) == sessions


class LateDevice(PipeDevice):
    """Sends one packet of the first session late, as on a busy machine."""

    slept = False

    def write(self, packet: bytes) -> None:
        """Writes a packet."""
        if not packet[4] & 0x80 and not LateDevice.slept:
            LateDevice.slept = True
            time.sleep(0.8)
            self.late = 0.8
        super().write(packet)


def test_late_runner() -> None:
    """A case that failed while the runner was late is repeated, and unstable if it then passes."""
    command = f"env PYTHONPATH={os.path.abspath(HERE)} {sys.executable} -m hidlog_conformance.reference"
    (session,) = run.all_sessions("ping/bytes_0058")
    options = run.parse_options(["--device", command])
    device_info = run.DeviceInfo.ask(PipeDevice(command, False), False)
    for again, expected in ((False, "not ok"), (True, UNSTABLE)):
        LateDevice.slept = False
        played = run.play_one(LateDevice(command, False), session, options, device_info, None, again)
        assert played.status == expected and len(played.recordings) == 1 + again, (again, played)


TESTS = {
    "ways/late": test_late_runner,
    "ways/order": test_order,
    "ways/hidraw": test_hidraw,
    "ways/pipe": test_pipe,
    "ways/power": test_power_cycles,
    "ways/reports": test_reports,
    "ways/mistakes": test_invalid_devices,
    "ways/help": test_help,
    "ways/sentences": test_sentence_table,
}
