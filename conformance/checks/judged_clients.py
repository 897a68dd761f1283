"""Records clients during the sessions of conformance/clients, and checks the recordings as `hidlog judge` does.

    conformance/check.py judged --clients     python-fido2, and libfido2 if gcc and its header are installed

A recording of a nonconforming device must have a violation of the session's section, whatever the client did.
`conformance/judged_clients.known` lists the violations that packets do not show, with reasons; its section libfido2 has
more for this client. A recording of a conforming device may have no MUST violation by the key. Exits with 3 if
python-fido2 0.9 is missing.
"""

from __future__ import annotations

import os
import sys
import tempfile
from typing import Dict, List, Tuple

import fido2
from clients import compile_client
from hidlog_conformance.client_runner import client_sessions, play_clients
from hidlog_conformance.judged_log import KEY, MUST, Finding
from hidlog_conformance.report import read_list
from hidlog_conformance.results import Outcome
from hidlog_conformance.paths import CLIENTS
from proved_walk import judge

# Milliseconds that a client waits for a response.
WAIT_MS = 3000


def find_violations(log: List[str]) -> List[Finding]:
    """Returns the key's violations in a recording, after adding the time that the client waited at the end."""
    lines = [line for line in log if line[:1] in "<>"]
    text = "".join(line + "\n" for line in ["# the packets of one client alone", *lines, f"t {WAIT_MS}"])
    return [finding for finding in judge(text.encode()).findings if finding.side == KEY]


def judge_recording(name: str, outcome: Outcome, log: List[str]) -> Tuple[bool, str]:
    """Returns whether the findings of a recording are as its session says, and a report."""
    session, found = outcome.session, find_violations(log)
    shown = (
        ", ".join(
            f"{finding.section} {finding.level}: {finding.expected}; actual: {finding.actual}"[:90]
            for finding in found[:2]
        )
        or "nothing"
    )
    if session.head["device"] == "conforming":
        # A client that exits within a response ends the recording.
        found = [finding for finding in found if finding.actual != "nothing" or outcome.status == "ok"]
        return not any(finding.level == MUST for finding in found), f"{name}: {session.name} (conforming): {shown}"
    good = any(session.section in finding.sections for finding in found)
    return good, f"{name}: {session.name} ({session.section}): {shown}"


def count_detected(name: str, command: str, expected: Dict[str, str]) -> Tuple[int, int]:
    """Checks the recordings of a client; returns the number of detected ones, and of differences from the lists."""
    hits = wrong = nonconforming = 0
    for outcome, log in play_clients(command, client_sessions(), False):
        good, text = judge_recording(name, outcome, log)
        is_unlawful = outcome.session.head["device"] == "nonconforming"
        nonconforming += is_unlawful
        hits += good and is_unlawful
        if good == (outcome.session.name in expected):
            wrong += 1
            print(f"{'detected, but listed' if good else 'MISSED'}  {text}")
    print(f"{name}: {hits} of {nonconforming} recordings of nonconforming devices violate the session's section")
    return hits, wrong


def main(arguments: List[str]) -> int:
    """Checks the recordings of both clients."""
    if not getattr(fido2, "__version__", "").startswith("0.9"):  # newer versions have another interface
        print(
            "conformance/check.py judged --clients: python-fido2 0.9 (Debian 12's version) is missing; nothing was run"
        )
        return 3
    expected = read_list("judged_clients.known")
    wrong = count_detected("python_fido2", f"{sys.executable} {os.path.join(CLIENTS, 'python_fido2.py')}", expected)[1]
    with tempfile.TemporaryDirectory() as room:
        program = compile_client(room)
        if program:
            expected.update(read_list("judged_clients.known", "libfido2"))
            wrong += count_detected("libfido2", program, expected)[1]
        else:
            print("libfido2: skipped, gcc or libfido2-dev is missing")
    print("passed" if not wrong else f"{wrong} differ from conformance/judged_clients.known")
    return 1 if wrong else 0
