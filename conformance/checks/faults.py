"""Runs the conformance tests against faulty authenticators, each of which they must detect.

    conformance/check.py faults [--jobs N]          all
    conformance/check.py faults [--jobs N] WORD ..  those whose names contain a word

A fault is a filter between the runner and hidlog live. All cases run, without the choices of the profile; none may fail
under another rule, except the rules in `implies`. A mutant is the reference authenticator with one faulty method. Cases
run until two fail under the violated rule; with `--whole` all run, and failed cases are counted by rule. Two cases must
detect each fault and mutant, unless it is listed with the reason. Two walks must detect each mutant that needs state.
"""

from __future__ import annotations

import argparse
import functools
import multiprocessing
import os
import sys
from typing import Callable, Dict, List, Mapping, Tuple

HERE = os.path.dirname(os.path.dirname(os.path.abspath(__file__)))
sys.path[:0] = [os.path.join(HERE, "faults"), os.path.join(HERE, "mutants")]

from hidlog_conformance import keys  # noqa: E402
from answer_faults import CBOR_FAULTS  # noqa: E402
from faulty import Fault, FaultyDevice  # noqa: E402
from run_mutant import MUTANTS, STATEFUL, run_persistent_mutant, run_mutant, walk_mutant  # noqa: E402
from hidlog_conformance.devices import LiveDevice  # noqa: E402
from hidlog_conformance.device_info import DeviceInfo  # noqa: E402
from hidlog_conformance.results import Outcome  # noqa: E402
from hidlog_conformance.player import Player  # noqa: E402
from cached_device import verify_cached  # noqa: E402
from hidlog_conformance.run import all_sessions  # noqa: E402
from hidlog_conformance.session_file import Session  # noqa: E402
from wire_faults import WIRE_FAULTS  # noqa: E402

FAULTS: Dict[str, Fault] = {fault.name: fault for fault in WIRE_FAULTS + CBOR_FAULTS}
SESSIONS: List[Session] = []


def list_supported_sessions() -> List[Session]:
    """Returns the sessions that hidlog supports, without the choices of this project's profile."""
    device = LiveDevice()
    device_info = DeviceInfo.ask(device, True)
    bound = [session for session in all_sessions() if not session.head.get("profile")]
    return [session for session in bound if not device_info.find_skip_reason(session, device, True, True)]


def count_control_failures() -> int:
    """Returns the number of cases that fail with filters that change nothing."""
    answers = FaultyDevice(Fault("none", "", "", lambda device, message: None))
    requests = FaultyDevice(Fault("none", "", "", request=lambda device, request: request))
    played = [Player(device, session, True).play() for device in (answers, requests) for session in SESSIONS]
    return sum(outcome.status == "not ok" for outcome in played)


def run_fault(fault: Fault) -> Dict[str, List[Outcome]]:
    """Runs all cases against a fault; returns the failed ones, by violated rule."""
    device = FaultyDevice(fault)
    found: Dict[str, List[Outcome]] = {}
    for session in SESSIONS:
        outcome = Player(device, session, True).play()
        if outcome.status == "not ok":
            found.setdefault(outcome.broken, []).append(outcome)
    return found


def judge_fault(name: str) -> Tuple[bool, str]:
    """Runs one fault; returns whether it is detected as expected, and a report."""
    fault = FAULTS[name]
    found = run_fault(fault)
    own = [outcome for outcome in found.get(fault.section, []) if fault.by in ("", outcome.session.name)]
    strange = {rule: cases for rule, cases in found.items() if rule not in (fault.section, *fault.implies)}
    lacking = [rule for rule in fault.implies if rule not in found]
    alone = len(found.get(fault.section, [])) == 1
    good = bool(own) and not strange and not lacking and not alone
    text = f"{'found ' if good else 'MISSED'}  {fault.name} ({fault.section}): {fault.description}"
    for outcome in own[:1]:
        text += f"\n        by {outcome.session.name}: {outcome.expected}; actual: {outcome.actual}"[:208]
    counts = ", ".join(f"{rule}: {len(cases)}" for rule, cases in sorted(found.items()))
    text += f"\n        failed cases by rule: {counts or 'none'}"
    text += "\n        only one case detects it" if alone else ""
    for rule, cases in strange.items():
        text += (
            f"\n        another rule: {rule} by {cases[0].session.name}: {cases[0].expected}; actual: {cases[0].actual}"
        )
    return good, text + "".join(f"\n        implied, but not detected: {rule}" for rule in lacking)


class Judge:
    """Runs a fault or mutant by its name."""

    def __init__(self, names: Mapping[str, Callable[[], Tuple[bool, str]]]) -> None:
        self.names = names

    def __call__(self, name: str) -> Tuple[bool, str]:
        """Runs the fault or mutant with this name."""
        return self.names[name]()


def main(arguments: List[str]) -> int:
    """Runs the chosen faults and mutants."""
    parser = argparse.ArgumentParser(
        prog="check.py faults", description="Run the conformance tests against faulty authenticators."
    )
    parser.add_argument("--jobs", type=int, default=2, help="number of processes (default: 2)")
    parser.add_argument("--whole", action="store_true", help="run all cases, even once a mutant is detected")
    parser.add_argument("--kept", action="store_true", help="run only mutants, as keys where cases save touches")
    parser.add_argument("words", nargs="*", metavar="WORD", help="run those whose names contain a word")
    options = parser.parse_args(arguments)
    names: Dict[str, Callable[[], Tuple[bool, str]]] = {name: functools.partial(judge_fault, name) for name in FAULTS}
    for name in MUTANTS:
        # A filter and a mutant may have the same name.
        other = name if name not in names else f"{name}_of_reference"
        kept = functools.partial(run_persistent_mutant, name)
        names[other] = kept if options.kept else functools.partial(run_mutant, name, whole=options.whole)
    names.update({name: functools.partial(walk_mutant, name) for name in STATEFUL})
    if options.kept:
        names = {name: run for name, run in names.items() if name not in (*FAULTS, *STATEFUL)}
    chosen = [name for name in names if not options.words or any(word in name for word in options.words)]
    if not chosen:
        print(f"check.py faults: no fault matches {' '.join(options.words)}", file=sys.stderr)
        return 2
    keys.is_valid_signature = verify_cached
    # Choices of the profile are not checked, since each fault must violate the standard.
    SESSIONS.extend(list_supported_sessions())
    failed = count_control_failures() if not options.words or any(name in FAULTS for name in chosen) else 0
    print(f"the filters alone: {failed} of {len(SESSIONS)} cases fail")
    good = 0
    with multiprocessing.get_context("fork").Pool(options.jobs) as pool:
        for well, text in pool.imap(Judge(names), chosen):
            good += well
            print(text, flush=True)
    print(f"{good} passed, {len(chosen) - good + failed} failed")
    return 0 if good == len(chosen) and not failed else 1
