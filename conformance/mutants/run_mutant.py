"""Runs the conformance tests, or walks, against mutants of the reference authenticator."""

from __future__ import annotations

import contextlib
import io
from typing import Dict, Iterator, List, Tuple

from mutant import Mutant
from answer_mutants import ANSWER_MUTANTS
from credential_mutants import CREDENTIAL_MUTANTS
from family_mutants import FAMILY_MUTANTS
from lock_mutants import LOCK_MUTANTS
from management_mutants import MORE_MUTANTS
from pin_mutants import PIN_MUTANTS
from pin_state_mutants import PIN_STATE_MUTANTS
from setting_state_mutants import SETTING_STATE_MUTANTS
from more_state_mutants import MORE_STATE_MUTANTS
from state_mutants import STATE_MUTANTS
from wire_mutants import WIRE_MUTANTS

from hidlog_conformance.device_info import DeviceInfo
from hidlog_conformance.results import Outcome, Results
from hidlog_conformance.play_order import order_sessions
from hidlog_conformance.text import quantity
from hidlog_conformance.reference.device import PersistentKey, ReferenceDevice
from hidlog_conformance.run import all_sessions, parse_options, play_all, play_one
from hidlog_conformance.walk import walk

TABLE = CREDENTIAL_MUTANTS + ANSWER_MUTANTS + WIRE_MUTANTS + PIN_MUTANTS + MORE_MUTANTS + FAMILY_MUTANTS
TABLE += LOCK_MUTANTS
MUTANTS: Dict[str, Mutant] = {fault.name: fault for fault in TABLE}
assert len(MUTANTS) == len(TABLE), "two mutants have the same name"
# Mutants that only walks detect. A walk with each of these seeds must detect them, within this number of steps.
STATE_TABLE = STATE_MUTANTS + PIN_STATE_MUTANTS + MORE_STATE_MUTANTS + SETTING_STATE_MUTANTS
STATEFUL: Dict[str, Mutant] = {fault.name: fault for fault in STATE_TABLE}
assert len(STATEFUL) == len(STATE_TABLE), "two mutants have the same name"
SEEDS, STEPS = (1, 2), 5000
# Mutants that are not detected by a run in which a person touches a key, with the reason.
NEVER_FULL, NEVER_DENIES = "60 touches do not fill a key", "a person who tests a key does not deny"
NOT_KEPT = {
    "full_overwrites": NEVER_FULL,
    "full_forgets": NEVER_FULL,
    "denial_is_consent": NEVER_DENIES,
    "selection_lies": NEVER_DENIES,
    "exclude_denied": NEVER_DENIES,
    "user_retries_stay": NEVER_DENIES,
    "pin_long_refused": "the first reset repairs the reference authenticator",
}


def iter_outcomes(device: ReferenceDevice, section: str) -> Iterator[Outcome]:
    """Yields the outcomes of all cases, those of the section first, without --profile-choices and
    --warnings-as-errors."""
    options = parse_options(["--device", "reference", "--touch", "--reset"])
    device_info = DeviceInfo.ask(device, True)
    sessions = sorted(all_sessions(), key=lambda session: bool(session.section != section))
    return (play_one(device, session, options, device_info) for session in sessions)


def run_mutant(name: str, whole: bool = False) -> Tuple[bool, str]:
    """Runs one mutant until two cases detect it by its section, or all; returns whether it was detected, and a
    report."""
    fault = MUTANTS[name]
    text = f"{name} ({fault.section}): {fault.description}"
    failed: List[Outcome] = []
    try:
        for outcome in iter_outcomes(ReferenceDevice(fault.traits, fault.change), fault.section):
            if outcome.status == "not ok":
                failed.append(outcome)
            if not whole and sum(one.broken in fault.section.split("|") for one in failed) > 1:
                break
    except OSError as ended:
        return True, f"found   {text}\n        before the first case: {ended}"
    own = [outcome for outcome in failed if outcome.broken in fault.section.split("|")]
    good = not own if fault.missed else len(own) > 1
    word = "found " if own else "listed" if good else "MISSED"
    for outcome in (own or failed)[:1]:
        text += f"\n        by {outcome.session.name}: {outcome.expected}; actual: {outcome.actual}"[:208]
    if fault.missed:
        text += f"\n        not found: {fault.missed}"
    if len(own) == 1:
        text += "\n        only one case detects it"
    counts: Dict[str, int] = {}
    for outcome in failed:
        counts[outcome.broken] = counts.get(outcome.broken, 0) + 1
    violated = ", ".join(f"{rule}: {count}" for rule, count in sorted(counts.items()))
    return good, f"{word}  {text}" + (f"\n        failed cases by rule: {violated or 'none'}" if whole else "")


def run_persistent_mutant(name: str) -> Tuple[bool, str]:
    """Runs one mutant as a key that keeps its state, with combined cases and tours; returns whether a case detects it,
    and a report."""
    fault = MUTANTS[name]
    text = f"{name} ({fault.section}): {fault.description}"
    options = parse_options(["--device", "reference", "--touch", "--reset"])
    device, results = PersistentKey(fault.change, **vars(fault.traits)), FirstFailure(fault.section)
    try:
        with contextlib.redirect_stderr(io.StringIO()):
            device_info = DeviceInfo.ask(device, True)
            sessions = order_sessions(device, all_sessions(), options, device_info)
            sessions.sort(key=lambda session: session.section != fault.section and "reset" not in session.needs)
            play_all(device, sessions, options, device_info, results)
    except OSError as ended:
        return True, f"found   {text}\n        before the first case: {ended}"
    except MutantFoundError as found:
        return True, f"found   {text}\n        by {found}"
    if results.others:
        return True, f"found   {text}\n        under another section, by {quantity(len(results.others), 'case')}"
    reason = fault.missed or NOT_KEPT.get(name, "")
    more = f"\n        not found: {reason}" if reason else ""
    return bool(reason), f"{'listed' if reason else 'MISSED'}  {text}{more}"


class MutantFoundError(Exception):
    """Raised when a case fails under the section that the mutant violates: the mutant is found."""


class FirstFailure(Results[Outcome]):
    """Ends a run at the first case that fails under a section."""

    def __init__(self, section: str) -> None:
        super().__init__()
        self.section = section
        self.others: List[Outcome] = []

    def add(self, number: int, result: Outcome) -> None:
        """Adds a result."""
        if result.status == "not ok" and result.broken == self.section:
            raise MutantFoundError(f"{result.session.name}: {result.expected}; actual: {result.actual}"[:200])
        if result.status == "not ok":
            self.others.append(result)


def walk_mutant(name: str, steps: int = STEPS) -> Tuple[bool, str]:
    """Walks with one mutant; returns whether each walk detected it by its section, and a report."""
    fault = STATEFUL[name]
    text, good = f"{name} ({fault.section}): {fault.description}", True
    for seed in SEEDS:
        device = ReferenceDevice(fault.traits, fault.change)
        found = walk(device, DeviceInfo.ask(device, True), seed, steps)
        outcome = found.outcome
        good = good and outcome is not None and outcome.broken in fault.section.split("|")
        text += f"\n        by seed {seed} at step {len(found.blocks)}: "
        text += f"{outcome.broken}: {outcome.expected}; actual: {outcome.actual}"[:160] if outcome else "nothing"
    return good, f"{'found ' if good else 'MISSED'}  {text}"
