"""Runs the conformance tests and a walk against conforming variants of the reference authenticator: none may violate a
MUST.

    conformance/check.py conforming [--jobs N] [--steps N] [WORD ..]    the variants whose names contain a word
"""

from __future__ import annotations

import argparse
import functools
import multiprocessing
import os
import sys
from typing import List, Tuple

HERE = os.path.dirname(os.path.dirname(os.path.abspath(__file__)))
sys.path.insert(0, os.path.join(HERE, "variants"))

from variant_list import VARIANTS  # noqa: E402

from hidlog_conformance import report  # noqa: E402
from hidlog_conformance.device_info import DeviceInfo  # noqa: E402
from hidlog_conformance.results import Outcome  # noqa: E402
from hidlog_conformance.reference.device import ReferenceDevice  # noqa: E402
from hidlog_conformance.run import all_sessions, play_one, parse_options  # noqa: E402
from hidlog_conformance.walk import walk  # noqa: E402

# The seed of the walks, and their default number of steps.
SEED, STEPS = 1, 200


def run_variant(name: str, steps: int) -> Tuple[str, List[Outcome]]:
    """Runs all cases against a variant, and a walk."""
    variant = VARIANTS[name]
    device = ReferenceDevice(variant.traits)
    display = ["--display"] if variant.traits.display else []
    options = parse_options(["--device", "reference", "--touch", "--reset", *display])
    device_info = DeviceInfo.ask(device, True, variant.traits.display)
    outcomes = [play_one(device, session, options, device_info) for session in all_sessions()]
    outcome = walk(device, device_info, SEED, steps).outcome
    return name, outcomes + ([outcome] if outcome is not None else [])


def main(arguments: List[str]) -> int:
    """Runs the chosen variants."""
    parser = argparse.ArgumentParser(
        prog="check.py conforming", description="Run the conformance tests against conforming authenticators."
    )
    parser.add_argument("--jobs", type=int, default=2, help="number of processes (default: 2)")
    parser.add_argument("--steps", type=int, default=STEPS, help=f"number of steps of a walk (default: {STEPS})")
    parser.add_argument("words", nargs="*", metavar="WORD", help="the variants whose names contain a word")
    options = parser.parse_args(arguments)
    chosen = [name for name in VARIANTS if not options.words or any(word in name for word in options.words)]
    good = 0
    with multiprocessing.get_context("fork").Pool(options.jobs) as pool:
        for name, outcomes in pool.imap(functools.partial(run_variant, steps=options.steps), chosen):
            failed = [outcome for outcome in outcomes if outcome.status == "not ok"]
            good += not failed
            print(
                f"{'conforming' if not failed else 'FAILED'}  {name}: {VARIANTS[name].description} {report.format_totals(outcomes)}"
            )
            for outcome in failed[:12]:
                print(f"        {outcome.session.name}: {outcome.expected}; actual: {outcome.actual}"[:200])
    print(f"{good} passed, {len(chosen) - good} failed")
    return 0 if chosen and good == len(chosen) else 1
