"""The command `hidlog-conformance walk`: plays generated steps to a device, and reports the first violation.

    hidlog-conformance walk --device "COMMAND .." --touch-line touch --persistent --reset --steps 1000 --seed 7

The violation's steps are written as a session file, which `hidlog-conformance` plays like any other.
"""

from __future__ import annotations

import argparse
import sys
from typing import List

from hidlog_conformance import interrupts, keys
from hidlog_conformance.device_info import DeviceInfo
from hidlog_conformance.device_options import add_device_options, describe_fault, make_device
from hidlog_conformance.devices import Device, kill_running
from hidlog_conformance.report import TITLES
from hidlog_conformance.text import escape_text, quantity
from hidlog_conformance.walk import ANY, Walk, WalkResult, shrink

STEPS = 500


def parse_walk(arguments: List[str]) -> argparse.Namespace:
    """Parses the command line after `walk`."""
    parser = argparse.ArgumentParser(
        prog="hidlog-conformance walk",
        description="Play generated steps to an authenticator, and check each response.",
    )
    add_device_options(parser)
    parser.add_argument("--steps", type=int, default=STEPS, metavar="N", help=f"play N steps (default: {STEPS})")
    parser.add_argument("--seed", type=int, default=1, metavar="S", help="number that chooses the steps (default: 1)")
    parser.add_argument("--output", default="", metavar="FILE", help="session file to write (default: walk-S.log)")
    options = parser.parse_args(arguments)
    if options.steps < 1:
        parser.error(f"--steps must be at least 1, got {options.steps}")
    options.touch = options.touch or bool(options.touch_line)
    return options


def check_walk_device(device: Device, options: argparse.Namespace) -> None:
    """Raises ValueError if a walk is not possible with the device."""
    if not keys.AVAILABLE:
        raise ValueError("walk needs python3-cryptography")
    if not device.fresh and not options.reset:
        raise ValueError("walk resets the device: use --reset, which DELETES ALL CREDENTIALS OF THE DEVICE")
    if not device.virtual and not options.touch:
        raise ValueError("walk needs touches: use --touch or --touch-line")
    if "power cycle" not in device.features:
        raise ValueError("walk needs power cycles: use --persistent if the command keeps its state")


def format_session(walked: WalkResult, seed: int) -> str:
    """Returns a session file of the steps."""
    assert walked.outcome is not None
    rule = TITLES.get(walked.outcome.broken, walked.outcome.session.head["rule"])
    head = [f"# rule: {rule}", f"# requirement: {ANY}", f"# found: by a walk with the seed {seed}"]
    needs = [f"# needs: {need}" for need in ("touch", "reset", "power cycle")]
    return "\n".join([*head, *needs, *(line for block in walked.blocks for line in block.lines)]) + "\n"


def print_violation(walked: WalkResult, seed: int, path: str) -> None:
    """Prints the violation."""
    outcome = walked.outcome
    assert outcome is not None
    print(f"failed   walk with the seed {seed}")
    print(f"         rule: {TITLES.get(outcome.broken, outcome.broken)}")
    print(f"         expected: {escape_text(outcome.expected)}")
    print(f"         actual: {escape_text(outcome.actual)}")
    print(f"         session: {path}, {quantity(len(walked.blocks), 'step')}")


def run_walk(options: argparse.Namespace) -> int:
    """Runs the command; returns the exit status."""
    device = make_device(options)
    check_walk_device(device, options)
    device_info = DeviceInfo.ask(device, options.touch, options.display)
    walk = Walk(device, device_info, options.seed)
    try:
        walked = walk.run(options.steps)
        if walked.outcome is not None and not device.lasting:
            print(f"failed at step {len(walked.blocks)}; shortening the walk", file=sys.stderr)
            walked = shrink(device, device_info, walked)
    except KeyboardInterrupt:
        interrupts.ignore_signals()
        kill_running()
        print(f"interrupted after {quantity(len(walk.blocks), 'step')} with the seed {options.seed}")
        return interrupts.INTERRUPTED
    if walked.outcome is not None:
        path = options.output or f"walk-{options.seed}.log"
        session = format_session(walked, options.seed)
        try:
            with open(path, "w", encoding="utf-8") as file:
                file.write(session)
        except OSError as fault:
            # The file cannot be written; after a long walk the steps must not be lost.
            print_violation(walked, options.seed, f"below, since it cannot be written ({describe_fault(fault)})")
            print(session, end="")
            return 1
        print_violation(walked, options.seed, path)
    else:
        print(f"no violation in {quantity(len(walked.blocks), 'step')} with the seed {options.seed}")
    return 1 if walked.outcome is not None else 0
