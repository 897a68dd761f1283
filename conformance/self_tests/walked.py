"""Tests of `hidlog-conformance walk`: the faults it finds, the session file of a violation, and its error messages."""

from __future__ import annotations

import os
import sys
import tempfile
from typing import Callable, Dict

from trying import HERE, Test, check_detected, run_command

sys.path.insert(0, os.path.join(HERE, "..", "mutants"))

from hidlog_conformance import live_judge, run, walk, walk_command  # noqa: E402
from hidlog_conformance.answers import MAX_RETRIES  # noqa: E402
from hidlog_conformance.device_info import DeviceInfo  # noqa: E402
from hidlog_conformance.judged_parts import PIN_INVALID, Pins  # noqa: E402
from hidlog_conformance.judged_settings import FORCE_CHANGE, MAY_CONFIGURE, SET_MIN_PIN_LENGTH  # noqa: E402
from hidlog_conformance.known_answers import MAKES, KnownAnswers, Secrets  # noqa: E402
from hidlog_conformance.reference.device import ReferenceDevice  # noqa: E402
from hidlog_conformance.reference.traits import DeviceTraits  # noqa: E402
from hidlog_conformance.walk_settings import SettingSteps  # noqa: E402
from hidlog_conformance.walk_steps import RPS  # noqa: E402
from run_mutant import STATEFUL, walk_mutant  # noqa: E402

# Faults, and the number of steps within which a walk with the first seed finds each.
QUICK = ["retries_restored", "pin_by_one_byte", "param_by_prefix", "token_registers_twice", "vector_of_zeros"]
QUICK += ["random_restarts", "rp_hash_of_previous", "allow_list_stays", "pin_lost", "token_of_always"]
QUICK_STEPS, MAX_STEPS = 400, 6


def test_found() -> None:
    """A walk finds faults that need state, under the violated section."""
    for name in QUICK:
        is_found, text = walk_mutant(name, QUICK_STEPS)
        assert is_found, text


def test_conforming() -> None:
    """A walk finds no violation of the reference authenticator, nor of this project's."""
    device = ReferenceDevice(DeviceTraits())
    outcome = walk.walk(device, DeviceInfo.ask(device, True), 3, 300).outcome
    assert outcome is None, f"{outcome.expected}; actual: {outcome.actual}"
    status, text, _ = run_command(["walk", "--steps", "200", "--seed", "5"])
    assert (status, text) == (0, "no violation in 200 steps with the seed 5\n"), text


def test_wrong_pin_while_forced() -> None:
    """A wrong PIN decrements the retries, also while the PIN must be changed (6.5.5.7, 6.11.4)."""
    device = ReferenceDevice(DeviceTraits(config=True))
    device_info = DeviceInfo.ask(device, True)
    steps, player = SettingSteps(1, device_info), walk.WalkPlayer(device, device_info)
    player.begin()
    try:
        assert player.play_block(steps.reset()) is None
        for make_block in (
            steps.set_or_change,
            lambda: steps.add_config(steps.with_permission(MAY_CONFIGURE), SET_MIN_PIN_LENGTH, {FORCE_CHANGE: True}),
            steps.ask_retries,
            lambda: steps.ask_token(steps.new_block(), b"0" + (steps.secrets.pin or b""), MAKES, RPS[0]),
            steps.ask_retries,
            lambda: steps.ask_token(steps.new_block(), steps.secrets.pin or b"", MAKES, RPS[0]),
            steps.ask_retries,
        ):
            steps.secrets = player.live.answers.secrets
            outcome = player.play_block(make_block())
            assert outcome is None, f"{outcome.expected}; actual: {outcome.actual}"
    finally:
        device.close()
    settings, left = player.live.answers.settings, player.live.answers.pins.retries
    assert settings.is_forced and left == MAX_RETRIES, (settings.is_forced, left)


def test_repeats() -> None:
    """A seed chooses the same steps each time."""
    lines = []
    for _ in range(2):
        device = ReferenceDevice(DeviceTraits())
        blocks = walk.walk(device, DeviceInfo.ask(device, True), 4, 60).blocks
        lines.append([text for block in blocks for text in block.lines])
    assert lines[0] == lines[1] and len(lines[0]) > 60


def test_written() -> None:
    """A violation is written as a short session file, which fails in the same way when the runner plays it."""
    fault = STATEFUL["retries_restored"]
    device = ReferenceDevice(fault.traits, fault.change)
    before = getattr(run, "make_device")
    for module in (run, walk_command):
        setattr(module, "make_device", lambda options: device)
    try:
        with tempfile.TemporaryDirectory() as room:
            path = os.path.join(room, "found.log")
            status, text, _ = run_command(["walk", "--device", "x", "--seed", "2", "--output", path])
            assert status == 1 and "rule: CTAP 2.1, 6.5 authenticatorClientPIN" in text, text
            steps = int(text.split(", ")[-1].split(" ")[0])
            assert steps <= MAX_STEPS, text
            status, text, _ = run_command(["--device", "x", "--touch", "--reset", path])
            assert status == 1 and "violated  CTAP 2.1, 6.5 authenticatorClientPIN: 1 failed case" in text, text
    finally:
        for module in (run, walk_command):
            setattr(module, "make_device", before)


def test_refused() -> None:
    """A walk that is not possible ends at once with the reason, and status 2."""
    for more, reason in (
        ("", "--reset"),
        ("--reset", "--touch"),
        ("--reset --touch-line touch", "--persistent"),
    ):
        status, text, heard = run_command(["walk", "--device", "false", *more.split()])
        assert status == 2 and text == "" and reason in heard, (more, text, heard)


def skip_forced(judge: Callable[[Pins, bytes, bytes, bool], None]) -> Callable[[Pins, bytes, bytes, bool], None]:
    """Returns `Pins.judge` without the check of wrong PINs while the PIN must be changed."""

    def judge_others(pins: Pins, request: bytes, data: bytes, may_be_forced: bool) -> None:
        if not may_be_forced or data[0] != PIN_INVALID:
            judge(pins, request, data, may_be_forced)

    return judge_others


TESTS: Dict[str, Test] = {
    "walked/found": check_detected(
        test_found,
        (KnownAnswers, "check_new", lambda *words: None),
        (KnownAnswers, "check_retries", lambda *words: None),
        (KnownAnswers, "find_token_fault", lambda *words: ("", True)),
        (Secrets, "use", lambda self, pin: 0),
        (live_judge.SentOwners, "take_line", lambda *words: None),
    ),
    "walked/conforming": check_detected(
        test_conforming,
        (KnownAnswers, "record_use", lambda *words: None),
    ),
    "walked/forced": check_detected(test_wrong_pin_while_forced, (Pins, "judge", skip_forced(Pins.judge))),
    "walked/repeats": test_repeats,
    "walked/written": check_detected(test_written, (walk, "MAX_REPLAYS", 0)),
    "walked/refused": test_refused,
}
