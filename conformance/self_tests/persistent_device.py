"""Tests of a key that keeps its state across cases, like a hardware key: touches, unplugging, and --pin."""

from __future__ import annotations

import hashlib
import io
import re
from contextlib import redirect_stderr
from typing import Any, Dict, List, Optional, Tuple

from hidlog_conformance import play_order, response_reader, run
from hidlog_conformance.combined import CombinedCase
from hidlog_conformance.device_info import DeviceInfo
from hidlog_conformance.results import Outcome, Results
from hidlog_conformance.pin_user import PinUser
from hidlog_conformance.reference.authenticator import Authenticator
from hidlog_conformance.reference.device import Change, PersistentKey
from hidlog_conformance.reference.pin import INVALID_PARAMETER, RETRIES, RequestError
from hidlog_conformance.reference.requests import Types
from hidlog_conformance.session_file import Session
from hidlog_conformance.touch_plan import DeviceState
from trying import check_detected


def run_cases(
    words: List[str], change: Optional[Change] = None, **traits: Any
) -> Tuple[Dict[str, str], PersistentKey, int]:
    """Runs cases; returns their outcomes, the key, and the number of touches that was announced."""
    options = run.parse_options(["--device", "reference", "--touch", *words])
    device, written = PersistentKey(change, **traits), io.StringIO()
    with redirect_stderr(written):
        device_info = run.ask_device(device, options)
        if options.pin:
            run.check_pin(device, options, device_info)
        device.touches = 0
        sessions = run.order_sessions(device, run.all_sessions(options.only), options, device_info)
        results: Results[Outcome] = Results()
        run.play_all(device, sessions, options, device_info, results)
    announced = re.search(r"at most (\d+) touch", written.getvalue())
    count = int(announced.group(1)) if announced is not None else -1
    return {outcome.session.name: outcome.status for outcome in results.close()}, device, count


def test_reused_credentials() -> None:
    """Reusing credentials gives the same outcomes with fewer touches, which are counted
    before the run."""
    runs: List[List[str]] = [[], ["--reset"], ["--reset", "--only", "lists/"], ["--reset", "--only", "blobs/"]]
    for words in runs:
        reuse, device, announced = run_cases(words)
        alone, other, _ = run_cases([*words, "--isolated"])
        assert reuse == alone, {name: status for name, status in reuse.items() if alone[name] != status}
        assert "not ok" not in reuse.values(), [name for name, status in reuse.items() if status == "not ok"]
        assert device.touches < other.touches
        assert device.touches <= announced, (device.touches, announced)
        text = f"{device.touches} touches and {device.unplugged} times unplugged, by itself {other.touches} and"
        print(f"{' '.join(words) or 'all without --reset'}: {text} {other.unplugged}")


def test_fewest_touches() -> None:
    """The touches of a run are at most those in CONFORMANCE.md."""
    runs: List[Tuple[List[str], int]] = [([], 28), (["--reset"], 60)]
    for words, most in runs:
        _, device, announced = run_cases(words)
        assert device.touches <= announced <= most, (words, device.touches, announced)


def test_slow_person() -> None:
    """A person who takes 2.5 seconds for a touch, and a key that takes five for a request, need no further touches."""
    outcomes, device, announced = run_cases(["--reset"], touch_time=2500, work_time=5000)
    assert set(outcomes.values()) == {"ok", "skip"}, [name for name, status in outcomes.items() if status == "not ok"]
    assert device.touches <= announced <= 60, (device.touches, announced)


def refuse_member(authenticator: Authenticator) -> None:
    """Makes an authenticator refuse requests with an unknown member, which is a fault."""
    read = authenticator.requests.read

    def refuse(data: bytes, types: Types) -> Dict[Any, Any]:
        """Reads a request."""
        found: Dict[Any, Any] = read(data, types)
        if UNKNOWN_MEMBER in found:
            raise RequestError(INVALID_PARAMETER)
        return found

    setattr(authenticator.requests, "read", refuse)


def test_combined_failure() -> None:
    """If a combined case fails, its cases are played by themselves, and only those about the fault fail."""
    shared, device, _ = run_cases(["--only", "cbor/taken"], refuse_member)
    alone, _, _ = run_cases(["--only", "cbor/taken", "--isolated"], refuse_member)
    failed = [name for name, status in shared.items() if status == "not ok"]
    assert shared == alone and len(failed) == 1 and device.touches > 10, (failed, device.touches)


def test_unexplained_failure() -> None:
    """If a combined case fails, and each of its cases passes by itself, the failure is reported as unstable."""
    setattr(run, "play_one", fail_whole)
    try:
        outcomes, _, _ = run_cases(["--only", "cbor/taken"])
    finally:
        setattr(run, "play_one", play_one)
    assert sorted(set(outcomes.values())) == ["ok", "unstable"], outcomes


def fail_whole(device: Any, session: Session, *words: Any) -> Outcome:
    """Fails each combined case, and plays other cases."""
    if " and " in session.name:
        return Outcome(session, "not ok", "", "something else", "what came", 1, session.section)
    return play_one(device, session, *words)


def pass_whole(device: Any, session: Session, *words: Any) -> Outcome:
    """Passes each combined case, and plays other cases."""
    return Outcome(session, "ok") if " and " in session.name else play_one(device, session, *words)


def test_pin() -> None:
    """With --pin most cases are played to a key that has a PIN and is not reset, and no credential is left on it."""
    for least, always_uv in ((850, False), (800, True)):
        outcomes, device, _ = run_cases(["--pin", "123456"], pin="123456", always_uv=always_uv)
        played = {name: status for name, status in outcomes.items() if status != "skip"}
        assert "not ok" not in played.values(), [name for name, status in played.items() if status == "not ok"]
        left = [one for one in device.authenticator.credentials if one.discoverable]
        assert len(played) >= least and not left, (len(played), [(one.rp, one.user) for one in left])
        pin = device.authenticator.pin
        assert pin.is_same_pin(hashlib.sha256(b"123456").digest()[:16]) and pin.retries == RETRIES, pin.retries
        kind = "with alwaysUv" if always_uv else "with a PIN"
        print(f"{kind}: {len(played)} cases, nothing left, {device.touches} touches")


def test_reset_with_pin() -> None:
    """With --reset a PIN that the device has is removed, so that cases can set theirs."""
    outcomes, device, _ = run_cases(["--reset", "--only", "pin/s"], pin="123456")
    assert outcomes["pin/set_1"] == outcomes["pin/set_2"] == "ok", outcomes


def test_wrong_pin() -> None:
    """A wrong PIN ends the run at once, and takes one retry."""
    device = PersistentKey(pin="123456")
    for words, reason in (
        ("--pin 654321", "status 31"),
        ("--pin 123456 --reset", "--reset"),
    ):
        options = run.parse_options(["--device", "reference", "--touch", *words.split()])
        try:
            run.check_pin(device, options, DeviceInfo.ask(device, True))
            raise AssertionError(f"{words}: the options are accepted")
        except ValueError as fault:
            assert reason in str(fault), str(fault)
    assert device.authenticator.pin.retries == RETRIES - 1


# A member that one case has, and which a device must ignore.
UNKNOWN_MEMBER = 66
play_one = run.play_one

TESTS = {
    "spared": test_reused_credentials,
    "spared/fewest": check_detected(
        test_fewest_touches,
        (DeviceState, "find_group", lambda *words: None),
        (play_order, "combine", lambda *words: []),
        (play_order, "without_needless_touches", lambda session: session),
    ),
    "spared/slow": check_detected(test_slow_person, (response_reader, "MAX_SHARE", 1)),
    "spared/combined": check_detected(test_combined_failure, (run, "play_one", pass_whole)),
    "spared/unexplained": check_detected(
        test_unexplained_failure, (CombinedCase, "add_part", lambda self, outcome: outcome)
    ),
    "pin/played": check_detected(
        test_pin,
        (PinUser, "delete", lambda *words: None),
        (PinUser, "required_rp", lambda *words: None),
    ),
    "pin/wrong": test_wrong_pin,
    "pin/reset": check_detected(test_reset_with_pin, (run, "prepare", lambda *words: "no")),
}
