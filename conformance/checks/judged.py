"""Records authenticators during the conformance tests, and checks the recordings with the rules of `hidlog judge`.

    conformance/check.py judged [--jobs N] [WORD ..]                each faulty authenticator must be detected
    conformance/check.py judged --conforming [--jobs N] [WORD ..]   no conforming one may have a MUST violation

A faulty authenticator is detected if the recording of a case that it fails has a violation of the same section.
`conformance/judged.known` lists faults that packets and timestamps do not show, with reasons.
"""

from __future__ import annotations

import argparse
import functools
import multiprocessing
import os
import sys
from typing import Any, Callable, Dict, Iterator, List, Optional, Tuple

HERE = os.path.dirname(os.path.dirname(os.path.abspath(__file__)))
sys.path[:0] = [os.path.join(HERE, "faults"), os.path.join(HERE, "mutants")]
sys.path.insert(0, os.path.join(HERE, "variants"))

from answer_faults import CBOR_FAULTS  # noqa: E402
from faulty import Fault, FaultyDevice  # noqa: E402
from variant_list import VARIANTS  # noqa: E402
from run_mutant import MUTANTS  # noqa: E402
from wire_faults import WIRE_FAULTS  # noqa: E402

from hidlog_conformance import hid_packets as hid  # noqa: E402
from hidlog_conformance.devices import Device, LiveDevice  # noqa: E402
from hidlog_conformance.judged_log import HOST, KEY, MUST, Finding  # noqa: E402
from hidlog_conformance.report import read_list  # noqa: E402
from hidlog_conformance.device_info import DeviceInfo  # noqa: E402
from hidlog_conformance.results import Outcome  # noqa: E402
from hidlog_conformance.player import Player  # noqa: E402
from hidlog_conformance.text import quantity  # noqa: E402
from hidlog_conformance.reference.device import ReferenceDevice  # noqa: E402
from hidlog_conformance import run  # noqa: E402
from hidlog_conformance.answers import CaseSkipped, Mismatch  # noqa: E402
from hidlog_conformance.run import all_sessions, play_one, parse_options  # noqa: E402
from hidlog_conformance.session_file import Session  # noqa: E402
from proved_walk import judge  # noqa: E402

FAULTS: Dict[str, Fault] = {fault.name: fault for fault in WIRE_FAULTS + CBOR_FAULTS}
# Milliseconds that a host waits for a response, as the runner does with a real-time device.
WAIT_MS = 3000
# Faults of the INIT response that end a run before its first case. Their cases are recorded without the runner.
INVALID_INIT_FAULTS = ("packet_short", "length_of_packets", "init_short")
# The maximum number of recordings per fault.
MAX_RECORDINGS = 24


class Recorder:
    """Records the packets and timestamps of a device."""

    def __init__(self, device: Device) -> None:
        self.lines: List[str] = []
        self.now = 0
        self.short = False
        for name in ("start", "send", "tick", "presence", "key", "signature", "power_cycle", "read"):
            setattr(device, name, functools.partial(getattr(self, name), getattr(device, name)))

    def advance_time(self, at: int) -> None:
        """Advances the clock."""
        if at > self.now:
            self.lines.append(f"t {at}")
        self.now = max(self.now, at)

    def start(self, call: Callable[[], None]) -> None:
        """Begins a session."""
        self.lines, self.now, self.short = [], 0, False
        call()

    def send(self, call: Callable[[int, bytes], None], at: int, packet: bytes) -> None:
        """Records a packet of the host."""
        self.now = max(self.now, at)
        self.lines.append(f"> {at} {packet.hex()}")
        call(at, packet)

    def tick(self, call: Callable[[int], None], at: int) -> None:
        """Advances the clock."""
        self.advance_time(at)
        call(at)

    def presence(self, call: Callable[[int, str], None], at: int, word: str) -> None:
        """Passes on the user's reply, which is not recorded."""
        self.advance_time(at)
        call(at, word)

    def key(self, call: Callable[[int, List[str]], None], at: int, words: List[str]) -> None:
        """Provides a key pair."""
        self.advance_time(at)
        call(at, words)

    def signature(self, call: Callable[[int, List[str]], None], at: int, words: List[str]) -> None:
        """Provides a signature."""
        self.advance_time(at)
        call(at, words)

    def power_cycle(self, call: Callable[[int], None], at: int) -> None:
        """Power cycles the device."""
        self.lines.append("# power cycle")
        self.advance_time(at)
        call(at)

    def read(self, call: Callable[[float], Optional[bytes]], seconds: float) -> Optional[bytes]:
        """Records a packet of the device."""
        packet = call(seconds)
        if packet is not None and len(packet) == 64:
            self.lines.append("< " + packet.hex())
        elif packet is not None:
            self.short = True
        return packet

    def log(self, first: List[str]) -> bytes:
        """Returns the recording as a log. It begins with the lines `first`, recorded with the same device, and ends
        with the time that the host waited."""
        lines = [*first, "# power cycle", *self.lines, f"t {self.now + WAIT_MS}"]
        return "".join(line + "\n" for line in lines).encode()


class FullPlayer(Player):
    """Plays a session to its end, even after a failure. The first failure is the outcome."""

    def __init__(self, *words: Any) -> None:
        super().__init__(*words)
        self.difference: Optional[Outcome] = None

    def judge(self, expected: str) -> None:
        """Checks an expectation."""
        try:
            super().judge(expected)
        except CaseSkipped:
            raise
        except Mismatch as differs:
            self.difference = self.difference or self.make_failure(differs.expected, differs.actual, None)
        except (KeyError, TypeError, ValueError, IndexError, AttributeError) as fault:
            self.difference = self.difference or self.make_failure(
                "a response with the standard's structure", repr(fault), None
            )

    def play(self) -> Outcome:
        """Plays the session."""
        outcome = super().play()
        if self.difference is not None and self.is_hidden_by_cred_protect():
            return Outcome(self.session, "skip", "the device sets credProtect without a request")
        return self.difference or outcome

    def cancel_pending_requests(self) -> None:
        """Waits as long as a host waits for a missing response, and touches at the end."""
        for _ in range(WAIT_MS // 100):
            self.at += 100
            self.device.tick(self.at)
            while self.device.read(0.0) is not None:
                pass
        self.device.presence(self.at, "granted")
        self.device.key(self.at, [])
        if self.device.makes_keys or getattr(self.device, "need", "").startswith("signature "):
            self.device.signature(self.at, [])
        while self.device.read(0.0) is not None:
            pass


class StoppingPlayer(FullPlayer):
    """Plays a session to its first failure, as the runner does, and then waits."""

    def judge(self, expected: str) -> None:
        """Checks an expectation."""
        Player.judge(self, expected)


GREETING = hid.fragment_message(hid.BROADCAST, hid.INIT, bytes(range(8)))[0]


def record_get_info(device: Device, recorder: Recorder) -> List[str]:
    """Returns a recording of authenticatorGetInfo, which clients send first."""
    device.start()
    try:
        device.send(0, GREETING)
        greeting = device.read(0.0) or bytes(64)
        channel = int.from_bytes(greeting[15:19], "big") or 1
        device.send(0, hid.fragment_message(channel, hid.CBOR, b"\4")[0])
        while device.read(0.0) is not None:
            pass
    except OSError:
        pass
    device.close()
    return list(recorder.lines)


def play_directly(device: Device, session: Session) -> Outcome:
    """Plays a session with the current player class."""
    player: Player = getattr(run, "Player")(device, session, True)
    return player.play()


def make_faulty_device(name: str) -> Tuple[Device, str, Callable[[Device, Session], Outcome]]:
    """Returns a device with a fault, its section, and a function that plays a session."""
    return FaultyDevice(FAULTS[name]), FAULTS[name].section, play_directly


def make_mutant(name: str) -> Tuple[Device, str, Callable[[Device, Session], Outcome]]:
    """Returns a mutant, its section, and a function that plays a session."""
    fault = MUTANTS[name]
    device = ReferenceDevice(fault.traits, fault.change)
    options = parse_options(["--device", "reference", "--touch", "--reset"])
    device_info = DeviceInfo.ask(
        ReferenceDevice(fault.traits, fault.change if fault.name not in INVALID_INIT_FAULTS else None), True
    )
    return device, fault.section, lambda own, session: play_one(own, session, options, device_info)


def iter_recordings(name: str) -> Iterator[Tuple[str, bytes, bool]]:
    """Yields recordings of the sessions that detect a fault: the session's name, the log, and whether a packet had
    fewer than 64 bytes."""
    device, section, play = (make_faulty_device if name in FAULTS else make_mutant)(name)
    recorder = Recorder(device)
    first = record_get_info(device, recorder)
    served = SESSIONS if name in FAULTS else all_sessions()
    found = 0
    sections = section.split("|")
    for session in sorted(served, key=lambda one: bool(one.section not in sections)):
        for player in (StoppingPlayer, FullPlayer):
            setattr(run, "Player", player)
            outcome = play(device, session)
            if outcome.status != "not ok" or outcome.broken not in sections:
                break
            found += 1
            yield session.name, recorder.log(first), recorder.short
        if found >= MAX_RECORDINGS:
            return


def judge_fault(name: str) -> Tuple[str, bool, str]:
    """Checks recordings of a faulty authenticator until one violates its section."""
    section = (FAULTS.get(name) or MUTANTS[name]).section
    others: Dict[str, int] = {}
    count = 0
    try:
        for session, log, _ in iter_recordings(name):
            count += 1
            findings = [finding for finding in judge(log).findings if finding.side == KEY]
            hits = [one for one in findings if set(section.split("|")) & set(one.sections)]
            if hits:
                return (
                    name,
                    True,
                    f"{section} by {session}: {hits[0].level}: {hits[0].expected}; actual: {hits[0].actual}"[:160],
                )
            for finding in findings:
                others[finding.section] = others.get(finding.section, 0) + 1
    except OSError as ended:
        return name, False, f"{section}: it stopped: {ended}"
    return name, False, f"{section}: {quantity(count, 'recording')}; violations: {others or 'none'}"


def judge_conforming(name: str) -> Tuple[str, bool, str]:
    """Checks recordings of all cases with a conforming authenticator."""
    variant = VARIANTS.get(name)
    device: Device = ReferenceDevice(variant.traits) if variant else LiveDevice()
    options = parse_options(
        ["--device", "reference", "--touch", "--reset"] + (["--display"] if variant and variant.traits.display else [])
    )
    device_info = DeviceInfo.ask(device, True, bool(variant and variant.traits.display))
    recorder = Recorder(device)
    first = record_get_info(device, recorder)
    setattr(run, "Player", FullPlayer)
    blamed: List[Tuple[str, Finding]] = []
    count = 0
    for session in all_sessions():
        outcome = play_one(device, session, options, device_info)
        if outcome.status == "skip":
            continue
        count += 1
        found = [
            finding for finding in judge(recorder.log(first)).findings if finding.side != HOST and finding.level == MUST
        ]
        blamed += [(session.name, finding) for finding in found]
    text = quantity(count, "recording")
    for session_name, finding in blamed[:8]:
        text += f"\n        {session_name}: line {finding.line}: {finding.section}: {finding.expected}; actual: {finding.actual}"[
            :220
        ]
    return name, not blamed, text


SESSIONS: List[Session] = []


def list_supported_sessions() -> List[Session]:
    """Returns the sessions that hidlog supports, except those that test a choice which the standard leaves open
    (`# profile:` in the header)."""
    device = LiveDevice()
    device_info = DeviceInfo.ask(device, True)
    bound = [session for session in all_sessions() if not session.head.get("profile")]
    return [session for session in bound if not device_info.find_skip_reason(session, device, True, True)]


def main(arguments: List[str]) -> int:
    """Checks recordings of the chosen authenticators."""
    parser = argparse.ArgumentParser(
        prog="check.py judged", description="Check recordings of faulty or conforming authenticators."
    )
    parser.add_argument("--jobs", type=int, default=2, help="number of processes (default: 2)")
    parser.add_argument(
        "--conforming",
        action="store_true",
        help="check conforming authenticators: no MUST violation is allowed",
    )
    parser.add_argument("words", nargs="*", metavar="WORD", help="check those whose names contain a word")
    options = parser.parse_args(arguments)
    names = ["hidlog", *VARIANTS] if options.conforming else [*FAULTS, *MUTANTS]
    chosen = [name for name in names if not options.words or any(word in name for word in options.words)]
    if not options.conforming:
        SESSIONS.extend(list_supported_sessions())
    expected = {} if options.conforming else read_list("judged.known")
    good = missed = 0
    with multiprocessing.get_context("fork").Pool(options.jobs) as pool:
        for name, well, text in pool.imap(judge_conforming if options.conforming else judge_fault, chosen):
            right = well != (name in expected)
            word = "judged" if well else "listed" if name in expected else "MISSED"
            print(f"{word}  {name} {text}", flush=True)
            good += right
            missed += not well
    print(f"{good} passed, {len(chosen) - good} failed; {missed} not detected by packets alone")
    return 0 if chosen and good == len(chosen) else 1
