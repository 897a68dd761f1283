"""Plays generated steps to a device until a response violates a rule, and shortens the list of steps."""

from __future__ import annotations

import time
from dataclasses import dataclass
from typing import Iterable, List, Optional, Tuple

from hidlog_conformance.answers import Mismatch
from hidlog_conformance.device_info import DeviceInfo
from hidlog_conformance.devices import Device
from hidlog_conformance.results import Outcome
from hidlog_conformance.player import Player
from hidlog_conformance.response_reader import GOES_ON
from hidlog_conformance.rules import SECTIONS
from hidlog_conformance.session_file import SessionReader, Step
from hidlog_conformance.walk_settings import SettingSteps
from hidlog_conformance.walk_steps import ID_FRONT, ID_LENGTH, Block

# Seconds for one step of a device in real time.
STEP_SECONDS = 60.0
# The maximum number of milliseconds between the steps of a shortened walk, and the maximum number of replays to shorten
# it.
MAX_PAUSE, MAX_REPLAYS = 50, 400
ANY = "Any history of valid and invalid requests has the responses that the standard requires."


@dataclass
class WalkResult:
    """The steps of a walk, and the violation that ended it, if any."""

    blocks: List[Block]
    outcome: Optional[Outcome] = None

    @property
    def failure(self) -> str:
        """The section and the expectation without values, which are the same for a shortened walk."""
        if self.outcome is None:
            return ""
        words = self.outcome.expected.split(" ")
        return self.outcome.broken + " " + " ".join(word for word in words if len(word) < 20)


class WalkPlayer(Player):
    """Plays steps as they are generated."""

    def __init__(self, device: Device, device_info: DeviceInfo) -> None:
        self.reader = SessionReader("walk")
        self.reader.session.head.update({"rule": "CTAP 2.1, " + SECTIONS["info"], "requirement": ANY})
        super().__init__(device, self.reader.session, False, device_info.facts())
        self.lines = 0
        self.played = 0

    def find_names(self, data: bytes) -> List[Tuple[bytes, bytes]]:
        """Returns the walk's IDs in a request, each with the device's. A walk makes too many credentials to look for
        each."""
        names = {ID_FRONT + part[: ID_LENGTH - len(ID_FRONT)] for part in data.split(ID_FRONT)[1:]}
        found = [(name, self.known[name].id) for name in sorted(names) if name in self.known]
        return found + [(name, identity) for name, identity in self.other_ids.items() if name in data]

    def begin(self) -> None:
        """Starts the device."""
        self.device.saves = True
        self.device.start()

    def add(self, block: Block) -> None:
        """Reads the lines of a step."""
        for text in block.lines:
            self.lines += 1
            if text.startswith("# "):
                self.reader.comment(text[2:], self.lines)
            else:
                self.reader.input(text, self.lines)

    def play_block(self, block: Block) -> Optional[Outcome]:
        """Plays a step; returns the outcome if the device violates a rule."""
        self.add(block)
        self.packets = 0
        self.deadline = time.monotonic() + STEP_SECONDS
        step: Optional[Step] = None
        try:
            for step in self.session.steps[self.played :]:
                self.played += 1
                self.do(step)
                for expected in step.expects:
                    self.judge(expected)
        except (KeyError, TypeError, ValueError, IndexError, AttributeError) as fault:
            return self.make_failure("a response with the standard's structure", repr(fault), step)
        except Mismatch as differs:
            return self.make_failure(differs.expected, differs.actual, step)
        except OSError as fault:
            return self.make_failure(GOES_ON, str(fault), step)
        return None


def play_blocks(device: Device, device_info: DeviceInfo, blocks: Iterable[Block]) -> WalkResult:
    """Plays steps to a device until it violates a rule; the next step may depend on the responses so far."""
    player, played = WalkPlayer(device, device_info), []
    player.begin()
    try:
        for block in blocks:
            played.append(block)
            outcome = player.play_block(block)
            if outcome is not None:
                return WalkResult(played, outcome)
        return WalkResult(played)
    finally:
        device.close()


class Walk:
    """A walk of generated steps; `blocks` has the steps so far, also after an interrupt."""

    def __init__(self, device: Device, device_info: DeviceInfo, seed: int) -> None:
        self.device, self.device_info = device, device_info
        self.steps = SettingSteps(seed, device_info)
        self.player = WalkPlayer(device, device_info)
        self.blocks: List[Block] = []

    def run(self, count: int) -> WalkResult:
        """Plays steps until one violates a rule."""
        self.player.begin()
        began = time.monotonic()
        try:
            while len(self.blocks) < count:
                if not self.device.virtual:
                    self.steps.at = max(self.steps.at, int((time.monotonic() - began) * 1000))
                secrets = self.player.live.answers.secrets
                block = self.steps.choose(secrets) if self.blocks else self.steps.reset()
                self.blocks.append(block)
                outcome = self.player.play_block(block)
                if outcome is not None:
                    return WalkResult(self.blocks, outcome)
            return WalkResult(self.blocks)
        finally:
            self.device.close()


def walk(device: Device, device_info: DeviceInfo, seed: int, count: int) -> WalkResult:
    """Plays generated steps to a device until it violates a rule."""
    return Walk(device, device_info, seed).run(count)


def retime(blocks: List[Block]) -> List[Block]:
    """Returns the steps with the pauses limited to MAX_PAUSE, so that removed steps leave no long pause."""
    found: List[Block] = []
    now = 0
    for block in blocks:
        begin = now + min(block.began - now, MAX_PAUSE)
        moved = Block(begin, block.channel)
        moved.lines = [move_line(text, begin - block.began) for text in block.lines]
        moved.at = now = block.at + begin - block.began
        found.append(moved)
    return found


def move_line(text: str, by: int) -> str:
    """Returns a line with its time changed by some milliseconds."""
    if text.startswith("#"):
        return text
    kind, at, *rest = text.split(" ", 2)
    return " ".join([kind, str(int(at) + by), *rest])


def shrink(device: Device, device_info: DeviceInfo, whole: WalkResult) -> WalkResult:
    """Returns the shortest walk found that fails in the same way: removes blocks of steps, the largest first."""
    best = WalkResult(retime(whole.blocks), whole.outcome)
    size, replays = max(1, len(best.blocks) // 2), 0
    while size and replays < MAX_REPLAYS:
        end = len(best.blocks)
        while end > 0 and replays < MAX_REPLAYS:
            start = max(0, end - size)
            replays += 1
            shorter = play_blocks(device, device_info, retime(best.blocks[:start] + best.blocks[end:]))
            if shorter.failure == whole.failure:
                best = shorter
            end = min(start, len(best.blocks))
        size = size // 2 if size > 1 else 0
    return best
