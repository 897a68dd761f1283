"""Runs the conformance tests against others/python_key.py, which shares no code with the core. Time is the log's, so
the tests do not wait.

    conformance/check.py others             fail unless exactly the cases in others/python_key.failed fail
    conformance/check.py others --report    print the report of each failed case

Choices of the profile and SHOULD violations are not failures, as for any other authenticator.
"""

from __future__ import annotations

import os
import sys
from collections import deque
from typing import Any, Callable, Deque, List, Optional

HERE = os.path.dirname(os.path.dirname(os.path.abspath(__file__)))
sys.path.insert(0, os.path.join(HERE, "others"))

from hidlog_conformance import report  # noqa: E402
from hidlog_conformance.devices import Device  # noqa: E402
from hidlog_conformance.device_info import DeviceInfo  # noqa: E402
from hidlog_conformance.results import Outcome  # noqa: E402
from python_key import Key  # noqa: E402
from hidlog_conformance.run import all_sessions, play_one, parse_options  # noqa: E402

KNOWN = "others/python_key.failed"


class OtherDevice(Device):
    """The authenticator in this process, with the time of the log."""

    virtual = True
    fresh = True
    features = ("touch", "reset", "exact time", "two channels", "capacity 64", "power cycle")

    def __init__(self) -> None:
        self.key_in_hand = Key()
        self.packets: Deque[bytes] = deque()
        self.base = 0

    def start(self) -> None:
        """Starts a new authenticator."""
        self.key_in_hand = Key()
        self.packets.clear()
        self.base = 0

    def power_cycle(self, at: int) -> None:
        """Restarts the authenticator with its credentials."""
        self.key_in_hand = Key(self.key_in_hand.credentials)
        self.packets.clear()
        self.base = at

    def do(self, call: Callable[..., None], *words: Any) -> None:
        """Calls the authenticator; any exception ends it."""
        try:
            call(*words)
        except Exception as fault:
            raise OSError(f"the authenticator failed: {fault!r}") from None
        self.packets += self.key_in_hand.hid.out
        self.key_in_hand.hid.out.clear()

    def send(self, at: int, packet: bytes) -> None:
        """Sends a packet to the authenticator."""
        self.do(self.key_in_hand.hid.packet, at - self.base, packet)

    def tick(self, at: int) -> None:
        """Advances the clock."""
        self.do(self.key_in_hand.hid.tick, at - self.base)

    def presence(self, at: int, word: str) -> None:
        """Passes on a touch of the user."""
        if word == "granted":
            self.do(self.key_in_hand.hid.touch, at - self.base)

    def read(self, seconds: float) -> Optional[bytes]:
        """Returns the next packet, if any."""
        return self.packets.popleft() if self.packets else None


def main(words: List[str]) -> int:
    """Runs all cases, and compares the failures with the list."""
    device = OtherDevice()
    options = parse_options(["--device", "others/python_key.py", "--touch", "--reset"])
    outcomes: List[Outcome] = []
    device_info = DeviceInfo.ask(device, True)
    for session in all_sessions():
        outcomes.append(play_one(device, session, options, device_info))
    if words == ["--report"]:
        report.write("text", outcomes, {})
        return 0
    return 0 if report.compare_failures(KNOWN, outcomes) else 1
