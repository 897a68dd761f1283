"""The reference authenticator as a device under test in this process, with the time of the log, and as a key that keeps
its state across cases, like a hardware key."""

from __future__ import annotations

from collections import deque
from typing import Any, Callable, Deque, Dict, Optional, Tuple

from hidlog_conformance.devices import Device
from hidlog_conformance.reference.authenticator import Authenticator
from hidlog_conformance.reference.traits import DeviceTraits
from hidlog_conformance.reference.u2f import RECENT

Change = Callable[[Authenticator], None]


class ReferenceDevice(Device):
    """The reference authenticator in this process."""

    virtual = True
    fresh = True
    features: Tuple[str, ...] = ("touch", "reset", "denial", "exact time", "two channels", "capacity 64", "power cycle")

    def __init__(self, traits: DeviceTraits, change: Optional[Change] = None) -> None:
        self.traits = traits
        self.change = change
        self.packets: Deque[bytes] = deque()
        self.base = 0
        # The session's time of the last input.
        self.at = 0
        self.authenticator = Authenticator(traits)

    def start(self) -> None:
        """Starts a new authenticator."""
        self.authenticator = Authenticator(self.traits)
        if self.change is not None:
            self.change(self.authenticator)
        self.packets.clear()
        self.base = self.at = 0

    @property
    def powered_for(self) -> float:
        """The number of seconds since power-up, by the authenticator's clock."""
        return self.authenticator.transport.at / 1000

    def advance(self, milliseconds: int) -> None:
        """Advances only the authenticator's clock, for the time in which it works or waits for the user."""
        step = max(1, self.authenticator.traits.keepalive)
        for passed in range(0, milliseconds, step):
            self.base -= min(step, milliseconds - passed)
            self.tick(self.at)

    def power_cycle(self, at: int) -> None:
        """Power cycles the authenticator."""
        self.authenticator.power_cycle()
        if self.change is not None:
            self.change(self.authenticator)
        self.packets.clear()
        self.base = at

    def do(self, call: Callable[..., None], *words: Any) -> None:
        """Calls the authenticator; any exception ends it."""
        try:
            call(*words)
        except Exception as fault:
            raise OSError(f"the authenticator failed: {fault!r}") from None
        self.packets += self.authenticator.transport.out
        self.authenticator.transport.out.clear()

    def send(self, at: int, packet: bytes) -> None:
        """Sends a packet to the authenticator."""
        self.at = at
        self.do(self.authenticator.transport.packet, at - self.base, packet)

    def tick(self, at: int) -> None:
        """Advances the clock."""
        self.at = at
        self.do(self.authenticator.transport.tick, at - self.base)

    def presence(self, at: int, word: str) -> None:
        """Passes on the user's reply: a touch, a denial or a timeout."""
        self.at = at
        if word == "granted":
            self.work()
            self.advance(self.traits.touch_time)
        at -= self.base
        now = self.authenticator.transport.now
        if word == "granted" and (now is None or now.work is None):
            self.authenticator.u2f.touched = at
        self.do(self.authenticator.transport.touch, at, word)

    def work(self) -> None:
        """Advances the clock until a slow authenticator has served its request."""
        now = self.authenticator.transport.now
        if now is not None and now.ready_at is not None:
            self.advance(now.ready_at - self.authenticator.transport.at)

    def read(self, seconds: float) -> Optional[bytes]:
        """Returns the next packet, or None. A slow authenticator first serves its request."""
        if not self.packets:
            self.work()
        return self.packets.popleft() if self.packets else None


class PersistentKey(ReferenceDevice):
    """The reference authenticator, whose state only authenticatorReset clears. It counts touches."""

    lasting = True
    fresh = False
    features: Tuple[str, ...] = ("touch", "two channels", "power cycle")

    def __init__(self, change: Optional[Change] = None, **traits: Any) -> None:
        # Most keys do not store non-discoverable credentials.
        chosen: Dict[str, Any] = {"capacity": 100000, **traits}
        super().__init__(DeviceTraits(**chosen), change)
        self.touches = self.unplugged = 0
        super().start()

    def start(self) -> None:
        """Begins a session at the time at which the last session ended."""
        self.packets.clear()
        self.at = 0
        self.base = -self.authenticator.transport.at
        # Between two cases a person takes longer than the time for which a touch counts.
        self.authenticator.u2f.touched = -RECENT

    def power_cycle(self, at: int) -> None:
        """Power cycles the key; its clock starts over."""
        self.unplugged += 1
        super().power_cycle(at)

    def presence(self, at: int, word: str) -> None:
        """Counts a touch."""
        self.touches += word == "granted"
        super().presence(at, word)
