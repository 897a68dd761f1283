"""The state of a session apart from the log: clock, request in progress, lock of an exchange, packets queued for
clients."""

from __future__ import annotations

import threading
import time
from collections import deque
from typing import Union

from . import packets
from .errors import KeyBusyError
from .log_lines import Need

# A channel ID, or the nonce of an INIT on the broadcast channel.
Address = Union[int, bytes]


class Time:
    """The clock: milliseconds added without waiting, the latest timestamp, and the real time of power-up."""

    __slots__ = ("passed", "latest", "started")

    def __init__(self) -> None:
        self.passed, self.latest, self.started = 0, 0, time.monotonic()


class Work:
    """What the key needs, since when it needs this (timestamp and real time), and the progress of the request."""

    __slots__ = ("need", "since_ms", "began", "waited_until", "delayed", "request", "replies")

    def __init__(self) -> None:
        self.need, self.since_ms, self.began = Need(), 0, 0.0
        self.waited_until, self.delayed = 0.0, 0
        self.request: packets.Message | None = None
        self.replies: list[str | None] = []


class Exchange:
    """The lock for one message and its response, in addition to a ceremony's lock."""

    __slots__ = ("_lock", "_is_open")

    def __init__(self, lock: threading.RLock) -> None:
        self._lock, self._is_open = lock, False

    def __enter__(self) -> None:
        self._lock.acquire()
        if self._is_open:
            self._lock.release()
            raise KeyBusyError("a presence callback cannot send a request to the same key")
        self._is_open = True

    def __exit__(self, *_: object) -> None:
        self._is_open = False
        self._lock.release()


def _get_address(packet: bytes) -> Address:
    channel = int.from_bytes(packet[:4], "big")
    is_init = channel == packets.BROADCAST and packet[4] == 0x80 | packets.INIT
    return packet[7:15] if is_init else channel


class PacketQueue:
    """Packets queued for clients. Each thread gets the packets of the channels on which it wrote; a thread that wrote
    no packet gets all."""

    def __init__(self) -> None:
        self._packets: deque[bytes] = deque()
        self._threads: set[int] = set()
        self._writers: dict[Address, set[int]] = {}

    @property
    def is_empty(self) -> bool:
        """Whether no packet is queued."""
        return not self._packets

    def record_write(self, packet: bytes) -> None:
        """Records that this thread writes on a packet's channel."""
        self._threads.add(threading.get_ident())
        self._writers.setdefault(_get_address(packet), set()).add(threading.get_ident())

    def put(self, packet: bytes) -> None:
        """Adds a packet."""
        self._packets.append(packet)

    def take(self) -> bytes | None:
        """Returns the next packet for this thread, or None."""
        thread = threading.get_ident()
        if len(self._threads) < 2 or thread not in self._threads:
            return self._packets.popleft() if self._packets else None
        for place, packet in enumerate(self._packets):
            writers = self._writers.get(_get_address(packet))
            if writers is None or thread in writers:
                del self._packets[place]
                return packet
        return None

    def drop(self) -> None:
        """Discards the packets."""
        self._packets.clear()
