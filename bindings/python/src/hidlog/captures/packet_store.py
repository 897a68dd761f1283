"""Stores the packets of a capture. A large number of packets is stored in a temporary file, so that memory use does not
grow with the capture."""

from __future__ import annotations

import marshal
import struct
import tempfile
from collections import Counter
from collections.abc import Collection, Iterable, Iterator
from dataclasses import dataclass, field

from .source import CaptureError

# Number of bytes in memory above which packets are written to a file, and number of bytes to read at a time.
_MAX_IN_MEMORY = 1 << 20
_BLOCK_BYTES = 1 << 16
# The status of a failed transfer, which is set later, and the length of the other members.
_HEAD = struct.Struct("<qI")
_LOST = struct.Struct("<q")
_MAX_STATUS = (1 << 63) - 1


@dataclass
class Packet:
    """A packet from the host (`sent`) or the key. Without data, only the comments of a frame."""

    at: int | None
    sent: bool
    data: bytes
    comments: tuple[bytes, ...] = ()
    # Status of a failed transfer to the key, or 0.
    lost: int = 0
    # Status of a transfer from the key that was cancelled when the packet arrived, or 0.
    late: int = 0


class PacketStore:
    """Packets in recorded order, each with an endpoint."""

    def __init__(self) -> None:
        self._file = tempfile.SpooledTemporaryFile(_MAX_IN_MEMORY)
        self._size = 0
        # The number of packets with data by endpoint, and the number of packets without data.
        self.counts: Counter[int] = Counter()
        self.empty = 0

    def append(self, packet: Packet, endpoint: int = 0) -> int:
        """Adds a packet. Returns its offset in the file, for `set_lost` and `read_from`."""
        members = marshal.dumps((endpoint, packet.at, packet.sent, packet.data, packet.comments, packet.late))
        place = self._size
        self._size += self._file.write(_HEAD.pack(_clamp(packet.lost), len(members)) + members)
        if packet.data:
            self.counts[endpoint] += 1
        else:
            self.empty += 1
        return place

    def extend(self, packets: Iterable[Packet]) -> None:
        """Adds packets."""
        for packet in packets:
            self.append(packet)

    def set_lost(self, place: int, status: int) -> None:
        """Sets the status of a failed transfer for the packet at this offset in the file."""
        self._file.seek(place)
        self._file.write(_LOST.pack(_clamp(status)))
        self._file.seek(self._size)

    def read_from(self, place: int = 0) -> Iterator[tuple[int, int, Packet]]:
        """Yields each packet from an offset on: its offset in the file, its endpoint and the packet."""
        block, offset = b"", 0
        while place < self._size:
            start = end = offset + _HEAD.size
            lost = 0
            if start <= len(block):
                lost, length = _HEAD.unpack_from(block, offset)
                end += length
            if end > len(block):
                # Read at least the maximum length of a packet, since the length is unknown until the head is read.
                self._file.seek(place)
                needed = end - offset
                block, offset = self._file.read(max(_BLOCK_BYTES, needed)), 0
                if len(block) < needed:
                    raise CaptureError("the temporary file of packets is truncated")
                continue
            endpoint, at, sent, data, comments, late = marshal.loads(block[start:end])
            yield place, endpoint, Packet(at, sent, data, comments, lost, late)
            place += end - offset
            offset = end

    def select(self, endpoints: Collection[int] = (0,)) -> SelectedPackets:
        """Returns the packets with these endpoints."""
        return SelectedPackets(self, endpoints)


def _clamp(status: int) -> int:
    """Returns the status of a transfer, limited to 64 bits, since a damaged text may have any number."""
    return max(-_MAX_STATUS, min(status, _MAX_STATUS))


class SelectedPackets:
    """The packets of a store with some endpoints, and those without data."""

    def __init__(self, store: PacketStore, endpoints: Collection[int]):
        self._store, self._endpoints = store, endpoints

    def read_from(self, place: int = 0) -> Iterator[tuple[int, Packet]]:
        """Yields the index of each packet, and the packet, beginning at an index."""
        for at, endpoint, packet in self._store.read_from(place):
            if endpoint in self._endpoints or not packet.data:
                yield at, packet

    @property
    def has_data(self) -> bool:
        """Whether there is a packet with data."""
        return any(self._store.counts[endpoint] for endpoint in self._endpoints)

    def __iter__(self) -> Iterator[Packet]:
        return (packet for _, packet in self.read_from())

    def __len__(self) -> int:
        return sum(self._store.counts[endpoint] for endpoint in self._endpoints) + self._store.empty


@dataclass
class Stream:
    """The packets between hosts and one key."""

    name: str
    packets: SelectedPackets
    notes: list[str] = field(default_factory=list)
    writer: bytes = b""
