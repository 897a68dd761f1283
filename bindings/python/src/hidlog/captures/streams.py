"""Finds the keys in a USB capture, and the packets of each key in recorded order."""

from __future__ import annotations

from collections.abc import Iterable
from dataclasses import dataclass, field
from itertools import islice

from .. import packets as hid
from .packet_store import SelectedPackets, Packet, PacketStore, Stream
from .usb_descriptors import Descriptors, Interface
from .source import Source
from .usb import CONTROL, GONE_STATUSES, INTERRUPT, Transfer

_SET_REPORT = b"\x21\x09"
_GET_DESCRIPTOR = b"\x80\x06"
_OUTPUT = 2
# SET_REPORT over endpoint 0 counts as a separate endpoint of each interface.
_CONTROL_ENDPOINT = 0x100
_INIT_REQUEST = b"\xff\xff\xff\xff\x86\x00\x08"
_INIT_RESPONSE = b"\xff\xff\xff\xff\x86\x00\x11"
_KNOWN_COMMANDS = (hid.PING, hid.MSG, hid.LOCK, hid.INIT, hid.WINK, hid.CBOR, hid.CANCEL, hid.KEEPALIVE, hid.ERROR)
_REPORT_LENGTHS = (hid.PACKET, hid.PACKET + 1)
# Maximum number of transfers without a completion, and maximum number of INIT requests and channels while searching for
# endpoints.
_MAX_OPEN = 1024
# Maximum number of indexes that are tried as the start of a part of a stream.
_MAX_STARTS = 1000


@dataclass
class _Device:
    """A recorded device: the descriptors, and the 64-byte reports by endpoint."""

    place: tuple[int, int, int]
    turn: int = 1
    descriptors: Descriptors = field(default_factory=Descriptors)
    reports: PacketStore = field(default_factory=PacketStore)
    # Indexes of reports whose delivery is still unknown, by the recorder's transfer number.
    waiting: dict[int, int] = field(default_factory=dict)
    gone: bool = False
    writer: bytes = b""


class StreamFinder:
    """Finds the streams in USB transfers."""

    def __init__(self, source: Source):
        self._source = source
        self._devices: dict[tuple[int, int, int], _Device] = {}
        self._former: list[_Device] = []

    def add_transfers(self, transfers: Iterable[Transfer]) -> None:
        """Reads the transfers of a capture."""
        for transfer in transfers:
            device = self._find_device(transfer)
            if transfer.kind == CONTROL:
                self._add_control(device, transfer)
            elif transfer.kind == INTERRUPT:
                self._add_interrupt(device, transfer)

    def _find_device(self, transfer: Transfer) -> _Device:
        """Returns the device of a transfer. Returns a new device if the previous device with this number was
        unplugged."""
        device = self._devices.get(transfer.place)
        if device is None:
            device = self._devices[transfer.place] = _Device(transfer.place)
        elif device.gone and transfer.setup[:2] == _GET_DESCRIPTOR and not transfer.done:
            self._former.append(device)
            device = self._devices[transfer.place] = _Device(transfer.place, device.turn + 1)
        device.gone = device.gone or transfer.status in GONE_STATUSES
        device.writer = device.writer or transfer.writer
        if transfer.writer.startswith(b"hidlog") and transfer.comments and len(transfer.data) not in _REPORT_LENGTHS:
            device.reports.append(Packet(transfer.at, True, b"", transfer.comments), transfer.endpoint)
        return device

    def _add_control(self, device: _Device, transfer: Transfer) -> None:
        if transfer.setup[:2] == _SET_REPORT and transfer.setup[3] == _OUTPUT and transfer.length in _REPORT_LENGTHS:
            self._add_report(device, transfer, _CONTROL_ENDPOINT + (transfer.setup[4] | transfer.setup[5] << 8))
        elif transfer.setup and not transfer.done:
            device.descriptors.add_request(transfer.number, transfer.setup)
        elif transfer.data:
            device.descriptors.add_response(transfer.number, transfer.data)

    def _add_interrupt(self, device: _Device, transfer: Transfer) -> None:
        if transfer.done and not transfer.to_host and transfer.number in device.waiting:
            place = device.waiting.pop(transfer.number)
            if transfer.status != 0 and transfer.moved == 0:
                device.reports.set_lost(place, transfer.status)
        if transfer.data and transfer.length in _REPORT_LENGTHS and transfer.done == transfer.to_host:
            self._add_report(device, transfer, transfer.endpoint)

    def _add_report(self, device: _Device, transfer: Transfer, endpoint: int) -> None:
        data = transfer.data[1:] if transfer.length == hid.PACKET + 1 else transfer.data
        late = transfer.status if transfer.to_host else 0
        comments = transfer.comments if transfer.writer.startswith(b"hidlog") else ()
        place = device.reports.append(Packet(transfer.at, not transfer.to_host, data, comments, late=late), endpoint)
        if not transfer.to_host and transfer.number:
            if len(device.waiting) > _MAX_OPEN:
                device.waiting.clear()
            device.waiting[transfer.number] = place

    def list_streams(self) -> list[Stream]:
        """Returns the streams found, without duplicates."""
        devices = sorted([*self._former, *self._devices.values()], key=lambda device: (device.place, device.turn))
        several = len({device.place[0] for device in devices if device.reports}) > 1
        found: list[Stream] = []
        for device in devices:
            for stream in self._list_device_streams(device, several):
                twin = next((other for other in found if several and _is_duplicate(other, stream)), None)
                if twin is None:
                    found.append(stream)
                    continue
                shorter, longer = sorted((twin, stream), key=lambda stream: len(stream.packets))
                found[found.index(twin)] = longer
                longer.notes.append(f"{shorter.name} has the same packets, and is left out")
        return found

    def _list_device_streams(self, device: _Device, several: bool) -> list[Stream]:
        found = []
        interface, bus, number = device.place
        for fido_interface, ends in _list_fido_interfaces(device):
            name = f"bus {bus} device {number}" + (f" interface {fido_interface}" if fido_interface is not None else "")
            if device.turn > 1:
                name += f", plugged in again ({device.turn})"
            name = (f"capture interface {interface} " if several else "") + name
            kept = device.reports.select(ends)
            if not kept.has_data and not device.writer.startswith(b"hidlog"):
                self._source.note(f"{name} is a key without recorded packets")
                continue
            notes = [f"the device is {device.descriptors.name}"] if device.descriptors.name else []
            found.append(Stream(name, kept, notes, device.writer))
        return found


def _is_duplicate(one: Stream, other: Stream) -> bool:
    """Returns whether the packets of one stream are a contiguous part of another stream. Then both are the same key,
    recorded on two capture interfaces, one of them for a shorter time."""
    short, long = sorted((one.packets, other.packets), key=len)
    first = next(iter(short), None)
    if first is None:
        return False
    last_start = len(long) - len(short)
    starts = (
        place
        for number, (place, packet) in enumerate(long.read_from())
        if number <= last_start and (packet.sent, packet.data) == (first.sent, first.data)
    )
    return any(_begins_with(long, place, short) for place in islice(starts, _MAX_STARTS))


def _begins_with(packets: SelectedPackets, place: int, wanted: SelectedPackets) -> bool:
    """Returns whether the packets beginning at an index start with these packets."""
    pairs = zip(wanted, (packet for _, packet in packets.read_from(place)))
    return all((one.sent, one.data) == (other.sent, other.data) for one, other in pairs)


def _list_fido_interfaces(device: _Device) -> list[tuple[int | None, set[int]]]:
    """Returns the FIDO interfaces of a device: the number of each interface, if known, and the endpoints."""
    ends = set(device.reports.counts)
    known = list(device.descriptors.interfaces.values())
    for interface in known:
        if interface.is_fido is False or not interface.is_hid:
            ends -= _list_endpoints(interface)
    found: list[tuple[int | None, set[int]]] = []
    for interface in known:
        if interface.is_fido is False or not interface.is_hid:
            continue
        named = {end for other in known if other is not interface for end in _list_endpoints(other)}
        own = _complete_endpoints(device, _list_endpoints(interface) & ends, ends - named)
        if interface.is_fido or (own and _find_endpoint_pairs(device, own)):
            found.append((interface.number, own))
            ends -= own
    return found or [(None, pair) for pair in _find_endpoint_pairs(device, ends)]


def _list_endpoints(interface: Interface) -> set[int]:
    return interface.endpoints | {_CONTROL_ENDPOINT + interface.number}


def _complete_endpoints(device: _Device, own: set[int], free: set[int]) -> set[int]:
    """Returns an interface's endpoints, including those missing in a truncated descriptor."""
    if any(0x80 <= end < _CONTROL_ENDPOINT for end in own) and any(not 0x80 <= end < _CONTROL_ENDPOINT for end in own):
        return own
    pairs = [pair for pair in _find_endpoint_pairs(device, own | free) if pair & own or not own]
    return own | pairs[0] if pairs else own


def _find_endpoint_pairs(device: _Device, ends: set[int]) -> list[set[int]]:
    """Returns pairs of endpoints that exchange CTAPHID packets, recognized by the data of the packets."""
    ins = sorted(end for end in ends if 0x80 <= end < _CONTROL_ENDPOINT)
    outs = sorted(ends - set(ins))
    found, used = [], set()
    for out in outs:
        scores = {end: _score(device, out, end) for end in ins if end not in used}
        best = max(scores, key=lambda end: scores[end], default=None)
        if best is not None and scores[best]:
            used.add(best)
            found.append({out, best})
        elif any(packet.data.startswith(_INIT_REQUEST) for _, end, packet in device.reports.read_from() if end == out):
            found.append({out})
    return found


def _score(device: _Device, out: int, end: int) -> int:
    """Returns a score for how well packets on one endpoint match as responses to packets on the other: by an INIT
    response with the same nonce, or else by a CTAPHID command on the same channel."""
    nonces: set[bytes] = set()
    channels: set[bytes] = set()
    score = 0
    for _, endpoint, packet in device.reports.read_from():
        data = packet.data
        if max(len(nonces), len(channels)) > _MAX_OPEN:
            nonces.clear()
            channels.clear()
        if endpoint == out and data.startswith(_INIT_REQUEST):
            nonces.add(data[7:15])
        elif endpoint == out and _may_begin(data):
            channels.add(data[:4])
        elif endpoint == end and data.startswith(_INIT_RESPONSE) and data[7:15] in nonces:
            score += 2
        elif endpoint == end and _may_begin(data) and data[:4] in channels:
            score += 1
    return score


def _may_begin(data: bytes) -> bool:
    """Returns whether a packet may be a CTAPHID initialization packet."""
    if len(data) < 7 or not data[4] & 0x80 or data[:4] == b"\0\0\0\0":
        return False
    return data[4] & 0x7F in _KNOWN_COMMANDS and int.from_bytes(data[5:7], "big") <= hid.LONGEST_MESSAGE
