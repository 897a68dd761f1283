"""Converts captures to other formats: byte orders, time units, headers, USBPcap. These writers are independent of the
package's readers, and tshark reads their output."""

from __future__ import annotations

import struct
from typing import NamedTuple


class Event(NamedTuple):
    """The submission or completion of a transfer in a Linux capture. The fields are in the order of usbmon's header."""

    micros: int
    number: int
    event: bytes
    kind: int
    endpoint: int
    device: int
    bus: int
    setup: bytes
    status: int
    length: int
    data: bytes


def read_transfers(pcap: bytes) -> list[Event]:
    """Returns the transfers of a little-endian usbmon pcap."""
    link = struct.unpack_from("<I", pcap, 20)[0]
    head, place, found = {189: 48, 220: 64}[link], 24, []
    while place < len(pcap):
        seconds, micros, kept, _ = struct.unpack_from("<IIII", pcap, place)
        raw = pcap[place + 16 : place + 16 + kept]
        place += 16 + kept
        number, event, kind, endpoint, device, bus, flag = struct.unpack_from("<QcBBBHc", raw)
        status, length = struct.unpack_from("<iI", raw, 28)
        setup = raw[40:48] if flag == b"\0" else b""
        at = seconds * 10**6 + micros
        found.append(Event(at, number, event, kind, endpoint, device, bus, setup, status, length, raw[head:]))
    return found


def encode_usbmon(event: Event, order: str, long: bool) -> bytes:
    """Encodes a transfer for usbmon."""
    flags = (b"\0" if event.setup else b"-") + (b"\0" if event.data else b"<")
    head = (
        struct.pack(order + "QcBBBH", event.number, event.event, event.kind, event.endpoint, event.device, event.bus)
        + flags
    )
    head += struct.pack(
        order + "qiiII", event.micros // 10**6, event.micros % 10**6, event.status, event.length, len(event.data)
    )
    head += event.setup or bytes(8)
    return head + (struct.pack(order + "iiII", 0, 0, 0, 0) if long else b"") + event.data


def encode_pcap(events: list[Event], order: str = "<", nano: bool = False, long: bool = True) -> bytes:
    """Returns a usbmon pcap file."""
    file = struct.pack(order + "IHHiIII", 0xA1B23C4D if nano else 0xA1B2C3D4, 2, 4, 0, 0, 65535, 220 if long else 189)
    for event in events:
        raw = encode_usbmon(event, order, long)
        fraction = event.micros % 10**6 * (1000 if nano else 1)
        file += struct.pack(order + "IIII", event.micros // 10**6, fraction, len(raw), len(raw)) + raw
    return file


def encode_block(order: str, kind: int, body: bytes) -> bytes:
    """Returns a pcapng block."""
    body += bytes(-len(body) % 4)
    return struct.pack(order + "II", kind, len(body) + 12) + body + struct.pack(order + "I", len(body) + 12)


def to_pcapng(interfaces: list[list[Event]], order: str = "<", resolution: int = 9) -> bytes:
    """Returns a pcapng file that contains usbmon transfers for each interface."""
    file = encode_block(order, 0x0A0D0D0A, struct.pack(order + "IHHq", 0x1A2B3C4D, 1, 0, -1))
    option = struct.pack(order + "HH", 9, 1) + bytes([resolution, 0, 0, 0]) + bytes(4)
    for _ in interfaces:
        file += encode_block(order, 1, struct.pack(order + "HHI", 220, 0, 0) + option)
    frames = [(event.micros, number, event) for number, events in enumerate(interfaces) for event in events]
    for micros, number, transfer in sorted(frames, key=lambda frame: frame[0]):
        raw = encode_usbmon(transfer, order, True)
        ticks = micros * 10**resolution // 10**6
        head = struct.pack(order + "IIIII", number, ticks >> 32, ticks & 0xFFFFFFFF, len(raw), len(raw))
        file += encode_block(order, 6, head + raw)
    return file


def encode_usbpcap(events: list[Event]) -> bytes:
    """Returns a USBPcap file. It is little-endian, and has the stages of control transfers."""
    file = struct.pack("<IHHiIII", 0xA1B2C3D4, 2, 4, 0, 0, 65535, 249)
    for event in events:
        done = event.event == b"C"
        data = event.setup + event.data if event.kind == 2 and not done else event.data
        is_control = event.kind == 2
        status = event.status & 0xFFFFFFFF if done else 0
        head = struct.pack("<HQIHBHHBBI", 28 if is_control else 27, event.number, status, 9, done, event.bus, event.device,
                           event.endpoint, event.kind, len(data))  # fmt: skip
        raw = head + (bytes([3 if done else 0]) if is_control else b"") + data
        file += struct.pack("<IIII", event.micros // 10**6, event.micros % 10**6, len(raw), len(raw)) + raw
    return file
