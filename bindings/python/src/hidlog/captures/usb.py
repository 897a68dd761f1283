"""Reads USB transfers from frames of Linux's usbmon, with both header sizes, and of USBPcap."""

from __future__ import annotations

import struct
from collections.abc import Iterator
from typing import NamedTuple

from .pcap import Frame, read_frames
from .source import CaptureError, Source

USBMON, USBMON_LONG, USBPCAP = 189, 220, 249
_HEADER_BYTES = {USBMON: 48, USBMON_LONG: 64, USBPCAP: 27}
_UNSUPPORTED_LINKS = {
    186: "FreeBSD's USB",
    266: "macOS's USB (Darwin)",
    288: "USB 2.0 packets of a bus analyzer",
    293: "USB 2.0 packets of a bus analyzer",
    294: "USB 2.0 packets of a bus analyzer",
    295: "USB 2.0 packets of a bus analyzer",
    1: "Ethernet",
}
INTERRUPT, CONTROL = 1, 2
# The status of a transfer whose device was unplugged: Linux's ESHUTDOWN and ENODEV, Windows's USBD_STATUS_DEVICE_GONE.
GONE_STATUSES = (-108, -19, 0xC0007000 - (1 << 32))


class Transfer(NamedTuple):
    """A transfer submitted by the host, or its completion (`done`).

    place   capture interface, bus, device.
    data    the recorded bytes, of `length` on the bus.
    setup   setup packet of a control transfer's submission.
    number  transfer number, the same for a submission and its completion, or 0 if unknown.
    moved   number of bytes transferred, according to the recorder.
    """

    at: int | None
    place: tuple[int, int, int]
    kind: int
    endpoint: int
    done: bool
    status: int
    data: bytes
    length: int
    setup: bytes = b""
    number: int = 0
    comments: tuple[bytes, ...] = ()
    writer: bytes = b""
    moved: int = 0

    @property
    def to_host(self) -> bool:
        """Whether the data is sent to the host."""
        return self.endpoint >= 0x80


def read_transfers(source: Source) -> Iterator[Transfer]:
    """Yields the transfers of a pcap or pcapng file."""
    strange: set[int] = set()
    found = False
    for frame in read_frames(source):
        if frame.link not in _HEADER_BYTES:
            strange.add(frame.link)
            continue
        found = True
        if len(frame.data) < _HEADER_BYTES[frame.link]:
            source.note(f"skipped frames that are shorter than a transfer's header ({_HEADER_BYTES[frame.link]} bytes)")
            continue
        transfer = _parse_usbpcap(frame) if frame.link == USBPCAP else _parse_usbmon(frame)
        if transfer is not None:
            yield transfer
    named = ", ".join(
        f"{item} ({_UNSUPPORTED_LINKS[item]})" if item in _UNSUPPORTED_LINKS else str(item) for item in sorted(strange)
    )
    if strange and not found:
        raise CaptureError(
            f"the capture has no supported USB data, but link type {named}; "
            "supported: usbmon (189, 220) and USBPcap (249)"
        )
    if strange:
        source.note(f"skipped frames of link type {named}")


def _parse_usbmon(frame: Frame) -> Transfer | None:
    order, head, raw = frame.order, _HEADER_BYTES[frame.link], frame.data
    number, event, kind, endpoint, device, bus, setup_flag = struct.unpack_from(order + "QcBBBHc", raw)
    status, length, kept = struct.unpack_from(order + "iII", raw, 28)
    data = raw[head:]
    on_bus = max(len(data), frame.length - head)
    if event == b"E":
        return None
    setup = raw[40:48] if setup_flag == b"\0" and kind == CONTROL else b""
    place = (frame.interface, bus, device)
    # Like a snap length, usbmon itself may truncate a transfer.
    on_bus = max(on_bus, length) if kept and kept < length else on_bus
    return Transfer(
        frame.at,
        place,
        kind,
        endpoint,
        event == b"C",
        status,
        data,
        on_bus,
        setup,
        number,
        frame.comments,
        frame.writer,
        length,
    )


def _parse_usbpcap(frame: Frame) -> Transfer | None:
    raw = frame.data
    head, number, status, _, info, bus, device, endpoint, kind, length = struct.unpack_from("<HQIHBHHBBI", raw)
    if head < 27 or kind > 3 or len(raw) < head:
        return None
    data, setup = raw[head:], b""
    if kind == CONTROL and head > 27:
        stage = raw[27]
        if stage == 0:
            setup, data, length = data[:8], data[8:], max(0, length - 8)
        elif stage == 2:
            return None
    place = (frame.interface, bus, device)
    done = bool(info & 1)
    signed = status - (1 << 32) if status >= 1 << 31 else status
    length = max(length, len(data))
    return Transfer(
        frame.at, place, kind, endpoint, done, signed, data, length, setup, number, frame.comments, frame.writer, length
    )
