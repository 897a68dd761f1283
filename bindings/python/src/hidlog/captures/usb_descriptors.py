"""Reads USB descriptors: a device's interfaces, and which of them are FIDO HID."""

from __future__ import annotations

from dataclasses import dataclass, field

_DEVICE, _CONFIGURATION, _INTERFACE, _ENDPOINT, _REPORT = 1, 2, 4, 5, 0x22
_GET_DESCRIPTOR = 6
HID_CLASS = 3
# FIDO's usage page (CTAP 2.1, section 11.2.8.2).
FIDO_PAGE = 0xF1D0
_USAGE_PAGE, _REPORT_ID = 0x04, 0x84
_LONG_ITEM = 0xFE


@dataclass
class Interface:
    """An interface. `is_fido` is None if its report descriptor is not in the capture."""

    number: int
    is_hid: bool = True
    is_fido: bool | None = None
    has_numbers: bool = False
    endpoints: set[int] = field(default_factory=set)


@dataclass
class Descriptors:
    """The descriptors of a device."""

    name: str = ""
    interfaces: dict[int, Interface] = field(default_factory=dict)
    # Pending requests, by the recorder's transfer number.
    _pending: dict[int, bytes] = field(default_factory=dict)

    def add_request(self, number: int, setup: bytes) -> None:
        """Stores a request of the host."""
        if len(setup) == 8 and setup[0] & 0x80 and setup[1] == _GET_DESCRIPTOR:
            if len(self._pending) > 64:
                self._pending.clear()
            self._pending[number] = setup

    def add_response(self, number: int, data: bytes) -> None:
        """Reads the device's response."""
        setup = self._pending.pop(number, b"")
        if not setup or not data:
            return
        kind, index = setup[3], setup[4] | setup[5] << 8
        if kind == _DEVICE and len(data) >= 12:
            self.name = f"{int.from_bytes(data[8:10], 'little'):04x}:{int.from_bytes(data[10:12], 'little'):04x}"
        elif kind == _CONFIGURATION:
            self._read_configuration(data)
        elif kind == _REPORT:
            found = self.interfaces.setdefault(index, Interface(index))
            found.is_fido, found.has_numbers = read_report(data)

    def _read_configuration(self, data: bytes) -> None:
        offset, current = 0, None
        while offset + 2 <= len(data) and data[offset] >= 2:
            piece = data[offset : offset + data[offset]]
            offset += data[offset]
            if piece[1] == _INTERFACE and len(piece) >= 9:
                current = self.interfaces.setdefault(piece[2], Interface(piece[2]))
                current.is_hid = piece[5] == HID_CLASS
            elif piece[1] == _ENDPOINT and len(piece) >= 4 and current is not None:
                current.endpoints.add(piece[2])


def read_report(data: bytes) -> tuple[bool, bool]:
    """Returns whether a report descriptor has FIDO's usage page, and whether the reports have report IDs (HID 1.11,
    section 6.2.2)."""
    offset, pages, numbers = 0, set(), False
    while offset < len(data):
        tag = data[offset]
        if tag == _LONG_ITEM:
            offset += 3 + (data[offset + 1] if offset + 1 < len(data) else 0)
            continue
        size = (0, 1, 2, 4)[tag & 3]
        value = int.from_bytes(data[offset + 1 : offset + 1 + size], "little")
        if tag & 0xFC == _USAGE_PAGE:
            pages.add(value)
        numbers = numbers or tag & 0xFC == _REPORT_ID
        offset += 1 + size
    return FIDO_PAGE in pages, numbers
