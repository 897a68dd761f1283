"""Reads Chromium's device log (chrome://device-log), which contains CTAP2 messages in diagnostic notation."""

from __future__ import annotations

import re
from collections.abc import Iterable

from .. import cbor
from .. import packets as hid
from ..errors import HidlogError
from .debug_text import ONE_CLIENT_NOTE
from .cbor_diagnostic import parse
from .timestamps import Clock
from .source import Source
from .packet_store import Packet, PacketStore, Stream

_REQUEST = re.compile(r"<- (\d{1,3})(?: (.*))?$")
_RESPONSE = re.compile(r"-> (.*)$")
_CTAP_ERROR = re.compile(r"^\(CTAP2 error code (\d{1,3})\)")
_FIDO_MARK = re.compile(r"FIDO")
_CHANNEL = 1
_NO_PACKETS = (
    "Chromium's device log has messages, not packets: the packets were made from them, on channel 00000001, "
    "without INIT, KEEPALIVE and CANCEL"
)


def is_chromium(line: bytes) -> bool:
    """Returns whether a line of Chromium's device log is about FIDO."""
    text = line.decode("utf-8", "replace")
    return bool(_FIDO_MARK.search(text[:80]) and (_REQUEST.search(text) or _RESPONSE.search(text)))


def read_chromium(lines: Iterable[bytes], source: Source) -> list[Stream]:
    """Returns the stream of a device log: Chromium's requests and the responses."""
    packets = PacketStore()
    clock = Clock()
    source.note(_NO_PACKETS)
    source.note(ONE_CLIENT_NOTE)
    for line in lines:
        if not is_chromium(line):
            continue
        text = line.decode("utf-8", "replace")
        try:
            sent, data = _parse_message(text)
            made = hid.fragment_message(hid.Message(_CHANNEL, hid.CBOR, data))
        except HidlogError as error:
            source.note(f"skipped an unreadable message: {error}")
            continue
        packets.extend(Packet(clock.read(line), sent, packet) for packet in made)
    return [Stream("Chromium", packets.select())] if packets.counts else []


def _parse_message(text: str) -> tuple[bool, bytes]:
    """Returns whether a message was sent to the key, and the message's data."""
    if request := _REQUEST.search(text):
        body = (request[2] or "").strip()
        data = b"" if not body or body.startswith("(") else cbor.encode(parse(body))
        return True, bytes([int(request[1]) & 0xFF]) + data
    response = _RESPONSE.search(text)
    body = response[1].strip() if response else ""
    if refused := _CTAP_ERROR.match(body):
        return False, bytes([int(refused[1]) & 0xFF])
    return False, b"\0" + (b"" if body.startswith("(") else cbor.encode(parse(body)))
