"""Faults of packets, channels, KEEPALIVEs and CANCEL."""

from __future__ import annotations

from typing import List, Optional

from hidlog_conformance import hid_packets as hid
from faulty import Fault, FaultyDevice, Hook, Sent, replace_data
from hidlog_conformance.hid_packets import Message


def change_init_response(place: int, new: bytes) -> Hook:
    """Returns a hook that changes bytes of the INIT response."""

    def hook(device: FaultyDevice, message: Message) -> Optional[Sent]:
        if message.command != hid.INIT or message.channel != hid.BROADCAST:
            return None
        return replace_data(message, message.data[:place] + new + message.data[place + len(new) :])

    return hook


def change_init_channel(device: FaultyDevice, message: Message) -> Optional[Sent]:
    """Sends another channel in the INIT response on a channel."""
    if message.command == hid.INIT and message.channel != hid.BROADCAST:
        return replace_data(message, message.data[:8] + b"\0\0\0\x63" + message.data[12:])
    return None


def drop_messages(command: int, *first: int) -> Hook:
    """Returns a hook that drops messages of a command, or only those with one of these first bytes."""

    def hook(device: FaultyDevice, message: Message) -> Optional[Sent]:
        return [] if message.command == command and (not first or message.data[:1] in map(to_byte, first)) else None

    return hook


def replace_code(command: int, old: int, new: int) -> Hook:
    """Returns a hook that replaces the only byte of a command's messages."""

    def hook(device: FaultyDevice, message: Message) -> Optional[Sent]:
        return (
            replace_data(message, bytes([new])) if message.command == command and message.data == bytes([old]) else None
        )

    return hook


def to_byte(number: int) -> bytes:
    """Returns the byte of a number."""
    return bytes([number])


def send_init_on_new_channel(device: FaultyDevice, message: Message) -> Optional[Sent]:
    """Sends the INIT response on the new channel."""
    if message.command == hid.INIT and message.channel == hid.BROADCAST:
        return [Message(int.from_bytes(message.data[8:12], "big"), hid.INIT, message.data)]
    return None


def send_keepalive_on_broadcast(device: FaultyDevice, message: Message) -> Optional[Sent]:
    """Sends KEEPALIVEs on the broadcast channel."""
    return [Message(hid.BROADCAST, hid.KEEPALIVE, message.data)] if message.command == hid.KEEPALIVE else None


def send_one_keepalive(device: FaultyDevice, message: Message) -> Optional[Sent]:
    """Sends only one KEEPALIVE."""
    if message.command != hid.KEEPALIVE:
        return None
    seen = device.last.get("keepalive", False)
    device.last["keepalive"] = True
    return [] if seen else None


def lengthen_keepalive(device: FaultyDevice, message: Message) -> Optional[Sent]:
    """Sends KEEPALIVEs of two bytes."""
    return replace_data(message, message.data + b"\0") if message.command == hid.KEEPALIVE else None


def send_keepalive_after_response(device: FaultyDevice, message: Message) -> Optional[Sent]:
    """Sends a KEEPALIVE after each response."""
    return [message, Message(message.channel, hid.KEEPALIVE, b"\1")] if message.command == hid.CBOR else None


def send_error_for_cancel(device: FaultyDevice, message: Message) -> Optional[Sent]:
    """Responds to a cancelled request with an ERROR."""
    if message.command == hid.CBOR and message.data == b"\x2d":
        return [Message(message.channel, hid.ERROR, b"\x7f")]
    return None


def drop_cancel(device: FaultyDevice, at: int, packet: bytes) -> Optional[bytes]:
    """Ignores CANCEL."""
    return None if packet[4] == 0x80 | hid.CANCEL else packet


def respond_to_idle_cancel(device: FaultyDevice, at: int, packet: bytes) -> Optional[bytes]:
    """Sends an ERROR for a CANCEL without a pending request."""
    if packet[4] == 0x80 | hid.CANCEL and device.need == "nothing":
        device.emit(int.from_bytes(packet[:4], "big"), hid.ERROR, b"\1")
    return packet


def accept_cancel_on_any_channel(device: FaultyDevice, at: int, packet: bytes) -> Optional[bytes]:
    """Treats a CANCEL on any channel as one on channel 1, which has the request."""
    return b"\0\0\0\1" + packet[4:] if packet[4] == 0x80 | hid.CANCEL else packet


def accept_any_sequence(device: FaultyDevice, at: int, packet: bytes) -> Optional[bytes]:
    """Accepts continuation packets with any sequence number."""
    channel = "due on " + packet[:4].hex()
    due = device.last.get(channel, 0)
    if packet[4] & 0x80:
        device.last[channel] = 0
        return packet
    device.last[channel] = due + 1
    return packet[:4] + bytes([due]) + packet[5:]


def respond_to_stray_packet(device: FaultyDevice, at: int, packet: bytes) -> Optional[bytes]:
    """Sends an ERROR for a continuation packet outside any message."""
    if device.stray and not packet[4] & 0x80:
        device.emit(int.from_bytes(packet[:4], "big"), hid.ERROR, b"\4")
        return None
    return packet


def accept_packets_of_any_channel(device: FaultyDevice, at: int, packet: bytes) -> Optional[bytes]:
    """Processes a continuation packet of any channel for the incomplete message."""
    channel = int.from_bytes(packet[:4], "big")
    if packet[4] & 0x80:
        if set(device.host.open) == {channel}:
            device.last["front"] = packet[:4]
        return packet
    return bytes(device.last.get("front", packet[:4])) + packet[4:]


def respond_to_init_without_abort(device: FaultyDevice, at: int, packet: bytes) -> Optional[bytes]:
    """Responds to INIT without aborting the channel's transaction."""
    if packet[4:7] == bytes([0x80 | hid.INIT, 0, 8]) and packet[:4] in (b"\0\0\0\1", b"\0\0\0\2"):
        device.emit(int.from_bytes(packet[:4], "big"), hid.INIT, packet[7:15] + packet[:4] + bytes([2, 1, 0, 0, 12]))
        return None
    return packet


def accept_unallocated_channel(device: FaultyDevice, at: int, packet: bytes) -> Optional[bytes]:
    """Treats an unallocated channel as channel 1."""
    number = int.from_bytes(packet[:4], "big")
    strange = number > 0x1000 and number != hid.BROADCAST and packet[4] != 0x80 | hid.CANCEL
    return b"\0\0\0\1" + packet[4:] if strange else packet


def truncate_ping(device: FaultyDevice, message: Message) -> Optional[Sent]:
    """Returns only the bytes of a PING's first packet."""
    return replace_data(message, message.data[:57]) if message.command == hid.PING else None


def change_last_byte(device: FaultyDevice, message: Message) -> Optional[Sent]:
    """Changes the last byte of a message that fills its packets."""
    if message.command == hid.PING and len(message.data) in (57, 116, 175):
        return replace_data(message, message.data[:-1] + b"\0")
    return None


def send_busy_to_other_host(device: FaultyDevice, message: Message) -> Optional[Sent]:
    """Sends the busy error to the wrong host."""
    if message.command == hid.ERROR and message.data == b"\6":
        return [Message(3 - message.channel if message.channel < 3 else 1, hid.ERROR, b"\6")]
    return None


def number_from_one(packets: List[bytes]) -> List[bytes]:
    """Numbers continuation packets from 1."""
    return [packet if packet[4] & 0x80 else packet[:4] + bytes([packet[4] + 1]) + packet[5:] for packet in packets]


def drop_last_packet(packets: List[bytes]) -> List[bytes]:
    """Drops the last of several packets."""
    return packets[:-1] if len(packets) > 1 else packets


def fill_padding(packets: List[bytes]) -> List[bytes]:
    """Leaves old bytes in the padding."""
    # Number of bytes in the last packet after the end of the message.
    behind = 57 + 59 * (len(packets) - 1) - int.from_bytes(packets[0][5:7], "big")
    return packets[:-1] + [packets[-1][: 64 - behind] + b"\xde" * behind]


INIT, CANCEL, KEEP, SEQUENCE = "11.2.9.1.3", "11.2.9.1.5", "11.2.9.1.7", "11.2.5.4"
CHANNELS = "11.2.3"
ERRORS, BUSY, TIME, ABORT, PACKETS, PING = "11.2.9.1.6", "11.2.5.1", "11.2.5.2", "11.2.5.3", "11.2.4", "11.2.9.1.4"

WIRE_FAULTS: List[Fault] = [
    Fault("wrong_nonce", INIT, "The INIT response has another nonce.", change_init_response(0, b"\xee")),
    Fault("channel_reused", INIT, "Every host gets the same channel.", change_init_response(8, b"\0\0\0\1")),
    Fault("channel_reserved", INIT, "A host gets the broadcast channel.", change_init_response(8, b"\xff" * 4)),
    Fault("init_too_long", INIT, "The INIT response has 18 bytes.", change_init_response(17, b"\0")),
    Fault("init_on_new_channel", INIT, "The INIT response is sent on the new channel.", send_init_on_new_channel),
    Fault("wrong_version", INIT, "The protocol version is 1.", change_init_response(12, b"\1")),
    Fault("no_capability", INIT, "The capability CBOR is missing.", change_init_response(16, b"\0")),
    Fault(
        "other_channel_kept",
        INIT,
        "The response to INIT on a channel has another channel.",
        change_init_channel,
        by="init/on_its_own_channel",
    ),
    Fault(
        "init_keeps_message",
        ABORT,
        "INIT does not abort the channel's transaction.",
        None,
        respond_to_init_without_abort,
    ),
    Fault(
        "sequence_taken",
        SEQUENCE,
        "Continuation packets are accepted with any sequence number.",
        None,
        accept_any_sequence,
    ),
    Fault(
        "stray_answered",
        SEQUENCE,
        "The device responds to a continuation packet outside any transaction.",
        None,
        respond_to_stray_packet,
    ),
    Fault(
        "any_channels_packet",
        SEQUENCE,
        "A continuation packet of another host is accepted.",
        None,
        accept_packets_of_any_channel,
        implies=(BUSY,),
    ),
    Fault("sequence_not_named", SEQUENCE, "A wrong sequence number gets no response.", drop_messages(hid.ERROR, 4)),
    Fault("busy_silent", BUSY, "A second host does not get the error 06.", drop_messages(hid.ERROR, 6)),
    Fault("busy_wrong_code", BUSY, "A second host gets another error than 06.", replace_code(hid.ERROR, 6, 0x7F)),
    Fault("busy_elsewhere", BUSY, "The wrong host gets the error 06.", send_busy_to_other_host),
    Fault("timeout_silent", TIME, "The timeout of a message gets no response.", drop_messages(hid.ERROR, 5)),
    Fault(
        "timeout_wrong_code", TIME, "The timeout of a message has another error code.", replace_code(hid.ERROR, 5, 4)
    ),
    Fault("no_keepalive", KEEP, "No KEEPALIVEs are sent.", drop_messages(hid.KEEPALIVE)),
    Fault("keepalive_once", KEEP, "Only one KEEPALIVE is sent.", send_one_keepalive),
    Fault(
        "keepalive_status",
        KEEP,
        "KEEPALIVEs do not have the status 02 while a touch is requested.",
        replace_code(hid.KEEPALIVE, 2, 1),
    ),
    Fault("keepalive_elsewhere", KEEP, "KEEPALIVEs are sent on the broadcast channel.", send_keepalive_on_broadcast),
    Fault("keepalive_long", KEEP, "KEEPALIVEs have two bytes.", lengthen_keepalive),
    Fault("keepalive_after", KEEP, "A KEEPALIVE follows the response.", send_keepalive_after_response),
    Fault(
        "cancel_answered",
        CANCEL,
        "The device responds to a CANCEL without a pending request.",
        None,
        respond_to_idle_cancel,
    ),
    Fault("cancel_ignored", CANCEL, "CANCEL is ignored.", None, drop_cancel),
    Fault("cancel_by_error", CANCEL, "A cancelled request gets an ERROR.", send_error_for_cancel),
    Fault("cancel_of_all", CANCEL, "CANCEL ends the request of another host.", None, accept_cancel_on_any_channel),
    Fault("cancel_success", CANCEL, "A cancelled request returns status 00.", replace_code(hid.CBOR, 0x2D, 0)),
    Fault("ping_cut", PING, "The response to a PING is truncated.", truncate_ping),
    Fault("ping_last_byte", PING, "The last byte of a full packet is wrong.", change_last_byte),
    Fault("from_one", PACKETS, "Continuation packets are numbered from 1.", cut=number_from_one),
    Fault("last_lost", PACKETS, "The last packet of a message is missing.", cut=drop_last_packet),
    Fault("not_zero", PACKETS, "The padding has bytes of earlier packets.", cut=fill_padding),
    Fault("unknown_silent", ERRORS, "An unknown command gets no response.", drop_messages(hid.ERROR, 1)),
    Fault(
        "length_wrong_code",
        PACKETS,
        "A wrong length has another error code.",
        replace_code(hid.ERROR, 3, 4),
        implies=("11.2.9.1.2",),
    ),
    Fault("channel_silent", CHANNELS, "An unallocated channel gets no response.", drop_messages(hid.ERROR, 0x0B)),
    Fault("channel_served", CHANNELS, "An unallocated channel is served.", None, accept_unallocated_channel),
]
