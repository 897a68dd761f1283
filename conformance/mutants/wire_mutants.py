"""Faults of the reference authenticator: packets, channels, KEEPALIVEs, CANCEL and U2F."""

from __future__ import annotations

from typing import Any, List

from mutant import Mutant, change_result, wrap_method, replace_method, with_traits
from hidlog_conformance.reference import transport as hid
from hidlog_conformance.reference.traits import DeviceTraits

CHANNELS, PACKETS, BUSY, TIME = "11.2.3", "11.2.4", "11.2.5.1", "11.2.5.2"
ABORT, SEQUENCE, MSG, COMMAND = "11.2.5.3", "11.2.5.4", "11.2.9.1.1", "11.2.9.1.2"
INIT, PING, CANCEL, ERROR, KEEPALIVE = "11.2.9.1.3", "11.2.9.1.4", "11.2.9.1.5", "11.2.9.1.6", "11.2.9.1.7"
WINK, MAKE, GET = "11.2.9.2.1", "6.1.2", "6.2.2"


def wrap_send(change: Any) -> Any:
    """Returns a change that wraps the sending of a message."""
    return wrap_method("transport.send", change)


def change_packets(change: Any) -> Any:
    """Returns a change of a message's packets."""
    return change_result("transport.packets", lambda key, pieces, channel, command, data: change(pieces, command, data))


def change_init_response(place: int, new: bytes) -> Any:
    """Returns a change of bytes in the INIT response."""
    return change_result(
        "transport.make_init_response", lambda key, data, *words: data[:place] + new + data[place + len(new) :]
    )


def add_empty_packet(key: Any, old: Any, channel: int, command: int, data: bytes) -> None:
    """Sends an empty continuation packet after a response that fills its last packet."""
    old(channel, command, data)
    if len(data) >= 57 and (len(data) - 57) % 59 == 0:
        number = (len(data) - 57) // 59
        key.transport.out.append(channel.to_bytes(4, "big") + bytes([number & 0x7F]) + bytes(59))


def wrap_keepalives(body: Any) -> Any:
    """Returns a change that wraps the sending of KEEPALIVEs."""

    def send(key: Any, old: Any, channel: int, command: int, data: bytes) -> None:
        if command == hid.KEEPALIVE:
            body(key, old, channel, data)
        else:
            old(channel, command, data)

    return wrap_send(send)


def change_error_codes(change: Any) -> Any:
    """Returns a change of ERROR codes by a function; None drops the ERROR."""

    def error(key: Any, old: Any, channel: int, code: int) -> None:
        other = change(code)
        if other is not None:
            old(channel, other)

    return wrap_method("transport.error", error)


def leave_stale_padding(key: Any, old: Any, channel: int, command: int, data: bytes) -> None:
    """Leaves bytes of the last message in the padding of an ERROR."""
    before = getattr(key, "stale", bytes(57))
    key.stale = (data + before[len(data) :])[:57]
    if command == hid.ERROR:
        piece = channel.to_bytes(4, "big") + bytes([0x80 | command, 0, 1]) + data + before[1:]
        key.transport.out.append(piece[:64])
    else:
        old(channel, command, data)


def keep_early_touch(key: Any, old: Any, at: int, reply: str = "granted") -> None:
    """Keeps a touch without a request."""
    now = key.transport.now
    if now is None or now.work is None:
        key.kept_touch = True
    old(at, reply)


def use_kept_touch(key: Any, old: Any, reply: str = "") -> None:
    """Uses a touch from before the request."""
    old(reply)
    now = key.transport.now
    if now is not None and now.work is not None and getattr(key, "kept_touch", False):
        key.kept_touch = False
        old("granted")


def keep_and_use_touch(authenticator: Any) -> None:
    """Keeps a touch that was not requested, and uses it for the next request."""
    wrap_method("transport.touch", keep_early_touch)(authenticator)
    wrap_method("transport.run_request", use_kept_touch)(authenticator)


def use_touch_twice(key: Any, old: Any, reply: str = "") -> None:
    """Uses a touch for the next request as well."""
    used = getattr(key, "used", False) and not reply
    key.used = reply == "granted"
    old(reply)
    now = key.transport.now
    if used and now is not None and now.work is not None:
        old("granted")


def cancel_any_channel(key: Any, channel: int) -> None:
    """Cancels the request of any channel."""
    now = key.transport.now
    if now is not None and now.work is not None:
        key.transport.finish(b"\x2d")


def respond_to_idle_cancel(key: Any, old: Any, channel: int) -> None:
    """Sends an ERROR for a CANCEL without a pending request."""
    now = key.transport.now
    if now is None or now.channel != channel or now.work is None:
        key.transport.error(channel, 1)
    else:
        old(channel)


def drop_message_at_cancel(key: Any, old: Any, channel: int) -> None:
    """Drops an incomplete message at a CANCEL."""
    now = key.transport.now
    if now is not None and now.work is None and now.channel == channel:
        key.transport.now = None
    else:
        old(channel)


def keep_cancelled_request(key: Any, old: Any, channel: int) -> None:
    """Cancels a request, but keeps it and runs it later."""
    now = key.transport.now
    old(channel)
    if now is not None and now.work is not None and now.channel == channel:
        key.cancelled = now


def accept_any_sequence(key: Any, old: Any, channel: int, sequence: int, data: bytes) -> None:
    """Accepts any sequence number."""
    now = key.transport.now
    old(channel, now.sequence if now is not None else sequence, data)


def accept_packets_of_any_channel(key: Any, old: Any, channel: int, sequence: int, data: bytes) -> None:
    """Accepts continuation packets of any channel."""
    now = key.transport.now
    old(now.channel if now is not None else channel, sequence, data)


def respond_to_stray_packet(key: Any, old: Any, channel: int, sequence: int, data: bytes) -> None:
    """Sends an ERROR for a continuation packet outside any message."""
    now = key.transport.now
    if now is None or now.work is not None or now.channel != channel:
        key.transport.error(channel, 4)
    else:
        old(channel, sequence, data)


def accept_unallocated_channels(key: Any, old: Any, channel: int, command: int, length: int, data: bytes) -> None:
    """Serves unallocated channels."""
    if channel not in (0, hid.BROADCAST) and channel not in key.transport.channels:
        key.transport.channels.append(channel)
    old(channel, command, length, data)


def accept_channel_zero(key: Any, old: Any, channel: int, command: int, length: int, data: bytes) -> None:
    """Serves channel 0."""
    if channel == 0 and 0 not in key.transport.channels:
        key.transport.channels.append(0)
    old(channel, command, length, data)


def replace_other_channel(key: Any, old: Any, channel: int, command: int, length: int, data: bytes) -> None:
    """Drops a message or a request when another channel sends one."""
    now = key.transport.now
    if now is not None and now.channel != channel and channel in key.transport.channels and command != hid.CANCEL:
        key.transport.now = None
    old(channel, command, length, data)


def keep_transaction_at_init(key: Any, old: Any, channel: int, length: int, nonce: bytes) -> None:
    """Continues the transaction of a channel after its INIT."""
    now = key.transport.now
    old(channel, length, nonce)
    key.transport.now = now


def accept_any_init_length(key: Any, old: Any, channel: int, length: int, nonce: bytes) -> None:
    """Accepts an INIT of any length."""
    old(channel, 8, nonce)


def truncate_ping(key: Any, old: Any, channel: int, command: int, data: bytes) -> None:
    """Returns at most 1024 bytes of a PING."""
    old(channel, command, data[:1024] if command == hid.PING else data)


def reverse_packets(pieces: List[bytes], command: int, data: bytes) -> List[bytes]:
    """Sends continuation packets in another order."""
    return [pieces[0], *pieces[:0:-1]]


WIRE_MUTANTS: List[Mutant] = [
    Mutant(
        "continuation_behind",
        PACKETS,
        "An empty continuation packet follows a response that fills its last packet.",
        wrap_send(add_empty_packet),
    ),
    Mutant(
        "sequence_from_1",
        PACKETS,
        "Continuation packets are numbered from 1.",
        change_packets(
            lambda pieces, command, data: [
                pieces[0],
                *(piece[:4] + bytes([(piece[4] + 1) & 0x7F]) + piece[5:] for piece in pieces[1:]),
            ]
        ),
    ),
    Mutant(
        "packets_turned", PACKETS, "Continuation packets are sent in reverse order.", change_packets(reverse_packets)
    ),
    Mutant(
        "last_packet_lost",
        PACKETS,
        "The last packet of a long response is missing.",
        change_packets(lambda pieces, command, data: pieces[:1] + pieces[1:-1] if len(pieces) > 1 else pieces),
    ),
    Mutant(
        "packet_short",
        PACKETS,
        "The last packet has fewer than 64 bytes.",
        change_packets(lambda pieces, command, data: [*pieces[:-1], pieces[-1].rstrip(b"\0")]),
    ),
    Mutant(
        "error_uninitialised",
        PACKETS,
        "The padding of an ERROR has bytes of another message.",
        wrap_send(leave_stale_padding),
        DeviceTraits(),
        "a SHOULD: it warns",
    ),
    Mutant(
        "length_of_packets",
        PACKETS,
        "The length in the header includes the padding.",
        change_packets(
            lambda pieces, command, data: [
                pieces[0][:5] + (57 + 59 * (len(pieces) - 1)).to_bytes(2, "big") + pieces[0][7:],
                *pieces[1:],
            ]
        ),
    ),
    Mutant(
        "long_taken",
        PACKETS,
        "A length above the maximum is accepted.",
        wrap_method(
            "transport.begin_message",
            lambda key, old, channel, command, length, data: old(channel, command, min(length, len(data)), data),
        ),
    ),
    Mutant(
        "length_other_code",
        PACKETS,
        "A wrong length has another error code.",
        change_error_codes(lambda code: 1 if code == 3 else code),
    ),
    Mutant("nonce_zero", INIT, "The nonce in the INIT response is zero.", change_init_response(0, bytes(8))),
    Mutant(
        "channel_again",
        INIT,
        "The same channel is allocated again.",
        replace_method("transport.new_channel", lambda key: 77),
    ),
    Mutant(
        "channel_broadcast",
        INIT,
        "The broadcast channel is allocated.",
        replace_method("transport.new_channel", lambda key: hid.BROADCAST),
    ),
    Mutant("channel_reserved", INIT, "Channel 0 is allocated.", replace_method("transport.new_channel", lambda key: 0)),
    Mutant("protocol_1", INIT, "The protocol version is 1.", change_init_response(12, b"\1")),
    Mutant(
        "no_cbor",
        INIT,
        "The capability CBOR is missing.",
        change_result("transport.make_init_response", lambda key, data, *words: data[:16] + bytes([data[16] & ~4])),
    ),
    Mutant(
        "init_short",
        INIT,
        "The INIT response has 16 bytes.",
        change_result("transport.make_init_response", lambda key, data, *words: data[:16]),
    ),
    Mutant(
        "init_keeps_all",
        ABORT,
        "INIT aborts neither a message nor a request.",
        wrap_method("transport.init", keep_transaction_at_init),
    ),
    Mutant(
        "init_any_length",
        PACKETS,
        "INIT is accepted with any length.",
        wrap_method("transport.init", accept_any_init_length),
    ),
    Mutant(
        "nmsg_lies",
        ERROR,
        "The capability NMSG is set, but MSG is supported.",
        change_result("transport.make_init_response", lambda key, data, *words: data[:16] + bytes([data[16] | 8])),
    ),
    Mutant(
        "msg_lies",
        MSG,
        "MSG is not supported, but the capability NMSG is not set.",
        change_result("transport.is_supported", lambda key, found, command: found and command != hid.MSG),
    ),
    Mutant(
        "wink_lies",
        WINK,
        "The capability WINK is set, but WINK is not supported.",
        change_result("transport.make_init_response", lambda key, data, *words: data[:16] + bytes([data[16] | 1])),
    ),
    Mutant(
        "wink_hidden",
        ERROR,
        "WINK is supported, but the capability WINK is not set.",
        change_result("transport.is_supported", lambda key, found, command: found or command == hid.WINK),
    ),
    Mutant("ping_cut", PING, "The response to a PING is truncated to 1024 bytes.", wrap_send(truncate_ping)),
    Mutant(
        "ping_changed",
        PING,
        "A bit of the response to a PING is wrong.",
        wrap_send(
            lambda key, old, channel, command, data: old(
                channel, command, bytes(byte & 0x7F for byte in data) if command == hid.PING else data
            )
        ),
    ),
    Mutant(
        "cancel_of_any",
        CANCEL,
        "CANCEL ends the request of any channel.",
        replace_method("transport.cancel", cancel_any_channel),
    ),
    Mutant("cancel_never", CANCEL, "CANCEL is ignored.", replace_method("transport.cancel", lambda key, channel: None)),
    Mutant(
        "cancel_is_answered",
        CANCEL,
        "The device responds to a CANCEL without a pending request.",
        wrap_method("transport.cancel", respond_to_idle_cancel),
    ),
    Mutant(
        "cancel_drops_message",
        CANCEL,
        "CANCEL aborts an incomplete message.",
        wrap_method("transport.cancel", drop_message_at_cancel),
    ),
    Mutant(
        "cancel_other_status",
        CANCEL,
        "A cancelled request has another status.",
        change_result("transport.cancel", lambda key, found, channel: replace_cancel_status(key)),
    ),
    Mutant(
        "cancel_silent",
        CANCEL,
        "A cancelled request gets no response.",
        replace_method("transport.cancel", lambda key, channel: drop_request(key, channel)),
    ),
    Mutant(
        "keepalive_never", KEEPALIVE, "No KEEPALIVEs are sent.", wrap_keepalives(lambda key, old, channel, data: None)
    ),
    Mutant(
        "keepalive_broadcast",
        KEEPALIVE,
        "KEEPALIVEs are sent on the broadcast channel.",
        wrap_keepalives(lambda key, old, channel, data: old(hid.BROADCAST, hid.KEEPALIVE, data)),
    ),
    Mutant(
        "keepalive_empty",
        KEEPALIVE,
        "KEEPALIVEs have no status byte.",
        wrap_keepalives(lambda key, old, channel, data: old(channel, hid.KEEPALIVE, b"")),
    ),
    Mutant(
        "keepalive_status_3",
        KEEPALIVE,
        "KEEPALIVEs have the status 03.",
        wrap_keepalives(lambda key, old, channel, data: old(channel, hid.KEEPALIVE, b"\3")),
    ),
    Mutant(
        "keepalive_working",
        KEEPALIVE,
        "KEEPALIVEs never have the status 02.",
        wrap_keepalives(lambda key, old, channel, data: old(channel, hid.KEEPALIVE, b"\1")),
    ),
    Mutant(
        "busy_other_code",
        BUSY,
        "A second host gets another error than 06.",
        change_error_codes(lambda code: 0x7F if code == 6 else code),
    ),
    Mutant(
        "busy_unheard",
        BUSY,
        "A second host gets no response.",
        change_error_codes(lambda code: None if code == 6 else code),
    ),
    Mutant(
        "interrupted",
        BUSY,
        "A message on another channel aborts the transaction in progress.",
        wrap_method("transport.handle_initialization", replace_other_channel),
    ),
    Mutant("time_out_never", TIME, "An incomplete message never times out.", with_traits(time_out=10**9)),
    Mutant(
        "time_out_other_code",
        TIME,
        "The timeout of a message has another error code.",
        change_error_codes(lambda code: 0x7F if code == 5 else code),
    ),
    Mutant(
        "any_sequence",
        SEQUENCE,
        "Any sequence number is accepted.",
        wrap_method("transport.handle_continuation", accept_any_sequence),
    ),
    Mutant(
        "sequence_unheard",
        SEQUENCE,
        "A wrong sequence number gets no response.",
        change_error_codes(lambda code: None if code == 4 else code),
    ),
    Mutant(
        "sequence_of_any",
        SEQUENCE,
        "Continuation packets of other channels are accepted.",
        wrap_method("transport.handle_continuation", accept_packets_of_any_channel),
    ),
    Mutant(
        "stray_refused",
        SEQUENCE,
        "The device responds to a continuation packet outside any transaction.",
        wrap_method("transport.handle_continuation", respond_to_stray_packet),
    ),
    Mutant(
        "any_channel",
        CHANNELS,
        "An unallocated channel is served.",
        wrap_method("transport.handle_initialization", accept_unallocated_channels),
    ),
    Mutant(
        "channel_zero",
        CHANNELS,
        "Channel 0 is served.",
        wrap_method("transport.handle_initialization", accept_channel_zero),
    ),
    Mutant(
        "channel_unheard",
        CHANNELS,
        "An unallocated channel gets no response.",
        change_error_codes(lambda code: None if code == 11 else code),
    ),
    Mutant(
        "channel_other_code",
        CHANNELS,
        "An unallocated channel gets another error code.",
        change_error_codes(lambda code: 1 if code == 11 else code),
    ),
    Mutant(
        "command_unheard",
        ERROR,
        "An unknown command gets no response.",
        change_error_codes(lambda code: None if code == 1 else code),
    ),
    Mutant(
        "command_echoed",
        ERROR,
        "An unknown command is echoed.",
        change_result("transport.is_supported", lambda key, found, command: True),
    ),
    Mutant(
        "cbor_as_msg",
        COMMAND,
        "Responses to CBOR are sent as MSG.",
        wrap_send(
            lambda key, old, channel, command, data: old(channel, hid.MSG if command == hid.CBOR else command, data)
        ),
    ),
    Mutant(
        "cbor_empty_taken",
        COMMAND,
        "A CBOR message of length 0 gets no response.",
        replace_method("transport.refuse_empty", lambda key, channel: None),
    ),
    Mutant(
        "cbor_status_alone",
        COMMAND,
        "A successful response consists only of the status.",
        wrap_send(
            lambda key, old, channel, command, data: old(channel, command, data[:1] if command == hid.CBOR else data)
        ),
    ),
    Mutant("touch_kept", MAKE, "A touch before the request counts.", keep_and_use_touch),
    Mutant(
        "touch_twice",
        GET,
        "A touch counts for the next request, too.",
        wrap_method("transport.run_request", use_touch_twice),
    ),
    Mutant(
        "u2f_version",
        MSG,
        "The U2F version is another one.",
        change_result(
            "transport.serve_message",
            lambda key, found, at, apdu: b"U2F_V1\x90\0" if found.startswith(b"U2F_V2") else found,
        ),
    ),
    Mutant(
        "u2f_class",
        MSG,
        "An unknown class is accepted.",
        wrap_method("transport.serve_message", lambda key, old, at, apdu: old(at, b"\0" + apdu[1:])),
    ),
    Mutant(
        "u2f_unknown",
        MSG,
        "An unknown instruction returns 9000.",
        change_result(
            "transport.serve_message", lambda key, found, at, apdu: b"\x90\0" if found == b"\x6d\0" else found
        ),
    ),
]


def replace_cancel_status(key: Any) -> None:
    """Returns another status than 2D for a cancelled request."""
    if key.transport.out and key.transport.out[-1][7:8] == b"\x2d":
        key.transport.out[-1] = key.transport.out[-1][:7] + b"\x27" + key.transport.out[-1][8:]


def drop_request(key: Any, channel: int) -> None:
    """Drops the request of a channel without a response."""
    now = key.transport.now
    if now is not None and now.work is not None and now.channel == channel:
        key.transport.now = None
