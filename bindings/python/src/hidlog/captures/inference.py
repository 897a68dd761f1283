"""Infers replies from packets: user presence, a new key pair and a signature."""

from __future__ import annotations

from collections.abc import Iterable, Iterator, Sequence
from typing import Any, NamedTuple

from .. import cbor, logs
from .. import packets as hid
from ..errors import HidlogError
from . import conformance
from .packet_store import Packet

_PROCESSING, _UP_NEEDED = 0x01, 0x02
_DENIED, _USER_TIMEOUT, _ACTION_TIMEOUT, _EXCLUDED = 0x27, 0x2F, 0x3A, 0x19
_UP, _AT = 0x01, 0x40
_PRESENCE_COMMANDS = (hid.MAKE_CREDENTIAL, hid.GET_ASSERTION, hid.RESET, hid.SELECTION)
_SIGNING_COMMANDS = (hid.MAKE_CREDENTIAL, hid.GET_ASSERTION, hid.GET_NEXT_ASSERTION)
# Number of packets to infer from at a time, and the maximum while a transaction is open.
_WINDOW, _MAX_WINDOW = 1 << 12, 1 << 14
# A derived line: its letter, its fields after the timestamp, and the reason.
Derived = tuple[bytes, bytes, str]


class TimedPacket(NamedTuple):
    """A packet with the timestamp in the log and the data. The data is empty if a part of it is missing."""

    packet: Packet
    at: int
    data: bytes


class PacketWithReplies(NamedTuple):
    """A packet with the replies that precede it, and whether it is a KEEPALIVE sent because time had passed."""

    placed: TimedPacket
    replies: Sequence[Derived] = ()
    is_periodic: bool = False


def infer_replies(placed: Iterable[TimedPacket], window: int = _WINDOW) -> Iterator[PacketWithReplies]:
    """Yields the packets with the replies inferred from them.

    Keeps `window` packets in memory, or up to _MAX_WINDOW while transactions are open. For a transaction that is open
    for longer, no replies are inferred."""
    held: list[TimedPacket] = []
    limit = window
    for packet in placed:
        held.append(packet)
        if len(held) < limit:
            continue
        replies = _Replies(held)
        done = replies.last_quiet or (len(held) if len(held) >= _MAX_WINDOW else 0)
        yield from replies.iter_inferred(done)
        del held[:done]
        limit = min(len(held) + max(window, len(held)), _MAX_WINDOW)
    yield from _Replies(held).iter_inferred(len(held))


class _Replies:
    """The replies before each packet of a window.

    last_quiet   number of packets up to the last one after which no transaction is open.
    """

    def __init__(self, placed: list[TimedPacket]):
        self._placed = placed
        self._lines: dict[int, list[Derived]] = {}
        self.last_quiet = 0
        entries = self._infer_transactions()
        self._due = {_packet_index(entry) for entry in entries if entry.part == "keepalive" and entry.why == "time"}
        for transaction in [entry.transaction for entry in entries if entry.part == "start"]:
            if transaction.command == hid.CBOR and transaction.answer and transaction.data:
                self._infer_replies(transaction)

    def iter_inferred(self, count: int) -> Iterator[PacketWithReplies]:
        """Yields the first packets."""
        for number, placed in enumerate(self._placed[:count]):
            yield PacketWithReplies(placed, self._lines.get(number, ()), number in self._due)

    def _infer_transactions(self) -> list[Any]:
        """Infers the transactions of a log with two lines per packet (a tick, then the packet, possibly empty).

        Returns the packets with their transactions."""
        lines = []
        for packet, at, data in self._placed:
            word = b"> %d" % at if packet.sent else b"<"
            lines.append(b"t %d\n%s %s\n" % (at, word, data.hex().encode()) if data else b"t %d\n\n" % at)
        module = conformance.load_module("transactions")
        found, owners = module.Transactions(), module.Owners(logs.transactions(b"".join(lines)).raise_for_fault().text)
        for number, (packet, at, data) in enumerate(self._placed):
            found.advance_time(at)
            found.handle_reply(2 * number + 1, owners.ends(2 * number + 1))
            if data and packet.sent:
                found.handle_host_packet(2 * number + 2, at, data, owners.of(2 * number + 2))
            elif data:
                found.handle_device_packet(2 * number + 2, data, owners.of(2 * number + 2))
            if found.is_quiet:
                self.last_quiet = number + 1
        return list(found.take_entries())

    def _infer_replies(self, transaction: Any) -> None:
        request, response = transaction.data[0], transaction.answer.data
        if not response or not transaction.answer.whole:
            return
        end = _packet_index(transaction.answer)
        replies = self._lines.setdefault(end, [])
        presence = _presence_from_response(transaction, request, response)
        if presence:
            changed = [_packet_index(entry) for entry in transaction.keepalives if entry.packet[7] == _PROCESSING]
            asked = [_packet_index(entry) for entry in transaction.keepalives if entry.packet[7] == _UP_NEEDED]
            after = [index for index in changed if asked and index > asked[-1]]
            index = after[0] if after and presence[1] == b"granted" else end
            reason = "the next KEEPALIVE has another status" if index != end else presence[2]
            self._lines.setdefault(index, []).insert(0, (presence[0], presence[1], f"the user's reply: {reason}"))
        if response[0] == 0 and request in _SIGNING_COMMANDS:
            replies += _reply_from_response(request, response)


def _packet_index(part: Any) -> int:
    """Returns the index of the packet at the line of a message or an entry."""
    return int(part.line) // 2 - 1


def _presence_from_response(transaction: Any, request: int, response: bytes) -> Derived | None:
    """Returns the user's reply that a response implies."""
    if request not in _PRESENCE_COMMANDS:
        return None
    was_asked = any(entry.packet[7] == _UP_NEEDED for entry in transaction.keepalives)
    if response[0] == _DENIED:
        return b"p", b"denied", "the response has status OPERATION_DENIED"
    if response[0] in (_USER_TIMEOUT, _ACTION_TIMEOUT):
        return b"p", b"timeout", "the response has the status of a user time-out"
    if response[0] == _EXCLUDED and was_asked:
        return b"p", b"granted", "the response has status CREDENTIAL_EXCLUDED after the user was asked"
    if response[0]:
        return None
    if request in (hid.RESET, hid.SELECTION):
        return b"p", b"granted", "the response has status CTAP2_OK"
    auth = _get_member(response, 2)
    if isinstance(auth, bytes) and len(auth) >= 37 and auth[32] & _UP:
        return b"p", b"granted", "the response has flag UP"
    return None


def _decode_map(response: bytes) -> dict[Any, Any]:
    try:
        found = cbor.decode(response[1:])
    except HidlogError:
        return {}
    return found if isinstance(found, dict) else {}


def _get_member(response: bytes, key: int) -> Any:
    return _decode_map(response).get(key)


def _reply_from_response(request: int, response: bytes) -> list[Derived]:
    """Returns the new key pair and the signature in a response."""
    found: list[Derived] = []
    item = _decode_map(response)
    signature = item.get(3)
    if request == hid.MAKE_CREDENTIAL:
        key = _read_key_fields(item.get(2))
        if key:
            found.append((b"k", key, "the new key, from the response"))
        statement = item.get(3) if isinstance(item.get(3), dict) else {}
        # With a certificate, the signature is not the new key's.
        signature = statement.get("sig") if isinstance(statement, dict) and "x5c" not in statement else None
    if isinstance(signature, bytes) and 1 <= len(signature) <= 72:
        found.append((b"s", signature.hex().encode(), "the signature, from the response"))
    return found


def _read_key_fields(auth: Any) -> bytes | None:
    """Returns the fields of a key line, for a credential with an ID of 32 bytes and an ES256 key."""
    if not isinstance(auth, bytes) or len(auth) < 55 or not auth[32] & _AT:
        return None
    length = int.from_bytes(auth[53:55], "big")
    try:
        key, _ = cbor.decode_first(auth[55 + length :])
    except HidlogError:
        return None
    if length != 32 or not isinstance(key, dict):
        return None
    parts = [item for item in (auth[55:87], key.get(-2), key.get(-3)) if isinstance(item, bytes) and len(item) == 32]
    return b" ".join(part.hex().encode() for part in parts) if len(parts) == 3 else None
