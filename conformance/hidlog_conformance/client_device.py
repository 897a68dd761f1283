"""Plays a device to a client: a conforming one, modified by the rules of a session of conformance/clients."""

from __future__ import annotations

import hashlib
from dataclasses import dataclass, field
from typing import TYPE_CHECKING, Any, Dict, List, Optional, Tuple

from hidlog_conformance import ctap_cbor
from hidlog_conformance import hid_packets as hid
from hidlog_conformance.keys import KeyMaker

if TYPE_CHECKING:
    from hidlog_conformance.client_sides import PinSide, U2fSide

KINDS = {1: "make", 2: "get", 4: "info", 6: "pin", 8: "next"}
STRANGER = 0x00000777
AAGUID = b"conformance corp"
Rules = Dict[str, List[List[str]]]


@dataclass
class Reply:
    """A response that rules modify: its map, its bytes, its packets, and the packets before them."""

    channel: int
    command: int
    data: bytes = b""
    item: Optional[Dict[Any, Any]] = None
    packets: List[bytes] = field(default_factory=list)
    before: List[Tuple[int, bytes]] = field(default_factory=list)


def make_pin_side() -> PinSide:
    """Returns the PIN side, which needs the package cryptography."""
    from hidlog_conformance.client_sides import PinSide

    return PinSide()


def make_u2f_side() -> U2fSide:
    """Returns the U2F side, which needs the package cryptography."""
    from hidlog_conformance.client_sides import U2fSide

    return U2fSide()


class ClientDevice:
    """Processes a client's packets; returns the device's, each with a delay in milliseconds."""

    def __init__(self, rules: Rules) -> None:
        self.rules = rules
        self.host = hid.MessageReassembler(of_host=True)
        self.keys = KeyMaker()
        self.channel = 0
        self.credential = b""
        self.pending = 0
        self.hash = b""
        self.rp = ""
        self.count = 0
        self.seen: Dict[str, int] = {}
        # Packets to send once the client cancels.
        self.held: List[bytes] = []
        has_pin = any(words[0] == "pin" for words in rules.get("info", []))
        self.pin = make_pin_side() if has_pin else None
        self.u2f: Optional[U2fSide] = None

    def get_words(self, kind: str, name: str) -> List[str]:
        """Returns the words of a rule, or an empty list."""
        found = [words[1:] for words in self.rules.get(kind, []) if words[0] == name]
        return found[0] if found else []

    def take(self, packet: bytes) -> List[Tuple[int, bytes]]:
        """Processes a packet."""
        message = self.host.feed(packet)
        if message is None or message.problem:
            return []
        if message.command == hid.CANCEL:
            held, self.held = self.held, []
            return [(0, piece) for piece in held]
        kind, reply = self.make_conforming_reply(message)
        self.seen[kind] = self.seen.get(kind, 0) + 1
        rules = self.rules.get(kind, [])
        for stage in (MAP_RULES, BYTE_RULES, PACKET_RULES):
            if stage is BYTE_RULES and reply.item is not None:
                reply.data = b"\0" + ctap_cbor.encode(reply.item)
            if stage is PACKET_RULES:
                reply.packets = hid.fragment_message(reply.channel, reply.command, reply.data)
            for words in rules:
                if words[0] in stage:
                    stage[words[0]](self, kind, reply, words[1:])
        return reply.before + [(0, piece) for piece in reply.packets]

    def make_conforming_reply(self, message: hid.Message) -> Tuple[str, Reply]:
        """Returns the kind of a request, and the response that a conforming device sends."""
        reply = Reply(message.channel, message.command)
        if message.command == hid.INIT:
            self.channel = int("".join(self.get_words("init", "channel") or ["11223344"]), 16)
            tail = bytes.fromhex("".join(self.get_words("init", "tail") or ["020102030c"]))
            reply.data = message.data + self.channel.to_bytes(4, "big") + tail
            return "init", reply
        if message.command == hid.PING:
            reply.data = message.data
            return "ping", reply
        if message.command == hid.MSG:
            self.u2f = self.u2f or make_u2f_side()
            kind, reply.data = self.u2f.serve(message.data)
            return kind, reply
        kind = KINDS.get(message.data[0] if message.data else 0, "")
        if message.command != hid.CBOR or not kind or (kind == "pin" and self.pin is None):
            reply.command, reply.data = (hid.CBOR if message.command == hid.CBOR else hid.ERROR), b"\1"
            return "other", reply
        asked = ctap_cbor.decode(message.data[1:]) if len(message.data) > 1 else {}
        status = 0
        if self.pin is not None and kind == "pin":
            kind, status, reply.item = self.pin.serve(asked)
        elif self.pin is not None and kind in ("make", "get"):
            status = self.pin.judge(kind, asked)
        if status:
            reply.item, reply.data = None, bytes([status])
        elif reply.item is None:
            reply.item = getattr(self, kind)(asked)
        return kind, reply

    def info(self, asked: Dict[Any, Any]) -> Dict[Any, Any]:
        """Responds to authenticatorGetInfo."""
        algorithms = [{"alg": -7, "type": "public-key"}]
        if self.pin is not None:
            options = {"rk": True, "up": True, "clientPin": True}
            return {1: ["FIDO_2_0", "FIDO_2_1"], 3: AAGUID, 4: options, 5: 7609, 6: [2, 1], 10: algorithms}
        return {1: ["FIDO_2_0", "FIDO_2_1"], 3: AAGUID, 4: {"rk": True, "up": True}, 5: 7609, 10: algorithms}

    def auth(self, kind: str, flags: int) -> bytes:
        """Returns the first 37 bytes of authenticator data."""
        self.count += 1
        counters = self.get_words(kind, "counter")
        count = int(counters[min(self.seen.get(kind, 0), len(counters) - 1)]) if counters else self.count
        flags = flags | (0x04 if self.pin is not None else 0)
        flags = int("".join(self.get_words(kind, "flags") or [f"{flags:02x}"]), 16)
        rp = "".join(self.get_words(kind, "rp") or [self.rp])
        return hashlib.sha256(rp.encode()).digest() + bytes([flags]) + count.to_bytes(4, "big")

    def make(self, asked: Dict[Any, Any]) -> Dict[Any, Any]:
        """Responds to authenticatorMakeCredential."""
        self.rp = asked[2]["id"]
        name, x, y = self.keys.make()
        length = int("".join(self.get_words("make", "id-length") or ["32"]))
        self.credential = (name * 32)[:length]
        self.keys.private[self.credential] = self.keys.private[name]
        cose = ctap_cbor.encode({1: 2, 3: -7, -1: 1, -2: x, -3: y})
        attested = AAGUID + length.to_bytes(2, "big") + self.credential + cose
        auth = self.auth("make", 0x41) + attested
        return {1: "packed", 2: auth, 3: {"alg": -7, "sig": self.keys.sign(self.credential, auth + asked[1])}}

    def get(self, asked: Dict[Any, Any]) -> Dict[Any, Any]:
        """Responds to authenticatorGetAssertion: one account with an allow list, or as many as the rule says."""
        self.rp, self.hash = asked[1], asked[2]
        accounts = int("".join(self.get_words("get", "accounts") or ["3"]))
        self.pending = 0
        if asked.get(3):
            answer = self.make_assertion("get", self.credential)
            return {key: answer[key] for key in (1, 2, 3)}
        self.pending = accounts - 1
        more = {5: accounts} if accounts > 1 else {}
        return {**self.make_assertion("get", self.keys.make()[0]), **more}

    def next(self, asked: Dict[Any, Any]) -> Dict[Any, Any]:
        """Responds to authenticatorGetNextAssertion."""
        self.pending -= 1
        return self.make_assertion("next", self.keys.make()[0])

    def make_assertion(self, kind: str, credential: bytes) -> Dict[Any, Any]:
        """Returns an assertion."""
        auth = self.auth(kind, 0x01)
        user = {"id": b"user %d" % self.pending}
        signature = self.keys.sign(credential, auth + self.hash)
        return {1: {"id": credential, "type": "public-key"}, 2: auth, 3: signature, 4: user}


def set_member(device: ClientDevice, kind: str, reply: Reply, words: List[str]) -> None:
    """member KEY [HEX]: sets a member to an encoded item, or removes it."""
    assert reply.item is not None
    if len(words) > 1:
        reply.item[int(words[0])] = ctap_cbor.Raw(bytes.fromhex(words[1]))
    else:
        reply.item.pop(int(words[0]), None)


def sign_other_data(device: ClientDevice, kind: str, reply: Reply, words: List[str]) -> None:
    """bad-signature: signs other data."""
    assert reply.item is not None
    signature = device.keys.sign(device.credential, b"something else")
    if kind == "make":
        reply.item[3]["sig"] = signature
    else:
        reply.item[3] = signature


def truncate_auth_data(device: ClientDevice, kind: str, reply: Reply, words: List[str]) -> None:
    """cut-auth N: removes the last N bytes of the authenticator data."""
    assert reply.item is not None
    reply.item[2] = reply.item[2][: -int(words[0])]


def fill_message(device: ClientDevice, kind: str, reply: Reply, words: List[str]) -> None:
    """fill N: adds an unknown member so that the message has N bytes."""
    assert reply.item is not None
    room = int(words[0]) - 1 - len(ctap_cbor.encode(reply.item)) - 5
    reply.item[0x60] = bytes(room)


def set_data(device: ClientDevice, kind: str, reply: Reply, words: List[str]) -> None:
    """data HEX: sends these bytes as the response."""
    reply.data = bytes.fromhex("".join(words))


def append(device: ClientDevice, kind: str, reply: Reply, words: List[str]) -> None:
    """append HEX: adds bytes."""
    reply.data += bytes.fromhex(words[0])


def truncate_data(device: ClientDevice, kind: str, reply: Reply, words: List[str]) -> None:
    """cut N: removes the last N bytes."""
    reply.data = reply.data[: -int(words[0])]


def swap_bytes(device: ClientDevice, kind: str, reply: Reply, words: List[str]) -> None:
    """replace OLD NEW: replaces bytes, once."""
    assert bytes.fromhex(words[0]) in reply.data, (kind, words)
    reply.data = reply.data.replace(bytes.fromhex(words[0]), bytes.fromhex(words[1]), 1)


def respond_with_error(device: ClientDevice, kind: str, reply: Reply, words: List[str]) -> None:
    """error CODE N: responds to the first N requests with ERROR."""
    if device.seen[kind] <= int(words[1]):
        reply.command, reply.data = hid.ERROR, bytes.fromhex(words[0])


def set_command(device: ClientDevice, kind: str, reply: Reply, words: List[str]) -> None:
    """command HEX: responds with another command."""
    reply.command = int(words[0], 16)


def set_channel(device: ClientDevice, kind: str, reply: Reply, words: List[str]) -> None:
    """on HEX: responds on another channel."""
    reply.channel = int(words[0], 16)


def replace_byte(device: ClientDevice, kind: str, reply: Reply, words: List[str]) -> None:
    """byte INDEX HEX: replaces a byte."""
    place = int(words[0])
    reply.data = reply.data[:place] + bytes.fromhex(words[1]) + reply.data[place + 1 :]


def set_first_response(device: ClientDevice, kind: str, reply: Reply, words: List[str]) -> None:
    """first HEX: responds to the first request with these bytes."""
    if device.seen[kind] == 1:
        reply.data = bytes.fromhex(words[0])


def wait_for_cancel(device: ClientDevice, kind: str, reply: Reply, words: List[str]) -> None:
    """until-cancel N [HEX]: sends three KEEPALIVEs; after CANCEL, N more and these bytes (or the response)."""
    touch = hid.fragment_message(reply.channel, hid.KEEPALIVE, b"\2")
    ended = (
        hid.fragment_message(reply.channel, reply.command, bytes.fromhex(words[1])) if len(words) > 1 else reply.packets
    )
    device.held, reply.packets = touch * int(words[0]) + ended, touch * 3


def add_keepalives(device: ClientDevice, kind: str, reply: Reply, words: List[str]) -> None:
    """keepalive STATUS N MS: sends N KEEPALIVEs, MS milliseconds apart."""
    packet = hid.fragment_message(reply.channel, hid.KEEPALIVE, bytes.fromhex(words[0]))[0]
    reply.before += [(int(words[2]), packet)] * int(words[1])


def add_other_host_message(device: ClientDevice, kind: str, reply: Reply, words: List[str]) -> None:
    """stranger before|between COMMAND HEX: a message for another host before the response, or after its first
    packet."""
    channel = hid.BROADCAST if words[1] == "06" else STRANGER
    packets = hid.fragment_message(channel, int(words[1], 16), bytes.fromhex(words[2]))
    if words[0] == "before":
        reply.before += [(0, packet) for packet in packets]
    else:
        reply.packets[1:1] = packets


def set_length(device: ClientDevice, kind: str, reply: Reply, words: List[str]) -> None:
    """length N: sends another length in the header."""
    first = reply.packets[0]
    reply.packets[0] = first[:5] + int(words[0]).to_bytes(2, "big") + first[7:]


def set_sequence(device: ClientDevice, kind: str, reply: Reply, words: List[str]) -> None:
    """sequence PACKET N: changes the sequence number of a packet."""
    place = int(words[0])
    reply.packets[place] = reply.packets[place][:4] + bytes([int(words[1])]) + reply.packets[place][5:]


def reorder_packets(device: ClientDevice, kind: str, reply: Reply, words: List[str]) -> None:
    """order N ..: sends only the packets with these indexes, in this order."""
    reply.packets = [reply.packets[int(word)] for word in words]


def set_padding(device: ClientDevice, kind: str, reply: Reply, words: List[str]) -> None:
    """padding HEX: pads the last packet with a byte instead of zeros."""
    used = len(reply.data) + 7 if len(reply.packets) == 1 else (len(reply.data) - 57 - 1) % 59 + 1 + 5
    reply.packets[-1] = reply.packets[-1][:used].ljust(64, bytes.fromhex(words[0]))


MAP_RULES = {
    "member": set_member,
    "bad-signature": sign_other_data,
    "cut-auth": truncate_auth_data,
    "fill": fill_message,
}
BYTE_RULES = {
    "data": set_data,
    "append": append,
    "cut": truncate_data,
    "replace": swap_bytes,
    "error": respond_with_error,
    "command": set_command,
}
BYTE_RULES.update({"on": set_channel, "byte": replace_byte, "first": set_first_response})
PACKET_RULES = {
    "keepalive": add_keepalives,
    "stranger": add_other_host_message,
    "length": set_length,
    "sequence": set_sequence,
    "order": reorder_packets,
}
PACKET_RULES.update({"padding": set_padding, "until-cancel": wait_for_cancel})
# Rules that ClientDevice applies itself.
BUILT_IN_RULES = ("channel", "tail", "flags", "rp", "id-length", "accounts", "pin", "counter")
