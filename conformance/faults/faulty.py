"""Faulty authenticators: each is a filter between the test runner and `hidlog live` that injects one fault."""

from __future__ import annotations

from typing import Any, Callable, Dict, List, NamedTuple, Optional, Tuple

from hidlog_conformance import ctap_cbor
from hidlog_conformance import hid_packets as hid
from hidlog_conformance.devices import POWER_CYCLE
from hidlog_conformance.hid_packets import Message
from cached_device import CachedDevice

Sent = List[Message]
Hook = Callable[["FaultyDevice", Message], Optional[Sent]]
HostHook = Callable[["FaultyDevice", int, bytes], Optional[bytes]]
RequestHook = Callable[["FaultyDevice", bytes], Optional[bytes]]


class Fault(NamedTuple):
    """A fault: its name, the section it violates, and the hooks that make it."""

    name: str
    section: str
    description: str
    # Returns the messages to send instead of a message of the authenticator, or None to send it unchanged.
    answer: Optional[Hook] = None
    # Returns the packet to pass to the authenticator instead of the host's, or None to drop it.
    packet: Optional[HostHook] = None
    # Returns the CBOR request to pass to the authenticator, or None if the hook responded.
    request: Optional[RequestHook] = None
    # Changes the packets of a message.
    cut: Optional[Callable[[List[bytes]], List[bytes]]] = None
    # Changes the user's reply.
    reply: Optional[Callable[["FaultyDevice", str], str]] = None
    # Changes the time of an input.
    clock: Optional[Callable[["FaultyDevice", int], int]] = None
    # The line that the program gets instead of a power cycle.
    power: str = POWER_CYCLE
    # The case that must detect the fault. If empty, any case of the section may.
    by: str = ""
    # Other sections that the fault also violates.
    implies: Tuple[str, ...] = ()


class FaultyDevice(CachedDevice):
    """hidlog live with a fault."""

    def __init__(self, fault: Fault) -> None:
        super().__init__()
        self.fault = fault
        # The number of power cycles, and the values that a fault keeps across them.
        self.cycles = 0
        self.kept = b""
        self.restart()

    def restart(self) -> None:
        """Resets the state of the last session."""
        self.host = hid.MessageReassembler(of_host=True)
        self.guest = hid.MessageReassembler()
        self.held: List[Tuple[int, bytes]] = []
        # The last request of each command, and the command of the last one.
        self.asked: Dict[int, bytes] = {}
        self.command = 0
        # Whether the last packet belongs to no message.
        self.stray = False
        self.last: Dict[str, Any] = {}

    def start(self) -> None:
        """Starts a new authenticator."""
        super().start()
        self.restart()
        self.cycles = 0
        self.kept = b""

    def power_cycle(self, at: int) -> None:
        """Power cycles the program, or sends it the line of the fault."""
        self.cycles += 1
        if not self.fault.power:
            super().tick(at)
            return
        self.restart()
        super().power_cycle(at)

    def play(self, line: str) -> None:
        """Passes a line to the program, and applies the fault to its packets."""
        line = self.fault.power if line == POWER_CYCLE else line
        super().play(line)
        packets = list(self.packets)
        fresh = packets[self.last.get("kept", 0) :] if self.last.get("kept", 0) <= len(packets) else packets
        for _ in fresh:
            self.packets.pop()
        for packet in fresh:
            message = self.guest.feed(packet)
            if message is not None:
                self.put(message)
        self.last["kept"] = len(self.packets)

    def put(self, message: Message) -> None:
        """Sends a message, changed by the fault."""
        changed = self.fault.answer(self, message) if self.fault.answer else None
        for each in [message] if changed is None else changed:
            self.emit(each.channel, each.command, each.data)

    def emit(self, channel: int, command: int, data: bytes) -> None:
        """Sends a message unchanged."""
        packets = hid.fragment_message(channel, command, data)
        self.packets.extend(self.fault.cut(packets) if self.fault.cut else packets)
        self.last["kept"] = len(self.packets)

    def read(self, seconds: float) -> Optional[bytes]:
        """Returns the next packet."""
        packet: Optional[bytes] = super().read(seconds)
        self.last["kept"] = len(self.packets)
        return packet

    def send(self, at: int, packet: bytes) -> None:
        """Passes a packet on, changed by the fault; a request is changed once it is complete."""
        at = self.fault.clock(self, at) if self.fault.clock else at
        message = self.host.feed(packet)
        self.stray = message is not None and bool(message.problem)
        if message is not None and message.command == hid.CBOR and not message.problem:
            self.asked[message.data[0] if message.data else 0] = message.data
            self.command = message.data[0] if message.data else 0
        if self.fault.packet is not None:
            changed = self.fault.packet(self, at, packet)
            if changed is not None:
                super().send(at, changed)
        elif self.fault.request is not None:
            self.collect(at, packet, message)
        else:
            super().send(at, packet)

    def collect(self, at: int, packet: bytes, message: Optional[Message]) -> None:
        """Collects the packets of a CBOR message, and passes on the request, changed by the fault."""
        assert self.fault.request is not None
        begins = packet[4] == 0x80 | hid.CBOR
        if message is None and (begins or self.held):
            self.held.append((at, packet))
            return
        packets, self.held = self.held + [(at, packet)], []
        if message is not None and message.command == hid.CBOR and not message.problem and message.data:
            self.last["channel"] = message.channel
            changed = self.fault.request(self, message.data)
            if changed is None:
                return
            if changed != message.data:
                packets = [(at, piece) for piece in hid.fragment_message(message.channel, hid.CBOR, changed)]
        for time, piece in packets:
            super().send(time, piece)

    def presence(self, at: int, word: str) -> None:
        """Passes on the user's reply, changed by the fault."""
        super().presence(at, self.fault.reply(self, word) if self.fault.reply else word)

    def sign_again(self, auth: bytes, client_hash: bytes, credential: bytes) -> bytes:
        """Signs changed authenticator data."""
        signature: bytes = self.keys.sign(credential, auth + client_hash)
        return signature


def decode_parameters(request: bytes) -> Dict[Any, Any]:
    """Returns the parameters of a request; empty if they are invalid."""
    try:
        item = ctap_cbor.decode(request[1:])
    except ctap_cbor.CborError:
        return {}
    return dict(item) if isinstance(item, dict) else {}


def decode_response(message: Message) -> Dict[Any, Any]:
    """Returns the map of a successful response; empty for others."""
    if message.command != hid.CBOR or message.problem or message.data[:1] != b"\0" or len(message.data) < 2:
        return {}
    return decode_parameters(message.data)


def is_assertion(item: Dict[Any, Any]) -> bool:
    """Returns whether a map is the response of a sign-in."""
    return isinstance(item.get(3), bytes) and isinstance(item.get(2), bytes)


def is_registration(item: Dict[Any, Any]) -> bool:
    """Returns whether a map is the response of a registration."""
    return item.get(1) == "packed"


def replace_data(message: Message, data: bytes) -> Sent:
    """Returns a message with other bytes."""
    return [Message(message.channel, message.command, data)]
