"""An independent implementation of transactions, for comparison with the verified one: it finds the transaction of each
packet, and the end of each transaction.

It decides by packets, order and timestamps (CTAP 2.1, 11.2). If packets do not show a transaction, it guesses; such
transactions, which hidlog_transactions reports as unknown, are not compared.
"""

from __future__ import annotations

from dataclasses import dataclass, field
from typing import Dict, List, Optional, Tuple, Type, TypeVar

from hidlog_conformance.hid_packets import BROADCAST, CANCEL, CBOR, ERROR, INIT, KEEPALIVE, LONGEST, PING

INVALID_COMMAND, INVALID_LENGTH, INVALID_SEQUENCE, TIMED_OUT, BUSY, INVALID_CHANNEL = 0x01, 0x03, 0x04, 0x05, 0x06, 0x0B
# Codes of ERRORs for a CANCEL or a stray packet, which begin no transaction.
NOT_SERVED = (INVALID_COMMAND, INVALID_SEQUENCE, BUSY, INVALID_CHANNEL)
CANCELLED = 0x2D
# Milliseconds within which no key drops an incomplete message: the interval of KEEPALIVEs.
NO_TIME_OUT = 100


@dataclass(eq=False)
class Part:
    """The packets of one message."""

    line: int
    channel: int
    command: int
    length: int
    parts: List[bytes]
    lines: List[int]

    @property
    def next(self) -> int:
        """Returns the sequence number of the next packet."""
        return len(self.parts) - 1

    @property
    def actual(self) -> int:
        """The number of bytes received."""
        return min(self.length, 57 + 59 * self.next)

    @property
    def whole(self) -> bool:
        """Whether the message is complete."""
        return bool(self.actual == self.length <= LONGEST)

    @property
    def data(self) -> bytes:
        """The data received."""
        return b"".join(self.parts)[: self.length]

    @property
    def padding(self) -> bytes:
        """The padding in the last packet."""
        return b"".join(self.parts)[self.length :]


@dataclass(eq=False)
class Transaction(Part):
    """A message of a host, except CANCEL, and how it ended."""

    # answered, refused, timed out, dropped, replaced; at the end of the log unanswered or incomplete.
    end: str = ""
    # The code of the ERROR that ended it, and the line that ended it.
    code: Optional[int] = None
    by: Optional[int] = None
    answer: Optional["Answer"] = None
    keepalives: List["Entry"] = field(default_factory=list)
    # The line of a CANCEL that came while it was pending.
    cancelled: Optional[int] = None
    # The times of its first and last packets, and the delay of the first after the channel's last packet.
    began: int = 0
    last: int = 0
    after: int = 0


@dataclass(eq=False)
class Answer(Part):
    """A message of the device."""

    request: Optional[Transaction] = None
    # The latest timestamp of the log when it began.
    at: int = 0


@dataclass(eq=False)
class Entry:
    """A packet or a reply: its role, and its transaction."""

    line: int
    kind: str
    at: int = 0
    packet: bytes = b""
    # start, more, wrong number, stray, cancel; keepalive, error, answer.
    part: str = ""
    transaction: Optional[Transaction] = None
    # For a KEEPALIVE: why it was sent, because the status changed or the interval passed.
    why: str = ""
    message: Optional[Answer] = None


@dataclass(eq=False)
class Channel:
    """The state of a channel."""

    # An incomplete message, or a complete one without a response.
    held: Optional[Transaction] = None
    # The last message that began while `held` is unfinished, neither refused nor accepted yet.
    asked: Optional[Transaction] = None
    # INITs without a response so far.
    inits: List[Transaction] = field(default_factory=list)
    # Whether the host's last packet was a CANCEL, or a stray continuation packet.
    stray: bool = False
    # The device's last message, while it may continue, and the status of the last KEEPALIVE of `held`.
    answering: Optional[Answer] = None
    status: Optional[int] = None


Message = TypeVar("Message", bound=Part)


def may_send_keepalives(transaction: Optional[Transaction]) -> bool:
    """Returns whether a key may send KEEPALIVEs for a transaction: for a complete message, except PING and INIT."""
    return transaction is not None and transaction.whole and transaction.command not in (PING, INIT)


def may_refuse(code: int, start: Transaction) -> bool:
    """Returns whether an ERROR may belong to a new message; INIT is accepted at any time on its own channel."""
    if start.command != INIT:
        return True
    is_taken: bool = code in (INVALID_SEQUENCE, TIMED_OUT) or (code == BUSY and start.channel != BROADCAST)
    return not is_taken


class Walk:
    """Processes lines. `entries` has the packets and replies, `transactions` the messages of hosts."""

    def __init__(self) -> None:
        self.entries: List[Entry] = []
        self.transactions: List[Transaction] = []
        self.channels: Dict[bytes, Channel] = {}
        self.now = 0
        # The last input, until a packet of the device follows; its delay after the message's last packet.
        self.first: Optional[Entry] = None
        self.taken: Optional[int] = None

    def finish(self) -> None:
        """Sets the end of transactions that are unfinished at the end of the log."""
        for transaction in self.transactions:
            if not transaction.end:
                transaction.end = "unanswered" if transaction.whole else "not whole"

    def advance_time(self, at: int) -> None:
        """Advances the clock."""
        self.now = max(self.now, at)

    def handle_host_packet(self, line: int, at: int, packet: bytes) -> Entry:
        """Processes a packet of a host."""
        self.advance_time(at)
        entry = Entry(line, "host", self.now, packet)
        self.first, self.taken = entry, None
        (self.start_message if packet[4] & 0x80 else self.continue_message)(entry, self.get_channel(packet))
        self.entries.append(entry)
        return entry

    def handle_device_packet(self, line: int, packet: bytes) -> Entry:
        """Processes a packet of the device."""
        entry = Entry(line, "device", self.now, packet)
        self.answer_of(entry, self.get_channel(packet))
        self.first = None
        self.entries.append(entry)
        return entry

    def handle_reply(self, line: int, at: int) -> Entry:
        """Processes a reply of the caller, which belongs to the pending CBOR message."""
        self.advance_time(at)
        entry = Entry(line, "reply", self.now)
        held = [
            channel.held
            for channel in self.channels.values()
            if channel.held and channel.held.whole and channel.held.command == CBOR
        ]
        entry.transaction = held[0] if len(held) == 1 else None
        self.first, self.taken = entry, None
        self.entries.append(entry)
        return entry

    def get_channel(self, packet: bytes) -> Channel:
        """Returns the state of a packet's channel."""
        return self.channels.setdefault(packet[:4], Channel())

    def make_message(self, entry: Entry, kind: Type[Message]) -> Message:
        """Returns the message that an initialization packet begins."""
        packet = entry.packet
        channel = int.from_bytes(packet[:4], "big")
        return kind(entry.line, channel, packet[4] & 0x7F, packet[5] << 8 | packet[6], [packet[7:]], [entry.line])

    def start_message(self, entry: Entry, channel: Channel) -> None:
        """Processes an initialization packet of a host."""
        channel.stray = entry.packet[4] & 0x7F == CANCEL
        if channel.stray:
            waiting = [
                element
                for element in (channel.held, channel.asked)
                if element is not None and may_send_keepalives(element)
            ]
            fresh = [item for item in waiting if not item.cancelled] or waiting
            entry.part, entry.transaction = "cancel", fresh[0] if fresh else None
            if entry.transaction:
                entry.transaction.cancelled = entry.line
            return
        self.accept_asked(channel)
        begun = self.make_message(entry, Transaction)
        begun.began = begun.last = self.now
        self.transactions.append(begun)
        entry.part, entry.transaction, channel.asked = "start", begun, None
        if begun.command == INIT:
            channel.inits.append(begun)
            channel.asked = begun
        elif channel.held:
            channel.asked, begun.after = begun, self.now - channel.held.last
        else:
            self.set_current(channel, begun)

    def continue_message(self, entry: Entry, channel: Channel) -> None:
        """Processes a continuation packet of a host."""
        open_one, asked = channel.held, channel.asked
        if asked and asked.command != INIT and entry.packet[4] == asked.next and not asked.whole:
            open_one = asked
        channel.stray = open_one is None or open_one.whole
        if open_one is None or open_one.whole:
            entry.part = "stray"
            return
        entry.transaction, self.taken = open_one, self.now - open_one.last
        if entry.packet[4] != open_one.next:
            entry.part = "wrong number"
            return
        entry.part = "more"
        open_one.parts.append(entry.packet[5:])
        open_one.lines.append(entry.line)
        open_one.last = self.now

    def set_current(self, channel: Channel, transaction: Optional[Transaction]) -> None:
        """Sets the channel's current message."""
        channel.held, channel.status = transaction, None

    def end_transaction(
        self, item: Transaction, how: str, code: Optional[int] = None, by: Optional[int] = None
    ) -> None:
        """Ends a transaction."""
        item.end, item.code, item.by = how, code, by

    def drop_current(self, channel: Channel) -> None:
        """Drops the channel's current message; the last new one replaces it."""
        channel.held = None
        self.accept_asked(channel)

    def accept_asked(self, channel: Channel) -> None:
        """Makes a new message that was not refused the current one."""
        asked, old = channel.asked, channel.held
        if asked is None or asked.command == INIT:
            return
        channel.asked = None
        if old:
            self.end_transaction(old, "dropped" if old.cancelled else "replaced", by=old.cancelled or asked.line)
            asked.keepalives = [
                item for item in old.keepalives if may_send_keepalives(asked) and item.line > asked.lines[-1]
            ]
            old.keepalives = old.keepalives[: len(old.keepalives) - len(asked.keepalives)]
            for keepalive in asked.keepalives:
                keepalive.transaction = asked
        self.set_current(channel, asked)

    def answer_of(self, entry: Entry, channel: Channel) -> None:
        """Processes a packet of the device."""
        command = entry.packet[4] & 0x7F
        if entry.packet[4] < 0x80:
            answer, entry.part = channel.answering, "stray"
            if answer and entry.packet[4] == answer.next and answer.actual < answer.length:
                answer.parts.append(entry.packet[5:])
                answer.lines.append(entry.line)
                entry.part, entry.transaction, entry.message = "answer", answer.request, answer
            return
        channel.answering = None
        if command == KEEPALIVE:
            entry.part, entry.transaction = "keepalive", self.keepalive(entry, channel)
        elif command == ERROR:
            entry.part, entry.transaction = "error", self.error(entry, channel, entry.packet[7])
        else:
            channel.answering = entry.message = self.make_message(entry, Answer)
            entry.message.at = self.now
            entry.part, entry.transaction = "answer", self.find_answered(channel, entry.message)
            entry.message.request = entry.transaction
            if entry.transaction:
                entry.transaction.answer = entry.message
                self.end_transaction(entry.transaction, "answered", by=entry.line)

    def keepalive(self, entry: Entry, channel: Channel) -> Optional[Transaction]:
        """Returns the transaction of a KEEPALIVE."""
        if may_send_keepalives(channel.asked) and not may_send_keepalives(channel.held):
            self.accept_asked(channel)
        held = channel.held
        if held is None or not may_send_keepalives(held):
            return None
        entry.why = "time" if channel.status == entry.packet[7] else "status"
        channel.status = entry.packet[7]
        held.keepalives.append(entry)
        return held

    def error(self, entry: Entry, channel: Channel, code: int) -> Optional[Transaction]:
        """Returns the transaction that an ERROR ends."""
        asked, held = channel.asked, channel.held
        if code == TIMED_OUT and asked and not asked.whole and held and (held.whole or asked.after < NO_TIME_OUT):
            self.accept_asked(channel)
        held = channel.held
        if code == TIMED_OUT and held:
            self.remove_late_packet(held)
            if not held.whole:
                self.end_transaction(held, "timed out", code, entry.line)
                self.drop_current(channel)
                return held
        found = next((init for init in channel.inits if init.length != 8 and code == INVALID_LENGTH), channel.asked)
        if found and may_refuse(code, found):
            return self.refuse(entry, channel, found, code)
        if channel.stray and (held is None or (held.keepalives and code in NOT_SERVED)):
            return None
        if held:
            self.drop_current(channel)
        elif channel.inits:
            held = channel.inits.pop()
            channel.asked = None
        if held:
            self.end_transaction(held, "timed out" if code == TIMED_OUT else "refused", code, entry.line)
        return held

    def remove_late_packet(self, held: Transaction) -> None:
        """Removes a continuation packet from a message that had timed out before."""
        first = self.first
        if not first or first.transaction is not held or first.part not in ("more", "wrong number"):
            return
        if self.taken is None or self.taken < NO_TIME_OUT:
            return
        if first.part == "more":
            held.parts.pop()
            held.lines.pop()
            held.last = first.at - self.taken
        first.part, first.transaction = "stray", None

    def refuse(self, entry: Entry, channel: Channel, found: Transaction, code: int) -> Transaction:
        """Ends a refused message, and the message that it interrupted."""
        held = channel.held
        self.end_transaction(found, "refused", code, entry.line)
        if channel.asked is found:
            channel.asked = None
        if found.command == INIT and found in channel.inits:
            channel.inits.remove(found)
        cause = INVALID_LENGTH if found.command == INIT else INVALID_SEQUENCE
        if held and not held.whole and held.line < found.line and code == cause:
            self.end_transaction(held, "dropped" if found.command == INIT else "replaced", by=found.line)
            self.drop_current(channel)
        return found

    def find_answered(self, channel: Channel, answer: Answer) -> Optional[Transaction]:
        """Returns the transaction that a message of the device ends."""
        if answer.command == INIT:
            return self.find_init(channel, answer)
        asked, held = channel.asked, channel.held
        if asked and asked.whole and asked.command == answer.command != INIT:
            late = held and held.whole and held.cancelled and held.command == CBOR
            if not (late and answer.parts[0][0] == CANCELLED):
                self.accept_asked(channel)
                held = asked
        if held is None or not held.whole or held.command != answer.command:
            return None
        self.drop_current(channel)
        return held

    def find_init(self, channel: Channel, answer: Answer) -> Optional[Transaction]:
        """Returns the INIT of a response; except on the broadcast channel, it ends the current message."""
        nonce = answer.parts[0][:8]
        found = next((init for init in channel.inits if init.length == 8 and init.parts[0][:8] == nonce), None)
        if found is None:
            return None
        channel.inits.remove(found)
        if channel.asked is found:
            channel.asked = None
        if answer.channel != BROADCAST and channel.held and channel.held.line < found.line:
            self.end_transaction(channel.held, "dropped", by=found.line)
            self.drop_current(channel)
        return found


def walk_log(log: bytes) -> Walk:
    """Processes the lines of a log; ignores those that are not packets, ticks or replies."""
    walk = Walk()
    for number, line in enumerate(log.split(b"\n"), 1):
        handle_line(walk, number, line)
    walk.finish()
    return walk


def handle_line(walk: Walk, number: int, line: bytes) -> Optional[Entry]:
    """Processes a line of a log."""
    word, _, rest = line.partition(b" ")
    if word == b"<" and len(rest) == 128:
        return walk.handle_device_packet(number, bytes.fromhex(rest.decode()))
    moment, _, words = rest.partition(b" ")
    if word == b">":
        return walk.handle_host_packet(number, int(moment), bytes.fromhex(words.decode()))
    if word in (b"p", b"k", b"s"):
        return walk.handle_reply(number, int(moment))
    if word == b"t":
        walk.advance_time(int(moment))
    return None


def list_packets(log: bytes) -> List[Tuple[bool, bytes]]:
    """Returns the packets of a log, and whether the host sent each."""
    lines = [line for line in log.split(b"\n") if line[:2] in (b"> ", b"< ")]
    return [(line[:1] == b">", bytes.fromhex(line.split(b" ")[-1].decode())) for line in lines]
