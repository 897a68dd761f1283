"""Assembles the packets of a log into messages and transactions, by the output of `hidlog_transactions`.

`hidlog_transactions` of the C library (crates/hidlog_c/hidlog.h) writes a line for each packet, tick and reply, with
the transaction that it belongs to by CTAP 2.1, 11.2. This works for any key. This module reads that text and the log
line by line, and keeps only unfinished transactions.
"""

from __future__ import annotations

from dataclasses import dataclass, field
from typing import Dict, List, Optional

from hidlog_conformance.hid_packets import CANCEL, ERROR, KEEPALIVE, LONGEST

INVALID_COMMAND, INVALID_LENGTH, INVALID_SEQUENCE, TIMED_OUT, BUSY, INVALID_CHANNEL = 0x01, 0x03, 0x04, 0x05, 0x06, 0x0B
CANCELLED = 0x2D
# Milliseconds within which no key drops an unfinished message: the interval of KEEPALIVEs.
NO_TIME_OUT = 100
# Ends of transactions whose end the packets do not show.
UNKNOWN = ("unknown", "forgotten")
# Ends of transactions, by letter.
ENDS = {ord("d"): "dropped", ord("r"): "replaced", ord("f"): "forgotten", ord("u"): "unknown"}
ANSWERED, BY_ERROR, LATE = b"sac", ord("e"), ord("l")
# Letters that are followed by the line that ended the transaction.
NAMES_LINE = b"dr"
# Bytes to split into lines at a time.
BLOCK = 1 << 16


@dataclass(eq=False)
class Part:
    """The packets of one message."""

    line: int
    channel: int
    command: int
    length: int
    parts: List[bytes]
    lines: List[int]
    # A cache of `data`.
    joined: Optional[bytes] = None

    @property
    def next(self) -> int:
        """The sequence number of the next packet."""
        return len(self.parts) - 1

    @property
    def received(self) -> int:
        """The number of bytes received."""
        return min(self.length, 59 * len(self.parts) - 2)

    @property
    def whole(self) -> bool:
        """Whether the message is complete."""
        return self.length <= LONGEST and self.length <= 59 * len(self.parts) - 2

    @property
    def data(self) -> bytes:
        """The data received."""
        joined = self.joined
        if joined is None:
            self.joined = joined = b"".join(self.parts)[: self.length]
        return joined

    def add(self, piece: bytes, line: int) -> None:
        """Adds a packet."""
        self.parts.append(piece)
        self.lines.append(line)
        self.joined = None

    def remove_last(self) -> None:
        """Removes the last packet."""
        self.parts.pop()
        self.lines.pop()
        self.joined = None

    @property
    def padding(self) -> bytes:
        """The padding in the last packet."""
        return b"".join(self.parts)[self.length :]


@dataclass(eq=False)
class Transaction(Part):
    """A message of a host, except CANCEL, and how it ended."""

    # answered, refused, timed out, dropped, replaced, unknown, forgotten; or empty at the end of the log.
    end: str = ""
    # The code of the ERROR that ended it, and the line that ended it.
    code: Optional[int] = None
    by: Optional[int] = None
    answer: Optional["Answer"] = None
    keepalives: List["Entry"] = field(default_factory=list)
    # The line and time of a CANCEL that came while it was pending.
    cancelled: Optional[int] = None
    cancelled_at: int = 0
    # The timestamps of its packets.
    times: List[int] = field(default_factory=list)

    @property
    def began(self) -> int:
        """The time of its first packet."""
        return self.times[0]

    @property
    def last(self) -> int:
        """The time of its last packet."""
        return self.times[-1]

    @property
    def is_unknown(self) -> bool:
        """Whether packets do not show how it ended."""
        return self.end in UNKNOWN


@dataclass(eq=False)
class Answer(Part):
    """A message of the device."""

    request: Optional[Transaction] = None


@dataclass(eq=False)
class Entry:
    """A packet: its role, and its transaction."""

    line: int
    is_host: bool
    at: int
    packet: bytes
    # start, more, wrong number, stray, cancel; keepalive, error, answer.
    part: str = ""
    transaction: Optional[Transaction] = None
    # For a KEEPALIVE: why it was sent, because the status changed or the interval passed.
    why: str = ""
    message: Optional[Answer] = None


@dataclass
class Ending:
    """The end of a transaction: a letter, the transaction's line, and the status, code or line."""

    letter: int
    line: int
    number: int


@dataclass
class OwnerRow:
    """The line numbers of a packet's transaction and message (their first lines, or 0), and the transactions that it
    ends."""

    transaction: int = 0
    message: int = 0
    words: List[Ending] = field(default_factory=list)


class Lines:
    """Splits a text into lines block by block, to save memory."""

    def __init__(self, text: bytes) -> None:
        self.text = text
        self.at = 0
        self.rest = b""

    def block(self) -> List[bytes]:
        """Returns the next lines; none at the end."""
        while self.at < len(self.text):
            lines = (self.rest + self.text[self.at : self.at + BLOCK]).split(b"\n")
            self.at += BLOCK
            self.rest = lines.pop()
            if lines:
                return lines
        lines, self.rest, self.at = [self.rest] if self.rest else [], b"", len(self.text)
        return lines


# The values for a line without a transaction, and for a line that ends none. Do not modify them.
NOTHING = OwnerRow()
NO_ENDINGS: List[Ending] = []


class Owners:
    """Reads the output of `hidlog_transactions` for a part of a log that begins after line `before`."""

    def __init__(self, text: bytes, before: int = 0) -> None:
        self.lines = Lines(text)
        self.before = before
        # The rows of a block by line number, and the number of its last row.
        self.rows: Dict[int, List[bytes]] = {}
        self.last = 0

    def find_row(self, number: int) -> Optional[List[bytes]]:
        """Returns the row of a line, or None."""
        line = number - self.before
        while line > self.last:
            block = [row.split(b" ") for row in self.lines.block()]
            if not block:
                return None
            self.rows = {int(row[0]): row for row in block}
            self.last = int(block[-1][0])
        return self.rows.get(line)

    def of(self, number: int) -> OwnerRow:
        """Returns the transaction of a line, not to be modified; call it with rising line numbers."""
        row, before = self.find_row(number), self.before
        if row is None:
            return NOTHING
        transaction, message = int(row[1]), int(row[2])
        words = self.endings(row) if len(row) > 3 else NO_ENDINGS
        return OwnerRow(transaction and transaction + before, message and message + before, words)

    def ends(self, number: int) -> List[Ending]:
        """Returns the transactions that a line ends, not to be modified; call it with rising line numbers."""
        row = self.find_row(number)
        return self.endings(row) if row is not None and len(row) > 3 else NO_ENDINGS

    def endings(self, row: List[bytes]) -> List[Ending]:
        """Reads the words of a row."""
        return [self.ending(word) for word in row[3:]]

    def line(self, digits: bytes) -> int:
        """Returns a line number in the whole log, or 0."""
        line = int(digits)
        return line + self.before if line else 0

    def ending(self, word: bytes) -> Ending:
        """Reads a word: `s12:46`, `r12:17`, `u12`."""
        parts = word[1:].split(b":")
        number = int(parts[1]) if len(parts) > 1 else 0
        if word[0] in NAMES_LINE:
            number += self.before
        return Ending(word[0], self.line(parts[0]), number)


class Transactions:
    """The transactions of a log. `entries` has the packets that are not checked yet."""

    def __init__(self) -> None:
        self.entries: List[Entry] = []
        # The number of entries up to the last packet of the device after which `is_quiet` was true.
        self.settled = 0
        self.now = 0
        # The number of packets of each side, and of transactions.
        self.packets = self.answers = self.count = 0
        # The unfinished transactions by first line, and the device's unfinished messages by channel.
        self.open: Dict[int, Transaction] = {}
        self.answering: Dict[int, Answer] = {}
        # The host's last packet.
        self.input: Optional[Entry] = None

    @property
    def is_quiet(self) -> bool:
        """Whether no later line can belong to an earlier packet."""
        return not self.open and not self.answering

    def restart(self) -> None:
        """Drops unfinished transactions: the device lost power."""
        self.open, self.answering, self.input = {}, {}, None

    def take_entries(self) -> List[Entry]:
        """Returns the entries, and clears the list."""
        entries, self.entries, self.settled = self.entries, [], 0
        return entries

    def take_settled(self) -> List[Entry]:
        """Returns the entries to which no later line can belong, and removes them."""
        entries, self.entries, self.settled = self.entries[: self.settled], self.entries[self.settled :], 0
        return entries

    def advance_time(self, at: int) -> None:
        """Advances the clock."""
        if at > self.now:
            self.now = at

    def handle_host_packet(self, line: int, at: int, packet: bytes, owned: OwnerRow) -> None:
        """Processes a packet of a host."""
        self.advance_time(at)
        self.packets += 1
        entry = Entry(line, True, self.now, packet)
        self.input = entry
        entry.transaction = self.open.get(owned.transaction)
        if packet[4] == 0x80 | CANCEL:
            self.handle_cancel(entry)
        elif packet[4] & 0x80:
            self.begin_transaction(entry)
        else:
            self.continue_message(entry, owned)
        self.entries.append(entry)
        if owned.words:
            self.end_transactions(entry, owned.words)

    def handle_device_packet(self, line: int, packet: bytes, owned: OwnerRow) -> None:
        """Processes a packet of the device."""
        self.packets += 1
        self.answers += 1
        entry = Entry(line, False, self.now, packet)
        channel = int.from_bytes(packet[:4], "big")
        entry.transaction = self.open.get(owned.transaction)
        if packet[4] < 0x80:
            self.continue_answer(entry, owned, channel)
        else:
            if self.answering:
                self.answering.pop(channel, None)
            self.begin_answer(entry, channel)
        self.entries.append(entry)
        if owned.words:
            self.end_transactions(entry, owned.words)

    def handle_reply(self, line: int, words: List[Ending]) -> None:
        """Processes a tick or a reply."""
        self.end_transactions(Entry(line, True, self.now, b""), words)

    def handle_cancel(self, entry: Entry) -> None:
        """Processes a CANCEL."""
        entry.part = "cancel"
        if entry.transaction is not None:
            entry.transaction.cancelled, entry.transaction.cancelled_at = entry.line, entry.at

    def begin_transaction(self, entry: Entry) -> None:
        """Processes an initialization packet of a host, which begins a transaction."""
        packet = entry.packet
        channel, length = int.from_bytes(packet[:4], "big"), packet[5] << 8 | packet[6]
        begun = Transaction(entry.line, channel, packet[4] & 0x7F, length, [packet[7:]], [entry.line])
        begun.times = [self.now]
        entry.part, entry.transaction = "start", begun
        self.open[entry.line] = begun
        self.count += 1

    def continue_message(self, entry: Entry, owned: OwnerRow) -> None:
        """Processes a continuation packet of a host."""
        owner = entry.transaction
        if owner is None:
            entry.part = "stray"
        elif owned.message == 0:
            entry.part = "wrong number"
        else:
            entry.part = "more"
            owner.add(entry.packet[5:], entry.line)
            owner.times.append(self.now)

    def begin_answer(self, entry: Entry, channel: int) -> None:
        """Processes an initialization packet of the device."""
        packet, owner = entry.packet, entry.transaction
        command = packet[4] & 0x7F
        if command == KEEPALIVE:
            entry.part = "keepalive"
            if owner is not None:
                before = owner.keepalives[-1].packet[7] if owner.keepalives else None
                entry.why = "time" if before == packet[7] else "status"
                owner.keepalives.append(entry)
            return
        if command == ERROR:
            entry.part = "error"
            return
        length = packet[5] << 8 | packet[6]
        answer = Answer(entry.line, channel, command, length, [packet[7:]], [entry.line], request=owner)
        entry.part, entry.message = "answer", answer
        if answer.received < length:
            self.answering[channel] = answer
        if owner is not None:
            owner.answer, owner.end, owner.by = answer, "answered", entry.line

    def continue_answer(self, entry: Entry, owned: OwnerRow, channel: int) -> None:
        """Processes a continuation packet of the device."""
        answer, entry.part = self.answering.get(channel), "stray"
        if answer is None or answer.line != owned.message:
            entry.transaction = None
            return
        answer.add(entry.packet[5:], entry.line)
        entry.part, entry.transaction, entry.message = "answer", answer.request, answer
        if answer.received == answer.length:
            del self.answering[channel]

    def end_transactions(self, entry: Entry, words: List[Ending]) -> None:
        """Processes the transactions that a line ends."""
        for word in words:
            if word.letter == LATE:
                self.remove_late_packet(word.line)
            elif word.line in self.open:
                self.end_transaction(self.open.pop(word.line), word, entry)

    def end_transaction(self, owner: Transaction, word: Ending, entry: Entry) -> None:
        """Ends a transaction."""
        if word.letter == BY_ERROR:
            owner.end, owner.code, owner.by = "refused", word.number, entry.line
            if word.number == TIMED_OUT:
                owner.end = "timed out"
        elif word.letter not in ANSWERED:
            owner.end, owner.by = ENDS[word.letter], word.number or entry.line

    def remove_late_packet(self, line: int) -> None:
        """Removes the last input, a continuation packet that came after the timeout of its message."""
        entry = self.input
        if entry is None or entry.line != line or entry.transaction is None:
            return
        if entry.part == "more":
            entry.transaction.remove_last()
            entry.transaction.times.pop()
        entry.part, entry.transaction = "stray", None
