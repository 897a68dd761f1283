"""Checks the host's side of a recorded log: channels, lengths, order, one transaction at a time, and requests."""

from __future__ import annotations

from typing import Dict, Optional, Set

from hidlog_conformance import hid_packets as hid
from hidlog_conformance import rules
from hidlog_conformance.judged_log import HOST, MUST, SHOULD, JudgedRecording, find_section
from hidlog_conformance.text import quantity
from hidlog_conformance.requests import find_fault
from hidlog_conformance.transactions import Entry, Transaction

INVALID_CHANNEL = 0x0B
# The minimum and maximum length of messages of the transport.
LENGTHS = {
    hid.INIT: (8, 8),
    hid.LOCK: (1, 1),
    hid.CANCEL: (0, 0),
    hid.WINK: (0, 0),
    hid.CBOR: (1, hid.LONGEST),
    hid.MSG: (1, hid.LONGEST),
}
SERVED = (hid.PING, hid.MSG, hid.LOCK, hid.INIT, hid.WINK, hid.CBOR, hid.CANCEL)
# Vendor commands (11.2.9.2).
VENDOR = range(0x40, 0x80)


class HostJudge:
    """Checks each packet of hosts."""

    def __init__(self, recording: JudgedRecording) -> None:
        self.recording = recording
        # By channel: the last message, the message in progress, and the last refused message.
        self.begun: Dict[bytes, Transaction] = {}
        self.open: Dict[bytes, Transaction] = {}
        self.refused: Dict[bytes, Transaction] = {}
        self.allocated: Set[bytes] = set()

    def add_finding(self, line: int, section: str, expected: str, actual: str, level: str = MUST) -> None:
        """Adds a finding."""
        self.recording.add_finding(line, HOST, section, expected, actual, level)

    def add_gap(self, line: int, section: str, expected: str, actual: str) -> None:
        """Adds a finding about missing or misordered packets."""
        self.recording.add_gap(line, HOST, section, expected, actual)

    def take(self, entry: Entry) -> None:
        """Processes a packet."""
        channel = entry.packet[:4]
        if not entry.is_host:
            self.take_answer(entry, channel)
        elif entry.packet[4] & 0x80:
            self.take_start(entry, channel)
        elif entry.part in ("stray", "wrong number"):
            self.check_continuation(entry, channel)
        else:
            self.check_message(self.open.get(channel), entry)

    def take_answer(self, entry: Entry, channel: bytes) -> None:
        """Records the end of a transaction."""
        transaction = self.open.get(channel)
        if entry.part == "error" and entry.transaction is not None:
            self.refused[channel] = entry.transaction
            if entry.packet[7] == INVALID_CHANNEL and channel not in self.allocated and channel != b"\xff" * 4:
                expected = "a channel allocated by INIT"
                self.add_finding(entry.transaction.line, rules.CHANNELS, expected, f"channel {channel.hex()}")
        if transaction is not None and transaction.by == entry.line:
            del self.open[channel]
        message = entry.message
        if message is not None and message.command == hid.INIT and len(message.parts[0]) >= 12:
            self.allocated.add(message.parts[0][8:12])

    def take_start(self, entry: Entry, channel: bytes) -> None:
        """Checks an initialization packet."""
        command, length = entry.packet[4] & 0x7F, int.from_bytes(entry.packet[5:7], "big")
        if command == hid.CANCEL:
            if length:
                self.add_finding(entry.line, rules.CANCEL, "a CANCEL without data", quantity(length, "byte"))
            return
        transaction = entry.transaction
        if transaction is None:
            return
        self.begun[channel] = transaction
        self.check_length(entry.line, command, length)
        self.check_channel(entry.line, command, channel)
        before = self.open.get(channel)
        if before is not None and command != hid.INIT:
            self.check_order(before, entry)
        self.open[channel] = transaction
        self.check_message(transaction, entry)

    def check_length(self, line: int, command: int, length: int) -> None:
        """Checks the command of a message and its length."""
        if command not in SERVED and command not in VENDOR:
            name = hid.NAMES.get(command, f"command {command:02x}")
            self.add_finding(line, rules.ERROR, "a command that hosts send", name)
        if length > hid.LONGEST:
            self.add_finding(line, rules.PACKETS, f"a length of at most {hid.LONGEST}", str(length))
            return
        least, most = LENGTHS.get(command, (0, hid.LONGEST))
        if not least <= length <= most:
            expected = f"a length of {least}" if least == most else f"a length of at least {least}"
            self.add_finding(line, rules.OF_COMMAND[command], expected, str(length))

    def check_channel(self, line: int, command: int, channel: bytes) -> None:
        """Checks that no reserved channel is used."""
        if channel == bytes(4) or (channel == b"\xff" * 4 and command != hid.INIT):
            self.add_finding(line, rules.CHANNELS, "a channel allocated by INIT", f"channel {channel.hex()}")

    def check_order(self, before: Transaction, entry: Entry) -> None:
        """Checks that the channel has no other transaction in progress."""
        actual = f"a new message during that of line {before.line}"
        if not before.whole:
            self.add_gap(entry.line, rules.SEQUENCE, f"the other packets of the message of line {before.line}", actual)
        elif entry.at - before.last < 60000:
            self.add_gap(entry.line, rules.BUSY, "a response first, or CANCEL or INIT", actual)

    def check_continuation(self, entry: Entry, channel: bytes) -> None:
        """Checks a continuation packet outside any message. It may be part of a message that was just refused."""
        number = entry.packet[4]
        refused = self.refused.get(channel)
        if refused is not None and not refused.whole and number == refused.next:
            refused.add(entry.packet[5:], entry.line)
            return
        if entry.part == "stray" and self.is_of_earlier_message(channel):
            return
        if entry.part == "stray" and not self.is_after_timeout(channel, number):
            self.add_gap(entry.line, rules.SEQUENCE, "an initialization packet first", f"continuation packet {number}")
        elif entry.transaction is not None:
            expected = f"continuation packet {len(self.list_lines_before(entry)) - 1}"
            self.add_gap(entry.line, rules.SEQUENCE, expected, f"continuation packet {number}")

    def is_of_earlier_message(self, channel: bytes) -> bool:
        """Returns whether a continuation packet may belong to a message that began before the log."""
        return self.recording.begins_within and channel not in self.begun and channel not in self.allocated

    def is_after_timeout(self, channel: bytes, number: int) -> bool:
        """Returns whether a continuation packet belongs to a message that timed out before the host sent the packet."""
        last = self.begun.get(channel)
        return last is not None and last.end == "timed out" and number >= last.next

    def list_lines_before(self, entry: Entry) -> Set[int]:
        """Returns the lines of the packets before an entry in its message."""
        lines = entry.transaction.lines if entry.transaction is not None else []
        return {line for line in lines if line < entry.line}

    def check_message(self, transaction: Optional[Transaction], entry: Entry) -> None:
        """Checks a complete message at its last packet."""
        if transaction is None or not transaction.whole or transaction.lines[-1] != entry.line:
            return
        if self.recording.is_cut(transaction):
            return
        if any(transaction.padding):
            self.add_finding(entry.line, rules.PACKETS, "zeros as padding", "other bytes", SHOULD)
        if transaction.command == hid.CBOR and transaction.data:
            fault = find_fault(transaction.data)
            if fault is not None:
                section = fault.section or find_section(transaction)
                self.add_finding(
                    transaction.line, section, fault.expected, fault.actual, SHOULD if fault.should else MUST
                )
