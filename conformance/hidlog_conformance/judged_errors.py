"""Checks the key's ERRORs in a recorded log: the message that each ERROR refuses, and the ERROR's code."""

from __future__ import annotations

from typing import TYPE_CHECKING, Optional, Tuple

from hidlog_conformance import hid_packets as hid
from hidlog_conformance import rules
from hidlog_conformance.answers import CAPABILITY_NMSG, CAPABILITY_WINK
from hidlog_conformance.judged_log import SHOULD, make_difference
from hidlog_conformance.judged_statuses import JITTER_MS
from hidlog_conformance.text import quantity
from hidlog_conformance.transactions import BUSY, INVALID_CHANNEL, INVALID_COMMAND, NO_TIME_OUT, TIMED_OUT
from hidlog_conformance.transactions import Entry, Transaction

if TYPE_CHECKING:
    from hidlog_conformance.judged_key import KeyJudge

OTHER_ERROR = 0x7F
# The maximum number of seconds of a lock.
MAX_LOCK = 10
SERVED = (hid.PING, hid.MSG, hid.LOCK, hid.INIT, hid.WINK, hid.CBOR)
# Optional commands.
OPTIONAL = (hid.MSG, hid.LOCK, hid.WINK)


class ErrorJudge:
    """Checks a key's ERRORs."""

    def __init__(self, key: "KeyJudge") -> None:
        self.key = key
        # The channel that has the lock; the time until which it certainly has the lock, and until which it may have it.
        self.locked: Tuple[int, int, int] = (0, 0, 0)
        self.was_locked = False

    def check_error(self, entry: Entry, message: Optional[hid.Message]) -> None:
        """Checks an ERROR."""
        code, transaction = entry.packet[7], entry.transaction
        if message is not None and not message.problem and len(message.data) != 1:
            self.key.add_finding(entry.line, rules.ERROR, "an ERROR of one byte", quantity(len(message.data), "byte"))
        if transaction is None:
            self.check_stray_error(entry)
            return
        if transaction.cancelled is not None and transaction.whole and transaction.command == hid.CBOR:
            self.key.add_finding(
                entry.line, rules.CANCEL, "status 2d, since the request was cancelled", f"ERROR {code:02x}"
            )
            return
        may_be_busy = self.key.lacks_start and not self.key.answered_request and transaction.command != hid.INIT
        if code == BUSY and may_be_busy:
            # A request from before the log may be in progress, perhaps on this channel.
            self.key.unsure.add(entry.packet[:4])
            return
        expected = self.expected_codes(transaction, entry)
        if expected and code not in expected:
            words = "|".join(f"{item:02x}" for item in expected)
            section = rules.CODES.get(f"{expected[0]:02x}", rules.ERROR)
            if expected == (0x03,) and transaction.command == hid.CBOR and transaction.length == 0:
                section = rules.CBOR
            self.key.add_finding(entry.line, section, f"error {words}", f"ERROR {code:02x}")
        elif not expected:
            self.check_refusal(entry, transaction)

    def check_stray_error(self, entry: Entry) -> None:
        """Checks an ERROR that belongs to no message of its channel."""
        last = self.key.last.get(entry.packet[:4])
        if (last is None and self.key.recording.is_single_client) or entry.packet[:4] in self.key.unsure:
            return
        actual = f"ERROR {entry.packet[7]:02x}"
        if last is None:
            if not self.key.is_first and not self.key.is_late_start(entry):
                self.key.add_gap(entry.line, rules.ERROR, "an ERROR for a message of the host", actual)
            elif self.key.open and not self.key.is_first:
                self.key.add_gap(entry.line, rules.BUSY, "an ERROR on the channel of the refused message", actual)
        elif last.packet[4] == 0x80 | hid.CANCEL:
            self.key.add_gap(entry.line, rules.CANCEL, "no response to CANCEL", actual)
        elif last.part == "stray":
            self.key.add_gap(
                entry.line, rules.SEQUENCE, "no response to a continuation packet outside any transaction", actual
            )
        else:
            section = rules.ABORT if self.key.was_aborted(entry) else rules.ERROR
            self.key.add_gap(entry.line, section, "an ERROR for a message of the host", actual)

    def expected_codes(self, owner: Transaction, entry: Entry) -> Tuple[int, ...]:
        """Returns the possible codes for a refused message; empty if the log shows no reason for an ERROR."""
        if owner.channel == 0 or (owner.channel == hid.BROADCAST and owner.command != hid.INIT):
            return (0x0B,)
        before = [one for one in self.key.open if one is not owner and one.line < owner.line]
        own = [one for one in before if one.channel == owner.channel and one.command != hid.INIT]
        others = [one for one in before if one.channel != owner.channel]
        busy: Tuple[int, ...] = (BUSY,) if others or own or self.is_locked_out(owner) else ()
        busy = (*busy, 0x04) if own else busy
        strange = (0x0B,) if owner.channel not in self.key.allocated and owner.channel != hid.BROADCAST else ()
        wrong_length = owner.length > hid.LONGEST or (owner.command == hid.INIT and owner.length != 8)
        if wrong_length or (owner.command == hid.CBOR and owner.length == 0):
            first = (0x03, INVALID_COMMAND) if owner.command not in SERVED else (0x03,)
            return (*first, *strange, *busy)
        if owner.command not in SERVED:
            return (INVALID_COMMAND, *strange, *busy)
        if busy and owner.command != hid.INIT:
            optional = (INVALID_COMMAND,) if owner.command in OPTIONAL else ()
            return (*busy, *strange, *optional, *self.codes_of_unfinished(owner, entry))
        if strange and self.key.is_from_before(owner.channel):
            # The log does not show whether the channel was allocated.
            return strange if entry.packet[7] == INVALID_CHANNEL else self.codes_of_unfinished(owner, entry)
        if strange and owner.command in OPTIONAL:
            return (*strange, INVALID_COMMAND)
        return strange or self.codes_of_unfinished(owner, entry)

    def is_locked_out(self, transaction: Transaction) -> bool:
        """Returns whether another channel may have the lock (11.2.9.2.2)."""
        channel, _, until = self.locked
        has_time = self.key.recording.has_no_timestamps or transaction.began <= until
        return channel != 0 and channel != transaction.channel and has_time

    def check_lock_response(self, entry: Entry, transaction: Transaction, message: hid.Message) -> None:
        """Checks a response to LOCK, and records the lock."""
        if message.data:
            self.key.add_finding(entry.line, rules.LOCK, "a response without data", quantity(len(message.data), "byte"))
        if len(transaction.data) != 1:
            actual = f"a response to {quantity(transaction.length, 'byte')}"
            self.key.add_finding(entry.line, rules.LOCK, "error 03, since the length is not 1", actual)
            return
        seconds = transaction.data[0]
        if seconds > MAX_LOCK:
            actual = f"a lock of {seconds}"
            self.key.add_finding(entry.line, rules.LOCK, f"an error, above {MAX_LOCK} seconds", actual, SHOULD)
        owner, self.was_locked = transaction.channel if seconds else 0, True
        self.locked = (owner, transaction.last + 1000 * seconds - JITTER_MS, entry.at + 1000 * seconds + JITTER_MS)

    def check_lock(self, entry: Entry, transaction: Transaction, name: str) -> None:
        """Checks that no channel is served while another one has the lock. INIT is always answered."""
        channel, until, _ = self.locked
        if not channel or transaction.channel == channel or transaction.command == hid.INIT:
            return
        if not self.key.recording.has_no_timestamps and transaction.began <= until and entry.at <= until:
            self.key.add_finding(entry.line, rules.LOCK, f"error 06, since {channel:08x} has the lock", name)

    def codes_of_unfinished(self, transaction: Transaction, entry: Entry) -> Tuple[int, ...]:
        """Returns the possible codes for an incomplete message: after a wrong sequence number, or a timeout."""
        last = self.key.last.get(entry.packet[:4])
        if transaction.whole:
            return ()
        if last is not None and last.part == "wrong number" and last.transaction is transaction:
            return (0x04, TIMED_OUT)
        if entry.at - transaction.last >= NO_TIME_OUT or self.key.input is None or self.key.input is not last:
            return (TIMED_OUT,)
        return ()

    def check_refusal(self, entry: Entry, transaction: Transaction) -> None:
        """Checks an ERROR for which the log shows no reason."""
        code = entry.packet[7]
        if code == OTHER_ERROR:
            return
        if code == BUSY and (self.key.recording.is_single_client or self.is_locked_out(transaction)):
            return
        if transaction.command == hid.LOCK and code == BUSY and self.was_locked:
            self.key.add_finding(entry.line, rules.LOCK, "a response, since no other channel has the lock", "ERROR 06")
            return
        if transaction.command in (hid.MSG, hid.WINK, hid.LOCK):
            self.check_capability(transaction, code)
            return
        if transaction.command in (hid.PING, hid.INIT, hid.CBOR) and not (self.key.is_first and code == BUSY):
            expected = {hid.PING: "echo", hid.INIT: "init", hid.CBOR: "status"}[transaction.command]
            actual = hid.Message(transaction.channel, hid.ERROR, bytes([code]))
            section = rules.find_violated_section(make_difference(transaction, expected, actual))
            section = rules.LOCK if code == BUSY and self.was_locked else section
            self.key.add_finding(entry.line, section, "a response", f"ERROR {code:02x}")

    def check_capability(self, transaction: Transaction, code: Optional[int]) -> None:
        """Checks that MSG and WINK are supported as INIT's capabilities say. `code` is that of the ERROR, or None for
        another response."""
        capabilities = self.key.capabilities.get(transaction.channel)
        if capabilities is None or transaction.command == hid.LOCK or (code is not None and code != INVALID_COMMAND):
            return
        has_it = (
            bool(capabilities & CAPABILITY_WINK)
            if transaction.command == hid.WINK
            else not capabilities & CAPABILITY_NMSG
        )
        name = hid.NAMES[transaction.command]
        if has_it and code is not None:
            expected = f"{name} supported, by the capabilities {capabilities:02x}"
            self.key.add_finding(transaction.line, rules.OF_COMMAND[transaction.command], expected, f"ERROR {code:02x}")
        elif not has_it and code is None:
            self.key.add_finding(
                transaction.line,
                rules.ERROR,
                f"ERROR 01, by the capabilities {capabilities:02x}",
                f"a response to {name}",
            )
