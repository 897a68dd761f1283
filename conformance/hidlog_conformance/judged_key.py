"""Checks the key's side of a recorded log: packets, channels, order, KEEPALIVEs, ERRORs, missing responses."""

from __future__ import annotations

from typing import Dict, List, Optional, Set, Tuple

from hidlog_conformance import hid_packets as hid
from hidlog_conformance import rules
from hidlog_conformance.answers import CAPABILITY_CBOR, Mismatch, check_init_response, is_valid_keepalive
from hidlog_conformance.judged_answers import AnswerJudge
from hidlog_conformance.judged_errors import SERVED, ErrorJudge
from hidlog_conformance.judged_log import KEY, MUST, SHOULD, SILENCE_MS, JudgedRecording, make_difference, to_message
from hidlog_conformance.judged_missing import MESSAGE_TIMEOUT_MS, MissingJudge
from hidlog_conformance.judged_parts import ExtensionMismatch
from hidlog_conformance.text import quantity
from hidlog_conformance.transactions import CANCELLED, NO_TIME_OUT, Entry, Transaction

# The minimum number of milliseconds between unplugging a key and its next packet: the debounce interval (USB 2.0,
# 7.1.7.3).
MIN_UNPLUGGED_MS = 100
# The maximum number of unfinished transactions, and of unfinished messages of the key, that are tracked. The oldest
# ones are dropped. A device has one at a time.
MAX_OPEN = 64
ZEROS = bytes(64)


class KeyJudge:
    """Checks the key's packets, and its missing responses."""

    def __init__(self, recording: JudgedRecording) -> None:
        self.recording = recording
        self.answers = AnswerJudge(recording)
        self.errors = ErrorJudge(self)
        self.missing = MissingJudge(self)
        self.guest = hid.MessageReassembler()
        self.allocated: Dict[int, int] = {}
        self.capabilities: Dict[int, int] = {}
        self.is_first = True
        # Whether the key responded to CBOR; and INIT responses without the capability CBOR, with their lines.
        self.serves_cbor = False
        self.without_cbor: List[Tuple[int, Transaction, hid.Message]] = []
        # Unfinished transactions, oldest first.
        self.open: List[Transaction] = []
        # The host's last packet by channel.
        self.last: Dict[bytes, Entry] = {}
        self.input: Optional[Entry] = None
        # Packets with a wrong sequence number to which the key has not responded yet, one per message.
        self.wrong: List[Entry] = []
        self.disturbed: Set[int] = set()
        # The first lines of messages with a CANCEL between their packets.
        self.cancelled_inside: Set[int] = set()
        # The last packet of each unfinished message of the key, by channel.
        self.parts: Dict[int, Entry] = {}
        # Channels on which a response may belong to another request than the last one.
        self.unsure: Set[bytes] = set()
        # Whether the log has a power cycle so far, whether the key responded to an INIT and to another request, and the
        # channels on which the key began a message. They show which packets may depend on packets before the log.
        self.was_cycled = self.answered_init = self.answered_request = False
        self.sent_on: Set[bytes] = set()
        # The time of the key's last packet.
        self.sent_at: Optional[int] = None
        # The time of the last KEEPALIVE, by the first line of its unfinished transaction.
        self.last_keepalive: Dict[int, int] = {}

    def add_finding(self, line: int, section: str, expected: str, actual: str, level: str = MUST) -> None:
        """Adds a finding."""
        self.recording.add_finding(line, KEY, section, expected, actual, level)

    def add_gap(self, line: int, section: str, expected: str, actual: str, level: str = MUST, also: str = "") -> None:
        """Adds a finding about missing or misordered packets."""
        self.recording.add_gap(line, KEY, section, expected, actual, level, also)

    def take(self, entry: Entry) -> None:
        """Checks a packet of either side."""
        while self.recording.power_cycles and self.recording.power_cycles[0][0] < entry.line:
            self.power_cycle(self.recording.power_cycles.pop(0)[1])
        if self.open or self.parts:
            self.missing.check_silence(entry.at, entry.line)
        if entry.is_host:
            self.take_input(entry)
        else:
            self.take_sent(entry)

    @property
    def lacks_start(self) -> bool:
        """Whether packets before the beginning of the log may matter: the log begins within a session, and has no power
        cycle so far."""
        return self.recording.begins_within and not self.was_cycled

    def is_from_before(self, channel: int) -> bool:
        """Returns whether a channel may have been allocated before the log began."""
        return self.lacks_start and channel not in self.allocated and channel not in (0, hid.BROADCAST)

    def note_channel(self, channel: bytes) -> None:
        """Processes the key's use of a channel. If the log does not have the channel's allocation, the log begins
        within a session."""
        number = int.from_bytes(channel, "big")
        if number not in self.allocated and number not in (0, hid.BROADCAST):
            self.recording.begins_within = True

    def power_cycle(self, at: int) -> None:
        """Resets the state that a power cycle clears."""
        self.was_cycled = True
        self.forget()
        self.answers.power_cycle(at)

    def forget(self) -> None:
        """Resets the transport state."""
        self.guest, self.open, self.allocated, self.parts = hid.MessageReassembler(), [], {}, {}
        self.unsure = set()
        self.errors.locked = (0, 0, 0)

    def take_input(self, entry: Entry) -> None:
        """Records a packet of the host."""
        if entry.part in ("stray", "cancel") and entry.transaction is None and entry.packet[:4] not in self.last:
            if self.is_from_before(int.from_bytes(entry.packet[:4], "big")):
                # The packet continues or cancels a message from before the log, and the key may still respond to that
                # message.
                self.unsure.add(entry.packet[:4])
        self.last[entry.packet[:4]] = self.input = entry
        if entry.part == "start" and entry.transaction is not None:
            self.open.append(entry.transaction)
            if len(self.open) > MAX_OPEN:
                self.open.pop(0)
            if entry.transaction.is_unknown:
                self.unsure.add(entry.packet[:4])
            if entry.transaction.end not in ("answered", "refused", "timed out"):
                self.answers.take_unanswered(entry.transaction)
        elif entry.part == "wrong number" and entry.transaction is not None:
            if entry.transaction.line not in self.disturbed:
                self.disturbed.add(entry.transaction.line)
                self.wrong.append(entry)
        elif entry.part == "cancel":
            channel = int.from_bytes(entry.packet[:4], "big")
            inside = [one for one in self.open if one.channel == channel and one.lines[-1] > entry.line]
            self.cancelled_inside.update([one.line for one in inside])

    def take_sent(self, entry: Entry) -> None:
        """Checks a packet of the key."""
        if self.wrong:
            self.check_unfinished(entry)
        if (
            self.unsure
            and entry.transaction is not None
            and not entry.transaction.is_unknown
            and entry.part == "answer"
        ):
            self.unsure = {channel for channel in self.unsure if channel != entry.packet[:4]}
        self.check_packet(entry)
        if entry.message is not None and entry.message.lines[-1] == entry.line:
            if entry.message.whole:
                self.check_whole(entry)
            elif entry.transaction is not None:
                self.answers.take_unanswered(entry.transaction)
        self.close(entry)
        self.is_first, self.sent_at = False, entry.at
        if entry.packet[4] & 0x80:
            self.sent_on.add(entry.packet[:4])
        if entry.transaction is not None and entry.part == "answer":
            self.note_channel(entry.packet[:4])
            self.answered_init = self.answered_init or entry.transaction.command == hid.INIT
            self.answered_request = self.answered_request or entry.transaction.command != hid.INIT

    def check_packet(self, entry: Entry) -> None:
        """Checks a packet of the key within its message."""
        packet = entry.packet
        message = self.guest.feed(packet)
        if self.parts or message is None:
            self.keep_part(entry, message is None)
        if message is not None and message.problem:
            channel = int.from_bytes(packet[:4], "big")
            if packet[4] < 0x80 and self.is_from_before(channel) and packet[:4] not in self.sent_on:
                # The packet continues a response that began before the log.
                return
            expected, actual = "the packets of a message in order", message.problem
            self.add_gap(entry.line, rules.PACKETS, expected, actual, MUST, rules.SEQUENCE)
        elif message is not None and message.padding != ZEROS[: len(message.padding)]:
            self.add_finding(entry.line, rules.PACKETS, "zeros as padding", message.padding.hex(), SHOULD)
        if entry.part == "keepalive":
            self.check_keepalive(entry, message)
        elif entry.part == "error":
            self.errors.check_error(entry, message)
        elif packet[4] & 0x80:
            self.check_first_packet(entry)

    def keep_part(self, entry: Entry, is_unfinished: bool) -> None:
        """Records the last packet of the channel's unfinished message, or that the message ended."""
        channel = int.from_bytes(entry.packet[:4], "big")
        self.parts.pop(channel, None)
        if is_unfinished:
            self.parts[channel] = entry
            if len(self.parts) > MAX_OPEN:
                del self.parts[list(self.parts)[0]]

    def close(self, entry: Entry) -> None:
        """Removes transactions that ended before a packet of the key or with it. Transactions that a new message of the
        host ended are kept, since the key may not have received that message yet."""
        for one in self.open:
            if one.by is not None and one.by <= entry.line and not self.is_replaced(one):
                self.open = [
                    other for other in self.open if other.by is None or other.by > entry.line or self.is_replaced(other)
                ]
                break
        ended = entry.transaction
        if ended is not None and ended.by == entry.line:
            self.last_keepalive.pop(ended.line, None)
            self.open = [one for one in self.open if one is not ended]
            if ended.command == hid.INIT and ended.channel != hid.BROADCAST:
                self.close_channel(ended)

    def close_channel(self, init: Transaction) -> None:
        """Ends the transactions on a channel at an INIT, unless the INIT failed."""
        if init.end == "answered":
            self.open = [one for one in self.open if one.channel != init.channel]
        else:
            self.unsure.add(init.channel.to_bytes(4, "big"))

    def is_replaced(self, transaction: Transaction) -> bool:
        """Returns whether another message of the host ended a transaction."""
        return transaction.end == "replaced" or (
            transaction.end == "dropped" and transaction.by != transaction.cancelled
        )

    def check_keepalive(self, entry: Entry, message: Optional[hid.Message]) -> None:
        """Checks a KEEPALIVE."""
        data = message.data if message is not None else entry.packet[7:]
        if entry.transaction is not None:
            self.last_keepalive[entry.transaction.line] = entry.at
        if not is_valid_keepalive(data):
            expected = "a KEEPALIVE of one byte, 01 or 02, for a request"
            self.add_finding(entry.line, rules.KEEPALIVE, expected, f"KEEPALIVE {data[:8].hex()}")
        elif entry.transaction is None:
            self.note_channel(entry.packet[:4])
            if not self.is_late_start(entry) and entry.packet[:4] not in self.unsure:
                section = rules.ABORT if self.was_aborted(entry) else rules.KEEPALIVE
                expected = "a KEEPALIVE of a pending request"
                self.add_gap(entry.line, section, expected, "no request is pending on this channel")
        elif entry.transaction.command == hid.CBOR:
            if entry.transaction.cancelled is not None:
                self.check_cancelled_on(entry, entry.transaction)
            if data == b"\2" and not self.recording.is_cut(entry.transaction):
                self.answers.check_touch_request(entry, entry.transaction)

    def was_aborted(self, entry: Entry) -> bool:
        """Returns whether INIT ended the channel's last transaction."""
        last = self.last.get(entry.packet[:4])
        return last is not None and last.packet[4] == 0x80 | hid.INIT and last.packet[:4] != b"\xff" * 4

    def check_cancelled_on(self, entry: Entry, transaction: Transaction) -> None:
        """Checks that a cancelled request ends."""
        if transaction.cancelled is None or self.recording.was_unread(entry.line):
            return
        if entry.at - transaction.cancelled_at >= SILENCE_MS and transaction.cancelled < entry.line:
            self.add_finding(entry.line, rules.CANCEL, "status 2d, since CANCEL came", "KEEPALIVEs go on")

    def is_late_start(self, entry: Entry) -> bool:
        """Returns whether the log may have begun within the channel's transaction."""
        return entry.packet[:4] not in self.last

    def check_first_packet(self, entry: Entry) -> None:
        """Checks the first packet of a response: that it belongs to a request, and that no other request was first."""
        transaction, command = entry.transaction, entry.packet[4] & 0x7F
        name = hid.NAMES.get(command, f"command {command:02x}")
        if transaction is None:
            self.check_unrequested(entry, command, name)
            return
        self.check_gap(entry, transaction)
        self.errors.check_lock(entry, transaction, name)
        if transaction.channel == 0 or (transaction.channel == hid.BROADCAST and command != hid.INIT):
            self.add_finding(entry.line, rules.CHANNELS, "error 0b", f"{name} on a reserved channel")
        if transaction.command not in SERVED and transaction.command < 0x40:
            self.add_finding(entry.line, rules.ERROR, "error 01", name)
        before = [
            element
            for element in self.open
            if element.line < transaction.line and element.channel != transaction.channel
        ]
        before = [item for item in before if item.command != hid.INIT and self.is_waiting(item, transaction, entry)]
        if before and command != hid.INIT:
            self.add_finding(
                entry.line, rules.BUSY, f"error 06, since the transaction of line {before[0].line} is in progress", name
            )

    def check_gap(self, entry: Entry, transaction: Transaction) -> None:
        """Checks that a message whose packets came too slowly timed out."""
        gaps = [after - before for before, after in zip(transaction.times, transaction.times[1:])]
        if gaps and max(gaps) >= MESSAGE_TIMEOUT_MS:
            self.add_finding(entry.line, rules.TIMEOUT, "error 05, since the message timed out", "a response", SHOULD)

    def is_waiting(self, item: Transaction, other: Transaction, entry: Entry) -> bool:
        """Returns whether `item` was still in progress while `other` was processed."""
        if item.by is not None and item.by < entry.line:
            return False
        if item.whole and item.lines[-1] < other.line:
            return item.end in ("answered", "timed out")
        # An incomplete message is in progress until it may time out.
        before = [at for line, at in zip(item.lines, item.times) if line < other.line]
        return bool(before) and other.began - before[-1] < NO_TIME_OUT

    def check_unrequested(self, entry: Entry, command: int, name: str) -> None:
        """Checks a message that belongs to no request."""
        last = self.last.get(entry.packet[:4])
        if (last is None and self.is_first) or entry.line in self.recording.cut or entry.packet[:4] in self.unsure:
            return
        if entry.packet[:4] == b"\xff" * 4 and command != hid.INIT:
            self.add_finding(
                entry.line, rules.CHANNELS, "a response on the channel that asked", f"{name} on the broadcast channel"
            )
            return
        if self.recording.is_single_client and (last is None or command == hid.INIT):
            return
        if command == hid.INIT and self.lacks_start and not self.answered_init:
            # The message responds to an INIT from before the log.
            return
        if command == hid.INIT:
            waiting = [item for item in self.open if item.command == hid.INIT]
            actual = f"nonce {entry.packet[7:15].hex()} on {entry.packet[:4].hex()}"
            self.add_gap(entry.line, rules.INIT, self.expected_init(waiting), actual)
            return
        on_channel = [each for each in self.open if each.channel.to_bytes(4, "big") == entry.packet[:4]]
        if on_channel and on_channel[-1].whole:
            held = on_channel[-1]
            self.add_gap(
                entry.line, rules.OF_COMMAND.get(held.command, rules.ERROR), "a response of the same command", name
            )
        elif on_channel:
            self.add_gap(entry.line, rules.SEQUENCE, "no response before the message is complete", name)
        elif self.was_aborted(entry):
            self.add_gap(entry.line, rules.ABORT, "no response to what INIT aborted", name)
        elif last is not None and last.packet[4] == 0x80 | hid.CANCEL:
            self.add_gap(entry.line, rules.CANCEL, "no response to CANCEL", name)
        elif last is not None and last.part == "stray":
            expected = "no response to a continuation packet outside any transaction"
            self.add_gap(entry.line, rules.SEQUENCE, expected, name)
        elif last is None and any(element.command == command and element.whole for element in self.open):
            actual = f"{name} on {entry.packet[:4].hex()}"
            self.add_gap(entry.line, rules.CHANNELS, "a response on the channel that asked", actual)
        elif last is not None:
            self.add_gap(entry.line, rules.OF_COMMAND.get(command, rules.ERROR), "a response to a request", name)

    def expected_init(self, waiting: List[Transaction]) -> str:
        """Returns the expected INIT response."""
        if not waiting:
            return "no response, since no INIT is pending"
        return f"init nonce {waiting[-1].data.hex()} on {waiting[-1].channel:08x}"

    def check_whole(self, entry: Entry) -> None:
        """Checks a complete response."""
        assert entry.message is not None
        transaction, message = entry.transaction, to_message(entry.message)
        if transaction is None:
            return
        if message.command == hid.CBOR and not self.serves_cbor:
            self.serves_cbor = True
            self.check_without_cbor()
        if self.recording.is_cut(entry.message, transaction):
            self.answers.take_unreadable(transaction)
            return
        try:
            if message.command == hid.INIT:
                self.check_init_response(entry, transaction, message)
            elif message.command == hid.PING:
                self.check_echo(transaction, message)
            elif message.command == hid.CBOR:
                self.check_status(entry, transaction, message)
            elif message.command in (hid.MSG, hid.WINK):
                self.errors.check_capability(transaction, None)
                if message.command == hid.MSG:
                    self.answers.take_u2f(transaction, message.data)
            elif message.command == hid.LOCK:
                self.errors.check_lock_response(entry, transaction, message)
        except ExtensionMismatch as differs:
            self.add_finding(
                entry.line, differs.section, differs.expected, differs.actual, MUST if differs.is_sure else SHOULD
            )
        except Mismatch as differs:
            expected = {hid.INIT: "init", hid.MSG: "message"}.get(message.command, "echo")
            self.recording.add_mismatch(make_difference(transaction, expected, message), entry.line, differs)

    def check_init_response(self, entry: Entry, transaction: Transaction, message: hid.Message) -> None:
        """Checks a response to INIT. The capability CBOR may be missing in a U2F-only key."""
        data = message.data
        if len(data) == 17:
            data = data[:16] + bytes([data[16] | CAPABILITY_CBOR])
            if transaction.channel == hid.BROADCAST:
                self.check_restart(entry, int.from_bytes(data[8:12], "big"))
        channel = check_init_response(data, transaction.data, transaction.channel, self.allocated)
        self.allocated[channel] = entry.line
        self.capabilities[channel] = message.data[16]
        if not message.data[16] & CAPABILITY_CBOR:
            self.without_cbor.append((entry.line, transaction, message))
            self.check_without_cbor()

    def check_restart(self, entry: Entry, channel: int) -> None:
        """Processes the allocation of a channel: the key may have been plugged in again before it, if it was silent for
        long enough, and certainly was if it had allocated the channel before."""
        away = self.recording.has_no_timestamps or self.sent_at is None or entry.at - self.sent_at >= MIN_UNPLUGGED_MS
        if away and channel in self.allocated:
            self.forget()
            self.answers.restart(entry.at, True)
        elif away:
            self.answers.restart(entry.at, False)

    def check_without_cbor(self) -> None:
        """Checks earlier INIT responses without the capability CBOR, once a CBOR request was answered."""
        for line, transaction, message in self.without_cbor if self.serves_cbor else []:
            actual = Mismatch("the capability CBOR", f"capabilities {message.data[16]:02x}")
            self.recording.add_mismatch(make_difference(transaction, "init", message), line, actual)
        self.without_cbor = [] if self.serves_cbor else self.without_cbor

    def check_echo(self, transaction: Transaction, message: hid.Message) -> None:
        """Checks that a PING's response has the same bytes."""
        if message.data != transaction.data:
            raise Mismatch(
                f"the {quantity(transaction.length, 'byte')} of the PING",
                f"{quantity(len(message.data), 'byte')}: {message.describe()}",
            )

    def check_status(self, entry: Entry, transaction: Transaction, message: hid.Message) -> None:
        """Checks a response to CBOR, also after CANCEL."""
        if not message.data:
            self.add_finding(entry.line, rules.CBOR, "a status", "an empty message")
        elif not transaction.data:
            if message.data[0] == 0:
                self.add_finding(entry.line, rules.CBOR, "an error, since the message is empty", "response 00")
        elif message.data[0] == CANCELLED and transaction.cancelled is None and not self.recording.is_single_client:
            self.add_finding(
                entry.line, rules.CANCEL, "no status 2d, since no CANCEL came on this channel", "response 2d"
            )
        elif transaction.cancelled is not None and len(message.data) == 1 and message.data[0] != CANCELLED:
            # CANCEL may come while another response is being sent.
            level = MUST if message.data == b"\0" and transaction.data[0] in (1, 2, 8) else SHOULD
            self.add_finding(
                entry.line,
                rules.CANCEL,
                "status 2d, since the request was cancelled",
                f"response {message.data.hex()}",
                level,
            )
        else:
            self.answers.judge(entry, transaction, message)

    def finish(self) -> None:
        """Finds responses that are missing at the end of the log."""
        self.missing.check_silence(self.recording.walk.now, self.recording.lines + 1)
        self.check_unfinished(None)

    def check_unfinished(self, entry: Optional[Entry]) -> None:
        """Checks that the key responded to packets with a wrong sequence number, at its next packet or the log's
        end."""
        for wrong in self.wrong:
            owner, late = wrong.transaction, self.recording.walk.now - wrong.at >= SILENCE_MS
            if owner is None or (entry is None and not late):
                continue
            if owner.code != 0x04 and owner.end not in ("refused", "timed out") and not owner.is_unknown:
                self.add_gap(wrong.line, rules.SEQUENCE, "error 04", "nothing")
        self.wrong = []
