"""Checks a recorded log against the rules of CTAP 2.1 for the key and for the host.

The runner plays test cases; this checks a session of any key and client. It does not check anything that packets do not
show: what the user did, what the key stored before the log began, and encrypted data.
"""

from __future__ import annotations

import re
from dataclasses import dataclass
from typing import TYPE_CHECKING, Callable, Dict, Iterable, List, Optional, Set, Tuple

from hidlog_conformance import hid_packets as hid
from hidlog_conformance import rules
from hidlog_conformance.answers import Mismatch
from hidlog_conformance.hid_packets import Message
from hidlog_conformance.rules import SECTIONS
from hidlog_conformance.transactions import Answer, Entry, Lines, Owners, Part, Transaction, Transactions

if TYPE_CHECKING:
    from hidlog_conformance.judged_host import HostJudge
    from hidlog_conformance.judged_key import KeyJudge

TITLES = {title.split(" ")[0]: "CTAP 2.1, " + title for title in SECTIONS.values()}
KEY, HOST = "key", "host"
MUST, SHOULD = "must", "should"
# Milliseconds of silence after which a response, or the rest of a response, is missing. KEEPALIVEs come every 100 ms.
SILENCE_MS = 1000
POWER_CYCLE = b"# power cycle"
TRUNCATED = b"# note: the capture is truncated in its last record"
# Recorders' notes about missing packets; logs of version 1.0 have "it was passed over".
LOST = (b"the recorder lost ", b"it was passed over", b"skipped a", b": skipped", b"is left out: ")
# Each comment that is not ignored contains one of these words.
COMMENTS = (
    b"nobody read it",
    b"one client alone",
    b"# note: ",
    b"# moment ",
    b"# imported ",
    b"# cut to ",
    POWER_CYCLE,
)
_CUT = re.compile(rb"# cut to \d+ bytes: ([<>]) (\d{1,20}) ((?:[0-9a-f]{2}){8,63})")


@dataclass
class Finding:
    """A violated rule: its line and side, and the expected and the actual packet."""

    line: int
    side: str
    level: str
    section: str
    expected: str
    actual: str
    # Another section with the same rule, for rules about encodings or sequence numbers.
    also: str = ""

    @property
    def rule(self) -> str:
        """The title of the section, and that of another section with the same rule."""
        title = TITLES.get(self.section, f"CTAP 2.1, {self.section}")
        return title + (f"; also {TITLES[self.also].partition(', ')[2]}" if self.also else "")

    @property
    def sections(self) -> Tuple[str, ...]:
        """The violated sections."""
        return (self.section, self.also) if self.also else (self.section,)


class JudgedRecording:
    """A log that is being checked line by line: its state, and the findings so far."""

    def __init__(self) -> None:
        self.walk = Transactions()
        self.findings: List[Finding] = []
        self.found: Set[Tuple[int, str, str]] = set()
        # Lines before which no program had read from the key, according to the recorder.
        self.unread: List[int] = []
        # The line and time of each power cycle that is not processed yet.
        self.power_cycles: List[Tuple[int, int]] = []
        # Whether the log has neither timestamps nor KEEPALIVEs, since it was made from a client's debug output.
        self.has_no_timestamps = False
        # Whether the log has the packets of only one client.
        self.is_single_client = False
        # Whether the log was imported from a capture, whether the capture is truncated, and whether the recorder lost
        # packets.
        self.is_imported = False
        self.is_truncated = False
        self.has_lost = False
        # The first line that does not continue the packets before it.
        self.gap: Optional[int] = None
        # Lines of truncated packets.
        self.cut: Set[int] = set()
        self.start: Optional[int] = None
        self.lines = 0
        # Whether the log begins within a session, so that it lacks packets: its first packet is not an INIT request on
        # the broadcast channel.
        self.begins_within = False

    def take(self, number: int, line: bytes, owners: Owners) -> None:
        """Processes a line."""
        kind, walk = line[:1], self.walk
        if kind == b"<":
            if not walk.packets:
                self.begins_within = True
            walk.handle_device_packet(number, bytes.fromhex(line[2:].decode()), owners.of(number))
        elif kind == b">":
            moment, _, digits = line[2:].partition(b" ")
            packet = bytes.fromhex(digits.decode())
            if not walk.packets and not is_first_init(packet):
                self.begins_within = True
            walk.handle_host_packet(number, int(moment), packet, owners.of(number))
        elif kind == b"#":
            self.take_comment(number, line, owners)
            return
        elif kind in (b"t", b"p", b"k", b"s"):
            walk.advance_time(int(line[2:].partition(b" ")[0]))
            words = owners.ends(number)
            if words:
                walk.handle_reply(number, words)
        else:
            return
        if self.start is None:
            self.start = walk.now

    def take_comment(self, number: int, line: bytes, owners: Owners) -> None:
        """Processes a comment: recorders' notes on the log."""
        if b"nobody read it" in line:
            self.unread.append(number)
        if line.startswith(b"# moment 0 is made up"):
            self.has_no_timestamps = True
        if b"one client alone" in line:
            self.is_single_client = True
        if line.startswith(b"# imported from "):
            self.is_imported = True
        if line == TRUNCATED:
            self.is_truncated = True
        if line.startswith(b"# note: ") and any(word in line for word in LOST):
            self.has_lost = True
        found = _CUT.fullmatch(line)
        if found:
            self.take_cut(number, found[1] == b">", int(found[2]), pad_packet(found[3]), owners)
        if line == POWER_CYCLE:
            self.power_cycles.append((number, self.walk.now))
            self.walk.restart()

    def take_cut(self, number: int, is_host: bool, at: int, packet: bytes, owners: Owners) -> None:
        """Processes a truncated packet, whose header alone is known."""
        self.cut.add(number)
        self.begins_within = self.begins_within or (not self.walk.packets and not (is_host and is_first_init(packet)))
        if is_host:
            self.walk.handle_host_packet(number, at, packet, owners.of(number))
            return
        self.walk.advance_time(at)
        self.walk.handle_device_packet(number, packet, owners.of(number))

    def is_cut(self, *parts: Optional[Part]) -> bool:
        """Returns whether a packet of these messages is truncated."""
        if not self.cut:
            return False
        return any(part is not None and any(line in self.cut for line in part.lines) for part in parts)

    def add_finding(
        self, line: int, side: str, section: str, expected: str, actual: str, level: str = MUST, also: str = ""
    ) -> None:
        """Adds a finding, once per line and rule."""
        if (line, side, section) not in self.found:
            self.found.add((line, side, section))
            self.findings.append(Finding(line, side, level, section, expected, actual, also if also != section else ""))

    def add_gap(
        self, line: int, side: str, section: str, expected: str, actual: str, level: str = MUST, also: str = ""
    ) -> None:
        """Adds a finding about missing or misordered packets: a SHOULD violation if the recorder may have lost them.
        The debug output of a client has all packets that it sent, but may lack packets that it received."""
        lost = self.has_lost or (self.is_single_client and side == KEY)
        self.gap = line if self.gap is None else self.gap
        self.add_finding(line, side, section, expected, actual, SHOULD if lost else level, also)

    def add_mismatch(self, difference: rules.Difference, line: int, differs: Mismatch, level: str = MUST) -> None:
        """Adds a finding for a `Mismatch`, under the rule that the conformance tests name for it."""
        encoding = "canonical CBOR" in differs.expected or differs.expected == "a map"
        self.add_finding(
            line,
            KEY,
            rules.find_violated_section(difference),
            differs.expected,
            differs.actual,
            level,
            "8" if encoding else "",
        )

    def was_unread(self, line: int) -> bool:
        """Returns whether a packet may be late because no program had read from the key before."""
        return bool(self.unread) and self.unread[0] < line


def is_first_init(packet: bytes) -> bool:
    """Returns whether a host's packet is an INIT request on the broadcast channel, with which sessions begin."""
    return packet[:5] == b"\xff" * 4 + bytes([0x80 | hid.INIT])


def pad_packet(digits: bytes) -> bytes:
    """Returns the packet that begins with these digits, padded with zeros."""
    return bytes.fromhex(digits.decode()).ljust(64, b"\0")


def to_message(answer: Answer) -> Message:
    """Returns a device's message, without its lines."""
    return Message(answer.channel, answer.command, answer.data, padding=answer.padding)


def find_section(transaction: Transaction) -> str:
    """Returns the section about a host's request."""
    if transaction.command == hid.CBOR:
        return rules.COMMANDS.get(transaction.data[0], rules.COMMANDS_OTHER) if transaction.data else rules.CBOR
    return rules.OF_COMMAND.get(transaction.command, rules.ERROR)


def make_difference(
    transaction: Optional[Transaction], expected: str, actual: Optional[Message], own: str = "", partial: bool = False
) -> rules.Difference:
    """Returns the difference between an expectation and a response to a transaction."""
    request = transaction.data if transaction is not None and transaction.command == hid.CBOR else b""
    section = own or (find_section(transaction) if transaction is not None else rules.PACKETS)
    cancelled = transaction is not None and transaction.cancelled is not None
    return rules.Difference(section, expected, actual, partial, request, cancelled)


def pad_truncated_packets(log: bytes) -> bytes:
    """Returns a log as `hidlog_transactions` reads it, with the same line numbers: truncated packets are padded."""
    if b"# cut to " not in log:
        return log
    return b"\n".join([pad_line(line) for line in log.split(b"\n")])


def pad_line(line: bytes) -> bytes:
    """Returns the padded packet's line for a comment with a truncated packet, or the line unchanged."""
    found = _CUT.fullmatch(line)
    if not found:
        return line
    digits = pad_packet(found[3]).hex().encode()
    return b"> " + found[2] + b" " + digits if found[1] == b">" else b"< " + digits


def judge(log: bytes, walk: Callable[[bytes], bytes]) -> JudgedRecording:
    """Checks a log. `walk` returns the output of `hidlog_transactions`, and raises an exception at an invalid line."""
    return judge_parts([log], walk)


def judge_parts(
    parts: Iterable[bytes],
    walk: Callable[[bytes], bytes],
    prepare: Optional[Callable[[List[Entry]], None]] = None,
) -> JudgedRecording:
    """Checks a log in parts, between which no transaction is open. `prepare` is called with packets some time before
    they are checked."""
    judged = LogJudge(prepare)
    for part in (piece for whole in parts for piece in split_at_power_cycles(whole)):
        judged.take_part(part, Owners(walk(pad_truncated_packets(part)), judged.recording.lines))
    return judged.finish()


class LogJudge:
    """Checks the packets of a log, once no later line can belong to them."""

    def __init__(self, prepare: Optional[Callable[[List[Entry]], None]] = None) -> None:
        # Imported here, since these modules import this one.
        from hidlog_conformance.judged_host import HostJudge
        from hidlog_conformance.judged_key import KeyJudge

        self.recording = JudgedRecording()
        self.host, self.key = HostJudge(self.recording), KeyJudge(self.recording)
        self.prepare = prepare
        # Packets that are checked after the next ones are passed to `prepare`.
        self.waiting: List[Entry] = []

    def take_part(self, part: bytes, owners: Owners) -> None:
        """Processes the next lines."""
        recording, number, lines = self.recording, self.recording.lines, Lines(part)
        walk = recording.walk
        has_comments = any(word in part for word in COMMENTS)
        block = lines.block()
        while block:
            for number, line in enumerate(block, number + 1):
                if line[:1] == b"#":
                    if not has_comments:
                        continue
                    # The comment may change how later packets are checked.
                    self.check_settled()
                recording.take(number, line, owners)
                if line[:1] == b"<" and not walk.open and not walk.answering:
                    walk.settled = len(walk.entries)
            self.advance()
            block = lines.block()
        recording.lines = number

    def advance(self) -> None:
        """Passes the new packets to `prepare`, and checks those before them."""
        settled = self.recording.walk.take_settled()
        if self.prepare is not None:
            self.prepare(settled)
        check_entries(self.waiting, self.host, self.key)
        self.waiting = settled

    def check_settled(self) -> None:
        """Checks all packets to which no later line can belong."""
        check_entries(self.waiting, self.host, self.key)
        check_entries(self.recording.walk.take_settled(), self.host, self.key)
        self.waiting = []

    def finish(self) -> JudgedRecording:
        """Checks the remaining packets, and returns the recording with its findings in order."""
        check_entries(self.waiting, self.host, self.key)
        check_entries(self.recording.walk.take_entries(), self.host, self.key)
        self.key.finish()
        self.recording.findings.sort(key=lambda found: (found.line, found.side, found.section))
        return self.recording


def check_entries(entries: List[Entry], host: "HostJudge", key: "KeyJudge") -> None:
    """Checks the packets of finished transactions."""
    for entry in entries:
        host.take(entry)
        key.take(entry)


def split_at_power_cycles(log: bytes) -> List[bytes]:
    """Splits a log at its power cycles; each part but the first begins with the comment."""
    if POWER_CYCLE not in log:
        return [log]
    parts: List[List[bytes]] = [[]]
    for line in log.split(b"\n"):
        if line == POWER_CYCLE:
            parts.append([])
        parts[-1].append(line)
    return [b"\n".join(part) for part in parts]


def count_violations(findings: List[Finding]) -> Dict[str, int]:
    """Returns the number of MUST and SHOULD violations."""
    return {level: sum(finding.level == level for finding in findings) for level in (MUST, SHOULD)}
