"""Checks the log of a test run line by line while it runs, by the rules of `hidlog judge`.

It finds more than that command, since only the test runner uses the device: the log shows the device's state, also
after power cycles, and the request of each response, since the runner sends one request at a time on each channel.
"""

from __future__ import annotations

from typing import Dict, List, Optional

from hidlog_conformance import hid_packets as hid
from hidlog_conformance.judged_host import HostJudge
from hidlog_conformance.judged_key import KeyJudge
from hidlog_conformance.judged_log import MUST, POWER_CYCLE, Finding, JudgedRecording, check_entries
from hidlog_conformance.known_answers import KnownAnswers
from hidlog_conformance.platform_side import FilledValues, Platform
from hidlog_conformance.transactions import BY_ERROR, Ending, OwnerRow, Owners

ANSWERED = ord("s")


class SentOwners(Owners):
    """The transactions of a log's lines, for a host that sends one request at a time on each channel."""

    def __init__(self) -> None:
        super().__init__(b"")
        self.now = OwnerRow()
        # By channel: the line of the open request, and of the response that is coming. By nonce: the line of INIT.
        self.open: Dict[bytes, int] = {}
        self.answers: Dict[bytes, int] = {}
        self.nonces: Dict[bytes, int] = {}

    def of(self, number: int) -> OwnerRow:
        """Returns the transaction of the last line."""
        return self.now

    def take_line(self, number: int, line: bytes) -> None:
        """Processes a line."""
        self.now = OwnerRow()
        if line == POWER_CYCLE:
            self.open, self.answers, self.nonces = {}, {}, {}
        elif line[:1] == b">":
            self.see_request(number, bytes.fromhex(line.split(b" ")[2].decode()))
        elif line[:1] == b"<":
            self.see_answer(number, bytes.fromhex(line[2:].decode()))

    def see_request(self, number: int, packet: bytes) -> None:
        """Processes a packet of the host."""
        channel = packet[:4]
        if packet[4] == 0x80 | hid.INIT:
            self.nonces[packet[7:15]] = number
        elif packet[4] == 0x80 | hid.CANCEL:
            self.now = OwnerRow(self.open.get(channel, 0))
        elif packet[4] & 0x80:
            self.open[channel] = number
        else:
            self.now = OwnerRow(self.open.get(channel, 0), self.open.get(channel, 0))

    def see_answer(self, number: int, packet: bytes) -> None:
        """Processes a packet of the device."""
        channel, command = packet[:4], packet[4] & 0x7F
        if packet[4] < 0x80:
            self.now = OwnerRow(0, self.answers.get(channel, 0))
        elif command == hid.KEEPALIVE:
            self.now = OwnerRow(self.open.get(channel, 0))
        else:
            line = self.nonces.pop(packet[7:15], 0) if command == hid.INIT else self.open.pop(channel, 0)
            letter = BY_ERROR if command == hid.ERROR else ANSWERED
            self.answers[channel] = number
            self.now = OwnerRow(line, line, [Ending(letter, line, packet[7])] if line else [])


class LiveJudge:
    """Checks the lines of a session as they are written."""

    def __init__(self, platform: Platform) -> None:
        self.recording = JudgedRecording()
        self.owners = SentOwners()
        self.host, self.key = HostJudge(self.recording), KeyJudge(self.recording)
        self.answers = KnownAnswers(self.recording, platform)
        self.key.answers = self.answers
        self.seen = 0

    def record_filled(self, request: bytes, filled: FilledValues) -> None:
        """Records the values of a request's placeholders."""
        if filled != FilledValues():
            self.answers.filled[request] = filled

    def take(self, lines: List[str]) -> None:
        """Processes the lines since the last call."""
        for text in lines[self.seen :]:
            self.seen += 1
            line = text.encode()
            self.owners.take_line(self.seen, line)
            self.recording.take(self.seen, line, self.owners)
            if line[:1] == b"<" and self.recording.walk.is_quiet:
                check_entries(self.recording.walk.take_entries(), self.host, self.key)

    @property
    def violation(self) -> Optional[Finding]:
        """The device's first MUST violation, if any."""
        found = [one for one in self.recording.findings if one.side == "key" and one.level == MUST]
        return found[0] if found else None
