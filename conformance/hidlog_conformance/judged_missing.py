"""Finds the responses, and the rest of responses, that are missing in a recorded log."""

from __future__ import annotations

from typing import TYPE_CHECKING, Set, Tuple

from hidlog_conformance import hid_packets as hid
from hidlog_conformance import rules
from hidlog_conformance.judged_errors import SERVED
from hidlog_conformance.judged_log import MUST, SHOULD, SILENCE_MS
from hidlog_conformance.text import quantity
from hidlog_conformance.transactions import Transaction

if TYPE_CHECKING:
    from hidlog_conformance.judged_key import KeyJudge

# Milliseconds after which an incomplete message should have timed out.
MESSAGE_TIMEOUT_MS = 3000


class MissingJudge:
    """Finds missing packets of a key."""

    def __init__(self, key: "KeyJudge") -> None:
        self.key = key
        # The first lines of messages whose response is missing.
        self.missed: Set[int] = set()

    def check_silence(self, now: int, line: int) -> None:
        """Finds responses that are missing at a time."""
        if self.key.parts:
            self.check_parts(now, line)
        for owner in self.key.open:
            elapsed = now - owner.times[-1]
            if elapsed < SILENCE_MS or owner.line in self.missed:
                continue
            is_due = owner.whole or owner.length > hid.LONGEST
            if is_due and self.is_silent(owner, now, line):
                self.missed.add(owner.line)
                self.report_missing(owner)
            elif not is_due and owner.by is None and elapsed >= MESSAGE_TIMEOUT_MS:
                self.missed.add(owner.line)
                self.key.add_finding(
                    owner.lines[-1], rules.TIMEOUT, "error 05, since the message timed out", "nothing", SHOULD
                )

    def check_parts(self, now: int, line: int) -> None:
        """Finds messages of the key that are incomplete at a time."""
        for channel, entry in list(self.key.parts.items()):
            if now - entry.at >= SILENCE_MS and not self.key.recording.was_unread(line):
                part = self.key.guest.open.get(channel)
                left = part.length - len(part.data) if part is not None else 0
                expected = f"the other {quantity(left, 'byte')} of the message"
                if entry.message is None or entry.message.lines[-1] <= entry.line:
                    self.key.add_gap(entry.line, rules.PACKETS, expected, "nothing", MUST, rules.SEQUENCE)
                del self.key.parts[channel]

    def is_silent(self, owner: Transaction, now: int, line: int) -> bool:
        """Returns whether a complete message got no response for a while."""
        if now - owner.last < SILENCE_MS or owner.end == "replaced" or owner.is_unknown:
            return False
        if (owner.by is not None and owner.by < line) or self.key.recording.was_unread(line):
            return False
        last = self.key.last_keepalive.get(owner.line, owner.last)
        return now - last >= SILENCE_MS

    def report_missing(self, owner: Transaction) -> None:
        """Adds a finding about a missing response."""
        section, expected, level = self.missing_response(owner)
        # If the response comes late, only KEEPALIVEs are missing, since the standard sets no time limit.
        level = SHOULD if owner.end in ("answered", "refused", "timed out") else level
        self.key.add_gap(owner.lines[-1], section, expected, "nothing", level)

    def missing_response(self, owner: Transaction) -> Tuple[str, str, str]:
        """Returns the section about a missing response, the expected response, and the level."""
        others = [one for one in self.key.open if one is not owner and one.line < owner.line]
        others = [one for one in others if one.channel != owner.channel and one.command != hid.INIT]
        if owner.channel in (0, hid.BROADCAST) and owner.command != hid.INIT:
            return rules.CHANNELS, "error 0b", MUST
        if owner.length > hid.LONGEST:
            return rules.PACKETS, "error 03", MUST
        if owner.line in self.key.cancelled_inside:
            return rules.CANCEL, "a response, since CANCEL does not abort an incomplete message", MUST
        if owner.command == hid.INIT:
            return rules.INIT if owner.length == 8 else rules.PACKETS, "a response to INIT", MUST
        if owner.command not in SERVED:
            return rules.ERROR, "error 01", MUST
        if others:
            return rules.BUSY, f"error 06, since the transaction of line {others[0].line} is in progress", MUST
        if self.key.allocated and owner.channel not in self.key.allocated:
            return rules.CHANNELS, "error 0b, or a response", MUST
        if owner.cancelled is not None:
            return rules.CANCEL, "status 2d, since CANCEL came", MUST
        if owner.command in (hid.CBOR, hid.MSG) and owner.length:
            return rules.KEEPALIVE, "a response, or a KEEPALIVE every 100 ms", SHOULD
        return rules.OF_COMMAND.get(owner.command, rules.ERROR), "a response", MUST
