#!/usr/bin/env python3
"""Replays logs of malformed requests of up to four hosts, and checks the transactions in the output of `show`.

    tests/fuzz/transactions.py [--seed N] [--count N] [--program FILE] [--only NUMBER]

The transaction of each packet comes from a model of the transport (CTAP 2.1, section 11.2), which processes the inputs
and determines for which message the key sends each packet. The model is independent of the program's tracking of
transactions, and stops at a packet that it does not expect. Which reply the key needs (user presence,
a key pair or a signature) is read from the output of `live`. `show --json`, `--summary` and `--explain` must agree.
"""

from __future__ import annotations

import collections
import dataclasses
import json
import os
import re
import subprocess
import sys
from typing import Optional

sys.dont_write_bytecode = True
TOP = os.path.realpath(os.path.join(os.path.dirname(os.path.abspath(__file__)), "..", ".."))
sys.path.insert(0, os.path.join(TOP, "conformance"))

from framing import BROADCAST, KEEPALIVE_MS, MAX_MESSAGE_BYTES, read_continuation_data, read_initialization_data
from hidlog_conformance import ctap_cbor
from malformed_requests import MAKE, RESET, LogGenerator, encode
from runner import check_logs

PING, INIT, CBOR, CANCEL, KEEPALIVE, ERROR = 0x01, 0x06, 0x10, 0x11, 0x3B, 0x3F
STATUS_CREDENTIAL_EXCLUDED = 0x19
INPUTS = (b">", b"t", b"p", b"k", b"s")
REPLIES = {b"presence": b"p", b"key": b"k", b"signature": b"s"}
FIRST_RESPONSE_MEMBERS = {0x01: "fmt", 0x02: "credential", 0x04: "versions", 0x08: "credential"}


class FindingError(Exception):
    """A difference between the program and the model."""


@dataclasses.dataclass
class Transaction:
    """A message of a host, and how it ended."""

    line: int
    channel: int
    command: int
    length: int
    data: bytes
    last: int
    next: int = 0
    end: tuple = ("open",)
    keepalives: int = 0

    @property
    def is_whole(self) -> bool:
        return self.length <= MAX_MESSAGE_BYTES and len(self.data) >= self.length

    @property
    def request(self) -> Optional[int]:
        return self.data[0] if self.command == CBOR and self.length else None


@dataclasses.dataclass
class CreatedCredential:
    """A credential of the key, and the last line of the response that created it."""

    relying_party: str
    user: bytes
    is_discoverable: bool
    name: bytes
    line: int

    def replaces(self, other: "CreatedCredential") -> bool:
        """Returns whether this credential replaces another one: both are discoverable, and belong to the same
        account."""
        same = (self.relying_party, self.user) == (other.relying_party, other.user)
        return same and self.is_discoverable and other.is_discoverable


def read_needs(live: list[bytes]) -> list[bytes]:
    """Returns the letter of the reply that the key needs before each input, according to `live`; empty if none is
    needed."""
    needs = [b""]
    for line in live:
        if line[:1] in INPUTS:
            needs.append(needs[-1])
        elif line.startswith(b"# need "):
            needs[-1] = REPLIES.get(line.split(b" ")[2], b"")
    return needs


def is_sign_in(asked: Transaction) -> bool:
    """Returns whether a request is a sign-in: authenticatorGetAssertion without `up: false` (CTAP 2.1, section 6.2), or
    authenticatorGetNextAssertion."""
    if asked.request != 0x02:
        return asked.request == 0x08
    return ctap_cbor.decode(asked.data[1 : asked.length]).get(5, {}).get("up", True) is True


class TransportModel:
    """A model of the transport, for logs that the key wrote."""

    def __init__(
        self, lines: list[bytes], needs: list[bytes], numbers: Optional[list[int]] = None, until: Optional[int] = None
    ) -> None:
        """Processes the inputs in lines with these numbers, by default from 1 on, up to a number. `needs` are the
        replies needed before each input."""
        self.owners: dict[int, Optional[int]] = {}
        self.transactions: dict[int, Transaction] = {}
        self.allocated = 0
        self.now = 0
        self.open: Optional[Transaction] = None
        self.work: Optional[Transaction] = None
        self.alive = 0
        self.sent: collections.deque[tuple[int, bytes]] = collections.deque()
        self.strays: collections.Counter[str] = collections.Counter()
        self.is_stray = False
        # Why the key sends an ERROR with this code at the last input.
        self.reasons: dict[int, str] = {}
        # The time of the last KEEPALIVE before the input, if any.
        self.alive_before: Optional[int] = None
        self.is_kept_alive = False
        self.answers: dict[int, Optional[Transaction]] = {}
        self.message: tuple[int, bytes] = (0, b"")
        self.told: dict[int, int] = {}
        self.held: list[CreatedCredential] = []
        self.excluded: dict[int, tuple[int, int]] = {}
        inputs = []
        for number, line in zip(numbers or range(1, len(lines) + 1), lines):
            if line[:2] == b"< ":
                inputs[-1][2].append((number, bytes.fromhex(line[2:].decode())))
            elif line[:1] in INPUTS:
                inputs.append((number, line.split(b" "), []))
        for (number, words, sent), need in zip(inputs, needs):
            self.process_input(number, words, need, collections.deque(sent))
            if number == until:
                break

    def process_input(
        self, number: int, words: list[bytes], need: bytes, sent: collections.deque[tuple[int, bytes]]
    ) -> None:
        self.now = max(self.now, int(words[1]))
        self.sent = sent
        self.owners[number] = None
        self.is_stray = False
        self.reasons = {}
        self.alive_before = self.alive if self.is_kept_alive else None
        self.advance_time()
        if words[0] == b">":
            self.handle_packet(number, bytes.fromhex(words[2].decode()))
        elif words[0] != b"t":
            if self.work and words[0] == need:
                self.owners[number] = self.work.line
            else:
                self.strays["replies"] += 1
            self.handle_key_packet()
        if self.sent:
            raise FindingError(f"line {self.sent[0][0]}: unexpected packet")

    # ---- packets of the key

    def take_response(
        self, owner: Optional[Transaction], channel: int, command: int, code: Optional[int] = None
    ) -> bytes:
        """Processes the next message of the key, which must have this channel, command and first byte."""
        if not self.sent:
            raise FindingError(
                f"expected a packet of command {command:02x} (first byte {code}) on channel {channel:08x}, got none"
            )
        number, packet = self.sent.popleft()
        if packet[:5] != channel.to_bytes(4, "big") + bytes([0x80 | command]) or code not in (None, packet[7]):
            raise FindingError(
                f"line {number}: expected command {command:02x} (first byte {code}) on channel {channel:08x}, got "
                f"{packet[:8].hex()}"
            )
        self.owners[number] = owner.line if owner else None
        length = int.from_bytes(packet[5:7], "big")
        self.answers[number] = owner
        # The first line of the last response, by channel.
        self.told.pop(channel, None)
        if command not in (KEEPALIVE, ERROR):
            self.told[channel] = number
        message = packet[7:]
        while len(message) < length:
            number, more = self.sent.popleft()
            self.owners[number] = owner.line if owner else None
            self.answers[number] = owner
            message += more[5:]
        self.message = number, message[:length]
        return packet

    def refuse(self, owner: Transaction, code: int, reason: str) -> None:
        self.reasons[code] = reason
        self.take_response(owner, owner.channel, ERROR, code)
        owner.end = ("error", code)

    def answer(self, owner: Transaction) -> None:
        packet = self.take_response(owner, owner.channel, owner.command)
        owner.end = ("status", packet[7]) if owner.command == CBOR else ("answer",)
        if owner.request == MAKE:
            self.record_credential(owner, *self.message)
        elif owner.request == RESET and packet[7] == 0:
            self.held = []

    # ---- credentials

    def record_credential(self, owner: Transaction, line: int, message: bytes) -> None:
        """Records the credential that a response created, or the excluded credential."""
        if message[0] not in (0, STATUS_CREDENTIAL_EXCLUDED):
            return
        asked = ctap_cbor.decode(owner.data[1:])
        site = asked[2]["id"]
        if message[0] == STATUS_CREDENTIAL_EXCLUDED:
            # An entry with an unknown type matches no credential.
            names = [descriptor["id"] if descriptor["type"] == "public-key" else None for descriptor in asked[5]]
            held = [
                credential for credential in self.held if credential.relying_party == site and credential.name in names
            ]
            if held:
                self.excluded[line] = names.index(held[-1].name), held[-1].line
            return
        data = ctap_cbor.decode(message[1:])[2]
        made = CreatedCredential(
            relying_party=site,
            user=asked[3]["id"],
            is_discoverable=asked.get(7, {}).get("rk", False),
            name=data[55 : 55 + int.from_bytes(data[53:55], "big")],
            line=line,
        )
        self.held = [credential for credential in self.held if not made.replaces(credential)] + [made]

    def handle_key_packet(self) -> None:
        """Processes the key's packets for a request: a KEEPALIVE with a new status, or the response."""
        if self.work and self.sent:
            if self.sent[0][1][4] == 0x80 | KEEPALIVE:
                self.take_keepalive()
            else:
                self.answer(self.work)
                self.work = None

    def take_keepalive(self) -> None:
        assert self.work
        self.take_response(self.work, self.work.channel, KEEPALIVE)
        self.work.keepalives += 1
        self.alive = self.now
        self.is_kept_alive = True

    def advance_time(self) -> None:
        if self.open and self.now - self.open.last >= 500:
            times = f"its last packet came at {self.open.last} ms, 500 ms or more before {self.now} ms"
            self.refuse(self.open, 0x05, f"the message timed out: {times}")
            self.open = None
        elif self.work and self.now - self.alive >= KEEPALIVE_MS:
            self.take_keepalive()

    # ---- packets of hosts

    def handle_packet(self, number: int, packet: bytes) -> None:
        channel = int.from_bytes(packet[:4], "big")
        if packet[4] < 0x80:
            self.handle_continuation(number, channel, packet)
        elif packet[4] == 0x80 | CANCEL:
            self.handle_cancel(number, channel)
        else:
            length = int.from_bytes(packet[5:7], "big")
            begun = Transaction(
                number, channel, packet[4] & 0x7F, length, read_initialization_data(packet, length), self.now
            )
            self.transactions[number] = begun
            self.owners[number] = number
            self.process_message(begun)

    def handle_cancel(self, number: int, channel: int) -> None:
        if self.work and self.work.channel == channel:
            self.owners[number] = self.work.line
            self.answer(self.work)
            self.work = None
        else:
            self.strays["CANCELs"] += 1

    def handle_continuation(self, number: int, channel: int, packet: bytes) -> None:
        message = self.open
        if message is None or message.channel != channel:
            self.strays["continuations"] += 1
            self.is_stray = True
            return
        self.owners[number] = message.line
        if packet[4] != message.next:
            self.refuse(message, 0x04, f"expected sequence number {message.next}, got {packet[4]}")
            self.open = None
            return
        message.next += 1
        message.last = self.now
        message.data += read_continuation_data(packet, message.length - len(message.data))
        if message.is_whole:
            self.open = None
            self.process_complete_message(message)

    def process_message(self, begun: Transaction) -> None:
        """Processes a message, or takes the ERROR that a rule requires. The rules are applied in order."""
        channel, opened, work = begun.channel, self.open, self.work
        is_init = begun.command == INIT
        is_allocated = 1 <= channel <= self.allocated
        if not is_allocated and not (channel == BROADCAST and is_init):
            allocated = f"only channels 1 to {self.allocated} have been allocated"
            self.refuse(begun, 0x0B, allocated if self.allocated else "no channel has been allocated yet")
        elif is_init and begun.length != 8:
            self.refuse(begun, 0x03, f"INIT must have 8 data bytes, not {begun.length}")
            if opened and opened.channel == channel:
                opened.end = ("dropped", begun.line)
                self.open = None
        elif is_init:
            self.respond_to_init(begun)
        elif any(transaction and transaction.channel != channel for transaction in (opened, work)) or work:
            self.refuse(begun, 0x06, "a request is waiting on this channel")
        elif opened:
            began = "a new message began before the open one on its channel was complete"
            self.refuse(begun, 0x04, f"{began}: expected continuation packet {opened.next}")
            opened.end = ("replaced", begun.line)
            self.open = None
        elif begun.command not in (PING, CBOR):
            self.refuse(begun, 0x01, f"CTAPHID command 0x{begun.command:02x} is not supported")
        elif begun.length > MAX_MESSAGE_BYTES or begun.command == CBOR and not begun.length:
            sizes = f"{begun.length} bytes: CBOR has 1 to 7609, PING 0 to 7609"
            self.refuse(begun, 0x03, f"a message of command 0x{begun.command:02x} cannot have {sizes}")
        elif begun.is_whole:
            self.process_complete_message(begun)
        else:
            self.open = begun

    def respond_to_init(self, begun: Transaction) -> None:
        self.answer(begun)
        if begun.channel == BROADCAST:
            self.allocated += 1
            return
        for transaction in (self.open, self.work):
            if transaction and transaction.channel == begun.channel:
                transaction.end = ("dropped", begun.line)
        if self.open and self.open.channel == begun.channel:
            self.open = None
        if self.work and self.work.channel == begun.channel:
            self.work = None

    def process_complete_message(self, message: Transaction) -> None:
        if message.command == CBOR and self.sent and self.sent[0][1][4] == 0x80 | KEEPALIVE:
            self.work = message
            self.take_keepalive()
        else:
            self.answer(message)

    # ---- totals

    def count_totals(self) -> dict[str, int]:
        ends = [(transaction.request, transaction.end) for transaction in self.transactions.values()]
        return {
            "registrations": sum(end == ("status", 0) and request == 0x01 for request, end in ends),
            "assertions": sum(is_sign_in(asked) for asked in self.transactions.values() if asked.end == ("status", 0)),
            "registrations excluded": sum(end == ("status", 0x19) for _, end in ends),
            "requests refused": sum(end[0] == "status" and end[1] != 0 for _, end in ends),
            "transport errors": sum(end[0] == "error" for _, end in ends),
            "unexpected continuation packets": self.strays["continuations"],
            "unexpected CANCELs": self.strays["CANCELs"],
            "unexpected replies": self.strays["replies"],
        }


class HostGenerator(LogGenerator):
    """Generates logs of up to four hosts, with only valid lines."""

    def __init__(self, seed: str) -> None:
        super().__init__(seed)
        self.hosts = self.choose(1, 2, 3, 4)

    def make_host_events(self) -> list[tuple]:
        return (
            self.make_registrations_with_lists(self.choose_channel())
            if self.happens(0.2)
            else super().make_host_events()
        )

    def make_registrations_with_lists(self, channel: int) -> list[tuple]:
        """Returns registrations of up to two users at one RP, followed by registrations with lists of known and unknown
        credentials."""
        site = self.choose(*self.sites)
        events: list[tuple] = []
        makes = self.choose(1, 2, 3, 4)
        for number in range(makes + self.choose(1, 2)):
            user = bytes([self.chance.randrange(2)])
            asked = {1: self.random_bytes(32), 2: {"id": site}, 3: {"id": user}, 7: {"rk": self.happens(0.7)}}
            asked[4] = [{"alg": -7, "type": "public-key"}]
            if number >= makes:
                asked[5] = [
                    {"type": "public-key", "id": self.choose_credential_id(site)} for _ in range(self.choose(1, 2, 3))
                ]
            replies = self.make_presence_reply(), self.make_key_reply(site), self.make_signature_reply()
            events += self.make_request_events(channel, bytes([MAKE]) + encode(asked), *replies)
        return events

    def make_log(self) -> bytes:
        return b"".join(line + b"\n" for line in self.iter_lines())


def check_objects(objects: list[dict], machine: TransportModel) -> None:
    """Compares the objects of `show --json` with the model."""
    ended: dict[int, dict] = {}
    for row in objects:
        kind, line = row["kind"], row.get("line")
        if kind in ("packet", "presence", "key", "signature") and row.get("transaction") != machine.owners[line]:
            raise FindingError(
                f"line {line}: expected transaction {machine.owners[line]}, got {row.get('transaction')}"
            )
        if kind == "answer":
            owner = machine.answers[line]
            if row.get("transaction") != (owner.line if owner else None):
                raise FindingError(
                    f"the response of line {line}: expected transaction {owner and owner.line}, got {row.get('transaction')}"
                )
            if row.get("command") != (owner.request if owner else None):
                raise FindingError(
                    f"the response of line {line}: expected command {owner and owner.request}, got {row.get('command')}"
                )
        if kind == "transaction":
            if row["transaction"] in ended:
                raise FindingError(f"the transaction of line {row['transaction']} ends twice")
            ended[row["transaction"]] = row
    for line, wanted in machine.transactions.items():
        row = ended.pop(line, None)
        if row is None:
            raise FindingError(f"the transaction of line {line} is missing")
        detail = {"status": "status", "error": "code", "dropped": "by", "replaced": "by"}.get(row["end"])
        end = (row["end"], row[detail]) if detail else (row["end"],)
        if end != wanted.end:
            raise FindingError(f"the transaction of line {line} should end with {wanted.end}, but ends with {end}")
        if row["keepalives"] != wanted.keepalives:
            raise FindingError(
                f"the transaction of line {line} should have {wanted.keepalives} KEEPALIVEs, but has {row['keepalives']}"
            )
        if ("came" in row) == wanted.is_whole:
            raise FindingError(f"expected the message of line {line} to be {'' if wanted.is_whole else 'in'}complete")
    if ended:
        raise FindingError(f"no transaction begins at line {min(ended)}")


def check_names(text: str, machine: TransportModel) -> None:
    """Checks the names of members, RP IDs, and excluded credentials."""
    if "  not that of " in text:
        raise FindingError("show reports that an RP ID hash differs, but it does not")
    for found in re.finditer(r"^(\d+)   answer 00 \{.*\n\1     1 (\S+?):", text, re.MULTILINE):
        owner = machine.answers[int(found[1])]
        wanted = FIRST_RESPONSE_MEMBERS.get(owner.request) if owner and owner.request is not None else None
        if found[2] != wanted:
            raise FindingError(f"line {found[1]}: expected the first member {wanted}, got {found[2]}")
    pattern = r"^(\d+)   excludeList\[(\d+)\] is the credential of line (\d+)$"
    named = {int(match[1]): (int(match[2]), int(match[3])) for match in re.finditer(pattern, text, re.MULTILINE)}
    for line in sorted(named.keys() | machine.excluded.keys()):
        if named.get(line) != machine.excluded.get(line):
            raise FindingError(
                f"line {line}: expected the excluded credential {machine.excluded.get(line)}, got {named.get(line)}"
            )


def check_summary(text: str, machine: TransportModel) -> None:
    for title, count in machine.count_totals().items():
        if f"\n{title}: {count}\n" not in f"\n{text}":
            raise FindingError(f"the summary does not have {title}: {count}, the model's count")


def check_log(task: tuple[str, str, int]) -> tuple[int, Optional[str], int]:
    """Checks the log with this number. Returns the finding, if any, and the number of transactions."""
    program, seed, number = task

    def run(log: bytes, *words: str) -> bytes:
        return subprocess.run([program, *words], input=log, capture_output=True, check=True, timeout=600).stdout

    log = run(HostGenerator(f"{seed}/{number}").make_log(), "replay")
    try:
        machine = TransportModel(log.splitlines(), read_needs(run(log, "live").splitlines()))
        check_objects([json.loads(line) for line in run(log, "show", "--json").splitlines()], machine)
        check_names(run(log, "show", "--explain").decode(), machine)
        check_summary(run(log, "show", "--summary").decode(), machine)
    except FindingError as finding:
        return number, str(finding), 0
    return number, None, len(machine.transactions)


def main() -> int:
    return check_logs(__doc__ or "", check_log, "{} logs, {} transactions, {} logs with errors")


if __name__ == "__main__":
    sys.exit(main())
