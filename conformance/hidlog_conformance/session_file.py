"""Reads session files: logs with the expected responses in comments. Also reads files of several sessions or logs."""

from __future__ import annotations

import re
from dataclasses import dataclass, field
from typing import Dict, List, Tuple

from hidlog_conformance.hid_packets import CBOR, MessageReassembler

LISTS = ("needs", "uses")
POWER_CYCLE = "power cycle"
PACKET = 64
# A timestamp is below 2**63 (LOG_FORMAT.md).
MAX_DIGITS = 19
RULE = re.compile(r"[^,]+, \S")
# The line before a section in a file of several sessions or logs. A name may become a path below a folder.
SECTION_NAME = re.compile(r"\[([A-Za-z0-9_-]+(?:/[A-Za-z0-9_-]+)?)\]")
TEXTS = ("rule", "requirement", "why", "profile", "level", "since", "client", "found")


class SessionSyntaxError(ValueError):
    """A line of a session file is invalid."""


@dataclass
class Step:
    """An input, and the expectations after it. All packets of a message are one input."""

    kind: str
    at: int
    words: List[str]
    line: int
    packets: List[Tuple[int, bytes]] = field(default_factory=list)
    expects: List[str] = field(default_factory=list)


@dataclass
class Session:
    """A session file: one test case."""

    name: str
    head: Dict[str, str]
    needs: List[str]
    uses: List[str]
    steps: List[Step]
    file: str = ""
    # By derived ID: the kind of change, and the credential ID that it is derived from.
    derived: Dict[bytes, Tuple[str, bytes]] = field(default_factory=dict)
    # The number of cases that this session replaces.
    cases: int = 1

    @property
    def section(self) -> str:
        """The section that the session is about."""
        return self.head["rule"].split(",")[1].split()[0]

    @property
    def lenient(self) -> str:
        """Why a difference is not a failure of other makers' devices, or an empty string."""
        if self.head.get("profile"):
            return "a choice of this project's profile: " + self.head["profile"]
        return "the standard says should" if self.head.get("level") == "should" else ""


class SessionReader:
    """Reads the lines of a session."""

    def __init__(self, name: str) -> None:
        self.session = Session(name, {}, [], [], [], f"conformance/sessions/{name}.log")
        self.host = MessageReassembler(of_host=True)
        self.open = False

    def make_error(self, line: int, text: str) -> SessionSyntaxError:
        """Returns the exception for a line."""
        return SessionSyntaxError(f"{self.session.name}: line {line}: {text}")

    def get_last_step(self, line: int) -> Step:
        """Returns the step that a comment belongs to."""
        if not self.session.steps:
            raise self.make_error(line, "the comment needs an input before it")
        return self.session.steps[-1]

    def comment(self, text: str, line: int) -> None:
        """Processes a comment."""
        word, _, rest = text.partition(" ")
        if text == POWER_CYCLE:
            self.session.steps.append(Step("power", self.get_last_step(line).at, [], line))
            self.host = MessageReassembler(of_host=True)
            self.open = False
        elif word == "expect":
            self.get_last_step(line).expects.append(rest)
            self.open = False
        elif word == "derived:":
            words = rest.split(" ")
            if len(words) != 3:
                raise self.make_error(line, "expected `derived: KIND CREDENTIAL_ID DERIVED_ID`")
            self.session.derived[self.check_bytes(words[2], line)] = (words[0], self.check_bytes(words[1], line))
        elif word.rstrip(":") in LISTS:
            getattr(self.session, word.rstrip(":")).append(rest)
        elif word.rstrip(":") in TEXTS:
            self.session.head[word.rstrip(":")] = rest

    def check_bytes(self, word: str, line: int) -> bytes:
        """Parses hexadecimal digits."""
        try:
            return bytes.fromhex(word)
        except ValueError:
            raise self.make_error(line, f"{word[:40]!r} is not hexadecimal") from None

    def parse_time(self, word: str, line: int) -> int:
        """Parses a timestamp in milliseconds."""
        if not (word.isascii() and word.isdigit() and len(word) <= MAX_DIGITS):
            raise self.make_error(line, f"{word[:40]!r} is not a timestamp")
        return int(word)

    def packet(self, at: int, packet: bytes, line: int) -> None:
        """Processes a packet of the host; continuation packets join the step of their message."""
        joins = self.open and not packet[4] & 0x80 and packet[:4] == self.session.steps[-1].packets[0][1][:4]
        message = self.host.feed(packet)
        if not joins or (message is not None and message.problem):
            self.session.steps.append(Step(">", at, [], line))
        self.session.steps[-1].packets.append((at, packet))
        self.open = message is None

    def input(self, text: str, line: int) -> None:
        """Processes an input line."""
        kind, at, *words = [*text.split(" "), ""]
        words = words[:-1]
        if kind == ">":
            packet = self.check_bytes("".join(words), line)
            if len(words) != 1 or len(packet) != PACKET:
                raise self.make_error(line, f"expected a packet of {PACKET} bytes as one word")
            self.packet(self.parse_time(at, line), packet, line)
        elif kind in ("t", "p", "k", "s"):
            self.session.steps.append(Step(kind, self.parse_time(at, line), words, line))
            self.open = False
        else:
            raise self.make_error(line, f"unknown line kind {kind[:40]!r}; expected >, <, t, p, k, s or #")


def read_sections(path: str) -> Dict[str, List[str]]:
    """Reads a file of several sessions or logs, each after a line with its name in brackets. Returns the lines by name;
    those before the first name have the name ""."""
    sections: Dict[str, List[str]] = {"": []}
    name = ""
    with open(path, encoding="utf-8") as file:
        for line in file.read().splitlines():
            named = SECTION_NAME.fullmatch(line)
            if not named:
                sections[name].append(line)
                continue
            name = named[1]
            if name in sections:
                raise SessionSyntaxError(f"{path}: two sections are named {name}")
            sections[name] = []
    return sections


def read_logs(path: str) -> Dict[str, bytes]:
    """Returns the logs of a file of several, by name."""
    sections = read_sections(path)
    return {name: "".join(f"{line}\n" for line in lines).encode() for name, lines in sections.items() if name}


def sends_reset(step: Step) -> bool:
    """Returns whether an input may be an authenticatorReset, complete or not."""
    return any(packet[4] == 0x80 | CBOR and packet[7] == 0x07 for _, packet in step.packets)


def read_session(path: str, name: str) -> Session:
    """Reads a session file."""
    try:
        with open(path, encoding="utf-8") as file:
            lines = file.read().splitlines()
    except UnicodeDecodeError:
        raise SessionSyntaxError(f"{name} is not UTF-8") from None
    return parse_session(lines, name)


def parse_session(lines: List[str], name: str) -> Session:
    """Parses the lines of a session."""
    reader = SessionReader(name)
    for line, text in enumerate(lines, 1):
        if text.startswith("# "):
            reader.comment(text[2:], line)
        elif text and text[0] not in "#=<":
            reader.input(text, line)
    if any(sends_reset(step) for step in reader.session.steps) and "reset" not in reader.session.needs:
        # No file may reset a device without --reset.
        reader.session.needs.append("reset")
    if not RULE.match(reader.session.head.get("rule", "")) or not any(step.expects for step in reader.session.steps):
        raise SessionSyntaxError(f"{name} has no `rule: STANDARD, SECTION`, or expects nothing")
    return reader.session
