"""Tests a client: plays a device to its command, and checks the client's report."""

from __future__ import annotations

import os
import select
import shlex
import signal
import subprocess
import time
from typing import List, NamedTuple, Optional, Sequence, Tuple

from hidlog_conformance.client_device import BUILT_IN_RULES, BYTE_RULES, MAP_RULES, PACKET_RULES, ClientDevice, Rules
from hidlog_conformance.devices import MAX_LINE, InputNotReadError, end_command, start_command, write_to_command
from hidlog_conformance.interrupts import wait_for_end
from hidlog_conformance.paths import CLIENTS
from hidlog_conformance.results import Outcome, Results, collect
from hidlog_conformance.response_reader import CASE_SECONDS, MAX_PACKETS
from hidlog_conformance.session_file import Session, SessionSyntaxError, read_sections

# A session's outcome, and its log.
Played = Tuple[Outcome, List[str]]

HEADS = ("rule", "requirement", "why", "device", "task", "client", "result", "level")
# Seconds after which a silent client counts as waiting: at the start, and later.
STARTING, PATIENCE = 30.0, 3.0
# The first words of a client's last line, and verdicts of the runner, which no session expects.
RESULT_WORDS = ("ok", "refused", "skipped")
RUNNER_VERDICTS = {"ok": "takes", "refused": "refuses"}


class ClientSession(NamedTuple):
    """A session of conformance/clients, and the rules by which its device responds."""

    session: Session
    rules: Rules


def parse_rule(line: str, path: str) -> Tuple[str, List[str]]:
    """Parses a rule: at KIND NAME WORDS."""
    at, _, rest = line.partition(" ")
    kind, *words = rest.split(" ")
    if at != "at" or not words or words[0] not in {*BUILT_IN_RULES, *MAP_RULES, *BYTE_RULES, *PACKET_RULES}:
        raise SessionSyntaxError(f"{path}: expected a rule, such as `at KIND NAME`, got {line!r}")
    return kind, words


def parse_client_session(name: str, lines: List[str], path: str) -> ClientSession:
    """Parses the lines of a client session."""
    session = Session(name, {}, [], [], [], path)
    rules: Rules = {}
    for line in lines:
        word, _, rest = line[2:].partition(": ")
        if line.startswith("# ") and word in HEADS:
            session.head[word] = rest
        elif line and not line.startswith("#"):
            kind, words = parse_rule(line, path)
            rules.setdefault(kind, []).append(words)
    lacking = [word for word in ("rule", "requirement", "device", "task", "client") if word not in session.head]
    if lacking or session.head["device"] not in ("conforming", "nonconforming"):
        raise SessionSyntaxError(f"{path}: session {name}: missing {lacking or 'device: conforming or nonconforming'}")
    return ClientSession(session, rules)


def read_client_sessions(path: str) -> List[ClientSession]:
    """Reads a file of client sessions. Each begins with a line that has its name in brackets: GROUP/NAME, or NAME for
    the group of the file's name. A file without such lines is one session."""
    file_name = os.path.basename(path)
    group = os.path.splitext(file_name)[0]
    shown = f"conformance/clients/{file_name}" if os.path.dirname(os.path.abspath(path)) == CLIENTS else path
    sections = read_sections(path)
    if len(sections) > 1 and not any(sections[""]):
        del sections[""]
    named = [(name if "/" in name else f"{group}/{name}" if name else group, name) for name in sections]
    if len({full for full, _ in named}) < len(named):
        raise SessionSyntaxError(f"{path}: two sessions have the same name")
    return [parse_client_session(full, sections[name], shown) for full, name in named]


class Conversation:
    """One run of the client's command."""

    def __init__(self, command: str, task: str, rules: Rules, slow: bool, seconds: float = CASE_SECONDS) -> None:
        words = shlex.split(command) + task.split(" ")
        self.process = start_command(words, stderr=subprocess.DEVNULL)
        self.deadline = time.monotonic() + seconds
        self.device = ClientDevice(rules)
        self.slow = slow
        self.rest = b""
        self.log: List[str] = []

    def line(self) -> str:
        """Returns the client's next line, or the runner's verdict: waits, ended, or garbage."""
        assert self.process.stdout is not None
        end = min(self.deadline, time.monotonic() + (PATIENCE if self.log else STARTING))
        while b"\n" not in self.rest:
            ready, _, _ = select.select([self.process.stdout], [], [], max(0.0, end - time.monotonic()))
            if not ready:
                return self.judge_silence()
            piece = os.read(self.process.stdout.fileno(), 65536)
            if not piece:
                return self.describe_crash()
            self.rest += piece
            if b"\n" not in self.rest and len(self.rest) > MAX_LINE:
                return f"garbage: a line without a newline: {self.rest[:40]!r}"
        line, _, self.rest = self.rest.partition(b"\n")
        return line.decode("utf-8", "backslashreplace")

    def describe_crash(self) -> str:
        """Describes the end of a client that exited without a result."""
        try:
            status = self.process.wait(PATIENCE)
        except subprocess.TimeoutExpired:
            return "ended: closed its output without printing ok or refused"
        if status < 0:
            return f"killed: by {signal.Signals(-status).name}"
        return f"ended: with status {status}, without printing ok or refused"

    def judge_silence(self) -> str:
        """Returns the verdict on a silent client: it waits for the device if it exits at the end of its input, or
        hangs."""
        if not self.log:
            return "hangs: it sent no packet"
        assert self.process.stdin is not None
        try:
            self.process.stdin.close()
            self.process.wait(PATIENCE)
        except OSError:
            pass
        except subprocess.TimeoutExpired:
            return "hangs: it does not react to the end of its input"
        return "waits" if self.process.returncode >= 0 else self.describe_crash()

    def send_packets(self, packet: bytes) -> None:
        """Sends the device's packets to the client."""
        assert self.process.stdin is not None
        self.log.append("> 0 " + packet.hex())
        for wait, piece in self.device.take(packet):
            if self.slow:
                time.sleep(wait / 1000)
            self.log.append("< " + piece.hex())
            write_to_command(self.process, piece.hex().encode() + b"\n", self.deadline)

    def run(self) -> str:
        """Plays until the client prints a result."""
        try:
            for _ in range(MAX_PACKETS):
                line = self.line()
                if line.split(" ")[0] in (*RESULT_WORDS, "waits", "hangs:", "ended:", "killed:", "garbage:"):
                    return line
                if time.monotonic() > self.deadline:
                    return "hangs: it never stops sending"
                try:
                    packet = bytes.fromhex(line)
                except ValueError:
                    packet = b""
                if len(packet) != 64:
                    return f"garbage: a line other than 128 hexadecimal digits: {line[:80]!r}"
                try:
                    self.respond(packet)
                except InputNotReadError:
                    return "hangs: it sends packets and reads none"
            return f"hangs: more than {MAX_PACKETS} packets"
        finally:
            end_command(self.process, 0.0)

    def respond(self, packet: bytes) -> None:
        """Responds to a packet; ignores a client that exited."""
        try:
            self.send_packets(packet)
        except BrokenPipeError:
            pass


def play_client(
    command: str, played: ClientSession, slow: bool, should: bool = True, seconds: float = CASE_SECONDS
) -> Played:
    """Plays one session; returns its outcome and log. With `slow`, a minute of KEEPALIVEs takes a minute."""
    session, rules = played
    talk = Conversation(command, session.head["task"], rules, slow, seconds + (60 if slow else 0))
    verdict = talk.run()
    if verdict.startswith("killed: "):
        wait_for_end(talk.process.returncode)
    word, allowed = verdict.split(" ")[0], session.head["client"].split(" ")
    made = RUNNER_VERDICTS.get(word, word.rstrip(":"))
    result = session.head.get("result", "")
    log = talk.log + ["# " + verdict]
    if word == "skipped":
        return Outcome(session, "skip", verdict), log
    if made not in allowed or (made == "takes" and result and verdict != "ok " + result):
        expected = f"a client that {' or '.join(allowed)}" + (f": {result}" if result else "")
        lenient = session.lenient and not should and made in ("takes", "refuses", "waits")
        return Outcome(session, "warn" if lenient else "not ok", "", expected, f"{made}: {verdict}"), log
    return Outcome(session, "ok"), log


def client_sessions(only: str = "", paths: Sequence[str] = ()) -> List[ClientSession]:
    """Returns the sessions whose names or rules contain a word, from these files or else from conformance/clients."""
    files = paths or sorted(os.path.join(CLIENTS, name) for name in os.listdir(CLIENTS) if name.endswith(".sessions"))
    found = [session for path in files for session in read_client_sessions(path)]
    return [one for one in found if only in one.session.name or only in one.session.head["rule"]]


def play_clients(
    command: str,
    sessions: List[ClientSession],
    slow: bool,
    should: bool = True,
    seconds: float = CASE_SECONDS,
    results: Optional[Results[Played]] = None,
) -> List[Played]:
    """Plays sessions, four at a time; `results` gets each when it ends."""
    results = results if results is not None else Results()
    collect(lambda played: play_client(command, played, slow, should, seconds), sessions, 4, results)
    return results.close()


def write_failed_logs(folder: str, played: List[Played]) -> None:
    """Writes the log of each session that failed."""
    for outcome, log in played:
        if outcome.status == "not ok":
            path = os.path.join(folder, outcome.session.name + ".log")
            os.makedirs(os.path.dirname(path), exist_ok=True)
            head = [f"# {word}: {value}" for word, value in outcome.session.head.items()]
            with open(path, "w", encoding="utf-8") as file:
                file.write("\n".join(head + log) + "\n")
