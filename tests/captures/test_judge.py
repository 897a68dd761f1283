"""`hidlog judge` finds violations in recorded sessions, and none in conforming ones."""

from __future__ import annotations

import itertools
import json
import random
import re
import subprocess
import sys
from collections.abc import Callable
from pathlib import Path
from types import FrameType
from typing import Any
from xml.etree import ElementTree

import pytest
from test_export import LOGS

import hidlog
import hidlog.judge
from hidlog import quiet_parts
from hidlog.captures import conformance, read
from hidlog.judge import judge
from hidlog.webauthn_json import b64url_encode

TOP = Path(__file__).resolve().parents[2]
DATA = Path(__file__).resolve().parent / "data"
PROGRAM = TOP / "release" / "hidlog"
CAPTURES = sorted(path for path in DATA.iterdir() if path.suffix != ".log")
# Sessions of clients with this project's key. The logs contain only the packets of the host.
RECORDED = sorted((TOP / "conformance" / "recorded").glob("*.log"))
# Logs from which the first lines are removed, and a pattern for the line number in an expected text.
LOGS_TO_CUT = [TOP / "examples" / name for name in ("sign_in.log", "time_out.log", "two_hosts.log")]
LOGS_TO_CUT += [TOP / "examples" / "failing" / "busy_channel.log", DATA / "killed.log", DATA / "two_clients.log"]
LINE_NUMBER = re.compile(r"line \d+")
Broken = list[tuple[int, str, str, str]]


def find_violations(log: bytes) -> Broken:
    return [(item.line, item.side, item.level, item.section) for item in judge(log)]


def find_must_violations(log: bytes) -> Broken:
    return [item for item in find_violations(log) if item[2] == "must"]


@pytest.mark.parametrize("path", CAPTURES, ids=str)
def test_no_capture_of_a_conforming_session_violates_a_must(path: Path) -> None:
    (found,) = read(path)
    assert find_must_violations(found.log) == []


@pytest.mark.parametrize("path", RECORDED, ids=str)
def test_no_clients_session_violates_a_must(path: Path) -> None:
    """Sessions of Chromium, Firefox, libfido2, OpenSSH, pam-u2f and python-fido2 violate no MUST. The keys in these
    logs are simulated."""
    log = hidlog.replay(path.read_bytes()).text
    found = [item for item in judge(log) if item.level == "must" and item.expected != "x and y of a point on P-256"]
    assert b"\n< " in log and found == []


def format_packet(channel: int, command: int, data: bytes = b"", length: int | None = None) -> str:
    size = len(data) if length is None else length
    return (
        (channel.to_bytes(4, "big") + bytes([0x80 | command]) + size.to_bytes(2, "big") + data).ljust(64, b"\0").hex()
    )


def format_continuation(channel: int, number: int, data: bytes = b"") -> str:
    return (channel.to_bytes(4, "big") + bytes([number]) + data).ljust(64, b"\0").hex()


NONCE = bytes(range(8))
INIT = [
    f"> 0 {format_packet(0xFFFFFFFF, 6, NONCE)}",
    f"< {format_packet(0xFFFFFFFF, 6, NONCE + bytes.fromhex('0000000102010000' + '0c'))}",
]
INFO_REQUEST = "> 10 " + format_packet(1, 0x10, b"\4")
INFO_RESPONSE = bytes.fromhex("00a20181684649444f5f325f300350") + bytes(16)
# Lines after INIT, and their violations: line number, side, level, and section of CTAP 2.1.
CASES: dict[str, tuple[list[str], Broken]] = {
    "nothing": ([INFO_REQUEST, "< " + format_packet(1, 0x10, INFO_RESPONSE)], []),
    "another nonce": (
        ["> 5 " + format_packet(0xFFFFFFFF, 6, NONCE[::-1]), "< " + format_packet(0xFFFFFFFF, 6, bytes(8) + bytes(9))],
        [(4, "key", "must", "11.2.9.1.3")],
    ),
    "a PING comes back changed": (
        ["> 5 " + format_packet(1, 1, b"abc"), "< " + format_packet(1, 1, b"abd")],
        [(4, "key", "must", "11.2.9.1.4")],
    ),
    "no zeros behind a message": (
        ["> 5 " + format_packet(1, 1, b"abc"), "< " + format_packet(1, 1, b"abcd", 3)],
        [(4, "key", "should", "11.2.4")],
    ),
    "a sequence number of the key": (
        [
            "> 5 " + format_packet(1, 1, b"a" * 57, 60),
            "> 5 " + format_continuation(1, 0, b"aaa"),
            "< " + format_packet(1, 1, b"a" * 57, 60),
            "< " + format_continuation(1, 1, b"aaa"),
        ],
        [(6, "key", "must", "11.2.4")],
    ),
    "a sequence number of the host": (
        [
            "> 5 " + format_packet(1, 1, b"a" * 57, 60),
            "> 5 " + format_continuation(1, 1, b"aaa"),
            "< " + format_packet(1, 0x3F, b"\4"),
        ],
        [(4, "host", "must", "11.2.5.4")],
    ),
    "a response of CANCEL": (
        ["> 5 " + format_packet(1, 0x11), "< " + format_packet(1, 0x3F, b"\1")],
        [(4, "key", "must", "11.2.9.1.5")],
    ),
    "a KEEPALIVE of nothing": (
        ["> 5 " + format_packet(1, 1), "< " + format_packet(1, 1), "< " + format_packet(1, 0x3B, b"\1")],
        [(5, "key", "must", "11.2.9.1.7")],
    ),
    "a request on channel 0": (
        ["> 5 " + format_packet(0, 1), "< " + format_packet(0, 0x3F, b"\x0b")],
        [(3, "host", "must", "11.2.3")],
    ),
    "channel 0 is served": (
        ["> 5 " + format_packet(0, 1), "< " + format_packet(0, 1)],
        [(3, "host", "must", "11.2.3"), (4, "key", "must", "11.2.3")],
    ),
    "a second transaction": (
        [
            INFO_REQUEST,
            "> 11 " + format_packet(1, 1),
            "< " + format_packet(1, 0x3F, b"\6"),
            "< " + format_packet(1, 0x10, INFO_RESPONSE),
        ],
        [(4, "host", "must", "11.2.5.1")],
    ),
    "another code": (
        ["> 5 " + format_packet(1, 0x3C), "< " + format_packet(1, 0x3F, b"\3")],
        [(3, "host", "must", "11.2.9.1.6"), (4, "key", "must", "11.2.9.1.6")],
    ),
    "silence": (["> 5 " + format_packet(1, 1), "t 5000"], [(3, "key", "must", "11.2.9.1.4")]),
    "getInfo without versions": (
        [INFO_REQUEST, "< " + format_packet(1, 0x10, b"\0\xa1\3\x50" + bytes(16))],
        [(4, "key", "must", "6.4")],
    ),
    "a map out of order": (
        [INFO_REQUEST, "< " + format_packet(1, 0x10, b"\0\xa2\3\x50" + bytes(16) + b"\1\x81\x68FIDO_2_0")],
        [(4, "key", "must", "6.4")],
    ),
    "a request out of order": (
        ["> 5 " + format_packet(1, 0x10, b"\6\xa2\2\1\1\1"), "< " + format_packet(1, 0x10, b"\x12")],
        [(3, "host", "must", "8")],
    ),
    "a request that lacks a member": (
        ["> 5 " + format_packet(1, 0x10, b"\2\xa1\1\x61a"), "< " + format_packet(1, 0x10, b"\2")],
        [(3, "host", "must", "6.2.2"), (4, "key", "must", "6.2.2")],
    ),
    "no such command": (
        ["> 5 " + format_packet(1, 0x10, b"\x05"), "< " + format_packet(1, 0x10, b"\0")],
        [(3, "host", "must", "8.1"), (4, "key", "must", "8.1")],
    ),
}


@pytest.mark.parametrize("name", CASES)
def test_what_is_broken(name: str) -> None:
    lines, wanted = CASES[name]
    assert find_violations("\n".join([*INIT, *lines, ""]).encode()) == wanted


@pytest.mark.parametrize("path", LOGS_TO_CUT, ids=str)
def test_a_log_that_begins_within_a_session(path: Path) -> None:
    """The end of a log, from any line on, has no MUST violation that the whole log does not have."""
    lines = path.read_bytes().split(b"\n")
    whole = {LINE_NUMBER.sub("line", f"{item.section} {item.expected}") for item in judge(b"\n".join(lines))}
    for start in range(1, len(lines)):
        found = [item for item in judge(b"\n".join(lines[start:])) if item.level == "must"]
        sections = [LINE_NUMBER.sub("line", f"{item.section} {item.expected}") for item in found]
        assert set(sections) <= whole, f"from line {start + 1}: {found}"


@pytest.mark.parametrize("code, head, wanted", [
    (5, [], []), (6, [], []), (4, [], ["11.2.5.4"]), (5, ["# power cycle"], ["11.2.3"]), (6, ["# power cycle"], ["11.2.3"])
])  # fmt: skip
def test_an_error_on_a_channel_allocated_before_the_log(code: int, head: list[str], wanted: list[str]) -> None:
    """A message may time out, and the device may be busy; but no sequence number was wrong. After a power cycle no channel
    is allocated."""
    length = 99 if code == 5 else 57
    lines = [f"> 0 {format_continuation(7, 1)}", *head, f"> 100 {format_packet(7, 0x01, bytes(57), length)}", "t 900"]
    log = "\n".join([*lines, f"< {format_packet(7, 0x3F, bytes([code]))}", ""]).encode()
    assert [section for _, side, _, section in find_must_violations(log) if side == "key"] == wanted


def test_a_wrong_signature_is_found() -> None:
    pytest.importorskip("cryptography")
    log = (TOP / "examples" / "service_wrong_signature.log").read_bytes()
    assert [item[1:] for item in find_violations(log)] == [("key", "must", "6.2.2")]


def run_judge(*words: str | Path, standard_input: bytes = b"") -> subprocess.CompletedProcess[bytes]:
    command: list[str | Path] = [sys.executable, "-m", "hidlog", "judge", *words]
    return subprocess.run(command, input=standard_input, capture_output=True, check=False)


def make_changed_ping_log() -> bytes:
    return "\n".join([*INIT, *CASES["a PING comes back changed"][0], ""]).encode()


def test_the_command() -> None:
    ran = run_judge("-", standard_input=make_changed_ping_log())
    assert ran.returncode == 1
    assert ran.stdout.decode().splitlines()[:2] == [
        "line 4: the key violates MUST: CTAP 2.1, 11.2.9.1.4 CTAPHID_PING",
        "  expected: the 3 bytes of the PING",
    ]
    assert ran.stdout.endswith(b"4 packets, 2 transactions: 1 MUST violation, 0 SHOULD violations\n")
    conforming = run_judge(DATA / "libfido2_register.log")
    assert (conforming.returncode, conforming.stdout) == (
        0,
        b"46 packets, 9 transactions: 0 MUST violations, 0 SHOULD violations\n",
    )
    assert run_judge(DATA / "python_cancel.pcapng").returncode == 0
    assert run_judge("--side", "host", "-", standard_input=make_changed_ping_log()).returncode == 0


def test_counts_are_singular_and_plural() -> None:
    """The counts for a PING of 1 byte in one packet, which has 2 violations."""
    log = "\n".join([*INIT, f"> 5 {format_packet(1, 0x01, b'a')}", f"< {format_packet(1, 0x01, b'bc')}", ""]).encode()
    lines = run_judge("-", standard_input=log).stdout.decode().splitlines()
    assert lines[1:3] == [
        "  expected: the 1 byte of the PING",
        "  actual:   2 bytes: PING of 2 bytes on 00000001: 6263",
    ]
    ran = run_judge("-", standard_input=f"> 1 {format_packet(0xFFFFFFFF, 0x06, bytes(8))}\n".encode())
    assert ran.stdout.endswith(b"\n1 packet, 1 transaction: 0 MUST violations, 0 SHOULD violations\n"), ran.stdout


TEXT_CAPTURES = [path for path in CAPTURES if path.suffix == ".txt"]
ENCODED_CAPTURES = [
    *((path, "") for path in CAPTURES),
    *((path, name) for path in TEXT_CAPTURES for name in ("utf-16-le", "utf-16-be")),
]


@pytest.mark.parametrize("path, encoding", ENCODED_CAPTURES, ids=str)
def test_the_command_reads_captures(path: Path, encoding: str) -> None:
    """The command also reads text as PowerShell writes it: UTF-16 with a byte order mark and CR LF."""
    data = path.read_bytes()
    if encoding:
        data = ("\ufeff" + data.decode().replace("\n", "\r\n")).encode(encoding)
    ran = run_judge("-", standard_input=data)
    assert (ran.returncode, ran.stderr) == (0, b"")
    (found,) = read(data)
    packets = sum(line[:2] in (b"> ", b"< ") or line.startswith(b"# cut to ") for line in found.log.split(b"\n"))
    assert ran.stdout.splitlines()[-1].startswith(b"%d packets, " % packets)


def test_a_log_of_utf_16() -> None:
    log = ("\ufeff" + make_changed_ping_log().decode().replace("\n", "\r\n")).encode("utf-16-le")
    assert run_judge("-", standard_input=log).stdout == run_judge("-", standard_input=make_changed_ping_log()).stdout
    ran = run_judge("-", standard_input=b"\xff\xfe\x00\xd8\x00\x00")
    assert ran.returncode == 2 and b"starts like UTF-16 but is not valid" in ran.stderr


def test_several_files() -> None:
    conforming = DATA / "libfido2_register.log"
    ran = run_judge(conforming, "-", standard_input=make_changed_ping_log())
    assert ran.returncode == 1
    lines = ran.stdout.decode().splitlines()
    assert lines[0] == str(conforming) and lines[1].startswith("46 packets, ") and lines[2] == ""
    assert lines[3] == "standard input" and lines[4].startswith("line 4: the key violates MUST")
    ran = run_judge(conforming, "nothing.log", DATA / "killed.pcapng")
    assert ran.returncode == 2 and ran.stderr == b"hidlog judge: nothing.log: No such file or directory\n"
    assert ran.stdout.count(b" packets, ") == 2
    report = json.loads(run_judge("--format", "json", conforming, "-", standard_input=make_changed_ping_log()).stdout)
    assert [(one["log"], len(one["findings"])) for one in report] == [(str(conforming), 0), ("standard input", 1)]
    suites = ElementTree.fromstring(
        run_judge("--format", "junit", conforming, "-", standard_input=make_changed_ping_log()).stdout
    )
    assert [suite.get("failures") for suite in suites.findall("testsuite")] == ["0", "1"]


def test_json_and_junit() -> None:
    report = json.loads(run_judge("--format", "json", "-", standard_input=make_changed_ping_log()).stdout)
    assert [item["section"] for item in report["findings"]] == ["11.2.9.1.4"] and report["packets"] == 4
    (finding,) = report["findings"]
    assert (report["format"], finding["expected"], finding["relatedSections"]) == (2, "the 3 bytes of the PING", "")
    old_and_new = {"due": "expected", "came": "actual", "also": "relatedSections"}
    assert {old: finding[old] for old in old_and_new} == {old: finding[new] for old, new in old_and_new.items()}
    suite = ElementTree.fromstring(run_judge("--format", "junit", "-", standard_input=make_changed_ping_log()).stdout)
    assert (suite.get("failures"), len(suite.findall("testcase/failure"))) == ("1", 1)
    clean = ElementTree.fromstring(run_judge("--format", "junit", DATA / "killed.log").stdout)
    assert clean.get("failures") == "0" and len(clean.findall("testcase")) == 1


def record_sign_ins(count: int) -> bytes:
    """Returns a recording of `count` registrations, each with two sign-ins. Only the first credential is discoverable."""
    with hidlog.SecurityKey(random=random.Random(1).randbytes) as key:
        browser = key.browser("https://example.com")
        challenge = b64url_encode(bytes(32))
        for number in range(count):
            options = {
                "rp": {"name": "Example"},
                "user": {"id": b64url_encode(b"%d" % number), "name": "ann", "displayName": "Ann"},
                "challenge": challenge,
                "pubKeyCredParams": [{"type": "public-key", "alg": -7}],
                "authenticatorSelection": {"residentKey": "discouraged" if number else "required"},
            }
            made = browser.create(options)
            browser.get({"challenge": challenge, "allowCredentials": [{"type": "public-key", "id": made["id"]}]})
            browser.get({"challenge": challenge})
        return bytes(key.log)


def break_signature(log: bytes, number: int) -> bytes:
    """Returns a recording with one signature changed, both in the caller's reply and in the key's packets."""
    digits = re.findall(rb"^s \d+ ([0-9a-f]+)$", log, re.M)[number][16:24]
    return log.replace(digits, digits[::-1])


@pytest.fixture
def verified_in_process(monkeypatch: pytest.MonkeyPatch) -> list[bytes]:
    """Returns the list to which each ES256 signature is added that this process verifies."""
    found: list[bytes] = []
    keys = conformance.load_module("keys")
    verify = keys.verify

    def verify_here(cose: dict[int, Any], signed: bytes, signature: bytes) -> Any:
        found.extend([signature] if cose[3] == -7 else [])
        return verify(cose, signed, signature)

    monkeypatch.setattr(keys, "verify", verify_here)
    return found


@pytest.mark.parametrize("broken", [(), (0,), (5, 40)], ids=str)
@pytest.mark.parametrize("ending", ["it runs", "it is killed", "it does not start"])
def test_signatures_are_verified_ahead(
    monkeypatch: pytest.MonkeyPatch, verified_in_process: list[bytes], broken: tuple[int, ...], ending: str
) -> None:
    """The command's second process finds the same invalid signatures. This process verifies the signatures that
    the second process does not verify."""
    pytest.importorskip("cryptography")
    ahead, log = conformance.load_module("verify_ahead"), record_sign_ins(20)
    for number in broken:
        log = break_signature(log, number)
    expected = judge(log)
    assert sum(finding.level == "must" for finding in expected) == len(broken)
    verified_in_process.clear()
    monkeypatch.setattr(ahead, "FEW", 1)
    monkeypatch.setattr(conformance.load_module("transactions"), "BLOCK", 1 << 14)  # several batches
    if ending == "it does not start":
        monkeypatch.setattr(sys, "executable", str(TOP / "none"))
    with ahead.AheadVerifier() as verifier:

        def prepare(entries: list[Any]) -> None:
            verifier.prepare(entries)
            if ending == "it is killed" and verifier.count > 20 and verifier.process is not None:
                verifier.process.process.kill()

        assert hidlog.judge._check_recording([log], prepare).findings == expected
    assert verifier.count == 60 and verifier.process is None
    assert (not verified_in_process) == (ending == "it runs")


def count_executed_lines(log: bytes) -> int:
    """Returns the number of Python lines that are executed to check a log. Lines in a loop count each time."""
    count = 0

    def trace(frame: FrameType, event: str, _: object) -> Callable[..., Any]:
        nonlocal count
        count += event == "line"
        return trace

    sys.settrace(trace)
    try:
        assert not [finding for finding in judge(log) if finding.level == "must"]
    finally:
        sys.settrace(None)
    return count


def test_work_grows_as_the_log_does(monkeypatch: pytest.MonkeyPatch) -> None:
    monkeypatch.setattr(quiet_parts, "_PART_BYTES", 1 << 14)  # each of these logs is checked in several parts
    once, twice, fourfold = (count_executed_lines(record_sign_ins(count)) for count in (15, 30, 60))
    assert fourfold - twice <= 1.1 * 2 * (twice - once)


def test_what_was_judged_is_not_kept() -> None:
    recording = hidlog.judge._check_recording([record_sign_ins(20)])
    assert recording.walk.count >= 60 and not recording.walk.entries and not recording.walk.open


def test_a_log_is_checked_in_parts(monkeypatch: pytest.MonkeyPatch) -> None:
    """Checking the transactions of a session a few at a time gives the same findings or error as checking all at
    once."""

    def check_log(log: bytes, length: int) -> Any:
        monkeypatch.setattr(quiet_parts, "_PART_BYTES", length)
        try:
            recording = hidlog.judge._check_recording(log[at : at + length] for at in range(0, len(log), length))
        except hidlog.LogError as error:
            return str(error), vars(error)
        return recording.findings, recording.walk.packets, recording.walk.count

    logs = [path.read_bytes() for path in LOGS[::4]]
    logs += [log.replace(b"\n", b"\n# power cycle\n", 9) for log in logs[:10]]
    logs += [record_sign_ins(3) + end for end in (b"nothing\n", b"nothing")]
    # A response of two packets to which there is no request.
    packets = (packet.ljust(64, b"\0") for packet in (bytes.fromhex("0000000190005000"), bytes.fromhex("0000000100")))
    logs.append(b"t 1\n" + b"".join(b"< %s\n" % packet.hex().encode() for packet in packets))
    whole = [check_log(log, 1 << 30) for log in logs]
    assert [check_log(log, 200) for log in logs] == whole == [check_log(log, 1500) for log in logs]
    assert sum(len(result[0]) for result in whole) > 500


def test_a_part_is_checked_before_the_rest_is_read() -> None:
    """For a log of any length, only a part is held in memory at a time."""
    log, read = record_sign_ins(20), itertools.count()
    pieces = (log for _ in zip(range(1000), read))
    assert len(next(iter(quiet_parts.QuietParts(pieces)))) < 2 * quiet_parts._PART_BYTES
    assert next(read) < 100


def test_what_is_no_log() -> None:
    ran = run_judge("-", standard_input=b"# a log\n> 0 00\n")
    assert (ran.returncode, ran.stdout) == (2, b"")
    assert ran.stderr.startswith(b"hidlog judge: standard input: line 2: not a log line: expected '> TIME HEX' and ")
    assert ran.stderr.endswith(b"; got '> 0 00'\n")
    ran = run_judge("-", standard_input=make_changed_ping_log().replace(b"\n", b"\r\n"))
    assert ran.stderr == (
        b"hidlog judge: standard input: line 1: not a log line: the line ends with CR LF; expected LF\n"
    )
    ran = run_judge("-", standard_input=b"hello\n")
    assert (ran.returncode, ran.stdout) == (2, b"")
    assert b"not a session log, which begins with '> TIME HEX'" in ran.stderr and b"got 'hello'; " in ran.stderr
    assert b"libfido2's FIDO_DEBUG" in ran.stderr
    damaged = (DATA / "killed.pcapng").read_bytes()[:40] + bytes(90)
    assert b"no security key found in the capture" in run_judge("-", standard_input=damaged).stderr
    assert run_judge("nothing.log").stderr == b"hidlog judge: nothing.log: No such file or directory\n"


def test_a_truncated_capture_is_said_first() -> None:
    command = [sys.executable, "-m", "hidlog", "judge", str(DATA / "partly.killed.pcap")]
    ran = subprocess.run(command, capture_output=True, text=True)
    expected = "note: the capture is truncated in its last record: what came after it was not checked"
    assert expected in ran.stdout.splitlines()
