#!/usr/bin/env python3
"""Changes a line of logs with up to four hosts, and checks the reason that `check` prints for the first difference.

The change: a line is removed, duplicated, swapped with the next, later or altered, or a reply is changed.

    tests/fuzz/reasons.py [--seed N] [--count N] [--program FILE] [--only NUMBER]

The transport model in transactions.py computes from the remaining inputs what the key waits for or processes at the
first difference. `live` writes what the key needs from the caller. The reason in the output of `check --json` must
agree with both.

Why a request fails is found independently of the core: the checks and their order are those of docs/use/PROFILE.md
(CTAP 2.1, sections 6.1, 6.2 and 8.2), and the parameters are decoded by the CBOR decoder of the conformance tests.
"""

from __future__ import annotations

import json
import random
import subprocess
import sys
from typing import Any, Callable, Iterator, Optional

sys.dont_write_bytecode = True

from framing import KEEPALIVE_MS
from runner import check_logs
from transactions import (
    CBOR,
    ERROR,
    KEEPALIVE,
    RESET,
    STATUS_CREDENTIAL_EXCLUDED,
    HostGenerator,
    TransportModel,
    Transaction,
    ctap_cbor,
    read_needs,
)

ERROR_CHANNEL_BUSY = 0x06
NEEDS = {b"presence": "the user's presence", b"key": "a new key", b"signature": "a signature"}
INPUTS = (b">", b"t", b"p", b"k", b"s")
REPLIES = {b"p": "the user's presence", b"k": "a new key", b"s": "a signature"}
PARAMETER_NAMES = {
    0x01: {1: "clientDataHash", 2: "rp", 3: "user", 4: "pubKeyCredParams", 5: "excludeList"},
    0x02: {1: "rpId", 2: "clientDataHash", 3: "allowList"},
}
COMMANDS_WITHOUT_PARAMETERS = (0x04, 0x07, 0x08, 0x0B)
Test = Callable[[Any], bool]


def make_type_test(*kinds: type) -> Test:
    """Returns a test of whether a value has one of these types."""
    return lambda value: type(value) in kinds


def is_unsigned(value: Any) -> bool:
    """Returns whether a value is an unsigned integer."""
    return type(value) is int and value >= 0


def make_map_test(**members: Test) -> Test:
    """Returns a test of whether a value is a map whose members, if present, pass these tests."""
    return lambda value: isinstance(value, dict) and all(
        name not in value or test(value[name]) for name, test in members.items()
    )


def make_list_test(test: Test) -> Test:
    """Returns a test of whether a value is an array of values that pass this test."""
    return lambda value: isinstance(value, list) and all(test(entry) for entry in value)


DESCRIPTORS = make_list_test(
    make_map_test(id=make_type_test(bytes), type=make_type_test(str), transports=make_list_test(make_type_test(str)))
)
OPTIONS = make_map_test(rk=make_type_test(bool), up=make_type_test(bool), uv=make_type_test(bool))
TYPES: dict[int, dict[int, Test]] = {
    0x01: {
        1: make_type_test(bytes),
        2: make_map_test(id=make_type_test(str), name=make_type_test(str)),
        3: make_map_test(id=make_type_test(bytes), name=make_type_test(str), displayName=make_type_test(str)),
        4: make_list_test(make_map_test(alg=make_type_test(int), type=make_type_test(str))),
        5: DESCRIPTORS,
        6: make_type_test(dict),
        7: OPTIONS,
        8: make_type_test(bytes),
        9: is_unsigned,
        10: is_unsigned,
    },
    0x02: {
        1: make_type_test(str),
        2: make_type_test(bytes),
        3: DESCRIPTORS,
        4: make_type_test(dict),
        5: OPTIONS,
        6: make_type_test(bytes),
        7: is_unsigned,
    },
}


def find_missing(command: int, asked: dict[Any, Any]) -> Optional[str]:
    """Returns the first missing required parameter or member."""
    names = PARAMETER_NAMES[command]
    for key in (1, 2, 3, 4) if command == 0x01 else (1, 2):
        if command == 0x01 and key in (2, 3) and (key not in asked or "id" not in asked[key]):
            return f"the required parameter {names[key]}, or the id in it, is missing"
        if key not in asked:
            return f"the required parameter {names[key]} is missing"
    lists = [(4, ("alg", "type")), (5, ("id", "type"))] if command == 0x01 else [(3, ("id", "type"))]
    for key, members in lists:
        if any(member not in entry for entry in asked.get(key, []) for member in members):
            return f"an entry of {names[key]} lacks its {members[0]} or type"
    return None


def find_failed_check(command: int, asked: dict[Any, Any]) -> str:
    """Returns the first failed check other than that of missing parameters."""
    options = asked.get(7 if command == 0x01 else 5, {})
    hash_len = len(asked[1 if command == 0x01 else 2])
    if hash_len != 32:
        return f"clientDataHash has {hash_len} bytes, not 32"
    if command == 0x01 and len(asked[3]["id"]) > 64:
        return f"the user's id has {len(asked[3]['id'])} bytes, more than 64"
    if (8 if command == 0x01 else 6) in asked:
        return "pinUvAuthParam is present, but the key has no PIN"
    if command == 0x01 and not any(entry["alg"] == -7 and entry["type"] == "public-key" for entry in asked[4]):
        return 'pubKeyCredParams has no entry with alg -7 (ES256) and type "public-key"'
    if options.get("uv"):
        return "the option uv is true, but the key does not verify users"
    if command == 0x01 and options.get("up") is False:
        return "the option up is false"
    if command == 0x02:
        return "the option rk is present, which is for authenticatorMakeCredential alone"
    return "enterpriseAttestation is present, but the key has none"


def find_fault(message: bytes) -> str:
    """Returns the reason why a message fails a check of its command."""
    command, parameters = message[0], message[1:]
    if command in COMMANDS_WITHOUT_PARAMETERS:
        return f"this command takes no parameters; bytes after the command byte: {len(parameters)}"
    if command not in PARAMETER_NAMES:
        return f"the authenticator command 0x{command:02x} is not supported"
    try:
        asked = ctap_cbor.decode(parameters)
    except ctap_cbor.CborError:
        return ""  # this decoder may find another error first; tests/unit tests each kind of error
    typed = isinstance(asked, dict) and all(
        key not in asked or test(asked[key]) for key, test in TYPES[command].items()
    )
    if not typed:
        return "a parameter, or a member in one, has the wrong CBOR type"
    return find_missing(command, asked) or find_failed_check(command, asked)


def iter_line_numbers(lines: list[bytes], replayed: list[bytes]) -> Iterator[int]:
    """Yields the line number in the log of each line of the replay, or 0 for a packet that isn't at this position of
    the log."""
    places = iter([number for number, line in enumerate(lines, 1) if line[:1] in INPUTS])
    number = 0
    for line in replayed:
        number = next(places) if line[:1] in INPUTS else number + 1
        yield number if lines[number - 1 : number] == [line] else 0


def find_need(live: list[bytes], number: int) -> Optional[bytes]:
    """Returns what the key needs after the input with this number, according to `live`, or None."""
    inputs = 0
    for line in live:
        inputs += line[:1] in INPUTS
        if inputs == number and line.startswith(b"# need "):
            return None if line == b"# need nothing" else line.split(b" ")[2]
    return None


def find_reason(
    machine: TransportModel, found: dict[str, Any], needed: Optional[bytes], need: Optional[bytes], line: bytes
) -> Optional[str]:
    """Returns why the key sends another packet, or None if the reason is unknown. `needed` is what the key needs before
    the input `line`, and `need` what it needs after it."""
    sent, logged = (bytes.fromhex(found.get(side, "")) for side in ("sent", "logged"))
    channel = int.from_bytes((sent or logged)[:4], "big")
    held = machine.open
    if not sent and held and held.channel == channel:
        received = f"{len(held.data)} of {held.length} bytes received"
        return f"still waiting for continuation packet {held.next} of the message from line {held.line}: {received}"
    if not sent and need and machine.work and machine.work.channel == channel:
        reply = REPLIES.get(line[:1])
        other = f"; line {found['input']} is {reply}" if reply and reply != NEEDS.get(needed or b"") else ""
        again = bytes([0x80 | KEEPALIVE, 0, 1, 2 if need == b"presence" else 1])
        if not other and logged[4:8] == again and machine.alive + 100 < 1 << 64:
            moment = line.split(b" ")[1].decode()
            return f"its next KEEPALIVE is due at {machine.alive + KEEPALIVE_MS} ms; line {found['input']} is at {moment} ms"
        return f"it needs {NEEDS[need]}{other}"
    if not sent and machine.is_stray:
        return f"line {found['input']} is a continuation packet outside any message"
    if not sent:
        told = machine.told.get(channel)
        last_response = f"no request is pending on this channel: line {told} has its last response"
        return last_response if told else f"line {found['input']} needs no further packet"
    if sent[4] < 0x80:
        return None
    if sent[4] == 0x80 | ERROR and sent[7] == ERROR_CHANNEL_BUSY:
        served = machine.open or machine.work
        assert served
        return f"on channel {served.channel:08x}, from line {served.line}"
    if sent[4] == 0x80 | ERROR:
        return machine.reasons[sent[7]]
    if sent[4] == 0x80 | KEEPALIVE:
        return explain_keepalive(machine, found)
    if sent[4] != 0x80 | CBOR:
        return f"line {found['input']} completes the message"
    if sent[7] == STATUS_CREDENTIAL_EXCLUDED and machine.excluded:
        place, made = machine.excluded[0]
        return f"excludeList[{place}] is the credential of line {made}"
    if sent[7]:
        owner = machine.answers[0]
        assert owner
        return explain_status(sent[7], owner, machine, line)
    return f"line {found['input']} is the last input that the request needs"


def explain_keepalive(machine: TransportModel, found: dict[str, Any]) -> str:
    """Returns why the key sends a KEEPALIVE, with the time of the previous KEEPALIVE."""
    # If two packets are sent for one input, the first is sent because time passed, and the second has the new status.
    last = machine.now if found["packet"] > 1 else machine.alive_before
    if last is None:
        return f"the request that line {found['input']} completes waits"
    return f"a request waits, with a KEEPALIVE at each change and every 100 ms; the last one was at {last} ms"


def explain_status(status: int, owner: Transaction, machine: TransportModel, line: bytes) -> str:
    """Returns why a request is rejected with this status, from the request and the input."""
    kind, reply = line[:1], line.split(b" ")[2:3]
    if status == 0x27:
        return "the user refused" if reply == [b"denied"] else "the user did not respond in time"
    if status == 0x7F and kind == b"k":
        return "the caller supplied no key pair" if reply == [b"no"] else "the new credential ID is already in use"
    if status == 0x2E:
        asked = ctap_cbor.decode(owner.data[1:])
        found = "allowList names no credential" if asked.get(3) else "no discoverable credential"
        return f"{found} of this RP on this key: the RP ID is {asked[1]}"
    if status == 0x30 and owner.request == RESET:
        return f"more than 10 s have passed since power-up: it was at 0 ms, this is at {machine.now} ms"
    if status == 0x30:
        return ""  # the reason depends on the pending assertions
    return {
        0x15: "the signature counter has reached its maximum",
        0x19: "excludeList names a credential on this key",
        0x28: "no capacity for another credential",
        0x2D: "the host sent CANCEL",
        0x2F: "the user did not respond in time",
        0x7F: "the caller supplied no signature",
    }.get(status) or find_fault(owner.data)


def flip_bit(line: bytes, chance: random.Random) -> bytes:
    """Returns the line of a packet in which one bit is flipped."""
    front, _, digits = line.rpartition(b" ")
    packet = bytearray.fromhex(digits.decode())
    packet[chance.choice([*range(12), *range(64)])] ^= 1 << chance.randrange(8)
    return front + b" " + packet.hex().encode()


def delay_input(line: bytes, chance: random.Random) -> bytes:
    """Returns an input with a later time."""
    words = line.split(b" ")
    words[1] = str(min(int(words[1]) + chance.choice([1, 100, 600, 11_000, 31_000]), 2**64 - 1)).encode()
    return b" ".join(words)


def change_reply(line: bytes, chance: random.Random) -> bytes:
    """Returns a different reply of the caller."""
    words = line.split(b" ")
    if words[0] == b"p":
        words[2] = chance.choice([b"granted", b"denied", b"timeout"])
    elif words[0] in (b"k", b"s"):
        words[2:] = [b"no"]
    return b" ".join(words)


def change_log(lines: list[bytes], chance: random.Random) -> None:
    """Changes a line of a log in place."""
    inputs = [place for place, line in enumerate(lines) if line[:1] in (b">", b"p", b"k", b"s")]
    replies = [place for place in inputs if lines[place][:1] in (b"p", b"k", b"s")]
    packets = [place for place, line in enumerate(lines) if line[:1] in (b">", b"<")]
    change = chance.choice(["left out", "left out", "doubled", "swapped", "later", "altered", "another reply"])
    place = chance.choice(inputs)
    if change == "doubled":
        lines.insert(place, lines[place])
    elif change == "swapped" and place + 1 < len(lines):
        lines[place : place + 2] = reversed(lines[place : place + 2])
    elif change == "later":
        lines[place] = delay_input(lines[place], chance)
    elif change == "altered":
        place = chance.choice(packets)
        lines[place] = flip_bit(lines[place], chance)
    elif change == "another reply" and replies:
        place = chance.choice(replies)
        lines[place] = change_reply(lines[place], chance)
    else:
        lines.pop(place)


def check_log(task: tuple[str, str, int]) -> tuple[int, Optional[str], int]:
    """Changes the log with this number, and checks the reason. Returns the finding, if any, and 1 if `check` printed a
    reason, or else 0."""
    program, seed, number = task
    chance = random.Random(f"{seed}/{number}/broken")

    def run(log: bytes, *words: str) -> list[bytes]:
        return subprocess.run([program, *words], input=log, capture_output=True, timeout=600).stdout.splitlines()

    lines = run(HostGenerator(f"{seed}/{number}").make_log(), "replay")
    change_log(lines, chance)
    written = run(b"\n".join(lines) + b"\n", "check", "--json")
    found = json.loads(written[0]) if written else {"kind": "none"}
    if found["kind"] != "difference":
        return number, None, 0
    actual = found.get("reason")
    if not found["input"]:
        expected: Optional[str] = "no input comes before this packet"
    else:
        expected = find_expected_reason(lines, found, run)
    if (actual is None) != (expected is None) or not (actual or "").endswith(expected or ""):
        return number, f"line {found['line']}: the reason is {expected!r}, not {actual!r}", 0
    return number, None, int(actual is not None)


def find_expected_reason(lines: list[bytes], found: dict[str, Any], run: Any) -> Optional[str]:
    """Returns the expected reason for a difference, from the transport model."""
    inputs = [line for line in lines if line[:1] in INPUTS]
    last = sum(line[:1] in INPUTS for line in lines[: found["input"]])
    log = b"\n".join(inputs) + b"\n"
    replayed = run(log, "replay")
    live = run(log, "live")
    machine = TransportModel(replayed, read_needs(live), list(iter_line_numbers(lines, replayed)), found["input"])
    return find_reason(machine, found, find_need(live, last - 1), find_need(live, last), inputs[last - 1])


def main() -> int:
    return check_logs(__doc__ or "", check_log, "{} logs, {} reasons, {} wrong")


if __name__ == "__main__":
    sys.exit(main())
