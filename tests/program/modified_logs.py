"""Tests truncated and changed requests and packets, and hosts that send at the same time.

The responses follow from CTAP 2.1: a request that is not canonical CBOR gets status 12, a valid one waits for user
presence, and any other gets a status other than 00. After each, the key must handle replies and respond to the next
host's INIT. Many requests are in one log, in which each input has the timestamp 0, so a reset is within its time limit
of ten seconds.
"""

from __future__ import annotations

import itertools
import sys
from dataclasses import dataclass
from pathlib import Path
from typing import Iterable, Sequence

sys.path.insert(0, str(Path(__file__).resolve().parents[1] / "fuzz"))

from framing import BROADCAST, split_into_packets
from running import run

PING, INIT, CBOR, KEEPALIVE, ERROR = 0x81, 0x86, 0x90, 0xBB, 0xBF
NONCE = bytes([8] * 8)
REGISTRATION_MEMBERS = (
    b"\x01\x58\x20"
    + b"\x11" * 32
    + b"\x02\xa1\x62id\x6bexample.com\x03\xa1\x62id\x41\x01\x04\x81\xa2\x63alg\x26\x64type\x6apublic-key\x07\xa1\x62rk\xf5"
)
REGISTRATION = b"\x01\xa5" + REGISTRATION_MEMBERS
SIGN_IN = b"\x02\xa2\x01\x6bexample.com\x02\x58\x20" + b"\x22" * 32
REPLIES = [b"p 0 granted", b"k 0 " + b" ".join([b"ab" * 32, b"bb" * 32, b"cc" * 32]), b"s 0 " + b"dd" * 70]


def format_host_packets(sent: Iterable[bytes]) -> list[bytes]:
    """Returns the log lines for packets of a host."""
    return [b"> 0 " + packet.hex().encode() for packet in sent]


def format_key_packets(key: Iterable[bytes]) -> list[bytes]:
    """Returns the log lines for packets of the key."""
    return [b"< " + packet.hex().encode() for packet in key]


def make_status_packet(number: int) -> bytes:
    """Returns the packet of a response on channel 1 that consists of a status."""
    first: bytes = split_into_packets(1, CBOR, bytes([number]))[0]
    return first


def make_init_response(channel: int) -> bytes:
    """Returns the response to INIT on the broadcast channel."""
    first: bytes = split_into_packets(BROADCAST, INIT, NONCE + channel.to_bytes(4, "big") + b"\x02\x01\x00\x00\x0c")[0]
    return first


INIT_PACKETS = split_into_packets(BROADCAST, INIT, NONCE)
KEEPALIVE_UPNEEDED = split_into_packets(1, KEEPALIVE, b"\x02")[0]


@dataclass(frozen=True)
class InputResult:
    """The packets that the key sends for an input, and what it needs after the input."""

    packets: list[bytes]
    need: bytes


@dataclass(frozen=True)
class LiveResult:
    """The output of `live` for a log: the result of each input, and the counts at the end."""

    answers: list[InputResult]
    counts: list[int]

    def check_limits(self, rows: int) -> None:
        """Fails unless at most `rows` credentials were held, and decoding took at most 4 steps for each byte and 2
        for each request."""
        _, most, _, requests, size, steps = self.counts
        assert most == rows, f"expected a peak of {rows} credentials, got {most}"
        assert steps <= 4 * size + 2 * requests, f"{requests} requests of {size} bytes took {steps} steps"


def run_live(inputs: Sequence[bytes], *options: str) -> LiveResult:
    """Runs `live` on inputs, and returns the results."""
    said = run(["live", *options], b"\n".join([*inputs, b""]))
    assert said.returncode == 0 and said.stderr == b"", said.stderr.decode()
    answers: list[InputResult] = []
    lines = said.stdout.split(b"\n")
    key: list[bytes] = []
    for line in lines:
        if line.startswith(b"< "):
            key.append(bytes.fromhex(line[2:].decode()))
        elif line.startswith(b"# need "):
            answers.append(InputResult(key, line[7:]))
            key = []
    assert len(answers) == len(inputs), f"live has results for {len(answers)} of {len(inputs)} inputs"
    return LiveResult(answers, [int(word) for word in lines[-2].split()[2::2]])


def compare_sessions(work_dir: Path, logs: Sequence[list[bytes]]) -> None:
    """Fails unless `check` finds no difference in these logs, each in a new session."""
    names = [f"{number}.log" for number in range(len(logs))]
    for name, log in zip(names, logs):
        (work_dir / name).write_bytes(b"\n".join([*log, b""]))
    said = run(["check", *(str(work_dir / name) for name in names)])
    assert said.returncode == 0 and said.stderr == b"", said.stderr.decode()
    assert said.stdout.count(b": same ") == len(logs), said.stdout.decode()


def test_truncated_registration_is_refused(work_dir: Path) -> None:
    """A registration that is truncated to 1 to 90 bytes is not valid CBOR, so the status is 12. Decoding 1 byte takes
    one step, and 90 bytes take 99 steps."""
    greeted = [*format_host_packets(INIT_PACKETS), *format_key_packets([make_init_response(1)])]
    logs = [
        [
            *greeted,
            *format_host_packets(split_into_packets(1, CBOR, REGISTRATION[:length])),
            *format_key_packets([make_status_packet(0x12)]),
        ]
        for length in range(1, len(REGISTRATION))
    ]
    assert len(logs) == 90
    compare_sessions(work_dir, logs)
    for length, steps in ((1, 1), (90, 99)):
        lived = run_live(format_host_packets([*INIT_PACKETS, *split_into_packets(1, CBOR, REGISTRATION[:length])]))
        assert lived.counts[5] == steps, f"{length} bytes took {lived.counts[5]} steps, expected {steps}"


def test_large_heads_long_keys_and_deep_values(_: Path) -> None:
    """Tests a map of 2^64 - 1 pairs, a key of 256 bytes, and members with four and with five levels."""
    cases = [
        (b"\x01\xbb" + b"\xff" * 8, make_status_packet(0x12), 10),
        (b"\x01\xa2\x00\x00\x59\x01\x00" + bytes(256) + b"\x00", make_status_packet(0x14), 1046),
        (b"\x01\xa6" + REGISTRATION_MEMBERS + b"\x18\x40\x81\x81\x80", KEEPALIVE_UPNEEDED, None),
        (b"\x01\xa6" + REGISTRATION_MEMBERS + b"\x18\x40\x81\x81\x81\x80", make_status_packet(0x12), 107),
    ]
    for request, answer, steps in cases:
        lived = run_live(format_host_packets([*INIT_PACKETS, *split_into_packets(1, CBOR, request)]))
        assert lived.answers[-1].packets == [
            answer
        ], f"unexpected response to {request.hex()}: {lived.answers[-1].packets}"
        assert steps in (None, lived.counts[5]), f"{request.hex()} took {lived.counts[5]} steps, expected {steps}"
        lived.check_limits(0)


def list_changes(data: bytes) -> list[bytes]:
    """Returns the bytes with each byte changed to each other value."""
    return [data[:at] + bytes([value]) + data[at + 1 :] for at in range(len(data)) for value in range(256)]


def make_reset_lines() -> list[bytes]:
    """Returns the lines of a reset on channel 1."""
    return [*format_host_packets(split_into_packets(1, CBOR, b"\x07")), b"p 0 granted"]


def check_each_byte_changed(request: bytes, after: list[bytes], *options: str) -> None:
    """Fails unless each changed request either waits for user presence or is rejected, and no request is pending after
    the caller's replies."""
    requests = list_changes(request)
    count = len(split_into_packets(1, CBOR, request))
    groups = [[*format_host_packets(split_into_packets(1, CBOR, request)), *REPLIES, *after] for request in requests]
    lived = run_live([*format_host_packets(INIT_PACKETS), *itertools.chain.from_iterable(groups)], *options)
    begin = 1
    for changed, group in zip(requests, groups):
        told = lived.answers[begin : begin + len(group)]
        begin += len(group)
        first, served = told[count - 1], told[count + 2]
        assert all(answer == InputResult([], b"nothing") for answer in told[: count - 1]), changed.hex()
        if first.need == b"presence":
            assert first.packets == [KEEPALIVE_UPNEEDED], changed.hex()
        else:
            assert first.need == b"nothing" and len(first.packets) == 1, changed.hex()
            number = first.packets[0][7]
            assert number != 0 and first.packets == [make_status_packet(number)], changed.hex()
        assert served.need == b"nothing", f"after {changed.hex()}, the key still needs {served.need!r}"
        assert not after or told[-1] == InputResult(
            [make_status_packet(0)], b"nothing"
        ), f"after {changed.hex()}, the reset fails: {told[-1]}"
    lived.check_limits(1)


def check_each_packet_changed(request: bytes, after: list[bytes], *options: str) -> None:
    """Fails unless, after each changed packet, the key handles replies and responds to a host's INIT."""
    whole, host = split_into_packets(1, CBOR, request), format_host_packets(INIT_PACKETS)
    groups: list[list[bytes]] = []
    for number, packet in enumerate(whole):
        for changed in list_changes(packet):
            # INIT on the channel of an incomplete message drops the message.
            ends = [split_into_packets(channel, INIT, NONCE)[0] for channel in (1, int.from_bytes(changed[:4], "big"))]
            begun = format_host_packets([*whole[:number], changed, *whole[number + 1 :]])
            groups.append(
                [
                    *begun,
                    *REPLIES,
                    *host,
                    *format_host_packets(packet for packet in ends if packet != INIT_PACKETS[0]),
                    *after,
                ]
            )
    lived = run_live([*host, *itertools.chain.from_iterable(groups)], *options)
    begin, greeted_front = 1, make_init_response(0)[:15]
    for group in groups:
        told = lived.answers[begin : begin + len(group)]
        begin += len(group)
        served, greeted = told[len(whole) + 2], told[len(whole) + 3]
        shown = group[: len(whole)]
        assert served.need == b"nothing", f"after {shown}, the key still needs {served.need!r}"
        assert (
            greeted.packets[-1:] and greeted.packets[-1][:15] == greeted_front
        ), f"after {shown}, INIT gets no response"
        assert not after or told[-1] == InputResult(
            [make_status_packet(0)], b"nothing"
        ), f"after {shown}, the reset fails: {told[-1]}"
    lived.check_limits(1)


def test_three_hosts_in_every_order(work_dir: Path) -> None:
    """Three hosts send a PING of 100 bytes in two packets each, in all 90 orders. If a PING begins while no message is
    open, the response comes after its second packet. Otherwise, ERROR 06 is sent for its first packet, and no packet
    for its second one."""
    orders = sorted(set(itertools.permutations((1, 1, 2, 2, 3, 3))))
    assert len(orders) == 90
    logs = []
    for order in orders:
        log = [
            line
            for channel in (1, 2, 3)
            for line in [*format_host_packets(INIT_PACKETS), *format_key_packets([make_init_response(channel)])]
        ]
        served = 0
        begun: set[int] = set()
        for host in order:
            ping = split_into_packets(host, PING, bytes(100))
            if host not in begun:
                log += format_host_packets(ping[:1])
                begun.add(host)
                if served:
                    log += format_key_packets(split_into_packets(host, ERROR, b"\x06"))
                else:
                    served = host
            else:
                log += format_host_packets(ping[1:])
                if served == host:
                    log += format_key_packets(ping)
                    served = 0
        logs.append(log)
    compare_sessions(work_dir, logs)


def test_changed_requests(work_dir: Path, credentials: bytes) -> None:
    """Changes each byte of a registration and of a sign-in, and of their packets, to each other value."""
    (work_dir / "credentials").write_bytes(credentials)
    load = ["--load", str(work_dir / "credentials")]
    check_each_byte_changed(REGISTRATION, make_reset_lines())
    check_each_byte_changed(SIGN_IN, [], *load)
    check_each_packet_changed(REGISTRATION, make_reset_lines())
    check_each_packet_changed(SIGN_IN, [], *load)
