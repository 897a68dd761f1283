"""SecurityKey.from_recording responds to any client, and reports where the client differs from the recorded one."""

from __future__ import annotations

import threading
from pathlib import Path
from typing import Any

import pytest
from compare import read_packets

import hidlog
from hidlog.captures import read

pytest.importorskip("fido2")
from fido2.ctap import CtapError  # noqa: E402
from fido2.ctap2 import Ctap2  # noqa: E402

DATA = Path(__file__).resolve().parent / "data"
Key = hidlog.SecurityKey


def read_requests(log: bytes) -> list[bytes]:
    """Returns the CBOR requests in a log."""
    collected = hidlog.packets.MessageReassembler()
    messages = [collected.add(packet) for way, packet in read_packets(log) if way == b">"]
    return [message.data for message in messages if message is not None and message.command == hidlog.packets.CBOR]


def replay_requests(key: Any, requests: list[bytes]) -> list[bytes]:
    """Sends requests on one channel of a new client, and returns the responses."""
    client = hidlog.Client(key)
    return [client.transact(hidlog.packets.CBOR, request, lambda: False, lambda status: None) for request in requests]


@pytest.mark.parametrize("name", ["libfido2_register.pcap", "keyboard_beside.48.pcap", "partly.late.pcap"])
def test_another_client_with_one_channel(name: str) -> None:
    """libfido2 opened the key for each of its commands. The client in this test opens the key once."""
    (found,) = read(DATA / name)
    requests = read_requests(found.log)
    with Key.from_recording((DATA / name).read_bytes()) as key:
        answers = replay_requests(key, requests)
    assert len(answers) == len(requests) > 3 and all(answer[0] == 0 for answer in answers)


def test_python_fido2_against_a_recorded_key() -> None:
    """python-fido2 sends getInfo to a key that replays a recording of libfido2."""
    (found,) = read(DATA / "libfido2_register.fido_debug.txt")
    info = Ctap2(Key.from_recording(found.log).device()).info
    assert info.versions == ["FIDO_2_0"] and info.options["rk"] is True


def test_a_cancel_comes_when_the_client_wants() -> None:
    log = (DATA / "python_cancel.pcapng").read_bytes()
    (found,) = read(log)
    *before, last = read_requests(found.log)
    with Key.from_recording(log) as key:
        device = key.device()
        for item in before[: len(before)]:
            device.call(0x10, item)
        event = threading.Event()
        threading.Timer(0.5, event.set).start()
        seen: list[int] = []
        assert device.call(0x10, last, event, seen.append) == b"\x2d"
    assert seen


def test_a_packet_that_is_new_is_named() -> None:
    log = read(DATA / "libfido2_register.pcap")[0].log
    requests = read_requests(log)
    changed = requests[1][:40] + bytes([requests[1][40] ^ 1]) + requests[1][41:]
    with pytest.raises(
        hidlog.ReplayMismatchError,
        match=r"^line 9: the client sends .* \(its packet 3\).* first difference at byte 47$",
    ):
        replay_requests(Key.from_recording(log), [requests[0], changed])
    with pytest.raises(
        hidlog.ReplayMismatchError, match=r"the client sends .* \(its packet 3\), but .* first difference at byte 6"
    ):
        replay_requests(Key.from_recording(log), [requests[0], requests[0]])


def test_padding_and_moments_do_not_count() -> None:
    log = read(DATA / "libfido2_register.pcap")[0].log
    key = Key.from_recording(log)
    key.write_packet(bytes.fromhex("ffffffff860008") + b"12345678" + b"\xaa" * 49)
    channel = key.read_packet()[15:19]
    key.write_packet(channel + bytes.fromhex("90000104") + b"\xbb" * 56)
    assert key.read_packet()[:7].hex() == channel.hex() + "900051"


def test_several_keys_are_refused() -> None:
    from variants import read_transfers, encode_pcap

    first = read_transfers((DATA / "libfido2_register.pcap").read_bytes())
    other = [event._replace(device=9) for event in read_transfers((DATA / "keyboard_beside.48.pcap").read_bytes())]
    with pytest.raises(hidlog.LogError, match="has several keys .bus 1 device 3 interface 0, bus 1 device 9"):
        Key.from_recording(encode_pcap(first + other))


def test_an_error_of_the_recorded_key_comes_again() -> None:
    (found,) = read(DATA / "two_clients.48.pcap")
    assert b"bf000106" in found.log.replace(b" ", b"")
    with pytest.raises((CtapError, hidlog.HidlogError)):
        replay_requests(Key.from_recording(found.log), [b"\4"] * 9)
