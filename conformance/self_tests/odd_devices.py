"""Conforming but unusual devices have no violations, and broken devices do not hang the runner."""

from __future__ import annotations

import json
import os
import subprocess
import sys
import tempfile
import xml.etree.ElementTree as xml
from typing import Any, Dict

import ways
from hidlog_conformance import devices, device_info, report, run
from hidlog_conformance import hid_packets as hid
from hidlog_conformance.devices import HidrawDevice
from hidlog_conformance.player import Player
from hidlog_conformance.session_file import Session
from trying import HERE, Test, check_detected, make_device_arguments, run_command

# Packets of another host: a response, a KEEPALIVE, a new host's INIT response, and an incomplete message.
OTHERS = [
    hid.fragment_message(0x0000BEEF, hid.CBOR, b"\0\xa0")[0],
    hid.fragment_message(0x0000BEEF, hid.KEEPALIVE, b"\2")[0],
    hid.fragment_message(hid.BROADCAST, hid.INIT, b"browsers" + b"\0\0\xbe\xf0\2\0\0\0\x04")[0],
    hid.fragment_message(0x0000BEF0, hid.PING, bytes(100))[0],
]


class SharedTerminal(ways.Terminal):
    """A device shared with a browser: packets for the browser come before each response."""

    def write_out(self, packet: bytes) -> None:
        """Writes a packet, and others before it."""
        for other in OTHERS:
            os.write(self.master, other)
        os.write(self.master, packet)


def test_other_hosts() -> None:
    """Cases pass on a device shared with another host."""
    terminal = SharedTerminal()
    try:
        for only in ("init/nonce", "ping/bytes_0117", "info/", "channels/"):
            status, out, _ = run_command(["--device", terminal.path, "--only", only])
            assert status == 0 and " 0 failed" in out and not out.startswith("0 passed"), out
    finally:
        terminal.ended = True
        terminal.thread.join()


def test_keepalive_first() -> None:
    """A KEEPALIVE before getInfo's response does not change the supported features."""
    status, out, _ = run_command([*make_device_arguments("keepalive_first"), "--reset", "--only", "lists/allow_empty"])
    assert status == 0 and "1 passed, 0 failed" in out, out


def test_skip_reason() -> None:
    """The reason for skipping a case names the missing feature; only the report's header has the getInfo response."""
    _, out, _ = run_command([*make_device_arguments("plain"), "--only", "ping/bytes_7609"])
    assert "does not support: messages of 7609\n" in out and out.count("{1: ") == 1, out


def test_busy_device() -> None:
    """A device that asks for a touch only after 3.5 seconds passes."""
    status, out, _ = run_command([*make_device_arguments("busy"), "--only", "selection/granted", "--deadline", "12"])
    assert status == 0 and "1 passed" in out, out


def never_asked(player: Player) -> None:
    """Touches without waiting."""


def test_endless_keepalives() -> None:
    """Endless KEEPALIVEs fail at the deadline, and after three such cases the run stops."""
    words = [*make_device_arguments("keepalive_for_ever"), "--deadline", "2", "--jobs", "1", "--only", "cancel/of"]
    status, out, _ = run_command(words)
    assert status == 1 and "the end of the case before its deadline" in out, out
    _, out, _ = run_command(
        [*make_device_arguments("keepalive_for_ever"), "--deadline", "1", "--jobs", "1", "--only", "recorded/"]
    )
    assert out.count("not played: 3 cases reached their deadline") > 3, out


def test_line_without_newline() -> None:
    """A line without a newline is reported."""
    status, _, heard = run_command(make_device_arguments("no_line_feed"))
    assert status == 2 and "bytes without a newline" in heard, heard


def test_flood() -> None:
    """A flood of packets is reported."""
    status, _, heard = run_command(make_device_arguments("flood"))
    assert status == 2 and "does not respond to INIT" in heard, heard


def test_dev_zero() -> None:
    """/dev/zero is reported as a device that does not stop sending packets."""
    status, _, heard = run_command(["--device", "/dev/zero"])
    assert status == 2 and "does not stop sending packets" in heard, heard


def test_full_device() -> None:
    """A case is skipped if the device may have been full before."""
    _, out, _ = run_command([*make_device_arguments("full"), "--only", "make/answer"])
    assert "1 skipped" in out and "the device is full (28)" in out, out


def test_child_processes() -> None:
    """A command's child processes are killed."""
    # The number names the child among those of other runs of this test.
    seconds = f"38.{os.getpid():07d}"
    run_command([*make_device_arguments(f"with_a_child {seconds}"), "--only", "init/nonce_count"])
    found = subprocess.run(["ps", "-eo", "args"], capture_output=True, text=True, check=True).stdout
    assert f"sleep {seconds}" not in found, found


def test_escaped_text() -> None:
    """Text of a device is escaped for terminals and XML."""
    for kind in ("text", "junit", "tap", "json", "html"):
        _, out, _ = run_command([*make_device_arguments("evil_text"), "--only", "ping/bytes_7609", "--report", kind])
        assert not set(out) & set("\x1b\u202e\x01"), repr(out)
        if kind == "junit":
            xml.fromstring(out)


def test_late_packet() -> None:
    """In real time, too, a packet after the last response is detected."""
    status, out, _ = run_command([*make_device_arguments("continues"), "--only", "ping/bytes_0057"])
    assert status == 1 and "a continuation packet" in out, out


def test_nobody_unplugs() -> None:
    """Cases with power cycles are skipped if nobody unplugs the device."""
    with tempfile.NamedTemporaryFile() as file:
        device = HidrawDevice(file.name, False)
        clock = iter(range(0, 10000, 30))
        before = devices.time

        class Clock:
            """Advances 30 seconds at each call."""

            monotonic = staticmethod(lambda: float(next(clock)))
            sleep = staticmethod(lambda seconds: None)

        setattr(devices, "time", Clock)
        try:
            outcome = None
            try:
                device.power_cycle(0)
            except devices.CaseSkipped as unplayable:
                outcome = str(unplayable)
        finally:
            setattr(devices, "time", before)
        assert outcome == "nobody unplugged the device within a minute", outcome


def test_closed_output() -> None:
    """The command exits without a traceback if its output is closed."""
    words = f"{sys.executable} {os.path.join(HERE, '..', 'run.py')} --report tap | head -1"
    ended = subprocess.run(words, shell=True, capture_output=True, text=True, check=True)
    assert ended.stdout == "TAP version 13\n" and "Traceback" not in ended.stderr, ended.stderr


def test_warnings() -> None:
    """SHOULD violations are warnings, or failures with --warnings-as-errors; choices count with --profile-choices."""
    words = [*make_device_arguments("plain"), "--only", "cbor/uint_in_1_level_2"]
    assert run_command(words)[:1] == (0,) and "0 failed, 1 warned" in run_command(words)[1], run_command(words)
    assert run_command([*words, "--warnings-as-errors"])[0] == 1, "--warnings-as-errors"
    words = [*make_device_arguments("plain"), "--only", "cbor/array_in_1_level_1"]
    assert (
        run_command(words)[0] == 0 and "differs from a choice of this project's profile" in run_command(words)[1]
    ), run_command(words)
    assert run_command([*words, "--profile-choices"])[0] == 1, "--profile-choices"


def test_expected_failures() -> None:
    """An expected failure does not count, and an unexpected success is reported."""
    words = [*make_device_arguments("plain"), "--only", "cbor/break_alone_level_"]
    names = [f"cbor/break_alone_level_{level}" for level in (2, 3, 4)]
    with tempfile.NamedTemporaryFile("w") as file:
        file.write("# python-fido2's reader\n" + "\n".join(names) + "\n")
        file.flush()
        status, _, heard = run_command([*words, "--expected-failures", file.name])
        assert status == 0 and "unexpected" not in heard, heard
        status, _, heard = run_command(
            [*make_device_arguments("plain"), "--only", "ping/bytes_0000", "--expected-failures", file.name]
        )
        assert status == 0, heard
        file.write("ping/bytes_0000\n")
        file.flush()
        status, _, heard = run_command(
            [*make_device_arguments("plain"), "--only", "ping/bytes_0000", "--expected-failures", file.name]
        )
        assert "unexpected success" in heard, heard


def test_unstable_case() -> None:
    """A case that failed and then passed fails the run, with both recordings."""
    for kind in ("text", "junit", "tap", "json", "html"):
        with tempfile.TemporaryDirectory() as room:
            words = [*make_device_arguments(f"unstable {room}/pinged"), "--only", "ping/bytes_0058", "--report", kind]
            status, out, _ = run_command(words)
        assert status == 1 and "unstable" in out, out
        if kind == "text":
            assert out.count("\n           > 0 ") == 6 and "0 passed, 1 failed (1 unstable), 0 warned" in out, out
        if kind == "junit":
            assert xml.fromstring(out).get("failures") == "1", out
        if kind == "json":
            (case,) = json.loads(out)["cases"]
            first, second = case["recordings"]
            assert case["result"] == "unstable" and first.count("< ") == second.count("< ") and first != second, case


def test_listing() -> None:
    """--list, --skip and --version."""
    everything, some = (
        run_command(["--list"])[1].splitlines(),
        run_command(["--list", "--skip", "cbor/"])[1].splitlines(),
    )
    assert len(everything) > len(some) > 100 and all(": CTAP 2.1, " in line for line in everything)
    assert not [line for line in some if line.startswith("cbor/")], "--skip"


def first_message(device: Any, channel: int, nonce: bytes, seconds: float, until_asked: bool) -> Any:
    """Returns the first message of a channel as the response."""
    collector = hid.MessageReassembler()
    while True:
        packet = device.read(seconds)
        message = collector.feed(packet) if packet else None
        if packet is None or message is not None:
            return message


def give_long_reason(self: Any, session: Session, device: Any, touch: bool, reset: bool) -> str:
    """Returns a reason with the whole getInfo response."""
    return "" if self.has(session.uses[0]) else f"the device does not support: {session.uses[0]}\n{{1: {self.info}}}"


TESTS: Dict[str, Test] = {
    "device/other_hosts": check_detected(test_other_hosts, (Player, "is_for_others", lambda self, packet: False)),
    "device/keepalive_first": check_detected(test_keepalive_first, (device_info, "read_message", first_message)),
    "device/skip_reason": check_detected(
        test_skip_reason, (device_info.DeviceInfo, "find_skip_reason", give_long_reason)
    ),
    "device/busy": check_detected(test_busy_device, (Player, "wait_for_touch_request", never_asked)),
    "device/for_ever": test_endless_keepalives,
    "device/without_line_feed": test_line_without_newline,
    "device/flood": test_flood,
    "device/zeros": test_dev_zero,
    "device/full": check_detected(test_full_device, (devices.Device, "fresh", True)),
    "device/children": check_detected(test_child_processes, (devices.os, "killpg", lambda process, number: None)),
    "device/evil_text": check_detected(test_escaped_text, (report, "escape_text", str)),
    "device/behind": check_detected(test_late_packet, (Player, "check_end", lambda self: None)),
    "device/unplugged": test_nobody_unplugs,
    "device/reader_ends": test_closed_output,
    "report/results": test_warnings,
    "report/known": test_expected_failures,
    "report/lists": test_listing,
    "report/unstable": check_detected(test_unstable_case, (run, "mark_unstable", lambda first, second, late: second)),
}
