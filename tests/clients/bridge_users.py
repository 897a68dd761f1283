#!/usr/bin/env python3
"""Tests `hidlog-uhid --presence`; called by tests/clients/bridges.sh.

    tests/clients/bridge_users.py UHID

UHID is the compiled bridge of bridges/uhid. bridge.py replaces the kernel's device. The statuses are those of
docs/use/PROFILE.md: a denied registration and one that times out have the same status, and the recording shows
which it was. Exit status: 1 if a test fails.
"""

from __future__ import annotations

import os
import re
import subprocess
import sys
import tempfile
from pathlib import Path

from bridge import (
    BROADCAST,
    CBOR,
    INIT,
    KEEPALIVE,
    TIMEOUT_SECONDS,
    Bridge,
    EndedError,
    encode_packet,
    read_host_packets,
)

UHID = str(Path(sys.argv[1]).resolve()) if len(sys.argv) > 1 else ""
OK, DENIED = 0x00, 0x27


def plug_in(work_dir: Path, *words: str, stdin: int = subprocess.DEVNULL) -> Bridge:
    """Returns a bridge of a new key, which writes a recording."""
    bridge = Bridge(
        [UHID, "--record", str(work_dir / "session.log"), "--state", str(work_dir / "key"), *words], stdin=stdin
    )
    assert bridge.wait_until_plugged_in(), bridge.wait_until_exited()
    return bridge


def register_and_get_status(bridge: Bridge) -> int:
    """Registers, and returns the status."""
    said = bridge.exchange(read_host_packets("registration.log")[1:])
    assert said[0] == CBOR, said.hex()
    return said[1]


def read_replies(work_dir: Path) -> list[str]:
    """Returns the replies of the user in the recording."""
    return re.findall(r"^p \d+ (\w+)$", (work_dir / "session.log").read_text(), re.MULTILINE)


def test_script_replies_to_each_touch(work_dir: Path) -> None:
    """The lines of a script are used in order, and the last line is repeated. Comments and empty lines are ignored."""
    script = work_dir / "script"
    script.write_text("# the user\ndenied 0\n\n  timeout 10\ngranted\n")
    bridge = plug_in(work_dir, "--touch", "0", "--presence", f"script:{script}")
    said = [register_and_get_status(bridge) for _ in range(4)]
    assert said == [DENIED, DENIED, OK, OK], said
    ended = bridge.stop()
    assert ended == (0, ""), ended
    assert read_replies(work_dir) == ["denied", "timeout", "granted", "granted"]


def test_invalid_script_is_refused(work_dir: Path) -> None:
    """An invalid line is reported, and no device is created."""
    script = work_dir / "script"
    for text, said in (
        ("granted\nyes\n", "line 2: expected granted, denied or timeout"),
        ("granted 10 20\n", "line 1"),
        ("granted -1\n", "line 1"),
        ("granted 99999999999\n", "line 1"),
        ("# nothing\n\n", "expected at least one line with granted, denied or timeout"),
        ("granted\n" * 1001, "line 1001"),
    ):
        script.write_text(text)
        ran = subprocess.run([UHID, "-p", f"script:{script}", str(work_dir / "key")], capture_output=True, text=True)
        assert ran.returncode == 2 and said in ran.stderr, ran
    ran = subprocess.run([UHID, "-p", f"script:{work_dir}/no", str(work_dir / "key")], capture_output=True, text=True)
    assert ran.returncode == 2 and "No such file" in ran.stderr, ran
    for word in ("deny", "script:", "", "askk"):
        ran = subprocess.run([UHID, "-p", word, str(work_dir / "key")], capture_output=True, text=True)
        assert ran.returncode == 2 and "expected granted, ask or script:FILE" in ran.stderr, ran
    assert os.listdir(work_dir) == ["script"]


def test_terminal_input_decides(work_dir: Path) -> None:
    """The input y grants user presence, and n denies it. Any other input is ignored, even if it is long."""
    reader, writer = os.pipe()
    bridge = plug_in(work_dir, "--presence", "ask", stdin=reader)
    os.close(reader)
    os.write(writer, b"n\n")
    assert register_and_get_status(bridge) == DENIED
    os.write(writer, b"\nperhaps\n" + b"x" * 1000 + b"\nyes\nn\n")
    assert [register_and_get_status(bridge), register_and_get_status(bridge)] == [OK, DENIED]
    status, said = bridge.stop()
    os.close(writer)
    assert status == 0 and said.count("asks for a touch: type y") == 3, said
    assert read_replies(work_dir) == ["denied", "granted", "denied"]


def test_end_of_input_keeps_waiting(work_dir: Path) -> None:
    """After the end of standard input, the key waits for user presence, responds to other requests, and ends at a
    signal."""
    bridge = plug_in(work_dir, "--presence", "ask")
    channel = bridge.allocate_channel(bytes(8))
    for request in read_host_packets("registration.log")[1:]:
        bridge.write(channel + request[4:])
    assert any(
        packet[:5] == channel + bytes([KEEPALIVE]) for packet in bridge.iter_packets(TIMEOUT_SECONDS)
    ), "the key sent no KEEPALIVE"
    bridge.write(encode_packet(BROADCAST, INIT, b"another!"))
    assert any(packet[:5] == BROADCAST + bytes([INIT]) for packet in bridge.iter_packets(TIMEOUT_SECONDS))
    status, said = bridge.stop()
    assert status == 0 and "asks for a touch" in said, said
    assert read_replies(work_dir) == []


def test_help_and_version(work_dir: Path) -> None:
    """--help and --version print to standard output, with exit status 0."""
    for word, said in (("--help", "usage: hidlog-uhid [OPTIONS] STATE"), ("-V", "hidlog-uhid ")):
        ran = subprocess.run([UHID, word], capture_output=True, text=True)
        assert ran.returncode == 0 and ran.stdout.startswith(said) and not ran.stderr, ran
        with open("/dev/full", "wb") as full:
            assert subprocess.run([UHID, word], stdout=full, stderr=subprocess.PIPE).returncode == 2


TESTS = [
    test_script_replies_to_each_touch,
    test_invalid_script_is_refused,
    test_terminal_input_decides,
    test_end_of_input_keeps_waiting,
    test_help_and_version,
]


def main() -> int:
    failed = 0
    if not UHID:
        print((__doc__ or "").strip(), file=sys.stderr)
        return 2
    for test in TESTS:
        with tempfile.TemporaryDirectory() as folder:
            try:
                test(Path(folder))
            except (AssertionError, EndedError, TimeoutError, ValueError) as wrong:
                print(f"FAILED   {test.__name__}: {type(wrong).__name__} {wrong}")
                failed += 1
            finally:
                Bridge.kill_all()
    print(f"{len(TESTS) - failed} of {len(TESTS)} tests of the bridge's user passed")
    return 1 if failed else 0


if __name__ == "__main__":
    sys.exit(main())
