#!/usr/bin/env python3
"""Tests the state files of the bridges, and programs that flood them with packets; called by tests/clients/bridges.sh.

    tests/clients/bridge_cases.py UHID [CHECKED]

UHID is the compiled bridge of bridges/uhid; CHECKED is compiled with sanitizers, for tests without strace. Needs
strace and prlimit, but no kernel device, which bridge.py replaces. Exit status: 1 if a test fails.
"""

from __future__ import annotations

import itertools
import os
import re
import shutil
import signal
import subprocess
import sys
import tempfile
import threading
import time
from hashlib import sha256
from pathlib import Path
from typing import Callable, Sequence

from bridge import (
    BROADCAST,
    CBOR,
    ERROR,
    INIT,
    INPUT2,
    OUTPUT,
    PACKET_BYTES,
    PING,
    TIMEOUT_SECONDS,
    Bridge,
    EndedError,
    encode_packet,
    read_credential_ids,
    read_host_packets,
    to_output_event,
)

NOBODY = 65534
ERROR_CHANNEL_BUSY = 0x06
UHID_PLAIN = str(Path(sys.argv[1]).resolve()) if len(sys.argv) > 1 else ""
UHID = str(Path(sys.argv[-1]).resolve()) if len(sys.argv) > 1 else ""


def make_state(work_dir: Path) -> tuple[Path, bytes]:
    """Returns the state file of a key with one credential, and its contents."""
    state = work_dir / "key.state"
    bridge = Bridge([UHID, "-t", "0", str(state)])
    assert bridge.wait_until_plugged_in(), bridge.wait_until_exited()
    bridge.register()
    check_exit(bridge.stop(), 0, "")
    assert len(read_credential_ids(state.read_bytes())) == 1 and state.stat().st_mode & 0o7777 == 0o600
    assert sorted(os.listdir(work_dir)) == ["key.state", "key.state.lock"], os.listdir(work_dir)
    return state, state.read_bytes()


def check_exit(ended: tuple[int, str], status: int, said: str) -> None:
    assert ended[0] == status and said in ended[1] and bool(said) == bool(ended[1]), ended


def check_refused(state: Path, said: str, user: int | None = None) -> None:
    """Checks that the bridge exits with status 1 and this message, and creates no device."""
    bridge = Bridge([UHID, str(state)], user=user)
    assert not bridge.wait_until_plugged_in(), "the bridge created a device"
    check_exit(bridge.wait_until_exited(), 1, said)


# ---- the state file


def test_unreadable_state_is_kept(work_dir: Path) -> None:
    """An unreadable state file is not treated as a new key, and stays unchanged."""
    state, old = make_state(work_dir)
    work_dir.chmod(0o777)
    user = NOBODY if os.geteuid() == 0 else None
    if user is not None:
        os.chown(state, user, user)
        os.chown(work_dir / "key.state.lock", user, user)
    state.chmod(0)
    check_refused(state, "cannot open the file: Permission denied", user=user)
    state.chmod(0o600)
    assert state.read_bytes() == old


def test_loose_permissions_are_refused(work_dir: Path) -> None:
    """A state file that other users may read or write is rejected, and the message contains a remedy."""
    state, old = make_state(work_dir)
    for mode in (0o640, 0o604, 0o620, 0o602, 0o666, 0o611):
        state.chmod(mode)
        check_refused(state, f"this file with private keys: its permissions are {mode:04o}; run chmod 600")
    for mode in (0o600, 0o700, 0o400):
        state.chmod(mode)
        bridge = Bridge([UHID, str(state)])
        assert bridge.wait_until_plugged_in(), bridge.wait_until_exited()
        check_exit(bridge.stop(), 0, "")
        assert state.read_bytes() == old


def test_links_are_refused(work_dir: Path) -> None:
    """If the state file or its lock is a link, even one without a target, the link is not followed."""
    state, old = make_state(work_dir)
    link = work_dir / "link"
    for target in (state, work_dir / "nowhere"):
        link.symlink_to(target)
        check_refused(link, "the path must not be a symbolic link")
        link.unlink()
    lock = work_dir / "key.state.lock"
    lock.unlink()
    lock.symlink_to(work_dir / "nowhere")
    check_refused(state, ".lock: cannot open the lock file")
    assert state.read_bytes() == old and not (work_dir / "nowhere").exists()


def test_planted_link_is_not_overwritten(work_dir: Path) -> None:
    """If another user created a link under the name of the temporary file, the link is not followed."""
    state, _ = make_state(work_dir)
    other = work_dir / "other"
    other.write_bytes(b"another's")
    (work_dir / "key.state.new").symlink_to(other)
    bridge = Bridge([UHID, "-t", "0", str(state)])
    assert bridge.wait_until_plugged_in(), bridge.wait_until_exited()
    name = bridge.register()
    check_exit(bridge.stop(), 0, "")
    assert other.read_bytes() == b"another's" and read_credential_ids(state.read_bytes()) == [name]
    assert not state.is_symlink() and not (work_dir / "key.state.new").exists()


def test_link_planted_meanwhile_is_not_overwritten(work_dir: Path) -> None:
    """The link is not followed, even if it is created immediately before the file. In this test, the call before that
    is delayed by half a second."""
    state, old = make_state(work_dir)
    other, link, is_over = work_dir / "other", work_dir / "key.state.new", threading.Event()
    other.write_bytes(b"another's")

    def plant() -> None:
        while not is_over.wait(0.01):
            if not link.is_symlink():
                link.symlink_to(other)

    slow = ["strace", "-f", "-qq", "-o", "/dev/null", "-e", "inject=unlink:delay_exit=500000:when=1"]
    bridge = Bridge([UHID_PLAIN, "-t", "0", str(state)], trace=slow)
    assert bridge.wait_until_plugged_in(), bridge.wait_until_exited()
    lane = threading.Thread(target=plant)
    lane.start()
    try:
        raise AssertionError(f"a response was sent: {bridge.register().hex()}")
    except EndedError:
        pass
    finally:
        is_over.set()
        lane.join(TIMEOUT_SECONDS)
    check_exit(bridge.wait_until_exited(), 1, "nothing was saved, and the file is unchanged: File exists")
    assert other.read_bytes() == b"another's" and state.read_bytes() == old


def test_folder_at_temporary_path_is_reported(work_dir: Path) -> None:
    """If the new file cannot be written, no response is sent, and the old file is kept."""
    state, old = make_state(work_dir)
    (work_dir / "key.state.new").mkdir()
    bridge = Bridge([UHID, "-t", "0", str(state)])
    assert bridge.wait_until_plugged_in(), bridge.wait_until_exited()
    try:
        raise AssertionError(f"a response was sent: {bridge.register().hex()}")
    except EndedError:
        pass
    check_exit(bridge.wait_until_exited(), 1, "key.state: nothing was saved, and the file is unchanged: Is a directory")
    assert state.read_bytes() == old


def test_damaged_state_is_refused(work_dir: Path) -> None:
    """A state file that is truncated, too long, or contains another private key is rejected and stays unchanged. The
    same is true if the checksum is correct, and for the format of older versions without checksums."""
    state, saved = make_state(work_dir)
    old = saved[:-32]
    application_end = 9 + 32 + 32 + 63
    wrong = [old[:length] for length in {0, 1, 8, 9, 40, 136, 137, 138, 200, len(old) - 1}]
    wrong += [old + b"\0", old + b"\0" * 40000, b"hidlogS3" + old[8:], old[:8] + b"\x42" + old[9:]]
    wrong += [old[:9] + bytes(32) + old[41:], old[:41] + bytes(31) + b"\x01" + old[73:]]
    wrong += [old[:application_end] + b"a" + old[application_end + 1 :], old[:8] + b"\x02" + old[9:137] * 2 + old[137:]]
    for data in wrong:
        older = b"hidlogS1" + data[8:] if data[:8] == old[:8] else data
        for form in (data + sha256(data).digest(), older, data):
            state.write_bytes(form)
            check_refused(state, "key.state: the ")
            assert state.read_bytes() == form


def test_checksum_covers_each_byte(work_dir: Path) -> None:
    """A file with a changed bit is rejected. A file of an older version without a checksum is accepted, and a checksum
    is added to it."""
    state, saved = make_state(work_dir)
    for place in range(len(saved)):
        state.write_bytes(saved[:place] + bytes([saved[place] ^ 1 << place % 8]) + saved[place + 1 :])
        said = subprocess.run([UHID_PLAIN, "-f", "99", str(state)], capture_output=True, text=True)
        assert said.returncode == 1 and "key.state: the file is" in said.stderr, (place, said.stderr)
    state.write_bytes(b"hidlogS1" + saved[8:-32])
    bridge = Bridge([UHID, str(state)])
    assert bridge.wait_until_plugged_in(), bridge.wait_until_exited()
    check_exit(bridge.stop(), 0, "")
    assert state.read_bytes() == saved


def test_special_files_are_refused(work_dir: Path) -> None:
    """A folder, a pipe or a device at the path of the state file is rejected at once, and not replaced."""
    (work_dir / "folder").mkdir()
    os.mkfifo(work_dir / "pipe", 0o600)
    check_refused(work_dir / "folder", "not a regular file")
    check_refused(work_dir / "pipe", "not a regular file")
    check_refused(work_dir / "none" / "key.state", "cannot open the lock file: No such file or directory")
    assert (work_dir / "folder").is_dir() and (work_dir / "pipe").is_fifo()


def test_without_device_nothing_is_saved(work_dir: Path) -> None:
    """Without a device the state file is neither written nor created."""
    state, old = make_state(work_dir)
    node = state.stat().st_ino
    for path in (state, work_dir / "fresh.state"):
        said = subprocess.run([UHID, "-f", "99", str(path)], capture_output=True, text=True)
        assert said.returncode == 1 and "cannot create the HID device: Bad file descriptor" in said.stderr, said
    assert state.read_bytes() == old and state.stat().st_ino == node and not (work_dir / "fresh.state").exists()


def test_second_bridge_waits(work_dir: Path) -> None:
    """A second bridge with the same file prints a message and waits. A signal ends it."""
    state, old = make_state(work_dir)
    first = Bridge([UHID, str(state)])
    assert first.wait_until_plugged_in(), first.wait_until_exited()
    waits = "another program has locked the file; waiting until that program exits"
    second = Bridge([UHID, str(state)])
    assert not second.wait_until_plugged_in(0.3), "the second bridge created a device"
    check_exit(second.stop(signal.SIGINT), -signal.SIGINT, waits)
    third = Bridge([UHID, str(state)])
    assert not third.wait_until_plugged_in(0.3), "the second bridge created a device"
    check_exit(first.stop(), 0, "")
    assert third.wait_until_plugged_in(), third.wait_until_exited()
    check_exit(third.stop(), 0, waits)
    assert state.read_bytes() == old


def test_invalid_options_are_reported(work_dir: Path) -> None:
    state = str(work_dir / "key.state")
    wrong: list[list[str]] = [
        [],
        [state, state],
        ["-t", "x", state],
        ["-t", "-1", state],
        ["-t", "", state],
        ["-f", "x", state],
        ["--state", state, state],
        ["--presence"],
        ["--presense", "granted", state],
    ]
    for words in wrong:
        said = subprocess.run([UHID, *words], capture_output=True, text=True)
        assert said.returncode == 2 and "usage: hidlog-uhid" in said.stderr, said
    assert not os.listdir(work_dir)


def test_full_disk_keeps_state(work_dir: Path) -> None:
    """If the file system is full or the file size limit is reached, no response is sent, and the old file is kept."""
    state, old = make_state(work_dir)
    limited = ["prlimit", f"--fsize={len(old) - 1}"]
    bridge = Bridge([UHID, "-t", "0", str(state)], trace=limited)
    assert bridge.wait_until_plugged_in(), bridge.wait_until_exited()
    try:
        raise AssertionError(f"a response was sent: {bridge.register().hex()}")
    except EndedError:
        pass
    check_exit(bridge.wait_until_exited(), 1, "nothing was saved, and the file is unchanged: File too large")
    assert state.read_bytes() == old and not (work_dir / "key.state.new").exists()


def test_slow_device_gets_all_packets(work_dir: Path) -> None:
    """All packets are sent to a nonblocking device, even if it accepts no packet for a while."""
    bridge = Bridge([UHID, "-r", f"{work_dir}/recording", f"{work_dir}/key.state"], waits=False)
    assert bridge.wait_until_plugged_in(), bridge.wait_until_exited()
    channel = bridge.allocate_channel(b"recorded")
    bridge.is_read.clear()
    flood = Flood(bridge, [encode_packet(channel, PING, b"x" * 50)], 200)
    time.sleep(0.5)
    bridge.is_read.set()
    for _ in range(200):
        assert bridge.read_response(channel)[0] == PING
    flood.stop()
    check_exit(bridge.stop(), 0, "")
    recorded = (work_dir / "recording").read_bytes()
    assert recorded.count(b"> ") == 201 and recorded.count(b"< ") == 201, recorded.count(b"< ")


# ---- floods


class Flood:
    """A program that writes packets as fast as it can, until it is stopped."""

    def __init__(self, bridge: Bridge, packets: Sequence[bytes], most: int = 1 << 30) -> None:
        self.bridge, self.written, self.most, self.is_over = bridge, 0, most, False
        self.lane = threading.Thread(target=self.run, args=([to_output_event(packet) for packet in packets],))
        self.lane.start()

    def run(self, events: Sequence[bytes]) -> None:
        for event in itertools.islice(itertools.cycle(events), self.most):
            if self.is_over:
                return
            try:
                self.bridge.send(event)
            except EndedError:
                return
            self.written += 1

    def wait_until_started(self) -> bool:
        """Waits until the program has written a thousand packets."""
        return self.wait_until_written(1000)

    def wait_for_next_packet(self) -> bool:
        """Waits until the program has written another packet."""
        return self.wait_until_written(self.written + 1)

    def wait_until_written(self, count: int) -> bool:
        """Waits until the program has written this number of packets."""
        end = time.monotonic() + TIMEOUT_SECONDS
        while self.written < count and time.monotonic() < end:
            time.sleep(0.01)
        return self.written >= count

    def stop(self) -> int:
        """Stops the program, and returns the number of packets that it wrote."""
        self.is_over = True
        self.lane.join(TIMEOUT_SECONDS)
        return self.written


def make_floods(channel: bytes) -> dict[str, list[bytes]]:
    """Returns the packets of each kind of flood: on one allocated channel, on a channel that isn't allocated, or on all
    channels."""
    ping = encode_packet(channel, PING, b"flood")
    return {
        "PING": [ping],
        "getInfo": [encode_packet(channel, CBOR, b"\x04")],
        "INIT with one nonce": [encode_packet(BROADCAST, INIT, b"floodflo")],
        "continuation packets outside any transaction": [channel + b"\0" * 60],
        "channels that were never allocated": [
            encode_packet(bytes([7, 0, number >> 8, number & 255]), PING, b"") for number in range(999)
        ],
        "incomplete messages": [encode_packet(channel, PING, b"x" * 7000)[:PACKET_BYTES], *[ping] * 500],
    }


def register_on_new_channel(bridge: Bridge) -> bytes:
    """Registers on a new channel, and returns the response."""
    channel = bridge.allocate_channel(os.urandom(8))
    for request in read_host_packets("registration.log")[1:]:
        bridge.write(channel + request[4:])
    return bridge.read_response(channel)


def test_flood_starves_nobody(work_dir: Path) -> None:
    """While one program floods the device, another program can allocate a channel and register."""
    state = work_dir / "key.state"
    bridge = Bridge([UHID, "-t", "200", str(state)])
    assert bridge.wait_until_plugged_in(), bridge.wait_until_exited()
    for name, packets in make_floods(bridge.allocate_channel(b"floods!!")).items():
        flood = Flood(bridge, packets)
        assert flood.wait_until_started(), f"a flood of {name} did not start: {flood.written} packets were written"
        began = flood.written
        try:
            answer = register_on_new_channel(bridge)
            assert flood.wait_for_next_packet(), f"a flood of {name} stopped after {flood.written} packets"
        finally:
            written = flood.stop()
        print(f"a flood of {name}: another program got its response after {written - began:,} packets of {written:,}")
        # While a message of another program is incomplete, the key is busy, as the standard requires.
        rights = [bytes([CBOR, 0])] + ([bytes([ERROR, ERROR_CHANNEL_BUSY])] if "incomplete" in name else [])
        assert answer[:2] in rights, (name, written, answer[:2])
        for _ in bridge.iter_packets(0.2):
            pass
    check_exit(bridge.stop(), 0, "")


def test_packets_take_turns(work_dir: Path) -> None:
    """Between a packet of a program and its response, the bridge responds to only a few packets of the flood, however
    many it has read before. This is checked in the system calls of the bridge."""
    log = work_dir / "strace"
    trace = ["strace", "-f", "-qq", "-o", str(log), "-xx", "-s", "20", "-e", "trace=read,write"]
    bridge = Bridge([UHID_PLAIN, str(work_dir / "key.state")], trace=trace)
    assert bridge.wait_until_plugged_in(), bridge.wait_until_exited()
    flooding, asking = bridge.allocate_channel(b"floods!!"), bridge.allocate_channel(b"asks!!!!")
    flood = Flood(bridge, [encode_packet(flooding, PING, b"flood")])
    assert flood.wait_until_started()
    for _ in range(20):
        bridge.write(encode_packet(asking, PING, b"asked"))
        assert bridge.read_response(asking)[0] == PING
    flood.stop()
    bridge.process.kill()
    waited = list_turns(log.read_text(encoding="utf-8"), flooding, asking)
    print(
        f"by strace: {max(answered for answered, _ in waited)} packets of the flood are answered before another program's, "
        f"of up to {max(read for _, read in waited)} read before it and not answered"
    )
    assert (
        len(waited) == 20 and max(answered for answered, _ in waited) <= 3 and max(read for _, read in waited) > 20
    ), waited


def list_turns(log: str, flooding: bytes, asking: bytes) -> list[tuple[int, int]]:
    """For each response on the channel `asking`, returns the number of responses on the channel `flooding` since the
    request was read, and the number of unanswered packets on the channel `flooding` before it."""
    waited, since, before, queued = [], -1, 0, 0
    for name, text in re.findall(r'(read|write)\(\d+, "([^"]*)"', log):
        event = bytes.fromhex(text.replace("\\x", ""))
        kind, channel = int.from_bytes(event[:4], "little"), event[5:9] if name == "read" else event[6:10]
        if name == "read" and kind == OUTPUT and channel == asking:
            since, before = 0, queued
        elif name == "read" and kind == OUTPUT and channel == flooding:
            queued += 1
        elif name == "write" and kind == INPUT2 and channel == flooding:
            queued, since = queued - 1, since + (since >= 0)
        elif name == "write" and kind == INPUT2 and channel == asking and since >= 0:
            waited.append((since, before))
            since = -1
    return waited


TESTS = [
    test_unreadable_state_is_kept,
    test_loose_permissions_are_refused,
    test_links_are_refused,
    test_planted_link_is_not_overwritten,
    test_link_planted_meanwhile_is_not_overwritten,
    test_folder_at_temporary_path_is_reported,
    test_damaged_state_is_refused,
    test_checksum_covers_each_byte,
    test_special_files_are_refused,
    test_without_device_nothing_is_saved,
    test_second_bridge_waits,
    test_invalid_options_are_reported,
    test_full_disk_keeps_state,
    test_slow_device_gets_all_packets,
    test_flood_starves_nobody,
    test_packets_take_turns,
]


def run_tests(tests: Sequence[Callable[[Path], None]]) -> int:
    """Runs each test in a new folder, and returns the exit status."""
    failed = 0
    if not UHID or shutil.which("prlimit") is None or shutil.which("strace") is None:
        print((__doc__ or "").strip(), file=sys.stderr)
        return 2
    for test in tests:
        with tempfile.TemporaryDirectory() as folder:
            Path(folder).chmod(0o755)
            try:
                test(Path(folder))
            except (AssertionError, EndedError, TimeoutError, ValueError) as wrong:
                print(f"FAILED   {test.__name__}: {type(wrong).__name__} {wrong}")
                failed += 1
            finally:
                Bridge.kill_all()
    print(f"{len(tests) - failed} of {len(tests)} tests of the bridges passed")
    return 1 if failed else 0


if __name__ == "__main__":
    sys.exit(run_tests(TESTS))
