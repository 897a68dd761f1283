#!/usr/bin/env python3
"""Tests the recordings of the bridge of bridges/uhid; called by tests/clients/bridges.sh.

    tests/clients/bridge_recordings.py UHID [CHECKED]       arguments as in bridge_cases.py
"""

from __future__ import annotations

import os
import sys
from pathlib import Path
from typing import Iterator

from bridge import Bridge
from bridge_cases import NOBODY, UHID, check_exit, make_state, run_tests


def test_recording_does_not_replace_state(work_dir: Path) -> None:
    """A recording at the path of the state file is rejected."""
    state, old = make_state(work_dir)
    refused = "the recording would overwrite the state file; choose another path"
    for path in (str(state), f"{work_dir}/./key.state"):
        check_recording_refused(path, state, refused)
    assert state.read_bytes() == old
    # The snapshot of a recording is a separate file, whose path may be that of the state file.
    beside = work_dir / "session.log.snapshot"
    state.rename(beside)
    check_recording_refused(str(work_dir / "session.log"), beside, refused)
    assert beside.read_bytes() == old and not (work_dir / "session.log").exists()


def check_recording_refused(path: str, state: Path, said: str) -> None:
    """Checks that a bridge with a recording at this path exits with status 1 and this message, and creates no
    device."""
    bridge = Bridge([UHID, "-r", path, str(state)])
    assert not bridge.wait_until_plugged_in(), "the bridge created a device"
    check_exit(bridge.wait_until_exited(), 1, said)


def test_recording_is_private(work_dir: Path) -> None:
    """A recording and its snapshot have mode 0600, whatever the umask is, and the next bridge overwrites them."""
    state, _ = make_state(work_dir)
    umask = os.umask(0)
    try:
        for words in (["-t", "0"], ["-t", "1"]):
            bridge = Bridge([UHID, *words, "-r", str(work_dir / "session.log"), str(state)])
            assert bridge.wait_until_plugged_in(), bridge.wait_until_exited()
            check_exit(bridge.stop(), 0, "")
            for name in ("session.log", "session.log.snapshot"):
                assert (work_dir / name).stat().st_mode & 0o7777 == 0o600, name
            (work_dir / "session.log").write_bytes(b"an older recording\n")
    finally:
        os.umask(umask)
    assert b"older" not in (work_dir / "session.log.snapshot").read_bytes()


def plant_files(path: Path, other: Path) -> Iterator[str]:
    """Creates at a path, one after the other, files to which a bridge must not write. Yields the expected messages."""
    for target in (other, other.parent / "nowhere"):
        path.symlink_to(target)
        yield "the path must not be a symbolic link"
    os.link(other, path)
    yield "the file has other names (hard links); remove this one or choose another path"
    os.mkfifo(path, 0o600)
    yield f"{path}: cannot open the file: No such device or address"
    path.mkdir()
    yield f"{path}: cannot open the file: Is a directory"
    for mode in (0o644, 0o660, 0o602):
        path.write_bytes(b"kept")
        path.chmod(mode)
        yield f"this file with names of services and users: its permissions are {mode:04o}; run chmod 600"
    if os.geteuid() == 0:
        path.write_bytes(b"kept")
        path.chmod(0o600)
        os.chown(path, NOBODY, NOBODY)
        yield "the file belongs to another user; remove it or choose another path"


def test_planted_files_are_not_overwritten(work_dir: Path) -> None:
    """The bridge doesn't write a recording or its snapshot through a link, into a pipe, or into a file of another
    user."""
    state, _ = make_state(work_dir)
    other, log, snapshot = work_dir / "other", work_dir / "session.log", work_dir / "session.log.snapshot"
    other.write_bytes(b"another's")
    other.chmod(0o600)
    for path, beside in ((log, snapshot), (snapshot, log)):
        beside.write_bytes(b"an older one")
        beside.chmod(0o600)
        for said in plant_files(path, other):
            check_recording_refused(str(log), state, said)
            assert not path.is_file() or path.read_bytes() in (b"kept", b"another's"), said
            path.rmdir() if path.is_dir() else path.unlink()
        assert beside.read_bytes() == b"an older one"
        beside.unlink()
    assert other.read_bytes() == b"another's" and not (work_dir / "nowhere").exists()


TESTS = [
    test_recording_does_not_replace_state,
    test_recording_is_private,
    test_planted_files_are_not_overwritten,
]

if __name__ == "__main__":
    sys.exit(run_tests(TESTS))
