#!/usr/bin/env python3
"""Makes each system call of a bridge fail: the bridge of bridges/uhid, while it registers, and the OpenSSH provider of
bridges/ssh, while it signs. Afterwards the state file must be the complete old or new one, and the new one if a
response was sent. The exit status and the message must agree with this.

    tests/clients/bridge_faults.py UHID SK_CALL [--all] [--jobs N]

UHID is the compiled bridge; SK_CALL is sk_call.c with the provider. Without --all only calls that access files fail.
Needs strace. Exit status: 1 if a test fails.
"""

from __future__ import annotations

import argparse
import signal
import subprocess
import sys
import tempfile
from pathlib import Path
from typing import Optional, Sequence

from bridge import Bridge, EndedError, read_credential_ids

sys.path.insert(0, str(Path(__file__).resolve().parents[1] / "program"))
import injection  # noqa: E402

FILE_CALLS = (
    "openat",
    "read",
    "write",
    "fsync",
    "rename",
    "unlink",
    "flock",
    "fstat",
    "newfstatat",
    "close",
    "signalfd4",
)
KEPT, IN_PLACE = "the old file is kept", "the new file is in place"
# Expected failures with --all: a pattern for the call, and the reason. If an expected failure doesn't occur, this is
# reported.
KNOWN_FAILURES = {
    "ENOMEM at mmap 1": "the dynamic loader's own memory, before any code of ours: /bin/true is killed by it too"
}


def find_message_error(
    status: int, said: str, is_old: bool, place: injection.InjectedFault, log: Path
) -> Optional[str]:
    """Returns what is wrong with an exit status and a message, or None. `is_old` is whether the state file is the old
    one."""
    is_kill = place.fault == "KILL"
    # If fsync or rename fails, this has to be reported even if the file is correct.
    if status == 0 and place.call in ("fsync", "rename") and injection.was_injected(log, place):
        return f"status 0 after {place}"
    if status == 0 and said:
        return f"status 0, with the message {said!r}"
    if status == -signal.SIGKILL and is_kill:
        return None
    if status != 0 and not said:
        return f"status {status} without a message"
    if KEPT in said and not is_old or IN_PLACE in said and is_old:
        return f"wrong message {said!r}"
    return None


class Uhid:
    """Registrations with the bridge of bridges/uhid."""

    def __init__(self, program: str, old: bytes) -> None:
        self.program, self.old = program, old

    def register_once(self, folder: Path, trace: Sequence[str]) -> tuple[Optional[bytes], bool, int, str]:
        """Registers once. Returns the credential ID in the response, if any, whether the key returned an error, the exit
        status and the message."""
        words = [self.program, "-t", "0", "-r", str(folder / "recording"), str(folder / "key.state")]
        bridge = Bridge(words, trace=trace)
        made, refused = None, False
        try:
            if bridge.wait_until_plugged_in():
                made = bridge.register()
        except (EndedError, TimeoutError):
            pass
        except ValueError:
            refused = True
        stop_traced(bridge)
        return made, refused, *bridge.wait_until_exited()

    def find_error(self, place: injection.InjectedFault, folder: Path) -> Optional[str]:
        """Returns what is wrong after a fault, or None."""
        state = folder / "key.state"
        state.write_bytes(self.old)
        state.chmod(0o600)
        made, refused, status, said = self.register_once(folder, place.make_strace_prefix(folder / "strace"))
        new = state.read_bytes() if state.exists() else b""
        is_old = new == self.old
        if not is_old and len(read_credential_ids(new)) != 1:
            return f"the file holds {len(read_credential_ids(new))} credentials"
        if made is not None and read_credential_ids(new) != [made]:
            return "a response was sent, but its credential is not in the file"
        if status == 0 and made is None and not refused:
            return "status 0 without a response"
        wrong = find_message_error(status, said, is_old, place, folder / "strace")
        return wrong or (None if is_old and len(list(folder.iterdir())) < 4 else self.find_next_error(folder))

    def find_next_error(self, folder: Path) -> Optional[str]:
        """Registers with a new bridge, and returns what is wrong with it, or None."""
        made, _, status, said = self.register_once(folder, [])
        held = read_credential_ids((folder / "key.state").read_bytes())
        return None if status == 0 and not said and held == [made] else f"the next bridge ended with {status}: {said}"


def stop_traced(bridge: Bridge) -> None:
    """Terminates the bridge itself, because if only strace were terminated, the bridge would continue to run."""
    pid = bridge.process.pid
    try:
        children = Path(f"/proc/{pid}/task/{pid}/children").read_text(encoding="utf-8").split()
        if bridge.process.poll() is None:
            bridge.process.send_signal(signal.SIGTERM) if not children else terminate(int(children[0]))
    except (FileNotFoundError, ProcessLookupError):
        pass


def terminate(pid: int) -> None:
    subprocess.run(["kill", "-TERM", str(pid)], capture_output=True)


class Provider:
    """Sign-ins with the provider of bridges/ssh, each of which increments the counter."""

    def __init__(self, program: str, old: bytes, handle: str) -> None:
        self.program, self.old, self.handle = program, old, handle

    def sign(self, folder: Path, trace: Sequence[str]) -> tuple[int, int, str]:
        """Signs once. Returns the exit status, the signature counter in the response (0 without one), and the message."""
        words = [*trace, self.program, "sign", self.handle]
        state = {"HIDLOG_SK_STATE": str(folder / "key.state"), "PATH": "/usr/bin:/bin"}
        said = subprocess.run(words, capture_output=True, text=True, env=state, timeout=600)
        return said.returncode, int(said.stdout or 0), said.stderr

    def find_error(self, place: injection.InjectedFault, folder: Path) -> Optional[str]:
        state = folder / "key.state"
        state.write_bytes(self.old)
        state.chmod(0o600)
        status, counter, said = self.sign(folder, place.make_strace_prefix(folder / "strace"))
        is_old = state.read_bytes() == self.old
        # A signal may also end the provider after the response. In that case, the counter must be in the file, too.
        if status == 0 and counter == 0 or status > 0 and counter > 0:
            return f"status {status}, counter {counter}"
        if is_old and counter:
            return "a signature was sent, but its counter is not in the file"
        wrong = None if counter and status < 0 else find_message_error(status, said, is_old, place, folder / "strace")
        if wrong is not None:
            return wrong
        status, after, said = self.sign(folder, [])
        is_next = after == (2 if is_old else 3)
        return None if status == 0 and not said and is_next else f"the next sign-in: {status}, {after}, {said!r}"


def make_uhid(program: str, work_dir: Path) -> Uhid:
    """Returns the bridge with the state of a key that has one credential."""
    Uhid(program, b"").register_once(work_dir, [])
    return Uhid(program, (work_dir / "key.state").read_bytes())


def make_provider(program: str, work_dir: Path) -> Provider:
    """Returns the provider with the state of a key that has signed once."""
    state = {"HIDLOG_SK_STATE": str(work_dir / "key.state"), "PATH": "/usr/bin:/bin"}
    made = subprocess.run([program, "enroll"], capture_output=True, text=True, env=state, check=True)
    found = Provider(program, b"", made.stdout.strip())
    assert found.sign(work_dir, []) == (0, 1, "")
    return Provider(program, (work_dir / "key.state").read_bytes(), found.handle)


def main() -> int:
    parser = argparse.ArgumentParser(description=(__doc__ or "").splitlines()[0])
    parser.add_argument("uhid")
    parser.add_argument("sk_call")
    parser.add_argument("--all", action="store_true")
    parser.add_argument("--jobs", type=int, default=2)
    words = parser.parse_args()
    bad, only, known = 0, None if words.all else FILE_CALLS, KNOWN_FAILURES if words.all else {}
    with tempfile.TemporaryDirectory() as first, tempfile.TemporaryDirectory() as second:
        bridge, signer = make_uhid(words.uhid, Path(first)), make_provider(words.sk_call, Path(second))
        loops = (
            ("a registration at the bridge", bridge.find_error, lambda trace: bridge.register_once(Path(first), trace)),
            ("a sign-in at OpenSSH's provider", signer.find_error, lambda trace: signer.sign(Path(second), trace)),
        )
        for name, judge, run in loops:
            places = injection.list_faults(injection.count_calls(run, Path(second)), only)
            bad += injection.report_failures(
                name, len(places), injection.check_faults(places, judge, words.jobs), known
            )
    return 1 if bad else 0


if __name__ == "__main__":
    sys.exit(main())
