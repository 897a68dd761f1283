#!/usr/bin/env python3
"""Runs the program on the cases of cases.txt, the folder logs and tables.py, on snapshots, and on changed requests.

    tests/program/cases.py [PROGRAM [TEST ..]]      PROGRAM [default: release/hidlog], TEST [default: all]

A case is a block of lines. The first line has the exit status and the arguments. The first character of each other line
determines where the line belongs: `-` to the log, `+` to standard output, `|` to both, `?` to standard error, `#` to
none (a comment). Two dots at the end of a packet stand for zeros, up to 128 digits. A line `!` means that the log's
last line has no line feed. The log is on standard input, and in the file `log`. The expected texts follow from
docs/use/LOG_FORMAT.md and the standard.

Exit status: 1 if a test fails.
"""

from __future__ import annotations

import subprocess
import sys
import tempfile
from dataclasses import dataclass
from pathlib import Path

from modified_logs import (
    test_changed_requests,
    test_large_heads_long_keys_and_deep_values,
    test_three_hosts_in_every_order,
    test_truncated_registration_is_refused,
)
from snapshots import (
    test_each_byte_of_snapshot_changed,
    test_long_snapshots,
    test_snapshots_are_loaded_or_refused,
    test_snapshots_are_saved_as_version_2,
)
from tables import iter_cases

HERE = Path(__file__).resolve().parent
TOP = HERE.parents[1]
PROGRAM = str(Path(sys.argv[1]).absolute() if len(sys.argv) > 1 else TOP / "release/hidlog")
# The SHA-256 hash of the RP ID `example.com`.
RP_ID_HASH = bytes.fromhex("a379a6f6eeafb9a55e378c118034e2751e682fab9f2d30ab13d2125586ce1947")
SIGN_IN = """\
-> 0 ffffffff8600080001020304050607..
-> 0 0000000190003202a2016b6578616d706c652e636f6d0258202222222222222222222222222222222222222222222222222222222222222222..
"""


@dataclass(frozen=True)
class Case:
    """The arguments of a run, its log, and its expected result. If `has_more` is true, the expected output is only a
    part of the output."""

    text: str
    has_more: bool = False

    @property
    def words(self) -> list[str]:
        return self.text.partition("\n")[0].split(" ")[2:]

    @property
    def status(self) -> int:
        return int(self.text.partition(" ")[0])

    def select_lines(self, signs: str) -> bytes:
        """Returns the lines of the case that begin with one of these signs."""
        lines = self.text.split("\n")[1:]
        text = "".join(expand_packet(line[1:]) + "\n" for line in lines if line[:1] and line[0] in signs)
        return (text[:-1] if "!" in lines and "-" in signs else text).encode()

    def run(self, work_dir: Path) -> None:
        """Runs the program in a folder. Fails unless the result is the expected one."""
        log = self.select_lines("-|")
        (work_dir / "log").write_bytes(log)
        ended = subprocess.run([PROGRAM, *self.words], cwd=work_dir, input=log, capture_output=True, timeout=600)
        written, wanted = ended.stdout, self.select_lines("+|")
        assert ended.returncode == self.status, f"{self.text}\nexit status {ended.returncode}"
        assert ended.stderr == self.select_lines("?"), f"{self.text}\nunexpected stderr: {ended.stderr.decode()}"
        assert (
            written == wanted or self.has_more and wanted in written
        ), f"{self.text}\nunexpected stdout: {written.decode()}"


def expand_packet(line: str) -> str:
    """Returns a line in which the two dots at the end of a packet are replaced by zeros."""
    front, dots, _ = line.partition("..")
    is_packet = bool(dots) and line[:1] in ("<", ">")
    return front + "0" * (128 - len(front.rpartition(" ")[2])) if is_packet else line


def make_snapshot(version: int, head: int, end: bytes) -> bytes:
    """Returns a snapshot with one row: RP example.com, user 01 and ID AA... The bytes from the signature counter on are `end`."""
    out = bytes([0xA2, 0x01, version, 0x02, 0x81, head])
    for key, value in ((1, RP_ID_HASH), (2, b"\xaa" * 32), (3, b"\xbb" * 32), (4, b"\xcc" * 32)):
        out += bytes([key, 0x58, 0x20]) + value
    return out + b"\x05\x41\x01\x06\xf5\x07" + end


def check_saved(work_dir: Path, old: bytes, case: str, new: bytes) -> None:
    """Loads a snapshot of version 1, lets a host sign in, and saves a snapshot of version 2. Checks that loading and
    saving does not change that snapshot."""
    wanted = make_snapshot(2, 0xA8, new)
    (work_dir / "old").write_bytes(make_snapshot(1, 0xA7, old))
    Case(case, has_more=True).run(work_dir)
    assert (work_dir / "new").read_bytes() == wanted, f"{case}\nsaved {(work_dir / 'new').read_bytes().hex()}"
    (work_dir / "old").write_bytes(wanted)
    Case("0 hidlog replay --save=new --load=old\n+= held 0 rows 1 pending 0 requests 0 bytes 0 steps 0").run(work_dir)
    assert (work_dir / "new").read_bytes() == wanted, f"{case}\nchanges the snapshot by loading and saving it"


def read_cases(file: Path) -> list[Case]:
    """Returns the cases of a file."""
    lines = [word for word in file.read_text(encoding="utf-8").split("\n") if not word.startswith("#")]
    return [Case(text) for text in "\n".join(lines).strip("\n").split("\n\n")]


def test_cases_of_file(work_dir: Path) -> None:
    """Tests help, invalid arguments, valid and invalid logs, and files that cannot be read or written."""
    for case in read_cases(HERE / "cases.txt"):
        case.run(work_dir)


def test_log_outputs(work_dir: Path) -> None:
    """Tests the output of each command for the logs in the folder logs."""
    files = sorted((HERE / "logs").glob("*.txt"))
    assert len(files) == 11, f"expected 11 files of cases, got {len(files)}"
    for file in files:
        for case in read_cases(file):
            case.run(work_dir)


def test_tables(work_dir: Path) -> None:
    """Tests names of codes, items in diagnostic notation, long messages, and invisible characters."""
    for text in iter_cases():
        Case(text).run(work_dir)


def test_exhausted_counter_is_rejected_without_presence(work_dir: Path) -> None:
    """A sign-in with the signature counter 2^32 - 1 is rejected with status 15, without a request for user presence."""
    spent = b"\x1a\xff\xff\xff\xff"
    case = "0 hidlog replay --load old --save new\n" + SIGN_IN + "+< 000000019000011500.."
    check_saved(work_dir, spent, case, spent + b"\x08\x60")


def test_refused_signature_increments_counter(work_dir: Path) -> None:
    """If the caller provides no signature, the status is 7f, but the counter is incremented."""
    case = "0 hidlog replay --load old --save new\n" + SIGN_IN + "-p 10 granted\n-s 20 no\n+< 000000019000017f00.."
    check_saved(work_dir, b"\x00", case, b"\x01\x08\x60")


def test_signature_increments_counter(work_dir: Path) -> None:
    """The bytes to sign contain the incremented counter, and the log contains the need for a signature."""
    case = (
        "0 hidlog live --load old --save new\n"
        + SIGN_IN
        + "-p 10 granted\n-s 20 dd\n+p 10 granted\n+< 00000001bb000101..\n"
        + f"+# signed {RP_ID_HASH.hex()}0100000002{'22' * 32}\n+# need signature {'aa' * 32}\n+s 20 dd"
    )
    check_saved(work_dir, b"\x01", case, b"\x02\x08\x60")


def test_each_byte_of_requests_changed(work_dir: Path) -> None:
    """Whatever a host sends in place of a registration or a sign-in, the key responds, also to the next host's INIT."""
    test_changed_requests(work_dir, make_snapshot(1, 0xA7, b"\x00"))


def test_nothing_is_saved_after_error(work_dir: Path) -> None:
    """An error in the log leaves the file of --save unchanged."""
    said = "?hidlog: line 2: not a log line"
    Case(f"1 hidlog replay --save new\n|t 5\n-t 05\n{said}").run(work_dir)
    assert (
        not (work_dir / "new").exists() or (work_dir / "new").read_bytes() == b""
    ), "the file of --save was written despite the error"


def test_arguments_are_utf_8(work_dir: Path) -> None:
    """Arguments that are not UTF-8 are rejected; others are accepted."""
    for word, faults in ((b"r\xe9play", b"hidlog: an argument is not UTF-8\n"), ("r\u00e9play".encode(), None)):
        ended = subprocess.run([PROGRAM.encode(), word], cwd=work_dir, input=b"", capture_output=True, timeout=600)
        assert ended.returncode == 2, f"{word!r} ended with {ended.returncode}"
        assert (
            ended.stderr == faults or faults is None and word in ended.stderr
        ), f"unexpected stderr for the argument {word!r}: {ended.stderr!r}"


TESTS = [
    test_cases_of_file,
    test_log_outputs,
    test_tables,
    test_exhausted_counter_is_rejected_without_presence,
    test_refused_signature_increments_counter,
    test_signature_increments_counter,
    test_nothing_is_saved_after_error,
    test_arguments_are_utf_8,
    test_truncated_registration_is_refused,
    test_large_heads_long_keys_and_deep_values,
    test_three_hosts_in_every_order,
    test_each_byte_of_requests_changed,
    test_long_snapshots,
    test_snapshots_are_loaded_or_refused,
    test_snapshots_are_saved_as_version_2,
    test_each_byte_of_snapshot_changed,
]


def main() -> int:
    failed, names = 0, sys.argv[2:]
    tests = [test for test in TESTS if test.__name__ in names or not names]
    if unknown := set(names) - {test.__name__ for test in TESTS}:
        print(f"unknown test: {', '.join(sorted(unknown))}", file=sys.stderr)
        return 2
    for test in tests:
        with tempfile.TemporaryDirectory() as folder:
            try:
                test(Path(folder))
            except (AssertionError, subprocess.TimeoutExpired) as wrong:
                print(f"FAILED   {test.__name__}: {wrong}")
                failed += 1
    print(f"{len(tests) - failed} of {len(tests)} tests of the program's cases passed")
    return 1 if failed else 0


if __name__ == "__main__":
    sys.exit(main())
