#!/usr/bin/env python3
"""Changes the worked logs, and checks the program's results: tests/mutate_worked_logs.py [PROGRAM].

The logs are those in crates/hidlog_cli/args, which the gate compares, and one that starts with a snapshot. `check` must
count the inputs and packets of each log, and find each packet that is changed, removed or duplicated. The output of
`quiet` must stay the same if `quiet` is applied to it; its replay must send only packets of the log, in order, with the
same totals. The output of `live` must equal its own replay and, without the lines about needs, the log.

Exit status: 1 if a test fails.
"""

from __future__ import annotations

import subprocess
import sys
import tempfile
from dataclasses import dataclass
from pathlib import Path
from typing import Iterator

TOP = Path(__file__).resolve().parents[1]
PROGRAM = str(Path(sys.argv[1]).resolve() if len(sys.argv) > 1 else TOP / "release/hidlog")
DATA = TOP / "crates/hidlog_cli/data"
# The maximum number of files that one call of `check` compares.
MAX_FILES = 500


def run_command(command: str, log: bytes, options: list[str]) -> bytes:
    """Returns the output of a command for a log."""
    ended = subprocess.run([PROGRAM, command, *options], input=log, capture_output=True, timeout=600, check=True)
    return ended.stdout


def is_input(line: bytes) -> bool:
    """Returns whether a line is an input."""
    return line[:1] in (b">", b"t", b"p", b"k", b"s")


def is_packet(line: bytes) -> bool:
    """Returns whether a line is a packet of the key."""
    return line.startswith(b"<")


@dataclass(frozen=True)
class Log:
    """A worked log: its name, its text, and the options with which it is replayed."""

    name: str
    text: bytes
    options: list[str]

    @property
    def lines(self) -> list[bytes]:
        """Returns the lines of the log, each with its line feed."""
        return self.text.splitlines(keepends=True)

    def iter_changes(self) -> Iterator[tuple[bytes, str]]:
        """Yields the log with a packet changed, removed or duplicated, each time with the expected first difference."""
        lines, input_line, packet = self.lines, 0, 0
        for at, line in enumerate(lines):
            if is_input(line):
                input_line, packet = at + 1, 0
            if not is_packet(line):
                continue
            packet += 1
            before, after = b"".join(lines[:at]), b"".join(lines[at + 1 :])
            other = line[:-2] + (b"1\n" if line[-2:] == b"0\n" else b"0\n")
            here = f"line {input_line}: differs at packet {packet}"
            yield before + other + after, here
            yield before + after, here
            yield before + line + line + after, f"line {input_line}: differs at packet {packet + 1}"

    def check_comparison(self, work_dir: Path) -> None:
        """Checks that `check` counts the inputs and packets of the log, and finds each change."""
        inputs, packets = sum(map(is_input, self.lines)), sum(map(is_packet, self.lines))
        wanted = f"same {inputs} inputs {packets} packets\n".encode()
        assert run_command("check", self.text, self.options) == wanted, f"check finds a difference in {self.name}"
        changes = list(self.iter_changes())
        assert len(changes) == 3 * packets
        for begin in range(0, len(changes), MAX_FILES):
            check_changed_logs(work_dir, self, changes[begin : begin + MAX_FILES])

    def check_quiet(self) -> None:
        """Checks that `quiet` doesn't change its own output, and that the replay of a quiet log sends only packets of
        the log, and has the same counts."""
        quiet = run_command("quiet", self.text, self.options)
        assert run_command("quiet", quiet, self.options) == quiet, f"{self.name}: quiet changes its own output"
        sent = run_command("replay", quiet, self.options).splitlines()
        rest = iter(self.text.splitlines())
        assert all(
            line in rest for line in sent if is_packet(line)
        ), f"{self.name}: the replay of the quiet log has packets that the log does not have"
        assert (
            sent[-1] == self.text.splitlines()[-1]
        ), f"{self.name}: the replay of the quiet log has the counts {sent[-1]!r}"

    def check_live(self) -> None:
        """Checks that the output of `live` equals its own replay, that it equals the log except for the needs, and that
        each input has at most one need."""
        told = run_command("live", self.text, self.options)
        assert run_command("live", told, self.options) == told, f"{self.name}: live changes its own output"
        assert run_command("replay", told, self.options) == told, f"{self.name}: replay changes the output of live"
        if b"# need " in self.text:
            assert told == self.text, f"the needs in {self.name} differ from those in the output of live"
            return
        lines = told.splitlines(keepends=True)
        needs = sum(line.startswith(b"# need ") for line in lines)
        assert needs == sum(
            map(is_input, self.lines)
        ), f"the output of live for {self.name} has {needs} needs, expected one per input"
        rest = b"".join(line for line in lines if not line.startswith((b"# need ", b"# signed ")))
        assert rest == self.text, f"{self.name}: without the needs, the output of live differs from the log"


def check_changed_logs(work_dir: Path, log: Log, changes: list[tuple[bytes, str]]) -> None:
    """Compares changed logs in one call. Fails unless each has the expected first difference."""
    for number, (text, _) in enumerate(changes):
        (work_dir / str(number)).write_bytes(text)
    names = [str(number) for number in range(len(changes))]
    ended = subprocess.run([PROGRAM, "check", *log.options, *names], cwd=work_dir, capture_output=True, timeout=600)
    assert (ended.returncode, ended.stdout) == (1, b""), f"{log.name}: {ended.stdout.decode()}"
    said = [line for line in ended.stderr.decode().splitlines() if not line.startswith(" ")]
    wanted = [f"{number}: {place}" for number, (_, place) in enumerate(changes)]
    for one, other in zip(said, wanted):
        assert one == other, f"{log.name}: expected {other}, got {one}"
    assert len(said) == len(wanted), f"{log.name}: {len(said)} of {len(wanted)} changed logs differ"


def read_worked_logs() -> list[Log]:
    """Returns the worked logs."""
    names = (TOP / "crates/hidlog_cli/args").read_text(encoding="utf-8").split()[1:]
    found = sorted(str(path.relative_to(DATA)) for path in DATA.glob("*/*.log"))
    restarted = "restarted/after_restart.log"
    assert sorted([*names, restarted]) == found, "crates/hidlog_cli/args and data/ have different logs"
    logs = [Log(name, (DATA / name).read_bytes(), []) for name in names]
    load = ["--load", str(DATA / "restarted/snapshot")]
    return [*logs, Log(restarted, (DATA / restarted).read_bytes(), load)]


def main() -> int:
    failed, changes = 0, 0
    for log in read_worked_logs():
        with tempfile.TemporaryDirectory() as folder:
            try:
                log.check_comparison(Path(folder))
                log.check_quiet()
                log.check_live()
            except (AssertionError, subprocess.SubprocessError) as wrong:
                print(f"FAILED   {wrong}")
                failed += 1
        changes += sum(1 for _ in log.iter_changes())
    print(f"{changes} changes of worked logs, {failed} logs failed")
    return 1 if failed else 0


if __name__ == "__main__":
    sys.exit(main())
