#!/usr/bin/env python3
"""Runs the gate and prints each crate's processor time in seconds, for its proof, tests, mutants and builds.

    tests/proof_times.py                  run `tests/run --gate`, and print the table at the end
    tests/proof_times.py -- COMMAND ..    run another command that calls the prover, such as `rt check`
    tests/proof_times.py --watch PID      watch a running command

The processor time of each prover process is read once a second, so up to the last second of each may be missing. The exit status is the command's.
"""

from __future__ import annotations

import argparse
import os
import subprocess
import sys
import threading
import time
from dataclasses import dataclass, field
from pathlib import Path

TICKS_PER_SECOND = os.sysconf("SC_CLK_TCK")
RUN_KINDS = ("proof", "tests", "mutants", "builds")


@dataclass(frozen=True)
class Process:
    """A process in /proc, at the time when it was read."""

    pid: int
    parent: int
    began: int
    seconds: float

    @staticmethod
    def read(pid: int) -> Process | None:
        """Returns the process with this ID, or None if it has exited."""
        try:
            text = Path(f"/proc/{pid}/stat").read_text(encoding="utf-8", errors="replace")
        except OSError:
            return None
        # The name is in parentheses, and may contain spaces.
        fields = text.rpartition(")")[2].split()
        return Process(pid, int(fields[1]), int(fields[19]), (int(fields[11]) + int(fields[12])) / TICKS_PER_SECOND)


@dataclass
class ProverRun:
    """A prover process: its crate, its kind, and its last known processor time."""

    crate: str
    kind: str
    seconds: float = 0.0


@dataclass
class Sampler:
    """Reads the processes of the prover below one process, until the sampler is stopped."""

    root: int
    checks: dict[tuple[int, int], ProverRun | None] = field(default_factory=dict)
    stopped: threading.Event = field(default_factory=threading.Event)

    def run(self) -> None:
        while not self.stopped.is_set():
            self.sample()
            self.stopped.wait(1.0)

    def sample(self) -> None:
        """Records the processor time of all current processes."""
        running = [found for name in os.listdir("/proc") if name.isdigit() and (found := Process.read(int(name)))]
        parents = {process.pid: process.parent for process in running}
        for process in running:
            if not self.is_below(process.pid, parents):
                continue
            key = (process.pid, process.began)
            # A process that was just forked still has the arguments of its parent, so it is classified again.
            if self.checks.get(key) is None:
                self.checks[key] = classify_process(process)
            check = self.checks[key]
            if check is not None:
                check.seconds = max(check.seconds, process.seconds)

    def is_below(self, pid: int, parents: dict[int, int]) -> bool:
        while pid in parents and pid != self.root:
            pid = parents[pid]
        return pid == self.root


def classify_process(process: Process) -> ProverRun | None:
    """Returns the prover run of a process, or None if it is not the prover."""
    try:
        words = Path(f"/proc/{process.pid}/cmdline").read_bytes().decode(errors="replace").split("\0")
        folder = os.readlink(f"/proc/{process.pid}/cwd")
    except OSError:
        return None
    if "--crate-name" not in words or not words[0].endswith("/rattle"):
        return None
    crate = words[words.index("--crate-name") + 1]
    if "/mutants-" in folder:
        kind = "mutants"
    elif "--test" in words:
        kind = "tests"
    elif "--crate-checked" in words:
        kind = "builds"
    else:
        kind = "proof"
    return ProverRun(crate, kind)


def format_table(checks: list[ProverRun]) -> str:
    """Returns the table: one line per crate, the most expensive first, and the sums."""
    costs: dict[str, dict[str, float]] = {}
    for check in checks:
        row = costs.setdefault(check.crate, dict.fromkeys(RUN_KINDS, 0.0))
        row[check.kind] += check.seconds
    rows = sorted(costs.items(), key=lambda row: -sum(row[1].values()))
    sums = {kind: sum(row[kind] for row in costs.values()) for kind in RUN_KINDS}
    lines = ["| Crate | " + " | ".join(kind.capitalize() for kind in RUN_KINDS) + " | Checks of mutants | All |"]
    lines.append("|---" * (len(RUN_KINDS) + 3) + "|")
    for crate, row in [*rows, ("all", sums)]:
        figures = " | ".join(f"{row[kind]:.0f}" if row[kind] else "" for kind in RUN_KINDS)
        rounds = sum(check.kind == "mutants" and crate in (check.crate, "all") for check in checks)
        lines.append(f"| {crate} | {figures} | {rounds or ''} | {sum(row.values()):.0f} |")
    return "\n".join(lines)


def sample_process(pid: int) -> Sampler:
    """Samples a running process until the process exits."""
    sampler = Sampler(pid)
    while Process.read(pid) is not None:
        sampler.sample()
        time.sleep(1.0)
    return sampler


def run_command(command: list[str]) -> tuple[Sampler, int]:
    """Runs a command, and samples it until it exits."""
    with subprocess.Popen(command, stdin=subprocess.DEVNULL) as started:
        sampler = Sampler(started.pid)
        thread = threading.Thread(target=sampler.run)
        thread.start()
        status = started.wait()
        sampler.stopped.set()
        thread.join()
    return sampler, status


def main() -> int:
    parser = argparse.ArgumentParser(description="Print each crate's processor time in the gate.")
    parser.add_argument("--watch", type=int, metavar="PID", help="watch a running command")
    parser.add_argument(
        "command", nargs="*", default=["tests/run", "--gate"], help="the command to run (default: the gate)"
    )
    options = parser.parse_args()
    began = time.monotonic()
    sampler, status = (sample_process(options.watch), 0) if options.watch else run_command(options.command)
    checks = [check for check in sampler.checks.values() if check is not None]
    print(format_table(checks))
    print(
        f"{sum(check.seconds for check in checks) / 60:.1f} minutes of processor time, "
        f"{(time.monotonic() - began) / 60:.1f} by the clock, {os.cpu_count()} processors"
    )
    return status


if __name__ == "__main__":
    sys.exit(main())
