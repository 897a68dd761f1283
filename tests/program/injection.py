"""Injects system call failures: runs a command repeatedly under strace, where the n-th call of a name fails or kills
the command, until there is no n-th call."""

from __future__ import annotations

import re
import subprocess
import sys
import tempfile
from concurrent.futures import ThreadPoolExecutor
from dataclasses import dataclass
from pathlib import Path
from typing import Callable, Iterable, Optional, Sequence

# The errors that each call can return. All other calls fail with EIO or EINTR.
FAULTS = {
    "openat": ("EIO", "EMFILE", "ENOMEM", "ESTALE", "ENOSPC"),
    "write": ("EIO", "ENOSPC", "EAGAIN", "EINTR"),
    "pwrite64": ("EIO", "ENOSPC", "EAGAIN", "EINTR"),
    "read": ("EIO", "EAGAIN", "EINTR", "ESTALE"),
    "rename": ("EIO", "ENOSPC", "EACCES"),
    "fsync": ("EIO", "ENOSPC", "EINTR"),
    "close": ("EIO", "EINTR"),
    "mmap": ("ENOMEM",),
    "brk": ("ENOMEM",),
}
OTHER_ERRORS = ("EIO", "EINTR")
# Calls that end a program, and calls whose faults strace can't inject.
NEVER_INJECTED = {"execve", "exit_group", "exit", "rt_sigreturn", "restart_syscall", "vfork", "fork", "clone", "clone3"}
_CALL = re.compile(r"^(?:\d+ +)?([a-z_0-9]+)\(", re.MULTILINE)


@dataclass(frozen=True)
class InjectedFault:
    """A fault: an error or a kill, and the call into which it is injected: the n-th call with a name."""

    call: str
    number: int
    fault: str

    def make_strace_prefix(self, log: Path) -> list[str]:
        """Returns the prefix of a command with which strace injects this fault."""
        how = "signal=KILL" if self.fault == "KILL" else f"error={self.fault}"
        if how == "error=ENOMEM" and self.call == "brk":
            how = "retval=0"  # brk returns no error: if memory is short, it returns the old end of the heap
        inject = f"inject={self.call}:{how}:when={self.number}"
        # The other calls show which file is concerned, and whether it gets another name.
        trace = f"trace=openat,rename,unlink,{self.call}"
        # With --seccomp-bpf, strace is many times as fast, but can't send signals.
        fast = [] if self.fault == "KILL" else ["--seccomp-bpf"]
        return ["strace", "-f", *fast, "-qq", "-o", str(log), "-e", trace, "-e", inject]

    def __str__(self) -> str:
        return f"{self.fault} at {self.call} {self.number}"


def make_short_calls_prefix(folder: Path) -> list[str]:
    """Returns the prefix of a command with which each read and write transfers only half of the requested bytes, which
    strace cannot do. For this, compiles a library in a folder with gcc."""
    library = folder / "short_calls.so"
    source = Path(__file__).with_name("short_calls.c")
    subprocess.run(["gcc", "-shared", "-fPIC", "-O1", "-Wall", "-Werror", "-o", str(library), str(source)], check=True)
    return ["env", f"LD_PRELOAD={library}"]


def was_injected(log: Path, place: InjectedFault) -> bool:
    """Returns whether the fault was injected, according to the output of strace."""
    text = log.read_text(encoding="utf-8", errors="replace")
    is_kill = place.fault == "KILL"
    return _CALL.findall(text).count(place.call) >= place.number if is_kill else "(INJECTED)" in text


def is_renamed(path: str, calls: Iterable[str]) -> bool:
    """Returns whether the file at the path is renamed before it is removed or replaced."""
    for call in calls:
        if f'"{path}"' in call and " = -1 " not in call and re.search(r"rename|unlink|O_CREAT", call):
            return "rename" in call
    return False


def left_file_unchanged(log: Path) -> bool:
    """Returns whether the failed call was a read, or concerned a temporary file beside the saved file that was not
    renamed to it, so that the saved file is unchanged."""
    opened: dict[str, str] = {}
    lines = log.read_text(encoding="utf-8", errors="replace").splitlines()
    for place, line in enumerate(lines):
        if found := re.search(r"openat\(.*, (\".*\", \S+?)(?:, 0\d+)?\) = (\d+)$", line):
            opened[found[2]] = found[1]
        if "(INJECTED)" in line:
            number = re.search(r"\((\d+)", line)
            if '"/' in line or number is None:  # the call has a path: it opens, renames or removes a file
                return ".hidlog-copy" in line or "O_RDONLY" in line
            about = opened.get(number[1], "")
            copy = re.search(r'"([^"]*\.hidlog-copy[^"]*)"', about)
            return "O_RDONLY" in about or copy is not None and not is_renamed(copy[1], lines[place + 1 :])
    return False


def count_calls(run: Callable[[Sequence[str]], object], folder: Path) -> dict[str, int]:
    """Returns how often a run makes each call."""
    log = folder / "calls"
    run(["strace", "-f", "-qq", "-o", str(log)])
    counts: dict[str, int] = {}
    for name in _CALL.findall(log.read_text(encoding="utf-8", errors="replace")):
        counts[name] = counts.get(name, 0) + 1
    return counts


def list_faults(counts: dict[str, int], only: Optional[Iterable[str]] = None) -> list[InjectedFault]:
    """Returns the faults for each call of a run. If `only` is given, returns only the faults of these calls."""
    names = [call for call in sorted(counts) if call not in NEVER_INJECTED and (only is None or call in only)]
    # One call more than the number counted, because a run may make one more. If it doesn't, nothing is injected.
    return [
        InjectedFault(name, number, fault)
        for name in names
        for fault in (*FAULTS.get(name, OTHER_ERRORS), "KILL")
        for number in range(1, counts[name] + 2)
    ]


def check_faults(
    places: Sequence[InjectedFault], judge: Callable[[InjectedFault, Path], Optional[str]], jobs: int
) -> list[tuple[InjectedFault, str]]:
    """Calls `judge` for each fault, in a new folder. Returns the faults for which it returns an error, with the error."""

    def run_judge(place: InjectedFault) -> Optional[str]:
        with tempfile.TemporaryDirectory() as folder:
            try:
                return judge(place, Path(folder))
            except subprocess.TimeoutExpired as wrong:
                return f"timed out: {wrong}"

    with ThreadPoolExecutor(jobs) as lanes:
        found = zip(places, lanes.map(run_judge, places))
        return [(place, wrong) for place, wrong in found if wrong is not None]


def report_failures(name: str, count: int, wrong: Sequence[tuple[InjectedFault, str]], known: dict[str, str]) -> int:
    """Prints the result of a run: new failures, and known failures that no longer occur. Returns the number of both."""
    bad, seen = 0, set()
    for place, said in wrong:
        mark = next((pattern for pattern in known if re.fullmatch(pattern, str(place))), None)
        seen.add(mark)
        if mark is None:
            bad += 1
            print(f"FAILED   {name}: {place}: {said}")
    for mark in known:
        if mark not in seen:
            bad += 1
            print(
                f"PASSES   {name}: {mark} is in the table of known failures ({known[mark]}) but no longer fails: remove it"
            )
    expected = len(wrong) - sum(
        1 for place, _ in wrong if not any(re.fullmatch(pattern, str(place)) for pattern in known)
    )
    print(
        f"{name}: {count} faults, {len(wrong) - expected} wrong, {expected} known failures", file=sys.stdout, flush=True
    )
    return bad
