#!/usr/bin/env python3
"""Tries mutants, which are wrong function bodies: checks that the prover refuses each of them.

    tests/mutants/run.py [NAME ..]          tries the mutants in tests/mutants/gate of these crates [default: of all]
    tests/mutants/run.py --all [NAME ..]    also tries those in tests/mutants/release, as before each release
    tests/mutants/run.py --applies          only checks that each mutant can be applied, which takes a second
    tests/mutants/run.py --beside FILE      runs at the same time as an `rt ci` whose output is written to FILE

The file CRATE.mutants has the mutants of a crate, each with its name in brackets and lines `file:`, `old:` and `new:`.
The libraries that a crate uses must have been built by `rt ci` (crates/*/out/rlib). With --beside, each crate waits
until `rt ci` has proved its libraries.

To prove a function, the prover needs only the contracts of the functions that it calls. So many mutants of a crate are
tried in one check, at most one per function, and all other functions are replaced by stubs (source.py). If a function
is refused only because it calls a changed function, its mutant is tried again in a later check. A mutant that changes
something else, such as a contract, is tried alone in a check of the whole crate. With --all, each function is first
proved without its mutant in the same way: if it is refused then, too, a refusal of the mutant shows nothing.

Mutants are applied to copies in a temporary folder, not to the repository. Prints a line for each mutant, and as the
last line 'N passed, N failed'. Exits with 0 only if all passed.
"""

from __future__ import annotations

import argparse
import os
import re
import shutil
import signal
import subprocess
import sys
import tempfile
import threading
import time
from collections import Counter
from collections.abc import Sequence
from concurrent.futures import ThreadPoolExecutor
from dataclasses import dataclass
from pathlib import Path
from types import FrameType
from typing import NamedTuple

from catalog import (
    BODY_FOLDERS,
    CRATES,
    SOURCE_FOLDERS,
    TOP,
    Crate,
    Mutant,
    choose_independent,
    list_libraries,
    list_mutants,
    read_mutants,
)
from source import FUNCTION_START, Function, list_proof_folders, write_stubs

# The prover's verdict on a function. Some verdicts match neither pattern, and show nothing.
VERDICT_LINE = re.compile(r"fn (\S+): (.*)")
PROVED = re.compile(r"proved|no holes|depends on a hole")
REFUSED = re.compile(r"no proof|not proved")
# The beginning of an error or a note: the file's path, the line, and the message of an error.
LOCATION = re.compile(r"(?:note: )?(?:\./)?((?:src|specs|proofs)/\S+?):(\d+):\d+: (?:error: (.*))?")
# The message of an error about a contract. Other errors in a source file show that the prover can't compile the file.
CONTRACT_ERROR = re.compile(r"`[^`]*`: (?!.*(is not in scope|has no field))")
# Lines in the output of `rt ci`: a library that is built, now or by an earlier run, and the last line.
BUILT_LIBRARY = re.compile(r"rt: (\w+)(?: proved$| is kept: )", re.MULTILINE)
LAST_LINE = re.compile(r"^\d+ passed, \d+ failed", re.MULTILINE)
# The most characters that are printed of a reason for a refusal, of an error, and of a line about a missing verdict.
REASON_LENGTH, ERROR_LENGTH, LINE_LENGTH = 160, 200, 300
WORK_DIR = Path(tempfile.gettempdir()) / f"mutants-{os.getpid()}"
print_lock = threading.Lock()
prover_processes: set[subprocess.Popen[str]] = set()


class Result(NamedTuple):
    """The result of a mutant: whether the prover refuses it, and the text of its line."""

    is_refused: bool
    text: str


# The results of mutants, by the mutant's full name.
Results = dict[str, Result]


@dataclass(frozen=True)
class ProverOutput:
    """The exit status of the prover, and the lines that it printed."""

    status: int
    lines: list[str]

    def read_verdicts(self) -> dict[str, str]:
        """Returns the prover's verdict on each function, by the function's name."""
        return {found[1]: found[2] for line in self.lines if (found := VERDICT_LINE.match(line))}

    def find_compile_error(self, paths: set[str]) -> str | None:
        """Returns the first error that shows that one of these files doesn't compile, or None. Then no contract was
        checked."""
        for line in self.lines:
            found = LOCATION.match(line)
            if found and found[1] in paths and found[3] and not CONTRACT_ERROR.match(found[3]):
                return line[:ERROR_LENGTH]
        return None


def link_or_copy(source: str, target: str) -> None:
    """Makes a hard link to a file, or copies the file if the target is on another file system."""
    try:
        os.link(source, target)
    except OSError:
        shutil.copyfile(source, target)


class CrateCopy:
    """A copy of a crate, to which mutants are applied, and of the libraries that it uses."""

    def __init__(self, crate: Crate, work_dir: Path) -> None:
        self.crate = crate
        self.folder = work_dir / "crate"
        self.results = work_dir / "results"
        self.libraries = work_dir / "libraries"
        self.toolchain = Path(shutil.which("rt") or "rt").resolve().parent.parent
        for name in list_libraries(crate):
            # Copy the library, since `rt ci` restores that of an earlier run when it ends.
            rlib = CRATES[name].rlib
            shutil.copytree(rlib, self.libraries / rlib.name, copy_function=link_or_copy)

    def apply_mutants(self, mutants: list[Mutant], checked: Sequence[Function] = ()) -> None:
        """Copies the crate's sources again, and applies mutants to the copy. If `checked` has functions, replaces the
        other functions by stubs."""
        for name in SOURCE_FOLDERS:
            if (self.crate.folder / name).is_dir():
                shutil.rmtree(self.folder / name, ignore_errors=True)
                shutil.copytree(self.crate.folder / name, self.folder / name)
        if checked:
            write_stubs(self.crate.folder, self.folder, checked)
        for mutant in mutants:
            mutant.apply(self.folder)

    def build_command(self, functions: list[str]) -> list[str]:
        """Returns the prover's command line, which is the same as in `rt ci`, except that with names of functions only
        these are checked."""
        command = [str(self.toolchain / "bin/rattle"), "check", "--crate-name", self.crate.name, self.crate.root_file]
        command += ["-L", f"dependency={self.toolchain}/rlibs"]
        for name in ("std", *self.crate.dependencies):
            folder = self.libraries if name in CRATES else self.toolchain / "rlibs"
            command += ["--extern", f"{name}={folder / f'{name}.rlib'}"]
        command += ["-L", f"dependency={self.libraries}"]
        command += ["--antt-project", f"{self.toolchain}/rattle/logic/antt-project.json"]
        command += ["--logic-built", f"{self.toolchain}/logic_built"]
        command += ["--crate-type", "staticlib"] if self.crate.is_static else []
        command += ["--incremental", str(self.results), "--jobs", "1"]
        command += ["--allow-holes"] if functions else []
        return command + [word for name in functions for word in ("--only", name)]

    def run_prover(self, functions: list[str]) -> ProverOutput:
        """Checks these functions of the copy, or the whole crate if the list is empty. Returns the prover's output."""
        with subprocess.Popen(
            self.build_command(functions),
            cwd=self.folder,
            stdin=subprocess.DEVNULL,
            stdout=subprocess.PIPE,
            stderr=subprocess.STDOUT,
            text=True,
            errors="replace",
        ) as process:
            prover_processes.add(process)
            output = process.communicate()[0]
            prover_processes.discard(process)
        return ProverOutput(process.returncode, output.rstrip("\n").split("\n"))

    def find_function_name(self, path: str, line: int) -> str | None:
        """Returns the name of the last function that starts at or before a line of a source file."""
        lines = (self.folder / path).read_text(encoding="utf-8").split("\n")[:line]
        return next((found[2] for text in reversed(lines) if (found := FUNCTION_START.match(text))), None)

    def is_line_of(self, functions: Sequence[Function], path: str, line: int) -> bool:
        """Returns whether a line of a file belongs to one of these functions or to its proof."""
        for function in functions:
            folders = [folder.relative_to(self.folder) for folder in list_proof_folders(self.folder, function)]
            if path.startswith(tuple(f"{folder}/" for folder in folders)):
                return True
            if path == function.path and self.find_function_name(path, line) == function.name.split("::")[-1]:
                return True
        return False


def is_in_function(name: str, function: str) -> bool:
    """Returns whether a name is that of a function, or of a closure in it. The name of a closure in crate::module::name
    begins with crate::fn::module::name:: or crate::module::fn::name::."""
    crate, *parts = function.split("::")
    prefixes = ("::".join([crate, *parts[:count], "fn", *parts[count:], ""]) for count in range(len(parts)))
    return name == function or name.startswith(tuple(prefixes))


def is_own_refusal(verdict: str, function: Function) -> bool:
    """Returns whether a verdict shows that the function's own proof fails, even if it also names a called function."""
    crate, *parts = function.name.split("::")
    return "`search` did not prove" in verdict or f"stands on `Rattle.{'.'.join((crate, 'proofs', *parts))}." in verdict


@dataclass(frozen=True)
class MutantCheck:
    """A check of one or more mutants: the copy with the mutants, the functions that they change, of which each is
    checked, and the prover's output."""

    copy: CrateCopy
    checked: list[Function]
    output: ProverOutput

    def find_error(self, paths: set[str]) -> str | None:
        """Returns why the check shows nothing about its mutants, or None if it shows something. `paths` are the changed
        files."""
        if error := self.output.find_compile_error(paths):
            return f"the prover can't compile it: {error}"
        last_line = self.output.lines[-1]
        if self.output.status not in (0, 1) or not last_line.startswith("only="):
            return f"the prover ended with status {self.output.status}: {last_line[:ERROR_LENGTH]}"
        return self.find_unexplained_refusal()

    def find_unexplained_refusal(self) -> str | None:
        """Returns an error or a refusal that no checked function explains, or None. If there is one, it may also be the
        reason why the checked functions are refused, whatever their mutants change."""
        for line in self.output.lines:
            found = LOCATION.match(line)
            if found and found[3] and not found[1].startswith("src/"):
                if not self.copy.is_line_of(self.checked, found[1], int(found[2])):
                    return line[:ERROR_LENGTH]
        for name, verdict in self.output.read_verdicts().items():
            if not PROVED.match(verdict) and not self.is_explained(name, verdict):
                return f"fn {name}: {verdict[:REASON_LENGTH]}"
        return None

    def is_explained(self, name: str, verdict: str) -> bool:
        """Returns whether a checked function explains that the function with this name is refused: it is the same
        function, it is in the same cycle, or the verdict names it."""
        return any(
            is_in_function(name, function.name)
            or (function.cycle and f".+{function.cycle}." in verdict)
            or f"`{function.name}`" in verdict
            for function in self.checked
        )

    def is_refused_for(self, mutant: Mutant, verdict: str) -> bool:
        """Returns whether the mutant itself is the reason for a refusal of its function, not another changed function
        that is called."""
        others = [f"`{function.name}`" for function in self.checked if function not in mutant.functions]
        is_own = any(is_own_refusal(verdict, function) for function in mutant.functions)
        return is_own or not any(other in verdict for other in others)

    def find_reason(self, mutant: Mutant) -> str | None:
        """Returns the first line of the output that is about a function of the mutant or its proof, or None."""
        for function in mutant.functions:
            for line in self.output.lines:
                found = LOCATION.match(line)
                if found and self.copy.is_line_of([function], found[1], int(found[2])):
                    return line[:REASON_LENGTH]
        return None

    def judge_mutant(self, mutant: Mutant) -> Result | None:
        """Returns the result of a mutant, or None if its function is refused only because it calls another changed
        function."""
        verdicts = {
            name: verdict
            for name, verdict in self.output.read_verdicts().items()
            if any(is_in_function(name, function.name) for function in mutant.functions)
        }
        refusals = [verdict for verdict in verdicts.values() if REFUSED.match(verdict)]
        own_refusals = [verdict for verdict in refusals if self.is_refused_for(mutant, verdict)]
        if own_refusals:
            return Result(True, f"refused: {self.find_reason(mutant) or own_refusals[0][:REASON_LENGTH]}")
        if refusals:
            return None
        if verdicts and all(PROVED.match(verdict) for verdict in verdicts.values()):
            return Result(False, f"NOT REFUSED: the prover still proves {', '.join(verdicts)}")
        names = ", ".join(function.name for function in mutant.functions)
        return Result(False, f"NOT TRIED: the prover has no verdict on {names}: {verdicts}"[:LINE_LENGTH])


def try_together(copy: CrateCopy, mutants: list[Mutant], results: Results) -> list[Mutant]:
    """Tries mutants in one check, and stores their results. Returns the mutants that have to be tried again, since
    their functions call other changed functions."""
    checked = [function for mutant in mutants for function in mutant.functions]
    copy.apply_mutants(mutants, checked)
    check = MutantCheck(copy, checked, copy.run_prover([function.name for function in checked]))
    error = check.find_error({replacement.path for mutant in mutants for replacement in mutant.replacements})
    if error and len(mutants) == 1:
        results[mutants[0].full_name] = Result(False, f"BAD MUTANT: {error}")
        return []
    if error:
        return try_one_by_one(copy, mutants, results)
    remaining = []
    for mutant in mutants:
        result = check.judge_mutant(mutant)
        if result is None:
            remaining.append(mutant)
        else:
            results[mutant.full_name] = result
    # If all remain, they call one another.
    return try_one_by_one(copy, mutants, results) if remaining == mutants else remaining


def try_one_by_one(copy: CrateCopy, mutants: list[Mutant], results: Results) -> list[Mutant]:
    """Tries each mutant in a check of its own, and stores their results. Returns the mutants that have to be tried
    again."""
    return [remaining for mutant in mutants for remaining in try_together(copy, [mutant], results)]


def try_in_whole_crate(copy: CrateCopy, mutant: Mutant) -> Result:
    """Tries a mutant in a check of the whole crate. Returns its result."""
    copy.apply_mutants([mutant])
    output = copy.run_prover([])
    if output.status == 0:
        return Result(False, "NOT REFUSED: the prover still proves the crate")
    last_line = output.lines[-1]
    paths = {replacement.path for replacement in mutant.replacements if replacement.path.startswith("src/")}
    error = output.find_compile_error(paths)
    if output.status != 1 or error or not last_line.startswith("logic=not-proved"):
        return Result(False, f"BAD MUTANT: {error or last_line[:ERROR_LENGTH]}")
    reasons = (
        line for line in output.lines if line.startswith("note: ") or (LOCATION.match(line) and ": error" in line)
    )
    return Result(True, f"refused: {next(reasons, '')[:REASON_LENGTH]}")


def find_unproved(copy: CrateCopy, mutants: list[Mutant]) -> list[Mutant]:
    """Returns the mutants whose functions are not proved without the mutants either."""
    checked = [function for mutant in mutants for function in mutant.functions]
    copy.apply_mutants([], checked)
    output = copy.run_prover([function.name for function in checked])
    verdicts = (VERDICT_LINE.match(line) for line in output.lines)
    proved = {verdict[1] for verdict in verdicts if verdict and PROVED.match(verdict[2])}
    return [mutant for mutant in mutants if any(function.name not in proved for function in mutant.functions)]


def try_crate(name: str, mutants: list[Mutant], check_originals: bool) -> int:
    """Tries mutants of a crate, and prints a line for each. Returns how many are refused. With `check_originals`, each
    function must first be proved without its mutant."""
    results: Results = {}
    copy = CrateCopy(CRATES[name], WORK_DIR / name)
    remaining = [mutant for mutant in mutants if mutant.functions]
    while remaining:
        chosen = choose_independent(remaining)
        remaining = [mutant for mutant in remaining if mutant not in chosen]
        for mutant in find_unproved(copy, chosen) if check_originals else []:
            text = "NOT TRIED: the function is not proved without the mutant either"
            results[mutant.full_name] = Result(False, text)
            chosen.remove(mutant)
        remaining = (try_together(copy, chosen, results) if chosen else []) + remaining
    for mutant in mutants:
        if not mutant.functions:
            results[mutant.full_name] = try_in_whole_crate(copy, mutant)
    found = [results.get(mutant.full_name, Result(False, "NOT TRIED")) for mutant in mutants]
    with print_lock:
        for mutant, result in zip(mutants, found):
            print(f"{mutant.full_name}: {result.text}", flush=True)
    return sum(result.is_refused for result in found)


@dataclass(frozen=True)
class GateOutput:
    """The output of an `rt ci` that runs at the same time, in a file."""

    path: Path

    def wait_for_libraries(self, crate: Crate) -> str | None:
        """Waits until the libraries that a crate uses are proved. Returns why the crate can't be tried if `rt ci` ends
        without proving them."""
        while True:
            text = self.path.read_text(encoding="utf-8", errors="replace") if self.path.is_file() else ""
            missing = set(list_libraries(crate)) - set(BUILT_LIBRARY.findall(text))
            if not missing:
                return None
            if LAST_LINE.search(text):
                return f"NOT TRIED: rt ci ended without {', '.join(sorted(missing))}"
            time.sleep(1)


@dataclass(frozen=True)
class CrateQueue:
    """The crates whose mutants are to be tried, and a semaphore that limits how many are tried at the same time."""

    mutants: dict[str, list[Mutant]]
    check_originals: bool
    gate_output: GateOutput | None
    free_jobs: threading.Semaphore

    def try_when_free(self, name: str) -> int:
        """Tries a crate when its libraries are built and a job is free. Returns how many of its mutants are refused."""
        reason = self.gate_output.wait_for_libraries(CRATES[name]) if self.gate_output else None
        if reason:
            with print_lock:
                for mutant in self.mutants[name]:
                    print(f"{mutant.full_name}: {reason}", flush=True)
            return 0
        with self.free_jobs:
            return try_crate(name, self.mutants[name], self.check_originals)

    def try_all(self) -> int:
        """Tries all crates. Returns how many of their mutants are refused."""
        # Begin with the crates that have the most mutants, since they take the longest.
        names = sorted(self.mutants, key=lambda name: -len(self.mutants[name]))
        with ThreadPoolExecutor(len(names)) as pool:
            return sum(pool.map(self.try_when_free, names))


def check_applicability() -> int:
    """Prints which mutants can't be applied to the current sources, and which files are named after no crate. Returns
    the exit status."""
    folders = [TOP / "tests" / "mutants" / name for name in (*BODY_FOLDERS, "definitions")]
    files = [file for folder in folders for file in sorted(folder.iterdir())]
    faults = [
        f"{file.relative_to(TOP)}: crates.txt has no crate {file.stem}" for file in files if file.stem not in CRATES
    ]
    mutants = [(file, mutant) for file in files for mutant in read_mutants(file)]
    counts = Counter(mutant.full_name for _, mutant in mutants)
    for file, mutant in mutants:
        is_repeated = counts[mutant.full_name] > 1
        fault = "another mutant of the crate has the same name" if is_repeated else mutant.find_mismatch()
        faults += [f"{file.relative_to(TOP)}: {mutant.name}: {fault}"] if fault else []
    for fault in faults:
        print(fault)
    print(f"{len(mutants)} mutants, {len(faults)} faults")
    return 1 if faults else 0


def find_missing_library(names: list[str]) -> str | None:
    """Returns why the libraries that these crates use can't be used as they were built, or None if they can."""
    for name in {library for crate in names for library in list_libraries(CRATES[crate])}:
        rlib = CRATES[name].rlib
        if not rlib.is_dir():
            return f"crates/{name} is not built: run rt ci first"
        built = (rlib / "format").stat().st_mtime
        for folder in SOURCE_FOLDERS:
            for file in (CRATES[name].folder / folder).rglob("*"):
                if file.is_file() and file.stat().st_mtime > built:
                    return f"{file.relative_to(TOP)} was changed after crates/{name} was built: run rt ci first"
    return None


def exit_on_signal(number: int, _: FrameType | None) -> None:
    """Kills the prover's processes, removes the work directory unless a thread still writes to it, and exits."""
    for process in list(prover_processes):
        process.kill()
    shutil.rmtree(WORK_DIR, ignore_errors=True)
    os._exit(128 + number)


def build_parser() -> argparse.ArgumentParser:
    """Returns the parser of the command line."""
    parser = argparse.ArgumentParser(description=__doc__, formatter_class=argparse.RawDescriptionHelpFormatter)
    parser.add_argument("--all", action="store_true", help="also try the mutants in tests/mutants/release")
    parser.add_argument("--applies", action="store_true", help="only check that each mutant can be applied")
    parser.add_argument(
        "--beside", type=Path, metavar="FILE", help="wait for the rt ci whose output is written to FILE"
    )
    parser.add_argument(
        "--jobs", type=int, metavar="N", help="try N crates at a time [default: processors, with --beside half]"
    )
    parser.add_argument("crates", nargs="*", metavar="NAME", help="a crate to try [default: all that have mutants]")
    return parser


def choose_mutants(parser: argparse.ArgumentParser, options: argparse.Namespace) -> dict[str, list[Mutant]]:
    """Returns the mutants to try, by crate. Exits with a message if the command line names a crate without mutants, or
    if they can't be tried."""
    folders = BODY_FOLDERS if options.all else BODY_FOLDERS[:1]
    mutants = {crate: found for crate in CRATES if (found := list_mutants(crate, folders))}
    for name in options.crates:
        if name not in mutants:
            parser.error(f"no crate {name} has mutants; these have: {', '.join(mutants)}")
    chosen = {crate: mutants[crate] for crate in options.crates or mutants}
    if not shutil.which("rt"):
        parser.error("rt, the command of the prover, is not in PATH")
    if not options.beside and (reason := find_missing_library(list(chosen))):
        parser.error(reason)
    for mutant in (mutant for found in chosen.values() for mutant in found):
        if mismatch := mutant.find_mismatch():
            parser.error(f"{mutant.full_name}: {mismatch}")
    return chosen


def main() -> int:
    """Tries the mutants that the command line names. Returns the exit status."""
    parser = build_parser()
    options = parser.parse_args()
    if options.applies:
        return check_applicability()
    mutants = choose_mutants(parser, options)
    for number in (signal.SIGTERM, signal.SIGINT, signal.SIGHUP):
        signal.signal(number, exit_on_signal)
    jobs = os.cpu_count() or 1
    if options.beside:
        # `rt ci` comes first, since its proofs wait for one another, and it needs half of the memory.
        os.nice(10)
        jobs = max(1, jobs // 2)
    gate_output = GateOutput(options.beside) if options.beside else None
    queue = CrateQueue(mutants, options.all, gate_output, threading.Semaphore(options.jobs or jobs))
    WORK_DIR.mkdir()
    try:
        passed = queue.try_all()
    finally:
        shutil.rmtree(WORK_DIR, ignore_errors=True)
    count = sum(map(len, mutants.values()))
    print(f"{passed} passed, {count - passed} failed")
    return 0 if passed == count else 1


if __name__ == "__main__":
    sys.exit(main())
