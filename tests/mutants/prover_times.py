#!/usr/bin/env python3
"""Measures how many seconds the prover needs for a crate: by kind of module, by function and by module.

    tests/mutants/prover_times.py NAME                     proves the crate NAME from scratch, in one process
    tests/mutants/prover_times.py NAME --goals FUNCTION    measures one function, such as CRATE::MODULE::FUNCTION: each
                                                           goal that has no answer in proofs/, with one run for each

The libraries that the crate uses must have been built by `rt ci` or `rt check` (crates/*/out/rlib). When the prover has
checked a module, it writes a file. The time of a module is the time since the file before, so use an idle machine. The
kind of a module is its last name: in `Lts`, the steps of a function are type-checked; in `Goals`, `Answers` and
`Proof`, its goals are stated and proved.
"""

from __future__ import annotations

import argparse
import re
import shutil
import subprocess
import sys
import tempfile
from collections import defaultdict
from pathlib import Path

from catalog import CRATES, SOURCE_FOLDERS, Crate, list_libraries

# A goal in AnswersOffered.antt, which the prover generates: its name, and the left side of its equation.
OFFERED_GOAL = re.compile(r"^pub (\S+) :\s+goal.\S+\n(?:unfolding.*\n)?(.*) = \?$", re.MULTILINE)
# An answer in Answers.antt: the name of its goal.
ANSWERED_GOAL = re.compile(r"^pub (\S+) :", re.MULTILINE)
GOALS_IMPORT = re.compile(r"^use .* as goal$", re.MULTILINE)
LISTED_KINDS = 12


class CrateCopy:
    """A copy of a crate's sources, and the folder in which the prover stores the results of its modules."""

    def __init__(self, crate: Crate, folder: Path) -> None:
        self.crate = crate
        self.folder = folder
        self.results = folder / "results"
        for name in SOURCE_FOLDERS:
            if (crate.folder / name).is_dir():
                shutil.copytree(crate.folder / name, folder / name)

    def run_prover(self, *options: str) -> str:
        """Runs the prover with further options. Returns its output."""
        toolchain = Path(shutil.which("rt") or "rt").resolve().parent.parent
        command = [str(toolchain / "bin/rattle"), "check", "--crate-name", self.crate.name, self.crate.root_file]
        for name in ("std", *self.crate.dependencies):
            rlib = CRATES[name].rlib if name in CRATES else toolchain / "rlibs" / f"{name}.rlib"
            command += ["--extern", f"{name}={rlib}"]
        folders = [toolchain / "rlibs", *(CRATES[name].rlib.parent for name in list_libraries(self.crate))]
        command += [f"-Ldependency={folder}" for folder in folders]
        command += ["--antt-project", f"{toolchain}/rattle/logic/antt-project.json"]
        command += ["--logic-built", f"{toolchain}/logic_built"]
        command += ["--crate-type", "staticlib"] if self.crate.is_static else []
        command += ["--jobs", "1", "--incremental", str(self.results), *options]
        return subprocess.run(command, cwd=self.folder, stdin=subprocess.DEVNULL, capture_output=True, text=True).stdout

    def measure_modules(self) -> list[tuple[str, float]]:
        """Returns the checked modules in order, each with its seconds. The first one has no earlier file to compare
        with, and is left out."""
        files = [file for file in self.results.rglob("*.oantt") if "records" not in file.parts]
        files.sort(key=lambda file: file.stat().st_mtime)
        ends = [file.stat().st_mtime for file in files]
        return [(file.stem, end - begin) for file, begin, end in zip(files[1:], ends, ends[1:])]


def print_longest(title: str, seconds: dict[str, float], limit: int) -> None:
    """Prints the names with the most seconds, at most `limit` of them."""
    print(f"-- {title}")
    for name, duration in sorted(seconds.items(), key=lambda item: -item[1])[:limit]:
        print(f"{duration:8.2f} {name}")


def print_crate_times(copy: CrateCopy, limit: int) -> None:
    """Proves the crate, and prints the prover's last line and the times."""
    print(copy.run_prover().rstrip("\n").rpartition("\n")[2])
    kinds: defaultdict[str, float] = defaultdict(float)
    functions: defaultdict[str, float] = defaultdict(float)
    modules: defaultdict[str, float] = defaultdict(float)
    for name, duration in copy.measure_modules():
        kinds[name.rpartition(".")[2]] += duration
        functions[name.rpartition(".")[0] or name] += duration
        modules[name] += duration
    print(f"{sum(modules.values()):8.2f} all")
    print_longest("kinds", kinds, LISTED_KINDS)
    print_longest("functions", functions, limit)
    print_longest("modules", modules, limit)


def is_answered(goal: str, answered: list[str]) -> bool:
    """Returns whether the goal, a clause of it, or the goal of which it is a clause is one of the answered goals."""
    return any(
        goal == other or goal.startswith(f"{other}-clause-") or other.startswith(f"{goal}-clause-")
        for other in answered
    )


def find_unanswered_goals(offered: str, answers: str) -> dict[str, str]:
    """Returns the goals of AnswersOffered.antt that have no answer in Answers.antt, each with the left side of its
    equation."""
    answered = ANSWERED_GOAL.findall(answers)
    goals = {found[1]: found[2] for found in OFFERED_GOAL.finditer(offered)}
    return {goal: left for goal, left in goals.items() if not is_answered(goal, answered)}


def print_goal_times(copy: CrateCopy, function: str) -> None:
    """Prints the seconds of each goal of a function that has no answer. For each, runs the prover, which searches for a
    proof of this goal and accepts holes in place of the others."""
    generated = copy.folder / "generated"
    copy.run_prover("--start", function, "--generated", str(generated))
    path = next(generated.rglob("AnswersOffered.antt"))
    offered = path.read_text(encoding="utf-8")
    modules = path.parent.parts[path.parts.index(f"Rattle-{copy.crate.name}-proofs") + 1 :]
    file = copy.folder.joinpath("proofs", *modules, "Answers.antt")
    goals_import = GOALS_IMPORT.search(offered)
    answers = file.read_text(encoding="utf-8") if file.is_file() else f"{goals_import[0] if goals_import else ''}\n"
    goals = find_unanswered_goals(offered, answers)
    file.parent.mkdir(parents=True, exist_ok=True)
    seconds: dict[str, float] = {}
    # The first run has holes for all goals.
    for searched in ["", *goals]:
        holes = (f"\npub {goal} : goal.{goal}\n{left} = ?\n" for goal, left in goals.items() if goal != searched)
        file.write_text(answers + "".join(holes), encoding="utf-8")
        copy.run_prover("--only", function, "--allow-holes")
        proof = ".".join((f"Rattle-{copy.crate.name}-proofs", *modules, "Proof"))
        seconds[searched or "(no goal)"] = dict(copy.measure_modules()).get(proof, 0.0)
    print_longest(f"goals of {function}", seconds, len(seconds))


def main() -> int:
    """Prints the times that the command line names. Returns the exit status."""
    parser = argparse.ArgumentParser(description=__doc__, formatter_class=argparse.RawDescriptionHelpFormatter)
    parser.add_argument("crate", choices=sorted(CRATES), metavar="NAME", help="a crate of crates.txt")
    parser.add_argument("--goals", metavar="FUNCTION", help="measure the goals of this function")
    parser.add_argument(
        "--most",
        type=int,
        default=40,
        dest="limit",
        metavar="N",
        help="print at most N functions and modules [default: 40]",
    )
    options = parser.parse_args()
    crate = CRATES[options.crate]
    missing = [name for name in list_libraries(crate) if not CRATES[name].rlib.is_dir()]
    if missing:
        parser.error(f"crates/{missing[0]} is not built: run rt check in it first")
    if not shutil.which("rt"):
        parser.error("rt, the command of the prover, is not in PATH")
    with tempfile.TemporaryDirectory() as folder:
        copy = CrateCopy(crate, Path(folder))
        if options.goals:
            print_goal_times(copy, options.goals)
        else:
            print_crate_times(copy, options.limit)
    return 0


if __name__ == "__main__":
    sys.exit(main())
