#!/usr/bin/env python3
"""Checks that the prover refuses a law if a definition is wrong: applies mutants of definitions, one at a time.

    tests/mutants/definitions.py [NAME ..]    tries these mutants in tests/mutants/definitions [default: all]

A contract says that the code does what a definition says. So a mistake that is in both the code and the definition
violates no contract. It violates a law, which says that two separate definitions agree: in authn_core, what the
authenticator answers in its current state, and what it must answer after the events so far. For each mutant, this
script changes a definition in a copy of the crate and proves the law there, without the code. The prover must refuse
the law. Run `rt check` in each crate first, since its results in `out/` are used.

Prints a line for each mutant, and as the last line 'N passed, N failed'. Exits with 0 if at least one passed and none
failed.
"""

from __future__ import annotations

import argparse
import re
import shutil
import subprocess
import sys
import tempfile
from pathlib import Path

from catalog import CRATES, SOURCE_FOLDERS, TOP, Crate, Mutant, list_libraries, list_mutants

# The law that is proved for the mutants of each crate.
LAWS = {
    "authn_core": "authn_core::laws::answers_follow_history",
    "hid_assemble": "hid_assemble::laws::noise_is_turned_away",
}
ERROR_LINE = re.compile(r"\./(\S+?):\d+:\d+: error: (.*)")


def copy_crates(crate: Crate, work_dir: Path) -> Path:
    """Copies the sources of all crates, and the results in `out/` of a crate and of the libraries that it uses. Returns
    the folder of the crate's copy."""
    shutil.copy(TOP / "crates.txt", work_dir)
    needed = {crate.name, *list_libraries(crate)}
    for name in CRATES:
        for folder in [*SOURCE_FOLDERS, "out"] if name in needed else SOURCE_FOLDERS:
            if (CRATES[name].folder / folder).is_dir():
                shutil.copytree(CRATES[name].folder / folder, work_dir / "crates" / name / folder)
    return work_dir / "crates" / crate.name


def prove_law(folder: Path, law: str) -> tuple[bool, list[str]]:
    """Returns whether the prover proves a law of the crate in a folder, and its error messages, each with the file's
    path before it."""
    command = ["rt", "check", "--only", law]
    result = subprocess.run(command, cwd=folder, capture_output=True, text=True, check=False)
    output = result.stdout + result.stderr
    return f"fn {law}: proved" in output, [f"{path}: {message}" for path, message in ERROR_LINE.findall(output)]


def try_mutant(mutant: Mutant, folder: Path) -> str | None:
    """Applies a mutant to the copy of its crate, proves the law, and restores the copy. Returns None if the prover
    refuses the law because of the mutant, and otherwise what happened instead."""
    if mismatch := mutant.find_mismatch():
        return mismatch
    paths = {replacement.path for replacement in mutant.replacements}
    originals = {path: (folder / path).read_text(encoding="utf-8") for path in paths}
    try:
        mutant.apply(folder)
        is_proved, errors = prove_law(folder, LAWS[mutant.crate])
    finally:
        for path, text in originals.items():
            (folder / path).write_text(text, encoding="utf-8")
    if is_proved:
        return "NOT REFUSED: the prover still proves the law"
    # An error in specs/ shows that the changed definition is itself invalid, so the law was not tried.
    in_definitions = [error for error in errors if error.startswith("specs/")]
    if in_definitions:
        return f"BAD MUTANT: the changed definition is invalid: {in_definitions[0]}"
    return None if errors else "BAD MUTANT: the prover's output has no error with a location"


def try_mutants(crate: str, mutants: list[Mutant]) -> list[bool] | None:
    """Tries mutants of a crate, and prints a line for each. Returns for each whether it passed, or None if the law is
    not proved without a mutant."""
    with tempfile.TemporaryDirectory() as work_dir:
        folder = copy_crates(CRATES[crate], Path(work_dir))
        if not prove_law(folder, LAWS[crate])[0]:
            print(f"{crate}: {LAWS[crate]} is not proved without a mutant")
            return None
        results = []
        for mutant in mutants:
            failure = try_mutant(mutant, folder)
            line = f"FAILED {mutant.full_name}: {failure}" if failure else f"ok     {mutant.full_name}"
            print(line, flush=True)
            results.append(failure is None)
        return results


def main() -> int:
    """Tries the mutants that the command line names, or all. Returns the exit status."""
    parser = argparse.ArgumentParser(description=__doc__, formatter_class=argparse.RawDescriptionHelpFormatter)
    parser.add_argument("names", nargs="*", metavar="NAME", help="a mutant to try [default: all]")
    names = parser.parse_args().names
    passed = failed = 0
    for crate in LAWS:
        mutants = [mutant for mutant in list_mutants(crate, ["definitions"]) if not names or mutant.name in names]
        results = try_mutants(crate, mutants)
        if results is None:
            return 1
        passed += results.count(True)
        failed += results.count(False)
    print(f"{passed} passed, {failed} failed")
    return 0 if passed and not failed else 1


if __name__ == "__main__":
    sys.exit(main())
