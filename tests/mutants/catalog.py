"""The crates of crates.txt, and the mutants of each: changes of its sources after which the prover must refuse it."""

from __future__ import annotations

import re
from collections.abc import Sequence
from dataclasses import dataclass
from functools import cached_property
from pathlib import Path
from typing import NamedTuple

from source import Function, find_function_at

TOP = Path(__file__).resolve().parent.parent.parent
# The folders of a crate that the prover reads.
SOURCE_FOLDERS = ("src", "specs", "proofs")
# The folders of tests/mutants with wrong function bodies. A third one, `definitions`, has wrong definitions.
BODY_FOLDERS = ("gate", "release")
NAME_LINE = re.compile(r"\[([a-z0-9_]+)\]")
CONTRACT_WORD = re.compile(r"\b(ensures|requires|invariant|ghost)\b")


@dataclass(frozen=True)
class Crate:
    """A crate of crates.txt, and the libraries that its line names, from this repository and from the toolchain."""

    name: str
    is_static: bool
    dependencies: tuple[str, ...]

    @property
    def folder(self) -> Path:
        """The folder of the crate's sources."""
        return TOP / "crates" / self.name

    @property
    def root_file(self) -> str:
        """The path of the file in which the crate begins, in the crate's folder."""
        return "src/main.rt" if (self.folder / "src/main.rt").is_file() else "src/lib.rt"

    @property
    def rlib(self) -> Path:
        """The folder of the library that `rt ci` or `rt check` builds from the crate."""
        return self.folder / "out/rlib" / f"{self.name}.rlib"


def read_crates() -> dict[str, Crate]:
    """Returns the crates by name, in the order of crates.txt."""
    crates = {}
    for line in (TOP / "crates.txt").read_text(encoding="utf-8").splitlines():
        left, _, right = line.partition(":")
        if line.strip() and not line.startswith("#"):
            name, *kinds = left.split()
            crates[name] = Crate(name, "staticlib" in kinds, tuple(right.split()))
    return crates


CRATES = read_crates()


def list_libraries(crate: Crate) -> list[str]:
    """Returns the libraries of this repository that a crate uses, directly or through another library. Each library
    comes after those that it uses itself."""
    libraries: list[str] = []
    for name in crate.dependencies:
        if name in CRATES:
            candidates = [*list_libraries(CRATES[name]), name]
            libraries += [candidate for candidate in candidates if candidate not in libraries]
    return libraries


class Replacement(NamedTuple):
    """A text in a file of a crate, and the text that replaces it in a mutant."""

    path: str
    old: str
    new: str


@dataclass(frozen=True)
class Mutant:
    """A mutant of a crate: its name, and the lines that describe its replacements."""

    crate: str
    name: str
    lines: tuple[str, ...]

    @property
    def full_name(self) -> str:
        """The name with the crate."""
        return f"{self.crate}/{self.name}"

    @cached_property
    def replacements(self) -> list[Replacement]:
        """The replacements that make the mutant, in order."""
        path, old, found = "", "", list[Replacement]()
        for line in self.lines:
            if line.startswith("file: "):
                path = line.removeprefix("file: ").strip()
            elif line.startswith("old: "):
                old = line.removeprefix("old: ")
            elif line.startswith("new:"):
                found.append(Replacement(path, old, line.removeprefix("new:").removeprefix(" ")))
        return found

    def find_mismatch(self) -> str | None:
        """Returns why the mutant can't be applied to the current sources, or None if it can."""
        unknown = [line for line in self.lines if line.strip() and not line.startswith(("file: ", "old: ", "new:"))]
        if unknown:
            return f"expected a line 'file: ..', 'old: ..' or 'new: ..', got: {unknown[0].strip()}"
        texts: dict[str, str] = {}
        for path, old, new in self.replacements:
            file = TOP / "crates" / self.crate / path
            if path.partition("/")[0] not in SOURCE_FOLDERS or not file.is_file():
                return f"no file {path} in src/, specs/ or proofs/"
            text = texts.setdefault(path, file.read_text(encoding="utf-8"))
            if not old or text.count(old) != 1:
                return f"an 'old:' text must occur once in {path}, but occurs {text.count(old)} times: {old.strip()}"
            texts[path] = text.replace(old, new)
        return None if self.replacements else "it has no lines 'old: ..' and 'new: ..'"

    def apply(self, folder: Path) -> None:
        """Makes the replacements in a copy of the crate."""
        for path, old, new in self.replacements:
            file = folder / path
            file.write_text(file.read_text(encoding="utf-8").replace(old, new), encoding="utf-8")

    @cached_property
    def functions(self) -> frozenset[Function]:
        """The functions that the mutant changes. Empty if it also changes something else, such as a contract."""
        changed = set()
        for path, old, new in self.replacements:
            is_code = path.startswith("src/") and not CONTRACT_WORD.search(old + new)
            function = find_function_at(CRATES[self.crate].folder, path, old) if is_code else None
            if not function:
                return frozenset()
            changed.add(function)
        return frozenset(changed)

    def shares_proof(self, other: Mutant) -> bool:
        """Returns whether the two mutants change the same function, or functions that the prover proves together."""
        return any(mine.shares_proof(theirs) for mine in self.functions for theirs in other.functions)


def read_mutants(file: Path) -> list[Mutant]:
    """Returns the mutants in a file. Each has its name in brackets and lines `file:`, `old:` and `new:`."""
    found: list[tuple[str, list[str]]] = []
    for number, line in enumerate(file.read_text(encoding="utf-8").split("\n"), 1):
        if name := NAME_LINE.fullmatch(line):
            found.append((name[1], []))
        elif found:
            found[-1][1].append(line)
        elif line.strip():
            raise ValueError(f"{file.relative_to(TOP)}:{number}: expected a name in brackets, got: {line}")
    return [Mutant(file.stem, name, tuple(lines)) for name, lines in found]


def list_mutants(crate: str, folders: Sequence[str]) -> list[Mutant]:
    """Returns the mutants of a crate that are in these folders of tests/mutants."""
    files = [TOP / "tests" / "mutants" / folder / f"{crate}.mutants" for folder in folders]
    return [mutant for file in files if file.is_file() for mutant in read_mutants(file)]


def choose_independent(mutants: list[Mutant]) -> list[Mutant]:
    """Returns the mutants that share no proof with an earlier returned one. They can be tried in one check."""
    chosen: list[Mutant] = []
    for mutant in mutants:
        if not any(earlier.shares_proof(mutant) for earlier in chosen):
            chosen.append(mutant)
    return chosen
