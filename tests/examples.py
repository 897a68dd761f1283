#!/usr/bin/env python3
"""Compares tests/examples.txt with the proofs: each computed example named in the file must exist, and each computed
example of the proofs must be named. Prints how many rows of the standard's tables have an example. Exit status: 1 if they differ.

    tests/examples.py           compares
    tests/examples.py --list    prints the rows with their examples

A law that relates code to a definition does not detect a mistake in both. Therefore definitions are evaluated for
inputs with results worked out from the standard by hand; the prover rejects an example whose sides differ.
"""

from __future__ import annotations

import re
import sys
from pathlib import Path

TOP = Path(__file__).resolve().parents[1]
FILE_ROW = re.compile(r"^\| ([A-Z]) \| (crates/\S+) \|$", re.MULTILINE)
TABLE_ROW = re.compile(r"^\| (?!---)(?!Row )(.+) \| (.+) \|$", re.MULTILINE)
EXAMPLE_REFERENCE = re.compile(r"\b([A-Z]) ([a-z][\w-]*)")
# An example is a name with a computed proof: one `refl`, several, or a record of `refl`s.
COMPUTED_EXAMPLE = re.compile(
    r"^([a-z][\w-]*) = (?:unfold [\w.-][\w. -]* in )?(?:refl$|\(+refl|record \{$)", re.MULTILINE
)


def read_examples(path: str) -> set[str]:
    """Returns the names of the examples in a file: those with a statement, except abbreviations."""
    text = (TOP / path).read_text(encoding="utf-8")
    return {name for name in COMPUTED_EXAMPLE.findall(text) if re.search(rf"^{re.escape(name)} :", text, re.MULTILINE)}


def main() -> int:
    page = (TOP / "tests/examples.txt").read_text(encoding="utf-8")
    if sys.argv[1:] == ["--list"]:
        print(page, end="")
        return 0
    files = dict(FILE_ROW.findall(page))
    there = {(letter, name) for letter, path in files.items() for name in read_examples(path)}
    rows = [(row, examples) for row, examples in TABLE_ROW.findall(page) if row not in files and row != "Letter"]
    named = {name for _, examples in rows for name in EXAMPLE_REFERENCE.findall(examples)}
    wrong = [f"{letter} {name} is in no proof" for letter, name in sorted(named - there)]
    wrong += [f"{letter} {name} is in no row" for letter, name in sorted(there - named)]
    wrong += [
        f"this row has neither an example nor `none`: {row}"
        for row, examples in rows
        if not has_example_or_none(examples)
    ]
    for line in wrong:
        print(f"tests/examples.txt: {line}")
    without = sum(examples.startswith("none: ") for _, examples in rows)
    print(f"{len(there)} examples, {len(rows)} rows, {without} without an example, {len(wrong)} faults")
    return 1 if wrong else 0


def has_example_or_none(examples: str) -> bool:
    """Returns whether a row names an example, or begins with `none: `."""
    return bool(EXAMPLE_REFERENCE.search(examples)) or examples.startswith("none: ")


if __name__ == "__main__":
    sys.exit(main())
