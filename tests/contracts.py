#!/usr/bin/env python3
"""Lists the contracts of the crates: each public function with a contract, the first sentence of its comment, and its
clauses.

    tests/contracts.py [CRATE ..]               default: all crates, in the order of crates.txt
    tests/contracts.py --contracts CRATE ..     with the source of each contract

In a program, private functions are listed, too. A function of a type is listed as TYPE::NAME, and a law as laws::NAME.
`requires` means that calls have a precondition. Needs no toolchain.
"""

from __future__ import annotations

import re
import signal
import sys
from collections.abc import Iterator
from dataclasses import dataclass
from pathlib import Path

TOP = Path(__file__).resolve().parent.parent
BLOCK = re.compile(r"^( *)(?:unsafe )?(?:impl(?:<.*?>)? ([\w:<>', ]+ for )?(\w+)|pub trait (\w+)).*\{$")
# In a trait, and in an impl of a trait, public functions have no `pub`.
FUNCTION = re.compile(r"^( *)(pub )?(?:unsafe )?(?:extern \"C\" )?fn (\w+)")
# A line of crates.txt: the name of a crate and, for the C library, the kind of library that is built from it.
CRATE = re.compile(r"^(\w+)(?: \w+)?:", re.MULTILINE)
CLAUSE = re.compile(r"^\s+(ensures|requires)\b ?(\w+)?(?= \{)", re.MULTILINE)


@dataclass
class Contract:
    """A function with its contract."""

    name: str
    summary: str
    contract: list[str]

    def clauses(self) -> list[str]:
        """Returns the names of the contract's clauses. A clause without a name is listed as `ensures`."""
        found = CLAUSE.findall("\n".join(self.contract))
        return list(dict.fromkeys(name or kind for kind, name in found if kind == "ensures" or not name))


@dataclass
class Block:
    """The type or trait that contains functions, and whether its functions are public without `pub`."""

    indent: str = ""
    of: str = ""
    is_trait: bool = False


def get_first_sentence(lines: list[str]) -> str:
    """Returns the first sentence of a comment, without links."""
    text = re.sub(r"\[(`[^`]*`)\](?:\([^)]*\))?", r"\1", " ".join(lines))
    return re.split(r"(?<=[.:]) (?=[A-Z-])", text)[0]


def read_contract(lines: list[str], place: int, indent: str) -> list[str]:
    """Returns the lines of a function up to its body."""
    found = list[str]()
    for line in lines[place:]:
        if line.startswith((indent + "{", indent + "}")):
            break
        found.append(line)
        if line.rstrip().endswith(";"):
            break
    return found


def iter_contracts(path: Path) -> Iterator[Contract]:
    """Yields the contracts of a file."""
    lines, comment, block = path.read_text(encoding="utf-8").splitlines(), list[str](), Block()
    is_program = (path.parent / "main.rt").exists()
    for place, line in enumerate(lines):
        text = line.strip()
        if text.startswith("///"):
            comment.append(text[3:].strip())
            continue
        if found := BLOCK.match(line):
            block = Block(found[1], found[3] or found[4], bool(found[2] or found[4]))
        elif line == block.indent + "}":
            block = Block()
        function = FUNCTION.match(line)
        if function and (function[2] or block.is_trait or is_program):
            contract = read_contract(lines, place, function[1])
            inside = block.of if function[1] else path.stem if path.stem == "laws" else ""
            name = f"{inside}::{function[3]}" if inside else function[3]
            if comment and any(CLAUSE.match(line) for line in contract):
                yield Contract(name, get_first_sentence(comment), contract)
        if not text.startswith(("#[", "//")):
            comment = []


def list_crates() -> list[str]:
    """Returns the crates in order, except that of the examples, which has no contracts."""
    names = CRATE.findall((TOP / "crates.txt").read_text(encoding="utf-8"))
    return [name for name in names if name != "doc_examples"]


def read_crate(crate: str) -> list[Contract]:
    """Returns the contracts of a crate."""
    return [
        contract
        for path in sorted((TOP / "crates" / crate / "src").glob("**/*.rt"))
        for contract in iter_contracts(path)
    ]


def main() -> int:
    signal.signal(signal.SIGPIPE, signal.SIG_DFL)
    words = sys.argv[1:]
    count = 0
    for crate in [word for word in words if not word.startswith("--")] or list_crates():
        found = read_crate(crate)
        count += len(found)
        print(f"\n{crate}: {len(found)}\n")
        for contract in found:
            print(f"{contract.name} ({', '.join(contract.clauses())}): {contract.summary}")
            if "--contracts" in words:
                print("\n".join(contract.contract) + "\n")
    print(f"\n{count} functions with a contract")
    return 0


if __name__ == "__main__":
    sys.exit(main())
