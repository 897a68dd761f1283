#!/usr/bin/env python3
"""Lists the parameters that library functions only pass on to other functions, unchanged.

    bench/pass_through_args.py FUNCTIONS    a file with names of functions, written by bench/functions.sh

Each line has the length of a chain, and a chain of functions that only pass a parameter to the next function. The last
function passes the parameter to a function that uses it. The sources are parsed as text, and calls are matched by name.
"""

from __future__ import annotations

import re
import signal
import sys
from dataclasses import dataclass
from pathlib import Path

CRATES = Path(__file__).resolve().parent.parent / "crates"
OPENING, CLOSING = "([{<", ")]}>"
# Comments, characters and strings, whose brackets are ignored.
IGNORED = re.compile(r"""//[^\n]*|'(?:\\.|[^\\'\n])'|r#".*?"#|"(?:\\.|[^"\\])*\"""", re.DOTALL)


@dataclass(frozen=True)
class Function:
    """A function with the names of its parameters in order. In a method, `self` is the first."""

    crate: str
    name: str
    parameters: tuple[str, ...]
    body: str


@dataclass(frozen=True)
class Parameter:
    """A parameter of a function."""

    crate: str
    function: str
    parameter: str

    def __str__(self) -> str:
        return f"{self.crate}::{self.function}({self.parameter})"


def find_closing(text: str, start: int) -> int:
    """Returns the index of the bracket that closes the bracket at `start`. Only brackets of this kind are counted."""
    opened, closed = text[start], CLOSING[OPENING.index(text[start])]
    depth = 0
    for index in range(start, len(text)):
        depth += (text[index] == opened) - (text[index] == closed)
        if depth == 0:
            return index
    raise ValueError(f"missing {closed} after {text[start:start + 40]!r}")


def split_arguments(text: str) -> list[str]:
    """Splits a text at commas outside of brackets."""
    found, depth, start = [], 0, 0
    for index, letter in enumerate(text.replace("->", "--").replace("=>", "==") + ","):
        depth += (letter in OPENING) - (letter in CLOSING)
        if letter == "," and depth == 0:
            found.append(text[start:index].strip())
            start = index + 1
    return [part for part in found if part]


def parse_functions(crate: str, text: str) -> list[Function]:
    """Returns the functions with a body in a file."""
    found = []
    text = IGNORED.sub("", text)
    for head in re.finditer(r"\bfn (\w+)", text):
        begin = text.index("(", head.end())
        end = find_closing(text, begin)
        # Contract clauses are on lines between the head and the body. The body's brace starts a line.
        brace = re.compile(r"^\s*\{", re.MULTILINE).search(text, end)
        following = re.compile(r"\bfn \w+").search(text, end)
        if not brace or (following and following.start() < brace.start()):
            continue
        names = [re.match(r"(?:mut )?(\w+)\s*:", part) for part in split_arguments(text[begin + 1 : end])]
        parameters = tuple(name.group(1) if name else "self" for name in names)
        opened = brace.end() - 1
        found.append(Function(crate, head.group(1), parameters, text[opened + 1 : find_closing(text, opened)]))
    return found


def find_passed_parameters(function: Function, called: dict[str, list[Function]]) -> dict[str, list[Parameter]]:
    """Returns the parameters that a function only passes on, each with the parameters to which it is passed."""
    takers: dict[str, list[Parameter]] = {}
    count: dict[str, int] = {}
    for call in re.finditer(r"(\.?)\b(\w+)(?:::<[^>]*>)?\(", function.body):
        arguments = split_arguments(function.body[call.end() : find_closing(function.body, call.end() - 1)])
        for index, argument in enumerate(arguments):
            name = re.sub(r"^(&mut |&|\*)", "", argument)
            if name not in function.parameters or call.group(2) not in called:
                continue
            count[name] = count.get(name, 0) + 1
            for taker in called[call.group(2)]:
                parameters = taker.parameters[1:] if call.group(1) else taker.parameters
                if index < len(parameters):
                    takers.setdefault(name, []).append(Parameter(taker.crate, taker.name, parameters[index]))
    uses = {name: len(re.findall(rf"(?<![\w.]){name}\b", function.body)) for name in takers}
    return {name: values for name, values in takers.items() if count[name] == uses[name]}


def find_chain(
    value: Parameter, hands: dict[Parameter, list[Parameter]], seen: frozenset[Parameter]
) -> list[Parameter]:
    """Returns the longest chain that starts with a parameter."""
    following = [
        find_chain(taker, hands, seen | {taker}) for taker in hands[value] if taker in hands and taker not in seen
    ]
    return [value, *max(following, key=len, default=[])]


def main() -> int:
    # Exit silently if the reader closes the pipe.
    signal.signal(signal.SIGPIPE, signal.SIG_DFL)
    if len(sys.argv) != 2:
        print(__doc__, file=sys.stderr)
        return 2
    named = [line.strip() for line in Path(sys.argv[1]).read_text(encoding="utf-8").splitlines() if "::" in line]
    listed = {(path.split("::")[0], path.split("::")[-1]) for path in named}
    called: dict[str, list[Function]] = {}
    for file in sorted(CRATES.glob("*/src/**/*.rt")):
        crate = file.relative_to(CRATES).parts[0]
        for function in parse_functions(crate, file.read_text(encoding="utf-8")):
            if (crate, function.name) in listed:
                called.setdefault(function.name, []).append(function)
    hands: dict[Parameter, list[Parameter]] = {}
    for function in [one for several in called.values() for one in several]:
        for name, takers in find_passed_parameters(function, called).items():
            hands[Parameter(function.crate, function.name, name)] = takers
    inner = {taker for takers in hands.values() for taker in takers}
    chains = [find_chain(value, hands, frozenset({value})) for value in hands if value not in inner]
    for values in sorted(chains, key=lambda values: (-len(values), str(values[0]))):
        print(len(values), " -> ".join(map(str, values)))
    return 0


if __name__ == "__main__":
    sys.exit(main())
