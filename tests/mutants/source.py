"""Finds the functions in a crate's source files, and replaces functions by stubs, which need no time to check."""

from __future__ import annotations

import re
import shutil
from collections.abc import Sequence
from dataclasses import dataclass
from functools import cache
from pathlib import Path

FUNCTION_START = re.compile(r"( *)(?:pub(?:\([a-z]+\))? )?fn (\w+)")
# The start of an `impl` or a trait. The groups are the type parameters, the trait, the trait's arguments, and the type.
IMPL_START = re.compile(r"(?:impl(?:<([^{]*?)>)? (?:(\w+)(?:<([^{]*)>)? for )?|(?:pub )?trait )(\w+)")
TYPE_PARAMETER = re.compile(r"(?:const )?([A-Z]\w*)")
CYCLE_ATTRIBUTE = re.compile(r" *#\[cycle\((\w+)\)\]")
STUB_BODY = "loop {}"
# The proof of a stub. The `?` is a hole, a missing proof, which the prover accepts with --allow-holes.
STUB_PROOF = """use Rattle.{module}.Statement.{{statement}}

contradiction : ⊥
contradiction = ?

pub {name}_spec : {{M : Type 1}} → statement M
{name}_spec = absurd contradiction
"""


@dataclass(frozen=True)
class Function:
    """A function whose body has several lines. The first line of a file has the number 0."""

    # The prover's name of the function: the crate, modules, type and trait, and the name after `fn`, joined by `::`.
    name: str
    # The path of the source file in the crate, and the lines of `fn`, of the body's `{` and of the body's `}`.
    path: str
    first_line: int
    opening_line: int
    last_line: int
    # NAME of the attribute `#[cycle(NAME)]`, which functions that call each other have, or None.
    cycle: str | None

    def contains_line(self, line: int) -> bool:
        """Returns whether a line of the file belongs to the function."""
        return self.first_line <= line <= self.last_line

    def shares_proof(self, other: Function) -> bool:
        """Returns whether the prover proves the two together: they are the same function, or in the same cycle."""
        return self == other or (self.cycle is not None and (self.path, self.cycle) == (other.path, other.cycle))


def to_module_path(path: str) -> list[str]:
    """Returns the modules of a source file, such as ["commands", "reset"] for src/commands/reset.rt."""
    parts = path.removeprefix("src/").removesuffix(".rt").split("/")
    return [part for part in parts if part not in ("lib", "main", "mod")]


@cache
def find_module_of_type(folder: Path, type_name: str) -> list[str] | None:
    """Returns the modules of the source file that declares a type, or None if no file of the crate declares it."""
    declaration = re.compile(rf"^(?:pub(?:\([a-z]+\))? )?(?:struct|enum) {type_name}\b", re.MULTILINE)
    for file in (folder / "src").rglob("*.rt"):
        if declaration.search(file.read_text(encoding="utf-8")):
            return to_module_path(str(file.relative_to(folder)))
    return None


def find_opening_line(lines: list[str], first_line: int, indent: str) -> int | None:
    """Returns the line with the `{` of a function's body, or None if the function has no body or the body is on one
    line. The function starts at `first_line`, which is indented by `indent`."""
    depth = 0
    for number in range(first_line, len(lines)):
        line = lines[number]
        is_outermost = line.startswith(indent) and not line.startswith(indent + " ")
        if depth == 0 and is_outermost and line.endswith("{"):
            return number
        depth += line.count("{") - line.count("}")
        if depth == 0 and line.endswith((";", "{}")):
            return None
    return None


def find_type_path(folder: Path, lines: list[str], path: str) -> list[str]:
    """Returns the parts of a method's name before its last part: the modules, and the type with the trait. `lines` are
    the lines of the file before the method."""
    # Find the start of the `impl` or trait: skip indented lines, comments, and lines with a brace or `where` first.
    start = next(line for line in reversed(lines) if line and not line.startswith((" ", "}", "/", "w", "{")))
    found = IMPL_START.match(start)
    if not found:
        return to_module_path(path)
    parameter_list, trait, arguments, type_name = found.groups()
    if not trait:
        # The prover names the method by the file that declares the type, even if the `impl` is in another file.
        return (find_module_of_type(folder, type_name) or to_module_path(path)) + [type_name]
    # The types in the trait's arguments belong to the name, as in `FaultFromAllocError`, but type parameters do not.
    matches = (TYPE_PARAMETER.match(part.strip()) for part in (parameter_list or "").split(","))
    parameters = [parameter[1] for parameter in matches if parameter]
    types = [name for name in re.findall(r"\b[A-Z]\w*", arguments or "") if name not in parameters]
    return to_module_path(path) + ["".join([type_name, trait, *types])]


@cache
def find_functions(folder: Path, path: str) -> tuple[Function, ...]:
    """Returns the functions in a source file. `folder` is the crate's folder, and `path` the file's path in it."""
    lines = (folder / path).read_text(encoding="utf-8").split("\n")
    functions = []
    for first_line, line in enumerate(lines):
        start = FUNCTION_START.match(line)
        opening_line = find_opening_line(lines, first_line, start[1]) if start else None
        if not start or opening_line is None:
            continue
        indent, name = start.groups()
        last_line = next(number for number in range(opening_line, len(lines)) if lines[number] == indent + "}")
        parents = find_type_path(folder, lines[:first_line], path) if indent else to_module_path(path)
        attribute = CYCLE_ATTRIBUTE.match(lines[first_line - 1])
        full_name = "::".join([folder.name, *parents, name])
        cycle = attribute[1] if attribute else None
        functions.append(Function(full_name, path, first_line, opening_line, last_line, cycle))
    return tuple(functions)


def find_function_at(folder: Path, path: str, text: str) -> Function | None:
    """Returns the function that contains a text of a source file, or None if no function contains all of the text."""
    source = (folder / path).read_text(encoding="utf-8")
    begin = source[: source.index(text)].count("\n")
    end = begin + text.count("\n")
    functions = find_functions(folder, path)
    return next((each for each in functions if each.contains_line(begin) and each.contains_line(end)), None)


def list_proof_folders(crate_folder: Path, function: Function) -> list[Path]:
    """Returns the folders with the proof of a function: its own and, if it is in a cycle, that of the cycle."""
    own = crate_folder.joinpath("proofs", *function.name.split("::")[1:])
    return [own] + ([own.parent / f"+{function.cycle}"] if function.cycle else [])


def write_stubs(folder: Path, copy: Path, checked: Sequence[Function]) -> None:
    """Replaces functions by stubs in a copy of a crate, all except those in `checked` and those that share a proof with
    one of them."""
    for file in sorted((folder / "src").rglob("*.rt")):
        path = str(file.relative_to(folder))
        lines = file.read_text(encoding="utf-8").split("\n")
        # Go from the last function to the first, so that the line numbers of the remaining ones stay valid.
        for function in reversed(find_functions(folder, path)):
            if any(function.shares_proof(other) for other in checked):
                continue
            indent = lines[function.last_line].removesuffix("}")
            lines[function.opening_line + 1 : function.last_line] = [f"{indent}    {STUB_BODY}"]
            if function.cycle:
                del lines[function.first_line - 1]
            write_stub_proof(copy, function)
        (copy / path).write_text("\n".join(lines), encoding="utf-8")


def write_stub_proof(copy: Path, function: Function) -> None:
    """Replaces the proof of a function by the proof of a stub, in a copy of the crate."""
    folders, parts = list_proof_folders(copy, function), function.name.split("::")
    for folder in folders:
        shutil.rmtree(folder, ignore_errors=True)
    folders[0].mkdir(parents=True)
    module = ".".join([parts[0], "proofs", *parts[1:]])
    (folders[0] / "Proof.antt").write_text(STUB_PROOF.format(module=module, name=parts[-1]), encoding="utf-8")
