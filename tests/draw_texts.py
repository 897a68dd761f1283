#!/usr/bin/env python3
"""Draws comments, error messages and names at random from the sources, for a reader to explain.

    tests/draw_texts.py [--seed N]                the list for a reader: 30 comments, 20 messages, 20 names
    tests/draw_texts.py --count                   how many of each kind there are, by language

Each item has its file and line. The language of an item is drawn first, and then the item, so that all languages occur.
Generated files, proofs and test data are excluded. The same seed and sources give the same list.
"""

from __future__ import annotations

import argparse
import ast
import io
import random
import re
import subprocess
import sys
import textwrap
import tokenize
from pathlib import Path
from typing import Dict, Iterator, List, NamedTuple, Tuple

TOP = Path(__file__).resolve().parent.parent
COUNTS = {"comments": 30, "error messages": 20, "names": 20}
LANGUAGES = {
    ".rt": "Rattle",
    ".antt": "Rattle's definitions",
    ".py": "Python",
    ".js": "JavaScript",
    ".mjs": "JavaScript",
    ".go": "Go",
    ".rs": "Rust",
    ".c": "C",
    ".h": "C",
    ".sh": "shell",
}
SKIPPED_PATHS = re.compile(r"^crates/\w+/proofs/|^bindings/web/dist/|^release/|^examples/failing/|/data/")
# The folders whose definitions are drawn: those on which the theorem depends.
SPEC_PATHS = re.compile(r"^crates/\w+/specs/")
GENERATED_MARK = re.compile(r"[Gg]enerated by|DO NOT EDIT|[Mm]ade by (?!hand)")
# Calls and statements whose text is an error message.
ERROR_CALL = re.compile(
    r"\braise\b|\bthrow\b|\w*Error\(|\bErr\(|\bfail(?:ed)?\(|\bdie\b|>&2|stderr|errors\.New|Errorf|\bpanic!?\(|\bFatal"
    r"|\.error\(|\breject\(|\breport\w*\(|_error\b|\bcheck\("
)
# In Rust and C, single quotes are for lifetimes and characters, not strings.
SINGLE_QUOTED = (".py", ".js", ".mjs", ".sh")
DOUBLE_QUOTED = re.compile(r'"((?:[^"\\\n]|\\.)*)"')
STRING = re.compile(r'"((?:[^"\\\n]|\\.)*)"' + r"|'((?:[^'\\\n]|\\.)*)'" + r"|`((?:[^`\\\n]|\\.)*)`")
WORD = re.compile(r"[A-Za-z][a-z]+")
NAME_PATTERNS: Dict[str, str] = {
    ".rt": r"^\s*(?:pub(?:\([^)]*\))?\s+)?(?:const |static |unsafe )*(?:fn|struct|enum|trait|type|const|static)\s+(\w+)",
    ".antt": r"^(?:abbrev|record|data|def|fn)\s+(?:pub\s+)?(\w+)|^pub\s+(?:record|data)\s+(\w+)",
    ".py": r"^\s*(?:async\s+)?(?:def|class)\s+(\w+)|^([A-Z_]{3,})(?:: [^=]+)? = ",
    ".js": r"^\s*(?:export\s+)?(?:async\s+)?(?:function|class)\s+(\w+)"
    r"|^(?:    )?(?:export\s+)?const\s+(?:([A-Z_]{3,}) = |(\w+) = (?:async )?\([^)]*\) =>)",
    ".go": r"^func\s+(?:\([^)]*\)\s*)?(\w+)|^type\s+(\w+)|^\t([A-Za-z]\w+)\s+(?:\w+\s+)?= ",
    ".rs": r"^\s*(?:pub(?:\([^)]*\))?\s+)?(?:const |unsafe |async )*(?:fn|struct|enum|trait|type|const|static)\s+(\w+)",
    ".c": r"^(?=\w)(?:static\s+)?(?:const\s+)?[\w ]+[ *](\w+)\([^;]*$|^struct\s+(\w+)|^#define\s+(\w+)",
    ".sh": r"^(\w+)\(\)",
}
NAME_PATTERNS[".mjs"], NAME_PATTERNS[".h"] = NAME_PATTERNS[".js"], NAME_PATTERNS[".c"] + r"|^\w[\w ]*[ *](\w+)\("


class Item(NamedTuple):
    """A text or a name, with its file and line."""

    path: str
    line: int
    text: str


def read_sources() -> List[Tuple[str, str]]:
    """Returns the path and the text of each source file to draw from."""
    listed = subprocess.run(["git", "ls-files", "-z"], cwd=TOP, capture_output=True, check=True, text=True).stdout
    found = []
    for path in listed.split("\0"):
        suffix = Path(path).suffix
        if suffix not in LANGUAGES or SKIPPED_PATHS.search(path) or not (TOP / path).is_file():
            continue
        if suffix == ".antt" and not SPEC_PATHS.search(path):
            continue
        text = (TOP / path).read_text(encoding="utf-8")
        if not GENERATED_MARK.search("\n".join(text.splitlines()[:5])):
            found.append((path, text))
    return found


def to_plain_text(text: str) -> str:
    """Returns a comment's text in one line, without its marks."""
    lines = [re.sub(r"^\s*(?:///?|//!|/\*+|\*+/|\*|--(?= |$)|#)!? ?", "", line) for line in text.splitlines()]
    return " ".join(" ".join(lines).replace("*/", "").split())


def iter_python_comments(path: str, text: str) -> Iterator[Item]:
    """Yields comments and docstrings of Python."""
    for node in ast.walk(ast.parse(text)):
        if isinstance(node, (ast.Module, ast.ClassDef, ast.FunctionDef, ast.AsyncFunctionDef)):
            documented = ast.get_docstring(node)
            if documented:
                yield Item(path, node.body[0].lineno, to_plain_text(documented))
    block: List[str] = []
    last = 0
    for token in tokenize.generate_tokens(io.StringIO(text).readline):
        if token.type == tokenize.COMMENT and not re.match(r"#(?:!|\s*(?:noqa|type:|fmt:|mypy:))", token.string):
            line = token.start[0]
            if block and line != last + 1:
                yield Item(path, last - len(block) + 1, to_plain_text("\n".join(block)))
                block = []
            block, last = [*block, token.string], line
    if block:
        yield Item(path, last - len(block) + 1, to_plain_text("\n".join(block)))


def iter_line_comments(path: str, text: str, mark: str) -> Iterator[Item]:
    """Yields each block of lines that begin with a comment mark, and each comment in /* .. */."""
    block: List[str] = []
    begin = 0
    for number, line in enumerate([*text.splitlines(), ""], 1):
        stripped = line.strip()
        if stripped.startswith(mark) and not re.match(r"#!|# shellcheck|//go:|//export", stripped):
            begin, block = (begin, block) if block else (number, [])
            block.append(stripped)
        elif block:
            yield Item(path, begin, to_plain_text("\n".join(block)))
            block = []
    if mark == "//":
        for found in re.finditer(r"^[ \t]*/\*.*?\*/", text, re.DOTALL | re.MULTILINE):
            yield Item(path, text.count("\n", 0, found.start()) + 1, to_plain_text(found[0]))


def iter_comments(path: str, text: str) -> Iterator[Item]:
    """Yields a file's comments of at least four words."""
    suffix = Path(path).suffix
    if suffix == ".py":
        items = iter_python_comments(path, text)
    else:
        items = iter_line_comments(path, text, {".sh": "#", ".antt": "--"}.get(suffix, "//"))
    for item in items:
        if len(WORD.findall(item.text)) >= 4:
            yield item


def iter_messages(path: str, text: str) -> Iterator[Item]:
    """Yields texts of at least three words on lines that raise, return or print an error, or right below such a
    line."""
    before = ""
    for number, line in enumerate(text.splitlines(), 1):
        stripped = line.strip()
        is_comment = stripped.startswith(("#", "//", "--", "*", "/*", '"""'))
        if not is_comment and (
            ERROR_CALL.search(line) or (ERROR_CALL.search(before) and before.rstrip().endswith("("))
        ):
            for found in (STRING if Path(path).suffix in SINGLE_QUOTED else DOUBLE_QUOTED).finditer(line):
                message = next((group for group in found.groups() if group), "")
                if len(WORD.findall(message)) >= 3 and " " in message:
                    yield Item(path, number, message)
        before = line


def iter_names(path: str, text: str) -> Iterator[Item]:
    """Yields the names that a file defines."""
    pattern = re.compile(NAME_PATTERNS[Path(path).suffix])
    for number, line in enumerate(text.splitlines(), 1):
        found = pattern.search(line)
        if found:
            name = next(group for group in found.groups() if group)
            if not name.startswith("test_") and name not in ("main", "if", "for", "while", "switch"):
                yield Item(path, number, f"{name}    [{' '.join(line.split())[:100]}]")


def collect_items() -> Dict[str, Dict[str, List[Item]]]:
    """Returns the items of each kind, by language."""
    found: Dict[str, Dict[str, List[Item]]] = {kind: {} for kind in COUNTS}
    for path, text in read_sources():
        language = LANGUAGES[Path(path).suffix]
        for kind, items in zip(COUNTS, (iter_comments(path, text), iter_messages(path, text), iter_names(path, text))):
            found[kind].setdefault(language, []).extend(items)
    return found


def draw_items(languages: Dict[str, List[Item]], count: int, chance: random.Random) -> List[Item]:
    """Returns different items, each from a language that was drawn first."""
    left = {language: list(items) for language, items in sorted(languages.items()) if items}
    found: List[Item] = []
    while left and len(found) < count:
        language = chance.choice(list(left))
        found.append(left[language].pop(chance.randrange(len(left[language]))))
        if not left[language]:
            del left[language]
    return found


def main(arguments: List[str]) -> int:
    """Prints the list, or the counts."""
    parser = argparse.ArgumentParser(description="Draw texts and names of the sources at random.")
    parser.add_argument("--seed", type=int, default=1, help="seed of the draw (default: 1)")
    parser.add_argument("--count", action="store_true", help="print the number of items by kind and language")
    options = parser.parse_args(arguments)
    found = collect_items()
    if options.count:
        for kind, languages in found.items():
            counts = ", ".join(f"{language} {len(items)}" for language, items in sorted(languages.items()))
            print(f"{kind}: {counts}")
        return 0
    chance = random.Random(options.seed)
    number = 0
    for kind, count in COUNTS.items():
        print(f"{kind} (seed {options.seed})\n")
        for item in draw_items(found[kind], count, chance):
            number += 1
            lines = textwrap.wrap(item.text, 110, initial_indent="    ", subsequent_indent="    ")
            print(f"{number}. {item.path}:{item.line}", *lines, "", sep="\n")
    return 0


if __name__ == "__main__":
    sys.exit(main(sys.argv[1:]))
