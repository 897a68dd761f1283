#!/usr/bin/env python3
"""Checks the version in all files against VERSION in crates/hidlog/src/cli.rt, from which packages/build_release.sh
writes release/BUILD.

    packages/version.py           list the files with a different version, and exit with 1 if there are any
    packages/version.py --write   write the version to them, except in CHANGELOG.md and release/

packages/build_release.sh writes the version to the files in release/.

Wheels, Debian packages, npm's, Go's zip and the crates read it from release/BUILD.
"""

from __future__ import annotations

import re
import sys
from pathlib import Path

TOP = Path(__file__).resolve().parent.parent
VERSION_SOURCE = TOP / "crates/hidlog/src/cli.rt"
NUMBER = r"\d+\.\d+\.\d+"
# Files and patterns whose group is the version. A pattern may match several times.
VERSION_PATTERNS = (
    ("CITATION.cff", rf"^version: ({NUMBER})$"),
    ("CHANGELOG.md", rf"\A.*?^## ({NUMBER}) "),
    ("bindings/rust/hidlog/Cargo.toml", rf'^(?:version = |hidlog-sys = {{ version = )"({NUMBER})"'),
    ("bindings/rust/hidlog-sys/Cargo.toml", rf'^version = "({NUMBER})"'),
    ("bindings/rust/hidlog/README.md", rf"hidlog-(?:sys-)?({NUMBER})"),
    ("bindings/go/README.md", rf"(?:version=v|hidlog-go-)({NUMBER})"),
    ("bindings/c/program.c", rf'^#define VERSION "({NUMBER})"$'),
    ("tests/program/cases.txt", rf"^\+hidlog ({NUMBER})$"),
)
RELEASE_PATTERNS = (
    ("release/BUILD", rf"^version: ({NUMBER})$"),
    ("release/hidlog.pc", rf"^Version: ({NUMBER})$"),
    ("release/hidlog-256.pc", rf"^Version: ({NUMBER})$"),
)
# Files in which the version is written by hand: the heading of the latest version, together with the changes.
MANUAL_FILES = ("CHANGELOG.md",)


def read_version() -> str:
    """Returns the version."""
    found = re.search(
        rf'^const VERSION: &str = "({NUMBER})";$', VERSION_SOURCE.read_text(encoding="utf-8"), re.MULTILINE
    )
    if not found:
        raise SystemExit(f"{VERSION_SOURCE} has no line 'const VERSION: &str = ..'")
    return found[1]


def find_versions(text: str, pattern: str) -> list[re.Match[str]]:
    """Returns the matches of a version in a text."""
    return list(re.finditer(pattern, text, re.MULTILINE | re.DOTALL if pattern.startswith(r"\A") else re.MULTILINE))


def replace_version(text: str, pattern: str, number: str) -> str:
    """Returns a text with each version replaced."""
    for place in reversed(find_versions(text, pattern)):
        text = text[: place.start(1)] + number + text[place.end(1) :]
    return text


def main() -> int:
    """Writes the version, or lists the files with a different version."""
    number, wrong = read_version(), []
    for name, pattern in (*VERSION_PATTERNS, *RELEASE_PATTERNS):
        path = TOP / name
        text = path.read_text(encoding="utf-8")
        found = {place[1] for place in find_versions(text, pattern)}
        if found == {number}:
            continue
        if sys.argv[1:] == ["--write"] and found and (name, pattern) in VERSION_PATTERNS and name not in MANUAL_FILES:
            path.write_text(replace_version(text, pattern, number), encoding="utf-8")
            continue
        wrong.append(f"{name} has {', '.join(sorted(found)) or 'no version'}, but {VERSION_SOURCE.name} has {number}")
    print(*wrong, sep="\n", end="\n" if wrong else "")
    if not wrong:
        print(f"{len(VERSION_PATTERNS) + len(RELEASE_PATTERNS)} files have the version {number}")
    return 1 if wrong else 0


if __name__ == "__main__":
    sys.exit(main())
