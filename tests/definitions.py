"""The index of definitions by section of the public standards, which tests/reading.py --index prints.

A definition is listed under a section if the comment above it cites the section. A file is listed if the comment at its
top cites the section.
"""

from __future__ import annotations

import re
from collections import defaultdict
from dataclasses import dataclass, field
from pathlib import Path

TOP = Path(__file__).resolve().parent.parent
STANDARDS = ("CTAP 2.1", "WebAuthn Level 2", "RFC 8949", "RFC 8152")
NUMBER = r"\d+(?:\.\d+)*"
CITATION = re.compile(rf"({'|'.join(map(re.escape, STANDARDS))}), sections? ({NUMBER}(?:(?:, | and |, and ){NUMBER})*)")
ENCODING = re.compile(r"CTAP 2\.1, \"Message Encoding\"")
PAGE_HEAD = """# Definitions by section of the standard

What this repository makes of a section. A file alone is about the section as a whole; names are the definitions that
state it. docs/believe/READING.md has those that the headline needs in an order to read.
"""


@dataclass
class Entry:
    """The entry of a section for one file: the whole file, or some of its definitions."""

    whole: bool = False
    names: list[str] = field(default_factory=list)


Index = dict[tuple[str, str], dict[Path, Entry]]


def find_sections(text: str) -> list[tuple[str, str]]:
    """Returns the sections that a text cites, each with the standard."""
    joined = " ".join(text.split())
    found = [(match[1], number) for match in CITATION.finditer(joined) for number in re.findall(NUMBER, match[2])]
    return found + ([("CTAP 2.1", "8")] if ENCODING.search(joined) else [])


def read_top_comment(text: str) -> str:
    """Returns the comment at the top of a file."""
    lines = []
    for line in text.splitlines():
        if not line.startswith("--"):
            break
        lines.append(line.removeprefix("--").strip())
    return " ".join(lines)


def index_sections(comments: dict[Path, dict[str, str]]) -> Index:
    """Returns the files and definitions of each section. `comments` contains the comments of a file's definitions by
    name."""
    found: Index = defaultdict(lambda: defaultdict(Entry))
    for path, names in sorted(comments.items()):
        for section in find_sections(read_top_comment(path.read_text(encoding="utf-8"))):
            found[section][path].whole = True
        for name, comment in names.items():
            for section in find_sections(comment):
                found[section][path].names.append(name)
    return found


def section_key(section: str) -> list[int]:
    """Returns the numbers of a section, by which sections are sorted."""
    return [int(word) for word in section.split(".")]


def format_row(section: str, entries: dict[Path, Entry]) -> str:
    """Returns the row of a section."""
    cells = []
    for path, entry in entries.items():
        crate, file = path.relative_to(TOP / "crates").parts[0], path.name.removesuffix(".antt")
        link = f"{crate}, {file}"
        names = ", ".join(f"`{name}`" for name in dict.fromkeys(entry.names))
        cells.append(f"{link}: {names}" if names else link)
    return f"| {section} | {'; '.join(cells)} |\n"


def build_page(comments: dict[Path, dict[str, str]]) -> str:
    """Returns the text of the index page."""
    text, found = PAGE_HEAD, index_sections(comments)
    for standard in STANDARDS:
        text += f"\n## {standard}\n\n| Section | Where |\n|---|---|\n"
        sections = sorted((section for of, section in found if of == standard), key=section_key)
        text += "".join(format_row(section, found[standard, section]) for section in sections)
    return text
