#!/usr/bin/env python3
"""Copies pages of docs/use into a package: documents.py ROOT NAME ..

A link to a file that is not in the package is replaced by the link's text and the path in the sources. A note below the
title explains this.
"""

from __future__ import annotations

import os
import re
import sys
from pathlib import Path

TOP = Path(__file__).resolve().parent.parent
DOCS_FOLDER = TOP / "docs" / "use"
LINK = re.compile(r"\[([^\]]*)\]\(([^)#\s]+)(#[^)]*)?\)")
NOTE = "In this package `./hidlog` is `hidlog`. Paths that are not here are those of the sources.\n\n"


def rewrite_links(name: str, names: list[str]) -> str:
    """Returns the text of a page for the package."""

    def replace_link(found: re.Match[str]) -> str:
        text, target = found[1], found[2]
        if "://" in target or target.removesuffix(".md") in names:
            return found[0]
        path = os.path.normpath(f"docs/use/{target}")
        return f"`{path}`" if text in (path, Path(path).name, Path(path).stem) else f"{text} (`{path}` of the sources)"

    title, _, rest = (DOCS_FOLDER / f"{name}.md").read_text(encoding="utf-8").partition("\n\n")
    return f"{title}\n\n{NOTE}{LINK.sub(replace_link, rest)}"


def main() -> int:
    if len(sys.argv) < 3:
        print(__doc__, file=sys.stderr)
        return 2
    folder = Path(sys.argv[1]) / "docs" / "use"
    folder.mkdir(parents=True, exist_ok=True)
    for name in sys.argv[2:]:
        path = folder / f"{name}.md"
        path.write_text(rewrite_links(name, sys.argv[2:]), encoding="utf-8")
        path.chmod(0o644)
    return 0


if __name__ == "__main__":
    sys.exit(main())
