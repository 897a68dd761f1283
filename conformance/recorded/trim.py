#!/usr/bin/env python3
"""Trims recordings to the host's packets and the user's and caller's replies.

    conformance/recorded/trim.py LOG ..    rewrite each file

Timestamps become at most ten milliseconds apart; public keys and signatures are replaced by made-up ones.
"""

from __future__ import annotations

import sys
from typing import List


def trim_recording(lines: List[str]) -> List[str]:
    """Returns the lines to keep."""
    kept, latest, at = [], -1, 0
    for line in lines:
        kind, _, rest = line.partition(" ")
        if kind not in (">", "p", "k", "s"):
            continue
        moment, *words = rest.split(" ")
        at += min(int(moment) - latest, 10) if latest >= 0 else 0
        latest = int(moment)
        if kind == "k":
            words = [words[0], "bb" * 32, "cc" * 32]
        if kind == "s":
            words = ["dd" * 70]
        kept.append(f"{kind} {at} {' '.join(words)}")
    return kept


def main(paths: List[str]) -> int:
    """Rewrites the files."""
    for path in paths:
        with open(path, encoding="utf-8") as file:
            lines = file.read().splitlines()
        with open(path, "w", encoding="utf-8") as file:
            file.write("\n".join(trim_recording(lines)) + "\n")
    return 0


if __name__ == "__main__":
    sys.exit(main(sys.argv[1:]))
