#!/usr/bin/env python3
"""Records the SHA-256 of each generated session in conformance/sessions.sha256, so that a change is seen.

    conformance/make.py                    write it, and print the names of the sessions that changed
    conformance/make.py --check            fail if it is out of date, or the table of requirements is wrong
    conformance/make.py --output FOLDER    write the session files to a folder
    conformance/make.py --sentences        print the number of cases by section, and each requirement with its cases
"""

from __future__ import annotations

import hashlib
import os
import sys
from typing import Dict, List, Tuple

from hidlog_conformance.cases.all_cases import build_session_texts, write_sessions
from hidlog_conformance.cases.sentences import format_sentence_table
from hidlog_conformance.client_runner import client_sessions

HERE = os.path.dirname(os.path.abspath(__file__))
# In the format of sha256sum: cd conformance/sessions && sha256sum --check ../../sessions.sha256
SUMS = os.path.join(HERE, "sessions.sha256")


def compute_sums(corpus_texts: Dict[str, str]) -> Dict[str, str]:
    """Returns the SHA-256 of each session, by name."""
    return {name: hashlib.sha256(text.encode()).hexdigest() for name, text in corpus_texts.items()}


def read_sums() -> Dict[str, str]:
    """Returns the recorded SHA-256 of each session, by name."""
    with open(SUMS, encoding="utf-8") as file:
        words = [line.split() for line in file]
    return {path[: -len(".log")]: digest for digest, path in words}


def write_sums(found: Dict[str, str]) -> None:
    """Writes the SHA-256 of each session."""
    with open(SUMS, "w", encoding="utf-8") as file:
        file.writelines(f"{digest}  {name}.log\n" for name, digest in sorted(found.items()))


def format_table(corpus_texts: Dict[str, str]) -> str:
    """Returns the table of the number of cases by section."""
    counts: Dict[str, List[int]] = {}
    for text in corpus_texts.values():
        rule = text.partition("\n")[0].partition(", ")[2]
        row = counts.setdefault(rule, [0, 0, 0])
        row[0] += 1
        row[1] += "\n# profile: " in text
        row[2] += "\n# level: should" in text
    rows = [
        f"| {rule} | {row[0]} | {row[1]} | {row[2]} |\n" for rule, row in sorted(counts.items(), key=get_section_key)
    ]
    head = "| Section of CTAP 2.1 | Cases | Of these a choice of the profile | SHOULD |\n|---|---|---|---|\n"
    return head + "".join(rows)


def list_rules(corpus_texts: Dict[str, str]) -> Dict[str, str]:
    """Returns the rule of each session, including those of clients, by name."""
    rules = {name: text.partition("\n")[0].partition(", ")[2] for name, text in corpus_texts.items()}
    for session, _ in client_sessions():
        rules["client:" + session.name] = session.head["rule"].partition(", ")[2]
    return rules


def get_section_key(row: Tuple[str, List[int]]) -> List[int]:
    """Returns a section number as a list, to sort by."""
    return [int(part) for part in row[0].split(" ")[0].split(".")]


def main(words: List[str]) -> int:
    """Records, checks, writes or prints the sessions."""
    if words[:1] == ["--output"] and len(words) == 2:
        write_sessions(words[1])
        return 0
    if words not in ([], ["--check"], ["--sentences"]):
        print(__doc__, file=sys.stderr)
        return 2
    texts = build_session_texts()
    choices = {name for name, text in texts.items() if "\n# profile: " in text}
    sentences = format_sentence_table(list_rules(texts), choices)
    if words == ["--sentences"]:
        print(format_table(texts) + "\n" + sentences, end="")
        return 0
    generated, recorded = compute_sums(texts), read_sums()
    differing = sorted(name for name in {*generated, *recorded} if generated.get(name) != recorded.get(name))
    if words:
        print("\n".join(f"differs: {name}" for name in differing) or f"the same, {len(generated)} sessions")
        return 1 if differing else 0
    write_sums(generated)
    print(
        "\n".join([*(f"changed: {name}" for name in differing), f"{len(generated)} sessions, {len(differing)} changed"])
    )
    return 0


if __name__ == "__main__":
    sys.exit(main(sys.argv[1:]))
