"""Writes a report as JSON, or as an HTML page that a maker can publish."""

from __future__ import annotations

import html
import json
from typing import Dict, List, NamedTuple

from hidlog_conformance.results import UNSTABLE

# The version of the JSON report. Version 1 had `said` for `details`; both members are written.
FORMAT = 2
STATUS_WORDS = {"ok": "passed", "not ok": "failed", UNSTABLE: "unstable", "warn": "warned", "skip": "skipped"}


class Row(NamedTuple):
    """A case: its name, its rule, its status, and the reason of a failure or skip. A failure also has the file and line
    of the step, and the expected and the actual response; an unstable case has its recordings."""

    name: str
    rule: str
    status: str
    details: str
    recordings: List[str]
    file: str = ""
    line: int = 0
    expected: str = ""
    actual: str = ""


def count_outcomes(rows: List[Row]) -> Dict[str, int]:
    """Returns the number of cases by outcome."""
    return {word: sum(row.status == status for row in rows) for status, word in STATUS_WORDS.items()}


def group_by_rule(rows: List[Row]) -> Dict[str, List[Row]]:
    """Returns the cases of each rule."""
    found: Dict[str, List[Row]] = {}
    for row in sorted(rows, key=lambda row: [int(part) for part in get_section_number(row.rule).split(".")]):
        found.setdefault(row.rule, []).append(row)
    return found


def get_section_number(rule: str) -> str:
    """Returns the section number of a rule: 6.1.2 of `CTAP 2.1, 6.1.2 authenticator..`."""
    return rule.partition(", ")[2].split(" ")[0] or "0"


def to_case_object(row: Row) -> Dict[str, object]:
    """Returns a case as an object of the JSON report."""
    case: Dict[str, object] = {"name": row.name, "rule": row.rule, "result": STATUS_WORDS[row.status]}
    case.update({"details": row.details, "said": row.details})
    if row.file:
        case.update({"file": row.file, "line": row.line, "expected": row.expected, "actual": row.actual})
    if row.recordings:
        case["recordings"] = row.recordings
    return case


def to_json(rows: List[Row], header: Dict[str, str], note: str) -> None:
    """Writes JSON."""
    cases = [to_case_object(row) for row in rows]
    print(
        json.dumps({"format": FORMAT, **header, "note": note, "totals": count_outcomes(rows), "cases": cases}, indent=1)
    )


def to_html(rows: List[Row], header: Dict[str, str], note: str) -> None:
    """Writes a page: the header, a table by section, and each case that did not pass."""
    escape = html.escape
    print('<!DOCTYPE html>\n<html lang="en"><head><meta charset="utf-8"><title>CTAP 2.1: conformance report</title>')
    print("<style>body{font:16px sans-serif;max-width:60em;margin:2em auto;padding:0 1em}")
    print("td,th{text-align:left;padding:.2em .8em .2em 0;vertical-align:top}code{overflow-wrap:anywhere}</style>")
    print("</head><body>\n<h1>CTAP 2.1: conformance report</h1>\n<table>")
    for name, value in header.items():
        print(f"<tr><th>{escape(name)}</th><td><code>{escape(value)}</code></td></tr>")
    print(f"</table>\n<p>{escape(note)}</p>\n<h2>By section</h2>\n<table>")
    print("<tr><th>Section</th>" + "".join(f"<th>{word}</th>" for word in STATUS_WORDS.values()) + "</tr>")
    for rule, found in group_by_rule(rows).items():
        cells = "".join(f"<td>{count}</td>" for count in count_outcomes(found).values())
        print(f"<tr><td>{escape(rule)}</td>{cells}</tr>")
    cells = "".join(f"<th>{count}</th>" for count in count_outcomes(rows).values())
    print(f"<tr><th>All</th>{cells}</tr></table>")
    for status, heading in (
        ("not ok", "Failed"),
        (UNSTABLE, "Unstable: failed, then passed"),
        ("warn", "Warned"),
        ("skip", "Skipped: not tested"),
    ):
        print(f"<h2>{heading}</h2>\n<table>")
        for row in rows:
            if row.status == status:
                cells = (
                    f"<td>{escape(row.name)}</td><td>{escape(row.rule)}</td><td><code>{escape(row.details)}</code></td>"
                )
                print(f"<tr>{cells}</tr>")
        print("</table>")
    print("</body></html>")
