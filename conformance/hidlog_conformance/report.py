"""Writes the outcomes of the cases as text, TAP, JUnit XML, JSON or HTML, and compares them with lists of expected
failures."""

from __future__ import annotations

import os
import sys
import time
from typing import Callable, Dict, List
from xml.sax.saxutils import escape, quoteattr

from hidlog_conformance import __version__, ctap_cbor, report_page
from hidlog_conformance.device_info import DeviceInfo
from hidlog_conformance.paths import DATA
from hidlog_conformance.results import FAILED, UNSTABLE, Outcome
from hidlog_conformance.response_reader import GOES_ON, IN_TIME
from hidlog_conformance.text import escape_text, quantity
from hidlog_conformance.rules import SECTIONS
from hidlog_conformance.session_file import read_sections

TITLES = {title.split(" ")[0]: "CTAP 2.1, " + title for title in SECTIONS.values()}
Header = Dict[str, str]
DISCLAIMER = (
    "This is not a FIDO certification, whose tools test more: metadata, NFC, BLE and "
    "others. These tests were written from knowledge of the standard and have not been checked against its text line by "
    "line. Skipped cases were not tested."
)


def make_device_header(name: str, device_info: DeviceInfo) -> Header:
    """Returns the header of a report on a device."""
    info, greeting = device_info.info, device_info.greeting
    device = ".".join(map(str, greeting[13:16]))
    aaguid = info.get(3)
    return {
        "corpus": f"hidlog-conformance {__version__}",
        "date": time.strftime("%Y-%m-%d"),
        "device": escape_text(name),
        "AAGUID": aaguid.hex() if isinstance(aaguid, bytes) else "none",
        "versions": escape_text(" ".join(map(str, device_info.versions))) or "none",
        "INIT": f"protocol {greeting[12]}, device {device}, capabilities {greeting[16]:02x}" if greeting else "none",
        "getInfo": escape_text(ctap_cbor.to_diagnostic(info))
        if not device_info.unread
        else escape_text(device_info.unread),
    }


def make_client_header(name: str) -> Header:
    """Returns the header of a report on a client."""
    return {
        "corpus": f"hidlog-conformance {__version__}",
        "date": time.strftime("%Y-%m-%d"),
        "client": escape_text(name),
    }


def format_totals(outcomes: List[Outcome]) -> str:
    """Returns the report's last line."""
    counts: Dict[str, int] = {"ok": 0, "not ok": 0, "warn": 0, "skip": 0, UNSTABLE: 0}
    for outcome in outcomes:
        counts[outcome.status] += 1
    failed = f"{counts['not ok'] + counts[UNSTABLE]} failed" + f" ({counts[UNSTABLE]} unstable)" * bool(
        counts[UNSTABLE]
    )
    return f"{counts['ok']} passed, {failed}, {counts['warn']} warned, {counts['skip']} skipped"


def get_title(outcome: Outcome) -> str:
    """Returns the rule that the device violated, or the case's rule."""
    broken = outcome.broken
    return TITLES[broken] if broken and broken != outcome.session.section else outcome.session.head["rule"]


def format_details(outcome: Outcome) -> List[str]:
    """Returns the lines about a case that failed or warned."""
    head = outcome.session.head
    if outcome.broken in ("", outcome.session.section):
        lines = [f"rule: {head['rule']}", f"requirement: {head['requirement']}"]
    else:
        lines = [f"rule: {TITLES[outcome.broken]}", f"found in a case about: {head['rule']}"]
    lines += [f"expected: {outcome.expected}", f"actual: {outcome.actual}"]
    if outcome.session.lenient:
        lines.append(f"kind: {outcome.session.lenient}")
    lines.append(f"at: line {outcome.line} of " * bool(outcome.line) + outcome.session.file)
    if outcome.status == UNSTABLE:
        lines.append(f"unstable: {outcome.reason}")
        for name, recording in zip(("failed", "passed"), outcome.recordings):
            lines += [f"recording, {name}:", *(f"  {line}" for line in recording.splitlines())]
    return [escape_text(line) for line in lines]


def print_failure(outcome: Outcome) -> None:
    """Writes a failure or a warning to standard error when the case ends. It is also in the report."""
    if outcome.status in (*FAILED, "warn"):
        text = f"{report_page.STATUS_WORDS[outcome.status]} {outcome.session.name}"
        print(
            escape_text(f"{text}: expected {outcome.expected}; actual: {outcome.actual}"), file=sys.stderr, flush=True
        )


def count_violated_rules(outcomes: List[Outcome]) -> List[str]:
    """Returns the violated rules, each with its number of failed cases."""
    counts: Dict[str, int] = {}
    for outcome in outcomes:
        if outcome.status in FAILED and outcome.broken:
            counts[outcome.broken] = counts.get(outcome.broken, 0) + 1
    return [f"violated  {TITLES[rule]}: {quantity(count, 'failed case')}" for rule, count in sorted(counts.items())]


def describe_no_case(only: str, skip: List[str]) -> str:
    """Returns the error message if --only and --skip exclude all cases."""
    excluded = " and ".join(f"--skip {word!r}" for word in skip)
    if only and skip:
        return f"no case contains --only {only!r} and not {excluded}"
    return f"{excluded} excludes all cases" if skip else f"no case contains {only!r}"


def rank_severity(outcome: Outcome) -> int:
    """Returns a key to sort outcomes by: a device that stopped, other MUST violations, unstable results, SHOULD
    violations, skipped cases."""
    if outcome.status == "not ok":
        return 0 if outcome.hung or outcome.expected in (GOES_ON, IN_TIME) else 1
    return {UNSTABLE: 2, "warn": 3, "skip": 4}.get(outcome.status, 5)


def write_text(outcomes: List[Outcome], header: Header) -> None:
    """Writes failed, unstable, warned and skipped cases, the violated rules, and the totals."""
    words = {"not ok": "failed ", UNSTABLE: UNSTABLE, "warn": "warned "}
    for outcome in sorted(outcomes, key=rank_severity):
        if outcome.status in words:
            print(f"{words[outcome.status]}  {outcome.session.name}")
            print("\n".join(f"         {line}" for line in format_details(outcome)))
        elif outcome.status == "skip":
            print(f"skipped  {outcome.session.name}: {escape_text(outcome.reason)}")
    for line in count_violated_rules(outcomes):
        print(line)
    for name, value in header.items():
        print(f"{name}: {value}")
    print(f"note: {DISCLAIMER}")
    print(format_totals(outcomes))


def write_tap(outcomes: List[Outcome], header: Header) -> None:
    """Writes TAP, version 13; a warning is a TODO test."""
    print(f"TAP version 13\n1..{len(outcomes)}")
    for name, value in header.items():
        print(f"# {name}: {value}")
    for number, outcome in enumerate(outcomes, 1):
        skip = f" # SKIP {escape_text(outcome.reason)}" if outcome.status == "skip" else ""
        todo = " # TODO violates a SHOULD" if outcome.status == "warn" else ""
        status = "ok" if outcome.status in ("ok", "skip") else "not ok"
        print(f"{status} {number} - {outcome.session.name}{skip}{todo}")
        if outcome.status in (*FAILED, "warn"):
            print("\n".join(f"# {line}" for line in format_details(outcome)))
        else:
            print(f"# rule: {outcome.session.head['rule']}\n# requirement: {outcome.session.head['requirement']}")
    print(f"# {format_totals(outcomes)}")


def write_junit(outcomes: List[Outcome], header: Header) -> None:
    """Writes JUnit XML; a warning is in the case's output."""
    failed = sum(outcome.status in FAILED for outcome in outcomes)
    skipped = sum(outcome.status == "skip" for outcome in outcomes)
    print('<?xml version="1.0" encoding="UTF-8"?>')
    print(f'<testsuite name="CTAP 2.1" tests="{len(outcomes)}" failures="{failed}" skipped="{skipped}">')
    write_properties("  ", list(header.items()))
    for outcome in outcomes:
        chapter, _, name = outcome.session.name.partition("/")
        print(f"  <testcase classname={quoteattr(chapter)} name={quoteattr(name)}>")
        head = outcome.session.head
        write_properties("    ", [(word, head[word]) for word in ("rule", "requirement")])
        if outcome.status == "skip":
            print(f"    <skipped message={quoteattr(escape_text(outcome.reason))}/>")
        if outcome.status in (*FAILED, "warn"):
            lines = escape("\n".join(format_details(outcome)))
        if outcome.status in FAILED:
            print(f"    <failure message={quoteattr(escape_text(outcome.expected))}>{lines}</failure>")
        if outcome.status == "warn":
            print(f"    <system-out>warned\n{lines}</system-out>")
        print("  </testcase>")
    print(f"</testsuite>\n<!-- {format_totals(outcomes)} -->")


def write_properties(margin: str, pairs: List["tuple[str, str]"]) -> None:
    """Writes JUnit's properties."""
    print(f"{margin}<properties>")
    for name, value in pairs:
        print(f"{margin}  <property name={quoteattr(name)} value={quoteattr(escape_text(value))}/>")
    print(f"{margin}</properties>")


def to_rows(outcomes: List[Outcome]) -> List[report_page.Row]:
    """Returns the outcomes as rows of the JSON and HTML reports."""
    found = []
    for outcome in outcomes:
        text = escape_text(outcome.reason) if outcome.status == "skip" else ""
        text = "; ".join(format_details(outcome)[2:4]) if outcome.status in (*FAILED, "warn") else text
        recordings = outcome.recordings if outcome.status == UNSTABLE else []
        row = report_page.Row(outcome.session.name, get_title(outcome), outcome.status, text, recordings)
        if outcome.status in (*FAILED, "warn"):
            place, expected, actual = outcome.session.file, outcome.expected, outcome.actual
            row = row._replace(
                file=place, line=outcome.line, expected=escape_text(expected), actual=escape_text(actual)
            )
        found.append(row)
    return found


WRITERS: Dict[str, Callable[[List[Outcome], Header], None]] = {
    "text": write_text,
    "tap": write_tap,
    "junit": write_junit,
    "json": lambda outcomes, header: report_page.to_json(to_rows(outcomes), header, DISCLAIMER),
    "html": lambda outcomes, header: report_page.to_html(to_rows(outcomes), header, DISCLAIMER),
}


def write(kind: str, outcomes: List[Outcome], header: Header) -> None:
    """Writes a report."""
    WRITERS[kind](outcomes, header)


def parse_list(path: str, section: str = "") -> Dict[str, str]:
    """Parses a list of expected failures (names, below a line `# REASON`), or a section of one; returns the reason by
    name."""
    found: Dict[str, str] = {}
    reason = ""
    for line in read_sections(path)[section]:
        if line.startswith("# "):
            reason = line[2:]
        elif line:
            if not reason or line in found:
                raise ValueError(f"{path}: {line} is a duplicate or has no reason above it")
            found[line] = reason
    return found


def read_list(path: str, section: str = "") -> Dict[str, str]:
    """Returns the expected failures of a list in conformance/, with their reasons."""
    return parse_list(os.path.join(DATA, path), section)


def compare_failures(path: str, outcomes: List[Outcome]) -> bool:
    """Prints the totals, and returns whether exactly the listed cases failed."""
    failed = {outcome.session.name for outcome in outcomes if outcome.status in FAILED}
    expected = set(read_list(path))
    for name in sorted(failed ^ expected):
        print(f"{name} {'fails' if name in failed else 'passes'}, unlike in conformance/{path}")
    print(f"{format_totals(outcomes)}; {len(expected)} expected failures in conformance/{path}")
    return failed == expected
