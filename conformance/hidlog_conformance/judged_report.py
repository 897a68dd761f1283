"""Writes the findings of `hidlog judge` as text, JSON or JUnit XML."""

from __future__ import annotations

import json
from typing import Callable, Dict, List, Tuple
from xml.sax.saxutils import escape, quoteattr

from hidlog_conformance.judged_log import KEY, MUST, SHOULD, Finding, JudgedRecording
from hidlog_conformance.keys import AVAILABLE
from hidlog_conformance.text import escape_text, quantity

# The version of the JSON format, and the former names of members of a finding, in version 1. Both names are written.
FORMAT = 2
OLD_NAMES = {"relatedSections": "also", "expected": "due", "actual": "came"}
SIDES = {KEY: "the key", "host": "the host"}


def count_packets(recording: JudgedRecording) -> int:
    """Returns the number of packets."""
    return recording.walk.packets


def format_total(recording: JudgedRecording) -> str:
    """Returns the last line: the number of packets, transactions and violations."""
    counts = {level: sum(finding.level == level for finding in recording.findings) for level in (MUST, SHOULD)}
    packets = count_packets(recording)
    violations = f"{quantity(counts[MUST], 'MUST violation')}, {quantity(counts[SHOULD], 'SHOULD violation')}"
    return f"{quantity(packets, 'packet')}, {quantity(recording.walk.count, 'transaction')}: {violations}"


def list_notes(recording: JudgedRecording) -> List[str]:
    """Returns notes on rules that were not checked, and on violations that the recorder may have caused."""
    notes = []
    if recording.has_lost:
        notes.append("the recorder lost packets: missing or misordered packets count as SHOULD violations")
    elif recording.is_imported and recording.gap is not None:
        gap = f"line {recording.gap} does not continue the packets before it"
        notes.append(f"the capture may have lost packets, since {gap}: later findings may not be the key's fault")
    if recording.has_no_timestamps:
        notes.append("the log has no timestamps: timing rules were not checked")
    if recording.cut:
        are = "is truncated: its" if len(recording.cut) == 1 else "are truncated: their"
        notes.append(f"{quantity(len(recording.cut), 'packet')} {are} contents were not checked")
    if recording.is_truncated:
        notes.append("the capture is truncated in its last record: what came after it was not checked")
    if recording.is_single_client:
        notes.append("the log covers one client only: responses to other clients were not checked")
    if recording.unread:
        notes.append("the host did not read for a while: missing responses were not checked")
    if not recording.walk.answers:
        notes.append("the log has no packets from a key: `hidlog replay` adds this project's")
    if not AVAILABLE:
        notes.append("signatures were not verified: the package cryptography is not installed")
    return notes


def format_finding(finding: Finding) -> List[str]:
    """Returns the lines of a finding."""
    return [
        f"line {finding.line}: {SIDES[finding.side]} violates {finding.level.upper()}: {finding.rule}",
        f"  expected: {escape_text(finding.expected)}",
        f"  actual:   {escape_text(finding.actual)}",
    ]


def format_recording(recording: JudgedRecording) -> str:
    """Returns the text about a recording: notes, findings, totals."""
    lines = [f"note: {note}" for note in list_notes(recording)]
    lines += [line for finding in recording.findings for line in format_finding(finding)]
    return "".join(f"{line}\n" for line in [*lines, format_total(recording)])


def to_text(judged: List[Tuple[str, JudgedRecording]]) -> str:
    """Returns the report as text; if there are several recordings, each begins with its name."""
    if len(judged) == 1:
        return format_recording(judged[0][1])
    return "\n".join(f"{escape_text(name)}\n{format_recording(recording)}" for name, recording in judged)


def to_finding_object(finding: Finding) -> Dict[str, object]:
    """Returns a finding as a JSON object."""
    return {
        "line": finding.line,
        "side": finding.side,
        "level": finding.level,
        "section": finding.section,
        "relatedSections": finding.also,
        "rule": finding.rule,
        "expected": finding.expected,
        "actual": finding.actual,
    }


def add_old_names(members: Dict[str, object]) -> Dict[str, object]:
    """Returns a finding's members, also under their names in version 1."""
    return {**members, **{old: members[name] for name, old in OLD_NAMES.items()}}


def to_recording_object(name: str, recording: JudgedRecording) -> Dict[str, object]:
    """Returns a recording's findings as a JSON object."""
    return {
        "format": FORMAT,
        "log": name,
        "packets": count_packets(recording),
        "transactions": recording.walk.count,
        "findings": [add_old_names(to_finding_object(finding)) for finding in recording.findings],
        "notes": list_notes(recording),
    }


def to_json(judged: List[Tuple[str, JudgedRecording]]) -> str:
    """Returns JSON: one object, or an array if there are several recordings."""
    objects = [to_recording_object(name, recording) for name, recording in judged]
    return json.dumps(objects[0] if len(objects) == 1 else objects, indent=1) + "\n"


def to_suite(name: str, recording: JudgedRecording) -> List[str]:
    """Returns a JUnit XML suite: a test case for each finding, or one that passes."""
    cases = []
    for finding in recording.findings:
        text = escape("\n".join(format_finding(finding)))
        title = quoteattr(f"line {finding.line}: {finding.side}: {finding.rule}")
        kind = "failure" if finding.level == MUST else "system-out"
        opened = (
            f"<failure message={quoteattr(escape_text(finding.expected))}>" if finding.level == MUST else "<system-out>"
        )
        cases.append(f"  <testcase classname={quoteattr(name)} name={title}>{opened}{text}</{kind}></testcase>")
    if not cases:
        cases.append(f'  <testcase classname={quoteattr(name)} name="no violations"/>')
    failures = sum(finding.level == MUST for finding in recording.findings)
    head = f'<testsuite name="hidlog judge" tests="{len(cases)}" failures="{failures}">'
    return [head, *cases, "</testsuite>"]


def to_junit(judged: List[Tuple[str, JudgedRecording]]) -> str:
    """Returns JUnit XML: a suite for each recording."""
    suites = [line for name, recording in judged for line in to_suite(name, recording)]
    if len(judged) > 1:
        suites = ["<testsuites>", *suites, "</testsuites>"]
    return "\n".join(['<?xml version="1.0" encoding="UTF-8"?>', *suites, ""])


WRITERS: Dict[str, Callable[[List[Tuple[str, JudgedRecording]]], str]] = {
    "text": to_text,
    "json": to_json,
    "junit": to_junit,
}
