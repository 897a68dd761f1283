"""Collects the cases of all tables: the text of each session, by name."""

from __future__ import annotations

import os
from typing import Dict, List

from hidlog_conformance.cases import blobs, cbor, checks, ctap1, enroll, flows, fuzzed, lock, manage, order, pin
from hidlog_conformance.cases import power_cycle, recorded, settings, similar_ids, time, transport, truth
from hidlog_conformance.cases import user, variations
from hidlog_conformance.cases.corpus import Case
from hidlog_conformance.cases.steps import check_patterns, cite_step

MODULES = (
    transport,
    lock,
    order,
    time,
    similar_ids,
    variations,
    pin,
    manage,
    user,
    blobs,
    cbor,
    checks,
    flows,
    power_cycle,
    settings,
    enroll,
    ctap1,
    truth,
    recorded,
    fuzzed,
)


def build_session_texts() -> Dict[str, str]:
    """Returns the text of each session, by name."""
    cases: List[Case] = []
    for module in MODULES:
        cases += module.cases()
    found: Dict[str, str] = {}
    for case in cases:
        assert case.name not in found, f"{case.name} is not unique"
        found[case.name] = cite_step(case.name, case.text())
    check_patterns(list(found))
    return found


def write_sessions(folder: str) -> None:
    """Writes the session files, read-only, since they are generated."""
    for name, text in build_session_texts().items():
        path = os.path.join(folder, name + ".log")
        os.makedirs(os.path.dirname(path), exist_ok=True)
        with open(path, "w", encoding="utf-8") as file:
            file.write(text)
        os.chmod(path, 0o444)
