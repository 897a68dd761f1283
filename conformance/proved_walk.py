"""Checks logs for the scripts of this folder, with `hidlog_transactions` of the C library (release/libhidlog.so.1)."""

from __future__ import annotations

import os
import sys

sys.path.append(os.path.join(os.path.dirname(os.path.abspath(__file__)), "..", "bindings", "python", "src"))

from hidlog import logs  # noqa: E402
from hidlog_conformance import judged_log  # noqa: E402


def walk(log: bytes) -> bytes:
    """Returns the output of `hidlog_transactions` for a log."""
    return bytes(logs.transactions(log).raise_for_fault().text)


def judge(log: bytes) -> judged_log.JudgedRecording:
    """Checks a log."""
    return judged_log.judge(log, walk)
