"""Runs the command in this process, and checks that tests fail once the tested code is disabled."""

from __future__ import annotations

import io
import os
import sys
from contextlib import redirect_stderr, redirect_stdout
from typing import Any, Callable, List, Tuple

from hidlog_conformance import run

HERE = os.path.dirname(os.path.abspath(__file__))
Test = Callable[[], None]
# A replacement that disables tested code: object, attribute, value.
Undone = Tuple[Any, str, Any]


def run_command(words: List[str]) -> Tuple[int, str, str]:
    """Returns the exit status, standard output and standard error of the command."""
    out, heard = io.StringIO(), io.StringIO()
    with redirect_stdout(out), redirect_stderr(heard):
        status = run.main(words)
    return status, out.getvalue(), heard.getvalue()


def make_device_arguments(kind: str) -> List[str]:
    """Returns the arguments for an odd device."""
    return ["--device", f"{sys.executable} {os.path.join(HERE, 'odd_device.py')} {kind}", "--touch-line", "touch"]


def is_failing(test: Test) -> bool:
    """Returns whether a test fails."""
    try:
        test()
    except (AssertionError, OSError):
        return True
    return False


def check_detected(test: Test, *undone: Undone) -> Test:
    """Returns a test that also checks that `test` fails with each replacement."""

    def check_both() -> None:
        test()
        for owner, name, other in undone:
            before = getattr(owner, name)
            setattr(owner, name, other)
            try:
                assert is_failing(test), f"the test passes without {name}"
            finally:
                setattr(owner, name, before)

    return check_both
