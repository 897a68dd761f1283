"""Shared fixtures: keys in this process and in a separate one, and the examples.

Tests with python-fido2's client and server are ignored if it is missing; some need the interface of version 0.9.
"""

from __future__ import annotations

import os
from collections.abc import Callable, Iterator
from pathlib import Path
from typing import Any

import pytest
import hidlog
from hidlog import core

pytest_plugins = ["pytester"]
FIDO2_TESTS = ["test_fido2.py"]
FIDO2_0_9_TESTS = ["test_key.py", "test_state.py", "test_json.py"]
collect_ignore: list[str] = []
try:
    from fido2 import __version__ as fido2_version
except ImportError:
    fido2_version = ""
    try:
        import fido2  # noqa: F401
    except ImportError:
        collect_ignore += FIDO2_TESTS
if not fido2_version.startswith("0.9"):
    collect_ignore += FIDO2_0_9_TESTS
# Keys in this process are tested only if the C library supports them.
PROCESS_OPTIONS = [True, *([False] if core.supports_in_process() else [])]


@pytest.fixture(params=PROCESS_OPTIONS, ids=lambda item: "process" if item else "library")
def make_key(request: pytest.FixtureRequest) -> Iterator[Callable[..., hidlog.SecurityKey]]:
    """Provides a function that creates a key. At the end of the test, each recording must match the packets that the
    key sends."""
    keys = []

    def create_key(**options: Any) -> hidlog.SecurityKey:
        keys.append(hidlog.SecurityKey(process=request.param, **options))
        return keys[-1]

    yield create_key
    for key in keys:
        key.close()
        for snapshot, log in key.recordings if key.log else []:
            hidlog.check(log, snapshot).raise_for_fault()
            assert hidlog.live(log, snapshot).raise_for_fault().text == log


@pytest.fixture
def read_example() -> Callable[[str], bytes]:
    """Provides a function that reads a file of examples/."""
    return lambda name: Path(os.environ["HIDLOG_EXAMPLES"], name).read_bytes()
