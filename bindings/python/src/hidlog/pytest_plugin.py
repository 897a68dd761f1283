"""Fixtures for pytest: `security_key`, and `make_security_key` for several keys or other options.

    pytest --security-key-log DIR       save the recordings of failed tests in DIR, and name them in the report
    pytest --security-key-scope module  scope of both fixtures; security_key_scope in a configuration file

The report of a failed test has a summary of its sessions, whether setup, call or teardown failed.
"""

from __future__ import annotations

import re
import subprocess
from collections.abc import Callable, Generator
from pathlib import Path
from typing import TYPE_CHECKING, Any

import pytest

if TYPE_CHECKING:
    from .key import SecurityKey

_KEYS = "_hidlog_keys"
_NAMES = "_hidlog_names"
_SCOPES = ("function", "class", "module", "package", "session")
# File names have at most 255 bytes, and a number, `.snapshot` and others are appended.
_MAX_NAME_LENGTH = 160
_SUMMARY_SECONDS = 20


class _Keys(list["SecurityKey"]):
    """The keys of a pytest node, which are kept until the report of the node's last teardown is written."""

    is_over = False


def pytest_addoption(parser: pytest.Parser) -> None:
    """Adds the options."""
    group = parser.getgroup("hidlog", "security keys")
    group.addoption("--security-key-log", metavar="DIR", help="save the session logs of failed tests to DIR")
    group.addoption(
        "--security-key-process",
        action="store_true",
        help="run each key in a separate process (SecurityKey(process=True))",
    )
    scopes = "scope of security_key and make_security_key"
    group.addoption("--security-key-scope", choices=_SCOPES, help=scopes)
    parser.addini("security_key_scope", scopes, default="function")


def _get_scope(fixture_name: str, config: pytest.Config) -> str:
    """Returns the scope of the fixtures."""
    scope = config.getoption("--security-key-scope") or config.getini("security_key_scope")
    if scope not in _SCOPES:
        raise pytest.UsageError(f"security_key_scope is {scope!r}; it must be one of {', '.join(_SCOPES)}")
    return str(scope)


@pytest.fixture(scope=_get_scope)  # type: ignore[arg-type]
def make_security_key(request: pytest.FixtureRequest) -> Generator[Callable[..., SecurityKey], None, None]:
    """Provides a function that returns a new key, with SecurityKey's options. The keys are closed at the end."""
    from .key import SecurityKey

    keys = _Keys()
    setattr(request.node, _KEYS, keys)

    def make(**options: Any) -> SecurityKey:
        if request.config.getoption("--security-key-process"):
            options.setdefault("process", True)
        keys.append(SecurityKey(**options))
        return keys[-1]

    yield make
    keys.is_over = True
    for key in keys:
        key.close()


@pytest.fixture(scope=_get_scope)  # type: ignore[arg-type]
def security_key(make_security_key: Callable[..., SecurityKey]) -> SecurityKey:
    """Provides a security key without credentials, whose user is present."""
    return make_security_key()


@pytest.hookimpl(trylast=True)  # type: ignore[misc]
def pytest_collection_modifyitems(config: pytest.Config, items: list[pytest.Item]) -> None:
    """Assigns a unique file name to each test, the same in each worker of xdist."""
    names: dict[str, str] = {}
    used: set[str] = set()
    for item in items:
        base = re.sub(r"[^A-Za-z0-9_.-]+", "_", item.nodeid.replace(".py::", "."))[-_MAX_NAME_LENGTH:].lstrip(".-")
        name, number = base, 1
        while name.lower() in used:
            number += 1
            name = f"{base}-{number}"
        used.add(name.lower())
        names[item.nodeid] = name
    setattr(config, _NAMES, names)


def _list_keys(item: pytest.Item) -> list[SecurityKey]:
    """Returns the keys of a test, including those of fixtures with wider scopes."""
    return [key for node in item.listchain() for key in getattr(node, _KEYS, [])]


def _save_recordings(item: pytest.Item, key: SecurityKey, number: int, folder: str) -> list[Path]:
    """Saves the recordings of a key, and returns their paths."""
    Path(folder).mkdir(parents=True, exist_ok=True)
    name = getattr(item.config, _NAMES)[item.nodeid]
    return key.save_log(Path(folder, f"{name}{f'.key{number}' if number > 1 else ''}.log"))


def _summarize(log: bytes) -> str:
    """Returns the output of `hidlog show --summary` for a log, or "" without the program."""
    from .errors import MissingDependencyError
    from .subprocess_key import find_program

    try:
        words = [find_program(), "show", "--summary"]
        shown = subprocess.run(words, input=log, capture_output=True, timeout=_SUMMARY_SECONDS, check=False)
    except (MissingDependencyError, OSError, subprocess.TimeoutExpired):
        return ""
    return shown.stdout.decode(errors="replace").rstrip("\n")


def _find_end(log: bytes) -> int:
    """Returns the line of the last packet that the key sent, or 0."""
    place = log.rfind(b"\n< ") + 1
    return log.count(b"\n", 0, place) + 1 if place else 0


def _make_section(item: pytest.Item, key: SecurityKey, number: int) -> str:
    """Returns the report's section for a key: the calls, the summary of transactions, and the path of the recording."""
    from .activity import drop_zeros

    folder, end = item.config.getoption("--security-key-log"), _find_end(key.log)
    cause, summary = key.cause(), drop_zeros(_summarize(key.log))
    parts = [key.activity.describe(key)]
    parts += ["transactions of the key (hidlog show --summary):", summary] if summary else []
    parts.append(f"the key refused its last request: {cause}" if cause else "")
    paths = _save_recordings(item, key, number, folder) if folder else []
    parts += [f"recorded in {path}" for path in paths]
    named = f"the recording {paths[-1]}" if paths else "the recording (--security-key-log DIR saves it)"
    parts.append(f"the key's last response ends at line {end} of {named}" if end else "")
    return "\n".join(filter(None, parts))


@pytest.hookimpl(hookwrapper=True)  # type: ignore[misc]
def pytest_runtest_makereport(item: pytest.Item) -> Generator[None, Any, None]:
    """Adds sections on the keys to the report of a failure, and saves the recordings."""
    outcome = yield
    report = outcome.get_result()
    if report.failed:
        _add_sections(item, report)
    if report.when == "teardown":
        for node in item.listchain():
            keys = getattr(node, _KEYS, None)
            if isinstance(keys, _Keys) and keys.is_over:
                delattr(node, _KEYS)


def _add_sections(item: pytest.Item, report: pytest.TestReport) -> None:
    """Adds a section for each key to a report."""
    for number, key in enumerate(_list_keys(item), 1):
        title = "security key" + (f" {number}" if number > 1 else "")
        try:
            text = _make_section(item, key, number)
        except Exception as error:  # the report must not be lost
            text = f"the recording was not saved: {type(error).__name__}: {error}"
        report.sections.append((title, text))
