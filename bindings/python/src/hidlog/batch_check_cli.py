"""The command `hidlog check-many`: checks many recordings in threads, or on a Dask cluster."""

from __future__ import annotations

import argparse
import json
import os
import shutil
import sys
import tempfile
import time
import xml.etree.ElementTree as xml
from collections import Counter
from collections.abc import Iterator, Sequence
from concurrent.futures import ThreadPoolExecutor
from itertools import chain
from pathlib import Path
from typing import Any

from .entry_point import STATUS_FAILED
from .errors import HidlogError, MissingDependencyError, describe
from .files import is_regular
from .batch_check import CheckResult, check_many

_DASK = "dask://"
_PROGRESS_SECONDS = 0.5
_MAX_IN_MEMORY = 1 << 20
# Characters that are not allowed in XML.
_CONTROL_REPLACEMENTS = {code: "\ufffd" for code in (*range(32), 0xFFFE, 0xFFFF) if code not in (9, 10, 13)}


def _make_parser() -> argparse.ArgumentParser:
    parser = argparse.ArgumentParser(prog="hidlog check-many", description="Check many recordings in parallel.")
    parser.add_argument("paths", nargs="+", metavar="PATH", help="a log file, or a directory to search for *.log")
    parser.add_argument("--jobs", type=int, default=os.cpu_count() or 1, metavar="N", help="number of threads")
    parser.add_argument("--executor", metavar="dask://HOST:PORT", help="run on a Dask cluster")
    parser.add_argument("--report", choices=("text", "json", "junit"), default="text", help="output format")
    return parser


def _iter_logs(names: Sequence[str]) -> Iterator[Path]:
    """Yields the named logs, and the files *.log in named directories, sorted by name. Files that are not regular are
    skipped with a warning."""
    for path in map(Path, names):
        if not path.is_dir():
            yield path
            continue
        for name, folders, files in os.walk(path, onerror=_raise):
            folders.sort()
            for found in (Path(name, file) for file in sorted(files) if file.endswith(".log")):
                if is_regular(found):
                    yield found
                else:
                    text = f"skipped {_to_printable(str(found))}: not a regular file"
                    print(f"hidlog check-many: {text}", file=sys.stderr)


def _raise(error: OSError) -> None:
    raise error


def _to_printable(path: str) -> str:
    return path if path.isprintable() else describe(path)[1:-1]


class _Checks:
    """The state of a check of recordings: the recordings listed so far, and the number of each outcome."""

    def __init__(self, paths: Iterator[Path], report: str):
        self._paths, self._report = paths, report
        self._shown = time.monotonic()
        self.listed = 0
        self.counts: Counter[str] = Counter()

    def run(self, jobs: int, executor: str | None) -> Iterator[CheckResult]:
        """Yields the results. For the text report, yields only those of recordings that do not match."""
        paths, matches = self._iter_paths(), self._report != "text"
        if executor is None:
            # Calls of the library do not hold Python's lock, so threads are as fast as processes, and no process can be
            # left running.
            found = check_many(paths, lambda: ThreadPoolExecutor(jobs), at_once=4 * jobs, matches=matches)
        else:
            found = check_many(paths, _connect(executor).get_executor(pure=False), send=True, matches=matches)
        for result in found:
            self.counts[result.outcome] += 1
            yield result
        self.counts["match"] = self.listed - sum(self.counts.values()) + self.counts["match"]

    def _iter_paths(self) -> Iterator[Path]:
        """Yields the paths. If standard error is a terminal, shows the number of paths so far."""
        for path in self._paths:
            self.listed += 1
            if sys.stderr.isatty() and time.monotonic() - self._shown > _PROGRESS_SECONDS:
                self._shown = time.monotonic()
                print(f"\r{self.listed} ..", end="", file=sys.stderr, flush=True)
            yield path
        if sys.stderr.isatty():
            print("\r", end="", file=sys.stderr)

    def print_results(self, jobs: int, executor: str | None) -> None:
        """Prints the results as they arrive. JUnit XML begins with the number of results, so it is printed at the
        end."""
        found = self.run(jobs, executor)
        if self._report == "junit":
            self._print_junit(found)
            return
        for result in found:
            if self._report == "json":
                print(json.dumps(result._asdict()), flush=True)
            else:
                print(f"{result.outcome:12} {_to_printable(result.path)}: {result.text}")

    def _print_junit(self, found: Iterator[CheckResult]) -> None:
        """Prints the results as JUnit XML. If there are many, they are kept in a temporary file until all have
        arrived."""
        with tempfile.SpooledTemporaryFile(_MAX_IN_MEMORY, "w+", encoding="utf-8") as cases:
            for result in found:
                cases.write(_to_test_case(result))
            failures = sum(count for outcome, count in self.counts.items() if outcome != "match")
            print(f'<testsuite name="hidlog check-many" tests="{self.listed}" failures="{failures}">', end="")
            cases.seek(0)
            shutil.copyfileobj(cases, sys.stdout)
            print("</testsuite>")


def _connect(executor: str) -> Any:
    """Returns a client of a Dask cluster."""
    if not executor.startswith(_DASK):
        raise HidlogError(f"--executor is {describe(executor)}; it must be {_DASK}HOST:PORT")
    try:
        from distributed import Client
    except ImportError as missing:
        raise MissingDependencyError("distributed is missing: apt-get install python3-distributed") from missing
    return Client(executor[len(_DASK) :], timeout=10)


def _to_test_case(result: CheckResult) -> str:
    case = xml.Element("testcase", classname="hidlog.check", name=result.path.translate(_CONTROL_REPLACEMENTS))
    if result.outcome != "match":
        xml.SubElement(case, "failure", type=result.outcome, message=result.text.translate(_CONTROL_REPLACEMENTS))
    return xml.tostring(case, encoding="unicode")


def check_many_command(args: Sequence[str]) -> int:
    """Checks recordings. The exit status is 0 if all match, 1 on a mismatch or a bad snapshot, and 2 on a usage error
    or if one could not be checked."""
    options = _make_parser().parse_args(args)
    paths = _iter_logs(options.paths)
    first = next(paths, None)
    if first is None or options.jobs < 1:
        raise HidlogError(
            "no *.log file found" if first is None else f"--jobs is {options.jobs}; it must be at least 1"
        )
    checks = _Checks(chain([first], paths), options.report)
    checks.print_results(options.jobs, options.executor)
    counts = {name: count for name, count in sorted(checks.counts.items()) if count}
    print(", ".join(f"{count} {name}" for name, count in counts.items()), file=sys.stderr)
    if {"unreadable", "worker-lost"} & set(counts):
        return STATUS_FAILED
    return 0 if set(counts) == {"match"} else 1
