"""Outcomes of sessions, which are collected when they end, so that an interrupted run has the results so far.

With --resume, each result is also written to a file, and a later run continues with the other cases.
"""

from __future__ import annotations

import json
import os
import sys
import threading
from collections import deque
from dataclasses import dataclass, field
from typing import Any, Callable, Deque, Dict, Generic, List, Optional, Sequence, Tuple, TypeVar

from hidlog_conformance.session_file import Session
from hidlog_conformance.text import escape_text

Item = TypeVar("Item")
Result = TypeVar("Result")
# The status of a case that failed, and passed when it was repeated; and the statuses that fail a run.
UNSTABLE = "unstable"
FAILED = ("not ok", UNSTABLE)
# Members of an outcome that are written as they are.
MEMBERS = ("status", "reason", "expected", "actual", "line", "broken", "hung", "recordings")


@dataclass
class Outcome:
    """The outcome of a session."""

    session: Session
    status: str
    reason: str = ""
    expected: str = ""
    actual: str = ""
    line: int = 0
    # The violated section, which may differ from the session's.
    broken: str = ""
    # Whether the case reached its deadline.
    hung: bool = False
    # Whether the packets violate a MUST by the rules of `hidlog judge`.
    is_violation: bool = False
    # A log of the packets for each time that the case was played.
    recordings: List[str] = field(default_factory=list)


class Results(Generic[Result]):
    """The results so far by the number of the case. Threads add to them until they are closed."""

    def __init__(self, write: Optional[Callable[[Result], None]] = None) -> None:
        # Called with each result that is added.
        self.write = write
        self.by_number: Dict[int, Result] = {}
        self.lock = threading.Lock()
        self.is_closed = False

    def add(self, number: int, result: Result) -> None:
        """Adds a result, unless the run was interrupted before, since an interrupt may change a result."""
        with self.lock:
            if not self.is_closed:
                self.by_number[number] = result
                if self.write is not None:
                    self.write(result)

    def close(self) -> List[Result]:
        """Returns the results in the order of the cases; no more are added."""
        with self.lock:
            self.is_closed = True
            return [self.by_number[number] for number in sorted(self.by_number)]


def collect(play: Callable[[Item], Result], items: Sequence[Item], threads: int, results: Results[Result]) -> None:
    """Plays items in parallel threads, and adds their results. After an interrupt of the main thread the other threads
    do not keep the process from ending."""
    waiting: Deque[Tuple[int, Item]] = deque(enumerate(items))
    failures: List[BaseException] = []

    def work() -> None:
        while waiting and not results.is_closed and not failures:
            try:
                number, item = waiting.popleft()
            except IndexError:
                return
            try:
                results.add(number, play(item))
            except BaseException as failure:
                failures.append(failure)

    workers = [threading.Thread(target=work, daemon=True) for _ in range(max(1, threads))]
    for worker in workers:
        worker.start()
    for worker in workers:
        worker.join()
    if failures and not results.is_closed:
        raise failures[0]


class ResultFile:
    """A file of JSON lines: the first line names the tested device and sessions, each other line has an outcome."""

    def __init__(self, path: str, header: Dict[str, Any], sessions: List[Session]) -> None:
        self.path = path
        self.is_broken = False
        self.done: Dict[str, Outcome] = {}
        lines = self.read_lines()
        if lines and lines[0] != header:
            wrong = next(name for name in (*header, *lines[0]) if lines[0].get(name) != header.get(name))
            text = f"expected {header.get(wrong)!r}, got {lines[0].get(wrong)!r}"
            raise ValueError(f"{path} belongs to another run: {wrong}: {text}; remove the file to start over")
        by_name = {session.name: session for session in sessions}
        for line in lines[1:]:
            if line["name"] in by_name:
                members = {name: line[name] for name in MEMBERS}
                self.done[line["name"]] = Outcome(by_name[line["name"]], **members)
        if not lines:
            try:
                self.write(header)
            except OSError as fault:
                # The error of a write does not have the file's name.
                raise OSError(fault.errno, fault.strerror, path) from None

    def read_lines(self) -> List[Dict[str, Any]]:
        """Returns the lines of the file; removes the last line if it is incomplete."""
        if not os.path.exists(self.path):
            return []
        if not os.path.isfile(self.path):
            raise ValueError(f"{self.path} is not a regular file, which --resume needs")
        with open(self.path, "rb") as file:
            whole, newline, rest = file.read().rpartition(b"\n")
        if rest:
            os.truncate(self.path, len(whole) + len(newline))
        try:
            found = [json.loads(line) for line in whole.splitlines()]
        except ValueError:
            raise ValueError(f"{self.path} was not written by --resume") from None
        if not all(isinstance(line, dict) for line in found):
            raise ValueError(f"{self.path} was not written by --resume")
        return found

    def write(self, members: Dict[str, Any]) -> None:
        """Appends a line."""
        with open(self.path, "a", encoding="utf-8") as file:
            file.write(json.dumps(members) + "\n")

    def add(self, outcome: Outcome) -> None:
        """Appends an outcome; with its packets only if it is unstable, since the report has them. After an error of a
        write the run continues without the file, and its report has all results."""
        if self.is_broken:
            return
        members = {name: getattr(outcome, name) for name in MEMBERS}
        members["recordings"] = outcome.recordings if outcome.status == UNSTABLE else []
        try:
            self.write({"name": outcome.session.name, **members})
        except OSError as fault:
            self.is_broken = True
            text = f"{self.path}: {fault.strerror or fault}: the results from {outcome.session.name} on are not in it"
            print(f"hidlog-conformance: {escape_text(text)}", file=sys.stderr)
