"""Runs fuzzers in processes on this machine or on a Dask cluster, and reads the command line of the oracles, which
check generated logs. A seed and a number determine each log."""

from __future__ import annotations

import argparse
import multiprocessing
import os
import sys
from collections.abc import Callable, Iterable, Iterator
from contextlib import contextmanager
from pathlib import Path
from typing import Any, Optional

HERE = Path(__file__).resolve().parent
TOP = HERE.parents[1]
CONFORMANCE = TOP / "conformance"
BATCH_SIZE = 8
RunTasks = Callable[[Callable[[Any], Any], Iterable[Any]], Iterator[Any]]
# A program, a seed and a log number.
Task = tuple[str, str, int]
# The log's number, the error in the program's output for the log, if any, and the number of items that were checked.
Judged = tuple[int, Optional[str], int]


@contextmanager
def make_runner(executor: str, jobs: int) -> Iterator[RunTasks]:
    """Returns a function that runs tasks, and yields their results in any order."""
    if not executor:
        with multiprocessing.Pool(jobs) as pool:
            yield lambda play, tasks: pool.imap_unordered(play, tasks, chunksize=BATCH_SIZE)
        return
    sys.path.insert(0, str(CONFORMANCE))
    from hidlog_conformance.executor import iter_results

    folders = [str(HERE), str(CONFORMANCE)]
    try:
        yield lambda play, tasks: iter_results(executor, folders, play, tasks)
    except ValueError as fault:
        sys.exit(f"{Path(sys.argv[0]).name}: {fault}")


def check_logs(
    about: str,
    judge: Callable[[Task], Judged],
    summary: str,
    lines_of: Optional[Callable[[str, int], list[str]]] = None,
    always: tuple[int, ...] = (),
) -> int:
    """Checks the logs selected by the command line, and returns the exit status. Prints the first findings and the
    summary, which has the numbers of logs, items checked and logs with a finding. With --only, prints the log's lines
    first if `lines_of` is given. With the seed 1, the logs of the numbers in `always` are checked whatever the count.
    """
    parser = argparse.ArgumentParser(description=about.split("\n", maxsplit=1)[0])
    parser.add_argument("--seed", default="1")
    parser.add_argument("--count", type=int, default=1000)
    parser.add_argument("--only", type=int, help="check only the log with this number")
    parser.add_argument("--jobs", type=int, default=2)
    parser.add_argument("--executor", default="", metavar="dask://HOST:PORT", help="check the logs on a Dask cluster")
    parser.add_argument("--program", default=os.path.join(TOP, "release", "hidlog"))
    asked = parser.parse_args()
    more = [number for number in always if asked.seed == "1" and number >= asked.count]
    numbers = [*range(asked.count), *more] if asked.only is None else [asked.only]
    if asked.only is not None and lines_of:
        print("\n".join(lines_of(asked.seed, asked.only)))
    found = looked_at = 0
    with make_runner(asked.executor, asked.jobs) as played:
        for number, finding, count in played(judge, [(asked.program, asked.seed, number) for number in numbers]):
            looked_at += count
            if finding:
                found += 1
                if found <= 20:
                    print(f"log {number}: {finding}")
    print(summary.format(len(numbers), looked_at, found))
    return 1 if found else 0
