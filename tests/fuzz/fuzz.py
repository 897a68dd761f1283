#!/usr/bin/env python3
"""Runs malformed logs, and checks each by the properties in judge.py.

    tests/fuzz/fuzz.py [--seed N] [--count N] [--only NUMBER] [--program FILE] [--jobs N] [--keep FOLDER]
                       [--executor dask://HOST:PORT]

Needs only Python 3.9 or later. Each log depends only on the seed and its number. At a finding the log is saved in
FOLDER, its seed and number are printed, and the exit status is 1. `--only` runs and saves a single log.
"""

import argparse
import os
import subprocess
import sys
import tempfile
import time
from functools import partial

sys.dont_write_bytecode = True

import runner
from malformed_requests import hostile_log, hostile_snapshot
from judge import COUNTS_LINE, FindingError, check_saved, judge, split_lines

TOP = os.path.realpath(os.path.join(os.path.dirname(os.path.abspath(__file__)), "..", ".."))
TIMEOUT_SECONDS = 600


def parse_arguments():
    """Parses the command line."""
    parser = argparse.ArgumentParser(description=__doc__.split("\n", maxsplit=1)[0])
    parser.add_argument("--seed", default="1", help="seed of the logs (default: 1)")
    parser.add_argument("--count", type=int, default=1000, help="number of logs (default: 1000)")
    parser.add_argument("--only", type=int, help="run only the log with this number")
    parser.add_argument(
        "--program", default=os.path.join(TOP, "release/hidlog"), help="path of hidlog (default: release/hidlog)"
    )
    parser.add_argument("--jobs", type=int, default=2, help="number of processes (default: 2)")
    parser.add_argument("--executor", default="", metavar="dask://HOST:PORT", help="run on a Dask cluster")
    parser.add_argument("--keep", default=".", help="directory for failing logs (default: .)")
    return parser.parse_args()


def make_runner(program):
    """Returns a function that runs a command on a log with --explain, unless the options have --plain."""

    def run(command, log, *options):
        words = [program, command, "--explain", *options]
        ran = subprocess.run(words, input=log, capture_output=True, timeout=TIMEOUT_SECONDS, check=False)
        return ran.returncode, ran.stdout, ran.stderr

    return run


def run_log(task):
    """Runs a log; returns a finding, or its counts."""
    program, seed, number = task
    log, run = hostile_log(seed, number), make_runner(program)
    try:
        output, faulty = judge(log, run)
        if number % 8 == 0:
            with tempfile.TemporaryDirectory() as folder:
                check_saved(log, output, faulty, run, folder, partial(hostile_snapshot, seed, number))
    except FindingError as finding:
        return number, str(finding), None
    except subprocess.TimeoutExpired:
        return number, f"timed out after {TIMEOUT_SECONDS} seconds", None
    lines = split_lines(output)
    counts = [int(group) for group in COUNTS_LINE.fullmatch(lines[-1]).groups()]
    inputs = sum(line[:1] in (b">", b"t", b"p", b"k", b"s") for line in lines)
    return number, None, [faulty, inputs, sum(line[:1] == b"<" for line in lines), *counts]


def save_log(options, number):
    """Saves a log; returns its path."""
    path = os.path.join(options.keep, f"fuzz_{options.seed}_{number}.log")
    with open(path, "wb") as file:
        file.write(hostile_log(options.seed, number))
    return path


def format_totals(count, totals, seconds):
    """Returns the totals, in one line."""
    faulty, inputs, packets, held, rows, pending, requests, _, _ = totals
    return (
        f"{count} logs, {faulty} of them with a fault: {inputs} inputs, {packets} packets, {requests} requests; "
        f"at most {held} bytes, {rows} rows and {pending} assertions were held; {seconds:.0f} s"
    )


def main():
    options = parse_arguments()
    program = options.program
    numbers = range(options.count) if options.only is None else [options.only]
    if options.only is not None:
        print(f"the log is {save_log(options, options.only)}")
    began, totals, findings = time.monotonic(), [0] * 9, 0
    with runner.make_runner(options.executor, options.jobs) as played:
        tasks = ((program, options.seed, number) for number in numbers)
        for number, finding, counts in played(run_log, tasks):
            if finding:
                findings += 1
                print(f"seed {options.seed} log {number}: {finding}\n  kept as {save_log(options, number)}", flush=True)
            else:
                most = [max(pair) for pair in zip(totals[3:6], counts[3:6])]
                added = [sum(pair) for pair in zip(totals, counts)]
                totals = [*added[:3], *most, *added[6:]]
    print(format_totals(len(numbers), totals, time.monotonic() - began))
    print(f"{findings} findings")
    return 1 if findings else 0


if __name__ == "__main__":
    sys.exit(main())
