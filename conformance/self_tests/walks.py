"""Compares `hidlog_transactions`, which `hidlog judge` uses, with a second implementation (second_walk.py).

If packets do not show the end of a transaction, `hidlog_transactions` reports it as unknown, and the second
implementation guesses. Such channels are not compared.
"""

from __future__ import annotations

import glob
import os
from typing import Any, Dict, List, Set, Tuple

import proved_walk
from hidlog import logs
from hidlog_conformance.judged_log import JudgedRecording, split_at_power_cycles, pad_truncated_packets
from hidlog_conformance.session_file import read_logs
from hidlog_conformance.transactions import Entry, Lines, Owners, Transactions
from second_walk import walk_log
from trying import check_detected

TOP = os.path.join(os.path.dirname(os.path.abspath(__file__)), "..", "..")
FOLDERS = (
    "examples",
    "examples/failing",
    "tests/captures/data",
    "conformance/recorded",
    "conformance/clients",
    "conformance/fuzzed",
)
# For the first line of each transaction: the transaction's end, the line that ended it, the line of a CANCEL, and the
# lines that belong to it.
Ends = Dict[int, Tuple[str, int, int, List[int]]]
OPEN = ("", "unanswered", "not whole")


def read_entries(log: bytes) -> List[Entry]:
    """Returns the packets of a log, with their transactions by `hidlog_transactions`."""
    recording, owners = JudgedRecording(), Owners(proved_walk.walk(log))
    for number, line in enumerate(log.split(b"\n"), 1):
        recording.take(number, line, owners)
    return list(recording.walk.take_entries())


def list_ends(owners: Dict[int, List[int]], transactions: List[Any], unsure: Set[int]) -> Ends:
    """Returns the ends of transactions, except on channels that are not compared."""
    return {
        one.line: ("" if one.end in OPEN else one.end, one.by or 0, one.cancelled or 0, owners.get(one.line, []))
        for one in transactions
        if one.channel not in unsure
    }


def list_proved_ends(log: bytes) -> Tuple[Ends, Set[int]]:
    """Returns the ends of transactions by `hidlog_transactions`, and the channels where it is unsure."""
    owners: Dict[int, List[int]] = {}
    entries = read_entries(log)
    transactions = [one.transaction for one in entries if one.part == "start" and one.transaction is not None]
    unsure = {one.channel for one in transactions if one.is_unknown}
    for entry in entries:
        if entry.transaction is not None:
            owners.setdefault(entry.transaction.line, []).append(entry.line)
    return list_ends(owners, transactions, unsure), unsure


def list_second_ends(log: bytes, unsure: Set[int]) -> Ends:
    """Returns the ends of transactions by the second implementation."""
    found = walk_log(log)
    owners: Dict[int, List[int]] = {}
    for entry in found.entries:
        if entry.transaction is not None and entry.kind != "reply":
            owners.setdefault(entry.transaction.line, []).append(entry.line)
    return list_ends(owners, found.transactions, unsure)


def list_recorded_logs() -> List[Tuple[str, bytes]]:
    """Returns the valid logs of the repository, by path; logs of only inputs with this key's packets."""
    recorded = []
    for path in sorted(path for folder in FOLDERS for path in glob.glob(os.path.join(TOP, folder, "*.log"))):
        with open(path, "rb") as file:
            recorded.append((path, file.read()))
    for path in sorted(path for folder in FOLDERS for path in glob.glob(os.path.join(TOP, folder, "*.logs"))):
        recorded += [(f"{path}: {name}", log) for name, log in read_logs(path).items()]
    valid = [(name, log) for name, log in recorded if not logs.quiet(log).status]
    return [(name, log if b"\n< " in log else logs.replay(log).text) for name, log in valid]


def test_both_walks_agree() -> None:
    """The transactions of each log have the same packets and ends."""
    count = 0
    for path, log in list_recorded_logs():
        for part in split_at_power_cycles(log):
            ends, unsure = list_proved_ends(pad_truncated_packets(part))
            assert ends == list_second_ends(
                pad_truncated_packets(part), unsure
            ), f"{path}: the transactions of the two implementations differ"
            count += len(ends)
    assert count > 300, f"only {count} transactions were compared"


def test_block_sizes() -> None:
    """Text is split only at line feeds, whatever the block size."""
    text = b"\n".join(b"x" * (number % 300) for number in range(3000))
    found: List[bytes] = []
    lines = Lines(text)
    block = lines.block()
    while block:
        found += block
        block = lines.block()
    assert found == text.split(b"\n"), "the lines differ from those of split"


TESTS = {
    "walks/agree": check_detected(
        test_both_walks_agree,
        (Transactions, "remove_late_packet", lambda *words: None),
        (Transactions, "end_transaction", lambda *words: None),
        (Transactions, "handle_cancel", lambda *words: None),
    ),
    "walks/pieces": test_block_sizes,
}
