#!/usr/bin/env python3
"""Compares the captures in a folder with the key's logs of the same sessions: compare.py FOLDER

A file SESSION.SUFFIX is compared with SESSION.log and SESSION.*.log. The exit status is 1 unless
all packets of each key are in one of the logs, in the same order.
"""

from __future__ import annotations

import sys
from pathlib import Path

sys.path.insert(0, str(Path(__file__).resolve().parents[2] / "bindings" / "python" / "src"))

import hidlog  # noqa: E402
from hidlog.captures import CaptureError, read  # noqa: E402

Packets = list[tuple[bytes, bytes]]


def read_packets(log: bytes) -> Packets:
    """Returns the packets of a log, each with its direction."""
    lines = [line for line in log.split(b"\n") if line[:2] in (b"> ", b"< ")]
    return [(line[:1], bytes.fromhex(line.split(b" ")[-1].decode())) for line in lines]


def is_within(some: Packets, known: Packets) -> bool:
    """Returns whether these packets are in a log in this order. Other packets may be between them."""
    rest = iter(known)
    return all(item in rest for item in some)


def is_within_per_direction(some: Packets, known: Packets) -> bool:
    """Returns whether the packets of each direction are in a log in this order."""
    directions = (b">", b"<")
    return all(
        is_within([item for item in some if item[0] == way], [element for element in known if element[0] == way])
        for way in directions
    )


def describe_agreement(seen: Packets, known: Packets) -> str:
    """Returns how the packets of a capture agree with a log, or an empty string if they don't."""
    if seen == known:
        return "the same packets"
    for start in range(len(known) - len(seen) + 1):
        if known[start : start + len(seen)] == seen:
            return f"the same packets from number {start + 1} on, {len(seen)} of {len(known)}"
    if is_within(seen, known):
        return f"{len(seen)} of {len(known)} packets, in the same order"
    if is_within_per_direction(seen, known):
        return f"{len(seen)} of {len(known)} packets, in the same order in each direction"
    return ""


def compare(path: Path) -> tuple[int, int]:
    """Compares a capture. Returns the number of keys in it that agree with a log, and of those that don't."""
    logs = sorted(
        {*path.parent.glob(path.name.split(".")[0] + ".log"), *path.parent.glob(path.name.split(".")[0] + ".*.log")}
    )
    try:
        found = read(path)
    except CaptureError as error:
        print(f"{path.name}: cannot be read: {error}")
        return 0, 0
    agree = 0
    for result in found:
        seen = read_packets(result.log)
        agreements = {log.name: describe_agreement(seen, read_packets(log.read_bytes())) for log in logs}
        best = next((f"{text} ({name})" for name, text in agreements.items() if text.startswith("the same")), "")
        best = best or next((f"{text} ({name})" for name, text in agreements.items() if text), "")
        checked = hidlog.check(result.log)
        same = "check says same" if checked.status == 0 else f"check finds a difference at line {checked.line}"
        print(f"{path.name}: {result.name}: {best or 'NO LOG HAS THESE PACKETS'}; {same}")
        for note in result.notes:
            print(f"    {note}")
        agree += bool(best)
    return agree, len(found) - agree


def main() -> int:
    """Compares all captures in a folder."""
    if len(sys.argv) != 2 or not Path(sys.argv[1]).is_dir():
        print(__doc__, file=sys.stderr)
        return 2
    good = bad = 0
    for path in sorted(Path(sys.argv[1]).iterdir()):
        if path.suffix == ".log" or (path.suffix == ".txt" and path.name.count(".") == 1) or not path.is_file():
            continue
        agree, differ = compare(path)
        good, bad = good + agree, bad + differ
    print(f"{good} agree, {bad} do not")
    return 1 if bad else 0


if __name__ == "__main__":
    sys.exit(main())
