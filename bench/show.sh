#!/usr/bin/env bash
# Measures how many MB of a log `hidlog show` handles per second of processor time, for three logs of 24 MB: the worked
# logs, repeated; requests with a long byte string; and requests with a long text string of control characters, each of
# which `show` writes as six characters.
#
#     bench/show.sh [PROGRAM]        PROGRAM is the program hidlog [default: release/hidlog]
set -euo pipefail
top=$(cd "$(dirname "$0")/.." && pwd)
program=${1:-$top/release/hidlog}
work=$(mktemp -d)
trap 'rm -rf "$work"' EXIT

python3 - "$top" "$work" <<'PYTHON'
import sys
from pathlib import Path

top, work = map(Path, sys.argv[1:])
sys.path.insert(0, str(top / "tests/fuzz"))
from framing import MAX_MESSAGE_BYTES, split_into_packets

SIZE = 24_000_000


def repeated(log):
    return log * (SIZE // len(log))


def request(head, byte):
    """Returns the lines of a request of 7609 bytes: command 1, and a map with one string."""
    length = MAX_MESSAGE_BYTES - 6
    message = b"\x01\xa1\x01" + bytes([head]) + length.to_bytes(2, "big") + byte * length
    return "".join(f"> 0 {packet.hex()}\n" for packet in split_into_packets(1, 0x10, message)).encode()


worked = b"".join(log.read_bytes() for log in sorted((top / "crates/hidlog_cli/data").glob("*/*.log")))
(work / "worked").write_bytes(repeated(worked))
(work / "bytes").write_bytes(repeated(request(0x59, b"\xaa")))
(work / "controls").write_bytes(repeated(request(0x79, b"\x1b")))
PYTHON

for name in worked bytes controls; do
    python3 - "$program" "$work/$name" "$name" <<'PYTHON'
import os, resource, statistics, subprocess, sys

program, log, name = sys.argv[1:]


def took():
    before = resource.getrusage(resource.RUSAGE_CHILDREN)
    with open(log, "rb") as source, open(os.devnull, "wb") as target:
        subprocess.run([program, "show"], stdin=source, stdout=target, check=True)
    after = resource.getrusage(resource.RUSAGE_CHILDREN)
    return after.ru_utime + after.ru_stime - before.ru_utime - before.ru_stime


seconds = statistics.median(took() for _ in range(5))
print(f"{name}: {os.path.getsize(log) / 1e6 / seconds:.0f} MB/s")
PYTHON
done
