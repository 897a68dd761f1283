#!/usr/bin/env python3
"""Writes the seeds of the fuzzers: logs of this repository, in each fuzzer's format, and earlier inputs that reached new code.

    tests/fuzz/seeds.py FOLDER           write the seeds
    tests/fuzz/seeds.py --keep FOLDER    add the files of FOLDER/key, /log and /state, saved by HIDLOG_CORPUS, to corpus.tsv

FOLDER/key has the inputs of the logs in examples/ and of the worked logs in the format of key_fuzz.c, FOLDER/log the
logs, FOLDER/snapshot the snapshots in examples/. corpus.tsv has a line for each earlier input: the
fuzzer's name, and the bytes in base64.
"""

from __future__ import annotations

import base64
import sys
from pathlib import Path
from typing import Iterator

TOP = Path(__file__).resolve().parents[2]
LOGS = ("examples/*.log", "examples/failing/*.log", "crates/hidlog_cli/data/*/*.log")
# The format of key_fuzz.c: the number of inputs of a run, and the byte for each kind of input.
MAX_INPUTS = 64
PACKET, RAW, TICK, PRESENCE, KEY, NO_KEY, SIGNATURE, NO_SIGNATURE = 0, 255, 9, 10, 12, 13, 14, 15
PRESENCE_WORDS = ("granted", "denied", "timeout")
MAX_STEP = 199
CORPUS = TOP / "tests/fuzz/corpus.tsv"
FUZZERS = ("key", "log", "state")


def iter_logs() -> Iterator[Path]:
    """Yields the paths of the logs of this repository."""
    for pattern in LOGS:
        yield from sorted(path for path in TOP.glob(pattern) if path.is_file())


def encode_input(words: list[str]) -> bytes:
    """Returns the bytes of an input line, after its timestamp."""
    letter, rest = words[0], words[2:]
    if letter == ">":
        return bytes([PACKET, RAW]) + bytes.fromhex(rest[0])
    if letter == "p":
        return bytes([PRESENCE, PRESENCE_WORDS.index(rest[0])])
    if letter == "k":
        return bytes([NO_KEY]) if rest == ["no"] else bytes([KEY]) + bytes.fromhex("".join(rest))
    if letter == "s":
        signature = b"" if rest == ["no"] else bytes.fromhex(rest[0])
        return bytes([SIGNATURE, len(signature) - 1]) + signature if signature else bytes([NO_SIGNATURE])
    return bytes([TICK])


def encode_inputs(log: str) -> bytes:
    """Returns the first inputs of a log, in the format of key_fuzz.c."""
    made, moment = [], 0
    for line in log.splitlines():
        words = line.split()
        if words and words[0] in (">", "t", "p", "k", "s") and len(made) < MAX_INPUTS:
            step = min(max(int(words[1]) - moment, 0), MAX_STEP * 50)
            moment += step
            made.append(bytes([step if step <= MAX_STEP else 200 + min(55, step // 50)]) + encode_input(words))
    return bytes([len(made)]) + b"".join(made)


def write_seed(folder: Path, number: int, data: bytes, front: str = "seed") -> None:
    folder.mkdir(parents=True, exist_ok=True)
    (folder / f"{front}_{number}").write_bytes(data)


def read_corpus() -> list[tuple[str, bytes]]:
    """Returns the earlier inputs that reached new code, each with its fuzzer's name."""
    rows = (line.split("\t") for line in CORPUS.read_text(encoding="ascii").splitlines())
    return [(name, base64.b64decode(data)) for name, data in rows]


def save_corpus(folder: Path) -> None:
    """Adds the inputs of a run to corpus.tsv."""
    found = {(name, path.read_bytes()) for name in FUZZERS for path in (folder / name).glob("*") if path.is_file()}
    rows = sorted({*read_corpus(), *found})
    CORPUS.write_text("".join(f"{name}\t{base64.b64encode(data).decode()}\n" for name, data in rows), encoding="ascii")


def main() -> int:
    if len(sys.argv) == 3 and sys.argv[1] == "--keep":
        save_corpus(Path(sys.argv[2]))
        return 0
    if len(sys.argv) != 2:
        print((__doc__ or "").strip(), file=sys.stderr)
        return 2
    folder = Path(sys.argv[1])
    for number, path in enumerate(iter_logs()):
        text = path.read_text(encoding="utf-8")
        write_seed(folder / "key", number, encode_inputs(text))
        write_seed(folder / "log", number, text.encode())
    for number, path in enumerate(sorted((TOP / "examples").rglob("*.snapshot"))):
        write_seed(folder / "snapshot", number, path.read_bytes())
    for number, (name, data) in enumerate(read_corpus()):
        write_seed(folder / name, number, data, "before")
    return 0


if __name__ == "__main__":
    sys.exit(main())
