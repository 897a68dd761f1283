"""Tests snapshots that are loaded, saved or rejected, snapshots written by another program, and snapshots with each byte
changed.

The valid bytes at each offset of a row were computed from the definition of a snapshot (docs/use/PROFILE.md) by a
program outside this repository. The changed snapshots are loaded with the C library, whose hidlog_check takes
microseconds.
"""

from __future__ import annotations

import ctypes
import sys
from pathlib import Path
from typing import Optional, Tuple, Union

from running import COUNTS, TOP, run, run_explained

sys.path.insert(0, str(Path(__file__).resolve().parents[1] / "fuzz"))
from malformed_requests import encode_head

# The major type of arrays (RFC 8949, section 3.1).
ARRAY = 4

NOT_SNAPSHOT, TOO_MANY, ROW_BROKEN = 1, 2, 3
# The number of an error, and the beginning of its reason, or of each of its reasons.
Refusal = Tuple[int, Union[str, Tuple[str, ...]]]
# The SHA-256 hash of the RP ID `example.com`, the credential ID without its last byte, the coordinates, and the head of
# a user handle.
RP_AND_ID = b"\x01\x58\x20" + bytes.fromhex("a379a6f6eeafb9a55e378c118034e2751e682fab9f2d30ab13d2125586ce1947")
RP_AND_ID += b"\x02\x58\x20" + b"\xaa" * 31
COORDINATES = b"\x03\x58\x20" + b"\xbb" * 32 + b"\x04\x58\x20" + b"\xcc" * 32 + b"\x05\x41"
# The heads of a row: of version 1 without a name, of version 1 with a name, and of version 2.
OLD, OLD_NAMED = b"\xa2\x01\x01\x02\x81\xa7", b"\xa2\x01\x01\x02\x81\xa8"
UNNAMED, NAMED = b"\xa2\x01\x02\x02\x81\xa7", b"\xa2\x01\x02\x02\x81\xa8"


def make_row(last_of_id: int, user: int, rest: bytes) -> bytes:
    """Returns the members of a row. `rest` are the bytes after its user handle."""
    return RP_AND_ID + bytes([last_of_id]) + COORDINATES + bytes([user]) + rest


def make_snapshot(heads: bytes, rest: bytes) -> bytes:
    """Returns a snapshot of a row."""
    return heads + make_row(0xAA, 1, rest)


EXHAUSTED_COUNTER = b"\x06\xf5\x07\x1a\xff\xff\xff\xff"
DUPLICATE_ROWS = b"\xa2\x01\x01\x02\x82" + (b"\xa7" + make_row(0xAA, 1, EXHAUSTED_COUNTER)) * 2
TOO_MANY_ROWS = b"\xa2\x01\x01\x02\x98\x41" + (b"\xa7" + make_row(0xAA, 1, EXHAUSTED_COUNTER)) * 65
MESSAGE_SUBJECTS = ("it is", "the snapshot is", "unsupported version")
NONE, BROKEN = (NOT_SNAPSHOT, MESSAGE_SUBJECTS), (ROW_BROKEN, "credential 1")
# Snapshots, each with the number of the error and the subject of the message, or None if the snapshot is valid. The
# last two contain user names of 64 and 65 bytes.
LOAD_CASES: list[tuple[bytes, Optional[Refusal]]] = [
    (b"\xa0", NONE),
    (b"\xa2\x01\x00\x02\x80", NONE),
    (b"\xa2\x01\x03\x02\x80", NONE),
    (b"\xa2\x01\x01\x02\x80\x00", NONE),
    (b"\xa2\x01\x01\x02\x80", None),
    (b"\xa2\x01\x02\x02\x80", None),
    (make_snapshot(OLD_NAMED, b"\x06\xf5\x07\x00\x08\x60"), BROKEN),
    (make_snapshot(UNNAMED, b"\x06\xf5\x07\x00"), BROKEN),
    (make_snapshot(OLD, b"\x06\xf5\x07\x1b\x00\x00\x00\x01\x00\x00\x00\x00"), BROKEN),
    (make_snapshot(OLD, b"\x06\xf5\x07\x18\x05"), NONE),
    (make_snapshot(NAMED, b"\x06\xf5\x07\x00\x08\x40"), BROKEN),
    (DUPLICATE_ROWS, (ROW_BROKEN, "credential 2")),
    (TOO_MANY_ROWS, (TOO_MANY, "more than 64")),
    (make_snapshot(NAMED, b"\x06\xf5\x07\x00\x08\x78\x40" + b"a" * 64), None),
    (make_snapshot(NAMED, b"\x06\xf5\x07\x00\x08\x78\x41" + b"a" * 65), BROKEN),
]
# Snapshots of one row, each with the snapshot that is saved after loading it. Version 1 is saved as version 2; version
# 2, with and without a name, is unchanged.
SAVE_CASES = [
    (make_snapshot(OLD, EXHAUSTED_COUNTER), make_snapshot(NAMED, EXHAUSTED_COUNTER + b"\x08\x60")),
    (make_snapshot(NAMED, EXHAUSTED_COUNTER + b"\x08\x60"), make_snapshot(NAMED, EXHAUSTED_COUNTER + b"\x08\x60")),
    (make_snapshot(NAMED, b"\x06\xf5\x07\x00\x08\x61\x62"), make_snapshot(NAMED, b"\x06\xf5\x07\x00\x08\x61\x62")),
]
# The bytes before the first of two rows, the rows, and the length of a row.
TWO_ROWS_HEAD = b"\xa2\x01\x02\x02\x82"
TWO_ROWS = (
    TWO_ROWS_HEAD
    + b"\xa8"
    + make_row(0xAA, 1, b"\x06\xf5\x07\x00\x08\x61b")
    + b"\xa8"
    + make_row(0xAB, 2, b"\x06\xf5\x07\x00\x08\x61c")
)
ROW_BYTES = 151
# Offsets in a row: the last byte of the credential ID, and the user handle.
LAST_OF_ID, USER = 70, 143
# Changes of a byte that give another item in canonical CBOR: the first and the last offset in a row, the lowest and the
# highest byte, and whether a valid row may contain such a byte. With any other byte, the file is not a snapshot.
BYTE_CHANGES = [
    # The row is an array, or its first key is 0.
    (0, 0, 0x90, 0x90, False),
    (1, 1, 0x00, 0x00, False),
    # The RP ID hash, the credential ID, and the two coordinates.
    (4, 35, 0x00, 0xFF, True),
    (39, 70, 0x00, 0xFF, True),
    (74, 105, 0x00, 0xFF, True),
    (109, 140, 0x00, 0xFF, True),
    # The user handle is a text string, or an array of one integer.
    (142, 142, 0x61, 0x61, False),
    (142, 142, 0x81, 0x81, False),
    (143, 143, 0x00, 0xFF, True),
    # The member for discoverable credentials is true, false, or not a Boolean.
    (145, 145, 0x00, 0x17, False),
    (145, 145, 0x20, 0x37, False),
    (145, 145, 0x40, 0x40, False),
    (145, 145, 0x60, 0x60, False),
    (145, 145, 0x80, 0x80, False),
    (145, 145, 0xA0, 0xA0, False),
    (145, 145, 0xF4, 0xF5, True),
    (145, 145, 0xF6, 0xF6, False),
    # The counter has another value, or is not an integer.
    (147, 147, 0x00, 0x17, True),
    (147, 147, 0x20, 0x37, False),
    (147, 147, 0x40, 0x40, False),
    (147, 147, 0x60, 0x60, False),
    (147, 147, 0x80, 0x80, False),
    (147, 147, 0xA0, 0xA0, False),
    (147, 147, 0xF4, 0xF6, False),
    # The last key has another value.
    (148, 148, 0x09, 0x17, False),
    (148, 148, 0x20, 0x37, False),
    (148, 148, 0x40, 0x40, False),
    (148, 148, 0x60, 0x60, False),
    # The name is an integer or a byte string.
    (149, 149, 0x18, 0x18, False),
    (149, 149, 0x38, 0x38, False),
    (149, 149, 0x41, 0x41, False),
]


class HidlogResult(ctypes.Structure):
    """struct hidlog_result of hidlog.h."""

    _fields_ = [
        ("status", ctypes.c_uint32),
        ("fault", ctypes.c_uint32),
        ("line", ctypes.c_uint64),
        ("packet", ctypes.c_uint64),
        ("written", ctypes.c_uint64),
    ]


def find_expected_error(place: int, byte: int) -> Optional[Refusal]:
    """Returns the expected error for the two rows with this byte at an offset, or None if they are loaded."""
    # In version 1, rows contain no names.
    if place == 2 and byte == 1:
        return BROKEN
    if place < len(TWO_ROWS_HEAD):
        return NONE
    number, within = divmod(place - len(TWO_ROWS_HEAD), ROW_BYTES)
    # The other row contains the same credential ID, or the same user handle.
    if (within, byte) in ((LAST_OF_ID, 0xAB - number), (USER, 2 - number)):
        return ROW_BROKEN, "credential 2"
    # The name, which has one byte.
    if within == ROW_BYTES - 1 and byte < 0x80:
        return None
    for first, last, least, most, holds in BYTE_CHANGES:
        if first <= within <= last and least <= byte <= most:
            return None if holds else (ROW_BROKEN, f"credential {number + 1}")
    return NONE


def check_load(work_dir: Path, text: bytes, wanted: Optional[Refusal], rows: int) -> None:
    """Fails unless the program loads this number of rows, or rejects the snapshot with this error and this subject."""
    (work_dir / "old").write_bytes(text)
    words = ["replay", "--load", str(work_dir / "old")]
    said = run(words)
    if wanted is None:
        assert said.returncode == 0 and said.stderr == b"", f"the snapshot {text.hex()} is refused: {said.stderr!r}"
        assert said.stdout == COUNTS.replace(
            b"rows 0", b"rows %d" % rows
        ), f"unexpected counts for the snapshot {text.hex()}: {said.stdout!r}"
        return
    front = f"hidlog: snapshot refused: {wanted[0]}\n".encode()
    assert said.returncode == 2 and said.stdout == b"", f"the invalid snapshot {text.hex()} is loaded"
    assert said.stderr == front, f"unexpected error for the snapshot {text.hex()}: {said.stderr!r}"
    reasons = wanted[1] if isinstance(wanted[1], tuple) else (wanted[1],)
    fronts = tuple(front + f"  {work_dir / 'old'}: {reason} ".encode() for reason in reasons)
    assert run_explained(words).stderr.startswith(fronts), f"unexpected reason for the snapshot {text.hex()}"


def test_snapshots_are_loaded_or_refused(work_dir: Path) -> None:
    """Tests bytes that are not snapshots, snapshots with too many rows, and invalid rows."""
    for text, wanted in LOAD_CASES:
        check_load(work_dir, text, wanted, text.count(COORDINATES))


def make_long_row(number: int, name_length: int = 64) -> bytes:
    """Returns a discoverable row with a unique credential ID, a user handle of 64 bytes, and a user name of this
    length."""
    row = b"\xa8" + RP_AND_ID[:-31] + number.to_bytes(32, "big") + COORDINATES[:-1]
    row += b"\x58\x40" + number.to_bytes(64, "big") + EXHAUSTED_COUNTER
    return row + b"\x08\x78" + bytes([name_length]) + b"n" * name_length


def test_long_snapshots(work_dir: Path) -> None:
    """The longest snapshot is loaded, and saved unchanged. A longer snapshot has too many rows, whatever its length. A
    file that can't be the snapshot of any key isn't read completely."""
    old, new = work_dir / "old", work_dir / "new"
    full = b"\xa2\x01\x02\x02" + encode_head(ARRAY, 64) + b"".join(make_long_row(number) for number in range(64))
    check_load(work_dir, full, None, 64)
    said = run(["replay", "--load", str(old), "--save", str(new)])
    assert said.returncode == 0 and new.read_bytes() == full
    for count in (65, 3000, 4000):
        rows = b"".join(make_long_row(number) for number in range(count))
        check_load(work_dir, b"\xa2\x01\x02\x02" + encode_head(ARRAY, count) + rows, (TOO_MANY, "more than 64"), count)
    # Names of this length make the file one byte longer than 1 MiB.
    rest = (1 << 20) + 1 - 7
    lengths = [64] * (rest // len(make_long_row(0)) + 1)
    excess = len(lengths) * len(make_long_row(0)) - rest
    for number in range(8):
        cut = min(excess, 40)
        lengths[number] -= cut
        excess -= cut
    text = b"\xa2\x01\x02\x02" + encode_head(ARRAY, len(lengths))
    text += b"".join(make_long_row(number, length) for number, length in enumerate(lengths))
    assert len(text) == (1 << 20) + 1, len(text)
    check_load(work_dir, text, (TOO_MANY, "more than 64"), len(lengths))
    with open(old, "wb") as file:
        file.truncate((1 << 26) + 1)
    said = run_explained(["replay", "--load", str(old)])
    assert said.returncode == 2 and said.stdout == b""
    assert (
        said.stderr == f"hidlog: cannot read snapshot\n  {old}: it is longer than any snapshot\n".encode()
    ), said.stderr


def test_snapshots_are_saved_as_version_2(work_dir: Path) -> None:
    """A snapshot of either version is saved as one of version 2."""
    for old, new in SAVE_CASES:
        (work_dir / "old").write_bytes(old)
        said = run(["replay", "--load", str(work_dir / "old"), "--save", str(work_dir / "new")])
        assert said.returncode == 0 and said.stderr == b"", said.stderr.decode()
        assert said.stdout == COUNTS.replace(b"rows 0", b"rows 1"), said.stdout.decode()
        assert (
            work_dir / "new"
        ).read_bytes() == new, f"{old.hex()} is saved as {(work_dir / 'new').read_bytes().hex()}"


def test_each_byte_of_snapshot_changed(work_dir: Path) -> None:
    """Changes each byte of two rows to each other value. For the first byte of each range, the program must report the
    row."""
    assert len(TWO_ROWS) == len(TWO_ROWS_HEAD) + 2 * ROW_BYTES
    check = ctypes.CDLL(str(TOP / "release/libhidlog.so.1")).hidlog_check
    check.restype = None
    size, outcome = ctypes.c_size_t, HidlogResult()
    text, out = ctypes.create_string_buffer(TWO_ROWS, len(TWO_ROWS)), ctypes.create_string_buffer(64)
    words = [b"", size(0), text, size(len(TWO_ROWS)), out, size(64), ctypes.byref(outcome)]
    for place, old in enumerate(TWO_ROWS):
        for byte in range(256):
            wanted = None if byte == old else find_expected_error(place, byte)
            text[place] = bytes([byte])
            check(*words)
            told = (outcome.status, outcome.fault)
            assert told == (
                (2, wanted[0]) if wanted else (0, 0)
            ), f"{byte:02x} at byte {place}: unexpected status and error {told}"
        text[place] = bytes([old])
    for number in range(2):
        for first, _, least, _, _ in BYTE_CHANGES:
            place = len(TWO_ROWS_HEAD) + ROW_BYTES * number + first
            changed = TWO_ROWS[:place] + bytes([least]) + TWO_ROWS[place + 1 :]
            check_load(work_dir, changed, None if changed == TWO_ROWS else find_expected_error(place, least), 2)
