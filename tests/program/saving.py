"""Tests snapshots that several programs load and save at once, damaged snapshots, and folders with files of other users."""

from __future__ import annotations

import os
import re
import shutil
import signal
import subprocess
from concurrent.futures import ThreadPoolExecutor
from hashlib import sha256
from pathlib import Path
from typing import Callable, Iterator

from running import COUNTS, INIT, PROGRAM, SIGN_IN_AGAIN, SNAPSHOT, Said, check_result, run, run_explained

CANNOT_READ, CANNOT_WRITE = b"hidlog: cannot read snapshot\n", b"hidlog: cannot write snapshot\n"
IN_USE_MESSAGE = b"another program has loaded it, and is going to save to it\n"
DAMAGED_MESSAGE = b"its bytes don't match its .hidlog-sum: restore it, or remove the .hidlog-sum\n"
INVALID_SUMS_MESSAGE = b"its .hidlog-sum file has no checksums: remove that file\n"
# The signature counter in the example's snapshot: key 07, followed by an integer below 24.
COUNTER = re.compile(rb"\x06\xf5\x07(\x18.|[\x00-\x17])\x08", re.DOTALL)


def make_load_and_save_arguments(
    keys: Path | str, command: str = "replay", save: Path | str | None = None
) -> list[str]:
    """Returns the arguments for loading a snapshot, and for saving to the same path or to another path."""
    return [command, "--load", str(keys), "--save", str(save or keys)]


def read_counter(keys: Path) -> int:
    """Returns the signature counter of the only credential of a snapshot."""
    (found,) = COUNTER.findall(keys.read_bytes())
    return int(found[-1])


def read_sums(keys: Path) -> list[list[str]]:
    """Returns the checksums of a snapshot, each with the inode number of its file."""
    path = keys.with_name(f"{keys.name}.hidlog-sum")
    assert path.exists(), f"{path} is missing"
    text = path.read_text(encoding="ascii")
    assert re.fullmatch(r"([0-9a-f]{64} [0-9a-f]{16}\n){1,2}", text), text
    return [line.split(" ") for line in text.splitlines()]


def make_snapshot(work_dir: Path) -> Path:
    """Returns the path of a snapshot that the program saved in a folder."""
    keys = work_dir / "keys"
    check_result(run(make_load_and_save_arguments(SNAPSHOT, save=keys), SIGN_IN_AGAIN.read_bytes()), 0, b"")
    return keys


def start_program(keys: Path) -> subprocess.Popen[bytes]:
    """Starts a program that loads and saves a snapshot, and waits until the program has locked it."""
    pipe = subprocess.PIPE
    program = subprocess.Popen(
        [PROGRAM, *make_load_and_save_arguments(keys, "live")], stdin=pipe, stdout=pipe, stderr=pipe, bufsize=0
    )
    assert program.stdin is not None and program.stdout is not None
    program.stdin.write(b"t 5\n")
    assert program.stdout.readline() == b"t 5\n"
    return program


def test_second_program_is_refused(work_dir: Path) -> None:
    """While a program uses a snapshot between --load and --save, another program that would save to it exits at
    once."""
    keys = make_snapshot(work_dir)
    old, link, hard = keys.read_bytes(), work_dir / "link", work_dir / "hard"
    link.symlink_to(keys)
    os.link(keys, hard)
    with start_program(keys) as first:
        names: list[Path | str] = [keys, link, hard, f"{work_dir}/./keys"]
        for path in names:
            for command in ("replay", "live"):
                check_result(
                    run(make_load_and_save_arguments(path, command), INIT), 2, CANNOT_READ + b"  " + IN_USE_MESSAGE, b""
                )
                told = CANNOT_READ + f"  {path}: ".encode() + IN_USE_MESSAGE
                check_result(run_explained(make_load_and_save_arguments(path, command), INIT), 2, told, b"")
        # Another program may load the snapshot without saving. If it only saves, this fails at the end of the run, as
        # it does while another program writes.
        assert run(["replay", "--load", str(keys)]).returncode == 0
        check_result(run(["replay", "--save", str(keys)]), 2, CANNOT_WRITE, COUNTS)
        assert keys.read_bytes() == old
        _, said = first.communicate(SIGN_IN_AGAIN.read_bytes(), 60)
        assert first.returncode == 0 and said == b"", said
    assert read_counter(keys) == 2
    check_result(run(make_load_and_save_arguments(hard), SIGN_IN_AGAIN.read_bytes()), 0, b"")
    assert read_counter(keys) == 3


def test_killed_program_leaves_no_lock(work_dir: Path) -> None:
    """A program that is killed, or exits with an error, leaves no lock."""
    keys = make_snapshot(work_dir)
    with start_program(keys) as first:
        first.send_signal(signal.SIGKILL)
        first.wait(60)
    assert run(make_load_and_save_arguments(keys), b"x\n").returncode == 1
    check_result(run(make_load_and_save_arguments(keys), SIGN_IN_AGAIN.read_bytes()), 0, b"")
    assert read_counter(keys) == 2


def test_no_counter_is_lost(work_dir: Path) -> None:
    """If 20 programs sign in with one snapshot at the same time, each program that succeeds has incremented the
    counter."""
    keys = make_snapshot(work_dir)

    def sign_in_once(_: int) -> int:
        ended: list[Said] = []
        while not ended or ended[-1].returncode != 0:
            ended.append(run(make_load_and_save_arguments(keys), SIGN_IN_AGAIN.read_bytes()))
            assert ended[-1].returncode == 0 or ended[-1].stderr == CANNOT_READ + b"  " + IN_USE_MESSAGE, ended[
                -1
            ].stderr
        return len(ended)

    with ThreadPoolExecutor(8) as lanes:
        tries = sum(lanes.map(sign_in_once, range(20)))
    assert read_counter(keys) == 21 and tries >= 20, (read_counter(keys), tries)


def test_other_files_are_kept(work_dir: Path) -> None:
    """Files and links that another user created under the names of temporary copies are neither written nor removed."""
    keys, other = make_snapshot(work_dir), work_dir / "other"
    other.write_bytes(b"another's")
    mine = {f"keys.hidlog-copy{end}": f"mine{end}".encode() for end in ("", ".1", ".part")}
    for name, data in mine.items():
        (work_dir / name).write_bytes(data)
    (work_dir / "keys.hidlog-copy.2").symlink_to(other)
    (work_dir / "keys.hidlog-copy.3").symlink_to(work_dir / "nowhere")
    (work_dir / "keys.hidlog-copy.4").mkdir()
    before = sorted(os.listdir(work_dir))
    for new in (keys, work_dir / "new"):
        check_result(run(make_load_and_save_arguments(keys, save=new), SIGN_IN_AGAIN.read_bytes()), 0, b"")
    found = {path.name: path.read_bytes() for path in work_dir.iterdir() if path.name in mine}
    assert found == mine and other.read_bytes() == b"another's", found
    assert sorted(os.listdir(work_dir)) == sorted([*before, "new", "new.hidlog-sum"]), os.listdir(work_dir)
    # The checksum file is renamed to its path, so a link at this path is not followed.
    sums = work_dir / "keys.hidlog-sum"
    shutil.copy(sums, other)
    sums.unlink()
    sums.symlink_to(other)
    kept = other.read_bytes()
    check_result(run(make_load_and_save_arguments(keys), SIGN_IN_AGAIN.read_bytes()), 0, b"")
    assert other.read_bytes() == kept and not sums.is_symlink() and read_sums(keys)


def iter_flipped_bits(data: bytes) -> Iterator[bytes]:
    """Yields the data with each bit changed in turn."""
    for place in range(len(data)):
        for bit in range(8):
            yield data[:place] + bytes([data[place] ^ 1 << bit]) + data[place + 1 :]


def test_each_bit_of_snapshot_changed(work_dir: Path) -> None:
    """All commands reject a saved snapshot in which a bit was changed, or which was truncated or extended."""
    keys = make_snapshot(work_dir)
    data = keys.read_bytes()
    for number, wrong in enumerate(
        [*iter_flipped_bits(data), data[:-1], data + b"\0", b"", SNAPSHOT.read_bytes()[:100]]
    ):
        keys.write_bytes(wrong)
        command = ("replay", "live", "check", "quiet")[number % 4]
        check_result(run([command, "--load", str(keys)], INIT), 2, CANNOT_READ + b"  " + DAMAGED_MESSAGE, b"")
    told = CANNOT_READ + f"  {keys}: ".encode() + DAMAGED_MESSAGE
    check_result(run_explained(make_load_and_save_arguments(keys), INIT), 2, told, b"")
    logs = [str(SIGN_IN_AGAIN), str(SIGN_IN_AGAIN)]
    check_result(run(["check", "--load", str(keys), *logs]), 2, CANNOT_READ + b"  " + DAMAGED_MESSAGE, b"")
    keys.write_bytes(data)
    assert run(["replay", "--load", str(keys)]).returncode == 0


def test_sums_match_file(work_dir: Path) -> None:
    """The checksums are the SHA-256 hashes of the old and the new bytes. A file that replaced the snapshot has no
    checksum."""
    keys = make_snapshot(work_dir)
    first = keys.read_bytes()
    assert [row[0] for row in read_sums(keys)] == [sha256(first).hexdigest()]
    check_result(run(make_load_and_save_arguments(keys), SIGN_IN_AGAIN.read_bytes()), 0, b"")
    both = [sha256(data).hexdigest() for data in (first, keys.read_bytes())]
    assert [row[0] for row in read_sums(keys)] == both
    assert {row[1] for row in read_sums(keys)} == {f"{keys.stat().st_ino:016x}"}
    # The old content matches the checksums, too, as after a write that was interrupted before its first byte.
    keys.write_bytes(first)
    check_result(run(make_load_and_save_arguments(keys), SIGN_IN_AGAIN.read_bytes()), 0, b"")
    # Another file at the path is loaded, and the next --save writes checksums for it.
    shutil.copy(SNAPSHOT, work_dir / "other")
    os.replace(work_dir / "other", keys)
    check_result(run(make_load_and_save_arguments(keys), SIGN_IN_AGAIN.read_bytes()), 0, b"")
    assert len(read_sums(keys)) == 2
    keys.write_bytes(SNAPSHOT.read_bytes()[:-1])
    assert run(make_load_and_save_arguments(keys), SIGN_IN_AGAIN.read_bytes()).returncode == 2


def test_files_without_sums_are_loaded(work_dir: Path) -> None:
    """A snapshot without checksums is loaded, whether it is from an older version or the checksums were removed."""
    keys = make_snapshot(work_dir)
    (work_dir / "keys.hidlog-sum").unlink(missing_ok=True)
    keys.write_bytes(SNAPSHOT.read_bytes())
    check_result(run(make_load_and_save_arguments(keys), SIGN_IN_AGAIN.read_bytes()), 0, b"")
    assert read_counter(keys) == 1 and len(read_sums(keys)) == 2


def test_unrelated_sums_file_is_reported(work_dir: Path) -> None:
    """If an unrelated file is at the path of the checksums, this is reported, and neither this file nor the snapshot is
    overwritten."""
    keys = make_snapshot(work_dir)
    old, sums = keys.read_bytes(), work_dir / "keys.hidlog-sum"
    read_sums(keys)
    text = sums.read_bytes()
    for wrong in (b"", b"mine\n", text[:-1], text + b"\n", text * 3, text.replace(b" ", b"\n"), text.upper() + b"x"):
        sums.write_bytes(wrong)
        told = f"  {keys}: ".encode() + INVALID_SUMS_MESSAGE
        check_result(run_explained(make_load_and_save_arguments(keys), INIT), 2, CANNOT_READ + told, b"")
        check_result(run_explained(["replay", "--save", str(keys)]), 2, CANNOT_WRITE + told, COUNTS)
        assert keys.read_bytes() == old and sums.read_bytes() == wrong, wrong
    # If a pipe is at this path, the program does not wait for it.
    makers: list[Callable[[Path], None]] = [os.mkfifo, os.mkdir, lambda path: path.symlink_to(work_dir / "nowhere")]
    for make in makers:
        sums.rmdir() if sums.is_dir() else sums.unlink()
        make(sums)
        check_result(
            run_explained(make_load_and_save_arguments(keys), INIT),
            2,
            CANNOT_READ + f"  {keys}: ".encode() + INVALID_SUMS_MESSAGE,
            b"",
        )
        check_result(
            run_explained(["replay", "--save", str(keys)]),
            2,
            CANNOT_WRITE + f"  {keys}: ".encode() + INVALID_SUMS_MESSAGE,
            COUNTS,
        )
    assert keys.read_bytes() == old


def test_long_name_has_no_sums(work_dir: Path) -> None:
    """A snapshot whose name is too long for a checksum file beside it is loaded, and is saved without checksums."""
    keys = work_dir / ("k" * 250)
    keys.write_bytes(SNAPSHOT.read_bytes())
    check_result(run(make_load_and_save_arguments(keys), SIGN_IN_AGAIN.read_bytes()), 0, b"")
    assert read_counter(keys) == 1 and os.listdir(work_dir) == [keys.name]


TESTS = [
    test_second_program_is_refused,
    test_killed_program_leaves_no_lock,
    test_no_counter_is_lost,
    test_other_files_are_kept,
    test_each_bit_of_snapshot_changed,
    test_sums_match_file,
    test_files_without_sums_are_loaded,
    test_unrelated_sums_file_is_reported,
    test_long_name_has_no_sums,
]
