#!/usr/bin/env python3
"""Tests the program with bad paths, full disks, signals, closed pipes, directories, and failing system calls.

    tests/program/run.py [PROGRAM]        PROGRAM [default: release/hidlog]

Without strace, the tests that inject failures are skipped, and their names are printed. Exit status: 1 if a test fails.
"""

from __future__ import annotations

import json
import os
import random
import resource
import shutil
import signal
import subprocess
import sys
import tempfile
import time
from concurrent.futures import ThreadPoolExecutor
from pathlib import Path
from typing import Any, Callable, Optional, Sequence

import output_buffering
import explain_output
import saving
from running import (
    COUNTS,
    EXAMPLES,
    INIT,
    PROGRAM,
    SIGN_IN_AGAIN,
    SNAPSHOT,
    STACK_BYTES,
    TOP,
    Said,
    check_result,
    run,
    run_explained,
)

NOBODY = 65534


def format_write_error(path: str, reason: str) -> bytes:
    return f"hidlog: cannot write snapshot\n  {path}: {reason}\n".encode()


def become_nobody() -> None:
    """If the user is root, changes to an unprivileged user, so that file permissions apply."""
    if os.geteuid() == 0:
        os.setgroups([])
        os.setgid(NOBODY)
        os.setuid(NOBODY)


# ---- the path of --save


def test_live_checks_save_first(work_dir: Path) -> None:
    """`live` checks the path of --save before it reads the first line."""
    missing, folder = f"{work_dir}/none/keys", str(work_dir)
    check_result(
        run_explained(["live", "--save", missing], INIT),
        2,
        format_write_error(missing, "No such file or directory (os error 2)"),
        b"",
    )
    check_result(
        run_explained(["live", "--save", folder], INIT),
        2,
        format_write_error(folder, "Is a directory (os error 21)"),
        b"",
    )
    check_result(
        run_explained(["live", "--save", ""], INIT),
        2,
        format_write_error("", "No such file or directory (os error 2)"),
        b"",
    )
    inside = f"{SNAPSHOT}/keys"
    check_result(
        run_explained(["live", "--save", inside], INIT),
        2,
        format_write_error(inside, "Not a directory (os error 20)"),
        b"",
    )
    said = run_explained(["live", "--save", f"{work_dir}/keys"], b"t 5\n")
    check_result(said, 0, b"")
    assert sorted(os.listdir(work_dir)) == ["keys", "keys.hidlog-sum"], os.listdir(work_dir)


def test_live_needs_permission(work_dir: Path) -> None:
    """If the path of --save is not writable, this is an error before the session begins, and no file is created
    there."""
    keys = work_dir / "keys"
    keys.write_bytes(b"old")
    keys.chmod(0o444)
    work_dir.chmod(0o555)
    denied = "Permission denied (os error 13)"
    check_result(
        run_explained(["live", "--save", str(keys)], INIT, before=become_nobody),
        2,
        format_write_error(str(keys), denied),
        b"",
    )
    check_result(
        run_explained(["live", "--save", f"{keys}2"], INIT, before=become_nobody),
        2,
        format_write_error(f"{keys}2", denied),
        b"",
    )
    said = run_explained(["replay", "--save", str(keys)], b"", before=become_nobody)
    check_result(said, 2, format_write_error(str(keys), denied), COUNTS)
    work_dir.chmod(0o755)
    assert keys.read_bytes() == b"old" and os.listdir(work_dir) == ["keys"]


def test_replay_reports_save_last(work_dir: Path) -> None:
    """`replay` writes its complete result, and then reports that it cannot write the snapshot."""
    missing = f"{work_dir}/none/keys"
    check_result(
        run_explained(["replay", "--save", missing]),
        2,
        format_write_error(missing, "No such file or directory (os error 2)"),
        COUNTS,
    )
    check_result(
        run_explained(["replay", "--save", str(work_dir)]),
        2,
        format_write_error(str(work_dir), "Is a directory (os error 21)"),
        COUNTS,
    )
    full = "No space left on device (os error 28)"
    check_result(run_explained(["replay", "--save", "/dev/full"]), 2, format_write_error("/dev/full", full), COUNTS)


def test_log_is_not_overwritten(work_dir: Path) -> None:
    """The log that is read, and the file to which standard output goes, are rejected as paths of --save."""
    log = work_dir / "log"
    log.write_bytes(INIT)
    lost = format_write_error(str(log), "it is the input log")
    check_result(run_explained(["live", "--save", str(log)], stdin=log), 2, lost, b"")
    said = run_explained(["replay", "--save", str(log)], stdin=log)
    assert said.returncode == 2 and said.stderr == lost and said.stdout.startswith(INIT)
    assert log.read_bytes() == INIT
    other = work_dir / "link"
    os.link(log, other)
    assert run_explained(["replay", "--save", str(other)], stdin=log).returncode == 2 and log.read_bytes() == INIT
    with open(work_dir / "out", "wb") as out:
        words = [PROGRAM, "replay", "--explain", "--save", str(work_dir / "out")]
        ended = subprocess.run(words, input=b"", stdout=out, stderr=subprocess.PIPE)
    check_result(ended, 2, format_write_error(str(work_dir / "out"), "it is the file that standard output goes to"))
    assert (work_dir / "out").read_bytes() == COUNTS


def test_fifo_needs_reader(work_dir: Path) -> None:
    """A FIFO without a reader is rejected as the path of --save at once. A FIFO with a reader receives the snapshot."""
    fifo = work_dir / "fifo"
    os.mkfifo(fifo)
    check_result(
        run_explained(["replay", "--save", str(fifo)]),
        2,
        format_write_error(str(fifo), "Broken pipe (os error 32)"),
        COUNTS,
    )
    reader = os.open(fifo, os.O_RDONLY | os.O_NONBLOCK)
    try:
        check_result(run_explained(["replay", "--save", str(fifo)]), 0, b"", COUNTS)
        assert os.read(reader, 100) == bytes.fromhex("a201020280")
    finally:
        os.close(reader)


def save_snapshot(work_dir: Path) -> bytes:
    """Returns the snapshot that a sign-in with the example's credential saves."""
    keys = work_dir / "wanted"
    check_result(run(["replay", "--load", str(SNAPSHOT), "--save", str(keys)], SIGN_IN_AGAIN.read_bytes()), 0, b"")
    return keys.read_bytes()


def test_saving_replaces_file(work_dir: Path) -> None:
    """The whole content of the file is replaced by a snapshot that is shorter, longer or equal."""
    wanted = save_snapshot(work_dir)
    for old in (b"", b"x", wanted[:-1], wanted, wanted + b"x", wanted * 400):
        keys = work_dir / "keys"
        keys.write_bytes(old)
        node = keys.stat().st_ino
        check_result(run(["replay", "--load", str(SNAPSHOT), "--save", str(keys)], SIGN_IN_AGAIN.read_bytes()), 0, b"")
        assert (
            keys.read_bytes() == wanted and keys.stat().st_ino == node
        ), f"saving over {len(old)} bytes wrote another snapshot or replaced the file"


def test_failed_write_keeps_file(work_dir: Path) -> None:
    """If a write of the snapshot fails, or the program is killed during the write, the old file is unchanged. The first
    writes are those of the checksums and of the copy."""
    for old in (SNAPSHOT.read_bytes(), bytes.fromhex("a201020280")):
        for fault in ("error=ENOSPC", "error=EIO", "signal=KILL"):
            keys = work_dir / "keys"
            keys.write_bytes(old)
            words = ["replay", "--load", str(SNAPSHOT), "--save", str(keys)]
            trace = ["-e", f"inject=pwrite64:{fault}:when=3"]
            said = run(words, SIGN_IN_AGAIN.read_bytes(), trace=trace)
            assert said.returncode != 0, f"{fault}: the program succeeded, so the fault was not injected"
            assert keys.read_bytes() == old, f"{fault}: the file has {len(keys.read_bytes())} bytes"
            if fault.startswith("error"):
                assert said.stderr == b"hidlog: cannot write snapshot\n", said.stderr


def test_full_disk_keeps_file(work_dir: Path) -> None:
    """On a full file system, the old snapshot is kept, unless the new one needs no additional blocks."""
    folder = work_dir / "small"
    folder.mkdir()
    if (
        subprocess.run(
            ["mount", "-t", "tmpfs", "-o", "size=64k,nr_inodes=20", "none", folder], capture_output=True
        ).returncode
        != 0
    ):
        raise TestSkippedError("no file system can be mounted here")
    try:
        keys, fill, fresh = folder / "keys", folder / "fill", folder / "fresh"
        wanted = save_snapshot(work_dir)
        for old in (wanted + b"x" * 1000, bytes.fromhex("a201020280")):
            keys.write_bytes(old)
            fresh.write_bytes(b"")
            fill_disk(fill)
            said = run_explained(["replay", "--load", str(SNAPSHOT), "--save", str(fresh)], SIGN_IN_AGAIN.read_bytes())
            assert said.returncode == 2 and fresh.read_bytes() == b"", said.stderr
            check_result(said, 2, format_write_error(str(fresh), "No space left on device (os error 28)"))
            said = run_explained(["replay", "--load", str(SNAPSHOT), "--save", str(keys)], SIGN_IN_AGAIN.read_bytes())
            assert keys.read_bytes() == (wanted if said.returncode == 0 else old), said.stderr
            fill.unlink()
    finally:
        subprocess.run(["umount", folder], check=True)


def fill_disk(path: Path) -> None:
    """Writes a file until its file system is full."""
    with open(path, "wb", buffering=0) as file:
        try:
            while True:
                file.write(b"x" * 512)
        except OSError:
            pass


def test_concurrent_saves(work_dir: Path) -> None:
    """With `--save new` and `mv`, none of 200 programs that use one file reads an incomplete snapshot."""
    keys = work_dir / "keys"
    shutil.copy(SNAPSHOT, keys)
    script = '"$0" replay --load "$1" --save "$1.$2" <"$3" >/dev/null && mv "$1.$2" "$1" && rm "$1.$2.hidlog-sum"'

    def replay_once(number: int) -> Said:
        words = ["sh", "-c", script, PROGRAM, str(keys), str(number), str(SIGN_IN_AGAIN)]
        return subprocess.run(words, capture_output=True)

    with ThreadPoolExecutor(8) as lanes:
        for said in lanes.map(replay_once, range(200)):
            check_result(said, 0, b"")
    assert os.listdir(work_dir) == ["keys"]


# ---- signals


def test_signals_save_nothing(work_dir: Path) -> None:
    """SIGINT and SIGTERM end `live` without a message, and the old file is kept. At the end of its input, `live` saves
    the snapshot."""
    keys = work_dir / "keys"
    for number in (signal.SIGINT, signal.SIGTERM):
        keys.write_bytes(b"old")
        with start_live(keys) as program:
            assert program.stdin is not None and program.stdout is not None and program.stderr is not None
            program.stdin.write(b"t 5\n")
            program.stdin.flush()
            assert program.stdout.readline() == b"t 5\n"
            program.send_signal(number)
            assert program.wait(60) == -number and program.stderr.read() == b""
        assert keys.read_bytes() == b"old"
    with start_live(keys) as program:
        output, faults = program.communicate(b"t 5\n", 60)
        assert program.returncode == 0 and faults == b"" and output.endswith(COUNTS)
    assert keys.read_bytes() == bytes.fromhex("a201020280")


def start_live(keys: Path) -> subprocess.Popen[bytes]:
    """Starts `live --save`. SIGINT is not ignored, unlike in a background process of a shell."""
    pipe = subprocess.PIPE
    command = [PROGRAM, "live", "--save", str(keys)]
    return subprocess.Popen(command, stdin=pipe, stdout=pipe, stderr=pipe, preexec_fn=restore_interrupts)


def restore_interrupts() -> None:
    signal.signal(signal.SIGINT, signal.SIG_DFL)


# ---- messages


def test_invalid_snapshots_are_reported(work_dir: Path) -> None:
    """All four commands report the path of a snapshot that is unreadable or invalid, and the reason."""
    whole = SNAPSHOT.read_bytes()
    cases = [
        (b"", "1", "it is empty"),
        (whole[:-1], "1", "the snapshot is truncated or corrupt"),
        (whole + b"\0", "1", "the snapshot is truncated or corrupt"),
        (whole[:2] + b"\x03" + whole[3:], "1", "unsupported version 3 (supported: 1, 2)"),
        (b"# a log\n", "1", "it is not a snapshot"),
        (bytes.fromhex("a20102029841") + b"\0" * 65, "2", "more than 64 credentials"),
        (bytes.fromhex("a201020281a0"), "3", "credential 1 is invalid or a duplicate"),
    ]
    keys = work_dir / "keys"
    for command in ("replay", "live", "check", "quiet"):
        words = [command, "--load", str(keys)]
        for data, number, reason in cases:
            keys.write_bytes(data)
            check_result(
                run_explained(words, INIT), 2, f"hidlog: snapshot refused: {number}\n  {keys}: {reason}\n".encode(), b""
            )
        keys.unlink()
        cannot = f"hidlog: cannot read snapshot\n  {keys}: No such file or directory (os error 2)\n"
        check_result(run_explained(words, INIT), 2, cannot.encode(), b"")
        cannot = f"hidlog: cannot read snapshot\n  {work_dir}: Is a directory (os error 21)\n"
        check_result(run_explained([command, "--load", str(work_dir)], INIT), 2, cannot.encode(), b"")
        keys.write_bytes(whole)
        keys.chmod(0)
        cannot = f"hidlog: cannot read snapshot\n  {keys}: Permission denied (os error 13)\n"
        work_dir.chmod(0o755)
        check_result(run_explained(words, INIT, before=become_nobody), 2, cannot.encode(), b"")
        keys.chmod(0o644)


def test_invalid_lines_are_located(_: Path) -> None:
    """An invalid log line is reported with its first invalid byte."""
    feed = "is a carriage return: lines end with a line feed alone (tr -d '\\r' drops the others)"
    letters = "a log line begins with >, <, t, p, k, s, # or ="
    words = "expected granted, denied or timeout"
    key = "expected no, or an id, x and y of 64 hexadecimal digits each"
    signature = "a signature has 2 to 144 hexadecimal digits, an even number, not"
    cases = [
        (INIT.replace(b"\n", b"\r\n"), f"byte 133 {feed}"),
        (b"\r", f"byte 1 {feed}"),
        (b"\xef\xbb\xbf# a log", "byte 1 is a byte order mark, which a log must not have"),
        (b"t 05", "byte 4 is '5': a time has no leading zero"),
        (b"t", "it ends after byte 1: expected a space"),
        (b"t ", "it ends after byte 2: expected a time in milliseconds"),
        (b"t\t5", "byte 2 is 0x09: expected a space"),
        (b"t -5", "byte 3 is '-': expected a time in milliseconds"),
        (b"t 18446744073709551616", "byte 22 is '6': the largest time is 18446744073709551615"),
        (b"t 5 ", "byte 4 is ' ': expected the end of the line"),
        (b"> 5.25 00", "byte 4 is '.': expected a space and the rest of the line after the time"),
        (b"x 5", f"byte 1 is 'x': {letters}"),
        (b"P 5 granted", "byte 1 is 'P': the letters of log lines are lower case"),
        (b"> 5 " + b"0" * 127, "it ends after byte 131: a packet has 128 hexadecimal digits, not 127"),
        (b"> 5 " + b"0" * 129, "byte 133 is '0': a packet has 128 hexadecimal digits, not 129"),
        (b"> 5 0g", "byte 6 is 'g': a packet is 128 hexadecimal digits"),
        (b"> 5 00 00", "byte 7 is ' ': a packet is 128 hexadecimal digits"),
        (b"< 0g", "byte 4 is 'g': a packet is 128 hexadecimal digits"),
        (b"< " + b"0" * 126, "it ends after byte 128: a packet has 128 hexadecimal digits, not 126"),
        (b"p 5 grant", f"it ends after byte 9: {words}"),
        (b"p 5 dinied", f"byte 6 is 'i': {words}"),
        (b"p 5 granted ", f"byte 12 is ' ': {words}"),
        (b"k 5 nope", f"byte 7 is 'p': {key}"),
        (b"k 5 " + b"a" * 64 + b" " + b"b" * 63 + b"x", f"byte 133 is 'x': {key}"),
        (b"k 5 " + b"a" * 64 + b" " + b"b" * 64, f"it ends after byte 133: {key}"),
        (b"s 5 abc", f"it ends after byte 7: {signature} 3"),
        (b"s 5 ", f"it ends after byte 4: {signature} 0"),
        (b"s 5 " + b"a" * 146, f"byte 149 is 'a': {signature} 146"),
        (b"s 5 0x30", "byte 6 is 'x': expected no, or 2 to 144 hexadecimal digits"),
        (b"  t 5", f"byte 1 is ' ': {letters}"),
        (b"t \xff", "byte 3 is 0xff: expected a time in milliseconds"),
        (b"\xd4\xc3\xb2\xa1\x02\x00", "this is a pcap capture: hidlog import FILE reads it"),
        (b"\x1f\x8b\x08\x00", "this is a gzip file: gunzip it first"),
        (
            b"\xff\xfet\x00 \x005\x00",
            "this is UTF-16, as PowerShell writes it: a log is UTF-8 (iconv -f UTF-16 -t UTF-8)",
        ),
        (b'{"format": 1}', "this is JSON, not a log"),
    ]
    for line, reason in cases:
        for command in ("replay", "live", "check", "quiet", "show"):
            check_result(run([command], line + b"\n"), 1, b"hidlog: line 1: not a log line\n")
            said = run_explained([command], line + b"\n")
            check_result(said, 1, f"hidlog: line 1: not a log line\n  {reason}\n".encode())
    # The line is found, too, after many other lines, and if it is read in the same block as earlier lines.
    for front in (1, 3, 40, 5000):
        log = b"# a comment of some length, so that reads end within lines\n" * front + b"t 5x\nt 6y\n" + b"t 7\n" * 99
        said = run_explained(["quiet"], log)
        check_result(
            said,
            1,
            f"hidlog: line {front + 1}: not a log line\n  byte 4 is 'x': expected the end of the line\n".encode(),
        )


def test_other_errors_have_no_reason(_: Path) -> None:
    """Messages about other kinds of errors do not mention lines that were not played."""
    said = (
        b"  the log has in line 1:\n    < 00000000 +0\n  the key sends no packet here\n"
        b"  no input comes before this packet\n"
    )
    different, long = b"< " + b"0" * 128 + b"\nt 5x\n", b"#" * 256 + b"\nt 5x\n"
    check_result(run(["check"], different), 1, b"hidlog: line 0: differs at packet 1\n", b"")
    check_result(run_explained(["check"], different), 1, b"hidlog: line 0: differs at packet 1\n" + said, b"")
    for runs in (run, run_explained):
        check_result(runs(["replay"], long), 1, b"hidlog: line 1: longer than 255 bytes\n", b"")


# ---- streams that fail


WRITING_FAILED = b"hidlog: writing failed\n"


def test_closed_pipe_is_reported(work_dir: Path) -> None:
    """If the reader of standard output closes it, as `| head` does, writing fails. For --help, the exit status is 2."""
    for words, status in ((["replay"], 1), (["live"], 1), (["quiet"], 1), (["show"], 1), (["--help"], 2)):
        reader, writer = os.pipe()
        os.close(reader)
        said = subprocess.run([PROGRAM, *words], input=INIT * 9, stdout=writer, stderr=subprocess.PIPE)
        os.close(writer)
        check_result(said, status, WRITING_FAILED)
    # The same is true in the middle of the output.
    script = '"$0" replay 2>"$1" <"$2" | head -1 >/dev/null; echo "${PIPESTATUS[0]}"'
    (work_dir / "log").write_bytes(INIT * 40_000)
    words = ["bash", "-c", script, PROGRAM, str(work_dir / "faults"), str(work_dir / "log")]
    assert subprocess.run(words, capture_output=True).stdout == b"1\n"
    assert (work_dir / "faults").read_bytes() == WRITING_FAILED


def test_full_output_is_reported(_: Path) -> None:
    """An error of writing to standard output is reported, also for --help. The explained message contains the
    reason."""
    full = b"  standard output: No space left on device (os error 28)\n"
    for words, status in ((["replay"], 1), (["check"], 1), (["show"], 1), (["--help"], 2), (["--version"], 2)):
        forms: list[list[str]] = [[]] if words[0].startswith("-") else [[], ["--explain"]]
        for more in forms:
            with open("/dev/full", "wb") as out:
                said = subprocess.run([PROGRAM, *words, *more], input=INIT[:-1], stdout=out, stderr=subprocess.PIPE)
            if words == ["check"]:
                assert said.returncode == 1 and said.stderr.startswith(b"hidlog: line 1: differs at packet 1\n"), said
            else:
                check_result(said, status, WRITING_FAILED + (full if more else b""))


def test_full_standard_error_changes_nothing(_: Path) -> None:
    """An error of writing to standard error does not change the exit status."""
    for words, status in ((["replay"], 1), (["replay", "--load", "/none"], 2), (["--what"], 2)):
        with open("/dev/full", "wb") as faults:
            said = subprocess.run([PROGRAM, *words], input=b"t 05\n", stdout=subprocess.PIPE, stderr=faults)
        assert said.returncode == status, f"{words}: {said.returncode}"


def test_directory_on_standard_input(_: Path) -> None:
    """Each command reports that standard input is a directory. The explained message contains the reason."""
    reason = b"  standard input: Is a directory (os error 21)\n"
    for command in ("replay", "live", "check", "quiet", "show"):
        for words, more in (([command], b""), ([command, "--explain"], reason)):
            folder = os.open("/", os.O_RDONLY)
            try:
                said = subprocess.run([PROGRAM, *words], stdin=folder, capture_output=True)
            finally:
                os.close(folder)
            check_result(said, 1, b"hidlog: line 1: reading failed\n" + more, b"")


def test_failed_calls_are_not_repeated(_: Path) -> None:
    """A failed read or write is reported and not retried, even after EINTR or EAGAIN. Earlier output is not lost."""
    log = (EXAMPLES / "registration.log").read_bytes()
    lived = run(["live"], log).stdout
    for error, name in (
        ("EINTR", "Interrupted system call (os error 4)"),
        ("EAGAIN", "Resource temporarily unavailable (os error 11)"),
    ):
        for when in (1, 2):
            said = run(["replay"], log, trace=["-e", f"inject=write:error={error}:when={when}"])
            check_result(said, 1, WRITING_FAILED)
            assert log.startswith(said.stdout) and said.stdout.count(b"= held") == 0, said
        for when in (1, 2, 5):
            said = run(["live"], log, trace=["-e", f"inject=write:error={error}:when={when}"])
            check_result(said, 1, WRITING_FAILED)
            assert lived.startswith(said.stdout) and said.stdout.count(b"> ") <= when, said
        said = run(["replay"], log, trace=["-e", f"inject=read:error={error}:when=1"])
        check_result(said, 1, b"hidlog: line 1: reading failed\n", b"")
        said = run(["replay"], log, trace=["-e", f"inject=read:error={error}:when=2"])
        # All lines were read and played before the failure; only the counts are missing.
        lines = log.splitlines(keepends=True)[:-1]
        inputs = log.rpartition(b"= held")[0]
        check_result(said, 1, f"hidlog: line {len(lines) + 2}: reading failed\n".encode(), inputs)
        said = run(["replay", "--explain"], INIT, trace=["-e", f"inject=write:error={error}:when=1"])
        check_result(said, 1, WRITING_FAILED + f"  standard output: {name}\n".encode(), b"")
        said = run(["replay", "--explain"], INIT, trace=["-e", f"inject=read:error={error}:when=1"])
        check_result(said, 1, f"hidlog: line 1: reading failed\n  standard input: {name}\n".encode(), b"")


# ---- logs as file arguments


def test_file_arguments(work_dir: Path) -> None:
    """Each command gives the same result for a file argument as for standard input; `-` is standard input."""
    log = EXAMPLES / "registration.log"
    for words in (["replay"], ["live"], ["check"], ["quiet"], ["show"]):
        wanted = run(words, stdin=log)
        check_result(wanted, 0, b"")
        assert wanted.stdout != b""
        for given in ([str(log)], ["-"], ["--", str(log)]):
            said = run([*words, *given], stdin=log if given == ["-"] else None)
            check_result(said, 0, b"", wanted.stdout)
    odd = work_dir / "-odd \u00e9.log"
    odd.write_bytes(SIGN_IN_AGAIN.read_bytes())
    said = run(["check", "--load", str(SNAPSHOT), "--", str(odd)])
    check_result(said, 0, b"", run(["check", "--load", str(SNAPSHOT)], stdin=SIGN_IN_AGAIN).stdout)


def test_unreadable_files_are_reported(work_dir: Path) -> None:
    """A missing file, a directory and an unreadable file are reported with the path and the reason. The exit status is
    1, nothing is written, and no snapshot is read before."""
    closed = work_dir / "closed.log"
    closed.write_bytes(INIT)
    closed.chmod(0)
    cases = [
        (f"{work_dir}/none.log", "No such file or directory (os error 2)"),
        (str(work_dir), "Is a directory (os error 21)"),
        (str(closed), "Permission denied (os error 13)"),
        ("", "No such file or directory (os error 2)"),
    ]
    for command in ("replay", "live", "check", "quiet", "show"):
        for path, reason in cases:
            said = run_explained([command, path], before=become_nobody)
            check_result(said, 1, f"hidlog: cannot read log\n  {path}: {reason}\n".encode(), b"")
    said = run_explained(["replay", "--load", "/none", f"{work_dir}/none.log"])
    assert said.returncode == 1 and said.stderr.startswith(b"hidlog: cannot read log\n"), said.stderr


def test_file_errors_have_reasons(work_dir: Path) -> None:
    """For an error in a file argument, the text and the reason are the same as on standard input. For a failed read,
    the path is printed, too."""
    log = work_dir / "a.log"
    log.write_bytes(INIT + b"t 5\r\n")
    for command in ("replay", "live", "quiet", "show"):
        check_result(run_explained([command, str(log)]), 1, run_explained([command], stdin=log).stderr)
    assert b"byte 4 is a carriage return" in run_explained(["show", str(log)]).stderr
    reading = ["-P", str(log), "-e", "inject=read:error=EIO:when=1"]
    check_result(
        run_explained(["replay", str(log)], trace=reading),
        1,
        f"hidlog: line 1: reading failed\n  {log}: Input/output error (os error 5)\n".encode(),
        b"",
    )


# The result of `check` for a log that contains only INIT.
MISSING_PACKET = """\
  in INIT 06 on channel ffffffff, from line 1
  the log has no packet here, up to line 2
  the key sends:
    < ffffffff INIT 17  nonce 0001020304050607 channel 00000001 version 2 device 1.0.0 capabilities 0c CBOR NMSG
  line 1 completes the message
  the log has no packets from the key; run `hidlog replay` first, then check its output
"""


def test_several_logs_are_checked(work_dir: Path) -> None:
    """`check` compares each file in a separate session, and prints a result for each file. No other command accepts
    several files."""
    good, again = EXAMPLES / "registration.log", EXAMPLES / "sign_in.log"
    same = run_explained(["check"], stdin=good).stdout
    more = run_explained(["check"], stdin=again).stdout
    check_result(
        run_explained(["check", str(good), str(again), str(good)]),
        0,
        b"",
        f"{good}: ".encode() + same + f"{again}: ".encode() + more + f"{good}: ".encode() + same,
    )
    differs, bad, none = work_dir / "differs.log", work_dir / "bad.log", work_dir / "none.log"
    differs.write_bytes(INIT + b"t 5\n")
    bad.write_bytes(b"t 5\nt 6x\n")
    told = (
        f"{differs}: line 1: differs at packet 1\n{MISSING_PACKET}"
        f"{bad}: line 2: not a log line\n  byte 4 is 'x': expected the end of the line\n"
        f"hidlog: cannot read log\n  {none}: No such file or directory (os error 2)\n"
    )
    paths = [str(path) for path in (differs, bad, none, good)]
    check_result(run_explained(["check", *paths]), 1, told.encode(), f"{good}: ".encode() + same)
    # One of the logs may be standard input, and a snapshot is loaded for each log.
    loaded = run_explained(["check", "--load", str(SNAPSHOT)], stdin=SIGN_IN_AGAIN).stdout
    said = run_explained(["check", "--load", str(SNAPSHOT), "-", str(SIGN_IN_AGAIN)], stdin=SIGN_IN_AGAIN)
    check_result(said, 0, b"", b"-: " + loaded + f"{SIGN_IN_AGAIN}: ".encode() + loaded)
    mixed = run_explained(["check", str(good), "-", str(again)], again.read_bytes())
    check_result(mixed, 0, b"", f"{good}: ".encode() + same + b"-: " + more + f"{again}: ".encode() + more)
    check_result(
        run_explained(["check", "--load", "/none", str(good), str(good)]),
        2,
        b"hidlog: cannot read snapshot\n  /none: No such file or directory (os error 2)\n",
        b"",
    )
    for command in ("replay", "live", "quiet", "show"):
        said = run_explained([command, str(good), str(again)])
        assert said.returncode == 2 and b"unexpected argument" in said.stderr and said.stdout == b""


def test_show_forms(work_dir: Path) -> None:
    """With `show --summary` and `show --json` the lines are not shown, even for a log with an error. With both options,
    the summary is written as JSON."""
    log = EXAMPLES / "sign_in.log"
    lines = run_explained(["show", str(log)]).stdout
    summary = run_explained(["show", "--summary", str(log)])
    check_result(summary, 0, b"")
    assert b"authenticatorGetAssertion" in summary.stdout and summary.stdout != lines
    said = run_explained(["show", "--json", str(log)])
    check_result(said, 0, b"")
    objects = [json.loads(line) for line in said.stdout.splitlines()]
    assert len(objects) > 20 and all(isinstance(row, dict) for row in objects)
    said = run_explained(["show", "--summary", "--json", str(log)])
    check_result(said, 0, b"")
    first, *closed, counts = [json.loads(line) for line in said.stdout.splitlines()]
    assert first == objects[0] == {"kind": "format", "format": 2}
    assert closed == [row for row in objects if row["kind"] == "transaction"] and counts["kind"] == "summary"
    bad = work_dir / "bad.log"
    bad.write_bytes(log.read_bytes() + b"t 5x\n")
    count = len(bad.read_bytes().splitlines())
    told = f"hidlog: line {count}: not a log line\n  byte 4 is 'x': expected the end of the line\n".encode()
    said = run_explained(["show", "--summary", str(bad)])
    check_result(said, 1, told, summary.stdout)
    said = run_explained(["show", "--json", str(bad)])
    check_result(said, 1, told)
    assert [json.loads(line) for line in said.stdout.splitlines()][-1] not in objects
    for form in ("--summary", "--json"):
        with open("/dev/full", "wb") as out:
            ended = subprocess.run([PROGRAM, "show", form, str(log)], stdout=out, stderr=subprocess.PIPE)
        check_result(ended, 1, WRITING_FAILED)


OBJECT_KINDS = {
    "format", "packet", "tick", "presence", "key", "signature", "comment", "request", "answer", "transaction", "fault",
}  # fmt: skip


def read_objects(log: bytes) -> list[dict[str, Any]]:
    """Returns the output of `show --json`. Each line is an object of a kind documented in LOG_FORMAT.md."""
    shown = run(["show", "--json"], log).stdout
    objects = [json.loads(line) for line in shown.split(b"\n")[:-1]]
    assert all(row["kind"] in OBJECT_KINDS for row in objects)
    return objects


def check_each_packet_shown(log: bytes) -> None:
    """Fails unless there is an object for each packet before an error, in the order of the log."""
    objects = read_objects(log)
    fault: dict[str, Any] = next((row for row in objects if row["kind"] == "fault"), {})
    numbers = [number for number, line in enumerate(log.split(b"\n"), 1) if line[:1] in (b">", b"<")]
    before = [number for number in numbers if number < fault.get("line", len(log) + 1)]
    assert [row["line"] for row in objects if row["kind"] == "packet"] == before


def change_digits(log: bytes, chance: random.Random) -> bytes:
    """Returns a log with digits changed in some packets, and a comment of random bytes after each input."""
    lines = bytearray()
    for line in log.splitlines(keepends=True):
        if line[:1] in (b">", b"<") and chance.random() < 0.5:
            place = chance.randrange(len(line) - 129, len(line) - 1)
            line = line[:place] + b"%x" % chance.randrange(16) + line[place + 1 :]
        lines += line
        if line[:1] == b">":
            lines += b"# " + bytes(byte for byte in chance.randbytes(60) if byte != 10) + b"\n"
    return bytes(lines)


def test_every_log_is_json(work_dir: Path) -> None:
    """`show --json` writes JSON with an object for each packet, for every log and for changed logs."""
    subprocess.run([TOP / "conformance/make.py", "--output", work_dir / "sessions"], check=True)
    folders = [EXAMPLES.glob("**/*.log"), (work_dir / "sessions").glob("*/*.log")]
    logs = [path.read_bytes() for folder in folders for path in sorted(folder)]
    assert len(logs) > 700
    chance = random.Random(49)
    made = [change_digits((EXAMPLES / "sign_in.log").read_bytes(), chance) for _ in range(60)]
    with ThreadPoolExecutor() as several:
        list(several.map(check_each_packet_shown, [*logs, *made]))


def test_full_output_stops_check(_: Path) -> None:
    """If standard output is full or closed, no further logs are compared."""
    good = str(EXAMPLES / "registration.log")
    with open("/dev/full", "wb") as out:
        said = subprocess.run([PROGRAM, "check", good, good, "/none"], stdout=out, stderr=subprocess.PIPE)
    check_result(said, 1, WRITING_FAILED)


def test_many_files_need_no_memory(work_dir: Path) -> None:
    """Comparing a thousand logs needs no more stack and memory than comparing one log."""
    log = work_dir / "a.log"
    log.write_bytes((EXAMPLES / "registration.log").read_bytes())

    def set_limits() -> None:
        resource.setrlimit(resource.RLIMIT_STACK, (STACK_BYTES + 40_000, resource.RLIM_INFINITY))
        resource.setrlimit(resource.RLIMIT_AS, (24 << 20, 24 << 20))

    said = run(["check", *[str(log)] * 1000], before=set_limits)
    assert said.returncode == 0 and said.stderr == b"" and len(said.stdout.splitlines()) == 1000, said


def test_named_log_is_not_overwritten(work_dir: Path) -> None:
    """A log argument is rejected as the path of --save, also under another name of the file."""
    log, link = work_dir / "log", work_dir / "link"
    log.write_bytes(INIT)
    os.symlink(log, link)
    for path in (log, link):
        lost = format_write_error(str(path), "it is the input log")
        check_result(run_explained(["live", "--save", str(path), str(log)]), 2, lost, b"")
        said = run_explained(["replay", "--save", str(path), str(log)])
        assert said.returncode == 2 and said.stderr == lost and said.stdout.startswith(INIT)
        assert log.read_bytes() == INIT
    # Any other file is a valid path of --save, whatever standard input is.
    keys = work_dir / "keys"
    keys.write_bytes(b"old")
    check_result(run_explained(["replay", "--save", str(keys), str(log)], stdin=keys), 0, b"")
    assert keys.read_bytes() == bytes.fromhex("a201020280")


def run_at_terminal(words: Sequence[str], typed: bytes) -> bytes:
    """Returns the output of the program on standard error. Standard input is a terminal at which this text is typed."""
    terminal, end = os.openpty()
    with subprocess.Popen([PROGRAM, *words], stdin=end, stdout=subprocess.DEVNULL, stderr=subprocess.PIPE) as program:
        os.close(end)
        os.write(terminal, typed + b"\x04")
        _, faults = program.communicate(timeout=600)
    os.close(terminal)
    assert program.returncode == 0
    return faults


def test_terminal_prompt(_: Path) -> None:
    """If --explain is given and standard input is a terminal, one note says that the program waits for input."""
    awaited = b"hidlog: reading a log from the terminal; end it with Ctrl-D\n"
    for words in (["replay"], ["live"], ["check"], ["quiet"], ["show"], ["show", "-"]):
        assert run_at_terminal([*words, "--explain"], b"t 5\nt 6\n") == awaited, words
        assert run_at_terminal(words, b"t 5\nt 6\n") == b"", words
    assert run_at_terminal(["show", "--explain", str(SIGN_IN_AGAIN)], b"") == b""
    assert run_at_terminal(["--help"], b"") == b""


# ---- resources


def test_little_stack_is_enough(_: Path) -> None:
    """Each command needs at most the stack size that docs/use/LIMITS.md states."""

    def set_limits() -> None:
        resource.setrlimit(resource.RLIMIT_STACK, (STACK_BYTES, resource.RLIM_INFINITY))

    log = (EXAMPLES / "registration.log").read_bytes()
    for words in (
        ["replay"],
        ["live"],
        ["check"],
        ["quiet"],
        ["show"],
        ["--help"],
        ["show", "--summary"],
        ["show", "--json"],
        ["show", "--summary", "--json"],
    ):
        check_result(run(words, log, before=set_limits), 0, b"")
    check_result(run(["replay", "--load", str(SNAPSHOT)], SIGN_IN_AGAIN.read_bytes(), before=set_limits), 0, b"")
    # This includes a difference.
    bob = str(EXAMPLES / "failing/bob.snapshot")
    for name, loaded in (("stale_sign_count", ()), ("wrong_snapshot", ("--load", bob))):
        said = run_explained(["check", "--all", *loaded], stdin=EXAMPLES / f"failing/{name}.log", before=set_limits)
        assert said.returncode == 1 and b"  the key sends:\n" in said.stderr, said
        twice = [str(EXAMPLES / f"failing/{name}.log")] * 2
        said = run(["check", "--all", "--json", *loaded, *twice], before=set_limits)
        assert said.returncode == 1 and said.stdout.count(b'"kind":"differences"') == 2, said


class TestSkippedError(Exception):
    """A dependency of a test is missing."""


TESTS_WITH_STRACE = {
    test_failed_write_keeps_file,
    test_file_errors_have_reasons,
    test_failed_calls_are_not_repeated,
    *output_buffering.TESTS_WITH_STRACE,
}
TESTS = [
    test_live_checks_save_first,
    test_live_needs_permission,
    test_replay_reports_save_last,
    test_log_is_not_overwritten,
    test_fifo_needs_reader,
    test_saving_replaces_file,
    test_failed_write_keeps_file,
    test_full_disk_keeps_file,
    test_concurrent_saves,
    test_signals_save_nothing,
    test_invalid_snapshots_are_reported,
    test_invalid_lines_are_located,
    test_other_errors_have_no_reason,
    test_closed_pipe_is_reported,
    test_full_output_is_reported,
    test_full_standard_error_changes_nothing,
    test_directory_on_standard_input,
    test_failed_calls_are_not_repeated,
    test_file_arguments,
    test_unreadable_files_are_reported,
    test_file_errors_have_reasons,
    test_several_logs_are_checked,
    test_show_forms,
    test_every_log_is_json,
    test_full_output_stops_check,
    test_many_files_need_no_memory,
    test_named_log_is_not_overwritten,
    test_terminal_prompt,
    test_little_stack_is_enough,
    *output_buffering.TESTS,
    *explain_output.TESTS,
    *saving.TESTS,
]


def run_test(test: Callable[[Path], None]) -> Optional[str]:
    """Runs a test in a new folder. Returns its error, if any."""
    if test in TESTS_WITH_STRACE and shutil.which("strace") is None:
        print(f"skipped  {test.__name__}: strace is missing")
        return None
    with tempfile.TemporaryDirectory() as folder:
        Path(folder).chmod(0o755)
        try:
            test(Path(folder))
        except TestSkippedError as missing:
            print(f"skipped  {test.__name__}: {missing}")
        except (AssertionError, subprocess.TimeoutExpired) as wrong:
            return str(wrong)
    return None


def main() -> int:
    failed = 0
    for test in TESTS:
        wrong = run_test(test)
        if wrong is not None:
            print(f"FAILED   {test.__name__}: {wrong}")
            failed += 1
    print(f"{len(TESTS) - failed} of {len(TESTS)} tests of the program passed")
    return 1 if failed else 0


if __name__ == "__main__":
    sys.exit(main())
