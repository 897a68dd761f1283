"""Exporting a log to pcapng and importing it gives the same log."""

from __future__ import annotations

import itertools
import subprocess
import sys
from pathlib import Path

import pytest

import hidlog
from hidlog import logs
from hidlog.captures import read, to_pcapng
from hidlog.captures.pcapng_writer import iter_pcapng
from hidlog_conformance.session_cache import sessions_folder

TOP = Path(__file__).resolve().parents[2]
FOLDERS = ("examples", "conformance/recorded", "crates/hidlog_cli/data", "tests/captures/data", sessions_folder())
TRUNCATED_LOG = TOP / "examples" / "failing" / "truncated.log"
LOGS = sorted(path for folder in FOLDERS for path in (TOP / folder).glob("**/*.log") if path != TRUNCATED_LOG)


def test_each_log_comes_back_as_it_is() -> None:
    assert len(LOGS) > 900
    for path in LOGS:
        log = path.read_bytes()
        (found,) = read(to_pcapng(log))
        assert found.log == log, path
        assert hidlog.check(found.log) == hidlog.check(log)


@pytest.mark.parametrize(
    "log",
    [b"", b"\n", b"#", b"t 18446744073709551615\n", b"> 5 " + b"AB" * 64 + b"\n< " + b"0f" * 64, b"# \xff\n= x\n\nt 1"],
)
def test_odd_logs_come_back(log: bytes) -> None:
    (found,) = read(to_pcapng(log))
    assert found.log == log


def test_a_text_that_is_no_log() -> None:
    with pytest.raises(hidlog.LogError, match="line 49: not a log line"):
        to_pcapng(TRUNCATED_LOG.read_bytes())


@pytest.mark.parametrize("path", [TRUNCATED_LOG, LOGS[0]])
@pytest.mark.parametrize("length", [1, 100, 1 << 20])
def test_a_log_in_pieces(path: Path, length: int, monkeypatch: pytest.MonkeyPatch) -> None:
    """A log that is read in pieces gives the same capture or the same error as the whole log."""
    monkeypatch.setattr(logs, "_PART_BYTES", 300)
    log = path.read_bytes()
    pieces = [log[place : place + length] for place in range(0, len(log), length)]
    error = logs.quiet(log).line
    if error:
        with pytest.raises(hidlog.LogError, match=f"^line {error}: not a log line$"):
            list(iter_pcapng(pieces))
    else:
        assert b"".join(iter_pcapng(pieces)) == to_pcapng(log)


def test_a_line_without_an_end(monkeypatch: pytest.MonkeyPatch) -> None:
    """A line that is too long is rejected before the whole line is read."""
    lines = itertools.count()
    pieces = (b"#" * 1000 for _ in zip(range(10**6), lines))
    with pytest.raises(hidlog.LogError, match="^line 2: longer than 255 bytes$"):
        list(iter_pcapng(itertools.chain([b"t 1\n"], pieces)))
    assert next(lines) < 1000


def test_a_text_that_is_no_log_leaves_the_older_file(tmp_path: Path) -> None:
    """If an invalid line comes after a part of the capture was written, the older file is kept."""
    log, old = tmp_path / "log", tmp_path / "old.pcapng"
    log.write_bytes(b"t 1\n" * 200_000 + b"nothing\n")
    old.write_bytes(b"old")
    words = [sys.executable, "-m", "hidlog", "export", str(log), "-o", str(old)]
    ran = subprocess.run(words, capture_output=True, check=False)
    assert (ran.returncode, ran.stdout) == (2, b"")
    assert ran.stderr == f"hidlog export: {log}: line 200001: not a log line\n".encode()
    assert old.read_bytes() == b"old" and sorted(path.name for path in tmp_path.iterdir()) == ["log", "old.pcapng"]
