"""The command `hidlog` for processors without a program: check, replay, quiet, live and show, implemented with the
library.

The output is that of the program without `--explain`, byte for byte, including read and write errors. Other options,
such as `--save`, need the program.
"""

from __future__ import annotations

import errno
import os
import re
import sys
from collections.abc import Callable, Iterator
from hashlib import sha256
from io import BufferedReader
from pathlib import Path

from . import logs
from .core import Handle
from .errors import LogError, MissingDependencyError
from .files import open_input, read_input
from .log_lines import MAX_LINE

_COMMANDS: dict[str, Callable[[bytes, bytes], logs.LogResult]] = {
    "check": logs.check,
    "replay": logs.replay,
    "quiet": logs.quiet,
    "live": logs.live,
}
_READ_BYTES = 1 << 16
_TOO_LONG, _READ = 2, 4
_REFUSED = 2
# A line of a snapshot's checksum file, and the error if it does not match.
_CHECKSUM_FILE = re.compile(rb"[0-9a-fA-F]{64} [0-9a-fA-F]{16}\n")
_DAMAGED_MESSAGE = "its bytes don't match its .hidlog-sum: restore it, or remove the .hidlog-sum"


def is_supported(words: list[str]) -> bool:
    """Returns whether the library supports these arguments."""
    return _parse_arguments(words) is not None


def _parse_arguments(words: list[str]) -> tuple[str, str | None, bool, list[str]] | None:
    """Returns the command, the path of the snapshot, whether to explain, and the paths of the logs, or None if the
    arguments are not supported."""
    if not words or words[0] not in (*_COMMANDS, "show"):
        return None
    command, load, explain, files, rest = words[0], None, False, [], list(words[1:])
    while rest:
        word = rest.pop(0)
        if word == "--load" and rest and command != "show":
            load = rest.pop(0)
        elif word.startswith("--load=") and command != "show":
            load = word[len("--load=") :]
        elif word == "--explain" and command == "show":
            explain = True
        elif word == "--plain" or not word.startswith("-") or word == "-":
            files += [] if word == "--plain" else [word]
        else:
            return None
    return None if len(files) > 1 and command != "check" else (command, load, explain, files or ["-"])


def _format_error(result: logs.LogResult) -> str:
    """Returns the program's error message for a result."""
    if result.status == _REFUSED:
        return f"snapshot refused: {result.fault}"
    try:
        result.raise_for_fault()
    except LogError as wrong:
        return str(wrong)
    return ""


def _print_error(text: str, status: int, front: str = "") -> int:
    sys.stdout.flush()
    print(f"{front or 'hidlog: '}{text}", file=sys.stderr)
    return status


class _DamagedError(OSError):
    """The snapshot does not match its checksums."""


def _read_snapshot(path: str) -> bytes:
    """Returns the bytes of a snapshot. If there are checksums, they must match (docs/use/LOG_FORMAT.md)."""
    for _ in range(2):  # a program may replace both files between the two reads
        data = read_input(Path(path))
        try:
            sums = read_input(Path(f"{path}.hidlog-sum"))
        except OSError as error:
            if error.errno in (errno.ENOENT, errno.ENAMETOOLONG):
                return data
            raise
        lines = sums.splitlines(keepends=True)
        if len(lines) not in (1, 2) or not all(map(_CHECKSUM_FILE.fullmatch, lines)):
            raise OSError(errno.EINVAL, "the checksum file has no valid checksum", path)
        number = b" %016x\n" % os.stat(path).st_ino
        # The checksums do not apply to a newer snapshot.
        if not sums.endswith(number) or sha256(data).hexdigest().encode() + number in lines:
            return data
    raise _DamagedError(path)


class _LogReader:
    """A log that is read in pieces, up to the end or a read error."""

    def __init__(self, name: str):
        self.has_failed = False
        self._file: BufferedReader | None = None
        try:
            self._file = open_input(name)
        except OSError:
            if name != "-":  # errors of standard input occur when it is read
                raise
            self.has_failed = True

    def iter_pieces(self) -> Iterator[bytes]:
        """Yields the pieces as they arrive, and closes the log."""
        if self._file is None:
            return
        try:
            with self._file:
                while piece := self._file.read1(_READ_BYTES):
                    yield piece
        except OSError:
            self.has_failed = True


def run(words: list[str]) -> int:
    """Runs a command, and returns the exit status."""
    read = _parse_arguments(words)
    if read is None:
        raise MissingDependencyError(
            "the hidlog program is missing; the library supports only check, replay, quiet, live and show"
        )
    command, load, explain, files = read
    status = 0
    for file in files:
        try:
            log = _LogReader(file)
        except OSError:
            status = max(status, _print_error("cannot read log", 1))
            continue
        try:
            snapshot = _read_snapshot(load) if load is not None else b""
        except OSError as error:
            more = f"\n  {_DAMAGED_MESSAGE}" if isinstance(error, _DamagedError) else ""
            return _print_error(f"cannot read snapshot{more}", _REFUSED)
        front = f"{file}: " if len(files) > 1 else ""
        one = _run_live(log, snapshot) if command == "live" else _run_on_log(command, log, snapshot, explain, front)
        status = max(status, one)
    return status


def _run_on_log(command: str, log: _LogReader, snapshot: bytes, explain: bool, front: str) -> int:
    """Runs a command on one complete log."""
    data = b"".join(log.iter_pieces())
    if log.has_failed:
        data = data[: data.rfind(b"\n") + 1]
    result = logs.show(data, explain=explain) if command == "show" else _COMMANDS[command](data, snapshot)
    text = result.text
    if log.has_failed and not result.status:
        failed = logs.LogResult(b"", 1, _READ, data.count(b"\n") + 1, 0)
        # The last line of the output is left out, since it has the totals, or how much of the log matched.
        ends = {"check": b"", "replay": text[: text.rfind(b"\n= ") + 1] if b"\n= " in text else b""}
        result = failed._replace(text=ends.get(command, text))
    sys.stdout.buffer.write(front.encode() * bool(result.text) + result.text)
    return _print_error(_format_error(result), result.status, front) if result.status else 0


def _run_live(log: _LogReader, snapshot: bytes) -> int:
    """Replies to each line before the next line is read."""
    refused = logs.live(b"", snapshot)
    if refused.status:
        return _print_error(_format_error(refused), refused.status)
    key, rest, number, result = Handle(snapshot), b"", 0, logs.LogResult(b"", 0, 0, 0, 0)
    for piece in log.iter_pieces():
        *lines, rest = (rest + piece).split(b"\n")
        if len(rest) > MAX_LINE:
            lines.append(rest)
        for number, line in enumerate(lines, number + 1):
            result = _play_line(key, number, line)
            if result.status:
                return _print_error(_format_error(result), result.status)
        sys.stdout.flush()
    if log.has_failed:
        return _print_error(_format_error(logs.LogResult(b"", 1, _READ, number + 1, 0)), 1)
    if rest:
        result = _play_line(key, number + 1, rest)
        if result.status:
            return _print_error(_format_error(result), result.status)
    sys.stdout.buffer.write(key.counts())
    return 0


def _play_line(key: Handle, number: int, line: bytes) -> logs.LogResult:
    """Passes a line to the key, and writes the reply."""
    if len(line) > MAX_LINE:
        return logs.LogResult(b"", 1, _TOO_LONG, number, 0)
    result, text = key.lines(line + b"\n")
    sys.stdout.buffer.write(text)
    return logs.LogResult(text, result.status, result.error, number, result.packet)
