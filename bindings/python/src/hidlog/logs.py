"""The `hidlog` commands on logs as functions on bytes. They call the C library, and start no program.

    result = replay(Path("registration.log").read_bytes())
    result.raise_for_fault()
    print(result.text.decode())
"""

from __future__ import annotations

from collections.abc import Callable, Iterable, Iterator
from typing import NamedTuple

from . import core
from .errors import LogError, SnapshotError, check_bytes

_LOG_ERRORS = {
    1: "line {line}: not a log line",
    2: "line {line}: longer than 255 bytes",
    3: "line {line}: differs at packet {packet}",
    4: "line {line}: reading failed",
    5: "writing failed",
    6: "too many lines",
}
_SNAPSHOT_ERRORS = {
    1: "it is not a snapshot",
    2: "it has more credentials than the key can hold",
    3: "a credential in it is invalid",
}
_ERROR_BUFFER_TOO_SMALL = 5
# Length in bytes of the parts in which long logs are checked.
_PART_BYTES = 1 << 18


class LogResult(NamedTuple):
    """The output and the result of a command.

    text     the output.
    status   0: success, 1: an error in the log, 2: an invalid snapshot.
    fault    number of the error in the log or snapshot (docs/use/LOG_FORMAT.md), or 0.
    line     line number of the error, from 1, or 0.
    packet   of a mismatch: the packet's number, from 1, or 0.
    """

    text: bytes
    status: int
    fault: int
    line: int
    packet: int

    def raise_for_fault(self) -> LogResult:
        """Raises LogError or SnapshotError unless the command succeeded. Returns self."""
        if self.status == 2:
            raise SnapshotError(f"snapshot refused: {self.fault} ({_SNAPSHOT_ERRORS.get(self.fault, 'unknown')})")
        if self.status:
            raise LogError(_LOG_ERRORS.get(self.fault, "fault {fault}").format(**self._asdict()))
        return self


def _run(command: str, log: bytes, snapshot: bytes | None) -> LogResult:
    """Runs a command on a log that begins with the credentials of a snapshot."""
    data = check_bytes("the log", log)
    begin = b"" if snapshot is None else check_bytes("the snapshot", snapshot)
    return _call_with_buffer(lambda capacity: core.run(command, data, begin, capacity), 2 * len(data))


def _call_with_buffer(call: Callable[[int], tuple[core.Result, bytes]], length: int) -> LogResult:
    """Calls a function with the capacity of a buffer for a text of this length, and again with more capacity while the
    buffer is too small."""
    capacity = length + 4096
    while True:
        result, text = call(capacity)
        if (result.status, result.error) != (1, _ERROR_BUFFER_TOO_SMALL):
            return LogResult(text, result.status, result.error, result.line, result.packet)
        capacity *= 4


def replay(log: bytes, snapshot: bytes | None = None) -> LogResult:
    """Replays a log. Returns the log with the key's response packets."""
    return _run("replay", log, snapshot)


def check(log: bytes, snapshot: bytes | None = None) -> LogResult:
    """Checks that the key sends the packets recorded in the log. The result has the first mismatch, if any."""
    return _run("check", log, snapshot)


def quiet(log: bytes, snapshot: bytes | None = None) -> LogResult:
    """Returns the log's inputs, with ignored ones replaced by ticks."""
    return _run("quiet", log, snapshot)


def iter_valid_parts(pieces: Iterable[bytes]) -> Iterator[bytes]:
    """Yields a log, which is passed in pieces of any length, in parts of whole lines. Raises LogError before a part
    with an invalid line."""
    number, size, held = 0, 0, []
    for piece in pieces:
        held.append(piece)
        size += len(piece)
        if size >= _PART_BYTES:
            text = b"".join(held)
            end = text.rfind(b"\n") + 1 or size  # without a line end the line is too long
            yield _check_part(text[:end], number)
            number += text.count(b"\n", 0, end)
            size, held = size - end, [text[end:]]
    if size:
        yield _check_part(b"".join(held), number)


def _check_part(part: bytes, lines_before: int) -> bytes:
    result = quiet(part)
    result._replace(line=result.line + lines_before).raise_for_fault()
    return part


def live(log: bytes, snapshot: bytes | None = None) -> LogResult:
    """Replays a log. Returns the log with the key's response packets and, after each input, what the key needs."""
    return _run("live", log, snapshot)


def show(log: bytes, *, explain: bool = False) -> LogResult:
    """Returns the log in readable form: the fixed text or, with `explain`, with names, fields and comments. On an
    error, the text has the lines before it."""
    data = check_bytes("the log", log)
    return _call_with_buffer(lambda capacity: core.show(data, explain, capacity), 2 * len(data))


def transactions(log: bytes) -> LogResult:
    """Returns to which transaction each line belongs, and how each transaction ends (hidlog_transactions of
    hidlog.h)."""
    data = check_bytes("the log", log)
    return _call_with_buffer(lambda capacity: core.transactions(data, capacity), len(data) // 5)
