"""The command and the function `judge`: check a recorded session against CTAP 2.1.

    for finding in judge(log):
        print(finding.line, finding.side, finding.level, finding.section, finding.expected, finding.actual)

The rules are those of the conformance tests, whose modules are part of the package.
"""

from __future__ import annotations

import argparse
import gc
import sys
from collections.abc import Callable, Iterable, Iterator
from io import BytesIO
from itertools import chain
from typing import Any, NamedTuple

from .captures import conformance
from .captures.pcap import is_capture
from .captures.reader import Capture, read_capture
from .captures.source import CaptureError
from .captures.decoders import BYTE_ORDER_MARKS, Utf16Text
from .captures.log_writer import iter_log
from .entry_point import STATUS_FAILED
from .errors import HidlogError, LogError, check_bytes
from .files import display_name, read_pieces
from .quiet_parts import InvalidLineError, QuietParts

_DESCRIPTION = """Check recorded sessions, or captures, against CTAP 2.1. Reports each violation with its line, section,
and expected and actual behavior. Exit status: 1 on a MUST violation, 2 on invalid arguments or input."""
_LINE_FORMATS = (
    "'> TIME HEX' and '< HEX' with a packet of 64 bytes, 't TIME', a reply (p, k, s), a " "comment (#) or totals (=)"
)
# Prefixes of the lines of a session log.
_LINE_STARTS = (b"> ", b"< ", b"t ", b"p ", b"k ", b"s ", b"#", b"=")
_SHOWN, _FRONT = 60, 1 << 20
# The number of new objects after which garbage is collected; those of some hundred transactions take 2 MB.
_COLLECTED_OBJECTS = 20_000


class CheckedSession(NamedTuple):
    """A checked session: the name, and the `JudgedRecording` of judged_log with the findings."""

    name: str
    recording: Any


def judge(log: bytes) -> list[Any]:
    """Returns the violations in a log: objects with line, side ("key", "host"), level ("must", "should"), section,
    rule, expected and actual."""
    data = check_bytes("the log", log)
    pieces = (data[start : start + _FRONT] for start in range(0, len(data), _FRONT))
    return list(_check_recording(pieces).findings)


def _check_recording(pieces: Iterable[bytes], prepare: Callable[[list[Any]], None] | None = None) -> Any:
    """Checks a log, which is passed in pieces of any length. `prepare` is called with packets some time before they are
    checked."""
    module = conformance.load_module("judged_log")
    parts = QuietParts(pieces)
    return module.judge_parts(parts, parts.list_owners, prepare)


def _check_long_recording(pieces: Iterable[bytes]) -> Any:
    """Checks a log as `_check_recording` does. If it is long, a second process verifies its signatures, and garbage is
    collected less often."""
    thresholds = gc.get_threshold()
    gc.set_threshold(_COLLECTED_OBJECTS, *thresholds[1:])
    try:
        with conformance.load_module("verify_ahead").AheadVerifier() as verifier:
            return _check_recording(pieces, verifier.prepare)
    finally:
        gc.set_threshold(*thresholds)


def main(args: list[str]) -> int:
    """Runs `hidlog judge`."""
    parser = argparse.ArgumentParser(prog="hidlog judge", description=_DESCRIPTION)
    parser.add_argument(
        "files", metavar="FILE", nargs="*", default=["-"], help="log or capture files, or - for standard input"
    )
    parser.add_argument("--format", choices=("text", "json", "junit"), default="text", help="output format")
    parser.add_argument("--side", choices=("key", "host"), help="report findings for this side only")
    parser.add_argument("--warnings-as-errors", action="store_true", help="exit with 1 on SHOULD violations, too")
    options = parser.parse_args(args)
    judged: list[CheckedSession] = []
    status = 0
    for file in options.files:
        try:
            judged += _check_file(file)
        except (HidlogError, OSError) as error:
            reason = error.strerror if isinstance(error, OSError) and error.strerror else str(error)
            print(f"hidlog judge: {display_name(file)}: {reason}", file=sys.stderr)
            status = STATUS_FAILED
    for session in judged:
        if options.side:
            findings = [finding for finding in session.recording.findings if finding.side == options.side]
            session.recording.findings = findings
    if judged:
        sys.stdout.write(conformance.load_module("judged_report").WRITERS[options.format](judged))
    errors = ("must", "should") if options.warnings_as_errors else ("must",)
    return status or int(any(finding.level in errors for session in judged for finding in session.recording.findings))


def _check_file(file: str) -> list[CheckedSession]:
    """Checks a file, which is a session log or a capture. In a capture, checks the session of each key."""
    pieces = read_pieces(file)
    front = _read_front(pieces)
    name, sessions = display_name(file), []
    if _is_log(front):
        sessions.append(CheckedSession(name, _check_log(chain([front], pieces))))
    else:
        capture = _read_capture(front + b"".join(pieces))
        for stream in capture.streams:
            title = name if len(capture.streams) == 1 else f"{name}: {stream.name}"
            log = iter_log(stream, capture.form, capture.notes)
            sessions.append(CheckedSession(title, _check_long_recording(log)))
    if not any(session.recording.walk.packets for session in sessions):
        raise LogError("the recording has no packets")
    return sessions


def _read_front(pieces: Iterator[bytes]) -> bytes:
    """Reads the start of a file. A file in UTF-16 is read completely and converted to UTF-8."""
    front = next(pieces, b"")
    while len(front) < _FRONT and (piece := next(pieces, b"")):
        front += piece
    if front.startswith(BYTE_ORDER_MARKS):
        data = front + b"".join(pieces)
        front = Utf16Text(BytesIO(data)).read(2 * len(data)).replace(b"\r\n", b"\n")
    return front


def _read_first_line(data: bytes) -> bytes:
    """Returns a file's first line that is not a comment."""
    lines = (line for line in data[:_FRONT].split(b"\n") if line and not line.startswith(b"#"))
    return next(lines, b"# a log without inputs")


def _is_binary(data: bytes) -> bool:
    return is_capture(data) or b"\0" in data[:4096]


def _is_log(data: bytes) -> bool:
    """Returns whether a file's first line that is not a comment is a line of a session log."""
    return not _is_binary(data) and _read_first_line(data).startswith(_LINE_STARTS)


def _read_capture(data: bytes) -> Capture:
    """Reads a capture. For a text in another format, the error names the formats of logs and captures."""
    try:
        return read_capture(data)
    except CaptureError as error:
        if _is_binary(data):
            raise
        raise LogError(
            f"not a session log, which begins with {_LINE_FORMATS}; got {_describe_line(_read_first_line(data))}; {error}"
        ) from None


def _describe_line(line: bytes) -> str:
    return ascii(line[:_SHOWN].decode("utf-8", "replace")) + (" .." if len(line) > _SHOWN else "")


def _check_log(pieces: Iterable[bytes]) -> Any:
    """Checks a session log. For an invalid line, the error names the expected forms of a line."""
    try:
        return _check_long_recording(pieces)
    except InvalidLineError as error:
        if not str(error).endswith(": not a log line"):
            raise
        if error.line.endswith(b"\r"):
            raise LogError(f"{error}: the line ends with CR LF; expected LF") from None
        raise LogError(f"{error}: expected {_LINE_FORMATS}; got {_describe_line(error.line)}") from None
