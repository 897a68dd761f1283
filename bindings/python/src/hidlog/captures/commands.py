"""The commands `hidlog import` and `hidlog export`."""

from __future__ import annotations

import argparse
import re
import sys
from collections.abc import Iterator
from pathlib import Path

from ..entry_point import STATUS_FAILED
from ..errors import HidlogError
from ..files import display_name, open_input, read_pieces, refuse_input, write_atomically
from .log_writer import iter_log
from .pcapng_writer import iter_pcapng
from .reader import Capture, read_file
from .source import CaptureError

_IMPORT_DESCRIPTION = """Convert a capture to a session log: pcap and pcapng of Linux's usbmon and of Windows's USBPcap, usbmon's
text, libfido2's FIDO_DEBUG, python-fido2's logging, Chromium's device log, strace. If a capture has several keys, lists
them; select one with --key. docs/use/CAPTURES.md explains how to record."""
_FRONT = 1 << 16
_EXPORT_DESCRIPTION = """Convert a session log to pcapng, for Wireshark and tshark. With the dissector (hidlog export
--dissector-path) they reassemble messages and name their contents."""


def import_capture(words: list[str]) -> int:
    """Runs `hidlog import`. Returns 0, or 2 on a usage error or an unreadable capture."""
    parser = argparse.ArgumentParser(prog="hidlog import", description=_IMPORT_DESCRIPTION)
    parser.add_argument("file", metavar="FILE", help="the capture file, or - for standard input")
    parser.add_argument("--list", action="store_true", help="list the keys in the capture and exit")
    parser.add_argument("--key", type=int, metavar="N", help="index of the key, if the capture has several (1, 2, ...)")
    parser.add_argument("--ticks", action="store_true", help="add a tick before each packet the key sent later")
    parser.add_argument("--packets-only", action="store_true", help="only packets and ticks; do not infer replies")
    parser.add_argument("-o", "--output", metavar="LOG", help="output file [default: standard output]")
    options = parser.parse_args(words)
    try:
        if options.output is not None:
            refuse_input(Path(options.output), [options.file])
        with open_input(options.file) as file:
            capture = read_file(file)
    except (HidlogError, OSError) as error:
        if isinstance(error, CaptureError) and _is_session_log(options.file):
            error = CaptureError("the file is already a session log: use `hidlog show` or `hidlog judge`")
        return _report_failure("import", options.file, error)
    if options.list:
        print("".join(f"{line}\n" for line in _name_logs(capture)), end="")
        return 0
    number = options.key or (1 if len(capture.streams) == 1 else 0)
    if not 1 <= number <= len(capture.streams):
        wrong = f"no key {options.key}" if options.key is not None else "the capture has several keys"
        print(f"hidlog import: {wrong}; select a key with --key 1 to --key {len(capture.streams)}", file=sys.stderr)
        print("".join(f"  {line}\n" for line in _name_logs(capture)), end="", file=sys.stderr)
        return STATUS_FAILED
    stream = capture.streams[number - 1]
    for note in [*stream.notes, *capture.notes]:
        print(f"hidlog import: note: {note}", file=sys.stderr)
    log = iter_log(stream, capture.form, capture.notes, ticks=options.ticks, derive=not options.packets_only)
    return _write_output("import", options, log)


def _is_session_log(file: str) -> bool:
    """Returns whether a file's first line that is not a comment is a line of a session log."""
    if file == "-" or not Path(file).is_file():
        return False
    with open(file, "rb") as opened:
        lines = opened.read(_FRONT).split(b"\n")
    first = next((line for line in lines if line and not line.startswith(b"#")), b"")
    return re.match(rb"(?:[>tpks] \d+(?: |$)|< [0-9a-f]{128}$)", first) is not None


def _name_logs(capture: Capture) -> list[str]:
    lines = []
    for number, stream in enumerate(capture.streams, 1):
        sent = sum(bool(packet.data) and packet.sent for packet in stream.packets)
        received = sum(bool(packet.data) and not packet.sent for packet in stream.packets)
        lines.append(f"{number} {stream.name}: {sent} packets to the key, {received} from it")
    return lines


def _find_dissector() -> Path:
    """Returns the path of the dissector, in an installed package or in a clone."""
    here = Path(__file__).resolve()
    packaged = here.with_name("ctaphid.lua")
    return packaged if packaged.is_file() else here.parents[5] / "dissector" / packaged.name


def export_log(words: list[str]) -> int:
    """Runs `hidlog export`. Returns 0, or 2 on a usage error or an unreadable log."""
    parser = argparse.ArgumentParser(prog="hidlog export", description=_EXPORT_DESCRIPTION)
    parser.add_argument(
        "file", metavar="LOG", nargs="?", default="-", help="log file [default: standard input, also -]"
    )
    parser.add_argument("--pcapng", action="store_true", help="write pcapng (the only format)")
    parser.add_argument(
        "--dissector-path", action="store_true", help="print the path of the Wireshark dissector and exit"
    )
    parser.add_argument("-o", "--output", metavar="FILE", help="output file [default: standard output]")
    options = parser.parse_args(words)
    if options.dissector_path:
        print(_find_dissector())
        return 0
    if options.output is None and sys.stdout.isatty():
        print("hidlog export: refusing to write pcapng to a terminal; use -o FILE", file=sys.stderr)
        return STATUS_FAILED
    try:
        if options.output is not None:
            refuse_input(Path(options.output), [options.file])
    except (HidlogError, OSError) as error:
        return _report_failure("export", options.file, error)
    return _write_output("export", options, iter_pcapng(read_pieces(options.file)))


class _InputError(Exception):
    """The input is invalid or cannot be read."""

    def __init__(self, reason: Exception):
        super().__init__(str(reason))
        self.reason = reason


def _guard_input(pieces: Iterator[bytes]) -> Iterator[bytes]:
    """Yields pieces of the output. Converts an error in the input to an InputError."""
    try:
        yield from pieces
    except (HidlogError, OSError) as error:
        raise _InputError(error) from error


def _report_failure(command: str, name: str, error: Exception) -> int:
    reason = error.strerror if isinstance(error, OSError) and error.strerror else str(error)
    print(f"hidlog {command}: {display_name(name)}: {reason}", file=sys.stderr)
    return STATUS_FAILED


def _write_output(command: str, options: argparse.Namespace, pieces: Iterator[bytes]) -> int:
    """Writes the output to a file or to standard output. Returns the exit status."""
    guarded = _guard_input(pieces)
    try:
        if options.output is None:
            sys.stdout.buffer.writelines(guarded)
        else:
            write_atomically(Path(options.output), guarded, [options.file])
    except _InputError as error:
        return _report_failure(command, options.file, error.reason)
    except (HidlogError, OSError) as error:
        if options.output is None:
            raise
        return _report_failure(command, options.output, error)
    return 0
