"""`hidlog mermaid [FILE]`: prints a session as a Mermaid sequence diagram, which code hosts render in ```mermaid
blocks."""

from __future__ import annotations

import argparse
import json
import os
import re
import subprocess
import sys
from collections.abc import Iterable, Iterator
from itertools import chain
from typing import Any

from .entry_point import STATUS_FAILED
from .errors import HidlogError
from .subprocess_key import find_program

Json = dict[str, Any]
# Characters that have a meaning in Mermaid's texts.
_SPECIAL_CHARACTERS = re.compile(r"[#;:<>{}\[\]\"`\n]")
_NAMED_COMMANDS = ("INIT", "PING", "ERROR")
_READ_BYTES = 1 << 16


def _escape(*parts: object) -> str:
    """Joins parts to a text, with special characters escaped."""
    text = " ".join(str(part) for part in parts if part not in (None, ""))
    return _SPECIAL_CHARACTERS.sub(lambda found: f"#{ord(found[0])};", text) or "-"


def _iter_lines(entries: Iterable[Json]) -> Iterator[str]:
    """Yields the lines of a diagram for the objects of `hidlog show --json`."""
    statuses: dict[str, Any] = {}
    for entry in entries:
        kind, name, channel = entry.get("kind"), entry.get("name"), entry.get("channel")
        is_host = entry.get("from") == "host"
        if kind == "packet" and is_host and name not in (None, "CBOR"):
            yield f"host->>key: {_escape(channel, name)}"
        elif kind == "request":
            yield f"host->>key: {_escape(channel, name, entry.get('rpId'))}"
        elif kind == "packet" and name == "KEEPALIVE" and statuses.get(str(channel)) != entry.get("code"):
            statuses[str(channel)] = entry.get("code")
            yield f"key-->>host: {_escape('KEEPALIVE', entry.get('codeName'))}"
        elif kind == "presence":
            yield f"user->>key: {_escape(entry.get('reply'), 'at', entry.get('timeMs', entry.get('moment')), 'ms')}"
        elif kind == "packet" and not is_host and name in _NAMED_COMMANDS:
            yield f"key->>host: {_escape(name, entry.get('codeName'))}"
        elif kind == "answer":
            statuses.pop(str(channel), None)
            yield f"key->>host: {_escape(entry.get('statusName'))}"


def iter_mermaid(entries: Iterable[Json]) -> Iterator[str]:
    """Yields the lines of a sequence diagram for the objects of `hidlog show --json`."""
    yield from ("sequenceDiagram\n", "    participant host\n", "    participant key\n", "    participant user\n")
    for line in _iter_lines(entries):
        yield f"    {line}\n"


def to_mermaid(entries: Iterable[Json]) -> str:
    """Returns a sequence diagram for the objects of `hidlog show --json`."""
    return "".join(iter_mermaid(entries))


def _read_lines(number: int) -> Iterator[bytes]:
    """Yields the complete lines of a pipe. The last line may be incomplete if the program that writes failed. A failing
    read is an error; for a BufferedReader, EAGAIN is the end."""
    rest = b""
    while piece := os.read(number, _READ_BYTES):
        *lines, rest = (rest + piece).split(b"\n")
        yield from lines


def main(args: list[str] | None = None) -> int:
    """Runs `hidlog mermaid`."""
    parser = argparse.ArgumentParser(
        prog="hidlog mermaid", description="Print a session as a Mermaid sequence diagram."
    )
    parser.add_argument("file", nargs="?", default="-", help="log file [default: standard input]")
    options = parser.parse_args(args)
    with subprocess.Popen([find_program(), "show", "--json", options.file], stdout=subprocess.PIPE) as ran:
        assert ran.stdout
        entries = map(json.loads, _read_lines(ran.stdout.fileno()))
        first = next((entry for entry in entries if entry.get("kind") != "fault"), None)
        if first is not None or not ran.wait():
            sys.stdout.writelines(iter_mermaid(chain([first or {}], entries)))
    if ran.returncode < 0:
        raise HidlogError(f"hidlog show was killed by signal {-ran.returncode}")
    return STATUS_FAILED if ran.returncode else 0
