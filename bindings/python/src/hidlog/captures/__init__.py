"""Reads and writes captures of real keys, as `hidlog import` and `hidlog export` do.

    for stream in read("capture.pcapng"):
        print(stream.name, stream.log)
"""

from __future__ import annotations

from pathlib import Path
from typing import NamedTuple

from .pcapng_writer import to_pcapng
from .reader import read_capture
from .source import CaptureError
from .log_writer import write_log

__all__ = ["CaptureError", "Recorded", "to_pcapng", "read"]


class Recorded(NamedTuple):
    """The session log of one key.

    name    name of the key in the capture.
    log     session log.
    notes   what the capture lacks.
    """

    name: str
    log: bytes
    notes: list[str]


def read(capture: bytes | str | Path, *, ticks: bool = False, derive: bool = True) -> list[Recorded]:
    """Returns the session log of each key in a capture, from its bytes or the path of a file.

    ticks    add a tick before each packet the key sent later.
    derive   infer replies (presence, key pairs, signatures) from packets.
    """
    found = read_capture(capture)
    return [
        Recorded(
            stream.name,
            write_log(stream, found.form, found.notes, ticks=ticks, derive=derive),
            [*stream.notes, *found.notes],
        )
        for stream in found.streams
    ]
