"""The snapshot beside a recording (`NAME.log.snapshot` beside `NAME.log`), and checksums of saved keys, which detect
damaged files.

A recording that began without credentials has no snapshot. A saved key without a checksum is loaded unchecked.
"""

from __future__ import annotations

import json
from collections.abc import Mapping
from hashlib import sha256
from pathlib import Path
from typing import Any

from .errors import ArgumentError
from .files import write_private

_CHECKSUM_MEMBER = "sha256"


def snapshot_path(log: Path) -> Path:
    """Returns the path of the snapshot with which a log began."""
    return log.with_name(f"{log.name}.snapshot")


def read_snapshot_file(log: Path) -> bytes:
    """Returns the snapshot with which a log began. Empty if the log began without credentials."""
    path = snapshot_path(log)
    return path.read_bytes() if path.is_file() else b""


def write_recording(log: Path, data: bytes, snapshot: bytes) -> None:
    """Writes a log and its snapshot, both with mode 0600. The snapshot is written before the log, which needs it."""
    if snapshot:
        write_private(snapshot_path(log), snapshot)
    write_private(log, data)
    if not snapshot:
        snapshot_path(log).unlink(missing_ok=True)


def add_checksum(members: Mapping[str, Any]) -> dict[str, Any]:
    """Returns the members of a saved key, with their checksum."""
    return {**members, _CHECKSUM_MEMBER: _compute_checksum(members)}


def verify_checksum(path: str, members: Mapping[str, Any]) -> None:
    """Raises ArgumentError if the members of a saved key do not match their checksum."""
    if _CHECKSUM_MEMBER in members and members[_CHECKSUM_MEMBER] != _compute_checksum(members):
        raise ArgumentError(
            f"{path} is damaged or was edited: it does not match its member {_CHECKSUM_MEMBER}; "
            f"remove that member to load it as it is"
        )


def _compute_checksum(members: Mapping[str, Any]) -> str:
    summed = {name: value for name, value in members.items() if name != _CHECKSUM_MEMBER}
    return sha256(json.dumps(summed, sort_keys=True, separators=(",", ":")).encode()).hexdigest()
