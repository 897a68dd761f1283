#!/usr/bin/env python3
"""Compares the wheel of bindings/python/wheel.py with hatchling's: wheels_same.py OWN HATCHLING

Both must have the same files and bytes, version, requirements, tags and entry points. Exit status: 1 if they differ.
"""

from __future__ import annotations

import configparser
import email
import sys
import zipfile
from pathlib import Path

METADATA_FIELDS = ("Name", "Version", "Summary", "Requires-Python", "Requires-Dist", "Provides-Extra")
WHEEL_FIELDS = ("Wheel-Version", "Root-Is-Purelib", "Tag")


def read_fields(text: str, names: tuple[str, ...]) -> dict[str, list[str]]:
    """Returns these fields of METADATA or WHEEL, sorted."""
    message = email.message_from_string(text)
    return {
        name: sorted(value.replace('"', "'").replace(" ; ", "; ") for value in message.get_all(name, []))
        for name in names
    }


def read_entry_points(text: str) -> dict[str, dict[str, str]]:
    parser = configparser.ConfigParser()
    parser.read_string(text)
    return {name: dict(parser[name]) for name in parser.sections()}


def read_wheel(path: Path) -> dict[str, object]:
    """Returns the parts of a wheel to compare, by name."""
    found: dict[str, object] = {"the name": path.name}
    with zipfile.ZipFile(path) as archive:
        assert archive.testzip() is None
        for entry in archive.infolist():
            data, name = archive.read(entry), entry.filename.rpartition("/")[2]
            if name == "METADATA":
                found[entry.filename] = read_fields(data.decode(), METADATA_FIELDS)
            elif name == "WHEEL":
                found[entry.filename] = read_fields(data.decode(), WHEEL_FIELDS)
            elif name == "entry_points.txt":
                found[entry.filename] = read_entry_points(data.decode())
            elif name == "RECORD":
                found[entry.filename] = sorted(line.split(",")[0] for line in data.decode().splitlines())
            else:
                found[entry.filename] = data, bool(entry.external_attr >> 16 & 0o100)
    return found


def main() -> int:
    if len(sys.argv) != 3:
        print((__doc__ or "").strip(), file=sys.stderr)
        return 2
    own, other = read_wheel(Path(sys.argv[1])), read_wheel(Path(sys.argv[2]))
    different = sorted(name for name in own.keys() | other.keys() if own.get(name) != other.get(name))
    for name in different:
        print(f"{name} differs: {str(own.get(name, 'missing'))[:300]} / {str(other.get(name, 'missing'))[:300]}")
    print(f"{len(own)} files and facts of the wheel, {len(different)} differ from hatchling's")
    return 1 if different or len(own) < 20 else 0


if __name__ == "__main__":
    sys.exit(main())
