#!/usr/bin/env python3
"""Builds the wheel with only the standard library and pip's own modules: wheel.py DIR

action.yml uses this script, so that building the package downloads nothing. bindings/python/build.sh builds the wheels
of a release with hatchling, and tests/outside.sh compares the two. Prints the path of the wheel.
"""

from __future__ import annotations

import base64
import hashlib
import sys
import tempfile
import zipfile
from importlib import import_module
from pathlib import Path
from typing import Any

from release_files import TOP, detect_processor, find_tag, list_wheel_files, version

LICENCES = ("LICENSE-APACHE", "LICENSE-MIT", "NOTICE")


def read_project() -> dict[str, Any]:
    """Returns the table [project] of pyproject.toml."""
    try:
        toml = import_module("tomllib")
    except ModuleNotFoundError:  # Python 3.9 and 3.10
        toml = import_module("pip._vendor.tomli")
    table: dict[str, Any] = toml.loads((TOP / "pyproject.toml").read_text(encoding="utf-8"))["project"]
    return table


def make_metadata(table: dict[str, Any]) -> str:
    """Returns the file METADATA."""
    lines = ["Metadata-Version: 2.1", f"Name: {table['name']}", f"Version: {version()}"]
    lines += [f"Summary: {table['description']}", f"Requires-Python: {table['requires-python']}"]
    lines += [f"Requires-Dist: {requirement}" for requirement in table["dependencies"]]
    for extra, requirements in table["optional-dependencies"].items():
        lines.append(f"Provides-Extra: {extra}")
        lines += [f"Requires-Dist: {requirement}; extra == '{extra}'" for requirement in requirements]
    return "\n".join(lines) + "\n"


def make_entry_points(table: dict[str, Any]) -> str:
    """Returns the file entry_points.txt."""
    groups = {"console_scripts": table["scripts"], **table["entry-points"]}
    return "\n".join(
        f"[{group}]\n" + "".join(f"{name} = {target}\n" for name, target in entries.items())
        for group, entries in groups.items()
    )


def list_contents(tag: str, folder: Path) -> dict[str, tuple[bytes, int]]:
    """Returns the wheel's files, with their modes, without RECORD."""
    sources = {path: str(path.relative_to(TOP / "src")) for path in (TOP / "src" / "hidlog").rglob("*")}
    files = {**sources, **list_wheel_files(detect_processor(), folder)}
    found = {
        name: (path.read_bytes(), path.stat().st_mode)
        for path, name in files.items()
        if path.is_file() and "__pycache__" not in path.parts
    }
    table, info = read_project(), f"hidlog-{version()}.dist-info"
    tags = [f"Tag: py3-none-{platform}" for platform in tag.split("-")[2].split(".")]
    wheel = [
        "Wheel-Version: 1.0",
        "Generator: wheel.py",
        "Root-Is-Purelib: false",
        *tags,
    ]
    texts = {
        "METADATA": make_metadata(table),
        "WHEEL": "\n".join(wheel) + "\n",
        "entry_points.txt": make_entry_points(table),
    }
    found.update({f"{info}/{name}": (text.encode(), 0o100644) for name, text in texts.items()})
    found.update({f"{info}/licenses/{name}": ((TOP / name).read_bytes(), 0o100644) for name in LICENCES})
    return found


def write_wheel(to: Path) -> Path:
    """Writes the wheel to a directory, and returns its path."""
    tag = find_tag(detect_processor())
    path = to / f"hidlog-{version()}-{tag}.whl"
    record = f"hidlog-{version()}.dist-info/RECORD"
    lines = []
    with tempfile.TemporaryDirectory() as folder, zipfile.ZipFile(path, "w", zipfile.ZIP_DEFLATED) as archive:
        for name, (data, mode) in sorted(list_contents(tag, Path(folder)).items()):
            digest = base64.urlsafe_b64encode(hashlib.sha256(data).digest()).decode().rstrip("=")
            lines.append(f"{name},sha256={digest},{len(data)}\n")
            add_file(archive, name, data, mode)
        add_file(archive, record, ("".join(lines) + f"{record},,\n").encode(), 0o100644)
    return path


def add_file(archive: zipfile.ZipFile, name: str, data: bytes, mode: int) -> None:
    """Adds a file, with its mode."""
    entry = zipfile.ZipInfo(name)
    entry.external_attr, entry.compress_type = mode << 16, zipfile.ZIP_DEFLATED
    archive.writestr(entry, data)


def main() -> int:
    if len(sys.argv) != 2 or not Path(sys.argv[1]).is_dir():
        print((__doc__ or "").strip(), file=sys.stderr)
        return 2
    print(write_wheel(Path(sys.argv[1])))
    return 0


if __name__ == "__main__":
    sys.exit(main())
