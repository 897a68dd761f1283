"""The version of the package, which is that of its release."""

from __future__ import annotations

from pathlib import Path


def version() -> str:
    """Returns the version in the file BUILD, of the package or of a clone's release/."""
    here = Path(__file__).resolve().parent
    for path in (here / "BUILD", *(folder / "release" / "BUILD" for folder in list(here.parents)[3:4])):
        if path.is_file():
            lines = path.read_text(encoding="utf-8").splitlines()
            return next(line[len("version: ") :] for line in lines if line.startswith("version: "))
    raise ImportError(f"{here / 'BUILD'} is missing; reinstall the package")
