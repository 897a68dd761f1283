"""Imports modules of the conformance tests from this package, from a clone, or from an installed package."""

from __future__ import annotations

import importlib
import sys
from pathlib import Path
from types import ModuleType

from ..errors import MissingDependencyError


def load_module(name: str) -> ModuleType:
    """Returns a module of hidlog_conformance."""
    here = Path(__file__).resolve()
    for folder in (here.parents[1] / "corpus", here.parents[5] / "conformance"):
        if (folder / "hidlog_conformance").is_dir() and str(folder) not in sys.path:
            sys.path.append(str(folder))
            break
    try:
        return importlib.import_module(f"hidlog_conformance.{name}")
    except ImportError as error:
        raise MissingDependencyError(
            f"the modules of the conformance tests are missing: {error}; reinstall the package"
        ) from None
