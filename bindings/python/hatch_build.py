"""Build hook for hatchling: adds the files of release_files.py to the wheel and the sdist."""

from __future__ import annotations

import sys
import tempfile
from pathlib import Path
from typing import Any

from hatchling.builders.hooks.plugin.interface import BuildHookInterface

# hatchling may run this file from any directory.
sys.path.insert(0, str(Path(__file__).resolve().parent))

from release_files import detect_processor, find_tag, list_sdist_files, list_wheel_files, version

__all__ = ["CustomBuildHook", "version"]


class CustomBuildHook(BuildHookInterface[Any]):
    """Adds the files of the release."""

    def initialize(self, version: str, build_data: dict[str, Any]) -> None:
        """Adds the files that are not sources to a target."""
        added: dict[Path, str] = {}
        self._folder = tempfile.TemporaryDirectory()
        if self.target_name == "sdist":
            added = list_sdist_files(Path(self._folder.name))
        elif version != "editable":
            processor = detect_processor()
            added = list_wheel_files(processor, Path(self._folder.name))
            build_data["pure_python"], build_data["tag"] = False, find_tag(processor)
        build_data["force_include"].update({str(path): name for path, name in added.items()})
