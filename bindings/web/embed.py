"""Writes the scripts with the viewer's data, compressed and in base64.

    embed.py example LOG              the example log, and the name of the module in dist/security_key.js
    embed.py sources FOLDER NAME ..   the sources of the page in FOLDER, for its worker and for saving it
"""

from __future__ import annotations

import json
import sys
from pathlib import Path

from pack import to_base64_lines, pack_to_lines

WEB = Path(__file__).parent


def write_example(log_name: str) -> None:
    """Prints the script with the example."""
    print("// Made by build.sh: the module in dist/security_key.js, and examples/service_registration.log in base64.")
    print("globalThis.HIDLOG_WASM = globalThis.hidlogKey.packedModule;")
    print(f"globalThis.HIDLOG_EXAMPLE = {to_base64_lines(Path(log_name).read_bytes())};")


def write_sources(folder: str, *names: str) -> None:
    """Prints the script with the sources."""
    texts = {name: Path(folder, name).read_text(encoding="utf-8") for name in names}
    print("// Made by build.sh: the files of the page as JSON, packed, in base64, for its worker and for Save as page.")
    print(f"globalThis.HIDLOG_SOURCES = {pack_to_lines(json.dumps(texts).encode(), WEB / 'dist/sources.js')};")


if __name__ == "__main__":
    if sys.argv[1] == "example":
        write_example(sys.argv[2])
    else:
        write_sources(sys.argv[2], *sys.argv[3:])
