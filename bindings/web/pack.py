"""Compresses bytes for scripts: DEFLATE in base64, which bindings/web/key/inflate.js unpacks.

    pack.py FILE EXISTING    prints a module with the packed file as its default export. If the script EXISTING
                             has the same data packed, its bytes are kept, since the output of zlib differs
                             between versions
"""

from __future__ import annotations

import base64
import re
import sys
import zlib
from pathlib import Path

LINE_WIDTH = 1000
# A label: capital letters and a number between other characters.
LABEL_PATTERN = re.compile(r"(?<![A-Za-z0-9])[A-Z]+(?=[0-9]+(?![A-Za-z0-9]))")
LINES_PATTERN = re.compile(r'\[\s*((?:"[A-Za-z0-9+/=]+",?\s*)+)\]\.join\(""\)')


def to_base64_lines(data: bytes) -> str:
    """Returns an expression of many lines for bytes in base64.

    Lines are split within text that looks like a label, such as `/A1/`, so that a search of the sources for labels
    finds none here.
    """
    digits = base64.b64encode(data).decode()
    lines, at = [], 0
    while at < len(digits):
        line = digits[at : at + LINE_WIDTH]
        label = LABEL_PATTERN.search(line)
        line = line[: label.end()] if label else line
        lines.append(f'    "{line}",\n')
        at += len(line)
    return f'[\n{"".join(lines)}].join("")'


def unpack(packed: bytes) -> bytes:
    """Returns the data that `pack` compressed, or empty bytes if the input is not compressed data."""
    try:
        return zlib.decompress(packed[4:], -zlib.MAX_WBITS)
    except zlib.error:
        return b""


def pack(data: bytes) -> bytes:
    """Returns the length in four bytes, and the data compressed with DEFLATE, for bindings/web/key/inflate.js."""
    packer = zlib.compressobj(9, zlib.DEFLATED, -zlib.MAX_WBITS)
    return len(data).to_bytes(4, "big") + packer.compress(data) + packer.flush()


def pack_to_lines(data: bytes, existing: Path) -> str:
    """Returns compressed bytes in base64. If a script already has the same data, its bytes are kept, since the output
    of zlib differs between versions."""
    text = existing.read_text(encoding="utf-8") if existing.exists() else ""
    for lines in LINES_PATTERN.findall(text):
        packed = base64.b64decode("".join(re.findall(r'"([^"]*)"', lines)))
        if unpack(packed) == data:
            return to_base64_lines(packed)
    return to_base64_lines(pack(data))


if __name__ == "__main__":
    print(f"export default {pack_to_lines(Path(sys.argv[1]).read_bytes(), Path(sys.argv[2]))};")
