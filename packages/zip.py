#!/usr/bin/env python3
"""Creates a reproducible zip of all files in a directory: packages/zip.py DIR FILE

The timestamp of all files is SOURCE_DATE_EPOCH.
"""

from __future__ import annotations

import os
import sys
import time
import zipfile
from pathlib import Path


def main() -> int:
    words = sys.argv[1:]
    if len(words) != 2 or not Path(words[0]).is_dir():
        print((__doc__ or "").strip(), file=sys.stderr)
        return 2
    folder, moment = Path(words[0]), time.gmtime(int(os.environ.get("SOURCE_DATE_EPOCH", "315532800")))
    with zipfile.ZipFile(words[1], "w", zipfile.ZIP_DEFLATED) as archive:
        for path in sorted(path for path in folder.rglob("*") if path.is_file()):
            entry = zipfile.ZipInfo(str(path.relative_to(folder)), moment[:6])
            entry.external_attr = 0o644 << 16
            archive.writestr(entry, path.read_bytes(), zipfile.ZIP_DEFLATED, 9)
    return 0


if __name__ == "__main__":
    sys.exit(main())
