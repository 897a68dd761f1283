"""Paths of the data: in the repository next to the package, and inside an installed package."""

from __future__ import annotations

import os

PACKAGE = os.path.dirname(os.path.abspath(__file__))
INSTALLED = os.path.isdir(os.path.join(PACKAGE, "sessions"))
# The folder of clients/, fuzzed/ and recorded/; session_cache.py has sessions/.
DATA = PACKAGE if INSTALLED else os.path.dirname(PACKAGE)
CLIENTS = os.path.join(DATA, "clients")
# The repository's program; an installed package has none.
PROGRAM = os.path.join(DATA, "..", "release", "hidlog")
