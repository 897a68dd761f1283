"""Runs the command: python3 -m hidlog_conformance."""

from __future__ import annotations

import sys

from hidlog_conformance.run import command

if __name__ == "__main__":
    sys.exit(command(sys.argv[1:]))
