#!/usr/bin/env python3
"""Runs the conformance tests from this repository, without an installation; see docs/use/CONFORMANCE.md."""

from __future__ import annotations

import sys

from hidlog_conformance.run import command

if __name__ == "__main__":
    sys.exit(command(sys.argv[1:]))
