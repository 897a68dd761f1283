#!/usr/bin/env python3
"""Checks the corpus itself.

    conformance/check.py faults [WORD ..]       the cases detect faulty authenticators, under the violated section
    conformance/check.py conforming [WORD ..]   conforming authenticators have no violation, in the cases and in a walk
    conformance/check.py others                 an authenticator that shares no code with this project fails the listed
                                                cases, and no others
    conformance/check.py judged [WORD ..]       `hidlog judge` detects faults in recordings of authenticators
    conformance/check.py judged --clients       `hidlog judge` detects faults in recordings of clients
    conformance/check.py clients                python-fido2 and libfido2 fail the listed sessions for clients
    conformance/check.py clients --pin          python-fido2 and libfido2 use the PIN of the reference authenticator

`conformance/check.py NAME --help` lists further options of faults, conforming and judged.
"""

from __future__ import annotations

import importlib
import os
import sys
from typing import List

HERE = os.path.dirname(os.path.abspath(__file__))
sys.path.insert(0, os.path.join(HERE, "checks"))

NAMES = ("faults", "conforming", "others", "judged", "clients")


def main(arguments: List[str]) -> int:
    """Runs a check; returns its exit status."""
    name, more = arguments[0] if arguments else "", arguments[1:]
    if name not in NAMES:
        print(f"check.py: expected one of {', '.join(NAMES)}, got {name!r}", file=sys.stderr)
        return 2
    if name == "judged" and "--clients" in more:
        name = "judged_clients"
    return int(importlib.import_module(name).main(more))


if __name__ == "__main__":
    sys.exit(main(sys.argv[1:]))
