#!/usr/bin/env python3
"""A client that sends INIT, and then crashes, hangs, or sends the same packet forever: odd_client.py KIND"""

from __future__ import annotations

import os
import signal
import sys
import time
from typing import List

INIT = "ffffffff860008" + "0102030405060708".ljust(114, "0")


def main(words: List[str]) -> int:
    """Runs the client."""
    print(INIT, flush=True)
    while words[0] == "floods":
        print(INIT, flush=True)
    sys.stdin.readline()
    if words[0] == "crashes":
        os.kill(os.getpid(), signal.SIGSEGV)
    time.sleep(60)
    return 0


if __name__ == "__main__":
    sys.exit(main(sys.argv[1:]))
