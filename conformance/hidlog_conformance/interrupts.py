"""Handles SIGINT and SIGTERM: they end a run, and the report has the cases played so far."""

from __future__ import annotations

import signal
import time
from types import FrameType
from typing import Optional

# The exit status of a run that was interrupted, as shells report SIGINT.
INTERRUPTED = 130
SIGNALS = (signal.SIGINT, signal.SIGTERM)
# Seconds within which a second signal counts as the same interrupt, since `timeout` sends two.
SAME = 1.0


class Interrupts:
    """Raises KeyboardInterrupt at a signal."""

    def __init__(self) -> None:
        self.last = -SAME

    def __call__(self, number: int, frame: Optional[FrameType]) -> None:
        """Handles a signal."""
        if time.monotonic() - self.last >= SAME:
            self.last = time.monotonic()
            raise KeyboardInterrupt


INTERRUPTS = Interrupts()


def install() -> None:
    """Handles the signals from now on."""
    for number in SIGNALS:
        signal.signal(number, INTERRUPTS)


def wait_for_end(status: Optional[int]) -> None:
    """Waits for the end of the run if a command has this exit status because a signal to the process group killed it.
    The report then does not have this case."""
    if status is not None and -status in SIGNALS:
        time.sleep(SAME)


def ignore_signals() -> None:
    """Ignores the signals from now on, so that the report is written completely."""
    for number in SIGNALS:
        if isinstance(signal.getsignal(number), Interrupts):
            signal.signal(number, signal.SIG_IGN)
