"""Runs a driver, and ends the driver and its child processes when standard input ends, no matter how the proxy ended.

    supervisor.py COMMAND..

This script does not import the package, so it starts fast. A killed driver leaves its browser running. On Linux, the
browser then becomes a child of this process, and is also ended.
"""

from __future__ import annotations

import ctypes
import os
import select
import signal
import subprocess
import sys
import time
from collections.abc import Callable, Iterator
from contextlib import suppress

_PR_SET_PDEATHSIG, _PR_SET_CHILD_SUBREAPER = 1, 36
_GRACE_SECONDS = 5.0
_STEP_SECONDS = 0.02
_LINUX = sys.platform.startswith("linux")
_prctl: Callable[..., int] | None = ctypes.CDLL(None).prctl if _LINUX else None


def die_with_parent() -> None:
    """Lets the kernel end this process when its parent ends."""
    if _prctl:
        _prctl(_PR_SET_PDEATHSIG, signal.SIGKILL, 0, 0, 0)


def _iter_descendants(pid: int) -> Iterator[int]:
    """Yields the descendants of a process, if the kernel lists them."""
    with suppress(OSError):
        for task in os.listdir(f"/proc/{pid}/task"):
            with open(f"/proc/{pid}/task/{task}/children", encoding="ascii") as file:
                for child in map(int, file.read().split()):
                    yield child
                    yield from _iter_descendants(child)


def _reap(driver: subprocess.Popen[bytes]) -> None:
    """Reaps ended processes: the driver, and orphaned child processes of the driver."""
    with suppress(ChildProcessError):
        while True:
            pid, status = os.waitpid(-1, os.WNOHANG)
            if pid == driver.pid:
                driver.returncode = os.waitstatus_to_exitcode(status)
            if not pid:
                return


def _has_ended(driver: subprocess.Popen[bytes]) -> bool:
    """Returns whether the driver and its descendants have ended."""
    _reap(driver)
    return driver.returncode is not None and not any(_iter_descendants(os.getpid()))


def _send_signal(driver: subprocess.Popen[bytes], number: int) -> None:
    """Sends a signal to the driver's group, and to its other descendants."""
    with suppress(ProcessLookupError, PermissionError):
        os.killpg(driver.pid, number)
    for pid in list(_iter_descendants(os.getpid())):
        with suppress(ProcessLookupError, PermissionError):
            os.kill(pid, number)


def _end_driver(driver: subprocess.Popen[bytes]) -> None:
    """Ends the driver and its descendants: SIGTERM first, then SIGKILL for those that remain."""
    _send_signal(driver, signal.SIGTERM)
    end = time.monotonic() + _GRACE_SECONDS
    while not _has_ended(driver) and time.monotonic() < end:
        time.sleep(_STEP_SECONDS)
    while not _has_ended(driver):
        _send_signal(driver, signal.SIGKILL)
        time.sleep(_STEP_SECONDS)


def main(words: list[str]) -> int:
    """Runs the command until it or standard input ends. Returns the command's status."""
    for number in (signal.SIGINT, signal.SIGTERM, signal.SIGHUP):
        signal.signal(number, signal.SIG_IGN)
    if _prctl:
        _prctl(_PR_SET_CHILD_SUBREAPER, 1, 0, 0, 0)
    end, wake = os.pipe()
    signal.signal(signal.SIGCHLD, lambda *_: os.write(wake, b"."))
    os.set_blocking(wake, False)
    try:
        driver = subprocess.Popen(words, stdin=subprocess.DEVNULL, start_new_session=True, preexec_fn=_prepare_driver)
    except OSError as error:
        print(f"{words[0]}: {error.strerror}", file=sys.stderr)
        return 127
    while driver.returncode is None:
        ready, _, _ = select.select([0, end], [], [])
        if 0 in ready and not os.read(0, 1):
            break
        if end in ready:
            os.read(end, 4096)
        _reap(driver)
    _end_driver(driver)
    status = driver.returncode or 0
    return status if status >= 0 else 128 - status


def _prepare_driver() -> None:
    """Prepares the driver's process, so that it ends with its parent and has default signal handlers."""
    for number in (signal.SIGINT, signal.SIGTERM, signal.SIGHUP):
        signal.signal(number, signal.SIG_DFL)
    die_with_parent()


if __name__ == "__main__":
    sys.exit(main(sys.argv[1:]))
