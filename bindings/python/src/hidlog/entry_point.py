"""The entry point of every command. On a failure, prints one line to standard error.

The exit status is 1 for a finding (a mismatch, a violation), 2 for a usage error or a failure, 130 for SIGINT, 143 for
SIGTERM, and 129 for SIGHUP. If standard output cannot be written, the message is that of the program `hidlog`.
"""

from __future__ import annotations

import io
import os
import signal
import sys
import threading
from collections.abc import Callable
from contextlib import suppress
from typing import Any, TextIO

from .errors import HidlogError

STATUS_FAILED = 2
_STATUS_SIGNALED = 128
_SIGNAL_NAMES = {signal.SIGINT: "interrupted", signal.SIGTERM: "terminated"}
# Python's default handler of each signal that ends a command.
_DEFAULT_HANDLERS: dict[int, Any] = {signal.SIGINT: signal.default_int_handler, signal.SIGTERM: signal.SIG_DFL}
if hasattr(signal, "SIGHUP"):  # Windows has none
    _SIGNAL_NAMES[signal.SIGHUP] = "the terminal was closed"
    _DEFAULT_HANDLERS[signal.SIGHUP] = signal.SIG_DFL


class OutputError(OSError):
    """Standard output cannot be written."""

    def __init__(self) -> None:
        super().__init__("writing failed")


class StoppedError(BaseException):
    """The process received a signal that ends it."""

    def __init__(self, number: int):
        super().__init__(_SIGNAL_NAMES[signal.Signals(number)])
        self.status = _STATUS_SIGNALED + number


class _Output(io.RawIOBase):
    """A stream to standard output or standard error. The first failure raises an exception on standard output. After a
    failure, writes do nothing."""

    def __init__(self, number: int):
        self._number = number
        self.has_failed = False

    def fileno(self) -> int:
        return self._number

    def isatty(self) -> bool:
        return os.isatty(self._number)

    def writable(self) -> bool:
        return True

    def write(self, data: Any, /) -> int:
        if not self.has_failed:
            with suppress(OSError):
                if count := os.write(self._number, data):
                    return count
            self.has_failed = True
            if self._number == 1:
                raise OutputError
        return len(data)


def _open_closed_descriptors() -> None:
    """Opens /dev/null at each closed descriptor from 0 to 2, in the direction in which using it fails.

    Otherwise the next opened file would become standard input, output or error."""
    for number, flags in enumerate((os.O_WRONLY, os.O_RDONLY, os.O_RDONLY)):
        try:
            os.fstat(number)
        except OSError:
            held = os.open(os.devnull, flags | getattr(os, "O_CLOEXEC", 0))
            if held != number:  # a descriptor with a lower number is still closed
                os.close(held)


def _open_text_stream(number: int, before: Any) -> TextIO:
    """Returns a text stream to a descriptor, configured like the earlier one. Unencodable characters are escaped."""
    encoding = before.encoding if before else "utf-8"
    errors = before.errors if before and before.errors != "strict" else "backslashreplace"
    by_line = bool(before) and (before.line_buffering or before.write_through)
    return io.TextIOWrapper(io.BufferedWriter(_Output(number)), encoding, errors, line_buffering=by_line or number == 2)


def _replace_streams() -> None:
    """Replaces standard output and error by streams that end a command cleanly if writing fails."""
    _open_closed_descriptors()
    if sys.stdout is sys.__stdout__:
        sys.stdout = _open_text_stream(1, sys.stdout)
    if sys.stderr is sys.__stderr__:
        sys.stderr = _open_text_stream(2, sys.stderr)


def _raise_stopped(number: int, _: object) -> None:
    """Ends the command."""
    _handle_signals(_raise_stopped, _ignore_second_signal)
    raise StoppedError(number)


def _ignore_second_signal(_number: int, _frame: object) -> None:
    """Ignores the second signal, because `timeout` sends each signal twice. A third signal ends the process at once."""
    _handle_signals(_ignore_second_signal, signal.SIG_DFL)


def _catch_signals() -> None:
    """Lets signals raise StoppedError, except signals that are ignored, as under nohup."""
    if threading.current_thread() is not threading.main_thread():
        return
    for number, before in _DEFAULT_HANDLERS.items():
        if signal.getsignal(number) == before:
            signal.signal(number, _raise_stopped)


def _handle_signals(before: Any, handler: Any = None) -> None:
    """Replaces a signal handler [default: by the handler before the command]."""
    for number, first in _DEFAULT_HANDLERS.items():
        if signal.getsignal(number) is before:
            with suppress(OSError):
                signal.signal(number, first if handler is None else handler)


def restore_signals() -> None:
    """Restores the signal handling that the program expects, since Python ignores SIGXFSZ. SIGPIPE stays ignored, as
    the program expects."""
    _handle_signals(_raise_stopped, signal.SIG_DFL)
    if hasattr(signal, "SIGXFSZ"):
        signal.signal(signal.SIGXFSZ, signal.SIG_DFL)


def print_error(text: str) -> None:
    """Writes a line to standard error, if possible."""
    with suppress(OSError, ValueError):
        if sys.stderr is not None:
            print(text, file=sys.stderr, flush=True)


def describe_error(error: BaseException) -> str:
    """Returns an error message for an exception, on one line."""
    if isinstance(error, OSError) and error.strerror:
        return f"{error.filename}: {error.strerror}" if error.filename is not None else error.strerror
    if isinstance(error, MemoryError):
        return "out of memory"
    if isinstance(error, RecursionError):
        return "the input is nested too deeply"
    return " ".join(str(error).split()) or type(error).__name__


def run(name: str, command: Callable[[], int]) -> int:
    """Runs a command, and returns the exit status.

    name   prefix of error messages, such as "hidlog judge".
    """
    streams = sys.stdout, sys.stderr
    try:
        try:
            return _run(name, command)
        finally:
            _handle_signals(_raise_stopped)
    except StoppedError as stop:
        print_error(f"{name}: {stop}")
        _flush()
        _handle_signals(
            _ignore_second_signal, signal.SIG_IGN
        )  # so that the second signal of a pair does not change the exit status
        return stop.status
    finally:
        sys.stdout, sys.stderr = streams


def _run(name: str, command: Callable[[], int]) -> int:
    try:
        _catch_signals()
        _replace_streams()
        return _run_and_flush(command)
    except OutputError as error:
        print_error(f"hidlog: {error}")
    except (HidlogError, OSError, ImportError, MemoryError, RuntimeError) as error:
        # RuntimeError: a thread cannot be started, or a recursion is too deep.
        print_error(f"{name}: {describe_error(error)}")
    except Exception:  # a bug in this package, reported with a traceback
        import traceback

        with suppress(OSError):
            traceback.print_exc()
    _flush()
    return STATUS_FAILED


def _flush() -> None:
    """Flushes the output of a command that failed, if possible."""
    with suppress(OutputError, OSError):
        if sys.stdout is not None:
            sys.stdout.flush()


def run_as_program(command: Callable[[], int]) -> int:
    """Runs a command inside `run`, and exits as the program `hidlog` does, even on failures and signals."""
    restore_signals()
    try:
        return _run_and_flush(command)
    except OutputError as error:
        print_error(f"hidlog: {error}")
        return 1
    except MemoryError:
        print_error("hidlog: out of memory")
        return STATUS_FAILED
    except (HidlogError, OSError, ImportError) as error:
        print_error(f"hidlog: {describe_error(error)}")
        return STATUS_FAILED


def _run_and_flush(command: Callable[[], int]) -> int:
    """Runs a command, and flushes its output."""
    try:
        status = command()
    except SystemExit as end:  # raised by argparse
        status = end.code if isinstance(end.code, int) else STATUS_FAILED if end.code else 0
    sys.stdout.flush()
    raw = getattr(getattr(sys.stdout, "buffer", None), "raw", None)
    if not status and isinstance(raw, _Output) and raw.has_failed:
        raise OutputError  # the command raised another error because of the signal
    return status
