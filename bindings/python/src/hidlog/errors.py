"""The exceptions of the package, which are all subclasses of HidlogError, and checks of arguments that raise them.

Errors for unknown names suggest the closest known name.
"""

from __future__ import annotations

import os
import reprlib
import warnings
from collections.abc import Iterable, Mapping
from difflib import get_close_matches
from pathlib import Path
from typing import Any

from .standard import STATUS_NAMES

_MAX_TEXT = 2000
_SHORT_REPR = reprlib.Repr()
_SHORT_REPR.maxstring = _SHORT_REPR.maxother = 100


class HidlogError(Exception):
    """The base class of all errors of this package."""

    def __init__(self, text: str = ""):
        super().__init__(text if len(text) <= _MAX_TEXT else f"{text[:_MAX_TEXT]} ..")


def describe(value: object) -> str:
    """Returns a value's repr for an error message, shortened."""
    try:
        return _SHORT_REPR.repr(value)
    except Exception:  # the __repr__ of a class may raise any exception
        return f"a {type(value).__name__}"


class ArgumentError(HidlogError, ValueError):
    """An invalid argument. The message has the allowed values."""


class ArgumentTypeError(ArgumentError, TypeError):
    """An argument of the wrong type."""


class UnknownNameError(ArgumentError, AttributeError):
    """An unknown name, such as a typo. The message suggests the closest one."""


class LogError(HidlogError):
    """An error in a log, as reported by the commands on logs."""


class SnapshotError(HidlogError):
    """A snapshot that is invalid, or has too many credentials."""


class MissingDependencyError(HidlogError):
    """A program, library or package is missing. The message explains how to install it."""


class KeyClosedError(HidlogError):
    """The key was closed, or its process ended."""


class KeyForkedError(KeyClosedError):
    """The key was created before os.fork, and belongs to the parent process."""


class KeyBusyError(HidlogError):
    """The call is not possible, since a request is in progress."""


class KeyTimeoutError(HidlogError, TimeoutError):
    """No packet or response arrived in time."""


class PresenceExhaustedError(HidlogError):
    """The key asked for user presence after the last reply of a presence script."""


class ReplayMismatchError(HidlogError):
    """A client sent a packet that differs from the recording."""


class CtapError(HidlogError):
    """A CTAP status other than CTAP2_OK, or the code of a CTAPHID ERROR.

    status   the code (CTAP 2.1, section 8.2).
    name     name of the code without prefix, such as NO_CREDENTIALS.
    cause    the reason as text, such as "the user refused"; empty if unknown, as for other keys and injected faults.
    """

    def __init__(self, status: int, cause: str = ""):
        self.status, self.cause = status, cause
        self.name = STATUS_NAMES.get(status, "UNKNOWN")
        Exception.__init__(self, str(self))

    def __reduce__(self) -> tuple[Any, ...]:
        return type(self), (self.status, self.cause)  # for pickle

    def __str__(self) -> str:
        return f"CtapError 0x{self.status:02X} {self.name}" + (f": {self.cause}" if self.cause else "")


class InvalidChannelError(CtapError):
    """The key does not know the client's channel ID, as after a power cycle. A new client gets a new channel."""

    def __init__(self) -> None:
        super().__init__(0x0B)

    def __reduce__(self) -> tuple[Any, ...]:
        return type(self), ()


def status_code(status: int | str) -> int:
    """Returns the code of a status, from its code or name."""
    numbers = {name: number for number, name in STATUS_NAMES.items()}
    if isinstance(status, str) and status in numbers:
        return numbers[status]
    if isinstance(status, int) and not isinstance(status, bool) and 0 <= status <= 0xFF:
        return status
    raise ArgumentError(
        f"unknown status {describe(status)}; it must be a number from 0 to 0xFF, or one of {', '.join(numbers)}"
    )


def check_choice(name: str, value: object, allowed: Iterable[object]) -> None:
    """Raises ArgumentError unless the value is an allowed value."""
    values = list(allowed)
    if not any(value is choice or (type(value) is type(choice) and value == choice) for choice in values):
        raise ArgumentError(
            f"{name} is {describe(value)}; it must be {', '.join(map(repr, values[:-1]))} or {values[-1]!r}"
        )


def check_bytes(name: str, value: object, length: int | None = None) -> bytes:
    """Returns a bytes-like value as bytes. Checks the length if `length` is set."""
    if type(value) is not bytes and not isinstance(value, (bytes, bytearray, memoryview)):
        raise ArgumentTypeError(f"{name} must be bytes, bytearray or memoryview, not {type(value).__name__}")
    data = bytes(value)
    if length is not None and len(data) != length:
        raise ArgumentError(f"{name} has {len(data)} bytes; it must have {length}")
    return data


def check_callable(name: str, value: Any, what: str) -> Any:
    """Returns the value, which must be callable."""
    if not callable(value):
        raise ArgumentTypeError(f"{name} must be a function that returns {what}, not {type(value).__name__}")
    return value


def check_seconds(name: str, value: Any) -> float:
    """Returns the value, which must be a number of seconds greater than 0."""
    if isinstance(value, bool) or not isinstance(value, (int, float)) or not 0 < value < 1e9:
        raise ArgumentError(f"{name} is {describe(value)}; it must be a number of seconds above 0")
    return value


def encode_utf8(name: str, value: object) -> bytes:
    """Returns a str as UTF-8."""
    if not isinstance(value, str):
        raise ArgumentTypeError(f"{name} must be str, not {type(value).__name__}")
    try:
        return value.encode()
    except UnicodeEncodeError:
        raise ArgumentError(f"{name} is {describe(value)}; UTF-8 cannot encode its unpaired surrogate") from None


def check_path(name: str, value: Any) -> Path:
    """Returns the value as the path of a file."""
    if not isinstance(value, (str, os.PathLike)):
        raise ArgumentTypeError(f"{name} must be a path, not {type(value).__name__}")
    try:
        path = Path(os.fsdecode(os.fsencode(value)))
    except ValueError as error:
        raise ArgumentError(f"{name} is {describe(value)}; it must be a path: {error}") from None
    if not path.name or "\0" in str(path):
        raise ArgumentError(f"{name} is {describe(value)}; it must be a file path")
    return path


def check_int(name: str, value: object, least: int, most: int) -> int:
    """Returns the value, which must be an int in a range."""
    if isinstance(value, bool) or not isinstance(value, int):
        raise ArgumentTypeError(f"{name} must be int, not {type(value).__name__}")
    if not least <= value <= most:
        raise ArgumentError(f"{name} is {describe(value)}; it must be {least} to {most}")
    return value


def make_unknown_name_error(what: str, name: str, names: Iterable[str]) -> UnknownNameError:
    """Returns the error for an unknown name."""
    listed = list(names)
    near = get_close_matches(name, listed, 1, 0.75)
    hint = f"did you mean {near[0]!r}?" if near else f"expected one of {', '.join(listed)}"
    return UnknownNameError(f"unknown {what} {name!r}; {hint}")


def check_attribute(key: object, name: str, others: Iterable[str]) -> None:
    """Raises UnknownNameError if a key has no such attribute to set. Subclasses outside this package may have
    others."""
    kind = type(key)
    if name in others:
        return
    found = getattr(kind, name, None)
    if isinstance(found, property) and found.fset is None:
        raise UnknownNameError(f"{name} is read-only")
    if not isinstance(found, property) and kind.__module__.startswith("hidlog."):
        settable = [attribute for attribute in dir(kind) if getattr(getattr(kind, attribute), "fset", None)]
        raise make_unknown_name_error("attribute", name, settable)


def get_renamed(instance: object, name: str, names: Mapping[str, str]) -> Any:
    """Returns an attribute by its old name, and warns with DeprecationWarning. Old names work for one version."""
    kind = type(instance).__name__
    if name not in names:
        raise AttributeError(f"{kind!r} object has no attribute {name!r}")
    warnings.warn(f"{kind}.{name} is now {kind}.{names[name]}", DeprecationWarning, stacklevel=3)
    return getattr(instance, names[name])
