"""Reads whole files, and writes files atomically: if a write fails or is killed, the older file is kept."""

from __future__ import annotations

import errno
import io
import os
import stat
import time
from collections.abc import Iterable, Iterator
from contextlib import suppress
from pathlib import Path
from secrets import token_hex
from typing import Any, Union

from .errors import ArgumentError

_PRIVATE, _OF_UMASK = 0o600, 0o666
# A file name has at most 255 bytes, and a character at most 4.
_MAX_NAME_BYTES = 40
# Number of attempts to find a writer of a named pipe, and seconds between them.
_TRIES, _PAUSE = 50, 0.1
_READ_BYTES = 1 << 16
# Flags for os.open that only some systems have. Windows has only the last one.
_READ_FLAGS, _WRITE_FLAGS = (
    sum(getattr(os, name, 0) for name in names)
    for names in (("O_NONBLOCK", "O_CLOEXEC", "O_BINARY"), ("O_CLOEXEC", "O_BINARY"))
)
# A file name from the command line; "-" is standard input.
Named = Union[str, "os.PathLike[str]"]


def display_name(path: Named) -> str:
    """Returns the name of a file in error messages."""
    return "standard input" if path == "-" else os.fspath(path)


class _BlockingInput(io.FileIO):
    """A file whose reads raise an error if they would block, whereas `FileIO` returns less than requested.

    front   bytes of the file that were already read.
    """

    front = b""

    def readinto(self, buffer: Any, /) -> int:
        if self.front:
            count = min(len(buffer), len(self.front))
            memoryview(buffer).cast("B")[:count], self.front = self.front[:count], self.front[count:]
            return count
        found = super().readinto(buffer)
        if found is None:
            raise BlockingIOError(errno.EAGAIN, os.strerror(errno.EAGAIN))
        return found

    def close(self) -> None:
        with suppress(OSError):  # the data has been read, so errors do not matter
            super().close()

    def readall(self) -> bytes:
        front, self.front = self.front, b""
        return front + read_to_end(self.fileno())


def open_input(path: Named) -> io.BufferedReader:
    """Opens a file for reading, or standard input for "-". A named pipe without a writer raises TimeoutError."""
    if path == "-":
        return io.BufferedReader(_BlockingInput(0, "rb", closefd=False))
    number = os.open(path, os.O_RDONLY | _READ_FLAGS)
    try:
        mode = os.fstat(number).st_mode
        if stat.S_ISDIR(mode):
            raise IsADirectoryError(errno.EISDIR, os.strerror(errno.EISDIR), os.fspath(path))
        front = _read_pipe_front(number, path) if stat.S_ISFIFO(mode) else b""
        if hasattr(os, "O_NONBLOCK"):
            os.set_blocking(number, True)
        file = _BlockingInput(number, "rb")
    except BaseException:
        with suppress(OSError):
            os.close(number)
        raise
    file.front = front
    return io.BufferedReader(file)


def _read_pipe_front(number: int, path: Named) -> bytes:
    """Returns the first bytes of a pipe, after a program has opened the pipe for writing."""
    for _ in range(_TRIES):
        try:
            if front := os.read(number, _READ_BYTES):
                return front
        except BlockingIOError:  # the pipe has a writer, which may write later
            return b""
        time.sleep(_PAUSE)
    raise TimeoutError(errno.ETIMEDOUT, "no program writes to this named pipe", os.fspath(path))


def read_to_end(number: int) -> bytes:
    """Returns all bytes from a descriptor up to the end."""
    return b"".join(iter(lambda: os.read(number, _READ_BYTES), b""))


def read_pieces(path: Named) -> Iterator[bytes]:
    """Yields the bytes of a file, or of standard input for "-", in pieces."""
    try:
        with open_input(path) as file:
            yield from iter(lambda: file.read(_READ_BYTES), b"")
    except OSError as error:
        error.filename = display_name(path)
        raise


def read_input(path: Named) -> bytes:
    """Returns the bytes of a file, or of standard input for "-"."""
    try:
        with open_input(path) as file:
            return file.read()
    except OSError as error:
        error.filename = display_name(path)
        raise


def is_regular(path: Path) -> bool:
    """Returns whether a path leads to a regular file, which neither blocks nor is endless."""
    try:
        return stat.S_ISREG(path.stat().st_mode)
    except OSError as error:
        if error.errno in (errno.ENOENT, errno.ELOOP):
            return False
        raise


def refuse_input(output: Path, inputs: Iterable[Named]) -> None:
    """Raises ArgumentError if the output is one of the input files, even under another name or through a link."""
    try:
        target = output.stat()
    except FileNotFoundError:
        return
    for path in inputs:
        source = os.fstat(0) if path == "-" else os.stat(path)
        if stat.S_ISREG(source.st_mode) and os.path.samestat(source, target):
            raise ArgumentError(f"{output} is the input file; use another output file")


def write_private(path: Path, data: bytes) -> None:
    """Writes a file atomically, with mode 0600."""
    _write(path, [data], is_private=True)


def write_atomically(path: Path, data: bytes | Iterable[bytes], inputs: Iterable[Named] = ()) -> None:
    """Writes a file atomically. The mode of an older file is kept; the mode of a new file depends on the umask.

    data     the bytes, or pieces of them; if one raises, the older file stays.
    inputs   the files that the data came from, none of which is overwritten.
    """
    refuse_input(path, inputs)
    _write(path, [data] if isinstance(data, bytes) else data, is_private=False)


def _write(path: Path, pieces: Iterable[bytes], is_private: bool) -> None:
    """Writes a temporary file in the same directory, and renames it once it is on disk."""
    if path.exists() and not path.is_file():
        with open(path, "wb") as file:  # a pipe or a device has no contents to keep, and opening a directory fails
            file.writelines(pieces)
        return
    target = Path(os.path.realpath(path))
    old = target.stat() if target.exists() and not is_private else None
    # The name is random, so a file of this name is ours, even if a signal interrupts os.open.
    name = target.with_name(f".{target.name[:_MAX_NAME_BYTES]}.{token_hex(8)}")
    try:
        mode = _PRIVATE if is_private or old is not None else _OF_UMASK
        with open(os.open(name, os.O_WRONLY | os.O_CREAT | os.O_EXCL | _WRITE_FLAGS, mode), "wb") as file:
            if old is not None:
                _copy_owner(file.fileno(), old)
            file.writelines(pieces)
            file.flush()
            os.fsync(file.fileno())
        os.replace(name, target)
    except FileExistsError:  # another program's file
        raise
    except BaseException:
        with suppress(OSError):
            os.unlink(name)
        raise


def _copy_owner(number: int, old: os.stat_result) -> None:
    """Sets the mode of an older file, and its owner if permitted."""
    if not hasattr(os, "fchown"):  # on Windows, files inherit the directory's permissions
        return
    with suppress(PermissionError):
        os.fchown(number, old.st_uid, old.st_gid)
    os.fchmod(number, old.st_mode & 0o777)
