"""Stores the recordings of an authenticator, which pages report, in memory and in a directory.

Pages are not trusted: they cannot choose file names or numbers, the size of reports is limited, and only the text of a
log is accepted. A separate thread writes the files, so no page waits for the disk.
"""

from __future__ import annotations

import re
import threading
from hashlib import sha256
from pathlib import Path
from typing import Any

from ..saved_files import write_recording
from .errors import DriverError, make_invalid_argument, print_error

Json = dict[str, Any]
# Maximum total size and number of an authenticator's recordings. Later recordings are dropped.
_MAX_BYTES = 64 * 1024 * 1024
_MAX_PARTS = 10_000
_MAX_SNAPSHOT = 65_536
_MAX_NAME_LENGTH = 80
_LOG_TEXT = re.compile(r"[\n\x20-\x7e]*\Z")
_MAX_NUMBER = 2**31


def _read_number(recording: Json, name: str) -> int:
    value = recording.get(name)
    if isinstance(value, bool) or not isinstance(value, int) or not 0 <= value <= _MAX_NUMBER:
        raise make_invalid_argument(f"{name} of a recording must be an integer from 0 to {_MAX_NUMBER}")
    return value


def folder_name(text: str) -> str:
    """Returns a name for a directory: letters, digits, dots and hyphens, of bounded length."""
    name = re.sub(r"[^A-Za-z0-9.-]+", "_", text).lstrip(".")
    return (
        name
        if 0 < len(name) <= _MAX_NAME_LENGTH
        else f"{name[:_MAX_NAME_LENGTH]}_{sha256(text.encode()).hexdigest()[:16]}"
    )


class _StoredRecording:
    """A recording: one session of the key in one document."""

    def __init__(self, number: int, folder: str, snapshot: bytes):
        self.number, self.folder, self.snapshot = number, folder, snapshot
        self.log = ""

    @property
    def value(self) -> Json:
        """The recording as returned to the test suite."""
        return {"index": self.number, "log": self.log, "snapshot": list(self.snapshot)}


class Recorder:
    """The recordings of an authenticator."""

    def __init__(self, folder: Path | None, name: str):
        self._folder, self._name = folder, name
        # The recordings by origin, and by origin, document and the document's number for the recording.
        self._by_origin: dict[str, list[_StoredRecording]] = {}
        self._parts: dict[tuple[str, str, int], _StoredRecording] = {}
        self._size, self._is_full = 0, False
        self._changes = threading.Condition()
        self._unwritten: dict[_StoredRecording, None] = {}
        self._is_writing = False
        self._error: OSError | None = None
        self._thread: threading.Thread | None = None

    def take(self, origin: str, document: Any, reported: Any) -> None:
        """Stores the report of a document: for each recording, the log from an offset on."""
        if not isinstance(reported, list) or not isinstance(document, str) or len(document) > _MAX_NAME_LENGTH:
            raise make_invalid_argument(
                f"recordings must be a list, and document a str of at most {_MAX_NAME_LENGTH} characters"
            )
        for recording in reported:
            if not isinstance(recording, dict):
                raise make_invalid_argument("a recording must be an object")
            number, offset = _read_number(recording, "index"), _read_number(recording, "from")
            text, snapshot = recording.get("text"), recording.get("snapshot")
            if not isinstance(text, str) or not _LOG_TEXT.match(text):
                raise make_invalid_argument("the text of a recording must be log lines")
            with self._changes:
                self._add_text(origin, (origin, document, number), offset, text, snapshot)
                self._changes.notify_all()

    def _add_text(self, origin: str, key: tuple[str, str, int], offset: int, text: str, snapshot: Any) -> None:
        part = self._parts.get(key)
        if self._size + len(text) > _MAX_BYTES or (part is None and len(self._parts) >= _MAX_PARTS):
            if not self._is_full:
                print_error(
                    f"{self._name}: the recordings reached their maximum size or number; later ones are dropped"
                )
            self._is_full = True
        if self._is_full:
            return
        if offset > (len(part.log) if part else 0):
            raise make_invalid_argument(f"a recording continues at {offset}, after the end of the stored part")
        if part is None:
            part = self._parts[key] = self._add_recording(origin, snapshot)
        self._size += offset + len(text) - len(part.log)
        part.log = part.log[:offset] + text
        if self._folder is not None:
            self._unwritten[part] = None
            self._start_writer()

    def _add_recording(self, origin: str, snapshot: Any) -> _StoredRecording:
        try:
            data = bytes.fromhex(snapshot)
        except (TypeError, ValueError):
            raise make_invalid_argument("the snapshot of a recording must be hexadecimal") from None
        if len(data) > _MAX_SNAPSHOT:
            raise make_invalid_argument(f"the snapshot of a recording has more than {_MAX_SNAPSHOT} bytes")
        parts = self._by_origin.setdefault(origin, [])
        folder = folder_name(origin)
        same = [item for item, listed in self._by_origin.items() if folder_name(item) == folder and listed is not parts]
        part = _StoredRecording(len(parts) + sum(len(self._by_origin[item]) for item in same) + 1, folder, data)
        self._size += len(data)
        parts.append(part)
        return part

    @property
    def value(self) -> dict[str, list[Json]]:
        """The recordings by origin."""
        with self._changes:
            return {origin: [part.value for part in parts] for origin, parts in self._by_origin.items()}

    # Files.

    def _start_writer(self) -> None:
        if self._thread is None:
            self._thread = threading.Thread(target=self._write_all, daemon=True)
            self._thread.start()

    def _write_all(self) -> None:
        while True:
            with self._changes:
                while not self._unwritten:
                    self._is_writing = False
                    self._changes.notify_all()
                    self._changes.wait()
                part = next(iter(self._unwritten))
                del self._unwritten[part]
                self._is_writing = True
                log, snapshot = part.log, part.snapshot
            self._write(part, log, snapshot)

    def _write(self, part: _StoredRecording, log: str, snapshot: bytes) -> None:
        assert self._folder is not None
        path = self._folder / self._name / part.folder / f"{part.number}.log"
        try:
            path.parent.mkdir(parents=True, exist_ok=True)
            write_recording(path, log.encode("ascii"), snapshot)
        except OSError as error:
            with self._changes:
                if self._error is None:
                    print_error(f"cannot write {path}: {error.strerror}")
                self._error = error

    def flush(self) -> None:
        """Waits until all recordings are written. Raises an error if a recording could not be written."""
        with self._changes:
            while self._unwritten or self._is_writing:
                self._changes.wait()
            error, self._error = self._error, None
        if error:
            raise DriverError("unknown error", f"cannot write recordings: {error}")
