"""Bindings to the C library (release/hidlog.h): the commands on logs, and a key in memory. No other module calls the
library.

The library is part of the package; a clone has release/libhidlog.so.1. The environment variable HIDLOG_LIBRARY selects
another library: libhidlog-256.so.1 has the same functions, and its keys can store 256 credentials instead of 64.
"""

from __future__ import annotations

import ctypes
import os
import sys
from functools import lru_cache
from pathlib import Path
from typing import Any

from .errors import ArgumentError, HidlogError, KeyClosedError, MissingDependencyError, SnapshotError

# File name of the library by system. The wheel for Windows, and wheels that are built on other systems, have the
# portable library.
_LIBRARY_NAME = {"win32": "hidlog.dll", "darwin": "libhidlog.dylib"}.get(sys.platform, "libhidlog.so.1")
_ERROR_TEXTS = {
    -1: "the key is not initialized",
    -2: "the key is already initialized",
    -3: "packets are queued: read them first",
    -4: "no packet is queued",
    -5: "invalid argument",
    -6: "the buffer is too small",
    -7: "a request is in progress: provide what it needs first",
    -8: "another discoverable credential has the same relying party and user",
    -17: "snapshot refused: 1 (it is not a snapshot)",
    -18: "snapshot refused: 2 (it has more than {capacity} credentials)",
    -19: "snapshot refused: 3 (a credential in it is invalid)",
}
_SNAPSHOT_ERRORS = (-17, -18, -19)
_PRESENCE = {"granted": 0, "denied": 1, "timeout": 2}
# HIDLOG_KEY_ERR_DUPLICATE_USER and HIDLOG_KEY_ERR_FULL.
_FULL_ERRORS = (-8, -18)
# Members of struct hidlog_stats by the names of the totals in a log's last line.
_STATS_FIELDS = {
    "held": "peak_message_bytes",
    "rows": "peak_credentials",
    "pending": "peak_pending",
    "requests": "requests",
    "bytes": "bytes",
    "steps": "steps",
}
# Capacity of a library without the function hidlog_key_capacity.
_DEFAULT_CAPACITY = 64
# Values of enum hidlog_need_kind.
_NEED_NAMES = ("nothing", "presence", "key", "signature")
_NEED_SIGNATURE = 3
# Argument `which` of hidlog_key_cause for the last input, and the maximum length of a cause.
_CAUSE_OF_INPUT = 1
_MAX_SENTENCE = 160
# hidlog_key_replay_lines writes at most 18,000 bytes for a line, of which 17,000 are for a response. Inputs are passed
# in batches of at most MAX_LINES, in which only one input gets a response.
_MAX_TEXT_BYTES = 36_000
_Text = ctypes.c_char * _MAX_TEXT_BYTES


class Result(ctypes.Structure):
    """struct hidlog_result."""

    status: int
    error: int
    line: int
    packet: int
    written: int
    _fields_ = [
        ("status", ctypes.c_uint32),
        ("error", ctypes.c_uint32),
        ("line", ctypes.c_uint64),
        ("packet", ctypes.c_uint64),
        ("written", ctypes.c_uint64),
    ]


class _Key(ctypes.Structure):
    """struct hidlog_key."""

    _fields_ = [("memory", ctypes.c_void_p), ("state", ctypes.c_uint32)]


class _Need(ctypes.Structure):
    """struct hidlog_need."""

    kind: int
    to_sign_len: int
    _fields_ = [
        ("kind", ctypes.c_uint32),
        ("to_sign_len", ctypes.c_uint32),
        ("id", ctypes.c_uint8 * 32),
        ("to_sign", ctypes.c_uint8 * 196),
    ]


class _Cause(ctypes.Structure):
    """struct hidlog_cause."""

    status: int
    _fields_ = [
        ("code", ctypes.c_uint32),
        ("status", ctypes.c_uint32),
        ("first", ctypes.c_uint64),
        ("second", ctypes.c_uint64),
    ]


class CCredential(ctypes.Structure):
    """struct hidlog_credential."""

    rp_id_hash: bytes
    id: bytes
    x: bytes
    y: bytes
    user_id: bytes
    user_name: bytes
    user_id_len: int
    user_name_len: int
    discoverable: int
    sign_count: int
    _fields_ = [
        *((name, ctypes.c_uint8 * 32) for name in ("rp_id_hash", "id", "x", "y")),
        *((name, ctypes.c_uint8 * 64) for name in ("user_id", "user_name")),
        *((name, ctypes.c_uint32) for name in ("user_id_len", "user_name_len", "discoverable", "sign_count")),
    ]


class _Stats(ctypes.Structure):
    """struct hidlog_stats."""

    _fields_ = [(name, ctypes.c_uint64) for name in ("requests", "bytes", "steps")] + [
        (name, ctypes.c_uint32) for name in ("peak_message_bytes", "peak_credentials", "peak_pending", "reserved")
    ]


def library_paths() -> list[Path]:
    """Returns the paths at which the library is searched, in order."""
    if named := os.environ.get("HIDLOG_LIBRARY"):
        return [Path(named)]
    here = Path(__file__).resolve().parent
    return [here / _LIBRARY_NAME, *(folder / "release" / _LIBRARY_NAME for folder in list(here.parents)[3:4])]


@lru_cache(maxsize=None)
def load_library() -> ctypes.CDLL:
    """Returns the C library. It is loaded once."""
    paths = library_paths()
    for path in paths:
        if path.is_file():
            try:
                return ctypes.CDLL(str(path))
            except OSError as error:
                raise MissingDependencyError(f"cannot load {path}: {error}") from None
    raise MissingDependencyError(f"libhidlog not found (tried {', '.join(map(str, paths))})")


@lru_cache(maxsize=None)
def capacity() -> int:
    """Returns the number of credentials that a key of the library can store."""
    function = getattr(load_library(), "hidlog_key_capacity", None)
    if function is None:
        return _DEFAULT_CAPACITY
    function.restype = ctypes.c_size_t
    return int(function())


def _max_snapshot() -> int:
    """Returns HIDLOG_SNAPSHOT_MAX_LEN."""
    return 13 + 283 * capacity()


def run(command: str, log: bytes, snapshot: bytes, capacity: int) -> tuple[Result, bytes]:
    """Runs a command on a complete log, and returns its result and output."""
    out, result, size = ctypes.create_string_buffer(capacity), Result(), ctypes.c_size_t
    function = getattr(load_library(), f"hidlog_{command}")
    function(log, size(len(log)), snapshot, size(len(snapshot)), out, size(capacity), ctypes.byref(result))
    return result, out.raw[: result.written]


def show(log: bytes, explain: bool, capacity: int) -> tuple[Result, bytes]:
    """Returns the result and the text of `hidlog show`, with explanations or without."""
    out, result, size = ctypes.create_string_buffer(capacity), Result(), ctypes.c_size_t
    words = ctypes.c_uint32(explain)
    load_library().hidlog_show(log, size(len(log)), words, out, size(capacity), ctypes.byref(result))
    return result, out.raw[: result.written]


def transactions(log: bytes, capacity: int) -> tuple[Result, bytes]:
    """Returns the result and the text of hidlog_transactions, which assigns lines to transactions."""
    out, result, size = ctypes.create_string_buffer(capacity), Result(), ctypes.c_size_t
    load_library().hidlog_transactions(log, size(len(log)), out, size(capacity), ctypes.byref(result))
    return result, ctypes.string_at(out, result.written)


_AT, _SIZE, _BYTES, _OUT = ctypes.c_uint64, ctypes.c_size_t, ctypes.c_char_p, ctypes.c_void_p
# Parameters of the hidlog_key functions, after the key.
_KEY_FUNCTIONS: dict[str, list[Any]] = {
    "init": [_BYTES, _AT, _BYTES, _SIZE],
    "destroy": [],
    "write_packet": [_AT, _BYTES],
    "tick": [_AT],
    "provide_presence": [_AT, ctypes.c_uint32],
    "provide_key_pair": [_AT, _BYTES, _BYTES, _BYTES],
    "refuse_key_pair": [_AT],
    "provide_signature": [_AT, _BYTES, _SIZE],
    "refuse_signature": [_AT],
    "read_packet": [_OUT],
    "get_need": [_OUT],
    "credential_count": [],
    "get_credential": [_SIZE, _OUT],
    "add_credential": [_AT, _OUT],
    "remove_credential": [_AT, _BYTES],
    "save_snapshot": [_OUT, _SIZE],
    "get_stats": [_OUT],
    "replay_lines": [_BYTES, _SIZE, _OUT, _SIZE, _OUT],
    "cause": [ctypes.c_uint32, _OUT, _OUT, _SIZE],
}
# Length of each buffer that the library reads or writes, by its parameter: a number, or _LENGTH_FOLLOWS for the value of
# the next parameter.
_LENGTH_FOLLOWS = -1
_BUFFERS: dict[str, dict[int, int]] = {
    "init": {0: 16, 2: _LENGTH_FOLLOWS},
    "write_packet": {1: 64},
    "provide_key_pair": {1: 32, 2: 32, 3: 32},
    "provide_signature": {1: _LENGTH_FOLLOWS},
    "remove_credential": {1: 32},
    "read_packet": {0: 64},
}
_NO_FUNCTIONS: dict[int, int] = {}


@lru_cache(maxsize=None)
def _key_functions() -> dict[str, Any] | None:
    """Returns the functions of a key in memory, or None if one is missing in the library."""
    if not hasattr(load_library(), "hidlog_key_size"):
        return None
    found = {}
    for name, words in _KEY_FUNCTIONS.items():
        function = getattr(load_library(), f"hidlog_key_{name}", None)
        if function is None:
            return None
        function.argtypes, function.restype = [_OUT, *words], ctypes.c_int32
        found[name] = function
    return found


def supports_in_process() -> bool:
    """Returns whether the library has the functions of a key in memory."""
    return _key_functions() is not None


class Handle:
    """A struct hidlog_key and its memory. If a call returns an error, an exception is raised."""

    def __init__(self, snapshot: bytes):
        functions = _key_functions()
        if functions is None:
            raise MissingDependencyError("this libhidlog has no in-memory key: use SecurityKey(process=True)")
        self._functions = functions
        size = load_library().hidlog_key_size
        size.restype = _SIZE
        self._memory = ctypes.create_string_buffer(size() + 16)
        self._key = _Key((ctypes.addressof(self._memory) + 15) // 16 * 16, 0)
        self._pointer = ctypes.byref(self._key)
        self._packet, self._need = ctypes.create_string_buffer(64), _Need()
        self._to_need = ctypes.byref(self._need)
        self._next, self._needs = functions["read_packet"], functions["get_need"]
        self.call("init", bytes(16), 0, snapshot, len(snapshot))

    def call(self, name: str, *words: Any) -> int:
        """Checks the length of each buffer, calls hidlog_key_{name}, and returns the result."""
        for place, length in _BUFFERS.get(name, _NO_FUNCTIONS).items():
            wanted = words[place + 1] if length == _LENGTH_FOLLOWS else length
            if len(words[place]) != wanted:
                raise ArgumentError(f"hidlog_key_{name}: a buffer has {len(words[place])} bytes; it must have {wanted}")
        code: int = self._functions[name](self._pointer, *words)
        if code >= 0:
            return code
        text = _ERROR_TEXTS.get(code, f"error {code}").format(capacity=capacity())
        if code in _SNAPSHOT_ERRORS:
            raise SnapshotError(text)
        raise KeyClosedError("the key is closed") if code == -1 else HidlogError(f"hidlog_key_{name}: {text}")

    def presence(self, at: int, word: str) -> int:
        """Passes the user's reply: granted, denied or timeout."""
        return self.call("provide_presence", at, _PRESENCE[word])

    def packet(self, at: int, packet: bytes) -> int:
        """Passes a packet from the host, and returns the number of packets queued then."""
        return self.call("write_packet", at, packet)

    def next(self) -> bytes:
        """Removes and returns the next queued packet."""
        if self._next(self._pointer, self._packet) < 0:
            self.call("read_packet", self._packet)  # which raises
        return self._packet.raw

    def need(self) -> tuple[str, bytes, bytes] | None:
        """Returns what the key needs, the credential ID and the bytes to sign, or None if it needs nothing."""
        need = self._need
        if self._needs(self._pointer, self._to_need) < 0:
            self.call("get_need", self._to_need)  # which raises
        kind = need.kind
        if kind == 0:
            return None
        if kind != _NEED_SIGNATURE:
            return _NEED_NAMES[kind], b"", b""
        return _NEED_NAMES[kind], bytes(need.id), bytes(need.to_sign)[: need.to_sign_len]

    def cause(self, status: int | None) -> str:
        """Returns the cause of the last rejection, or "" if the last input was not rejected, or was rejected with
        another status."""
        cause, text = _Cause(), ctypes.create_string_buffer(_MAX_SENTENCE)
        length = self.call("cause", _CAUSE_OF_INPUT, ctypes.byref(cause), text, _MAX_SENTENCE)
        return text.raw[:length].decode() if status in (None, cause.status) else ""

    def credential(self, place: int) -> CCredential:
        """Returns the credential at an index, from 0."""
        held = CCredential()
        self.call("get_credential", place, ctypes.byref(held))
        return held

    def credentials(self) -> list[CCredential]:
        """Returns the credentials, newest last."""
        return [self.credential(place) for place in range(self.call("credential_count"))]

    def put(self, credential: CCredential) -> bool:
        """Appends a credential, and removes an earlier credential with the same ID. Returns False if another
        discoverable credential has the same relying party and user, or the key is full."""
        words = self._pointer, 0, ctypes.byref(credential)
        code: int = self._functions["add_credential"](*words)
        if code < 0 and code not in _FULL_ERRORS:
            self.call("add_credential", *words[1:])  # which raises
        return code == 0

    def save(self) -> bytes:
        """Returns a snapshot of the credentials, empty if there are none."""
        if not self.call("credential_count"):
            return b""
        length = _max_snapshot()
        out = ctypes.create_string_buffer(length)
        return ctypes.string_at(out, self.call("save_snapshot", out, length))

    def stats(self) -> dict[str, int]:
        """Returns the totals of the session, in the order of a log's last line."""
        stats = _Stats()
        self.call("get_stats", ctypes.byref(stats))
        return {name: getattr(stats, member) for name, member in _STATS_FIELDS.items()}

    def counts(self) -> bytes:
        """Returns the totals line of the session so far."""
        return ("= " + " ".join(f"{name} {count}" for name, count in self.stats().items()) + "\n").encode()

    def lines(self, lines: bytes) -> tuple[Result, bytes]:
        """Passes log lines to the key, of which at most one gets a response. Returns the result and the output of
        `hidlog live` for the lines."""
        out, result = _Text(), Result()
        self.call("replay_lines", lines, len(lines), out, _MAX_TEXT_BYTES, ctypes.byref(result))
        return result, ctypes.string_at(out, result.written)
