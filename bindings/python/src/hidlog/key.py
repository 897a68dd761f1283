"""A security key for tests, which runs in this process or in a separate process, with the same behavior."""

from __future__ import annotations

import json
import os
import time
from base64 import b64decode, b64encode
from collections.abc import Callable
from dataclasses import replace
from pathlib import Path
from typing import TYPE_CHECKING, Any, TypeVar

from . import cbor, packets, private_keys
from .algorithms import load_other_key
from .credentials import Credential, Credentials, read_snapshot, write_snapshot
from .errors import ArgumentError, ArgumentTypeError, HidlogError, KeyBusyError, check_int, check_path
from .files import write_atomically, write_private
from .in_process_key import InProcessKey
from .log_lines import Engine
from .credential_metadata import Backup
from .served import serve
from .session import Recording, Session
from .saved_files import add_checksum, snapshot_path, verify_checksum

if TYPE_CHECKING:
    from .browser import Browser
    from .recorded_key import RecordedKey

_FORMAT = "hidlog key 1"
_CHANGED_COMMENT = b"# the credentials were changed; the channels are given out again"
_INIT_PACKETS = packets.fragment_message(packets.Message(packets.BROADCAST, packets.INIT, bytes(8)))[0]
_Key = TypeVar("_Key", bound="SecurityKey")


def _decode_base64(text: str) -> bytes:
    """Decodes strict base64."""
    return b64decode(text, validate=True)


def _write_members(name: str, members: dict[bytes, bytes]) -> dict[str, dict[str, str]]:
    """Returns a member of a saved key that maps credential IDs to bytes. Empty if there are none."""
    return {name: {core.hex(): b64encode(data).decode() for core, data in members.items()}} if members else {}


def _read_members(kept: Any, name: str) -> dict[bytes, bytes]:
    """Returns the bytes by credential ID in a member of a saved key."""
    return {bytes.fromhex(core): _decode_base64(text) for core, text in kept.get(name, {}).items()}


class SecurityKey(Session):
    """A security key that supplies user presence, key pairs and signatures itself.

    presence           what the user does: "granted", "denied", "timeout", None (nothing), a function of the question,
                       or a script (an iterable) of these. May be changed at any time.
    presence_delay_ms  milliseconds until the user replies, in the key's time.
    clock              "virtual": each log line takes 1 ms, and waits take no real time; "real"; or a function that
                       returns milliseconds.
    timeout            seconds that a client waits for a user who does nothing; then reading raises KeyTimeoutError.
    random             returns n random bytes. `random.Random(1).randbytes` makes the same keys in each run.
    process            True: run the key in a separate process (`hidlog live`), of the program at the path `program`.
                       False: in this process. The default is this process if the C library supports it.
    private_keys       private keys by credential ID.
    record             False: record nothing, for very long sessions.
    verification       result of user verification: "none" (unsupported), "verified" or "failed". The core has no user
                       verification: the UV flag is set outside of it, and a comment in the recording says so.
    attachment         "cross-platform" or "platform", as reported by browsers.
    has_resident_key   False: browsers create no discoverable credentials.
    default_backup_eligibility, default_backup_state   the flags BE and BS of new credentials, also set outside the
                                                       core.

    The following options are also implemented outside the core. They change what a browser returns, and each adds a
    comment to the recording:

    attestation        "self": the core's, whatever the page requests. "none". "basic": packed by a certificate of the
                       test root (hidlog.attestation_certificates) if the page requests an attestation, and none if not.
    aaguid             the AAGUID, a UUID; zeros by default.
    algorithms         COSE algorithms of credentials: -7 (ES256), -8 (EdDSA), -257 (RS256). A registration uses the
                       first one of the page's list.
    extensions         "prf", "largeBlob", "credProtect", "credBlob", "minPinLength".
    autofill           "selected": a sign-in with mediation "conditional" waits for Browser.select_account. "automatic":
                       the same account signs in as without mediation, as with Chromium's virtual authenticator.
    """

    @property
    def recordings(self) -> list[Recording]:
        """The recordings of all sessions. A restart or a change of credentials starts a new session."""
        return [*self._ended, Recording(self._start, self.log)]

    def save_log(self, path: str | os.PathLike[str]) -> list[Path]:
        """Writes the recordings: the last one to this path, and earlier ones to paths with a number.

        Returns the paths of the logs. For a log that started with credentials, also writes a snapshot, `PATH.snapshot`,
        for --load. Files are replaced atomically.
        """
        target, every = check_path("path", path), self.recordings
        names = [target.with_name(f"{target.stem}.{number}{target.suffix}") for number in range(1, len(every))] + [
            target
        ]
        for name, (snapshot, log) in zip(names, every):
            if snapshot:
                write_atomically(snapshot_path(name), snapshot)
            write_atomically(name, log)
        return names

    @staticmethod
    def from_recording(log: bytes) -> RecordedKey:
        """Returns a key that plays back a recording to a client, and raises an error at the first packet that
        differs."""
        from .recorded_key import RecordedKey

        return RecordedKey(log)

    # Credentials and saved state.

    @property
    def credentials(self) -> Credentials:
        """The credentials that are stored on the key."""
        return Credentials(self)

    def snapshot(self) -> bytes:
        """Returns a snapshot of the credentials, without private keys."""
        with self._acquire_lock():
            return self._engine.snapshot(self._read_recording())

    def _held(self) -> list[Credential]:
        """Returns the core's credentials, newest last."""
        with self._acquire_lock():
            return self._engine.credentials(self._read_recording())

    def _count(self) -> int:
        """Returns the number of credentials."""
        with self._acquire_lock():
            return self._engine.count(self._read_recording())

    def _read_recording(self) -> bytearray:
        """Returns the recording, from which the program computes the credentials of a key in a separate process."""
        if self._process and not self._record:
            raise HidlogError("process=True needs record=True to list credentials")
        return self._log

    def _find(self, core_id: bytes) -> Credential | None:
        """Returns the core's credential with this ID, or None."""
        with self._acquire_lock():
            return self._engine.find(self._read_recording(), core_id)

    def _check_idle(self) -> None:
        """Raises KeyBusyError if a request is in progress."""
        if self._work.need.kind != "nothing" or self._from_host.is_open:
            raise KeyBusyError(
                "a request is in progress: wait for its response, or cancel it, before changing credentials"
            )

    def _load_snapshot(self, snapshot: bytes) -> None:
        """Replaces the credentials by those of a snapshot. The clock and the clients' channels are kept."""
        with self._acquire_lock():
            self._check_idle()
            engine = self._make_engine(snapshot)
            before = self._engine
            self._close_recording(before.counts() if isinstance(before, InProcessKey) else before.finish())
            self._resume(snapshot, engine)

    def _update_in_process(self, change: Callable[[InProcessKey], bool]) -> bool:
        """Changes the credentials of a key in this process. If this is not possible, returns False and changes
        nothing."""
        with self._acquire_lock():
            self._check_idle()
            engine = self._engine
            if not isinstance(engine, InProcessKey) or not self._is_open:
                return False
            counts = engine.counts()
            if not change(engine):
                return False
            self._close_recording(counts)
            self._resume(engine.snapshot(b""), engine)
            return True

    def _close_recording(self, counts: bytes) -> None:
        """Ends a recording with its totals line."""
        self._append_log(counts)
        self._ended.append(Recording(self._start, bytes(self._log)))

    def _resume(self, snapshot: bytes, engine: Engine) -> None:
        """Starts a session with other credentials. The clock and the clients' channels are kept."""
        now, waiting = self._time, self._packets
        self._begin(snapshot, engine)
        self._time = now
        self._add_exchange_comment(_CHANGED_COMMENT)
        self._play("t")
        for _ in range(self._channels):
            self._play(">", _INIT_PACKETS)
        self._packets = waiting

    def restart(self) -> None:
        """Power-cycles the key. Credentials are kept; channels, queued packets and the clock are lost."""
        with self._acquire_lock():
            snapshot = self.snapshot()
            engine = self._make_engine(snapshot)
            self._end_session()
            self._channels = 0
            self._begin(snapshot, engine)

    @property
    def revision(self) -> int:
        """A number that increases with each input and each change of credentials, and so whenever the result of `dumps`
        changes."""
        return self._revision

    def save(self, path: str | os.PathLike[str]) -> None:
        """Writes the credentials and their private keys, in clear text, to a file for `load`."""
        file = check_path("path", path)
        write_private(file, (self.dumps() + "\n").encode())

    def dumps(self) -> str:
        """Returns the credentials and their private keys, in clear text, as a str for `loads`."""
        with self.ceremony():
            return self._to_members()

    def _to_members(self) -> str:
        held = list(self.credentials)
        cores = [self.core_id(credential.id) for credential in held]
        keys = {core: self.private_keys[core] for core in cores if core in self.private_keys}
        others, extensions = self._metadata.others, self._metadata.extensions
        written = {
            "form": _FORMAT,
            "snapshot": b64encode(self.snapshot()).decode(),
            "private_keys": {core.hex(): b64encode(private_keys.to_pkcs8(key)).decode() for core, key in keys.items()},
            "ids": {core.hex(): credential.id.hex() for core, credential in zip(cores, held) if core != credential.id},
            "backups": {
                core.hex(): [*credential.backup] for core, credential in zip(cores, held) if any(credential.backup)
            },
            **_write_members("others", {core: private_keys.to_pkcs8(others[core]) for core in cores if core in others}),
            **_write_members(
                "extensions", {core: cbor.encode(extensions[core]) for core in cores if core in extensions}
            ),
        }
        return json.dumps(add_checksum(written), indent=1)

    @classmethod
    def load(cls: type[_Key], path: str | os.PathLike[str], *, sign_count_margin: int = 0, **options: Any) -> _Key:
        """Returns a key from a file written by `save`. Signature counters are increased by the margin; see `loads`."""
        file = check_path("path", path)
        try:
            text = file.read_text(encoding="ascii")
        except UnicodeDecodeError as error:
            raise ArgumentError(f"{path} was not written by SecurityKey.save: {error}") from None
        return cls._from_text(str(path), text, sign_count_margin, options)

    @classmethod
    def loads(cls: type[_Key], text: str, *, sign_count_margin: int = 0, **options: Any) -> _Key:
        """Returns a key from a str returned by `dumps`.

        sign_count_margin   added to each signature counter. A service refuses a counter it has seen, so a text that may
                            be older than the last sign-in needs a margin above the number of sign-ins since.
        """
        if not isinstance(text, str):
            raise ArgumentTypeError(f"the text must be str, not {type(text).__name__}")
        return cls._from_text("the text", text, sign_count_margin, options)

    @classmethod
    def _from_text(cls: type[_Key], path: str, text: str, sign_count_margin: int, options: dict[str, Any]) -> _Key:
        """Returns a key from a saved text. Error messages name the path."""
        margin = check_int("sign_count_margin", sign_count_margin, 0, 2**32 - 1)
        try:
            kept = json.loads(text)
            form, snapshot, private = kept["form"], _decode_base64(kept["snapshot"]), kept["private_keys"]
            held = {
                bytes.fromhex(core): private_keys.load_private_key(_decode_base64(key)) for core, key in private.items()
            }
            ids = {bytes.fromhex(core): bytes.fromhex(page) for core, page in kept.get("ids", {}).items()}
            backups = {bytes.fromhex(core): Backup(*flags) for core, flags in kept.get("backups", {}).items()}
            others, extensions = (_read_members(kept, name) for name in ("others", "extensions"))
        except (ValueError, LookupError, TypeError, AttributeError, RecursionError) as error:
            raise ArgumentError(f"{path} was not written by SecurityKey.save: {error}") from None
        if form != _FORMAT:
            raise ArgumentError(f"{path} has the format {form!r}; expected {_FORMAT!r}")
        verify_checksum(path, kept)
        if margin:
            raised = [
                (credential, min(credential.sign_count + margin, 2**32 - 1)) for credential in read_snapshot(snapshot)
            ]
            snapshot = write_snapshot([replace(credential, sign_count=sign_count) for credential, sign_count in raised])
        key = cls(snapshot=snapshot, private_keys=held, **options)
        for core, name in ids.items():
            key._metadata.name(core, name)
        for core, backup in backups.items():
            key._metadata.back_up(core, backup)
        for core, encoded in others.items():
            key._metadata.others[core] = load_other_key(encoded)
        key._metadata.extensions.update((core, cbor.decode(encoded)) for core, encoded in extensions.items())
        return key

    def clear_recordings(self) -> None:
        """Starts a new recording with the current credentials, and drops earlier recordings to limit memory use."""
        with self.ceremony():
            self._load_snapshot(self.snapshot())
            self._ended.clear()

    # Clients.

    def serve(self, channel: int, data: bytes, limit: int) -> bytes | None:
        """Serves a CBOR request on a client's channel, and returns the response if possible.

        If None is returned, the client must write and read packets itself. `limit` is the timestamp at which the client
        would cancel the request.
        """
        return serve(self, channel, data, limit)

    def device(self) -> Any:
        """Returns a CtapDevice for python-fido2's clients."""
        from .device import KeyDevice

        return KeyDevice(self)

    def browser(self, origin: str) -> Browser:
        """Returns a browser at an origin such as http://localhost:5000, for WebAuthn's JSON."""
        from .browser import Browser

        return Browser(self, origin)

    def _end_session(self) -> None:
        """Ends the session, and keeps the session's recording."""
        if self._is_open:
            self._is_open = False
            self._close_recording(self._engine.finish())

    def close(self) -> None:
        """Closes the key. The recordings are kept."""
        if self._owner != os.getpid():
            return  # a child of os.fork must not close its parent's key
        with self._acquire_lock():
            if self._is_open:
                self._end_session()
                del self._ended[-1]
            self._changed.notify_all()

    def __enter__(self: _Key) -> _Key:
        return self

    def __exit__(self, *_: object) -> None:
        self.close()
