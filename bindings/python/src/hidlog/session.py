"""A session of a key: exchanges packets with the client, and provides what the key needs (user presence, key pairs and
signatures)."""

from __future__ import annotations

import os
import threading
import time
from collections.abc import Callable, Iterable, Iterator, Mapping
from contextlib import AbstractContextManager, contextmanager, nullcontext
from typing import TYPE_CHECKING, Any, NamedTuple, Union
from uuid import UUID

from . import core, packets, private_keys
from .activity import Activity
from .authenticator_settings import ES256, AuthenticatorSettings
from .errors import ArgumentError, KeyClosedError, KeyForkedError, KeyTimeoutError, check_attribute, get_renamed
from .errors import check_bytes, check_callable, check_choice, check_int, check_path, check_seconds, describe
from .faults import Faults
from .in_process_key import InProcessKey
from .log_lines import Engine, Field, Need, format_comments
from .credential_metadata import CredentialMetadata
from .ctap_response import Change
from .core_additions import CoreAdditions
from .presence import Presence, User
from .private_keys import load_private_keys
from .subprocess_key import SubprocessKey
from .session_state import Exchange, PacketQueue, Time, Work
from .standard import KEEPALIVE_MS

# Slightly more than KEEPALIVE_MS, because timestamps are whole milliseconds.
_KEEPALIVE_SECONDS = (KEEPALIVE_MS + 1) / 1000
Clock = Union[str, Callable[[], int]]
# Maximum number of private keys, as a multiple of the capacity. A registration that exceeds it drops the private keys
# of removed credentials.
_MAX_PRIVATE_KEYS = 4
# Capacity of the keys of the program `hidlog`.
_PROGRAM_CAPACITY = 64
_NO_CONTEXT = nullcontext()
# Length of the client data hash, which follows the authenticator data in the signed bytes.
_HASH = 32
_OLD_NAMES = {
    "abilities": "authenticator_options",
    "delay": "presence_delay_ms",
    "forget_recordings": "clear_recordings",
    "moment": "time_ms",
    "note": "add_comment",
    "pass_time": "advance_time",
}


class Recording(NamedTuple):
    """A recorded session: the initial snapshot (empty without credentials) and the log."""

    snapshot: bytes
    log: bytes


class Session(AuthenticatorSettings):
    """The packet interface of a key. SecurityKey documents the options."""

    def __init__(
        self,
        *,
        process: bool | None = None,
        presence: Presence = "granted",
        presence_delay_ms: int = 200,
        clock: Clock = "virtual",
        timeout: float = 30.0,
        random: Callable[[int], bytes] = os.urandom,
        snapshot: bytes = b"",
        private_keys: Mapping[bytes, private_keys.PrivateKey] | None = None,
        program: str | os.PathLike[str] | None = None,
        record: bool = True,
        verification: str = "none",
        attachment: str = "cross-platform",
        has_resident_key: bool = True,
        default_backup_eligibility: bool = False,
        default_backup_state: bool = False,
        attestation: str = "self",
        aaguid: UUID | str | None = None,
        algorithms: Iterable[int] = (ES256,),
        extensions: Iterable[str] = (),
        autofill: str = "selected",
    ):
        if clock not in ("virtual", "real") and not callable(clock):
            raise ArgumentError(
                f"clock is {describe(clock)}; it must be 'virtual', 'real', or a function that returns milliseconds"
            )
        self._owner, self._work = os.getpid(), Work()
        self._changed = threading.Condition()
        self._ceremony = threading.RLock()
        self._exchange_lock = Exchange(self._ceremony)
        self._metadata, self.activity = CredentialMetadata(), Activity()
        self.faults = Faults()
        self.private_keys = load_private_keys(private_keys)
        self.presence, self.presence_delay_ms, self.timeout = presence, presence_delay_ms, timeout
        self._set_up(
            verification=verification,
            attachment=attachment,
            has_resident_key=has_resident_key,
            default_backup_eligibility=default_backup_eligibility,
            default_backup_state=default_backup_state,
            attestation=attestation,
            aaguid=aaguid,
            algorithms=algorithms,
            extensions=extensions,
            autofill=autofill,
        )
        self._no_additions = self._additions = CoreAdditions(self, self._metadata)
        self._change: Change | None = None
        self._clock: Clock = clock
        self._random = check_callable("random", random, "n random bytes for a number n")
        check_choice("record", record, (True, False))
        check_choice("process", process, (True, False, None))
        self._program, self._record = None if program is None else str(check_path("program", program)), record
        self._process = not core.supports_in_process() if process is None else process
        self._ended: list[Recording] = []
        self._channels = self._revision = 0
        self._indexes: dict[bytes, int] = {}
        start = check_bytes("the snapshot", snapshot)
        self._begin(start, self._make_engine(start))

    def __setattr__(self, name: str, value: Any) -> None:
        if name[:1] != "_":
            check_attribute(self, name, ("activity", "faults", "private_keys"))
        object.__setattr__(self, name, value)

    if not TYPE_CHECKING:

        def __getattr__(self, name: str) -> Any:
            return get_renamed(self, name, _OLD_NAMES)

    # Threads and processes.

    def _acquire_lock(self) -> threading.Condition:
        """Returns the key's lock. Raises KeyForkedError in a child of os.fork."""
        if self._owner != os.getpid():
            text = f"the key belongs to process {self._owner}, and this is process {os.getpid()}, created by os.fork"
            raise KeyForkedError(f"{text}: create a key here, or load one saved by SecurityKey.save")
        return self._changed

    def ceremony(self) -> AbstractContextManager[Any]:
        """Returns a lock for a whole registration or sign-in: other threads wait."""
        self._acquire_lock()
        return self._ceremony

    def exchange(self) -> AbstractContextManager[Any]:
        """Returns a lock for a message and its response: other threads wait."""
        self._acquire_lock()
        return self._exchange_lock

    def applying_additions(self, additions: CoreAdditions | None, is_verified: bool) -> AbstractContextManager[Any]:
        """Within the context, applies the features outside the core to the request, if any."""
        if additions is None and not is_verified:
            return _NO_CONTEXT
        return self._apply_additions(additions or CoreAdditions(self, self._metadata), is_verified)

    @contextmanager
    def _apply_additions(self, additions: CoreAdditions, is_verified: bool) -> Iterator[None]:
        additions.is_verified, self._additions = is_verified, additions
        try:
            yield
        finally:
            self._additions = self._no_additions

    def _make_engine(self, snapshot: bytes) -> Engine:
        if self._process:
            return SubprocessKey(snapshot, self._program)
        return InProcessKey(snapshot, self._indexes)

    def _begin(self, snapshot: bytes, engine: Engine) -> None:
        """Starts a session with these credentials, at timestamp 0."""
        self._engine = engine
        self._is_open = True
        self._start, self._log = snapshot, bytearray()
        self._time, self._work = Time(), Work()
        self._packets = PacketQueue()
        self._from_host, self._from_key = packets.MessageReassembler(), packets.MessageReassembler()
        # Packets of an incomplete response.
        self._response_packets: list[bytes] = []

    @property
    def capacity(self) -> int:
        """Number of credentials that the key can store: 64, or 256 if HIDLOG_LIBRARY is libhidlog-256.so.1."""
        return _PROGRAM_CAPACITY if self._process else core.capacity()

    @property
    def presence(self) -> Presence:
        """What the user does when the key asks for user presence."""
        return self._user.presence

    @presence.setter
    def presence(self, presence: Presence) -> None:
        with self._acquire_lock():
            self._user, self._work.replies = User(presence), []
            self._changed.notify_all()

    @property
    def presence_delay_ms(self) -> int:
        """Milliseconds until the user replies, in the key's time."""
        return self._presence_delay_ms

    @presence_delay_ms.setter
    def presence_delay_ms(self, presence_delay_ms: int) -> None:
        self._presence_delay_ms = check_int("presence_delay_ms", presence_delay_ms, 0, 2**32)

    @property
    def timeout(self) -> float:
        """Seconds of real time that a client waits for a user who does nothing."""
        return self._timeout

    @timeout.setter
    def timeout(self, timeout: float) -> None:
        self._timeout = check_seconds("timeout", timeout)

    @property
    def has_page_ids(self) -> bool:
        """Whether any credential has an ID for pages that differs from the ID in the core."""
        return self._metadata.has_page_ids

    def core_id(self, page_id: bytes) -> bytes:
        """Returns the core's credential ID for an ID that pages see."""
        return self._metadata.core_id(page_id)

    def page_id(self, core_id: bytes) -> bytes:
        """Returns the ID that pages see for the core's credential ID."""
        return self._metadata.page_id(core_id)

    # The clock.

    @property
    def time_ms(self) -> int:
        """Milliseconds since power-up, as in the log."""
        return self._time.latest

    def advance_time(self, milliseconds: int) -> None:
        """Advances the key's time, without waiting."""
        with self._acquire_lock():
            self._time.passed += check_int("milliseconds", milliseconds, 0, 2**48)
            self._play("t")

    def _next_time(self) -> int:
        """Returns the timestamp of the next line."""
        if self._clock == "virtual":
            self._time.passed += 1
            now = self._time.passed
        elif callable(self._clock):
            now = check_int("the clock's result", self._clock(), 0, 2**60) + self._time.passed
        else:
            now = int((time.monotonic() - self._time.started) * 1000) + self._time.passed
        self._time.latest = max(self._time.latest, now)
        return self._time.latest

    # Packets.

    def write_packet(self, packet: bytes) -> None:
        """Passes a packet from the client to the key: 64 bytes, without a report number."""
        data = check_bytes("the packet", packet, packets.PACKET)
        with self._acquire_lock():
            self._packets.record_write(data)
            message = self._from_host.add(data)
            if message and message.command == packets.CBOR and self._work.need.kind == "nothing":
                self._work.request, self._work.delayed = message, 0
            self._play(">", data)
            self._changed.notify_all()

    def read_packet(self, timeout: float | None = None) -> bytes:
        """Returns the key's next packet. Until there is one, provides what the key needs.

        If nothing arrives, blocks without using the processor, and raises KeyTimeoutError after `timeout` seconds (by
        default the key's `timeout`). If several threads write packets, each reads those of the channels on which it
        wrote.
        """
        seconds = self._timeout if timeout is None else check_seconds("timeout", timeout)
        with self._acquire_lock():
            if (packet := self._packets.take()) is not None:
                return packet
            limit = time.monotonic() + seconds
            while (packet := self._packets.take()) is None:
                self._serve(limit)
            return packet

    def _random_bytes(self, count: int) -> bytes:
        """Returns `count` random bytes."""
        return check_bytes("the result of random", self._random(count), count)

    def _serve(self, limit: float) -> None:
        """Provides what the key needs, or waits if the key needs nothing."""
        if not self._is_open:
            raise KeyClosedError("the key is closed")
        kind = self._work.need.kind
        if kind == "presence":
            self._serve_presence(limit)
        elif kind != "nothing" and self._work.delayed < self.faults.delay:
            self._work.delayed += KEEPALIVE_MS
            self._wait_for_user()
        elif kind == "key":
            self._make_key()
        elif kind == "signature":
            self._sign()
        elif self._pause(limit) and self._from_host.is_open:
            self._wait_for_user(is_over=True)

    def _pause(self, limit: float) -> bool:
        """Returns True if _KEEPALIVE_SECONDS of real time have passed since the last call that returned True.
        Otherwise waits until then or until a change, and returns False."""
        now = time.monotonic()
        if now >= self._work.waited_until:
            self._work.waited_until = now + _KEEPALIVE_SECONDS
            return True
        if now >= limit:
            raise KeyTimeoutError("timed out waiting for a packet from the key")
        self._changed.wait(min(limit, self._work.waited_until) - now)
        return False

    def _serve_presence(self, limit: float) -> None:
        """Passes the user's reply after the delay. Until then, time passes and the key sends KEEPALIVEs."""
        is_idle = self._user.presence is None or self._work.replies == [None]
        if not is_idle and self._time.latest - self._work.since_ms < self._presence_delay_ms:
            self._wait_for_user()
            return
        if not self._work.replies:
            with self._cancel_on_error():
                self._work.replies = [self._user.reply(self._work.request)]
        if self._work.replies[0] is not None:
            self._play("p", self._work.replies[0])
        elif time.monotonic() - self._work.began >= self._timeout:
            with self._cancel_on_error():
                raise KeyTimeoutError(
                    f"the user did nothing for {self._timeout} s (presence), and the client did not cancel"
                )
        elif self._pause(limit):
            self._wait_for_user(is_over=True)

    def _wait_for_user(self, is_over: bool = False) -> None:
        """Advances the key's time by KEEPALIVE_MS. With the real clock, waits for this time first, unless is_over."""
        if self._clock == "real":
            if not is_over:
                self._changed.wait(KEEPALIVE_MS / 1000)
        else:
            self._time.passed += KEEPALIVE_MS
        self._play("t")

    @contextmanager
    def _cancel_on_error(self) -> Iterator[None]:
        """Cancels the pending request if the body raises an error, so that the key can serve the next request."""
        try:
            yield
        except BaseException:
            if self._work.request and self._is_open:
                cancel = packets.Message(self._work.request.channel, packets.CANCEL, b"")
                self._play(">", packets.fragment_message(cancel)[0])
            self._packets.drop()
            raise

    def _make_key(self) -> None:
        """Provides a new key pair with a new credential ID."""
        self._play(*self.new_key())

    def new_key(self) -> tuple[str, bytes, bytes, bytes]:
        """Creates a key pair with a new credential ID, and returns the input that provides the key pair."""
        private, credential = private_keys.make_private_key(self._random_bytes), self._random_bytes(32)
        x, y = private_keys.public_point(private)
        if len(self.private_keys) >= _MAX_PRIVATE_KEYS * self.capacity and not self._process:
            self._forget_keys()
        self.private_keys[credential] = private
        self._metadata.back_up(credential, self._backup)
        self._additions.add(credential, self._random_bytes)
        return "k", credential, x, y

    def _forget_keys(self) -> None:
        """Drops the private keys of credentials that no longer exist."""
        held = {credential.id for credential in self._engine.credentials(self._log)}
        for gone in [credential_id for credential_id in self.private_keys if credential_id not in held]:
            del self.private_keys[gone]
            self._metadata.forget(gone)

    def _sign(self) -> None:
        """Provides the signature that the key needs."""
        self._play(*self.signature())

    def signature(self) -> tuple[Field, ...]:
        """Signs the bytes that the key wants signed, and returns the input that provides the signature."""
        need = self._work.need
        private = self.private_keys.get(need.credential)
        if private is None:
            return "s", "no"
        original, client_hash = need.signed[:-_HASH], need.signed[-_HASH:]
        changed, comments = self._additions.alter(need.credential, original)
        for text in comments:
            self.add_comment(f"outside of the core: {text}")
        data, faults = self.faults.alter_data(need.credential, changed)
        signed, is_bad = data + client_hash, self.faults.bad_signature
        if is_bad:
            private = private_keys.make_private_key(self._random_bytes)
            self._add_effect("signed with a different private key")
        completed = self._additions.complete(need.credential, signed, is_bad, self._random_bytes)
        is_same = data == original and not any(completed)
        self._change = None if is_same else Change(original, data, faults, *completed)
        return "s", private_keys.sign(private, signed)

    def _play(self, kind: Any, *fields: Field) -> None:
        """Passes an input to the key, and records the packets that the key sends and what the key needs."""
        if not self._is_open:
            raise KeyClosedError("the key is closed")
        text, sent, need = self._engine.play(kind, self._next_time(), fields)
        self._append_log(text)
        work = self._work
        if need.kind != work.need.kind:
            work.since_ms, work.began, work.replies = self._time.latest, time.monotonic(), []
            work.waited_until = work.began + _KEEPALIVE_SECONDS
        work.need = need
        for packet in sent:
            self._send(packet)

    def cause(self, status: int | None = None) -> str:
        """Returns the cause of the key's last rejection, such as "the user refused".

        Empty if the last input was not refused, or not with this status, and always for a key in a separate process.
        """
        with self._acquire_lock():
            return self._engine.cause(status) if self._is_open else ""

    def _append_log(self, text: bytes) -> None:
        """Appends lines to the recording. Each input and each change of credentials has lines."""
        self._revision += 1
        if self._record:
            self._log.extend(text)

    def _send(self, packet: bytes) -> None:
        """Queues a packet for the client. The packets of a response are queued together, with the faults applied."""
        command = packet[4]
        if command == 0x80 | packets.ERROR:
            self._from_host.drop()
        elif command == 0x80 | packets.INIT and int.from_bytes(packet[:4], "big") == packets.BROADCAST:
            self._channels = max(self._channels, int.from_bytes(packet[15:19], "big"))
        if command != 0x80 | packets.CBOR and not self._from_key.is_open:
            self._packets.put(packet)
            return
        message = self._from_key.add(packet)
        self._response_packets.append(packet)
        if message:
            self._send_response(message)

    def _send_response(self, message: packets.Message) -> None:
        """Queues the packets of a response with the faults applied."""
        sent, self._response_packets[:] = list(self._response_packets), []
        data = self.altered(message.data)
        if data != message.data:
            sent = packets.fragment_message(message._replace(data=data))
        for packet in sent:
            self._packets.put(packet)

    def altered(self, data: bytes) -> bytes:
        """Returns a response with the features outside the core and the active faults applied. Each fault is recorded
        as a comment."""
        change = self._change
        done: list[str] = []
        if change and change.original in data:
            data, self._change = change.apply(data), None
            done += change.faults
        data, more = self.faults.alter_response(data)
        done += more
        for text in done:
            self._add_effect(text)
        return data

    def _add_effect(self, text: str) -> None:
        """Adds what a fault changed to the log, and to the report of a failed test."""
        self.add_comment(f"fault: {text}")
        self.activity.add_effect(text)

    def _add_exchange_comment(self, line: bytes) -> None:
        """Adds a comment line to the log."""
        if not self._is_open:
            raise KeyClosedError("the key is closed")
        self._append_log(self._engine.exchange(line).text)

    # Recordings.

    def add_comment(self, text: str) -> None:
        """Adds comments to the log, one per line of text. Long lines are split."""
        lines = format_comments(text)
        with self._acquire_lock():
            for line in lines:
                self._add_exchange_comment(line)

    @property
    def log(self) -> bytes:
        """The log of the session so far. It is complete once the key is closed."""
        return bytes(self._log)
