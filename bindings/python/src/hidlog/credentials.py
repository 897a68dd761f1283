"""The credentials of a key, and snapshots of credentials."""

from __future__ import annotations

from collections.abc import Callable, Iterable, Iterator, Sequence
from contextlib import AbstractContextManager
from dataclasses import dataclass, fields, replace
from functools import wraps
from hashlib import sha256
from typing import TYPE_CHECKING, Any, Protocol, TypeVar, cast, overload

from . import algorithms, cbor, private_keys
from .errors import (
    ArgumentError,
    SnapshotError,
    check_bytes,
    check_choice,
    check_int,
    encode_utf8,
    get_renamed,
    make_unknown_name_error,
)
from .credential_metadata import CORE_ID, MAX_ID, Backup, CredentialMetadata

if TYPE_CHECKING:
    from .in_process_key import InProcessKey

_MAX_SIGN_COUNT = 2**32 - 1
_OLD_NAMES = {"counter": "sign_count", "is_for": "belongs_to", "x": "public_key_x", "y": "public_key_y"}
_OLD_METHODS = {"change": "update", "of": "for_rp"}
_CHANGEABLE_MEMBERS = ("sign_count", "user_name", "user_id", "discoverable", "backup_eligibility", "backup_state")


def rp_hash(rp_id: str) -> bytes:
    """Returns the SHA-256 hash of an RP ID."""
    return sha256(encode_utf8("the RP ID", rp_id)).digest()


@dataclass(frozen=True)
class Credential:
    """A credential without its private key.

    rp_id_hash     SHA-256 of the RP ID.
    id             credential ID: 32 bytes if created by the key, 1 to 1023 if added by a test.
    public_key_x, public_key_y   coordinates of the public key on P-256, 32 bytes each.
    user_id        user handle, up to 64 bytes.
    user_name      user name, up to 64 bytes of UTF-8.
    discoverable   whether a sign-in without an allow list finds the credential.
    sign_count     signature counter.
    backup_eligibility, backup_state   the flags BE and BS in a browser's responses for the credential.
    algorithm      COSE algorithm of the public key for pages: ES256 (-7), EdDSA (-8) or RS256 (-257).
    large_blob     the large blob, or None.
    """

    rp_id_hash: bytes
    id: bytes
    public_key_x: bytes
    public_key_y: bytes
    user_id: bytes = b""
    user_name: str = ""
    discoverable: bool = True
    sign_count: int = 0
    backup_eligibility: bool = False
    backup_state: bool = False
    algorithm: int = -7
    large_blob: bytes | None = None

    def __post_init__(self) -> None:
        for name in ("rp_id_hash", "public_key_x", "public_key_y"):
            check_bytes(name, getattr(self, name), 32)
        if not 1 <= len(check_bytes("id", self.id)) <= MAX_ID:
            raise ArgumentError(f"id has {len(self.id)} bytes; it must have 1 to {MAX_ID}")
        if len(check_bytes("user_id", self.user_id)) > 64:
            raise ArgumentError(f"user_id has {len(self.user_id)} bytes; it must have at most 64")
        length = len(encode_utf8("user_name", self.user_name))
        if length > 64:
            raise ArgumentError(f"user_name has {length} bytes; it must have at most 64")
        for name in ("discoverable", "backup_eligibility", "backup_state"):
            check_choice(name, getattr(self, name), (True, False))
        check_int("sign_count", self.sign_count, 0, _MAX_SIGN_COUNT)

    if not TYPE_CHECKING:

        def __getattr__(self, name: str) -> Any:
            return get_renamed(self, name, _OLD_NAMES)

    @property
    def backup(self) -> Backup:
        """The flags BE and BS."""
        return Backup(self.backup_eligibility, self.backup_state)

    @classmethod
    def of_core(cls, members: dict[str, Any]) -> Credential:
        """Returns a credential of the core, without checks. Members with defaults may be left out."""
        made = object.__new__(cls)
        made.__dict__.update(_DEFAULTS, **members)
        return made

    def belongs_to(self, rp_id: str) -> bool:
        """Returns whether the credential belongs to the relying party with this ID."""
        return self.rp_id_hash == rp_hash(rp_id)


_DEFAULTS = {field.name: field.default for field in fields(Credential)}


def _encode_row(credential: Credential) -> bytes:
    """Returns a row of a version 2 snapshot: a canonical CBOR map of the members 1 to 8."""
    head, user, name = cbor.encode_head, credential.user_id, credential.user_name.encode()
    return b"".join(
        (
            b"\xa8\x01\x58\x20" + credential.rp_id_hash + b"\x02\x58\x20" + credential.id,
            b"\x03\x58\x20" + credential.public_key_x + b"\x04\x58\x20" + credential.public_key_y,
            b"\x05" + head(2, len(user)) + user,
            b"\x06\xf5\x07" if credential.discoverable else b"\x06\xf4\x07",
            head(0, credential.sign_count) + b"\x08" + head(3, len(name)) + name,
        )
    )


def write_snapshot(listed: Sequence[Credential]) -> bytes:
    """Returns a snapshot of these credentials, newest last (version 2, docs/use/PROFILE.md)."""
    if not listed:
        return b""
    if any(len(credential.id) != CORE_ID for credential in listed):
        raise ArgumentError(f"credential IDs in a snapshot must have {CORE_ID} bytes")
    return b"\xa2\x01\x02\x02" + cbor.encode_head(4, len(listed)) + b"".join(map(_encode_row, listed))


def read_snapshot(data: bytes) -> list[Credential]:
    """Returns the credentials in a snapshot of version 1 or 2, newest last."""
    if not data:
        return []
    try:
        held = _check_map("it", cbor.decode(data), (1, 2))
        check_choice("its version", held[1], (1, 2))
        if not isinstance(held[2], list):
            raise ArgumentError("its credentials are not a CBOR array")
        return [_read_credential(f"credential {number}", row) for number, row in enumerate(held[2], 1)]
    except ArgumentError as error:
        raise SnapshotError(f"not a snapshot: {error}") from None


def _check_map(name: str, value: Any, members: Iterable[int]) -> dict[int, Any]:
    """Returns a value that must be a CBOR map with these members."""
    if not isinstance(value, dict):
        raise ArgumentError(f"{name} is not a CBOR map")
    for member in members:
        if member not in value:
            raise ArgumentError(f"{name} has no member {member}")
    return value


def _read_credential(name: str, row: Any) -> Credential:
    """Returns the credential in a row. Rows of version 1 have no user name."""
    members = _check_map(name, row, range(1, 8))
    rp, credential_id, x, y, user, discoverable, sign_count = (members[number] for number in range(1, 8))
    try:
        return Credential(rp, credential_id, x, y, user, members.get(8, ""), discoverable, sign_count)
    except ArgumentError as error:
        raise ArgumentError(f"{name}: {error}") from None


_Call = TypeVar("_Call", bound=Callable[..., Any])


def _exclusively(call: _Call) -> _Call:
    """Runs a change while no other thread registers, signs in or changes credentials."""

    @wraps(call)
    def changed(self: Credentials, *args: Any, **members: Any) -> Any:
        with self._key.ceremony():
            return call(self, *args, **members)

    return cast(_Call, changed)


class _CredentialHolder(Protocol):
    """The interface of a key that Credentials needs."""

    private_keys: dict[bytes, private_keys.PrivateKey]

    _metadata: CredentialMetadata

    @property
    def algorithms(self) -> tuple[int, ...]:
        """The algorithms of credentials."""

    def supports(self, extension: str) -> bool:
        """Returns whether an extension is supported."""

    def _held(self) -> list[Credential]:
        """Returns the core's credentials, newest last."""

    def _find(self, core_id: bytes) -> Credential | None:
        """Returns the core's credential with this ID, or None."""

    @property
    def capacity(self) -> int:
        """Number of credentials that the key can store."""

    def snapshot(self) -> bytes:
        """Returns a snapshot of the credentials."""

    def _update_in_process(self, change: Callable[[InProcessKey], bool]) -> bool:
        """Changes the credentials of a key in this process. If this is not possible, returns False and changes
        nothing."""

    def _count(self) -> int:
        """Returns the number of credentials."""

    def ceremony(self) -> AbstractContextManager[Any]:
        """Returns a lock that is held for a whole registration or sign-in."""

    def _load_snapshot(self, snapshot: bytes) -> None:
        """Replaces the credentials by those of a snapshot."""

    def _random_bytes(self, count: int) -> bytes:
        """Returns `count` random bytes."""


class Credentials(Sequence[Credential]):
    """The credentials of a key, newest last.

    Each change starts a new session, which is recorded in a separate log with a snapshot of the credentials. The clock
    and the clients' channels are kept.
    """

    def __init__(self, key: _CredentialHolder):
        self._key = key

    if not TYPE_CHECKING:

        def __getattr__(self, name: str) -> Any:
            return get_renamed(self, name, _OLD_METHODS)

    def _snapshot_list(self) -> list[Credential]:
        metadata = self._key._metadata
        if metadata.is_empty:
            return self._key._held()
        return [self._describe(held) for held in self._key._held()]

    def _describe(self, held: Credential) -> Credential:
        """Returns a credential of the core with the ID that pages see and the backup flags."""
        metadata = self._key._metadata
        backup, name = metadata.backup(held.id), metadata.page_id(held.id)
        other, kept = metadata.others.get(held.id), metadata.extensions.get(held.id, {})
        if name is held.id and not backup.flags and other is None and not kept:
            return held
        return replace(
            held,
            id=name,
            backup_eligibility=backup.eligibility,
            backup_state=backup.state,
            algorithm=algorithms.ES256 if other is None else algorithms.get_algorithm(other),
            large_blob=kept.get("largeBlob") or None,
        )

    def _with_core_id(self, shown: Credential) -> Credential:
        """Returns a credential with the ID in the core."""
        core = self._key._metadata.core_id(shown.id)
        return shown if core is shown.id else replace(shown, id=core)

    def _take(self, listed: Sequence[Credential]) -> None:
        """Replaces the credentials, and drops the private keys and metadata of removed credentials."""
        before = [credential.id for credential in self._key._held()]
        rows = [self._with_core_id(credential) for credential in listed]
        self._key._load_snapshot(write_snapshot(rows))
        for row in rows:
            self._key._metadata.back_up(row.id, row.backup)
        kept = {row.id for row in rows}
        for gone in before:
            if gone not in kept:
                self._forget(gone)

    def _forget(self, core_id: bytes) -> None:
        """Drops the private key and the metadata of a credential."""
        self._key.private_keys.pop(core_id, None)
        self._key._metadata.forget(core_id)

    def _replace(self, held: Credential, changed: Credential) -> None:
        """Replaces a credential of the core by a credential with the same ID, relying party and user."""
        if not self._key._update_in_process(lambda key: key.replace_last(changed)):
            before, _, after = self._key.snapshot().partition(_encode_row(held))
            self._key._load_snapshot(before + _encode_row(changed) + after)
        self._key._metadata.back_up(changed.id, changed.backup)

    def __len__(self) -> int:
        return self._key._count()

    def __iter__(self) -> Iterator[Credential]:
        return iter(self._snapshot_list())

    @overload
    def __getitem__(self, place: int) -> Credential:
        ...

    @overload
    def __getitem__(self, place: slice) -> Sequence[Credential]:
        ...

    def __getitem__(self, place: int | slice) -> Credential | Sequence[Credential]:
        return self._snapshot_list()[place]

    def __repr__(self) -> str:
        return f"Credentials({self._snapshot_list()!r})"

    def get(self, credential_id: bytes) -> Credential:
        """Returns the credential with this ID."""
        found = self._by_page_id(check_bytes("the credential ID", credential_id))
        if found is None:
            raise ArgumentError(f"no credential with ID {credential_id.hex()}")
        return found

    def _by_page_id(self, page_id: bytes) -> Credential | None:
        held = self._key._find(self._key._metadata.core_id(page_id))
        found = held and self._describe(held)
        return found if found is not None and found.id == page_id else None

    def for_rp(self, rp_id: str) -> list[Credential]:
        """Returns the credentials of a relying party."""
        return [credential for credential in self._snapshot_list() if credential.belongs_to(rp_id)]

    @_exclusively
    def add(
        self,
        rp_id: str,
        user_id: bytes = b"",
        user_name: str = "",
        *,
        discoverable: bool = True,
        sign_count: int = 0,
        credential_id: bytes | None = None,
        private_key: algorithms.AnyKey | bytes | str | None = None,
        backup_eligibility: bool = False,
        backup_state: bool = False,
        large_blob: bytes | None = None,
    ) -> Credential:
        """Adds a credential, with a new key pair unless a private key is given.

        A private key is PEM (bytes or str), PKCS #8 in DER, or cryptography's, of one of the key's algorithms. A
        credential ID has 1 to 1023 bytes; if it does not have 32, the core uses another ID. A discoverable credential
        replaces the discoverable credential with the same relying party and user. A large blob needs the extension
        largeBlob.
        """
        private, other = self._read_private_key(private_key)
        extensions = self._read_extensions(large_blob, discoverable)
        core_id = self._key._random_bytes(CORE_ID)
        name = core_id if credential_id is None else check_bytes("credential_id", credential_id)
        made = Credential(
            rp_hash(rp_id),
            name,
            *private_keys.public_point(private),
            check_bytes("user_id", user_id),
            user_name,
            discoverable,
            sign_count,
            backup_eligibility,
            backup_state,
            algorithms.ES256 if other is None else algorithms.get_algorithm(other),
            large_blob or None,
        )
        if len(name) == CORE_ID:
            core_id = name
        if self._by_page_id(name) is not None or not self._put(replace(made, id=core_id)):
            kept = self._list_after_adding(made)
            self._key._metadata.name(core_id, name)
            self._take([*kept, made])
        self._key._metadata.name(core_id, name)
        self._key._metadata.back_up(core_id, made.backup)
        self._key.private_keys[core_id] = private
        if other is not None:
            self._key._metadata.others[core_id] = other
        if extensions:
            self._key._metadata.extensions[core_id] = extensions
        return made

    def _read_private_key(self, value: Any) -> tuple[private_keys.PrivateKey, algorithms.OtherKey | None]:
        """Returns the core's private key, and the credential's private key if the algorithm is not ES256."""
        if value is None:
            return private_keys.make_private_key(self._key._random_bytes), None
        private = algorithms.load_any_key(value)
        if isinstance(private, private_keys.PrivateKey):
            return private, None
        algorithm = algorithms.get_algorithm(private)
        if algorithm not in self._key.algorithms:
            text = f"the private key has the algorithm {algorithms.format_algorithm(algorithm)}; it must be ES256"
            raise ArgumentError(f"{text}, or one of the key's algorithms")
        return private_keys.make_private_key(self._key._random_bytes), private

    def _read_extensions(self, large_blob: bytes | None, discoverable: bool) -> dict[str, Any]:
        """Returns the extension data of an added credential."""
        kept: dict[str, Any] = {"prf": True} if self._key.supports("prf") else {}
        if large_blob is not None:
            if not self._key.supports("largeBlob") or not discoverable:
                raise ArgumentError("large_blob needs the key's extension largeBlob, and a discoverable credential")
            kept["largeBlob"] = check_bytes("large_blob", large_blob)
        return kept

    def _put(self, made: Credential) -> bool:
        """Appends a credential in the core. Returns False if the ID exists, if the credential would replace another
        one, or if the key is in a separate process."""
        return self._key._find(made.id) is None and self._key._update_in_process(lambda key: key.put(made))

    def _list_after_adding(self, made: Credential) -> list[Credential]:
        """Returns the credentials that remain after this credential is added."""
        listed = self._snapshot_list()
        if any(credential.id == made.id for credential in listed):
            raise ArgumentError(f"the key already has a credential with ID {made.id.hex()}")
        same = (made.rp_id_hash, made.user_id, True)
        is_kept = [
            not made.discoverable or (credential.rp_id_hash, credential.user_id, credential.discoverable) != same
            for credential in listed
        ]
        kept = [credential for credential, stays in zip(listed, is_kept) if stays]
        if len(kept) >= self._key.capacity:
            raise ArgumentError(f"the key is full: it has {self._key.capacity} credentials")
        return kept

    @_exclusively
    def remove(self, credential_id: bytes) -> None:
        """Removes a credential."""
        gone = self._with_core_id(self.get(credential_id)).id

        def remove(key: InProcessKey) -> bool:
            key.remove(gone)
            return True

        if not self._key._update_in_process(remove):
            self._take(
                [credential for credential in self._snapshot_list() if self._with_core_id(credential).id != gone]
            )
        self._forget(gone)

    @_exclusively
    def clear(self) -> None:
        """Removes all credentials."""
        self._take([])

    @_exclusively
    def update(self, credential_id: bytes, **members: Any) -> Credential:
        """Changes members of a credential: sign_count, user_name, user_id, discoverable or its backup flags."""
        for name in members:
            if name not in _CHANGEABLE_MEMBERS:
                raise make_unknown_name_error("member to change", name, _CHANGEABLE_MEMBERS)
        held = self.get(credential_id)
        changed = replace(held, **members)
        if (changed.user_id, changed.discoverable) == (held.user_id, held.discoverable):
            self._replace(self._with_core_id(held), self._with_core_id(changed))
            return changed
        listed = [changed if credential.id == changed.id else credential for credential in self._snapshot_list()]
        found = [(credential.rp_id_hash, credential.user_id) for credential in listed if credential.discoverable]
        if len(set(found)) < len(found):
            raise ArgumentError("two discoverable credentials would have the same relying party and user")
        self._take(listed)
        return changed
