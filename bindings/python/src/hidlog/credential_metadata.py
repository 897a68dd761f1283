"""Metadata of credentials outside the verified core: IDs that aren't 32 bytes long, backup flags, private keys of other
algorithms, and extensions."""

from __future__ import annotations

from hashlib import sha256
from typing import TYPE_CHECKING, Any, NamedTuple

if TYPE_CHECKING:
    from .algorithms import OtherKey

CORE_ID = 32
MAX_ID = 1023
# Maximum length of an unknown ID in a request. A longer ID is replaced by its hash, so that 64 IDs fit into a message.
_MAX_SENT = 64
# Flags of authenticator data (WebAuthn Level 3, section 6.1).
UV, BE, BS = 0x04, 0x08, 0x10
_NAMES = {UV: "UV", BE: "BE", BS: "BS"}


class Backup(NamedTuple):
    """Whether a credential may be backed up (flag BE), and whether it is backed up (flag BS)."""

    eligibility: bool = False
    state: bool = False

    @property
    def flags(self) -> int:
        """Both flags as bits."""
        return BE * self.eligibility | BS * self.state


_NO_BACKUP = Backup()


class CredentialMetadata:
    """Data of credentials that the core does not store, by the core's credential ID.

    others      private keys of other algorithms than the core's ES256.
    extensions  extension data of credentials (key_extensions.py).
    """

    def __init__(self) -> None:
        self._pages: dict[bytes, bytes] = {}
        self._cores: dict[bytes, bytes] = {}
        self._backups: dict[bytes, Backup] = {}
        self.others: dict[bytes, OtherKey] = {}
        self.extensions: dict[bytes, dict[str, Any]] = {}

    @property
    def is_empty(self) -> bool:
        """Whether there is no metadata."""
        return not self._pages and not self._backups and not self.others and not self.extensions

    @property
    def has_page_ids(self) -> bool:
        """Whether any credential has an ID for pages that differs from the ID in the core."""
        return bool(self._pages)

    def name(self, core_id: bytes, page_id: bytes) -> None:
        """Sets the ID that pages see for a credential of the core."""
        if core_id != page_id:
            self._pages[core_id], self._cores[page_id] = page_id, core_id

    def page_id(self, core_id: bytes) -> bytes:
        """Returns the ID that pages see."""
        return self._pages.get(core_id, core_id)

    def core_id(self, page_id: bytes) -> bytes:
        """Returns the core's ID."""
        if len(page_id) > _MAX_SENT and page_id not in self._cores:
            return sha256(page_id).digest()
        return self._cores.get(page_id, page_id)

    def forget(self, core_id: bytes) -> None:
        """Removes the metadata of a credential."""
        self._cores.pop(self._pages.pop(core_id, b""), None)
        self._backups.pop(core_id, None)
        self.others.pop(core_id, None)
        self.extensions.pop(core_id, None)

    def back_up(self, core_id: bytes, backup: Backup) -> None:
        """Sets the backup flags of a credential."""
        if backup.flags:
            self._backups[core_id] = backup
        else:
            self._backups.pop(core_id, None)

    def backup(self, core_id: bytes) -> Backup:
        """Returns the backup flags of a credential."""
        return self._backups.get(core_id, _NO_BACKUP)


def flag_names(flags: int) -> str:
    """Returns the names of flags, separated by commas."""
    return ", ".join(name for bit, name in _NAMES.items() if flags & bit)
