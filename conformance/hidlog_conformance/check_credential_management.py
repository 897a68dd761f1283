"""Checks responses to authenticatorCredentialManagement and authenticatorLargeBlobs (CTAP 2.1, 6.8 and 6.10), and large
blob keys (12.3)."""

from __future__ import annotations

import hashlib
from typing import Any, Dict, List, Optional, Set

from hidlog_conformance.answers import Credential, check, get_member
from hidlog_conformance.text import quantity

COUNT, LEFT, RP, RP_HASH, RPS, USER, ID, KEY, CREDENTIALS, PROTECTION, BLOB_KEY = range(1, 12)


def hash_of(rp: str) -> bytes:
    """Returns the RP ID hash."""
    return hashlib.sha256(rp.encode()).digest()


class Listing:
    """The RPs and credentials that a device has enumerated so far. None may be enumerated twice."""

    def __init__(self, is_complete: bool = True) -> None:
        # Whether all credentials of the device are known; otherwise there may be more.
        self.is_complete = is_complete
        # The number of items left in an enumeration, if known.
        self.left: Dict[int, Optional[int]] = {RPS: None, CREDENTIALS: None}
        self.rps: Set[str] = set()
        self.ids: Set[bytes] = set()
        self.blob_keys: Dict[str, bytes] = {}
        self.blob_names: Dict[bytes, str] = {}

    def check_count(self, item: Dict[Any, Any], count: int) -> None:
        """Checks the number of stored credentials, and that the remaining capacity is present."""
        total = get_member(item, COUNT, int, "the number of credentials")
        more = "" if self.is_complete else "at least "
        check(total == count or (total > count and not self.is_complete), more + quantity(count, "credential"), item)
        check(get_member(item, LEFT, int, "the remaining capacity") >= 0, "a remaining capacity", item)

    def check_rp(self, item: Dict[Any, Any], known: List[Credential], total: Optional[int]) -> None:
        """Checks an enumerated RP. Only the first response of an enumeration has the total."""
        if total is not None:
            self.rps.clear()
        digest = get_member(item, RP_HASH, bytes, "the RP ID hash")
        rp_id = get_member(get_member(item, RP, dict, "the RP"), "id", str, "the RP ID")
        # A device may truncate an RP ID to 32 bytes.
        check(hash_of(rp_id) == digest or len(rp_id.encode()) >= 32, "the RP ID hash", item)
        found = [one.rp for one in known if one.discoverable and hash_of(one.rp) == digest]
        check(bool(found) or not self.is_complete, "an RP with a discoverable credential", item)
        name = found[0] if found else rp_id
        check(name.startswith(rp_id), f"the RP {name}", item)
        check(name not in self.rps, "an RP that was not listed before", item)
        self.rps.add(name)
        self.check_total(item, RPS, total, "RPs")

    def check_credential(self, item: Dict[Any, Any], known: List[Credential], rp: bytes, total: Optional[int]) -> None:
        """Checks an enumerated credential. Only the first response of an enumeration has the total."""
        if total is not None:
            self.ids.clear()
        descriptor = get_member(item, ID, dict, "the credential")
        check(descriptor.get("type") == "public-key", 'a credential of type "public-key"', descriptor)
        identity = get_member(descriptor, "id", bytes, "the credential ID")
        check(identity not in self.ids, "a credential that was not listed before", item)
        self.ids.add(identity)
        self.check_known([one for one in known if one.id == identity], item, rp)
        level = item.get(PROTECTION, 1)
        check(level in (1, 2, 3) and not isinstance(level, bool), "a credProtect of 1 to 3", item)
        self.check_total(item, CREDENTIALS, total, "credentials")

    def check_known(self, found: List[Credential], item: Dict[Any, Any], rp: bytes) -> None:
        """Checks an enumerated credential against its registration."""
        user = get_member(item, USER, dict, "the user")
        key = get_member(item, KEY, dict, "the public key")
        if not found and not self.is_complete:
            return
        right = bool(found) and found[0].discoverable and hash_of(found[0].rp) == rp
        check(right, "a discoverable credential of this RP", item)
        check(user.get("id") == found[0].user, f"the user {found[0].user.hex()}", user)
        check(key == found[0].cose, "the public key of the registration", item)

    def check_total(self, item: Dict[Any, Any], key: int, total: Optional[int], name: str) -> None:
        """Checks that only the first response of an enumeration has the total."""
        found, left = item.get(key), self.left[key]
        if total is None:
            check(found is None, f"no number of {name}", item)
            self.left[key] = None if left is None else left - 1
            return
        more = isinstance(found, int) and found > total and not self.is_complete
        check(found == total or more, f"{'' if self.is_complete else 'at least '}{total} {name}", item)
        self.left[key] = found - 1 if isinstance(found, int) else None

    def check_words(self, item: Dict[Any, Any], words: List[str]) -> None:
        """Checks the words of an expectation about an enumerated credential."""
        if "protect" in words:
            level = int(words[words.index("protect") + 1])
            check(item.get(PROTECTION) == level, f"a credProtect of {level}", item)
        if "name" in words:
            name = words[words.index("name") + 1]
            check(item[USER].get("name") == name, f"the user's name {name}", item)
        self.check_blob_key(item, BLOB_KEY, words)

    def check_blob_key(self, item: Dict[Any, Any], key: int, words: List[str]) -> None:
        """Checks a large blob key: each of the session's names for large blob keys stands for one key."""
        if "no-blob-key" in words:
            check(key not in item, "no large blob key", item)
        if "blob-key" not in words:
            return
        name = words[words.index("blob-key") + 1]
        found = get_member(item, key, bytes, "the large blob key")
        check(len(found) == 32, "a large blob key of 32 bytes", found)
        check(self.blob_keys.setdefault(name, found) == found, f"the large blob key {name} again", found)
        other = self.blob_names.setdefault(found, name)
        check(other == name, f"a large blob key that differs from that of {other}", found)


def check_fragment(item: Dict[Any, Any], expected: bytes) -> None:
    """Checks a fragment of the large-blob array."""
    check(get_member(item, 1, bytes, "a fragment of the array") == expected, f"the fragment {expected.hex()}", item)
