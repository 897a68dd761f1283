#!/usr/bin/env python3
"""Uses credential management with python-fido2: python_stored.py PROTOCOL [uv]

Registers with large blob keys, lists, renames and deletes credentials, and writes a large blob. `uv` uses built-in user
verification instead of a PIN. Writes and reads packets as lines, and ends with a line `ok` or `refused`."""

from __future__ import annotations

import os
import sys
from typing import Any, List

HERE = os.path.dirname(os.path.abspath(__file__))
sys.path.insert(0, os.path.join(HERE, "..", "clients"))

from fido2.ctap import CtapError  # noqa: E402
from fido2.ctap2 import AttestationObject, ClientPin, CredentialManagement, Ctap2, LargeBlobs  # noqa: E402
from fido2.ctap2 import PinProtocolV1, PinProtocolV2  # noqa: E402
import python_fido2 as client  # noqa: E402

RP, OTHER, HASH = "example.com", "example.org", b"\x33" * 32
ES256 = [{"alg": -7, "type": "public-key"}]
UV = 0x04
MAY, FOUND = ClientPin.PERMISSION, CredentialManagement.RESULT
BLOB = b"a large blob, " * 40


class Stored:
    """The client's side."""

    def __init__(self, number: int, by_user: bool) -> None:
        self.ctap = Ctap2(client.device())
        self.protocol = {1: PinProtocolV1, 2: PinProtocolV2}[number]()
        self.pin = ClientPin(self.ctap, self.protocol)
        self.by_user = by_user
        if not by_user:
            self.pin.set_pin("1234")

    def token(self, permission: Any, rp: Any = None) -> bytes:
        """Returns a token, by PIN or built-in user verification."""
        found = (
            self.pin.get_uv_token(permission, rp) if self.by_user else self.pin.get_pin_token("1234", permission, rp)
        )
        return bytes(found)

    def register(self, rp: str, name: str) -> AttestationObject:
        """Registers a discoverable credential with a large blob key."""
        param = self.protocol.authenticate(self.token(MAY.MAKE_CREDENTIAL, rp), HASH)
        user = {"id": name.encode(), "name": name, "displayName": name.title()}
        extensions, options = {"largeBlobKey": True, "credProtect": 2}, {"rk": True}
        arguments = (HASH, {"id": rp, "name": rp}, user, ES256, None, extensions, options, param, self.protocol.VERSION)
        made = self.ctap.make_credential(*arguments)
        if not made.auth_data.flags & UV or len(made.data[AttestationObject.KEY.LARGE_BLOB_KEY]) != 32:
            raise ValueError("no user verification, or no large blob key")
        return made

    def management(self) -> Any:
        """Returns python-fido2's credential management."""
        return CredentialManagement(self.ctap, self.protocol, self.token(MAY.CREDENTIAL_MGMT))


def expect_equal(what: str, found: Any, expected: Any) -> None:
    """Raises an error unless a value is the expected one."""
    if found != expected:
        raise ValueError(f"{what}: {found!r} instead of {expected!r}")


def check_listed(stored: Stored, made: List[Any]) -> None:
    """Lists RPs and credentials, and compares them with the registrations."""
    expect_equal("the count", stored.management().get_metadata()[FOUND.EXISTING_CRED_COUNT], len(made))
    rps = stored.management().enumerate_rps()
    expect_equal("the RPs", sorted(rp[FOUND.RP]["id"] for rp in rps), [RP, OTHER])
    digest = next(rp[FOUND.RP_ID_HASH] for rp in rps if rp[FOUND.RP]["id"] == RP)
    found = {cred[FOUND.CREDENTIAL_ID]["id"]: cred for cred in stored.management().enumerate_creds(digest)}
    for one in made[:2]:
        data, item = one.auth_data.credential_data, found[one.auth_data.credential_data.credential_id]
        expect_equal("the public key", item[FOUND.PUBLIC_KEY], dict(data.public_key))
        expect_equal("the protection", item[FOUND.CRED_PROTECT], 2)
        expect_equal("the large blob key", item[FOUND.LARGE_BLOB_KEY], one.data[AttestationObject.KEY.LARGE_BLOB_KEY])
    expect_equal("the credentials of the RP", len(found), 2)


def check_changes(stored: Stored, made: List[Any]) -> None:
    """Renames one and deletes another."""
    first, second = ({"id": one.auth_data.credential_data.credential_id, "type": "public-key"} for one in made[:2])
    stored.management().update_user_info(first, {"id": b"alice", "name": "renamed", "displayName": "Renamed"})
    stored.management().delete_cred(second)
    digest = made[0].auth_data.rp_id_hash
    (left,) = stored.management().enumerate_creds(digest)
    expect_equal("the credential that is left", left[FOUND.CREDENTIAL_ID]["id"], first["id"])
    expect_equal("its user's name", left[FOUND.USER]["name"], "renamed")


def check_blobs(stored: Stored, made: List[Any]) -> None:
    """Writes a large blob, and reads it by its key and by another one."""
    keys = [one.data[AttestationObject.KEY.LARGE_BLOB_KEY] for one in made]
    store = LargeBlobs(stored.ctap, stored.protocol, stored.token(MAY.LARGE_BLOB_WRITE))
    expect_equal("what it begins with", store.read_blob_array(), [])
    store.put_blob(keys[0], BLOB)
    expect_equal("the blob", store.get_blob(keys[0]), BLOB)
    expect_equal("the blob of another key", store.get_blob(keys[1]), None)


def main(words: List[str]) -> int:
    """Registers, lists, renames, deletes and writes."""
    stored = Stored(int(words[0]), "uv" in words)
    if stored.by_user:
        expect_equal("the user verification retries", stored.pin.get_uv_retries()[0], 5)
    made = [stored.register(RP, "alice"), stored.register(RP, "bob"), stored.register(OTHER, "alice")]
    check_listed(stored, made)
    check_changes(stored, made)
    check_blobs(stored, made)
    print("ok", flush=True)
    return 0


if __name__ == "__main__":
    try:
        sys.exit(main(sys.argv[1:]))
    except (CtapError, ValueError, KeyError, TypeError, AttributeError) as fault:
        print(f"refused {fault!r}", flush=True)
        sys.exit(1)
