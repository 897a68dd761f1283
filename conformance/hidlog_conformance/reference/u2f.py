"""U2F of the reference authenticator: CTAP1 registrations and sign-ins in CTAPHID_MSG."""

from __future__ import annotations

import os
from typing import TYPE_CHECKING, Tuple

from hidlog_conformance.reference.credential import ES256, Credential, new_key, signed

if TYPE_CHECKING:
    from hidlog_conformance.reference.authenticator import Authenticator

OK, NOT_SATISFIED, WRONG_DATA, WRONG_LENGTH = b"\x90\0", b"\x69\x85", b"\x6a\x80", b"\x67\0"
NO_CLASS, NO_INSTRUCTION = b"\x6e\0", b"\x6d\0"
# Milliseconds after a touch within which a U2F request may use it.
RECENT = 10000


class U2f:
    """Serves APDUs."""

    def __init__(self, authenticator: Authenticator) -> None:
        self.authenticator = authenticator
        self.touched = -RECENT

    def is_user_present(self, at: int) -> bool:
        """Returns whether the user touched recently; each touch counts once."""
        recent = at - self.touched < RECENT
        self.touched = -RECENT
        return recent

    def serve(self, at: int, apdu: bytes) -> bytes:
        """Processes an APDU with a three-byte length, or without data."""
        if len(apdu) < 4:
            return WRONG_LENGTH
        if apdu[0]:
            return NO_CLASS
        if apdu[1] == 3:
            return b"U2F_V2" + OK if len(apdu) in (4, 7) else WRONG_LENGTH
        if apdu[1] not in (1, 2):
            return NO_INSTRUCTION
        length = int.from_bytes(apdu[5:7], "big")
        data = apdu[7 : 7 + length]
        if len(apdu) < 7 or len(data) != length:
            return WRONG_LENGTH
        return self.register(at, data) if apdu[1] == 1 else self.sign(at, apdu[2], data)

    def register(self, at: int, data: bytes) -> bytes:
        """Registers: challenge and application of 32 bytes each."""
        if len(data) != 64:
            return WRONG_LENGTH
        if not self.is_user_present(at):
            return NOT_SATISFIED
        new = Credential(os.urandom(64), data[32:].hex(), {"id": b""}, False, ES256, new_key(ES256))
        self.authenticator.credentials.append(new)
        cose = new.cose()
        point: bytes = b"\4" + cose[-2] + cose[-3]
        attestor = self.authenticator.attestor
        signature = attestor.sign(b"\0" + data[32:] + data[:32] + new.id + point)
        return b"\5" + point + bytes([len(new.id)]) + new.id + attestor.certificate + signature + OK

    def find_credential(self, data: bytes) -> Tuple[bool, Credential]:
        """Returns the credential of a request, if any."""
        handle = data[65 : 65 + data[64]]
        for one in self.authenticator.credentials:
            if one.id == handle and one.rp == data[32:64].hex():
                return True, one
        return False, Credential(b"", "", {}, False, ES256, None)

    def sign(self, at: int, control: int, data: bytes) -> bytes:
        """Signs; with check-only, returns whether the key handle is known."""
        if len(data) < 66:
            return WRONG_LENGTH
        there, one = self.find_credential(data)
        if not there:
            return WRONG_DATA
        if control == 7 or not self.is_user_present(at):
            return NOT_SATISFIED
        start = b"\1" + self.authenticator.increment_counter(one).to_bytes(4, "big")
        return start + signed(one.private, ES256, data[32:64] + start + data[:32]) + OK
