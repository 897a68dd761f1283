"""Changes the core's responses: the authenticator data, the attestation statement or the signature."""

from __future__ import annotations

from typing import Any, NamedTuple, Optional

from . import cbor


class Change(NamedTuple):
    """A change to the next response with authenticator data.

    original, data   the core's authenticator data, and what replaces it.
    faults           descriptions of the changes that injected faults made.
    statement        format and members of the attestation of a registration, if not the core's.
    signature        the signature of a sign-in, if not the core's.
    """

    original: bytes
    data: bytes
    faults: list[str]
    statement: Optional[tuple[str, dict[str, Any]]] = None
    signature: Optional[bytes] = None

    def apply(self, response: bytes) -> bytes:
        """Applies a change to a response with authenticator data. The members are those of CTAP 2.1, sections 6.1 and
        6.2."""
        if not self.statement and not self.signature and len(self.data) == len(self.original):
            return response.replace(self.original, self.data, 1)
        members: dict[int, Any] = {**cbor.decode(response[1:]), 2: self.data}
        if self.statement:
            members[1], members[3] = self.statement
        elif self.signature:
            members[3] = self.signature
        return response[:1] + cbor.encode(members)
