"""Injected faults, to test how a client or a service handles them. They are injected outside the core.

    key.faults.bad_signature = True      # from now on
    ...
    key.faults.clear()

For each fault that takes effect, the log has a comment. The packets in the log are those of the core, so the log passes
`hidlog check`.
"""

from __future__ import annotations

from hashlib import sha256
from typing import Any

from .errors import ArgumentTypeError, check_int, describe, encode_utf8, status_code, make_unknown_name_error

_FAULTS_OFF: dict[str, Any] = {
    "status": None,
    "delay": 0,
    "truncate_by": 0,
    "bad_signature": False,
    "stale_sign_count": False,
    "wrong_rp_id": None,
}


class Faults:
    """The faults of a key, all off by default.

    status            a status, as number or name: the response to every request.
    delay             milliseconds before the signature is provided, during which the key sends KEEPALIVEs.
    truncate_by       number of bytes removed from the end of every response.
    bad_signature     sign with a different private key.
    stale_sign_count  repeat the signature counter of the last response.
    wrong_rp_id       an RP ID whose hash replaces the one in the authenticator data.
    """

    status: int | str | None
    delay: int
    truncate_by: int
    bad_signature: bool
    stale_sign_count: bool
    wrong_rp_id: str | None

    def __init__(self) -> None:
        self.clear()
        self._sign_counts: dict[bytes, int] = {}

    def clear(self) -> None:
        """Switches all faults off."""
        for name, value in _FAULTS_OFF.items():
            setattr(self, name, value)

    @property
    def active(self) -> dict[str, Any]:
        """The faults that are switched on, by name."""
        return {name: getattr(self, name) for name, off in _FAULTS_OFF.items() if getattr(self, name) != off}

    def __setattr__(self, name: str, value: Any) -> None:
        if name.startswith("_"):
            return object.__setattr__(self, name, value)
        if name not in _FAULTS_OFF:
            raise make_unknown_name_error("fault", name, _FAULTS_OFF)
        if name == "status" and value is not None:
            value = status_code(value)
        elif name in ("delay", "truncate_by"):
            check_int(name, value, 0, 2**32)
        elif isinstance(_FAULTS_OFF[name], bool) and not isinstance(value, bool):
            raise ArgumentTypeError(f"{name} must be bool, not {type(value).__name__}")
        elif name == "wrong_rp_id" and not isinstance(value, (str, type(None))):
            raise ArgumentTypeError(f"wrong_rp_id must be an RP ID or None, not {type(value).__name__}")
        if isinstance(value, str) and name == "wrong_rp_id":
            encode_utf8("wrong_rp_id", value)
        object.__setattr__(self, name, value)

    def alter_data(self, credential: bytes, data: bytes) -> tuple[bytes, list[str]]:
        """Returns authenticator data with the faults applied, and a description of each change."""
        altered, done = data, []
        if self.wrong_rp_id is not None:
            altered = sha256(self.wrong_rp_id.encode()).digest() + altered[32:]
            done.append(f"the RP ID hash is that of {describe(self.wrong_rp_id)}")
        raised = sign_count = int.from_bytes(data[33:37], "big")
        if self.stale_sign_count and raised:
            sign_count = self._sign_counts.get(credential, raised - 1)
        if sign_count != raised:
            altered = altered[:33] + sign_count.to_bytes(4, "big") + altered[37:]
            done.append(f"the signature counter is {sign_count}, not {raised}")
        self._sign_counts[credential] = sign_count
        return altered, done

    def alter_response(self, data: bytes) -> tuple[bytes, list[str]]:
        """Returns a response with the faults applied, and a description of each change."""
        done = []
        if self.truncate_by:
            data = data[: max(1, len(data) - self.truncate_by)]
            done.append(f"the response is truncated to {len(data)} bytes")
        if self.status is not None:
            data = bytes([status_code(self.status)])
            done.append(f"the response has status 0x{data[0]:02X}")
        return data, done
