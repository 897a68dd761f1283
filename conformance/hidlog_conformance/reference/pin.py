"""The PIN of the reference authenticator: both protocols, retries and tokens (CTAP 2.1, 6.5)."""

from __future__ import annotations

import hashlib
import hmac
import os
from typing import Any, Dict, Generator, Tuple

from cryptography.hazmat.primitives import hashes
from cryptography.hazmat.primitives.asymmetric import ec
from cryptography.hazmat.primitives.ciphers import Cipher, algorithms, modes
from cryptography.hazmat.primitives.kdf.hkdf import HKDF

INVALID_PARAMETER, MISSING, PIN_INVALID, PIN_BLOCKED, AUTH_INVALID = 0x02, 0x14, 0x31, 0x32, 0x33
AUTH_BLOCKED, NOT_SET, POLICY, UNAUTHORIZED = 0x34, 0x35, 0x37, 0x40
NOT_ALLOWED, INVALID_SUBCOMMAND = 0x30, 0x3E
USER_INVALID, USER_BLOCKED, USER_TIMEOUT = 0x3F, 0x3C, 0x2F
MAKE, GET, MANAGE, ENROLL, WRITE, CONFIGURE = 0x01, 0x02, 0x04, 0x08, 0x10, 0x20
RETRIES, IN_A_ROW, USER_RETRIES = 8, 3, 5
# The minimum length of a PIN in characters, unless getInfo has minPINLength.
SHORTEST_PIN = 4
# The subcommands getPinUvAuthTokenUsingUvWithPermissions and getUVRetries.
USER_TOKEN, GET_USER_RETRIES = 6, 7


class RequestError(Exception):
    """Ends a request with an error status."""

    def __init__(self, status: int) -> None:
        super().__init__(status)
        self.status = status


def cipher(key: bytes, vector: bytes) -> Any:
    """Returns AES-256-CBC."""
    return Cipher(algorithms.AES(key), modes.CBC(vector))


def to_cose_key(private: Any) -> Dict[int, Any]:
    """Returns the public key agreement key."""
    public = private.public_key().public_numbers()
    return {1: 2, 3: -25, -1: 1, -2: public.x.to_bytes(32, "big"), -3: public.y.to_bytes(32, "big")}


class Protocol:
    """One PIN/UV auth protocol: key agreement, encryption, authentication."""

    def __init__(self, number: int) -> None:
        self.number = number
        self.private = ec.generate_private_key(ec.SECP256R1())

    def renew(self) -> None:
        """Makes a new key agreement key."""
        self.private = ec.generate_private_key(ec.SECP256R1())

    def compute_secret(self, peer: Any) -> bytes:
        """Returns the shared secret: one key, or the HMAC and AES keys joined."""
        try:
            x, y = int.from_bytes(peer[-2], "big"), int.from_bytes(peer[-3], "big")
            public = ec.EllipticCurvePublicNumbers(x, y, ec.SECP256R1()).public_key()
        except (KeyError, TypeError, ValueError):
            raise RequestError(INVALID_PARAMETER) from None
        z = self.private.exchange(ec.ECDH(), public)
        if self.number == 1:
            return hashlib.sha256(z).digest()
        parts = (HKDF(hashes.SHA256(), 32, bytes(32), info) for info in (b"CTAP2 HMAC key", b"CTAP2 AES key"))
        return b"".join(part.derive(z) for part in parts)

    def encrypt(self, key: bytes, data: bytes) -> bytes:
        """Encrypts whole blocks."""
        vector = bytes(16) if self.number == 1 else os.urandom(16)
        done = cipher(key[-32:], vector).encryptor().update(data)
        return bytes(done) if self.number == 1 else vector + bytes(done)

    def decrypt(self, key: bytes, data: bytes) -> bytes:
        """Decrypts whole blocks."""
        vector, rest = (bytes(16), data) if self.number == 1 else (data[:16], data[16:])
        if len(rest) % 16 or len(vector) != 16:
            raise RequestError(INVALID_PARAMETER)
        return bytes(cipher(key[-32:], vector).decryptor().update(rest))

    def authenticate(self, key: bytes, data: bytes) -> bytes:
        """Returns the pinUvAuthParam of a message."""
        whole = hmac.new(key[:32], data, hashlib.sha256).digest()
        return whole[:16] if self.number == 1 else whole

    def verify(self, key: bytes, data: bytes, param: bytes) -> bool:
        """Returns whether a message's pinUvAuthParam is right."""
        return hmac.compare_digest(self.authenticate(key, data), param)


class Pin:
    """The PIN, its retries, and the token."""

    def __init__(
        self, numbers: Tuple[int, ...], pin: str, permitted: int = MAKE | GET | MANAGE, shortest: int = SHORTEST_PIN
    ) -> None:
        self.permitted = permitted
        self.shortest = shortest
        self.protocols = {number: Protocol(number) for number in numbers}
        self.hash = hashlib.sha256(pin.encode()).digest()[:16] if pin else b""
        # The PIN's length in characters, and whether it must be changed before it is used (6.11.4).
        self.length = len(pin)
        self.must_change = False
        self.retries = RETRIES
        self.user_retries = USER_RETRIES
        self.in_a_row = 0
        self.token = os.urandom(32)
        self.permissions = 0
        self.rp = ""
        # Whether the token still carries user presence.
        self.present = False

    def power_cycle(self) -> None:
        """Makes new key agreement keys and a new token, and resets the count of consecutive wrong PINs (6.5.5.1)."""
        self.in_a_row = 0
        self.token, self.permissions = os.urandom(32), 0
        for protocol in self.protocols.values():
            protocol.renew()

    def clear_permissions(self) -> None:
        """Clears all permissions of the token except lbw (6.5.2.1)."""
        self.permissions &= WRITE

    def protocol(self, asked: Dict[int, Any], key: int) -> Protocol:
        """Returns the protocol of a request."""
        if key not in asked:
            raise RequestError(MISSING)
        found = self.protocols.get(asked[key]) if isinstance(asked[key], int) else None
        if found is None:
            raise RequestError(INVALID_PARAMETER)
        return found

    def require_parameters(self, asked: Dict[int, Any], *keys: int) -> None:
        """Refuses missing parameters."""
        if any(key not in asked for key in keys):
            raise RequestError(MISSING)

    def serve(self, asked: Dict[int, Any]) -> Dict[int, Any]:
        """Serves authenticatorClientPIN."""
        self.require_parameters(asked, 2)
        served = {1: self.get_retries, 2: self.agree, 3: self.set, 4: self.change, 5: self.old_token, 9: self.new_token}
        if asked[2] not in served:
            raise RequestError(INVALID_SUBCOMMAND)
        return served[asked[2]](asked)

    def get_retries(self, asked: Dict[int, Any]) -> Dict[int, Any]:
        """Returns the PIN retries."""
        return {3: self.retries, 4: self.in_a_row >= IN_A_ROW}

    def agree(self, asked: Dict[int, Any]) -> Dict[int, Any]:
        """Returns the key agreement key."""
        return {1: to_cose_key(self.protocol(asked, 1).private)}

    def new_pin(self, protocol: Protocol, key: bytes, encrypted: bytes) -> None:
        """Sets a new PIN, of at least minPINLength characters and at most 63 bytes."""
        padded = protocol.decrypt(key, encrypted)
        if len(padded) != 64:
            raise RequestError(INVALID_PARAMETER)
        pin = padded.rstrip(b"\0")
        if not self.is_long_enough(pin):
            raise RequestError(POLICY)
        found = hashlib.sha256(pin).digest()[:16]
        if self.must_change and found == self.hash:
            raise RequestError(POLICY)
        self.hash, self.length, self.must_change = found, len(pin.decode("utf-8", "replace")), False
        self.retries, self.in_a_row = RETRIES, 0

    def is_long_enough(self, pin: bytes) -> bool:
        """Returns whether a PIN has a valid length."""
        return len(pin.decode("utf-8", "replace")) >= self.shortest and len(pin) <= 63

    def set(self, asked: Dict[int, Any]) -> Dict[int, Any]:
        """Sets the first PIN."""
        protocol = self.protocol(asked, 1)
        self.require_parameters(asked, 3, 4, 5)
        if self.hash:
            raise RequestError(AUTH_INVALID)
        key = protocol.compute_secret(asked[3])
        if not protocol.verify(key, asked[5], asked[4]):
            raise RequestError(AUTH_INVALID)
        self.new_pin(protocol, key, asked[5])
        return {}

    def change(self, asked: Dict[int, Any]) -> Dict[int, Any]:
        """Changes the PIN."""
        protocol = self.protocol(asked, 1)
        self.require_parameters(asked, 3, 4, 5, 6)
        self.check_not_blocked()
        key = protocol.compute_secret(asked[3])
        if not protocol.verify(key, asked[5] + asked[6], asked[4]):
            raise RequestError(AUTH_INVALID)
        self.compare(protocol, key, asked[6])
        self.new_pin(protocol, key, asked[5])
        self.token = os.urandom(32)
        return {}

    def check_not_blocked(self) -> None:
        """Refuses if no PIN is set, or the PIN is blocked."""
        if not self.hash:
            raise RequestError(NOT_SET)
        if not self.retries:
            raise RequestError(PIN_BLOCKED)
        if self.in_a_row >= IN_A_ROW:
            raise RequestError(AUTH_BLOCKED)

    def compare(self, protocol: Protocol, key: bytes, encrypted: bytes) -> None:
        """Compares a PIN; a wrong one decrements the retries and renews the key agreement key."""
        self.retries -= 1
        if not self.is_same_pin(protocol.decrypt(key, encrypted)):
            protocol.renew()
            self.in_a_row += 1
            if not self.retries:
                raise RequestError(PIN_BLOCKED)
            raise RequestError(AUTH_BLOCKED if self.in_a_row >= IN_A_ROW else PIN_INVALID)
        self.retries, self.in_a_row = RETRIES, 0

    def is_same_pin(self, param: bytes) -> bool:
        """Returns whether a hash is the stored PIN hash."""
        return hmac.compare_digest(param, self.hash)

    def grant(self, protocol: Protocol, key: bytes, permissions: int, rp: str) -> Dict[int, Any]:
        """Returns a new token."""
        self.token = os.urandom(32)
        self.permissions, self.rp, self.present = permissions, rp, False
        return {2: protocol.encrypt(key, self.token)}

    def old_token(self, asked: Dict[int, Any]) -> Dict[int, Any]:
        """getPinToken: returns a token for registrations and sign-ins."""
        protocol = self.protocol(asked, 1)
        self.require_parameters(asked, 3, 6)
        if 9 in asked or 10 in asked:
            raise RequestError(INVALID_PARAMETER)
        self.check_not_blocked()
        key = protocol.compute_secret(asked[3])
        self.compare(protocol, key, asked[6])
        self.check_unchanged()
        return self.grant(protocol, key, MAKE | GET, "")

    def check_unchanged(self) -> None:
        """Refuses a token if the PIN must be changed first."""
        if self.must_change:
            raise RequestError(POLICY)

    def new_token(self, asked: Dict[int, Any]) -> Dict[int, Any]:
        """getPinUvAuthTokenUsingPinWithPermissions: returns a token with permissions."""
        protocol = self.protocol(asked, 1)
        self.require_parameters(asked, 3, 6, 9)
        self.check_permissions(asked)
        self.check_not_blocked()
        key = protocol.compute_secret(asked[3])
        self.compare(protocol, key, asked[6])
        self.check_unchanged()
        return self.grant(protocol, key, asked[9], asked.get(10, ""))

    def check_permissions(self, asked: Dict[int, Any]) -> None:
        """Refuses unsupported permissions, and mc and ga without an RP ID."""
        permissions = asked[9]
        if not permissions or permissions & (MAKE | GET) and 10 not in asked:
            raise RequestError(INVALID_PARAMETER if not permissions else MISSING)
        if permissions & ~self.permitted:
            raise RequestError(UNAUTHORIZED)

    def user_token(self, asked: Dict[int, Any]) -> Generator[None, str, Dict[int, Any]]:
        """getPinUvAuthTokenUsingUvWithPermissions: returns a token after built-in user verification."""
        protocol = self.protocol(asked, 1)
        self.require_parameters(asked, 3, 9)
        self.check_permissions(asked)
        key = protocol.compute_secret(asked[3])
        if not self.user_retries:
            raise RequestError(USER_BLOCKED)
        reply = yield
        self.take_user_reply(reply)
        answer = self.grant(protocol, key, asked[9], asked.get(10, ""))
        self.present = True
        return answer

    def take_user_reply(self, reply: str) -> None:
        """Decrements the user verification retries on failure, and restores them on success."""
        if reply == "timeout":
            raise RequestError(USER_TIMEOUT)
        if reply != "granted":
            self.user_retries -= 1
            raise RequestError(USER_INVALID if self.user_retries else USER_BLOCKED)
        self.user_retries = USER_RETRIES

    def get_user_retries(self, asked: Dict[int, Any]) -> Dict[int, Any]:
        """Returns the user verification retries."""
        return {5: self.user_retries}

    def check(self, protocol: Protocol, data: bytes, param: bytes, permission: int, rp: str) -> None:
        """Refuses a request with a wrong pinUvAuthParam, or whose token lacks the permission or RP ID."""
        if not self.is_authentic(protocol, data, param):
            raise RequestError(AUTH_INVALID)
        if not self.permissions & permission or (self.rp and rp and self.rp != rp):
            raise RequestError(AUTH_INVALID)
        if not self.rp and rp:
            self.rp = rp

    def is_authentic(self, protocol: Protocol, data: bytes, param: bytes) -> bool:
        """Returns whether a request has the right pinUvAuthParam."""
        return protocol.verify(self.token, data, param)
