"""The platform's side of PINs, tokens and hmac-secret (CTAP 2.1, 6.5 and 12.5): replaces placeholders in requests.

Byte strings that depend on keys are placeholders: `=agreement`, the platform's key; `=encrypt:BYTES`; `=hash:PIN`, the
encrypted PIN hash; `=auth:5+6`, the pinUvAuthParam of members 5 and 6 by the shared secret; `=token:1`, the
pinUvAuthParam of member 1 by the token; `=former:1`, by the previous token; `=cut:8:1`, the first 8 bytes of
`=token:1`; `=manage`, `=config` and `=enroll`, the pinUvAuthParam of a subcommand with its parameters; `=blob`, the
pinUvAuthParam of a large-blob fragment.
"""

from __future__ import annotations

import hashlib
import hmac
import os
from dataclasses import dataclass
from typing import Any, Dict, List, Optional

from hidlog_conformance import ctap_cbor
from hidlog_conformance.answers import read_agreement_key, check, get_member
from hidlog_conformance.text import quantity

try:
    from cryptography.hazmat.primitives.asymmetric import ec
    from cryptography.hazmat.primitives.ciphers import Cipher, algorithms, modes
except ImportError:
    pass


# The data that pinUvAuthParam authenticates in commands with subcommands (6.8, 6.11, 6.7): the bytes before the
# subcommand, and the keys of the subcommand and its parameters.
COMMAND_PLACEHOLDERS = {
    b"=manage": (b"", 1, 2),
    b"=config": (b"\xff" * 32 + b"\x0d", 1, 2),
    b"=enroll": (b"\x01", 2, 3),
}
# The lowest minimum length of a PIN in characters, and the length of a padded one in bytes (6.5.1).
MIN_PIN_LENGTH, PADDED_PIN = 4, 64


def adapt_pin(pin: bytes, minimum: int) -> bytes:
    """Returns a session's PIN, adapted to a device's minimum length. A valid PIN is padded to that length; a PIN that
    is too short by the standard stays too short by as many characters."""
    length = len(pin.decode())
    if not length or length >= minimum:
        return pin
    return pin + b"0" * (minimum - max(length, MIN_PIN_LENGTH))


def derive_hkdf(secret: bytes, info: bytes) -> bytes:
    """Returns 32 bytes of HKDF-SHA-256 with a salt of zeros (RFC 5869)."""
    first = hmac.new(bytes(32), secret, hashlib.sha256).digest()
    return hmac.new(first, info + b"\1", hashlib.sha256).digest()


@dataclass
class FilledValues:
    """The values of a request's placeholders, which its bytes do not show."""

    pin: Optional[bytes] = None
    new_pin: Optional[bytes] = None
    # The index in `Platform.tokens` of the token for pinUvAuthParam, and whether pinUvAuthParam has its full length.
    token: Optional[int] = None
    is_whole: bool = True


class Platform:
    """A platform's key pair, the secret shared with a device, and the token."""

    def __init__(self, min_pin_length: int = MIN_PIN_LENGTH) -> None:
        self.min_pin_length = min_pin_length
        self.private: Any = None
        self.protocol = 0
        self.for_auth = b""
        self.for_encryption = b""
        # The last token, all tokens so far, and the values of the last request's placeholders.
        self.token = b""
        self.tokens: List[bytes] = []
        self.last_filled = FilledValues()
        self.secrets: Dict[str, bytes] = {}
        # The device's PIN, which replaces that of the session.
        self.user_pin = b""

    def agree(self, item: Dict[Any, Any], asked: Dict[Any, Any]) -> None:
        """Derives the shared secret from the device's key agreement key."""
        key = read_agreement_key(item)
        self.protocol = asked[1]
        self.private = ec.generate_private_key(ec.SECP256R1())
        x, y = int.from_bytes(key[-2], "big"), int.from_bytes(key[-3], "big")
        public = ec.EllipticCurvePublicNumbers(x, y, ec.SECP256R1()).public_key()
        z = self.private.exchange(ec.ECDH(), public)
        if self.protocol == 1:
            self.for_auth = self.for_encryption = hashlib.sha256(z).digest()
        else:
            self.for_auth, self.for_encryption = derive_hkdf(z, b"CTAP2 HMAC key"), derive_hkdf(z, b"CTAP2 AES key")

    def get_public_key(self) -> Dict[int, Any]:
        """Returns the platform's public key."""
        numbers = self.private.public_key().public_numbers()
        return {1: 2, 3: -25, -1: 1, -2: numbers.x.to_bytes(32, "big"), -3: numbers.y.to_bytes(32, "big")}

    def encrypt(self, data: bytes) -> bytes:
        """Encrypts for the device."""
        vector = bytes(16) if self.protocol == 1 else os.urandom(16)
        done: bytes = Cipher(algorithms.AES(self.for_encryption), modes.CBC(vector)).encryptor().update(data)
        return done if self.protocol == 1 else vector + done

    def decrypt(self, data: bytes) -> bytes:
        """Decrypts data from the device."""
        vector, rest = (bytes(16), data) if self.protocol == 1 else (data[:16], data[16:])
        check(bool(rest) and len(rest) % 16 == 0, "whole AES blocks", data)
        done: bytes = Cipher(algorithms.AES(self.for_encryption), modes.CBC(vector)).decryptor().update(rest)
        return done

    def authenticate(self, key: bytes, data: bytes) -> bytes:
        """Returns the pinUvAuthParam of `data`."""
        whole = hmac.new(key, data, hashlib.sha256).digest()
        return whole[:16] if self.protocol == 1 else whole

    def take_token(self, item: Dict[Any, Any]) -> None:
        """Processes a token."""
        self.token = self.decrypt(get_member(item, 2, bytes, "the token"))
        lengths = (16, 32) if self.protocol == 1 else (32,)
        check(
            len(self.token) in lengths,
            f"a token of {' or '.join(map(str, lengths))} bytes",
            quantity(len(self.token), "byte"),
        )
        self.tokens.append(self.token)

    def take_secret(self, name: str, encrypted: Any) -> None:
        """Checks hmac-secret outputs: equal for the same name, different for different names. `one+two` names two
        outputs."""
        check(isinstance(encrypted, bytes), "an encrypted secret", encrypted)
        found = self.decrypt(encrypted)
        check(len(found) in (32, 64), "one or two secrets of 32 bytes", quantity(len(found), "byte"))
        names = name.split("+")
        parts = [found[32 * place :][:32] for place in range(len(names))] if len(names) > 1 else [found]
        for name, part in zip(names, parts):
            check(self.secrets.setdefault(name, part) == part, f"the secret {name} again", part)
            others = [other for other, secret in self.secrets.items() if other != name and secret[:32] == part[:32]]
            check(not others, f"a secret that differs from {' '.join(others)}", part)

    def fill(self, request: bytes) -> bytes:
        """Returns a request with its placeholders filled in."""
        self.last_filled = FilledValues()
        if b"=" not in request:
            return request
        try:
            item = ctap_cbor.decode(request[1:])
        except ctap_cbor.CborError:
            return request
        filled = self.fill_item(item)
        return request if filled == item else request[:1] + ctap_cbor.encode(filled)

    def fill_item(self, item: Any) -> Any:
        """Returns an item with its placeholders replaced: those for encryption first, since their values are
        authenticated."""
        if isinstance(item, list):
            return [self.fill_item(part) for part in item]
        if not isinstance(item, dict):
            return self.fill_value(item)
        found = {key: self.fill_item(value) for key, value in item.items()}
        for key, value in found.items():
            if isinstance(value, bytes):
                found[key] = self.fill_auth_param(value, found)
        return found

    def fill_value(self, value: Any) -> Any:
        """Returns the value of a placeholder."""
        if value == b"=agreement":
            return self.get_public_key()
        if isinstance(value, bytes) and value.startswith(b"=encrypt:"):
            data = self.adapt_data(value[9:])
            self.last_filled.new_pin = data.rstrip(b"\0")
            return self.encrypt(data)
        if isinstance(value, bytes) and value.startswith(b"=hash:"):
            self.last_filled.pin = self.user_pin or adapt_pin(value[6:], self.min_pin_length)
            return self.encrypt(hashlib.sha256(self.last_filled.pin).digest()[:16])
        return value

    def adapt_data(self, data: bytes) -> bytes:
        """Returns data to encrypt: a padded PIN is adapted to the device's minimum length, other data is unchanged."""
        if len(data) != PADDED_PIN or data[-1]:
            return data
        return adapt_pin(data.rstrip(b"\0"), self.min_pin_length).ljust(PADDED_PIN, b"\0")

    def fill_auth_param(self, value: bytes, item: Dict[Any, Any]) -> bytes:
        """Returns the value of a placeholder for pinUvAuthParam; other byte strings are unchanged."""
        if value.startswith(b"=auth:"):
            parts = [item[int(part)] for part in value[6:].split(b"+")]
            return self.authenticate(self.for_auth, b"".join(parts))
        if value.startswith((b"=token:", b"=former:", b"=cut:")):
            return self.make_param(value[1:].split(b":"), item)
        if value == b"=blob":
            front = b"\xff" * 32 + b"\x0c\0" + item[3].to_bytes(4, "little")
            return self.authenticate(self.token, front + hashlib.sha256(item[2]).digest())
        if value in COMMAND_PLACEHOLDERS:
            front, subcommand, parameters = COMMAND_PLACEHOLDERS[value]
            more = ctap_cbor.encode(item[parameters]) if parameters in item else b""
            return self.authenticate(self.token, front + bytes([item[subcommand]]) + more)
        return value

    def make_param(self, words: List[bytes], item: Dict[Any, Any]) -> bytes:
        """Returns the pinUvAuthParam of a member by the last token or the one before it, perhaps truncated."""
        index = len(self.tokens) - (2 if words[0] == b"former" else 1)
        token = self.tokens[index] if index >= 0 else bytes(32)
        whole = self.authenticate(token, item[int(words[-1])])
        param = whole[: int(words[1])] if words[0] == b"cut" else whole
        self.last_filled.token, self.last_filled.is_whole = index, param == whole
        return param
