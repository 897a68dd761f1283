"""Key pairs on P-256, which the caller of the core has to provide. For tests only: private keys are in memory in clear
text."""

from __future__ import annotations

from collections.abc import Callable, Mapping
from hashlib import sha256
from typing import Any

from cryptography.exceptions import UnsupportedAlgorithm
from cryptography.hazmat.primitives import hashes, serialization
from cryptography.hazmat.primitives.asymmetric import ec
from cryptography.hazmat.primitives.asymmetric.utils import Prehashed

from .errors import ArgumentError, ArgumentTypeError, check_bytes, encode_utf8

PrivateKey = ec.EllipticCurvePrivateKey
_CURVE = ec.SECP256R1()
# hashlib is faster than cryptography for a few bytes.
_ECDSA_PREHASHED = ec.ECDSA(Prehashed(hashes.SHA256()))
# Private keys are the numbers from 1 to this maximum (the order of the curve, minus 1).
_MAX_PRIVATE_NUMBER = 0xFFFFFFFF00000000FFFFFFFFFFFFFFFFBCE6FAADA7179E84F3B9CAC2FC632550


def make_private_key(random: Callable[[int], bytes]) -> PrivateKey:
    """Makes a private key from 32 random bytes."""
    return ec.derive_private_key(int.from_bytes(random(32), "big") % _MAX_PRIVATE_NUMBER + 1, _CURVE)


def public_point(private: PrivateKey) -> tuple[bytes, bytes]:
    """Returns the coordinates of the public key, 32 bytes each."""
    public = private.public_key().public_numbers()
    return public.x.to_bytes(32, "big"), public.y.to_bytes(32, "big")


def sign(private: PrivateKey, data: bytes) -> bytes:
    """Returns the ES256 signature of the data, in DER."""
    return private.sign(sha256(data).digest(), _ECDSA_PREHASHED)


def to_pkcs8(private: Any) -> bytes:
    """Returns a private key as unencrypted PKCS #8 in DER."""
    encoding, form = serialization.Encoding.DER, serialization.PrivateFormat.PKCS8
    encoded: bytes = private.private_bytes(encoding, form, serialization.NoEncryption())
    return encoded


def parse_private_key(value: object) -> Any:
    """Returns a private key of any kind from PEM, PKCS #8 in DER, or cryptography's types."""
    if hasattr(value, "private_bytes"):
        return value
    data = check_bytes("the private key", encode_utf8("the private key", value) if isinstance(value, str) else value)
    is_pem = data.lstrip().startswith(b"-----BEGIN")
    load = serialization.load_pem_private_key if is_pem else serialization.load_der_private_key
    try:
        return load(data, None)
    except (ValueError, TypeError, UnsupportedAlgorithm) as error:
        raise ArgumentError(f"the private key must be unencrypted PEM or PKCS #8 in DER: {error}") from None


def load_private_key(value: object) -> PrivateKey:
    """Returns a private key on P-256 from PEM, PKCS #8 in DER, or cryptography's type."""
    private = parse_private_key(value)
    if not isinstance(private, PrivateKey) or private.curve.name != _CURVE.name:
        raise ArgumentError("the private key must be on P-256")
    return private


def to_spki(x: bytes, y: bytes) -> bytes:
    """Returns a public key as SubjectPublicKeyInfo in DER."""
    public = ec.EllipticCurvePublicNumbers(int.from_bytes(x, "big"), int.from_bytes(y, "big"), _CURVE).public_key()
    return public.public_bytes(serialization.Encoding.DER, serialization.PublicFormat.SubjectPublicKeyInfo)


def load_private_keys(value: object) -> dict[bytes, PrivateKey]:
    """Returns private keys by credential ID, from a mapping of IDs to what `load_private_key` takes, or None."""
    if not isinstance(value, (Mapping, type(None))):
        raise ArgumentTypeError(f"private_keys must map credential IDs to keys, not be {type(value).__name__}")
    return {check_bytes("a credential ID", name): load_private_key(key) for name, key in (value or {}).items()}
