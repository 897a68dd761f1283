"""The algorithms of credentials besides the core's ES256: EdDSA (Ed25519) and RS256, with their COSE keys (RFC 9053).

For tests only: private keys are in memory in clear text.
"""

from __future__ import annotations

from collections.abc import Callable
from typing import Union

from cryptography.hazmat.primitives import hashes, serialization
from cryptography.hazmat.primitives.asymmetric import ed25519, padding, rsa

from . import cbor, private_keys
from .authenticator_settings import ALGORITHMS as ALGORITHMS, EDDSA, ES256 as ES256, RS256
from .errors import ArgumentError

OtherKey = Union[ed25519.Ed25519PrivateKey, rsa.RSAPrivateKey]
AnyKey = Union[private_keys.PrivateKey, OtherKey]
_OTHER_KEYS = (ed25519.Ed25519PrivateKey, rsa.RSAPrivateKey)
_RSA_BITS, _RSA_EXPONENT = 2048, 65537
_NAMES = {EDDSA: "EdDSA", RS256: "RS256"}


def format_algorithm(algorithm: int) -> str:
    """Returns an algorithm's name and number."""
    return f"{_NAMES[algorithm]} ({algorithm})"


def get_algorithm(private: AnyKey) -> int:
    """Returns the algorithm of a private key."""
    if isinstance(private, ed25519.Ed25519PrivateKey):
        return EDDSA
    return RS256 if isinstance(private, rsa.RSAPrivateKey) else ES256


def make_other_key(algorithm: int, random: Callable[[int], bytes]) -> OtherKey:
    """Generates a private key: for EdDSA from 32 bytes of `random`, for RS256 always with the system's random
    source."""
    if algorithm == EDDSA:
        return ed25519.Ed25519PrivateKey.from_private_bytes(random(32))
    return rsa.generate_private_key(_RSA_EXPONENT, _RSA_BITS)


def load_other_key(encoded: bytes) -> OtherKey:
    """Returns a private key of an algorithm other than ES256 from PKCS #8 in DER."""
    private = private_keys.parse_private_key(encoded)
    if not isinstance(private, _OTHER_KEYS):
        raise ArgumentError("the private key must be an Ed25519 or RSA key")
    return private


def load_any_key(value: object) -> AnyKey:
    """Returns a private key of a supported algorithm from PEM, PKCS #8 in DER, or cryptography's type."""
    private = private_keys.parse_private_key(value)
    if isinstance(private, _OTHER_KEYS):
        return private
    try:
        return private_keys.load_private_key(private)
    except ArgumentError:
        raise ArgumentError("the private key must be a P-256 (ES256), Ed25519 or RSA key") from None


def sign_with_other_key(private: OtherKey, data: bytes) -> bytes:
    """Returns the signature of the data."""
    if isinstance(private, ed25519.Ed25519PrivateKey):
        return private.sign(data)
    return private.sign(data, padding.PKCS1v15(), hashes.SHA256())


def to_public_der(private: AnyKey) -> bytes:
    """Returns the public key as SubjectPublicKeyInfo in DER."""
    encoding, form = serialization.Encoding.DER, serialization.PublicFormat.SubjectPublicKeyInfo
    return private.public_key().public_bytes(encoding, form)


def to_cose(private: OtherKey) -> bytes:
    """Returns the public key in COSE."""
    if isinstance(private, ed25519.Ed25519PrivateKey):
        raw = private.public_key().public_bytes(serialization.Encoding.Raw, serialization.PublicFormat.Raw)
        return cbor.encode({1: 1, 3: EDDSA, -1: 6, -2: raw})
    numbers = private.public_key().public_numbers()
    modulus, exponent = (number.to_bytes((number.bit_length() + 7) // 8, "big") for number in (numbers.n, numbers.e))
    return cbor.encode({1: 3, 3: RS256, -1: modulus, -2: exponent})
