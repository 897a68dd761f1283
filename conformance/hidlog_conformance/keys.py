"""Key pairs, signatures and their verification, if the package cryptography is installed."""

from __future__ import annotations

import hashlib
from functools import lru_cache
from typing import Any, Callable, Dict, Optional, Tuple

try:
    from cryptography import x509
    from cryptography.exceptions import InvalidSignature
    from cryptography.hazmat.primitives import hashes
    from cryptography.hazmat.primitives.asymmetric import ec, ed25519, padding, rsa
    from cryptography.hazmat.primitives.asymmetric.utils import Prehashed

    # ECDSA with SHA-256, of a digest.
    ES256_OF_DIGEST = ec.ECDSA(Prehashed(hashes.SHA256()))
    AVAILABLE = True
except ImportError:
    AVAILABLE = False

# Finds the result of a signature that was verified before, or None (verify_ahead.py).
find_verified: Optional[Callable[[Any, bytes, bytes], Optional[bool]]] = None
GROUP_ORDER = 0xFFFFFFFF00000000FFFFFFFFFFFFFFFFBCE6FAADA7179E84F3B9CAC2FC632550


class KeyMaker:
    """Makes key pairs from a counter, so that runs repeat; keeps the private keys."""

    def __init__(self) -> None:
        self.count = 0
        self.private: Dict[bytes, Any] = {}

    def make(self) -> Tuple[bytes, bytes, bytes]:
        """Returns a new credential ID and the coordinates of its public key."""
        self.count += 1
        credential = hashlib.sha256(b"id %d" % self.count).digest()
        secret = hashlib.sha256(b"key %d" % self.count).digest()
        if not AVAILABLE:
            return credential, secret, secret
        private = ec.derive_private_key(int.from_bytes(secret, "big") % GROUP_ORDER + 1, ec.SECP256R1())
        self.private[credential] = private
        public = private.public_key().public_numbers()
        return credential, public.x.to_bytes(32, "big"), public.y.to_bytes(32, "big")

    def sign(self, credential: bytes, signed: bytes) -> bytes:
        """Returns a signature by a credential's key."""
        if credential not in self.private:
            return hashlib.sha256(credential + signed).digest() * 2
        signature: bytes = self.private[credential].sign(signed, ec.ECDSA(hashes.SHA256()))
        return signature


@lru_cache(maxsize=64)
def point(x: bytes, y: bytes) -> Any:
    """Returns the P-256 public key with two coordinates."""
    return ec.EllipticCurvePublicKey.from_encoded_point(ec.SECP256R1(), b"\4" + x + y)


def to_public_key(cose: Any) -> Any:
    """Returns the public key of a COSE key: ES256, EdDSA or RS256; None for another algorithm."""
    if cose.get(3) == -7:
        return point(cose[-2], cose[-3])
    if cose.get(3) == -8:
        return ed25519.Ed25519PublicKey.from_public_bytes(cose[-2])
    if cose.get(3) == -257:
        return rsa.RSAPublicNumbers(int.from_bytes(cose[-2], "big"), int.from_bytes(cose[-1], "big")).public_key()
    return None


def verify_or_raise(public: Any, signed: bytes, signature: bytes) -> None:
    """Verifies a signature by the key's algorithm; raises InvalidSignature."""
    if isinstance(public, ec.EllipticCurvePublicKey):
        public.verify(signature, hashlib.sha256(signed).digest(), ES256_OF_DIGEST)
    elif isinstance(public, rsa.RSAPublicKey):
        public.verify(signature, signed, padding.PKCS1v15(), hashes.SHA256())
    elif isinstance(public, ed25519.Ed25519PublicKey):
        public.verify(signature, signed)


def is_valid_signature(cose: Any, signed: bytes, signature: bytes) -> bool:
    """Returns whether a signature verifies under a COSE key; true without the package cryptography."""
    if not AVAILABLE:
        return True
    verified = find_verified(cose, signed, signature) if find_verified is not None else None
    return verify(cose, signed, signature) if verified is None else verified


def verify(cose: Any, signed: bytes, signature: bytes) -> bool:
    """Returns whether a signature verifies under a COSE key."""
    try:
        verify_or_raise(to_public_key(cose), signed, signature)
    except (KeyError, TypeError, ValueError, InvalidSignature):
        return False
    return True


def is_valid_for_certificate(certificate: bytes, alg: int, signed: bytes, signature: bytes) -> bool:
    """Returns whether a signature verifies under a certificate's key, which must be for algorithm `alg`."""
    if not AVAILABLE:
        return True
    kinds: Dict[int, Any] = {-7: ec.EllipticCurvePublicKey, -8: ed25519.Ed25519PublicKey, -257: rsa.RSAPublicKey}
    try:
        public = x509.load_der_x509_certificate(certificate).public_key()
        if alg in kinds and not isinstance(public, kinds[alg]):
            return False
        verify_or_raise(public, signed, signature)
    except (TypeError, ValueError, InvalidSignature):
        return False
    return True
