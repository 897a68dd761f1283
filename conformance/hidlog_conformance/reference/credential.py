"""Credentials of the reference authenticator, and their signatures."""

from __future__ import annotations

import datetime
import os
from dataclasses import dataclass, field
from typing import Any, Dict, Optional

from cryptography import x509
from cryptography.hazmat.primitives import hashes, serialization
from cryptography.hazmat.primitives.asymmetric import ec, ed25519
from cryptography.x509.oid import NameOID

ES256, EDDSA = -7, -8
RAW = (serialization.Encoding.Raw, serialization.PublicFormat.Raw)


def new_key(algorithm: int) -> Any:
    """Makes a private key."""
    return ed25519.Ed25519PrivateKey.generate() if algorithm == EDDSA else ec.generate_private_key(ec.SECP256R1())


@dataclass
class Credential:
    """A credential."""

    id: bytes
    rp: str
    user: Dict[str, Any]
    discoverable: bool
    algorithm: int
    private: Any
    counter: int = 0
    protection: int = 1
    blob: Optional[bytes] = None
    blob_key: Optional[bytes] = None
    # CredRandomWithoutUV and CredRandomWithUV of hmac-secret.
    random: bytes = field(default_factory=lambda: os.urandom(32))
    random_verified: bytes = field(default_factory=lambda: os.urandom(32))

    def cose(self) -> Dict[int, Any]:
        """Returns the public key."""
        public = self.private.public_key()
        if self.algorithm == EDDSA:
            return {1: 1, 3: EDDSA, -1: 6, -2: public.public_bytes(*RAW)}
        numbers = public.public_numbers()
        return {1: 2, 3: ES256, -1: 1, -2: numbers.x.to_bytes(32, "big"), -3: numbers.y.to_bytes(32, "big")}

    def sign(self, data: bytes) -> bytes:
        """Returns a signature."""
        return signed(self.private, self.algorithm, data)


def signed(private: Any, algorithm: int, data: bytes) -> bytes:
    """Signs with a private key."""
    found = private.sign(data) if algorithm == EDDSA else private.sign(data, ec.ECDSA(hashes.SHA256()))
    return bytes(found)


# The extension id-fido-gen-ce-aaguid, and the subject of an attestation certificate (WebAuthn, 8.2.1).
AAGUID_EXTENSION = "1.3.6.1.4.1.45724.1.1.4"
SUBJECT = {
    NameOID.COUNTRY_NAME: "SE",
    NameOID.ORGANIZATION_NAME: "Reference",
    NameOID.ORGANIZATIONAL_UNIT_NAME: "Authenticator Attestation",
    NameOID.COMMON_NAME: "Reference",
}


class Attestor:
    """The attestation key and certificate."""

    def __init__(self, aaguid: bytes = b"") -> None:
        self.private = ec.generate_private_key(ec.SECP256R1())
        self.certificate = self.certify(SUBJECT, aaguid)

    def certify(
        self, subject: Dict[Any, str], aaguid: bytes = b"", is_ca: bool = False, is_critical: bool = False
    ) -> bytes:
        """Returns a certificate; if `aaguid` is not empty, its extension id-fido-gen-ce-aaguid has it."""
        name = x509.Name([x509.NameAttribute(kind, value) for kind, value in subject.items()])
        day = datetime.datetime(2026, 1, 1)
        builder = x509.CertificateBuilder(name, name, self.private.public_key(), 1, day, day.replace(year=2056))
        builder = builder.add_extension(x509.BasicConstraints(is_ca, None), True)
        if aaguid:
            extension = x509.UnrecognizedExtension(x509.ObjectIdentifier(AAGUID_EXTENSION), b"\x04\x10" + aaguid)
            builder = builder.add_extension(extension, is_critical)
        made = builder.sign(self.private, hashes.SHA256())
        return made.public_bytes(serialization.Encoding.DER)

    def sign(self, data: bytes) -> bytes:
        """Returns a signature."""
        return signed(self.private, ES256, data)
