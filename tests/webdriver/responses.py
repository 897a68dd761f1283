"""Parses and verifies the results of registrations and sign-ins that a page gets, as seen.js returns them."""

from __future__ import annotations

import sys
from base64 import urlsafe_b64decode, urlsafe_b64encode
from hashlib import sha256
from pathlib import Path
from typing import Any

from cryptography import x509
from cryptography.exceptions import InvalidSignature
from cryptography.hazmat.primitives import hashes
from cryptography.hazmat.primitives import serialization as encodings
from cryptography.hazmat.primitives.asymmetric import ec, ed25519, padding, rsa

sys.path.insert(0, str(Path(__file__).resolve().parents[2] / "bindings" / "python" / "src"))

from hidlog import cbor

Json = dict[str, Any]


def decode_base64url(text: str) -> bytes:
    return urlsafe_b64decode(text + "=" * (-len(text) % 4))


def encode_base64url(data: bytes) -> str:
    return urlsafe_b64encode(data).decode().rstrip("=")


def encode_pkcs8(private: Any) -> str:
    form = encodings.PrivateFormat.PKCS8
    return encode_base64url(private.private_bytes(encodings.Encoding.DER, form, encodings.NoEncryption()))


def is_signed(spki: str, used: Json) -> bool:
    """Returns whether the signature of a sign-in is valid for a public key."""
    return is_signature_valid(
        encodings.load_der_public_key(decode_base64url(spki)), used, decode_base64url(used["signature"])
    )


def is_signature_valid(public: Any, response: Json, signature: bytes) -> bool:
    signed = decode_base64url(response["authData"]) + sha256(decode_base64url(response["clientData"])).digest()
    try:
        if isinstance(public, ed25519.Ed25519PublicKey):
            public.verify(signature, signed)
        elif isinstance(public, rsa.RSAPublicKey):
            public.verify(signature, signed, padding.PKCS1v15(), hashes.SHA256())
        else:
            public.verify(signature, signed, ec.ECDSA(hashes.SHA256()))
    except InvalidSignature:
        return False
    return True


def read_authenticator_data(response: Json) -> Json:
    """Returns the members of authenticator data (WebAuthn Level 3, section 6.1)."""
    data = decode_base64url(response["authData"])
    rest = data[37:]
    seen: Json = {"flags": data[32]}
    if data[32] & 0x40:
        end = 18 + int.from_bytes(rest[16:18], "big")
        cose, outputs = cbor.decode_first(rest[end:])
        seen.update(aaguid=rest[:16].hex(), kty=cose[1], alg=cose[3], idBytes=end - 18)
        rest = outputs
    return {**seen, "extensions": to_json(cbor.decode(rest)) if rest else None}


def to_json(value: Any) -> Any:
    """Returns a CBOR value as JSON."""
    if isinstance(value, dict):
        return {str(name): to_json(member) for name, member in value.items()}
    return value.hex() if isinstance(value, bytes) else value


def summarize_attestation(made: Json) -> Any:
    """Returns the attestation that a page gets, and whether the signature is that of the certificate or of the
    credential."""
    if "error" in made:
        return made["error"]
    attestation = cbor.decode(decode_base64url(made["attestation"]))
    statement = attestation["attStmt"]
    seen = {"fmt": attestation["fmt"], "members": sorted(statement), "aaguid": read_authenticator_data(made)["aaguid"]}
    if "sig" not in statement:
        return seen
    chain = [x509.load_der_x509_certificate(one) for one in statement.get("x5c", [])]
    public = chain[0].public_key() if chain else encodings.load_der_public_key(decode_base64url(made["spki"]))
    units = [one.subject.get_attributes_for_oid(x509.NameOID.ORGANIZATIONAL_UNIT_NAME)[0].value for one in chain]
    is_good = is_signature_valid(public, made, statement["sig"])
    return {**seen, "alg": statement["alg"], "units": units, "signed": is_good}
