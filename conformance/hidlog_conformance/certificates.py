"""Checks the certificate of packed attestation (WebAuthn Level 2, 8.2.1), by its DER."""

from __future__ import annotations

from typing import Any, Dict, List, Tuple

# Tags of DER: of a certificate's version and of its extensions, and the universal ones.
VERSION_TAG, EXTENSIONS_TAG = 0xA0, 0xA3
BOOLEAN, OCTET_STRING, OBJECT_ID, SEQUENCE, SET = 0x01, 0x04, 0x06, 0x30, 0x31
# The object identifiers of a subject's C, O, OU and CN, of basic constraints, and of id-fido-gen-ce-aaguid, encoded.
COUNTRY, ORGANIZATION, UNIT, COMMON_NAME = b"\x55\4\6", b"\x55\4\x0a", b"\x55\4\x0b", b"\x55\4\3"
CONSTRAINTS, AAGUID = b"\x55\x1d\x13", b"\x2b\6\1\4\1\x82\xe5\x1c\1\1\4"
ATTESTATION_UNIT, VERSION_3 = b"Authenticator Attestation", b"\2\1\2"
NO_DER = "a certificate in DER"
# An element: its tag and its content.
Element = Tuple[int, bytes]


class DerError(Exception):
    """The bytes are not DER, or not a certificate."""


def read_element(data: bytes) -> Tuple[Element, bytes]:
    """Returns the first element, and the bytes after it."""
    if len(data) < 2 or data[1] == 0x80 or data[1] > 0x83:
        raise DerError("no element")
    more = data[1] - 0x80 if data[1] > 0x80 else 0
    length = int.from_bytes(data[2 : 2 + more], "big") if more else data[1]
    end = 2 + more + length
    if end > len(data):
        raise DerError("truncated element")
    return (data[0], data[2 + more : end]), data[end:]


def read_elements(data: bytes) -> List[Element]:
    """Returns all elements."""
    found: List[Element] = []
    while data:
        element, data = read_element(data)
        found.append(element)
    return found


def read_content(element: Element, tag: int) -> List[Element]:
    """Returns the elements inside an element, which must have this tag."""
    if element[0] != tag:
        raise DerError("unexpected tag")
    return read_elements(element[1])


def read_subject(name: Element) -> Dict[bytes, bytes]:
    """Returns the values of a name, by object identifier."""
    found: Dict[bytes, bytes] = {}
    for part in read_content(name, SEQUENCE):
        for attribute in read_content(part, SET):
            kind, value = read_content(attribute, SEQUENCE)[:2]
            found[kind[1]] = value[1]
    return found


def read_extensions(parts: List[Element]) -> Dict[bytes, Tuple[bool, bytes]]:
    """Returns the extensions of a certificate, by object identifier: whether each is critical, and its value."""
    found: Dict[bytes, Tuple[bool, bytes]] = {}
    for tag, content in parts:
        if tag != EXTENSIONS_TAG:
            continue
        for extension in read_content(read_element(content)[0], SEQUENCE):
            members = read_content(extension, SEQUENCE)
            is_critical = members[1][0] == BOOLEAN and members[1][1] != b"\0"
            found[members[0][1]] = (is_critical, members[len(members) - 1][1])
    return found


def is_authority(value: bytes) -> bool:
    """Returns whether basic constraints have CA true."""
    members = read_content(read_element(value)[0], SEQUENCE)
    return bool(members) and members[0][0] == BOOLEAN and members[0][1] != b"\0"


def find_part_fault(parts: List[Element], aaguid: bytes) -> str:
    """Returns which requirement the parts of a certificate violate, or an empty string."""
    if parts[0][0] != VERSION_TAG or parts[0][1] != VERSION_3:
        return "a certificate of version 3"
    subject, extensions = read_subject(parts[5]), read_extensions(parts)
    if len(subject.get(COUNTRY, b"")) != 2 or not subject.get(ORGANIZATION) or not subject.get(COMMON_NAME):
        return "a subject with C of two letters, O and CN"
    if subject.get(UNIT) != ATTESTATION_UNIT:
        return f"the subject's OU {ATTESTATION_UNIT.decode()!r}"
    if CONSTRAINTS not in extensions or is_authority(extensions[CONSTRAINTS][1]):
        return "basic constraints with CA false"
    is_critical, value = extensions.get(AAGUID, (False, b""))
    if is_critical:
        return "an extension id-fido-gen-ce-aaguid that is not critical"
    if AAGUID in extensions and read_element(value)[0] != (OCTET_STRING, aaguid):
        return "the AAGUID of the authenticator data in id-fido-gen-ce-aaguid"
    return ""


def find_certificate_fault(certificate: Any, aaguid: bytes) -> str:
    """Returns which requirement of packed attestation a certificate violates (WebAuthn Level 2, 8.2.1), or an empty
    string."""
    if not isinstance(certificate, bytes):
        return NO_DER
    try:
        outer, rest = read_element(certificate)
        if rest:
            return NO_DER
        return find_part_fault(read_content(read_content(outer, SEQUENCE)[0], SEQUENCE), aaguid)
    except (DerError, IndexError, ValueError):
        return NO_DER
