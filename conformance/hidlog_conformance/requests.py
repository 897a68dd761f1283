"""Validates requests: command, encoding, members and their types (CTAP 2.1, 6 and 8)."""

from __future__ import annotations

from dataclasses import dataclass
from functools import lru_cache
from typing import Any, Callable, Dict, List, Optional, Tuple

from hidlog_conformance import ctap_cbor, rules
from hidlog_conformance.text import quantity

MAKE, GET, INFO, PIN, RESET, NEXT, SELECTION = 0x01, 0x02, 0x04, 0x06, 0x07, 0x08, 0x0B
ENROLL, CONFIGURE = 0x09, 0x0D
# Other commands of CTAP 2.1, and vendor commands (8.1).
OTHER_COMMANDS = (0x09, 0x0A, 0x0C, 0x0D, *range(0x40, 0xC0))
NAMES = {
    MAKE: "authenticatorMakeCredential",
    GET: "authenticatorGetAssertion",
    INFO: "authenticatorGetInfo",
    PIN: "authenticatorClientPIN",
    RESET: "authenticatorReset",
    NEXT: "authenticatorGetNextAssertion",
    SELECTION: "authenticatorSelection",
}
MISSING, UNKNOWN, FORM = "missing", "unknown", "form"


@dataclass
class Fault:
    """An error in a request: its kind, its section unless it is the command's, and the expected and the actual
    value."""

    kind: str
    expected: str
    actual: str
    section: str = ""
    should: bool = False


def is_descriptor(item: Any) -> bool:
    """Returns whether an item is a credential descriptor."""
    if not isinstance(item, dict) or not isinstance(item.get("id"), bytes) or not isinstance(item.get("type"), str):
        return False
    transports = item.get("transports", [])
    return isinstance(transports, list) and all(map(is_text, transports))


def is_algorithm(item: Any) -> bool:
    """Returns whether an item is an algorithm with its type."""
    return isinstance(item, dict) and isinstance(item.get("alg"), int) and isinstance(item.get("type"), str)


def make_list_check(check: Callable[[Any], bool]) -> Callable[[Any], bool]:
    """Returns a check that each element of a list passes `check`."""
    return lambda item: isinstance(item, list) and all(map(check, item))


def has_names(item: Dict[Any, Any]) -> bool:
    """Returns whether the names of an RP or a user, if present, are text strings."""
    return all(isinstance(item.get(name, ""), str) for name in ("name", "displayName", "icon"))


def is_text(item: Any) -> bool:
    """Returns whether an item is a text string."""
    return isinstance(item, str)


def is_hash(item: Any) -> bool:
    """Returns whether an item is a SHA-256."""
    return isinstance(item, bytes) and len(item) == 32


def is_rp(item: Any) -> bool:
    """Returns whether an item is an RP."""
    return isinstance(item, dict) and isinstance(item.get("id"), str) and has_names(item)


def is_user(item: Any) -> bool:
    """Returns whether an item is a user."""
    return isinstance(item, dict) and isinstance(item.get("id"), bytes) and len(item["id"]) <= 64 and has_names(item)


def is_options(item: Any) -> bool:
    """Returns whether an item is a map of options."""
    return isinstance(item, dict) and all(isinstance(element, bool) for element in item.values())


def is_map(item: Any) -> bool:
    """Returns whether an item is a map."""
    return isinstance(item, dict)


def is_number(item: Any) -> bool:
    """Returns whether an item is an unsigned integer."""
    return isinstance(item, int) and not isinstance(item, bool) and item >= 0


def is_bytes(item: Any) -> bool:
    """Returns whether an item is a byte string."""
    return isinstance(item, bytes)


def is_boolean(item: Any) -> bool:
    """Returns whether an item is true or false."""
    return isinstance(item, bool)


Member = Tuple[str, bool, Callable[[Any], bool]]
# By command and key: the member's name, whether it is required, and its type.
MEMBERS: Dict[int, Dict[int, Member]] = {
    MAKE: {
        1: ("clientDataHash", True, is_hash),
        2: ("rp", True, is_rp),
        3: ("user", True, is_user),
        4: ("pubKeyCredParams", True, make_list_check(is_algorithm)),
        5: ("excludeList", False, make_list_check(is_descriptor)),
        6: ("extensions", False, is_map),
        7: ("options", False, is_options),
        8: ("pinUvAuthParam", False, is_bytes),
        9: ("pinUvAuthProtocol", False, is_number),
        10: ("enterpriseAttestation", False, is_number),
    },
    GET: {
        1: ("rpId", True, is_text),
        2: ("clientDataHash", True, is_hash),
        3: ("allowList", False, make_list_check(is_descriptor)),
        4: ("extensions", False, is_map),
        5: ("options", False, is_options),
        6: ("pinUvAuthParam", False, is_bytes),
        7: ("pinUvAuthProtocol", False, is_number),
    },
    ENROLL: {
        1: ("modality", False, is_number),
        2: ("subCommand", False, is_number),
        3: ("subCommandParams", False, is_map),
        4: ("pinUvAuthProtocol", False, is_number),
        5: ("pinUvAuthParam", False, is_bytes),
        6: ("getModality", False, is_boolean),
    },
    CONFIGURE: {
        1: ("subCommand", True, is_number),
        2: ("subCommandParams", False, is_map),
        3: ("pinUvAuthProtocol", False, is_number),
        4: ("pinUvAuthParam", False, is_bytes),
    },
    PIN: {
        1: ("pinUvAuthProtocol", False, is_number),
        2: ("subCommand", True, is_number),
        3: ("keyAgreement", False, is_map),
        4: ("pinUvAuthParam", False, is_bytes),
        5: ("newPinEnc", False, is_bytes),
        6: ("pinHashEnc", False, is_bytes),
        9: ("permissions", False, is_number),
        10: ("rpId", False, is_text),
    },
}


@lru_cache(maxsize=256)
def decode_parameters(request: bytes) -> Optional[Dict[Any, Any]]:
    """Returns the parameters of a request, not to be modified; None if they are invalid."""
    try:
        item = ctap_cbor.decode_cached(request[1:]) if len(request) > 1 else {}
    except ctap_cbor.CborError:
        return None
    return dict(item) if isinstance(item, dict) else None


@lru_cache(maxsize=256)
def find_fault(request: bytes) -> Optional[Fault]:
    """Returns the first error in a request, or None."""
    command = request[0]
    if command not in NAMES and command not in OTHER_COMMANDS:
        return Fault(UNKNOWN, "a known command", f"command {command:02x}", rules.COMMANDS_OTHER)
    if len(request) == 1:
        needs = any(has_to_be for _, has_to_be, _ in MEMBERS.get(command, {}).values())
        return Fault(FORM, "parameters", "none") if needs else None
    if command in (INFO, RESET, NEXT, SELECTION):
        return Fault(
            FORM, "a command without parameters", f"{quantity(len(request) - 1, 'byte')} of parameters", should=True
        )
    try:
        item = ctap_cbor.decode_cached(request[1:])
    except ctap_cbor.CborError as fault:
        return Fault(FORM, "parameters in CTAP2 canonical CBOR", str(fault), "8")
    if not isinstance(item, dict):
        return Fault(FORM, "parameters as a map", ctap_cbor.to_diagnostic(item), "8")
    return find_member_fault(command, item)


def find_member_fault(command: int, item: Dict[Any, Any]) -> Optional[Fault]:
    """Returns an error for the first member that is missing or has a wrong type."""
    members = MEMBERS.get(command, {})
    wrong = [name for key, (name, _, is_right) in members.items() if key in item and not is_right(item[key])]
    lacking = [
        f"{name} under the key {key}" for key, (name, required, _) in members.items() if required and key not in item
    ]
    if wrong:
        return Fault(FORM, f"{wrong[0]} with its type", ctap_cbor.to_diagnostic(item))
    return Fault(MISSING, lacking[0], ctap_cbor.to_diagnostic(item)) if lacking else None


def list_unknown_parts(command: int, item: Dict[Any, Any]) -> List[str]:
    """Returns the unknown parts of a request, which a key must ignore: members, options, extensions."""
    found = [f"the member {key!r}" for key in item if key not in MEMBERS.get(command, {})]
    options = item.get(7 if command == MAKE else 5, {})
    found += [f"the option {name}" for name in options if name not in ("rk", "up", "uv")]
    extensions = item.get(6 if command == MAKE else 4, {})
    return found + [f"the extension {name}" for name in extensions]
