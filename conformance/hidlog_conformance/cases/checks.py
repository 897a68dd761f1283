"""Cases about each check of authenticatorMakeCredential and authenticatorGetAssertion, alone and in pairs."""

from __future__ import annotations

from typing import Any, Callable, Dict, List, NamedTuple, Tuple

from hidlog_conformance.cases.corpus import (
    GET,
    KIND,
    MAKE,
    Case,
    descriptor,
    sign_in_parameters,
    registration_parameters,
    credential_name,
)
from hidlog_conformance.ctap_cbor import encode
from hidlog_conformance.text import quantity

Asked = Dict[Any, Any]
WRONG_TYPE_VALUES = "the standard defines the statuses, but not their order"
PIN_PARAMETERS = "the status of pinUvAuthParam in an authenticator that has no PIN"
LENGTH_STATUS = "the standard does not define the status for a wrong length"


class Check(NamedTuple):
    """A check: its position, name and status, a change that makes it fail, and the choice that the standard leaves
    open."""

    name: str
    status: str
    spoil: Callable[[Asked], None]
    profile: str = ""
    uses: Tuple[str, ...] = ()


def set_parameter(key: Any, value: Any) -> Callable[[Asked], None]:
    """Returns a change that sets a key, or removes it (None)."""

    def spoil(asked: Asked) -> None:
        if value is None:
            asked.pop(key, None)
        elif isinstance(value, dict) and isinstance(asked.get(key), dict):
            asked[key] = {**asked[key], **value}
        else:
            asked[key] = value

    return spoil


# The errors that the checks find, by the name of the check.
ERRORS = {
    "type": "a wrong type",
    "missing": "a missing parameter",
    "hash_length": "a clientDataHash of 31 bytes",
    "pin": "pinUvAuthParam without PIN support",
    "algorithm": "an unsupported algorithm",
    "uv": "the unsupported option uv",
    "enterprise": "unsupported enterprise attestation",
    "rk": "the option rk",
    "credential": "an unknown credential",
}
# The checks in the order of the algorithm. A pair of checks has two different positions.
MAKE_ORDER = [
    Check("type", "11", set_parameter(6, 1)),
    Check("missing", "14", set_parameter(3, None)),
    Check("hash_length", "03", set_parameter(1, b"\x11" * 31), LENGTH_STATUS),
    Check("pin", "02", set_parameter(8, b"\0" * 16), PIN_PARAMETERS, ("no pin",)),
    Check("algorithm", "26", set_parameter(4, [{"alg": -65535, "type": KIND}])),
    Check("uv", "2c", set_parameter(7, {"uv": True}), "", ("no uv",)),
    Check("enterprise", "02", set_parameter(10, 1), "", ("no ep",)),
]
GET_ORDER = [
    Check("type", "11", set_parameter(4, 1)),
    Check("missing", "14", set_parameter(1, None)),
    Check("hash_length", "03", set_parameter(2, b"\x22" * 31), LENGTH_STATUS),
    Check("pin", "02", set_parameter(6, b"\0" * 16), PIN_PARAMETERS, ("no pin",)),
    Check("uv", "2c", set_parameter(5, {"uv": True}), "", ("no uv",)),
    Check("rk", "2b", set_parameter(5, {"rk": True})),
    Check("credential", "2e", set_parameter(3, [descriptor(9)])),
]
WRONG_VALUES: Dict[str, Any] = {
    "integer": 1,
    "text": "x",
    "bytes": b"x",
    "array": [],
    "map": {},
    "true": True,
    "null": None,
}


def list_wrong_types(known: Dict[int, Tuple[str, str]]) -> List[Tuple[int, str, str, Any]]:
    """Returns each parameter with values of wrong types."""
    found = []
    for key, (name, kind) in known.items():
        for other, value in WRONG_VALUES.items():
            if other != kind:
                found.append((key, name, other, value))
    return found


MAKE_TYPES = {
    1: ("clientDataHash", "bytes"),
    2: ("rp", "map"),
    3: ("user", "map"),
    4: ("pubKeyCredParams", "array"),
    5: ("excludeList", "array"),
    6: ("extensions", "map"),
    7: ("options", "map"),
}
GET_TYPES = {
    1: ("rpId", "text"),
    2: ("clientDataHash", "bytes"),
    3: ("allowList", "array"),
    4: ("extensions", "map"),
    5: ("options", "map"),
}
ENTRY = {"alg": -7, "type": KIND}
MAKE_INSIDE = [
    ("rp_id", 2, {"id": 1}, "11"),
    ("rp_name", 2, {"id": "example.com", "name": 1}, "11"),
    ("user_id", 3, {"id": "x", "name": "x"}, "11"),
    ("user_name", 3, {"id": b"\1", "name": 1}, "11"),
    ("user_display_name", 3, {"id": b"\1", "name": "x", "displayName": b"x"}, "11"),
    ("entry", 4, [1], "11"),
    ("entry_alg", 4, [{"alg": "x", "type": KIND}], "11"),
    ("entry_type", 4, [{"alg": -7, "type": 1}], "11"),
    ("second_entry", 4, [ENTRY, {"alg": b"x", "type": KIND}], "11"),
    ("descriptor", 5, [1], "11"),
    ("descriptor_id", 5, [{"id": "x", "type": KIND}], "11"),
    ("descriptor_type", 5, [{"id": credential_name(1), "type": 1}], "11"),
    ("descriptor_transports", 5, [{"id": credential_name(1), "type": KIND, "transports": "usb"}], "11"),
    ("option_rk", 7, {"rk": 1}, "11"),
    ("option_up", 7, {"up": "true"}, "11"),
    ("option_uv", 7, {"uv": None}, "11"),
    ("without_rp_id", 2, {"name": "x"}, "14"),
    ("without_user_id", 3, {"name": "x"}, "14"),
    ("without_alg", 4, [{"type": KIND}], "14"),
    ("without_entry_type", 4, [{"alg": -7}], "14"),
    ("second_without_alg", 4, [ENTRY, {"type": KIND}], "14"),
    ("without_descriptor_id", 5, [{"type": KIND}], "14"),
    ("without_descriptor_type", 5, [{"id": credential_name(1)}], "14"),
]


def replace_value(asked: Asked, key: int, value: Any) -> bytes:
    """Returns the encoded parameters with another value."""
    return encode({**asked, key: value})


def type_cases(chapter: str, command: bytes, good: Asked, known: Dict[int, Tuple[str, str]]) -> List[Case]:
    """Returns cases about parameters with wrong types, and parameters that are not a map."""
    cases = []
    section = chapter
    for key, name, other, value in list_wrong_types(known):
        requirement = f"{name} with a wrong type ({other}) is refused."
        case = Case(f"{chapter}/type_{key}_{other}", section, requirement)
        cases.append(
            case.allocate().cbor(command + replace_value(good, key, value)).expect("refused 11").expect_alive()
        )
    for name, item in (("integer", 1), ("bytes", b"x"), ("text", "x"), ("array", []), ("true", True), ("null", None)):
        case = Case(f"{chapter}/parameters_{name}", section, f"Parameters that are not a map ({name}) are refused.")
        cases.append(case.allocate().cbor(command + encode(item)).expect("refused 11").expect_alive())
    case = Case(f"{chapter}/parameters_absent", section, "A command without its parameters is refused.")
    cases.append(case.allocate().cbor(command).expect("refused 12").expect_alive())
    for key in [key for key in good if isinstance(key, int)]:
        case = Case(f"{chapter}/missing_{key}", section, f"The parameter {known[key][0]} is required.")
        left = {other: value for other, value in good.items() if other != key}
        cases.append(case.allocate().cbor(command + encode(left)).expect("status 14").expect_alive())
    case = Case(f"{chapter}/missing_all", section, "An empty map is refused, since parameters are missing.")
    cases.append(case.allocate().cbor(command + encode({})).expect("status 14").expect_alive())
    return cases


def member_type_cases() -> List[Case]:
    """Returns cases about members with a wrong type, or missing."""
    cases = []
    for name, key, value, status in MAKE_INSIDE:
        error = "A member of a wrong type" if status == "11" else "A missing member"
        requirement = f"{error} is refused ({name.replace('_', ' ')})."
        case = Case(
            f"make/inside_{name}", "make", requirement, profile="the standard requires an error, but not this status"
        )
        cases.append(
            case.allocate()
            .cbor(MAKE + replace_value(registration_parameters(), key, value))
            .expect(f"status {status}")
            .expect_alive()
        )
    for name, allow, status in (
        ("type", [{"id": credential_name(1), "type": 1}], "11"),
        ("id", [{"id": 1, "type": KIND}], "11"),
        ("entry", ["x"], "11"),
        ("without_id", [{"type": KIND}], "14"),
        ("without_type", [{"id": credential_name(1)}], "14"),
    ):
        requirement = f"An incomplete descriptor in the allow list is refused ({name.replace('_', ' ')})."
        case = Case(
            f"get/inside_{name}", "get", requirement, profile="the standard requires an error, but not this status"
        )
        cases.append(case.allocate().get(p3=allow).expect(f"status {status}").expect_alive())
    return cases


def invalid_value_cases() -> List[Case]:
    """Returns cases about invalid values of the right type."""
    cases = []
    for length in (0, 31, 33, 64):
        for chapter, key in (("make", "p1"), ("get", "p2")):
            requirement = f"A clientDataHash of {quantity(length, 'byte')} instead of 32 is refused."
            case = Case(f"{chapter}/hash_of_{length}", chapter, requirement, profile=LENGTH_STATUS)
            case.allocate()
            changes: Dict[str, Any] = {key: bytes(length)}
            case = case.make(**changes) if chapter == "make" else case.get(**changes)
            cases.append(case.expect("status 03").expect_alive())
    case = Case("make/user_id_of_65", "make", "A user.id of more than 64 bytes is refused.", profile=LENGTH_STATUS)
    cases.append(case.allocate().make(p3={"id": bytes(65), "name": "x"}).expect("status 03").expect_alive())
    case = Case("make/user_id_of_64", "make", "A user.id of 64 bytes is accepted.", needs=["touch"])
    cases.append(case.allocate().register(1, p3={"id": bytes(64), "name": "x", "displayName": "x"}))
    lists = {"none": [], "unknown": [{"alg": -65535, "type": KIND}], "other_type": [{"alg": -7, "type": "other"}]}
    for name, entries in lists.items():
        case = Case(f"make/algorithms_{name}", "make", "A request without a supported algorithm is refused.")
        if name == "none":
            case.comment("profile: an empty list has no supported algorithm")
        cases.append(case.allocate().make(p4=entries).expect("status 26").expect_alive())
    return cases


def valid_value_cases() -> List[Case]:
    """Returns cases about valid values, and invalid options and PINs."""
    cases = []
    both = [{"alg": -65535, "type": KIND}, {"alg": -7, "type": "other"}, {"alg": -7, "type": KIND}]
    case = Case("make/algorithms_last", "make", "The first supported algorithm is chosen.", needs=["touch"])
    case.comment("uses: algorithm -7")
    cases.append(case.allocate().register(1, p4=both))
    case = Case("make/option_up_false", "make", "The option up false is refused in a registration.")
    cases.append(case.allocate().make(p7={"up": False}).expect("status 2c").expect_alive())
    case = Case(
        "make/options_as_they_are",
        "make",
        "The default options rk false, up true and uv false are accepted.",
        needs=["touch"],
    )
    cases.append(case.allocate().register(1, p7={"rk": False, "up": True, "uv": False}))
    for command in ("make", "get"):
        case = Case(
            f"{command}/pin_of_no_bytes",
            command,
            "An empty pinUvAuthParam is refused.",
            uses=["no pin"],
            profile=PIN_PARAMETERS,
        )
        case.allocate()
        cases.append((case.make(p8=b"") if command == "make" else case.get(p6=b"")).expect("status 02").expect_alive())
    case = Case("get/option_rk_false", "get", "The option rk is refused in a sign-in, even if false.")
    cases.append(case.allocate().get(p5={"rk": False}).expect("status 2b").expect_alive())
    return cases


def pair_case(chapter: str, command: bytes, good: Asked, first: Check, second: Check) -> Case:
    """Returns a case in which two checks fail: the first is reported."""
    fixed = not first.profile and first.name not in ("type", "missing")
    more: Dict[str, Any] = {"uses": [*first.uses, *second.uses]}
    if not fixed:
        more["profile"] = first.profile or WRONG_TYPE_VALUES
    requirement = f"Of two errors, {ERRORS[first.name]} is reported before {ERRORS[second.name]}."
    case = Case(f"{chapter}/first_{first.name}_then_{second.name}", chapter, requirement, **more)
    second.spoil(good)
    first.spoil(good)
    return case.allocate().cbor(command + encode(good)).expect(f"status {first.status}").expect_alive()


def order_cases(chapter: str, command: bytes, good: Callable[[], Asked], checks: List[Check]) -> List[Case]:
    """Returns cases in which one check fails, and in which two checks fail."""
    cases = []
    for place, check in enumerate(checks):
        requirement = f"An otherwise valid request with {ERRORS[check.name]} is refused."
        case = Case(f"{chapter}/alone_{check.name}", chapter, requirement, uses=check.uses, profile=check.profile)
        asked = good()
        check.spoil(asked)
        word = "refused" if check.name == "type" else "status"
        cases.append(case.allocate().cbor(command + encode(asked)).expect(f"{word} {check.status}").expect_alive())
        requirement = "Invalid CBOR is reported before errors in its contents."
        case = Case(f"{chapter}/first_cbor_then_{check.name}", chapter, requirement)
        cases.append(case.allocate().cbor(command + encode(asked)[:-1]).expect("refused 12").expect_alive())
        for later in checks[place + 1 :]:
            cases.append(pair_case(chapter, command, good(), check, later))
    return cases


def cases() -> List[Case]:
    """Returns the cases of this file."""
    found = type_cases("make", MAKE, registration_parameters(), MAKE_TYPES) + type_cases(
        "get", GET, sign_in_parameters(), GET_TYPES
    )
    found += order_cases("make", MAKE, registration_parameters, MAKE_ORDER) + order_cases(
        "get", GET, sign_in_parameters, GET_ORDER
    )
    return found + member_type_cases() + invalid_value_cases() + valid_value_cases()
