"""Cases about CTAP2 canonical CBOR (CTAP 2.1, 8): invalid items at each depth, which a device refuses, and valid
ones."""

from __future__ import annotations

from typing import Any, Dict, List, Tuple

from hidlog_conformance.cases.corpus import MAKE, Case, registration_parameters
from hidlog_conformance.ctap_cbor import Raw, encode

PROFILE_CHOICE = "allowed by the canonical form, but not accepted by this authenticator"
# Malformed items, by name.
MALFORMED = {
    "head_cut": "18",
    "bytes_cut": "4301",
    "text_cut": "636162",
    "array_cut": "8200",
    "map_cut": "a101",
    "length_cut": "5900",
    "huge_array": "9bffffffffffffffff",
    "huge_map": "bbffffffffffffffff",
    "huge_bytes": "5bffffffffffffffff",
    "reserved_28": "1c",
    "reserved_29": "1d",
    "reserved_30": "1e",
    "reserved_bytes": "5c",
    "reserved_map": "bc",
    "break_alone": "ff",
    "indefinite_integer": "1f",
}
# Well-formed but not canonical items, by name.
NOT_CANONICAL = {
    "indefinite_bytes": "5f4100ff",
    "indefinite_text": "7f6161ff",
    "indefinite_array": "9f00ff",
    "indefinite_map": "bf0000ff",
    "uint_in_1": "1817",
    "uint_in_2": "1900ff",
    "uint_in_4": "1a0000ffff",
    "uint_in_8": "1b00000000ffffffff",
    "nint_in_1": "3817",
    "nint_in_2": "3900ff",
    "bytes_in_1": "580100",
    "bytes_in_2": "59000100",
    "text_in_1": "780161",
    "array_in_1": "980100",
    "map_in_1": "b8010000",
    "keys_fall": "a202000100",
    "keys_repeat": "a201000100",
    "texts_fall": "a2616200616100",
    "longer_text_first": "a262616100616200",
    "text_before_integer": "a26161000100",
    "negative_before_positive": "a220000100",
    "texts_repeat": "a2616100616100",
    "tag": "c000",
    "tag_of_bytes": "c24101",
    "utf8_cut": "61c3",
    "utf8_overlong": "62c080",
    "utf8_surrogate": "63eda080",
    "utf8_past_the_end": "64f4908080",
    "utf8_alone": "6180",
}
OTHER_ITEMS = {
    "half_float": "f93c00",
    "float": "fa47c35000",
    "double": "fb3ff199999999999a",
    "undefined": "f7",
    "simple_0": "e0",
    "simple_255": "f8ff",
    "key_array": "a18000",
    "key_map": "a1a000",
    "key_false": "a1f400",
    "key_null": "a1f600",
}
IGNORED_ITEMS: Dict[str, Any] = {
    "least_integer": -(2**64),
    "greatest_integer": 2**64 - 1,
    "long_bytes": bytes(300),
    "long_text": "x" * 300,
    "utf8": "ü€\U0001d11e\U0010ffff",
    "empty_text": "",
    "empty_array": [],
    "empty_map": {},
    "true": True,
    "false": False,
    "null": None,
    "three_levels": [[[]]],
    "mixed_keys": {1: 0, 24: 0, -1: 0, b"a": 0, "a": 0, "b": 0, "aa": 0},
    "many_integers": [0, 23, 24, 255, 256, 65535, 65536, 2**32 - 1, 2**32, -1, -24, -25, -256, -257],
}


def nest_item(item: bytes, level: int) -> bytes:
    """Returns a request whose unknown parameter 64 has the item at a level of nesting."""
    value = Raw(b"\x81" * (level - 2) + item)
    return MAKE + encode(registration_parameters(p64=value))


def list_kinds() -> List[Tuple[str, bytes, str, Dict[str, str]]]:
    """Returns the name, the bytes, the expectation and the further attributes of each invalid item."""
    found: List[Tuple[str, bytes, str, Dict[str, str]]] = []
    found += [(name, bytes.fromhex(text), "refused 12", {}) for name, text in MALFORMED.items()]
    found += [(name, bytes.fromhex(text), "status 12", {"level": "should"}) for name, text in NOT_CANONICAL.items()]
    found += [
        (name, bytes.fromhex(text), "status 12", {"profile": PROFILE_CHOICE}) for name, text in OTHER_ITEMS.items()
    ]
    return found


def refusal_cases() -> List[Case]:
    """Returns cases about each invalid item: at nesting levels 2, 3 and 4, and in place of the parameters."""
    cases = []
    for name, item, answer, more in list_kinds():
        says = f"An item that is not canonical CBOR ({name.replace('_', ' ')}, {item.hex()}) is refused"
        for level in (2, 3, 4):
            if level == 4 and item[0] >> 5 in (4, 5):
                continue
            case = Case(f"cbor/{name}_level_{level}", "cbor", f"{says}, at level {level} of the parameters.", **more)
            cases.append(case.allocate().cbor(nest_item(item, level)).expect(answer).expect_alive())
        profile = {"profile": "the standard does not say which of two errors is reported"}
        more_whole = profile if answer == "status 12" else more
        case = Case(f"cbor/{name}_level_1", "cbor", f"{says}, instead of the parameters.", **more_whole)
        cases.append(case.allocate().cbor(MAKE + item).expect(answer).expect_alive())
    return cases


def message_cases() -> List[Case]:
    """Returns cases about errors of a message as a whole, and about nesting."""
    cases = []
    good = encode(registration_parameters())
    for name, more in (("integer", b"\0"), ("null", b"\xf6"), ("map", b"\xa0"), ("break", b"\xff")):
        case = Case(f"cbor/trailing_{name}", "cbor", "Bytes after the map of parameters are refused.", level="should")
        cases.append(case.allocate().cbor(MAKE + good + more).expect("status 12").expect_alive())
    for count in (1, 2, 10, len(good) // 2, len(good) - 1):
        case = Case(f"cbor/cut_after_{count:03}", "cbor", "A truncated map of parameters is refused.")
        cases.append(case.allocate().cbor(MAKE + good[:count]).expect("refused 12").expect_alive())
    for level in (5, 6, 16, 200):
        requirement = f"More than four levels of nesting are refused: {level}."
        case = Case(
            f"cbor/nested_{level:03}", "cbor", requirement, profile="an authenticator may accept more than four levels"
        )
        item = b"\x81" * (level - 2) + b"\x80"
        cases.append(case.allocate().cbor(nest_item(item, 2)).expect("status 12").expect_alive())
    swapped = b"\xa2" + encode(2) + encode({"id": "example.com"}) + encode(1) + encode(bytes(32))
    case = Case("cbor/parameters_out_of_order", "cbor", "Parameters out of order are refused.", level="should")
    cases.append(case.allocate().cbor(MAKE + swapped).expect("status 12").expect_alive())
    twice = b"\xa6" + good[1:35] + good[1:]
    case = Case("cbor/parameter_twice", "cbor", "A duplicate parameter is refused.", level="should")
    cases.append(case.allocate().cbor(MAKE + twice).expect("status 12").expect_alive())
    case = Case("cbor/rp_out_of_order", "cbor", "Members of rp out of order are refused.", level="should")
    rp = Raw(b"\xa2" + encode("name") + encode("x") + encode("id") + encode("example.com"))
    cases.append(case.allocate().make(p2=rp).expect("status 12").expect_alive())
    return cases


def ignored_item_cases() -> List[Case]:
    """Returns cases about unknown members in canonical CBOR, which are ignored."""
    cases = []
    ignored = [(64 + place, name, value) for place, (name, value) in enumerate(IGNORED_ITEMS.items())]
    for number, name, value in [*ignored, (255, "last_null", None)]:
        requirement = f"An unknown parameter is ignored: {name.replace('_', ' ')} under the key {number}."
        case = Case(f"cbor/taken_{name}", "cbor", requirement, needs=["touch"])
        asked = {**registration_parameters(), number: value}
        cases.append(case.allocate().cbor(MAKE + encode(asked)).expect_credential(1))
    others: List[Any] = [0, -1, b"\1", "1"]
    for key in others:
        case = Case(f"cbor/taken_key_{encode(key).hex()}", "cbor", "An unknown key is ignored.", needs=["touch"])
        cases.append(case.allocate().cbor(MAKE + encode({**registration_parameters(), key: 0})).expect_credential(1))
    case = Case("cbor/taken_members", "cbor", "Unknown members are ignored, also in rp and user.", needs=["touch"])
    rp = {"id": "example.com", "name": "Example", "icon": "x"}
    user = {"id": b"\1", "name": "alice", "displayName": "Alice", "icon": "x", "more": [1]}
    cases.append(case.allocate().make(p2=rp, p3=user, p7={"unknown": True}).expect_credential(1))
    case = Case("cbor/taken_extension", "cbor", "An unknown extension is ignored.", needs=["touch"])
    cases.append(case.allocate().make(p6={"an unknown extension": [1, 2]}).expect_credential(1))
    return cases


def cases() -> List[Case]:
    """Returns the cases of this file."""
    return refusal_cases() + message_cases() + ignored_item_cases()
