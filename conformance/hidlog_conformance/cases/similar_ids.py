"""Cases about similar IDs, state that a request must not leave behind, long requests, algorithms and capabilities."""

from __future__ import annotations

from typing import Any, Dict, List

from hidlog_conformance import hid_packets as hid
from hidlog_conformance.cases.corpus import KIND, NEXT, RESET, Case, descriptor, user
from hidlog_conformance.cases.flows import NEW_TOUCH, EMPTY, COUNTER_INCREASES, TOUCH, register_three_users
from hidlog_conformance.text import quantity

EDDSA: Dict[str, Any] = {"needs": ["touch"], "uses": ["algorithm -8"]}
BOTH: Dict[str, Any] = {"needs": ["touch"], "uses": ["algorithm -7", "algorithm -8"]}
LONG: Dict[str, Any] = {"needs": ["touch"], "uses": ["messages of 2048"]}
UNKNOWN_CREDENTIAL = {"id": "nobody.example", "name": "x"}
VERSION = bytes([0, 3, 0, 0])


def similar_id_cases() -> List[Case]:
    """Returns cases about IDs similar to those of credentials."""
    cases = []
    for kind in ("changed", "longer", "shorter"):
        case = Case(f"lists/allow_{kind}", "get", f"A {kind} credential ID matches no credential.", **TOUCH)
        case.allocate().register(1)
        cases.append(case.get(p3=[case.similar_descriptor(1, kind)]).expect("status 2e").expect_alive())
        case = Case(f"lists/exclude_{kind}", "make", f"A {kind} credential ID does not exclude.", **TOUCH)
        case.allocate().register(1)
        cases.append(case.register(2, p5=[case.similar_descriptor(1, kind)]))
    case = Case("lists/allow_alike_and_one", "get", "Similar IDs do not hide the right one.", **TOUCH)
    case.allocate().register(1)
    found = [case.similar_descriptor(1, kind) for kind in ("changed", "longer", "shorter")]
    cases.append(case.get(p3=[*found, descriptor(1)]).expect_assertion(COUNTER_INCREASES))
    for count in (1, 3):
        case = Case(
            f"lists/allow_{count}_of_another_type",
            "get",
            "An allow list with only unknown types is not treated as absent.",
            **EMPTY,
        )
        case.allocate().register(1, rk=True)
        cases.append(case.get(p3=[descriptor(number, "other") for number in range(1, 1 + count)]).expect("status 2e"))
    return cases


def state_cases() -> List[Case]:
    """Returns cases about state that a request must not leave behind."""
    cases = []
    case = Case("next/after_reset", "next", "After a reset nothing is pending.", **EMPTY)
    case.allocate().register(1, rk=True, p3=user(1)).register(2, rk=True, p3=user(2))
    case.get().expect_assertion(f"{COUNTER_INCREASES} user 02 number 2")
    cases.append(case.cbor(RESET).presence().expect("status 00").cbor(NEXT).expect("status 30"))
    case = register_three_users(
        Case(
            "next/after_failed_sign_in", "next", "A sign-in without a credential discards pending assertions.", **EMPTY
        )
    )
    cases.append(case.get(p1="nobody.example").expect("status 2e").cbor(NEXT).expect("status 30"))
    case = register_three_users(
        Case("next/after_cancelled_sign_in", "next", "A cancelled sign-in discards pending assertions.", **EMPTY)
    )
    case.get().expect("keepalive 02").send(1, hid.CANCEL).expect("status 2d")
    cases.append(case.cbor(NEXT).expect("status 30"))
    case = register_three_users(
        Case("next/after_registration", "next", "A registration discards pending assertions.", **EMPTY, level="should")
    )
    cases.append(case.register(4, p2=UNKNOWN_CREDENTIAL).cbor(NEXT).expect("status 30"))
    kinds: Dict[str, Dict[str, Any]] = {"make": {}, "make_discoverable": {"p7": {"rk": True}}}
    for name, request in kinds.items():
        uses = ["rk"] if request else []
        case = Case(
            f"make/touch_before_{name}", "make", "A touch before the request does not count.", **NEW_TOUCH, uses=uses
        )
        case.allocate().presence().expect("silence").tick(100).make(**request).expect("keepalive 02").tick(100)
        cases.append(case.expect("nothing").send(1, hid.CANCEL).expect("status 2d"))
    case = Case("get/touch_before", "get", "A touch before the request does not count.", **TOUCH)
    case.allocate().register(1).presence().expect("silence").tick(100).get(p3=[descriptor(1)]).expect("keepalive 02")
    cases.append(case.tick(100).expect("nothing").send(1, hid.CANCEL).expect("status 2d"))
    case = Case("get/touch_counts_once", "get", "The touch of one request does not count for the next.", **TOUCH)
    case.allocate().register(1).get(p3=[descriptor(1)]).expect_assertion(COUNTER_INCREASES).get(
        p3=[descriptor(1)]
    ).expect("keepalive 02")
    cases.append(case.tick(100).expect("nothing").send(1, hid.CANCEL).expect("status 2d"))
    return cases


def counter_cases() -> List[Case]:
    """Returns cases about counters of further assertions, and of several credentials."""
    cases = []
    case = Case("next/counter_rises", "next", "The counters of further assertions rise, too.", **EMPTY)
    case.allocate().register(1, rk=True, p3=user(1)).register(2, rk=True, p3=user(2))
    for _ in range(3):
        case.get().expect_assertion(f"{COUNTER_INCREASES} user 02 number 2").cbor(NEXT).expect_assertion(
            f"{COUNTER_INCREASES} user 01", presence=False
        )
    cases.append(case)
    case = Case("get/counters_of_two", "get", "Each credential's counter rises.", **TOUCH)
    case.allocate().register(1).register(2)
    for number in (1, 2, 2, 1):
        case.get(p3=[descriptor(number)]).expect_assertion(COUNTER_INCREASES)
    cases.append(case)
    case = Case(
        "get/counter_rises_without_touch", "get", "The counter rises without a touch, too.", **TOUCH, uses=["up"]
    )
    case.allocate().register(1)
    for _ in range(3):
        case.get(p3=[descriptor(1)], p5={"up": False}).expect_assertion("no-up counter-rises", presence=False)
    mixed = Case(
        "get/counter_rises_with_and_without_touch",
        "get",
        "The counter rises with and without touches in turn.",
        **TOUCH,
        uses=["up"],
    )
    mixed.allocate().register(1)
    for word, options in (("up", {}), ("no-up", {"up": False}), ("up", {}), ("no-up", {"up": False})):
        mixed.get(p3=[descriptor(1)], p5=options or None).expect_assertion(
            f"{word} counter-rises", presence=word == "up"
        )
    return cases + [case, mixed]


def long_request_cases() -> List[Case]:
    """Returns cases about unchanged user IDs, long requests, and many credentials."""
    cases = []
    for length in (16, 33, 64):
        case = Case(
            f"get/user_id_of_{length}",
            "get",
            f"A user.id of {quantity(length, 'byte')} is returned unchanged.",
            **EMPTY,
        )
        identity = bytes((7 * number + 3) % 256 for number in range(length))
        case.allocate().register(1, rk=True, p3={"id": identity, "name": "x", "displayName": "x"})
        cases.append(case.get().expect_assertion(f"{COUNTER_INCREASES} user {identity.hex()}"))
    case = Case("make/user_id_in_no_id", "make", "The credential ID does not contain the user ID.", **TOUCH)
    known = {"id": b"somebody@example.com", "name": "x", "displayName": "x"}
    cases.append(case.allocate().register(1, p3=known).register(2, p3={**known, "id": b"somebody-else@example.com"}))
    case = Case("make/long_request", "make", "A request of 2000 bytes is accepted if maxMsgSize allows it.", **LONG)
    cases.append(case.allocate().register(1, p2={"id": "example.com", "name": "x" * 1800}))
    case = Case("get/long_request", "get", "A sign-in of 1800 bytes is accepted if maxMsgSize allows it.", **LONG)
    case.allocate().register(1).get(p3=[descriptor(1)], p4={"unknown": "x" * 1600})
    cases.append(case.expect_assertion(COUNTER_INCREASES))
    for name, rk, more in (("by_list", False, " no-name"), ("discoverable_by_list", True, " no-name")):
        uses = ["rk"] if rk else []
        case = Case(
            f"get/names_{name}",
            "get",
            "User names are not returned without user verification, also with an allow list.",
            **NEW_TOUCH,
            uses=uses,
        )
        cases.append(
            case.allocate().register(1, rk=rk).get(p3=[descriptor(1)]).expect_assertion(COUNTER_INCREASES + more)
        )
    case = Case("get/discoverable_replaces_no_hidden", "get", "A non-discoverable credential is not replaced.", **EMPTY)
    case.allocate().register(1).register(2, rk=True)
    cases.append(
        case.get(p3=[descriptor(1)])
        .expect_assertion(COUNTER_INCREASES)
        .get(p3=[descriptor(2)])
        .expect_assertion(COUNTER_INCREASES)
    )
    case = Case("get/other_user_replaces_nothing", "get", "A credential of another user is not replaced.", **EMPTY)
    case.allocate().register(1, rk=True, p3=user(1)).register(2, rk=True, p3=user(2))
    cases.append(
        case.get(p3=[descriptor(1)])
        .expect_assertion(COUNTER_INCREASES)
        .get(p3=[descriptor(2)])
        .expect_assertion(COUNTER_INCREASES)
    )
    case = Case("make/many_stay", "make", "If the device is full, the status is 28, and no credential is lost.")
    case.comment("needs: reset")
    case.comment("needs: capacity 64")
    case.comment("uses: rk")
    case.allocate()
    for number in range(70):
        case.make(p7={"rk": True}, p3=user(number)).presence().key(number).sign().expect("made up or 28")
    cases.append(case.get(p3=[descriptor(0)]).expect_assertion("up counter-rises user 00"))
    return cases + [fill_and_sign_in("", 1), fill_and_sign_in("_of_two_rps", 2)]


def fill_and_sign_in(name: str, rps: int) -> Case:
    """Fills the device with credentials of `rps` RPs, and signs in with all of one RP, newest first."""
    case = Case(f"get/newest_of_many{name}", "get", "On a full device all registered credentials sign, newest first.")
    for line in ("needs: reset", "needs: capacity 64", "uses: rk"):
        case.comment(line)
    case.allocate()
    for number in range(66):
        rp = {"id": ("example.com", "example.org")[number % rps], "name": "x"}
        case.make(p2=rp, p7={"rk": True}, p3=user(number)).presence().key(number).sign().expect("made up or 28")
    return case.get().expect_assertion("up counter-rises newest")


def algorithm_cases() -> List[Case]:
    """Returns cases about algorithms in getInfo."""
    cases = []
    eddsa, es256 = {"alg": -8, "type": KIND}, {"alg": -7, "type": KIND}
    case = Case("make/eddsa", "make", "EdDSA works if getInfo has it.", **EDDSA)
    cases.append(case.allocate().register(1, p4=[eddsa]).get(p3=[descriptor(1)]).expect_assertion(COUNTER_INCREASES))
    case = Case("make/eddsa_twice", "make", "Each EdDSA credential has a new key pair.", **EDDSA)
    cases.append(
        case.allocate()
        .register(1, p4=[eddsa])
        .register(2, p4=[eddsa])
        .get(p3=[descriptor(2)])
        .expect_assertion(COUNTER_INCREASES)
    )
    for name, listed in (("es256", [es256, eddsa]), ("eddsa", [eddsa, es256])):
        case = Case(f"make/first_is_{name}", "make", "The first supported algorithm of the request is chosen.", **BOTH)
        cases.append(case.allocate().register(1, p4=listed).get(p3=[descriptor(1)]).expect_assertion(COUNTER_INCREASES))
        unknown = {"alg": -65535, "type": KIND}
        case = Case(
            f"make/first_known_is_{name}", "make", "Unknown algorithms before a supported one are ignored.", **BOTH
        )
        cases.append(case.allocate().register(1, p4=[unknown, *listed]))
    case = Case("make/es256_twice_listed", "make", "A duplicate algorithm is accepted.", **TOUCH)
    cases.append(case.allocate().register(1, p4=[es256, es256]))
    case = Case("make/other_type_first", "make", "An entry with an unknown type is ignored.", **TOUCH)
    cases.append(case.allocate().register(1, p4=[{"alg": -8, "type": "other"}, es256]))
    return cases


def capability_cases() -> List[Case]:
    """Returns cases about capabilities of INIT's response, and errors."""
    cases = []
    case = Case("commands/msg_version", "msg", "Without the capability NMSG, CTAPHID_MSG is supported.", uses=["msg"])
    cases.append(
        case.allocate().send(1, hid.MSG, VERSION + bytes(3)).expect("message 03 5532465f56329000").expect_alive()
    )
    case = Case("commands/msg_unknown", "msg", "An unknown instruction gets its own status.", uses=["msg"])
    cases.append(
        case.allocate().send(1, hid.MSG, bytes([0, 0x70, 0, 0, 0, 0, 0])).expect("message 03 6d00").expect_alive()
    )
    case = Case("commands/msg_class", "msg", "An unknown class gets its own status.", uses=["msg"])
    cases.append(
        case.allocate().send(1, hid.MSG, bytes([0x60, 3, 0, 0, 0, 0, 0])).expect("message 03 6e00").expect_alive()
    )
    for count in (1, 2):
        case = Case(
            f"commands/wink_{count}", "wink", "With the capability WINK, CTAPHID_WINK is supported.", uses=["wink"]
        )
        case.allocate()
        for _ in range(count):
            case.send(1, hid.WINK).expect("message 08")
        cases.append(case.expect_alive())
    for name, channel, command in (("unknown", 1, 0x02), ("strange", 9, hid.PING)):
        case = Case(
            f"commands/zeros_behind_{name}", "packets", "Unused bytes of an ERROR should be zero.", level="should"
        )
        expected = "error 01" if name == "unknown" else "error 0b on 9"
        cases.append(case.allocate().send(channel, command, b"a").expect(expected, "zeros").expect_alive())
    case = Case(
        "ping/zeros_behind_after_a_long_one",
        "packets",
        "Padding should not contain bytes of other messages.",
        level="should",
    )
    case.allocate().send(1, hid.PING, b"\xee" * 57).expect("echo").send(1, hid.PING, b"a").expect("echo", "zeros")
    return cases + [case]


def cases() -> List[Case]:
    """Returns the cases of this file."""
    return (
        similar_id_cases()
        + state_cases()
        + counter_cases()
        + long_request_cases()
        + algorithm_cases()
        + capability_cases()
    )
