"""Further cases for rules that other files also test, with another list, RP, number or order."""

from __future__ import annotations

from typing import Any, Dict, List

from hidlog_conformance import hid_packets as hid
from hidlog_conformance.cases.corpus import KIND, NEXT, RESET, SELECTION, Case, descriptor, user
from hidlog_conformance.cases.flows import NEW_TOUCH, EMPTY, COUNTER_INCREASES, TOUCH, register_three_users
from hidlog_conformance.cases.similar_ids import LONG, VERSION

ORG: Dict[str, Any] = {"p2": {"id": "example.org", "name": "x"}}


def list_cases() -> List[Case]:
    """Returns cases about IDs, types and RPs in lists."""
    cases = []
    for kind in ("changed", "longer", "shorter"):
        case = Case(
            f"lists/allow_{kind}_among_others",
            "get",
            f"A {kind} credential ID matches no credential, at any place in the list.",
            **TOUCH,
        )
        case.allocate().register(1)
        listed = [descriptor(9), case.similar_descriptor(1, kind), descriptor(8)]
        cases.append(case.get(p3=listed).expect("status 2e").expect_alive())
    case = Case(
        "lists/exclude_discoverable_of_another_rp",
        "make",
        "A discoverable credential of another RP does not exclude.",
        **EMPTY,
    )
    cases.append(case.allocate().register(1, rk=True).register(2, rk=True, p5=[descriptor(1)], **ORG))
    case = Case("lists/exclude_other_types", "make", "Entries with unknown types do not exclude.", **TOUCH)
    cases.append(case.allocate().register(1).register(2, p5=[descriptor(9), descriptor(1, "other")]))
    case = Case("lists/exclude_second_of_two", "make", "Each entry of the exclude list counts.", **TOUCH)
    cases.append(
        case.allocate()
        .register(1)
        .make(p5=[descriptor(9), descriptor(1)])
        .presence()
        .expect("status 19")
        .expect_alive()
    )
    case = Case(
        "lists/allow_three", "get", "If the allow list has three credentials, numberOfCredentials is absent.", **TOUCH
    )
    case.allocate().register(1).register(2).register(3)
    cases.append(
        case.get(p3=[descriptor(number) for number in (1, 2, 3)]).expect_assertion(COUNTER_INCREASES + " no-number")
    )
    rps = {
        "capitals": "EXAMPLE.COM",
        "end": "le.com",
        "begin": "example.co",
        "below": "a.example.com",
        "more": "example.com.x",
    }
    for name, rp in rps.items():
        case = Case(f"lists/allow_rp_of_{name}", "get", "RP IDs are compared completely.", **TOUCH)
        cases.append(case.allocate().register(1).get(p1=rp, p3=[descriptor(1)]).expect("status 2e").expect_alive())
    return cases


def replaced_value_cases() -> List[Case]:
    """Returns cases about replaced credentials."""
    cases = []
    case = Case("get/two_hidden_stay", "get", "Non-discoverable credentials are not replaced.", **EMPTY)
    case.allocate().register(1).register(2).register(3, rk=True)
    cases.append(
        case.get(p3=[descriptor(1)])
        .expect_assertion(COUNTER_INCREASES)
        .get(p3=[descriptor(2)])
        .expect_assertion(COUNTER_INCREASES)
    )
    case = Case("get/two_hidden_replace_nothing", "get", "Non-discoverable credentials replace none.", **EMPTY)
    case.allocate().register(1, rk=True).register(2).register(3)
    cases.append(case.get().expect_assertion(f"{COUNTER_INCREASES} no-number id {descriptor(1)['id'].hex()}"))
    case = Case("get/same_user_of_another_rp_first", "get", "The order of RPs does not matter.", **EMPTY)
    case.allocate().register(1, rk=True, **ORG).register(2, rk=True).get(p1="example.org")
    cases.append(case.expect_assertion(f"rp example.org up counter-rises no-number id {descriptor(1)['id'].hex()}"))
    case = Case("reset/forgets_hidden", "reset", "After a reset a non-discoverable credential is gone.", **NEW_TOUCH)
    case.allocate().register(1).cbor(RESET).presence().expect("status 00")
    cases.append(case.get(p3=[descriptor(1)]).expect("status 2e").expect_alive())
    return cases


def pending_cases() -> List[Case]:
    """Returns cases about pending assertions."""
    cases = []
    case = Case("next/none_after_two", "next", "After the second of two assertions none is pending.", **EMPTY)
    case.allocate().register(1, rk=True, p3=user(1)).register(2, rk=True, p3=user(2))
    case.get().expect_assertion(f"{COUNTER_INCREASES} user 02 number 2").cbor(NEXT).expect_assertion(
        f"{COUNTER_INCREASES} user 01", presence=False
    )
    cases.append(case.cbor(NEXT).expect("status 30").cbor(NEXT).expect("status 30"))
    case = register_three_users(
        Case("next/after_reset_in_between", "next", "After a reset between two assertions none is pending.", **EMPTY)
    )
    case.cbor(NEXT).expect_assertion(f"{COUNTER_INCREASES} user 02", presence=False)
    cases.append(case.cbor(RESET).presence().expect("status 00").cbor(NEXT).expect("status 30"))
    case = register_three_users(
        Case(
            "next/after_failed_list",
            "next",
            "An allow list without a known credential discards pending assertions.",
            **EMPTY,
        )
    )
    cases.append(case.get(p3=[descriptor(9)]).expect("status 2e").cbor(NEXT).expect("status 30"))
    case = Case("next/each_of_four_renews", "next", "Each of three assertions restarts the 30 seconds.", **EMPTY)
    case.allocate()
    for number in (1, 2, 3, 4):
        case.register(number, rk=True, p3=user(number))
    case.get().expect_assertion(f"{COUNTER_INCREASES} user 04 number 4")
    for number in (3, 2, 1):
        case.wait(20000).cbor(NEXT).expect_assertion(f"{COUNTER_INCREASES} user 0{number}", presence=False)
    cases.append(case)
    case = Case(
        "next/one_of_another_rp",
        "next",
        "With one credential of the RP none is pending, whatever other RPs have.",
        **EMPTY,
    )
    case.allocate().register(1, rk=True, **ORG).register(2, rk=True).register(3, rk=True, p3=user(3))
    case.get(p1="example.org").expect_assertion("rp example.org up counter-rises no-number")
    cases.append(case.cbor(NEXT).expect("status 30"))
    case = Case("next/without_presence_of_three", "next", "No further assertion has UP.", **EMPTY)
    case.allocate()
    for number in (1, 2, 3):
        case.register(number, rk=True, p3=user(number))
    case.get(p5={"up": False}).expect_assertion("no-up user 03 number 3", presence=False)
    for number in (2, 1):
        case.cbor(NEXT).expect_assertion(f"no-up user 0{number}", presence=False)
    cases.append(case)
    case = Case("next/two_rps_newer", "next", "Newer credentials of other RPs are not counted.", **EMPTY)
    case.allocate().register(1, rk=True, p3=user(1))
    case.register(2, rk=True, p3=user(2), **ORG).register(3, rk=True, p3=user(3)).register(
        4, rk=True, p3=user(4), **ORG
    )
    case.get().expect_assertion(f"{COUNTER_INCREASES} user 03 number 2").cbor(NEXT).expect_assertion(
        f"{COUNTER_INCREASES} user 01", presence=False
    )
    cases.append(case.cbor(NEXT).expect("status 30"))
    case = Case(
        "get/one_among_other_rps",
        "get",
        "With one credential of the RP numberOfCredentials is absent, whatever other RPs have.",
        **EMPTY,
    )
    case.allocate().register(1, rk=True).register(2, rk=True, **ORG).register(3, rk=True, p3=user(3), **ORG)
    cases.append(case.get().expect_assertion(f"{COUNTER_INCREASES} no-number id {descriptor(1)['id'].hex()}"))
    return cases


def registration_cases() -> List[Case]:
    """Returns cases about flags, options, extensions and long requests."""
    cases = []
    case = Case("make/discoverable_without_uv", "make", "Without uv a discoverable credential has no flag UV.", **EMPTY)
    cases.append(case.allocate().make(p7={"rk": True}).expect_credential(1, "up no-uv"))
    case = Case(
        "make/option_up_false_and_rk",
        "make",
        "The option up false is refused in a registration, also with other options.",
        uses=["rk"],
    )
    cases.append(case.allocate().make(p7={"rk": True, "up": False}).expect("status 2c").expect_alive())
    case = Case("make/two_unknown_options", "make", "Unknown options are ignored.", **TOUCH)
    cases.append(case.allocate().register(1, p7={"unknown": True, "another": False}))
    case = Case("cbor/taken_two_extensions", "cbor", "Unknown extensions are ignored.", **TOUCH)
    cases.append(case.allocate().make(p6={"a": True, "another one": {"x": b"y"}}).expect_credential(1))
    case = Case("make/long_user", "make", "A long request is accepted, whichever member is long.", **LONG)
    cases.append(case.allocate().register(1, p3={"id": b"\1", "name": "alice", "displayName": "x" * 1700}))
    case = Case("make/enterprise_2", "make", "Unsupported enterprise attestation is refused.", uses=["no ep"])
    cases.append(case.allocate().make(p10=2).expect("status 02").expect_alive())
    case = Case("get/counters_without_touch_of_two", "get", "Each counter rises without a touch.", **TOUCH, uses=["up"])
    case.allocate().register(1).register(2)
    for number in (1, 2, 1, 2):
        case.get(p3=[descriptor(number)], p5={"up": False}).expect_assertion("no-up counter-rises", presence=False)
    cases.append(case)
    found: Dict[str, Any] = {"needs": ["touch", "reset"], "uses": ["rk", "extension credProtect"]}
    case = Case(
        "protect/level_3_hides_from_a_long_list", "protect", "Level 3 hides a credential from any list.", **found
    )
    case.allocate().make(p6={"credProtect": 3}, p7={"rk": True}).expect_credential(1, "up extension credProtect 03")
    listed = [descriptor(number) for number in (8, 1, 9)]
    cases.append(case.get(p3=listed).expect("status 2e").get(p3=listed).expect("status 2e"))
    case = Case(
        "secret/made_discoverable", "secret", "A discoverable registration with hmac-secret returns true.", **EMPTY
    )
    case.comment("uses: extension hmac-secret")
    cases.append(
        case.allocate()
        .make(p6={"hmac-secret": True}, p7={"rk": True})
        .expect_credential(1, "up extension hmac-secret f5")
    )
    return cases


def transport_cases() -> List[Case]:
    """Returns cases about capabilities, U2F, timeouts and empty messages."""
    cases = []
    case = Case(
        "commands/msg_with_version", "error", "A complete APDU is refused without the capability.", uses=["no msg"]
    )
    cases.append(case.allocate().send(1, hid.MSG, VERSION + bytes(3)).expect("error 01").expect_alive())
    case = Case("commands/wink_twice", "error", "WINK without its capability is refused each time.", uses=["no wink"])
    cases.append(
        case.allocate().send(1, hid.WINK).expect("error 01").send(1, hid.WINK).expect("error 01").expect_alive()
    )
    case = Case("commands/msg_version_twice", "msg", "The U2F version is the same each time.", uses=["msg"])
    case.allocate()
    for _ in range(2):
        case.send(1, hid.MSG, VERSION + bytes(3)).expect("message 03 5532465f56329000")
    cases.append(case.expect_alive())
    case = Case("commands/msg_class_80", "msg", "Another unknown class gets the same status.", uses=["msg"])
    cases.append(
        case.allocate().send(1, hid.MSG, bytes([0x80, 1, 0, 0, 0, 0, 0])).expect("message 03 6e00").expect_alive()
    )
    case = Case("commands/msg_unknown_10", "msg", "Another unknown instruction gets the same status.", uses=["msg"])
    cases.append(
        case.allocate().send(1, hid.MSG, bytes([0, 0x10, 0, 0, 0, 0, 0])).expect("message 03 6d00").expect_alive()
    )
    case = Case(
        "time/late_packets_are_ignored", "timeout", "A message that timed out cannot be continued by several packets."
    )
    case.allocate().begin(1, 200).go_on(1, 0, 200).tick(4000).expect("maybe error 05")
    cases.append(case.go_on(1, 1, 200).expect("silence").go_on(1, 2, 200).expect("silence").expect_alive())
    case = Case("commands/cbor_length_0_twice", "cbor command", "Each empty CBOR message gets a response.")
    case.allocate()
    for _ in range(2):
        case.send(1, hid.CBOR, b"").expect("error 03 or status")
    return cases + [case.expect_alive()]


def other_cases() -> List[Case]:
    """Returns cases about timeouts of messages and of the user, and the order of checks."""
    cases = []
    case = Case(
        "time/host_hears_of_each", "timeout", "The ERROR should have the code 05 each time.", level="should"
    ).allocate()
    for _ in range(2):
        case.begin(1).tick(4000).expect("error 05")
    cases.append(case.expect_alive())
    case = Case("selection/timeout_twice", "selection", "Each selection has its own result.", needs=["denial"])
    case.comment("uses: selection")
    case.allocate()
    for _ in range(2):
        case.cbor(SELECTION).presence("timeout").expect("status 2f")
    cases.append(case.expect_alive())
    case = Case(
        "make/first_algorithms_then_uv_and_rk", "make", "Errors in algorithms are reported before errors in options."
    )
    for use in ("no uv", "rk"):
        case.comment(f"uses: {use}")
    listed = [{"alg": number, "type": KIND} for number in (-65535, -65534)]
    cases.append(case.allocate().make(p4=listed, p7={"rk": True, "uv": True}).expect("status 26").expect_alive())
    return cases


def cases() -> List[Case]:
    """Returns the cases of this file."""
    return (
        list_cases()
        + replaced_value_cases()
        + pending_cases()
        + registration_cases()
        + transport_cases()
        + other_cases()
    )
