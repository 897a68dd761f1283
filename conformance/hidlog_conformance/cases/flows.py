"""Cases about registrations and sign-ins: lists, pending assertions, getInfo, reset and selection."""

from __future__ import annotations

from typing import Any, Dict, List

from hidlog_conformance import hid_packets as hid
from hidlog_conformance.cases.corpus import INFO, KIND, NEXT, RESET, SELECTION, Case, descriptor, user

TOUCH: Dict[str, Any] = {"needs": ["touch"]}
NEW_TOUCH: Dict[str, Any] = {"needs": ["touch", "reset"]}
EMPTY: Dict[str, Any] = {"needs": ["touch", "reset"], "uses": ["rk"]}
COUNTER_INCREASES = "rp example.com up counter-rises"


def info_cases() -> List[Case]:
    """Returns cases about authenticatorGetInfo."""
    cases = []
    case = Case(
        "info/shape", "info", "The response is a map with versions and an AAGUID of 16 bytes, in canonical CBOR."
    )
    cases.append(case.allocate().cbor(INFO).expect("info"))
    case = Case("info/twice", "info", "getInfo can be repeated.")
    cases.append(case.allocate().cbor(INFO).expect("info").cbor(INFO).expect("info"))
    case = Case("info/each_host", "info", "Each host gets a response.")
    cases.append(case.allocate(2).cbor(INFO, 2).expect("info on 2").cbor(INFO, 1).expect("info"))
    for name, data, byte in (
        ("info", INFO, "04"),
        ("reset", RESET, "07"),
        ("next", NEXT, "08"),
        ("selection", SELECTION, "0b"),
    ):
        case = Case(
            f"commands/bytes_behind_{name}",
            "commands",
            f"Parameters of the command {byte}, which has none, are refused.",
        )
        case.comment("profile: the standard does not say how parameters are refused")
        if name == "reset":
            case.comment("needs: reset")
        cases.append(case.allocate().cbor(data + b"\xa0").expect("status 03").expect_alive())
    return cases


def registration_cases() -> List[Case]:
    """Returns cases about registrations, and the user's replies."""
    cases = []
    case = Case(
        "make/answer",
        "make",
        "The response has authenticator data with UP and AT, a public key and an attestation.",
        **TOUCH,
    )
    cases.append(case.allocate().make().expect_credential(1, "up no-uv"))
    case = Case(
        "make/counter_of_a_new_one",
        "make",
        "A new credential's counter is 0.",
        **TOUCH,
        profile="a counter may start at any value",
    )
    cases.append(case.allocate().make().expect_credential(1, "up counter 0"))
    case = Case("make/three_ids", "make", "Each registration has a new credential ID.", **TOUCH)
    cases.append(case.allocate().register(1).register(2).register(3))
    for word, status in (("denied", "27"), ("timeout", "27")):
        case = Case(f"make/user_{word}", "make", "Without user presence no credential is made.", needs=["denial"])
        cases.append(case.allocate().make().presence(word).expect(f"status {status}").expect_alive())
    return cases


def missing_key_cases() -> List[Case]:
    """Returns cases about registrations without a key pair, signature or capacity."""
    cases = []
    case = Case("make/no_key", "make", "If no key pair can be made, the response is an error.", needs=["refusal"])
    case.comment("profile: the standard does not say which error")
    case.allocate().make().presence()
    case.lines.append(f"k {case.at} no")
    cases.append(case.expect("status 7f").expect_alive())
    case = Case(
        "make/no_signature",
        "make",
        "If nothing can be signed, the response is an error and nothing is stored.",
        needs=["refusal"],
    )
    case.comment("profile: the standard does not say which error")
    case.allocate().make(p7={"rk": True}).presence().key(1)
    case.lines.append(f"s {case.at} no")
    cases.append(case.expect("status 7f").get().expect("status 2e"))
    case = Case("make/full", "make", "If the device is full, the status is 28.", needs=["capacity 64"])
    case.comment("profile: the capacity is 64")
    case.allocate()
    for number in range(64):
        case.register(number)
    cases.append(case.make().presence().expect("status 28"))
    return cases


def exclude_list_cases() -> List[Case]:
    """Returns cases about exclude lists."""
    cases = []
    lists: Dict[str, List[Any]] = {
        "one": [descriptor(1)],
        "last_of_ten": [descriptor(number) for number in range(20, 29)] + [descriptor(1)],
        "first_of_ten": [descriptor(1)] + [descriptor(number) for number in range(20, 29)],
        "with_transports": [{**descriptor(1), "transports": ["usb"]}],
        "twice": [descriptor(1), descriptor(1)],
    }
    for name, exclude in lists.items():
        case = Case(
            f"lists/exclude_{name}",
            "make",
            "A credential of this RP in the exclude list ends the request after the touch.",
            **TOUCH,
        )
        cases.append(case.allocate().register(1).make(p5=exclude).presence().expect("status 19").expect_alive())
    for word in ("denied", "timeout"):
        case = Case(
            f"lists/exclude_{word}", "make", "An excluded registration has this status whether or not the user touches."
        )
        case.comment("needs: denial")
        cases.append(case.allocate().register(1).make(p5=[descriptor(1)]).presence(word).expect("status 19"))
    return cases


def exclude_without_match_cases() -> List[Case]:
    """Returns cases about exclude lists without a credential of the RP, and the touch before the error."""
    cases = []
    passes: Dict[str, List[Any]] = {"empty": [], "unknown": [descriptor(9)], "other_type": [descriptor(1, "other")]}
    for name, exclude in passes.items():
        case = Case(
            f"lists/exclude_{name}",
            "make",
            "An exclude list without a credential of this RP has no effect.",
            **TOUCH,
        )
        cases.append(case.allocate().register(1).register(2, p5=exclude))
    case = Case("lists/exclude_of_another_rp", "make", "A credential of another RP does not exclude.", **TOUCH)
    cases.append(case.allocate().register(1).register(2, p2={"id": "example.org", "name": "x"}, p5=[descriptor(1)]))
    case = Case(
        "lists/exclude_asks_first",
        "make",
        "User presence is requested before the error about an excluded credential.",
        **TOUCH,
    )
    case.allocate().register(1).make(p5=[descriptor(1)]).expect("keepalive 02").tick(100).expect("nothing")
    cases.append(case.send(1, hid.CANCEL).expect("status 2d"))
    case = Case("lists/exclude_discoverable", "make", "A discoverable credential can be excluded.", **EMPTY)
    cases.append(
        case.allocate().register(1, rk=True).make(p5=[descriptor(1)], p7={"rk": True}).presence().expect("status 19")
    )
    case = Case("lists/exclude_replaced", "make", "A replaced credential does not exclude.", **EMPTY)
    cases.append(case.allocate().register(1, rk=True).register(2, rk=True).register(3, p5=[descriptor(1)]))
    return cases


def allow_list_cases() -> List[Case]:
    """Returns cases about allow lists."""
    cases = []
    found: Dict[str, List[Any]] = {
        "one": [descriptor(1)],
        "last_of_ten": [descriptor(number) for number in range(20, 29)] + [descriptor(1)],
        "first_of_ten": [descriptor(1)] + [descriptor(number) for number in range(20, 29)],
        "behind_another_type": [descriptor(9, "other"), descriptor(1)],
        "with_transports": [{**descriptor(1), "transports": ["usb", "nfc"]}],
    }
    for name, allow in found.items():
        case = Case(f"lists/allow_{name}", "get", "The credential of this RP in the allow list signs.", **TOUCH)
        cases.append(case.allocate().register(1).get(p3=allow).expect_assertion(COUNTER_INCREASES + " no-uv no-number"))
    return cases


def allow_without_match_cases() -> List[Case]:
    """Returns cases about allow lists without a credential of the RP."""
    cases = []
    missing: Dict[str, List[Any]] = {
        "unknown": [descriptor(9)],
        "other_type": [descriptor(1, "other")],
        "many_unknown": [descriptor(n) for n in range(20, 30)],
    }
    for name, allow in missing.items():
        case = Case(
            f"lists/allow_{name}", "get", "If the allow list has no credential of this RP, the status is 2e.", **TOUCH
        )
        cases.append(case.allocate().register(1).get(p3=allow).expect("status 2e").expect_alive())
    case = Case("lists/allow_of_another_rp", "get", "A credential signs only for its own RP.", **TOUCH)
    cases.append(
        case.allocate().register(1).get(p1="example.org", p3=[descriptor(1)]).expect("status 2e").expect_alive()
    )
    for name, rp in (("capital", "Example.com"), ("longer", "example.com."), ("empty", "")):
        case = Case(f"lists/allow_rp_{name}", "get", "RP IDs are compared byte by byte.", **TOUCH)
        cases.append(case.allocate().register(1).get(p1=rp, p3=[descriptor(1)]).expect("status 2e").expect_alive())
    return cases


def allow_several_cases() -> List[Case]:
    """Returns cases about allow lists of several credentials, and empty ones."""
    cases = []
    case = Case(
        "lists/allow_two",
        "get",
        "If the allow list has two credentials, one signs, without numberOfCredentials.",
        **TOUCH,
    )
    cases.append(
        case.allocate()
        .register(1)
        .register(2)
        .get(p3=[descriptor(2), descriptor(1)])
        .expect_assertion(COUNTER_INCREASES + " no-number")
    )
    case = Case(
        "lists/allow_two_first",
        "get",
        "If the allow list has two credentials, the first signs.",
        **TOUCH,
        profile="either may sign",
    )
    case.allocate().register(1).register(2).get(p3=[descriptor(2), descriptor(1)])
    cases.append(case.expect_assertion(f"id {descriptor(2)['id'].hex()}"))
    case = Case("lists/allow_empty", "get", "An empty allow list is treated as absent.", **EMPTY)
    cases.append(case.allocate().register(1, rk=True).get(p3=[]).expect_assertion(COUNTER_INCREASES))
    case = Case(
        "lists/allow_unknown_discoverable",
        "get",
        "An allow list without a known credential is not treated as absent.",
        **EMPTY,
    )
    cases.append(case.allocate().register(1, rk=True).get(p3=[descriptor(9)]).expect("status 2e"))
    case = Case("lists/allow_then_next", "next", "After a sign-in with an allow list no assertion is pending.", **EMPTY)
    case.comment("since: CTAP 2.0 allows further assertions after an allow list")
    case.allocate().register(1, rk=True, p3=user(1)).register(2, rk=True, p3=user(2)).get(
        p3=[descriptor(1), descriptor(2)]
    )
    cases.append(case.expect_assertion(COUNTER_INCREASES).cbor(NEXT).expect("status 30"))
    return cases


def sign_in_cases() -> List[Case]:
    """Returns cases about counters, and user presence."""
    cases = []
    case = Case("get/counter_rises", "get", "The counter rises at each sign-in.", **TOUCH)
    case.allocate().register(1)
    for _ in range(4):
        case.get(p3=[descriptor(1)]).expect_assertion(COUNTER_INCREASES)
    cases.append(case)
    case = Case("get/counter_rises_by_one", "get", "The counter rises.", **TOUCH, profile="a counter may stay 0")
    cases.append(case.allocate().register(1).get(p3=[descriptor(1)]).expect_assertion(COUNTER_INCREASES + " strictly"))
    case = Case(
        "get/without_presence",
        "get",
        "With up false no touch is requested, and flag UP is not set.",
        **TOUCH,
        uses=["up"],
    )
    cases.append(
        case.allocate()
        .register(1)
        .get(p3=[descriptor(1)], p5={"up": False})
        .expect_assertion("no-up counter-rises", presence=False)
    )
    case = Case("get/up_true", "get", "With up true a touch is requested.", **TOUCH)
    cases.append(
        case.allocate()
        .register(1)
        .get(p3=[descriptor(1)], p5={"up": True})
        .expect("keepalive 02")
        .expect_assertion(COUNTER_INCREASES)
    )
    case = Case("get/up_true_uv_false", "get", "The option uv false has no effect.", **TOUCH)
    cases.append(
        case.allocate()
        .register(1)
        .get(p3=[descriptor(1)], p5={"uv": False})
        .expect_assertion(COUNTER_INCREASES + " no-uv")
    )
    return cases


def refused_sign_in_cases() -> List[Case]:
    """Returns cases about refused sign-ins, and sign-ins without a list."""
    cases = []
    for word in ("denied", "timeout"):
        case = Case(f"get/user_{word}", "get", "Without user presence nothing is signed.", needs=["denial"])
        cases.append(
            case.allocate().register(1).get(p3=[descriptor(1)]).presence(word).expect("status 27").expect_alive()
        )
    case = Case("get/nothing_registered", "get", "Without a credential of the RP the status is 2e.", needs=["reset"])
    cases.append(case.allocate().get().expect("status 2e").expect_alive())
    case = Case(
        "get/other_credentials_stay_hidden",
        "get",
        "A non-discoverable credential is only found by an allow list.",
        **EMPTY,
    )
    cases.append(
        case.allocate()
        .register(1)
        .get()
        .expect("status 2e")
        .get(p3=[descriptor(1)])
        .expect_assertion(COUNTER_INCREASES)
    )
    case = Case(
        "get/discoverable", "get", "A discoverable credential is found without an allow list, with its user.", **EMPTY
    )
    cases.append(
        case.allocate().register(1, rk=True).get().expect_assertion(COUNTER_INCREASES + " user 01 no-number no-name")
    )
    case = Case(
        "get/discoverable_by_list",
        "get",
        "A discoverable credential is found by an allow list, with its user.",
        **EMPTY,
    )
    cases.append(
        case.allocate()
        .register(1, rk=True)
        .get(p3=[descriptor(1)])
        .expect_assertion(COUNTER_INCREASES + " user 01 no-name")
    )
    return cases


def same_user_cases() -> List[Case]:
    """Returns cases about repeated registrations of a user, and about other RPs."""
    cases = []
    case = Case(
        "get/same_user_again", "get", "A discoverable credential replaces that of the same RP and user.", **EMPTY
    )
    case.allocate().register(1, rk=True).register(2, rk=True).get().expect_assertion(
        f"{COUNTER_INCREASES} no-number id {descriptor(2)['id'].hex()}"
    )
    cases.append(case.get(p3=[descriptor(1)]).expect("status 2e"))
    case = Case("get/same_user_of_another_rp", "get", "The same user ID at another RP is a different user.", **EMPTY)
    case.allocate().register(1, rk=True).register(2, rk=True, p2={"id": "example.org", "name": "x"})
    cases.append(case.get().expect_assertion(f"{COUNTER_INCREASES} no-number id {descriptor(1)['id'].hex()}"))
    case = Case("get/hidden_replaces_nothing", "get", "A non-discoverable credential replaces none.", **EMPTY)
    case.allocate().register(1, rk=True).register(2)
    cases.append(case.get().expect_assertion(f"{COUNTER_INCREASES} no-number id {descriptor(1)['id'].hex()}"))
    for number, rp in enumerate(("a", "example.com:443", "x" * 253, "ü.example"), 1):
        case = Case(f"get/rp_{number}", "get", "RP IDs have any length and characters.", **TOUCH)
        case.allocate().register(1, p2={"id": rp, "name": "x"}).get(p1=rp, p3=[descriptor(1)])
        cases.append(case.expect_assertion("up counter-rises"))
    return cases


def register_three_users(case: Case) -> Case:
    """Registers three users and signs in without an allowList: the newest credential signs."""
    case.allocate()
    for number in (1, 2, 3):
        case.register(number, rk=True, p3=user(number))
    return case.get().expect_assertion(f"{COUNTER_INCREASES} user 03 number 3 no-name")


def next_assertion_cases() -> List[Case]:
    """Returns cases about authenticatorGetNextAssertion."""
    cases = []
    case = register_three_users(
        Case("next/newest_first", "next", "The other assertions follow, each once, newest first.", **EMPTY)
    )
    for number in (2, 1):
        case.cbor(NEXT).expect_assertion(f"{COUNTER_INCREASES} user 0{number} no-number", presence=False)
    cases.append(case.cbor(NEXT).expect("status 30"))
    case = Case("next/nothing_pending", "next", "Without a sign-in before it the status is 30.")
    cases.append(case.allocate().cbor(NEXT).expect("status 30").expect_alive())
    case = Case("next/one_credential", "next", "After a sign-in with one credential nothing is pending.", **EMPTY)
    cases.append(
        case.allocate().register(1, rk=True).get().expect_assertion(COUNTER_INCREASES).cbor(NEXT).expect("status 30")
    )
    return cases


def pending_time_cases() -> List[Case]:
    """Returns cases about the timeout of pending assertions."""
    cases = []
    case = register_three_users(
        Case(
            "next/after_30_seconds", "next", "More than 30 seconds after the last assertion the status is 30.", **EMPTY
        )
    )
    cases.append(case.wait(30500).cbor(NEXT).expect("status 30").cbor(NEXT).expect("status 30"))
    case = register_three_users(
        Case(
            "next/one_then_too_late",
            "next",
            "More than 30 seconds after a further assertion the status is 30.",
            **EMPTY,
        )
    )
    case.cbor(NEXT).expect_assertion(f"{COUNTER_INCREASES} user 02", presence=False)
    cases.append(case.wait(30500).cbor(NEXT).expect("status 30"))
    case = register_three_users(Case("next/each_renews", "next", "Each assertion restarts the 30 seconds.", **EMPTY))
    case.wait(20000).cbor(NEXT).expect_assertion(f"{COUNTER_INCREASES} user 02", presence=False)
    cases.append(case.wait(20000).cbor(NEXT).expect_assertion(f"{COUNTER_INCREASES} user 01", presence=False))
    for wait, late in ((30000, False), (30001, True)):
        case = Case(
            f"next/at_{wait}", "next", "The 30 seconds are exact to the millisecond.", needs=["exact time", "reset"]
        )
        case.comment("profile: other authenticators have no such exact clock")
        register_three_users(case).wait(wait).cbor(NEXT)
        cases.append(
            case.expect("status 30") if late else case.expect_assertion(f"{COUNTER_INCREASES} user 02", presence=False)
        )
    return cases


def interleaved_cases() -> List[Case]:
    """Returns cases about other messages between assertions."""
    cases = []
    case = register_three_users(Case("next/ping_between", "next", "A PING in between has no effect.", **EMPTY))
    cases.append(case.expect_alive().cbor(NEXT).expect_assertion(f"{COUNTER_INCREASES} user 02", presence=False))
    case = register_three_users(
        Case("next/refused_packet_between", "next", "A refused packet in between has no effect.", **EMPTY)
    )
    cases.append(
        case.send(9, hid.PING, b"a")
        .expect("error 0b on 9")
        .cbor(NEXT)
        .expect_assertion(f"{COUNTER_INCREASES} user 02", presence=False)
    )
    case = register_three_users(
        Case(
            "next/another_command_between",
            "next",
            "Another command discards pending assertions.",
            **EMPTY,
            profile="they may stay pending",
        )
    )
    cases.append(case.cbor(INFO).expect("info").cbor(NEXT).expect("status 30"))
    case = register_three_users(
        Case(
            "next/another_channel",
            "next",
            "Pending assertions belong to the channel of the sign-in.",
            **EMPTY,
            profile="a device may keep them for all channels",
        )
    )
    cases.append(
        case.send(hid.BROADCAST, hid.INIT, b"\1" * 8)
        .expect("init nonce " + "01" * 8)
        .cbor(NEXT, 2)
        .expect("status 30 on 2")
    )
    return cases


def new_sign_in_cases() -> List[Case]:
    """Returns cases about new sign-ins, and the flags of the first assertion."""
    cases = []
    case = register_three_users(
        Case("next/new_sign_in", "next", "A new sign-in starts over with the newest credential.", **EMPTY)
    )
    case.cbor(NEXT).expect_assertion(f"{COUNTER_INCREASES} user 02", presence=False).get().expect_assertion(
        f"{COUNTER_INCREASES} user 03 number 3"
    )
    cases.append(case.cbor(NEXT).expect_assertion(f"{COUNTER_INCREASES} user 02", presence=False))
    case = Case("next/without_presence", "next", "The flags are those of the first assertion: UP is not set.", **EMPTY)
    case.allocate().register(1, rk=True, p3=user(1)).register(2, rk=True, p3=user(2))
    case.get(p5={"up": False}).expect_assertion("no-up user 02 number 2", presence=False)
    cases.append(case.cbor(NEXT).expect_assertion("no-up user 01", presence=False))
    case = Case("next/two_rps", "next", "Credentials of other RPs are not counted.", **EMPTY)
    case.allocate().register(1, rk=True, p3=user(1)).register(
        2, rk=True, p3=user(2), p2={"id": "example.org", "name": "x"}
    )
    cases.append(case.register(3, rk=True, p3=user(3)).get().expect_assertion(f"{COUNTER_INCREASES} user 03 number 2"))
    return cases


def reset_cases() -> List[Case]:
    """Returns cases about authenticatorReset and authenticatorSelection."""
    cases = []
    case = Case("reset/granted", "reset", "A reset with a touch returns 00.", **NEW_TOUCH)
    cases.append(case.allocate().cbor(RESET).presence().expect("status 00").expect_alive())
    case = Case("reset/forgets", "reset", "After a reset no credential is left.", **NEW_TOUCH, uses=["rk"])
    case.allocate().register(1).register(2, rk=True).cbor(RESET).presence().expect("status 00")
    cases.append(case.get(p3=[descriptor(1)]).expect("status 2e").get().expect("status 2e"))
    case = Case("reset/serves_again", "reset", "After a reset credentials can be registered.", **NEW_TOUCH)
    cases.append(
        case.allocate()
        .cbor(RESET)
        .presence()
        .expect("status 00")
        .register(1)
        .get(p3=[descriptor(1)])
        .expect_assertion(COUNTER_INCREASES)
    )
    case = Case("reset/asks_for_the_user", "reset", "A reset requests a touch.", **NEW_TOUCH)
    cases.append(
        case.allocate().cbor(RESET).expect("keepalive 02").tick(100).expect("nothing").presence().expect("status 00")
    )
    for word, status in (("denied", "27"), ("timeout", "2f")):
        case = Case(
            f"reset/user_{word}", "reset", "Without user presence a reset deletes nothing.", needs=["denial", "reset"]
        )
        case.allocate().register(1).cbor(RESET).presence(word).expect(f"status {status}")
        cases.append(case.get(p3=[descriptor(1)]).expect_assertion(COUNTER_INCREASES))
    case = Case("reset/cancelled", "reset", "A cancelled reset deletes nothing.", **NEW_TOUCH)
    case.allocate().register(1).cbor(RESET).expect("keepalive 02").send(1, hid.CANCEL).expect("status 2d")
    cases.append(case.get(p3=[descriptor(1)]).expect_assertion(COUNTER_INCREASES))
    return cases


def late_reset_cases() -> List[Case]:
    """Returns cases about resets more than ten seconds after power-up."""
    cases = []
    case = Case("reset/too_late", "reset", "A reset more than 10 seconds after power-up is refused.", **NEW_TOUCH)
    case.comment("uses: no display")
    cases.append(case.allocate().wait(10500).cbor(RESET).expect("status 30").expect_alive())
    for wait, answer in ((10000, "keepalive 02"), (10001, "status 30")):
        case = Case(
            f"reset/at_{wait}", "reset", "The 10 seconds are exact to the millisecond.", needs=["exact time", "reset"]
        )
        case.comment("profile: other authenticators have no such exact clock")
        cases.append(case.allocate().wait(wait).cbor(RESET).expect(answer))
    return cases


def selection_cases() -> List[Case]:
    """Returns cases about authenticatorSelection."""
    cases = []
    for word, status in (("granted", "00"), ("denied", "27"), ("timeout", "2f")):
        need = "touch" if word == "granted" else "denial"
        case = Case(
            f"selection/{word}", "selection", f"A selection returns {status}.", needs=[need], uses=["selection"]
        )
        cases.append(case.allocate().cbor(SELECTION).presence(word).expect(f"status {status}").expect_alive())
    case = Case(
        "selection/asks_for_the_user", "selection", "A selection requests a touch.", **TOUCH, uses=["selection"]
    )
    case.allocate().cbor(SELECTION).expect("keepalive 02").tick(100).expect("nothing")
    cases.append(case.presence().expect("status 00").tick(200).expect("silence"))
    case = Case(
        "selection/changes_nothing",
        "selection",
        "A selection does not change credentials.",
        **TOUCH,
        uses=["selection"],
    )
    case.allocate().register(1).cbor(SELECTION).presence().expect("status 00")
    cases.append(case.get(p3=[descriptor(1)]).expect_assertion(COUNTER_INCREASES))
    return cases


def cases() -> List[Case]:
    """Returns the cases of this file."""
    assert KIND == "public-key"
    found = (
        info_cases() + registration_cases() + missing_key_cases() + exclude_list_cases() + exclude_without_match_cases()
    )
    found += (
        allow_list_cases()
        + allow_without_match_cases()
        + allow_several_cases()
        + sign_in_cases()
        + refused_sign_in_cases()
        + same_user_cases()
    )
    return (
        found
        + next_assertion_cases()
        + pending_time_cases()
        + interleaved_cases()
        + new_sign_in_cases()
        + reset_cases()
        + late_reset_cases()
        + selection_cases()
    )
