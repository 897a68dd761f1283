"""Cases about power cycles: the state that a device keeps, and the state that it loses."""

from __future__ import annotations

from typing import Any, Dict, List

from hidlog_conformance import hid_packets as hid
from hidlog_conformance.cases.flows import COUNTER_INCREASES, register_three_users
from hidlog_conformance.cases.corpus import NEXT, RESET, Case, descriptor, user

POWER_CYCLE_RULE: Dict[str, Any] = {"needs": ["touch", "power cycle"]}
FOUND: Dict[str, Any] = {"needs": ["touch", "reset", "power cycle"], "uses": ["rk"]}


def kept_cases() -> List[Case]:
    """Returns cases about credentials and their counters."""
    cases = []
    case = Case("power/credential_stays", "get", "A credential survives a power cycle.", **POWER_CYCLE_RULE)
    cases.append(
        case.allocate().register(1).power_cycle().allocate().get(p3=[descriptor(1)]).expect_assertion(COUNTER_INCREASES)
    )
    case = Case("power/counter_goes_on", "get", "The counter rises across a power cycle.", **POWER_CYCLE_RULE)
    case.allocate().register(1)
    for _ in range(2):
        case.get(p3=[descriptor(1)]).expect_assertion(COUNTER_INCREASES).get(p3=[descriptor(1)]).expect_assertion(
            COUNTER_INCREASES
        ).power_cycle().allocate()
    cases.append(case.get(p3=[descriptor(1)]).expect_assertion(COUNTER_INCREASES))
    case = Case(
        "power/counters_of_two_go_on",
        "get",
        "The counters of two credentials rise across a power cycle.",
        **POWER_CYCLE_RULE,
    )
    case.allocate().register(1).register(2)
    for number in (1, 2, 1, 2, 2):
        case.get(p3=[descriptor(number)]).expect_assertion(COUNTER_INCREASES)
    case.power_cycle().allocate()
    for number in (1, 2):
        case.get(p3=[descriptor(number)]).expect_assertion(COUNTER_INCREASES)
    cases.append(case)
    case = Case("power/discoverable_stays", "get", "A discoverable credential survives a power cycle.", **FOUND)
    case.allocate().register(1, rk=True, p3=user(1)).power_cycle().allocate()
    cases.append(case.get().expect_assertion(COUNTER_INCREASES + " user 01 no-number no-name"))
    case = Case("power/newest_first", "next", "The order of credentials survives a power cycle.", **FOUND)
    case.allocate().register(1, rk=True, p3=user(1)).register(2, rk=True, p3=user(2)).power_cycle().allocate()
    case.get().expect_assertion(f"{COUNTER_INCREASES} user 02 number 2")
    cases.append(case.cbor(NEXT).expect_assertion(f"{COUNTER_INCREASES} user 01 no-number", presence=False))
    case = Case("power/still_excluded", "make", "A credential excludes after a power cycle.", **POWER_CYCLE_RULE)
    case.allocate().register(1).power_cycle().allocate().make(p5=[descriptor(1)]).presence()
    cases.append(case.expect("status 19").expect_alive())
    case = Case(
        "power/other_credentials_stay_hidden",
        "get",
        "A non-discoverable credential stays so after a power cycle.",
        **FOUND,
    )
    cases.append(case.allocate().register(1).power_cycle().allocate().get().expect("status 2e"))
    return cases


def not_kept_cases() -> List[Case]:
    """Returns cases about credentials that were removed, and credentials that were never created."""
    cases = []
    case = Case(
        "power/replaced_stays_replaced", "get", "A replaced credential stays gone after a power cycle.", **FOUND
    )
    case.allocate().register(1, rk=True).register(2, rk=True).power_cycle().allocate().get()
    cases.append(case.expect_assertion(f"{COUNTER_INCREASES} no-number id {descriptor(2)['id'].hex()}"))
    case = Case("power/reset_stays", "reset", "A reset's effects survive a power cycle.", **FOUND)
    case.allocate().register(1, rk=True).cbor(RESET).presence().expect("status 00").power_cycle().allocate()
    cases.append(case.get().expect("status 2e").get(p3=[descriptor(1)]).expect("status 2e"))
    case = Case("power/reset_in_time_again", "reset", "The ten seconds for a reset restart at power-up.", **FOUND)
    case.comment("uses: no display")
    case.allocate().register(1, rk=True).wait(10500).cbor(RESET).expect("status 30").power_cycle().allocate()
    cases.append(case.cbor(RESET).presence().expect("status 00").get().expect("status 2e"))
    case = Case(
        "power/nothing_was_made", "make", "A pending registration makes no credential at a power cycle.", **FOUND
    )
    case.allocate().make(p7={"rk": True}).expect("keepalive 02").power_cycle().allocate()
    cases.append(case.get().expect("status 2e"))
    return cases


def forgotten_cases() -> List[Case]:
    """Returns cases about pending assertions, channels, messages and requests."""
    cases = []
    case = register_three_users(
        Case("power/pending_is_gone", "next", "Pending assertions are lost at a power cycle.", **FOUND)
    )
    cases.append(case.power_cycle().allocate().cbor(NEXT).expect("status 30").expect_alive())
    case = register_three_users(
        Case(
            "power/pending_is_gone_behind_the_first",
            "next",
            "Pending assertions are lost at a power cycle, also after a further one.",
            **FOUND,
        )
    )
    case.cbor(NEXT).expect_assertion(f"{COUNTER_INCREASES} user 02", presence=False)
    cases.append(case.power_cycle().allocate().cbor(NEXT).expect("status 30").expect_alive())
    case = Case("power/channel_is_gone", "channels", "Channels are lost at a power cycle.")
    case.comment("needs: power cycle")
    cases.append(case.allocate().power_cycle().send(1, hid.PING, b"a").expect("error 0b").allocate().expect_alive())
    case = Case("power/open_message_is_gone", "sequence", "An incomplete message is lost at a power cycle.")
    case.comment("needs: power cycle")
    cases.append(case.allocate().begin(1).power_cycle().allocate().go_on(1).expect("silence").expect_alive())
    case = Case(
        "power/nobody_else_waits",
        "busy",
        "After a power cycle an earlier incomplete message does not block other hosts.",
    )
    case.comment("needs: power cycle")
    cases.append(case.allocate().begin(1).power_cycle().allocate(2).expect_alive(2).expect_alive(1))
    case = Case(
        "power/request_is_gone",
        "keepalive",
        "After a power cycle no KEEPALIVE of an earlier request comes.",
        **POWER_CYCLE_RULE,
    )
    case.allocate().make().expect("keepalive 02").power_cycle().allocate().tick(250).expect("silence")
    cases.append(case.presence().expect("silence").expect_alive())
    case = Case(
        "power/cancel_finds_nothing",
        "cancel",
        "After a power cycle a CANCEL of an earlier request is ignored.",
        **POWER_CYCLE_RULE,
    )
    case.allocate().make().expect("keepalive 02").power_cycle().allocate().send(1, hid.CANCEL).expect("silence")
    cases.append(case.expect_alive())
    return cases


def cases() -> List[Case]:
    """Returns the cases of this file."""
    return kept_cases() + not_kept_cases() + forgotten_cases()
