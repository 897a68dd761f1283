"""Tours: sessions, written by hand, that each combine several cases, so that a person touches the device less often.

A tour tests the same as its cases: a registration has the members of several requests, and steps that the cases have in
common are played only once. A device that passes a tour passes each of its cases. If it fails, its cases are played one
by one. `check.py faults --kept` plays tours to faulty authenticators.
"""

from __future__ import annotations

import functools
from dataclasses import dataclass, replace
from typing import Any, Callable, Dict, Iterator, List, Tuple, Union

from hidlog_conformance import hid_packets as hid
from hidlog_conformance.cases.corpus import KIND, SELECTION, Case, descriptor
from hidlog_conformance.cases.ctap1 import APPLICATION, CHALLENGE, CHECK_ONLY, ENFORCE, HANDLE, NO_TOUCH, OTHER
from hidlog_conformance.cases.ctap1 import REGISTER, WRONG_DATA, U2fCase
from hidlog_conformance.cases.flows import COUNTER_INCREASES
from hidlog_conformance.session_file import Session, Step, parse_session

ES256, EDDSA, UNKNOWN = ({"alg": number, "type": KIND} for number in (-7, -8, -65535))
SILENT = {"up": False}
# The kind of a step that power cycles the device.
POWER = "power"


# Text in characters of three and four bytes.
LONG_NAMES = {"name": "xx" + "€" * 63, "displayName": "𝄞" * 14}


# A part of a tour: the name of a case, or a function that writes the part, given the credential IDs of earlier parts.
Part = Union[str, Callable[[Case, List[bytes]], Case]]


@dataclass(frozen=True)
class Tour:
    """A session of several parts, and the names of the cases that it replaces."""

    parts: Tuple[Part, ...]
    covers: Tuple[str, ...]
    # The cases without which a device cannot pass it.
    required: Tuple[str, ...] = ()
    # Whether the tour is also played if the device does not support all of the cases.
    is_partial: bool = False

    def build_session(self, known: Dict[str, Session]) -> Session:
        """Returns the session; `known` has the cases by name."""
        steps: List[Step] = []
        derived: Dict[bytes, Tuple[str, bytes]] = {}
        for part in self.parts:
            made = [bytes.fromhex(step.words[0]) for step in steps if step.kind == "k"]
            if isinstance(part, str):
                session = known[part]
                # The channels of a case are numbered from 1.
                steps += [Step(POWER, 0, [], 0)] if steps else []
            else:
                session = parse_session(part(Case("tour", "make", "Several cases as one."), made).lines, "tour")
            at = max((step.at for step in steps), default=0)
            steps += [shift_time(step, at) for step in session.steps]
            derived.update(session.derived)
        first = known[self.covers[0]] if self.covers[0] in known else session
        return replace(first, steps=steps, derived=derived, needs=[], uses=[])


def shift_time(step: Step, milliseconds: int) -> Step:
    """Returns the step with a later time."""
    packets = [(at + milliseconds, packet) for at, packet in step.packets]
    return replace(step, at=step.at + milliseconds, packets=packets)


def make_tour(parts: Union[Part, Tuple[Part, ...]], covers: str, required: str = "", is_partial: bool = False) -> Tour:
    """Returns a tour of cases whose names are words."""
    several = parts if isinstance(parts, tuple) else (parts,)
    return Tour(several, tuple(covers.split()), tuple(required.split()), is_partial)


def sign_in_silently(case: Case, number: int, rp: str = "example.com") -> Case:
    """Signs in without a touch."""
    return case.get(p1=rp, p3=[descriptor(number)], p5=SILENT).expect_assertion("no-up counter-rises", presence=False)


def refuse_earlier_touch(case: Case) -> Case:
    """Expects that a request asks for a touch, and cancels it."""
    return case.expect("keepalive 02").tick(100).expect("nothing").send(1, hid.CANCEL).expect("status 2d")


def touched_sign_ins(case: Case, made: List[bytes]) -> Case:
    """Adds sign-ins with and without touches in turn, with all options; a touch counts once."""
    case.allocate().register(1).get(p3=[descriptor(1)], p5={"up": True, "uv": False}).expect("keepalive 02")
    sign_in_silently(case.expect_assertion(COUNTER_INCREASES + " no-uv"), 1)
    case.get(p3=[descriptor(1)]).expect_assertion(COUNTER_INCREASES)
    return sign_in_silently(refuse_earlier_touch(case.get(p3=[descriptor(1)])), 1)


def useless_touch(case: Case, made: List[bytes]) -> Case:
    """Adds a touch after a CANCEL, and before a sign-in."""
    case.allocate().register(1).make().expect("keepalive 02").send(1, hid.CANCEL).expect("status 2d")
    case.presence().expect("silence").tick(150).expect("silence").expect_alive()
    return refuse_earlier_touch(case.get(p3=[descriptor(1)]))


def selection(case: Case, made: List[bytes]) -> Case:
    """Adds a selection, with everything that cases expect of it."""
    case.allocate().register(1).cbor(SELECTION).expect("keepalive 02").tick(100).expect("nothing")
    case.presence().expect("status 00").tick(200).expect("silence").expect_alive()
    return sign_in_silently(case, 1)


def u2f(case: Case, made: List[bytes]) -> Case:
    """Adds a U2F registration and two sign-ins, each with its own touch."""
    found = U2fCase("tour", "")
    found.register_u2f().apdu(REGISTER, 0, CHALLENGE + APPLICATION).expect(f"message 03 {NO_TOUCH}")
    for control in (CHECK_ONLY, ENFORCE):
        found.sign(control, OTHER).expect(f"message 03 {WRONG_DATA}")
    for control in (CHECK_ONLY, ENFORCE):
        found.sign(control).expect(f"message 03 {NO_TOUCH}").presence()
        found.sign().expect(f"u2f_signed {HANDLE.hex()}")
    found.sign().expect(f"message 03 {NO_TOUCH}").sign(CHECK_ONLY).expect(f"message 03 {NO_TOUCH}")
    return found.sign(ENFORCE, OTHER).expect(f"message 03 {WRONG_DATA}")


def exclude_lists(case: Case, rp: str = "ü.example", has_power_cycle: bool = True, has_first: bool = True) -> Case:
    """Adds exclude lists of ten entries, with the credential as the last entry, also after a power cycle, and with
    credentials as the first two."""
    unknown, named = [descriptor(number) for number in range(20, 28)], {"id": rp, "name": "Example"}
    if rp == "example.com":
        case.allocate().register(1)
    else:
        case.allocate().register(1, p2=named, p3={"id": b"\2", **LONG_NAMES}, p5=unknown[:2])
        sign_in_silently(case, 1, rp)
    if has_power_cycle:
        case.power_cycle().allocate()
    case.make(p2=named, p5=[*unknown, descriptor(9), {**descriptor(1), "transports": ["usb"]}]).presence()
    case.expect("status 19").expect_alive()
    if has_first:
        case.make(p2=named, p5=[descriptor(1), descriptor(1), *unknown], p7={"rk": True}).presence()
        case.expect("status 19").expect_alive()
    return case


def make_exclude_tours() -> Iterator[Tour]:
    """Yields the tours of exclude lists, first those of most cases."""
    first, named = " lists/exclude_first_of_ten lists/exclude_twice", " fuzzed/excluded_after_long_names get/rp_4"
    last = "lists/exclude_last_of_ten lists/exclude_second_of_two lists/exclude_with_transports"
    for rp, has_first, covers in (
        ("ü.example", True, last + first + named),
        ("example.com", True, last + first),
        ("example.com", False, last),
    ):
        for cycles in (True, False):
            part = functools.partial(exclude_lists, rp=rp, has_power_cycle=cycles, has_first=has_first)
            yield make_tour(lambda case, _, part=part: part(case), covers + " power/still_excluded" * cycles)


def es256_registration(case: Case, number: int, rp: Dict[str, Any], user: Dict[str, Any]) -> Case:
    """Adds a registration whose algorithms, options and exclude list are unusual, with ES256."""
    others = [{"alg": -8, "type": "other"}, {"alg": -7, "type": "other"}]
    case.make(
        p2=rp,
        p3=user,
        p4=[*others, UNKNOWN, ES256, ES256, EDDSA],
        p5=[],
        p6={"hmac-secret": False},
        p7={"rk": False, "up": True, "uv": False},
    )
    return sign_in_silently(case.expect_credential(number, "up no-uv"), number, str(rp["id"]))


def unusual_es256(case: Case, is_long: bool = True) -> Case:
    """Adds a registration like that of `es256_registration`, with an unusual RP and user."""
    rp, user = {"id": "a", "name": "x" * (1800 if is_long else 1)}, {"id": b"somebody@example.com", "name": "x"}
    return es256_registration(case.allocate(), 2, rp, {**user, "displayName": "x"})


def eddsa_registrations(case: Case, is_long: bool = True) -> Case:
    """Adds registrations like those of `unusual_es256` with EdDSA, alone and first among other algorithms."""
    rp, user = "example.com:443", {"id": b"somebody-else@example.com", "name": "x"}
    user = {**user, "displayName": "x" * (1700 if is_long else 1)}
    case.allocate().register(1).make(
        p2={"id": rp, "name": "x"}, p3=user, p4=[UNKNOWN, EDDSA, ES256], p5=[descriptor(1)]
    )
    sign_in_silently(case.expect_credential(2), 2, rp)
    rp, user = "x" * 253, {"id": b"\3" * 64, "name": "x", "displayName": "x"}
    case.make(p2={"id": rp, "name": "x"}, p3=user, p4=[EDDSA], p5=[descriptor(9)]).expect_credential(3)
    return sign_in_silently(case, 3, rp)


OF_ES256 = (
    "make/answer make/first_is_es256 make/first_known_is_es256 make/es256_twice_listed make/other_type_first"
    " make/options_as_they_are get/rp_1 lists/exclude_empty secret/not_asked make/algorithms_last"
)
OF_EDDSA = (
    "make/first_is_eddsa make/first_known_is_eddsa make/eddsa make/eddsa_twice make/user_id_in_no_id"
    " make/user_id_of_64 fuzzed/registration_of_four_packets get/rp_2 get/rp_3 lists/exclude_of_another_rp"
)
# Those with long messages or a power cycle come before those without.
TOURS: Tuple[Tour, ...] = (
    make_tour(
        touched_sign_ins,
        "get/up_true get/up_true_uv_false get/counter_rises_with_and_without_touch get/touch_counts_once",
    ),
    make_tour(useless_touch, "cancel/then_the_user_touches get/touch_before"),
    make_tour(selection, "selection/asks_for_the_user selection/granted selection/changes_nothing"),
    make_tour(u2f, "u2f/registers u2f/other_application u2f/signs_in"),
    make_tour("lists/allow_three", "lists/allow_three make/three_ids"),
    make_tour("recorded/chromium_excluded", "recorded/chromium_excluded lists/exclude_one"),
    *make_exclude_tours(),
    make_tour(lambda case, _: unusual_es256(case), OF_ES256 + " make/long_request", "make/long_request", True),
    make_tour(lambda case, _: unusual_es256(case, False), OF_ES256, is_partial=True),
    make_tour(lambda case, _: eddsa_registrations(case), OF_EDDSA + " make/long_user"),
    make_tour(lambda case, _: eddsa_registrations(case, False), OF_EDDSA),
)
