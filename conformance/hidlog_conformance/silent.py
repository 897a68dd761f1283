"""Sets the option up of sign-ins to false in cases that are not about user presence, which saves touches."""

from __future__ import annotations

from dataclasses import replace
from typing import List

from hidlog_conformance import ctap_cbor
from hidlog_conformance import hid_packets as hid
from hidlog_conformance.answers import GET, NEXT
from hidlog_conformance.outline import decode_parameters, get_cbor_request
from hidlog_conformance.session_file import Session, Step

# Beginnings of the names of cases about user presence or the time before a touch. One is a recorded sign-in without an
# allow list: recorded sign-ins with an allow list test the same as get/up_true.
ABOUT_TOUCHES = tuple(
    "cancel/ fuzzed/ hosts/ keepalive/ order/ pin/signs_in_ recorded/libfido2_discoverable selection/ time/ user/".split()
)
WORDS_OF_TOUCHES = ("touch", "presence", "up_true")
# Cases with such names whose sign-ins are not about touches.
OTHERS = ("cancel/then_again", "fuzzed/nothing_pending_after_a_list", "hosts/sign_in_after_another_registered")
# The maximum length of a request to which the option is added; and cases about long messages, with their maximum.
LONGEST, LONG_MESSAGES, LONGEST_OF_THEM = 900, "messages of 2048", 2000


def is_about_touches(session: Session) -> bool:
    """Returns whether a case's sign-ins are about user presence."""
    is_about = session.name.startswith(ABOUT_TOUCHES) or any(word in session.name for word in WORDS_OF_TOUCHES)
    return is_about and session.name not in OTHERS


def can_be_silent(steps: List[Step], number: int, longest: int) -> bool:
    """Returns whether a step is a successful sign-in with a touch, and without hmac-secret, which requires the touch
    (12.5)."""
    request, after = get_cbor_request(steps[number]), steps[number + 1 : number + 3]
    asked = decode_parameters(request)
    if request[:1] != bytes([GET]) or len(request) > longest or [step.kind for step in after] != ["p", "s"]:
        return False
    is_quiet = not steps[number].expects and not after[0].expects and after[0].words[:1] == ["granted"]
    expected = after[1].expects[0].split(" ") if after[1].expects else []
    is_plain = asked.get(5, {"up": True}) == {"up": True} and len(asked) > 1
    is_plain = is_plain and "hmac-secret" not in (asked.get(4) or {})
    return is_quiet and is_plain and expected[:1] == ["asserted"] and "no-up" not in expected


def make_silent(step: Step) -> Step:
    """Returns the step with the option up false."""
    request = get_cbor_request(step)
    data = request[:1] + ctap_cbor.encode({**decode_parameters(request), 5: {"up": False}})
    at, first = step.packets[0]
    packets = hid.fragment_message(int.from_bytes(first[:4], "big"), hid.CBOR, data)
    return replace(step, packets=[(at, packet) for packet in packets])


def expect_silent(step: Step) -> Step:
    """Returns the step with assertions that expect flag UP not set."""
    expects = [
        " ".join("no-up" if word == "up" else word for word in text.split(" ")) if text.startswith("asserted") else text
        for text in step.expects
    ]
    return replace(step, expects=expects)


def without_needless_touches(session: Session) -> Session:
    """Returns the session with up false in the sign-ins whose touch the case does not test."""
    if is_about_touches(session):
        return session
    found: List[Step] = []
    number, is_silent = 0, False
    longest = LONGEST_OF_THEM if LONG_MESSAGES in session.uses else LONGEST
    while number < len(session.steps):
        step = session.steps[number]
        request = get_cbor_request(step)
        if can_be_silent(session.steps, number, longest):
            found += [make_silent(step), expect_silent(session.steps[number + 2])]
            number, is_silent = number + 3, True
            continue
        if request and request[:1] != bytes([NEXT]):
            is_silent = False
        found.append(expect_silent(step) if is_silent else step)
        number += 1
    return replace(session, steps=found)
