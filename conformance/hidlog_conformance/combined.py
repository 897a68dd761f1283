"""Plays several cases as one, so that a person touches the device less often. Each is played alone only if the combined
case fails.

Two kinds of cases can be combined. Registrations whose requests differ from a plain one in different members become one
request with all these members. Cases that send packets while a registration is pending become one case with one pending
registration. A device that passes the combined case passes each part, since the combined case has all packets of each
part and expects the same responses.
"""

from __future__ import annotations

from dataclasses import dataclass, field, replace
from typing import Any, Callable, Dict, List, Optional, Tuple

from hidlog_conformance import ctap_cbor
from hidlog_conformance import hid_packets as hid
from hidlog_conformance.answers import MAKE
from hidlog_conformance.merged_requests import merge, read_registration
from hidlog_conformance.results import FAILED, UNSTABLE, Outcome
from hidlog_conformance.outline import REGISTRATION, decode_parameters, get_cbor_request
from hidlog_conformance.session_file import Session, Step
from hidlog_conformance.reset_tours import RESET_TOURS
from hidlog_conformance.tours import TOURS

TOURS_BY_SIZE = RESET_TOURS + TOURS
# Beginnings of the names of cases about pending requests, and the expectation for a request of the second host.
ABOUT_PENDING = ("cancel/", "fuzzed/cancel", "hosts/", "keepalive/", "order/")
OTHER_ASKED = ["keepalive 02 on 2"]
# The channel IDs 1 and 2, each with the other one.
SWAPPED = {b"\0\0\0\1": b"\0\0\0\2", b"\0\0\0\2": b"\0\0\0\1"}


@dataclass
class CombinedCase:
    """Cases that are played as one."""

    whole: Session
    parts: List[Session]
    # The outcome of the combined case once it was played, and those of its parts that were played by themselves.
    outcome: Optional[Outcome] = None
    of_parts: List[Outcome] = field(default_factory=list)

    def add_part(self, outcome: Outcome) -> Outcome:
        """Adds the outcome of a part. Returns it, or an unstable outcome if the combined case failed and all parts
        pass."""
        self.of_parts.append(outcome)
        whole = self.outcome
        is_last = len(self.of_parts) == len(self.parts)
        if whole is None or whole.status != "not ok" or whole.hung or not is_last:
            return outcome
        if any(part.status in FAILED for part in self.of_parts):
            return outcome
        reason = f"{self.whole.name} failed as one session, and each of them passed by itself"
        recordings = [*whole.recordings, *outcome.recordings]
        return replace(whole, session=outcome.session, status=UNSTABLE, reason=reason, recordings=recordings)


def get_key(step: Step) -> Tuple[Any, ...]:
    """Returns a key that is equal for equal steps."""
    packets = [packet for _, packet in step.packets]
    return step.kind, tuple(step.words), tuple(packets), tuple(step.expects)


def make_whole(
    parts: List[Session], steps: List[Step], more: Optional[Dict[bytes, Tuple[str, bytes]]] = None
) -> CombinedCase:
    """Returns the combined case of `parts` with these steps; `more` are derived IDs that no part has."""
    first = parts[0]
    head = {**first.head, "requirement": " ".join(part.head["requirement"] for part in parts)}
    needs, uses = (sorted({word for part in parts for word in getattr(part, kind)}) for kind in ("needs", "uses"))
    derived = {name: origin for part in parts for name, origin in part.derived.items()}
    derived.update(more or {})
    name = f"{first.name} and {len(parts) - 1} more"
    changes: Dict[str, Any] = {"needs": needs, "uses": uses, "derived": derived, "cases": len(parts)}
    return CombinedCase(replace(first, name=name, head=head, steps=steps, **changes), parts)


def combine_tours(sessions: List[Session], can_play: Callable[[Session], bool]) -> List[CombinedCase]:
    """Returns the tours of at least two cases; each case is in the first one that can be played."""
    known = {session.name: session for session in sessions}
    left, found = dict(known), []
    for tour in TOURS_BY_SIZE:
        parts = [left[name] for name in tour.covers if name in left]
        is_supported = all(name in known for name in tour.required)
        if len(parts) < 2 or not is_supported or not (tour.is_partial or len(parts) == len(tour.covers)):
            continue
        session = tour.build_session(known)
        combined = make_whole(parts, session.steps, session.derived)
        if can_play(combined.whole):
            found.append(combined)
            left = {name: session for name, session in left.items() if name not in tour.covers}
    return found


# Requests that are pending.


@dataclass
class Pending:
    """A case in which something is sent while a registration is pending: its steps before the registration, those
    until the touch, and those after the response."""

    session: Session
    before: List[Step]
    during: List[Step]
    after: List[Step]
    registration: List[Step]


def swap_channels(step: Step) -> Step:
    """Returns a step with the session's channels 1 and 2 exchanged."""
    packets = [(at, SWAPPED.get(packet[:4], packet[:4]) + packet[4:]) for at, packet in step.packets]
    expects = []
    for text in step.expects:
        text, _, channel = text.partition(" on ")
        # Expectations without a channel are for channel 1, except that of an INIT response on the broadcast channel.
        number = int(channel or ("ffffffff" if text.startswith("init ") else "1"), 16)
        number = {1: 2, 2: 1}.get(number, number)
        is_default = number == 1 or (text.startswith("init ") and not channel)
        expects.append(text if is_default else f"{text} on {number:x}")
    return replace(step, packets=packets, expects=expects)


def split_pending(session: Session) -> Optional[Pending]:
    """Returns the parts of a case about a pending registration that a touch ends; None for others."""
    steps = session.steps
    numbers = [number for number, step in enumerate(steps) if get_cbor_request(step)[:1] == bytes([MAKE])]
    kinds = [step.kind for step in steps]
    if len(numbers) != 1 or kinds.count("p") != 1 or not session.name.startswith(ABOUT_PENDING):
        return None
    begin, touch = numbers[0], kinds.index("p")
    end = touch + len(REGISTRATION) - 1
    is_whole = tuple(kinds[touch:end]) == REGISTRATION[1:] and not any(step.expects for step in steps[touch : end - 1])
    is_greeted = all(step.expects[:1] and step.expects[0].startswith("init ") for step in steps[:begin])
    is_quiet = all(step.kind == "t" or not get_cbor_request(step) for step in steps[end:])
    if not (is_whole and is_greeted and is_quiet) or steps[begin].expects[:1] not in (
        [],
        ["keepalive 02"],
        OTHER_ASKED,
    ):
        return None
    if steps[begin].expects == OTHER_ASKED:
        steps = list(map(swap_channels, steps))
    if steps[end - 1].expects != ["made up"]:
        return None
    registration = [steps[begin], *steps[touch:end]]
    return Pending(session, steps[:begin], steps[begin + 1 : touch], steps[end:], registration)


def combine_pending(sessions: List[Session]) -> List[CombinedCase]:
    """Combines cases that send something while a registration is pending."""
    groups: Dict[bool, List[Pending]] = {}
    for pending in filter(None, map(split_pending, sessions)):
        groups.setdefault(bool(pending.session.lenient), []).append(pending)
    return [join_pending(parts) for parts in groups.values() if len(parts) > 1]


def join_pending(parts: List[Pending]) -> CombinedCase:
    """Returns cases as one with a single pending registration, after the longest of their beginnings."""
    first = max(parts, key=lambda part: (len(part.before), part.registration[0].expects == ["keepalive 02"]))
    steps = [*first.before, replace(first.registration[0], expects=["keepalive 02"])]
    steps += [step for part in parts for step in part.during] + first.registration[1:]
    steps += [step for part in parts for step in part.after]
    return make_whole([part.session for part in parts], renew_times(steps))


def renew_times(steps: List[Step]) -> List[Step]:
    """Returns the steps with ascending times; the pauses before ticks stay the same."""
    found: List[Step] = []
    at = before = 0
    for step in steps:
        pause = max(0, step.at - before) if step.kind in ("t", "p") else 0
        at, before = at + pause, step.at
        found.append(replace(step, at=at, packets=[(at, packet) for _, packet in step.packets]))
    return found


# Registrations.


def combine_registrations(sessions: List[Session]) -> List[CombinedCase]:
    """Combines cases with one registration each, whose requests differ from a plain one in different members. The
    combined case has the longest of their beginnings."""
    groups: List[Tuple[bool, Tuple[Any, ...], Dict[Any, Any], List[Session]]] = []
    for session in sessions:
        asked = read_registration(session)
        if asked is None:
            continue
        is_lenient, before = session.lenient != "", tuple(map(get_key, session.steps[: -len(REGISTRATION)]))
        for place, (other, begin, whole, parts) in enumerate(groups):
            shorter, longer = sorted((begin, before), key=len)
            merged = merge(whole, asked) if other == is_lenient and longer[: len(shorter)] == shorter else None
            if merged is not None:
                groups[place] = (is_lenient, longer, merged, [*parts, session])
                break
        else:
            groups.append((is_lenient, before, asked, [session]))
    return [join_registrations(whole, parts) for _, _, whole, parts in groups if len(parts) > 1]


def join_registrations(asked: Dict[Any, Any], parts: List[Session]) -> CombinedCase:
    """Returns one registration with the members and the expectations of all cases."""
    steps = list(max(parts, key=lambda part: len(part.steps)).steps)
    place = len(steps) - len(REGISTRATION)
    at, first = steps[place].packets[0]
    request = bytes([MAKE]) + ctap_cbor.encode(asked)
    packets = hid.fragment_message(int.from_bytes(first[:4], "big"), hid.CBOR, request)
    steps[place] = replace(steps[place], packets=[(at, packet) for packet in packets])
    words = ["made", "up"]
    for part in parts:
        words += part.steps[-1].expects[0].split(" ")[2:]
    steps[-1] = replace(steps[-1], expects=[" ".join(words)])
    return make_whole(parts, steps)


def combine(sessions: List[Session], can_play: Callable[[Session], bool]) -> List[CombinedCase]:
    """Returns the cases that can be played as one, of those that the device supports."""
    supported = sorted(filter(can_play, sessions), key=lambda session: session.name)
    tours = combine_tours(supported, can_play)
    covered = {part.name for combined in tours for part in combined.parts}
    left = [session for session in supported if session.name not in covered]
    found = combine_pending(left) + combine_registrations(left)
    return tours + [combined for combined in found if can_play(combined.whole)]
