"""The order in which cases are played, and the number of touches that they need."""

from __future__ import annotations

import argparse
import sys
from collections import Counter
from typing import List

from hidlog_conformance.combined import CombinedCase, combine
from hidlog_conformance.credential_reuse import CredentialReuse
from hidlog_conformance.device_info import DeviceInfo
from hidlog_conformance.devices import Device
from hidlog_conformance.outline import count_touches
from hidlog_conformance.text import quantity
from hidlog_conformance.session_file import Session
from hidlog_conformance.silent import without_needless_touches
from hidlog_conformance.touch_plan import order_by_state

# The entry of `uses` in sessions that set a PIN.
PINS = "pin token"


def asks_person(options: argparse.Namespace) -> bool:
    """Returns whether a person touches the device."""
    return bool(options.touch and not options.touch_line)


def saves_touches(device: Device, options: argparse.Namespace) -> bool:
    """Returns whether cases share registrations, so that a person touches the device less often."""
    return asks_person(options) and device.lasting and not options.isolated and not options.pin


def find_combined(
    device: Device, sessions: List[Session], options: argparse.Namespace, device_info: DeviceInfo
) -> List[CombinedCase]:
    """Returns the combined cases that save touches."""
    if not saves_touches(device, options):
        return []
    return combine(sessions, lambda one: not device_info.find_skip_reason(one, device, options.touch, options.reset))


def order_sessions(
    device: Device, sessions: List[Session], options: argparse.Namespace, device_info: DeviceInfo
) -> List[Session]:
    """Returns sessions in the order to play them. If the device keeps its PIN, sessions that set a PIN come last. If a
    person touches the device, the order needs the fewest touches, and their number is printed."""
    if not asks_person(options):
        return sorted(sessions, key=lambda session: bool(device.lasting and PINS in session.uses))
    saves = saves_touches(device, options)
    if saves and device_info.options.get("up", True) is True:
        sessions = list(map(without_needless_touches, sessions))
    played = [one for one in sessions if not device_info.find_skip_reason(one, device, options.touch, options.reset)]
    combined = find_combined(device, played, options, device_info)
    alone = replace_parts(sessions, combined)
    alone.sort(key=count_touches)
    most = sum(count_touches(one) for one in replace_parts(played, combined))
    if saves:
        # First the cases whose credentials others can reuse.
        alone.sort(key=lambda one: (count_touches(one) > 0, not makes_reusable_credential(one)))
        names = {one.name for one in replace_parts(played, combined)}
        shared = [one for one in alone if "reset" in one.needs and one.name in names]
        others = [one for one in alone if not any(one is session for session in shared)]
        free = [one for one in others if one.name in names]
        ordered, most = order_by_state(shared)
        alone = others + ordered
        most += sum(map(count_touches, free)) - count_reused(free)
        # The reset after the last case, which removes the PIN.
        most += options.reset and any(PINS in one.uses for one in played)
    else:
        alone.sort(key=lambda session: bool(device.lasting and PINS in session.uses))
    print_touches(played, most)
    wholes = {one.whole.name: one.parts for one in combined}
    return [session for one in alone for session in wholes.get(one.name, [one])]


def replace_parts(sessions: List[Session], combined: List[CombinedCase]) -> List[Session]:
    """Returns sessions with combined ones in place of their parts."""
    parts = {part.name for one in combined for part in one.parts}
    return [one for one in sessions if one.name not in parts] + [one.whole for one in combined]


def count_reused(sessions: List[Session]) -> int:
    """Returns the number of registrations that are left out, since an earlier case left a credential that can be used.
    Cases that need a reset are not counted."""
    reuse, made, count = CredentialReuse(), Counter[bytes](), 0
    for session in sessions:
        taken = Counter[bytes]()
        for number in range(len(session.steps)):
            request = reuse.find_replaceable(session, number)
            if request and taken[request] < made[request]:
                count += 1
            else:
                made[reuse.find_reusable(session, number)] += 1
            taken[request] += 1
    return count


def makes_reusable_credential(session: Session) -> bool:
    """Returns whether a case needs no reset, and others can reuse the credential that it registers."""
    reuse = CredentialReuse()
    numbers = range(len(session.steps))
    return any(
        reuse.find_reusable(session, number) and not reuse.find_replaceable(session, number) for number in numbers
    )


def print_touches(played: List[Session], most: int) -> None:
    """Prints the maximum number of touches of the cases that the device supports."""
    first = quantity(sum(not count_touches(one) for one in played), "case")
    asking = sum(bool(count_touches(one)) for one in played)
    print(f"{first} without a touch, and {asking} with at most {quantity(most, 'touch', 'touches')}", file=sys.stderr)
