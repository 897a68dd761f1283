"""Plans a run with few touches on a device that keeps its state: cases share registrations, PINs and resets.

Each case still sends all requests that it tests. Cases can share their beginnings: the same registrations with the same
expectations, in the same order, and the same PIN. The order of the cases depends on the state that each leaves on the
device, so the number of touches is known before the run.
"""

from __future__ import annotations

from dataclasses import dataclass, field
from typing import Dict, List, Optional, Tuple

from hidlog_conformance.answers import Credential
from hidlog_conformance.outline import UNKNOWN, Outline, Registration, decode_parameters, read_outline
from hidlog_conformance.session_file import Session

# The members extensions and pinUvAuthProtocol of authenticatorMakeCredential; and extensions that have no effect unless
# a sign-in requests them.
EXTENSIONS, PROTOCOL, HARMLESS = 6, 9, {"credBlob", "hmac-secret", "largeBlobKey"}


@dataclass
class SharedRegistration:
    """A registration on the device: its request with the expectation, and its credential, or None in a plan."""

    key: Tuple[bytes, str]
    is_discoverable: bool
    credential: Optional[Credential] = None


def is_enough(made: Tuple[bytes, str], wanted: Tuple[bytes, str]) -> bool:
    """Returns whether the registration `made` can replace `wanted`: it had the same request, perhaps with additional
    extensions that have no effect unless a sign-in requests them, and at least the same expectations."""
    if not set(wanted[1].split(" ")) <= set(made[1].split(" ")):
        return False
    asked, other = decode_parameters(made[0]), decode_parameters(wanted[0])
    extensions, wished = dict(asked.pop(EXTENSIONS, {})), dict(other.pop(EXTENSIONS, {}))
    is_harmless = set(extensions) - set(wished) <= HARMLESS
    # The PIN protocol of a registration's token has no effect on its credential.
    is_same = {**asked, PROTOCOL: None} == {**other, PROTOCOL: None}
    return is_harmless and is_same and {**extensions, **wished} == extensions


@dataclass
class RegistrationGroup:
    """Registrations that cases share, in order, with a common prefix of their RP IDs."""

    front: str
    items: List[SharedRegistration] = field(default_factory=list)
    is_spoiled: bool = False

    def can_begin(self, registrations: List[Registration]) -> bool:
        """Returns whether these can replace the first registrations of a case."""
        if self.is_spoiled or len(self.items) > len(registrations):
            return False
        return all(is_enough(item.key, one.key) for item, one in zip(self.items, registrations))


@dataclass
class Preparation:
    """The preparation of the device for a case, in its current state."""

    group: Optional[RegistrationGroup]
    # Whether the device is reset first, whether an empty large-blob array is written, and whether retries are restored.
    resets: bool = False
    cleans_blobs: bool = False
    restores_retries: bool = False
    # The number of registrations that are reused, and whether the PIN is.
    reused: int = 0
    has_pin: bool = False
    touches: int = 0


class DeviceState:
    """The state of the device in a run, or in a plan."""

    def __init__(self) -> None:
        self.pin = b""
        self.groups: List[RegistrationGroup] = []
        # Whether there may be other discoverable credentials, large blobs, and wrong PINs.
        self.has_others = True
        self.has_blobs = True
        self.was_guessed = False
        self.fronts = 0

    def clear(self) -> None:
        """Processes a reset."""
        self.pin, self.groups = b"", []
        self.has_others = self.has_blobs = self.was_guessed = False

    def find_group(self, outline: Outline) -> Optional[RegistrationGroup]:
        """Returns the group that a case can reuse, or a new group; None if the device must be reset."""
        stored = [group for group in self.groups if any(item.is_discoverable for item in group.items)]
        groups = self.groups
        if outline.is_global:
            if self.has_others or any(group.front or group.is_spoiled for group in stored):
                return None
            groups = [group for group in self.groups if not group.front]
        fitting = [group for group in groups if group.can_begin(outline.registrations)]
        if fitting:
            return max(fitting, key=lambda group: len(group.items))
        if outline.is_global:
            return None if stored else RegistrationGroup("")
        return RegistrationGroup(f"c{self.fronts + 1}.")

    def plan(self, outline: Outline) -> Preparation:
        """Returns the preparation for a case, without changing the state."""
        is_same = self.pin == outline.pin or (bool(outline.pin) and not self.pin)
        is_same = is_same or (outline.ignores_pin and self.pin != UNKNOWN)
        group = self.find_group(outline) if is_same else None
        visit = Preparation(group, has_pin=bool(outline.pin) and self.pin == outline.pin)
        if group is None:
            visit = Preparation(RegistrationGroup("" if outline.is_global else f"c{self.fronts + 1}."), resets=True)
        else:
            visit.reused = len(group.items)
            visit.cleans_blobs = outline.uses_blobs and self.has_blobs
            visit.restores_retries = self.was_guessed and bool(outline.pin)
        visit.touches = visit.resets + len(outline.registrations) - visit.reused + outline.touches
        return visit

    def enter(self, outline: Outline, visit: Preparation) -> None:
        """Processes the beginning of a case."""
        if visit.resets:
            self.clear()
        if visit.cleans_blobs:
            self.has_blobs = False
        if visit.restores_retries:
            self.was_guessed = False
        if visit.group is not None and not any(group is visit.group for group in self.groups):
            self.fronts += bool(visit.group.front)
            self.groups.append(visit.group)
        self.pin = outline.pin or self.pin

    def leave(self, outline: Outline, visit: Preparation, known: Optional[Dict[bytes, Credential]] = None) -> None:
        """Processes the end of a case that passed; `known` has its credentials by their names in the session."""
        group = visit.group
        assert group is not None
        if outline.resets:
            self.clear()
        else:
            for one in outline.registrations[len(group.items) :]:
                group.items.append(SharedRegistration(one.key, one.is_discoverable, (known or {}).get(one.name)))
            gone = [place for place, one in enumerate(outline.registrations) if one.name in outline.deleted]
            group.items = [item for place, item in enumerate(group.items) if place not in gone]
        group.is_spoiled = group.is_spoiled or outline.stores
        self.has_others = self.has_others or outline.stores
        self.has_blobs = self.has_blobs or outline.writes
        self.pin = outline.left_pin if outline.changes_pin else self.pin
        self.was_guessed = self.was_guessed or outline.guesses

    def leave_unknown(self, outline: Outline, visit: Preparation) -> None:
        """Processes the end of a case that did not pass: the state of the device is unknown."""
        if visit.group is not None:
            visit.group.is_spoiled = True
        self.has_others = self.has_blobs = self.was_guessed = True
        self.pin = UNKNOWN if self.pin or outline.changes_pin else b""


def rank(state: DeviceState, outline: Outline, visit: Preparation, pins: List[bytes]) -> Tuple[int, int, int]:
    """Returns a key to choose the next case by: first cases that leave the device's state unchanged, then cases that
    reset a device without a PIN, last cases that need a reset."""
    added = len(outline.registrations) - visit.reused
    if visit.resets and not outline.resets:
        level = 8
    elif outline.resets:
        level = 7 if state.pin or visit.resets else 4
    elif outline.changes_pin:
        level = 5 if outline.left_pin in pins and not state.pin else 6
    elif outline.pin and not state.pin:
        level = 5
    elif outline.is_combined and not (outline.is_global and outline.prevents_reuse):
        # Other cases can reuse their registrations.
        level = 2 if outline.prevents_reuse else 1
    else:
        level = 3 if outline.prevents_reuse or added else 0
    # A reset deletes what cases share, so the case that reuses most comes first.
    is_later = outline.changes_pin if outline.resets else not outline.changes_pin
    return level, int(is_later), added - 2 * visit.reused * outline.resets + int(visit.resets)


def order_by_state(sessions: List[Session]) -> Tuple[List[Session], int]:
    """Returns cases in the order that needs the fewest touches found, and the number of touches, if all pass."""
    state, left, touches = DeviceState(), [read_outline(session) for session in sessions], 0
    found: List[Session] = []
    while left:
        pins = [outline.pin for outline in left if outline.pin]
        visits = [state.plan(outline) for outline in left]
        ranks = [rank(state, outline, visit, pins) for outline, visit in zip(left, visits)]
        place = min(range(len(left)), key=lambda number: ranks[number])
        outline, visit = left.pop(place), visits[place]
        state.enter(outline, visit)
        state.leave(outline, visit)
        touches += visit.touches
        found.append(outline.session)
    return found, touches
