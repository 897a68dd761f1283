"""Faults of the reference authenticator: CTAPHID_LOCK, and the extension minPinLength."""

from __future__ import annotations

from typing import Any, Dict, List

from hidlog_conformance.reference.config import Config
from hidlog_conformance.reference.pin import SHORTEST_PIN
from hidlog_conformance.reference.traits import DeviceTraits
from hidlog_conformance.reference.transport import LOCK as LOCK_COMMAND
from hidlog_conformance.reference.transport import Transport

from mutant import Mutant, change_member, replace_method, wrap_method

LOCK, CONFIG, LENGTH, RESET, INFO = "11.2.9.2.2", "6.11", "12.4", "6.6", "6.4"
LOCKING = DeviceTraits(lock=True)
WITH_MIN_PIN_LENGTH = DeviceTraits(config=True, extensions=("hmac-secret", "minPinLength"))


def lock_longer(key: Any, channel: int, data: bytes) -> None:
    """Locks for a second longer than requested; a LOCK of zero seconds locks for a second, too."""
    Transport.lock(key.transport, channel, data)
    owner, until = key.transport.locked
    if len(data) == 1 and data[0] <= 10:
        key.transport.locked = (owner, until + 1000)


def lock_once(key: Any, channel: int, data: bytes) -> None:
    """Ignores a LOCK of the channel that has the lock."""
    _, until = key.transport.locked
    is_locked = key.transport.at < until
    Transport.lock(key.transport, channel, data)
    if is_locked and data[:1] != b"\0":
        key.transport.locked = (channel, until)


def lock_and_echo(key: Any, channel: int, data: bytes) -> None:
    """Returns the data of the request."""
    if len(data) != 1 or data[0] > 10:
        Transport.lock(key.transport, channel, data)
        return
    key.transport.locked = (channel, key.transport.at + 1000 * data[0])
    key.transport.send(channel, LOCK_COMMAND, data)


def lock_by_any_length(key: Any, channel: int, data: bytes) -> None:
    """Takes the first byte of any data, or one second."""
    Transport.lock(key.transport, channel, (data or b"\1")[:1])


def lock_milliseconds(key: Any, channel: int, data: bytes) -> None:
    """Locks for milliseconds instead of seconds."""
    Transport.lock(key.transport, channel, data)
    if len(data) == 1:
        key.transport.locked = (channel, key.transport.at + data[0])


def excludes_requests_alone(key: Any, channel: int, command: int, length: int, data: bytes) -> None:
    """Serves PINGs and LOCKs of other channels during a lock."""
    before = key.transport.locked
    if command in (1, LOCK_COMMAND):
        key.transport.locked = (channel, 0)
    Transport.handle_initialization(key.transport, channel, command, length, data)
    if command == 1:
        key.transport.locked = before


def return_default(key: Any, old: Any, asked: Any, new: Any) -> Dict[str, Any]:
    """Always returns the default minimum PIN length."""
    found = dict(old(asked, new))
    return {name: SHORTEST_PIN if name == "minPinLength" else value for name, value in found.items()}


def return_unrequested(key: Any, old: Any, asked: Any, new: Any) -> Dict[str, Any]:
    """Returns minPINLength to an authorized RP without a request, too."""
    found = dict(old(asked, new))
    return {**found, "minPinLength": key.pin.shortest} if key.config.is_authorized(new.rp) else found


def add_rps(key: Any, asked: Dict[int, Any]) -> None:
    """Adds RPs to those authorized before."""
    key.config.rps += asked.get(2, [])


def authorize_with_length_only(key: Any, asked: Dict[int, Any]) -> None:
    """Authorizes RPs only together with a new minPINLength."""
    if 1 in asked:
        Config.authorize_rps(key.config, asked)


def keep_rps(key: Any, old: Any) -> None:
    """Resets, but keeps the authorized RPs."""
    rps = key.config.rps
    old()
    key.config.rps = rps


def lose_rps(key: Any, old: Any) -> None:
    """Forgets the authorized RPs at a power cycle."""
    old()
    key.config.rps = []


def ignore_rps_without_extension(key: Any, old: Any, asked: Dict[int, Any]) -> None:
    """Ignores minPinLengthRPIDs without the extension."""
    old({name: value for name, value in asked.items() if name != 2})


LOCK_MUTANTS: List[Mutant] = [
    Mutant(
        "lock_ignored",
        LOCK,
        "A lock excludes nobody.",
        replace_method("transport.is_locked_out", lambda key, channel: False),
        LOCKING,
    ),
    Mutant(
        "lock_too_long", LOCK, "A lock lasts a second longer.", replace_method("transport.lock", lock_longer), LOCKING
    ),
    Mutant(
        "lock_in_milliseconds",
        LOCK,
        "A lock lasts as many milliseconds as it should seconds.",
        replace_method("transport.lock", lock_milliseconds),
        LOCKING,
    ),
    Mutant(
        "lock_not_renewed", LOCK, "A further LOCK has no effect.", replace_method("transport.lock", lock_once), LOCKING
    ),
    Mutant(
        "lock_echoes", LOCK, "The response to LOCK has data.", replace_method("transport.lock", lock_and_echo), LOCKING
    ),
    Mutant(
        "lock_of_any_length",
        LOCK,
        "LOCK accepts data of any length.",
        replace_method("transport.lock", lock_by_any_length),
        LOCKING,
    ),
    Mutant(
        "lock_serves_others",
        LOCK,
        "During a lock PINGs and LOCKs of other channels are served.",
        replace_method("transport.handle_initialization", excludes_requests_alone),
        LOCKING,
    ),
    Mutant(
        "min_pin_length_for_all",
        LENGTH,
        "Every RP gets minPINLength.",
        replace_method("config.is_authorized", lambda key, rp: True),
        WITH_MIN_PIN_LENGTH,
    ),
    Mutant(
        "min_pin_length_for_none",
        LENGTH,
        "No RP gets minPINLength.",
        replace_method("config.is_authorized", lambda key, rp: False),
        WITH_MIN_PIN_LENGTH,
    ),
    Mutant(
        "min_pin_length_default",
        LENGTH,
        "RPs get the default minimum.",
        wrap_method("extensions.run_make", return_default),
        WITH_MIN_PIN_LENGTH,
    ),
    Mutant(
        "min_pin_length_unrequested",
        LENGTH,
        "RPs get minPINLength without a request.",
        wrap_method("extensions.run_make", return_unrequested),
        WITH_MIN_PIN_LENGTH,
    ),
    Mutant(
        "rp_ids_added",
        LENGTH,
        "minPinLengthRPIDs adds RPs.",
        replace_method("config.authorize_rps", add_rps),
        WITH_MIN_PIN_LENGTH,
    ),
    Mutant(
        "rp_ids_with_length_alone",
        LENGTH,
        "RPs are authorized only together with a new minPINLength.",
        replace_method("config.authorize_rps", authorize_with_length_only),
        WITH_MIN_PIN_LENGTH,
    ),
    Mutant(
        "rp_ids_after_reset",
        RESET + "|" + LENGTH,
        "A reset keeps the authorized RPs.",
        wrap_method("forget", keep_rps),
        WITH_MIN_PIN_LENGTH,
    ),
    Mutant(
        "rp_ids_until_unplugged",
        LENGTH,
        "A power cycle forgets the authorized RPs.",
        wrap_method("power_cycle", lose_rps),
        WITH_MIN_PIN_LENGTH,
    ),
    Mutant(
        "rp_ids_without_extension",
        CONFIG,
        "minPinLengthRPIDs is accepted without the extension.",
        wrap_method("config.set_min_pin_length", ignore_rps_without_extension),
        DeviceTraits(config=True),
    ),
    Mutant(
        "max_rp_ids_missing",
        INFO,
        "maxRPIDsForSetMinPINLength is missing.",
        change_member("info", 16, None),
        WITH_MIN_PIN_LENGTH,
    ),
]
