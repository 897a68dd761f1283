"""Faults of settings and fingerprints that depend on earlier requests or power cycles; walks find them."""

from __future__ import annotations

from typing import Any, Dict, List

from hidlog_conformance.reference.bio import BioEnrollment
from hidlog_conformance.reference.config import Config
from hidlog_conformance.reference.pin import SHORTEST_PIN
from hidlog_conformance.reference.traits import DeviceTraits

from mutant import Mutant, replace_method, wrap_method

CONFIG, BIO, PIN, LENGTH = "6.11", "6.7", "6.5", "12.4"
SETTINGS = DeviceTraits(config=True, bio=True)
WITH_MIN_PIN_LENGTH = DeviceTraits(config=True, extensions=("minPinLength",))


def power_cycle_and(change: Any) -> Any:
    """Returns a change of the state after a power cycle."""

    def cycle(key: Any, old: Any) -> None:
        old()
        change(key)

    return wrap_method("power_cycle", cycle)


def restore_length(key: Any) -> None:
    """Restores the default minPINLength."""
    key.pin.shortest = SHORTEST_PIN


def forget_force(key: Any) -> None:
    """Forgets that the PIN must be changed."""
    key.pin.must_change = False


def forget_enterprise(key: Any) -> None:
    """Disables enterprise attestation."""
    key.config.is_enterprise = False


def forget_always_uv(key: Any) -> None:
    """Turns alwaysUv off."""
    key.config.always_uv = False


def forget_rps(key: Any) -> None:
    """Forgets the RPs that are authorized to get minPINLength."""
    key.config.rps = []


def keep_removed(key: Any, asked: Dict[int, Any]) -> Any:
    """Removes a template, and remembers it."""
    key.removed = {**getattr(key, "removed", {}), key.bio.get_template(asked): ""}
    return (yield from BioEnrollment.remove(key.bio, asked))


def restore_removed(key: Any) -> None:
    """Restores removed templates."""
    key.bio.templates.update(getattr(key, "removed", {}))


def remove_and_remember(key: Any, old: Any) -> None:
    """Power cycles, and restores removed templates."""
    old()
    restore_removed(key)


def store_unfinished(key: Any) -> None:
    """Stores an enrolment that a power cycle interrupted."""
    if key.bio.coming:
        key.bio.templates[key.bio.coming] = ""
        key.bio.coming = b""


def forget_names(key: Any) -> None:
    """Forgets the names of templates."""
    key.bio.templates = {name: "" for name in key.bio.templates}


def cancel_nothing(key: Any, asked: Dict[int, Any]) -> Any:
    """Stores a cancelled enrolment."""
    if asked.get(2) == 3 and key.bio.coming:
        key.bio.templates[key.bio.coming] = ""
    return (yield from BioEnrollment.serve(key.bio, asked))


def force_once(key: Any, asked: Dict[int, Any]) -> None:
    """Applies forceChangePin only the first time."""
    was_forced = getattr(key, "was_forced", False)
    Config.set_min_pin_length(key.config, asked)
    if asked.get(3) and was_forced:
        key.pin.must_change = False
    key.was_forced = was_forced or bool(asked.get(3))


def lower_later(key: Any, asked: Dict[int, Any]) -> None:
    """Lowers minPINLength once it was raised twice."""
    key.raised = getattr(key, "raised", 0) + 1
    if key.raised > 2 and asked.get(1, 99) < key.pin.shortest:
        key.pin.shortest = asked[1]
        return
    Config.set_min_pin_length(key.config, asked)


def change_any_length(key: Any, pin: bytes) -> bool:
    """Accepts a new PIN of the default length, whatever minPINLength is."""
    return bool(SHORTEST_PIN <= len(pin) <= 63)


SETTING_STATE_MUTANTS: List[Mutant] = [
    Mutant(
        "length_until_unplugged",
        CONFIG,
        "A power cycle restores the default minPINLength.",
        power_cycle_and(restore_length),
        SETTINGS,
    ),
    Mutant(
        "forced_until_unplugged",
        CONFIG + "|" + PIN,
        "A power cycle resets forcePINChange.",
        power_cycle_and(forget_force),
        SETTINGS,
    ),
    Mutant(
        "enterprise_until_unplugged",
        CONFIG,
        "A power cycle disables enterprise attestation.",
        power_cycle_and(forget_enterprise),
        SETTINGS,
    ),
    Mutant(
        "always_uv_until_unplugged",
        CONFIG,
        "A power cycle turns alwaysUv off.",
        power_cycle_and(forget_always_uv),
        SETTINGS,
    ),
    Mutant(
        "rp_ids_lost",
        LENGTH,
        "A power cycle forgets the authorized RPs.",
        power_cycle_and(forget_rps),
        WITH_MIN_PIN_LENGTH,
    ),
    Mutant(
        "forced_once",
        CONFIG + "|" + PIN,
        "forceChangePin only has an effect once.",
        replace_method("config.set_min_pin_length", force_once),
        SETTINGS,
    ),
    Mutant(
        "length_lowered_later",
        CONFIG,
        "minPINLength can be lowered after it was raised twice.",
        replace_method("config.set_min_pin_length", lower_later),
        SETTINGS,
    ),
    Mutant(
        "length_not_applied",
        PIN,
        "minPINLength is only shown in getInfo.",
        replace_method("pin.is_long_enough", change_any_length),
        SETTINGS,
    ),
    Mutant(
        "template_unfinished_kept",
        BIO,
        "A power cycle completes an unfinished enrolment.",
        power_cycle_and(store_unfinished),
        SETTINGS,
    ),
    Mutant(
        "template_cancelled_kept",
        BIO,
        "cancelCurrentEnrollment completes an enrolment.",
        replace_method("bio.serve", cancel_nothing),
        SETTINGS,
    ),
    Mutant(
        "template_names_lost",
        BIO,
        "A power cycle deletes the names of templates.",
        power_cycle_and(forget_names),
        SETTINGS,
    ),
]


def removes_until_unplugged(key: Any) -> None:
    """Removes templates until the next power cycle."""
    replace_method("bio.remove", keep_removed)(key)
    wrap_method("power_cycle", remove_and_remember)(key)


SETTING_STATE_MUTANTS.append(
    Mutant("template_returns", BIO, "A power cycle restores removed templates.", removes_until_unplugged, SETTINGS)
)
