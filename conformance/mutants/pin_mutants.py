"""Faults of the reference authenticator: its PIN, tokens and extensions."""

from __future__ import annotations

from typing import Any, List

from hidlog_conformance.reference.traits import DeviceTraits

from mutant import Change, Mutant, change_result, wrap_method, replace_method, change_member

MAKE, GET, PIN, PROTECT, BLOB, SECRET = "6.1.2", "6.2.2", "6.5", "12.1", "12.2", "12.5"


def wrap_protocol_method(name: str, body: Any) -> Change:
    """Returns a change that wraps a method of both protocols: `body` gets the old method and the arguments."""

    def plant(authenticator: Any) -> None:
        for protocol in authenticator.pin.protocols.values():
            old = getattr(protocol, name)
            setattr(protocol, name, lambda *words, old=old: body(old, *words))

    return plant


def change_agreement_key(change: Any) -> Change:
    """Returns a change of the key agreement key."""
    return change_member("pin.agree", 1, change)


def restore_retries(key: Any, old: Any, *words: Any) -> Any:
    """Compares a PIN without decrementing the retries."""
    before = key.pin.retries
    try:
        return old(*words)
    finally:
        key.pin.retries = before


def reset_wrong_count(key: Any, old: Any) -> None:
    """Resets the count of consecutive wrong PINs, so that a power cycle is never needed."""
    key.pin.in_a_row = 0
    old()


def grant_every_permission(
    key: Any, old: Any, protocol: Any, data: bytes, given: bytes, permission: int, rp: str
) -> None:
    """Accepts a token for every permission."""
    key.pin.permissions |= permission
    old(protocol, data, given, permission, rp)


def grant_every_rp(key: Any, old: Any, protocol: Any, data: bytes, given: bytes, permission: int, rp: str) -> None:
    """Accepts a token for every RP."""
    key.pin.rp = rp
    old(protocol, data, given, permission, rp)


def clear_verified(key: Any, old: Any, asked: Any, *words: Any) -> None:
    """Verifies a token, but does not set flag UV."""
    old(asked, *words)
    asked.verified = False


def forget_old_pin(key: Any, old: Any, asked: Any) -> Any:
    """Sets a PIN even if one is set."""
    key.pin.hash = b""
    return old(asked)


PIN_MUTANTS: List[Mutant] = [
    Mutant("pin_any", PIN, "Any PIN is accepted.", replace_method("pin.is_same_pin", lambda key, given: True)),
    Mutant(
        "pin_short",
        PIN,
        "A PIN of any length is accepted.",
        replace_method("pin.is_long_enough", lambda key, pin: True),
    ),
    Mutant(
        "pin_below_minimum",
        PIN,
        "A PIN of five characters is accepted, although minPINLength is six.",
        replace_method("pin.is_long_enough", lambda key, pin: len(pin) >= 4),
        traits=DeviceTraits(shortest_pin=6),
    ),
    Mutant(
        "pin_by_bytes",
        PIN,
        "The minimum length is compared with bytes instead of characters.",
        replace_method("pin.is_long_enough", lambda key, pin: 4 <= len(pin) <= 63),
    ),
    Mutant(
        "pin_long_refused",
        PIN,
        "A PIN of 63 bytes is refused.",
        replace_method("pin.is_long_enough", lambda key, pin: 4 <= len(pin.decode()) and len(pin) < 60),
    ),
    Mutant(
        "pin_costs_nothing",
        PIN,
        "A wrong PIN does not decrement the retries.",
        wrap_method("pin.compare", restore_retries),
    ),
    Mutant(
        "pin_never_blocked",
        PIN,
        "Any number of consecutive wrong PINs is accepted.",
        wrap_method("pin.check_not_blocked", reset_wrong_count),
    ),
    Mutant(
        "pin_key_stays",
        PIN,
        "The key agreement key is not renewed after a wrong PIN.",
        wrap_protocol_method("renew", lambda old: None),
    ),
    Mutant(
        "pin_not_authentic",
        PIN,
        "setPIN accepts a wrong pinUvAuthParam.",
        wrap_protocol_method("verify", lambda old, key, data, given: True),
    ),
    Mutant(
        "pin_set_anew",
        PIN,
        "setPIN is accepted although a PIN is set.",
        wrap_method("pin.set", forget_old_pin),
    ),
    Mutant(
        "pin_not_said",
        PIN,
        "clientPin of getInfo is never true.",
        change_result("options", lambda key, found: {**found, "clientPin": False}),
    ),
    Mutant(
        "pin_outlasts_reset",
        PIN,
        "The PIN survives a reset.",
        replace_method("forget", lambda key: setattr(key, "credentials", [])),
    ),
    Mutant(
        "agreement_alg",
        PIN,
        "The key agreement key has the alg of ES256.",
        change_agreement_key(lambda found: {**found, 3: -7}),
    ),
    Mutant(
        "agreement_off_curve",
        PIN,
        "The key agreement key is not a point on P-256.",
        change_agreement_key(lambda found: {**found, -2: bytes(32)}),
    ),
    Mutant(
        "agreement_with_more",
        PIN,
        "The key agreement key has an additional member.",
        change_agreement_key(lambda found: {**found, 2: b"x"}),
    ),
    Mutant(
        "token_short",
        PIN,
        "A token is too short by 16 bytes.",
        wrap_method(
            "pin.grant",
            lambda key, old, protocol, secret, permissions, rp: {2: old(protocol, secret, permissions, rp)[2][:-16]},
        ),
    ),
    Mutant("token_permits_all", MAKE, "A token has all permissions.", wrap_method("pin.check", grant_every_permission)),
    Mutant("token_of_every_rp", MAKE, "A token is accepted for every RP.", wrap_method("pin.check", grant_every_rp)),
    Mutant(
        "token_not_verified",
        MAKE,
        "pinUvAuthParam is not verified.",
        replace_method("pin.is_authentic", lambda key, protocol, data, given: True),
    ),
    Mutant("token_without_uv", MAKE, "Flag UV is not set with a token.", wrap_method("verify", clear_verified)),
    Mutant(
        "rk_without_pin",
        MAKE,
        "A discoverable credential is made without a token although a PIN is set.",
        replace_method("require_make_verification", lambda key, asked: None),
    ),
    Mutant(
        "protect_not_answered",
        PROTECT,
        "credProtect has no output.",
        change_result(
            "extensions.run_make",
            lambda key, found, asked, new: {name: value for name, value in found.items() if name != "credProtect"},
        ),
    ),
    Mutant(
        "protect_other_level",
        PROTECT,
        "The output of credProtect is another level.",
        change_result(
            "extensions.run_make",
            lambda key, found, asked, new: {**found, "credProtect": 1} if "credProtect" in found else found,
        ),
    ),
    Mutant(
        "protect_hides_nothing",
        PROTECT,
        "credProtect has no effect.",
        replace_method("is_visible", lambda key, asked, one, listed: True),
    ),
    Mutant(
        "protect_hides_alone",
        PROTECT,
        "Level 3 of credProtect has the effect of level 2.",
        replace_method("is_visible", lambda key, asked, one, listed: listed or one.protection < 2),
    ),
    Mutant(
        "blob_lost",
        BLOB,
        "credBlob returns an empty blob.",
        change_result(
            "extensions.run_get",
            lambda key, found, asked, one: {**found, "credBlob": b""} if "credBlob" in found else found,
        ),
    ),
    Mutant(
        "blob_refused",
        BLOB,
        "credBlob stores no blob.",
        replace_method("extensions.keep_blob", lambda key, new, blob: False),
    ),
    Mutant(
        "secret_of_all",
        SECRET,
        "All credentials have the same hmac-secret.",
        replace_method("extensions.random", lambda key, asked, one: bytes(32)),
    ),
    Mutant(
        "secret_changes",
        SECRET,
        "The hmac-secret of a credential changes.",
        replace_method("extensions.random", lambda key, asked, one: one.sign(b"x")[-32:].rjust(32, b"\0")),
    ),
    Mutant(
        "secret_any_salt",
        SECRET,
        "saltAuth is not verified.",
        replace_method("extensions.is_salt_authentic", lambda key, protocol, secret, given: True),
    ),
    Mutant(
        "secret_in_plain",
        SECRET,
        "The output of hmac-secret is too long by one byte.",
        change_result("extensions.secret", lambda key, found, asked, one, given: found + b"\0"),
    ),
    Mutant(
        "secret_not_said",
        SECRET,
        "hmac-secret has no output in registrations.",
        change_result(
            "extensions.run_make",
            lambda key, found, asked, new: {name: value for name, value in found.items() if name != "hmac-secret"},
        ),
    ),
]
