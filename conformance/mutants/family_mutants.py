"""Faults of the reference authenticator: configuration, enterprise attestation, fingerprints, certificates, U2F, and
wrong members of getInfo."""

from __future__ import annotations

from typing import Any, Dict, List

from cryptography.x509.oid import NameOID
from hidlog_conformance.reference.authenticator import Authenticator
from hidlog_conformance.reference.bio import SAMPLES, BioEnrollment
from hidlog_conformance.reference.config import Config
from hidlog_conformance.reference.credential import SUBJECT
from hidlog_conformance.reference.pin import INVALID_PARAMETER, PIN_BLOCKED, POLICY, Pin, RequestError
from hidlog_conformance.reference.traits import DeviceTraits
from hidlog_conformance.reference.u2f import NOT_SATISFIED, OK, U2f
from state_mutants import change_pin_method

from mutant import Change, Mutant, change_member, replace_method, wrap_method

MAKE, INFO, PIN, RESET, BIO, CONFIG, CTAP1 = "6.1.2", "6.4", "6.5", "6.6", "6.7", "6.11", "10"
CONFIGURABLE, FINGERPRINTS = DeviceTraits(config=True), DeviceTraits(bio=True)
PLAIN, SAYING, X5C = DeviceTraits(), DeviceTraits(says_remaining=True), DeviceTraits(format="x5c")


def certify(subject: Dict[Any, str], aaguid: bytes = b"", **more: bool) -> Change:
    """Returns a change of the attestation certificate."""

    def plant(key: Authenticator) -> None:
        key.attestor.certificate = key.attestor.certify({**SUBJECT, **subject}, aaguid, **more)

    return plant


def lower_min_pin_length(key: Any, asked: Dict[int, Any]) -> None:
    """Sets minPINLength, even to a lower value."""
    key.pin.shortest = min(key.pin.shortest, asked.get(1, key.pin.shortest))
    Config.set_min_pin_length(key.config, asked)


def set_without_demand(key: Any, asked: Dict[int, Any]) -> None:
    """Sets minPINLength; a shorter PIN stays valid."""
    Config.set_min_pin_length(key.config, asked)
    key.pin.must_change = bool(asked.get(3))


def set_without_pin(key: Any, asked: Dict[int, Any]) -> None:
    """Accepts forceChangePin although no PIN is set."""
    try:
        Config.set_min_pin_length(key.config, asked)
    except RequestError as refused:
        if refused.status == POLICY:
            raise
        key.pin.must_change = True


def keep_config(key: Any, old: Any) -> None:
    """Resets, but keeps the configuration and minPINLength."""
    shortest, is_enterprise = key.pin.shortest, key.config.is_enterprise
    old()
    key.pin.shortest, key.config.is_enterprise = shortest, is_enterprise


def authorize_without(check: str, code: str = "config") -> Change:
    """Returns a change that accepts requests without a token, with a wrong one, or without the permission."""

    def authorize(key: Any, old: Any, asked: Dict[int, Any]) -> None:
        auth = 4 if code == "config" else 5
        if check == "token" and auth not in asked:
            return
        if check == "permission":
            key.pin.permissions = 0xFF
        if check == "param" and auth in asked:
            return
        old(asked)

    return wrap_method(f"{code}.authorize", authorize)


def refuse_kind(key: Any, item: Dict[int, Any]) -> None:
    """Refuses the value 2 of enterpriseAttestation."""
    Authenticator.check_enterprise(key, item)
    if item.get(10) == 2:
        raise RequestError(INVALID_PARAMETER)


def take_any_kind(key: Any, item: Dict[int, Any]) -> None:
    """Accepts all values of enterpriseAttestation."""
    if 10 in item and not key.config.is_enterprise:
        raise RequestError(INVALID_PARAMETER)


def never_block(key: Any) -> None:
    """Refuses any PIN as wrong once no retries are left, and allows one more try."""
    try:
        Pin.check_not_blocked(key.pin)
    except RequestError as refused:
        if refused.status != PIN_BLOCKED:
            raise
        key.pin.retries = 1


def store_half(key: Any) -> Any:
    """Stores a template after its first sample."""
    answer = yield from BioEnrollment.sample(key.bio)
    key.bio.templates[answer[4]] = ""
    return answer


def count_no_samples(key: Any) -> Any:
    """Always returns the same remainingSamples."""
    answer = yield from BioEnrollment.sample(key.bio)
    return {**answer, 6: SAMPLES - 1}


def rename_nothing(key: Any, asked: Dict[int, Any]) -> Any:
    """Does not rename."""
    yield from ()
    key.bio.get_template(asked)
    return {}


def remove_nothing(key: Any, asked: Dict[int, Any]) -> Any:
    """Does not remove."""
    return rename_nothing(key, asked)


def name_any(key: Any, asked: Dict[int, Any]) -> bytes:
    """Accepts unknown templates."""
    key.bio.templates.setdefault(asked[1], "")
    return bytes(asked[1])


def sign_for_any(key: Any, data: bytes) -> Any:
    """Finds key handles of any application."""
    handle = data[65 : 65 + data[64]]
    found = [one for one in key.credentials if one.id == handle]
    return (True, found[0]) if found else U2f.find_credential(key.u2f, data)


def register_short(key: Any, at: int, data: bytes) -> bytes:
    """Responds to a wrong length with the status word of a missing touch."""
    return bytes(NOT_SATISFIED if len(data) != 64 else U2f.register(key.u2f, at, data))


def sign_wrongly(key: Any, old: Any, at: int, control: int, data: bytes) -> bytes:
    """Signs with a changed bit."""
    answer = bytes(old(at, control, data))
    return answer[:-3] + bytes([answer[-3] ^ 1, *OK]) if answer.endswith(OK) else answer


def serve_extra(command: int) -> Change:
    """Returns a change that serves a command that getInfo does not name."""

    def serve(key: Any, at: int, channel: int, number: int, data: bytes) -> Any:
        if number == command:
            return {}
        return (yield from Authenticator.command(key, at, channel, number, data))

    return replace_method("command", serve)


FAMILY_MUTANTS: List[Mutant] = [
    Mutant(
        "length_lowered",
        CONFIG,
        "minPINLength can be lowered.",
        replace_method("config.set_min_pin_length", lower_min_pin_length),
        CONFIGURABLE,
    ),
    Mutant(
        "length_ignored",
        CONFIG,
        "minPINLength is not set.",
        replace_method("config.set_min_pin_length", lambda key, asked: None),
        CONFIGURABLE,
    ),
    Mutant(
        "short_pin_valid",
        CONFIG,
        "A PIN below a new minPINLength stays valid.",
        replace_method("config.set_min_pin_length", set_without_demand),
        CONFIGURABLE,
    ),
    Mutant(
        "forced_without_a_pin",
        CONFIG,
        "forceChangePin without a PIN is accepted.",
        replace_method("config.set_min_pin_length", set_without_pin),
        CONFIGURABLE,
    ),
    Mutant(
        "forced_issues_tokens",
        PIN,
        "A token is issued although the PIN must be changed.",
        change_pin_method("check_unchanged", lambda key: None),
        CONFIGURABLE,
    ),
    Mutant(
        "config_outlasts_reset",
        RESET,
        "The configuration survives a reset.",
        wrap_method("forget", keep_config),
        CONFIGURABLE,
    ),
    Mutant(
        "config_without_token", CONFIG, "authenticatorConfig needs no token.", authorize_without("token"), CONFIGURABLE
    ),
    Mutant(
        "config_by_any_token",
        CONFIG,
        "authenticatorConfig accepts tokens without the permission.",
        authorize_without("permission"),
        CONFIGURABLE,
    ),
    Mutant(
        "config_by_any_param",
        CONFIG,
        "authenticatorConfig accepts a wrong pinUvAuthParam.",
        authorize_without("param"),
        CONFIGURABLE,
    ),
    Mutant(
        "always_uv_ignored",
        CONFIG,
        "toggleAlwaysUv has no effect.",
        replace_method("config.toggle_always_uv", lambda key, asked: None),
        CONFIGURABLE,
    ),
    Mutant(
        "always_uv_shown_alone",
        MAKE,
        "alwaysUv is only shown in getInfo.",
        replace_method("require_make_verification", lambda key, asked: None),
        CONFIGURABLE,
    ),
    Mutant(
        "enterprise_ignored",
        CONFIG + "|" + MAKE,
        "enableEnterpriseAttestation has no effect.",
        replace_method("config.enable_enterprise", lambda key, asked: None),
        CONFIGURABLE,
    ),
    Mutant(
        "enterprise_refused",
        MAKE,
        "Enabled enterprise attestation is refused.",
        replace_method("check_enterprise", refuse_kind),
        CONFIGURABLE,
    ),
    Mutant(
        "enterprise_of_any_kind",
        MAKE,
        "Unknown values of enterpriseAttestation are accepted.",
        replace_method("check_enterprise", take_any_kind),
        CONFIGURABLE,
    ),
    Mutant(
        "enterprise_unsaid",
        MAKE,
        "epAtt is missing in the response.",
        change_member("attestation", 4, None),
        CONFIGURABLE,
    ),
    Mutant(
        "never_blocked",
        PIN,
        "A PIN without retries can still be tried.",
        change_pin_method("check_not_blocked", never_block),
    ),
    Mutant(
        "half_is_enrolled",
        BIO,
        "A template is stored after its first sample.",
        replace_method("bio.sample", store_half),
        FINGERPRINTS,
    ),
    Mutant(
        "samples_not_counted",
        BIO,
        "remainingSamples does not decrease.",
        replace_method("bio.sample", count_no_samples),
        FINGERPRINTS,
    ),
    Mutant(
        "rename_has_no_effect",
        BIO,
        "setFriendlyName has no effect.",
        replace_method("bio.rename", rename_nothing),
        FINGERPRINTS,
    ),
    Mutant(
        "remove_has_no_effect",
        BIO,
        "removeEnrollment has no effect.",
        replace_method("bio.remove", remove_nothing),
        FINGERPRINTS,
    ),
    Mutant(
        "any_template_named",
        BIO,
        "Unknown templates are accepted.",
        replace_method("bio.get_template", name_any),
        FINGERPRINTS,
    ),
    Mutant(
        "enroll_without_token",
        BIO,
        "authenticatorBioEnrollment needs no token.",
        authorize_without("token", "bio"),
        FINGERPRINTS,
    ),
    Mutant(
        "enroll_by_any_token",
        BIO,
        "authenticatorBioEnrollment accepts tokens without the permission.",
        authorize_without("permission", "bio"),
        FINGERPRINTS,
    ),
    Mutant(
        "enroll_by_any_param",
        BIO,
        "authenticatorBioEnrollment accepts a wrong pinUvAuthParam.",
        authorize_without("param", "bio"),
        FINGERPRINTS,
    ),
    Mutant(
        "certificate_of_ca",
        MAKE,
        "The attestation certificate has basic constraints with CA true.",
        certify({}, is_ca=True),
        X5C,
    ),
    Mutant(
        "certificate_of_other_unit",
        MAKE,
        "The subject of the attestation certificate has another OU.",
        certify({NameOID.ORGANIZATIONAL_UNIT_NAME: "Devices"}),
        X5C,
    ),
    Mutant(
        "certificate_of_small_letters",
        MAKE,
        "The OU of the attestation certificate is in lower case.",
        certify({NameOID.ORGANIZATIONAL_UNIT_NAME: "authenticator attestation"}),
        X5C,
    ),
    Mutant(
        "certificate_of_other_aaguid",
        MAKE,
        "The attestation certificate has another AAGUID.",
        certify({}, bytes(16)),
        X5C,
    ),
    Mutant(
        "certificate_critical_aaguid",
        MAKE,
        "The AAGUID extension of the attestation certificate is critical.",
        certify({}, PLAIN.aaguid, is_critical=True),
        X5C,
    ),
    Mutant(
        "u2f_for_any_application",
        CTAP1,
        "A key handle is accepted for any application.",
        replace_method("u2f.find_credential", sign_for_any),
    ),
    Mutant(
        "u2f_without_touch", CTAP1, "U2F needs no touch.", replace_method("u2f.is_user_present", lambda key, at: True)
    ),
    Mutant("u2f_short_accepted", CTAP1, "A wrong length returns 6985.", replace_method("u2f.register", register_short)),
    Mutant("u2f_signs_wrongly", CTAP1, "A U2F signature is wrong.", wrap_method("u2f.sign", sign_wrongly)),
    Mutant(
        "config_unnamed",
        INFO + "|8.1",
        "authenticatorConfig is supported, but getInfo does not name it.",
        serve_extra(0x0D),
    ),
    Mutant(
        "enrolment_unnamed", INFO + "|8.1", "Enrolment is supported, but getInfo does not name it.", serve_extra(0x09)
    ),
    Mutant(
        "remaining_stays",
        INFO,
        "remainingDiscoverableCredentials does not decrease.",
        change_member("info", 20, 99),
        SAYING,
    ),
]
