"""Checks recorded responses about a key's settings: authenticatorConfig and its effects on getInfo and other responses,
enterprise attestation, and fingerprint enrolment (CTAP 2.1, 6.7 and 6.11)."""

from __future__ import annotations

from typing import Any, Dict, List, Optional, Set

from hidlog_conformance import answers
from hidlog_conformance.answers import MAKE, UP, UV, Mismatch, check, get_member
from hidlog_conformance.judged_parts import (
    OTHERWISE,
    TOKENS,
    ExtensionMismatch,
    Pins,
    UncertainMismatch,
    decode_outputs,
)
from hidlog_conformance.text import quantity

BIO, CONFIG = 0x09, 0x0D
ENABLE_ENTERPRISE, TOGGLE_ALWAYS_UV, SET_MIN_PIN_LENGTH = 1, 2, 3
NEW_LENGTH, RP_IDS, FORCE_CHANGE = 1, 2, 3
BEGIN, NEXT_SAMPLE, CANCEL, ENUMERATE, RENAME, REMOVE, SENSOR = range(1, 8)
TEMPLATE, SAMPLE_STATUS, REMAINING, TEMPLATES, GOOD, NO_TEMPLATE = 4, 5, 6, 7, 0, 0x2C
# Permissions of tokens (6.5.5.7): be and acfg.
MAY_ENROLL, MAY_CONFIGURE = 0x08, 0x20
# Members of getInfo: forcePINChange, minPINLength, maxRPIDsForSetMinPINLength, remainingDiscoverableCredentials.
FORCED, LENGTH, MAX_RP_IDS, LEFT = 12, 13, 16, 20
EXTENSION = "minPinLength"


class SettingsJudge:
    """The settings and fingerprint templates that the log shows; None if unknown."""

    def __init__(self) -> None:
        self.length: Optional[int] = None
        self.is_forced: Optional[bool] = None
        self.is_enterprise: Optional[bool] = None
        self.always_uv: Optional[bool] = None
        # Whether the device was reset since the last getInfo, and the RPs that are authorized to get minPINLength.
        self.is_reset = False
        self.authorized_rps: Optional[List[str]] = None
        # The names of templates by ID, empty if unknown; whether there are no others; and IDs of removed templates.
        self.templates: Dict[bytes, str] = {}
        self.is_complete = False
        self.gone: Set[bytes] = set()
        # The template that is being enrolled, and remainingSamples.
        self.coming, self.remaining = b"", 0
        # remainingDiscoverableCredentials of the last getInfo, and the number of registrations since.
        self.left: Optional[int] = None
        self.made = 0
        # The time of the last response that showed or changed settings or templates.
        self.shown = 0

    def reset(self, at: int) -> None:
        """Processes a reset."""
        self.length = self.always_uv = self.left = None
        self.is_forced, self.is_enterprise, self.is_reset, self.authorized_rps = None, False, True, []
        self.gone.update(list(self.templates))
        self.templates, self.is_complete, self.coming = {}, True, b""
        self.shown = at

    def power_cycle(self) -> None:
        """Forgets an enrolment that was not completed, as the device does at a power cycle."""
        self.coming = b""

    def judge(self, asked: Dict[Any, Any], request: bytes, data: bytes, pins: Pins, info: Dict[Any, Any]) -> None:
        """Checks a response to authenticatorConfig or authenticatorBioEnrollment, and records its effects."""
        self.check_named(request[0], data[0], info)
        if request[0] == CONFIG and data[0] == 0:
            self.check_token(asked, 4, MAY_CONFIGURE, pins)
            self.take_config(asked, pins, info)
        elif request[0] == BIO:
            self.take_enrolment(asked, data, pins)

    def check_named(self, command: int, status: int, info: Dict[Any, Any]) -> None:
        """Checks that getInfo has the option of a command that is served (6.4)."""
        name = "authnrCfg" if command == CONFIG else "bioEnroll"
        if info and status == 0 and name not in info.get(4, {}):
            expected = f"status 01, since getInfo does not have the option {name}"
            raise ExtensionMismatch("6.4", expected, "status 00", False)

    def check_token(self, asked: Dict[Any, Any], param: int, permission: int, pins: Pins) -> None:
        """Checks that a request that succeeded had a token that permits it, if a PIN is set."""
        check(param in asked or not pins.is_set, "status 36, since a PIN is set", "status 00")
        permitted = param not in asked or pins.permissions is None or bool(pins.permissions & permission)
        check(permitted, "status 33, since the token lacks the permission", "status 00")

    # authenticatorConfig (6.11).

    def take_config(self, asked: Dict[Any, Any], pins: Pins, info: Dict[Any, Any]) -> None:
        """Records a setting."""
        command, parameters = asked.get(1), asked.get(2, {})
        if command == ENABLE_ENTERPRISE:
            self.is_enterprise = True
        elif command == TOGGLE_ALWAYS_UV:
            self.always_uv = None if self.always_uv is None else not self.always_uv
        elif command == SET_MIN_PIN_LENGTH and isinstance(parameters, dict):
            self.take_length(parameters, pins, info)

    def take_length(self, parameters: Dict[Any, Any], pins: Pins, info: Dict[Any, Any]) -> None:
        """Checks and records minPINLength (6.11.4)."""
        new, before = parameters.get(NEW_LENGTH, self.length), self.length
        self.length = new
        is_raised = before is None or new is None or new > before
        self.is_forced = True if parameters.get(FORCE_CHANGE) is True else self.is_forced if not is_raised else None
        rps = parameters.get(RP_IDS)
        self.authorized_rps = list(rps) if isinstance(rps, list) else self.authorized_rps
        if isinstance(before, int) and isinstance(new, int):
            check(new >= before, f"status 37, since minPINLength is {before}", "status 00")
        is_supported = not info or EXTENSION in info.get(2, [])
        check(RP_IDS not in parameters or is_supported, f"status 02, since {EXTENSION} is not supported", "status 00")
        is_possible = parameters.get(FORCE_CHANGE) is not True or pins.is_set is not False
        check(is_possible, "status 35, since no PIN is set", "status 00")

    def check_info(self, item: Dict[Any, Any], is_sure: bool, at: int) -> None:
        """Compares getInfo with the settings, and records it."""
        options = item.get(4, {})
        section = "6.6" if self.is_reset else "6.4"
        shown = [
            ("minPINLength", "6.11", self.length, item.get(LENGTH, 4)),
            ("forcePINChange", "6.11", self.is_forced, item.get(FORCED, False)),
            ("option ep", section if not self.is_enterprise else "6.11", self.is_enterprise, options.get("ep", False)),
            ("option alwaysUv", "6.11", self.always_uv, options.get("alwaysUv", False)),
        ]
        enrolled = True if self.templates else False if self.is_complete else None
        if "bioEnroll" in options:
            shown.append(("option bioEnroll", "6.7", enrolled, options["bioEnroll"]))
        self.length, self.is_forced = item.get(LENGTH, 4), item.get(FORCED, False)
        self.is_enterprise, self.always_uv = options.get("ep", False), options.get("alwaysUv", False)
        before, self.shown, self.is_reset = self.left, at, False
        self.left = item.get(LEFT)
        made, self.made = self.made, 0
        for name, named, expected, actual in shown:
            if expected is not None and expected != actual:
                raise ExtensionMismatch(named, f"{name} {str(expected).lower()}", str(actual).lower(), is_sure)
        if EXTENSION in item.get(2, []) and MAX_RP_IDS not in item:
            raise ExtensionMismatch("6.4", f"maxRPIDsForSetMinPINLength, since {EXTENSION} is supported", "none", False)
        if isinstance(before, int) and isinstance(self.left, int) and made and self.left >= before > 0:
            actual = str(self.left)
            raise UncertainMismatch(f"remainingDiscoverableCredentials below {before}, after a registration", actual)

    def check_issued(self, asked: Dict[Any, Any], status: int) -> None:
        """Checks that no token is issued while the PIN must be changed (6.5.5.7), and records a change."""
        if self.is_forced and asked.get(2) in (5, 9) and status == 0:
            raise ExtensionMismatch("6.5", "status 37, since the PIN must be changed first", "status 00")
        if asked.get(2) in (3, 4) and status == 0:
            self.is_forced = False

    # Effects of the settings on registrations and sign-ins (6.1.2, 6.2.2, 12.4).

    def check_use(self, request: bytes, asked: Dict[Any, Any], data: bytes, is_sure: bool) -> None:
        """Checks alwaysUv, enterprise attestation and minPinLength in a registration or sign-in."""
        item = answers.decode_map(data)
        auth = item.get(2)
        if not isinstance(auth, bytes) or len(auth) < 37:
            return
        if self.always_uv and auth[32] & UP and not auth[32] & UV and is_sure:
            raise Mismatch("status 36 or flag UV set, since alwaysUv is true", f"flags {auth[32]:02x}")
        if request[0] == MAKE:
            self.check_enterprise(asked, item, is_sure)
            self.check_min_pin_length(asked, auth)

    def check_enterprise(self, asked: Dict[Any, Any], item: Dict[Any, Any], is_sure: bool) -> None:
        """Checks enterprise attestation (6.1.2, step 9)."""
        if 10 not in asked:
            check(item.get(4) is not True, "no epAtt, since enterprise attestation was not requested", item)
            return
        if self.is_enterprise is False:
            expected = "an error, since enterprise attestation is disabled"
            raise ExtensionMismatch("6.1.2", expected, "status 00", is_sure)
        if self.is_enterprise:
            check(asked[10] in (1, 2), "status 2c, since enterpriseAttestation is 1 or 2", "status 00")
            if asked[10] == 2 and item.get(4) is not True:
                raise UncertainMismatch("epAtt true, since the platform requested it", "none")

    def check_refused(self, asked: Dict[Any, Any], status: int) -> None:
        """Checks that enabled enterprise attestation is not refused."""
        if self.is_enterprise and asked.get(10) in (1, 2) and status == 0x02:
            expected = "no status 02, since enterprise attestation is enabled"
            raise ExtensionMismatch("6.1.2", expected, "status 02", False)

    def check_min_pin_length(self, asked: Dict[Any, Any], auth: bytes) -> None:
        """Checks the extension minPinLength (12.4)."""
        found, requested = decode_outputs(auth), asked.get(6, {}).get(EXTENSION) is True
        is_authorized = requested and self.authorized_rps is not None and asked[2]["id"] in self.authorized_rps
        if EXTENSION not in found:
            if is_authorized:
                raise ExtensionMismatch("12.4", f"minPinLength: {self.length}", "no output")
            return
        actual = str(found[EXTENSION])
        if not requested:
            raise ExtensionMismatch("12.4", "no output of minPinLength, which was not requested", actual)
        if self.length is not None and found[EXTENSION] != self.length:
            raise ExtensionMismatch("12.4", f"minPinLength: {self.length}", actual)
        if self.authorized_rps is not None and not is_authorized:
            # The key may always authorize this RP.
            raise ExtensionMismatch("12.4", "no output of minPinLength, since the RP is not authorized", actual, False)

    # authenticatorBioEnrollment (6.7).

    def take_enrolment(self, asked: Dict[Any, Any], data: bytes, pins: Pins) -> None:
        """Checks a response to authenticatorBioEnrollment."""
        command, status, parameters = asked.get(2), data[0], asked.get(3, {})
        if status == 0 and asked.get(6) is True and command is None:
            check(answers.decode_map(data).get(1) == 1, "the modality 1, fingerprint", "another modality")
        elif status == 0 and command == SENSOR:
            item = answers.decode_map(data)
            check(item.get(2) in (1, 2), "a fingerprintKind of 1 or 2", item)
            check(get_member(item, 3, int, "maxCaptureSamplesRequiredForEnroll") > 0, "at least one sample", item)
        elif status == 0 and command in (BEGIN, NEXT_SAMPLE, ENUMERATE, RENAME, REMOVE):
            self.check_token(asked, 5, MAY_ENROLL, pins)
            self.follow_enrolment(command, parameters, data)
        elif status == 0 and command == CANCEL:
            self.gone.add(self.coming)
            self.coming = b""
        elif status == NO_TEMPLATE and command == ENUMERATE and self.templates:
            known, self.templates = self.templates, {}
            raise UncertainMismatch(f"{quantity(len(known), 'template')}, {OTHERWISE}", "status 2c")

    def follow_enrolment(self, command: int, parameters: Dict[Any, Any], data: bytes) -> None:
        """Checks a successful subcommand."""
        if command in (BEGIN, NEXT_SAMPLE):
            self.take_sample(command, answers.decode_map(data))
        elif command == ENUMERATE:
            self.check_templates(get_member(answers.decode_map(data), TEMPLATES, list, "templateInfos"))
        else:
            identity = get_member(parameters, 1, bytes, "templateId")
            is_known = identity in self.templates or (not self.is_complete and identity not in self.gone)
            if command == REMOVE:
                self.templates.pop(identity, None)
                self.gone.add(identity)
            else:
                self.templates[identity] = parameters.get(2, "")
            check(is_known, "status 2c, since there is no such template", "status 00")

    def take_sample(self, command: int, item: Dict[Any, Any]) -> None:
        """Checks a sample; the last one completes a template."""
        status = get_member(item, SAMPLE_STATUS, int, "lastEnrollSampleStatus")
        left, before = get_member(item, REMAINING, int, "remainingSamples"), self.remaining
        self.remaining = left
        if command == BEGIN:
            self.gone.add(self.coming)
            self.coming = get_member(item, TEMPLATE, bytes, "templateId")
            check(self.coming not in self.templates, "a new templateId", item)
            self.gone = {one for one in self.gone if one != self.coming}
        elif self.coming:
            falls = left < before or status != GOOD
            check(falls, f"remainingSamples below {before}, since the sample was good", str(left))
        check(left >= 0, "remainingSamples of at least 0", item)
        if self.coming and left == 0:
            self.templates[self.coming] = ""
            self.coming = b""

    def check_templates(self, listed: List[Any]) -> None:
        """Checks a list of templates."""
        found = {get_member(one, 1, bytes, "templateId"): one.get(2, "") for one in listed}
        known, self.templates, self.is_complete = self.templates, found, True
        gone = [identity for identity in found if identity in self.gone]
        check(not gone, "no template that was removed or not completed", listed)
        check(self.coming not in found, "no template that is not completed", listed)
        for identity, name in known.items():
            if identity not in found:
                raise UncertainMismatch(f"the template {identity.hex()}, {OTHERWISE}", f"{len(listed)} others")
            check(not name or found[identity] == name, f"the name {name}", listed)
