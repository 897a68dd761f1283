"""Generates steps of a walk for devices with authenticatorConfig or fingerprint enrolment."""

from __future__ import annotations

from typing import Any, Callable, Dict, List, Optional, Tuple

from hidlog_conformance.cases.corpus import INFO
from hidlog_conformance.ctap_cbor import encode
from hidlog_conformance.device_info import DeviceInfo
from hidlog_conformance.judged_settings import (
    BEGIN,
    BIO,
    CANCEL,
    CONFIG,
    ENABLE_ENTERPRISE,
    ENUMERATE,
    EXTENSION,
    FORCE_CHANGE,
    MAY_CONFIGURE,
    MAY_ENROLL,
    NEW_LENGTH,
    NEXT_SAMPLE,
    REMOVE,
    RENAME,
    RP_IDS,
    SET_MIN_PIN_LENGTH,
    TOGGLE_ALWAYS_UV,
)
from hidlog_conformance.known_answers import MAKES
from hidlog_conformance.walk_steps import NEW_TOKEN, PIN_LENGTH, RPS, Block, Steps

# The maximum minPINLength in walks, and the timeout of a sample in milliseconds.
LONGEST_PIN, SAMPLE_TIME = 12, 10000
FINGERPRINT, NAMES = 1, ("left", "right", "thumb")


def walk_template(number: int) -> bytes:
    """Returns the ID that a walk uses for its template `number`."""
    return b"\xb7" * 14 + number.to_bytes(2, "big")


class SettingSteps(Steps):
    """Steps that also change settings and fingerprints."""

    def __init__(self, seed: int, device_info: DeviceInfo) -> None:
        # The last minPINLength that was sent, the number of enrolments, and whether alwaysUv was turned on.
        self.shortest = device_info.min_pin_length
        self.enrolled = 0
        self.always_uv = bool(device_info.options.get("alwaysUv"))
        super().__init__(seed, device_info)

    def list_actions(self) -> List[Tuple[float, Callable[[], Block]]]:
        """Returns the possible actions with their weights."""
        found = super().list_actions()
        if self.has_pin and self.device_info.options.get("authnrCfg"):
            found += [(6, self.configure), (2, self.force)]
        if self.has_pin and "bioEnroll" in self.device_info.options:
            found += [(5, self.enroll), (4, self.change_template), (2, self.list_templates)]
        return found

    def reset(self) -> Block:
        """Resets the device, and with it its settings."""
        self.shortest = self.device_info.min_pin_length
        self.always_uv = bool(self.device_info.options.get("alwaysUv"))
        return super().reset()

    def new_pin(self) -> bytes:
        """Returns a PIN of digits, rarely one that is too short."""
        length = max(PIN_LENGTH, self.shortest) - (self.shortest > PIN_LENGTH and self.happens(0.2))
        return b"".join(b"%d" % self.random.randrange(10) for _ in range(length))

    def registration_request(self, rp: str, more: Dict[int, Any]) -> bytes:
        """Returns an authenticatorMakeCredential request, perhaps with minPinLength or enterprise attestation."""
        if EXTENSION in self.device_info.extensions and self.happens(0.5):
            more = {**more, 6: {EXTENSION: True}}
        if "ep" in self.device_info.options and self.happens(0.1):
            more = {**more, 10: self.random.choice((1, 2))}
        return super().registration_request(rp, more)

    def with_permission(self, permission: int) -> Block:
        """Gets a token with a permission; rarely with another one instead."""
        if self.happens(0.1):
            return self.ask_token(self.new_block(), self.secrets.pin or b"", MAKES, RPS[0])
        members = {"p3": b"=agreement", "p6": b"=hash:" + (self.secrets.pin or b""), "p9": permission}
        return self.get_agreement_key(self.new_block()).ask(self.pin_request(NEW_TOKEN, **members))

    # authenticatorConfig (6.11).

    def configure(self) -> Block:
        """Changes a setting, perhaps without a token, and asks for getInfo."""
        if not self.secrets.pin:
            return self.info()
        if self.always_uv or self.happens(0.1):
            self.always_uv = not self.always_uv
            return self.add_config(self.with_permission(MAY_CONFIGURE), TOGGLE_ALWAYS_UV)
        if self.happens(0.2):
            return self.add_config(self.with_permission(MAY_CONFIGURE), ENABLE_ENTERPRISE)
        return self.add_config(self.with_permission(MAY_CONFIGURE), SET_MIN_PIN_LENGTH, self.length_parameters())

    def length_parameters(self) -> Dict[int, Any]:
        """Returns parameters of setMinPINLength: a higher or a lower minPINLength, or minPinLengthRPIDs."""
        if EXTENSION in self.device_info.extensions and self.happens(0.6):
            return {RP_IDS: self.random.sample(RPS, self.random.randrange(3))}
        if self.shortest >= LONGEST_PIN or self.happens(0.3):
            return {NEW_LENGTH: self.shortest - 1}
        self.shortest += 1
        return {NEW_LENGTH: self.shortest}

    def add_config(self, block: Block, command: int, parameters: Optional[Dict[int, Any]] = None) -> Block:
        """Adds a subcommand, and getInfo."""
        asked: Dict[int, Any] = {1: command}
        if parameters is not None:
            asked[2] = parameters
        if self.happens(0.9):
            asked.update({3: self.protocol, 4: b"=config"})
        return block.ask(bytes([CONFIG]) + encode(asked)).ask(INFO)

    def force(self) -> Block:
        """Sets forceChangePin, tries the old PIN, and changes the PIN; perhaps after a power cycle."""
        pin = self.secrets.pin
        if not pin:
            return self.info()
        block = self.add_config(self.with_permission(MAY_CONFIGURE), SET_MIN_PIN_LENGTH, {FORCE_CHANGE: True})
        if self.happens(0.5):
            block.tick().power_cycle()
            block.channel = 1
            block.greet_hosts().ask(INFO)
        self.ask_token(block, pin, MAKES, RPS[0])
        return self.change_pin(block, pin, self.new_pin()).ask(INFO)

    # authenticatorBioEnrollment (6.7).

    def add_bio(
        self,
        block: Block,
        command: int,
        parameters: Optional[Dict[int, Any]] = None,
        more: str = "",
        part: float = 0.95,
    ) -> Block:
        """Adds a subcommand; `part` is the probability of a token."""
        asked: Dict[int, Any] = {1: FINGERPRINT, 2: command}
        if parameters is not None:
            asked[3] = parameters
        if command != CANCEL and self.happens(part):
            asked.update({4: self.protocol, 5: b"=enroll"})
        return block.ask(bytes([BIO]) + encode(asked), more)

    def enroll(self) -> Block:
        """Begins an enrolment, and completes it, cancels it, or power cycles the device during it."""
        if not self.secrets.pin:
            return self.info()
        self.enrolled += 1
        name = walk_template(self.enrolled)
        block = self.with_permission(MAY_ENROLL)
        self.add_bio(block, BEGIN, {3: SAMPLE_TIME}, f" as {name.hex()}")
        for _ in range(self.random.choice((0, 1, 2, 2, 2, 3))):
            self.add_bio(block, NEXT_SAMPLE, {1: name, 3: SAMPLE_TIME})
        if self.happens(0.2):
            self.add_bio(block, CANCEL)
        elif self.happens(0.3):
            block.tick().power_cycle()
            block.channel = 1
            block.greet_hosts().ask(INFO)
        return self.add_bio(block, ENUMERATE).ask(INFO)

    def change_template(self) -> Block:
        """Renames or removes a template, which may have been removed before, and lists the templates."""
        if not self.secrets.pin or not self.enrolled:
            return self.list_templates()
        name = walk_template(self.random.randrange(max(1, self.enrolled - 3), self.enrolled + 1))
        block = self.with_permission(MAY_ENROLL)
        if self.happens(0.5):
            self.add_bio(block, RENAME, {1: name, 2: self.random.choice(NAMES)})
        else:
            self.add_bio(block, REMOVE, {1: name})
        return self.add_bio(block, ENUMERATE)

    def list_templates(self) -> Block:
        """Lists the templates, perhaps after a power cycle."""
        if not self.secrets.pin:
            return self.info()
        block = self.power_cycle() if self.happens(0.5) else self.new_block()
        members = {"p3": b"=agreement", "p6": b"=hash:" + self.secrets.pin, "p9": MAY_ENROLL}
        self.get_agreement_key(block).ask(self.pin_request(NEW_TOKEN, **members))
        return self.add_bio(block, ENUMERATE)
