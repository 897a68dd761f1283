"""Asks a device for the features that it supports, so that cases that need others are skipped with a reason."""

from __future__ import annotations

import hashlib
import time
from dataclasses import dataclass, field
from typing import Any, Dict, List, Optional

from hidlog_conformance import answers, ctap_cbor, keys
from hidlog_conformance import hid_packets as hid
from hidlog_conformance.devices import Device
from hidlog_conformance.platform_side import MIN_PIN_LENGTH, PADDED_PIN
from hidlog_conformance.session_file import Session

NONCE = b"offersof"
# Seconds to wait for a response: after the last KEEPALIVE, in total, and for the first response of a run, since the
# command may be starting on a busy machine.
ANSWER, LAST, STARTING = 3.0, 30.0, 10.0


def ask(
    device: Device, channel: int, command: int, data: bytes, seconds: float = ANSWER, until_asked: bool = False
) -> Optional[hid.Message]:
    """Sends a message and returns the response; ignores KEEPALIVEs and packets on other channels. With `until_asked`, a
    KEEPALIVE that asks for user presence is returned, too."""
    for packet in hid.fragment_message(channel, command, data):
        device.send(0, packet)
    return read_message(device, channel, data if command == hid.INIT else b"", seconds, until_asked)


def read_message(
    device: Device, channel: int, nonce: bytes, seconds: float, until_asked: bool
) -> Optional[hid.Message]:
    """Returns the next message on a channel except KEEPALIVE, or None; ignores INIT responses with another nonce."""
    collector = hid.MessageReassembler()
    end = time.monotonic() + seconds
    last = time.monotonic() + LAST
    while True:
        packet = device.read(max(0.0, min(end, last) - time.monotonic()))
        if packet is None or time.monotonic() > last:
            return None
        message = collector.feed(packet) if len(packet) == 64 and packet[:4] == channel.to_bytes(4, "big") else None
        if message is None or (nonce and device.lasting and message.data[:8] != nonce):
            continue
        if message.command != hid.KEEPALIVE or (until_asked and message.data == b"\2"):
            return message
        end = time.monotonic() + seconds


def send_init(device: Device, seconds: float = ANSWER) -> bytes:
    """Sends INIT on the broadcast channel; returns the response's data."""
    device.start()
    answer = ask(device, hid.BROADCAST, hid.INIT, NONCE, seconds)
    if answer is None or answer.command != hid.INIT or len(answer.data) != 17:
        raise OSError(
            "the device does not respond to INIT: "
            + (answer.describe() if answer else "no packet was received; a command must flush each line")
        )
    return answer.data


def reset(device: Device) -> Optional[hid.Message]:
    """Sends authenticatorReset, asks for a touch, and returns the response. Waits longer for INIT, since the device may
    be starting."""
    channel = int.from_bytes(send_init(device, LAST)[8:12], "big")
    answer = ask(device, channel, hid.CBOR, bytes([answers.RESET]), until_asked=True)
    if answer is not None and answer.command == hid.KEEPALIVE:
        device.presence(0, "granted")
        answer = read_message(device, channel, b"", LAST, False)
    return answer


def prepare(device: Device, again: bool) -> str:
    """Resets a device, after a power cycle if it refuses at first; returns the reason of a failure, or an empty string.
    With `again` the device is power cycled afterwards, since the session resets it once more."""
    try:
        answer = reset(device)
        if answer is not None and answer.data == b"\x30" and "power cycle" in device.features:
            device.power_cycle(0)
            answer = reset(device)
        if again and device.lasting and "power cycle" in device.features:
            device.power_cycle(0)
    finally:
        device.close()
    if answer is None or answer.data != b"\0":
        actual = answer.data.hex() if answer else "nothing"
        return f"the device responded to the reset with {actual}: unplug it, plug it in and start with this case"
    return ""


def empty_array() -> Dict[Any, Any]:
    """Returns the parameters that write an empty large-blob array."""
    array = b"\x80" + hashlib.sha256(b"\x80").digest()[:16]
    return {2: array, 3: 0, 4: len(array)}


def list_requests(session: Session) -> List[bytes]:
    """Returns the registrations and sign-ins that a session sends."""
    collector = hid.MessageReassembler(of_host=True)
    messages = [collector.feed(packet) for step in session.steps for _, packet in step.packets]
    whole = [message for message in messages if message is not None and not message.problem]
    return [one.data for one in whole if one.command == hid.CBOR and one.data[:1] in (b"\1", b"\2")]


def decode_parameters(request: bytes) -> Dict[Any, Any]:
    """Returns a request's parameters; empty if they are not a map."""
    try:
        found = ctap_cbor.decode(request[1:])
    except ctap_cbor.CborError:
        return {}
    return dict(found) if isinstance(found, dict) else {}


@dataclass
class DeviceInfo:
    """The features of a device, as it reports them."""

    capabilities: int = 0
    # The highest credProtect level that the device set without a request.
    protection: int = 1
    greeting: bytes = b""
    selects: bool = False
    # Whether CTAPHID_LOCK is supported, for which there is no capability.
    locks: bool = False
    info: Dict[Any, Any] = field(default_factory=dict)
    # Why getInfo could not be read, and whether --display was given.
    unread: str = ""
    display: bool = False
    # Whether --pin was given, so that the user can be verified.
    has_pin: bool = False

    @staticmethod
    def ask(device: Device, touch: bool, display: bool = False) -> DeviceInfo:
        """Sends INIT, authenticatorGetInfo, authenticatorSelection, and LOCK of zero seconds."""
        device_info = DeviceInfo(display=display)
        try:
            device_info.greeting = send_init(device, STARTING)
            device_info.capabilities = device_info.greeting[16]
            channel = int.from_bytes(device_info.greeting[8:12], "big")
            device_info.read_info(ask(device, channel, hid.CBOR, bytes([answers.INFO])))
            answer = ask(device, channel, hid.CBOR, bytes([answers.SELECTION]), until_asked=True)
            device_info.selects = answer is not None and answer.command == hid.KEEPALIVE
            if device_info.selects:
                ask(device, channel, hid.CANCEL, b"", 1.0)
            # A LOCK of zero seconds releases a lock.
            answer = ask(device, channel, hid.LOCK, b"\0")
            device_info.locks = answer is not None and answer.command == hid.LOCK
        finally:
            device.close()
        return device_info

    def read_info(self, answer: Optional[hid.Message]) -> None:
        """Processes the response of authenticatorGetInfo."""
        if answer is None:
            self.unread = "no response to authenticatorGetInfo"
            return
        try:
            self.info = answers.decode_map(answer.data)
        except answers.Mismatch as differs:
            self.unread = (
                f"invalid response to authenticatorGetInfo: expected {differs.expected}; actual: {differs.actual}"
            )

    @property
    def options(self) -> Dict[Any, Any]:
        """Returns getInfo's options."""
        options = self.info.get(4)
        return options if isinstance(options, dict) else {}

    @property
    def versions(self) -> List[Any]:
        """Returns getInfo's versions."""
        versions = self.info.get(1)
        return versions if isinstance(versions, list) else []

    @property
    def extensions(self) -> List[Any]:
        """Returns the extensions that getInfo names."""
        extensions = self.info.get(2)
        return extensions if isinstance(extensions, list) else []

    @property
    def algorithms(self) -> List[int]:
        """Returns the algorithms that getInfo names."""
        entries = self.info.get(10)
        found = [entry.get("alg") for entry in entries if isinstance(entry, dict)] if isinstance(entries, list) else []
        return [number for number in found if isinstance(number, int)]

    @property
    def old(self) -> bool:
        """Returns whether the device supports FIDO_2_0 and no later version, so that CTAP 2.0 applies."""
        return bool(self.versions) and answers.is_before_ctap_2_1(self.versions)

    @property
    def min_pin_length(self) -> int:
        """Returns the minimum length of a PIN in characters: minPINLength of getInfo, or 4."""
        length = self.info.get(0x0D)
        return length if isinstance(length, int) and MIN_PIN_LENGTH <= length < PADDED_PIN else MIN_PIN_LENGTH

    @property
    def protected(self) -> bool:
        """Returns whether a PIN is set or built-in user verification is configured."""
        return self.options.get("clientPin") is True or self.options.get("uv") is True

    def facts(self) -> answers.DeviceFacts:
        """Returns the facts with which responses are compared."""
        aaguid = self.info.get(3)
        return answers.DeviceFacts(
            aaguid=aaguid if isinstance(aaguid, bytes) else b"",
            algorithms=self.algorithms,
            old=self.old,
            display=self.display,
            min_pin_length=self.min_pin_length,
            protection=self.protection,
        )

    def has(self, use: str) -> bool:
        """Returns whether the device supports a feature that a case uses."""
        named = self.has_named(use)
        return self.has_feature(use) if named is None else named

    def has_named(self, use: str) -> Optional[bool]:
        """Returns whether getInfo has the option, member, protocol or extension that a use names; None for others."""
        if use.startswith("pin protocol "):
            protocols = self.info.get(6)
            return isinstance(protocols, list) and int(use.split(" ")[2]) in protocols
        if use.startswith(("option ", "no option ")):
            return (use.split(" ")[-1] in self.options) is use.startswith("option ")
        if use.startswith("minPINLength "):
            return self.min_pin_length <= int(use.split(" ")[1])
        if use.startswith("member "):
            return int(use.split(" ")[1], 16) in self.info
        if use.startswith(("extension ", "no extension ")):
            return (use.split(" ")[-1] in self.extensions) is use.startswith("extension ")
        return None

    def has_feature(self, use: str) -> bool:
        """Returns whether the device supports a feature that is not among those of `has_named`."""
        algorithms = self.algorithms or [-7]
        known = {
            "rk": self.options.get("rk") is True,
            "selection": self.selects,
            "pin": self.options.get("clientPin") is False,
            "pin token": keys.AVAILABLE
            and self.options.get("clientPin") is False
            and self.options.get("pinUvAuthToken") is True,
            "no protection": not self.protected and not self.options.get("alwaysUv"),
            "verified registrations": self.protected and not self.options.get("makeCredUvNotRqd"),
            "uv": self.options.get("uv") is True,
            "uv token": keys.AVAILABLE
            and self.options.get("uv") is True
            and self.options.get("pinUvAuthToken") is True,
            "largeBlobs": self.options.get("largeBlobs") is True,
            "no pin": "clientPin" not in self.options,
            "no uv": self.options.get("uv") is not True,
            "no ep": "ep" not in self.options,
            "no display": not self.display,
            "up": self.options.get("up", True) is True,
            "no algorithm -8": -8 not in algorithms,
            "algorithm -8": -8 in algorithms,
            "algorithm -7": -7 in algorithms,
            "no msg": bool(self.capabilities & 0x08),
            "msg": not self.capabilities & 0x08 and "U2F_V2" in self.versions,
            "wink": bool(self.capabilities & 0x01),
            "no wink": not self.capabilities & 0x01,
            "lock": self.locks,
            "messages of 7609": self.info.get(5, 1024) >= 7609,
            "messages of 2048": self.info.get(5, 1024) >= 2048,
            "credMgmt": self.options.get("credMgmt") is True,
        }
        return bool(known[use])

    def find_unsuited_part(self, session: Session) -> str:
        """Returns the part of a session that the standard lets this device refuse, or an empty string."""
        for request in list_requests(session):
            asked = decode_parameters(request)
            reason = self.too_long(asked.get(5 if request[0] == 1 else 3)) or self.find_refusal_reason(
                request[0], asked, session
            )
            if reason:
                return reason
        return ""

    def too_long(self, listed: Any) -> str:
        """Returns whether a credential list has more entries or longer IDs than the device accepts."""
        if not isinstance(listed, list):
            return ""
        longest = self.info.get(7)
        if isinstance(longest, int) and len(listed) > longest:
            return f"the device's maxCredentialCountInList is {longest}"
        return ""

    def find_refusal_reason(self, command: int, asked: Dict[Any, Any], session: Session) -> str:
        """Returns why the device refuses a request, or an empty string: it requires user verification (CTAP 2.1, 6.1.2,
        steps 6 to 8, and 6.2.2), or does not support discoverable credentials."""
        options = asked.get(7 if command == 1 else 5)
        options = options if isinstance(options, dict) else {}
        discoverable = command == 1 and options.get("rk") is True
        if discoverable and self.options.get("rk") is not True and "touch" in session.needs:
            return "the device does not support: rk"
        has_token = (8 if command == 1 else 6) in asked and {"pin token", "uv token"} & set(session.uses)
        by_device = options.get("uv") is True and self.options.get("uv") is True
        if has_token or by_device or "verified registrations" in session.uses:
            return ""
        if self.requires_verification(command, asked) and not self.has_pin:
            return "the device requires a PIN or user verification (clientPin, uv, alwaysUv): use --pin"
        return ""

    def requires_verification(self, command: int, asked: Dict[Any, Any]) -> bool:
        """Returns whether the device requires user verification for a request."""
        options = asked.get(7 if command == 1 else 5)
        options = options if isinstance(options, dict) else {}
        if self.options.get("alwaysUv"):
            return command == 1 or options.get("up") is not False
        discoverable = options.get("rk") is True
        return command == 1 and self.protected and (discoverable or not self.options.get("makeCredUvNotRqd"))

    def find_skip_reason(self, session: Session, device: Device, touch: bool, reset: bool) -> str:
        """Returns why a case is skipped, or an empty string."""
        for use in session.uses:
            if not self.has(use):
                return f"the device does not support: {use}" + f" ({self.unread})" * bool(self.unread)
        reason = self.find_unsuited_part(session)
        if reason:
            return reason
        for need in session.needs:
            if need == "reset" and not device.fresh and not reset:
                return "needs an authenticator without credentials: use --reset"
            if need == "touch" and not device.virtual and not touch:
                return "needs a touch: use --touch"
            if need not in ("reset", "touch") and need not in device.features:
                return f"not possible with this kind of device: {need}"
        return ""
