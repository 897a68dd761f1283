"""Sends the host's side of a session to a device, and reads its responses."""

from __future__ import annotations

import time
from typing import Any, Dict, List, Optional, Set, Tuple

from hidlog_conformance import answers, ctap_cbor
from hidlog_conformance import hid_packets as hid
from hidlog_conformance.answers import Credential, DeviceFacts, Mismatch, check, is_valid_keepalive
from hidlog_conformance.devices import Device
from hidlog_conformance.hid_packets import Message
from hidlog_conformance.check_credential_management import Listing
from hidlog_conformance.live_judge import LiveJudge
from hidlog_conformance.pin_user import PinUser
from hidlog_conformance.platform_side import Platform
from hidlog_conformance.text import quantity
from hidlog_conformance.session_file import Session, Step
from hidlog_conformance.credential_reuse import CredentialReuse, prefix_rp_id
from hidlog_conformance.touch_saver import Sharing

# Expectations that apply to every session.
GOES_ON = "a device that keeps running"
IN_TIME = "the end of the case before its deadline"
# The first of the channels that stand for unallocated ones in sessions.
STRANGE = 0x7EAD0000

# Seconds to wait for the first response, since the device may be starting; for later responses; and for responses that
# need a person's touch. Each KEEPALIVE restarts the wait.
START, ANSWER, PERSON = 30.0, 3.0, 40.0
# The time limit of a case in seconds, beyond its own timestamps; and the maximum number of packets from the device.
CASE_SECONDS, MAX_PACKETS = 60.0, 5000
# The maximum factor by which the time limit of a combined session is longer.
MAX_SHARE = 10
# Seconds to read from a real-time device after a case.
REST = 0.1
# The number of channels that every device has.
MIN_CHANNELS = 4


def rename_handles(apdu: bytes, handles: Dict[bytes, bytes]) -> bytes:
    """Returns a U2F request with the session's key handle replaced by the device's, and its length."""
    for name, handle in handles.items():
        if bytes([len(name)]) + name in apdu:
            data = apdu[7:].replace(bytes([len(name)]) + name, bytes([len(handle)]) + handle)
            return apdu[:5] + len(data).to_bytes(2, "big") + data
    return apdu


def derive_id(kind: str, identity: bytes) -> bytes:
    """Returns an ID that differs slightly from `identity`: its last byte is changed, missing or followed by a zero."""
    if kind == "changed":
        return identity[:-1] + bytes([identity[-1] ^ 1])
    return identity + b"\0" if kind == "longer" else identity[:-1]


class ResponseReader:
    """The state of one session with a device."""

    def __init__(
        self,
        device: Device,
        session: Session,
        strict: bool,
        facts: Optional[DeviceFacts] = None,
        seconds: float = CASE_SECONDS,
        reuse: Optional[CredentialReuse] = None,
        front: str = "",
    ) -> None:
        # Credentials of other cases, and a prefix for RP IDs that separates this case from them.
        self.reuse, self.front = reuse, front
        # The number of reused credentials by request; and the current registration, if others may reuse its credential.
        self.taken: Dict[bytes, int] = {}
        self.keeps = b""
        self.reused: List[Credential] = []
        self.device = device
        self.facts = facts or DeviceFacts()
        self.session = session
        self.strict = strict
        self.platform = Platform(self.facts.min_pin_length)
        self.listing = Listing()
        # Gets tokens with --pin for requests that need them; and whether the last registration or sign-in has a token.
        self.pin_user: Optional[PinUser] = None
        self.has_token = False
        # The credentials and the PIN that the case shares with others, and the number of the current step.
        self.sharing: Optional[Sharing] = None
        self.number = 0
        # The judge of sessions with `expect judged`, and the section that it found violated.
        self.live = LiveJudge(self.platform)
        self.violated = ""
        self.most_retries = 0
        self.user_retries = 0
        # The RP ID hash whose credentials are being enumerated.
        self.listed_rp = b""
        # A combined session has the time and packets of its cases, up to a maximum.
        share = min(session.cases, MAX_SHARE)
        self.max_packets = MAX_PACKETS * share
        self.deadline = time.monotonic() + seconds * share + (session.steps[-1].at if session.steps else 0) / 1000
        # Messages received early, the channels and nonces in use, and whether the device asked for a touch.
        self.early: List[Message] = []
        self.used: Set[int] = {hid.BROADCAST}
        self.nonces: Set[bytes] = set()
        self.asked_user = False
        # Whether the user touched since the last request, and the time of the current step.
        self.touched = False
        self.at = 0
        # The number of packets from the device, and of those for other hosts.
        self.packets = 0
        self.others = 0
        self.allocated: List[int] = []
        # The channels before the last power cycle.
        self.former: List[int] = []
        self.known: Dict[bytes, Credential] = {}
        # The device's IDs of fingerprint templates and U2F key handles, by those of the session.
        self.other_ids: Dict[bytes, bytes] = {}
        # Values for later comparisons: getInfo's numbers by member, the number of samples, and the public keys and
        # counters of U2F registrations by key handle.
        self.numbers: Dict[int, Any] = {}
        self.samples = 0
        self.points: Dict[bytes, bytes] = {}
        self.counters: Dict[bytes, int] = {}
        self.name = b""
        self.sent: Dict[int, Message] = {}
        # The last request by channel and command.
        self.asked: Dict[Tuple[int, int], bytes] = {}
        # By channel, the number of pending requests, and the command of the last message.
        self.working: Dict[int, int] = {}
        self.newest: Dict[int, int] = {}
        self.host = hid.MessageReassembler(of_host=True)
        self.guest = hid.MessageReassembler()
        self.last: Optional[Message] = None
        # The current expectation, and the actual response.
        self.expected = ""
        self.actual: Optional[Message] = None
        # The packets so far, as lines of a log.
        self.log: List[str] = []
        # The last request by channel, and the last request.
        self.requests: Dict[int, bytes] = {}
        self.request = b""
        self.cancelled = False
        self.patience = START
        self.has_answered = False

    def channel(self, number: int) -> int:
        """Returns the device's channel for a channel of the session."""
        if number in (0, hid.BROADCAST):
            return number
        if number <= len(self.allocated):
            return self.allocated[number - 1]
        if not self.allocated and number <= len(self.former):
            return self.former[number - 1]
        strange = STRANGE + number
        return strange if strange not in self.allocated else strange + 0x100

    def do(self, step: Step) -> None:
        """Plays an input."""
        self.at = step.at
        if step.kind != ">":
            self.log.append("# power cycle" if step.kind == "power" else f"t {step.at}")
        if step.kind == ">":
            self.send(step)
        elif step.kind == "power":
            self.restart_device(step.at)
        elif step.kind == "t":
            self.device.tick(step.at)
        elif step.kind == "p":
            self.wait_for_touch_request()
            self.touched = True
            self.patience = PERSON
            self.device.presence(step.at, step.words[0])
        elif step.kind == "k":
            self.name = bytes.fromhex(step.words[0]) if step.words != ["no"] else b""
            self.device.key(step.at, step.words)
        else:
            self.device.signature(step.at, step.words)

    def wait_for_touch_request(self) -> None:
        """Waits until a device in real time asks for a touch; keeps responses that it sends before."""
        if self.device.virtual:
            return
        end = time.monotonic() + ANSWER
        while any(self.working.values()) and not self.asked_user and not self.early:
            message = self.read_message(end - time.monotonic())
            if message is None:
                return
            if not self.is_expected_keepalive(message):
                self.early.append(message)
            end = time.monotonic() + ANSWER

    def restart_device(self, at: int) -> None:
        """Power cycles the device, after which no request is pending."""
        self.device.power_cycle(at)
        self.has_answered = False
        self.former, self.allocated = self.allocated or self.former, []
        self.host, self.guest = hid.MessageReassembler(of_host=True), hid.MessageReassembler()
        self.sent.clear()
        self.working.clear()
        self.newest.clear()
        self.requests.clear()

    def send(self, step: Step) -> None:
        """Sends packets, with the session's channels and credential IDs replaced by the device's."""
        self.patience = ANSWER if self.has_answered else START
        self.asked_user = self.touched = False
        packets = self.rename_ids([packet for _, packet in step.packets])
        for number, packet in enumerate(packets):
            moment = step.packets[min(number, len(step.packets) - 1)][0]
            channel = self.channel(int.from_bytes(packet[:4], "big"))
            packet = channel.to_bytes(4, "big") + packet[4:]
            self.used.add(channel)
            if packet[4] & 0x80:
                self.newest[channel] = packet[4] & 0x7F
            message = self.host.feed(packet)
            if message is not None and not message.problem:
                self.note(message)
            self.log.append(f"> {moment} {packet.hex()}")
            self.device.send(moment, packet)

    def format_recording(self) -> str:
        """Returns the packets so far, as a log with the session's times."""
        return "".join(line + "\n" for line in self.log)

    def note(self, message: Message) -> None:
        """Records a request of the host."""
        self.sent[message.channel] = message
        if message.command == hid.INIT:
            self.nonces.add(message.data)
        self.cancelled = message.command == hid.CANCEL
        if message.command == hid.CBOR:
            self.request = self.requests[message.channel] = message.data
            self.working[message.channel] = self.working.get(message.channel, 0) + 1
            if message.data:
                self.asked[message.channel, message.data[0]] = message.data

    def rename_ids(self, packets: List[bytes]) -> List[bytes]:
        """Replaces the credential IDs of a complete CBOR message by the device's."""
        collector = hid.MessageReassembler()
        messages = [message for message in map(collector.feed, packets) if message]
        if len(messages) != 1 or messages[0].problem or messages[0].command not in (hid.CBOR, hid.MSG):
            return packets
        if messages[0].command == hid.MSG:
            return hid.fragment_message(messages[0].channel, hid.MSG, rename_handles(messages[0].data, self.other_ids))
        data = messages[0].data
        for name, identity in self.find_names(data):
            data = data.replace(ctap_cbor.encode(name), ctap_cbor.encode(identity))
        data = self.platform.fill(data)
        self.live.record_filled(data, self.platform.last_filled)
        data = prefix_rp_id(data, self.front) if self.front else data
        data = self.with_token(messages[0].channel, data)
        if data == messages[0].data:
            return packets
        return hid.fragment_message(messages[0].channel, hid.CBOR, data)

    def use_pin(self, pin_user: Optional[PinUser]) -> None:
        """Plays the session with the PIN of --pin."""
        self.pin_user = pin_user
        self.platform.user_pin = pin_user.pin if pin_user is not None else b""

    def with_token(self, number: int, data: bytes) -> bytes:
        """Returns a request with a token of --pin, if it needs one and the device is not busy."""
        if self.sharing is not None:
            channel = self.channel(number)
            found = self.sharing.with_token(self.number, data, lambda request: self.exchange(channel, request))
            self.has_token = found != data if data[:1] == bytes([answers.MAKE]) else self.has_token
            return found
        if self.pin_user is None or any(self.working.values()) or any(map(self.pin_user.sets_pin, self.session.steps)):
            return data
        channel = self.channel(number)
        found, has_token = self.pin_user.add_token(data, lambda request: self.exchange(channel, request))
        if data[:1] in (bytes([answers.MAKE]), bytes([answers.GET])):
            self.has_token = has_token
        return found

    def exchange(self, channel: int, request: bytes) -> bytes:
        """Sends a request of the runner itself, and returns the response."""
        self.used.add(channel)
        for packet in hid.fragment_message(channel, hid.CBOR, request):
            self.log.append(f"> {self.at} {packet.hex()}")
            self.device.send(self.at, packet)
        while True:
            message = self.read_message(ANSWER)
            check(message is not None, "a response to authenticatorClientPIN", self.describe_silence())
            if message is not None and message.channel == channel and message.command == hid.CBOR:
                return message.data

    def find_names(self, data: bytes) -> List[Tuple[bytes, bytes]]:
        """Returns the session's IDs in a request, including derived ones, each with the device's."""
        found = [(name, credential.id) for name, credential in self.known.items() if name in data]
        found += [(name, identity) for name, identity in self.other_ids.items() if name in data]
        for name, (kind, origin) in self.session.derived.items():
            if origin in self.known and name in data:
                found.append((name, derive_id(kind, self.known[origin].id)))
        return found

    def is_expected_keepalive(self, message: Message) -> bool:
        """Returns whether a message is a valid KEEPALIVE of a pending request."""
        if message.command != hid.KEEPALIVE or message.problem or not self.working.get(message.channel):
            return False
        return is_valid_keepalive(message.data)

    def read_message(self, seconds: float) -> Optional[Message]:
        """Returns the next message of the device."""
        if self.early:
            self.actual = self.early.pop(0)
            return self.actual
        end = min(time.monotonic() + seconds, self.deadline)
        self.actual = None
        while self.actual is None:
            packet = self.device.read(max(0.0, end - time.monotonic()))
            self.check_deadline()
            if packet is None:
                return None
            self.packets += 1
            self.log.append("< " + packet.hex())
            check(self.packets <= self.max_packets, IN_TIME, f"more than {self.max_packets} packets")
            if self.is_for_others(packet):
                self.others += 1
                continue
            self.actual = self.guest.feed(packet)
        self.asked_user = self.asked_user or (self.actual.command == hid.KEEPALIVE and self.actual.data == b"\2")
        return self.actual

    def check_deadline(self) -> None:
        """Raises an exception once the deadline is over."""
        if not self.device.virtual and time.monotonic() >= self.deadline:
            actual = "KEEPALIVEs without a response" if self.asked_user else "no end"
            raise Mismatch(IN_TIME, f"{actual} after {quantity(self.packets, 'packet')}")

    def is_for_others(self, packet: bytes) -> bool:
        """Returns whether a packet is for another host of a shared device."""
        if not self.device.lasting or len(packet) != 64:
            return False
        channel = int.from_bytes(packet[:4], "big")
        if channel == hid.BROADCAST and packet[4] == 0x80 | hid.INIT:
            return packet[7:15] not in self.nonces
        return channel not in self.used and channel not in self.allocated

    def describe_silence(self) -> str:
        """Describes a missing response."""
        if not self.others:
            return "nothing"
        return f"nothing (skipped {quantity(self.others, 'packet')} for other hosts)"

    def read_response(self, expected: str) -> Message:
        """Returns the next message that is not an expected KEEPALIVE."""
        end = time.monotonic() + self.patience
        while True:
            message = self.read_message(end - time.monotonic())
            if message is None:
                raise Mismatch(expected, self.describe_silence())
            if self.is_expected_keepalive(message):
                if message.data == b"\1" or self.touched:
                    end = max(end, time.monotonic() + ANSWER)
                elif self.may_touch_first(expected):
                    self.touch()
                continue
            self.last = message
            self.has_answered = True
            self.count(message)
            check(not message.problem, expected, message.describe())
            return message

    def may_touch_first(self, expected: str) -> bool:
        """Returns whether a device may ask for a touch before the response: the expectation allows it, or the device
        supports only FIDO_2_0 and has no credential."""
        if expected.endswith(" or touch") or expected.startswith("judged"):
            return True
        return self.facts.old and not self.strict and expected.startswith("status 2e") and self.request[:1] == b"\2"

    def touch(self) -> None:
        """Passes on a touch of the user."""
        self.touched = True
        self.patience = PERSON
        self.device.presence(self.at, "granted")
        self.device.provide(self.at)

    def count(self, message: Message) -> None:
        """Counts a channel's pending requests."""
        left = self.working.get(message.channel, 0)
        if message.command == hid.INIT:
            left = 0
        elif message.command == hid.CBOR or (
            message.command == hid.ERROR and self.newest.get(message.channel) == hid.CBOR
        ):
            left = max(0, left - 1)
        self.working[message.channel] = left
