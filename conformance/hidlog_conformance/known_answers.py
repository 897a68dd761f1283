"""Checks responses against the secrets of the host, which packets do not show: PINs, tokens, and decrypted values."""

from __future__ import annotations

from dataclasses import dataclass
from typing import Any, Dict, Optional, Set, Tuple

from hidlog_conformance import ctap_cbor, rules
from hidlog_conformance import hid_packets as hid
from hidlog_conformance.answers import GET, MAKE, MAX_RETRIES, RESET, UV, Mismatch, read_cose_key
from hidlog_conformance.judged_answers import AnswerJudge
from hidlog_conformance.judged_log import KEY, JudgedRecording
from hidlog_conformance.judged_parts import (
    CHANGE_PIN,
    GET_AGREEMENT,
    GET_RETRIES,
    GET_TOKEN,
    POLICY,
    SET_PIN,
    TOKENS,
    USER_TOKEN,
    WRONG_IN_A_ROW,
    KnownCredential,
    read_credential_id,
)
from hidlog_conformance.judged_settings import CONFIG
from hidlog_conformance.judged_statuses import EXCLUDED, NO_CREDENTIALS
from hidlog_conformance.platform_side import FilledValues, Platform
from hidlog_conformance.text import quantity
from hidlog_conformance.requests import PIN, decode_parameters
from hidlog_conformance.transactions import Entry, Transaction

PIN_INVALID, PIN_BLOCKED, AUTH_INVALID, AUTH_BLOCKED, NOT_SET = 0x31, 0x32, 0x33, 0x34, 0x35
# Permissions mc and ga (6.5.5.7).
MAKES, GETS = 1, 2
# Milliseconds for which a token is certainly valid. The initial usage time limit is 30 seconds for USB (6.5.2.1).
FRESH = 20000
VECTOR = 16


@dataclass
class Token:
    """The valid token: its index in `Platform.tokens`, its permissions, its RP ID, and the time at which it was
    issued."""

    index: int
    permissions: int
    rp: Optional[str]
    at: int
    # Whether the packets show that it is still valid.
    is_sure: bool = True


class Secrets:
    """The device's PIN and token, as the host knows them. `pin` is None if it is unknown, and empty if no PIN is
    set."""

    def __init__(self, most: int = MAX_RETRIES) -> None:
        self.pin: Optional[bytes] = None
        # The PIN before the last change. Empty if there was none.
        self.former = b""
        # The maximum number of PIN retries, and the number of retries left.
        self.most = self.retries = most
        self.in_a_row = 0
        self.token: Optional[Token] = None

    def use(self, pin: bytes) -> int:
        """Records the use of a PIN; returns the expected status (6.5.5.7)."""
        if not self.pin:
            return NOT_SET
        if not self.retries:
            return PIN_BLOCKED
        if self.in_a_row >= WRONG_IN_A_ROW:
            return AUTH_BLOCKED
        if pin == self.pin:
            self.retries, self.in_a_row = self.most, 0
            return 0
        self.retries, self.in_a_row = self.retries - 1, self.in_a_row + 1
        if not self.retries:
            return PIN_BLOCKED
        return AUTH_BLOCKED if self.in_a_row >= WRONG_IN_A_ROW else PIN_INVALID


class KnownAnswers(AnswerJudge):
    """Checks the responses of a device that no other host uses, so that the device's state is known."""

    def __init__(self, recording: JudgedRecording, platform: Platform) -> None:
        super().__init__(recording)
        self.platform = platform
        self.secrets = Secrets()
        self.filled: Dict[bytes, FilledValues] = {}
        # Values that must never repeat, by kind; whether the maximum of PIN retries is known; the last key agreement
        # key.
        self.values: Dict[str, Set[bytes]] = {}
        self.knows_retries = False
        self.shared: bytes = b""
        # The minimum PIN length, and whether the PIN must be changed, before the last response. None is unknown.
        self.length: Optional[int] = None
        self.is_forced: Optional[bool] = None

    def is_recent(self, at: int, transaction: Transaction) -> bool:
        """Returns True, since only this host deletes credentials and changes settings."""
        return True

    def power_cycle(self, at: int) -> None:
        """Processes a power cycle: the PIN and its retries stay, the token and the key agreement key do not."""
        super().power_cycle(at)
        self.secrets.in_a_row, self.secrets.token = 0, None
        if self.shared:
            self.values.setdefault("key agreement key", set()).add(self.shared)
        self.shared = b""

    def add_known_finding(self, entry: Entry, command: int, expected: str, actual: str) -> None:
        """Adds a finding that depends on the host's secrets."""
        self.recording.add_finding(entry.line, KEY, rules.COMMANDS[command], expected, actual)

    def judge(self, entry: Entry, transaction: Transaction, message: hid.Message) -> None:
        """Checks a response."""
        was_old, self.length, self.is_forced = self.facts.old, self.settings.length, self.settings.is_forced
        super().judge(entry, transaction, message)
        request, data = transaction.data, message.data
        filled = self.filled.pop(request, FilledValues())
        asked = decode_parameters(request) or {}
        try:
            if request[0] == PIN:
                self.check_pin(entry, asked, filled, data)
            elif request[0] in (MAKE, GET):
                self.check_token_use(entry, transaction, filled, data)
            elif request[0] == CONFIG and data[0] == 0 and self.secrets.token is not None:
                # setMinPINLength may invalidate the token.
                self.secrets.token.is_sure = False
            if request[0] == MAKE and data[0] == 0:
                self.check_new(entry, MAKE, "credential ID", read_credential_id(data))
                auth = (decode_parameters(data) or {})[2]
                cose, _ = read_cose_key(auth[55 + int.from_bytes(auth[53:55], "big") :])
                self.check_new(entry, MAKE, "key pair", ctap_cbor.encode(cose))
        except (KeyError, TypeError, ValueError, IndexError, Mismatch):
            # `super().judge` has reported the wrong structure.
            pass
        if request[0] == RESET and data[0] == 0:
            self.secrets = Secrets(self.secrets.most)
            self.secrets.pin = b""
        if was_old != self.facts.old:
            self.secrets.token = None

    def check_new(self, entry: Entry, command: int, kind: str, value: bytes) -> None:
        """Checks that a value is new, also since before power cycles and resets."""
        if value in self.values.setdefault(kind, set()):
            self.add_known_finding(entry, command, f"a new {kind}", value.hex())
        self.values[kind].add(value)

    # authenticatorClientPIN (6.5).

    def check_pin(self, entry: Entry, asked: Dict[int, Any], filled: FilledValues, data: bytes) -> None:
        """Checks a response to authenticatorClientPIN."""
        kind, status = asked.get(2), data[0]
        if kind == GET_AGREEMENT and status == 0:
            key = ctap_cbor.encode((decode_parameters(data) or {})[1])
            if key in self.values.get("key agreement key", set()):
                self.add_known_finding(entry, PIN, "a new key agreement key after a power cycle", key.hex())
            self.shared = key
        if self.secrets.pin is None or kind == USER_TOKEN:
            return
        if kind == GET_RETRIES and status == 0 and self.secrets.pin:
            self.check_retries(entry, (decode_parameters(data) or {})[3])
        elif kind == SET_PIN and status == 0 and not self.secrets.pin:
            self.secrets.pin = filled.new_pin
        elif kind in (CHANGE_PIN, *TOKENS) and filled.pin is not None:
            self.check_used(entry, kind, filled, status)
            if kind == CHANGE_PIN and status == 0:
                self.secrets.former = self.secrets.pin or b""
                self.secrets.pin, self.secrets.token = filled.new_pin, None
            elif kind in TOKENS and status == 0:
                self.take_token(entry, asked, data)

    def check_retries(self, entry: Entry, left: int) -> None:
        """Checks the PIN retries; a device may have fewer than eight."""
        secrets = self.secrets
        if not self.knows_retries and secrets.retries == secrets.most:
            secrets.most = secrets.retries = left
            self.knows_retries = True
        if self.knows_retries and left != secrets.retries:
            words = [quantity(number, "retry", "retries") for number in (secrets.retries, left)]
            self.add_known_finding(entry, PIN, words[0] + ", also after a power cycle", words[1])

    def check_used(self, entry: Entry, kind: int, filled: FilledValues, status: int) -> None:
        """Checks the status of a request with a PIN."""
        pin = self.secrets.pin
        due = self.secrets.use(filled.pin or b"")
        allowed: Tuple[int, ...] = (due,)
        why = "the PIN is right" if filled.pin == pin else "the PIN is wrong" if pin else "no PIN is set"
        if not due:
            allowed, why = self.expect_after_right_pin(kind, filled)
        if status in allowed or (due and status and not self.knows_retries):
            return
        self.add_known_finding(entry, PIN, f"status {allowed[0]:02x}, since {why}", f"status {status:02x}")

    def expect_after_right_pin(self, kind: int, filled: FilledValues) -> Tuple[Tuple[int, ...], str]:
        """Returns the possible statuses of a request with the right PIN, and why: the PIN may have to be changed, or
        the new one may be too short (6.5.5.6, 6.5.5.7)."""
        why, policy = "the PIN is right", (POLICY, PIN_INVALID) if kind == GET_TOKEN else (POLICY,)
        if kind == CHANGE_PIN:
            is_same, length = filled.new_pin == self.secrets.pin, len(
                (filled.new_pin or b"").decode("utf-8", "replace")
            )
            if self.length is not None and length < self.length:
                return policy, f"a PIN has at least {self.length} characters"
            if is_same and self.is_forced:
                return policy, "the PIN must be changed"
            return ((0, *policy) if self.length is None or (is_same and self.is_forced is None) else (0,)), why
        if self.is_forced:
            return policy, "the PIN must be changed first"
        return ((0, *policy) if self.is_forced is None else (0,)), why

    def take_token(self, entry: Entry, asked: Dict[int, Any], data: bytes) -> None:
        """Checks a new token and the initialization vector of its encryption, and records the token."""
        encrypted = (decode_parameters(data) or {})[2]
        if asked.get(1) == 2:
            vector = encrypted[:VECTOR]
            if not any(vector):
                self.add_known_finding(entry, PIN, "a random initialization vector", vector.hex())
            self.check_new(entry, PIN, "initialization vector", vector)
        if not self.facts.old:
            self.check_new(entry, PIN, "pinUvAuthToken", self.platform.decrypt(encrypted))
        permissions = MAKES | GETS if asked[2] == GET_TOKEN else asked[9]
        self.secrets.token = Token(len(self.platform.tokens), permissions, asked.get(10), entry.at)

    # pinUvAuthParam (6.1.2, step 11; 6.2.2, step 6).

    def check_token_use(self, entry: Entry, transaction: Transaction, filled: FilledValues, data: bytes) -> None:
        """Checks the status of a request with pinUvAuthParam, and flag UV."""
        request, status, asked = transaction.data, data[0], decode_parameters(transaction.data) or {}
        makes = request[0] == MAKE
        if filled.token is None or self.secrets.pin is None:
            if self.secrets.token is not None and status == 0:
                # The user presence test of another request may clear the token's permissions.
                self.secrets.token.is_sure = False
            self.check_unverified(entry, request, asked, data)
            return
        rp = asked[2]["id"] if makes else asked[1]
        why, is_sure = self.find_token_fault(filled, MAKES if makes else GETS, rp, transaction.last)
        if why and status in (0, EXCLUDED, NO_CREDENTIALS):
            self.add_known_finding(entry, request[0], f"status 33, since {why}", f"status {status:02x}")
        elif not why and status in (PIN_INVALID, AUTH_INVALID) and is_sure:
            self.add_known_finding(
                entry, request[0], "no such error, since the token permits this", f"status {status:02x}"
            )
        elif not why and status == 0:
            auth = (decode_parameters(data) or {})[2]
            if not auth[32] & UV:
                self.add_known_finding(entry, request[0], "flag UV set", f"flags {auth[32]:02x}")
        self.record_use(asked, makes, rp, status)

    def check_unverified(self, entry: Entry, request: bytes, asked: Dict[int, Any], data: bytes) -> None:
        """Checks that flag UV is not set without pinUvAuthParam, if the device has no other user verification."""
        if data[0] or not self.info or self.info.get(4, {}).get("uv") or {6, 8} & set(asked):
            return
        auth = (decode_parameters(data) or {})[2]
        if auth[32] & UV:
            self.add_known_finding(entry, request[0], "flag UV not set", f"flags {auth[32]:02x}")

    def find_token_fault(self, filled: FilledValues, needed: int, rp: str, now: int) -> Tuple[str, bool]:
        """Returns why the device must refuse pinUvAuthParam, or an empty string, and whether the result is certain."""
        token = self.secrets.token
        if not filled.is_whole:
            return "pinUvAuthParam is truncated", True
        if token is None or filled.token != token.index:
            return "the token is not valid any more", True
        if token.rp is not None and token.rp != rp:
            return f"the token is for {token.rp}", True
        if not token.permissions & needed:
            return "the token lacks the permission, or was used before", True
        return "", token.is_sure and now - token.at < FRESH

    def record_use(self, asked: Dict[int, Any], makes: bool, rp: str, status: int) -> None:
        """Records the use of the token: a user presence test takes all permissions but lbw (6.1.2, step 14; 6.2.2, step
        9) of a device with CTAP 2.1."""
        token = self.secrets.token
        if token is None:
            return
        if status:
            token.is_sure = False
            return
        token.rp = rp if token.rp is None else token.rp
        if not self.facts.old and (makes or asked.get(5, {}).get("up", True)):
            token.permissions = 0
