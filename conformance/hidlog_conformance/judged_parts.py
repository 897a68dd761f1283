"""Checks extension outputs and responses to authenticatorClientPIN in recorded logs."""

from __future__ import annotations

from dataclasses import dataclass, field
from typing import Any, Dict, List, Optional

from hidlog_conformance import answers, ctap_cbor
from hidlog_conformance.answers import ED, MAKE, MAX_RETRIES, Credential, Mismatch, check
from hidlog_conformance.text import quantity
from hidlog_conformance.requests import decode_parameters

PROTECT, BLOB, SECRET = "credProtect", "credBlob", "hmac-secret"
GET_RETRIES, GET_AGREEMENT, SET_PIN, CHANGE_PIN, GET_TOKEN, TOKENS = 1, 2, 3, 4, 5, (5, 6, 9)
USER_TOKEN, GET_USER_RETRIES = 6, 7
# The number of consecutive wrong PINs after which a power cycle is needed (6.5.5.7).
WRONG_IN_A_ROW = 3
PIN_INVALID, USER_INVALID, POLICY = 0x31, 0x3F, 0x37
# Added to the expectation of a credential that may have been deleted without a packet in the log.
OTHERWISE = "unless it was deleted on the key"


@dataclass
class Pending:
    """Assertions that are pending for authenticatorGetNextAssertion: their number, and the time of the last one."""

    request: bytes
    left: int
    at: int
    channel: int = 0
    # Whether they are certainly still pending, and the credentials that signed.
    is_sure: bool = True
    signed: List[bytes] = field(default_factory=list)
    flags: int = 0


@dataclass
class KnownCredential:
    """A credential that the log shows."""

    credential: Credential
    discoverable: bool
    extensions: Dict[str, Any] = field(default_factory=dict)
    # The user name, if it was changed.
    name: Optional[str] = None
    # The time of the last response that showed that the key has the credential.
    shown: int = 0


class KnownCredentials:
    """The credentials in a log, with indexes by ID, RP and public key."""

    def __init__(self) -> None:
        self.by_id: Dict[bytes, KnownCredential] = {}
        # By RP and ID: discoverable credentials, and those with extensions.
        self.discoverable: Dict[str, Dict[bytes, KnownCredential]] = {}
        self.extended: Dict[str, Dict[bytes, KnownCredential]] = {}
        # By the ID without its last eight bytes, as a number; and by public key.
        self.by_front: Dict[int, Dict[bytes, KnownCredential]] = {}
        self.by_key: Dict[bytes, KnownCredential] = {}

    def add(self, kept: KnownCredential) -> None:
        """Adds a credential."""
        credential = kept.credential
        self.by_id[credential.id] = kept
        self.by_key[ctap_cbor.encode(credential.cose)] = kept
        self.by_front.setdefault(read_id_prefix(credential.id), {})[credential.id] = kept
        if kept.discoverable:
            self.discoverable.setdefault(credential.rp, {})[credential.id] = kept
        if kept.extensions:
            self.extended.setdefault(credential.rp, {})[credential.id] = kept

    def remove(self, identity: bytes) -> None:
        """Removes a credential, if present."""
        kept = self.by_id.pop(identity, None)
        if kept is None:
            return
        self.by_key.pop(ctap_cbor.encode(kept.credential.cose), None)
        self.by_front[read_id_prefix(identity)].pop(identity, None)
        self.discoverable.get(kept.credential.rp, {}).pop(identity, None)
        self.extended.get(kept.credential.rp, {}).pop(identity, None)

    def get(self, identity: Any) -> Optional[KnownCredential]:
        """Returns the credential with an ID, or None."""
        return self.by_id.get(identity)

    def find_similar(self, identity: bytes) -> Dict[bytes, Credential]:
        """Returns the credentials whose ID equals this one or is numerically close, by ID."""
        front = read_id_prefix(identity)
        found = [*self.by_front.get(front - 1, {}).values(), *self.by_front.get(front, {}).values()]
        found += self.by_front.get(front + 1, {}).values()
        return {one.credential.id: one.credential for one in found}

    def list_discoverable(self) -> List[Credential]:
        """Returns the discoverable credentials."""
        return [one.credential for of_rp in self.discoverable.values() for one in of_rp.values()]


def read_id_prefix(identity: bytes) -> int:
    """Returns an ID without its last eight bytes as a number."""
    return int.from_bytes(identity[: max(0, len(identity) - 8)], "big")


def read_credential_id(data: bytes) -> bytes:
    """Returns the credential ID in a registration's response; empty if it is invalid."""
    auth = (decode_parameters(data) or {}).get(2)
    if not isinstance(auth, bytes) or len(auth) <= 55:
        return b""
    return auth[55 : 55 + int.from_bytes(auth[53:55], "big")]


def find_signer(asked: Dict[Any, Any], item: Dict[Any, Any]) -> bytes:
    """Returns the ID of the credential that signed an assertion; empty if unknown."""
    if isinstance(item.get(1), dict) and isinstance(item[1].get("id"), bytes):
        return bytes(item[1]["id"])
    listed = asked.get(3, [])
    return bytes(listed[0]["id"]) if len(listed) == 1 else b""


class ExtensionMismatch(Mismatch):
    """A violation of a section other than the command's, for example an extension's."""

    def __init__(self, section: str, expected: str, actual: str, is_sure: bool = True) -> None:
        super().__init__(expected, actual)
        self.section = section
        # Whether it is a violation even if something happened that the log does not show.
        self.is_sure = is_sure


class UncertainMismatch(Mismatch):
    """A difference that an event outside the log may explain. It is reported as a SHOULD violation."""


def describe_retries(count: Optional[int]) -> str:
    """Describes a number of retries; None counts as 0."""
    return quantity(count or 0, "retry", "retries")


def decode_outputs(auth: bytes) -> Dict[Any, Any]:
    """Returns the extension outputs in authenticator data; empty if they are invalid."""
    if len(auth) < 37 or not auth[32] & ED:
        return {}
    rest = auth[37:]
    if auth[32] & answers.AT:
        _, rest = answers.read_cose_key(auth[55 + int.from_bytes(auth[53:55], "big") :])
    try:
        found = ctap_cbor.decode(rest)
    except ctap_cbor.CborError:
        return {}
    return found if isinstance(found, dict) else {}


def check_extension_outputs(
    command: int, data: bytes, asked: Dict[Any, Any], info: Dict[Any, Any], made: Dict[str, Any]
) -> None:
    """Checks the outputs of the extensions in getInfo; `made` has the extension inputs of the registration."""
    requested = asked.get(6 if command == MAKE else 4, {})
    named = [name for name in info.get(2, []) if name in requested]
    outputs = decode_outputs(answers.decode_map(data)[2])
    for name in named:
        value = requested[name]
        if name == PROTECT and command == MAKE:
            expected = f"credProtect: {value}"
            check_extension("12.1", outputs.get(PROTECT) == value, expected, outputs)
        elif name == SECRET and command == MAKE and value is True:
            check_extension("12.5", isinstance(outputs.get(SECRET), bool), "hmac-secret: true or false", outputs)
        elif name == SECRET and isinstance(value, dict) and isinstance(value.get(2), bytes):
            check_secret(value, outputs, made)
        elif name == BLOB:
            check_blob(command, value, outputs, info, made)


def check_secret(value: Dict[Any, Any], outputs: Dict[Any, Any], made: Dict[str, Any]) -> None:
    """Checks that encrypted secrets have the length of the salts."""
    found = outputs.get(SECRET)
    if not made.get(SECRET):
        return
    check_extension("12.5", isinstance(found, bytes), "an output of the extension hmac-secret", outputs)
    expected = len(value[2])
    check_extension("12.5", len(found or b"") == expected, f"secrets of {expected} bytes, as the salts", outputs)


def check_blob(command: int, value: Any, outputs: Dict[Any, Any], info: Dict[Any, Any], made: Dict[str, Any]) -> None:
    """Checks credBlob: that a blob is stored unless it is too long, and returned unchanged."""
    if command == MAKE and isinstance(value, bytes):
        fits = len(value) <= info.get(15, 32)
        check_extension("12.2", outputs.get(BLOB) is True or not fits, "credBlob: true", outputs)
    elif value is True and isinstance(made.get(BLOB), bytes):
        check_extension("12.2", outputs.get(BLOB) == made[BLOB], f"the blob {made[BLOB].hex()}", outputs)


def check_extension(section: str, condition: bool, expected: str, actual: Any) -> None:
    """Raises `ExtensionMismatch` unless the condition is true."""
    if not condition:
        raise ExtensionMismatch(section, expected, ctap_cbor.to_diagnostic(actual))


@dataclass
class Pins:
    """The state of the PIN that the log shows: whether it is set, its retries, and the last token's permissions."""

    is_set: Optional[bool] = None
    retries: Optional[int] = None
    # The user verification retries left.
    user_retries: Optional[int] = None
    # Consecutive wrong PINs, the key agreement key, and whether a wrong PIN made that key invalid.
    wrong: int = 0
    agreement: Any = None
    is_stale: bool = False
    # The permissions of the last token, and its RP ID; None if unknown.
    permissions: Optional[int] = None
    rp: Optional[str] = None

    def judge(self, request: bytes, data: bytes, may_be_forced: bool) -> None:
        """Checks a response to authenticatorClientPIN. With `may_be_forced`, forcePINChange of getInfo may be true."""
        asked = decode_parameters(request)
        if asked is None or not isinstance(asked.get(2), int):
            return
        kind, status = asked[2], data[0]
        if status == PIN_INVALID and may_be_forced and kind in TOKENS:
            # Either the PIN is wrong, or the PIN is right and must be changed. A right PIN restores the retries.
            self.retries, self.wrong = None, 0
        elif status == PIN_INVALID:
            self.wrong += 1
            self.is_stale = True
            self.retries = None if self.retries is None else self.retries - 1
            check(self.wrong < WRONG_IN_A_ROW, f"status 34 after {WRONG_IN_A_ROW} wrong PINs", "status 31")
        elif status == USER_INVALID and self.user_retries is not None:
            self.user_retries -= 1
        elif status in (0x32, 0x33, 0x34):
            self.retries = None
        elif status == POLICY:
            # The PIN is right, and must be changed, or the new PIN is invalid.
            self.retries, self.wrong = None, 0
        elif status == 0:
            self.take(kind, asked, data)

    def take(self, kind: int, asked: Dict[Any, Any], data: bytes) -> None:
        """Checks a response with status 00."""
        if kind == GET_RETRIES:
            left = answers.get_member(answers.decode_map(data), 3, int, "the retries")
            check(0 <= left <= MAX_RETRIES, f"0 to {MAX_RETRIES} retries", str(left))
            check(self.retries is None or left == self.retries, describe_retries(self.retries), describe_retries(left))
            self.retries = left
        elif kind == GET_USER_RETRIES:
            left = answers.get_member(answers.decode_map(data), 5, int, "the retries")
            check(self.user_retries in (None, left), describe_retries(self.user_retries), describe_retries(left))
            self.user_retries = left
        elif kind == GET_AGREEMENT:
            self.take_agreement(asked, data)
        elif kind == SET_PIN:
            check(not self.is_set, "an error, since a PIN is set", "status 00")
            self.is_set, self.retries, self.wrong = True, None, 0
        elif kind == CHANGE_PIN:
            self.retries, self.wrong = None, 0
        elif kind in TOKENS:
            check(kind == GET_TOKEN or asked.get(9) != 0, "status 02, since no permission is requested", "status 00")
            self.user_retries = None if kind == USER_TOKEN else self.user_retries
            token = answers.get_member(answers.decode_map(data), 2, bytes, "the token")
            lengths = (16, 32) if asked.get(1) == 1 else (48,)
            check(len(token) in lengths, f"an encrypted token of {' or '.join(map(str, lengths))} bytes", token)
            self.retries, self.wrong = None, 0
            self.permissions, self.rp = asked.get(9) if kind != GET_TOKEN else None, asked.get(10)

    def take_agreement(self, asked: Dict[Any, Any], data: bytes) -> None:
        """Checks a key agreement key: its format, and that it is new after a wrong PIN."""
        found = answers.decode_map(data)
        answers.read_agreement_key(found)
        check(not self.is_stale or found.get(1) != self.agreement, "a new key after a wrong PIN", found)
        self.agreement, self.is_stale = found.get(1), False

    def restart(self) -> None:
        """Resets the count of consecutive wrong PINs: the key may have lost power."""
        self.wrong = 0

    def check_info(self, item: Dict[Any, Any]) -> None:
        """Checks clientPin in authenticatorGetInfo."""
        option = item.get(4, {}).get("clientPin")
        if option is not None and self.is_set is not None and option != self.is_set:
            raise ExtensionMismatch("6.5", f"clientPin: {str(self.is_set).lower()}", str(option).lower())
        self.is_set = option if option is not None else self.is_set

    def check_use(self, needed: int, rp: str) -> None:
        """Checks that a token was used only as it permits."""
        if self.permissions is None:
            return
        check(bool(self.permissions & needed), "status 33, since the token lacks the permission", "status 00")
        check(self.rp is None or self.rp == rp, f"status 33, since the token is for {self.rp}", "status 00")
