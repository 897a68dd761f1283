"""Checks the responses to CBOR requests in a recorded log, also against earlier packets of the log."""

from __future__ import annotations

from typing import Any, Dict, List, Optional, Set, Tuple

from hidlog_conformance import answers, ctap_cbor, rules
from hidlog_conformance import hid_packets as hid
from hidlog_conformance.answers import GET, INFO, MAKE, NEXT, RESET, UP, UV, Credential, Mismatch, DeviceFacts, check
from hidlog_conformance.judged_log import KEY, MUST, SHOULD, JudgedRecording, make_difference
from hidlog_conformance.judged_parts import (
    OTHERWISE,
    ExtensionMismatch,
    KnownCredential,
    KnownCredentials,
    Pending,
    Pins,
    UncertainMismatch,
    check_extension_outputs,
    find_signer,
    read_credential_id,
)
from hidlog_conformance.judged_settings import BIO, CONFIG, SettingsJudge
from hidlog_conformance.judged_statuses import NOT_ALLOWED, StatusJudge
from hidlog_conformance.judged_stored import (
    BLOB_KEY,
    BLOBS,
    DELETE,
    MANAGE,
    PREVIEW,
    UPDATE,
    StoredJudge,
    named_credential_id,
)
from hidlog_conformance.judged_u2f import U2fJudge
from hidlog_conformance.requests import PIN, find_fault, decode_parameters
from hidlog_conformance.transactions import Entry, Transaction

# Minimum time, in milliseconds, of a change that the log does not show, such as a deletion of a credential on the key
# itself or through NFC.
MIN_UNLOGGED_CHANGE_MS = 1000
SETTINGS = (BIO, CONFIG)
EXPECTED = {MAKE: "made", GET: "asserted", NEXT: "asserted", INFO: "info"}


def describe_error(fault: Exception) -> str:
    """Describes the unexpected structure of a response."""
    return f"no member {ctap_cbor.to_diagnostic(fault.args[0])}" if isinstance(fault, KeyError) else "another structure"


class AnswerJudge:
    """Checks responses to CBOR requests, in order."""

    def __init__(self, recording: JudgedRecording) -> None:
        self.recording = recording
        # CTAP 2.0 applies until getInfo has the version FIDO_2_1.
        self.facts = DeviceFacts(old=True)
        self.info: Dict[Any, Any] = {}
        self.kept = KnownCredentials()
        self.forgotten: Set[bytes] = set()
        self.replaced: Set[bytes] = set()
        # Credentials that were registered before the log began, with their last counters.
        self.strangers: Dict[Tuple[str, bytes], Credential] = {}
        self.pending: Optional[Pending] = None
        self.pins = Pins()
        self.stored = StoredJudge()
        self.settings = SettingsJudge()
        self.u2f = U2fJudge()
        self.statuses = StatusJudge(self)
        # Whether the log shows all credentials of the key, because it shows a reset.
        self.is_complete = False
        # Whether the key has no display to select accounts on, as numberOfCredentials in a response shows.
        self.no_display = False
        # The time of the last power cycle.
        self.powered: Optional[int] = None
        self.passed_over = ""
        # The request and getInfo for which `find_touch_fault` was called last, and the result.
        self.touch_request: bytes = b""
        self.touch_info: Dict[Any, Any] = self.info
        self.touch_fault: Optional[Tuple[str, str, str]] = None

    def power_cycle(self, at: int) -> None:
        """Resets the state that a power cycle clears."""
        self.pending = Pending(b"", 0, 0)
        self.pins.retries, self.pins.wrong = None, 0
        self.stored.power_cycle()
        self.settings.power_cycle()
        self.powered = at

    def restart(self, at: int, is_likely: bool) -> None:
        """Handles the possibility that the key was unplugged and plugged in again. `is_likely`: the key allocated a
        channel ID for the second time."""
        self.powered = at
        self.pins.restart()
        if is_likely:
            self.pending, self.pins.retries = None, None
            self.stored.coming = None
            self.settings.power_cycle()

    def take_unreadable(self, transaction: Transaction) -> None:
        """Handles an unreadable response, whose effects are unknown."""
        self.pending, self.is_complete = None, False
        self.pins, self.stored, self.settings = Pins(), StoredJudge(), SettingsJudge()

    def take_unanswered(self, transaction: Transaction) -> None:
        """Handles a request without a readable response, whose effects are unknown."""
        if transaction.command == hid.MSG:
            self.is_complete = False
        if transaction.command != hid.CBOR or not transaction.data or self.recording.is_cut(transaction):
            return
        request = transaction.data
        asked = decode_parameters(request) or {}
        if request[0] == RESET:
            self.kept, self.strangers, self.u2f = KnownCredentials(), {}, U2fJudge()
            self.take_unreadable(transaction)
        elif request[0] in (MAKE, PIN, MANAGE, PREVIEW, BLOBS, *SETTINGS):
            self.take_unreadable(transaction)
            if request[0] == MAKE and find_fault(request) is None:
                self.forget_account(asked[2]["id"], asked[3]["id"])
            elif request[0] in (MANAGE, PREVIEW) and asked.get(1) in (DELETE, UPDATE):
                self.kept.remove(named_credential_id(asked))
        elif request[0] in (GET, NEXT):
            self.pending = None

    def forget_account(self, rp: str, user: bytes) -> None:
        """Removes the discoverable credential of an account, since it may have been replaced."""
        for name, one in list(self.kept.discoverable.get(rp, {}).items()):
            if one.credential.user == user:
                self.kept.remove(name)

    def take_u2f(self, transaction: Transaction, data: bytes) -> None:
        """Checks a U2F response: a registration makes a credential without a known RP ID."""
        request = transaction.data
        if request[1:2] == b"\1" and data[-2:] == b"\x90\x00":
            self.is_complete = False
        is_sure = self.is_recent(self.u2f.find_last_response(request), transaction)
        self.u2f.judge(request, data, transaction.last, is_sure)

    def is_recent(self, at: int, transaction: Transaction) -> bool:
        """Returns whether the state that a response showed at time `at` still holds. Changes that the log does not show
        take at least MIN_UNLOGGED_CHANGE_MS."""
        return not self.recording.has_no_timestamps and transaction.last - at < MIN_UNLOGGED_CHANGE_MS

    def is_fresh(self, kept: KnownCredential, transaction: Transaction) -> bool:
        """Returns whether a response showed the credential so recently that it cannot have been deleted since."""
        return self.is_recent(kept.shown, transaction)

    def check_touch_request(self, entry: Entry, transaction: Transaction) -> None:
        """Checks that no touch is requested for a request that must fail first or needs no user presence."""
        request = transaction.data
        if request is not self.touch_request or self.info is not self.touch_info:
            self.touch_request, self.touch_info = request, self.info
            self.touch_fault = self.find_touch_fault(request) if request else None
        if self.touch_fault is not None:
            section, expected, level = self.touch_fault
            self.recording.add_finding(entry.line, KEY, section, expected, "a touch is requested", level)

    def find_touch_fault(self, request: bytes) -> Optional[Tuple[str, str, str]]:
        """Returns why no touch may be requested for a request, if so: the section, the expected response, the level."""
        fault, command = find_fault(request), request[0]
        section = rules.COMMANDS.get(command, rules.COMMANDS_OTHER)
        if fault is not None and not fault.should:
            level = SHOULD if fault.section == "8" else MUST
            return fault.section or section, f"an error, since {fault.expected} is required", level
        if command not in (MAKE, GET):
            return None
        asked = decode_parameters(request) or {}
        options, own = asked.get(7 if command == MAKE else 5, {}), self.info.get(4, {})
        wrong = self.statuses.find_invalid_option(command, asked, options)
        if wrong:
            return section, f"an error (2b or 2c) for the option {wrong}", MUST
        if command == GET and options.get("up") is False and self.info and not own.get("alwaysUv"):
            return (section, "a response without a touch, since up is false", MUST) if not options.get("uv") else None
        if command == MAKE and 10 in asked and self.statuses.lacks_enterprise():
            return section, "an error, since enterprise attestation is not supported", MUST
        return None

    def judge(self, entry: Entry, transaction: Transaction, message: hid.Message) -> None:
        """Checks a response."""
        request, data = transaction.data, message.data
        command = request[0]
        expected = EXPECTED.get(command, "status") if data[0] == 0 else "status"
        try:
            self.statuses.check_status(entry, transaction, data)
            if command in EXPECTED and data[0] == 0:
                getattr(self, "check_" + EXPECTED[command])(transaction, data)
            if command == PIN:
                self.check_pin_response(request, data)
            elif command in (MANAGE, BLOBS):
                self.check_stored(transaction, data)
            elif command == PREVIEW:
                self.take_preview(request, data)
            elif command in SETTINGS:
                self.check_settings(request, data)
        except ExtensionMismatch as differs:
            level = MUST if differs.is_sure else SHOULD
            self.recording.add_finding(entry.line, KEY, differs.section, differs.expected, differs.actual, level)
        except Mismatch as differs:
            fault = find_fault(request)
            is_should = isinstance(differs, UncertainMismatch) or (fault is not None and fault.section == "8")
            level = SHOULD if is_should else MUST
            self.recording.add_mismatch(
                self.make_difference(transaction, expected, message), entry.line, differs, level
            )
        except (KeyError, TypeError, ValueError, IndexError, AttributeError) as fault:
            shape = Mismatch("a response with the standard's structure", describe_error(fault))
            self.recording.add_mismatch(self.make_difference(transaction, expected, message), entry.line, shape)
        self.record_effects(entry, transaction, data)

    def check_pin_response(self, request: bytes, data: bytes) -> None:
        """Checks a response to authenticatorClientPIN."""
        asked = decode_parameters(request) or {}
        self.settings.check_issued(asked, data[0])
        self.pins.judge(request, data, self.may_be_forced())

    def may_be_forced(self) -> bool:
        """Returns whether forcePINChange may be true, in which case the key issues no token until the PIN is changed.
        The result is False if getInfo or the version shows that it is not."""
        return self.settings.is_forced or (self.settings.is_forced is None and not self.facts.old)

    def check_settings(self, request: bytes, data: bytes) -> None:
        """Checks a response to authenticatorConfig or authenticatorBioEnrollment, after which getInfo may differ."""
        info = self.info
        if data[0] == 0:
            self.info = {}
        self.settings.judge(decode_parameters(request) or {}, request, data, self.pins, info)

    def check_stored(self, transaction: Transaction, data: bytes) -> None:
        """Checks a response to credential management or large blobs. The key may have fewer credentials than the
        log."""
        stored = [one for of_rp in self.kept.discoverable.values() for one in of_rp.values()]
        try:
            self.stored.judge(transaction.data, data, self.kept, self.pins, self.info)
        except Mismatch as differs:
            if transaction.data[0] != MANAGE or all(self.is_fresh(one, transaction) for one in stored):
                raise
            raise UncertainMismatch(differs.expected, differs.actual) from None

    def take_preview(self, request: bytes, data: bytes) -> None:
        """Processes a response to authenticatorCredentialManagementPreview: deletions and changes."""
        asked = decode_parameters(request)
        if asked is None or data[0] != 0 or asked.get(1) not in (DELETE, UPDATE):
            return
        if asked[1] == DELETE:
            self.stored.deleted.add(named_credential_id(asked))
            self.kept.remove(named_credential_id(asked))

    def make_difference(self, transaction: Transaction, expected: str, message: hid.Message) -> rules.Difference:
        """Returns the difference between the expected and the actual response. It names the section of CTAP 2.1 that
        defines the request's error, or else the command."""
        fault = find_fault(transaction.data)
        own = fault.section if fault is not None and fault.section else ""
        if self.passed_over:
            own, self.passed_over = "8", ""
        return make_difference(transaction, expected, message, own)

    def check_info(self, transaction: Transaction, data: bytes) -> None:
        """Checks authenticatorGetInfo, and keeps its contents."""
        item = answers.check_get_info_response(data)
        self.info = item
        self.facts.aaguid = item[3]
        self.facts.algorithms = [one["alg"] for one in item.get(10, [])]
        self.facts.old = answers.is_before_ctap_2_1(item[1])
        self.pins.check_info(item)
        self.settings.check_info(item, self.is_recent(self.settings.shown, transaction), transaction.last)

    def check_made(self, transaction: Transaction, data: bytes) -> None:
        """Checks a registration, and keeps its credential."""
        request = transaction.data
        words = ["up"] + (["no-uv"] if self.has_no_verification(request) else [])
        if answers.decode_parameters(request).get(8):
            words.append("uv")
        made = answers.check_make_credential_response(
            data, request, words, self.kept.find_similar(read_credential_id(data)), self.facts
        )
        check(ctap_cbor.encode(made.cose) not in self.kept.by_key, "a new key pair", made.cose)
        asked = answers.decode_parameters(request)
        check_extension_outputs(MAKE, data, asked, self.info, {})
        self.replace(made, asked)
        if self.recording.has_lost:
            self.is_complete = False
        extensions = {name: value for name, value in asked.get(6, {}).items()}
        kept = KnownCredential(made, bool(asked.get(7, {}).get("rk")), extensions)
        kept.shown = transaction.last
        self.kept.add(kept)
        self.settings.made += kept.discoverable
        self.stored.check_key(data, self.select_supported_extensions(extensions), made.id, 5, True)
        self.check_setting_use(transaction, asked, data)
        answers.check_certificate(answers.decode_map(data))

    def check_setting_use(self, transaction: Transaction, asked: Dict[Any, Any], data: bytes) -> None:
        """Checks the effects of settings on a registration or sign-in, if the key supports CTAP 2.1."""
        if not self.facts.old:
            is_sure = self.is_recent(self.settings.shown, transaction)
            self.settings.check_use(transaction.data, asked, data, is_sure)

    def select_supported_extensions(self, extensions: Dict[str, Any]) -> Dict[str, Any]:
        """Returns those of the extensions that getInfo names."""
        return {name: value for name, value in extensions.items() if name in self.info.get(2, [])}

    def replace(self, made: Credential, asked: Dict[Any, Any]) -> None:
        """Removes the discoverable credential that a new one of the same RP and user replaces."""
        if not asked.get(7, {}).get("rk"):
            return
        for name, one in list(self.kept.discoverable.get(made.rp, {}).items()):
            if one.credential.user == made.user:
                self.replaced.add(name)
                self.kept.remove(name)

    def has_no_verification(self, request: bytes) -> bool:
        """Returns whether the key cannot have verified the user: it has no built-in user verification, and the request
        has no pinUvAuthParam."""
        asked = answers.decode_parameters(request)
        return bool(self.info) and not self.info.get(4, {}).get("uv") and not {8, 6} & set(asked)

    def check_asserted(self, transaction: Transaction, data: bytes) -> None:
        """Checks an assertion. The signature is not checked if the log does not have the credential's registration."""
        follows = transaction.data[0] == NEXT
        request = self.pending.request if follows and self.pending else transaction.data
        if not request or request[0] != GET:
            return
        asked = answers.decode_parameters(request)
        item = answers.decode_map(data)
        words = self.list_words(asked, item, follows)
        identity = find_signer(asked, item)
        kept = self.kept.get(identity)
        if identity in self.forgotten:
            self.recording.add_finding(
                transaction.by or transaction.line, KEY, "6.6", "no credential from before the reset", identity.hex()
            )
        check(identity not in self.replaced, "no replaced credential", identity)
        check(identity not in self.stored.deleted, "no deleted credential", identity)
        self.check_series(item, follows, identity)
        listed = [one["id"] for one in asked.get(3, []) if one["type"] == "public-key"]
        check(not asked.get(3) or identity in listed, "a credential of the allow list", identity)
        self.check_protection(item, asked, identity)
        if kept is None:
            check(not self.is_complete or identity in self.forgotten, "a credential of this key", identity)
            stranger = Credential(identity, {3: 0}, asked[1], b"", -1)
            known = {identity: self.strangers.setdefault((asked[1], identity), stranger)}
        else:
            known = {identity: kept.credential}
        words += ["counter-rises"]
        answers.check_assertion_response(data, request, words, known, None, self.facts)
        extensions = kept.extensions if kept is not None else {}
        check_extension_outputs(GET, data, asked, self.info, extensions)
        self.check_account(transaction, item, follows, identity)
        if kept is not None:
            kept.shown = transaction.last
            self.stored.check_key(
                data, self.select_supported_extensions(asked.get(4, {})), identity, 7, BLOB_KEY in extensions
            )
        if not follows:
            self.check_setting_use(transaction, asked, data)

    def check_series(self, item: Dict[Any, Any], follows: bool, identity: bytes) -> None:
        """Checks a further assertion: another credential, the same flags, no numberOfCredentials."""
        if not follows or self.pending is None:
            return
        check(identity not in self.pending.signed, "a credential that has not signed in this series", identity)
        self.pending.signed.append(identity)
        check(5 not in item, "no numberOfCredentials", item)
        auth = item[2]
        check(
            (auth[32] ^ self.pending.flags) & (UP | UV) == 0,
            f"flags UP and UV of {self.pending.flags:02x}",
            auth[32:33],
        )

    def check_protection(self, item: Dict[Any, Any], asked: Dict[Any, Any], identity: bytes) -> None:
        """Checks that a credential with credProtect signs only with user verification, or at level 2 with an allow
        list."""
        kept = self.kept.get(identity)
        level = kept.extensions.get("credProtect") if kept is not None else None
        if level is None or item[2][32] & UV or "credProtect" not in self.info.get(2, []):
            return
        if level == 3 or (level == 2 and not asked.get(3)):
            raise ExtensionMismatch(
                "12.1", f"no assertion by a credential of level {level} without user verification", "an assertion"
            )

    def list_words(self, asked: Dict[Any, Any], item: Dict[Any, Any], follows: bool) -> List[str]:
        """Returns the expectations of an assertion, as words of a session file."""
        up = asked.get(5, {}).get("up", True)
        words = [] if follows else ["up"] if up else ["no-up"]
        auth = item.get(2, bytes(37))
        if isinstance(auth, bytes) and len(auth) >= 37 and not auth[32] & UV:
            words.append("no-name")
        if follows or (asked.get(3) and item.get(5) is not None):
            words.append("no-number")
        return words

    def check_account(self, transaction: Transaction, item: Dict[Any, Any], follows: bool, identity: bytes) -> None:
        """Checks the user and the number of accounts, if the log shows them."""
        asked = decode_parameters(transaction.data) or {}
        if item.get(5) == 1:
            # CTAP 2.0 requires numberOfCredentials with several accounts, and does not define it with one.
            kind = UncertainMismatch if self.facts.old else Mismatch
            raise kind("no numberOfCredentials, since there is only one credential", ctap_cbor.to_diagnostic(item))
        if follows or asked.get(3):
            return
        mine, kept = self.statuses.list_candidates(asked), self.kept.get(identity)
        if kept is not None:
            words = ["user", kept.credential.user.hex()]
            answers.check_user_entity(item, words, self.facts)
            if not kept.discoverable:
                self.recording.add_finding(0, KEY, "6.2.2", "a discoverable credential", identity.hex(), SHOULD)
        is_sure = all(self.is_fresh(one, transaction) for one in mine)
        try:
            self.check_newest(asked, item, [one.credential.id for one in mine], identity)
        except Mismatch as differs:
            if is_sure:
                raise
            raise UncertainMismatch(f"{differs.expected}, {OTHERWISE}", differs.actual) from None

    def check_newest(self, asked: Dict[Any, Any], item: Dict[Any, Any], names: List[bytes], identity: bytes) -> None:
        """Checks that an RP's newest credential signs, and numberOfCredentials."""
        if identity in names and not self.statuses.is_protected(asked):
            check(identity == names[-1], f"the newest credential, {names[-1].hex()}", identity)
        if len(names) > 1 and self.facts.protection < 2 and item.get(6) is not True:
            number = item.get(5)
            check(isinstance(number, int), f"numberOfCredentials of at least {len(names)}", item)
            least = isinstance(number, int) and number >= len(names)
            check(least, f"numberOfCredentials of at least {len(names)}", item)
            check(not self.is_complete or number == len(names), f"numberOfCredentials {len(names)}", item)

    def record_effects(self, entry: Entry, transaction: Transaction, data: bytes) -> None:
        """Records the effects of a response."""
        request, status = transaction.data, data[0]
        command = request[0]
        if command == RESET and status == 0:
            self.forgotten.update(list(self.kept.by_id))
            # CTAP 2.0 does not require that a reset deletes U2F credentials.
            self.kept, self.is_complete = KnownCredentials(), not self.facts.old and not self.recording.has_lost
            self.pins, self.pending = Pins(is_set=False), Pending(b"", 0, entry.at)
            self.stored.reset()
            self.settings.reset(entry.at)
            self.u2f = U2fJudge()
        elif command == GET and status == 0:
            item = decode_parameters(data) or {}
            number, auth = item.get(5), item.get(2)
            self.no_display = self.no_display or (isinstance(number, int) and number > 1)
            left = number - 1 if isinstance(number, int) else 0
            flags = auth[32] if isinstance(auth, bytes) and len(auth) > 32 else 0
            signed = [find_signer(decode_parameters(request) or {}, item)]
            self.pending = Pending(request, left, entry.at, transaction.channel, True, signed, flags)
        elif command == NEXT and status == 0 and self.pending is not None:
            self.pending.left, self.pending.at = self.pending.left - 1, entry.at
        elif self.pending is not None and (
            command != NEXT or status != NOT_ALLOWED or transaction.channel != self.pending.channel
        ):
            if command == GET:
                self.pending = Pending(b"", 0, entry.at)
            elif command == MAKE and status == 0:
                self.pending = None
            elif self.pending is not None:
                self.pending.is_sure = False
