"""Checks the statuses of responses in a recorded log, against earlier packets of the log."""

from __future__ import annotations

from typing import TYPE_CHECKING, Any, Dict, List

from hidlog_conformance import rules
from hidlog_conformance.answers import GET, INFO, MAKE, NEXT, RESET, SELECTION, UP, Mismatch, check
from hidlog_conformance.judged_log import KEY, SHOULD
from hidlog_conformance.judged_parts import (
    OTHERWISE,
    USER_TOKEN,
    ExtensionMismatch,
    KnownCredential,
    UncertainMismatch,
    find_signer,
)
from hidlog_conformance.text import quantity
from hidlog_conformance.requests import (
    FORM,
    MISSING,
    PIN,
    UNKNOWN,
    Fault,
    find_fault,
    decode_parameters,
    list_unknown_parts,
)
from hidlog_conformance.transactions import NO_TIME_OUT, Entry, Transaction

if TYPE_CHECKING:
    from hidlog_conformance.judged_answers import AnswerJudge

# Milliseconds after power-up in which a reset is accepted (6.6), and for which assertions are pending (6.3).
RESET_WITHIN, PENDING = 10000, 30000
# Milliseconds by which the recorder's time may differ from the key's.
JITTER_MS = 100
LIMIT_MS = 0x15
DENIED, TIMED_OUT, CANCELLED, OTHER = 0x27, 0x2F, 0x2D, 0x7F
EXCLUDED, NO_CREDENTIALS, NOT_ALLOWED, UNSUPPORTED = 0x19, 0x2E, 0x30, 0x26
# Statuses for malformed requests (8.2), and those that any request may have.
MALFORMED_STATUSES = (0x01, 0x02, 0x03, 0x11, 0x12, 0x14, 0x15, 0x2B, 0x2C, 0x39)
ANY_REQUEST_STATUSES = (DENIED, CANCELLED, 0x3A, OTHER, 0x06, 0x05, *range(0xE0, 0x100))
# Other statuses of commands without parameters.
FIT = {
    INFO: (0,),
    RESET: (0, NOT_ALLOWED, TIMED_OUT, 0x01),
    SELECTION: (0, TIMED_OUT, 0x01),
    NEXT: (0, NOT_ALLOWED, 0x01),
}


class StatusJudge:
    """Checks statuses."""

    def __init__(self, answers: "AnswerJudge") -> None:
        self.answers = answers

    def check_status(self, entry: Entry, transaction: Transaction, data: bytes) -> None:
        """Checks that a status does not contradict the log."""
        request, status = transaction.data, data[0]
        command = request[0]
        if status != 0 and len(data) != 1:
            raise Mismatch("only a status", f"{quantity(len(data), 'byte')} with status {status:02x}")
        fault = find_fault(request)
        if fault is not None:
            if not fault.should:
                self.check_refusal(command, fault, status)
            return
        self.check_user_presence(entry, transaction, data)
        if command in FIT and status not in (*FIT[command], *ANY_REQUEST_STATUSES):
            expected = "|".join(f"{one:02x}" for one in FIT[command])
            raise Mismatch(f"status {expected}", f"status {status:02x}")
        if command in (MAKE, GET):
            self.check_form(transaction, status)
        if command == MAKE:
            self.check_make_status(transaction, status)
        elif command == GET:
            self.check_get_status(transaction, data)
        elif command == NEXT:
            self.check_next_status(entry, transaction, status)
        elif command == RESET:
            elapsed = transaction.last - (
                self.answers.powered if self.answers.powered is not None else self.answers.recording.start or 0
            )
            if status == 0 and elapsed > RESET_WITHIN + JITTER_MS and not self.answers.recording.has_no_timestamps:
                actual = f"status 00 after {elapsed} ms"
                check(not self.answers.no_display, "status 30, more than 10 s after power-up", actual)
                raise UncertainMismatch(
                    "status 30, more than 10 s after power-up, unless the key has a display", actual
                )

    def check_user_presence(self, entry: Entry, transaction: Transaction, data: bytes) -> None:
        """Checks that a KEEPALIVE requested a touch before a response that requires user presence."""
        request, status = transaction.data, data[0]
        command, asked = request[0], decode_parameters(request) or {}
        needs = command in (RESET, SELECTION) and status == 0
        needs = needs or (command == MAKE and status in (0, EXCLUDED))
        needs = needs or (command == PIN and asked.get(2) == USER_TOKEN and status == 0)
        if command == GET and status == 0:
            auth = (decode_parameters(data) or {}).get(2)
            needs = isinstance(auth, bytes) and len(auth) > 32 and bool(auth[32] & UP)
        # The touch may have come with the token.
        has_token = (8 if command == MAKE else 6) in asked
        was_asked = any(one.packet[7] == 2 for one in transaction.keepalives)
        if needs and transaction.keepalives and not was_asked and not has_token:
            expected = "a KEEPALIVE with 02 while a touch is requested"
            self.answers.recording.add_finding(
                transaction.keepalives[0].line, KEY, rules.KEEPALIVE, expected, "only KEEPALIVEs with 01", SHOULD
            )
        if (
            not needs
            or was_asked
            or has_token
            or self.answers.recording.has_no_timestamps
            or entry.at - transaction.last >= NO_TIME_OUT
        ):
            return
        section = rules.COMMANDS.get(command, rules.COMMANDS_OTHER)
        expected = "a user presence test before the response, shown by a KEEPALIVE with 02"
        self.answers.recording.add_finding(entry.line, KEY, section, expected, f"status {status:02x} at once", SHOULD)

    def check_refusal(self, command: int, fault: Fault, status: int) -> None:
        """Checks that an invalid request fails, with the right status."""
        # A key may not support every command.
        unknown = () if command in (MAKE, GET, INFO) else (0x01,)
        if fault.kind == MISSING and status not in (0, 0x14, *unknown, *ANY_REQUEST_STATUSES):
            raise Mismatch(f"status 14, since {fault.expected} is missing", f"status {status:02x}")
        if fault.kind == UNKNOWN and status not in (0x01, *ANY_REQUEST_STATUSES):
            raise Mismatch("status 01", f"status {status:02x}")
        check(
            status != 0 or fault.kind not in (FORM, MISSING),
            f"an error, since {fault.expected} is required",
            "status 00",
        )

    def check_form(self, transaction: Transaction, status: int) -> None:
        """Checks that a valid request is not refused as malformed."""
        request = transaction.data
        command, asked = request[0], decode_parameters(request) or {}
        options = asked.get(7 if command == MAKE else 5, {})
        wrong = self.find_invalid_option(command, asked, options)
        if wrong:
            taken = status in (0, NO_CREDENTIALS, EXCLUDED)
            check(not taken, f"an error (2b or 2c) for the option {wrong}", f"status {status:02x}")
            return
        if self.answers.stored.is_refused(asked, status, command == MAKE, self.answers.info):
            return
        if status == LIMIT_MS and self.has_long_list(asked.get(5 if command == MAKE else 3, [])):
            return
        if transaction.length > self.answers.info.get(5, 1024) or status not in MALFORMED_STATUSES:
            return
        # PINs, enterprise attestation and unsupported options have specific errors.
        own = {8, 9, 10} if command == MAKE else {6, 7}
        rk_is_open = options.get("rk") and not self.answers.info.get(4, {}).get("rk")
        if own & set(asked) or rk_is_open or options.get("uv"):
            return
        strange = list_unknown_parts(command, asked)
        self.answers.passed_over = "" if not strange or strange[0].startswith("the option") else strange[0]
        expected = f"a key that ignores {strange[0]}" if strange else "no such error, since the request is valid"
        raise Mismatch(expected, f"status {status:02x}")

    def has_long_list(self, listed: List[Any]) -> bool:
        """Returns whether a list may exceed the key's maxCredentialCountInList or maxCredentialIdLength (6.4)."""
        count, length = self.answers.info.get(7, 1), self.answers.info.get(8)
        return len(listed) > count or any(length is None or len(entry["id"]) > length for entry in listed)

    def find_invalid_option(self, command: int, asked: Dict[Any, Any], options: Dict[str, Any]) -> str:
        """Returns an invalid option (rk in a sign-in, up false in a registration, uv if not supported), or an empty
        string."""
        if command == GET and "rk" in options:
            return "rk"
        if command == MAKE and options.get("up") is False:
            return "up"
        own = self.answers.info.get(4, {})
        if options.get("uv") and self.answers.info and not own.get("uv") and (8 if command == MAKE else 6) not in asked:
            return "uv"
        return ""

    def list_known(self, asked: Dict[Any, Any], key: int, rp: str) -> List[KnownCredential]:
        """Returns the log's credentials of this RP in a list."""
        found = [self.answers.kept.get(entry["id"]) for entry in asked.get(key, []) if entry["type"] == "public-key"]
        return [
            one for one in found if one is not None and one.credential.rp == rp and "credProtect" not in one.extensions
        ]

    def check_make_status(self, transaction: Transaction, status: int) -> None:
        """Checks the status of a registration."""
        asked = decode_parameters(transaction.data) or {}
        excluded = self.list_known(asked, 5, asked[2]["id"])
        if status == 0 and excluded:
            expected = "status 19, since the list has a credential of this key"
            check(not any(self.answers.is_fresh(one, transaction) for one in excluded), expected, "status 00")
            raise UncertainMismatch(f"{expected}, {OTHERWISE}", "status 00")
        check(
            status != EXCLUDED or bool(asked.get(5)), "no status 19, since the request has no excludeList", "status 19"
        )
        if status == EXCLUDED and not excluded:
            names = [one["id"] for one in asked[5] if one["type"] == "public-key"]
            open_question = not self.answers.is_complete and any(name not in self.answers.kept.by_id for name in names)
            expected = "no status 19, since the list has no credential of this key and RP"
            check(open_question or self.has_hidden(asked, 5), expected, "status 19")
        listed = [entry["alg"] for entry in asked[4] if entry["type"] == "public-key"]
        served = self.answers.facts.algorithms
        self.check_capabilities(asked, status)
        self.answers.settings.check_refused(asked, status)
        if served and not set(served) & set(listed):
            allowed = (UNSUPPORTED, *ANY_REQUEST_STATUSES, *((EXCLUDED,) if asked.get(5) else ()))
            check(status in allowed or 8 in asked, "status 26, since no algorithm is supported", f"status {status:02x}")
        elif served:
            check(status != UNSUPPORTED, "no status 26, since an algorithm is supported", "status 26")

    def has_hidden(self, asked: Dict[Any, Any], key: int) -> bool:
        """Returns whether a list has a credential that credProtect may hide."""
        found = [self.answers.kept.get(entry["id"]) for entry in asked.get(key, [])]
        return any(one is not None and "credProtect" in one.extensions for one in found)

    def lacks_enterprise(self) -> bool:
        """Returns whether the key must refuse enterprise attestation (6.1.2, step 9). Keys with CTAP 2.0 ignore it."""
        return bool(self.answers.info) and not self.answers.facts.old and not self.answers.info.get(4, {}).get("ep")

    def check_capabilities(self, asked: Dict[Any, Any], status: int) -> None:
        """Checks a registration's status against getInfo: rk, clientPin, enterprise attestation."""
        options, own = asked.get(7, {}), self.answers.info.get(4, {})
        if options.get("rk") and own.get("rk"):
            check(status != 0x2B, "a discoverable credential, since getInfo has rk", "status 2b")
        if 10 in asked and self.lacks_enterprise():
            check(status != 0, "an error, since enterprise attestation is not supported", "status 00")
        if (
            options.get("rk")
            and 8 not in asked
            and not options.get("uv")
            and self.answers.pins.is_set
            and not own.get("alwaysUv")
        ):
            check(status != 0, "status 36, since a PIN is set", "status 00")
        alone = 8 not in asked and not options.get("uv") and not own.get("makeCredUvNotRqd")
        if own.get("uv") and alone and not self.answers.facts.old:
            check(status != 0, "status 36, since the key has user verification", "status 00")
        if 8 in asked and status == 0:
            self.answers.pins.check_use(1, asked[2]["id"])

    def check_get_status(self, transaction: Transaction, data: bytes) -> None:
        """Checks the status of a sign-in."""
        status = data[0]
        asked = decode_parameters(transaction.data) or {}
        mine = self.list_candidates(asked)
        used = find_signer(asked, decode_parameters(data) or {}) if status == 0 else b""
        if used in self.answers.forgotten:
            raise ExtensionMismatch("6.6", "no credential from before the reset", used.hex())
        if mine and self.answers.facts.protection < 2 and status == NO_CREDENTIALS:
            expected = "an assertion, since the key has a matching credential"
            check(not any(self.answers.is_fresh(one, transaction) for one in mine), expected, "status 2e")
            raise UncertainMismatch(f"{expected}, {OTHERWISE}", "status 2e")
        if status == 0 and self.answers.is_complete and not mine and not self.is_protected(asked):
            raise Mismatch("status 2e, since the key has no matching credential", "status 00")
        if (
            not mine
            and self.answers.is_complete
            and status not in (0, NO_CREDENTIALS, *ANY_REQUEST_STATUSES, TIMED_OUT)
            and status < 0x31
        ):
            raise Mismatch("status 2e, since the key has no matching credential", f"status {status:02x}")

    def is_protected(self, asked: Dict[Any, Any]) -> bool:
        """Returns whether the RP has a credential that credProtect hides."""
        return bool(self.answers.kept.extended.get(asked[1]))

    def list_candidates(self, asked: Dict[Any, Any]) -> List[KnownCredential]:
        """Returns the credentials of the log that a sign-in may use."""
        if asked.get(3):
            return self.list_known(asked, 3, asked[1])
        of_rp = self.answers.kept.discoverable.get(asked[1], {}).values()
        verified = 6 in asked or bool(asked.get(5, {}).get("uv"))
        return [one for one in of_rp if verified or "credProtect" not in one.extensions]

    def check_next_status(self, entry: Entry, transaction: Transaction, status: int) -> None:
        """Checks whether assertions were pending."""
        waiting = self.answers.pending
        if waiting is None or (status == 0 and waiting.left > 0 and not waiting.is_sure):
            return
        if status == 0:
            check(waiting.left > 0, "status 30, since no assertion is pending", "status 00")
            check(
                transaction.last - waiting.at <= PENDING + JITTER_MS,
                "status 30, after 30 s",
                f"status 00 after {transaction.last - waiting.at} ms",
            )
        elif status not in (NOT_ALLOWED, *ANY_REQUEST_STATUSES):
            raise Mismatch("status 30", f"status {status:02x}")
        elif status == NOT_ALLOWED and waiting.left > 0:
            sure = waiting.is_sure and waiting.channel == transaction.channel
            late = transaction.last - waiting.at >= PENDING - JITTER_MS
            check(late or not sure, "the pending assertion", "status 30")
