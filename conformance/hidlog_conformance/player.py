"""Plays a session to a device, and checks the responses."""

from __future__ import annotations

import sys
import time
from typing import Any, List, Optional

from hidlog_conformance import answers, ctap_cbor
from hidlog_conformance import hid_packets as hid
from hidlog_conformance import rules
from hidlog_conformance.answers import MAX_RETRIES, MAX_USER_RETRIES, CaseSkipped, Mismatch, check, check_init_response
from hidlog_conformance.text import quantity
from hidlog_conformance.judged_parts import GET_AGREEMENT, TOKENS, read_credential_id
from hidlog_conformance.judged_settings import BIO, TEMPLATE
from hidlog_conformance.requests import PIN
from hidlog_conformance.response_reader import ANSWER, MIN_CHANNELS, MAX_PACKETS, GOES_ON, IN_TIME, REST
from hidlog_conformance.check_credential_management import check_fragment
from hidlog_conformance.check_settings import SettingsReader
from hidlog_conformance.results import Outcome
from hidlog_conformance.transactions import NO_TIME_OUT
from hidlog_conformance.session_file import Step
from hidlog_conformance.outline import REGISTRATION


# Milliseconds after power-up in which a device accepts a reset.
RESET_TIME = 10000
# The beginning of the reason for skipping a case because the device is full.
FULL = "the device is full (28)"


def check_further_extensions(auth: bytes, words: List[str]) -> None:
    """Checks the extension outputs that an expectation names, except the first, which `answers` has checked."""
    behind = auth[37:]
    if auth[32] & answers.AT:
        behind = answers.read_cose_key(auth[55 + int.from_bytes(auth[53:55], "big") :])[1]
    for place in [number for number, word in enumerate(words) if word == "extension"][1:]:
        answers.check_extensions(behind, auth[32], words[place : place + 3])


class Player(SettingsReader):
    """Plays one session to a device."""

    def play(self) -> Outcome:
        """Plays the steps until the first difference."""
        step: Optional[Step] = None
        try:
            self.device.saves = "power cycle" in self.session.needs
            self.device.start()
            steps = self.session.steps
            passed = 0
            for number, (step, after) in enumerate(zip(steps, steps[1:] + [None])):
                self.number = number
                passed = passed or self.reuse_credential(number) or self.is_left_out(step)
                if passed:
                    passed -= 1
                    continue
                self.do(step)
                for expected in step.expects:
                    self.judge(expected)
                # Devices that make their own keys, and full devices, respond before the session's k and s lines.
                answers_now = self.device.makes_keys or "capacity 64" in self.session.needs
                early = answers_now and after is not None and after.kind in ("k", "s")
                # A device may count the user presence of a token, and respond before the touch.
                early = early or ("uv token" in self.session.uses and after is not None and after.kind == "p")
                if self.device.virtual and not early:
                    self.check_remaining_packets()
            if not self.device.virtual:
                self.check_end()
        except CaseSkipped as unplayable:
            return Outcome(self.session, "skip", str(unplayable))
        except Mismatch as differs:
            reason = self.find_excuse()
            if reason:
                return Outcome(self.session, "skip", reason)
            return self.make_failure(differs.expected, differs.actual, step)
        except (KeyError, TypeError, ValueError, IndexError, AttributeError) as fault:
            # The response's structure is unexpected.
            return self.make_failure("a response with the standard's structure", repr(fault), step)
        except OSError as fault:
            return self.make_failure(GOES_ON, str(fault), step)
        finally:
            self.cancel_pending_requests()
            self.delete_credentials()
            self.device.close()
        return Outcome(self.session, "ok")

    def reuse_credential(self, number: int) -> int:
        """Reuses a credential of another case instead of a registration, if possible; returns the number of steps to
        skip."""
        shared = self.sharing.find_credential(number) if self.sharing is not None else None
        if self.sharing is not None and shared is not None:
            self.known[self.sharing.name_of(number)] = shared
            self.reused.append(shared)
            return len(REGISTRATION)
        if self.reuse is None:
            return 0
        request = self.reuse.find_replaceable(self.session, number)
        if not request:
            self.keeps = self.reuse.find_reusable(self.session, number) or self.keeps
            return 0
        place = self.taken.get(request, 0)
        self.taken[request] = place + 1
        found = self.reuse.take_credential(request, place)
        if found is None:
            self.keeps = request
            return 0
        same = [one for one in self.known.values() if one.id == found.id]
        check(not same, "a new credential ID", found.id)
        self.known[bytes.fromhex(self.session.steps[number + 2].words[0])] = found
        self.reused.append(found)
        return len(REGISTRATION)

    def is_left_out(self, step: Step) -> bool:
        """Returns whether a step sets a PIN that is set already."""
        if self.sharing is not None and self.sharing.is_left_out(self.number):
            return True
        return self.pin_user is not None and self.pin_user.sets_pin(step)

    def make_failure(self, expected: str, actual: str, step: Optional[Step]) -> Outcome:
        """Returns the outcome of a difference, with the violated rule."""
        own = self.session.section
        partial = self.actual is None and bool(self.guest.open)
        request = self.requests.get(self.actual.channel, self.request) if self.actual else self.request
        difference = rules.Difference(own, self.expected, self.actual, partial, request, self.cancelled)
        broken = own if expected in (GOES_ON, IN_TIME) else self.violated or rules.find_violated_section(difference)
        line = step.line if step else 0
        return Outcome(self.session, "not ok", "", expected, actual, line, broken, expected == IN_TIME)

    def judge_choice(self, outcome: Outcome) -> Outcome:
        """Returns the outcome of a failed session about a choice that the standard leaves open. It is a failure only if
        the packets violate a MUST by the rules of `hidlog judge`. The time of a timeout is such a choice."""
        if any(step.packets and step.packets[-1][0] - step.packets[0][0] >= NO_TIME_OUT for step in self.session.steps):
            return outcome
        self.live.take(self.log)
        found = self.live.violation
        if found is None:
            return outcome
        line, is_hung = outcome.line, outcome.hung
        return Outcome(
            self.session, "not ok", "", found.expected, found.actual, line, found.section, is_hung, is_violation=True
        )

    def is_hidden_by_cred_protect(self) -> bool:
        """Returns whether a sign-in found no credential because the device sets credProtect without a request."""
        found = self.actual is not None and self.actual.command == hid.CBOR and self.actual.data == b"\x2e"
        if not found or self.request[:1] != b"\2" or self.facts.protection < 2:
            return False
        return self.facts.protection >= (3 if answers.decode_parameters(self.request).get(3) else 2)

    def find_excuse(self) -> str:
        """Returns why a difference is not a failure of the device, or an empty string."""
        if self.is_hidden_by_cred_protect():
            return "the device sets credProtect without a request"
        if self.is_late_reset():
            late = quantity(int(self.device.powered_for), "second")
            return f"the reset came {late} after power-up, since the device is slow"
        return ""

    def is_late_reset(self) -> bool:
        """Returns whether a device refused a reset that came too late because the device or its user is slow (6.6)."""
        found = self.actual is not None and self.actual.command == hid.CBOR and self.actual.data == b"\x30"
        return found and self.request == bytes([answers.RESET]) and self.device.powered_for * 1000 > RESET_TIME

    def cancel_pending_requests(self) -> None:
        """Cancels pending requests of a device that keeps running."""
        if not self.device.lasting:
            return
        try:
            for channel in self.allocated:
                self.device.send(0, hid.fragment_message(channel, hid.CANCEL, b"")[0])
            for _ in range(MAX_PACKETS):
                if self.device.read(REST) is None:
                    break
        except OSError:
            pass

    def delete_credentials(self) -> None:
        """Deletes the session's discoverable credentials from a device with --pin, which is not reset."""
        stored = [one for one in self.known.values() if one.discoverable and one not in self.reused]
        if self.pin_user is None or not stored or not self.allocated:
            return
        try:
            self.guest = hid.MessageReassembler()
            self.pin_user.delete(stored, lambda request: self.exchange(self.allocated[0], request))
        except (Mismatch, OSError, ValueError) as fault:
            print(f"credentials of {self.session.name} may be left on the device: {fault}", file=sys.stderr)

    def check_remaining_packets(self) -> None:
        """Checks that only KEEPALIVEs of pending requests are left."""
        self.expected = "rest"
        while True:
            message = self.read_message(0)
            if message is None:
                break
            check(self.is_expected_keepalive(message), "nothing more", message.describe())
        check(not self.guest.open, "complete messages", "an incomplete message")

    def check_end(self) -> None:
        """Checks that a device in real time sends no further message."""
        self.expected = "rest"
        message = self.read_message(REST)
        check(
            message is None or self.is_expected_keepalive(message),
            "nothing more",
            message.describe() if message else "",
        )
        check(not self.guest.open, "complete messages", "an incomplete message")

    def judge(self, expected: str) -> None:
        """Checks an expectation."""
        self.expected = expected
        words = expected.split(" ")
        number = 1
        if "on" in words:
            place = words.index("on")
            number = int(words[place + 1], 16)
            del words[place : place + 2]
        if self.has_token and words[0] in ("made", "asserted"):
            # The request has a token of --pin, which the session does not expect.
            words = [word for word in words if word not in ("no-uv", "no-name")]
        getattr(self, "check_" + words[0])(words[1:], self.channel(number), expected)

    def check_nothing(self, words: List[str], channel: int, expected: str) -> None:
        """`nothing`: no message comes but KEEPALIVEs of pending requests."""
        end = time.monotonic() + 0.3
        while self.device.virtual or time.monotonic() < end:
            message = self.read_message(end - time.monotonic())
            if message is None:
                return
            check(self.is_expected_keepalive(message), expected, message.describe())

    def check_silence(self, words: List[str], channel: int, expected: str) -> None:
        """`silence`: no packet comes."""
        message = self.read_message(0.3)
        check(message is None, expected, message.describe() if message else "")

    def check_init(self, words: List[str], channel: int, expected: str) -> None:
        """`init nonce HEX`, and `on N` unless on the broadcast channel: a response to INIT."""
        resync = expected.split(" ")[-2] == "on"
        if len(self.allocated) >= MIN_CHANNELS and not resync:
            self.skip_without_channel(expected)
        data = self.read_data(hid.INIT, channel if resync else hid.BROADCAST, expected)
        found = check_init_response(data, bytes.fromhex(words[1]), channel if resync else hid.BROADCAST, self.allocated)
        if not resync:
            self.allocated.append(found)

    def skip_without_channel(self, expected: str) -> None:
        """Skips a session that needs more channels than the device has."""
        message = self.read_response(expected)
        if message.command == hid.ERROR and message.channel == hid.BROADCAST:
            raise CaseSkipped(f"the device has {quantity(len(self.allocated), 'channel')}: ERROR {message.data.hex()}")
        self.early.insert(0, message)

    def check_error(self, words: List[str], channel: int, expected: str) -> None:
        """`error 06`, `error 05|06`: an ERROR with one of these codes; with `or status`, or an error status."""
        if "or" in words:
            message = self.read_response(expected)
            if message.command == hid.CBOR and message.channel == channel:
                check(len(message.data) == 1 and message.data != b"\0", expected, message.describe())
                return
            self.early.insert(0, message)
        data = self.read_data(hid.ERROR, channel, expected)
        check(len(data) == 1 and data.hex() in words[0].split("|"), expected, f"ERROR {data.hex()}")

    def check_maybe(self, words: List[str], channel: int, expected: str) -> None:
        """`maybe error 06`: this ERROR or nothing."""
        message = self.read_message(ANSWER if not self.device.virtual else 0)
        if message is not None:
            self.early.insert(0, message)
            self.check_error(words[1:], channel, expected)

    def check_message(self, words: List[str], channel: int, expected: str) -> None:
        """`message 03 HEX`: a response with this command, and with these bytes if given; `none`: without data."""
        data = self.read_data(int(words[0], 16), channel, expected)
        check(len(words) == 1 or data.hex() == words[1].replace("none", ""), expected, data)

    def check_echo(self, words: List[str], channel: int, expected: str) -> None:
        """`echo`: a PING with the bytes of the request."""
        data = self.read_data(hid.PING, channel, expected)
        ping = self.sent[channel].data if channel in self.sent else b""
        check(data == ping, f"the {quantity(len(ping), 'byte')} of the PING", data)

    def check_ping(self, words: List[str], channel: int, expected: str) -> None:
        """`ping HEX`: a PING with these bytes."""
        data = self.read_data(hid.PING, channel, expected)
        check(data == bytes.fromhex("".join(words)), expected, data)

    def check_zeros(self, words: List[str], channel: int, expected: str) -> None:
        """`zeros`: the padding of the last packet is zeros."""
        behind = self.last.padding if self.last else b""
        check(not any(behind), "zeros as padding", behind)

    def check_keepalive(self, words: List[str], channel: int, expected: str) -> None:
        """`keepalive 02`: a KEEPALIVE with this status, after any other KEEPALIVEs of the request."""
        while True:
            message = self.read_message(self.patience)
            if message is None:
                raise Mismatch(expected, self.describe_silence())
            check(message.command == hid.KEEPALIVE and message.channel == channel, expected, message.describe())
            check(
                self.is_expected_keepalive(message),
                "a KEEPALIVE of one byte, 01 or 02, for a request",
                message.describe(),
            )
            if message.data == bytes.fromhex(words[0]):
                return

    def check_status(self, words: List[str], channel: int, expected: str) -> None:
        """`status 2e`, `status 2e|36`: a response that is only a status."""
        data = self.read_data(hid.CBOR, channel, expected)
        check(len(data) == 1 and data.hex() in words[0].split("|"), expected, f"response {data[:40].hex()}")

    def check_refused(self, words: List[str], channel: int, expected: str) -> None:
        """`refused 2e`: a status other than 00; with --profile-choices, this one."""
        data = self.read_data(hid.CBOR, channel, expected)
        check(len(data) == 1 and data != b"\0", expected, f"response {data[:40].hex()}")
        check(not self.strict or data.hex() == words[0], expected, f"response {data.hex()}")

    def check_info(self, words: List[str], channel: int, expected: str) -> None:
        """`info`, `info HEX`: a response to authenticatorGetInfo, equal to these bytes if given."""
        item = answers.check_get_info_response(self.read_data(hid.CBOR, channel, expected))
        if words:
            check(ctap_cbor.encode(item).hex() == words[0], expected, item)

    def check_made(self, words: List[str], channel: int, expected: str) -> None:
        """`made`: a registration. Keeps its credential under the ID of the session's k line."""
        data = self.read_data(hid.CBOR, channel, expected)
        if (
            data == b"\x28"
            and not self.device.fresh
            and ("reset" not in self.session.needs or self.front or self.sharing)
        ):
            raise CaseSkipped(f"{FULL}: use --reset or another device")
        if data == b"\x28" and "or" in words:
            return
        if data == b"\x28" and self.known and "capacity 64" not in self.session.needs:
            raise CaseSkipped(f"{FULL} after {quantity(len(self.known), 'registration')}")
        made = answers.check_make_credential_response(
            data, self.asked[channel, answers.MAKE], words, self.known, self.facts
        )
        self.known[self.name] = made
        check_further_extensions(answers.decode_map(data)[2], words)
        self.check_attestation(answers.decode_map(data), words)
        if self.reuse is not None and self.keeps and (self.pin_user is None or not made.discoverable):
            self.reuse.made.setdefault(self.keeps, []).append(made)
            self.keeps = b""
        self.listing.check_blob_key(answers.decode_map(data), 5, words)

    def check_asserted(self, words: List[str], channel: int, expected: str) -> None:
        """`asserted`: an assertion for the last authenticatorGetAssertion."""
        data = self.read_data(hid.CBOR, channel, expected)
        identity: Any = None
        if "id" in words:
            identity = self.known[bytes.fromhex(words[words.index("id") + 1])].id
        if "newest" in words:
            rp = answers.decode_parameters(self.asked[channel, answers.GET])[1]
            made = [one for one in self.known.values() if one.discoverable and one.rp == rp]
            number = ["number", str(len(made))] if len(made) > 1 else ["no-number"]
            identity, words = made[-1].id, [*words, *number]
        answers.check_assertion_response(
            data, self.asked[channel, answers.GET], words, self.known, identity, self.facts
        )
        self.listing.check_blob_key(answers.decode_map(data), 7, words)
        if "secret" in words:
            behind = ctap_cbor.decode(answers.decode_map(data)[2][37:])
            check("hmac-secret" in behind, "an output of the extension hmac-secret", behind)
            self.platform.take_secret(words[words.index("secret") + 1], behind["hmac-secret"])

    def check_agreement(self, words: List[str], channel: int, expected: str) -> None:
        """`agreement`: the device's key agreement key. Derives the shared secret."""
        data = self.read_data(hid.CBOR, channel, expected)
        self.platform.agree(answers.decode_map(data), answers.decode_parameters(self.request))

    def check_token(self, words: List[str], channel: int, expected: str) -> None:
        """`token`: a pinUvAuthToken."""
        self.platform.take_token(answers.decode_map(self.read_data(hid.CBOR, channel, expected)))

    def check_retries(self, words: List[str], channel: int, expected: str) -> None:
        """`retries 7`: the PIN retries left of 8. For a device with a lower maximum, the difference from the maximum is
        compared."""
        left = answers.get_member(
            answers.decode_map(self.read_data(hid.CBOR, channel, expected)), 3, int, "the retries"
        )
        self.most_retries = self.most_retries or left
        check(
            left == self.most_retries - MAX_RETRIES + int(words[0]) and left <= MAX_RETRIES,
            expected,
            quantity(left, "retry", "retries"),
        )

    def check_user_retries(self, words: List[str], channel: int, expected: str) -> None:
        """`user_retries`: the user verification retries left; with `less`, one less than before."""
        left = answers.get_member(
            answers.decode_map(self.read_data(hid.CBOR, channel, expected)), 5, int, "the retries"
        )
        check(1 <= left <= MAX_USER_RETRIES, f"1 to {MAX_USER_RETRIES} retries", quantity(left, "retry", "retries"))
        check(
            not words or left == self.user_retries - 1,
            quantity(self.user_retries - 1, "retry", "retries"),
            quantity(left, "retry", "retries"),
        )
        self.user_retries = left

    def check_managed(self, words: List[str], channel: int, expected: str) -> None:
        """`managed count 2`, `managed rps 2`, `managed rp`, `managed credentials 2`, `managed credential`: a response
        to authenticatorCredentialManagement. The first of an enumeration has the total."""
        item = answers.decode_map(self.read_data(hid.CBOR, channel, expected))
        known, total = list(self.known.values()), int(words[1]) if words[0] in ("count", "rps", "credentials") else None
        if words[0] == "count":
            self.listing.check_count(item, int(words[1]))
        elif words[0] in ("rps", "rp"):
            self.listing.check_rp(item, known, total)
        else:
            asked = answers.decode_parameters(self.request)
            self.listed_rp = asked[2][1] if words[0] == "credentials" else self.listed_rp
            self.listing.check_credential(item, known, self.listed_rp, total)
            self.listing.check_words(item, words)

    def check_piece(self, words: List[str], channel: int, expected: str) -> None:
        """`piece HEX`: a fragment of the large-blob array."""
        check_fragment(answers.decode_map(self.read_data(hid.CBOR, channel, expected)), bytes.fromhex("".join(words)))

    def check_judged(self, words: List[str], channel: int, expected: str) -> None:
        """`judged`, `judged as NAME`: a response that the rules of `hidlog judge` accept after all that came before.
        The user touches if the device asks; NAME stands for the ID of a credential or template that was made."""
        self.device.provide(self.at)
        message = self.read_response(expected)
        self.live.take(self.log)
        found = self.live.violation
        if found is not None:
            self.violated = found.section
            raise Mismatch(found.expected, found.actual)
        request = self.requests.get(channel, b"")
        if message.command != hid.CBOR or message.data[:1] != b"\0" or not request:
            return
        if request[:1] == bytes([answers.MAKE]) and words[:1] == ["as"]:
            made = self.live.answers.kept.get(read_credential_id(message.data))
            if made is not None:
                self.known[bytes.fromhex(words[1])] = made.credential
        elif request[:1] == bytes([BIO]) and words[:1] == ["as"]:
            self.other_ids[bytes.fromhex(words[1])] = answers.decode_map(message.data)[TEMPLATE]
        elif request[:1] == bytes([PIN]):
            asked = answers.decode_parameters(request)
            if asked.get(2) == GET_AGREEMENT:
                self.platform.agree(answers.decode_map(message.data), asked)
            elif asked.get(2) in TOKENS:
                self.platform.take_token(answers.decode_map(message.data))
