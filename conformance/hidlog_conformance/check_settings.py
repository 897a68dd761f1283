"""Checks responses about a device's settings: getInfo's members, fingerprint enrolment, and U2F."""

from __future__ import annotations

import time
from typing import Any, List

from hidlog_conformance import answers, keys
from hidlog_conformance import hid_packets as hid
from hidlog_conformance.answers import CaseSkipped, check, get_member
from hidlog_conformance.response_reader import PERSON, ResponseReader

# Members of the responses of authenticatorBioEnrollment (6.7).
MODALITY, KIND, MAX_SAMPLES, TEMPLATE_ID, SAMPLE_STATUS, REMAINING, TEMPLATES = 1, 2, 3, 4, 5, 6, 7
FINGERPRINT, KINDS, TEMPLATE_NAME = 1, (1, 2), 2
# The status words SW_NO_ERROR and SW_CONDITIONS_NOT_SATISFIED of U2F, and the lengths of parts of its messages.
SUCCESS, NO_TOUCH = b"\x90\0", b"\x69\x85"
POINT, PRESENT = 65, 1
PAUSE = 0.2


class SettingsReader(ResponseReader):
    """Reads responses about settings."""

    def read_data(self, command: int, channel: int, expected: str) -> bytes:
        """Returns the data of the next message, which must have this command and channel."""
        message = self.read_response(expected)
        check(message.command == command and message.channel == channel, expected, message.describe())
        return message.data

    def check_option(self, words: List[str], channel: int, expected: str) -> None:
        """`option clientPin true`: an option of authenticatorGetInfo."""
        options = answers.check_get_info_response(self.read_data(hid.CBOR, channel, expected)).get(4, {})
        check(options.get(words[0]) is (words[1] == "true"), expected, options)

    def check_attestation(self, item: Any, words: List[str]) -> None:
        """Checks epAtt, and the certificate of packed attestation."""
        check("ep" not in words or item.get(4) is True, "epAtt true, since enterprise attestation was requested", item)
        answers.check_certificate(item)

    def check_member(self, words: List[str], channel: int, expected: str) -> None:
        """`member 0d 6`: a getInfo response with this member; `member 14 less`: with a lower number than before."""
        item = answers.check_get_info_response(self.read_data(hid.CBOR, channel, expected))
        key = int(words[0], 16)
        found = get_member(item, key, object, f"member {words[0]}")
        if words[1] == "less":
            check(isinstance(found, int) and found < self.numbers[key], f"less than {self.numbers[key]}", found)
        elif words[1] in ("true", "false"):
            check(found is (words[1] == "true"), expected, found)
        elif words[1] != "any":
            check(found == int(words[1]), expected, found)
        self.numbers[key] = found

    # authenticatorBioEnrollment (6.7).

    def check_modality(self, words: List[str], channel: int, expected: str) -> None:
        """`modality`: the modality fingerprint (6.7.1)."""
        item = answers.decode_map(self.read_data(hid.CBOR, channel, expected))
        check(item.get(MODALITY) == FINGERPRINT, "the modality 1, fingerprint", item)

    def check_sensor(self, words: List[str], channel: int, expected: str) -> None:
        """`sensor`: fingerprintKind and maxCaptureSamplesRequiredForEnroll (6.7.3); `sensor 3` skips the case if the
        device needs another number of samples."""
        item = answers.decode_map(self.read_data(hid.CBOR, channel, expected))
        check(item.get(KIND) in KINDS, "a fingerprintKind of 1 or 2", item)
        self.samples = get_member(item, MAX_SAMPLES, int, "maxCaptureSamplesRequiredForEnroll")
        check(self.samples > 0, "at least one sample", item)
        if words and self.samples != int(words[0]):
            raise CaseSkipped(f"an enrolment needs {self.samples} samples, and the case has {words[0]}")

    def check_sample(self, words: List[str], channel: int, expected: str) -> None:
        """`sample as ID`: the first sample of a new template; `sample left N`: N further samples are needed."""
        item = answers.decode_map(self.read_data(hid.CBOR, channel, expected))
        left = get_member(item, REMAINING, int, "remainingSamples")
        check(isinstance(get_member(item, SAMPLE_STATUS, int, "lastEnrollSampleStatus"), int), expected, item)
        if words[0] == "as":
            new = get_member(item, TEMPLATE_ID, bytes, "templateId")
            check(new not in self.other_ids.values(), "a new templateId", new)
            self.other_ids[bytes.fromhex(words[1])] = new
            check(left == self.samples - 1, f"remainingSamples {self.samples - 1}", item)
        else:
            check(left == self.samples - int(words[1]), f"remainingSamples {self.samples - int(words[1])}", item)

    def check_templates(self, words: List[str], channel: int, expected: str) -> None:
        """`templates ID`, `templates ID name TEXT`: a list with this template alone."""
        item = answers.decode_map(self.read_data(hid.CBOR, channel, expected))
        listed = get_member(item, TEMPLATES, list, "templateInfos")
        check(len(listed) == 1, "one template", listed)
        check(listed[0].get(1) == self.other_ids[bytes.fromhex(words[0])], "the template that was enrolled", listed)
        if "name" in words:
            check(listed[0].get(TEMPLATE_NAME) == words[words.index("name") + 1], expected, listed)

    # U2F (10).

    def u2f_response(self, channel: int, expected: str) -> bytes:
        """Returns the data of a successful U2F response. A real device is asked again until the user touches."""
        end = time.monotonic() + PERSON
        while True:
            data = self.read_data(hid.MSG, channel, expected)
            if data != NO_TOUCH or self.device.virtual or time.monotonic() > end:
                break
            time.sleep(PAUSE)
            for packet in hid.fragment_message(channel, hid.MSG, self.sent[channel].data):
                self.device.send(self.at, packet)
        check(data[-2:] == SUCCESS, "status word 9000", data[-2:])
        return data[:-2]

    def check_u2f_registered(self, words: List[str], channel: int, expected: str) -> None:
        """`u2f_registered ID`: a registration (U2F raw messages, 4.3), whose signature verifies."""
        data = self.u2f_response(channel, expected)
        request = self.sent[channel].data[7 : 7 + 64]
        check(data[:1] == b"\5" and data[1:2] == b"\4" and len(data) > 67, "05 and a point", data)
        point, handle = data[1:66], data[67 : 67 + data[66]]
        rest = data[67 + data[66] :]
        length = 4 + int.from_bytes(rest[2:4], "big")
        certificate, signature = rest[:length], rest[length:]
        check(len(handle) == data[66] and len(certificate) == length, "a key handle and a certificate", data)
        signed = b"\0" + request[32:] + request[:32] + handle + point
        is_valid = keys.is_valid_for_certificate(certificate, -7, signed, signature)
        check(is_valid, "a signature that verifies under the certificate", signature)
        name = bytes.fromhex(words[0])
        check(handle not in self.other_ids.values(), "a new key handle", handle)
        self.other_ids[name] = handle
        self.points[name] = point
        self.counters[name] = -1

    def check_u2f_signed(self, words: List[str], channel: int, expected: str) -> None:
        """`u2f_signed ID`: a signature (U2F raw messages, 5.4) with a counter above the last one."""
        data = self.u2f_response(channel, expected)
        name = bytes.fromhex(words[0])
        request = self.sent[channel].data[7:]
        check(data[:1] == bytes([PRESENT]), "user presence 01", data[:1])
        counter = int.from_bytes(data[1:5], "big")
        check(
            counter > self.counters[name] or counter == 0, f"a counter above {self.counters[name]}, or 0", str(counter)
        )
        self.counters[name] = counter
        point = self.points[name]
        cose = {1: 2, 3: -7, -1: 1, -2: point[1:33], -3: point[33:]}
        signed = request[32:64] + data[:5] + request[:32]
        is_valid = keys.is_valid_signature(cose, signed, data[5:])
        check(is_valid, "a signature that verifies under the registered key", data[5:])
