"""Checks recorded responses of U2F: registrations and sign-ins (CTAP 2.1, 10; U2F raw messages, 4 and 5)."""

from __future__ import annotations

from typing import Dict, Tuple

from hidlog_conformance import keys
from hidlog_conformance.answers import Mismatch, check
from hidlog_conformance.judged_parts import OTHERWISE, ExtensionMismatch

SECTION = "10"
REGISTER, SIGN, VERSION, VENDOR = 1, 2, 3, 0xC0
CHECK_ONLY, ENFORCE = 0x07, 0x03
OK, NOT_SATISFIED, WRONG_DATA, WRONG_CLASS = b"\x90\0", b"\x69\x85", b"\x6a\x80", b"\x6e\0"
# The lengths of the challenge and of the application, of both, and of a point; and the index of the key handle's
# length.
HASH, HASHES, POINT = 32, 64, 65


def read_data(request: bytes) -> bytes:
    """Returns the data of an APDU, whose length has one byte or three."""
    if len(request) < 5:
        return b""
    if request[4] == 0 and len(request) >= 7:
        return request[7 : 7 + int.from_bytes(request[5:7], "big")]
    return request[5 : 5 + request[4]]


class U2fJudge:
    """The U2F registrations of a log."""

    def __init__(self) -> None:
        # By key handle: the application, the public key, the last counter, and the time of the last response about it.
        self.made: Dict[bytes, Tuple[bytes, bytes, int, int]] = {}

    def find_last_response(self, request: bytes) -> int:
        """Returns the time of the last response about the key handle in a request, or 0."""
        known = self.made.get(read_data(request)[HASHES + 1 :])
        return known[3] if known is not None else 0

    def judge(self, request: bytes, data: bytes, at: int, is_sure: bool) -> None:
        """Checks a response; with `is_sure`, the key certainly still has the registration."""
        if len(request) < 4 or len(data) < 2:
            check(len(request) < 4, "a status word", data)
            return
        word = data[len(data) - 2 :]
        if request[0] != 0:
            check(word == WRONG_CLASS, "6e00, since the U2F class is 00", data)
        elif request[1] == VERSION and request[2:4] == b"\0\0" and word == OK:
            check(data == b"U2F_V2\x90\x00", "U2F_V2 and 9000", data)
        elif request[1] not in (REGISTER, SIGN, VERSION) and request[1] < VENDOR:
            check(word != OK, "an error, since U2F has no such instruction", data)
        elif request[1] in (REGISTER, SIGN):
            self.judge_use(request, data[: len(data) - 2], word, at, is_sure)

    def judge_use(self, request: bytes, data: bytes, word: bytes, at: int, is_sure: bool) -> None:
        """Checks a response to a registration or sign-in, under U2F's section."""
        asked = read_data(request)
        is_whole = len(asked) == HASHES if request[1] == REGISTER else is_sign_in(asked)
        try:
            if not is_whole:
                check(word != OK, "6700, since the length is wrong", "9000")
                if word == NOT_SATISFIED:
                    raise ExtensionMismatch(SECTION, "6700, since the length is wrong", "6985", False)
            elif request[1] == REGISTER and word == OK:
                self.check_registered(asked, data, at)
            elif request[1] == SIGN:
                self.check_signed(request[2], asked, data, word, at, is_sure)
        except ExtensionMismatch:
            raise
        except Mismatch as differs:
            raise ExtensionMismatch(SECTION, differs.expected, differs.actual) from None

    def check_registered(self, asked: bytes, data: bytes, at: int) -> None:
        """Checks a registration."""
        check(len(data) > POINT + 2 and data[:2] == b"\5\4", "05 and a point", data)
        point, length = data[1 : 1 + POINT], data[1 + POINT]
        handle, rest = data[2 + POINT : 2 + POINT + length], data[2 + POINT + length :]
        check(len(handle) == length and length > 0, "a key handle", data)
        end = 4 + int.from_bytes(rest[2:4], "big")
        certificate, signature = rest[:end], rest[end:]
        check(len(certificate) == end and len(signature) > 0, "a certificate and a signature", data)
        signed = b"\0" + asked[HASH:] + asked[:HASH] + handle + point
        is_valid = keys.is_valid_for_certificate(certificate, -7, signed, signature)
        check(is_valid, "a signature that verifies under the certificate", signature)
        check(handle not in self.made, "a new key handle", handle)
        self.made[handle] = (asked[HASH:], point, -1, at)

    def check_signed(self, control: int, asked: bytes, data: bytes, word: bytes, at: int, is_sure: bool) -> None:
        """Checks a sign-in, or a check whether the key has a registration."""
        application, handle = asked[HASH:HASHES], asked[HASHES + 1 :]
        known = self.made.get(handle)
        if known is None:
            return
        owner, point, counter, _ = known
        if owner != application:
            check(
                word not in (OK, NOT_SATISFIED), "6a80, since the key handle belongs to another application", word.hex()
            )
            return
        if word == WRONG_DATA:
            del self.made[handle]
            expected = "9000 or 6985, since the key handle is registered"
            raise ExtensionMismatch(SECTION, expected if is_sure else f"{expected}, {OTHERWISE}", "6a80", is_sure)
        check(control != CHECK_ONLY or word != OK, "6985, since the control byte is check-only", "9000")
        self.made[handle] = (owner, point, counter, at)
        if word != OK:
            return
        check(len(data) > 5 and (data[0] & 1 == 1 or control != ENFORCE), "user presence 01", data)
        number = int.from_bytes(data[1:5], "big")
        check(number > counter or number == 0, f"a counter above {counter}, or 0", str(number))
        self.made[handle] = (owner, point, number, at)
        cose = {1: 2, 3: -7, -1: 1, -2: point[1:33], -3: point[33:]}
        is_valid = keys.is_valid_signature(cose, application + data[:5] + asked[:HASH], data[5:])
        check(is_valid, "a signature that verifies under the registered key", data[5:])


def is_sign_in(asked: bytes) -> bool:
    """Returns whether the data of a sign-in has a challenge, an application, and a key handle of its length."""
    return len(asked) > HASHES and len(asked) == HASHES + 1 + asked[HASHES]
