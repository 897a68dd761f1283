"""Recordings of clients, with expectations written by hand from the standard.

tests/clients/record.sh and conformance/recorded/browsers.py make the recordings.
"""

from __future__ import annotations

import os
from typing import Any, Dict, List, NamedTuple

from hidlog_conformance import hid_packets as hid
from hidlog_conformance.cases.corpus import Case
from hidlog_conformance.paths import DATA

FOLDER = os.path.join(DATA, "recorded")
TOUCH = ["touch"]
FOUND = ["touch", "reset"]
ASSERTED = "asserted up counter-rises"
SILENT = "asserted no-up counter-rises"
ES256 = ["algorithm -7"]
FIDO2 = "libfido2 1.12.0"
CHROMIUM = "Chromium 156.0.8078.79"
FIREFOX = "Firefox 153.7.0esr"
SSH = "OpenSSH 9.2p1 with libfido2 1.12.0"


class RecordedSession(NamedTuple):
    """A recording: its rule, and the expected response to each message, in order."""

    name: str
    client: str
    section: str
    requirement: str
    expects: List[str]
    needs: List[str] = TOUCH
    uses: List[str] = ES256
    profile: str = ""


RECORDED_SESSIONS = [
    RecordedSession(
        "libfido2_token",
        FIDO2 + ": fido2-token -I",
        "commands",
        "Unsupported commands are refused.",
        ["init", "info", "info", "status 01", "status 01", "status 01"],
        needs=[],
        uses=["no pin"],
        profile="the vendor command 40 may be supported",
    ),
    RecordedSession(
        "libfido2_register",
        FIDO2 + ": fido2-cred -M, fido2-assert -G -t up=true twice",
        "get",
        "Each program gets its own channel, and all share the credentials.",
        ["init", "info", "made up", "init", "info", ASSERTED, "init", "info", ASSERTED],
        uses=ES256 + ["up"],
    ),
    RecordedSession(
        "libfido2_discoverable",
        FIDO2 + ": fido2-cred -M -r for two users, fido2-assert -G -r",
        "next",
        "All accounts are returned, newest first.",
        ["init", "info", "made up", "init", "info", "made up", "init", "info"]
        + [ASSERTED + " user a634e17932285b481a2235733638107c3c231e50614d21f993f753eaefa40146 number 2"]
        + [ASSERTED + " user 3850fd3a3f8f8034e42b49caad9a9e11b0f9bee8e6eab7ffdc31c74a0f7bab5a no-number"],
        needs=FOUND,
        uses=ES256 + ["rk"],
    ),
    RecordedSession(
        "libfido2_refused",
        FIDO2 + ": fido2-cred -M, again by EdDSA, fido2-assert -G at another RP",
        "make",
        "An unsupported algorithm is refused, and so is another RP's credential.",
        ["init", "info", "made up", "init", "info", "status 26", "init", "info", "status 2e"],
        uses=ES256 + ["no algorithm -8"],
    ),
    RecordedSession(
        "openssh_key",
        SSH + ": ssh-keygen -t ecdsa-sk, ssh-keygen -Y sign",
        "get",
        "The credential is found without a touch, then signs with one; a final CANCEL gets no response.",
        ["init", "info", "made up", "silence", "init", "info", "info", SILENT, ASSERTED, "silence"],
        uses=ES256 + ["up"],
    ),
    RecordedSession(
        "openssh_untouched",
        SSH + ": ssh-keygen -t ecdsa-sk -O no-touch-required, ssh-keygen -Y sign",
        "get",
        "With up false the credential signs without a touch and without flag UP.",
        ["init", "info", "made up", "silence", "init", "info", "info", SILENT, SILENT, "silence"],
        uses=ES256 + ["up"],
    ),
    RecordedSession(
        "openssh_refused",
        SSH + ": ssh-keygen -t ed25519-sk",
        "make",
        "An unsupported algorithm is refused; a CANCEL after it gets no response.",
        ["init", "info", "status 26", "silence"],
        needs=[],
        uses=["no algorithm -8"],
    ),
    RecordedSession(
        "pam_u2f",
        "pam-u2f 1.1.0 with " + FIDO2 + ": fido2-cred -M, pamtester",
        "get",
        "The credential is found without a touch, then signs with one.",
        ["init", "info", "made up", "init", "info", SILENT, ASSERTED],
        uses=ES256 + ["up"],
    ),
    RecordedSession(
        "python_fido2",
        "python-fido2 0.9.1: registers, registers again with an exclude list, signs in",
        "make",
        "The first supported algorithm is chosen; an excluded credential ends a registration.",
        ["init", "info", "info", "made up", "info", "status 19", "info", ASSERTED],
    ),
    RecordedSession(
        "chromium_excluded",
        CHROMIUM + ": create, get, create with an exclude list",
        "make",
        "An excluded credential ends a registration after the touch.",
        ["init", "info", "made up", "init", "info", ASSERTED, "init", "info", "status 19"],
    ),
    RecordedSession(
        "chromium_unknown",
        CHROMIUM + ": create, get with an id that isn't the authenticator's",
        "get",
        "If the allow list has no credential of this RP, the status is 2e.",
        ["init", "info", "made up", "init", "info", "status 2e"],
    ),
    RecordedSession(
        "chromium_discoverable",
        CHROMIUM + ": create of a discoverable credential, which it doesn't make without a PIN",
        "make",
        "A registration at a made-up RP, by which a client asks only for a touch, is accepted.",
        ["init", "info", "made up"],
        uses=ES256 + ["no pin"],
    ),
    RecordedSession(
        "firefox_excluded",
        FIREFOX + ": create, get, create with an exclude list",
        "make",
        "Lists are checked without a touch first; then an excluded credential ends the registration after the touch.",
        ["init", "info", "made up", "init", "info", SILENT, ASSERTED, "init", "info", SILENT, "status 19"],
        uses=ES256 + ["up"],
    ),
    RecordedSession(
        "firefox_discoverable",
        FIREFOX + ": create of a discoverable credential, get without a list",
        "get",
        "A discoverable credential is found without an allow list, with its user.",
        ["init", "info", "made up", "init", "info", ASSERTED + " user 626f62 no-number no-name"],
        needs=FOUND,
        uses=ES256 + ["rk"],
    ),
    RecordedSession(
        "firefox_unknown",
        FIREFOX + ": create, get with an id that isn't the authenticator's",
        "get",
        "Without a known credential in the list the status is 2e; then a registration with an empty pinUvAuthParam is refused.",
        ["init", "info", "made up", "init", "info", "status 2e", "refused 02"],
        uses=ES256 + ["up", "no pin"],
        profile="an authenticator without a PIN may request a touch before it refuses",
    ),
]


def read_lines(name: str) -> List[str]:
    """Returns the lines of a recording."""
    with open(os.path.join(FOLDER, name + ".log"), encoding="utf-8") as file:
        return file.read().splitlines()


def complete_expectation(text: str, message: hid.Message) -> str:
    """Completes an expectation with the message's nonce and channel."""
    if text == "init":
        text += f" nonce {message.data.hex()}"
    return text if message.channel in (1, hid.BROADCAST) else f"{text} on {message.channel}"


def build_case(recorded: RecordedSession) -> Case:
    """Converts a recording to a case, with each expectation before the next message."""
    more: Dict[str, Any] = {"needs": recorded.needs, "uses": recorded.uses, "profile": recorded.profile}
    case = Case(f"recorded/{recorded.name}", recorded.section, recorded.requirement, **more)
    case.comment("client: " + recorded.client)
    collector, expects = hid.MessageReassembler(of_host=True), list(recorded.expects)
    due = ""
    for line in read_lines(recorded.name):
        if line.startswith("> "):
            packet = bytes.fromhex(line.split(" ")[2])
            if due and packet[4] & 0x80:
                case.expect(due)
                due = ""
            message = collector.feed(packet)
            if message is not None:
                due = complete_expectation(expects.pop(0), message)
        case.lines.append(line)
    assert due and not expects, (recorded.name, due, expects)
    return case.expect(due)


def cases() -> List[Case]:
    """Returns the cases of this file."""
    return [build_case(recorded) for recorded in RECORDED_SESSIONS]
