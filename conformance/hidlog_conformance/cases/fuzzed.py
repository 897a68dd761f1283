"""Cases that the fuzzer found in faulty authenticators, minimized by fuzzed/find.py and `hidlog shrink`.

The expectations were written by hand, each for a line of the log.
"""

from __future__ import annotations

import os
from typing import Any, Dict, List, NamedTuple

from hidlog_conformance import hid_packets as hid
from hidlog_conformance.cases.corpus import Case
from hidlog_conformance.paths import DATA
from hidlog_conformance.session_file import read_sections

LOGS = os.path.join(DATA, "fuzzed", "findings.logs")
PROFILE_CHOICE = "the standard does not say which of two errors is reported"


class FuzzedCase(NamedTuple):
    """A finding of the fuzzer: its rule, the fault that it detects, and the expectations by line."""

    name: str
    fault: str
    section: str
    requirement: str
    expects: Dict[int, str]
    needs: List[str] = []
    uses: List[str] = []
    profile: str = ""


FUZZED_CASES = [
    FuzzedCase(
        "allow_list_is_a_map",
        "allow_ignored",
        "get",
        "An allow list that is not an array is refused.",
        {1: "init", 2: "refused 11"},
    ),
    FuzzedCase(
        "cancel_on_channel_0",
        "cancel_of_all",
        "cancel",
        "A CANCEL of eight bytes on channel 0 cancels no request.",
        {1: "init", 3: "keepalive 02", 4: "nothing", 7: "made up"},
        needs=["touch"],
    ),
    FuzzedCase(
        "unfinished_message_on_channel_0",
        "channel_silent",
        "channels",
        "The first packet of a long message on channel 0 is refused, before any INIT.",
        {1: "error 0b on 0"},
    ),
    FuzzedCase(
        "excluded_after_long_names",
        "exclude_ignored",
        "make",
        "A credential twice in the exclude list excludes; the user names have characters of three and four bytes.",
        {1: "init", 12: "made up", 17: "status 19"},
        needs=["touch"],
        uses=["rk"],
    ),
    FuzzedCase(
        "registration_of_four_packets",
        "from_one",
        "packets",
        "The response to a registration has several packets, numbered from 0.",
        {1: "init", 8: "made up"},
        needs=["touch"],
    ),
    FuzzedCase(
        "init_before_any_channel",
        "init_keeps_message",
        "channels",
        "INIT on a channel is refused before any channel was allocated.",
        {1: "error 0b on 2"},
    ),
    FuzzedCase(
        "same_nonce_twice",
        "keepalive_after",
        "init",
        "Two INITs with the same nonce get different channels.",
        {1: "init", 2: "init", 3: "init"},
    ),
    FuzzedCase(
        "first_init_too_long",
        "length_wrong_code",
        "packets",
        "An INIT of 29 bytes instead of 8 is refused.",
        {1: "error 03 on ffffffff"},
    ),
    FuzzedCase(
        "missing_before_algorithm",
        "missing_wrong_status",
        "make",
        "A missing user is reported before an unsupported algorithm.",
        {1: "init", 3: "status 14"},
        uses=["no algorithm -8"],
    ),
    FuzzedCase(
        "nothing_pending_after_a_list",
        "next_for_ever",
        "next",
        "After a sign-in with an allow list no assertion is pending.",
        {1: "init", 6: "made up", 10: "asserted up counter-rises", 11: "status 30"},
        needs=["touch"],
        uses=["rk"],
    ),
    FuzzedCase(
        "strange_packet_inside",
        "not_stored",
        "channels",
        "A request on channel 0 between the packets of a message is refused, and the message continues.",
        {1: "init", 2: "init", 4: "error 0b on 0", 7: "keepalive 02 on 2"},
        needs=["touch"],
        uses=["rk"],
        profile=PROFILE_CHOICE,
    ),
    FuzzedCase(
        "error_from_the_host",
        "unknown_silent",
        "error",
        "An ERROR from a host is refused: only devices send it.",
        {1: "init", 2: "error 01"},
    ),
    FuzzedCase(
        "uv_before_the_list",
        "up_ignored",
        "get",
        "Unsupported user verification is reported before errors in the allow list.",
        {1: "init", 5: "status 2c"},
        uses=["no uv"],
    ),
]


def build_case(found: FuzzedCase, lines: List[str]) -> Case:
    """Converts a finding to a case, with the lines of its log."""
    more: Dict[str, Any] = {"needs": found.needs, "uses": found.uses, "profile": found.profile}
    case = Case(f"fuzzed/{found.name}", found.section, found.requirement, **more)
    case.comment("found: in the faulty authenticator " + found.fault)
    assert max(found.expects) == len(lines), (found.name, len(lines))
    for number, line in enumerate(lines, 1):
        case.lines.append(line)
        expected = found.expects.get(number, "")
        if expected == "init":
            packet = bytes.fromhex(line.split(" ")[2])
            assert packet[:5] == b"\xff\xff\xff\xff" + bytes([0x80 | hid.INIT]), found.name
            expected += f" nonce {packet[7:15].hex()}"
        case.expect(*filter(None, expected.split("\n")))
    return case


def cases() -> List[Case]:
    """Returns the cases of this file."""
    logs = read_sections(LOGS)
    return [build_case(found, logs[found.name]) for found in FUZZED_CASES]
