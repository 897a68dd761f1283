"""`hidlog judge` reports no MUST violation for clients with a YubiKey 5, SoloKey, Titan, Nitrokey, Feitian or OpenSK."""

from __future__ import annotations

import re

import pytest

from hidlog import logs
from hidlog.judge import judge
from maker_sessions import CLIENTS, MAKERS, make_session

SESSIONS = [(maker, client) for maker in MAKERS for client in CLIENTS]
# The CTAPHID commands and CBOR commands that the sessions of each key must contain, so that the special behavior of the
# key is judged.
SPECIAL_COMMANDS = {
    "feitian_biopass": ("90..*40", "90..*41"),
    "nitrokey_3": ("e1", "e2", "90..*0a"),
    "opensk": ("90..*0b", "90..*0c", "90..*0a"),
    "solokey": ("e1", "e0"),
    "titan_u2f": ("83",),
    "yubikey_5": ("c2", "90..*41", "83"),
}


@pytest.mark.parametrize("maker, client", SESSIONS)
def test_no_session_of_a_known_key_violates_a_must(maker: str, client: str) -> None:
    found = [item for item in judge(make_session(maker, client).log) if item.level == "must"]
    assert found == [], [(item.line, item.side, item.section, item.expected, item.actual) for item in found]


def test_there_are_thirty_sessions_of_six_keys() -> None:
    assert len(MAKERS) == 6 and len(SESSIONS) >= 30


@pytest.mark.parametrize("maker", MAKERS)
def test_each_key_has_its_own_habits(maker: str) -> None:
    text = b"".join(make_session(maker, client).log for client in CLIENTS).decode()
    for command in SPECIAL_COMMANDS[maker]:
        assert re.search(rf"^> \d+ [0-9a-f]{{8}}{command.replace('..*', '[0-9a-f]{4}')}", text, re.M), command


@pytest.mark.parametrize("maker, client", SESSIONS)
def test_each_request_has_its_response(maker: str, client: str) -> None:
    """For each request there is a response at which the transaction ends (hidlog_transactions of hidlog.h)."""
    ends = re.findall(r"^\d+ \d+ \d+ (\w)", logs.transactions(make_session(maker, client).log).text.decode(), re.M)
    assert len(ends) > 5 and set(ends) <= {"a", "s"}, ends


@pytest.mark.parametrize("maker, client", SESSIONS)
def test_a_wrong_signature_is_found(maker: str, client: str) -> None:
    """A wrong signature is found. For U2F, whose signatures are not verified, a wrong version is found."""
    found = [item for item in judge(make_session(maker, client, True).log) if item.level == "must"]
    assert {item.side for item in found} == {"key"}
