"""Merges registrations whose requests differ from a plain one in different members into one with all of them."""

from __future__ import annotations

from typing import Any, Dict, List, Optional

from hidlog_conformance import ctap_cbor
from hidlog_conformance.answers import MAKE
from hidlog_conformance.cases import cbor, variations
from hidlog_conformance.cases.corpus import registration_parameters
from hidlog_conformance.outline import REGISTRATION, decode_parameters, get_cbor_request
from hidlog_conformance.session_file import Session, parse_session

# The maximum length of a merged request in bytes, for any maxMsgSize. Members for PINs are not merged.
LONGEST = 1000
RP, EXCLUDE_LIST, MERGED = 2, 5, (6, 7)
IGNORED = ("cbor/taken_", "make/two_unknown_options")


def read_registration(session: Session) -> Optional[Dict[Any, Any]]:
    """Returns the parameters of the registration of a case that only registers, with success; None for other cases."""
    steps = [step for step in session.steps if not (step.expects[:1] and step.expects[0].startswith("init "))]
    if tuple(step.kind for step in steps) not in (REGISTRATION, REGISTRATION * 2) or "reset" in session.needs:
        return None
    last = steps[-len(REGISTRATION) :]
    request, expects = get_cbor_request(last[0]), last[-1].expects
    asked = decode_parameters(request) if request[:1] == bytes([MAKE]) else {}
    is_plain = len(expects) == 1 and expects[0].startswith("made up") and " on " not in expects[0]
    if not is_plain or any(step.expects for step in last[:-1]) or len(request) > LONGEST:
        return None
    plain = registration_parameters()
    is_comparable = set(plain) <= set(asked) and asked[RP].get("id") == plain[RP]["id"] and not {8, 10} & set(asked)
    is_comparable = is_comparable and asked.get(EXCLUDE_LIST) != [] and "uv" not in (asked.get(7) or {})
    return asked if is_comparable and asked != plain else None


def merge(asked: Dict[Any, Any], other: Dict[Any, Any]) -> Optional[Dict[Any, Any]]:
    """Returns a plain request with the additional members of both requests; None if they have different values for
    one."""
    plain, found = registration_parameters(), dict(asked)
    for key, value in other.items():
        if value == plain.get(key) or value == found.get(key):
            continue
        if key in MERGED and isinstance(value, dict) and isinstance(found.get(key, {}), dict):
            inner = found.get(key, {})
            if any(inner.get(name, item) != item for name, item in value.items()):
                return None
            found[key] = {**inner, **value}
        elif key == EXCLUDE_LIST and isinstance(value, list) and isinstance(found.get(key, []), list):
            found[key] = found.get(key, []) + [entry for entry in value if entry not in found.get(key, [])]
        elif found.get(key) == plain.get(key):
            found[key] = value
        else:
            return None
    return found if len(ctap_cbor.encode(found)) < LONGEST else None


def list_ignored() -> List[Session]:
    """Returns the cases of one registration with members that a device ignores."""
    cases = [case for case in cbor.cases() + variations.cases() if case.name.startswith(IGNORED)]
    return [parse_session(case.lines, case.name) for case in cases]


def merge_ignored() -> Dict[Any, Any]:
    """Returns the parameters of a registration with all members that a device ignores."""
    found: Optional[Dict[Any, Any]] = registration_parameters()
    for session in list_ignored():
        asked = read_registration(session)
        found = merge(found, asked) if found is not None and asked is not None else None
        assert found is not None, session.name
    assert found is not None
    return found
