#!/usr/bin/env python3
"""Verifies registrations and sign-ins of the key with libraries for relying parties. Some of them are invalid.

    tests/relying_parties/run.py [NAME ..]     default: all installed libraries: python, perl, ruby, go

The key registers and signs in with python-fido2's client; with user verification, at a service of http://localhost,
with the package's browser. Each library gets the same cases as JSON, and must accept the valid ones and reject the
invalid ones. The last line is `N passed, N failed, N skipped`. Exit status 1 if a verdict is wrong, 3 if no library is
installed. Needs python3-fido2 and python3-cryptography.
"""

from __future__ import annotations

import json
import os
import shutil
import subprocess
import sys
import tempfile
from base64 import urlsafe_b64encode
from copy import deepcopy
from pathlib import Path
from typing import Any, Callable, NamedTuple

HERE = Path(__file__).resolve().parent
TOP = HERE.parent.parent
sys.path.insert(0, str(TOP / "bindings" / "python" / "src"))

from fido2 import cbor
from fido2.client import Fido2Client
from hidlog import SecurityKey, check
from hidlog.attestation_certificates import ROOT_CERTIFICATE
from hidlog.webauthn_json import authentication_json, b64url_decode as data, b64url_encode as text, registration_json

ORIGIN, RP_ID = "https://example.com", "example.com"
LOCAL_ORIGIN = "http://localhost:5000"
Case = dict[str, Any]
Json = dict[str, Any]


class Library(NamedTuple):
    """A relying party library: its Debian package, whether it is installed, and the command that verifies cases."""

    package: str
    is_there: Callable[[], bool]
    command: list[str]


def make_availability_test(*words: str) -> Callable[[], bool]:
    """Returns a function that tests whether a command is installed and exits with 0."""
    return lambda: shutil.which(words[0]) is not None and not subprocess.run(words, capture_output=True).returncode


GO_SOURCES = Path("/usr/share/gocode/src/github.com/duo-labs/webauthn")
LIBRARIES = {
    "python": Library("python3-fido2", lambda: True, [sys.executable, str(HERE / "judge.py")]),
    "perl": Library(
        "libauthen-webauthn-perl",
        make_availability_test("perl", "-MAuthen::WebAuthn", "-e1"),
        ["perl", f"{HERE}/judge.pl"],
    ),
    "ruby": Library("ruby-webauthn", make_availability_test("ruby", "-rwebauthn", "-e1"), ["ruby", f"{HERE}/judge.rb"]),
    "go": Library(
        "golang-go golang-github-duo-labs-webauthn-dev",
        lambda: shutil.which("go") is not None and GO_SOURCES.is_dir(),
        ["go", "run", f"{HERE}/judge.go"],
    ),
}
# The errors with which a library gives no verdict: with OpenSSL 3, for an algorithm, or because it crashes.
KNOWN_WITHOUT_VERDICT = {
    "ruby": [
        "pkeys are immutable on OpenSSL 3.0",
        "rsa#set_key= is incompatible with OpenSSL 3.0",
        "The public key algorithm -8 is not among the available COSE algorithms",
        "undefined method `name' for nil",
    ],
    "perl": ["Unsupported algorithm -8", "Unsupported key type"],
    "go": ["panic: interface conversion: error is *errors.errorString"],
}


def make_client(key: SecurityKey, origin: str = ORIGIN) -> Fido2Client:
    return Fido2Client(key.device(), origin, verify=lambda rp_id, _: True)


def make_registration_case(key: SecurityKey, challenge: bytes, rp_id: str = RP_ID, origin: str = ORIGIN) -> Case:
    """Registers, and returns the case."""
    made = make_client(key, origin).make_credential(
        {
            "rp": {"id": rp_id, "name": "Example"},
            "user": {"id": b"alice", "name": "alice", "displayName": "Alice"},
            "challenge": challenge,
            "pubKeyCredParams": [{"type": "public-key", "alg": -7}],
            "authenticatorSelection": {"requireResidentKey": True},
        }
    )
    public = made.attestation_object.auth_data.credential_data.public_key
    return {
        "kind": "registration",
        "verification": "discouraged",
        "origin": ORIGIN,
        "rp_id": RP_ID,
        "challenge": text(challenge),
        "credential": registration_json(made.client_data, made.attestation_object),
        "public_key": text(cbor.encode(dict(public))),
    }


def make_sign_in_case(key: SecurityKey, made: Case, challenge: bytes, rp_id: str = RP_ID, origin: str = ORIGIN) -> Case:
    """Signs in, and returns the case, for a service that has seen no sign-in before."""
    asked = {"challenge": challenge, "rpId": rp_id}
    found = make_client(key, origin).get_assertion(asked).get_response(0)
    parts = (found.client_data, found.authenticator_data, found.signature, found.user_handle)
    answer = authentication_json(found.credential_id, *parts)
    return {**made, "kind": "assertion", "challenge": text(challenge), "counter": 0, "credential": answer}


def change_members(case: Case, **members: Any) -> Case:
    """Returns the case with these members changed."""
    return {**deepcopy(case), **members}


def flip_last_bit(case: Case, member: str) -> Case:
    """Returns the case with the last bit of a member of its response flipped."""
    other = deepcopy(case)
    response = other["credential"]["response"]
    check_bytes = bytearray(data(response[member]))
    check_bytes[-1] ^= 1
    response[member] = text(bytes(check_bytes))
    return other


def replace_attestation_signature(case: Case) -> Case:
    """Returns the registration with another, well-formed signature in its attestation statement."""
    other = deepcopy(case)
    response = other["credential"]["response"]
    made = cbor.decode(data(response["attestationObject"]))
    signature = bytearray(made["attStmt"]["sig"])
    signature[-1] ^= 1
    made["attStmt"]["sig"] = bytes(signature)
    response["attestationObject"] = urlsafe_b64encode(cbor.encode(made)).rstrip(b"=").decode()
    return other


def read_cose_key(key: SecurityKey, credential: Json) -> str:
    """Returns the COSE key of a credential."""
    held = key.credentials.get(data(credential["id"]))
    return str(text(cbor.encode({1: 2, 3: -7, -1: 1, -2: held.public_key_x, -3: held.public_key_y})))


def make_verified_cases() -> list[tuple[str, bool, Case]]:
    """Returns cases of a service at http://localhost that requires user verification and a resident key.

    The browser is the package's own. Signatures without user verification must be refused.
    """
    first, second = (os.urandom(32) for _ in range(2))
    base = {"verification": "required", "origin": LOCAL_ORIGIN, "rp_id": "localhost", "counter": 0}
    with SecurityKey(verification="verified", attachment="platform") as key:
        browser = key.browser(LOCAL_ORIGIN)
        asked: Json = {
            "rp": {"name": "Example"},
            "user": {"id": text(b"alice"), "name": "alice", "displayName": "Alice"},
            "challenge": text(first),
            "pubKeyCredParams": [{"type": "public-key", "alg": -7}],
            "authenticatorSelection": {"residentKey": "required", "userVerification": "required"},
        }
        made = browser.create(asked)
        found = browser.get({"challenge": text(second), "userVerification": "required"})
        unseen = browser.get({"challenge": text(second), "userVerification": "discouraged"})
        public = read_cose_key(key, found)
        key.verification = "none"
        unverified = browser.create({**asked, "authenticatorSelection": {"residentKey": "required"}})
        key.verification = "verified"
        key.default_backup_eligibility = key.default_backup_state = True
        backed = browser.create(asked)
    check_flags([(made, 0x45), (found, 0x05), (unseen, 0x01), (backed, 0x5D), (unverified, 0x41)])
    for snapshot, log in key.recordings:
        check(log, snapshot).raise_for_fault()
    registration = {**base, "kind": "registration", "challenge": text(first)}
    sign_in = {**base, "kind": "assertion", "challenge": text(second), "public_key": public}
    return [
        ("a registration with user verification", True, {**registration, "credential": made}),
        ("a registration with user verification, backed up", True, {**registration, "credential": backed}),
        ("a registration without user verification", False, {**registration, "credential": unverified}),
        ("a sign-in with user verification", True, {**sign_in, "credential": found}),
        ("a sign-in without user verification", False, {**sign_in, "credential": unseen}),
        ("a sign-in whose flag UV was set later", False, {**sign_in, "credential": set_flag_uv(unseen)}),
    ]


# Attestations, as a service requests them: what the page gets, by the key's option `attestation`.
ATTESTATIONS = [("none", "basic", "none"), ("packed self", "self", "direct"), ("packed x5c", "basic", "direct")]
AAGUID = "01020304-0506-0708-0102-030405060708"


def make_format_cases() -> list[tuple[str, bool, Case]]:
    """Returns cases of each attestation format with each algorithm, by the package's browser: valid and changed ones."""
    cases = []
    for algorithm, name in ((-7, "ES256"), (-8, "EdDSA"), (-257, "RS256")):
        for title, attestation, requested in ATTESTATIONS:
            cases += make_cases_of_format(f"{name}, {title}", algorithm, attestation, requested)
    return cases


def make_cases_of_format(title: str, algorithm: int, attestation: str, requested: str) -> list[tuple[str, bool, Case]]:
    """Returns a registration and a sign-in, and both with a changed signature."""
    challenges = [os.urandom(32) for _ in range(2)]
    base = {"verification": "discouraged", "origin": LOCAL_ORIGIN, "rp_id": "localhost", "counter": 0}
    with SecurityKey(algorithms=(-7, -8, -257), attestation=attestation, aaguid=AAGUID) as key:
        browser = key.browser(LOCAL_ORIGIN)
        asked: Json = {
            "rp": {"name": "Example"},
            "user": {"id": text(b"alice"), "name": "alice", "displayName": "Alice"},
            "challenge": text(challenges[0]),
            "pubKeyCredParams": [{"type": "public-key", "alg": algorithm}],
            "attestation": requested,
        }
        made = browser.create(asked)
        listed = [{"type": "public-key", "id": made["id"]}]
        found = browser.get({"challenge": text(challenges[1]), "allowCredentials": listed})
    for snapshot, log in key.recordings:
        check(log, snapshot).raise_for_fault()
    check_format(title, made, attestation, requested)
    shared = {**base, "public_key": read_attested_key(made), "root": text(ROOT_CERTIFICATE)}
    registration = {**shared, "kind": "registration", "challenge": text(challenges[0]), "credential": made}
    sign_in = {**shared, "kind": "assertion", "challenge": text(challenges[1]), "credential": found}
    cases = [
        (f"a registration of {title}", True, registration),
        (f"a sign-in of {title}", True, sign_in),
        (f"a sign-in of {title} with a wrong signature", False, flip_last_bit(sign_in, "signature")),
    ]
    if title.endswith("none"):
        return cases
    wrong = replace_attestation_signature(registration)
    return [*cases, (f"a registration of {title} with a wrong signature", False, wrong)]


def check_format(title: str, made: Json, attestation: str, requested: str) -> None:
    """Compares the format, certificates and AAGUID of a registration with what was requested."""
    found = cbor.decode(data(made["response"]["attestationObject"]))
    is_certified = attestation == "basic" and requested == "direct"
    expected = ("none" if requested == "none" else "packed", is_certified)
    if (found["fmt"], "x5c" in found["attStmt"]) != expected:
        raise SystemExit(f"run.py: {title}: expected {expected}, got {found['fmt']} {sorted(found['attStmt'])}")
    aaguid = bytes(16) if requested == "none" else bytes.fromhex(AAGUID.replace("-", ""))
    if found["authData"][37:53] != aaguid:
        raise SystemExit(f"run.py: {title}: expected the AAGUID {aaguid.hex()}, got {found['authData'][37:53].hex()}")


def read_attested_key(made: Json) -> str:
    """Returns the COSE key in the authenticator data of a registration."""
    auth_data = data(made["response"]["authenticatorData"])
    end = 55 + int.from_bytes(auth_data[53:55], "big")
    return str(text(auth_data[end:]))


def check_flags(answers: list[tuple[Json, int]]) -> None:
    """Compares flags with those of WebAuthn Level 3, section 6.1."""
    for answer, flags in answers:
        found = data(answer["response"]["authenticatorData"])[32]
        if found != flags:
            raise SystemExit(f"run.py: expected the flags 0x{flags:02X}, got 0x{found:02X}")


def set_flag_uv(answer: Json) -> Json:
    """Returns a sign-in with flag UV set afterwards."""
    other = deepcopy(answer)
    changed_data = bytearray(data(other["response"]["authenticatorData"]))
    changed_data[32] |= 0x04
    other["response"]["authenticatorData"] = text(bytes(changed_data))
    return other


def make_cases(key: SecurityKey) -> list[tuple[str, bool, Case]]:
    """Returns each case, with its name and whether it is valid."""
    first, second, third = (os.urandom(32) for _ in range(3))
    made = make_registration_case(key, first)
    elsewhere = make_registration_case(key, first, "evil.example", ORIGIN)
    other_origin = make_registration_case(key, first, RP_ID, "https://evil.example")
    # The newest credential signs, so the one to sign in with is registered last.
    made = make_registration_case(key, first)
    found = make_sign_in_case(key, made, second)
    again = make_sign_in_case(key, made, third)
    other_rp = make_sign_in_case(key, made, second, "evil.example")
    return [
        ("a registration", True, made),
        ("a registration with a repeated challenge", False, change_members(made, challenge=text(second))),
        ("a registration at another origin", False, other_origin),
        ("a registration for another RP", False, elsewhere),
        ("a registration with a wrong signature", False, replace_attestation_signature(made)),
        ("a sign-in", True, found),
        ("a second sign-in", True, change_members(again, counter=1)),
        ("a sign-in with a wrong signature", False, flip_last_bit(found, "signature")),
        ("a sign-in with changed authenticator data", False, flip_last_bit(found, "authenticatorData")),
        ("a sign-in with a repeated challenge", False, change_members(found, challenge=text(third))),
        ("a sign-in whose counter fell", False, change_members(again, counter=7)),
        ("a sign-in whose counter did not rise", False, change_members(again, counter=2)),
        ("a sign-in at another origin", False, change_members(found, origin="https://www.example.com")),
        ("a sign-in for another RP", False, other_rp),
    ]


def get_verdicts(name: str, cases: list[tuple[str, bool, Case]]) -> list[str]:
    """Returns a library's verdict on each case: "yes", "no: REASON", or "none: REASON" if it fails."""
    cases_json = json.dumps([case for _, _, case in cases])
    with tempfile.TemporaryDirectory() as cache:
        # Debian's Go packages are in a GOPATH, and nothing is downloaded.
        more = {"GOPATH": "/usr/share/gocode", "GO111MODULE": "off", "GOFLAGS": "", "GOCACHE": cache}
        ran = subprocess.run(
            LIBRARIES[name].command,
            input=cases_json,
            capture_output=True,
            text=True,
            env={**os.environ, **more},
            timeout=300,
        )
    verdicts = ran.stdout.splitlines()
    if ran.returncode or len(verdicts) != len(cases):
        raise SystemExit(f"{name}: status {ran.returncode}, {len(verdicts)} verdicts: {ran.stderr[-900:]}")
    return verdicts


def main() -> int:
    names = sys.argv[1:] or list(LIBRARIES)
    for name in names:
        if name not in LIBRARIES:
            print(f"run.py: no library {name}; available: {', '.join(LIBRARIES)}", file=sys.stderr)
            return 2
    with SecurityKey() as key:
        cases = make_cases(key) + make_verified_cases() + make_format_cases()
    passed = failed = skipped = 0
    for name in names:
        if not LIBRARIES[name].is_there():
            print(f"skipped  {name}: apt-get install {LIBRARIES[name].package}")
            skipped += len(cases)
            continue
        for (title, is_right, _), verdict in zip(cases, get_verdicts(name, cases)):
            is_expected = verdict.startswith("yes" if is_right else "no: ")
            if not is_expected and any(known in verdict for known in KNOWN_WITHOUT_VERDICT.get(name, [])):
                print(f"skipped  {name}: {title}: no verdict: {verdict}")
                skipped += 1
            elif is_expected:
                print(f"ok       {name}: {title}: {verdict[:100]}")
                passed += 1
            else:
                print(f"FAILED   {name}: {title}: {verdict}")
                failed += 1
    print(f"{passed} passed, {failed} failed, {skipped} skipped")
    return 1 if failed else 0 if passed else 3


if __name__ == "__main__":
    sys.exit(main())
