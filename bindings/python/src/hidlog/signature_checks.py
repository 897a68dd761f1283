"""Verifies the signatures in a recorded session with the public keys in the recording.

    for check in hidlog.verify_signatures(log, snapshot):
        print(check.line, check.rp_id, check.outcome)

Unlike `hidlog check`, this detects a request that was changed after it was recorded: for `hidlog check`, a signature is
only an input of the log. The command is `hidlog check --signatures [--load SNAPSHOT] LOG ..`.
"""

from __future__ import annotations

import argparse
import json
import subprocess
import sys
from collections.abc import Iterable
from pathlib import Path
from typing import Any, NamedTuple

from . import cbor, logs
from .errors import HidlogError, MissingDependencyError, check_bytes
from .files import read_input
from .subprocess_key import find_program

Json = dict[str, Any]
Map = dict[Any, Any]
_ES256 = -7
_REGISTRATION, _SIGN_IN, _NEXT = 1, 2, 8
# Offsets in authenticator data: flags; length of the credential ID, after the AAGUID; credential ID. And the flag AT.
_FLAGS, _IS_ATTESTED, _LENGTH, _ID = 32, 0x40, 53, 55


class SignatureCheck(NamedTuple):
    """The result of verifying a signature.

    line     line number of the last packet of the response.
    kind     attestation or assertion.
    rp_id    RP ID of the request.
    outcome  good, wrong, or unknown if the recording lacks what is needed to verify it.
    text     explanation.
    """

    line: int
    kind: str
    rp_id: str
    outcome: str
    text: str


def verify_signatures(log: bytes, snapshot: bytes | None = None) -> list[SignatureCheck]:
    """Verifies each signature in a log: of attestations and of assertions.

    The public key is that of the registration in the log, or of the snapshot that the log started with. `hidlog show
    --json` assigns responses to requests.
    """
    data = check_bytes("the log", log)
    begin = b"" if snapshot is None else check_bytes("the snapshot", snapshot)
    verifier = _Verifier(_load_verify())
    from .credentials import read_snapshot  # needs cryptography, too

    for row in read_snapshot(begin):
        verifier.keys[row.id] = (row.public_key_x, row.public_key_y)
    ran = subprocess.run([find_program(), "show", "--json"], input=data, stdout=subprocess.PIPE, check=False)
    if ran.returncode and (ran.returncode < 0 or not logs.show(data).status):
        raise HidlogError(f"hidlog show ended with status {ran.returncode}")
    return verifier.read(json.loads(line) for line in ran.stdout.splitlines())


def _load_verify() -> Any:
    """Returns a function that verifies an ES256 signature with a public key's coordinates."""
    try:
        from cryptography.exceptions import InvalidSignature
        from cryptography.hazmat.primitives import hashes
        from cryptography.hazmat.primitives.asymmetric import ec
    except ImportError as missing:
        raise MissingDependencyError(
            "verifying signatures needs cryptography: apt-get install python3-cryptography"
        ) from missing

    def is_good(key: tuple[bytes, bytes], signature: bytes, signed: bytes) -> bool:
        x, y = (int.from_bytes(coordinate, "big") for coordinate in key)
        numbers = ec.EllipticCurvePublicNumbers(x, y, ec.SECP256R1())
        try:
            numbers.public_key().verify(signature, signed, ec.ECDSA(hashes.SHA256()))
        except (InvalidSignature, ValueError):
            return False
        return True

    return is_good


class _Verifier:
    """Reads the objects of `hidlog show --json`, and collects public keys."""

    def __init__(self, is_good: Any):
        self.is_good = is_good
        self.keys: dict[bytes, tuple[bytes, bytes]] = {}
        self.requests: dict[int, Json] = {}
        # The request of the last sign-in on each channel, which authenticatorGetNextAssertion continues.
        self.last: dict[str, Json] = {}

    def read(self, entries: Iterable[Json]) -> list[SignatureCheck]:
        """Returns the result for each signature."""
        found = []
        for entry in entries:
            if entry["kind"] == "request" and "transaction" in entry:
                self.requests[entry["transaction"]] = entry
            elif entry["kind"] == "answer" and entry.get("status") == 0 and "transaction" in entry:
                found += self.verify_response(entry)
        return found

    def verify_response(self, response: Json) -> list[SignatureCheck]:
        """Verifies the signature in a response, if there is one."""
        request = self.requests.pop(response["transaction"], None)
        if request is None or request["command"] not in (_REGISTRATION, _SIGN_IN, _NEXT) or "bytes" not in response:
            return []
        if request["command"] == _SIGN_IN:
            self.last[request["channel"]] = request
        if request["command"] == _NEXT:
            request = self.last.get(request["channel"], request)
        kind = "attestation" if request["command"] == _REGISTRATION else "assertion"
        try:
            call = self.verify_attestation if kind == "attestation" else self.verify_assertion
            outcome, text = call(_decode_map(request), _decode_map(response))
        except (ValueError, KeyError, IndexError, TypeError, AttributeError):
            outcome, text = "unknown", "its request or its response lacks a signed member"
        return [SignatureCheck(response["line"], kind, request.get("rpId", ""), outcome, text)]

    def verify_attestation(self, request: Map, made: Map) -> tuple[str, str]:
        """Stores a new credential's public key, and verifies its self attestation."""
        data, statement = made[2], made[3]
        credential_id, key = _read_credential(data)
        if key.get(3) != _ES256:
            return "unknown", f"the credential's algorithm is {key.get(3)}; only ES256 (-7) is supported"
        self.keys[credential_id] = (key[-2], key[-3])
        if made[1] != "packed" or "x5c" in statement:
            kind = f"format {made[1]}" + (" with a certificate" if "x5c" in statement else "")
            return "unknown", f"the attestation has {kind}; only self attestation is supported"
        return self.check_signature(credential_id, statement["sig"], data, request[1])

    def verify_assertion(self, request: Map, used: Map) -> tuple[str, str]:
        """Verifies a sign-in."""
        credential_id = used[1]["id"] if 1 in used else request[3][0]["id"]
        if credential_id not in self.keys:
            return (
                "unknown",
                f"no public key of credential {credential_id.hex()} in the log; use --load with its snapshot",
            )
        return self.check_signature(credential_id, used[3], used[2], request[2])

    def check_signature(self, credential_id: bytes, signature: bytes, data: bytes, client: bytes) -> tuple[str, str]:
        """Verifies a signature over authenticator data and the client data hash."""
        if self.is_good(self.keys[credential_id], signature, data + client):
            return "good", "it matches the response's authenticator data and the request's clientDataHash"
        return "wrong", (
            "it does not match the response's authenticator data and the request's clientDataHash, with the public key of"
            f" credential {credential_id.hex()}"
        )


def _decode_map(entry: Json) -> Map:
    """Returns the CBOR map of a request or a response."""
    found: Map = cbor.decode(bytes.fromhex(entry["bytes"])) if "bytes" in entry else {}
    return found


def _read_credential(data: bytes) -> tuple[bytes, Map]:
    """Returns the credential ID and the public key in authenticator data (WebAuthn Level 3, section 6.5.1)."""
    if not data[_FLAGS] & _IS_ATTESTED:
        raise ValueError("no attested credential data")
    end = _ID + int.from_bytes(data[_LENGTH:_ID], "big")
    key, _ = cbor.decode_first(data[end:])
    return data[_ID:end], key


def main(args: list[str]) -> int:
    """Runs `hidlog check --signatures`. The exit status is 0 if all logs match and no signature is wrong, 1 if not, and
    2 on errors."""
    parser = argparse.ArgumentParser(
        prog="hidlog check --signatures",
        description="Check logs, and verify each signature with the public keys in the log.",
    )
    parser.add_argument("--signatures", action="store_true", help="verify signatures, too")
    parser.add_argument("--load", metavar="SNAPSHOT", help="credentials that the logs started with")
    parser.add_argument("logs", nargs="*", metavar="LOG", help="log file [default: standard input]")
    options = parser.parse_args(args)
    snapshot = read_input(Path(options.load)) if options.load else None
    wrong = [_print_result(log, snapshot) for log in options.logs or ["-"]]
    return int(any(wrong))


def _print_result(name: str, snapshot: bytes | None) -> bool:
    """Prints the result for a log, and returns whether the log does not match or a signature is wrong."""
    data = read_input(name)
    checked = logs.check(data, snapshot)
    if checked.status == 2:
        checked.raise_for_fault()
    try:
        print(checked.raise_for_fault().text.decode().strip())
    except HidlogError as error:
        print(f"hidlog: {error}", file=sys.stderr)
    found = verify_signatures(data, snapshot)
    for check in found:
        if check.outcome != "good":
            print(f"line {check.line}: the signature of the {check.kind} is {check.outcome}: {check.text}")
    print(f"{sum(check.outcome == 'good' for check in found)} of {len(found)} signatures are good")
    return bool(checked.status) or any(check.outcome == "wrong" for check in found)
