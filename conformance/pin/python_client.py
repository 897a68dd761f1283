#!/usr/bin/env python3
"""Sets a PIN, registers and signs in with python-fido2: python_client.py PROTOCOL

Writes and reads packets as lines, and ends with a line `ok` or `refused`."""

from __future__ import annotations

import os
import sys
from typing import Any, List

HERE = os.path.dirname(os.path.abspath(__file__))
sys.path.insert(0, os.path.join(HERE, "..", "clients"))

from fido2.ctap import CtapError  # noqa: E402
from fido2.ctap2 import AttestationObject, Ctap2  # noqa: E402
from fido2.ctap2.extensions import HmacSecretExtension  # noqa: E402
from fido2.ctap2.pin import ClientPin, PinProtocolV1, PinProtocolV2  # noqa: E402
import python_fido2 as client  # noqa: E402

RP, HASH = "example.com", b"\x33" * 32
USER = {"id": b"alice", "name": "alice", "displayName": "Alice"}
ES256 = [{"alg": -7, "type": "public-key"}]
UV = 0x04


def try_wrong_pin(pin: Any) -> None:
    """Tries a wrong PIN, and compares the retries."""
    before = pin.get_pin_retries()[0]
    try:
        pin.get_pin_token("9999", ClientPin.PERMISSION.MAKE_CREDENTIAL, RP)
    except CtapError as refused:
        if refused.code != CtapError.ERR.PIN_INVALID:
            raise
    else:
        raise ValueError("a wrong PIN was accepted")
    if pin.get_pin_retries()[0] != before - 1:
        raise ValueError("a wrong PIN did not decrement the retries")


def register_with_pin(ctap: Any, pin: Any, protocol: Any) -> AttestationObject:
    """Registers a discoverable credential with the PIN, and with the extensions."""
    token = pin.get_pin_token("4321", ClientPin.PERMISSION.MAKE_CREDENTIAL, RP)
    asked = {"credProtect": 3, "credBlob": b"a blob", "hmac-secret": True}
    param = protocol.authenticate(token, HASH)
    rp = {"id": RP, "name": "Example"}
    made = ctap.make_credential(HASH, rp, USER, ES256, None, asked, {"rk": True}, param, protocol.VERSION)
    auth = made.auth_data
    auth.credential_data.public_key.verify(auth + HASH, made.att_statement["sig"])
    if not auth.flags & UV or auth.extensions != {"credProtect": 3, "credBlob": True, "hmac-secret": True}:
        raise ValueError(f"flags {auth.flags:02x}, extensions {auth.extensions}")
    return made


def make_secret_input(extension: Any, ctap: Any, salts: List[bytes]) -> Any:
    """Returns the input of hmac-secret."""
    return extension.process_get_input({"hmacGetSecret": {f"salt{n}": salt for n, salt in enumerate(salts, 1)}})


def sign_in_with_secrets(ctap: Any, pin: Any, protocol: Any, made: Any) -> None:
    """Signs in without an allow list, with the PIN and with secrets."""
    extension = HmacSecretExtension(ctap, protocol)
    secrets = []
    for salts in ([b"1" * 32], [b"1" * 32, b"2" * 32]):
        token = pin.get_pin_token("4321", ClientPin.PERMISSION.GET_ASSERTION, RP)
        asked = {"credBlob": True, "hmac-secret": make_secret_input(extension, ctap, salts)}
        param = protocol.authenticate(token, HASH)
        found = ctap.get_assertion(RP, HASH, None, asked, None, param, protocol.VERSION)
        found.verify(HASH, made.auth_data.credential_data.public_key)
        if not found.auth_data.flags & UV or found.auth_data.extensions["credBlob"] != b"a blob":
            raise ValueError("no user verification, or a wrong blob")
        secrets.append(extension.process_get_output(found.auth_data))
    if secrets[0]["hmacGetSecret"]["output1"] != secrets[1]["hmacGetSecret"]["output1"]:
        raise ValueError("different secrets for the same salt")


def main(words: List[str]) -> int:
    """Sets a PIN, changes it, and signs in with it."""
    ctap = Ctap2(client.device())
    protocol = {1: PinProtocolV1, 2: PinProtocolV2}[int(words[0])]()
    pin = ClientPin(ctap, protocol)
    pin.set_pin("1234")
    pin.change_pin("1234", "4321")
    try_wrong_pin(pin)
    made = register_with_pin(ctap, pin, protocol)
    sign_in_with_secrets(ctap, pin, protocol, made)
    print("ok", flush=True)
    return 0


if __name__ == "__main__":
    try:
        sys.exit(main(sys.argv[1:]))
    except (CtapError, ValueError, KeyError, TypeError, AttributeError) as fault:
        print(f"refused {fault!r}", flush=True)
        sys.exit(1)
