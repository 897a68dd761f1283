#!/usr/bin/env python3
"""python_key.py with a file for its credentials: persistent_key.py FILE

Loads the file at the start, and saves it at the end of input, which is the loss of power.
"""

from __future__ import annotations

import json
import os
import sys
from typing import Any, Dict, List

from cryptography.hazmat.primitives import serialization
from cryptography.hazmat.primitives.asymmetric import ec
from python_key import Credential, Key, serve


def to_json(one: Credential) -> Dict[str, Any]:
    """Converts a credential to JSON, with the private key in clear text."""
    pem = one.private.private_bytes(
        serialization.Encoding.PEM, serialization.PrivateFormat.PKCS8, serialization.NoEncryption()
    )
    user = {**one.user, "id": one.user["id"].hex()}
    kept = {"id": one.id.hex(), "rp": one.rp, "user": user, "discoverable": one.discoverable}
    return {**kept, "private": pem.decode(), "counter": one.counter}


def read(kept: Dict[str, Any]) -> Credential:
    """Converts a credential from JSON."""
    user = {**kept["user"], "id": bytes.fromhex(kept["user"]["id"])}
    one = Credential(kept["rp"], user, kept["discoverable"])
    one.id, one.counter = bytes.fromhex(kept["id"]), kept["counter"]
    private = serialization.load_pem_private_key(kept["private"].encode(), None)
    assert isinstance(private, ec.EllipticCurvePrivateKey)
    one.private = private
    return one


def load(path: str) -> List[Credential]:
    """Returns the credentials of a file; none if it does not exist."""
    if not os.path.exists(path):
        return []
    with open(path, encoding="utf-8") as file:
        return [read(kept) for kept in json.load(file)]


def save(path: str, credentials: List[Credential]) -> None:
    """Writes the credentials."""
    with open(path, "w", encoding="utf-8") as file:
        json.dump([to_json(one) for one in credentials], file)


def main(words: List[str]) -> int:
    """Runs until the end of input."""
    if len(words) != 1:
        print(__doc__, file=sys.stderr)
        return 2
    key = Key(load(words[0]))
    serve(key)
    save(words[0], key.credentials)
    return 0


if __name__ == "__main__":
    sys.exit(main(sys.argv[1:]))
