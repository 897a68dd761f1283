"""A service and a browser with python-fido2 0.9."""

from __future__ import annotations

from collections.abc import Callable
from typing import Any

import pytest
from fido2.client import ClientError, Fido2Client
from fido2.server import Fido2Server

import hidlog

ORIGIN = "https://example.com"
CLIENT_ERRORS = ClientError.ERR


class Service:
    """A service and a browser with python-fido2."""

    def __init__(self, key: hidlog.SecurityKey):
        self.key = key
        self.server = Fido2Server({"id": "example.com", "name": "Example"})
        self.client = Fido2Client(key.device(), ORIGIN)

    def register(
        self, name: str = "alice", known: tuple[Any, ...] = (), discoverable: bool = True, **words: Any
    ) -> Any:
        """Registers, and returns the service's credential data."""
        user = {"id": name.encode(), "name": name, "displayName": name.title()}
        asked, state = self.server.register_begin(user, list(known), resident_key=discoverable)
        made = self.client.make_credential(asked["publicKey"], **words)
        return self.server.register_complete(state, made.client_data, made.attestation_object).credential_data

    def sign_in(self, credentials: list[Any], allowed: tuple[Any, ...] = (), account: int = 0, **words: Any) -> Any:
        """Signs in. Returns the browser's response after the service has verified it."""
        asked, state = self.server.authenticate_begin(list(allowed))
        found = self.client.get_assertion(asked["publicKey"], **words).get_response(account)
        parts = (found.client_data, found.authenticator_data, found.signature)
        self.server.authenticate_complete(state, credentials, found.credential_id, *parts)
        return found


def check_refused(code: int, status: int | None, ask: Callable[..., Any], *words: Any, **options: Any) -> None:
    with pytest.raises(ClientError) as caught:
        ask(*words, **options)
    assert (caught.value.code, getattr(caught.value.cause, "code", None)) == (code, status)
