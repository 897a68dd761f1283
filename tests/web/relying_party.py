"""A relying party independent of this project: python-fido2's server, over JSON with byte strings in base64url."""

from collections.abc import Mapping
from types import SimpleNamespace

from fido2.attestation import PackedAttestation
from fido2.server import Fido2Server
from fido2.utils import websafe_decode, websafe_encode
from fido2.webauthn import PublicKeyCredentialRpEntity

try:  # Debian 12's
    from fido2.client import ClientData
    from fido2.ctap2 import AttestationObject, AuthenticatorData

    RESIDENT_KEY = "resident_key"
except ImportError:
    from fido2.webauthn import AttestationObject, AuthenticatorData, CollectedClientData as ClientData

    RESIDENT_KEY = "resident_key_requirement"


def verify_packed(attestation, client_data_hash):
    """Verifies a packed self attestation, which has no certificate chain."""
    statement = attestation.att_statement if RESIDENT_KEY == "resident_key" else attestation.att_stmt
    PackedAttestation().verify(statement, attestation.auth_data, client_data_hash)


def to_plain_json(value):
    """Returns options converted to types of JSON, with byte strings as base64url."""
    if isinstance(value, bytes):
        return websafe_encode(value)
    if isinstance(value, Mapping):
        return {key: to_plain_json(inner) for key, inner in value.items() if inner is not None}
    if isinstance(value, (list, tuple)):
        return [to_plain_json(inner) for inner in value]
    return str.__str__(value) if isinstance(value, str) else value


class RelyingParty:
    """Registers users and signs them in. It keeps each user's credentials, and each credential's last signature counter."""

    def __init__(self, origin):
        entity = PublicKeyCredentialRpEntity(id="localhost", name="A service under test")
        self._server = Fido2Server(
            entity, attestation="direct", verify_origin=lambda found: found == origin, verify_attestation=verify_packed
        )
        self._state = None
        self._credentials = {}

    def _list_credentials(self, user):
        return self._credentials.setdefault(user, [])

    def register_begin(self, user, exclude=False, resident=False, verification=None):
        """Returns the options of a registration."""
        entity = {"id": user.encode(), "name": user, "displayName": f"User {user}"}
        known = [credential.data for credential in self._list_credentials(user)] if exclude else None
        parameters = {
            RESIDENT_KEY: resident if RESIDENT_KEY == "resident_key" else "required" if resident else "discouraged"
        }
        options, self._state = self._server.register_begin(entity, known, user_verification=verification, **parameters)
        return to_plain_json(options)

    def register_complete(self, user, clientDataJSON, attestationObject, **_):
        """Verifies a registration, including its attestation."""
        attestation = AttestationObject(websafe_decode(attestationObject))
        data = self._server.register_complete(self._state, ClientData(websafe_decode(clientDataJSON)), attestation)
        self._list_credentials(user).append(SimpleNamespace(data=data.credential_data, counter=data.counter))
        return {"id": websafe_encode(data.credential_data.credential_id), "format": attestation.fmt}

    def sign_in_begin(self, user=None, verification=None):
        """Returns the options of a sign-in: with the allow list of a user, or without one."""
        known = [credential.data for credential in self._list_credentials(user)] if user else None
        options, self._state = self._server.authenticate_begin(known, user_verification=verification)
        return to_plain_json(options)

    def sign_in_complete(self, id, clientDataJSON, authenticatorData, signature, userHandle=None, **_):
        """Verifies a sign-in: the signature, and that the signature counter increased."""
        known = [credential for kept in self._credentials.values() for credential in kept]
        data = AuthenticatorData(websafe_decode(authenticatorData))
        used = self._server.authenticate_complete(
            self._state,
            [credential.data for credential in known],
            websafe_decode(id),
            ClientData(websafe_decode(clientDataJSON)),
            data,
            websafe_decode(signature),
        )
        row = next(credential for credential in known if credential.data.credential_id == used.credential_id)
        if data.counter <= row.counter:
            raise ValueError(f"the signature counter did not increase: {data.counter} after {row.counter}")
        row.counter = data.counter
        return {"counter": data.counter, "user": userHandle and websafe_decode(userHandle).decode()}

    def forget(self):
        """Forgets all users."""
        self._credentials.clear()
        return {}
