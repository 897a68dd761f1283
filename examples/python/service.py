"""A sign-in service with python-fido2's server, versions 0.9 to 2.2. Options and responses are JSON.

Replace this module by your own service.
"""

import importlib
import json

from fido2.server import Fido2Server
from fido2.webauthn import PublicKeyCredentialRpEntity, PublicKeyCredentialUserEntity, UserVerificationRequirement
from hidlog import webauthn_json

try:
    features = importlib.import_module("fido2.features")
except ImportError:
    features = None  # version 0.9, without JSON
if hasattr(features, "webauthn_json_mapping"):
    features.webauthn_json_mapping.enabled = True  # needed for JSON in versions 1.x


class Service:
    """A service's user accounts, and the two steps of a registration and of a sign-in."""

    def __init__(self, origin="http://localhost:5000", rp_id="localhost"):
        entity = PublicKeyCredentialRpEntity(id=rp_id, name="Example")
        self.server = Fido2Server(entity, verify_origin=lambda found: found == origin)
        self.accounts = {}
        self.state = None

    def registration_options(self, name, known=(), resident="required", verification=None):
        """Returns the options for navigator.credentials.create."""
        user = PublicKeyCredentialUserEntity(id=name.encode(), name=name, display_name=name.title())
        wanted = verification and UserVerificationRequirement(verification)
        options, self.state = self.server.register_begin(user, list(known), user_verification=wanted)
        options = webauthn_json.creation_options_json(dict(options))
        options.setdefault("authenticatorSelection", {}).update(residentKey=resident)
        return json.loads(json.dumps(options))

    def register(self, response):
        """Verifies a registration, and returns the stored credential data."""
        account = self._store_credential(response).credential_data
        self.accounts[response["id"]] = account
        return account

    def _store_credential(self, response):
        if features:
            return self.server.register_complete(self.state, response)
        from fido2.client import ClientData
        from fido2.ctap2 import AttestationObject

        made = webauthn_json.registration(response)["response"]
        parts = ClientData(made["clientDataJSON"]), AttestationObject(made["attestationObject"])
        return self.server.register_complete(self.state, *parts)

    def sign_in_options(self, allowed=(), verification=None):
        """Returns the options for navigator.credentials.get."""
        wanted = verification and UserVerificationRequirement(verification)
        options, self.state = self.server.authenticate_begin(list(allowed), wanted)
        return json.loads(json.dumps(webauthn_json.request_options_json(dict(options))))

    def sign_in(self, response):
        """Verifies a sign-in. Raises ValueError if it is invalid."""
        known = list(self.accounts.values())
        if features:
            self.server.authenticate_complete(self.state, known, response)
            return
        from fido2.client import ClientData
        from fido2.ctap2 import AuthenticatorData

        made = webauthn_json.authentication(response)
        response = made["response"]
        parts = ClientData(response["clientDataJSON"]), AuthenticatorData(response["authenticatorData"])
        self.server.authenticate_complete(self.state, known, made["rawId"], *parts, response["signature"])
