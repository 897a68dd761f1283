#!/usr/bin/env python3
"""Registers a credential, and signs in with it. Saves the log as session.log."""

from hidlog import SecurityKey
from hidlog.webauthn_json import authentication
from service import Service

service = Service()

with SecurityKey() as key:
    browser = key.browser("http://localhost:5000")
    made = browser.create(service.registration_options("alice"))
    account = service.register(made)
    print("registered a credential with an ID of", len(account.credential_id), "bytes")

    found = browser.get(service.sign_in_options())
    service.sign_in(found)
    response = authentication(found)["response"]
    counter = int.from_bytes(response["authenticatorData"][33:37], "big")
    print("signed in as", response["userHandle"].decode(), "with counter", counter)

key.save_log("session.log")
