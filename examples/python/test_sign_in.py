"""Tests that a sign-in service should have, with the fixture security_key of the package hidlog.

    pytest --security-key-log logs examples/python

The service is in service.py. Replace it by your own.
"""

from threading import Event

import pytest
from hidlog import AbortError, InvalidStateError, NotAllowedError, SecurityKey
from hidlog.webauthn_json import authentication
from service import Service

ORIGIN = "http://localhost:5000"


class SignInPage:
    """A service, and a browser with a security key."""

    def __init__(self, key, service=None):
        self.key = key
        self.service = service or Service(ORIGIN)
        self.browser = key.browser(ORIGIN)

    def register(self, name, *known, resident="required", verification=None, **arguments):
        """Registers a credential for a user, and returns the service's credential data."""
        self.key.add_comment(f"{name} registers")
        options = self.service.registration_options(name, known, resident, verification)
        return self.service.register(self.browser.create(options, **arguments))

    def sign_in(self, *allowed, account=0, verification=None):
        """Signs in, and returns the user handle and the signature counter of the response that the service accepted."""
        self.key.add_comment("somebody signs in")
        found = self.browser.get(self.service.sign_in_options(allowed, verification), account)
        self.service.sign_in(found)
        response = authentication(found)["response"]
        return response.get("userHandle"), int.from_bytes(response["authenticatorData"][33:37], "big")


@pytest.fixture
def site(security_key):
    return SignInPage(security_key)


def test_sign_in_by_an_allow_list(site):
    alice = site.register("alice", resident="discouraged")
    assert [site.sign_in(alice)[1] for _ in range(3)] == [1, 2, 3]
    # Without an allow list, only discoverable credentials are found: NO_CREDENTIALS.
    with pytest.raises(NotAllowedError) as refused:
        site.sign_in()
    assert refused.value.status == 0x2E


def test_registered_twice(site):
    """An exclude list stops a second registration with the same key: CREDENTIAL_EXCLUDED."""
    alice = site.register("alice")
    with pytest.raises(InvalidStateError):
        site.register("alice", alice)


@pytest.mark.parametrize("reply", ["denied", "timeout"])
def test_the_user_denies_or_does_not_reply(site, reply):
    site.register("alice")
    site.key.presence = reply
    with pytest.raises(NotAllowedError) as refused:
        site.sign_in()
    assert refused.value.status == 0x27


def test_the_page_aborts(site):
    """The user does nothing, and the page's signal cancels the call."""
    site.key.presence, signal = lambda _: signal.set(), Event()
    with pytest.raises(AbortError):
        site.register("alice", signal=signal)


def test_two_accounts(site):
    """Two accounts: the newest credential is used by default, and `account` selects the other one."""
    site.register("alice")
    site.register("bob")
    assert [site.sign_in(account=account)[0] for account in (0, "alice")] == [b"bob", b"alice"]


def test_restart(site, tmp_path):
    site.register("alice")
    assert site.sign_in() == (b"alice", 1)
    site.key.save(tmp_path / "key.json")
    with SecurityKey.load(tmp_path / "key.json") as key:
        assert SignInPage(key, site.service).sign_in() == (b"alice", 2)


def test_a_wrong_signature(site):
    """A service must reject a signature by a different private key."""
    site.register("alice")
    site.key.faults.bad_signature = True
    with pytest.raises(ValueError, match="Invalid signature"):
        site.sign_in()


def test_a_cloned_key(site):
    """The signature counter does not increase, which a service should detect. This service leaves the check to its
    caller."""
    site.register("alice")
    site.key.faults.stale_sign_count = True
    assert [site.sign_in()[1] for _ in range(2)] == [0, 0]


def test_user_verification(site):
    """The service requires user verification: a key without it is rejected, and with it the flag UV is set."""
    with pytest.raises(NotAllowedError, match="the key has no user verification"):
        site.register("alice", verification="required")
    site.key.verification = "verified"
    site.register("alice", verification="required")
    assert site.sign_in(verification="required") == (b"alice", 1)
    site.key.verification = "failed"
    with pytest.raises(NotAllowedError, match="user verification failed"):
        site.sign_in(verification="required")


def test_a_user_who_is_not_verified_is_refused_by_the_service(site):
    """If the page does not require user verification, but the service does, the service must check the flag UV."""
    site.register("alice")
    options = site.service.sign_in_options(verification="required")
    found = site.browser.get({**options, "userVerification": "discouraged"})
    with pytest.raises(ValueError, match="[Uu]ser verification"):
        site.service.sign_in(found)
