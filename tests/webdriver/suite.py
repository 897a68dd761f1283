#!/usr/bin/python3
"""A Selenium suite for Chromium's virtual authenticator: suite.py URL PAGE.

It uses the WebDriver at URL, chromedriver or the proxy, and prints the result of each test as a line of JSON.
"""

from __future__ import annotations

import json
import sys
from base64 import urlsafe_b64decode, urlsafe_b64encode
from collections.abc import Callable
from typing import Any

from selenium import webdriver
from selenium.common.exceptions import WebDriverException
from selenium.webdriver.common.virtual_authenticator import Credential, VirtualAuthenticatorOptions

# A key on P-256, in PKCS #8.
PRIVATE_KEY = (
    "MIGHAgEAMBMGByqGSM49AgEGCCqGSM49AwEHBG0wawIBAQQg8_zMDQDYAxlU-Qhk1Dwkf0v18GZca1DMF3SaJ9HPdmShRANCAASNYX5lyVCOZLzFZzrIKm"
    "eZ2jwURmgsJYxGP__fWN_S-j5sN4tT15XEpN_7QZnt14YvI6uvAgO0uJEboFaZlOEB"
)
OPTIONS = VirtualAuthenticatorOptions


def decode_base64url(text: str) -> bytes:
    """Returns the bytes of base64url."""
    return urlsafe_b64decode(text + "=" * (-len(text) % 4))


def encode_base64url(data: bytes) -> str:
    """Returns base64url without padding."""
    return urlsafe_b64encode(bytes(data)).decode().rstrip("=")


class Suite:
    """The tests, each with a separate authenticator. The results of the tests are compared."""

    def __init__(self, driver: Any, page: str):
        self.driver, self.page = driver, page

    # Actions of a page.

    def call_page(self, name: str, **words: Any) -> Any:
        """Calls a function of the page."""
        return self.driver.execute_async_script(f"{name}(arguments[0]).then(arguments[1])", words)

    def add_authenticator(self, **words: Any) -> None:
        """Adds an authenticator. By default, it has user verification and resident keys."""
        options = OPTIONS()
        given = {"has_resident_key": True, "has_user_verification": True, "is_user_verified": True, **words}
        for name, value in given.items():
            setattr(options, name, value)
        self.driver.add_virtual_authenticator(options)

    def list_credentials(self) -> Any:
        """Returns the user handle, kind and RP ID of each credential, sorted."""
        listed = [credential.to_dict() for credential in self.driver.get_credentials()]
        return sorted(
            (credential.get("userHandle") or "", credential["isResidentCredential"], credential["rpId"])
            for credential in listed
        )

    def make_credential(self, resident: bool = True, name: bytes = b"\x01\x02\x03\x04", rp: str = "localhost") -> Any:
        """Returns a credential that can be added."""
        if resident:
            return Credential.create_resident_credential(name, rp, b"bob", decode_base64url(PRIVATE_KEY), 3)
        return Credential.create_non_resident_credential(name, rp, decode_base64url(PRIVATE_KEY), 3)

    def get_error_name(self, call: Callable[..., Any], *words: Any) -> str:
        """Returns the name of the error that a call raises."""
        try:
            call(*words)
        except WebDriverException as error:
            return type(error).__name__
        return "done"

    # ---- the examples in Selenium's documentation

    def test_options(self) -> Any:
        options = OPTIONS()
        options.protocol, options.has_resident_key = OPTIONS.Protocol.U2F, False
        self.driver.add_virtual_authenticator(options)
        return self.list_credentials()

    def test_remove_authenticator(self) -> Any:
        self.add_authenticator()
        self.driver.remove_virtual_authenticator()
        return self.driver.virtual_authenticator_id

    def test_add_resident_credential(self) -> Any:
        self.add_authenticator(protocol=OPTIONS.Protocol.CTAP2)
        self.driver.add_credential(self.make_credential())
        return self.list_credentials()

    def test_add_non_resident_credential(self) -> Any:
        self.add_authenticator(
            protocol=OPTIONS.Protocol.U2F, has_resident_key=False, has_user_verification=False, is_user_verified=False
        )
        self.driver.add_credential(self.make_credential(False))
        return self.list_credentials()

    def test_resident_credential_with_u2f(self) -> Any:
        self.add_authenticator(
            protocol=OPTIONS.Protocol.U2F, has_resident_key=False, has_user_verification=False, is_user_verified=False
        )
        return self.get_error_name(self.driver.add_credential, self.make_credential())

    def test_remove_credential(self) -> Any:
        self.add_authenticator()
        self.driver.add_credential(self.make_credential(False))
        self.driver.add_credential(self.make_credential(False, b"\x05"))
        self.driver.remove_credential(encode_base64url(b"\x05"))
        return [encode_base64url(decode_base64url(credential.id)) for credential in self.driver.get_credentials()]

    def test_remove_all_credentials(self) -> Any:
        self.add_authenticator()
        self.driver.add_credential(self.make_credential())
        self.driver.remove_all_credentials()
        return self.list_credentials()

    def test_set_user_verified(self) -> Any:
        self.add_authenticator(is_user_verified=False)
        before = self.call_page("register", userVerification="required")
        self.driver.set_user_verified(True)
        return before, self.call_page("register", userVerification="required")["flags"]

    # ---- tests like those in real test suites

    def test_register(self) -> Any:
        self.add_authenticator()
        made = self.call_page("register")
        (held,) = self.driver.get_credentials()
        return (
            self.list_credentials(),
            encode_base64url(decode_base64url(held.id)) == made["id"],
            made["flags"],
            made["transports"],
        )

    def test_register_resident(self) -> Any:
        self.add_authenticator()
        self.call_page("register", residentKey="required")
        return self.list_credentials()

    def test_sign_in(self) -> Any:
        self.add_authenticator()
        made = self.call_page("register")
        counts = []
        for _ in range(2):
            used = self.call_page("signIn", allow=[made["id"]])
            counts.append(self.driver.get_credentials()[0].sign_count)
        return used["id"] == made["id"], used["flags"], used["user"], counts[1] - counts[0]

    def test_sign_in_discoverable(self) -> Any:
        self.add_authenticator()
        made = self.call_page("register", residentKey="required")
        used = self.call_page("signIn")
        return used["id"] == made["id"], used["user"], used["flags"]

    def test_sign_in_with_an_added_credential(self) -> Any:
        self.add_authenticator()
        self.driver.add_credential(self.make_credential())
        used = self.call_page("signIn")
        return used["user"], used["id"], self.driver.get_credentials()[0].sign_count

    def test_sign_in_after_removal(self) -> Any:
        self.add_authenticator()
        made = self.call_page("register")
        self.driver.remove_credential(made["id"])
        return self.call_page("signIn", allow=[made["id"]])

    def test_user_fails(self) -> Any:
        self.add_authenticator()
        made = self.call_page("register", userVerification="required")
        self.driver.set_user_verified(False)
        required = self.call_page("signIn", allow=[made["id"]], userVerification="required")
        return required, self.call_page("signIn", allow=[made["id"]], userVerification="discouraged")["flags"]

    def test_no_verification(self) -> Any:
        self.add_authenticator(has_user_verification=False, is_user_verified=False)
        return self.call_page("register", userVerification="required"), self.call_page("register")["flags"]

    def test_platform(self) -> Any:
        self.add_authenticator(transport=OPTIONS.Transport.INTERNAL)
        made = self.call_page("register", authenticatorAttachment="platform")
        return self.call_page("isPlatform"), made["attachment"], made["transports"], made["flags"]

    def test_no_resident_keys(self) -> Any:
        self.add_authenticator(has_resident_key=False)
        resident = self.get_error_name(self.driver.add_credential, self.make_credential())
        return (
            resident,
            self.call_page("register", residentKey="required"),
            self.call_page("register", residentKey="preferred")["flags"],
        )

    def test_exclude(self) -> Any:
        self.add_authenticator()
        made = self.call_page("register")
        return self.call_page("register", exclude=[made["id"]]), self.call_page("register", exclude=["AQ"])["flags"]

    def test_reload(self) -> Any:
        self.add_authenticator()
        made = self.call_page("register", residentKey="required")
        self.driver.refresh()
        self.driver.get(self.page + "?other")
        used = self.call_page("signIn")
        return used["id"] == made["id"], self.list_credentials()

    def test_two_windows(self) -> Any:
        self.add_authenticator()
        made = self.call_page("register", residentKey="required")
        first = self.driver.current_window_handle
        self.driver.switch_to.new_window("tab")
        self.driver.get(self.page)
        try:
            return len(self.driver.get_credentials()), len(self.driver.window_handles), bool(made)
        finally:
            self.driver.close()
            self.driver.switch_to.window(first)

    def test_frame(self) -> Any:
        self.add_authenticator()
        self.driver.execute_async_script(
            "const frame = document.createElement('iframe'); frame.src = location.pathname; frame.onload = arguments[0];"
            "document.body.append(frame)"
        )
        self.driver.switch_to.frame(0)
        made = self.call_page("register")
        self.driver.switch_to.default_content()
        return self.call_page("signIn", allow=[made["id"]])["id"] == made["id"], self.list_credentials()

    def test_unknown_credential(self) -> Any:
        self.add_authenticator()
        return self.get_error_name(self.driver.remove_credential, encode_base64url(b"nothing"))

    def test_broken_private_key(self) -> Any:
        self.add_authenticator()
        credential = Credential.create_non_resident_credential(b"\x01", "localhost", b"no key", 0)
        return self.get_error_name(self.driver.add_credential, credential)

    def test_moves_a_credential(self) -> Any:
        self.add_authenticator()
        made = self.call_page("register", residentKey="required")
        (held,) = self.driver.get_credentials()
        self.driver.remove_virtual_authenticator()
        self.add_authenticator()
        words = (
            decode_base64url(held.id),
            held.rp_id,
            decode_base64url(held.user_handle),
            decode_base64url(held.private_key),
            9,
        )
        self.driver.add_credential(Credential.create_resident_credential(*words))
        return self.call_page("signIn")["id"] == made["id"]

    def test_before_a_page(self) -> Any:
        self.driver.get("about:blank")
        self.add_authenticator()
        self.driver.add_credential(self.make_credential())
        held = self.list_credentials()
        self.driver.get(self.page)
        return held, self.call_page("signIn")["user"]

    def test_without_authenticator(self) -> Any:
        return self.driver.execute_script("return document.getElementById('at-first').textContent")


def main() -> None:
    url, page = sys.argv[1:3]
    options = webdriver.ChromeOptions()
    options.add_argument("--headless=new")
    options.add_argument("--no-sandbox")
    options.add_argument("--disable-dev-shm-usage")
    driver = webdriver.Remote(url, options=options)
    driver.set_script_timeout(300)
    names = [name for name in dir(Suite) if name.startswith("test_")]
    try:
        for name in names:
            driver.get(page)
            suite = Suite(driver, page)
            try:
                saw = getattr(suite, name)()
            except Exception as error:  # the error is the result that is compared
                saw = f"{type(error).__name__}: {str(error).splitlines()[0] if str(error) else ''}"
            print(json.dumps([name, saw]), flush=True)
            if driver.virtual_authenticator_id:
                driver.remove_virtual_authenticator()
    finally:
        driver.quit()


if __name__ == "__main__":
    main()
