#!/usr/bin/python3
"""A test suite for Chromium's virtual authenticator that also runs with the key. Only one class differs.

    examples/web/selenium_devtools.py           Debian: apt-get install python3-selenium chromium chromium-driver

The commands are those of DevTools' WebAuthn domain. hidlogKey.sendDevToolsCommand runs them in the page, under the same
names, so such a suite also runs in browsers without DevTools.
"""

import threading

from http.server import ThreadingHTTPServer

from selenium_sign_in import PageHandler, click, start_browser

OPTIONS = {
    "protocol": "ctap2",
    "transport": "internal",
    "hasResidentKey": True,
    "hasUserVerification": True,
    "isUserVerified": True,
    "automaticPresenceSimulation": True,
}


class BrowserAuthenticator:
    """Chromium's virtual authenticator."""

    def __init__(self, driver):
        self.driver = driver
        driver.execute_script("hidlogKey.installedKey().uninstall()")

    def send(self, command, **parameters):
        """Sends a DevTools command to Chromium's virtual authenticator."""
        return self.driver.execute_cdp_cmd(command, parameters)


class InjectedKey:
    """Sends the commands to the key in the page."""

    SCRIPT = (
        "const [command, parameters, done] = arguments; hidlogKey.sendDevToolsCommand(command, parameters).then(done)"
    )

    def __init__(self, driver):
        self.driver = driver

    def send(self, command, **parameters):
        """Sends a DevTools command to the key in the page."""
        return self.driver.execute_async_script(self.SCRIPT, command, parameters)


def run_suite(driver, session):
    """Registers, adds a credential with a signature counter, and removes the credentials."""
    session.send("WebAuthn.enable")
    key = session.send("WebAuthn.addVirtualAuthenticator", options=OPTIONS)["authenticatorId"]
    driver.execute_script(
        """window.registering = navigator.credentials.create({ publicKey: {
        challenge, rp: { name: "A service" }, user: { id: new Uint8Array([1]), name: "ann", displayName: "Ann" },
        pubKeyCredParams: [{ type: "public-key", alg: -7 }],
        authenticatorSelection: { userVerification: "required", authenticatorAttachment: "platform" } } })"""
    )
    driver.execute_async_script("registering.then(arguments[0])")
    (credential,) = session.send("WebAuthn.getCredentials", authenticatorId=key)["credentials"]
    assert credential["rpId"] == "localhost" and not credential["isResidentCredential"], credential
    session.send(
        "WebAuthn.addCredential",
        authenticatorId=key,
        credential={
            **{name: credential[name] for name in ("rpId", "privateKey")},
            "credentialId": "/" * 21 + "w==",
            "userHandle": "AQ==",
            "signCount": 7,
            "isResidentCredential": False,
        },
    )
    found = session.send("WebAuthn.getCredential", authenticatorId=key, credentialId="/" * 21 + "w==")["credential"]
    assert found["signCount"] == 7 and found["privateKey"] == credential["privateKey"], found
    session.send("WebAuthn.clearCredentials", authenticatorId=key)
    assert session.send("WebAuthn.getCredentials", authenticatorId=key)["credentials"] == []
    session.send("WebAuthn.setAutomaticPresenceSimulation", authenticatorId=key, enabled=True)
    click(driver, "sign-in", "NotAllowedError")
    session.send("WebAuthn.removeVirtualAuthenticator", authenticatorId=key)


def main():
    server = ThreadingHTTPServer(("127.0.0.1", 0), PageHandler)
    threading.Thread(target=server.serve_forever, daemon=True).start()
    driver = start_browser()
    try:
        for kind in (BrowserAuthenticator, InjectedKey):
            driver.get(f"http://localhost:{server.server_address[1]}/")
            run_suite(driver, kind(driver))
            print(f"ok  {kind.__name__}")
    finally:
        driver.quit()


if __name__ == "__main__":
    main()
