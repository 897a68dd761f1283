#!/usr/bin/python3
"""Tests a sign-in page with Selenium in Chromium, where the key replaces navigator.credentials.

    examples/web/selenium_sign_in.py            Debian: apt-get install python3-selenium chromium chromium-driver

The key is installed in each page before the page's first script, and its state survives navigation in sessionStorage.
"""

import threading
from http.server import BaseHTTPRequestHandler, ThreadingHTTPServer
from pathlib import Path

from selenium import webdriver
from selenium.webdriver.chrome.service import Service
from selenium.webdriver.common.by import By
from selenium.webdriver.support.ui import WebDriverWait

SCRIPT = Path(__file__).resolve().parents[2] / "bindings" / "web" / "dist" / "security_key.js"

# Timeout in seconds. Only a hanging page takes this long.
TIMEOUT_SECONDS = 300

# The page under test. A real service would verify the result; here the page only shows it.
PAGE = """<!doctype html><title>A service</title>
<button id="register">Register</button> <button id="sign-in">Sign in</button> <p id="result"></p>
<script>
const challenge = new Uint8Array(32);
const say = async (promise) => { result.textContent = await promise.catch((error) => error.name); };
const register = async () => {
    const made = await navigator.credentials.create({ publicKey: {
        challenge, rp: { name: "A service" }, user: { id: new Uint8Array([1]), name: "ann", displayName: "Ann" },
        pubKeyCredParams: [{ type: "public-key", alg: -7 }], authenticatorSelection: { residentKey: "required" },
    } });
    return `registered ${made.id}`;
};
const signIn = async () => {
    const used = await navigator.credentials.get({ publicKey: { challenge } });
    return `signed in ${new DataView(used.response.authenticatorData).getUint32(33)}`;
};
document.getElementById("register").onclick = () => say(register());
document.getElementById("sign-in").onclick = () => say(signIn());
</script>"""


class PageHandler(BaseHTTPRequestHandler):
    """Serves the page."""

    def do_GET(self):
        self.send_response(200)
        self.send_header("Content-Type", "text/html")
        self.end_headers()
        self.wfile.write(PAGE.encode())

    def log_message(self, *_):
        """Does not log requests."""


def start_browser():
    """Starts Chromium with the key installed in each page."""
    options = webdriver.ChromeOptions()
    options.add_argument("--headless=new")
    options.add_argument("--no-sandbox")
    options.add_argument("--disable-dev-shm-usage")
    driver = webdriver.Chrome(options=options, service=Service("/usr/bin/chromedriver"))
    driver.set_script_timeout(TIMEOUT_SECONDS)
    # These lines are also in bindings/web/README.md.
    source = SCRIPT.read_text() + "\nhidlogKey.install({ storage: sessionStorage });"
    driver.execute_cdp_cmd("Page.addScriptToEvaluateOnNewDocument", {"source": source})
    return driver


def click(driver, button, expected):
    """Clicks a button, and waits for a result that starts with the expected text. Returns the result."""
    driver.find_element(By.ID, button).click()
    paragraph = driver.find_element(By.ID, "result")
    WebDriverWait(driver, TIMEOUT_SECONDS).until(lambda _: paragraph.text.startswith(expected))
    return paragraph.text


def test_registration_and_sign_in(driver, url):
    """Registers, reloads the page, and signs in twice."""
    driver.get(url)
    credential_id = click(driver, "register", "registered").split()[1]
    driver.get(url)
    assert click(driver, "sign-in", "signed in") == "signed in 1"
    driver.refresh()
    assert click(driver, "sign-in", "signed in") == "signed in 2"
    (credential,) = driver.execute_async_script("hidlogKey.installedKey().getCredentials().then(arguments[0])")
    assert credential["credentialId"] == credential_id and credential["signCount"] == 2, credential


def test_user_denies(driver, url):
    """The user denies: the page gets NotAllowedError."""
    driver.get(url)
    driver.execute_script('hidlogKey.installedKey().presence = "denied"')
    click(driver, "sign-in", "NotAllowedError")


def test_key_is_full(driver, url):
    """A registration fails if the key is full."""
    driver.get(url)
    driver.execute_script('hidlogKey.installedKey().faults.status = "KEY_STORE_FULL"')
    click(driver, "register", "NotAllowedError")
    log = driver.execute_script("return hidlogKey.installedKey().log()")
    assert "# fault: the response has status 0x28 KEY_STORE_FULL" in log


def main():
    server = ThreadingHTTPServer(("127.0.0.1", 0), PageHandler)
    threading.Thread(target=server.serve_forever, daemon=True).start()
    driver = start_browser()
    try:
        for test in (test_registration_and_sign_in, test_user_denies, test_key_is_full):
            test(driver, f"http://localhost:{server.server_address[1]}/")
            print(f"ok  {test.__name__}")
    finally:
        driver.quit()


if __name__ == "__main__":
    main()
