#!/usr/bin/env python3
"""Compares the key with Chromium's own virtual authenticator: the results and the times of the same calls in a page.

    virtual_authenticator.py            prints what compare.js found, for each kind of authenticator in reasons.js
    virtual_authenticator.py --kind K   for one kind
    virtual_authenticator.py --write    also writes chromium_outcomes.json: how each call ended, for other browsers
"""

import os
import sys
import threading
import urllib.parse
from http.server import ThreadingHTTPServer

from driver import Driver, is_installed
from serve import PageHandler

# A timeout in seconds. Only a page that hangs takes this long.
TIMEOUT_SECONDS = 1500
RESULTS_PATH = os.path.join(os.path.dirname(os.path.abspath(__file__)), "chromium_outcomes.json")


class ComparingHandler(PageHandler):
    """Also passes the page's DevTools commands on to the browser."""

    def handle_request(self, path, request):
        """Responds to a request of the page."""
        if path == "/devtools":
            return self.server.driver.send_devtools_command(request["command"], **request["parameters"])
        return super().handle_request(path, request)


def run_page(driver, server, kind):
    """Opens the page for a kind of authenticator, or for all, and returns the results that it posts."""
    query = f"&kind={urllib.parse.quote(kind)}" if kind else ""
    server.driver = driver
    driver.send_devtools_command("WebAuthn.enable")
    driver.open(f"http://localhost:{server.server_address[1]}/tests/web/page.html?module=compare{query}")
    return server.results[0] if server.is_done.wait(TIMEOUT_SECONDS) else None


def main():
    if not is_installed():
        print("tests/web: chromedriver is missing (apt-get install chromium-driver)", file=sys.stderr)
        return 3
    kind = sys.argv[2] if sys.argv[1:2] == ["--kind"] else ""
    server = ThreadingHTTPServer(("127.0.0.1", 0), ComparingHandler)
    server.results, server.pages, server.is_done = [], [], threading.Event()
    threading.Thread(target=server.serve_forever, daemon=True).start()
    with Driver() as driver:
        results = run_page(driver, server, kind)
    if results is None:
        print(f"FAILED  the comparison posted no results within {TIMEOUT_SECONDS} seconds")
        return 1
    outcomes = results["logs"].get("chromium_outcomes.json", "")
    if "--write" in sys.argv:
        with open(RESULTS_PATH, "w", encoding="utf-8") as file:
            file.write(outcomes)
    with open(RESULTS_PATH, encoding="utf-8") as file:
        if not kind and file.read() != outcomes:
            name = os.path.basename(RESULTS_PATH)
            print(f"    {name} is from another version of Chromium: run virtual_authenticator.py --write")
    for line in results["figures"]:
        print(f"    {line}")
    for test in results["tests"]:
        print(f"{'FAILED' if test['error'] else 'ok'}  {test['name']}{test['error'] and ': ' + test['error']}")
    return 1 if any(test["error"] for test in results["tests"]) else 0


if __name__ == "__main__":
    sys.exit(main())
