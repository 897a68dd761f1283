"""`hidlog webdriver`: a WebDriver proxy that provides virtual authenticators, with the key in the page.

    python -m hidlog.webdriver --port 4444 --driver chromedriver

A test suite in any language uses http://127.0.0.1:4444 as its driver. The proxy passes all commands to the driver,
except the commands on virtual authenticators (WebAuthn section 11), which the key in the page serves. So these commands
also work with browsers whose drivers lack them, and each session is recorded.
"""

from __future__ import annotations

from .command import main

__all__ = ["main"]
