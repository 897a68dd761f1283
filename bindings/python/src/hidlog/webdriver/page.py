"""Installs the key in the pages of a session without DevTools, with WebDriver commands.

A page runs the key with the private keys for its origin. The driver reports the origin of the top-level page; a frame
must prove that it has access to the same sessionStorage.
"""

from __future__ import annotations

import base64
import os
from collections.abc import Callable
from typing import Any

from ..errors import HidlogError
from ..relying_party import parse_origin
from .authenticator import Authenticator
from .driver import Driver
from .errors import DriverError, make_invalid_argument
from .recorder import Recorder
from .script import read_script

Json = dict[str, Any]
# Errors that occur if no script can run in a page. The driver will report them for the test suite's next command.
_PASSING_ERRORS = ("no such window", "unexpected alert open", "no such execution context", "detached shadow root")
_IS_PAGE_SCRIPT = "/^https?:$/.test(location.protocol) && globalThis.isSecureContext"
_PROOF_SCRIPT = "try { return [location.origin, sessionStorage.getItem('hidlogProof')]; } catch { return null; }"


class Pages:
    """Installs an authenticator in the current page, and synchronizes both."""

    def __init__(self, driver: Driver, session: str, is_top: Callable[[], bool]):
        self._driver, self._path, self._is_top = driver, f"/session/{session}", is_top
        self._authenticator: Authenticator | None = None
        self._recorder: Recorder | None = None
        # A secret that the documents of an origin share, and the proof that a frame is one of these documents.
        self._secrets: dict[str, tuple[str, str]] = {}

    def attach(self, authenticator: Authenticator, recorder: Recorder) -> None:
        """Installs the key in the page."""
        self._authenticator, self._recorder = authenticator, recorder
        self._secrets.clear()
        self.before_command()

    def detach(self) -> None:
        """Removes the key from the page."""
        self._authenticator = self._recorder = None
        self._try(lambda: self._run(f"if ({_IS_PAGE_SCRIPT}) {{ globalThis.hidlogPage?.remove(); }} return null;"))

    def before_command(self) -> None:
        """Synchronizes the page and the authenticator, if scripts can run in the page."""
        authenticator, recorder = self._authenticator, self._recorder
        if authenticator and recorder:
            self._try(lambda: self._sync(authenticator, recorder))

    after_command = before_command
    after_change = before_command

    def close(self) -> None:
        """Does nothing, since there is no connection."""

    @staticmethod
    def _try(run: Any) -> None:
        try:
            run()
        except DriverError as error:
            if error.code not in _PASSING_ERRORS:
                raise

    def _run(self, text: str, *words: Any) -> Any:
        return self._driver.call("POST", f"{self._path}/execute/sync", {"script": text, "args": list(words)})

    def _read_origin(self) -> str | None:
        """Returns the origin of the current page, or None if the key cannot be installed in the page."""
        try:
            top = parse_origin(_get_site(str(self._driver.call("GET", f"{self._path}/url"))))
        except HidlogError:
            return None
        if not self._is_top():
            shown = self._run(_PROOF_SCRIPT)
            if not isinstance(shown, list) or shown != [top, self._secrets.get(top, ("", ""))[1]]:
                return None
        return top

    def _sync(self, authenticator: Authenticator, recorder: Recorder) -> None:
        origin = self._read_origin()
        if origin is None:
            return
        secret, proof = self._secrets.setdefault(origin, (_random_token(), _random_token()))
        credentials = authenticator.of_origin(origin, has_keys=True)
        settings = {**authenticator.settings, "credentials": credentials, "secret": secret, "proof": proof}
        begin = f"if (!({_IS_PAGE_SCRIPT}) || location.origin !== arguments[1]) {{ return null; }}"
        load = "if (!globalThis.hidlogPage) { return 'load'; }"
        call = "return hidlogPage.sync(arguments[0]);"
        found = self._run(f"{begin} {load} {call}", settings, origin)
        if found == "load":
            self._run(f"{begin} (0, eval)(arguments[0]);", read_script(), origin)
            found = self._run(f"{begin} {call}", settings, origin)
        if found is not None:
            self._store_report(authenticator, recorder, origin, found)

    def _store_report(self, authenticator: Authenticator, recorder: Recorder, origin: str, found: Any) -> None:
        if not isinstance(found, dict):
            raise make_invalid_argument("invalid response from the page")
        authenticator.take(origin, found.get("credentials"), found.get("gone"), has_keys=True)
        authenticator.used_presence(found.get("serial"), found.get("used"))
        recorder.take(origin, found.get("document"), found.get("recordings"))


def _random_token() -> str:
    return base64.b64encode(os.urandom(32)).decode()


def _get_site(url: str) -> str:
    """Returns the scheme and host of a URL."""
    scheme, colon, rest = url.partition("://")
    authority = rest.split("/")[0].split("?")[0].split("#")[0]
    return f"{scheme}{colon}{authority.rpartition('@')[2]}"
