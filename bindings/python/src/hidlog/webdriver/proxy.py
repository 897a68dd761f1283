"""The proxy, which passes all commands to the driver, except the commands on virtual authenticators, which the key in
the page serves."""

from __future__ import annotations

import json
import re
import threading
import uuid
from collections.abc import Callable
from contextlib import suppress
from pathlib import Path
from typing import Any, Protocol
from urllib.parse import unquote

from .authenticator import Authenticator
from .channel import Channel
from .credential_json import list_members, read_options
from .driver import Driver
from .errors import DriverError, Response, make_invalid_argument, parse_json, print_error
from .page import Pages
from .recorder import Recorder

Json = dict[str, Any]
_VALID_NAME = re.compile(r"[A-Za-z0-9][A-Za-z0-9._~-]{0,127}\Z")
_SESSION = re.compile(r"/session/([^/]+)(/.*)?\Z")
_AUTHENTICATOR = re.compile(
    r"/webauthn/authenticator(?:/([^/]+)(?:/(credentials?|uv|account|presence|faults|log)(?:/([^/]+)(/props)?)?)?)?\Z"
)
# Commands outside sessions that are passed to the driver. All others, such as chromedriver's /shutdown, are rejected.
_SESSIONLESS_COMMANDS = (("GET", "/status"), ("GET", "/sessions"), ("POST", "/session"))
# Before these commands, the proxy synchronizes with the page, since they may leave it: for another document, window or
# frame.
_MAY_LEAVE_PAGE = re.compile(
    r"/(url|back|forward|refresh|execute/a?sync|actions|window|frame|frame/parent|element/[^/]+/(click|value))\Z"
)
_MAY_LOAD_PAGE = re.compile(r"/(url|back|forward|refresh|window|frame|frame/parent)\Z")
# Commands on an authenticator that are extensions of WebDriver.
_OWN_PARTS = ("account", "presence", "faults")
_END_SECONDS = 10.0
_MAX_SESSIONS = 256


def _is_top(rest: str, body: bytes) -> bool:
    """Returns whether the current page is a top-level page after a command."""
    if rest != "/frame":
        return rest in ("/url", "/window")
    try:
        value = parse_json(body)
    except ValueError:
        return False
    return isinstance(value, dict) and "id" in value and value["id"] is None


class Link(Protocol):
    """The interface for installing an authenticator in pages, with a channel of the browser or with WebDriver
    commands."""

    def attach(self, authenticator: Authenticator, recorder: Recorder) -> None:
        """Installs the key in pages."""

    def detach(self) -> None:
        """Removes the key from pages."""

    def before_command(self) -> None:
        """Called before a command that may leave the page."""

    def after_command(self) -> None:
        """Called after a command that may have loaded another page."""

    def after_change(self) -> None:
        """Called after a change of the authenticator."""

    def close(self) -> None:
        """Closes the link."""


class Session:
    """A session of the driver, and the authenticator, if the test suite has added one."""

    def __init__(self, driver: Driver, name: str, debugger: str | None = None, is_top: bool = False):
        self.name, self.is_top = name, is_top
        self.lock = threading.RLock()
        self._driver, self._debugger = driver, debugger
        self._link: Link | None = None
        self._key: Authenticator | None = None
        self._key_name = ""
        self._recorder = Recorder(None, "")

    def key(self, name: str) -> Authenticator:
        """Returns the authenticator with this ID."""
        if self._key is None or name != self._key_name:
            raise make_invalid_argument(f"no authenticator {name} in this session")
        return self._key

    def link(self) -> Link:
        """Returns the link to the session's pages."""
        if self._link is None or (isinstance(self._link, Channel) and self._link.is_broken and not self._key):
            self._link = self._make_link()
        return self._link

    def _make_link(self) -> Link:
        window = str(self._driver.call("GET", f"/session/{self.name}/window"))
        if self._debugger and self._driver.is_local:
            try:
                return Channel(self._debugger, window)
            except (DriverError, OSError) as error:
                print_error(f"cannot use DevTools, so each page creates its own private keys: {error}")
        return Pages(self._driver, self.name, lambda: self.is_top)

    def add(self, options: Json, folder: Path | None) -> str:
        """Adds an authenticator, and returns its ID."""
        if self._key:
            raise DriverError("unsupported operation", "the session already has an authenticator; remove it first")
        key, name = Authenticator(read_options(options)), str(uuid.uuid4())
        recorder = Recorder(folder and folder / self.name, name)
        self.link().attach(key, recorder)
        self._key, self._key_name, self._recorder = key, name, recorder
        return name

    def remove(self, name: str) -> None:
        """Removes the authenticator, and writes its recordings."""
        self.key(name)
        link = self.link()
        link.before_command()
        self._key = None
        try:
            link.detach()
        finally:
            self._recorder.flush()

    @property
    def recordings(self) -> Json:
        """The recordings of the authenticator."""
        return self._recorder.value

    def pass_command(self, method: str, rest: str, body: bytes, send: Callable[[], Response]) -> Response:
        """Sends a command to the driver, and synchronizes pages with the authenticator before and after it."""
        link = self._link if self._key else None
        if link is None or isinstance(link, Channel):
            return self._send(rest, body, send)
        with self.lock:
            if method in ("POST", "DELETE") and _MAY_LEAVE_PAGE.search(rest):
                link.before_command()
            response = self._send(rest, body, send)
            if response.status == 200 and method == "POST" and _MAY_LOAD_PAGE.search(rest):
                link.after_command()
            return response

    def _send(self, rest: str, body: bytes, send: Callable[[], Response]) -> Response:
        """Sends a command, and records whether the current page is certainly a top-level page."""
        if rest.startswith("/frame"):
            self.is_top = False
        response = send()
        if response.status == 200 and _is_top(rest, body):
            self.is_top = True
        return response

    def end(self) -> None:
        """Synchronizes with pages, if still possible."""
        if self._key and self._link:
            with suppress(DriverError):
                self._link.before_command()

    def close(self) -> None:
        """Closes the link, and writes the recordings."""
        if self._link:
            self._link.close()
        self._key = None
        self._recorder.flush()


def _change_authenticator(key: Authenticator, method: str, words: tuple[str, str, bool], body: Json) -> None:
    """Runs a command that changes an authenticator."""
    part, credential, is_property = words
    if (method, part, is_property) == ("POST", "credentials", True):
        key.update(credential, body)
    elif (method, part, credential) == ("POST", "credential", ""):
        key.add(body)
    elif (method, part, is_property) == ("DELETE", "credentials", False):
        key.remove(credential)
    elif (method, part, credential) == ("POST", "uv", ""):
        key.set_user_verified(body.get("isUserVerified"))
    elif (method, part, credential) == ("POST", "account", ""):
        key.set_account(body.get("account"))
    elif (method, part, credential) == ("POST", "presence", ""):
        key.set_presence(body.get("presence"))
    elif (method, part, credential) == ("POST", "faults", ""):
        key.set_faults(body)
    else:
        path = "/".join(word for word in (part, credential, "props" if is_property else "") if word)
        raise DriverError("unknown method", f"{method} is not supported for authenticator/{{id}}/{path}")


def _serve_key(session: Session, key: Authenticator, method: str, words: tuple[str, str, bool], body: Json) -> Any:
    """Runs a command on an authenticator, after synchronizing with the page, and returns its value."""
    link = session.link()
    link.before_command()
    if (method, *words) == ("GET", "credentials", "", False):
        return [list_members(credential) for credential in key.credentials]
    if (method, *words) == ("GET", "log", "", False):
        return session.recordings
    _change_authenticator(key, method, words, body)
    link.after_change()
    # Returns the same values as chromedriver, and null, as WebDriver specifies, for commands that chromedriver does not
    # have.
    return None if words[0] in _OWN_PARTS else {}


class Proxy:
    """The proxy, with its driver and its sessions."""

    def __init__(self, driver: Driver, folder: Path | None = None):
        self.driver, self.folder = driver, folder
        self._sessions: dict[str, Session] = {}
        self._lock = threading.Lock()

    def serve(self, method: str, path: str, body: bytes) -> Response:
        """Serves a command."""
        found = _SESSION.match(path)
        if not found:
            return self._without_session(method, path, body)
        name, rest = found[1], found[2] or ""
        if not _VALID_NAME.match(name):
            raise DriverError("invalid session id", f"{name!r} is not a session ID")
        session = self._sessions.get(name)
        asked = _AUTHENTICATOR.match(rest)
        if asked:
            # An unknown session is stored when it gets an authenticator.
            return self._webauthn(session or Session(self.driver, name), method, asked.groups(""), body)
        if "/webauthn/" in f"{rest}/":
            raise DriverError("unknown command", f"{method} {rest} is not a WebDriver command")

        def send() -> Response:
            return self.driver.send(method, path, body if method == "POST" else None)

        if session is None:
            return send()
        if (method, rest) == ("DELETE", ""):
            return self._end_session(session, send)
        return session.pass_command(method, rest, body, send)

    def _without_session(self, method: str, path: str, body: bytes) -> Response:
        """Serves a command without a session."""
        if (method, path) not in _SESSIONLESS_COMMANDS:
            raise DriverError("unknown command", f"{method} {path} is not a WebDriver command")
        response = self.driver.send(method, path, body if method == "POST" else None)
        if path == "/session" and response.status == 200:
            self._append_log(response)
        return response

    def _append_log(self, response: Response) -> None:
        """Stores a session that the driver has started, and the address of the browser's debugger."""
        try:
            value = response.value
        except ValueError:
            return
        name = value.get("sessionId") if isinstance(value, dict) else None
        if not isinstance(name, str) or not _VALID_NAME.match(name):
            return
        capabilities = value.get("capabilities")
        options = capabilities.get("goog:chromeOptions") if isinstance(capabilities, dict) else None
        address = options.get("debuggerAddress") if isinstance(options, dict) else None
        with self._lock:
            self._sessions[name] = Session(self.driver, name, address if isinstance(address, str) else None, True)
            while len(self._sessions) > _MAX_SESSIONS:
                with suppress(DriverError):
                    self._sessions.pop(next(iter(self._sessions))).close()

    def _webauthn(self, session: Session, method: str, words: tuple[str, ...], body: bytes) -> Response:
        """Serves a command on virtual authenticators, and returns the response in the form of a driver."""
        try:
            parameters = parse_json(body or b"{}")
        except ValueError as error:
            raise make_invalid_argument(f"the parameters are not JSON: {error}") from None
        if not isinstance(parameters, dict):
            raise make_invalid_argument("the parameters must be an object")
        with session.lock:
            value = self._run_webauthn(session, method, words, parameters)
        return Response(200, json.dumps({"value": value}).encode())

    def _run_webauthn(self, session: Session, method: str, words: tuple[str, ...], parameters: Json) -> Any:
        name, part, encoded, props = words
        if not name:
            if method != "POST":
                raise DriverError("unknown method", f"{method} is not supported for authenticator")
            added = session.add(parameters, self.folder)
            with self._lock:
                self._sessions[session.name] = session
            return added
        if not part:
            if method != "DELETE":
                raise DriverError("unknown method", f"{method} is not supported for authenticator/{name}")
            session.remove(name)
            return {}
        return _serve_key(session, session.key(name), method, (part, unquote(encoded), bool(props)), parameters)

    def _end_session(self, session: Session, send: Callable[[], Response]) -> Response:
        """Ends a session of the driver, even if the recordings cannot be written."""
        session.end()
        response = send()
        with self._lock:
            self._sessions.pop(session.name, None)
        session.close()
        return response

    def close(self) -> bool:
        """Writes all recordings, and ends the driver with its sessions. Returns whether all recordings were written."""
        is_written = True
        for session in list(self._sessions.values()):
            try:
                if self.driver.is_own:
                    with suppress(DriverError):
                        self.driver.call("DELETE", f"/session/{session.name}", seconds=_END_SECONDS)
                session.close()
            except DriverError as error:
                is_written = False
                print_error(f"{error}")
        self.driver.close()
        return is_written
