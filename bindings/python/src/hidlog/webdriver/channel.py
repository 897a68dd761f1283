"""Installs the key in the documents of a browser with DevTools. The key requests credentials and signatures from the
proxy."""

from __future__ import annotations

import base64
import binascii
import json
from collections.abc import Callable
from typing import Any

from ..algorithms import ES256
from ..errors import HidlogError
from .authenticator import Authenticator
from .devtools import BINDING, DevTools, Document
from .errors import DriverError, make_invalid_argument, parse_json
from .recorder import Recorder
from .script import read_script

Json = dict[str, Any]
_MAX_TEXT_LENGTH = 200_000


def _decode_bytes(message: Json, name: str) -> bytes:
    text = message.get(name)
    try:
        if isinstance(text, str) and len(text) <= _MAX_TEXT_LENGTH:
            return base64.b64decode(text, validate=True)
    except binascii.Error:
        pass
    raise make_invalid_argument(f"{name} must be base64 of at most {_MAX_TEXT_LENGTH} characters")


def _encode_bytes(data: bytes) -> str:
    return base64.b64encode(data).decode()


def _make_page_script() -> str:
    """Returns the key and the page's functions as a script that does nothing in documents without the channel. If the
    script runs again in a document, it keeps the key's library: each one needs a WebAssembly memory, of which Chromium
    can't allocate many."""
    condition = f"globalThis.{BINDING} && !globalThis.hidlogPage && /^https?:/.test(globalThis.origin)"
    script = f"globalThis.hidlogKey ??= library.key;\n{read_script()}\nlibrary.key = hidlogKey;"
    return f"(function library() {{ if ({condition}) {{\n{script}\nhidlogPage.library = library;\n}} }})();"


class Channel:
    """Installs an authenticator in all documents of a browser. Each document gets the credentials that its origin may
    use."""

    def __init__(self, address: str, window: str):
        self._authenticator: Authenticator | None = None
        self._recorder: Recorder | None = None
        self._set_calls()
        self._devtools = DevTools(address, window, self._receive, _make_page_script())

    def _set_calls(self) -> None:
        self._calls: dict[str, Callable[[Authenticator, Document, Json], Json | None]] = {
            "begin": self._begin,
            "presence": self._presence,
            "make": self._make,
            "sign": self._sign,
            "end": self._end,
        }

    @property
    def is_broken(self) -> bool:
        """Whether the connection to the browser's debugger is lost."""
        return self._devtools.failure is not None

    def attach(self, authenticator: Authenticator, recorder: Recorder) -> None:
        """Installs the key in all documents."""
        self._authenticator, self._recorder = authenticator, recorder
        options = json.dumps(authenticator.authenticator_options)
        connect = f"hidlogPage.connect(globalThis.{BINDING}, {options}); delete globalThis.{BINDING};"
        self._devtools.install(f"if (globalThis.hidlogPage) {{ {connect} }}")

    def detach(self) -> None:
        """Removes the key from all documents."""
        self._authenticator = self._recorder = None
        self._devtools.uninstall("globalThis.hidlogPage?.remove()")

    def before_command(self) -> None:
        """Does nothing, since the authenticator is always up to date."""

    after_command = before_command

    def after_change(self) -> None:
        """Sends changed settings to the documents, where a request may be waiting for the change."""
        for document in self._devtools.documents():
            if self._authenticator:
                settings = json.dumps(self._make_settings(self._authenticator, document))
                self._devtools.evaluate(document, f"globalThis.hidlogUpdate?.({settings})")

    def close(self) -> None:
        """Closes the connection to the browser."""
        self._devtools.close()

    # Calls of pages.

    def _receive(self, document: Document, payload: str) -> None:
        number, value, error = 0, None, ""
        try:
            message = parse_json(payload)
            number = message["id"]
            if isinstance(number, bool) or not isinstance(number, int) or not 0 < number < 2**53:
                return
            if self._authenticator is None:
                raise make_invalid_argument("the authenticator was removed")
            value = self._calls[message["name"]](self._authenticator, document, message)
        except DriverError as refused:
            error = str(refused)
        except (HidlogError, ValueError, KeyError, TypeError):
            error = "the message is invalid"
        self._devtools.evaluate(
            document, f"globalThis.hidlogReply?.({number}, {json.dumps(value)}, {json.dumps(error)})"
        )

    @staticmethod
    def _make_settings(authenticator: Authenticator, document: Document) -> Json:
        return {**authenticator.settings, "credentials": authenticator.of_origin(document.origin, has_keys=False)}

    def _begin(self, authenticator: Authenticator, document: Document, _: Json) -> Json:
        return self._make_settings(authenticator, document)

    @staticmethod
    def _presence(authenticator: Authenticator, _: Document, __: Json) -> Json:
        return {"word": authenticator.next_presence()}

    @staticmethod
    def _make(authenticator: Authenticator, document: Document, message: Json) -> Json:
        return {"point": _encode_bytes(authenticator.make_key(document.origin, message.get("algorithm", ES256)))}

    @staticmethod
    def _sign(authenticator: Authenticator, document: Document, message: Json) -> Json:
        signature = authenticator.sign(document.origin, _decode_bytes(message, "point"), _decode_bytes(message, "data"))
        return {"signature": _encode_bytes(signature)}

    def _end(self, authenticator: Authenticator, document: Document, message: Json) -> None:
        authenticator.take(document.origin, message.get("credentials"), message.get("gone"), has_keys=False)
        if self._recorder:
            self._recorder.take(document.origin, message.get("document"), message.get("recordings"))
