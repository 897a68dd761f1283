"""Parses the subset of CBOR diagnostic notation (RFC 8949, section 8) that Chromium writes."""

from __future__ import annotations

import json
import re
from typing import Any

from .source import CaptureError

_TOKEN = re.compile(
    r"\s*(?:(?P<bytes>h'[0-9A-Fa-f]*')|(?P<text>\"(?:[^\"\\]|\\.)*\")|(?P<number>-?\d+)"
    r"|(?P<word>true|false|null|undefined)|(?P<mark>[\[\]{},:]))"
)
_SIMPLE_VALUES = {"true": True, "false": False, "null": None, "undefined": None}
_MAX_LEVELS = 16


class _Parser:
    def __init__(self, text: str):
        self._text = text
        self._offset = 0

    def _next_token(self) -> tuple[str, str]:
        found = _TOKEN.match(self._text, self._offset)
        if not found or found.lastgroup is None:
            raise CaptureError(f"invalid CBOR diagnostic notation at offset {self._offset}")
        self._offset = found.end()
        return found.lastgroup, found[found.lastgroup]

    def read_item(self, level: int = 0) -> Any:
        """Returns the next item."""
        if level > _MAX_LEVELS:
            raise CaptureError(f"CBOR is nested deeper than {_MAX_LEVELS} levels")
        kind, text = self._next_token()
        if kind == "bytes":
            return bytes.fromhex(text[2:-1]) if len(text) % 2 else self._fail()
        if kind == "text":
            try:
                return json.loads(text)
            except ValueError:
                return self._fail()
        if kind == "number":
            return int(text[:25])
        if kind == "word":
            return _SIMPLE_VALUES[text]
        if text == "[":
            return self._read_list(level)
        return self._read_map(level) if text == "{" else self._fail()

    def _fail(self) -> Any:
        raise CaptureError(f"invalid CBOR diagnostic notation before offset {self._offset}")

    def _skip_end(self, mark: str) -> bool:
        found = _TOKEN.match(self._text, self._offset)
        if found and found["mark"] == mark:
            self._offset = found.end()
            return True
        return False

    def _read_list(self, level: int) -> list[Any]:
        items: list[Any] = []
        while not self._skip_end("]"):
            if items and self._next_token()[1] != ",":
                self._fail()
            items.append(self.read_item(level + 1))
        return items

    def _read_map(self, level: int) -> dict[Any, Any]:
        items: dict[Any, Any] = {}
        while not self._skip_end("}"):
            if items and self._next_token()[1] != ",":
                self._fail()
            key = self.read_item(level + 1)
            if isinstance(key, (list, dict)) or self._next_token()[1] != ":":
                self._fail()
            items[key] = self.read_item(level + 1)
        return items

    def read_rest(self) -> str:
        """Returns the rest of the text."""
        return self._text[self._offset :].strip()


def parse(text: str) -> Any:
    """Parses a text that must be exactly one item."""
    parser = _Parser(text)
    value = parser.read_item()
    if parser.read_rest():
        raise CaptureError("trailing characters after the CBOR item")
    return value
