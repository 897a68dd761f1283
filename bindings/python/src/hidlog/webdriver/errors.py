"""WebDriver errors (WebDriver section 6.6)."""

from __future__ import annotations

import json
import sys
from contextlib import suppress
from typing import Any, NamedTuple

_HTTP_STATUSES = {
    "invalid argument": 400,
    "invalid session id": 404,
    "no such window": 404,
    "unknown command": 404,
    "unknown method": 405,
    "unsupported operation": 500,
}
# Maximum depth of JSON, far more than WebDriver uses. Python's parser fails at about 1000.
_MAX_DEPTH = 200


class Response(NamedTuple):
    """A response: an HTTP status, and JSON as bytes."""

    status: int
    data: bytes

    @property
    def value(self) -> Any:
        """The member `value` of the JSON."""
        parsed = parse_json(self.data)
        return parsed.get("value") if isinstance(parsed, dict) else None


class DriverError(Exception):
    """An error with a code, such as "invalid argument"."""

    def __init__(self, code: str, message: str, status: int | None = None):
        super().__init__(message)
        self.code = code
        self._status = status

    @property
    def status(self) -> int:
        """The HTTP status."""
        return _HTTP_STATUSES.get(self.code, 500) if self._status is None else self._status

    @property
    def value(self) -> dict[str, Any]:
        """The value in the response."""
        return {"error": self.code, "message": f"hidlog: {self}", "stacktrace": ""}

    @property
    def response(self) -> Response:
        """The response."""
        return Response(self.status, json.dumps({"value": self.value}).encode())


def print_error(text: object) -> None:
    """Writes a line to standard error, if possible."""
    with suppress(OSError, ValueError):
        if sys.stderr:
            print(f"hidlog webdriver: {text}", file=sys.stderr, flush=True)


def make_invalid_argument(message: str) -> DriverError:
    """Returns the error for an invalid argument."""
    return DriverError("invalid argument", message)


def _measure_depth(value: Any) -> int:
    """Returns the nesting depth of lists and objects, without recursion."""
    depth, level = 0, [value]
    while level := [item for item in level if isinstance(item, (dict, list))]:
        depth += 1
        level = [inner for item in level for inner in (item.values() if isinstance(item, dict) else item)]
    return depth


def parse_json(data: bytes | str) -> Any:
    """Parses JSON of bounded depth. Raises ValueError if invalid."""
    try:
        value = json.loads(data)
    except RecursionError:
        raise ValueError(f"JSON is nested deeper than {_MAX_DEPTH}") from None
    if _measure_depth(value) > _MAX_DEPTH:
        raise ValueError(f"JSON is nested deeper than {_MAX_DEPTH}")
    return value
