"""The exceptions with which navigator.credentials rejects a page's call, by their DOM names.

Each is a subclass of WebAuthnError, and thus of HidlogError. Classes whose DOM name is also the name of a Python
exception start with WebAuthn. The attribute `name` is the DOM's name.
"""

from __future__ import annotations

from .errors import ArgumentError, ArgumentTypeError, HidlogError
from .standard import STATUS_NAMES


class WebAuthnError(HidlogError):
    """An error of a registration or a sign-in.

    name     the DOM's name, such as NotAllowedError.
    status   the CTAP status of the key's response, or None if there was no response.
    """

    name = "WebAuthnError"

    def __init__(self, text: str, status: int | None = None):
        super().__init__(text)
        self.status = status


class NotAllowedError(WebAuthnError):
    """The user or the key rejected the request, or the request timed out."""

    name = "NotAllowedError"


class InvalidStateError(WebAuthnError):
    """The key has a credential of the exclude list."""

    name = "InvalidStateError"


class SecurityError(WebAuthnError):
    """The origin may not use this RP ID."""

    name = "SecurityError"


class NotSupportedError(WebAuthnError):
    """Browsers do not support the options."""

    name = "NotSupportedError"


class AbortError(WebAuthnError):
    """The signal cancelled the call."""

    name = "AbortError"


class EncodingError(WebAuthnError, ArgumentError):
    """A string is not base64url without padding."""

    name = "EncodingError"


class WebAuthnTypeError(WebAuthnError, ArgumentTypeError):
    """An option is missing or has the wrong type."""

    name = "TypeError"


class WebAuthnRangeError(WebAuthnError, ArgumentError):
    """A list is too long, or an account does not exist."""

    name = "RangeError"


class WebAuthnSyntaxError(WebAuthnError, ArgumentError):
    """A string in an extension is malformed."""

    name = "SyntaxError"


# Causes for status codes (CTAP 2.1, section 8.2), which are used if the key reports no cause.
_STATUS_CAUSES = {
    0x19: "it has a credential of excludeCredentials",
    0x26: "pubKeyCredParams does not include ES256, the key's only algorithm",
    0x27: "the user denied it, or did not reply in time",
    0x28: "the key is full",
    0x2D: "it was cancelled",
    0x2E: "the key has no matching credential",
    0x2F: "the user did not reply in time",
}


def describe_status(status: int) -> str:
    """Returns a status with its name, and its cause if known."""
    named = f"0x{status:02X} {STATUS_NAMES.get(status, '')}".rstrip()
    return f"the key returned {named}" + (f": {_STATUS_CAUSES[status]}" if status in _STATUS_CAUSES else "")
