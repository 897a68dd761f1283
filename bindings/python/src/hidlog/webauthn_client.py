"""The WebAuthn client of the C library (hidlog.h), which converts a page's options to requests, and responses to
credentials.

The library checks options, origins and RP IDs, and builds requests, client data and a credential's JSON. The library
keeps no state between calls.
"""

from __future__ import annotations

import ctypes
import json
from collections.abc import Mapping
from functools import lru_cache
from typing import Any, NamedTuple

from . import core
from .errors import HidlogError, MissingDependencyError, describe
from .standard import LONGEST_MESSAGE
from .webauthn_errors import (
    EncodingError,
    InvalidStateError,
    NotAllowedError,
    NotSupportedError,
    SecurityError,
    WebAuthnError,
    WebAuthnRangeError,
    WebAuthnSyntaxError,
    WebAuthnTypeError,
    describe_status,
)

# In the traceback of a failed test, pytest hides this module's functions unless called with --full-trace.
__tracebackhide__ = True
Json = dict[str, Any]
# Values of enum hidlog_client_ceremony.
_CEREMONIES = {"create": 0, "get": 1}
# Flags of enum hidlog_client_ability for user verification, attachment, discoverable credentials and extensions.
_VERIFICATION = {"none": 0, "verified": 1, "failed": 2}
_PLATFORM, _RESIDENT_KEY, _CRED_PROTECT, _LARGE_BLOB = 4, 8, 16, 32
# The exceptions for enum hidlog_client_error.
_ERRORS: dict[int, type[WebAuthnError]] = {
    -1: WebAuthnTypeError,
    -2: EncodingError,
    -3: WebAuthnRangeError,
    -4: NotSupportedError,
    -5: SecurityError,
    -6: NotAllowedError,
    -7: InvalidStateError,
    -8: WebAuthnSyntaxError,
}
# Maximum length of a credential's JSON in bytes.
_CREDENTIAL_CAPACITY = 16384
_RequestBytes, _CredentialBytes = ctypes.c_char * LONGEST_MESSAGE, ctypes.c_char * _CREDENTIAL_CAPACITY
_TRANSPORTS = {"cross-platform": "usb", "platform": "internal"}
_EMPTY_SUFFIX = (b"", 0)


class AuthenticatorOptions(NamedTuple):
    """The authenticator, as browsers see it.

    verification      result of user verification: "verified", "failed" or "none" (unsupported).
    attachment        "cross-platform" or "platform".
    has_resident_key  whether the authenticator creates discoverable credentials.
    has_cred_protect  whether it supports the extension credProtect (outside the core).
    has_large_blob    whether its discoverable credentials have large blobs (outside the core).
    """

    verification: str = "none"
    attachment: str = "cross-platform"
    has_resident_key: bool = True
    has_cred_protect: bool = False
    has_large_blob: bool = False

    @property
    def transport(self) -> str:
        """The transport that browsers report."""
        return _TRANSPORTS[self.attachment]

    @property
    def to_bits(self) -> int:
        """Flags of enum hidlog_client_ability."""
        kind = _PLATFORM if self.attachment == "platform" else 0
        extensions = _CRED_PROTECT * self.has_cred_protect | _LARGE_BLOB * self.has_large_blob
        return _VERIFICATION[self.verification] | kind | _RESIDENT_KEY * self.has_resident_key | extensions


class Request(NamedTuple):
    """A CTAP2 request.

    message      the command byte, then CBOR.
    timeout_ms   the timeout of the options.
    is_verified  whether the response has the flag UV.
    """

    message: bytes
    timeout_ms: int
    is_verified: bool


class _Report(ctypes.Structure):
    """struct hidlog_client_report."""

    timeout_ms: int
    is_verified: int
    member_len: int
    reason_len: int
    _fields_ = [(name, ctypes.c_uint32) for name in ("timeout_ms", "is_verified", "member_len", "reason_len")]


_NUMBER, _SIZE, _BYTES, _OUT = ctypes.c_uint32, ctypes.c_size_t, ctypes.c_char_p, ctypes.c_void_p
# Parameters: the ceremony; options, mediation, origin and public suffix, each with its length; and the authenticator's
# abilities.
_INPUTS = [_NUMBER, *[_BYTES, _SIZE] * 4, _NUMBER]
_RESULTS = [_OUT, _OUT, _SIZE]


@lru_cache(maxsize=None)
def _load_functions() -> tuple[Any, Any]:
    """Returns the library's functions that write a request and a credential."""
    library = core.load_library()
    if not hasattr(library, "hidlog_client_request"):
        raise MissingDependencyError(
            "this libhidlog has no WebAuthn client; a Browser needs libhidlog of the same version"
        )
    request, response = library.hidlog_client_request, library.hidlog_client_response
    request.argtypes, request.restype = [*_INPUTS, *_RESULTS], ctypes.c_int64
    response.argtypes, response.restype = [*_INPUTS, _BYTES, _SIZE, *_RESULTS], ctypes.c_int64
    return request, response


def _convert(value: object) -> Any:
    """Returns a mapping as dict, for JSON. Raises WebAuthnTypeError for other objects."""
    if isinstance(value, Mapping):
        return dict(value)
    raise WebAuthnTypeError(
        f"{type(value).__name__} is not JSON; encode bytes as base64url" " (hidlog.webauthn_json.creation_options_json)"
    )


_ENCODER = json.JSONEncoder(default=_convert, separators=(",", ":"), allow_nan=False, skipkeys=True)


def to_json(options: object) -> bytes:
    """Returns options as JSON in ASCII."""
    if not isinstance(options, Mapping):
        raise WebAuthnTypeError(f"options must be a dict, not {type(options).__name__}")
    try:
        return _ENCODER.encode(options).encode("ascii")
    except (ValueError, RecursionError) as error:
        if isinstance(error, HidlogError):
            raise
        raise WebAuthnTypeError(f"options contain a cycle, are nested too deeply, or are not JSON: {error}") from None


class ClientCall:
    """A call of navigator.credentials.create or .get at an origin."""

    __slots__ = ("_inputs",)

    def __init__(
        self, ceremony: str, options: object, mediation: object, origin: str, authenticator: AuthenticatorOptions
    ):
        if not isinstance(mediation, str):
            raise WebAuthnTypeError(f"mediation is {describe(mediation)}; it must be a str, such as 'optional'")
        written, word, place = to_json(options), mediation.encode(errors="replace"), origin.encode()
        texts = (written, len(written), word, len(word), place, len(place), *_EMPTY_SUFFIX)
        self._inputs = (_CEREMONIES[ceremony], *texts, authenticator.to_bits)

    def request(self) -> Request:
        """Checks the options, and returns the request for the key. Invalid options raise the DOM's error."""
        report, out = _Report(), _RequestBytes()
        length = _load_functions()[0](*self._inputs, ctypes.byref(report), out, LONGEST_MESSAGE)
        if length < 0:
            raise _make_error(length, report, out)
        return Request(ctypes.string_at(out, length), report.timeout_ms, report.is_verified == 1)

    def response(self, response: bytes) -> Json:
        """Returns the credential for the key's response, which is a status byte and CBOR."""
        report, out = _Report(), _CredentialBytes()
        more = (response, len(response), ctypes.byref(report), out, _CREDENTIAL_CAPACITY)
        length = _load_functions()[1](*self._inputs, *more)
        if length < 0:
            raise _make_error(length, report, out)
        made: Json = json.loads(ctypes.string_at(out, length))
        return made

    def make_error(self, status: int, cause: str = "") -> WebAuthnError:
        """Returns the error that a page gets for a status other than 0, with the key's cause."""
        try:
            self.response(bytes([status]))
        except WebAuthnError as error:
            return type(error)(describe_status(status) + (f": {cause}" if cause else ""), status)
        raise HidlogError(f"libhidlog returned a credential for the error status {status}")


def _make_error(number: int, report: _Report, out: Any) -> HidlogError:
    """Returns the error for a failed call, with the name of the invalid member of the options."""
    kind = _ERRORS.get(number)
    if kind is None:
        return HidlogError(f"libhidlog's WebAuthn client failed with error {number}")
    text = ctypes.string_at(out, report.member_len + report.reason_len)
    member, reason = text[: report.member_len].decode(), text[report.member_len :].decode()
    if member == "origin":
        # Browser accepts any origin, but the client rejects origins at which browsers do not support WebAuthn.
        kind = SecurityError
    return kind(f"{member}: {reason}" if member else reason)
