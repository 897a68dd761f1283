"""Serializes origins as browsers do, and checks the RP IDs that an origin may use."""

from __future__ import annotations

import re
from functools import lru_cache
from urllib.parse import urlsplit

from .errors import ArgumentError, ArgumentTypeError, describe
from .webauthn_client import AuthenticatorOptions, ClientCall
from .webauthn_errors import WebAuthnError

_DEFAULT_PORTS = {"https": 443, "http": 80}


def parse_origin(value: object) -> str:
    """Returns an origin as browsers serialize it: in lower case, without a default port."""
    if not isinstance(value, str):
        raise ArgumentTypeError(f"origin must be str, such as https://example.com, not {type(value).__name__}")
    try:
        parts = urlsplit(value)
        host, port = parts.hostname, parts.port
    except ValueError as error:
        raise ArgumentError(f"{describe(value)} is not an origin: {error}") from None
    if parts.scheme not in _DEFAULT_PORTS or not host or re.search(r"[\s\\%]", value):
        raise ArgumentError(
            f"{describe(value)} is not an origin; expected one like https://example.com or http://localhost:5000"
        )
    host = f"[{host}]" if ":" in host else _to_ascii(host, value)
    origin = f"{parts.scheme}://{host}" + ("" if port in (None, _DEFAULT_PORTS[parts.scheme]) else f":{port}")
    if parts.path not in ("", "/") or parts.query or parts.fragment or "@" in parts.netloc:
        raise ArgumentError(f"{describe(value)} is not an origin; its origin is {origin}")
    return origin


def _to_ascii(host: str, value: str) -> str:
    """Returns a host name in ASCII."""
    try:
        return host if host.isascii() else host.encode("idna").decode()
    except UnicodeError as error:
        raise ArgumentError(f"{describe(value)} is not an origin: {error}") from None


def get_host(origin: str) -> str:
    """Returns the host of an origin."""
    return urlsplit(origin).hostname or ""


@lru_cache(maxsize=1024)
def is_valid_rp_id(rp_id: str, origin: str) -> bool:
    """Returns whether pages of an origin may use an RP ID, according to the C library's WebAuthn client."""
    try:
        ClientCall("get", {"challenge": "", "rpId": rp_id}, "optional", origin, AuthenticatorOptions()).request()
    except WebAuthnError:
        return False
    return True
