"""Decides from the head of a request whether the proxy serves the request.

A client that controls a browser can run programs on the machine, and any web page can send requests to a port of this
machine. So a request must name this server as its host (no DNS rebinding), must not come from a page (Origin,
Sec-Fetch-Site), and a POST must be JSON, which a page can't send to another origin without a preflight. Each accepted
request has only one interpretation: one spelling of a path, one length, and no transfer encoding.
"""

from __future__ import annotations

import re
from collections.abc import Sequence
from ipaddress import ip_address
from typing import NamedTuple

from .errors import DriverError

METHODS = ("GET", "POST", "DELETE")
# Maximum length of a body. A file upload is a single command in base64.
MAX_BODY = 64 * 1024 * 1024
MAX_PATH = 4096
_JSON = "application/json"
_CONTENT_LENGTH = re.compile(r"[0-9]{1,18}\Z")
# Values of Sec-Fetch-Site that a page of another origin cannot cause.
_OWN_SITES = ("none", "same-origin")
# Clients may percent-encode characters other than letters, digits and -._~ (clients in Java encode `=`), but not `/`,
# `\` and `%`.
_PATH_SEGMENT = re.compile(r"(?:[A-Za-z0-9._~!$&'()*+,;=:@-]|%(?:2[0-46-9A-C]|3[A-F]|40|5[BDE]|60|7[B-D]))*\Z", re.I)
_HOST_AND_PORT = re.compile(r"(\[[0-9a-fA-F:.]+\]|[A-Za-z0-9._-]+)(?::([0-9]{1,5}))?\Z")
_LOOPBACK = ("127.0.0.1", "localhost", "[::1]")


class Head(NamedTuple):
    """The head of a request, with all values of each header."""

    method: str
    path: str
    hosts: Sequence[str] = ()
    origins: Sequence[str] = ()
    sites: Sequence[str] = ()
    types: Sequence[str] = ()
    lengths: Sequence[str] = ()
    encodings: Sequence[str] = ()


class Policy(NamedTuple):
    """The hosts that the server accepts: the server's port, the address to which the request was sent, and further
    hosts as NAME or NAME:PORT."""

    port: int
    address: str = "127.0.0.1"
    hosts: Sequence[str] = ()


def admit(head: Head, policy: Policy) -> int:
    """Returns the length of an accepted request's body. Raises DriverError if the request is rejected."""
    if head.method not in METHODS:
        raise DriverError(
            "unknown method", f"the method {_quote(head.method)} is unsupported; use {', '.join(METHODS)}", 405
        )
    _check_path(head.path)
    host = _check_host(head.hosts, policy)
    _check_origin(head.origins, head.sites, host)
    length = _read_length(head)
    if head.method == "POST" or length:
        _check_type(head.types)
    return length


def _quote(text: str) -> str:
    return ascii(text if len(text) <= 80 else text[:77] + "...")


def _check_path(path: str) -> None:
    """Rejects a path that has more than one interpretation or is not the path of a WebDriver command."""
    if len(path) > MAX_PATH:
        raise DriverError(
            "unknown command", f"the path has {len(path)} characters; at most {MAX_PATH} are allowed", 414
        )
    first, *segments = path.split("/")
    if first or not segments or not all(_PATH_SEGMENT.match(item) and item not in ("", ".", "..") for item in segments):
        raise DriverError("unknown command", f"{_quote(path)} is not the path of a WebDriver command", 400)


def parse_host(text: str) -> tuple[str, int | None] | None:
    """Returns the name and the port of a host, or None if it is invalid."""
    found = _HOST_AND_PORT.match(text)
    if not found:
        return None
    port = int(found[2]) if found[2] else None
    return None if port is not None and not 0 < port < 65536 else (found[1].lower(), port)


def is_address(name: str) -> bool:
    """Returns whether a host is an IP address, which cannot be redirected with DNS."""
    try:
        ip_address(name.strip("[]"))
    except ValueError:
        return False
    return True


def _check_host(hosts: Sequence[str], policy: Policy) -> str:
    """Rejects a request for a host other than this server, as after DNS rebinding."""
    found = parse_host(hosts[0]) if len(hosts) == 1 else None
    if found is None:
        raise DriverError("unknown error", f"Host is {_quote(', '.join(hosts))}; expected one host", 400)
    name, port = found
    own = (*_LOOPBACK, f"[{policy.address}]" if ":" in policy.address else policy.address)
    is_own = name in own and (port or 80) == policy.port
    if not is_own and not any(_is_allowed(found, item) for item in policy.hosts):
        hint = f"use 127.0.0.1:{policy.port}, or start with --allow-hosts {name}"
        raise DriverError("unknown error", f"Host is {_quote(hosts[0])}, which this server doesn't serve; {hint}", 403)
    return hosts[0].lower()


def _is_allowed(host: tuple[str, int | None], allowed: str) -> bool:
    """Returns whether a host matches an allowed host. An allowed host without a port matches any port."""
    wanted = parse_host(allowed)
    return wanted is not None and wanted[0] == host[0] and wanted[1] in (None, host[1] or 80)


def _check_origin(origins: Sequence[str], sites: Sequence[str], host: str) -> None:
    """Rejects requests from pages. Only a page of this server would have the server's origin, and the server has no
    pages."""
    if len(origins) > 1 or (origins and origins[0].lower() != f"http://{host}"):
        raise DriverError("unknown error", f"Origin is {_quote(', '.join(origins))}; web pages are refused", 403)
    if any(item.lower() not in _OWN_SITES for item in sites):
        raise DriverError("unknown error", f"Sec-Fetch-Site is {_quote(', '.join(sites))}; web pages are refused", 403)


def _check_type(types: Sequence[str]) -> None:
    kind = types[0].split(";")[0].strip().lower() if len(types) == 1 else ""
    if kind != _JSON:
        shown = _quote(", ".join(types)) if types else "missing"
        raise DriverError("invalid argument", f"Content-Type is {shown}; expected {_JSON}", 415)


def _read_length(head: Head) -> int:
    """Returns the length of the body. The head must have exactly one Content-Length."""
    if head.encodings:
        raise DriverError("invalid argument", "Transfer-Encoding is unsupported; send Content-Length", 400)
    if not head.lengths:
        if head.method == "POST":
            raise DriverError("invalid argument", "Content-Length is missing", 411)
        return 0
    text = head.lengths[0] if len(head.lengths) == 1 else ""
    if not _CONTENT_LENGTH.match(text):
        shown = _quote(", ".join(head.lengths))
        raise DriverError("invalid argument", f"Content-Length is {shown}; expected one number, 0 or greater", 400)
    if int(text) > MAX_BODY:
        raise DriverError("invalid argument", f"Content-Length is {text}; at most {MAX_BODY} is allowed", 413)
    return int(text)
