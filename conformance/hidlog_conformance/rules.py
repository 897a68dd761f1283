"""The sections of CTAP 2.1 that have cases, and the one that a difference violates, which may differ from the session's
own."""

from __future__ import annotations

from dataclasses import dataclass
from typing import Dict, Optional

from hidlog_conformance import hid_packets as hid
from hidlog_conformance.hid_packets import Message

# The titles of the sections that have cases, by the names that cases use.
SECTIONS = {
    "channels": "11.2.3 Concurrency and channels",
    "packets": "11.2.4 Message and packet structure",
    "busy": "11.2.5.1 Transaction atomicity, idle and busy states",
    "timeout": "11.2.5.2 Transaction timeout",
    "abort": "11.2.5.3 Transaction abort and re-synchronization",
    "sequence": "11.2.5.4 Packet sequencing",
    "msg": "11.2.9.1.1 CTAPHID_MSG",
    "wink": "11.2.9.2.1 CTAPHID_WINK",
    "lock": "11.2.9.2.2 CTAPHID_LOCK",
    "cbor command": "11.2.9.1.2 CTAPHID_CBOR",
    "init": "11.2.9.1.3 CTAPHID_INIT",
    "ping": "11.2.9.1.4 CTAPHID_PING",
    "cancel": "11.2.9.1.5 CTAPHID_CANCEL",
    "error": "11.2.9.1.6 CTAPHID_ERROR",
    "keepalive": "11.2.9.1.7 CTAPHID_KEEPALIVE",
    "make": "6.1.2 authenticatorMakeCredential Algorithm",
    "get": "6.2.2 authenticatorGetAssertion Algorithm",
    "next": "6.3 authenticatorGetNextAssertion",
    "info": "6.4 authenticatorGetInfo",
    "pin": "6.5 authenticatorClientPIN",
    "protect": "12.1 Credential Protection",
    "blob": "12.2 Credential Blob",
    "pin length": "12.4 Minimum PIN Length Extension",
    "secret": "12.5 HMAC Secret Extension",
    "bio": "6.7 authenticatorBioEnrollment",
    "config": "6.11 authenticatorConfig",
    "ctap1": "10 Interoperating with CTAP1",
    "manage": "6.8 authenticatorCredentialManagement",
    "blobs": "6.10 authenticatorLargeBlobs",
    "blob key": "12.3 Large Blob Key",
    "reset": "6.6 authenticatorReset",
    "selection": "6.9 authenticatorSelection",
    "cbor": "8 Message Encoding",
    "commands": "8.1 Command Codes",
}
CHANNELS, PACKETS, BUSY, TIMEOUT, SEQUENCE = "11.2.3", "11.2.4", "11.2.5.1", "11.2.5.2", "11.2.5.4"
ABORT = "11.2.5.3"
CBOR, INIT, PING, CANCEL = "11.2.9.1.2", "11.2.9.1.3", "11.2.9.1.4", "11.2.9.1.5"
ERROR, KEEPALIVE = "11.2.9.1.6", "11.2.9.1.7"
# The sections about the code of an ERROR, and about the command of a request.
CODES = {"01": ERROR, "03": PACKETS, "0b": CHANNELS, "04": SEQUENCE, "05": TIMEOUT, "06": BUSY}
COMMANDS: Dict[int, str] = {
    0x01: "6.1.2",
    0x02: "6.2.2",
    0x04: "6.4",
    0x06: "6.5",
    0x07: "6.6",
    0x08: "6.3",
    0x09: "6.7",
    0x0A: "6.8",
    0x0B: "6.9",
    0x0C: "6.10",
    0x0D: "6.11",
}
# The rule about unknown commands, and those of the transport's messages.
COMMANDS_OTHER = "8.1"
RESET = "6.6"
MSG, WINK, LOCK = "11.2.9.1.1", "11.2.9.2.1", "11.2.9.2.2"
OF_COMMAND: Dict[int, str] = {
    hid.PING: PING,
    hid.MSG: MSG,
    hid.LOCK: LOCK,
    hid.INIT: INIT,
    hid.WINK: WINK,
    hid.CBOR: CBOR,
    hid.CANCEL: CANCEL,
    hid.KEEPALIVE: KEEPALIVE,
    hid.ERROR: ERROR,
}
MAPS = ("made", "asserted", "info", "managed", "piece", "user_retries", "sample", "templates", "sensor", "modality")
# Expectations of a response to a CBOR request, and the CTAPHID commands that may respond to one.
ANSWERS = (*MAPS, "status", "refused")
REPLY_COMMANDS = (hid.CBOR, hid.ERROR, hid.KEEPALIVE)


@dataclass
class Difference:
    """An expectation, and the actual response."""

    # The section of the session.
    own: str
    expected: str
    actual: Optional[Message]
    # Whether the last message is incomplete.
    partial: bool
    # The last request, and whether the host cancelled it.
    request: bytes
    cancelled: bool

    @property
    def request_section(self) -> str:
        """Returns the rule of the request's command."""
        return COMMANDS.get(self.request[0], self.own) if self.request else self.own

    @property
    def error_code(self) -> str:
        """The code of the ERROR received, or an empty string."""
        return self.actual.data.hex() if self.actual is not None and self.actual.command == hid.ERROR else ""

    @property
    def cbor_response(self) -> bytes:
        """The CBOR response received, or empty bytes."""
        return self.actual.data if self.actual is not None and self.actual.command == hid.CBOR else b""


def find_violated_section(difference: Difference) -> str:
    """Returns the section whose rule a difference violates."""
    kind = difference.expected.split(" ")[0]
    if kind == "zeros" or difference.partial or (difference.actual is not None and difference.actual.problem):
        return PACKETS
    if kind == "init":
        return INIT
    if difference.own == LOCK:
        return LOCK
    if kind == "maybe":
        return TIMEOUT
    if kind != "silence" and difference.actual is not None and difference.actual.command == hid.KEEPALIVE:
        return KEEPALIVE
    if kind != "error" and difference.error_code in ("04", "05", "06"):
        return CODES[difference.error_code]
    if kind in ("nothing", "silence") and difference.cancelled:
        return CANCEL
    if len(difference.cbor_response) > 1 and difference.cbor_response[0] != 0:
        # An error status has no data.
        return CBOR
    if kind in ANSWERS and difference.actual is not None and difference.actual.command not in REPLY_COMMANDS:
        return CBOR
    if kind in MAPS and difference.cbor_response == b"\0":
        return CBOR
    if kind in ("echo", "ping"):
        return PING if difference.actual is not None and difference.actual.command == hid.PING else difference.own
    if kind == "error" and difference.own != CBOR:
        return CODES.get(difference.expected.split(" ")[1][:2], difference.own)
    return find_response_section(kind, difference)


def find_response_section(kind: str, difference: Difference) -> str:
    """Returns the rule that a wrong, early or missing response to a request violates."""
    if kind == "status" and difference.cancelled and "2d" in difference.expected:
        return CANCEL
    words = set(difference.expected.split(" "))
    if difference.own.startswith("12.") and {"extension", "no-extension", "secret", "blob-key", "no-blob-key"} & words:
        return difference.own
    if difference.own == RESET and (kind in ("managed", "piece") or "no-extension" in words):
        # A credential or a setting was not reset.
        return difference.own
    if kind == "keepalive":
        return (
            difference.request_section
            if difference.cbor_response
            else KEEPALIVE
            if difference.actual is None
            else difference.own
        )
    success = difference.cbor_response[:1] == b"\0"
    if kind == "rest":
        return (
            difference.request_section
            if difference.cbor_response and not difference.own.startswith("8")
            else difference.own
        )
    if kind in MAPS and (success or difference.own.startswith("6.")):
        return difference.request_section
    if kind == "status" and difference.cbor_response and not success and difference.own.startswith("6."):
        # A status other than the expected one.
        return difference.request_section
    return difference.own
