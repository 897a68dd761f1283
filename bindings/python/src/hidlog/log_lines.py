"""Log lines: formats inputs as lines, and parses the packets and needs that `hidlog live` writes for them."""

from __future__ import annotations

import re
from binascii import unhexlify
from typing import TYPE_CHECKING, NamedTuple, Protocol, Union

from .errors import ArgumentTypeError

if TYPE_CHECKING:
    from .credentials import Credential

# Maximum length of a log line in bytes.
MAX_LINE = 255
_RESERVED_COMMENTS = ("need ", "signed ")
# A field of an input: bytes, or a keyword such as granted.
Field = Union[bytes, str]


class Need(NamedTuple):
    """What a key needs to continue.

    kind         nothing, presence, key or signature.
    credential   for a signature: ID of the credential that signs.
    signed       for a signature: the bytes to sign.
    """

    kind: str = "nothing"
    credential: bytes = b""
    signed: bytes = b""


_NO_NEED = Need()
# Lines of `hidlog live`: a packet, bytes to sign, and what the key needs.
_SENT_LINE = re.compile(rb"^< ([0-9a-f]+)$", re.MULTILINE)
_SIGNED_LINE = re.compile(rb"^# signed ([0-9a-f]+)$", re.MULTILINE)
_NEED_PREFIX = b"# need "


class Reply(NamedTuple):
    """The reply to a line: the text that `hidlog live` writes, the packets in the text, and what the key needs after
    the line."""

    text: bytes
    packets: list[bytes]
    need: Need


class Engine(Protocol):
    """A session whose inputs are log lines, in this process or in a separate process."""

    def exchange(self, line: bytes) -> Reply:
        """Passes a log line to the key, and returns the key's reply."""

    def play(self, kind: str, at: int, fields: tuple[Field, ...]) -> Reply:
        """Passes an input at a timestamp to the key, and returns the key's reply. Fields that are bytes are written in
        hex."""

    def cause(self, status: int | None) -> str:
        """Returns the cause of the last rejection, or "" if it is unknown, if there was none, or if it has another
        status."""

    def credentials(self, log: bytes) -> list[Credential]:
        """Returns the credentials. `log` is the log of the session so far."""

    def find(self, log: bytes, credential_id: bytes) -> Credential | None:
        """Returns the credential with this ID, or None."""

    def count(self, log: bytes) -> int:
        """Returns the number of credentials."""

    def snapshot(self, log: bytes) -> bytes:
        """Returns a snapshot of the credentials. `log` is the log of the session so far."""

    def finish(self) -> bytes:
        """Ends the session, and returns its totals line."""


def format_line(kind: str, at: int, fields: tuple[Field, ...]) -> str:
    """Returns an input as a log line."""
    return " ".join([kind, str(at), *[field if isinstance(field, str) else field.hex() for field in fields]])


def parse_reply(text: bytes) -> Reply:
    """Parses the text that was written for input lines. Returns the packets in the text, and what the key needs at the
    end."""
    sent = [unhexlify(packet) for packet in _SENT_LINE.findall(text)]
    kind, _, credential = (
        text[text.rindex(_NEED_PREFIX) + len(_NEED_PREFIX) :].rstrip(b"\n").decode("ascii").partition(" ")
    )
    if kind == "nothing":
        return Reply(text, sent, _NO_NEED)
    signed = unhexlify(b"".join(_SIGNED_LINE.findall(text)))
    return Reply(text, sent, Need(kind, bytes.fromhex(credential), signed))


def format_comments(text: str) -> list[bytes]:
    """Returns a text as log comments, one per line. Long lines are split."""
    if not isinstance(text, str):
        raise ArgumentTypeError(f"a comment must be str, not {type(text).__name__}")
    lines = []
    for part in text.split("\n"):
        # Comments with these prefixes are reserved for the key.
        rest = ("#  " if part.startswith(_RESERVED_COMMENTS) else "# ") + part
        while rest:
            kept = rest.encode(errors="replace")[:MAX_LINE].decode(errors="ignore")
            lines.append(kept.encode(errors="replace"))
            rest = rest[len(kept) :] and "# " + rest[len(kept) :]
    return lines
