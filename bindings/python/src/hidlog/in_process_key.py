"""A key in this process, implemented with the C library. The cost of a log line does not depend on the preceding
lines."""

from __future__ import annotations

from struct import Struct
from typing import Any

from .core import CCredential, Handle
from .credentials import Credential, read_snapshot
from .errors import HidlogError, LogError
from .log_lines import Field, Need, Reply, format_line, parse_reply

# Maximum number of bytes in a comment "# signed".
_MAX_SIGNED_BYTES = 96
_INPUT_LETTERS = (">", "t", "p", "k", "s")
# Layout of the integers at the end of struct hidlog_credential.
_NUMBERS = Struct("=4I")
_NOTHING = Need()
# Maximum number of lines per call of exchange_lines.
MAX_LINES = 24


def _to_credential(held: CCredential) -> Credential:
    return Credential.of_core(
        {
            "rp_id_hash": bytes(held.rp_id_hash),
            "id": bytes(held.id),
            "public_key_x": bytes(held.x),
            "public_key_y": bytes(held.y),
            "user_id": bytes(held.user_id)[: held.user_id_len],
            "user_name": bytes(held.user_name)[: held.user_name_len].decode(),
            "discoverable": held.discoverable == 1,
            "sign_count": held.sign_count,
        }
    )


def _to_c_credential(credential: Credential) -> CCredential:
    user, name = credential.user_id, credential.user_name.encode()
    numbers = _NUMBERS.pack(len(user), len(name), credential.discoverable, credential.sign_count)
    filled = user.ljust(64, b"\0"), name.ljust(64, b"\0")
    return CCredential.from_buffer_copy(
        b"".join(
            (credential.rp_id_hash, credential.id, credential.public_key_x, credential.public_key_y, *filled, numbers)
        )
    )


class InProcessKey:
    """A key whose inputs are log lines, as in `hidlog live`.

    indexes   cache of the credentials' indexes by ID, shared by a key's sessions.
    """

    def __init__(self, snapshot: bytes = b"", indexes: dict[bytes, int] | None = None):
        self._handle = Handle(snapshot)
        self._indexes: dict[bytes, int] = {} if indexes is None else indexes
        self._last: bytes | None = None

    def exchange(self, line: bytes) -> Reply:
        """Passes a log line to the key, and returns the key's reply."""
        if line.startswith(b"#") or not line:
            return Reply(line + b"\n", [], _NOTHING)
        kind, at, *words = line.decode("ascii").split(" ")
        if kind not in _INPUT_LETTERS:
            raise LogError(f"not a log line: {line[:80].decode()}")
        is_data = kind != "p" and words != ["no"]
        fields: tuple[Field, ...] = tuple(bytes.fromhex(word) for word in words) if is_data else tuple(words)
        return self.play(kind, int(at), fields)

    def exchange_lines(self, lines: str) -> Reply:
        """Passes at most MAX_LINES inputs to the key as log lines, and returns the key's reply."""
        result, text = self._handle.lines(lines.encode("ascii"))
        if result.status:
            raise HidlogError(f"the key rejected input line {result.line} with error {result.error}")
        return parse_reply(text)

    def play(self, kind: str, at: int, fields: tuple[Field, ...]) -> Reply:
        """Passes an input at a timestamp to the key, and returns the key's reply."""
        handle = self._handle
        packets = [handle.next() for _ in range(self._play_input(kind, at, fields))]
        parts = [format_line(kind, at, fields), *["< " + packet.hex() for packet in packets]]
        need = handle.need()
        if need is None:
            parts.append("# need nothing\n")
            return Reply("\n".join(parts).encode(), packets, _NOTHING)
        name, credential, signed = need
        if name == "signature":
            pieces = [signed[start : start + _MAX_SIGNED_BYTES] for start in range(0, len(signed), _MAX_SIGNED_BYTES)]
            parts += [f"# signed {piece.hex()}" for piece in pieces]
            parts.append(f"# need signature {credential.hex()}\n")
        else:
            parts.append(f"# need {name}\n")
        return Reply("\n".join(parts).encode(), packets, Need(name, credential, signed))

    def _play_input(self, kind: str, at: int, fields: tuple[Any, ...]) -> int:
        """Passes an input to the key, and returns the number of queued packets."""
        handle = self._handle
        if kind == ">":
            return handle.packet(at, fields[0])
        if kind == "t":
            return handle.call("tick", at)
        if kind == "p":
            return handle.presence(at, fields[0])
        if fields[0] == "no":
            return handle.call("refuse_key_pair" if kind == "k" else "refuse_signature", at)
        if kind == "k":
            return handle.call("provide_key_pair", at, *fields)
        return handle.call("provide_signature", at, fields[0], len(fields[0]))

    def cause(self, status: int | None) -> str:
        """Returns the cause of the last rejection (see Handle.cause), or "" after the key has ended."""
        return "" if self._last is not None else self._handle.cause(status)

    def credentials(self, _: bytes) -> list[Credential]:
        """Returns the credentials. May be called after finish."""
        if self._last is not None:
            return read_snapshot(self._last)
        return [_to_credential(held) for held in self._handle.credentials()]

    def find(self, _: bytes, credential_id: bytes) -> Credential | None:
        """Returns the credential with this ID, or None. May be called after finish."""
        if self._last is not None:
            return next((credential for credential in self.credentials(b"") if credential.id == credential_id), None)
        held = self._get_credential(self._indexes.get(credential_id, -1))
        if held is None or bytes(held.id) != credential_id:
            self._indexes.clear()
            self._indexes.update((bytes(held.id), place) for place, held in enumerate(self._handle.credentials()))
            held = self._get_credential(self._indexes.get(credential_id, -1))
        return None if held is None else _to_credential(held)

    def _get_credential(self, place: int) -> CCredential | None:
        return self._handle.credential(place) if 0 <= place < self._handle.call("credential_count") else None

    def put(self, credential: Credential) -> bool:
        """Appends a credential (see Handle.put), and power-cycles the key. Returns False if the credential cannot be
        appended."""
        return self._handle.put(_to_c_credential(credential))

    def replace_last(self, credential: Credential) -> bool:
        """Replaces the last credential, and power-cycles the key. Returns False if the last credential has another
        ID."""
        last = self._handle.credential(self._handle.call("credential_count") - 1)
        return bytes(last.id) == credential.id and self.put(credential)

    def remove(self, credential_id: bytes) -> None:
        """Removes a credential, and power-cycles the key."""
        self._handle.call("remove_credential", 0, credential_id)

    def count(self, _: bytes) -> int:
        """Returns the number of credentials."""
        return self._handle.call("credential_count") if self._last is None else len(read_snapshot(self._last))

    def snapshot(self, _: bytes) -> bytes:
        """Returns a snapshot of the credentials. May be called after finish."""
        return self._handle.save() if self._last is None else self._last

    def finish(self) -> bytes:
        """Ends the key, and returns its totals line."""
        self._last, counts = self._handle.save(), self.counts()
        self._handle.call("destroy")
        del self._handle  # its memory is 40 kB
        return counts

    def counts(self) -> bytes:
        """Returns the totals line of the session so far."""
        return self._handle.counts()
