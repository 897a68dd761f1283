"""Builds a session file: its head, its inputs, and the expectations after them."""

from __future__ import annotations

from typing import TYPE_CHECKING, Any, Dict, List, Optional, Sequence

from hidlog_conformance import hid_packets as hid
from hidlog_conformance.ctap_cbor import encode
from hidlog_conformance.rules import SECTIONS

if TYPE_CHECKING:
    from typing_extensions import Self

MAKE, GET, INFO, RESET, NEXT, SELECTION = b"\1", b"\2", b"\4", b"\7", b"\x08", b"\x0b"
NONCE = bytes(range(8))
KIND = "public-key"


def credential_name(number: int) -> bytes:
    """Returns the ID that sessions use for credential `number`."""
    return bytes([0xA0 + number % 96]) * 31 + bytes([number])


def descriptor(number: int, kind: str = KIND) -> Dict[str, Any]:
    """Returns the descriptor of a credential."""
    return {"id": credential_name(number), "type": kind}


def similar_name(number: int, kind: str) -> bytes:
    """Returns the ID that sessions use for an ID similar to that of credential `number`: with a changed bit, longer, or
    shorter."""
    return (
        credential_name(number)[:-2]
        + {"changed": b"\xc0", "longer": b"\xc1", "shorter": b"\xc2"}[kind]
        + bytes([number])
    )


def user(number: int) -> Dict[str, Any]:
    """Returns user `number`; registrations are for the first one unless a case names another."""
    return {"id": bytes([number]), "name": f"user{number}", "displayName": f"User {number}"}


def registration_parameters(**changes: Any) -> Dict[Any, Any]:
    """Returns valid parameters of authenticatorMakeCredential. p1, p2 .. replace a parameter, or remove it (None)."""
    asked: Dict[Any, Any] = {
        1: b"\x11" * 32,
        2: {"id": "example.com", "name": "Example"},
        3: user(1),
        4: [{"alg": -7, "type": KIND}],
    }
    return change_parameters(asked, changes)


def sign_in_parameters(**changes: Any) -> Dict[Any, Any]:
    """Returns valid parameters of authenticatorGetAssertion."""
    return change_parameters({1: "example.com", 2: b"\x22" * 32}, changes)


def change_parameters(asked: Dict[Any, Any], changes: Dict[str, Any]) -> Dict[Any, Any]:
    """Returns changed parameters."""
    for key, value in changes.items():
        if value is None:
            asked.pop(int(key[1:]), None)
        else:
            asked[int(key[1:])] = value
    return asked


class Case:
    """Collects the lines of a session. Times are in milliseconds, by the host's clock."""

    def __init__(self, name: str, section: str, requirement: str, why: str = "", **more: Any) -> None:
        self.name = name
        self.at = 0
        self.lines: List[str] = []
        self.comment("rule: CTAP 2.1, " + SECTIONS[section])
        self.comment("requirement: " + requirement)
        if why:
            self.comment("why: " + why)
        for word in ("needs", "uses"):
            for value in more.get(word, ()):
                self.comment(f"{word}: {value}")
        for word in ("profile", "level"):
            if more.get(word):
                self.comment(f"{word}: {more[word]}")

    def comment(self, text: str) -> None:
        """Writes a comment."""
        line = "# " + text
        assert len(line.encode()) <= 255, (self.name, line)
        self.lines.append(line)

    def expect(self, *texts: str) -> Self:
        """Adds expectations after the last input."""
        for text in texts:
            self.comment("expect " + text)
        return self

    def wait(self, milliseconds: int) -> Self:
        """Advances the clock without an input."""
        self.at += milliseconds
        return self

    def packets(self, packets: Sequence[bytes]) -> Self:
        """Adds packets of the host."""
        self.lines += [f"> {self.at} {packet.hex()}" for packet in packets]
        return self

    def send(self, channel: int, command: int, data: bytes = b"", length: Optional[int] = None) -> Self:
        """Adds the packets of a message."""
        return self.packets(hid.fragment_message(channel, command, data, length))

    def begin(self, channel: int, length: int = 100, command: int = hid.PING) -> Self:
        """Adds the first packet of a longer message."""
        return self.packets(hid.fragment_message(channel, command, count_bytes(length))[:1])

    def go_on(self, channel: int, sequence: int = 0, length: int = 100) -> Self:
        """Adds a continuation packet of the message that `begin` began, with any sequence number."""
        data = count_bytes(length)[57 + 59 * sequence :][:59]
        return self.packets([(channel.to_bytes(4, "big") + bytes([sequence]) + data).ljust(64, b"\0")])

    def allocate(self, count: int = 1) -> Self:
        """Allocates channels."""
        for number in range(count):
            nonce = NONCE[:7] + bytes([7 + number])
            self.send(hid.BROADCAST, hid.INIT, nonce).expect(f"init nonce {nonce.hex()}")
        return self

    def cbor(self, data: bytes, channel: int = 1) -> Self:
        """Sends a CBOR message."""
        return self.send(channel, hid.CBOR, data)

    def make(self, channel: int = 1, **changes: Any) -> Self:
        """Sends an authenticatorMakeCredential."""
        return self.cbor(MAKE + encode(registration_parameters(**changes)), channel)

    def get(self, channel: int = 1, **changes: Any) -> Self:
        """Sends an authenticatorGetAssertion."""
        return self.cbor(GET + encode(sign_in_parameters(**changes)), channel)

    def tick(self, milliseconds: int = 0) -> Self:
        """Adds a tick."""
        self.at += milliseconds
        self.lines.append(f"t {self.at}")
        return self

    def power_cycle(self) -> Self:
        """Adds a power cycle, after which channels count from 1 again."""
        self.lines.append("# power cycle")
        return self

    def presence(self, word: str = "granted") -> Self:
        """Adds a reply of the user."""
        self.at += 10
        self.lines.append(f"p {self.at} {word}")
        return self

    def key(self, number: int) -> Self:
        """Provides a key pair, under the session's credential ID."""
        self.lines.append(f"k {self.at} {credential_name(number).hex()} {'bb' * 32} {'cc' * 32}")
        return self

    def sign(self) -> Self:
        """Provides a signature."""
        self.lines.append(f"s {self.at} {'dd' * 70}")
        return self

    def expect_credential(self, number: int, words: str = "up", channel: int = 1) -> Self:
        """Adds a touch for a registration, and expects a credential."""
        self.presence().key(number).sign()
        return self.expect(f"made {words}" + (f" on {channel:08x}" if channel != 1 else ""))

    def similar_descriptor(self, number: int, kind: str) -> Dict[str, Any]:
        """Returns the descriptor of an ID similar to that of credential `number`."""
        name = similar_name(number, kind)
        self.comment(f"derived: {kind} {credential_name(number).hex()} {name.hex()}")
        return {"id": name, "type": KIND}

    def register(self, number: int, rk: bool = False, channel: int = 1, **changes: Any) -> Self:
        """Registers a credential."""
        if rk:
            changes.setdefault("p7", {"rk": True})
        return self.make(channel, **changes).expect_credential(number, channel=channel)

    def expect_assertion(self, words: str, channel: int = 1, presence: bool = True) -> Self:
        """Adds a touch for a sign-in, and expects an assertion."""
        if presence:
            self.presence()
        self.sign()
        return self.expect(f"asserted {words}" + (f" on {channel:08x}" if channel != 1 else ""))

    def expect_alive(self, channel: int = 1) -> Self:
        """Checks with a PING that the channel still works."""
        return self.send(channel, hid.PING, b"still here").expect(f"echo on {channel:08x}")

    def text(self) -> str:
        """Returns the session."""
        return "\n".join(self.lines) + "\n"


def count_bytes(length: int) -> bytes:
    """Returns `length` bytes in which neighboring bytes differ."""
    return bytes((7 * number + number // 251 + 1) % 256 for number in range(length))
