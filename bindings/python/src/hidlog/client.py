"""A CTAPHID client for any key: sends messages in packets, and CTAP2 requests. Has no dependencies."""

from __future__ import annotations

import threading
from collections.abc import Callable
from contextlib import AbstractContextManager
from hashlib import sha256
from typing import Any, Protocol

from . import cbor, packets
from .errors import ArgumentTypeError, CtapError, HidlogError, InvalidChannelError, check_bytes, check_int

_ERROR_INVALID_CHANNEL = 0x0B
_INIT_BYTES = 17


class Connection(Protocol):
    """A connection to a key, for packets of 64 bytes."""

    def write_packet(self, packet: bytes) -> None:
        """Sends a packet to the key."""

    def read_packet(self) -> bytes:
        """Returns the key's next packet."""


class Client:
    """A client with its own channel. Threads may share a client, or each use one. In both cases only one request is in
    progress at a time."""

    def __init__(self, connection: Connection):
        for name in ("write_packet", "read_packet"):
            if not callable(getattr(connection, name, None)):
                raise ArgumentTypeError(
                    f"connection must have {name}, as a SecurityKey has, not {type(connection).__name__}"
                )
        self._connection = connection
        own = threading.RLock()
        # A key serves one message at a time, among all clients.
        self._exclusive: Callable[[], AbstractContextManager[Any]] = getattr(connection, "exchange", lambda: own)
        # Only keys of this package report the cause of a rejection.
        self._cause: Callable[[int], str] = getattr(connection, "cause", lambda _: "")
        # The nonce is constant, so that a recording can be played back to the client.
        nonce = sha256(b"hidlog").digest()[:8]
        response = self.transact(packets.INIT, nonce, channel=packets.BROADCAST)
        if response[:8] != nonce or len(response) < _INIT_BYTES:
            raise HidlogError(f"invalid INIT response {response.hex()}")
        self.channel = int.from_bytes(response[8:12], "big")
        self.version, self.device_version, self.capabilities = response[12], tuple(response[13:16]), response[16]

    def transact(
        self,
        command: int,
        data: bytes = b"",
        is_cancelled: Callable[[], bool] = lambda: False,
        on_keepalive: Callable[[int], None] = lambda _: None,
        channel: int | None = None,
    ) -> bytes:
        """Sends a message, and returns the data of its response. An ERROR raises CtapError."""
        check_int("command", command, 0, 0x7F)
        message = packets.Message(self.channel if channel is None else channel, command, check_bytes("data", data))
        written = packets.fragment_message(message)
        with self._exclusive():
            for packet in written:
                self._connection.write_packet(packet)
            return self._read_response(message, is_cancelled, on_keepalive)

    def _read_response(
        self, sent: packets.Message, is_cancelled: Callable[[], bool], on_keepalive: Callable[[int], None]
    ) -> bytes:
        """Reads the response to a message, and returns its data."""
        collector, has_cancelled, last = packets.MessageReassembler(), False, -1
        while True:
            if not has_cancelled and is_cancelled():
                cancel = packets.Message(sent.channel, packets.CANCEL, b"")
                self._connection.write_packet(packets.fragment_message(cancel)[0])
                has_cancelled = True
            packet = check_bytes("a packet of the key", self._connection.read_packet(), packets.PACKET)
            message = collector.add(packet)
            if message is None or message.channel != sent.channel:
                continue
            if message.command == sent.command:
                return message.data
            if message.command == packets.ERROR:
                code = (message.data or b"\x7f")[0]
                raise InvalidChannelError() if code == _ERROR_INVALID_CHANNEL else CtapError(code, self._cause(code))
            if message.command == packets.KEEPALIVE and message.data[:1] != bytes([last & 0xFF]):
                last = (message.data or b"\0")[0]
                on_keepalive(last)

    def request(
        self,
        command: int,
        parameters: dict[Any, Any] | None = None,
        is_cancelled: Callable[[], bool] = lambda: False,
    ) -> Any:
        """Sends a CTAP2 request, and returns its decoded response. A status other than 0 raises CtapError."""
        check_int("command", command, 0, 0xFF)
        data = bytes([command]) + (b"" if parameters is None else cbor.encode(parameters))
        response = self.transact(packets.CBOR, data, is_cancelled)
        if not response or response[0]:
            status = response[0] if response else 0x7F
            raise CtapError(status, self._cause(status))
        return cbor.decode(response[1:]) if response[1:] else {}
