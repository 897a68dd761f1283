"""A WebSocket client (RFC 6455) for a browser on this machine, with text messages in both directions."""

from __future__ import annotations

import base64
import os
import socket
import threading
from contextlib import suppress
from hashlib import sha1
from urllib.parse import urlsplit

_GUID = b"258EAFA5-E914-47DA-95CA-C5AB0DC85B11"
_MAX_HEAD_BYTES = 16_384
MAX_MESSAGE = 64 * 1024 * 1024
_CONTINUATION, _TEXT, _CLOSE, _PING, _PONG = 0x0, 0x1, 0x8, 0x9, 0xA
_FIN, _MASKED = 0x80, 0x80


class WebSocketError(OSError):
    """The connection ended, or the server violated the protocol."""


def _mask(data: bytes, mask: bytes) -> bytes:
    """Returns data XORed with a repeated mask (RFC 6455 section 5.3)."""
    whole = int.from_bytes(data, "little") ^ int.from_bytes((mask * (len(data) // 4 + 1))[: len(data)], "little")
    return whole.to_bytes(len(data), "little")


def make_frame(opcode: int, data: bytes, mask: bytes) -> bytes:
    """Returns a message as a single masked frame of a client."""
    size = len(data)
    if size < 126:
        length = bytes([_MASKED | size])
    elif size < 1 << 16:
        length = bytes([_MASKED | 126]) + size.to_bytes(2, "big")
    else:
        length = bytes([_MASKED | 127]) + size.to_bytes(8, "big")
    return bytes([_FIN | opcode]) + length + mask + _mask(data, mask)


class WebSocket:
    """An open connection. Only one thread may receive messages; any thread may send."""

    def __init__(self, url: str, seconds: float):
        parts = urlsplit(url)
        if parts.scheme != "ws" or not parts.hostname or not parts.port:
            raise WebSocketError(f"{url!r} is not a WebSocket URL")
        self._socket = socket.create_connection((parts.hostname, parts.port), timeout=seconds)
        self._lock = threading.Lock()
        try:
            self._socket.setsockopt(socket.IPPROTO_TCP, socket.TCP_NODELAY, 1)
            self._file = self._socket.makefile("rb")
            self._open(f"{parts.hostname}:{parts.port}", parts.path or "/")
            self._socket.settimeout(None)
        except BaseException:
            self._socket.close()
            raise

    def _open(self, host: str, path: str) -> None:
        key = base64.b64encode(os.urandom(16))
        lines = [f"GET {path} HTTP/1.1", f"Host: {host}", "Upgrade: websocket", "Connection: Upgrade"]
        lines += [f"Sec-WebSocket-Key: {key.decode()}", "Sec-WebSocket-Version: 13", "", ""]
        self._socket.sendall("\r\n".join(lines).encode("ascii"))
        wanted = base64.b64encode(sha1(key + _GUID).digest()).decode()
        headers, size = {}, 0
        status = self._file.readline(_MAX_HEAD_BYTES)
        while (line := self._file.readline(_MAX_HEAD_BYTES)) not in (b"\r\n", b"\n", b""):
            size += len(line)
            name, _, value = line.decode("latin-1").partition(":")
            headers[name.strip().lower()] = value.strip()
            if size > _MAX_HEAD_BYTES:
                raise WebSocketError("the head of the response is too long")
        if status.split(b" ")[1:2] != [b"101"] or headers.get("sec-websocket-accept") != wanted:
            raise WebSocketError(f"not a WebSocket server: {status[:80]!r}")

    def send(self, text: str) -> None:
        """Sends a text message."""
        self._send(_TEXT, text.encode())

    def _send(self, opcode: int, data: bytes) -> None:
        with self._lock:
            self._socket.sendall(make_frame(opcode, data, os.urandom(4)))

    def _read_bytes(self, count: int) -> bytes:
        data = self._file.read(count)
        if len(data) != count:
            raise WebSocketError("the connection ended")
        return data

    def _read_frame(self) -> tuple[bool, int, bytes]:
        first, second = self._read_bytes(2)
        length = second & 0x7F
        if length > 125:
            length = int.from_bytes(self._read_bytes(2 if length == 126 else 8), "big")
        if first & 0x70 or second & _MASKED or length > MAX_MESSAGE:
            raise WebSocketError("the server sent an invalid frame")
        return bool(first & _FIN), first & 0x0F, self._read_bytes(length)

    def receive(self) -> str:
        """Returns the next text message. Responds to pings."""
        parts: list[bytes] = []
        while True:
            is_last, opcode, data = self._read_frame()
            if opcode == _PING:
                self._send(_PONG, data)
            elif opcode == _CLOSE:
                raise WebSocketError("the connection was closed")
            elif opcode in (_TEXT, _CONTINUATION):
                if (opcode == _TEXT) == bool(parts) or sum(map(len, parts)) + len(data) > MAX_MESSAGE:
                    raise WebSocketError("the server sent an invalid message")
                parts.append(data)
                if is_last:
                    return b"".join(parts).decode(errors="replace")
            elif opcode != _PONG:
                raise WebSocketError(f"the server sent a frame of opcode {opcode}")

    def close(self) -> None:
        """Closes the connection, which also ends the receiving thread's wait."""
        with suppress(OSError):
            self._socket.shutdown(socket.SHUT_RDWR)
        self._socket.close()
