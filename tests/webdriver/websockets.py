#!/usr/bin/python3
"""The WebSocket client: the examples of RFC 6455, sections 1.3 and 5.7, and servers that violate the protocol.

    tests/webdriver/websockets.py
"""

from __future__ import annotations

import base64
import socket
import sys
import threading
from collections.abc import Callable, Iterator
from contextlib import contextmanager, suppress
from hashlib import sha1
from pathlib import Path

sys.path.insert(0, str(Path(__file__).resolve().parents[2] / "bindings" / "python" / "src"))

from hidlog.webdriver.websocket import WebSocket, WebSocketError, make_frame

TIMEOUT_SECONDS = 600
GUID = "258EAFA5-E914-47DA-95CA-C5AB0DC85B11"
HELLO = bytes.fromhex("810548656c6c6f")
FRAGMENTED_HELLO = bytes.fromhex("010348656c80026c6f")
PING, MASKED_PONG = bytes.fromhex("890548656c6c6f"), bytes.fromhex("8a8537fa213d7f9f4d5158")
MASKED_HELLO = bytes.fromhex("818537fa213d7f9f4d5158")


def compute_accept(key: str) -> str:
    return base64.b64encode(sha1((key + GUID).encode()).digest()).decode()


@contextmanager
def start_server(after: bytes, head: str = "") -> Iterator[tuple[str, list[bytes]]]:
    """Starts a server that sends some bytes after its handshake. Provides its URL, and the bytes that it receives after
    the client's handshake."""
    listening = socket.create_server(("127.0.0.1", 0))
    got: list[bytes] = []

    def serve() -> None:
        connection, _ = listening.accept()
        with connection:
            request = b""
            while b"\r\n\r\n" not in request:
                request += connection.recv(65536)
            lines = dict(line.split(": ", 1) for line in request.decode().split("\r\n")[1:-2])
            accept = compute_accept(lines["Sec-WebSocket-Key"])
            switching = "HTTP/1.1 101 Switching Protocols\r\nUpgrade: websocket\r\nConnection: Upgrade\r\n"
            connection.sendall((head or f"{switching}Sec-WebSocket-Accept: {accept}\r\n\r\n").encode() + after)
            with suppress(ConnectionResetError):
                while block := connection.recv(65536):
                    got.append(block)

    thread = threading.Thread(target=serve, daemon=True)
    thread.start()
    yield f"ws://127.0.0.1:{listening.getsockname()[1]}/devtools/browser/x", got
    thread.join(TIMEOUT_SECONDS)
    listening.close()


def receive_messages(after: bytes) -> list[str]:
    """Returns the messages that a client receives before the connection ends."""
    texts = []
    with start_server(after) as (url, _):
        client = WebSocket(url, TIMEOUT_SECONDS)
        try:
            while True:
                texts.append(client.receive())
                if len(texts) == 2:
                    break
        except WebSocketError:
            pass
        finally:
            client.close()
    return texts


def is_refused(after: bytes) -> bool:
    """Returns whether a client rejects the data of a server, without waiting for more data."""
    with start_server(after) as (url, _):
        client = WebSocket(url, TIMEOUT_SECONDS)
        try:
            client.receive()
            return False
        except WebSocketError:
            return True
        finally:
            client.close()


def test_examples() -> None:
    """The RFC's examples."""
    assert compute_accept("dGhlIHNhbXBsZSBub25jZQ==") == "s3pPLMBiTxaQ9kYGzzhZRbK+xOo="
    assert make_frame(1, b"Hello", bytes.fromhex("37fa213d")) == MASKED_HELLO
    assert receive_messages(HELLO + FRAGMENTED_HELLO) == ["Hello", "Hello"]
    assert make_frame(1, bytes(256), bytes(4))[:8] == bytes.fromhex("81fe010000000000")
    assert make_frame(1, bytes(65536), bytes(4))[:10] == bytes.fromhex("81ff0000000000010000")
    assert receive_messages(bytes.fromhex("817e0100") + b"a" * 256 + HELLO) == ["a" * 256, "Hello"]
    assert receive_messages(bytes.fromhex("817f0000000000010000") + b"b" * 65536 + HELLO) == ["b" * 65536, "Hello"]


def test_pings() -> None:
    """The client responds to a ping between two fragments with a masked pong."""
    after = FRAGMENTED_HELLO[:5] + PING + FRAGMENTED_HELLO[5:] + bytes.fromhex("8a00") + HELLO
    with start_server(after) as (url, got):
        client = WebSocket(url, TIMEOUT_SECONDS)
        assert [client.receive(), client.receive()] == ["Hello", "Hello"]
        client.close()
    data = b"".join(got)
    mask, text = data[2:6], data[6:]
    assert data[:2] == MASKED_PONG[:2] and bytes(byte ^ mask[at % 4] for at, byte in enumerate(text)) == b"Hello", data


def test_violations() -> None:
    """If the server violates the protocol, the client ends the connection."""
    for after in (
        MASKED_HELLO,
        b"\xc1" + HELLO[1:],
        b"\x83" + HELLO[1:],
        bytes.fromhex("8002") + b"lo",
        bytes.fromhex("0103") + b"Hel" + HELLO,
        bytes.fromhex("817f7fffffffffffffff"),
        bytes.fromhex("8800"),
    ):
        assert is_refused(after), after
    for head in (
        "HTTP/1.1 200 OK\r\n\r\n",
        "HTTP/1.1 101 x\r\n\r\n",
        "x\r\n\r\n",
        "HTTP/1.1 101 x\r\n" + "a: b\r\n" * 9999 + "\r\n",
    ):
        with start_server(b"", head) as (url, _):
            try:
                WebSocket(url, TIMEOUT_SECONDS)
                raise AssertionError(head)
            except WebSocketError:
                pass
    for url in ("http://127.0.0.1:1/", "ws://127.0.0.1/", "ws:///x", "x"):
        try:
            WebSocket(url, TIMEOUT_SECONDS)
            raise AssertionError(url)
        except WebSocketError:
            pass


TESTS: list[Callable[[], None]] = [test_examples, test_pings, test_violations]


def main() -> int:
    for test in TESTS:
        test()
        print(f"ok  {test.__doc__}")
    return 0


if __name__ == "__main__":
    sys.exit(main())
