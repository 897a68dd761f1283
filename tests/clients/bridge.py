"""Runs the bridge of bridges/uhid with a replacement for the kernel: a pair of sockets that preserve message
boundaries, like /dev/uhid. The tests in this folder write and read packets through these sockets, as programs do
through the kernel."""

from __future__ import annotations

import os
import queue
import signal
import socket
import struct
import subprocess
import threading
import time
from hashlib import sha256
from pathlib import Path
from typing import Iterator, Optional, Sequence

TOP = Path(__file__).resolve().parents[2]
# Numbers of events, and the size of the structure, from linux/uhid.h.
CLOSE, OUTPUT, CREATE2, INPUT2 = 5, 6, 11, 12
MAX_DATA = 4096
EVENT_BYTES = 4380
PACKET_BYTES = 64
# CTAPHID commands of CTAP 2.1.
INIT, PING, CBOR, KEEPALIVE, ERROR = 0x86, 0x81, 0x90, 0xBB, 0xBF
SO_SNDBUFFORCE = 32
BROADCAST = b"\xff" * 4
# Seconds after which a bridge is assumed to hang.
TIMEOUT_SECONDS = 300.0


def read_host_packets(name: str) -> list[bytes]:
    """Returns the host's packets in a log of examples/."""
    lines = (TOP / "examples" / name).read_text(encoding="utf-8").splitlines()
    return [bytes.fromhex(line.split()[2]) for line in lines if line.startswith("> ")]


def encode_packet(channel: bytes, command: int, data: bytes) -> bytes:
    """Returns a message of one packet."""
    return (channel + bytes([command]) + len(data).to_bytes(2, "big") + data).ljust(PACKET_BYTES, b"\0")


def to_output_event(packet_: bytes) -> bytes:
    """Returns the event for a packet that a program writes. The packet follows the report number."""
    data = (b"\0" + packet_).ljust(MAX_DATA, b"\0")
    return (struct.pack("=I", OUTPUT) + data + struct.pack("=HB", PACKET_BYTES + 1, 1)).ljust(EVENT_BYTES, b"\0")


class EndedError(Exception):
    """The bridge exited while a packet was read or written."""


class Bridge:
    """A running bridge, with the kernel's end of its device."""

    running: list[Bridge] = []

    def __init__(
        self,
        words: Sequence[str],
        *,
        trace: Sequence[str] = (),
        user: Optional[int] = None,
        waits: bool = True,
        stdin: int = subprocess.DEVNULL,
    ) -> None:
        self.device, other = socket.socketpair(socket.AF_UNIX, socket.SOCK_SEQPACKET)
        other.setblocking(waits)
        # A large buffer, so that a program that floods the device does not wait for the bridge. Without root, the
        # buffer is smaller.
        try:
            self.device.setsockopt(socket.SOL_SOCKET, SO_SNDBUFFORCE, 4 << 20)
        except PermissionError:
            pass
        command = [*trace, words[0], "-f", str(other.fileno()), *words[1:]]
        self.process = subprocess.Popen(
            command,
            stdin=stdin,
            stdout=subprocess.DEVNULL,
            stderr=subprocess.PIPE,
            pass_fds=[other.fileno()],
            user=user,
        )
        other.close()
        self.running.append(self)
        # Reading is done in a separate thread, as in the kernel: a bridge that waits for its reader would not read
        # either.
        self.events: queue.Queue[bytes] = queue.Queue()
        self.is_read = threading.Event()
        self.is_read.set()
        threading.Thread(target=self.read_events, daemon=True).start()

    def read_events(self) -> None:
        """Reads the events of the bridge. At the end, adds an empty event."""
        event = b"first"
        while event:
            self.is_read.wait()
            try:
                event = self.device.recv(2 * EVENT_BYTES)
            except OSError:
                event = b""
            self.events.put(event)

    @classmethod
    def kill_all(cls) -> None:
        """Kills the bridges that still run after a test."""
        for bridge in cls.running:
            if bridge.process.poll() is None:
                bridge.process.kill()
                bridge.wait_until_exited()
        cls.running.clear()

    def wait_until_plugged_in(self, seconds: float = TIMEOUT_SECONDS) -> bool:
        """Waits until the bridge has created its device. Returns False if the bridge exits before."""
        try:
            return next(self.iter_events(seconds))[0] == CREATE2
        except (StopIteration, EndedError):
            return False

    def iter_events(self, seconds: float) -> Iterator[tuple[int, bytes]]:
        """Yields the events that the bridge sends within this number of seconds."""
        end = time.monotonic() + seconds
        while (left := end - time.monotonic()) > 0:
            try:
                event = self.events.get(timeout=left)
            except queue.Empty:
                return
            if not event:
                self.events.put(event)
                raise EndedError
            yield struct.unpack_from("=I", event)[0], event[4:]

    def write(self, packet_: bytes) -> None:
        """Writes a packet to the device, as a program does."""
        self.send(to_output_event(packet_))

    def send(self, event: bytes) -> None:
        try:
            self.device.send(event)
        except (BrokenPipeError, ConnectionResetError):
            raise EndedError from None

    def close(self) -> None:
        """Sends the event that the last program has closed the device."""
        self.device.send(struct.pack("=I", CLOSE).ljust(EVENT_BYTES, b"\0"))

    def iter_packets(self, seconds: float) -> Iterator[bytes]:
        """Yields the packets that the key sends within this number of seconds."""
        for kind, data in self.iter_events(seconds):
            if kind == INPUT2:
                yield data[2 : 2 + PACKET_BYTES]

    def read_response(self, channel: bytes, seconds: float = TIMEOUT_SECONDS) -> bytes:
        """Returns the command and data of the next message on a channel, except KEEPALIVEs."""
        data, wanted, command = b"", 0, 0
        for packet in self.iter_packets(seconds):
            if packet[:4] != channel or packet[4] == KEEPALIVE:
                continue
            if packet[4] & 0x80:
                command, wanted, data = packet[4], int.from_bytes(packet[5:7], "big"), packet[7:]
            else:
                data += packet[5:]
            if len(data) >= wanted:
                return bytes([command]) + data[:wanted]
        raise TimeoutError(f"no response on channel {channel.hex()} within {seconds} s")

    def allocate_channel(self, nonce: bytes, seconds: float = TIMEOUT_SECONDS) -> bytes:
        """Allocates a channel, which each program does first."""
        self.write(encode_packet(BROADCAST, INIT, nonce))
        for packet_ in self.iter_packets(seconds):
            if packet_[:5] == BROADCAST + bytes([INIT]) and packet_[7:15] == nonce:
                return packet_[15:19]
        raise TimeoutError(f"no channel was allocated within {seconds} s")

    def register(self) -> bytes:
        """Registers as in examples/registration.log, and returns the credential ID."""
        return read_credential_id(self.exchange(read_host_packets("registration.log")[1:]))

    def exchange(self, packets: Sequence[bytes]) -> bytes:
        """Sends packets on a new channel, and returns the response."""
        channel = self.allocate_channel(os.urandom(8))
        for packet in packets:
            self.write(channel + packet[4:])
        return self.read_response(channel)

    def stop(self, number: int = signal.SIGTERM, seconds: float = TIMEOUT_SECONDS) -> tuple[int, str]:
        """Ends the bridge with a signal. Returns its exit status and its standard error."""
        self.process.send_signal(number)
        return self.wait_until_exited(seconds)

    def wait_until_exited(self, seconds: float = TIMEOUT_SECONDS) -> tuple[int, str]:
        """Waits until the bridge exits. Returns its exit status and its standard error."""
        try:
            _, errors = self.process.communicate(timeout=seconds)
        except subprocess.TimeoutExpired:
            self.process.kill()
            _, errors = self.process.communicate()
            errors += f"it did not exit within {seconds} s".encode()
        self.device.close()
        return self.process.returncode, errors.decode(errors="replace")


def read_credential_id(answer: bytes) -> bytes:
    """Returns the credential ID in the response to a registration: 32 bytes in its authenticator data."""
    if answer[:2] != bytes([CBOR, 0]):
        raise ValueError(f"not the response to a registration: {answer.hex()}")
    at = answer.index(bytes.fromhex("0258a4")) + 3 + 37 + 16
    return answer[at + 2 : at + 34]


def read_credential_ids(file: bytes) -> list[bytes]:
    """Returns the credential IDs in a state file, which consists of a magic number, a count, 128 bytes per record, and
    a checksum."""
    is_summed = file[:8] == b"hidlogS2" and sha256(file[:-32]).digest() == file[-32:]
    if not (is_summed or file[:8] == b"hidlogS1") or len(file) < 9 + 128 * file[8]:
        raise ValueError("not a state file: the magic number, length or checksum is wrong")
    return [file[9 + 128 * place : 9 + 128 * place + 32] for place in range(file[8])]
