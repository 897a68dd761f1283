"""Devices under test: hidlog live, a command over a pipe, and a Linux hidraw device."""

from __future__ import annotations

import os
import select
import shlex
import signal
import subprocess
import sys
import tempfile
import time
from collections import deque
from typing import Any, Deque, List, Optional, Set, Tuple

from hidlog_conformance.keys import KeyMaker
from hidlog_conformance.paths import PROGRAM
from hidlog_conformance.answers import CaseSkipped

# Steps that are not log lines: a power cycle, and a power cycle that deletes the credentials, which is a fault.
POWER_CYCLE, POWER_LOSS = "power cycle", "power loss"


class InputNotReadError(OSError):
    """A command does not read its input."""


# The maximum length of a command's line, and the maximum number of packets, and of seconds, that are discarded before
# a case.
MAX_LINE, MAX_LEFT_OVER, CLEARING = 1024, 1000, 2.0
# Seconds that a command may leave its input unread.
READING = 10.0


# Running commands, which an interrupt kills.
RUNNING: Set["subprocess.Popen[Any]"] = set()


def start_command(words: List[str], **more: Any) -> "subprocess.Popen[Any]":
    """Starts a command with pipes, in a new session, so that Ctrl-C reaches only the runner."""
    pipe = subprocess.PIPE
    process = subprocess.Popen(words, stdin=pipe, stdout=pipe, start_new_session=True, **more)
    RUNNING.add(process)
    return process


def kill(process: "subprocess.Popen[Any]") -> None:
    """Kills a command's process group."""
    try:
        os.killpg(process.pid, signal.SIGKILL)
    except (ProcessLookupError, PermissionError):
        pass


def kill_running() -> None:
    """Kills all running commands; other threads may be using them."""
    for process in list(RUNNING):
        kill(process)


def end_command(process: "subprocess.Popen[Any]", seconds: float = 2.0) -> None:
    """Ends a command and its children: closes its input, then kills its process group."""
    try:
        if process.stdin is not None:
            process.stdin.close()
    except OSError:
        pass
    try:
        process.wait(seconds)
    except subprocess.TimeoutExpired:
        pass
    kill(process)
    process.wait()
    RUNNING.discard(process)
    if process.stdout is not None:
        process.stdout.close()


def write_to_command(process: "subprocess.Popen[bytes]", data: bytes, deadline: float) -> None:
    """Writes to a command's input until the deadline."""
    assert process.stdin is not None
    place = process.stdin.fileno()
    os.set_blocking(place, False)
    while data:
        _, ready, _ = select.select([], [place], [], max(0.0, deadline - time.monotonic()))
        if not ready:
            raise InputNotReadError("the command does not read its input")
        data = data[os.write(place, data) :]


class Device:
    """A device under test. Real devices ignore the user's replies of the session."""

    # Whether time is the log's, so that packets come at once or not at all.
    virtual = False
    # Whether each session begins without credentials.
    fresh = False
    # Whether the device creates key pairs and signatures itself, and so responds before the session's k and s lines.
    makes_keys = True
    # The `needs` of sessions that this kind of device provides.
    features: Tuple[str, ...] = ("touch", "two channels")
    # Whether the device keeps running between sessions.
    lasting = False
    # Whether the next session needs a device that keeps its state across power cycles.
    saves = False
    # The exit status of the command in the last session, or None if it was running.
    status: Optional[int] = None
    # The time at which the runner started or power cycled the device.
    powered_at = 0.0
    # The maximum delay of an input in this session, in seconds. After a long delay the device may have timed out.
    late = 0.0

    @property
    def powered_for(self) -> float:
        """The number of seconds since power-up, or a lower bound."""
        return time.monotonic() - self.powered_at if self.powered_at else 0.0

    def start(self) -> None:
        """Begins a session."""

    def close(self) -> None:
        """Ends a session."""

    def send(self, at: int, packet: bytes) -> None:
        """Sends a packet to the device."""
        raise NotImplementedError

    def tick(self, at: int) -> None:
        """Advances the clock."""

    def power_cycle(self, at: int) -> None:
        """Power cycles the device."""
        raise NotImplementedError

    def presence(self, at: int, word: str) -> None:
        """Passes on the user's reply."""

    def key(self, at: int, words: List[str]) -> None:
        """Provides a key pair, or refuses one."""

    def signature(self, at: int, words: List[str]) -> None:
        """Provides a signature, or refuses one."""

    def provide(self, at: int) -> None:
        """Provides the key pairs and signatures that the device needs, in sessions without k and s lines."""

    def read(self, seconds: float) -> Optional[bytes]:
        """Returns the next packet, or None after `seconds`."""
        raise NotImplementedError


class LiveDevice(Device):
    """`hidlog live`, whose time is the log's. This class provides its key pairs and signatures."""

    virtual = True
    fresh = True
    makes_keys = False
    features: Tuple[str, ...] = (
        "touch",
        "reset",
        "denial",
        "refusal",
        "exact time",
        "two channels",
        "capacity 64",
        "power cycle",
    )

    def __init__(self, program: str = PROGRAM) -> None:
        self.program = program
        # The snapshot file between two runs of the program, and the time at which it started.
        self.room: Optional[tempfile.TemporaryDirectory[str]] = None
        self.base = 0
        self.process: Optional[subprocess.Popen[str]] = None
        self.packets: Deque[bytes] = deque()
        self.keys = KeyMaker()
        self.need = "nothing"
        self.signed = b""

    def begin(self) -> None:
        """Resets the state of the last session."""
        self.packets.clear()
        self.need = "nothing"
        self.signed = b""
        self.base = 0

    def run(self, load: bool = False) -> None:
        """Starts the program, with the saved credentials or none."""
        words = [self.program, "live"]
        if self.saves:
            self.room = self.room or tempfile.TemporaryDirectory()
            state = os.path.join(self.room.name, "state")
            words += ["--save", state] + (["--load", state] if load else [])
        self.process = start_command(words, text=True, bufsize=-1)

    def power_cycle(self, at: int) -> None:
        """Restarts the program with its credentials; its clock starts at 0."""
        self.play(POWER_CYCLE)
        self.packets.clear()
        self.need = "nothing"
        self.base = at

    def start(self) -> None:
        """Starts a new authenticator."""
        self.begin()
        self.run()

    def close(self) -> None:
        """Ends the authenticator."""
        if self.process is not None:
            self.process.communicate()
            RUNNING.discard(self.process)
            self.process = None

    def exchange(self, line: str) -> List[str]:
        """Writes an input line and returns the output lines; the last one is a `# need` comment."""
        if line in (POWER_CYCLE, POWER_LOSS):
            self.close()
            self.run(load=line == POWER_CYCLE)
            return []
        assert self.process is not None and self.process.stdin is not None and self.process.stdout is not None
        self.process.stdin.write(line + "\n")
        self.process.stdin.flush()
        answers: List[str] = []
        while not answers or not answers[-1].startswith("# need "):
            answer = self.process.stdout.readline()
            if not answer:
                raise OSError("hidlog live ended")
            answers.append(answer.rstrip("\n"))
        return answers

    def get_output(self, line: str) -> List[str]:
        """Returns the output lines for an input line."""
        return self.exchange(line)

    def play(self, line: str) -> None:
        """Plays an input line."""
        self.signed = b""
        for answer in self.get_output(line):
            if answer.startswith("< "):
                self.packets.append(bytes.fromhex(answer[2:]))
            elif answer.startswith("# signed "):
                self.signed += bytes.fromhex(answer[9:])
            elif answer.startswith("# need "):
                self.need = answer[7:]

    def program_time(self, at: int) -> int:
        """Converts a time of the session to the program's clock."""
        return max(0, at - self.base)

    def send(self, at: int, packet: bytes) -> None:
        """Hands the authenticator a packet."""
        self.play(f"> {self.program_time(at)} {packet.hex()}")

    def tick(self, at: int) -> None:
        """Advances the clock."""
        self.play(f"t {self.program_time(at)}")

    def presence(self, at: int, word: str) -> None:
        """Passes on the user's reply."""
        self.play(f"p {self.program_time(at)} {word}")

    def key(self, at: int, words: List[str]) -> None:
        """Provides a new key pair, with a credential ID other than the session's."""
        new = ["no"] if words == ["no"] else [part.hex() for part in self.keys.make()]
        self.play(f"k {self.program_time(at)} {' '.join(new)}")

    def signature(self, at: int, words: List[str]) -> None:
        """Provides the signature that the authenticator asks for."""
        if words == ["no"] or not self.need.startswith("signature "):
            self.play(f"s {self.program_time(at)} {words[0]}")
        else:
            self.play(f"s {self.program_time(at)} {self.keys.sign(bytes.fromhex(self.need[10:]), self.signed).hex()}")

    def provide(self, at: int) -> None:
        """Provides key pairs and signatures as long as the authenticator asks for them."""
        while self.need == "key" or self.need.startswith("signature "):
            if self.need == "key":
                self.key(at, [])
            else:
                self.signature(at, [])

    def read(self, seconds: float) -> Optional[bytes]:
        """Returns the next packet, if any."""
        return self.packets.popleft() if self.packets else None


class RealTimeDevice(Device):
    """Sleeps between inputs for as long as the log says."""

    def __init__(self, prompt_touch: bool) -> None:
        self.prompt_touch = prompt_touch
        # The line of a command's input that means a touch.
        self.touch_line = b""
        self.latest: Optional[int] = None
        # The time of the last input.
        self.before = 0.0

    def start(self) -> None:
        """Begins a session."""
        self.latest = None
        self.late = 0.0

    def wait_until(self, at: int) -> None:
        """Sleeps until the time of this input."""
        pause = max(0, at - self.latest) / 1000 if self.latest is not None else 0.0
        if pause:
            time.sleep(pause)
        now = time.monotonic()
        if self.latest is not None:
            self.late = max(self.late, now - self.before - pause)
        self.latest, self.before = at, now

    def tick(self, at: int) -> None:
        """Advances the clock."""
        self.wait_until(at)

    def presence(self, at: int, word: str) -> None:
        """Asks a person to touch the device."""
        self.wait_until(at)
        if self.touch_line:
            self.write_line(self.touch_line)
        elif self.prompt_touch:
            print("touch the key now", file=sys.stderr, flush=True)

    def send(self, at: int, packet: bytes) -> None:
        """Sends a packet to the device."""
        self.wait_until(at)
        self.write(packet)

    def write(self, packet: bytes) -> None:
        """Writes a packet to the device."""
        raise NotImplementedError

    def write_line(self, line: bytes) -> None:
        """Writes a line to a command."""
        raise NotImplementedError


class HidrawDevice(RealTimeDevice):
    """A Linux device, /dev/hidrawN."""

    lasting = True

    def __init__(self, path: str, prompt_touch: bool) -> None:
        super().__init__(prompt_touch)
        self.path = path
        self.file = self.open_file()
        self.packets: Deque[bytes] = deque()
        if prompt_touch:
            self.features += ("power cycle",)

    def open_file(self) -> int:
        """Opens the device."""
        return os.open(self.path, os.O_RDWR | os.O_NONBLOCK)

    def power_cycle(self, at: int) -> None:
        """Asks a person to unplug the device and plug it in again; waits up to one minute for each."""
        self.wait_until(at)
        os.close(self.file)
        print("unplug the key now", file=sys.stderr, flush=True)
        end = time.monotonic() + 60
        while os.path.exists(self.path) and time.monotonic() < end:
            time.sleep(0.05)
        unplugged = not os.path.exists(self.path)
        if unplugged:
            print("plug the key in again now", file=sys.stderr, flush=True)
        while unplugged and not os.access(self.path, os.R_OK | os.W_OK) and time.monotonic() < end + 60:
            time.sleep(0.05)
        self.packets.clear()
        self.file = self.open_file()
        self.powered_at = time.monotonic()
        if not unplugged:
            raise CaseSkipped("nobody unplugged the device within a minute")

    def start(self) -> None:
        """Begins a session; discards packets of earlier ones."""
        super().start()
        end = time.monotonic() + CLEARING
        for _ in range(MAX_LEFT_OVER):
            if self.read(0) is None or time.monotonic() > end:
                return
        raise OSError(f"{self.path} does not stop sending packets")

    def write(self, packet: bytes) -> None:
        """Writes a packet as report number 0."""
        if not packet[4] & 0x80:
            # The kernel queues 32 packets for a uhid device, and drops further ones.
            time.sleep(0.005)
        os.write(self.file, b"\0" + packet)

    def read(self, seconds: float) -> Optional[bytes]:
        """Returns the next packet, or None after `seconds`. Reads all available packets at once, since the kernel
        queues only 64."""
        if not self.packets:
            select.select([self.file], [], [], seconds)
            try:
                while len(self.packets) < 200:
                    self.packets.append(os.read(self.file, 64))
                    if not self.packets[-1]:
                        raise OSError(f"{self.path} cannot be read")
            except BlockingIOError:
                pass
        return self.packets.popleft() if self.packets else None


class PipeDevice(RealTimeDevice):
    """A command that reads and writes packets as lines of 128 hexadecimal digits."""

    def __init__(self, command: str, prompt_touch: bool, touch_line: str = "", keeps: bool = False) -> None:
        super().__init__(prompt_touch)
        if keeps:
            self.features += ("power cycle",)
        self.touch_line = touch_line.encode()
        self.command = shlex.split(command)
        self.process: Optional[subprocess.Popen[bytes]] = None
        self.rest = b""

    def start(self) -> None:
        """Starts the command."""
        super().start()
        self.process = start_command(self.command)
        self.powered_at = time.monotonic()
        self.rest = b""

    def close(self) -> None:
        """Closes the command's input and waits until it exits."""
        if self.process is not None:
            end_command(self.process)
            self.status = self.process.returncode
            self.process = None

    def power_cycle(self, at: int) -> None:
        """Restarts the command."""
        self.wait_until(at)
        self.close()
        self.start()
        self.latest = at

    def write(self, packet: bytes) -> None:
        """Writes a packet as a line."""
        self.write_line(packet.hex().encode())

    def write_line(self, line: bytes) -> None:
        """Writes a line to the command."""
        assert self.process is not None and self.process.stdin is not None
        try:
            write_to_command(self.process, line + b"\n", time.monotonic() + READING)
        except BrokenPipeError:
            raise OSError("the command exited") from None

    def read(self, seconds: float) -> Optional[bytes]:
        """Returns the next packet, or None after `seconds`."""
        assert self.process is not None and self.process.stdout is not None
        end = time.monotonic() + seconds
        while b"\n" not in self.rest:
            ready, _, _ = select.select([self.process.stdout], [], [], max(0.0, end - time.monotonic()))
            if not ready:
                return None
            piece = os.read(self.process.stdout.fileno(), 4096)
            if not piece:
                raise OSError("the command exited")
            self.rest += piece
            if b"\n" not in self.rest and len(self.rest) > MAX_LINE:
                raise OSError(f"the command wrote more than {MAX_LINE} bytes without a newline: {self.rest[:40]!r}..")
        line, _, self.rest = self.rest.partition(b"\n")
        try:
            packet = bytes.fromhex(line.decode())
        except ValueError:
            packet = b""
        if len(packet) != 64:
            raise OSError(f"the command wrote {line[:80]!r}, expected 128 hexadecimal digits")
        return packet
