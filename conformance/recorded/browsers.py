#!/usr/bin/env python3
"""Records the packets that Chromium and Firefox send to a security key.

    conformance/recorded/browsers.py FOLDER [chromium|firefox]    write FOLDER/NAME_RUN.log, trimmed

The browser sees a hidraw device: fake_udev.c replaces libudev, and a terminal without line editing /dev/hidrawN. Behind
it are the program of release/ and a user who touches at once. Needs gcc and the browser.
"""

from __future__ import annotations

import fcntl
import os
import pty
import select
import shutil
import signal
import struct
import subprocess
import sys
import tempfile
import termios
import threading
import time
import tty
from http.server import BaseHTTPRequestHandler, ThreadingHTTPServer
from typing import Any, Dict, List

HERE = os.path.dirname(os.path.abspath(__file__))
sys.path.insert(0, os.path.join(HERE, ".."))

from hidlog_conformance.devices import LiveDevice  # noqa: E402
from trim import trim_recording  # noqa: E402

# The report descriptor of CTAP 2.1, 11.2.8.1: usage page f1d0, 64 bytes each way.
DESCRIPTOR = bytes.fromhex("06d0f10901a1010920150026ff00750895408102092115002 6ff00750895409102c0".replace(" ", ""))
TOUCH_AFTER = 0.3
SECONDS = 60
# Seconds without a packet after which a browser waits for a person to close its dialog.
IDLE_SECONDS = 7.0
# The steps of the page in each run. Each run has a new browser and a new key.
RUNS = {
    "excluded": "register,sign_in,excluded",
    "discoverable": "discoverable,found",
    "unknown": "register,unknown",
    "made_verified": "made_verified",
    "found_verified": "register,found_verified",
}
BROWSERS: Dict[str, List[str]] = {
    "chromium": ["chromium", "--headless=new", "--no-sandbox", "--user-data-dir=PROFILE", "URL"],
    "firefox": ["firefox-esr", "--headless", "--no-remote", "--profile", "PROFILE", "URL"],
}


class RecordedDevice(LiveDevice):
    """Records the input lines."""

    def __init__(self) -> None:
        super().__init__()
        self.lines: List[str] = []

    def exchange(self, line: str) -> List[str]:
        """Writes an input line and returns the output lines."""
        self.lines.append(line)
        answers: List[str] = super().exchange(line)
        return answers


class FakeHidraw:
    """A pseudo-terminal that the browser opens as /dev/hidrawN. A thread passes its packets to the key and back, and
    touches the key."""

    def __init__(self) -> None:
        self.master, self.slave = pty.openpty()
        tty.setraw(self.slave)
        self.path = os.ttyname(self.slave)
        self.device = RecordedDevice()
        self.device.start()
        self.begun = time.monotonic()
        self.asked = 0.0
        # The time of the last packet.
        self.latest = time.monotonic() + SECONDS
        self.ended = False
        self.thread = threading.Thread(target=self.serve, daemon=True)
        self.thread.start()

    def now(self) -> int:
        """Returns the time in milliseconds."""
        return int((time.monotonic() - self.begun) * 1000)

    def unread(self) -> int:
        """Returns the number of bytes that the browser has not read yet."""
        return int(struct.unpack("i", fcntl.ioctl(self.slave, termios.FIONREAD, b"\0" * 4))[0])

    def answer(self) -> None:
        """Provides what the program needs, and passes on its packets."""
        while self.device.need == "key" or self.device.need.startswith("signature"):
            if self.device.need == "key":
                self.device.key(self.now(), ["yes"])
            else:
                self.device.signature(self.now(), ["yes"])
        if self.device.need != "presence":
            self.asked = time.monotonic()
        elif time.monotonic() - self.asked > TOUCH_AFTER:
            self.device.presence(self.now(), "granted")
            self.answer()
        packet = self.device.read(0)
        while packet is not None:
            os.write(self.master, packet)
            end = time.monotonic() + 2
            while self.unread() and time.monotonic() < end:
                time.sleep(0.001)
            if self.unread():
                # The device is not open.
                termios.tcflush(self.slave, termios.TCIFLUSH)
            packet = self.device.read(0)

    def serve(self) -> None:
        """Runs until the end."""
        rest = b""
        while not self.ended:
            ready, _, _ = select.select([self.master], [], [], 0.05)
            rest += os.read(self.master, 65) if ready else b""
            while len(rest) >= 65:
                report, rest = rest[:65], rest[65:]
                self.latest = time.monotonic()
                self.device.send(self.now(), report[1:])
                self.answer()
            if not ready:
                self.device.tick(self.now())
                self.answer()

    def end(self) -> List[str]:
        """Ends the program and returns the recording."""
        self.ended = True
        self.thread.join()
        self.device.close()
        return self.device.lines


class Handler(BaseHTTPRequestHandler):
    """Serves the page, and receives its result."""

    def log_message(self, *words: Any) -> None:
        """Logs nothing."""

    def do_GET(self) -> None:
        """Serves the page."""
        with open(os.path.join(HERE, "browsers.html"), "rb") as file:
            body = file.read()
        self.send_response(200)
        self.send_header("Content-Type", "text/html")
        self.end_headers()
        self.wfile.write(body)

    def do_POST(self) -> None:
        """Receives the result."""
        server: Any = self.server
        server.result = self.rfile.read(int(self.headers["Content-Length"])).decode()
        server.done.set()
        self.send_response(200)
        self.end_headers()


def compile_fake_udev(room: str) -> str:
    """Compiles the replacement of libudev."""
    library = os.path.join(room, "libudev.so.1")
    words = ["gcc", "-std=c11", "-O2", "-shared", "-fPIC", "-Wl,-soname,libudev.so.1"]
    script = "-Wl,--version-script=" + os.path.join(HERE, "fake_udev.map")
    subprocess.run(words + [script, "-o", library, os.path.join(HERE, "fake_udev.c")], check=True)
    return library


def record_browser(name: str, steps: str, room: str) -> List[str]:
    """Runs some steps in a browser; returns the recording."""
    terminal = FakeHidraw()
    server: Any = ThreadingHTTPServer(("127.0.0.1", 0), Handler)
    server.done, server.result = threading.Event(), "it waits for a person"
    threading.Thread(target=server.serve_forever, daemon=True).start()
    for folder in ("profile", "sysfs/hidraw/hidraw0"):
        os.makedirs(os.path.join(room, folder))
    with open(os.path.join(room, "sysfs/report_descriptor"), "wb") as file:
        file.write(DESCRIPTOR)
    places = {"PROFILE": os.path.join(room, "profile"), "URL": f"http://localhost:{server.server_port}/#{steps}"}
    words = [word.replace("PROFILE", places["PROFILE"]).replace("URL", places["URL"]) for word in BROWSERS[name]]
    fake = {
        "LD_PRELOAD": compile_fake_udev(room),
        "FAKE_HIDRAW": terminal.path,
        "FAKE_SYSFS": os.path.join(room, "sysfs"),
    }
    quiet = subprocess.DEVNULL if "VERBOSE" not in os.environ else None
    browser = subprocess.Popen(words, env={**os.environ, **fake}, stdout=quiet, stderr=quiet, start_new_session=True)
    end = time.monotonic() + SECONDS
    while not server.done.wait(0.1) and time.monotonic() < min(end, terminal.latest + IDLE_SECONDS):
        pass
    os.killpg(browser.pid, signal.SIGTERM)
    browser.wait()
    server.shutdown()
    print(f"{name} {steps}:\n{server.result}")
    return terminal.end()


def main(words: List[str]) -> int:
    """Records the installed browsers."""
    if not words:
        print(__doc__, file=sys.stderr)
        return 2
    for name in words[1:] or list(BROWSERS):
        if not shutil.which(BROWSERS[name][0]):
            print(f"{name} is missing; nothing was recorded", file=sys.stderr)
            continue
        for run, steps in RUNS.items():
            with tempfile.TemporaryDirectory(ignore_cleanup_errors=True) as room:
                lines = trim_recording(record_browser(name, steps, room))
            os.makedirs(words[0], exist_ok=True)
            with open(os.path.join(words[0], f"{name}_{run}.log"), "w", encoding="utf-8") as file:
                file.write("\n".join(lines) + "\n")
    return 0


if __name__ == "__main__":
    sys.exit(main(sys.argv[1:]))
