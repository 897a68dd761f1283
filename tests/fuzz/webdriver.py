#!/usr/bin/python3
"""Sends random requests to `hidlog webdriver`, byte by byte over sockets. An invalid request, by the rules in
tests/webdriver/gate.py, must not reach the driver, and neither must the bytes after it. Each response must be a
WebDriver response, and the proxy must serve the next request.

    tests/fuzz/webdriver.py [--count 1500] [--seed 1]
"""

from __future__ import annotations

import argparse
import random
import re
import sys
from pathlib import Path

sys.path.insert(0, str(Path(__file__).resolve().parents[1] / "webdriver"))

import gate
from sockets import ProxyFixture, make_proxy, parse_status

HEADER_LINE = re.compile(rb"([!#$%&'*+.^_`|~0-9A-Za-z-]+):[ \t]*([\t\x20-\x7e\x80-\xff]*?)[ \t]*\Z")
REQUEST_LINE = re.compile(rb"([A-Z]+) ([\x21-\x7e\x80-\xff]+) HTTP/1\.[0-9]\Z")
HEAD_MEMBERS = {"host": "hosts", "origin": "origins", "sec-fetch-site": "sites", "content-type": "types"}
HEAD_MEMBERS |= {"content-length": "lengths", "transfer-encoding": "encodings"}
HEADERS = ["Host", "Origin", "Content-Type", "Content-Length", "Transfer-Encoding", "Sec-Fetch-Site", "X", "Expect"]
HEADERS += ["Connection", "Upgrade", "host", "CONTENT-LENGTH", "Content_Length", "Content-Length ", " Content-Length"]
INSERTED_BYTES = [
    b"\r\n",
    b"\n",
    b"\r",
    b"\x00",
    b" ",
    b"\t",
    b":",
    b"\x0b",
    b"\x1c",
    b"\x85",
    b"\xff",
    b"/",
    b"%2e",
    b"HTTP/1.1",
]
INSERTED_BYTES += [
    b"\r\n\r\n",
    b"GET /status HTTP/1.1\r\n",
    b"Transfer-Encoding: chunked\r\n",
    b"0\r\n\r\n",
    b"{",
    b"-",
    b"9" * 30,
]


def make_random_value(rng: random.Random, name: str, port: int) -> str:
    """Returns a value for a header, which is mostly valid."""
    good = {"host": f"127.0.0.1:{port}", "content-type": "application/json", "content-length": "2"}
    choices = [good.get(name.strip().lower(), "x")] * 3 + ["".join(rng.choices(gate.HEADER_PARTS, k=2))]
    return str(rng.choice(choices)).replace("4444", str(port))


def make_random_request(rng: random.Random, port: int) -> bytes:
    """Returns the bytes of a valid request in which some headers and bytes may be changed."""
    is_post = rng.random() < 0.5
    path = rng.choice(["/session", "/status", "/session/known/url", "/sessions", "/session/known"])
    lines = [f"{'POST' if is_post else rng.choice(['GET', 'DELETE'])} {path} HTTP/1.1", f"Host: 127.0.0.1:{port}"]
    lines += ["Content-Type: application/json", "Content-Length: 2"] if is_post else []
    for _ in range(rng.choice([0, 0, 1, 2])):
        name = rng.choice(HEADERS)
        lines.insert(rng.randint(1, len(lines)), f"{name}: {make_random_value(rng, name, port)}")
    if rng.random() < 0.2:
        del lines[rng.randrange(1, len(lines))]
    data = "\r\n".join([*lines, "", ""]).encode("utf-8") + (b"{}" if is_post else b"")
    for _ in range(rng.choice([0, 0, 1, 2, 3])):
        at = rng.randrange(len(data) + 1)
        data = data[:at] + rng.choice(INSERTED_BYTES) + data[at + rng.choice([0, 0, 1, 5]) :]
    return data


def find_faults(data: bytes, port: int) -> list[str]:
    """Returns what is wrong with the first request in these bytes, by RFC 9112 and the rules of the gate."""
    # A single line feed may end a line.
    found = re.search(rb"\r?\n\r?\n", data)
    if not found:
        return ["end"]
    start, *lines = re.split(rb"\r?\n", data[: found.start()].lstrip(b"\r\n"))
    first = REQUEST_LINE.match(start)
    parsed = [HEADER_LINE.match(line) for line in lines]
    if not first or not all(parsed):
        return ["syntax"]
    values: dict[str, list[str]] = {name: [] for name in HEAD_MEMBERS.values()}
    for line in parsed:
        assert line
        if name := HEAD_MEMBERS.get(line[1].decode().lower()):
            values[name].append(line[2].decode("latin-1"))
    head = gate.Head(first[1].decode(), first[2].decode("latin-1"), **values)
    port_of_table, gate.PORT = gate.PORT, port
    try:
        wrong = gate.find_faults(head)
    finally:
        gate.PORT = port_of_table
    digits = "".join(values["lengths"])
    if not wrong and digits and len(data) - found.end() < int(digits):
        return ["body"]
    return wrong


def send_and_check(rig: ProxyFixture, data: bytes) -> bool:
    """Sends bytes to the proxy, checks the response, and returns whether the bytes reached the driver."""
    response = rig.exchange_bytes(data)
    asked = rig.take_requests()
    wrong = find_faults(data, rig.port)
    assert not (asked and wrong), (data, asked, wrong)
    assert not response or response.startswith(b"HTTP/1.1 "), (data, response)
    if wrong and response:
        assert parse_status(response) >= 400 and len(re.findall(rb"HTTP/1.1 [0-9]{3} ", response)) == 1, (
            data,
            response,
        )
    assert b"Traceback" not in response, (data, response)
    return bool(asked)


def main() -> int:
    parser = argparse.ArgumentParser()
    parser.add_argument("--count", type=int, default=1500)
    parser.add_argument("--seed", type=int, default=1)
    options = parser.parse_args()
    rng = random.Random(options.seed)
    reached = 0
    with make_proxy() as rig:
        for number in range(options.count):
            reached += send_and_check(rig, make_random_request(rng, rig.port))
            if number % 100 == 0:
                assert parse_status(rig.exchange_bytes(rig.make_head("GET /status HTTP/1.1"))) == 200
                rig.take_requests()
    print(
        f"ok  {options.count} random requests to hidlog webdriver, of which {reached} reach the driver, each without a fault"
    )
    return 0


if __name__ == "__main__":
    sys.exit(main())
