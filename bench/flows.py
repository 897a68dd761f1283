#!/usr/bin/env python3
"""Counts the instructions of `hidlog replay` for a PING, a getInfo, a registration and a sign-in.

    bench/flows.py [PROGRAM]        PROGRAM is another hidlog, such as an older one [default: release/hidlog]
    bench/flows.py --logs DIR       write a log of each flow to DIR, and count nothing

A flow is the log lines of one transaction: a registration is authenticatorMakeCredential in two packets, user presence,
a key pair and a signature; a sign-in is authenticatorGetAssertion, user presence and a signature. Each count is the
difference between 1,000 flows and none, divided by 1,000, measured with callgrind, so it hardly depends on the machine.
Needs valgrind.
"""

from __future__ import annotations

import re
import shutil
import subprocess
import sys
import tempfile
from pathlib import Path
from typing import Callable

TOP = Path(__file__).resolve().parents[1]
FLOW_COUNT = 1000
INIT = "> 0 " + "ffffffff8600080001020304050607".ljust(128, "0")
# The lines of crates/hidlog_cli/data/capacity_64/sign_in.log, all with one timestamp.
MAKE_CREDENTIAL = [
    "> 5 0000000190005b01a5015820" + "11" * 32 + "02a16269646b6578616d706c652e636f6d03a162",
    "> 5 0000000100696441010481a263616c672664747970656a7075626c69632d6b657907a162726bf5",
]
# The member "id" of the user in the second packet.
USER_ID = "69644101"
GET_ASSERTION = ["> 5 0000000190003202a2016b6578616d706c652e636f6d025820" + "22" * 32]
# A response with a status other than CTAP2_OK.
DENIED_REGISTRATION = re.compile(r"^< 00000001900001(?!00)", re.MULTILINE)
GRANTED, SIGNED = "p 5 granted", f"s 5 {'dd' * 70}"


def make_registration(number: int) -> list[str]:
    """Returns the lines of a registration for the same user, with a new credential ID."""
    return [*MAKE_CREDENTIAL, GRANTED, f"k 5 {number:064x} {'bb' * 32} {'cc' * 32}", SIGNED]


FLOWS: dict[str, Callable[[int], list[str]]] = {
    "ping": lambda number: ["> 5 00000001810005" + b"hello".hex()],
    "long_ping": lambda number: ["> 5 00000001810039" + "61" * 57],
    "get_info": lambda number: ["> 5 0000000190000104"],
    "registration": make_registration,
    "sign_in": lambda number: [*GET_ASSERTION, GRANTED, SIGNED],
}


def make_log(flow: Callable[[int], list[str]], count: int) -> str:
    """Returns a log with a registration, and then `count` times a flow."""
    lines = [INIT, *make_registration(0), *(line for number in range(1, count + 1) for line in flow(number))]
    return "".join(f"{line.ljust(132, '0') if line.startswith('>') else line}\n" for line in lines)


def make_registrations_log(count: int) -> str:
    """Returns a log with a registration for each of `count` users, at most 255."""
    lines = [INIT]
    for number in range(count):
        first, second = MAKE_CREDENTIAL
        lines += [first, second.replace(USER_ID, f"696441{number:02x}"), *make_registration(number)[2:]]
    return "".join(f"{line.ljust(132, '0') if line.startswith('>') else line}\n" for line in lines)


def count_instructions(program: str, log: str) -> int:
    """Returns the number of instructions of replaying a log."""
    with tempfile.NamedTemporaryFile("w", suffix=".log") as file:
        file.write(log)
        file.flush()
        with open(file.name, encoding="ascii") as source:
            counted = ["valgrind", "--tool=callgrind", "--callgrind-out-file=/dev/null", program, "replay"]
            ran = subprocess.run(counted, stdin=source, capture_output=True, text=True, check=True)
    collected = re.search(r"Collected : (\d+)", ran.stderr)
    if DENIED_REGISTRATION.search(ran.stdout) or "\n= " not in ran.stdout or not collected:
        sys.exit(f"bench/flows.py: {program} refused a request of the flow, or did not replay the whole log")
    return int(collected[1])


def main() -> None:
    if sys.argv[1:2] == ["--logs"]:
        for name, flow in FLOWS.items():
            Path(sys.argv[2], f"{name}.log").write_text(make_log(flow, FLOW_COUNT), encoding="ascii")
        return
    program = sys.argv[1] if len(sys.argv) > 1 else str(TOP / "release/hidlog")
    if not shutil.which("valgrind") or not Path(program).is_file():
        sys.exit(
            f"bench/flows.py: {program} not found" if shutil.which("valgrind") else "bench/flows.py: valgrind not found"
        )
    none = count_instructions(program, make_log(make_registration, 0))
    for name, flow in FLOWS.items():
        print(
            f"{name:12} {(count_instructions(program, make_log(flow, FLOW_COUNT)) - none) / FLOW_COUNT:10.0f}",
            flush=True,
        )


if __name__ == "__main__":
    main()
