"""Checks python-fido2 and libfido2 with the sessions for clients, and with the PIN of the reference authenticator.

    conformance/check.py clients          fail unless exactly the sessions in clients/NAME.failed fail
    conformance/check.py clients --pin    PINs, sign-ins, credential management, large blobs and built-in user
                                          verification with the reference authenticator

SHOULD violations count as failures here. Exits with 3 if python-fido2 0.9 is missing.
"""

from __future__ import annotations

import os
import shutil
import subprocess
import sys
import tempfile
import time
from typing import Dict, List, Tuple

import fido2
from hidlog_conformance.client_runner import client_sessions, play_clients
from hidlog_conformance.paths import CLIENTS
from hidlog_conformance.reference.authenticator import Authenticator
from hidlog_conformance.reference.traits import DeviceTraits
from hidlog_conformance.report import compare_failures

PIN = os.path.join(os.path.dirname(os.path.dirname(os.path.abspath(__file__))), "pin")


def check_client(name: str, command: str) -> bool:
    """Runs all sessions with a client; returns whether exactly the listed ones fail."""
    print(f"{name}: ", end="")
    outcomes = [outcome for outcome, _ in play_clients(command, client_sessions(), False)]
    return bool(compare_failures(f"clients/{name}.failed", outcomes))


def compile_client(folder: str, source: str = os.path.join(CLIENTS, "libfido2.c")) -> str:
    """Compiles a C client; returns an empty path if gcc or libfido2's header is missing."""
    if not shutil.which("gcc") or not os.path.exists("/usr/include/fido.h"):
        return ""
    program = os.path.join(folder, os.path.splitext(os.path.basename(source))[0])
    warnings = ["-Wall", "-Wextra", "-Werror", "-Wno-unused-function"]
    subprocess.run(["gcc", "-O2", *warnings, "-o", program, source, "-lfido2"], check=True)
    return program


def check_sessions() -> bool:
    """Checks both clients with the sessions for clients."""
    good = check_client("python_fido2", f"{sys.executable} {os.path.join(CLIENTS, 'python_fido2.py')}")
    with tempfile.TemporaryDirectory() as folder:
        program = compile_client(folder)
        if program:
            good = check_client("libfido2", program) and good
        else:
            print("libfido2: skipped, gcc or libfido2-dev is missing")
    return good


def run_bridged(words: List[str], traits: DeviceTraits) -> str:
    """Connects a client's command to the authenticator, touches on request, and returns the client's last line."""
    authenticator = Authenticator(traits)
    pipe, start = subprocess.PIPE, time.monotonic()
    client = subprocess.Popen(words, stdin=pipe, stdout=pipe, text=True)
    assert client.stdin is not None and client.stdout is not None
    try:
        for line in client.stdout:
            if line.startswith(("ok", "refused")):
                return line.rstrip("\n")
            at = int((time.monotonic() - start) * 1000)
            authenticator.transport.packet(at, bytes.fromhex(line))
            authenticator.transport.touch(at)
            for packet in authenticator.transport.out:
                client.stdin.write(packet.hex() + "\n")
            authenticator.transport.out.clear()
            client.stdin.flush()
        return "ended without a last line"
    finally:
        client.kill()
        client.communicate()


def list_runs(folder: str) -> Dict[str, Tuple[List[str], DeviceTraits]]:
    """Returns the command and the authenticator of each client, by name."""
    found: Dict[str, Tuple[List[str], DeviceTraits]] = {}
    python = [sys.executable]
    pin, stored = (compile_client(folder, os.path.join(PIN, f"{name}.c")) for name in ("libfido2", "libfido2_stored"))
    for number in (1, 2):
        words = [str(number)]
        commands = {
            "python-fido2": [*python, os.path.join(PIN, "python_client.py"), *words],
            "libfido2": [pin],
            "python-fido2, management": [*python, os.path.join(PIN, "python_stored.py"), *words],
            "libfido2, management": [stored],
            "python-fido2, user verification": [*python, os.path.join(PIN, "python_stored.py"), *words, "uv"],
            "libfido2, user verification": [stored, "uv"],
        }
        for name, command in commands.items():
            # libfido2 1.12 uses authenticatorCredentialManagementPreview.
            traits = DeviceTraits(
                protocols=(number,), built_in_uv=name.endswith("user verification"), management_preview=True
            )
            traits.more_options["credentialMgmtPreview"] = True
            found[f"{name}, protocol {number}"] = (command, traits)
    return found


def check_pins() -> bool:
    """Runs the clients with each PIN protocol of the reference authenticator."""
    good = failed = 0
    with tempfile.TemporaryDirectory() as folder:
        for name, (words, traits) in list_runs(folder).items():
            if not words[0]:
                print(f"{name}: skipped, gcc or libfido2-dev is missing")
                continue
            result = run_bridged(words, traits)
            good, failed = good + (result == "ok"), failed + (result != "ok")
            print(f"{name}: {result}")
    print(f"{good} passed, {failed} failed")
    return not failed


def main(arguments: List[str]) -> int:
    """Checks both clients."""
    if not getattr(fido2, "__version__", "").startswith("0.9"):  # newer versions have another interface
        print("conformance/check.py clients: python-fido2 0.9 (Debian 12's version) is missing; nothing was run")
        return 3
    return 0 if (check_pins() if "--pin" in arguments else check_sessions()) else 1
