"""The signatures in recorded sessions. The sessions are changed by hand, and the expected results are written by
hand."""

from __future__ import annotations

import os
import subprocess
import sys
from collections.abc import Callable
from pathlib import Path

import fido2
import pytest
from service import Service

import hidlog

FAILING_LOGS = Path(os.environ["HIDLOG_EXAMPLES"]) / "failing"


def list_outcomes(log: bytes, snapshot: bytes | None = None) -> list[tuple[str, str]]:
    return [(signature.kind, signature.outcome) for signature in hidlog.verify_signatures(log, snapshot)]


@pytest.mark.skipif(not getattr(fido2, "__version__", "").startswith("0.9"), reason="python-fido2 0.9 is missing")
def test_a_keys_own_session(make_key: Callable[..., hidlog.SecurityKey]) -> None:
    key = make_key()
    service = Service(key)
    service.sign_in([service.register()])
    found = hidlog.verify_signatures(key.log)
    assert [(result.kind, result.outcome, result.rp_id) for result in found] == [
        ("attestation", "good", "example.com"),
        ("assertion", "good", "example.com"),
    ]
    assert [key.log.splitlines()[item.line - 1][:1] for item in found] == [b"<", b"<"]


def test_each_bit_that_is_signed_counts() -> None:
    """A changed bit in the request's hash, in the flags of the response, or in the signature is reported at the
    response."""
    lines = (FAILING_LOGS / "changed_request.log").read_bytes().splitlines(True)
    assert list_outcomes(b"".join(lines)) == [("attestation", "good"), ("assertion", "wrong")]
    asked = next(at for at, it in enumerate(lines) if b"02a2016b6578616d706c652e636f6d" in it)
    begin = lines[asked].index(b"025820") + 6
    mended = bytearray(lines[asked])
    mended[begin + 7 : begin + 8] = b"%x" % (int(mended[begin + 7 : begin + 8], 16) ^ 1)
    good = [*lines[:asked], bytes(mended), *lines[asked + 1 :]]
    assert list_outcomes(b"".join(good)) == [("attestation", "good"), ("assertion", "good")]
    whole = b"".join(good)
    counter = b"470100000001"
    assert whole.count(counter) == 1
    assert list_outcomes(whole.replace(counter, b"470500000001"))[1] == ("assertion", "wrong")


def test_the_public_key_may_be_of_the_snapshot() -> None:
    log, alice, bob = (
        (FAILING_LOGS / item).read_bytes() for item in ("wrong_snapshot.log", "alice.snapshot", "bob.snapshot")
    )
    assert list_outcomes(log, alice) == [("assertion", "good")]
    assert list_outcomes(log) == list_outcomes(log, bob) == [("assertion", "unknown")]
    assert "use --load with its snapshot" in hidlog.verify_signatures(log)[0].text
    with pytest.raises(hidlog.SnapshotError):
        hidlog.verify_signatures(log, b"no snapshot")
    with pytest.raises(hidlog.ArgumentTypeError, match="the log"):
        hidlog.verify_signatures(7)  # type: ignore[arg-type]


def run_check(*words: str) -> subprocess.CompletedProcess[str]:
    return subprocess.run(
        [sys.executable, "-m", "hidlog", "check", *words], capture_output=True, text=True, check=False, cwd=FAILING_LOGS
    )


def test_the_command() -> None:
    assert run_check("changed_request.log").stdout == "same 14 inputs 18 packets\n"
    said = run_check("--signatures", "changed_request.log")
    assert (said.returncode, said.stdout.splitlines()[-1]) == (1, "1 of 2 signatures are good")
    assert "line 45: the signature of the assertion is wrong" in said.stdout
    said = run_check("--signatures", "--load", "alice.snapshot", "wrong_snapshot.log")
    assert (said.returncode, said.stdout) == (0, "same 7 inputs 9 packets\n1 of 1 signatures are good\n")
    said = run_check("--signatures", "--load", "two_clients.log", "wrong_snapshot.log")
    assert said.returncode == 2 and "snapshot" in said.stderr and len(said.stderr.splitlines()) == 1
    said = run_check("--signatures", "nothing.log")
    assert (said.returncode, said.stderr) == (2, "hidlog check: nothing.log: No such file or directory\n")


def test_without_cryptography() -> None:
    text = "import sys; sys.modules['cryptography'] = None; import hidlog; hidlog.verify_signatures(b't 1\\n')"
    said = subprocess.run([sys.executable, "-c", text], capture_output=True, text=True, check=False)
    assert said.stderr.splitlines()[-1].startswith(
        "hidlog.errors.MissingDependencyError: verifying signatures needs cryptography"
    )
