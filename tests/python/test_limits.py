"""A key for 256 credentials, whose library is loaded in a separate process; the time and memory of many sign-ins."""

from __future__ import annotations

import os
import platform
import resource
import subprocess
import sys
import time
from collections.abc import Callable
from pathlib import Path

import pytest

import hidlog

LIBRARY = Path(os.environ["HIDLOG_EXAMPLES"]).resolve().parent / "release" / "libhidlog-256.so.1"
SCRIPT = """
import hidlog

with hidlog.SecurityKey() as key:
    assert key.capacity == 256, key.capacity
    for number in range(256):
        key.credentials.add("example.com", number.to_bytes(2, "big"))
    try:
        key.credentials.add("example.com", b"one more")
        raise SystemExit("a key of 256 credentials accepted another one")
    except hidlog.ArgumentError as error:
        assert str(error) == "the key is full: it has 256 credentials", error
    saved = key.snapshot()
    with hidlog.SecurityKey(snapshot=saved, private_keys=key.private_keys) as other:
        assert len(other.credentials) == 256
        got = other.browser("https://example.com").get({"challenge": "Yw", "rpId": "example.com"})
        # The newest, whose user handle is 00ff.
        assert got["response"]["userHandle"] == "AP8", got
        log = other.log
    assert hidlog.check(log, saved).status == 0
"""


@pytest.mark.skipif(not LIBRARY.is_file() or platform.machine() != "x86_64", reason="libhidlog-256.so.1 isn't here")
def test_a_key_holds_what_its_library_has_capacity_for() -> None:
    environment = {**os.environ, "HIDLOG_LIBRARY": str(LIBRARY)}
    words = [sys.executable, "-c", SCRIPT]
    ran = subprocess.run(words, env=environment, capture_output=True, text=True, check=False)
    assert ran.returncode == 0, ran.stderr


def test_two_thousand_sign_ins_take_flat_time(make_key: Callable[..., hidlog.SecurityKey]) -> None:
    """The time and memory for a sign-in do not increase with the number of earlier sign-ins."""
    key = make_key()
    client = hidlog.Client(key)
    client.request(
        1, {1: bytes(32), 2: {"id": "a"}, 3: {"id": b"u"}, 4: [{"alg": -7, "type": "public-key"}], 7: {"rk": True}}
    )
    parts = []
    for _ in range(20):
        began = time.process_time()
        for _ in range(100):
            answer = client.request(2, {1: "a", 2: bytes(32)})
        parts.append(time.process_time() - began)
    assert int.from_bytes(answer[2][33:37], "big") == 2000
    # The fastest of many sign-ins, because the machine may be busy. Replaying the session at each sign-in would take 20
    # times as long.
    assert min(parts[-10:]) < 2 * min(parts[:10]), parts
    assert resource.getrusage(resource.RUSAGE_SELF).ru_maxrss < 300_000
