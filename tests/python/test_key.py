"""The key with python-fido2's client and server, in this process and in a separate one."""

from __future__ import annotations

import contextlib
import threading
import time
from collections.abc import Callable
from hashlib import sha256
from threading import Event
from typing import Any

import pytest
from fido2.ctap import CtapError
from fido2.ctap2 import Ctap2
from service import CLIENT_ERRORS, Service, check_refused

import hidlog

# A timeout in seconds. Only a call that hangs takes this long.
TIMEOUT_SECONDS = 60

Make = Callable[..., hidlog.SecurityKey]


def test_registration_and_sign_in(make_key: Make) -> None:
    service = Service(make_key())
    alice = service.register(discoverable=False)
    allowed = ({"type": "public-key", "id": bytes(32)}, alice)
    assert [service.sign_in([alice], allowed).authenticator_data.counter for _ in range(3)] == [1, 2, 3]
    check_refused(CLIENT_ERRORS.DEVICE_INELIGIBLE, 0x2E, service.sign_in, [alice])
    check_refused(CLIENT_ERRORS.DEVICE_INELIGIBLE, 0x19, service.register, "alice", (alice,))


def test_two_accounts_the_newest_first(make_key: Make) -> None:
    service = Service(make_key())
    both = [service.register("alice"), service.register("bob")]
    assert [service.sign_in(both, account=item).user_handle for item in (0, 1)] == [b"bob", b"alice"]


def test_presence_as_word_function_and_script(make_key: Make) -> None:
    key = make_key()
    service = Service(key)
    alice = service.register()
    key.presence = "denied"
    check_refused(CLIENT_ERRORS.BAD_REQUEST, 0x27, service.sign_in, [alice])
    asked: list[str] = []
    key.presence = lambda question: asked.append(question) or "granted"  # type: ignore[func-returns-value]
    service.sign_in([alice])
    service.register("bob")
    assert asked == ["Sign in at example.com?", "Register bob at example.com?"]
    key.presence = ["granted", "timeout", "granted"]
    service.register("carol")
    check_refused(CLIENT_ERRORS.BAD_REQUEST, 0x27, service.register, "dora")
    service.register("dora")
    with pytest.raises(hidlog.PresenceExhaustedError, match="Register eve at example.com"):
        service.register("eve")
    key.presence = "granted"
    service.register("eve")
    key.presence = "timeout"
    with pytest.raises(CtapError) as caught:
        Ctap2(key.device()).selection()
    assert caught.value.code == 0x2F


@pytest.mark.parametrize("wrong", ["grnated", 1, True, ["granted", "yes"], b"granted"])
def test_a_wrong_presence_is_refused_where_it_is_given(make_key: Make, wrong: Any) -> None:
    key = make_key()
    with pytest.raises(hidlog.ArgumentError, match="must be .*granted.*None"):
        key.presence = wrong
    assert key.presence == "granted"
    with pytest.raises(hidlog.ArgumentError, match="must be .*granted.*None"):
        make_key(presence=wrong)
    Service(key).register()


def test_a_function_that_fails_leaves_the_key_free(make_key: Make) -> None:
    key = make_key(presence=lambda _: 1 / 0)
    service = Service(key)
    with pytest.raises(ZeroDivisionError):
        service.register()
    key.presence = lambda _: "maybe"
    with pytest.raises(hidlog.ArgumentError, match="maybe"):
        service.register()
    key.presence = "granted"
    service.register()


def test_a_cancel_ends_an_unanswered_wait(make_key: Make) -> None:
    key = make_key(presence=None)
    event = Event()
    seen = lambda _: event.set()  # noqa: E731
    check_refused(CLIENT_ERRORS.TIMEOUT, 0x2D, Service(key).register, event=event, on_keepalive=seen)


def test_an_unanswered_wait_ends_and_costs_no_processor(make_key: Make) -> None:
    key = make_key(presence=None, timeout=1.0)
    service = Service(key)
    began, worked = time.monotonic(), time.process_time()
    with pytest.raises(hidlog.KeyTimeoutError, match="the user did nothing for 1.0 s"):
        service.register()
    assert 1.0 <= time.monotonic() - began < TIMEOUT_SECONDS
    assert time.process_time() - worked < 0.3
    # There is a KEEPALIVE at the request and one every 100 ms after it, by the clock. On a busy machine there are
    # fewer.
    assert 2 <= key.log.count(b"\n< 00000001bb000102") <= 12
    key.presence = "granted"
    service.register()


def test_a_read_ends_at_its_time_out(make_key: Make) -> None:
    key = make_key(presence=None)
    client = hidlog.Client(key)
    with pytest.raises(hidlog.KeyTimeoutError, match="timed out waiting for a packet"):
        key.read_packet(timeout=0.05)
    # authenticatorSelection: there is a KEEPALIVE at once, and the next one comes after 100 ms.
    key.write_packet(bytes.fromhex("00000001900001" "0b").ljust(64, b"\0"))
    assert key.read_packet()[:8].hex() == "00000001bb000102"
    began = time.monotonic()
    # On a busy machine, the next KEEPALIVE may have been sent already.
    with contextlib.suppress(hidlog.KeyTimeoutError):
        assert key.read_packet(timeout=0.03)[:8].hex() == "00000001bb000102" and time.monotonic() - began > 0.09
    assert key.read_packet()[:8].hex() == "00000001bb000102"
    assert 0.09 < time.monotonic() - began < TIMEOUT_SECONDS
    key.presence = "granted"
    # The number of KEEPALIVEs before the response depends on the timing.
    packets = [key.read_packet()[4:8].hex()]
    while packets[-1] == "bb000102":
        packets.append(key.read_packet()[4:8].hex())
    assert packets[-1] == "90000100"
    assert client.request(4)[1] == ["FIDO_2_0"]


def test_an_unfinished_message_times_out(make_key: Make) -> None:
    """CTAP 2.1, section 11.2.5.2: ERR_MSG_TIMEOUT is 0x05."""
    key = make_key()
    client = hidlog.Client(key)
    key.write_packet(bytes.fromhex("00000001900064" "01").ljust(64, b"\0"))
    began = time.monotonic()
    assert key.read_packet()[:8].hex() == "00000001bf000105"
    assert 0.3 < time.monotonic() - began < TIMEOUT_SECONDS
    key.credentials.clear()
    assert client.request(4)[1] == ["FIDO_2_0"]


def test_another_thread_answers_for_the_user(make_key: Make) -> None:
    key = make_key(presence=None, timeout=10)
    timer = threading.Timer(0.15, setattr, (key, "presence", "granted"))
    timer.start()
    Service(key).register()


def test_five_thousand_notes(make_key: Make) -> None:
    key = make_key()
    for number in range(5000):
        key.add_comment(f"note {number}")
    Service(key).register()
    assert key.log.count(b"\n# note ") == 4999 and key.log.startswith(b"# note 0\n")


def test_any_note_is_taken(make_key: Make) -> None:
    key = make_key()
    key.add_comment("two\nlines")
    key.add_comment("ä" * 300)
    key.add_comment("need nothing")
    key.add_comment("")
    assert key.log.decode().startswith("# two\n# lines\n# ää")
    assert key.log.count("ä".encode()) == 300 and max(map(len, key.log.split(b"\n"))) <= 255
    with pytest.raises(TypeError, match="a comment must be str, not bytes"):
        key.add_comment(b"x")  # type: ignore[arg-type]


def test_two_keys_at_once(make_key: Make) -> None:
    first, second = Service(make_key()), Service(make_key())
    alice, other = first.register(), second.register()
    check_refused(CLIENT_ERRORS.DEVICE_INELIGIBLE, 0x2E, second.sign_in, [alice], (alice,))
    assert first.sign_in([alice]).credential_id == alice.credential_id
    assert second.sign_in([other]).credential_id == other.credential_id


def test_the_clock_of_the_test(make_key: Make) -> None:
    now = [5000]
    key = make_key(clock=lambda: now[0], presence_delay_ms=0)
    Service(key)
    now[0] = 9000
    Ctap2(key.device()).get_info()
    assert b"\n> 9000 0000" in key.log
    key.advance_time(2000)
    # authenticatorReset is rejected later than 10 s after power-up (CTAP 2.1, section 6.6).
    with pytest.raises(CtapError) as caught:
        Ctap2(key.device()).reset()
    assert caught.value.code == 0x30


def test_the_same_random_bytes_give_the_same_log(make_key: Make) -> None:
    from random import Random

    logs = []
    for _ in range(2):
        key = make_key(random=Random(7).randbytes)
        hidlog.Client(key).request(4)
        key.credentials.add("example.com", b"x")
        logs.append((key.snapshot(), key.log))
    assert logs[0] == logs[1]


def test_faults(make_key: Make) -> None:
    key = make_key()
    service = Service(key)
    alice = service.register()
    key.faults.bad_signature = True
    with pytest.raises(ValueError, match="Invalid signature"):
        service.sign_in([alice])
    key.faults.clear()
    key.faults.stale_sign_count = True
    assert {service.sign_in([alice]).authenticator_data.counter for _ in range(3)} == {1}
    key.faults.clear()
    assert service.sign_in([alice]).authenticator_data.counter == 5
    key.faults.wrong_rp_id = "evil.example"
    with pytest.raises(ValueError, match="RP ID"):
        service.sign_in([alice])
    key.faults.stale_sign_count = True
    answer = hidlog.Client(key).request(2, {1: "example.com", 2: bytes(32)})
    # Authenticator data: RP ID hash, flags, signature counter (WebAuthn Level 3, section 6.1).
    assert answer[2] == sha256(b"evil.example").digest() + bytes([1]) + (6).to_bytes(4, "big")
    key.faults.clear()
    key.faults.status = "KEY_STORE_FULL"
    with pytest.raises(hidlog.CtapError, match="^CtapError 0x28 KEY_STORE_FULL$"):
        hidlog.Client(key).request(4)
    key.faults.clear()
    key.faults.truncate_by = 3
    with pytest.raises(hidlog.ArgumentError, match="truncated"):
        hidlog.Client(key).request(4)
    key.faults.clear()
    key.faults.delay = 3000
    keepalives = key.log.count(b"\n< 00000001bb000101")
    service.sign_in([alice])
    assert key.log.count(b"\n< 00000001bb000101") >= keepalives + 30
    with pytest.raises(hidlog.ArgumentError, match="unknown fault 'speed'; expected one of status, delay"):
        key.faults.speed = 1
    assert key.log.count(b"\n# fault: ") == 1 + 3 + 1 + 2 + 1 + 1


def test_replay_of(make_key: Make) -> None:
    key = make_key()
    client = hidlog.Client(key)
    asked = {1: bytes(32), 2: {"id": "a.example"}, 3: {"id": b"u"}, 4: [{"alg": -7, "type": "public-key"}]}
    made = client.request(1, asked)
    key.close()
    with key.from_recording(key.log) as again:
        assert hidlog.Client(again).request(1, asked) == made
    with pytest.raises(
        hidlog.ReplayMismatchError, match="^line 1[0-9]?: the client sends|^line [0-9]: the client sends"
    ):
        hidlog.Client(key.from_recording(key.log)).request(1, {**asked, 1: b"\1" * 32})
    with pytest.raises(hidlog.ReplayMismatchError, match="the client ended before this packet"):
        with key.from_recording(key.log) as again:
            hidlog.Client(again)
    with pytest.raises(hidlog.ReplayMismatchError, match="end of recording"):
        client = hidlog.Client(key.from_recording(key.log))
        client.request(1, asked)
        client.request(4)


def test_a_closed_key_says_so(make_key: Make) -> None:
    key = make_key()
    service = Service(key)
    alice = service.register()
    key.close()
    key.close()
    with pytest.raises(hidlog.KeyClosedError, match="the key is closed"):
        service.sign_in([alice])
    assert len(key.credentials) == 1


def test_wrong_arguments() -> None:
    wrongs: list[dict[str, Any]] = [{"presence_delay_ms": -1}, {"timeout": 0}, {"clock": "fast"}]
    for wrong in wrongs:
        with pytest.raises(hidlog.ArgumentError, match=f"{next(iter(wrong))} is .*; it must be"):
            hidlog.SecurityKey(**wrong)
    with pytest.raises(hidlog.ArgumentError, match="the packet has 65 bytes; it must have 64"):
        with hidlog.SecurityKey() as key:
            key.write_packet(bytes(65))


def test_a_program_that_ends(make_key: Make) -> None:
    with pytest.raises(hidlog.MissingDependencyError, match="/nowhere cannot be started"):
        hidlog.SecurityKey(process=True, program="/nowhere")
    with pytest.raises(hidlog.KeyClosedError, match="hidlog ended with status 0"):
        hidlog.Client(hidlog.SecurityKey(process=True, program="/bin/true"))
