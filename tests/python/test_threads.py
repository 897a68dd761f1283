"""Several threads with one key, and child processes of os.fork."""

from __future__ import annotations

import os
import sys
import threading
from collections.abc import Callable
from concurrent.futures import ThreadPoolExecutor
from typing import Any

import pytest
from test_browser import REQUEST_OPTIONS, make_creation_options

import hidlog
from hidlog import packets

Make = Callable[..., hidlog.SecurityKey]
THREAD_COUNT = 4
# A timeout in seconds. Only a call that hangs takes this long.
TIMEOUT_SECONDS = 60


def test_four_threads_lose_nothing(make_key: Make) -> None:
    """Each thread registers 100 times at a site of its own, for 15 users in turn, and signs in after each
    registration."""
    key = make_key()

    def register(thread: int) -> list[str]:
        browser, made = key.browser(f"https://site{thread}.example"), []
        for number in range(100):
            made.append(str(browser.create(make_creation_options(f"user {number % 15}"))["id"]))
            allowed = [{"type": "public-key", "id": made[-1]}]
            assert browser.get({**REQUEST_OPTIONS, "allowCredentials": allowed})["id"] == made[-1]
        return made

    with ThreadPoolExecutor(THREAD_COUNT) as pool:
        made = [entry for listed in pool.map(register, range(THREAD_COUNT)) for entry in listed]
    assert len(set(made)) == 400
    assert [len(key.credentials.for_rp(f"site{index}.example")) for index in range(THREAD_COUNT)] == [15] * THREAD_COUNT


def test_four_threads_with_one_browser(make_key: Make) -> None:
    browser = make_key().browser("https://example.com")
    with ThreadPoolExecutor(THREAD_COUNT) as pool:
        made = list(
            pool.map(lambda element: str(browser.create(make_creation_options(f"user {element}"))["id"]), range(40))
        )
        allowed = [{**REQUEST_OPTIONS, "allowCredentials": [{"type": "public-key", "id": each}]} for each in made]
        assert [item["id"] for item in pool.map(browser.get, allowed)] == made


def test_clients_of_several_threads(make_key: Make) -> None:
    key = make_key()
    parameters = {1: bytes(32), 2: {"id": "a"}, 4: [{"alg": -7, "type": "public-key"}]}

    def register(number: int) -> bytes:
        client = hidlog.Client(key)
        answer = client.request(1, {**parameters, 3: {"id": bytes([number])}})
        return bytes(answer[2][55:87])

    with ThreadPoolExecutor(THREAD_COUNT) as pool:
        assert len(set(pool.map(register, range(20)))) == 20


def test_raw_packets_of_two_threads_have_a_queue_a_channel(make_key: Make) -> None:
    """Each thread sends a PING on a separate channel. Then both threads read the responses."""
    key, meeting = make_key(), threading.Barrier(2)
    found: dict[bytes, bytes] = {}

    def ping(letter: bytes) -> None:
        nonce = letter * 8
        key.write_packet(packets.fragment_message(packets.Message(packets.BROADCAST, packets.INIT, nonce))[0])
        meeting.wait(TIMEOUT_SECONDS)
        answer = key.read_packet(timeout=TIMEOUT_SECONDS)
        assert answer[7:15] == nonce
        message = packets.Message(int.from_bytes(answer[15:19], "big"), packets.PING, letter * 50)
        key.write_packet(packets.fragment_message(message)[0])
        meeting.wait(TIMEOUT_SECONDS)
        collector, whole = packets.MessageReassembler(), None
        while whole is None:
            whole = collector.add(key.read_packet(timeout=TIMEOUT_SECONDS))
        found[letter] = whole.data

    with ThreadPoolExecutor(2) as pool:
        list(pool.map(ping, [b"a", b"b"]))
    assert found == {b"a": b"a" * 50, b"b": b"b" * 50}


def test_a_thread_that_only_reads_gets_all_packets(make_key: Make) -> None:
    key = make_key()
    key.write_packet(packets.fragment_message(packets.Message(packets.BROADCAST, packets.INIT, b"12345678"))[0])
    with ThreadPoolExecutor(1) as pool:
        assert pool.submit(key.read_packet).result(TIMEOUT_SECONDS)[7:15] == b"12345678"


def test_a_function_of_presence_that_uses_the_key_is_refused(make_key: Make) -> None:
    key = make_key()
    browser = key.browser("https://example.com")
    key.presence = lambda _: str(browser.get(REQUEST_OPTIONS)["type"])
    with pytest.raises(hidlog.KeyBusyError, match="a presence callback cannot send a request"):
        browser.create(make_creation_options())
    key.presence = "granted"
    browser.create(make_creation_options())


def test_credentials_change_while_another_thread_registers(make_key: Make) -> None:
    key, ended = make_key(), threading.Event()
    browser, other = key.browser("https://example.com"), key.browser("https://other.example")

    def update() -> None:
        while not ended.is_set():
            added = key.credentials.add("changed.example", b"u")
            key.credentials.update(added.id, sign_count=5)

    thread = threading.Thread(target=update)
    thread.start()
    try:
        for index in range(20):
            browser.create(make_creation_options(f"user {index}"))
            other.create(make_creation_options(f"user {index}"))
    finally:
        ended.set()
        thread.join()
    assert [len(key.credentials.for_rp(item)) for item in ("example.com", "other.example")] == [20, 20]


CHILD_CALLS: list[tuple[str, Callable[[hidlog.SecurityKey, Any], Any]]] = [
    ("a sign-in", lambda key, browser: browser.get(REQUEST_OPTIONS)),
    ("the credentials", lambda key, browser: len(key.credentials)),
    ("an added credential", lambda key, browser: key.credentials.add("a")),
    ("a packet", lambda key, browser: key.write_packet(bytes(64))),
    ("a read", lambda key, browser: key.read_packet()),
    ("a note", lambda key, browser: key.add_comment("x")),
    ("a restart", lambda key, browser: key.restart()),
    ("what was saved", lambda key, browser: key.save(os.devnull)),
    ("time", lambda key, browser: key.advance_time(1)),
    ("presence", lambda key, browser: setattr(key, "presence", "denied")),
]


@pytest.mark.skipif(not hasattr(os, "fork"), reason="there is no os.fork")
@pytest.mark.filterwarnings("ignore:This process.*is multi-threaded:DeprecationWarning")
def test_a_child_of_fork_is_refused_and_the_parent_goes_on(make_key: Make) -> None:
    key = make_key()
    browser = key.browser("https://example.com")
    made = browser.create(make_creation_options())
    child = os.fork()
    if child == 0:
        wrong = []
        for name, call in CHILD_CALLS:
            try:
                call(key, browser)
                wrong.append(name)
            except hidlog.KeyForkedError as error:
                wrong += [] if f"belongs to process {os.getppid()}" in str(error) else [str(error)]
            except BaseException as error:
                wrong.append(f"{name}: {error!r}")
        key.close()
        if wrong:
            print(wrong, file=sys.stderr, flush=True)
        os._exit(len(wrong))
    assert os.waitpid(child, 0)[1] == 0
    assert browser.get(REQUEST_OPTIONS)["id"] == made["id"] and len(key.credentials) == 1


@pytest.mark.skipif(not hasattr(os, "fork"), reason="there is no os.fork")
@pytest.mark.filterwarnings("ignore:This process.*is multi-threaded:DeprecationWarning")
def test_a_child_that_lives_on_does_not_hold_up_its_parent(make_key: Make) -> None:
    key = make_key()
    hidlog.Client(key)
    ours, theirs = os.pipe()
    child = os.fork()
    if child == 0:
        os.close(theirs)
        os.read(ours, 1)
        os._exit(0)
    os.close(ours)
    ended = threading.Thread(target=key.close)
    ended.start()
    ended.join(10)
    os.close(theirs)
    os.waitpid(child, 0)
    ended.join(10)
    assert not ended.is_alive() and hidlog.check(key.log).status == 0
