"""A request that is served directly gives the same recording and result as a request whose packets a client writes and
reads."""

from __future__ import annotations

import itertools
import random
from collections.abc import Callable
from hashlib import sha256
from typing import Any

import pytest
from cryptography.hazmat.primitives.asymmetric.utils import encode_dss_signature
from test_browser import REQUEST_OPTIONS, make_creation_options

import hidlog
from hidlog import private_keys
from hidlog.webauthn_json import b64url_encode

Key = hidlog.SecurityKey
Steps = Callable[[Key, hidlog.Browser], Any]


def sign_deterministically(private: private_keys.PrivateKey, data: bytes) -> bytes:
    """Returns a signature that is deterministic, unlike the signatures of OpenSSL."""
    secret = private.private_numbers().private_value.to_bytes(32, "big")
    r, s = (int.from_bytes(sha256(secret + data + part).digest(), "big") for part in (b"r", b"s"))
    return encode_dss_signature(r, s)


def get_result(call: Callable[[], Any]) -> Any:
    try:
        return call()
    except hidlog.HidlogError as error:
        return type(error).__name__, str(error)


def make_user_step(presence: str, delay: int = 200) -> Steps:
    def steps(key: Key, browser: hidlog.Browser) -> Any:
        key.presence, key.presence_delay_ms = presence, delay
        return [
            get_result(lambda: browser.create(make_creation_options())),
            get_result(lambda: browser.get(REQUEST_OPTIONS)),
        ]

    return steps


def make_fault_step(name: str, value: Any) -> Steps:
    def steps(key: Key, browser: hidlog.Browser) -> Any:
        made = [browser.create(make_creation_options()), browser.get(REQUEST_OPTIONS)]
        setattr(key.faults, name, value)
        made += [
            get_result(lambda: browser.create(make_creation_options("bob"))),
            get_result(lambda: browser.get(REQUEST_OPTIONS)),
        ]
        key.faults.clear()
        return [*made, browser.get(REQUEST_OPTIONS)]

    return steps


def use_accounts(key: Key, browser: hidlog.Browser) -> Any:
    made = [browser.create(make_creation_options(name)) for name in ("ann", "bob", "cy")]
    allowed = {**REQUEST_OPTIONS, "allowCredentials": [{"type": "public-key", "id": one["id"]} for one in made]}
    return [
        *made,
        browser.get(REQUEST_OPTIONS, "ann"),
        browser.get(allowed),
        get_result(lambda: browser.create(make_creation_options("ann"))),
    ]


def use_long_lists(key: Key, browser: hidlog.Browser) -> Any:
    listed = [{"type": "public-key", "id": b64url_encode(bytes([number]) * 60)} for number in range(64)]
    made = browser.create(make_creation_options(excludeCredentials=listed[:9]))
    allowed = [
        {**REQUEST_OPTIONS, "allowCredentials": [*listed[:count], listed[0] | {"id": made["id"]}]}
        for count in (3, 12, 63)
    ]
    return [
        browser.create(make_creation_options("bob", excludeCredentials=listed)),
        *[browser.get(options) for options in allowed],
    ]


def restart_key(key: Key, browser: hidlog.Browser) -> Any:
    made = browser.create(make_creation_options())
    key.restart()
    return [
        made,
        browser.get(REQUEST_OPTIONS),
        get_result(lambda: browser.get({**REQUEST_OPTIONS, "rpId": "example.com"})),
    ]


def remove_private_key(key: Key, browser: hidlog.Browser) -> Any:
    browser.create(make_creation_options())
    key.private_keys.clear()
    return get_result(lambda: browser.get(REQUEST_OPTIONS))


def use_short_timeouts(key: Key, browser: hidlog.Browser) -> Any:
    key.presence_delay_ms = 700
    limits = (1, 250, 699, 700, 720, 760, 900, 1500)
    return [
        get_result(lambda: browser.create(make_creation_options(f"user {limit}", timeout=limit))) for limit in limits
    ]


def interleave_client(key: Key, browser: hidlog.Browser) -> Any:
    """Another client sends messages before and after a registration."""
    client = hidlog.Client(key)
    made = [browser.create(make_creation_options()), client.request(4)]
    key.advance_time(900)
    return [*made, browser.get(REQUEST_OPTIONS), client.transact(1, b"ping"), key.credentials[0].sign_count]


def change_credentials(key: Key, browser: hidlog.Browser) -> Any:
    made = browser.create(make_creation_options())
    key.credentials.add(
        "example.com", b"bob", "bob", credential_id=b"\7" * 70, private_key=key.private_keys[key.credentials[0].id]
    )
    key.add_comment("a comment")
    return [
        made,
        browser.get(REQUEST_OPTIONS, "bob"),
        get_result(lambda: browser.get({**REQUEST_OPTIONS, "timeout": 60_000})),
    ]


STEPS: dict[str, Steps] = {
    **{
        f"{presence}, {delay} ms": make_user_step(presence, delay)
        for presence in ("granted", "denied", "timeout")
        for delay in (0, 1, 100, 101, 102, 200, 3000)
    },
    **{
        f"{name} {value}": make_fault_step(name, value)
        for name, value in (
            ("bad_signature", True),
            ("stale_sign_count", True),
            ("wrong_rp_id", "evil.example"),
            ("status", 0x28),
            ("delay", 500),
            *(("truncate_by", cut) for cut in (1, 9, 100, 300)),
        )
    },
    **{
        steps.__name__: steps
        for steps in (
            use_accounts,
            use_long_lists,
            restart_key,
            remove_private_key,
            use_short_timeouts,
            interleave_client,
            change_credentials,
        )
    },
}
OPTIONS = [{}, {"verification": "verified", "default_backup_eligibility": True}, {"record": False}]


def run_steps(steps: Steps, options: dict[str, Any]) -> tuple[Any, list[hidlog.Recording], int]:
    """Returns the results, the recordings and the last timestamp of a key with deterministic random bytes."""
    with Key(random=random.Random(1).randbytes, **options) as key:
        found = steps(key, key.browser("https://example.com"))
    return found, key.recordings, key.time_ms


@pytest.mark.parametrize("options", OPTIONS, ids=["plain", "verified", "unrecorded"])
@pytest.mark.parametrize("name", STEPS)
def test_both_ways_are_the_same(name: str, options: dict[str, Any], monkeypatch: pytest.MonkeyPatch) -> None:
    monkeypatch.setattr(private_keys, "sign", sign_deterministically)
    served: list[bool] = []
    serve = Key.serve

    def count_served(self: Key, channel: int, data: bytes, limit: int) -> bytes | None:
        response = serve(self, channel, data, limit)
        served.append(response is not None)
        return response

    monkeypatch.setattr(Key, "serve", count_served)
    at_once = run_steps(STEPS[name], options)
    assert any(served) or name.startswith("denied") or name == "use_short_timeouts"
    monkeypatch.setattr(Key, "serve", lambda *_: None)
    assert run_steps(STEPS[name], options) == at_once
    for snapshot, log in at_once[1]:
        assert options.get("record") is False or hidlog.check(log, snapshot).raise_for_fault()


@pytest.mark.parametrize(
    "options, change",
    [
        ({"clock": "real"}, None),
        ({"clock": itertools.count(1).__next__}, None),
        ({"presence": lambda question: "granted"}, None),
        ({"presence": ["granted"] * 9}, None),
        ({}, lambda key: setattr(key.faults, "delay", 100)),
    ],
)
def test_what_is_not_served_at_once(options: dict[str, Any], change: Any) -> None:
    with Key(**options) as key:
        browser = key.browser("https://example.com")
        if change:
            change(key)
        assert key.serve(1, b"\4", 1 << 60) is None
        browser.create(make_creation_options())
        assert browser.get(REQUEST_OPTIONS)["type"] == "public-key"


def test_a_message_under_way_is_waited_for() -> None:
    """A request is not served directly while a message of another client is incomplete or a response is queued."""
    with Key() as key:
        client = hidlog.Client(key)
        browser = key.browser("https://example.com")
        browser.create(make_creation_options())
        first = client.channel.to_bytes(4, "big") + b"\x90\x00\x50" + b"\x04".ljust(57, b"\0")
        key.write_packet(first)
        assert key.serve(1, b"\4", 1 << 60) is None
        key.write_packet(client.channel.to_bytes(4, "big") + b"\x00".ljust(60, b"\0"))
        assert key.serve(1, b"\4", 1 << 60) is None
