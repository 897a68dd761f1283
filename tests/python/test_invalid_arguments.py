"""Tests public calls with unusual values. A call either accepts the value or raises HidlogError, and the key works
afterwards."""

from __future__ import annotations

import os
import signal
import subprocess
import sys
from collections.abc import Callable
from pathlib import Path
from typing import Any

import pytest
from test_browser import REQUEST_OPTIONS, make_creation_options

import hidlog
from hidlog import cbor, core, packets, webauthn_json

NESTED: list[Any] = []
NESTED.append(NESTED)
DEEP: Any = []
for _ in range(5000):
    DEEP = [DEEP]
UNUSUAL_VALUES: dict[str, Any] = {
    "None": None,
    "true": True,
    "a negative number": -1,
    "a number of 71 bits": 2**70,
    "a fraction": 1.5,
    "NaN": float("nan"),
    "infinity": float("inf"),
    "no text": "",
    "a long text": "x" * 100_000,
    "a text of not UTF-8": "\ud800",
    "no bytes": b"",
    "many bytes": bytes(100_000),
    "a list": [],
    "a list of itself": NESTED,
    "a deep list": DEEP,
    "a dict": {},
    "a dict with a list": {"id": NESTED, "publicKey": NESTED},
    "an object": object(),
    "a class": int,
}
Key = hidlog.SecurityKey
Call = Callable[[Key, Any], Any]
# For each call or object: the names of its arguments, attributes or members, and a function that passes a value under
# one of these names.
NAMED_CALLS: dict[str, tuple[str, Callable[[Key, Any, str], Any]]] = {
    "browser.create": (
        "challenge rp user pubKeyCredParams authenticatorSelection timeout excludeCredentials extensions attestation hints",
        lambda key, value, name: key.browser("https://a.example").create(make_creation_options(**{name: value})),
    ),
    "browser.get": (
        "challenge rpId timeout allowCredentials userVerification extensions hints",
        lambda key, value, name: key.browser("https://a.example").get({**REQUEST_OPTIONS, name: value}),
    ),
    "key": (
        "presence presence_delay_ms timeout verification attachment has_resident_key is_user_verified default_backup_eligibility "
        "default_backup_state has_user_verification log time_ms presense",
        lambda key, value, name: setattr(key, name, value),
    ),
    "faults": (
        "status delay truncate_by bad_signature stale_sign_count wrong_rp_id speed",
        lambda key, value, name: setattr(key.faults, name, value),
    ),
    "credentials.add": (
        "discoverable sign_count credential_id private_key backup_eligibility backup_state",
        lambda key, value, name: key.credentials.add("a.example", **{name: value}),
    ),
    "credentials.update": (
        "sign_count user_name user_id discoverable backup_eligibility backup_state rp_id",
        lambda key, value, name: key.credentials.update(key.credentials.add("b.example", b"u").id, **{name: value}),
    ),
    "SecurityKey": (
        "process presence presence_delay_ms clock timeout random snapshot private_keys program record verification attachment "
        "has_resident_key default_backup_eligibility default_backup_state",
        lambda key, value, name: Key(**{name: value}).close(),
    ),
    "hidlog": ("check replay quiet live show", lambda key, value, name: getattr(hidlog, name)(value).raise_for_fault()),
    "webauthn_json": (
        "b64url_encode b64url_decode creation_options request_options creation_options_json request_options_json normalize_attestation_object "
        "registration authentication",
        lambda key, value, name: getattr(webauthn_json, name)(value),
    ),
    "webauthn_json.creation_options": (
        "rp user challenge excludeCredentials extensions",
        lambda key, value, name: webauthn_json.creation_options(
            make_creation_options(**{name: value}), "https://a.example"
        ),
    ),
}


def make_named_call(call: Callable[[Key, Any, str], Any], name: str) -> Call:
    return lambda key, value: call(key, value, name)


# For each call: a function that passes one value to it.
CALLS_WITH_VALUE: dict[str, Call] = {
    **{
        f"{name} {member}": make_named_call(call, member)
        for name, (members, call) in NAMED_CALLS.items()
        for member in members.split()
    },
    "browser": lambda key, value: key.browser(value),
    "browser.create": lambda key, value: key.browser("https://a.example").create(value),
    "browser.create mediation": lambda key, value: key.browser("https://a.example").create(
        make_creation_options(), mediation=value
    ),
    "browser.create signal": lambda key, value: key.browser("https://a.example").create(
        make_creation_options(), signal=value
    ),
    "browser.get": lambda key, value: key.browser("https://a.example").get(value),
    "browser.get account": lambda key, value: key.browser("https://a.example").get(REQUEST_OPTIONS, value),
    "browser.get mediation": lambda key, value: key.browser("https://a.example").get(REQUEST_OPTIONS, mediation=value),
    "browser.select_account": lambda key, value: key.browser("https://a.example").select_account(value),
    "credentials.add rp_id": lambda key, value: key.credentials.add(value),
    "credentials.add user_id": lambda key, value: key.credentials.add("a.example", value),
    "credentials.add user_name": lambda key, value: key.credentials.add("a.example", b"u", value),
    "credentials.get": lambda key, value: key.credentials.get(value),
    "credentials.for_rp": lambda key, value: key.credentials.for_rp(value),
    "credentials.remove": lambda key, value: key.credentials.remove(value),
    "credentials.update": lambda key, value: key.credentials.update(value, sign_count=1),
    "write_packet": lambda key, value: key.write_packet(value),
    "read_packet": lambda key, value: key.read_packet(value),
    "advance_time": lambda key, value: key.advance_time(value),
    "add_comment": lambda key, value: key.add_comment(value),
    "save": lambda key, value: key.save(value),
    "save_log": lambda key, value: key.save_log(value),
    "load": lambda key, value: Key.load(value),
    "from_recording": lambda key, value: Key.from_recording(value),
    "Client": lambda key, value: hidlog.Client(value),
    "Client.transact": lambda key, value: hidlog.Client(key).transact(value),
    "Client.transact data": lambda key, value: hidlog.Client(key).transact(packets.PING, value),
    "Client.request": lambda key, value: hidlog.Client(key).request(value),
    "Client.request parameters": lambda key, value: hidlog.Client(key).request(2, value),
    "hidlog.check snapshot": lambda key, value: hidlog.check(b"t 1\n", value).raise_for_fault(),
    "webauthn_json.creation_options origin": lambda key, value: webauthn_json.creation_options(
        make_creation_options(), value
    ),
    "webauthn_json.registration_json": lambda key, value: webauthn_json.registration_json(value, value),
    "webauthn_json.authentication_json": lambda key, value: webauthn_json.authentication_json(
        value, value, value, value
    ),
    "cbor.encode": lambda key, value: cbor.encode(value),
    "cbor.decode": lambda key, value: cbor.decode(value),
}


@pytest.mark.parametrize("name", CALLS_WITH_VALUE)
def test_each_call_with_each_wrong_value(name: str, tmp_path: Path, monkeypatch: pytest.MonkeyPatch) -> None:
    monkeypatch.chdir(tmp_path)
    for kind, value in UNUSUAL_VALUES.items():
        with Key(timeout=0.05) as key:
            try:
                CALLS_WITH_VALUE[name](key, value)
            except hidlog.HidlogError as error:
                assert str(error), kind
                assert len(str(error)) < 3000, (kind, "the text is too long")
            except OSError:
                assert name in ("save", "save_log", "load"), kind
            except Exception as error:  # the message in the form printed for a user
                raise AssertionError(f"{name} with {kind}: {type(error).__name__}: {error}") from error
            key.presence, key.timeout, key.presence_delay_ms = "granted", 5, 200
            key.verification, key.attachment, key.has_resident_key = "none", "cross-platform", True
            key.faults.clear()
            key.browser("https://c.example").create(make_creation_options())


def test_what_is_near_is_named() -> None:
    with Key() as key:
        for wrong, right in [("presense", "presence"), ("time_out", "timeout"), ("verificaton", "verification")]:
            with pytest.raises(hidlog.UnknownNameError, match=f"'{wrong}'; did you mean '{right}'"):
                setattr(key, wrong, "granted")
        with pytest.raises(hidlog.UnknownNameError, match="'bad_signatur'; did you mean 'bad_signature'"):
            key.faults.bad_signatur = True
        assert not hasattr(key, "presense")


class KeyWithAttribute(Key):
    """A subclass of Key with an attribute."""

    def __init__(self) -> None:
        super().__init__()
        self.site = "https://example.com"


def test_a_class_of_a_tests_own_may_have_attributes() -> None:
    with KeyWithAttribute() as key:
        assert key.browser(key.site).origin == "https://example.com"


@pytest.mark.parametrize("count", [0, 8, 31, 33, 64])
def test_random_bytes_of_another_number_are_refused(count: int) -> None:
    with Key(random=lambda _: b"\7" * count) as key:
        with pytest.raises(hidlog.ArgumentError, match=f"the result of random has {count} bytes; it must have 32"):
            key.browser("https://example.com").create(make_creation_options())
        assert b"0707" not in key.log
    with Key(random=lambda _: "x" * 32) as key:  # type: ignore[arg-type, return-value]
        with pytest.raises(hidlog.ArgumentTypeError, match="the result of random must be bytes"):
            key.browser("https://example.com").create(make_creation_options())


def test_no_buffer_of_another_length_reaches_the_library() -> None:
    if not core.supports_in_process():
        pytest.skip("this C library has no in-memory key")
    handle = core.Handle(b"")
    wrong: list[tuple[str, list[Any]]] = [
        ("write_packet", [1, bytes(63)]),
        ("write_packet", [1, bytes(65)]),
        ("provide_key_pair", [1, bytes(8), bytes(32), bytes(32)]),
        ("provide_key_pair", [1, bytes(32), bytes(31), bytes(32)]),
        ("provide_key_pair", [1, bytes(32), bytes(32), bytes(33)]),
        ("provide_signature", [1, bytes(70), 72]),
        ("init", [bytes(15), 0, b"", 0]),
        ("init", [bytes(16), 0, b"x", 2]),
    ]
    for name, words in wrong:
        with pytest.raises(hidlog.ArgumentError, match=f"hidlog_key_{name}: a buffer has"):
            handle.call(name, *words)
    handle.call("destroy")


class HostileKey:
    """A key that responds to INIT correctly, and sends these packets afterwards."""

    def __init__(self, *packets_: bytes):
        self._packets = list(packets_)
        self._written: list[bytes] = []

    def write_packet(self, packet: bytes) -> None:
        self._written.append(packet)

    def read_packet(self) -> bytes:
        if len(self._written) == 1 and self._written[0][4] == 0x86:
            nonce = self._written.pop()[7:15]
            message = packets.Message(packets.BROADCAST, packets.INIT, nonce + bytes([0, 0, 0, 1, 2, 1, 0, 0, 4]))
            return packets.fragment_message(message)[0]
        return self._packets.pop(0)


def make_response_packet(data: bytes, command: int = packets.CBOR) -> bytes:
    return packets.fragment_message(packets.Message(1, command, data))[0]


@pytest.mark.parametrize(
    "answer",
    [
        b"",
        bytes(3),
        bytes(64 * 2),
        make_response_packet(b""),
        make_response_packet(b"", packets.ERROR),
        make_response_packet(b"\0" + b"\x81" * 50),
        make_response_packet(b"\0\xa1"),
        make_response_packet(b"\0\xa1\x81\x01\x02"),
        make_response_packet(b"\0\x61\xff"),
        make_response_packet(b"\0\xff\xff"),
        make_response_packet(b"\0\xf9\x00\x00"),
        None,
        "text",
    ],
)
def test_hostile_keys(answer: Any) -> None:
    client = hidlog.Client(HostileKey(answer))
    with pytest.raises(hidlog.HidlogError):
        client.request(4)


def test_a_hostile_answer_to_init() -> None:
    class ShortInitKey(HostileKey):
        def read_packet(self) -> bytes:
            return packets.fragment_message(packets.Message(packets.BROADCAST, packets.INIT, self._written[-1][7:15]))[
                0
            ]

    with pytest.raises(hidlog.HidlogError, match="invalid INIT response"):
        hidlog.Client(ShortInitKey())


@pytest.mark.parametrize("cut", range(1, 240, 7))
def test_answers_that_are_cut_short(cut: int) -> None:
    with Key() as key:
        browser = key.browser("https://example.com")
        browser.create(make_creation_options())
        key.faults.truncate_by = cut
        for call in (lambda: browser.create(make_creation_options("bob")), lambda: browser.get(REQUEST_OPTIONS)):
            with pytest.raises(hidlog.NotAllowedError):
                call()


@pytest.mark.parametrize("log", [b">", b"< 00", b"> 1 zz", b"> 1 " + b"0" * 126, b"<\n", b"> x " + b"0" * 128])
def test_hostile_recordings(log: bytes) -> None:
    with pytest.raises(hidlog.LogError, match="^line 1: not a log line$"):
        Key.from_recording(log)


def test_a_save_is_whole_and_private(tmp_path: Path, monkeypatch: pytest.MonkeyPatch) -> None:
    path = tmp_path / "key.json"
    with Key() as key:
        key.browser("https://example.com").create(make_creation_options())
        key.save(path)
        assert path.stat().st_mode & 0o777 == 0o600
        before = path.read_bytes()

        def fail(*_: Any) -> None:
            raise OSError(28, "No space left on device")

        for name in ("os.fsync", "os.replace"):
            with monkeypatch.context() as broken:
                broken.setattr(name, fail)
                with pytest.raises(OSError, match="No space left"):
                    key.save(path)
            assert path.read_bytes() == before and [item.name for item in tmp_path.iterdir()] == ["key.json"]
        link = tmp_path / "link"
        link.symlink_to(path)
        key.save(link)
        assert link.is_symlink() and path.stat().st_mode & 0o777 == 0o600


def exchange_init(key: Key) -> bytes:
    """Sends INIT to the key, and returns the log."""
    key.write_packet(packets.fragment_message(packets.Message(packets.BROADCAST, packets.INIT, bytes(8)))[0])
    key.read_packet()
    return key.log


@pytest.mark.parametrize("call", ["os.fsync", "os.replace"])
def test_a_recording_that_cannot_be_written_leaves_the_older_one(
    tmp_path: Path, monkeypatch: pytest.MonkeyPatch, call: str
) -> None:
    path = tmp_path / "session.log"
    path.write_bytes(b"t 1\n")

    def fail(*_: Any) -> None:
        raise OSError(28, "No space left on device")

    with Key() as key, monkeypatch.context() as broken:
        exchange_init(key)
        broken.setattr(call, fail)
        with pytest.raises(OSError, match="No space left"):
            key.save_log(path)
    assert path.read_bytes() == b"t 1\n" and [item.name for item in tmp_path.iterdir()] == ["session.log"]


@pytest.mark.parametrize("is_killed", [False, True])
def test_a_write_that_is_cut_off_leaves_the_older_recording(tmp_path: Path, is_killed: bool) -> None:
    """If writes fail or the process is killed after 10 bytes of a file, the older recording is kept."""
    path = tmp_path / "session.log"
    path.write_bytes(b"t 1\n")
    text = f"""
import resource, signal, sys, hidlog
key = hidlog.SecurityKey(process=False)
key.write_packet(bytes.fromhex("ffffffff860008").ljust(64, b"\\0"))
signal.signal(signal.SIGXFSZ, signal.{"SIG_DFL" if is_killed else "SIG_IGN"})
resource.setrlimit(resource.RLIMIT_FSIZE, (10, 10))
resource.setrlimit(resource.RLIMIT_CORE, (0, 0))
key.save_log({str(path)!r})
"""
    ended = subprocess.run([sys.executable, "-c", text], capture_output=True, text=True, timeout=600)
    assert ended.returncode == (-signal.SIGXFSZ if is_killed else 1), ended.stderr
    assert path.read_bytes() == b"t 1\n"
    assert is_killed or ("File too large" in ended.stderr and len(list(tmp_path.iterdir())) == 1)


def test_a_recording_has_the_mode_that_it_had(tmp_path: Path) -> None:
    path, link, long = tmp_path / "session.log", tmp_path / "link", tmp_path / ("x" * 251 + ".log")
    link.symlink_to(path)
    before = os.umask(0o027)
    try:
        with Key() as key:
            log = exchange_init(key)
            key.save_log(long)
            key.save_log(path)
            assert path.stat().st_mode & 0o777 == 0o640
            path.chmod(0o604)
            key.save_log(link)
            assert link.is_symlink() and path.read_bytes() == long.read_bytes() == log
            assert path.stat().st_mode & 0o777 == 0o604
    finally:
        os.umask(before)


def test_what_is_no_file_is_written_to_as_it_is(tmp_path: Path) -> None:
    pipe = tmp_path / "pipe"
    os.mkfifo(pipe)
    reader = os.open(pipe, os.O_RDONLY | os.O_NONBLOCK)
    with Key() as key, open(reader, "rb") as read:
        log = exchange_init(key)
        key.save_log(pipe)
        assert read.read() == log
        assert pipe.is_fifo() and len(list(tmp_path.iterdir())) == 1
        for save in (key.save, key.save_log):
            with pytest.raises(IsADirectoryError):
                save(tmp_path)
        assert len(list(tmp_path.iterdir())) == 1


def test_a_recording_comes_with_its_snapshot(tmp_path: Path) -> None:
    with Key() as key:
        exchange_init(key)
        key.credentials.add("example.com", b"ann")
        first, last = key.save_log(tmp_path / "session.log")
        assert sorted(path.name for path in tmp_path.iterdir()) == [
            "session.1.log",
            "session.log",
            "session.log.snapshot",
        ]
        assert first.read_bytes() == key.recordings[0].log
        hidlog.check(last.read_bytes(), (tmp_path / "session.log.snapshot").read_bytes()).raise_for_fault()
