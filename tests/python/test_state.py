"""Credentials, saved state, and damaged files of saved keys, with keys in this process and in a separate one."""

from __future__ import annotations

import json
from collections.abc import Callable
from dataclasses import replace
from hashlib import sha256
from pathlib import Path
from random import Random
from typing import Any

import pytest
from fido2.ctap import CtapError
from service import CLIENT_ERRORS, Service, check_refused

import hidlog
from hidlog import cbor
from hidlog.credentials import write_snapshot

Make = Callable[..., hidlog.SecurityKey]


def test_save_and_load(make_key: Make, tmp_path: Path) -> None:
    key = make_key()
    alice = Service(key).register()
    Service(key).sign_in([alice])
    key.save(tmp_path / "key.json")
    with hidlog.SecurityKey.load(tmp_path / "key.json", process=key._process) as again:
        assert Service(again).sign_in([alice]).authenticator_data.counter == 2
        assert list(again.credentials)[0].user_name == "alice"
    (tmp_path / "wrong").write_text("{}")
    with pytest.raises(hidlog.ArgumentError, match="was not written by SecurityKey.save"):
        hidlog.SecurityKey.load(tmp_path / "wrong")


def test_loss_of_power(make_key: Make) -> None:
    key = make_key()
    service = Service(key)
    alice = service.register()
    key.restart()
    # The key no longer has the channel, so it sends ERR_INVALID_CHANNEL.
    with pytest.raises(CtapError) as caught:
        service.client.ctap2.get_info()
    assert (caught.value.code, str(caught.value)) == (0x0B, "CtapError 0x0B INVALID_CHANNEL")
    assert Service(key).sign_in([alice]).authenticator_data.counter == 1
    assert len(key.recordings) == 2


def test_credentials(make_key: Make) -> None:
    key = make_key()
    service = Service(key)
    alice = service.register()
    held = key.credentials.get(alice.credential_id)
    assert held.rp_id_hash == sha256(b"example.com").digest()
    assert (held.public_key_x, held.public_key_y) == (alice.public_key[-2], alice.public_key[-3])
    bob = key.credentials.add("example.com", b"bob", "bob", sign_count=40)
    assert [credential.user_id for credential in key.credentials] == [b"alice", b"bob"]
    found = service.sign_in([_read_cose_key(bob)])
    assert (found.user_handle, found.authenticator_data.counter) == (b"bob", 41)
    key.credentials.update(bob.id, sign_count=7)
    assert service.sign_in([_read_cose_key(bob)]).authenticator_data.counter == 8
    key.credentials.remove(bob.id)
    assert service.sign_in([alice]).user_handle == b"alice"
    key.credentials.clear()
    assert len(key.credentials) == 0
    check_refused(CLIENT_ERRORS.DEVICE_INELIGIBLE, 0x2E, service.sign_in, [alice])


def test_an_added_credential_replaces_that_of_its_user(make_key: Make) -> None:
    """An added credential replaces another one of the same user, as in a registration (docs/use/PROFILE.md,
    authenticatorMakeCredential). Other credentials are kept."""
    key = make_key()
    first = key.credentials.add("example.com", b"alice")
    other = key.credentials.add("example.org", b"alice")
    hidden = key.credentials.add("example.com", b"alice", discoverable=False)
    second = key.credentials.add("example.com", b"alice")
    assert list(key.credentials) == [other, hidden, second] and first.id != second.id
    assert key.credentials.for_rp("example.com") == [hidden, second]
    key.credentials.remove(other.id)
    assert list(key.credentials) == [hidden, second]
    with pytest.raises(hidlog.ArgumentError, match="the same relying party and user"):
        key.credentials.update(hidden.id, discoverable=True)
    with pytest.raises(
        hidlog.ArgumentError, match="unknown member to change 'rp_id'; expected one of sign_count, user_name"
    ):
        key.credentials.update(hidden.id, rp_id="example.org")
    with pytest.raises(hidlog.ArgumentError, match="already has a credential with ID"):
        key.credentials.add("example.com", credential_id=second.id)


def test_a_given_private_key_signs(make_key: Make) -> None:
    from cryptography.hazmat.primitives import serialization
    from cryptography.hazmat.primitives.asymmetric import ec

    private = ec.generate_private_key(ec.SECP256R1())
    form = (serialization.Encoding.DER, serialization.PrivateFormat.PKCS8, serialization.NoEncryption())
    both: list[Any] = [private, private.private_bytes(*form)]
    for private_key in both:
        key = make_key()
        added = key.credentials.add("example.com", b"u", private_key=private_key)
        assert added.public_key_x == private.public_key().public_numbers().x.to_bytes(32, "big")
        assert Service(key).sign_in([_read_cose_key(added)]).user_handle == b"u"
    with pytest.raises(hidlog.ArgumentError, match="must be a P-256"):
        key.credentials.add("example.com", private_key=ec.generate_private_key(ec.SECP384R1()))


def test_credentials_change_only_while_nothing_is_served(make_key: Make) -> None:
    key = make_key(presence=None)
    hidlog.Client(key)
    key.write_packet(bytes.fromhex("00000001900001" "0b").ljust(64, b"\0"))
    with pytest.raises(hidlog.KeyBusyError, match="a request is in progress: wait for its response, or cancel it"):
        key.credentials.clear()


def _read_cose_key(credential: hidlog.Credential) -> Any:
    from fido2.cose import ES256
    from fido2.ctap2 import AttestedCredentialData

    public = ES256({1: 2, 3: -7, -1: 1, -2: credential.public_key_x, -3: credential.public_key_y})
    return AttestedCredentialData.create(bytes(16), credential.id, public)


def change_credentials_at_random(key: hidlog.SecurityKey, chance: Random) -> None:
    """Adds, changes and removes credentials of three users at two services, at random."""
    for _ in range(60):
        ids = [credential.id for credential in key.credentials]
        what = chance.randrange(8)
        if what < 3 or not ids:
            rp, user, kind = (
                chance.choice(["a.example", "b.example"]),
                bytes([chance.randrange(3)]),
                chance.random() < 0.6,
            )
            name = chance.choice([None, None, chance.randbytes(chance.choice([1, 32, 100]))])
            key.credentials.add(rp, user, f"name {user.hex()}", discoverable=kind, credential_id=name)
        elif what < 6:
            members = {"sign_count": chance.randrange(1000), "user_name": "\u00e9" * chance.randrange(30)}
            key.credentials.update(chance.choice([*ids, ids[-1]]), **members)
        elif what < 7:
            key.credentials.remove(chance.choice(ids))
        else:
            key.restart()


def test_both_forms_hold_the_same_after_changes() -> None:
    """A key in this process changes credentials through the C library, and a key in a separate process through
    snapshots. Both have the same credentials afterwards."""
    for seed in range(4):
        keys = []
        for process in (False, True):
            with hidlog.SecurityKey(process=process, random=Random(seed).randbytes) as key:
                change_credentials_at_random(key, Random(seed))
                keys.append((list(key.credentials), key.snapshot(), key.recordings, sorted(key.private_keys)))
        assert keys[0] == keys[1]
        held, _, recordings, private = keys[0]
        assert len(private) == len(held)
        for recording in recordings:
            hidlog.check(recording.log, recording.snapshot).raise_for_fault()


def test_a_change_leaves_the_others_where_they_are() -> None:
    with hidlog.SecurityKey() as key:
        ids = [key.credentials.add("example.com", bytes([index])).id for index in range(5)]
        for place in (0, 2, 4):
            before = key.credentials[place]
            assert key.credentials.update(before.id, sign_count=7, user_name="bob") == key.credentials[place]
            assert key.credentials[place] == replace(before, sign_count=7, user_name="bob")
            assert [credential.id for credential in key.credentials] == ids


def test_private_keys_of_replaced_credentials_go(make_key: Make) -> None:
    key = make_key()
    for _ in range(3):
        key.credentials.add("example.com", b"ann")
    assert len(key.credentials) == len(key.private_keys) == 1
    key.credentials.clear()
    assert not key.private_keys


def test_a_key_that_registers_for_ever_keeps_few_private_keys() -> None:
    with hidlog.SecurityKey() as key:
        service = Service(key)
        for _ in range(300):
            alice = service.register()
        assert len(key.credentials) == 1 and len(key.private_keys) <= 257
        service.sign_in([alice])


def test_a_refused_snapshot_leaves_the_key_as_it_was() -> None:
    with hidlog.SecurityKey() as key:
        alice = Service(key).register()
        with pytest.raises(hidlog.SnapshotError):
            key._load_snapshot(b"\xa2")
        assert Service(key).sign_in([alice]).authenticator_data.counter == 1


def test_wrong_credentials_are_refused(make_key: Make) -> None:
    key = make_key()
    with pytest.raises(hidlog.ArgumentError, match="no credential with ID 00"):
        key.credentials.remove(bytes(32))
    with pytest.raises(hidlog.ArgumentError, match="sign_count is -1; it must be 0 to 4294967295"):
        key.credentials.add("example.com", sign_count=-1)
    with pytest.raises(hidlog.ArgumentError, match="user_id has 65 bytes; it must have at most 64"):
        key.credentials.add("example.com", bytes(65))
    made = key.credentials.add("example.com", b"alice")
    full = [replace(made, id=bytes([index]) * 32, user_id=bytes([index])) for index in range(64)]
    with make_key(snapshot=write_snapshot(full)) as other:
        assert list(other.credentials) == full
        with pytest.raises(hidlog.ArgumentError, match="the key is full: it has 64 credentials"):
            other.credentials.add("example.com", b"one more")
        # A registration beyond the capacity fails with CTAP2_ERR_KEY_STORE_FULL.
        check_refused(CLIENT_ERRORS.CONFIGURATION_UNSUPPORTED, 0x28, Service(other).register)


def test_the_clock_goes_on_as_credentials_change(make_key: Make) -> None:
    key = make_key()
    key.advance_time(20_000)
    key.credentials.add("example.com", b"u")
    assert 20_000 < key.time_ms < 20_100
    key.advance_time(5_000)
    assert 25_000 < key.time_ms < 25_100
    key.restart()
    assert key.time_ms == 0


def test_without_a_recording(make_key: Make) -> None:
    key = make_key(record=False)
    alice = Service(key).register()
    assert Service(key).sign_in([alice]).authenticator_data.counter == 1
    assert key.log == b""
    if key._process:
        with pytest.raises(hidlog.HidlogError, match="record=True"):
            len(key.credentials)
    else:
        assert key.credentials.get(alice.credential_id).sign_count == 1


def test_a_snapshot_at_its_limits(make_key: Make) -> None:
    """The snapshot equals the output of a generic CBOR encoder. The core loads the snapshot, and returns the same
    credentials."""
    point = hidlog.SecurityKey().credentials.add("example.com")
    listed = [
        replace(
            point, id=bytes([number]) * 32, user_id=user, user_name=name, sign_count=count, discoverable=number % 2 == 0
        )
        for number, (user, name, count) in enumerate(
            [
                (b"", "", 0),
                (b"a" * 23, "b" * 24, 23),
                (b"c" * 24, "\u00e9" * 32, 24),
                (b"d" * 64, "e" * 64, 2**32 - 1),
            ]
        )
    ]
    members = ("rp_id_hash", "id", "public_key_x", "public_key_y", "user_id", "discoverable", "sign_count", "user_name")
    rows = [dict(enumerate((getattr(entry, name) for name in members), 1)) for entry in listed]
    assert write_snapshot(listed) == cbor.encode({1: 2, 2: rows})
    with make_key(snapshot=write_snapshot(listed)) as key:
        assert list(key.credentials) == listed and len(key.credentials) == len(listed)
        assert key.snapshot() == write_snapshot(listed)
    with pytest.raises(hidlog.ArgumentError, match="must have 32 bytes"):
        write_snapshot([replace(point, id=b"short")])


def test_a_key_as_text(make_key: Make) -> None:
    """A key that is loaded from the text of `dumps` has the same credentials. Their signature counters are above those
    that a service has seen."""
    with make_key() as key:
        alice = Service(key).register()
        Service(key).sign_in([alice])
        text, held = key.dumps(), list(key.credentials)
    with hidlog.SecurityKey.loads(text) as again:
        assert list(again.credentials) == held
        assert Service(again).sign_in([alice]).authenticator_data.counter == 2
    with hidlog.SecurityKey.loads(text, sign_count_margin=1000) as later:
        assert [credential.sign_count for credential in later.credentials] == [
            credential.sign_count + 1000 for credential in held
        ]
    with hidlog.SecurityKey.loads(text, sign_count_margin=2**32 - 1) as last:
        assert [credential.sign_count for credential in last.credentials] == [2**32 - 1] * len(held)
    for wrong in (None, b"{}", "", "{}", text[:-9]):
        with pytest.raises(hidlog.ArgumentError):
            hidlog.SecurityKey.loads(wrong)  # type: ignore[arg-type]


def test_recordings_are_forgotten(make_key: Make) -> None:
    with make_key() as key:
        key.credentials.add("example.com", b"alice")
        hidlog.Client(key).request(4)
        before = key.snapshot()
        key.clear_recordings()
        (recording,) = key.recordings
        assert recording.snapshot == before and b"\n< " in recording.log
        assert hidlog.check(recording.log, recording.snapshot).raise_for_fault()
        hidlog.Client(key).request(4)
        assert hidlog.check(key.recordings[-1].log, before).raise_for_fault()


def save_key(path: Path) -> tuple[bytes, list[Any]]:
    """Saves a key with two credentials. Returns the bytes of the file, and the credentials."""
    with hidlog.SecurityKey() as key:
        for name in ("alice", "bob"):
            Service(key).register(name)
        key.save(path)
        return path.read_bytes(), list(key.credentials)


def test_each_bit_of_a_saved_key_changed(tmp_path: Path) -> None:
    """A file with one changed bit is rejected, or has the same credentials if the bit is in white space or in the name
    of the checksum."""
    path = tmp_path / "key.json"
    data, credentials = save_key(path)
    loaded = []
    for place in range(len(data)):
        for bit in range(place % 3, 8, 3):
            path.write_bytes(data[:place] + bytes([data[place] ^ 1 << bit]) + data[place + 1 :])
            try:
                with hidlog.SecurityKey.load(path) as key:
                    loaded.append(place)
                    assert list(key.credentials) == credentials, (place, bit)
            except (hidlog.ArgumentError, hidlog.SnapshotError) as error:
                assert str(path) in str(error), (place, bit)
    name = data.index(b'"sha256"')
    assert all(data[place : place + 1].isspace() or name <= place < name + 8 for place in loaded), loaded


def test_a_cut_off_file_is_refused(tmp_path: Path) -> None:
    path = tmp_path / "key.json"
    data, _ = save_key(path)
    for length in range(0, len(data.rstrip()), 7):
        path.write_bytes(data[:length])
        with pytest.raises(hidlog.ArgumentError, match="was not written by SecurityKey.save"):
            hidlog.SecurityKey.load(path)


def test_a_file_without_a_sum_is_loaded(tmp_path: Path) -> None:
    """Older versions wrote no checksum. An edited file is loaded after its checksum was removed."""
    path = tmp_path / "key.json"
    data, credentials = save_key(path)
    members = json.loads(data)
    # The checksum is that of the other members, with sorted names and without white space.
    given = members.pop("sha256")
    assert given == sha256(json.dumps(members, sort_keys=True, separators=(",", ":")).encode()).hexdigest()
    members["sha256"] = given
    members["backups"] = {credentials[0].id.hex(): [True, True]}
    path.write_text(json.dumps(members), encoding="ascii")
    with pytest.raises(hidlog.ArgumentError, match="damaged or was edited: .* remove that member to load it"):
        hidlog.SecurityKey.load(path)
    del members["sha256"]
    path.write_text(json.dumps(members), encoding="ascii")
    with hidlog.SecurityKey.load(path) as key:
        assert [item.id for item in key.credentials] == [credential.id for credential in credentials]
        assert list(key.credentials)[0].backup != credentials[0].backup
