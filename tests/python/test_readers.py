"""Tests the parsers of the package with unusual and invalid input. They accept it, or raise HidlogError with a text."""

from __future__ import annotations

from collections.abc import Callable, Iterator
from typing import Any

import pytest
from test_browser import make_creation_options

import hidlog
from hidlog import cbor, webauthn_json
from hidlog.credentials import read_snapshot
from hidlog.webauthn_client import AuthenticatorOptions, ClientCall

Example = Callable[[str], bytes]


def build_create_request(options: Any) -> bytes:
    return ClientCall("create", options, "optional", "https://a.example", AuthenticatorOptions()).request().message


def build_get_request(options: Any) -> bytes:
    return ClientCall("get", options, "optional", "https://a.example", AuthenticatorOptions()).request().message


PRF = {"eval": {"first": "AQ", "second": "Ag"}, "evalByCredential": {"_-8": {"first": "AQ"}}}
EXTENSIONS = {"credProps": True, "credBlob": "AA", "largeBlob": {"support": "required", "write": "AQI"}, "prf": PRF}
DESCRIPTORS = [{"id": "_-8", "type": "public-key", "transports": ["usb"]}]
OPTIONS = {
    "create": make_creation_options(timeout=1, excludeCredentials=DESCRIPTORS, hints=["hybrid"], extensions=EXTENSIONS),
    "get": {"challenge": "AAEC", "rpId": "a.example", "allowCredentials": DESCRIPTORS, "extensions": EXTENSIONS},
}
PARSERS: list[Callable[[Any], Any]] = [
    webauthn_json.creation_options,
    webauthn_json.request_options,
    webauthn_json.creation_options_json,
    webauthn_json.request_options_json,
    webauthn_json.registration,
    webauthn_json.authentication,
    build_create_request,
    build_get_request,
]
# Values of each type, shallow and nested, with valid and invalid base64url.
UNUSUAL_VALUES: list[Any] = [
    None,
    True,
    0,
    -1,
    1.5,
    2**70,
    "",
    "A",
    "AAAA",
    "é",
    "\ud800",
    b"a",
    [],
    [1],
    ["AA"],
    [["AA", 1]],
]
UNUSUAL_VALUES += [
    [None],
    [{}],
    {},
    {"id": 1},
    {"first": 1},
    {"eval": 1},
    {"eval": {"first": 1}},
    {"evalByCredential": [7]},
]


def iter_changed_values(value: Any, wrong: list[Any]) -> Iterator[Any]:
    """Yields a value in which each position is replaced by each value of `wrong`, and from which each member is removed."""
    yield from wrong
    places = value.items() if isinstance(value, dict) else enumerate(value) if isinstance(value, list) else ()
    for place, inner in places:
        for changed in iter_changed_values(inner, wrong):
            copied = value.copy()
            copied[place] = changed
            yield copied
        copied = value.copy()
        del copied[place]
        yield copied


def make_responses() -> dict[str, Any]:
    with hidlog.SecurityKey() as key:
        browser = key.browser("https://a.example")
        made = browser.create(make_creation_options())
        return {"made": made, "found": browser.get({"challenge": "AAEC"})}


@pytest.mark.parametrize("name", ["create", "get", "made", "found"])
def test_json_with_a_wrong_value_in_each_place(name: str) -> None:
    for value in iter_changed_values({**OPTIONS, **make_responses()}[name], UNUSUAL_VALUES):
        for read in PARSERS:
            try:
                read(value)
            except hidlog.HidlogError as error:
                assert str(error)


@pytest.mark.parametrize(
    "members, text",
    [
        ({"excludeCredentials": [7]}, "^a credential of excludeCredentials must be a dict, not int$"),
        ({"excludeCredentials": ["id"]}, "^a credential of excludeCredentials must be a dict, not str$"),
        ({"excludeCredentials": {"id": "AA"}}, "^excludeCredentials must be a list, not dict$"),
        ({"user": [["id", "AA"]]}, "^user must be a dict, not list$"),
        ({"extensions": "ab"}, "^extensions must be a dict, not str$"),
        ({"extensions": [1]}, "^extensions must be a dict, not list$"),
        ({"extensions": {"prf": {"eval": "ab"}}}, "^extensions.prf must be a dict, not str$"),
        ({"extensions": {"prf": {"evalByCredential": [1]}}}, "^evalByCredential must be a dict, not list$"),
    ],
)
def test_what_is_wrong_in_options_is_said(members: dict[str, Any], text: str) -> None:
    with pytest.raises(hidlog.ArgumentError, match=text):
        webauthn_json.creation_options(make_creation_options(**members))


@pytest.mark.parametrize(
    "options",
    [
        make_creation_options(excludeCredentials=[7]),
        make_creation_options(user=7),
        make_creation_options(extensions="ab"),
        make_creation_options(extensions={"prf": 7}),
    ],
)
def test_a_browser_refuses_them_by_the_name_of_the_dom(options: dict[str, Any]) -> None:
    """In Web IDL, a value that can't be converted to a dictionary is a TypeError."""
    with hidlog.SecurityKey() as key, pytest.raises(hidlog.WebAuthnError) as caught:
        key.browser("https://a.example").create(options)
    assert caught.value.name == "TypeError" and "The provided value is not of type" in str(caught.value)


@pytest.mark.parametrize(
    "line", [b">", b"<", b"< 00", b"> 5 0011", b"> 5 zz", b"> x " + b"0" * 128, b"< " + b"g" * 128]
)
@pytest.mark.parametrize("after", [1, 2, 3])
def test_a_recording_with_a_line_that_is_no_packet(read_example: Example, line: bytes, after: int) -> None:
    """The invalid line is before the first packet, at a packet of the key, or at a packet of the client. The error
    message is that of the program."""
    lines = read_example("registration.log").splitlines()
    assert [item[:1] for item in lines[:4]] == [b"#", b">", b"<", b">"]
    log = b"\n".join([*lines[:after], line, *lines[after:]]) + b"\n"
    for read in (hidlog.SecurityKey.from_recording, lambda log: hidlog.check(log).raise_for_fault()):
        with pytest.raises(hidlog.LogError, match=f"^line {after + 1}: not a log line$"):
            read(log)


SNAPSHOT_ROW = {number: bytes(32) for number in range(1, 5)} | {5: b"\1", 6: True, 7: 0, 8: "ann"}


@pytest.mark.parametrize(
    "value, text",
    [
        ([1, 2, []], "it is not a CBOR map"),
        ("abc", "it is not a CBOR map"),
        ({1: 2}, "it has no member 2"),
        ({2: []}, "it has no member 1"),
        ({1: 3, 2: []}, "its version is 3; it must be 1 or 2"),
        ({1: 2, 2: {}}, "its credentials are not a CBOR array"),
        ({1: 2, 2: [SNAPSHOT_ROW, 7]}, "credential 2 is not a CBOR map"),
        ({1: 2, 2: ["abcdefghi"]}, "credential 1 is not a CBOR map"),
        ({1: 2, 2: [b"abcdefghi"]}, "credential 1 is not a CBOR map"),
        ({1: 2, 2: [[1] * 9]}, "credential 1 is not a CBOR map"),
        ({1: 2, 2: [{1: bytes(32)}]}, "credential 1 has no member 2"),
        ({1: 2, 2: [{**SNAPSHOT_ROW, 3: b"x"}]}, "credential 1: public_key_x has 1 bytes; it must have 32"),
        ({1: 2, 2: [{**SNAPSHOT_ROW, 7: "0"}]}, "credential 1: sign_count must be int, not str"),
    ],
)
def test_what_is_wrong_in_a_snapshot_is_said(value: Any, text: str) -> None:
    """The program rejects each of these snapshots, too."""
    data = cbor.encode(value)
    with pytest.raises(hidlog.SnapshotError, match=f"^not a snapshot: {text}$"):
        read_snapshot(data)
    with pytest.raises(hidlog.SnapshotError, match="^snapshot refused: "):
        hidlog.replay(b"", data).raise_for_fault()


def test_snapshots_with_a_wrong_value_in_each_place(read_example: Example) -> None:
    whole = cbor.decode(read_example("example_com.snapshot"))
    wrong: list[Any] = [
        None,
        True,
        0,
        3,
        -1,
        2**33,
        b"",
        bytes(32),
        "",
        "abcdefghi",
        [],
        [1],
        ["abcdefghi"],
        {},
        {1: 2},
        [{}],
    ]
    for value in iter_changed_values(whole, [*wrong, [[1] * 9], [b"abcdefghi"]]):
        try:
            read_snapshot(cbor.encode(value))
        except hidlog.SnapshotError as error:
            assert str(error).startswith("not a snapshot: ")


@pytest.mark.parametrize("version", [1, 2])
def test_snapshots_of_both_versions_are_read(version: int) -> None:
    """Snapshots of version 1 contain no user names. The program accepts both versions, too."""
    row = {number: member for number, member in SNAPSHOT_ROW.items() if number < 8 or version == 2}
    data = cbor.encode({1: version, 2: [row]})
    hidlog.replay(b"", data).raise_for_fault()
    (held,) = read_snapshot(data)
    assert (held.user_id, held.user_name) == (b"\1", "ann" if version == 2 else "")
