"""Faults of requests and responses: lists, flags, counters, maps and statuses."""

from __future__ import annotations

from typing import Any, Callable, Dict, List, Optional

from hidlog_conformance import ctap_cbor
from hidlog_conformance import hid_packets as hid
from hidlog_conformance.ctap_cbor import encode
from hidlog_conformance.devices import POWER_LOSS
from faulty import (
    Fault,
    FaultyDevice,
    Hook,
    RequestHook,
    Sent,
    decode_response,
    is_assertion,
    is_registration,
    decode_parameters,
    replace_data,
)
from hidlog_conformance.hid_packets import Message

MAKE, GET, NEXT, RESET, SELECTION = 0x01, 0x02, 0x08, 0x07, 0x0B


def change_assertion(change: Callable[[FaultyDevice, Dict[Any, Any]], None], sign: bool = True) -> Hook:
    """Returns a hook that changes the map of an assertion, and signs it again."""

    def hook(device: FaultyDevice, message: Message) -> Optional[Sent]:
        item = decode_response(message)
        if not is_assertion(item):
            return None
        identity = item[1]["id"]
        change(device, item)
        if sign:
            item[3] = device.sign_again(item[2], decode_parameters(device.asked[GET])[2], identity)
        return replace_data(message, b"\0" + encode(item))

    return hook


def change_registration(change: Callable[[FaultyDevice, Dict[Any, Any]], None], sign: bool = True) -> Hook:
    """Returns a hook that changes the map of a registration, and signs it again."""

    def hook(device: FaultyDevice, message: Message) -> Optional[Sent]:
        item = decode_response(message)
        if not is_registration(item):
            return None
        identity = item[2][55:87]
        change(device, item)
        if sign:
            item[3]["sig"] = device.sign_again(item[2], decode_parameters(device.asked[MAKE])[1], identity)
        return replace_data(message, b"\0" + encode(item))

    return hook


def change_auth_data_byte(place: int, change: Callable[[int], int]) -> Callable[[FaultyDevice, Dict[Any, Any]], None]:
    """Returns a change of a byte of the authenticator data."""

    def changed(device: FaultyDevice, item: Dict[Any, Any]) -> None:
        auth = bytearray(item[2])
        auth[place] = change(auth[place]) & 0xFF
        item[2] = bytes(auth)

    return changed


def remove_member(key: int) -> Callable[[FaultyDevice, Dict[Any, Any]], None]:
    """Returns a change that removes a member."""

    def changed(device: FaultyDevice, item: Dict[Any, Any]) -> None:
        item.pop(key, None)

    return changed


def set_member(key: int, value: Any) -> Callable[[FaultyDevice, Dict[Any, Any]], None]:
    """Returns a change that adds a member."""

    def changed(device: FaultyDevice, item: Dict[Any, Any]) -> None:
        item[key] = value

    return changed


def add_user_name(device: FaultyDevice, item: Dict[Any, Any]) -> None:
    """Sends the user's name without user verification."""
    if 4 in item:
        item[4] = {**item[4], "name": "alice"}


def repeat_counter(device: FaultyDevice, item: Dict[Any, Any]) -> None:
    """Always returns the counter 1."""
    item[2] = item[2][:33] + b"\0\0\0\1"


def restart_counter(device: FaultyDevice, item: Dict[Any, Any]) -> None:
    """Restarts the counter after a power cycle."""
    if device.cycles:
        device.last["count"] = device.last.get("count", 0) + 1
        item[2] = item[2][:33] + device.last["count"].to_bytes(4, "big")


def decrease_counter(device: FaultyDevice, item: Dict[Any, Any]) -> None:
    """Makes the counter decrease."""
    item[2] = item[2][:33] + (1000 - int.from_bytes(item[2][33:37], "big")).to_bytes(4, "big")


def swap_key_coordinates(device: FaultyDevice, item: Dict[Any, Any]) -> None:
    """Writes the coordinate y of a COSE key before x."""
    auth = item[2]
    item[2] = auth[:-70] + auth[-35:] + auth[-70:-35]


def reorder_map(test: Callable[[Dict[Any, Any]], bool]) -> Hook:
    """Returns a hook that writes a map's last member first."""

    def hook(device: FaultyDevice, message: Message) -> Optional[Sent]:
        item = decode_response(message)
        if not test(item):
            return None
        pairs = [encode(key) + encode(value) for key, value in item.items()]
        return replace_data(message, b"\0" + message.data[1:2] + pairs[-1] + b"".join(pairs[:-1]))

    return hook


def drop_status(device: FaultyDevice, message: Message) -> Optional[Sent]:
    """Sends maps without their status."""
    return replace_data(message, message.data[1:]) if decode_response(message) else None


def replace_status(old: int, new: int, command: int) -> Hook:
    """Returns a hook that changes the status of the response to a command."""

    def hook(device: FaultyDevice, message: Message) -> Optional[Sent]:
        changed = message.command == hid.CBOR and message.data == bytes([old]) and device.command == command
        return replace_data(message, bytes([new])) if changed else None

    return hook


def change_info(change: Callable[[FaultyDevice, Dict[Any, Any]], None]) -> Hook:
    """Returns a hook that changes the map of authenticatorGetInfo."""

    def hook(device: FaultyDevice, message: Message) -> Optional[Sent]:
        item = decode_response(message)
        if isinstance(item.get(1), list):
            change(device, item)
            return replace_data(message, b"\0" + encode(item))
        return None

    return hook


def remove_parameter(command: int, key: int) -> RequestHook:
    """Returns a hook that removes a parameter from a request."""

    def hook(device: FaultyDevice, request: bytes) -> Optional[bytes]:
        asked = decode_parameters(request)
        if request[0] != command or key not in asked:
            return request
        del asked[key]
        left: bytes = request[:1] + encode(asked)
        return left

    return hook


def replace_command(command: int, other: int) -> RequestHook:
    """Returns a hook that replaces one command by another."""

    def hook(device: FaultyDevice, request: bytes) -> Optional[bytes]:
        return bytes([other]) if request == bytes([command]) else request

    return hook


def respond_with_status(test: Callable[[bytes], bool], code: int) -> RequestHook:
    """Returns a hook that responds to some requests with a status, without passing them on."""

    def hook(device: FaultyDevice, request: bytes) -> Optional[bytes]:
        if not test(request):
            return request
        device.emit(device.last["channel"], hid.CBOR, bytes([code]))
        return None

    return hook


def ignore_trailing_bytes(device: FaultyDevice, request: bytes) -> Optional[bytes]:
    """Processes a request with trailing bytes after its map."""
    reader = ctap_cbor.Reader(request[1:])
    try:
        reader.read()
    except ctap_cbor.CborError:
        return request
    return request[: 1 + reader.place]


def accept_unsorted_map(device: FaultyDevice, request: bytes) -> Optional[bytes]:
    """Processes a map whose keys are not in ascending order."""
    return request.replace(b"\xa2\x02\x00\x01\x00", b"\xa2\x01\x00\x02\x00")


def has_exclude_list(request: bytes) -> bool:
    """Returns whether a registration has an exclude list."""
    return request[0] == MAKE and bool(decode_parameters(request).get(5))


def has_uv_and_unsupported_algorithm(request: bytes) -> bool:
    """Returns whether a registration wants user verification and an unsupported algorithm."""
    asked = decode_parameters(request)
    wants_verification = isinstance(asked.get(7), dict) and asked[7].get("uv") is True
    return request[0] == MAKE and wants_verification and asked.get(4, [{}])[0].get("alg") == -65535


def repeat_last_assertion(device: FaultyDevice, message: Message) -> Optional[Sent]:
    """Returns the last assertion again if none is pending."""
    if is_assertion(decode_response(message)):
        device.last["assertion"] = message.data
    if message.command == hid.CBOR and message.data == b"\x30" and "assertion" in device.last:
        return replace_data(message, device.last["assertion"])
    return None


def keep_pending_assertion(device: FaultyDevice, message: Message) -> Optional[Sent]:
    """Returns an assertion from before a power cycle if none is pending."""
    if is_assertion(decode_response(message)) and not device.cycles:
        device.kept = message.data
    if message.command == hid.CBOR and message.data == b"\x30" and device.cycles and device.kept:
        return replace_data(message, device.kept)
    return None


def stop_clock_before_sign_in(device: FaultyDevice, at: int) -> int:
    """Stops the clock until the first sign-in."""
    return at if GET in device.asked else 0


def stop_clock_after_sign_in(device: FaultyDevice, at: int) -> int:
    """Stops the clock after the first sign-in."""
    if GET not in device.asked:
        device.last["at"] = at
    stands: int = device.last["at"]
    return stands


def accept_denial(device: FaultyDevice, word: str) -> str:
    """Treats a denied registration as granted."""
    return "granted" if device.command == MAKE else word


def add_number_to_later_assertions(device: FaultyDevice, item: Dict[Any, Any]) -> None:
    """Adds numberOfCredentials to later assertions too."""
    if device.command == NEXT:
        item[5] = 3


def add_number_for_one_credential(device: FaultyDevice, item: Dict[Any, Any]) -> None:
    """Adds numberOfCredentials for a single credential."""
    if device.command == GET:
        item.setdefault(5, 1)


def remove_option(command: int, option: str, key: int) -> RequestHook:
    """Returns a hook that removes an option from a request."""

    def hook(device: FaultyDevice, request: bytes) -> Optional[bytes]:
        asked = decode_parameters(request)
        options = asked.get(key)
        if request[0] != command or not isinstance(options, dict) or option not in options:
            return request
        del options[option]
        left: bytes = request[:1] + encode(asked)
        return left

    return hook


M, G, N = "6.1.2", "6.2.2", "6.3"
UP, AT, ED = 0x01, 0x40, 0x80

CBOR_FAULTS: List[Fault] = [
    Fault("made_unsorted", M, "The map of a registration is not sorted.", reorder_map(is_registration)),
    Fault(
        "made_without_up",
        M,
        "Flag UP is not set in a registration.",
        change_registration(change_auth_data_byte(32, lambda b: b & ~UP)),
    ),
    Fault(
        "made_without_at",
        M,
        "Flag AT is not set in a registration.",
        change_registration(change_auth_data_byte(32, lambda b: b & ~AT)),
    ),
    Fault(
        "made_with_ed",
        M,
        "Flag ED is set without extension outputs.",
        change_registration(change_auth_data_byte(32, lambda b: b | ED)),
    ),
    Fault(
        "made_wrong_rp",
        M,
        "The RP ID hash of a registration is wrong.",
        change_registration(change_auth_data_byte(0, lambda b: b ^ 1)),
    ),
    Fault(
        "made_wrong_signature",
        M,
        "The attestation signature does not cover the final authenticator data.",
        change_registration(change_auth_data_byte(36, lambda b: 9), False),
    ),
    Fault("key_unsorted", M, "The members of the COSE key are not sorted.", change_registration(swap_key_coordinates)),
    Fault(
        "statement_missing", M, "The attestation statement is missing.", change_registration(remove_member(2), False)
    ),
    Fault("status_lost", "11.2.9.1.2", "The status byte is missing.", drop_status),
    Fault(
        "exclude_ignored", M, "The exclude list is ignored.", request=remove_parameter(MAKE, 5), by="lists/exclude_one"
    ),
    Fault(
        "exclude_early",
        M,
        "An excluded registration is refused before the touch.",
        request=respond_with_status(has_exclude_list, 0x19),
    ),
    Fault("uv_ignored", M, "The unsupported option uv is ignored.", request=remove_option(MAKE, "uv", 7)),
    Fault(
        "checks_swapped",
        M,
        "Options are checked before algorithms.",
        request=respond_with_status(has_uv_and_unsupported_algorithm, 0x2C),
    ),
    Fault("denial_ignored", M, "A denial counts as user presence.", reply=accept_denial),
    Fault(
        "missing_wrong_status",
        M,
        "A missing parameter is refused with another status.",
        replace_status(0x14, 0x12, MAKE),
    ),
    Fault("sign_in_unsorted", G, "The map of an assertion is not sorted.", reorder_map(is_assertion)),
    Fault(
        "sign_in_without_up",
        G,
        "Flag UP is not set after a touch.",
        change_assertion(change_auth_data_byte(32, lambda b: b & ~UP)),
    ),
    Fault(
        "up_without_touch",
        G,
        "Flag UP is set without a touch.",
        change_assertion(change_auth_data_byte(32, lambda b: b | UP)),
    ),
    Fault("counter_repeated", G, "The counter does not rise.", change_assertion(repeat_counter)),
    Fault("counter_falls", G, "The counter decreases.", change_assertion(decrease_counter)),
    Fault("counter_lost", G, "A power cycle resets the counter.", change_assertion(restart_counter)),
    Fault("credentials_lost", G, "A power cycle deletes credentials.", power=POWER_LOSS, implies=(M,)),
    Fault(
        "nothing_forgotten",
        "11.2.5.1",
        "Channels, messages and requests survive a power cycle, and the clock continues.",
        power="",
        implies=("11.2.3", "11.2.9.1.7", "6.6"),
    ),
    Fault("pending_kept", N, "Pending assertions survive a power cycle.", keep_pending_assertion),
    Fault(
        "sign_in_wrong_rp",
        G,
        "The RP ID hash of an assertion is wrong.",
        change_assertion(change_auth_data_byte(31, lambda b: b ^ 1)),
    ),
    Fault(
        "wrong_signature",
        G,
        "The signature does not cover the counter.",
        change_assertion(change_auth_data_byte(33, lambda b: 1), False),
    ),
    Fault(
        "wrong_id",
        G,
        "An assertion has another credential ID.",
        change_assertion(set_member(1, {"id": b"x" * 32, "type": "public-key"}), False),
    ),
    Fault("user_missing", G, "The user of a discoverable credential is missing.", change_assertion(remove_member(4))),
    Fault("user_named", G, "The user's name is returned without user verification.", change_assertion(add_user_name)),
    Fault("number_missing", G, "numberOfCredentials is missing.", change_assertion(remove_member(5))),
    Fault(
        "number_again",
        N,
        "Further assertions have numberOfCredentials, too.",
        change_assertion(add_number_to_later_assertions),
    ),
    Fault(
        "number_of_one",
        G,
        "numberOfCredentials is 1 for a single credential.",
        change_assertion(add_number_for_one_credential),
    ),
    Fault(
        "allow_ignored",
        G,
        "The allow list is ignored.",
        request=remove_parameter(GET, 3),
        by="lists/allow_unknown_discoverable",
        implies=(N,),
    ),
    Fault(
        "up_ignored",
        G,
        "The option up is ignored in sign-ins.",
        request=remove_parameter(GET, 5),
        by="get/without_presence",
    ),
    Fault("not_stored", G, "No credential is discoverable.", request=remove_option(MAKE, "rk", 7), implies=(M,)),
    Fault(
        "nothing_found",
        G,
        "A sign-in without a credential is refused with another status.",
        replace_status(0x2E, 0x27, GET),
    ),
    Fault("next_for_ever", N, "The last assertion is returned again and again.", repeat_last_assertion),
    Fault("next_at_any_time", N, "Pending assertions never time out.", clock=stop_clock_after_sign_in),
    Fault("reset_at_any_time", "6.6", "A reset is accepted at any time.", clock=stop_clock_before_sign_in),
    Fault(
        "reset_keeps",
        "6.6",
        "A reset deletes no credentials.",
        request=replace_command(RESET, SELECTION),
        by="reset/forgets",
    ),
    Fault(
        "reset_at_once", "6.6", "A reset needs no touch.", request=respond_with_status(lambda r: r == bytes([RESET]), 0)
    ),
    Fault(
        "selection_at_once",
        "6.9",
        "A selection needs no touch.",
        request=respond_with_status(lambda r: r == bytes([SELECTION]), 0),
    ),
    Fault(
        "selection_timeout",
        "6.9",
        "The timeout of a selection has another status.",
        replace_status(0x2F, 0x27, SELECTION),
    ),
    Fault("info_without_versions", "6.4", "The versions are missing.", change_info(remove_member(1))),
    Fault("info_short_aaguid", "6.4", "The AAGUID has 15 bytes.", change_info(set_member(3, bytes(15)))),
    Fault("info_options", "6.4", "An option is a number.", change_info(set_member(4, {"rk": 1}))),
    Fault("trailing_taken", "8", "Bytes after the parameters are ignored.", request=ignore_trailing_bytes),
    Fault("unsorted_taken", "8", "A map with unsorted keys is accepted.", request=accept_unsorted_map),
    Fault(
        "unknown_refused",
        "8",
        "An unknown parameter is refused.",
        request=respond_with_status(lambda r: bool({64, 65, 255} & set(decode_parameters(r))), 0x12),
    ),
    Fault(
        "command_taken",
        "8.1",
        "An unknown command returns status 00.",
        request=respond_with_status(lambda r: r[0] > 0x0D, 0),
    ),
]
