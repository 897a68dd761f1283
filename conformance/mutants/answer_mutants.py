"""Faults of the reference authenticator: sign-ins, further assertions, getInfo, parameters and user presence."""

from __future__ import annotations

import hashlib
from typing import Any, Dict, List

from mutant import Mutant, change_result, wrap_method, combine, replace_method, change_member
from hidlog_conformance.reference.authenticator import INVALID_OPTION, NO_CREDENTIALS, NOT_ALLOWED
from hidlog_conformance.reference.pin import RequestError

MAKE, GET, NEXT, INFO, RESET, SELECTION, CBOR, COMMANDS = "6.1.2", "6.2.2", "6.3", "6.4", "6.6", "6.9", "8", "8.1"


def change_user(change: Any) -> Any:
    """Returns a change of the user entity in assertions."""
    return change_result("user", lambda key, found, asked, one: change(dict(one.user)))


def wrap_next(change: Any) -> Any:
    """Returns a change that wraps authenticatorGetNextAssertion."""
    return wrap_method("next", change)


def repeat_assertion(key: Any, old: Any, at: int, channel: int) -> Any:
    """Returns the same credential again."""
    if key.pending is not None and key.pending.left:
        key.pending.left.append(key.pending.left[0])
        key.pending.left = key.pending.left[:1] * 2
    return old(at, channel)


def repeat_counter(key: Any, old: Any, at: int, channel: int) -> Any:
    """Does not increment the counter in a further assertion."""
    if key.pending is not None and key.pending.left:
        key.pending.left[0].counter -= key.pending.left[0].counter > 0
    return old(at, channel)


def never_time_out(key: Any, old: Any, at: int, channel: int) -> Any:
    """Never discards pending assertions by the timeout."""
    if key.pending is not None:
        key.pending.at = key.transport.at
    return old(at, channel)


def never_renew_timeout(key: Any, old: Any, at: int, channel: int) -> Any:
    """Counts the 30 seconds from the first assertion."""
    began = key.pending.at if key.pending is not None else 0
    answer = old(at, channel)
    key.pending.at = began
    return answer


def return_wrong_status(key: Any, old: Any, at: int, channel: int) -> Any:
    """Returns another status if no assertion is pending."""
    if key.pending is None and key.credentials:
        raise RequestError(NO_CREDENTIALS)
    if key.pending is None:
        raise RequestError(0x01)
    return old(at, channel)


def add_number(key: Any, old: Any, at: int, channel: int) -> Any:
    """Returns numberOfCredentials in further assertions."""
    left = len(key.pending.left) if key.pending is not None else 0
    return {**old(at, channel), 5: left}


def count_all_rps(key: Any, answer: Dict[int, Any], asked: Any, found: Any) -> Dict[int, Any]:
    """Returns the number of credentials of all RPs."""
    return {**answer, 5: len(key.credentials)} if 5 in answer else answer


def drop_number(key: Any, answer: Dict[int, Any], asked: Any, found: Any) -> Dict[int, Any]:
    """Returns no numberOfCredentials."""
    return {part: value for part, value in answer.items() if part != 5}


def add_number_of_one(key: Any, answer: Dict[int, Any], asked: Any, found: Any) -> Dict[int, Any]:
    """Returns numberOfCredentials 1 for a single credential."""
    return {**answer, 5: answer.get(5, 1)}


def compare_rps(same: Any) -> Any:
    """Returns a change that compares RP IDs by a function."""
    return replace_method("list_of_rp", lambda key, rp: [one for one in key.credentials if same(one.rp, rp)][::-1])


def find_hidden(key: Any, asked: Any) -> Any:
    """Without an allow list, also finds credentials that are not discoverable."""
    listed = asked.item.get(3)
    return [one for one in key.list_of_rp(asked.item[1]) if not listed or key.is_listed(listed, one)]


def find_none_without_list(key: Any, old: Any, asked: Any) -> Any:
    """Finds no credential without an allow list."""
    return old(asked) if asked.item.get(3) else []


def set_user_presence(key: Any, old: Any, asked: Any, found: Any) -> Any:
    """Sets flag UP even without a touch."""
    asked.present = True
    return old(asked, found)


def always_request_touch(key: Any, old: Any, asked: Any) -> Any:
    """Requests a touch even with the option up false."""
    asked.options = {name: value for name, value in asked.options.items() if name != "up"}
    return (yield from old(asked))


def never_request_touch(key: Any, old: Any, asked: Any) -> Any:
    """Never requests a touch for a sign-in."""
    asked.options = {**asked.options, "up": False}
    return (yield from old(asked))


def skip_touch(key: Any, *words: Any) -> Any:
    """Requests no touch."""
    yield from ()
    return b""


def accept_any_reply(key: Any, *words: Any) -> Any:
    """Requests a touch, and accepts any reply."""
    yield
    return b""


def reset_without_touch(key: Any, at: int) -> Any:
    """Resets without a touch."""
    yield from ()
    key.forget()
    return {}


def reset_at_any_time(key: Any, old: Any, at: int) -> Any:
    """Accepts a reset at any time after power-up."""
    return (yield from old(0))


def refuse_reset_after_3_seconds(key: Any, old: Any, at: int) -> Any:
    """Refuses a reset after three seconds."""
    return (yield from old(99999 if at > 3000 or key.credentials else at))


def refuse_unknown_parameters(key: Any, old: Any, data: bytes, types: Any) -> Any:
    """Refuses unknown parameters."""
    item = old(data, types)
    if any(place not in types for place in item):
        raise RequestError(0x02)
    return item


def refuse_unknown_options(key: Any, old: Any, asked: Any) -> Any:
    """Refuses unknown options."""
    if set(asked.options) - {"rk", "up", "uv"}:
        raise RequestError(INVALID_OPTION)
    return old(asked)


def refuse_unknown_extensions(key: Any, old: Any, asked: Any, place: int) -> Any:
    """Refuses unknown extensions."""
    if set(asked.item.get(place, {})) - set(key.traits.extensions):
        raise RequestError(0x02)
    return old(asked, place)


def truncate_user_id(key: Any, old: Any, asked: Any, algorithm: int) -> Any:
    """Truncates the user ID to 32 bytes."""
    asked.item[3] = {**asked.item[3], "id": asked.item[3]["id"][:32]}
    return old(asked, algorithm)


def refuse_long_requests(key: Any, old: Any, at: int, channel: int, data: bytes) -> Any:
    """Refuses requests of more than 1024 bytes."""
    if len(data) > 1024:
        yield from ()
        return b"\x39"
    return (yield from old(at, channel, data))


def truncate_requests(key: Any, old: Any, at: int, channel: int, data: bytes) -> Any:
    """Ignores the bytes of a request after the first 1024."""
    return (yield from old(at, channel, data[:1024]))


def count_modulo_3(key: Any, one: Any) -> int:
    """Counts modulo 3."""
    one.counter = (one.counter + 1) % 3
    return int(one.counter)


def increment_only_with_presence(key: Any, old: Any, asked: Any, one: Any, listed: bool) -> Any:
    """Increments the counter only with user presence."""
    if not asked.present:
        one.counter -= 1
    return old(asked, one, listed)


def leave_list_pending(key: Any, old: Any, asked: Any, found: Any) -> Any:
    """Returns numberOfCredentials, and leaves assertions pending, with an allow list too."""
    before, key.traits = key.traits, type(key.traits)(**{**vars(key.traits), "number_with_list": True})
    answer = old(asked, found)
    key.traits = before
    return answer


def hash_upper_case_rp(
    key: Any, auth: bytes, asked: Any, one: Any, counter: int, attested: bytes, outputs: Any
) -> bytes:
    """Returns the hash of the RP ID in upper case."""
    return hashlib.sha256(one.rp.upper().encode()).digest() + auth[32:]


def accept_unknown_commands(key: Any, old: Any, at: int, channel: int, command: int, data: bytes) -> Any:
    """Returns status 00 for unknown commands."""
    try:
        return (yield from old(at, channel, command, data))
    except RequestError as refused:
        if refused.status == 0x01:
            return {}
        raise


ANSWER_MUTANTS: List[Mutant] = [
    Mutant("next_repeats", NEXT, "The same assertion is returned again.", wrap_next(repeat_assertion)),
    Mutant("next_same_counter", NEXT, "A further assertion repeats the counter.", wrap_next(repeat_counter)),
    Mutant("next_for_ever", NEXT, "Pending assertions never time out.", wrap_next(never_time_out)),
    Mutant(
        "next_never_renewed", NEXT, "A further assertion does not renew the 30 seconds.", wrap_next(never_renew_timeout)
    ),
    Mutant(
        "next_wrong_status",
        NEXT,
        "Without pending assertions the status is another one.",
        wrap_next(return_wrong_status),
    ),
    Mutant("next_with_number", NEXT, "Further assertions have numberOfCredentials.", wrap_next(add_number)),
    Mutant(
        "next_of_one",
        NEXT,
        "After a sign-in with a single credential an assertion is pending.",
        change_result("sign_first", lambda key, answer, asked, found: leave_single_pending(key, answer, asked, found)),
    ),
    Mutant(
        "next_flags",
        NEXT,
        "Flag UP is always set in further assertions.",
        wrap_next(lambda key, old, at, channel: set_up_in_next(key, old, at, channel)),
    ),
    Mutant("number_missing", GET, "numberOfCredentials is missing.", change_result("sign_first", drop_number)),
    Mutant(
        "number_of_all",
        GET,
        "numberOfCredentials also counts credentials of other RPs.",
        change_result("sign_first", count_all_rps),
    ),
    Mutant(
        "number_of_one",
        GET,
        "numberOfCredentials is 1 for a single credential.",
        change_result("sign_first", add_number_of_one),
    ),
    Mutant(
        "number_with_list",
        GET,
        "numberOfCredentials is returned with an allow list.",
        wrap_method("sign_first", leave_list_pending),
    ),
    Mutant(
        "oldest_first",
        GET,
        "The oldest credential signs first.",
        change_result("list_of_rp", lambda key, found, rp: found[::-1]),
    ),
    Mutant(
        "rp_any_case", GET, "RP IDs are compared regardless of case.", compare_rps(lambda a, b: a.lower() == b.lower())
    ),
    Mutant(
        "rp_by_beginning", GET, "Only the beginning of RP IDs is compared.", compare_rps(lambda a, b: b.startswith(a))
    ),
    Mutant(
        "rp_by_end",
        GET,
        "Only the end of RP IDs is compared.",
        compare_rps(lambda a, b: bool(b) and b.endswith(a[-4:])),
        missed="",
    ),
    Mutant("rp_any", GET, "The RP ID is ignored.", compare_rps(lambda a, b: True)),
    Mutant("rp_hash", MAKE, "The RP ID is hashed in upper case.", change_result("data", hash_upper_case_rp)),
    Mutant(
        "hidden_found",
        GET,
        "Non-discoverable credentials are found without an allow list.",
        replace_method("list_applicable", find_hidden),
    ),
    Mutant(
        "none_found_alone",
        GET,
        "No credential is found without an allow list.",
        wrap_method("list_applicable", find_none_without_list),
    ),
    Mutant("user_missing", GET, "The user is missing.", change_member("assertion", 4, None)),
    Mutant("user_without_id", GET, "The user has no ID.", change_user(lambda found: {"name": "x"})),
    Mutant(
        "user_names", GET, "The user's names are returned without user verification.", change_user(lambda found: found)
    ),
    Mutant(
        "user_id_cut", GET, "User IDs are truncated to 32 bytes.", wrap_method("create_credential", truncate_user_id)
    ),
    Mutant(
        "user_id_longer",
        GET,
        "User IDs are returned with a trailing zero byte.",
        change_user(lambda found: {"id": found["id"] + b"\0"}),
    ),
    Mutant(
        "credential_missing",
        GET,
        "The credential is missing in a sign-in without an allow list.",
        change_member("assertion", 1, None),
    ),
    Mutant(
        "credential_type",
        GET,
        "The credential has another type.",
        change_member("assertion", 1, lambda one: {**one, "type": "key"}),
    ),
    Mutant("signature_missing", GET, "The signature is missing.", change_member("assertion", 3, None)),
    Mutant("signature_zeros", GET, "The signature consists of zeros.", change_member("assertion", 3, bytes(70))),
    Mutant(
        "signature_longer",
        GET,
        "A byte follows the signature.",
        change_member("assertion", 3, lambda found: found + b"\0"),
    ),
    Mutant(
        "signature_of_hash",
        GET,
        "Only clientDataHash is signed.",
        change_result("sign", lambda key, found, one, data: one.sign(data[-32:])),
    ),
    Mutant(
        "assertion_with_more",
        GET,
        "Bytes follow the authenticator data.",
        change_member("assertion", 2, lambda auth: auth + b"\0"),
    ),
    Mutant("counter_wraps", GET, "The counter wraps around.", replace_method("increment_counter", count_modulo_3)),
    Mutant(
        "counter_with_touch",
        GET,
        "The counter only rises with user presence.",
        wrap_method("assertion", increment_only_with_presence),
    ),
    Mutant(
        "counter_constant", GET, "The counter is always 1.", replace_method("increment_counter", lambda key, one: 1)
    ),
    Mutant("present_always", GET, "Flag UP is set without a touch.", wrap_method("sign_first", set_user_presence)),
    Mutant("asks_always", GET, "A touch is requested although up is false.", wrap_method("get", always_request_touch)),
    Mutant("asks_never", GET, "Sign-ins need no touch.", wrap_method("get", never_request_touch)),
    Mutant("consent_not_asked", MAKE, "No touch is requested.", replace_method("request_touch", skip_touch)),
    Mutant(
        "denial_is_consent",
        MAKE,
        "A denial counts as user presence.",
        replace_method("request_touch", accept_any_reply),
    ),
    Mutant(
        "rk_option_taken",
        GET,
        "The option rk is accepted in sign-ins.",
        replace_method("get_options", lambda key, asked: None),
    ),
    Mutant(
        "uv_option_taken",
        MAKE,
        "The unsupported option uv is accepted.",
        replace_method("make_options", lambda key, asked: None),
    ),
    Mutant(
        "up_false_taken",
        MAKE,
        "The option up false is accepted in registrations.",
        wrap_method("make_options", lambda key, old, asked: old(remove_up_option(asked))),
    ),
    Mutant("reset_at_once", RESET, "A reset needs no touch.", replace_method("reset", reset_without_touch)),
    Mutant("reset_any_time", RESET, "A reset is accepted at any time.", wrap_method("reset", reset_at_any_time)),
    Mutant(
        "reset_too_early",
        RESET,
        "A reset is refused three seconds after power-up.",
        wrap_method("reset", refuse_reset_after_3_seconds),
    ),
    Mutant(
        "selection_lies",
        SELECTION,
        "A denied selection returns status 00.",
        wrap_method(
            "command",
            lambda key, old, at, channel, command, data: ignore_selection_reply(key, old, at, channel, command, data),
        ),
    ),
    Mutant(
        "unknown_served",
        COMMANDS,
        "An unknown command returns status 00.",
        wrap_method("command", accept_unknown_commands),
    ),
    Mutant(
        "keys_refused",
        CBOR,
        "An unknown parameter is refused.",
        wrap_method("requests.read", refuse_unknown_parameters),
    ),
    Mutant(
        "options_refused", MAKE, "An unknown option is refused.", wrap_method("make_options", refuse_unknown_options)
    ),
    Mutant(
        "extensions_refused",
        CBOR,
        "An unknown extension is refused.",
        wrap_method("extensions.list_requested", refuse_unknown_extensions),
    ),
    Mutant(
        "long_request_refused",
        MAKE,
        "Requests of more than 1024 bytes are refused.",
        wrap_method("transport.serve", refuse_long_requests),
    ),
    Mutant(
        "long_request_cut",
        MAKE,
        "Requests are truncated to 1024 bytes.",
        wrap_method("transport.serve", truncate_requests),
    ),
    Mutant(
        "enterprise_taken",
        MAKE,
        "Unsupported enterprise attestation is accepted.",
        wrap_method("make", lambda key, old, asked: old(remove_enterprise_attestation(asked))),
    ),
    Mutant(
        "exclude_before_touch",
        MAKE,
        "An excluded registration is refused before the touch.",
        replace_method("refuse_excluded", lambda key, asked: refuse_excluded_without_touch(key, asked)),
    ),
    Mutant(
        "exclude_denied",
        MAKE,
        "An excluded registration has another status after a denial.",
        replace_method("refuse_excluded", lambda key, asked: refuse_excluded_by_reply(key, asked)),
    ),
    Mutant("info_versions", INFO, "The versions are missing.", change_member("info", 1, None)),
    Mutant("info_extensions", INFO, "The extensions are a text string.", change_member("info", 2, "credProtect")),
    Mutant("info_extension_number", INFO, "An extension is a number.", change_member("info", 2, ["credProtect", 1])),
    Mutant(
        "info_extension_twice",
        INFO,
        "An extension is listed twice.",
        change_member("info", 2, ["credBlob", "credBlob"]),
    ),
    Mutant("info_aaguid", INFO, "The AAGUID has 15 bytes.", change_member("info", 3, bytes(15))),
    Mutant("info_option", INFO, "An option is a number.", change_member("info", 4, {"rk": 1})),
    Mutant("info_longest", INFO, "maxMsgSize is 512.", change_member("info", 5, 512)),
    Mutant("info_protocols", INFO, "pinUvAuthProtocols is empty.", change_member("info", 6, [])),
    Mutant("info_protocol_text", INFO, "A PIN protocol is a text string.", change_member("info", 6, ["1"])),
    Mutant("info_protocols_missing", INFO, "pinUvAuthProtocols is missing.", change_member("info", 6, None)),
    Mutant("info_list_length", INFO, "maxCredentialCountInList is 0.", change_member("info", 7, 0)),
    Mutant("info_id_length", INFO, "maxCredentialIdLength is 0.", change_member("info", 8, 0)),
    Mutant("info_transports", INFO, "transports is a text string.", change_member("info", 9, "usb")),
    Mutant("info_algorithm", INFO, "An algorithm has no type.", change_member("info", 10, [{"alg": -7}])),
    Mutant(
        "info_algorithm_twice",
        INFO,
        "An algorithm is listed twice.",
        change_member("info", 10, [{"alg": -7, "type": "public-key"}] * 2),
    ),
    Mutant(
        "info_algorithm_type",
        INFO,
        "An algorithm has another type.",
        change_member("info", 10, [{"alg": -7, "type": "x"}]),
    ),
    Mutant("info_no_algorithms", INFO, "algorithms is empty.", change_member("info", 10, [])),
    Mutant(
        "info_rk_lies",
        MAKE,
        "getInfo has the option rk, but rk is refused.",
        wrap_method("make_options", lambda key, old, asked: refuse_rk(key, old, asked)),
    ),
    Mutant(
        "info_length_lies",
        "11.2.9.1.4",
        "Messages of maxMsgSize bytes are refused.",
        wrap_method(
            "transport.begin_message",
            lambda key, old, channel, command, length, data: refuse_long_messages(
                key, old, channel, command, length, data
            ),
        ),
    ),
]


def leave_single_pending(key: Any, answer: Any, asked: Any, found: Any) -> Any:
    """Leaves an assertion pending although only one credential was found."""
    if key.pending is None and not asked.item.get(3):
        key.pending = type("Pending", (), {"asked": asked, "left": [found[0]], "at": key.transport.at})()
    return answer


def set_up_in_next(key: Any, old: Any, at: int, channel: int) -> Any:
    """Sets flag UP in further assertions."""
    if key.pending is not None:
        key.pending.asked.present = True
    return old(at, channel)


def remove_up_option(asked: Any) -> Any:
    """Removes the option up from a request."""
    asked.options = {name: value for name, value in asked.options.items() if name != "up"}
    return asked


def remove_enterprise_attestation(asked: Any) -> Any:
    """Removes enterpriseAttestation from a request."""
    asked.item = {place: value for place, value in asked.item.items() if place != 10}
    return asked


def ignore_selection_reply(key: Any, old: Any, at: int, channel: int, command: int, data: bytes) -> Any:
    """Returns status 00 for a selection, whatever the user's reply."""
    if command != 11:
        return (yield from old(at, channel, command, data))
    yield
    return {}


def refuse_excluded_without_touch(key: Any, asked: Any) -> Any:
    """Refuses an excluded registration without a touch."""
    yield from ()
    if key.is_excluded(asked):
        raise RequestError(0x19)


def refuse_excluded_by_reply(key: Any, asked: Any) -> Any:
    """Refuses an excluded registration with a status that depends on the user's reply."""
    if key.is_excluded(asked):
        yield from key.request_touch()
        raise RequestError(0x19)


def refuse_rk(key: Any, old: Any, asked: Any) -> Any:
    """Refuses the option rk."""
    if asked.options.get("rk"):
        raise RequestError(0x2B)
    return old(asked)


def refuse_long_messages(key: Any, old: Any, channel: int, command: int, length: int, data: bytes) -> Any:
    """Refuses messages of more than 1024 bytes."""
    if length > 1024:
        key.transport.error(channel, 3)
    else:
        old(channel, command, length, data)
