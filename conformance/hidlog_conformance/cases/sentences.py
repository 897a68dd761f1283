"""The requirements of CTAP 2.1, by section and in our own words, with the cases that test them ("" for none).

Names with `client:` are sessions of conformance/clients. `make.py --sentences` prints the table; `--check` fails if a
case is not listed under its own rule, or a name matches no case.
"""

from __future__ import annotations

from fnmatch import fnmatchcase
from typing import Dict, List, Set, Tuple

Rows = List[Tuple[str, str]]

TRANSPORT: Dict[str, Rows] = {
    "11.2.3 Concurrency and channels": [
        ("hosts on different channels do not interfere", "hosts/each_its_channel hosts/*_into_*"),
        ("channel 0 is reserved, and ffffffff is for broadcast", "channels/*_on_zero channels/*_on_broadcast"),
        (
            "a channel that was not allocated is refused: ERROR 0b",
            "channels/* fuzzed/*_channel* fuzzed/strange_* power/channel_is_gone order/*_strange order/*_broadcast",
        ),
        (
            "a client ignores what is for others",
            "client:hosts/* client:packets/broadcast client:packets/other_channel",
        ),
        ("a host gets an error if no channel is left", "init/eight_channels"),
    ],
    "11.2.4 Message and packet structure": [
        ("a message has an initialization packet and at most 128 continuation packets", "ping/bytes_*"),
        ("continuation packets are numbered from 0", "fuzzed/registration_of_four_packets ping/bytes_7609"),
        ("the longest message has 7609 bytes", "ping/bytes_7609 commands/*_length_7610 client:long/*"),
        ("an invalid length is refused: ERROR 03", "commands/*_length_[1-9]* fuzzed/first_init_too_long"),
        (
            "padding is zero, and ignored",
            "ping/zeros_behind* commands/zeros_behind_* ping/padding_*",
        ),
        (
            "a client detects invalid packets",
            "client:packets/*_length client:packets/padding client:packets/too_long",
        ),
    ],
    "11.2.5.1 Transaction atomicity, idle and busy states": [
        (
            "messages on other channels do not disturb a transaction",
            "hosts/each_its_channel hosts/*_into_* order/other_*",
        ),
        ("the other channel gets ERROR 06 (busy)", "order/other_*_and_ping hosts/*_into_*"),
        ("a refused message has no effect", "hosts/refused_message_leaves_nothing"),
        ("a second message on the channel of a pending request", "order/own_work_and_*"),
        ("after the response another host can send", "hosts/served_after_* hosts/sign_in_after_*"),
        ("an incomplete message does not survive a power cycle", "power/nobody_else_waits"),
        ("a client retries or reports busy", "client:busy/*"),
    ],
    "11.2.5.2 Transaction timeout": [
        ("an incomplete message times out", "time/message_is_given_up time/just_*"),
        ("the host gets ERROR 05", "time/host_hears_*"),
        ("it cannot be continued", "time/late_packet*"),
        ("only its own packets restart the timeout", "time/each_packet_renews time/*_renew*_nothing"),
        ("other hosts can send afterwards", "time/other_host* time/init_after_time time/idle_channel_stays"),
        ("a client has its own timeout", ""),
    ],
    "11.2.5.3 Transaction abort and re-synchronization": [
        ("INIT aborts an incomplete message on its channel", "init/drops_an_open_message order/own_message_and_init"),
        ("and a pending request", "init/drops_waiting_work order/own_work_and_init"),
    ],
    "11.2.5.4 Packet sequencing": [
        ("a wrong sequence number is an error, and aborts the message", "sequence/*"),
        (
            "an initialization packet within a message of the channel",
            "sequence/init_packet_inside order/own_message_and_*",
        ),
        (
            "continuation packets outside any transaction are ignored",
            "channels/continuation_on_* sequence/after_the_last",
        ),
        ("also on other channels", "order/*_and_go_on power/open_message_is_gone"),
        ("a client detects wrong sequence numbers", "client:sequence/* client:packets/begins_twice"),
    ],
    "11.2.6 Channel locking, 11.2.9.2 Optional commands": [
        ("WINK is supported if the capabilities say so", "commands/wink*"),
        (
            "LOCK excludes other channels for its duration",
            "lock/excludes_* lock/runs_* lock/lasts lock/renewed lock/shor*",
        ),
        ("zero seconds release it", "lock/released* lock/passes_*"),
    ],
    "11.2.9.2.2 CTAPHID_LOCK": [
        ("its response has no data", "lock/response"),
        ("its length is 1", "lock/length_*"),
        ("a lock is for at most ten seconds", "lock/of_*"),
        ("other channels are refused, until it ends", "lock/excludes_* lock/runs_* lock/lasts lock/renewed lock/shor*"),
        ("zero seconds release it", "lock/released* lock/passes_*"),
    ],
    "11.2.7 Protocol version and compatibility": [
        ("the version in INIT's response is 2", "init/nonce_*"),
        ("a client accepts later versions and longer responses", "client:init/longer client:init/device_version"),
    ],
    "11.2.8 HID device implementation": [
        ("usage page, report sizes and endpoints", ""),
    ],
    "11.2.9.2.1 CTAPHID_WINK": [
        ("its response has no data", "commands/wink_[12]"),
    ],
    "11.2.9.1.1 CTAPHID_MSG": [
        ("CTAP1 messages are supported, or the capabilities have NMSG", "commands/msg commands/msg_*version*"),
        ("unknown instructions get a status word", "commands/msg_unknown* commands/msg_class*"),
    ],
    "11.2.9.1.2 CTAPHID_CBOR": [
        ("a command byte is needed", "commands/cbor_length_0 commands/cbor_length_0_twice"),
        ("a response is a status, and a map where it is 00", "info/shape make/answer"),
        ("a client checks the status first", "client:status/*"),
        ("a client rejects a response with another command", "client:packets/*_command client:packets/empty"),
    ],
    "11.2.9.1.3 CTAPHID_INIT": [
        ("the nonce is returned", "init/nonce_* fuzzed/same_nonce_twice"),
        ("on the broadcast channel each INIT allocates a channel", "init/eight_channels"),
        ("on an allocated channel the channel stays the same", "init/on_its_own_channel*"),
        ("its length is 8", "init/*_length_* order/*_and_short_init* order/*_and_long_init init/padding_is_ignored"),
        (
            "it gets a response at any time",
            "hosts/new_host_while_one_waits order/*_and_init order/*_and_init_broadcast",
        ),
        ("a client recognizes its response by the nonce", "client:hosts/greeting_* client:init/*"),
        ("the capabilities NMSG and WINK are true", "commands/msg commands/msg_with_* commands/wink"),
    ],
    "11.2.9.1.4 CTAPHID_PING": [
        ("the bytes are returned, for any length", "ping/bytes_* ping/many_in_a_row client:ping/* client:plain/ping"),
    ],
    "11.2.9.1.5 CTAPHID_CANCEL": [
        ("a pending request ends with status 2d", "cancel/get cancel/make cancel/reset cancel/selection"),
        ("CANCEL itself gets no response", "cancel/twice cancel/then_* order/own_work_and_cancel"),
        ("without a pending request it is ignored", "cancel/nothing_waits_* power/cancel_finds_nothing"),
        ("on another channel it is ignored", "cancel/of_* order/*_cancel_strange fuzzed/cancel_*"),
        ("within a message it is ignored", "cancel/inside_a_message order/*_message_and_cancel*"),
        ("its length is 0", "cancel/with_bytes order/*_and_cancel_long"),
        ("it does not cancel another host's request", "order/other_work_and_cancel cancel/of_another_host"),
        ("a client that cancelled accepts the response", "client:cancel/at_once client:cancel/*late*"),
    ],
    "11.2.9.1.6 CTAPHID_ERROR": [
        (
            "01: unknown command",
            "commands/unknown_* commands/msg commands/msg_with_* commands/[lw]* commands/vendor_*",
        ),
        ("01: commands that only devices send", "commands/*_from_the_host fuzzed/error_from_the_host"),
        ("04, 05 and 06", "sequence/first_* time/message_is_given_up hosts/ping_into_a_message"),
        ("which of two errors is reported", "order/* fuzzed/strange_packet_inside"),
        ("02, 0a and 7f of a device", ""),
        ("a client reports the code", "client:error/*"),
    ],
    "11.2.9.1.7 CTAPHID_KEEPALIVE": [
        ("it comes every 100 ms during a request", "keepalive/goes_on keepalive/for_a_minute keepalive/not_*"),
        ("its status shows whether a touch is requested", "keepalive/asks_* keepalive/status_changes"),
        ("it goes to the channel of the request", "keepalive/on_the_channel_that_asked"),
        ("it ends with the response", "keepalive/ends_* keepalive/none_* power/request_is_gone"),
        ("a client keeps waiting", "client:keepalive/*"),
    ],
    "11.2.9.3 Vendor specific commands": [
        ("40 to 7f are the vendor's", "commands/vendor_*"),
    ],
}

AUTHENTICATOR: Dict[str, Rows] = {
    "6.1.2 authenticatorMakeCredential Algorithm": [
        (
            "required parameters are present, with the right types",
            "make/missing_* make/type_* make/parameters_* make/hash_*",
        ),
        ("also within maps and lists", "make/inside_* make/user_id_*"),
        ("an empty pinUvAuthParam requests a touch", "make/pin_of_no_bytes"),
        ("a pinUvAuthParam with an unsupported protocol is refused", "make/alone_pin"),
        (
            "the first supported algorithm is chosen; none is status 26",
            "make/algorithms_* make/alone_algorithm make/first_*is_* make/*_listed make/other_type_first",
        ),
        ("each algorithm in getInfo works", "make/eddsa*"),
        ("unsupported user verification is refused", "make/alone_uv"),
        ("unsupported option rk is refused", ""),
        ("option up may not be false; other options are ignored", "make/option* make/two_unknown_options"),
        ("alwaysUv and makeCredUvNotRqd", ""),
        ("unsupported enterprise attestation is refused", "make/alone_enterprise make/enterprise_2"),
        (
            "enabled enterprise attestation is served",
            "config/enterprise_[123]* config/enterprise_of_* config/enterprise_d*",
        ),
        ("PIN and user verification: token, permissions, flag UV", "pin/* user/registers* user/token_of_*"),
        ("with user verification configured, registrations need it", "user/needed* user/denied_make"),
        ("the exclude list ends it, after a touch", "lists/exclude_* fuzzed/excluded_*"),
        ("also after a power cycle", "power/still_excluded"),
        (
            "the user touches, denies or times out",
            "make/answer make/discoverable_without_uv make/user_denied make/user_timeout make/touch_before_*",
        ),
        ("unknown extensions are ignored", "cbor/taken_extension recorded/firefox_*"),
        ("known extensions, and flag ED", ""),
        (
            "a new ID, a key of the algorithm, flags UP and AT, the RP ID hash",
            "make/answer make/three_ids make/user_id_in_no_id",
        ),
        ("a request may be as long as maxMsgSize says", "make/long_*"),
        ("the attestation verifies", "make/answer client:make/* client:plain/register"),
        ("a credential ID has at most 1023 bytes", "make/answer client:long/credential_*"),
        ("a client reports the error", "client:status/make_* client:cancel/denied"),
        ("the counter of a new credential", "make/counter_of_a_new_one"),
        ("a discoverable credential replaces that of its user", "get/same_user_again power/replaced_*"),
        ("without capacity for another the status is 28", "make/full make/many_stay"),
        ("no credential is made without a response", "make/no_* power/nothing_was_made"),
        ("the steps have an order", "make/first_* make/alone_* fuzzed/missing_before_algorithm"),
        ("as clients request it", "recorded/*"),
    ],
    "6.2.2 authenticatorGetAssertion Algorithm": [
        (
            "required parameters are present, with the right types",
            "get/missing_* get/type_* get/parameters_* get/hash_*",
        ),
        ("also within lists", "get/inside_* fuzzed/allow_list_is_a_map"),
        ("an empty pinUvAuthParam, or an unsupported protocol", "get/pin_of_no_bytes get/alone_pin"),
        ("unsupported user verification is refused", "get/alone_uv fuzzed/uv_before_the_list"),
        ("the option rk is refused", "get/alone_rk get/option_rk_false"),
        ("with up false no touch is requested, and UP is not set", "get/without_presence recorded/openssh_untouched"),
        ("with up true a touch is requested", "get/up_true* get/touch_*"),
        ("PIN and user verification: token, permissions, flag UV", "pin/* user/signs_* user/denied_get"),
        ("alwaysUv", ""),
        ("with user verification the names of several accounts are returned", "user/names_*"),
        ("the list matches only credentials of the RP, by complete IDs", "lists/allow_* get/rp_*"),
        ("a request may be as long as maxMsgSize says", "get/long_request"),
        ("the user ID is returned unchanged", "get/user_id_*"),
        (
            "without a list the discoverable ones are found",
            "get/discoverable* get/hidden_* get/other_* get/one_among_*",
        ),
        ("credential protection hides", ""),
        ("no credential is 2e", "get/nothing_registered get/alone_credential"),
        ("the user touches, denies or times out", "get/user_*"),
        ("extensions", ""),
        ("one of the list signs, without numberOfCredentials", "lists/allow_two*"),
        ("without a list the newest signs, with the number of all", "next/newest_first client:accounts/*"),
        ("an authenticator with a display lets the user select", ""),
        ("user names are omitted without user verification", "get/discoverable get/names_*"),
        ("all credentials of a full device sign", "get/newest_of_many*"),
        ("a user and RP have one discoverable credential", "get/same_user_* get/*_replace*_* get/two_hidden_*"),
        ("the counter rises", "get/counter*"),
        ("the signature verifies over data and hash", "lists/allow_one client:get/* client:plain/sign_in"),
        ("a client reports the error", "client:status/get_none"),
        ("credentials and counters survive power cycles", "power/*"),
        ("the steps have an order", "get/first_* get/alone_*"),
        ("as clients request it", "recorded/*"),
    ],
    "6.3 authenticatorGetNextAssertion": [
        ("a client asks for all accounts", "client:accounts/* client:plain/accounts client:status/next_refused"),
        ("a client rejects wrong accounts", "client:next/*"),
        ("without a sign-in of several nothing is pending: 30", "next/nothing_pending next/one_*"),
        ("after a sign-in with a list nothing is pending", "lists/allow_then_next fuzzed/nothing_pending_*"),
        (
            "the others follow, each once, then 30",
            "next/newest_first next/none_after_two power/newest_first recorded/libfido2_dis*",
        ),
        (
            "after 30 seconds the status is 30; each assertion restarts them",
            "next/after_30_* next/each_*renews next/at_* next/one_then_*",
        ),
        (
            "a new sign-in starts over, with its RP's",
            "next/new_sign_in next/two_rps* next/after_*_sign_in next/after_failed_list",
        ),
        ("a reset or a registration discards pending assertions", "next/after_reset next/after_registration"),
        ("the counters of further assertions rise", "next/counter_rises"),
        ("flags are those of the first assertion", "next/without_presence*"),
        ("other messages in between", "next/*_between next/another_channel"),
        ("nothing is pending after a power cycle", "power/pending_is_gone*"),
    ],
    "6.4 authenticatorGetInfo": [
        ("versions, AAGUID, options, sizes and algorithms by their shape", "info/* client:info/* client:plain/info"),
        ("members 2, 6 to 9 and 11 to 21", ""),
        ("commands that no option names are not supported, and numbers are true", "truth/*"),
        ("maxRPIDsForSetMinPINLength, with minPinLength", "config/rp_ids_shown_*"),
    ],
    "6.5 authenticatorClientPIN": [
        ("the key agreement key, both protocols", "pin/set_[12] pin/wrong_authentication_*"),
        ("a PIN is set once, with a minimum length", "pin/set_* pin/of_* pin/empty_* pin/not_set_*"),
        ("a PIN is changed with the old one", "pin/change_*"),
        (
            "wrong PINs decrement the retries; three in a row need a power cycle",
            "pin/retries_* pin/three_wrong_* pin/key_renewed_*",
        ),
        ("a reset removes the PIN", "pin/reset_*"),
        ("a client reports why its PIN was refused", "client:pin/wrong client:pin/blocked client:pin/power_cycle"),
        ("a client rejects wrong keys and tokens", "client:pin/*_off_* client:pin/*_key client:pin/*token*"),
        ("with a token the user is verified", "client:pin/sound"),
        ("built-in user verification, its retries and tokens", "user/token_* user/retries_*"),
        ("minPINLength and forcePINChange", "config/forced_change* config/short_pin_*"),
        ("without retries only a reset helps", "blocked/token_* blocked/change_*"),
    ],
    "6.6 authenticatorReset": [
        ("it is refused more than ten seconds after power-up", "reset/too_late reset/at_* power/reset_in_*"),
        ("the user touches, denies or times out", "reset/granted reset/asks_* reset/user_* reset/cancelled"),
        ("all credentials are deleted", "reset/forgets* reset/serves_again power/reset_stays"),
        ("PIN and large blobs are deleted", "blobs/reset* manage/count_after_reset_*"),
        (
            "configuration and a blocked PIN are reset",
            "config/reset_* config/rp_ids_reset_* config/enterprise_reset_* blocked/reset_*",
        ),
    ],
    "6.7 authenticatorBioEnrollment": [
        ("the modality and the sensor are named", "enroll/modality_* enroll/sensor_*"),
        (
            "a finger is enrolled by its samples, and listed",
            "enroll/whole_* enroll/half_* enroll/cancelled_* enroll/none_*",
        ),
        ("a template is named and removed", "enroll/name_[12] enroll/removed_* enroll/*_unknown_*"),
        ("each needs a token with the permission be", "enroll/*_token_* enroll/*_not_*"),
    ],
    "6.8 authenticatorCredentialManagement": [
        ("the number of discoverable credentials is returned", "manage/count_*"),
        ("it lists RPs, and the credentials of one", "manage/rps_* manage/credentials_* manage/blob_key_*"),
        ("no next item without an enumeration, or after its end", "manage/next_*"),
        ("the credProtect level is returned", "manage/protection_*"),
        ("a credential is deleted", "manage/delete_*"),
        ("user information can be updated, and nothing else", "manage/update_*"),
        ("each needs a token with the permission and RP", "manage/*_not_* manage/*_of_another_rp_*"),
        ("an unknown subcommand is refused", "manage/unknown_*"),
    ],
    "6.9 authenticatorSelection": [
        ("touched 00, denied 27, timed out 2f", "selection/granted selection/denied selection/timeout*"),
        ("a touch is requested, and nothing changes", "selection/asks_* selection/changes_nothing"),
    ],
    "6.10 authenticatorLargeBlobs": [
        ("the initial array is empty", "blobs/begins_empty"),
        ("fragments can be read from any offset", "blobs/read_* blobs/neither"),
        (
            "an array is written in fragments, and takes effect when complete",
            "blobs/written* blobs/out_* blobs/later_*",
        ),
        ("its length comes first", "blobs/length_* blobs/without_length blobs/too_*"),
        ("its hash is right", "blobs/wrong_hash*"),
        (
            "with user verification configured, writes need a token",
            "blobs/by_token_* blobs/pieces_* blobs/without_token_* blobs/without_protocol_* blobs/not_*",
        ),
        ("it survives power cycles", "blobs/stays blobs/half_is_gone*"),
    ],
    "6.11 authenticatorConfig": [
        ("enterprise attestation is enabled", "config/enterprise_[12]"),
        ("alwaysUv is turned on", "config/always_uv_[12]"),
        (
            "minPINLength is raised",
            "config/min_pin_length_[12] config/min_pin_length_not_l* config/short_* config/forced_w*",
        ),
        (
            "minPinLengthRPIDs are authorized to get it",
            "config/rp_ids_authorized_* config/rp_ids_replaced_* config/rp_ids_set_* config/rp_ids_without_*",
        ),
        (
            "each needs a token with the permission acfg",
            "config/*_token_* config/*_not_authentic_* config/*_not_permitted_*",
        ),
        ("an unknown or missing subcommand is refused", "config/unknown_* config/without_sub*"),
    ],
    "8 Message Encoding": [
        ("heads are the shortest", "cbor/*_in_?_*"),
        (
            "map keys are sorted and unique",
            "cbor/keys_* cbor/texts_* cbor/*_out_of_order cbor/*_twice",
        ),
        ("shorter keys come first, and integers before texts", "cbor/longer_* cbor/negative_* cbor/text_before_*"),
        ("lengths are definite", "cbor/indefinite_*"),
        ("there are no tags", "cbor/tag_*"),
        ("there are no floats and no other simple values", "cbor/*float* cbor/double_* cbor/simple_* cbor/undefined_*"),
        ("at most four levels", "cbor/nested_*"),
        ("invalid CBOR is refused", "cbor/*cut_* cbor/huge_* cbor/reserved_* cbor/break_* cbor/trailing_*"),
        ("map keys are integers, byte strings or text strings", "cbor/key_*"),
        ("texts are UTF-8", "cbor/utf8_*"),
        ("unknown items are ignored", "cbor/taken_*"),
        ("a client rejects wrong CBOR", "client:cbor/*"),
    ],
    "8.1 Command Codes": [
        ("an unknown command is status 01", "commands/ctap_* recorded/libfido2_token"),
        ("commands without parameters have none", "commands/bytes_behind_*"),
    ],
    "10 Interoperating with CTAP1": [
        ("a device registers and signs in by U2F", "u2f/registers u2f/signs_in"),
        ("key handles are those of the application", "u2f/unknown_* u2f/other_*"),
        ("wrong lengths are refused", "u2f/short_* u2f/long_*"),
        ("a client uses U2F if CBOR is not supported", "client:u2f/registers client:u2f/signs_in"),
        ("a client retries until the user touches", "client:u2f/touched_later"),
        ("a client rejects wrong U2F responses", "client:u2f/*_* client:u2f/unknown_handle"),
    ],
    "7.1 of WebAuthn 2, Registering a New Credential": [
        ("required user verification is checked at a registration", "client:pin/without_verification"),
    ],
    "7.2 of WebAuthn 2, Verifying an Authentication Assertion": [
        ("required user verification is checked at a sign-in", "client:pin/sign_in_without_verification"),
        ("a counter that does not rise indicates a clone, except 0", "client:counter/*"),
    ],
    "12.1 Credential Protection": [
        ("the level is returned, and hides credentials", "protect/level_*"),
        ("with user verification nothing is hidden", "user/protected_*"),
    ],
    "12.2 Credential Blob": [
        ("a blob of a discoverable credential is returned", "blob/*"),
    ],
    "12.3 Large Blob Key": [
        ("a credential's key never changes, and differs from others", "blobkey/same blobkey/without_list"),
        ("no key without the extension", "blobkey/not_asked* blobkey/of_none"),
        ("it must be true, for discoverable credentials", "blobkey/false blobkey/not_discoverable"),
    ],
    "12.4 Minimum PIN Length Extension": [
        (
            "authorized RPs get minPINLength",
            "config/rp_ids_au* config/rp_ids_replaced_* config/rp_ids_set_* config/rp_ids_one_* config/rp_ids_kept_*",
        ),
        ("other RPs do not", "config/rp_ids_not_*"),
    ],
    "12.5 HMAC Secret Extension": [
        ("a registration returns true", "secret/made* secret/not_asked"),
        ("a salt gives a secret, different for each credential", "secret/same_* secret/of_*"),
        ("saltAuth must be right", "secret/not_authentic_*"),
        ("secrets differ with user verification", ""),
    ],
    "12 Defined extensions, others": [
        ("all of it", ""),
    ],
}

SENTENCES: Dict[str, Rows] = {**TRANSPORT, **AUTHENTICATOR}


def match_cases(pattern: str, names: Dict[str, str]) -> Set[str]:
    """Returns the cases that match a pattern; at least one must."""
    found = {name for name in names if fnmatchcase(name, pattern)}
    assert found, f"sentences.py: no case matches {pattern}"
    return found


def check_sentences(rules: Dict[str, str]) -> None:
    """Fails if a case is not listed under its own rule, or a pattern has no case."""
    named: Dict[str, Set[str]] = {}
    for section, rows in SENTENCES.items():
        for _, patterns in rows:
            for pattern in patterns.split():
                named.setdefault(section.split(" ")[0], set()).update(match_cases(pattern, rules))
    lost = [name for name, rule in rules.items() if name not in named.get(rule.split(" ")[0], set())]
    assert not lost, f"sentences.py does not list under their own rules: {' '.join(sorted(lost))}"


def format_cases(patterns: str) -> str:
    """Formats the names of a requirement's cases; sessions for clients come last."""
    words = patterns.split()
    device = [f"`{word}`" for word in words if not word.startswith("client:")]
    client = [f"`{word[len('client:'):]}`" for word in words if word.startswith("client:")]
    parts = [", ".join(device)] + (["client: " + ", ".join(client)] if client else [])
    return "; ".join(part for part in parts if part) or "none"


def format_sentence_table(rules: Dict[str, str], choices: Set[str]) -> str:
    """Returns the table with a row for each requirement, and the number of requirements with cases. Requirements are
    marked if all of their cases are choices of this project's profile."""
    check_sentences(rules)
    lines: List[str] = ["| Section | Requirement | Cases |", "|---|---|---|"]
    count = [0, 0]
    for section, rows in SENTENCES.items():
        for place, (says, patterns) in enumerate(rows):
            names = {name for pattern in patterns.split() for name in match_cases(pattern, rules)}
            ours = ", a choice of the profile" if names and names <= choices else ""
            lines.append(
                f"| {section if place == 0 else ''} | {says} | {format_cases(patterns)}{ours} |".replace("|  |", "| |")
            )
            count[bool(patterns)] += 1
    return "\n".join(lines) + f"\n\n{count[1]} requirements have a case, {count[0]} have none.\n"
