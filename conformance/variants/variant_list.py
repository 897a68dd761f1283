"""Conforming variants of the reference authenticator, with the section that allows the difference."""

from __future__ import annotations

from typing import Any, Dict, NamedTuple

from hidlog_conformance.reference.traits import EDDSA, ES256, DeviceTraits


class Variant(NamedTuple):
    """A variant: its description and its traits."""

    description: str
    traits: DeviceTraits


def make_variant(description: str, **traits: Any) -> Variant:
    """Returns a variant."""
    return Variant(description, DeviceTraits(**traits))


WITHOUT: Dict[str, Any] = {"extensions": (), "management": False, "large_blobs": False}
OLD: Dict[str, Any] = {"versions": ("U2F_V2", "FIDO_2_0"), "selection": False, **WITHOUT}
BARE: Dict[str, Any] = {"has_pin": False, "u2f": False, **WITHOUT}
WITH_MIN_PIN_LENGTH = ("credBlob", "credProtect", "hmac-secret", "largeBlobKey", "minPinLength")

SLOW: Dict[str, Variant] = {
    "slow": make_variant("Each request takes five seconds (11.2.9.1.7).", work_time=5000),
    "slow_user": make_variant("The user touches after 2.5 seconds.", touch_time=2500),
    "slow_both": make_variant("Each request takes a second, and the touch five.", work_time=1000, touch_time=5000),
    "slow_pin_of_8": make_variant(
        "Each request takes five seconds; minPINLength is 8.", pin="12345678", shortest_pin=8, work_time=5000
    ),
    "slow_always_uv": make_variant(
        "Each request takes 2.5 seconds; alwaysUv is true.", pin="1234", always_uv=True, work_time=2500
    ),
    "slow_old": make_variant("CTAP 2.0; each request takes five seconds.", work_time=5000, **OLD),
}
MIXED: Dict[str, Variant] = {
    "configurable": make_variant("authenticatorConfig is supported (6.11).", config=True),
    "configurable_pin_of_6": make_variant(
        "authenticatorConfig is supported, with minPINLength 6.", config=True, shortest_pin=6
    ),
    "min_pin_length": make_variant(
        "The extension minPinLength is supported (12.4).", config=True, extensions=WITH_MIN_PIN_LENGTH
    ),
    "min_pin_length_of_6": make_variant(
        "minPinLength is supported, with minPINLength 6 and maxRPIDsForSetMinPINLength 2.",
        config=True,
        extensions=WITH_MIN_PIN_LENGTH,
        shortest_pin=6,
        max_rp_ids=2,
    ),
    "fingerprints": make_variant("Fingerprints can be enrolled (6.7).", bio=True),
    "fingerprints_and_config": make_variant(
        "Fingerprint enrolment and authenticatorConfig are supported.", bio=True, config=True, says_remaining=True
    ),
    "pin_of_6_set": make_variant("A PIN of at least six characters is set.", pin="123456", shortest_pin=6),
    "pin_of_12_always": make_variant(
        "A PIN of at least twelve characters is set, with alwaysUv.", pin="1" * 12, shortest_pin=12, always_uv=True
    ),
    "always_uv_protocol_1": make_variant("alwaysUv with PIN protocol 1.", always_uv=True, protocols=(1,)),
    "between_pin_set": make_variant("FIDO_2_1_PRE, with a PIN set.", versions=("FIDO_2_0", "FIDO_2_1_PRE"), pin="1234"),
    "between_fingerprint": make_variant(
        "FIDO_2_1_PRE, with built-in user verification.", versions=("FIDO_2_0", "FIDO_2_1_PRE"), built_in_uv=True
    ),
    "capacity_of_3": make_variant("There is room for three credentials.", capacity=3),
    "capacity_of_1": make_variant("There is room for one credential.", capacity=1),
    "small_tables": make_variant(
        "Room for five credentials, four channels, lists of two, and 1,024 bytes of large blobs.",
        capacity=5,
        longest_list=2,
        channels=4,
        largest_array=1024,
    ),
    "time_out_100_slow": make_variant(
        "A timeout of 100 ms, while each request takes two seconds.", time_out=100, work_time=2000
    ),
    "random_channels": make_variant("Channels are random numbers.", random_channels=True),
    "lock": make_variant("LOCK is supported (11.2.9.2.2).", lock=True),
    "vendor": make_variant("Vendor commands are supported (11.2.9.3).", vendor=True),
    "vendor_lock_wink": make_variant(
        "LOCK, WINK and vendor commands are supported.", vendor=True, lock=True, wink=True
    ),
    "ids_of_1023_protocol_1": make_variant(
        "Credential IDs of 1023 bytes, with PIN protocol 1.", id_length=1023, longest_id=1023, protocols=(1,)
    ),
    "messages_of_1200_ids_of_255": make_variant(
        "maxMsgSize is 1200, with credential IDs of 255 bytes.", longest_message=1200, id_length=255, longest_list=3
    ),
    "messages_of_2048_pin_set": make_variant("maxMsgSize is 2048, with a PIN set.", longest_message=2048, pin="1234"),
    "names_withheld": make_variant("The user's names are never returned (6.2.2).", user_names=False),
    "names_withheld_fingerprint": make_variant(
        "The user's names are never returned, with built-in user verification.", user_names=False, built_in_uv=True
    ),
    "counter_none_pin_set": make_variant("The counter stays 0, with a PIN set.", counter="none", pin="1234"),
    "counter_none_old": make_variant("CTAP 2.0; the counter stays 0.", counter="none", **OLD),
    "old_always_touch": make_variant(
        "CTAP 2.0 with a PIN set; a touch is requested before status 2e.", pin="1234", touch_before_none=True, **OLD
    ),
}
USERS: Dict[str, Variant] = {
    "plain": make_variant("The reference authenticator without changes."),
    "no_pin": make_variant(
        "PINs are not supported (6.5 is optional).", has_pin=False, management=False, extensions=("credProtect",)
    ),
    "pin_set": make_variant("A PIN is set (6.1.2, step 8).", pin="1234"),
    "pin_set_make_without": make_variant("A PIN is set, with makeCredUvNotRqd.", pin="1234", make_without_uv=True),
    "always_uv": make_variant("alwaysUv with a PIN (6.1.2, step 6).", pin="1234", always_uv=True),
    "always_uv_no_pin_yet": make_variant("alwaysUv, while no PIN is set.", always_uv=True),
    "fingerprint": make_variant("Built-in user verification (6.1.2, step 8).", built_in_uv=True),
    "fingerprint_make_without": make_variant(
        "Built-in user verification with makeCredUvNotRqd.", built_in_uv=True, make_without_uv=True
    ),
    "fingerprint_and_pin": make_variant("Built-in user verification and a PIN.", built_in_uv=True, pin="123456"),
    "fingerprint_and_touch": make_variant(
        "The touch for a token counts as user presence for the next request.", built_in_uv=True, present_by_token=True
    ),
    "fingerprint_without_pin": make_variant(
        "Built-in user verification; PINs are not supported.", built_in_uv=True, has_pin=False, management=False
    ),
    "fingerprint_always": make_variant("Built-in user verification with alwaysUv.", built_in_uv=True, always_uv=True),
    "pin_of_6": make_variant("minPINLength is 6 (6.4).", shortest_pin=6),
    "pin_of_63": make_variant("minPINLength is 63.", shortest_pin=63),
    "protocol_1": make_variant("Only PIN protocol 1 is supported.", protocols=(1,)),
    "protocol_2": make_variant("Only PIN protocol 2 is supported.", protocols=(2,)),
    "protocol_1_first": make_variant("PIN protocol 1 is listed first.", protocols=(1, 2)),
    "ep_served": make_variant("Enterprise attestation can be enabled.", more_options={"ep": False}),
    "display": make_variant(
        "The user selects accounts on a display (6.2.2); a reset is accepted at any time (6.6).", display=True
    ),
    "no_selection": make_variant("authenticatorSelection is not supported, as in 2.0.", selection=False),
    "patient": make_variant("It waits two minutes for a touch.", patience=120000),
    "impatient": make_variant("It waits ten seconds for a touch.", patience=10000),
    "works_first": make_variant("A KEEPALIVE with 01 precedes those with 02 (11.2.9.1.7).", works_first=True),
    "one_touch_state": make_variant(
        "Another channel can get pending assertions (6.3 does not mention channels).", one_state=True
    ),
    "pending_outlasts": make_variant("Assertions stay pending after other commands.", pending_outlasts_commands=True),
    "oldest_first_by_list": make_variant("The last credential of the allow list signs.", last_of_list=True),
    "user_with_any": make_variant("The user is returned for non-discoverable credentials, too.", user_with_any=True),
}
ANSWERS: Dict[str, Variant] = {
    "default_protection_1": make_variant("credProtect is set without a request (WebAuthn, 9).", default_protection=1),
    "default_protection_2": make_variant(
        "credProtect is set to level 2 without a request.", default_protection=2, **{"extensions": ("credProtect",)}
    ),
    "no_extensions": make_variant("No extensions are supported.", extensions=()),
    "blob_key_alone": make_variant("largeBlobKey is the only extension.", extensions=("largeBlobKey",)),
    "blob_key_first": make_variant("largeBlobKey is checked before the touch.", blob_key_first=True),
    "no_large_blobs": make_variant(
        "Large blobs are not supported.", large_blobs=False, extensions=("credBlob", "credProtect", "hmac-secret")
    ),
    "no_management": make_variant("Credential management is not supported.", management=False),
    "array_of_1024": make_variant("There is room for 1,024 bytes of large blobs.", largest_array=1024),
    "array_of_8192": make_variant("There is room for 8,192 bytes of large blobs.", largest_array=8192),
    "blobs_in_small_pieces": make_variant("Large blobs, with maxMsgSize 1200.", longest_message=1200),
    "protect_alone": make_variant("credProtect is the only extension.", extensions=("credProtect",)),
    "secret_alone": make_variant("hmac-secret is the only extension.", extensions=("hmac-secret",)),
    "blob_alone": make_variant("credBlob is the only extension.", extensions=("credBlob",)),
    "attestation_none": make_variant("Attestation none (6.1.2: any format).", format="none"),
    "attestation_x5c_aaguid": make_variant("The attestation certificate has the AAGUID.", format="x5c aaguid"),
    "attestation_x5c": make_variant("Packed attestation with a certificate.", format="x5c"),
    "attestation_x5c_eddsa": make_variant(
        "Packed attestation with a certificate, and EdDSA listed first.", format="x5c", algorithms=(EDDSA, ES256)
    ),
    "es256_alone": make_variant("Only ES256 is supported.", algorithms=(ES256,)),
    "eddsa_first": make_variant("EdDSA is listed first.", algorithms=(EDDSA, ES256)),
    "no_algorithms_named": make_variant(
        "CTAP 2.0, with no algorithms in getInfo.", says_algorithms=False, algorithms=(ES256,), **OLD
    ),
    "ids_of_16": make_variant("Credential IDs have 16 bytes.", id_length=16),
    "ids_of_48": make_variant("Credential IDs have 48 bytes.", id_length=48),
    "ids_of_64": make_variant("Credential IDs have 64 bytes.", id_length=64),
    "ids_of_128": make_variant("Credential IDs have 128 bytes.", id_length=128),
    "ids_of_255": make_variant("Credential IDs have 255 bytes.", id_length=255),
    "ids_of_256": make_variant("Credential IDs have 256 bytes.", id_length=256),
    "ids_of_500": make_variant("Credential IDs have 500 bytes.", id_length=500, longest_id=500),
    "ids_of_1023": make_variant("Credential IDs have 1023 bytes.", id_length=1023, longest_id=1023),
    "backup_eligible": make_variant("Flag BE is set.", flags=0x08),
    "backed_up": make_variant("Flags BE and BS are set.", flags=0x18),
    "counter_of_all": make_variant("All credentials share one counter.", counter="all"),
    "counter_in_steps": make_variant("The counter rises by more than one.", counter="steps"),
    "counter_none": make_variant("The counter stays 0.", counter="none"),
    "counter_begins_late": make_variant("Counters start at 1000.", first_counter=1000),
    "counter_of_all_late": make_variant(
        "One counter for all credentials, which starts at 70,000.", counter="all", first_counter=70000
    ),
    "no_rk": make_variant("Discoverable credentials are not supported.", rk=False, management=False),
    "capacity_of_25": make_variant("There is room for 25 credentials.", capacity=25),
    "capacity_of_8": make_variant("There is room for 8 credentials.", capacity=8),
    "aaguid_zero": make_variant("The AAGUID consists of zeros.", aaguid=bytes(16)),
}
INFOS: Dict[str, Variant] = {
    "old": make_variant("CTAP 2.0 (FIDO_2_0 alone).", **OLD),
    "old_touch_first": make_variant("CTAP 2.0; a touch is requested before status 2e.", touch_before_none=True, **OLD),
    "old_number_with_list": make_variant(
        "CTAP 2.0; numberOfCredentials is returned with an allow list.", number_with_list=True, **OLD
    ),
    "old_both": make_variant(
        "CTAP 2.0; a touch is requested before status 2e, and numberOfCredentials is returned with an allow list.",
        touch_before_none=True,
        number_with_list=True,
        **OLD,
    ),
    "old_pin_set": make_variant("CTAP 2.0, with a PIN set.", pin="1234", **OLD),
    "between": make_variant("The version FIDO_2_1_PRE.", versions=("FIDO_2_0", "FIDO_2_1_PRE"), u2f=False),
    "newer": make_variant("The version FIDO_2_2, too.", versions=("FIDO_2_0", "FIDO_2_1", "FIDO_2_2")),
    "newest_alone": make_variant("Only the version FIDO_2_1.", versions=("FIDO_2_1",), u2f=False),
    "list_of_8": make_variant("maxCredentialCountInList is 8.", longest_list=8),
    "list_of_1": make_variant("maxCredentialCountInList is 1.", longest_list=1),
    "no_list_limit": make_variant("getInfo has no maxCredentialCountInList.", longest_list=None, longest_id=None),
    "messages_of_1024": make_variant("maxMsgSize is 1024.", longest_message=1024),
    "messages_of_1200": make_variant("maxMsgSize is 1200.", longest_message=1200),
    "messages_of_2048": make_variant("maxMsgSize is 2048.", longest_message=2048),
    "more_info": make_variant(
        "getInfo has all members.",
        largest_array=1024,
        says_remaining=True,
        more_info={11: 1024, 12: False, 13: 4, 14: 0x050403, 16: 1, 17: 3, 18: 2, 19: {"FIDO": 1}, 21: [1]},
    ),
    "unknown_info": make_variant(
        "getInfo has unknown members and options.", more_info={96: [1, {"a": 2}]}, more_options={"zz": True}
    ),
    "transports": make_variant("getInfo has several transports.", more_info={9: ["nfc", "usb"]}),
    "platform": make_variant("The option plat is true.", more_options={"plat": True}),
    "bare": make_variant("Only what the standard requires.", **BARE),
    "bare_old": make_variant("Only what CTAP 2.0 requires.", **{**BARE, "versions": ("FIDO_2_0",), "selection": False}),
}
WIRE: Dict[str, Variant] = {
    "time_out_100": make_variant("A timeout of 100 ms.", time_out=100),
    "time_out_250": make_variant("A timeout of 250 ms.", time_out=250),
    "time_out_3000": make_variant("A timeout of three seconds.", time_out=3000),
    "time_out_silent": make_variant("A timeout without an ERROR (11.2.5.2).", silent_time_out=True),
    "keepalive_20": make_variant("KEEPALIVEs are sent every 20 ms.", keepalive=20),
    "keepalive_75": make_variant("KEEPALIVEs are sent every 75 ms.", keepalive=75),
    "channels_4": make_variant("There are four channels.", channels=4),
    "channels_high": make_variant(
        "Channels are high numbers, allocated in descending order.", first_channel=0xFFFFFF00, channel_step=-3
    ),
    "channels_in_a_row": make_variant("Channels are consecutive numbers from 2 on.", first_channel=2, channel_step=1),
    "version_bytes": make_variant(
        "The device version numbers in the INIT response are arbitrary.", version_bytes=b"\xff\0\x7f"
    ),
    "wink": make_variant("WINK is supported.", wink=True),
    "u2f_not": make_variant("U2F is not supported, as the capability NMSG says.", u2f=False),
    "empty_cbor_status": make_variant("A CBOR message of length 0 gets the status 12.", empty_cbor_status=0x12),
    "empty_cbor_length": make_variant("A CBOR message of length 0 gets the status 03.", empty_cbor_status=0x03),
    "begins_anew": make_variant("A host may begin a new message within another one without INIT.", begins_anew=True),
    "padding": make_variant("The padding is not zeros (a SHOULD).", padding=0xA5),
    "all_cbor": make_variant("CBOR that is not canonical is accepted (a SHOULD).", takes_all_cbor=True),
    "wrong_type_12": make_variant("A wrong type is refused with status 12.", wrong_type=0x12),
    "wrong_type_02": make_variant("A wrong type is refused with status 02.", wrong_type=0x02),
    "malformed_01": make_variant("Malformed CBOR is refused with status 10.", malformed=0x10),
    "length_02": make_variant("A wrong length is refused with status 02.", wrong_length=0x02),
}
VARIANTS: Dict[str, Variant] = {**USERS, **ANSWERS, **INFOS, **WIRE, **SLOW, **MIXED}
