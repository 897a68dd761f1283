"""Traits in which conforming authenticators may differ."""

from __future__ import annotations

from dataclasses import dataclass, field
from typing import Any, Dict, Optional, Tuple

ES256, EDDSA, RS256 = -7, -8, -257
AAGUID = bytes.fromhex("7265666572656e6365206b6579202e20")


@dataclass
class DeviceTraits:
    """The traits of an authenticator: features, limits, and choices that the standard leaves open."""

    # getInfo.
    versions: Tuple[str, ...] = ("U2F_V2", "FIDO_2_0", "FIDO_2_1")
    extensions: Tuple[str, ...] = ("credBlob", "credProtect", "hmac-secret", "largeBlobKey")
    aaguid: bytes = AAGUID
    protocols: Tuple[int, ...] = (2, 1)
    algorithms: Tuple[int, ...] = (ES256, EDDSA)
    longest_message: int = 7609
    longest_list: Optional[int] = 128
    longest_id: Optional[int] = 256
    says_algorithms: bool = True
    says_remaining: bool = False
    more_info: Dict[int, Any] = field(default_factory=dict)
    more_options: Dict[str, bool] = field(default_factory=dict)
    # Supported features.
    rk: bool = True
    has_pin: bool = True
    pin: str = ""
    shortest_pin: int = 4
    built_in_uv: bool = False
    always_uv: bool = False
    make_without_uv: bool = False
    selection: bool = True
    management: bool = True
    management_preview: bool = False
    large_blobs: bool = True
    largest_array: int = 2048
    u2f: bool = True
    # authenticatorConfig, fingerprint enrolment, and maxRPIDsForSetMinPINLength.
    config: bool = False
    max_rp_ids: int = 8
    bio: bool = False
    wink: bool = False
    lock: bool = False
    # Vendor commands of CTAPHID (40 to 7f) and of CTAP (from 40 on).
    vendor: bool = False
    display: bool = False
    capacity: int = 100
    # Responses.
    id_length: int = 32
    format: str = "packed"
    flags: int = 0
    default_protection: int = 0
    counter: str = "each"
    first_counter: int = 0
    user_with_any: bool = False
    user_names: bool = True
    last_of_list: bool = False
    oldest_first: bool = False
    # Differences of CTAP 2.0.
    touch_before_none: bool = False
    number_with_list: bool = False
    # Statuses that the standard leaves open, or that most devices do not use.
    wrong_type: int = 0x11
    malformed: int = 0x12
    wrong_length: int = 0x03
    takes_all_cbor: bool = False
    deepest: int = 4
    # The transport.
    time_out: int = 500
    silent_time_out: bool = False
    keepalive: int = 100
    works_first: bool = False
    channels: int = 1000
    first_channel: int = 0x01000000
    channel_step: int = 0x0101
    random_channels: bool = False
    version_bytes: bytes = b"\1\2\3"
    empty_cbor_status: int = 0
    begins_anew: bool = False
    padding: int = 0
    patience: int = 30000
    # Milliseconds for which a request is processed, and before the user touches.
    work_time: int = 0
    touch_time: int = 0
    pending_time: int = 30000
    pending_outlasts_commands: bool = False
    one_state: bool = False
    present_by_token: bool = False
    blob_key_first: bool = False
