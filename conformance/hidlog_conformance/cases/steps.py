"""The steps of the standard's algorithms that cases test, by section and name."""

from __future__ import annotations

from fnmatch import fnmatchcase
from typing import Dict, List, Tuple

# By section: patterns of case names, each with its step. The first pattern that matches a case applies.
STEPS: Dict[str, List[Tuple[str, str]]] = {
    "6.1.2": [
        ("make/pin_of_no_bytes", "step 1"),
        ("make/alone_pin", "step 2"),
        ("make/algorithms_* make/alone_algorithm make/first_known_* make/first_is_* make/*_listed", "step 3"),
        ("make/other_type_first make/eddsa*", "step 3"),
        ("make/option* make/alone_uv make/two_unknown_options", "step 5"),
        ("pin/discoverable_needs_it_* user/needed*", "step 8"),
        ("make/alone_enterprise make/enterprise_2 config/enterprise_*", "step 9"),
        ("pin/* user/registers* user/token_of_* user/denied_make", "step 11"),
        ("lists/exclude_* fuzzed/excluded_* power/still_excluded recorded/*_excluded", "step 12"),
        ("make/user_denied make/user_timeout make/touch_before_*", "step 14"),
        ("cbor/taken_extension", "step 15"),
        ("make/full make/many_stay power/replaced_*", "step 16"),
        ("make/answer make/three_ids make/user_id_in_no_id", "step 17"),
    ],
    "6.2.2": [
        ("get/pin_of_no_bytes", "step 1"),
        ("get/alone_pin", "step 2"),
        ("get/alone_uv get/alone_rk get/option_rk_false get/without_presence fuzzed/uv_before_the_list", "step 4"),
        ("pin/* user/signs_* user/denied_get", "step 6"),
        ("lists/allow_* get/rp_* get/nothing_registered get/alone_credential get/other_credentials_*", "step 7"),
        ("get/up_true* get/touch_* get/user_denied get/user_timeout", "step 9"),
    ],
    "6.5": [
        ("pin/set_* pin/not_set_* pin/of_* pin/empty_* pin/wrong_authentication_*", "6.5.5.5"),
        ("pin/change_* config/forced_change_to_the_same_*", "6.5.5.6"),
        ("pin/retries_*", "6.5.5.2"),
        ("user/token_* user/retries_*", "6.5.5.7.3"),
        ("pin/three_wrong_* pin/key_renewed_* config/forced_change_* blocked/*", "6.5.5.7.2"),
    ],
}


def find_step(section: str, name: str) -> str:
    """Returns the step that a case tests, or an empty string."""
    for patterns, step in STEPS.get(section, []):
        if any(fnmatchcase(name, pattern) for pattern in patterns.split()):
            return step
    return ""


def cite_step(name: str, text: str) -> str:
    """Returns a session with the step in its rule."""
    first, _, rest = text.partition("\n")
    section = first.partition(", ")[2].split(" ")[0]
    step = find_step(section, name)
    return f"{first}, {step}\n{rest}" if step else text


def check_patterns(names: List[str]) -> None:
    """Fails if a pattern has no case."""
    for section, rows in STEPS.items():
        for patterns, step in rows:
            for pattern in patterns.split():
                assert any(fnmatchcase(name, pattern) for name in names), f"steps.py: {section}, {step}: {pattern}"
