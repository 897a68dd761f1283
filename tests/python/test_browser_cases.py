"""The cases of registrations and sign-ins in browser_cases.json, with all installed implementations.

The expected results are those of Chromium's own virtual authenticator, in browser_cases_chromium.json. They are compared
with an installed Chromium, and HIDLOG_RECORD_CASES=FILE records them again. The members of a case:

    call, options, without   the call, and how its options differ from those at the start of the table
    raw                      options that replace all others
    before                   earlier registrations; "$0" is the ID of the first
    key, presence            options of the key, and what the user does
    then                     "failed": after the earlier registrations, user verification fails
    mediation, wrapped       the call's mediation; options in a member publicKey

If an implementation's result differs, browser_cases_differences.json has the reason and the members of the result that
replace Chromium's, for `implementations` (python, page, npm, go, rust, url) [default: all].

In the cases of `alike`, the key also has the features of Chromium's authenticator that are outside the core, and they
are compared, too.
"""

from __future__ import annotations

import json
import os
from collections.abc import Iterator
from pathlib import Path

import pytest
from chromium import Driver, is_installed, open_page
from implementations import (
    EXTENDED_CASES,
    CASES,
    CHROMIUM_RESULTS,
    DIFFERENCES,
    TABLE,
    get_expected_result,
    run_with_chromium,
    run_with_package,
    run_with_page_key,
)

IS_RECORDING = os.environ.get("HIDLOG_RECORD_CASES")


@pytest.fixture(scope="module")
def driver() -> Iterator[Driver]:
    """Provides a page that loads the key of bindings/web/dist."""
    if not is_installed():
        pytest.skip("chromedriver is missing (apt-get install chromium-driver)")
    with open_page() as made:
        yield made


ALL_CASES = {**CASES, **EXTENDED_CASES}


def is_compared(name: str) -> bool:
    """Returns whether a case is compared with Chromium, where the user can't deny a request."""
    return "presence" not in ALL_CASES[name]


def test_the_table_is_large() -> None:
    assert len(CASES) == len(TABLE["cases"]) >= 190
    assert len(EXTENDED_CASES) == len(TABLE["alike"]) >= 70
    assert set(CHROMIUM_RESULTS) == set(filter(is_compared, ALL_CASES))


@pytest.mark.parametrize("name", ALL_CASES)
def test_the_browser(name: str) -> None:
    assert run_with_package(ALL_CASES[name]) == get_expected_result(name, "python")


def test_each_difference_is_of_a_case() -> None:
    for group in DIFFERENCES:
        assert group["reason"] and not set(group["results"]) - set(ALL_CASES)
        for name in group["results"]:
            assert get_expected_result(name, group.get("implementations", ["python"])[0]) != CHROMIUM_RESULTS[name]


def test_chromium_returns_what_is_recorded(driver: Driver) -> None:
    found = {name: run_with_chromium(case, driver) for name, case in ALL_CASES.items() if is_compared(name)}
    if IS_RECORDING:
        lines = [f" {json.dumps(name)}: {json.dumps(result)}" for name, result in found.items()]
        Path(IS_RECORDING).write_text("{\n" + ",\n".join(lines) + "\n}\n", encoding="utf-8")
    assert {name: result for name, result in found.items() if result != CHROMIUM_RESULTS.get(name)} == {}


def test_the_key_in_a_page_returns_the_same(driver: Driver) -> None:
    found = {name: run_with_page_key(case, driver) for name, case in ALL_CASES.items()}
    assert {name: result for name, result in found.items() if result != get_expected_result(name, "page")} == {}
