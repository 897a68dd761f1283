"""The fixtures of the pytest plugin, tested in a separate pytest process."""

from __future__ import annotations

import subprocess
import sys
from pathlib import Path

import pytest

FAILING_SUITE = """
import hidlog

def test_good(security_key):
    hidlog.Client(security_key).request(4)

def test_bad(security_key, make_security_key):
    hidlog.Client(security_key).request(4)
    security_key.add_comment("the key of the failed test")
    other = make_security_key(presence="denied")
    other.credentials.add("example.com", b"alice")
    hidlog.Client(other).request(0x0B)
"""


def test_the_recordings_of_a_failed_test(pytester: pytest.Pytester) -> None:
    pytester.makepyfile(test_suite=FAILING_SUITE)
    result = pytester.runpytest_subprocess("--security-key-log", "kept")
    result.assert_outcomes(passed=1, failed=1)
    names = ["test_suite.test_bad.key2.1.log", "test_suite.test_bad.key2.log", "test_suite.test_bad.log"]
    assert sorted(path.name for path in Path("kept").glob("*.log")) == names
    result.stdout.fnmatch_lines(
        [
            "*CtapError 0x27 OPERATION_DENIED: the user refused",
            "*- security key -*",
            "transactions of the key (hidlog show --summary):",
            "*authenticatorGetInfo *CTAP2_OK 00*",
            "recorded in kept/test_suite.test_bad.log",
            "the key's last response ends at line * of the recording kept/test_suite.test_bad.log",
            "*- security key 2 -*",
            "*authenticatorSelection *CTAP2_ERR_OPERATION_DENIED 27*",
            "the key's last response ends at line * of the recording kept/test_suite.test_bad.key2.log",
        ]
    )
    assert b"# the key of the failed test\n" in Path("kept", names[2]).read_bytes()
    words = [sys.executable, "-m", "hidlog", "check", "--load", f"kept/{names[1]}.snapshot"]
    said = subprocess.run(words, input=Path("kept", names[1]).read_bytes(), capture_output=True)
    assert (said.returncode, said.stdout[:5]) == (0, b"same "), said.stderr


def test_without_the_option_nothing_is_kept(pytester: pytest.Pytester) -> None:
    pytester.makepyfile(test_suite=FAILING_SUITE)
    result = pytester.runpytest_subprocess("--security-key-process")
    result.assert_outcomes(passed=1, failed=1)
    assert not list(Path().glob("**/*.log"))
    assert "recorded in" not in result.stdout.str()
    ends = [
        "*authenticatorSelection *",
        "the key's last response ends at line * of the recording (--security-key-log DIR saves it)",
    ]
    result.stdout.fnmatch_lines(ends)


CALLS_SUITE = """
from hidlog import Client, NotAllowedError, SecurityError

CHALLENGE = {"challenge": "AAECAwQFBgcICQoLDA0ODw"}
USER = {"id": "AQ", "name": "alice", "displayName": "Alice"}
CREATE = {
    **CHALLENGE, "rp": {"name": "A"}, "user": USER, "pubKeyCredParams": [{"type": "public-key", "alg": -7}],
    "authenticatorSelection": {"residentKey": "required"}, "excludeCredentials": [],
}

def expect_error(error, call, options):
    try:
        call(options)
    except error:
        pass

def test_calls(security_key):
    browser = security_key.browser("http://localhost:5000")
    browser.create(CREATE)
    browser.get(CHALLENGE)
    security_key.faults.stale_sign_count = True
    security_key.faults.wrong_rp_id = "other.example"
    browser.get(CHALLENGE)
    security_key.faults.status = 0x27
    Client(security_key).transact(0x10, b"\\x04")
    security_key.faults.status = None
    security_key.presence = "denied"
    expect_error(NotAllowedError, browser.get, {**CHALLENGE, "userVerification": "preferred"})
    expect_error(SecurityError, browser.create, {**CREATE, "rp": {"name": "A", "id": "other.example"}})
    assert security_key.credentials[0].sign_count == 5
"""


def test_the_report_says_what_the_key_made_and_who_refused(pytester: pytest.Pytester) -> None:
    pytester.makepyfile(test_suite=CALLS_SUITE)
    result = pytester.runpytest_subprocess()
    result.assert_outcomes(failed=1)
    site = "localhost:5000"
    selection = "residentKey required, userVerification absent (preferred)"
    result.stdout.fnmatch_lines(
        [
            "*- security key -*",
            f"created a credential for alice at http://{site}: user not verified, counter 0, discoverable, credential *",
            f"    options: rp.id absent, user.id AQ, {selection}, challenge AAECAwQF.., excludeCredentials empty",
            f"signed an assertion for alice at http://{site}: user not verified, counter 1, user handle AQ, credential *",
            "    options: rpId absent, userVerification absent (preferred), challenge *, allowCredentials absent",
            f"signed an assertion for alice at http://{site}: user not verified, counter 1, user handle AQ, credential *",
            "    options: *",
            "    fault: the RP ID hash is that of 'other.example'",
            "    fault: the signature counter is 1, not 2",
            "fault: the response has status 0x27",
            f"the key refused to sign an assertion at http://{site}: NotAllowedError: *: the user refused",
            "    options: rpId absent, userVerification preferred, challenge *",
            f"the browser refused to create a credential for alice at http://{site}: SecurityError: *",
            f"    options: rp.id other.example, user.id AQ, {selection}, challenge *",
            "fault stale_sign_count is enabled",
            "fault wrong_rp_id is enabled: other.example",
            "transactions of the key (hidlog show --summary):",
            "registrations: 1",
            "the key's last response ends at line * of the recording (--security-key-log DIR saves it)",
        ],
        consecutive=False,
    )
    assert ": 0\n" not in result.stdout.str(), "the report has a total of 0"


REMOVED_CREDENTIALS_SUITE = """
OPTIONS = {
    "challenge": "AAAA", "rp": {"name": "A"}, "pubKeyCredParams": [{"type": "public-key", "alg": -7}],
    "authenticatorSelection": {"requireResidentKey": True},
}

def test_gone(security_key):
    browser = security_key.browser("http://localhost:5000")
    for name in ("alice", "alice", "bob"):
        user = {"id": "AQ" if name == "alice" else "Ag", "name": name, "displayName": name}
        browser.create({**OPTIONS, "user": user})
    security_key.credentials.remove(security_key.credentials[1].id)
    raise RuntimeError

def test_without_calls(security_key):
    security_key.add_comment("no packet")
    raise RuntimeError
"""


def test_the_report_says_why_a_credential_is_gone(pytester: pytest.Pytester) -> None:
    pytester.makepyfile(test_suite=REMOVED_CREDENTIALS_SUITE)
    result = pytester.runpytest_subprocess()
    result.assert_outcomes(failed=2)
    result.stdout.fnmatch_lines(
        [
            "created * alice *no longer on the key (replaced by a later credential for the same user ID), credential *",
            "    options: * residentKey absent (required), requireResidentKey True, * excludeCredentials absent",
            "created * alice *, counter 0, discoverable, credential *",
            "created * bob *, counter 0, no longer on the key, credential *",
        ]
    )
    assert result.stdout.str().count("the key's last response") == 1


INVALID_OPTIONS_SUITE = """
import hidlog

def test_rp_id(security_key):
    options = {"challenge": "AA", "rp": {"id": "localhost:5000", "name": "A"}, "user": {"id": 1, "name": "a"},
               "excludeCredentials": [{"id": "B" * 12}, None]}
    security_key.browser("http://localhost:5000").create(options)
"""


def test_the_report_has_the_options(pytester: pytest.Pytester) -> None:
    pytester.makepyfile(test_suite=INVALID_OPTIONS_SUITE)
    result = pytester.runpytest_subprocess()
    result.assert_outcomes(failed=1)
    selection = "residentKey absent (discouraged), userVerification absent (preferred)"
    options = (
        f"    options: rp.id localhost:5000, user.id 1, {selection}, challenge AA, excludeCredentials BBBBBBBB.. None"
    )
    refused = "the browser refused to create a credential for a at *"
    result.stdout.fnmatch_lines(["test_suite.py:*Error", refused, options])
    assert "webauthn_client.py" not in result.stdout.str(), "the traceback has a frame of the package"


PHASES_SUITE = """
import hidlog
import pytest

@pytest.fixture
def failing_setup(security_key):
    hidlog.Client(security_key).request(4)
    raise ValueError("set-up")

@pytest.fixture
def failing_teardown(security_key):
    yield hidlog.Client(security_key)
    raise ValueError("teardown")

def test_set_up(failing_setup):
    pass

def test_teardown(failing_teardown):
    failing_teardown.request(4)
"""


def test_set_up_and_teardown_keep_their_recordings(pytester: pytest.Pytester) -> None:
    pytester.makepyfile(test_suite=PHASES_SUITE)
    result = pytester.runpytest_subprocess("--security-key-log", "kept")
    result.assert_outcomes(passed=1, errors=2)
    assert sorted(path.name for path in Path("kept").iterdir()) == [
        "test_suite.test_set_up.log",
        "test_suite.test_teardown.log",
    ]
    result.stdout.fnmatch_lines(
        [f"* of the recording kept/test_suite.test_{when}.log" for when in ("set_up", "teardown")]
    )
    for name in Path("kept").iterdir():
        assert b"\n> " in name.read_bytes()


SCOPES_SUITE = """
import hidlog
import pytest

@pytest.fixture(scope="{scope}")
def registered(security_key):
    security_key.credentials.add("example.com", b"ann")
    return security_key

def test_first(registered):
    assert len(registered.credentials) == 1
    registered.note("first")

def test_second(registered, security_key):
    assert registered is security_key
    security_key.add_comment("second")
    assert False
"""


@pytest.mark.parametrize("scope", ["class", "module", "package", "session"])
@pytest.mark.parametrize("is_setting", [True, False])
def test_fixtures_of_any_scope(pytester: pytest.Pytester, scope: str, is_setting: bool) -> None:
    pytester.makepyfile(test_suite=CLASS_SUITE if scope == "class" else SCOPES_SUITE.format(scope=scope))
    if is_setting:
        pytester.makeini(f"[pytest]\nsecurity_key_scope = {scope}\n")
    words = [] if is_setting else ["--security-key-scope", scope]
    result = pytester.runpytest_subprocess("--security-key-log", "kept", *words)
    result.assert_outcomes(passed=1, failed=1)
    (log,) = (path for path in Path("kept").glob("*test_second.log"))
    assert b"# first\n" in log.read_bytes() and b"# second\n" in log.read_bytes()


CLASS_SUITE = """
import pytest

class TestAll:
    def test_first(self, security_key):
        security_key.add_comment("first")

    def test_second(self, security_key):
        security_key.add_comment("second")
        assert False
"""


def test_a_wrong_scope_is_named(pytester: pytest.Pytester) -> None:
    pytester.makepyfile(test_suite=FAILING_SUITE)
    pytester.makeini("[pytest]\nsecurity_key_scope = modul\n")
    result = pytester.runpytest_subprocess()
    assert "security_key_scope is 'modul'; it must be one of function" in result.stdout.str() + result.stderr.str()


SAME_NAMES_SUITE = """
import pytest

@pytest.mark.parametrize("name", ["a b", "a_b", "a:b", "A_B", "x" * 400])
def test_names(security_key, name):
    security_key.add_comment(name[:20])
    assert False
"""


@pytest.mark.parametrize("workers", [0, 2])
def test_names_that_look_the_same_are_numbered(pytester: pytest.Pytester, workers: int) -> None:
    if workers:
        pytest.importorskip("xdist")
    pytester.makepyfile(test_suite=SAME_NAMES_SUITE)
    words = ["-p", "xdist", "-n", str(workers)] if workers else []
    result = pytester.runpytest_subprocess("--security-key-log", "kept", *words)
    result.assert_outcomes(failed=5)
    logs = [path.read_bytes().split(b"\n")[0] for path in Path("kept").glob("*.log")]
    assert sorted(logs) == [b"# A_B", b"# a b", b"# a:b", b"# a_b", b"# " + b"x" * 20]


MANY_SIGN_INS_SUITE = """
import pytest

OPTIONS = {
    "challenge": "AAAA",
    "rp": {"name": "Example"},
    "pubKeyCredParams": [{"type": "public-key", "alg": -7}],
    "authenticatorSelection": {"residentKey": "required"},
}

@pytest.mark.parametrize("number", range(40))
def test_ten_registrations(make_security_key, number):
    key = make_security_key()
    browser = key.browser("http://localhost:5000")
    for user in range(10):
        browser.create({**OPTIONS, "user": {"id": f"AA{user}A", "name": str(user), "displayName": ""}})
    assert len(key.credentials) == 10
"""


def test_four_hundred_registrations_by_four_workers(pytester: pytest.Pytester) -> None:
    pytest.importorskip("xdist")
    pytester.makepyfile(test_suite=MANY_SIGN_INS_SUITE)
    pytester.runpytest_subprocess("-p", "xdist", "-n", "4").assert_outcomes(passed=40)


def test_the_fixtures_are_listed(pytester: pytest.Pytester) -> None:
    result = pytester.runpytest_subprocess("--fixtures")
    result.stdout.fnmatch_lines(["make_security_key*", "security_key*"])


FREED_KEYS_SUITE = """
import gc
import pytest
import hidlog

@pytest.mark.parametrize("number", range(40))
def test_one(number, security_key):
    hidlog.Client(security_key)

def test_what_is_kept(security_key):
    gc.collect()
    assert sum(isinstance(value, hidlog.SecurityKey) for value in gc.get_objects()) == 1
"""


def test_keys_are_gone_after_their_tests(pytester: pytest.Pytester) -> None:
    pytester.makepyfile(test_suite=FREED_KEYS_SUITE)
    pytester.runpytest_subprocess().assert_outcomes(passed=41)
