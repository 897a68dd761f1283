"""The keys that a worker of Locust reports: those that have changed since its last report."""

from __future__ import annotations

import importlib.util
import json
import subprocess
import sys

import pytest

# Locust replaces the modules for threads and sockets, so it is imported in a separate process.
REPORTS_CODE = """
import json
from hidlog.locust import Users
from hidlog import SecurityKey

made = {"challenge": "AAAA", "rp": {"id": "example.com", "name": "A"}, "pubKeyCredParams": [{"type": "public-key", "alg": -7}],
        "user": {"id": "AQ", "name": "a", "displayName": "A"}, "authenticatorSelection": {"residentKey": "required"}}
asked = {"challenge": "AAAA", "rpId": "example.com"}

users, browsers, texts = Users(), {}, {}
for name in ("idle", "active", "changed"):
    with SecurityKey() as key:
        key.browser("https://example.com").create(made)
        texts[name] = key.dumps()
    loaded = SecurityKey.loads(texts[name], sign_count_margin=10)
    users.take(name, loaded, texts[name])
    browsers[name] = loaded.browser("https://example.com")
users.take("new", SecurityKey())
reports = [users.report(), users.report()]
browsers["active"].get(asked)
reports += [users.report(), users.report()]
credentials = users.in_use["changed"].key.credentials
credentials.update(credentials[0].id, backup_eligibility=True)
reports += [users.report()]
browsers["active"].get(asked)
for name in ("idle", "active", "changed"):
    users.give_back(name)
reports += [users.report(), users.report()]
counts = {name: SecurityKey.loads(text).credentials[0].sign_count for name, text in users.waiting.items()}
print(json.dumps([[sorted(report) for report in reports], users.waiting["idle"] == texts["idle"], counts]))
"""


@pytest.mark.skipif(importlib.util.find_spec("locust") is None, reason="python3-locust is missing")
def test_only_changed_keys_are_reported() -> None:
    """A new key, a sign-in and a changed flag are reported once. A key without changes is not reported."""
    ran = subprocess.run(
        [sys.executable, "-W", "ignore", "-c", REPORTS_CODE], capture_output=True, text=True, check=False
    )
    assert ran.returncode == 0, ran.stderr
    reports, is_idle_unchanged, counts = json.loads(ran.stdout)
    assert reports == [["new"], [], ["active"], [], ["changed"], ["active"], []]
    assert is_idle_unchanged
    # A registration has the count 0, which the margin increases by 10. Two sign-ins follow.
    assert counts == {"idle": 0, "active": 12, "changed": 10}
