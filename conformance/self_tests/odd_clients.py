"""Clients that crash, hang or write garbage fail, each with its own verdict."""

from __future__ import annotations

import os
import sys
from typing import Dict

from hidlog_conformance import client_runner
from trying import HERE, Test, check_detected, run_command

ODD = f"{sys.executable} {os.path.join(HERE, 'odd_client.py')}"
# The beginning of the verdict by client.
CLIENTS = {
    "false": "ended: with status 1",
    "sh -c 'kill -SEGV $$'": "killed: by SIGSEGV",
    "sh -c 'sleep 60'": "hangs: it sent no packet",
    "yes": "garbage: a line other than 128 hexadecimal digits",
    "cat /dev/zero": "garbage: a line without a newline",
    f"{ODD} crashes": "killed: by SIGSEGV",
    f"{ODD} hangs": "hangs: it does not react",
    f"{ODD} floods": "hangs: ",
}


def test_verdicts() -> None:
    """Each client gets its verdict."""
    for command, verdict in CLIENTS.items():
        status, out, _ = run_command(["--client", command, "--only", "plain/info", "--deadline", "5"])
        assert status == 1 and f": {verdict}" in out, (command, out)


def test_crash_is_no_refusal() -> None:
    """A crash at a response that must be refused does not count as a refusal."""
    for only in ("status/get_none", "packets/begins_twice"):
        status, out, _ = run_command(["--client", f"{ODD} crashes", "--only", only, "--deadline", "5"])
        assert status == 1 and "0 passed" in out, (only, out)


def test_child_processes() -> None:
    """A client's child processes are killed."""
    # The number names the child among those of other runs of this test.
    seconds = f"39.{os.getpid():07d}"
    run_command(["--client", f"sh -c 'sleep {seconds}; true'", "--only", "plain/info", "--deadline", "1"])
    found = os.popen("ps -eo args").read()
    assert f"sleep {seconds}" not in found, found


TESTS: Dict[str, Test] = {
    "client/verdicts": check_detected(
        test_verdicts,
        (client_runner.Conversation, "describe_crash", lambda self: "refused the command ended"),
        (client_runner.Conversation, "judge_silence", lambda self: "waits"),
    ),
    "client/refusal_by_crash": check_detected(
        test_crash_is_no_refusal,
        (client_runner.Conversation, "describe_crash", lambda self: "refused the command ended"),
    ),
    "client/children": test_child_processes,
}
