"""Sessions as Mermaid sequence diagrams."""

from __future__ import annotations

import os
import re
import subprocess
import sys
from pathlib import Path

from hidlog import mermaid

EXAMPLES = Path(os.environ["HIDLOG_EXAMPLES"])
BUSY_DIAGRAM = """sequenceDiagram
    participant host
    participant key
    participant user
    host->>key: ffffffff INIT
    key->>host: INIT
    host->>key: 00000001 authenticatorMakeCredential example.com
    key-->>host: KEEPALIVE STATUS_UPNEEDED
    host->>key: 00000001 authenticatorGetInfo
    key->>host: ERROR ERR_CHANNEL_BUSY
    user->>key: granted at 255 ms
    key-->>host: KEEPALIVE STATUS_PROCESSING
    key->>host: CTAP2_OK
"""
# A line of Mermaid: the sender, the receiver, and a text without characters that would end the line.
DIAGRAM_LINE = re.compile(r"    (host|key|user)--?>>(host|key): ([^#;:<>{}\"]|#\d+;)+")


def run_mermaid(*words: str, data: bytes = b"") -> subprocess.CompletedProcess[bytes]:
    return subprocess.run(
        [sys.executable, "-m", "hidlog", "mermaid", *words], input=data, capture_output=True, check=False
    )


def test_a_request_is_refused_while_another_waits() -> None:
    log = EXAMPLES / "failing" / "busy_channel.log"
    assert run_mermaid(str(log)).stdout.decode() == BUSY_DIAGRAM == run_mermaid(data=log.read_bytes()).stdout.decode()


def test_each_example_is_a_diagram() -> None:
    logs = [*EXAMPLES.glob("*.log"), *(EXAMPLES / "failing").glob("*.log")]
    for log in logs:
        lines = run_mermaid(str(log)).stdout.decode().splitlines()
        assert lines[0] == "sequenceDiagram" and all(DIAGRAM_LINE.fullmatch(line) for line in lines[4:]), (log, lines)
    assert len(logs) > 15


def test_texts_cannot_end_a_line() -> None:
    said = {"kind": "request", "channel": "1", "name": "x", "rpId": 'a;b\n"c" #d <e>: {f}'}
    line = mermaid.to_mermaid([said]).splitlines()[4]
    assert DIAGRAM_LINE.fullmatch(line), line


def test_a_file_that_is_not_there() -> None:
    done = run_mermaid("nothing.log")
    assert (done.returncode, done.stdout, done.stderr) == (2, b"", b"hidlog: cannot read log\n")
