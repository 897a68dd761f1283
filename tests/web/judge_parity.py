#!/usr/bin/env python3
"""Checks that the page and the Python package judge each log alike, in Chromium, under the page's own CSP.

    tests/web/judge_parity.py             the examples, captures and clients' logs, and recordings of faulty and
                                          conforming authenticators
    tests/web/judge_parity.py FOLDER      also the logs of a folder
"""

from __future__ import annotations

import base64
import itertools
import json
import sys
from pathlib import Path
from typing import Any, Dict, Iterator, List, Tuple

TOP = Path(__file__).resolve().parents[2]
sys.path[:0] = [str(TOP / "conformance"), str(TOP / "conformance" / "checks"), str(TOP / "bindings" / "python" / "src")]
sys.path.insert(0, str(TOP / "tests" / "web"))

import judged  # noqa: E402
from driver import Driver, is_installed  # noqa: E402
from hidlog.errors import LogError  # noqa: E402
from hidlog_conformance import judged_report  # noqa: E402
from hidlog_conformance.session_file import read_logs  # noqa: E402
from proved_walk import judge  # noqa: E402

PAGE = TOP / "bindings" / "web" / "index.html"
LONG_BYTES = 1_400_000
FOLDERS = ("examples", "tests/captures/data", "conformance/recorded", "conformance/clients", "conformance/fuzzed")
# Every EACH-th faulty authenticator is recorded, and these conforming ones are recorded in every SESSIONS-th session.
EACH, CONFORMING, SESSIONS = 7, ("plain", "fingerprint_and_pin", "attestation_x5c_eddsa"), 45

JUDGE_SCRIPT = """
const [text, done] = arguments;
hidlogCard.judge(hidlogBytes.fromBase64(text))
    .then(({ findings, notes, total }) => done({ findings, notes, total }), (error) => done({ refused: error.message }));
"""


def judge_in_python(log: bytes) -> Dict[str, Any]:
    """Returns the Python package's judgement of a log."""
    try:
        found = judge(log)
    except LogError as error:
        return {"refused": str(error)}
    findings = [judged_report.to_finding_object(finding) for finding in found.findings]
    return {"findings": findings, "notes": judged_report.list_notes(found), "total": judged_report.format_total(found)}


def iter_recordings() -> Iterator[Tuple[str, bytes]]:
    """Yields recordings of faulty authenticators and of conforming ones, with their names."""
    for name in list(judged.MUTANTS)[::EACH]:
        try:
            for session, log, _ in itertools.islice(judged.iter_recordings(name), 1):
                yield f"{name} at {session}", log
        except OSError:
            continue
    for name in CONFORMING:
        device = judged.ReferenceDevice(judged.VARIANTS[name].traits)
        options = judged.parse_options(["--device", "reference", "--touch", "--reset"])
        device_info = judged.DeviceInfo.ask(device, True)
        recorder = judged.Recorder(device)
        first = judged.record_get_info(device, recorder)
        for session in judged.all_sessions()[::SESSIONS]:
            if judged.play_one(device, session, options, device_info).status != "skip":
                yield f"{name} at {session.name}", recorder.log(first)


def iter_logs(folders: List[str]) -> Iterator[Tuple[str, bytes]]:
    """Yields all logs with their names."""
    for folder in (*FOLDERS, *folders):
        for path in sorted((TOP / folder).rglob("*.log")):
            yield str(path), path.read_bytes()
        for path in sorted((TOP / folder).rglob("*.logs")):
            yield from ((f"{path}: {name}", log) for name, log in read_logs(str(path)).items())
    yield "no log", b"> 1 zz\n"
    # The page judges a log of this length in several parts.
    session = (TOP / "examples" / "failing" / "excluded_credential.log").read_bytes()
    long = session * (1 + LONG_BYTES // len(session))
    yield "a long log", long
    yield "a long log with an invalid line", long + b"> 1 zz\n"
    yield from iter_recordings()


def main(folders: List[str]) -> int:
    """Compares the page's judgements with the package's."""
    if not is_installed():
        print("tests/web: chromedriver is missing (apt-get install chromium-driver)", file=sys.stderr)
        return 3
    count = findings = 0
    wrong: List[str] = []
    with Driver() as driver:
        driver.open(PAGE.as_uri())
        driver.wait_for("document.documentElement.dataset.ready")
        for name, log in iter_logs(folders):
            actual = driver.run(JUDGE_SCRIPT, base64.b64encode(log).decode())
            expected = judge_in_python(log)
            count, findings = count + 1, findings + len(expected.get("findings", []))
            if actual != expected:
                wrong.append(
                    f"{name}:\n    Python: {json.dumps(expected)[:700]}\n    page:   {json.dumps(actual)[:700]}"
                )
    print("\n".join(wrong[:10]))
    print(f"{count} logs with {findings} findings compared between the page and Python; differences: {len(wrong)}")
    return 1 if wrong else 0


if __name__ == "__main__":
    sys.exit(main(sys.argv[1:]))
