#!/usr/bin/env python3
"""Opens logs in bindings/web/index.html, and checks that its card says who is at fault, in which line and why, without
a click.

The logs are the failing examples, with the causes of docs/use/TROUBLESHOOTING.md; captures of sessions in which nobody
is at fault; and recordings of authenticators with an injected fault and of conforming ones. The exit status is 3 without
chromedriver.
"""

from __future__ import annotations

import base64
import sys
from pathlib import Path
from typing import Any, Dict, Iterator, List, Tuple

TOP = Path(__file__).resolve().parents[2]
sys.path[:0] = [str(TOP / "conformance"), str(TOP / "bindings" / "python" / "src"), str(TOP / "tests" / "web")]

from driver import Driver, is_installed  # noqa: E402
from judge_parity import iter_recordings, judge_in_python  # noqa: E402

PAGE = TOP / "bindings" / "web" / "index.html"
FAILING_FOLDER = TOP / "examples" / "failing"
CAPTURES = TOP / "tests" / "captures" / "data"

# For each failing example: the side, the line, and a part of the reason, as docs/use/TROUBLESHOOTING.md has them.
EXAMPLES = {
    "busy_channel": ("host", 11, "a request is waiting on this channel"),
    "changed_request": ("caller", 41, "a signature that verifies under the registered key"),
    "denied_user": ("user", 17, "the user refused"),
    "excluded_credential": ("host", 32, "excludeList[0] is the credential of line 30"),
    "lost_packet": ("host", 6, "expected sequence number 0, got 1"),
    "noncanonical_cbor": ("host", 4, "not canonical CBOR at byte 125: KeyOrder"),
    "stale_sign_count": ("key", 66, "The log has signCount 1; the key sends signCount 2"),
    "truncated": ("capture", 49, "its last line ends after 49 characters"),
    "two_clients": ("host", 14, "Channel 00000001 is busy"),
    "wrong_rp_id": ("host", 32, "allowList names no credential of this RP on this key"),
    "wrong_snapshot": ("capture", 7, "allowList names no credential of this RP on this key"),
}
# A capture whose packets are cut off: the page cannot read it.
UNREADABLE_CAPTURE = "partly.snap80.pcapng"
CONFORMING_PREFIXES = ("plain ", "fingerprint_and_pin ", "attestation_x5c_eddsa ")

OPEN_SCRIPT = """
const [name, text, done] = arguments;
delete document.getElementById("diagnosis").dataset.level;
const files = new DataTransfer();
files.items.add(new File([hidlogBytes.fromBase64(text)], name));
document.dispatchEvent(new DragEvent("drop", { dataTransfer: files, cancelable: true }));
done();
"""
READ_SCRIPT = """
const card = document.getElementById("diagnosis");
const row = document.querySelector(".row[aria-selected=true]");
const box = row?.getBoundingClientRect();
const around = document.getElementById("scroller").getBoundingClientRect();
arguments[0]({
    ...card.dataset, text: card.textContent, row: row?.firstChild.textContent ?? "",
    mark: row?.querySelector(".finding")?.textContent ?? "",
    isInSight: Boolean(box) && box.top >= around.top - 1 && box.bottom <= around.bottom + 1,
    hasDetail: !document.getElementById("detail").hidden,
});
"""


def diagnose(driver: Any, name: str, data: bytes) -> Dict[str, Any]:
    """Opens a log in a new page, and returns what its card and its selected row say."""
    driver.open(PAGE.as_uri())
    driver.wait_for("document.documentElement.dataset.ready")
    driver.run(OPEN_SCRIPT, name, base64.b64encode(data).decode())
    driver.wait_for("document.getElementById('diagnosis').dataset.level")
    driver.run("requestAnimationFrame(() => requestAnimationFrame(() => arguments[0]()))")
    return driver.run(READ_SCRIPT)


def iter_differences(name: str, card: Dict[str, Any], side: str, line: int, reason: str) -> Iterator[str]:
    """Yields how a card and its row differ from what is expected."""
    if (card["side"], card["line"]) != (side, str(line)) or reason.lower() not in card["text"].lower():
        yield f"{name}: not {side}, line {line}, {reason}, but {card['side']}, line {card['line']}: {card['text']}"
    is_marked = card["row"] == str(line) and side in card["mark"] and card["isInSight"] and card["hasDetail"]
    if line and not is_marked:
        yield f"{name}: the row of line {line} isn't marked, selected, in sight or explained: {card}"


def iter_example_errors(driver: Any) -> Iterator[str]:
    """Yields what is wrong with the cards of the failing examples, and whether EXAMPLES has all of them."""
    names = sorted(path.stem for path in FAILING_FOLDER.glob("*.log"))
    if names != sorted(EXAMPLES):
        yield f"the failing examples are {names}"
    for name, expected in EXAMPLES.items():
        card = diagnose(driver, f"{name}.log", (FAILING_FOLDER / f"{name}.log").read_bytes())
        yield from iter_differences(name, card, *expected)


def iter_capture_errors(driver: Any) -> Iterator[str]:
    """Yields what is wrong with the cards of the captures."""
    for path in sorted([*CAPTURES.glob("*.pcap"), *CAPTURES.glob("*.pcapng"), *CAPTURES.glob("*.log")]):
        card = diagnose(driver, path.name, path.read_bytes())
        if path.name == UNREADABLE_CAPTURE:
            yield from iter_differences(path.name, card, "capture", 0, "no security key with complete packets found")
        else:
            yield from iter_differences(path.name, card, "none", 0, "no rule of CTAP 2.1 is violated")


def iter_recording_errors(driver: Any) -> Iterator[str]:
    """Yields what is wrong with the cards of recordings of authenticators: the card must blame the key for an injected fault."""
    for name, log in iter_recordings():
        expected = judge_in_python(log)["findings"]
        must = [finding for finding in expected if finding["level"] == "must"]
        card = diagnose(driver, "recorded.log", log)
        if name.startswith(CONFORMING_PREFIXES):
            if card["side"] == "key" or "the key violates" in card["text"]:
                yield f"{name}: the key is blamed: {card['text']}"
        elif any(finding["side"] == "key" for finding in must) and "the key" not in card["text"].lower():
            yield f"{name}: the key is not named: {card['text']}"
        if must:
            first = must[0]
            yield from iter_differences(name, card, first["side"], first["line"], first["rule"])
        elif card["level"] == "fault":
            yield f"{name}: no MUST is violated, but: {card['text']}"


def main() -> int:
    """Checks all cards."""
    if not is_installed():
        print("tests/web: chromedriver is missing (apt-get install chromium-driver)", file=sys.stderr)
        return 3
    checks: List[Tuple[str, Any]] = [
        ("failing examples", iter_example_errors),
        ("captures", iter_capture_errors),
        ("recordings of authenticators", iter_recording_errors),
    ]
    failed = 0
    with Driver() as driver:
        for name, check in checks:
            wrong = list(check(driver))
            failed += len(wrong)
            print("\n".join([*wrong[:10], f"{'FAILED' if wrong else 'ok'}  the page's diagnosis of {name}"]))
    return 1 if failed else 0


if __name__ == "__main__":
    sys.exit(main())
