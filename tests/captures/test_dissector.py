"""tshark with the dissector prints the same commands, statuses and members as `show`."""

from __future__ import annotations

import json
import re
import subprocess
from collections.abc import Iterator
from pathlib import Path
from typing import Any

import pytest
from variants import encode_usbpcap, read_transfers

from hidlog.captures import to_pcapng
from hidlog_conformance.session_cache import sessions_folder

TOP = Path(__file__).resolve().parents[2]
PROGRAM = TOP / "release" / "hidlog"
DISSECTOR = TOP / "dissector" / "ctaphid.lua"
FIELDS = (
    "frame.section_number",
    "usb.endpoint_address",
    "ctaphid.channel",
    "ctaphid.command",
    "ctaphid.length",
    "ctaphid.sequence",
    "ctaphid.data",
    "ctaphid.error",
    "ctaphid.keepalive",
    "ctap2.request",
    "ctap2.status",
    "ctap2.answers",
    "ctap2.item",
    "ctap2.member",
    "_ws.expert.message",
)
SEPARATOR = "\x1f"
Row = dict[str, str]


def list_sessions() -> list[Path]:
    """Returns the examples, recordings of clients, every fifth conformance session, and the data of these tests."""
    found = sorted((TOP / "conformance" / "recorded").glob("*.log")) + sorted(
        (TOP / "tests/captures/data").glob("*.log")
    )
    found += [path for path in sorted((TOP / "examples").glob("*.log"))]
    return found + sorted(Path(sessions_folder()).glob("**/*.log"))[::5]


def dissect(files: list[Path], folder: Path) -> dict[int, list[Row]]:
    """Returns tshark's fields for each frame that contains a packet, by the index of the session."""
    capture = folder / "sessions.pcapng"
    capture.write_bytes(b"".join(to_pcapng(replay(path)) for path in files))
    words = ["tshark", "-X", f"lua_script:{DISSECTOR}", "-r", str(capture), "-Y", "ctaphid", "-T", "fields"]
    words += [word for name in FIELDS for word in ("-e", name)]
    words += ["-E", "separator=/t", "-E", "occurrence=a", "-E", f"aggregator={SEPARATOR}"]
    output = subprocess.run(words, check=True, capture_output=True, text=True).stdout
    found: dict[int, list[Row]] = {number: [] for number in range(len(files))}
    for line in output.splitlines():
        row = dict(zip(FIELDS, line.split("\t")))
        found[int(row["frame.section_number"]) - 1].append(row)
    return found


def replay(path: Path) -> bytes:
    """Returns a session with the packets of the key, which conformance sessions do not contain."""
    log = path.read_bytes()
    if b"\n< " in log:
        return log
    return subprocess.run([PROGRAM, "replay"], input=log, check=True, capture_output=True).stdout


def iter_shown_objects(path: Path) -> Iterator[dict[str, Any]]:
    """Yields the objects of `show --json`. The lines about members are added to the object of each item."""
    log = replay(path)
    output = subprocess.run([PROGRAM, "show", "--json"], input=log, check=True, capture_output=True).stdout
    lines = subprocess.run([PROGRAM, "show", "--explain"], input=log, check=True, capture_output=True).stdout
    members: dict[int, list[str]] = {}
    for line in lines.decode().splitlines():
        if found := re.fullmatch(r"(\d+)     (-?\w.*|\".*|h'.*)", line):
            members.setdefault(int(found[1]), []).append(found[2])
    for line in output.decode().splitlines():
        entry = json.loads(line)
        if entry["kind"] in ("request", "answer"):
            entry["members"] = members.get(entry["line"], [])
        yield entry


def list_packet_properties(mapping: dict[str, Any]) -> tuple[object, ...]:
    """Returns the properties of a packet that are compared between tshark and `show`."""
    code = mapping.get("code")
    of_key = mapping["from"] == "key"
    return (
        of_key,
        int(mapping["channel"], 16),
        mapping.get("command"),
        mapping.get("length"),
        mapping.get("sequence"),
        # Padding is not compared.
        mapping["data"].rstrip("0"),
        code if of_key and mapping.get("command") == 0x3F else None,
        code if of_key and mapping.get("command") == 0x3B else None,
    )


def parse_number(text: str) -> int | None:
    return int(text, 0) if text else None


def parse_packet_row(row: Row) -> tuple[object, ...]:
    names = ("channel", "command", "length", "sequence")
    head = [parse_number(row[f"ctaphid.{name}"]) for name in names]
    codes = [parse_number(row[f"ctaphid.{name}"]) for name in ("error", "keepalive")]
    return (
        int(row["usb.endpoint_address"], 0) >= 0x80,
        *head,
        row["ctaphid.data"].replace(":", "").rstrip("0"),
        *codes,
    )


def parse_message_row(row: Row) -> tuple[object, ...]:
    members = [part for part in row["ctap2.member"].split(SEPARATOR) if part]
    return (parse_number(row["ctap2.request"]), parse_number(row["ctap2.status"]), row["ctap2.item"], members)


def unescape(text: str) -> str:
    """Returns tshark's output without the escaping of backslashes."""
    return text.replace("\\\\", "\\")


def list_message_properties(mapping: dict[str, Any]) -> tuple[object, ...]:
    request = mapping["command"] if mapping["kind"] == "request" else None
    return (request, mapping.get("status"), mapping.get("item", ""), mapping["members"])


@pytest.fixture(scope="module")
def compared_output(tmp_path_factory: pytest.TempPathFactory) -> list[tuple[Path, list[Row], list[dict[str, Any]]]]:
    files = list_sessions()
    rows = dissect(files, tmp_path_factory.mktemp("dissected"))
    return [(path, rows[number], list(iter_shown_objects(path))) for number, path in enumerate(files)]


ComparedOutput = list[tuple[Path, list[Row], list[dict[str, Any]]]]


def test_each_packet_is_the_same(compared_output: ComparedOutput) -> None:
    assert len(compared_output) >= 200
    for path, rows, objects in compared_output:
        of_channels = [
            other_object
            for other_object in objects
            if other_object["kind"] == "packet" and other_object["channel"] != "00000000"
        ]
        assert [parse_packet_row(row) for row in rows] == [list_packet_properties(item) for item in of_channels], path


def test_each_message_is_the_same(compared_output: ComparedOutput) -> None:
    """If packets of several messages are interleaved, `show` assembles only the message that began last."""
    compared, more = 0, 0
    for path, rows, objects in compared_output:
        seen = [
            parse_message_row(other_row)
            for other_row in rows
            if other_row["ctap2.request"] or other_row["ctap2.status"]
        ]
        of_messages = [item for item in objects if item["kind"] in ("request", "answer")]
        messages = [
            list_message_properties(other_message)
            for other_message in of_messages
            if other_message["channel"] != "00000000"
        ]
        rest = iter(seen)
        for element in messages:
            found = next((row for row in rest if is_same_message(row, element)), None)
            assert found, (path, element, seen)
            compared += 1
        more += len(seen) - len(messages)
    print(f"{len(compared_output)} sessions, {compared} messages, {more} more of the dissector")
    assert compared > 300 and more < 10, (compared, more)


def is_same_message(row: tuple[object, ...], item: tuple[object, ...]) -> bool:
    members = [unescape(str(name)) for name in row[3]] if isinstance(row[3], list) else []
    named = item[3] if isinstance(item[3], list) else []
    return row[:2] == item[:2] and unescape(str(row[2])) == item[2] and (not named or members == named)


def test_faults_and_errors_are_expert_infos(compared_output: ComparedOutput) -> None:
    faults = errors = 0
    for path, rows, objects in compared_output:
        marked = [row for row in rows if "not canonical CBOR" in row["_ws.expert.message"]]
        wanted = [item for item in objects if item["kind"] in ("request", "answer") and "fault" in item]
        assert len(marked) >= len(wanted), path
        refused = [row for row in rows if row["ctaphid.error"]]
        assert all("ERR_" in row["_ws.expert.message"] for row in refused), path
        faults, errors = faults + len(wanted), errors + len(refused)
    assert faults > 20 and errors > 20, (faults, errors)


def test_captures_of_other_recorders(tmp_path: Path) -> None:
    """The dissector also reads captures of qemu, which have no descriptors, and of USBPcap."""
    data = TOP / "tests" / "captures" / "data"
    usbpcap = tmp_path / "usbpcap.pcap"
    usbpcap.write_bytes(encode_usbpcap(read_transfers((data / "libfido2_register.pcap").read_bytes())))
    for path, count in ((data / "qemu_mixed.qemu.pcap", 146), (usbpcap, 46), (data / "keyboard_beside.48.pcap", 46)):
        words = ["tshark", "-X", f"lua_script:{DISSECTOR}", "-r", str(path), "-Y", "ctaphid"]
        output = subprocess.run(words, check=True, capture_output=True, text=True).stdout.splitlines()
        assert (
            len(output) == count
            and "INIT 8" in output[0]
            and any("authenticatorMakeCredential" in item for item in output)
        )
