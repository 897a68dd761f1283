"""Captures of real recorders, also after conversion to other formats, give logs with the packets that the key
logged."""

from __future__ import annotations

import gzip
import subprocess
import sys
from pathlib import Path

import pytest
from compare import describe_agreement, read_packets
from test_export import LOGS
from variants import Event, encode_pcap, encode_usbpcap, read_transfers, to_pcapng

import hidlog
from hidlog.captures import CaptureError, Recorded, inference, log_writer, packet_store, read
from hidlog.captures import to_pcapng as to_pcapng_of_log

DATA = Path(__file__).resolve().parent / "data"
SAME_PACKETS = "the same packets"


def read_log(session: str) -> list[tuple[bytes, bytes]]:
    return read_packets((DATA / f"{session}.log").read_bytes())


def read_single_capture(capture: bytes | Path) -> Recorded:
    (found,) = read(capture)
    return found


def read_events(name: str = "libfido2_register.pcap") -> list[Event]:
    return read_transfers((DATA / name).read_bytes())


@pytest.mark.parametrize(
    "name, wanted",
    [
        ("libfido2_register.pcap", SAME_PACKETS),
        ("keyboard_beside.48.pcap", SAME_PACKETS),
        ("python_cancel.pcapng", SAME_PACKETS),
        ("qemu_mixed.qemu.pcap", SAME_PACKETS),
        ("killed.pcapng", "82 of 82 packets, in the same order in each direction"),
        ("two_clients.48.pcap", "69 of 69 packets, in the same order in each direction"),
        ("partly.late.pcap", SAME_PACKETS + " from number 19 on, 28 of 46"),
        ("partly.two_interfaces.pcapng", SAME_PACKETS + " from number 19 on, 28 of 46"),
        ("partly.killed.pcap", SAME_PACKETS + " from number 19 on, 17 of 46"),
        ("partly.snap80.pcapng", "12 of 46 packets, in the same order"),
        ("libfido2_register.usbmon.txt", "27 of 46 packets, in the same order"),
        ("libfido2_register.fido_debug.txt", "33 of 46 packets, in the same order"),
        ("python_cancel.python_debug.txt", "21 of 22 packets, in the same order"),
        ("strace_register.device.strace.txt", SAME_PACKETS + " from number 36 on, 17 of 69"),
    ],
)
def test_a_capture_agrees_with_the_keys_log(name: str, wanted: str) -> None:
    assert (
        describe_agreement(read_packets(read_single_capture(DATA / name).log), read_log(name.split(".")[0])) == wanted
    )


@pytest.mark.parametrize("name", ["libfido2_register.pcap", "keyboard_beside.48.pcap", "python_cancel.pcapng"])
def test_the_key_does_with_derived_replies_what_was_recorded(name: str) -> None:
    """Replaying the log with the inferred timestamps, replies, key pairs and signatures gives the recorded packets."""
    log = read_single_capture(DATA / name).log
    assert hidlog.check(log).status == 0
    assert (b"# derived: " in log) == (b"\np " in log) == (name != "python_cancel.pcapng")


@pytest.mark.parametrize("order", ["<", ">"])
@pytest.mark.parametrize("nano", [False, True])
@pytest.mark.parametrize("long", [False, True])
def test_byte_orders_units_and_headers(order: str, nano: bool, long: bool) -> None:
    log = read_single_capture(encode_pcap(read_events(), order, nano, long)).log
    assert (
        read_packets(log) == read_log("libfido2_register")
        and log == read_single_capture(DATA / "libfido2_register.pcap").log
    )


@pytest.mark.parametrize("order", ["<", ">"])
@pytest.mark.parametrize("resolution", [3, 6, 9])
def test_pcapng_in_other_forms(order: str, resolution: int) -> None:
    assert read_packets(read_single_capture(to_pcapng([read_events()], order, resolution)).log) == read_log(
        "libfido2_register"
    )


def test_usbpcap() -> None:
    assert read_packets(read_single_capture(encode_usbpcap(read_events())).log) == read_log("libfido2_register")


def test_usbpcap_as_tshark_reads_it(tmp_path: Path) -> None:
    """tshark reads the same packets from the file that this test writes."""
    file = tmp_path / "usbpcap.pcap"
    file.write_bytes(encode_usbpcap(read_events()))
    words: list[str | Path] = [
        "tshark",
        "-r",
        file,
        "-Y",
        "usb.data_len==64",
        "-T",
        "fields",
        "-e",
        "usbhid.data",
        "-e",
        "usb.capdata",
    ]
    output = subprocess.run(words, check=True, capture_output=True, text=True).stdout.split()
    assert [bytes.fromhex(item) for item in output] == [data for _, data in read_log("libfido2_register")]


def test_several_keys_are_named() -> None:
    other = [event._replace(device=9, number=event.number + 1) for event in read_events("keyboard_beside.48.pcap")]
    found = read(encode_pcap(sorted(read_events() + other, key=lambda item: item.micros)))
    assert describe_agreement(read_packets(found[0].log), read_log("libfido2_register")) == SAME_PACKETS
    assert describe_agreement(read_packets(found[1].log), read_log("keyboard_beside")) == SAME_PACKETS
    assert [result.name for result in found] == ["bus 1 device 3 interface 0", "bus 1 device 9 interface 1"]


def test_a_key_that_is_plugged_in_again_under_the_same_number() -> None:
    first = read_events()
    end = first[-1].micros
    gone = first[-1]._replace(device=3, event=b"C", kind=1, endpoint=0x81, status=-108, data=b"", length=0, setup=b"")
    again = [
        item._replace(micros=item.micros + end, device=3)
        for item in read_events("keyboard_beside.48.pcap")
        if item.device == 16
    ]
    found = read(encode_pcap([*first, gone, *again]))
    assert [result.name for result in found] == [
        "bus 1 device 3 interface 0",
        "bus 1 device 3 interface 1, plugged in again (2)",
    ]
    assert describe_agreement(read_packets(found[0].log), read_log("libfido2_register")) == SAME_PACKETS
    assert describe_agreement(read_packets(found[1].log), read_log("keyboard_beside")) == SAME_PACKETS


def test_report_numbers_are_stripped() -> None:
    numbered = []
    for event in read_events():
        if event.kind == 1 and len(event.data) == 64:
            event = event._replace(data=b"\0" + event.data, length=65)
        numbered.append(event)
    assert read_packets(read_single_capture(encode_pcap(numbered)).log) == read_log("libfido2_register")


def test_reports_set_over_endpoint_0() -> None:
    changed = []
    for event in read_events():
        if event.kind == 1 and event.endpoint == 1:
            setup = b"\x21\x09\x00\x02\x00\x00\x40\x00" if event.event == b"S" else b""
            event = event._replace(kind=2, endpoint=0, setup=setup)
        changed.append(event)
    assert read_packets(read_single_capture(encode_pcap(changed)).log) == read_log("libfido2_register")


def test_a_packet_that_was_not_delivered_is_a_comment() -> None:
    changed = read_events()
    place = max(
        number
        for number, transfer in enumerate(changed)
        if transfer.event == b"C" and transfer.endpoint == 1 and transfer.kind == 1
    )
    changed[place] = changed[place]._replace(status=-108, length=0)
    log = read_single_capture(encode_pcap(changed)).log
    assert (
        b"# not delivered (status -108): > " in log and len(read_packets(log)) == len(read_log("libfido2_register")) - 1
    )


def test_a_packet_that_came_as_its_transfer_was_ended_counts() -> None:
    assert (
        b"# the next packet came as its transfer was ended (status -2): nobody read it\n"
        in read_single_capture(DATA / "killed.pcapng").log
    )


def test_truncated_packets_are_reported() -> None:
    for name in ("partly.snap80.pcapng", "libfido2_register.usbmon.txt"):
        log = read_single_capture(DATA / name).log
        assert b"the capture lacks some bytes of " in log and b"# cut to " in log
    assert "usbmon's text has only 32 bytes" in "".join(
        read_single_capture(DATA / "libfido2_register.usbmon.txt").notes
    )
    assert "truncated in its last record" in "".join(read_single_capture(DATA / "partly.killed.pcap").notes)


def test_a_cut_capture_gives_what_is_before_the_cut() -> None:
    whole = (DATA / "python_cancel.pcapng").read_bytes()
    for end in range(8000, len(whole) - 1, 97):
        (found,) = read(whole[:end])
        assert describe_agreement(read_packets(found.log), read_log("python_cancel")).startswith(SAME_PACKETS)
        assert any("truncated" in note or "invalid" in note for note in found.notes)


def test_forms_of_strace() -> None:
    """Output of strace 6.1 with paths, instruction pointers, threads, relative timestamps and interruptions."""
    greeting, greeted = read_log("python_cancel")[:2]
    sent = '"\\0' + "".join(f"\\x{item:02x}" for item in greeting[1]) + '"'
    came = (
        '"'
        + "".join(f"\\{element:o}" if element < 8 or element > 63 else f"\\{element:03o}" for element in greeted[1])
        + '"'
    )
    forms = [
        ("12:00:01.5 write(5</dev/hidraw0>, {}, 65) = 65", "12:00:01.6 read(5</dev/hidraw0>, {}, 64) = 64"),
        ("write(5<\\x2f\\x64\\x65\\x76\\x2fhidraw3>, {}, 65) = 65", "read(5<\\x2f\\x64\\x65\\x76\\x2fhidraw3>, {}, 64) = 64"),
        ("[00007f0baab6] write(5, {}, 65) = 65 <0.1>", "[00007f0baab6] read(5, {}, 64) = 64 <0.2>"),
        ("[pid  77] write(5, {}, 65) = 65",
         "[pid  77] read(5,  <unfinished ...>\n[pid 78] close(9) = 0\n[pid  77] <... read resumed>{}, 64) = 64"),
        ("1234       0.000120 write(5, {}, 65) = 65", "1234       0.010000 read(5, {}, 64) = 64"),
    ]  # fmt: skip
    for write, reads in forms:
        text = "\n".join([write.format(sent), reads.format(came), ""])
        assert read_packets(read_single_capture(text.encode()).log) == [greeting, greeted], write
    log = read_single_capture(
        "\n".join([*(form.format(data) for form, data in zip(forms[4], (sent, came))), ""]).encode()
    ).log
    assert b"\n> 0 " in log


def test_libfido2_before_1_5() -> None:
    nonce, packet = bytes(range(8)), read_log("python_cancel")[1][1]
    lines = [
        "fido_tx: d=0x55c9, cmd=0x86, buf=0x7ffd, count=8",
        nonce.hex(" ") + " ",
        "rx: initiation packet at 0x7ffe",
    ]
    lines += [packet[place : place + 16].hex(" ") + " " for place in range(0, 64, 16)]
    (_, asked), (_, came) = read_packets(read_single_capture("\n".join(lines).encode()).log)
    assert asked[:15].hex() == "ffffffff860008" + nonce.hex() and came == packet


def test_a_capture_that_is_packed() -> None:
    data = (DATA / "python_cancel.pcapng").read_bytes()
    assert read_single_capture(gzip.compress(data)).log == read_single_capture(data).log
    assert any("truncated" in note for note in read_single_capture(gzip.compress(data)[:-900]).notes)


def test_an_interface_that_began_late() -> None:
    """If there is a complete recording and one that has only the end, the longer one is used."""
    found = read_single_capture(to_pcapng([read_events()[60:], read_events()]))
    assert describe_agreement(read_packets(found.log), read_log("libfido2_register")) == SAME_PACKETS
    assert any("has the same packets, and is left out" in note for note in found.notes)


def test_chromiums_device_log() -> None:
    text = """
FIDODebug[10:00:01.250] <- 4 (no payload)
FIDODebug[10:00:01.300] -> {1: ["FIDO_2_0"], 3: h'00000000000000000000000000000000'}
FIDODebug[10:00:02] <- 1 {1: h'AB', 2: {"id": "example.com"}, 4: [{"alg": -7, "type": "public-key"}]}
FIDODebug[10:00:05] -> (CTAP2 error code 39)
"""
    log = read_single_capture(text.encode()).log
    assert [data[7:12].hex() for _, data in read_packets(log)] == [
        "0400000000",
        "00a2018168",
        "01a30141ab",
        "2700000000",
    ]
    assert b"\n> 750 " in log and b"\np 3750 denied\n" in log


def test_a_message_that_no_packets_hold_is_left_out() -> None:
    """A message longer than 7,609 bytes, the maximum of CTAPHID, is omitted."""
    found = read_single_capture(
        b"FIDODebug[10:00:01] <- 4 (no payload)\nFIDODebug[10:00:02] <- 1 {1: h'" + b"ab" * 7609 + b"'}\n"
    )
    assert [data[7:8].hex() for _, data in read_packets(found.log)] == ["04"]
    assert any("at most 7609" in note and "skipped" in note for note in found.notes), found.notes


@pytest.mark.parametrize(
    "data, message",
    [
        (b"", "the capture is empty"),
        (b"> 0 00\n", "unrecognized text capture"),
        (b"\x7fELF\0\0", "unrecognized capture file"),
        (b"\xd4\xc3\xb2\xa1\0\0", "ends within pcap's file header"),
        (encode_pcap([])[:20] + b"\x01\0\0\0" + bytes(32), "link type 1 (Ethernet)"),
        (encode_pcap([]), "no security key found in the capture"),
        (to_pcapng([[]]) + b"\6\0\0\0\3\0\0\0", "invalid at byte"),
    ],
)
def test_an_unsupported_file_is_reported(data: bytes, message: str) -> None:
    with pytest.raises(CaptureError, match=message.replace("(", r"\(").replace(")", r"\)")):
        read(data)


def list_captures() -> list[bytes]:
    """Returns the captures of real recorders, and some sessions in the form of captures of an unknown program."""
    captures = [path.read_bytes() for path in sorted(DATA.iterdir()) if path.suffix != ".log"]
    sessions = [to_pcapng_of_log(log.read_bytes()).replace(b"hidlog", b"others") for log in LOGS[::5]]
    return captures + [session for session in sessions if has_key(session)]


def has_key(capture: bytes) -> bool:
    try:
        return bool(read(capture))
    except CaptureError:
        return False


def test_replies_do_not_depend_on_how_many_packets_are_held(monkeypatch: pytest.MonkeyPatch) -> None:
    """Inferring replies from the packets of one transaction at a time gives the same log as inferring them from the
    whole session."""
    infer = inference.infer_replies
    logs: list[list[bytes]] = []
    captures = list_captures()
    assert len(captures) > 150
    for window in (1 << 30, 1, 10):
        monkeypatch.setattr(log_writer, "infer_replies", lambda placed, window=window: infer(placed, window))
        monkeypatch.setattr(inference, "_MAX_WINDOW", 1 << 30)
        logs.append([found.log for capture in captures for found in read(capture)])
    assert logs[0] == logs[1] == logs[2]
    assert sum(log.count(b"# derived: ") for log in logs[0]) > 100


def test_a_transaction_that_stays_open(monkeypatch: pytest.MonkeyPatch) -> None:
    """If at most eight packets are held, fewer replies are inferred for a longer transaction, but no packet is lost."""
    captures = list_captures()
    before = [found.log for capture in captures for found in read(capture)]
    infer, replies, held = inference.infer_replies, inference._Replies, []

    def count_held(placed: list[inference.TimedPacket]) -> inference._Replies:
        held.append(len(placed))
        return replies(placed)

    monkeypatch.setattr(log_writer, "infer_replies", lambda placed: infer(placed, 1))
    monkeypatch.setattr(inference, "_MAX_WINDOW", 8)
    monkeypatch.setattr(inference, "_Replies", count_held)
    logs = [found.log for capture in captures for found in read(capture)]
    assert max(held) == 8
    assert [read_packets(log) for log in logs] == [read_packets(log) for log in before]
    assert 0 < sum(log.count(b"# derived: ") for log in logs) < sum(log.count(b"# derived: ") for log in before)
    assert all(hidlog.quiet(log).status == 0 for log in logs)


def test_packets_in_a_file(monkeypatch: pytest.MonkeyPatch) -> None:
    """Packets in a file, which is read in pieces of any length, give the same log as packets in memory."""
    before = [read(capture) for capture in list_captures()]
    monkeypatch.setattr(packet_store, "_MAX_IN_MEMORY", 100)
    for length in (1, 333):
        monkeypatch.setattr(packet_store, "_BLOCK_BYTES", length)
        assert [read(capture) for capture in list_captures()] == before


def run_hidlog(*words: str | Path, standard_input: bytes = b"") -> subprocess.CompletedProcess[bytes]:
    command: list[str | Path] = [sys.executable, "-m", "hidlog", *words]
    return subprocess.run(command, input=standard_input, capture_output=True, check=False)


def test_the_command() -> None:
    path = DATA / "python_cancel.pcapng"
    ran = run_hidlog("import", path)
    assert (
        ran.returncode == 0
        and ran.stdout == read_single_capture(path).log
        and b"note: the device is 1209:0001\n" in ran.stderr
    )
    assert run_hidlog("import", "-", standard_input=path.read_bytes()).stdout == ran.stdout
    listed = run_hidlog("import", "--list", path)
    assert listed.stdout == b"1 bus 1 device 8 interface 0: 7 packets to the key, 15 from it\n"
    missing = run_hidlog("import", "nothing.pcap")
    assert missing.returncode == 2 and missing.stderr == b"hidlog import: nothing.pcap: No such file or directory\n"
    wrong = run_hidlog("import", "--key", "2", path)
    assert wrong.returncode == 2 and b"no key 2" in wrong.stderr and not wrong.stdout
    assert b"p " not in b"".join(line[:2] for line in run_hidlog("import", "--packets-only", path).stdout.split(b"\n"))


def test_several_keys_at_the_command(tmp_path: Path) -> None:
    other = [event._replace(device=9, number=event.number + 1) for event in read_events("keyboard_beside.48.pcap")]
    file = tmp_path / "two.pcap"
    file.write_bytes(encode_pcap(read_events() + other))
    ran = run_hidlog("import", file)
    assert (
        ran.returncode == 2
        and b"has several keys; select a key with --key 1 to --key 2\n  1 bus 1 device 3" in ran.stderr
    )
    assert read_packets(run_hidlog("import", "--key", "2", file).stdout) == read_log("keyboard_beside")


def test_a_session_log_is_no_capture() -> None:
    log = DATA.parents[2] / "examples" / "registration.log"
    ran = subprocess.run([sys.executable, "-m", "hidlog", "import", log], capture_output=True, text=True)
    expected = f"hidlog import: {log}: the file is already a session log: use `hidlog show` or `hidlog judge`\n"
    assert (ran.returncode, ran.stderr) == (2, expected)
