"""Failures of the package's commands: input files stay unchanged, invalid input is rejected, and a signal prints one
line."""

from __future__ import annotations

import gc
import gzip
import json
import os
import resource
import signal
import struct
import subprocess
import sys
import time
from collections.abc import Callable
from pathlib import Path

import pytest

import hidlog
from hidlog import entry_point, files
from hidlog.captures import CaptureError, read, to_pcapng

from test_logs import WITHOUT_PROGRAM

HIDLOG = [sys.executable, "-m", "hidlog"]
Example = Callable[[str], bytes]
Ran = subprocess.CompletedProcess[bytes]
# A line in the text format of usbmon.
TRUNCATED_USBMON = b"ffff8881 10 S Ii:1:003:1 -115 64 <\n"


def run_hidlog(folder: Path, *words: str, data: bytes = b"", prepare: Callable[[], None] | None = None) -> Ran:
    command = [*HIDLOG, *words]
    return subprocess.run(command, input=data, capture_output=True, cwd=folder, timeout=600, preexec_fn=prepare)


@pytest.fixture
def folder(tmp_path: Path, read_example: Example) -> Path:
    """Provides a directory that contains a log, its capture, and links to both."""
    (tmp_path / "log").write_bytes(read_example("registration.log"))
    (tmp_path / "capture").write_bytes(to_pcapng(read_example("registration.log")))
    for name in ("log", "capture"):
        (tmp_path / f"{name}.link").symlink_to(name)
        os.link(tmp_path / name, tmp_path / f"{name}.other")
    return tmp_path


@pytest.mark.parametrize("suffix", ["", ".link", ".other"])
@pytest.mark.parametrize("command, name", [("import", "capture"), ("export", "log")])
def test_the_input_is_not_the_output(folder: Path, command: str, name: str, suffix: str) -> None:
    before, listed = (folder / name).read_bytes(), sorted(os.listdir(folder))
    ran = run_hidlog(folder, command, name, "-o", name + suffix)
    assert ran.returncode == 2 and b"is the input file; use another" in ran.stderr
    with open(folder / name, "rb") as file:
        words = [*HIDLOG, command, "-", "-o", name + suffix]
        assert subprocess.run(words, stdin=file, cwd=folder, capture_output=True).returncode == 2
    assert (folder / name).read_bytes() == before and sorted(os.listdir(folder)) == listed


@pytest.mark.parametrize("command, name", [("import", "capture"), ("export", "log")])
def test_a_short_write_keeps_the_older_file(folder: Path, command: str, name: str) -> None:
    """If a write fails after 100 bytes of a file, the older file is kept."""
    (folder / "out").write_bytes(b"old")
    listed = sorted(os.listdir(folder))
    ran = run_hidlog(
        folder, command, name, "-o", "out", prepare=lambda: resource.setrlimit(resource.RLIMIT_FSIZE, (100, 100))
    )
    assert ran.returncode == 2 and ran.stderr.endswith(f"hidlog {command}: out: File too large\n".encode())
    assert (folder / "out").read_bytes() == b"old" and sorted(os.listdir(folder)) == listed


def test_an_output_keeps_its_mode_and_is_written_through_links(folder: Path) -> None:
    (folder / "out").write_bytes(b"old")
    (folder / "out").chmod(0o640)
    (folder / "link").symlink_to("out")
    assert run_hidlog(folder, "import", "capture", "-o", "link").returncode == 0
    assert (folder / "link").is_symlink() and (folder / "out").read_bytes() == (folder / "log").read_bytes()
    assert (folder / "out").stat().st_mode & 0o777 == 0o640
    assert run_hidlog(folder, "import", "capture", "-o", "/dev/stdout").stdout == (folder / "log").read_bytes()


@pytest.mark.parametrize("data", [b"", b"# nothing\n", b"t 1\nt 2\n"])
def test_an_empty_recording_is_a_failure(folder: Path, data: bytes) -> None:
    ran = run_hidlog(folder, "judge", "-", data=data)
    text = b"hidlog judge: standard input: the recording has no packets\n"
    assert (ran.returncode, ran.stdout, ran.stderr) == (2, b"", text)


def test_pipes_in_folders_are_skipped(folder: Path) -> None:
    logs = folder / "logs"
    (logs / "inner.log").mkdir(parents=True)
    (logs / "inner.log" / "one.log").write_bytes((folder / "log").read_bytes())
    os.mkfifo(logs / "pipe.log")
    (logs / "loop.log").symlink_to("loop.log")
    ran = run_hidlog(folder, "check-many", "logs")
    skipped = ["hidlog check-many: skipped logs/%s.log: not a regular file" % name for name in ("loop", "pipe")]
    assert (ran.returncode, ran.stdout) == (0, b"") and sorted(ran.stderr.decode().splitlines()) == [
        "1 match",
        *skipped,
    ]


@pytest.mark.parametrize("command", ["check-many", "judge", "import", "export"])
def test_a_pipe_without_a_writer_is_a_failure(folder: Path, command: str) -> None:
    os.mkfifo(folder / "pipe.log")
    ran = run_hidlog(folder, command, "pipe.log")
    assert ran.returncode == 2 and b"no program writes to this named pipe" in ran.stdout + ran.stderr


def test_a_pipe_with_a_writer_is_read(folder: Path) -> None:
    os.mkfifo(folder / "pipe.log")
    with subprocess.Popen(["cp", "--", "log", "pipe.log"], cwd=folder):
        assert run_hidlog(folder, "judge", "pipe.log").stdout == run_hidlog(folder, "judge", "log").stdout


@pytest.mark.parametrize(
    "words", ["import .", "export .", "judge .", "check-many ./.", "check --signatures .", "shrink . true"]
)
def test_a_folder_is_no_file(folder: Path, words: str) -> None:
    (folder / "x.log").mkdir()
    ran = run_hidlog(folder, *words.replace("./.", "x.log").split())
    assert ran.returncode == 2 and b"Traceback" not in ran.stderr and ran.stderr.count(b"3") == 0, ran.stderr


def test_an_unreadable_recording_is_a_failure_among_verdicts(folder: Path, read_example: Example) -> None:
    (folder / "broken.log").write_bytes(read_example("failing/stale_sign_count.log"))
    assert run_hidlog(folder, "check-many", "log", "broken.log").returncode == 1
    assert run_hidlog(folder, "check-many", "log", "broken.log", "nothing.log").returncode == 2


@pytest.mark.parametrize("data", [TRUNCATED_USBMON, b"FIDO <- 1 {1: 2}\n", b"\n", b"\0"])
def test_a_capture_that_unpacks_to_too_much_is_refused(data: bytes) -> None:
    """A file of about 1 MB that is unpacked to 1 GB is rejected."""
    piece = gzip.compress(TRUNCATED_USBMON + data * ((16 << 20) // len(data)))
    with pytest.raises(CaptureError, match="larger than 64 MiB, packed or unpacked; unpack it first"):
        read(piece * 64)


def test_a_packed_capture_is_read(folder: Path) -> None:
    packed = gzip.compress((folder / "capture").read_bytes())
    assert [item.log for item in read(packed)] == [(folder / "log").read_bytes()]
    for word in ("-", "capture.gz"):
        (folder / "capture.gz").write_bytes(packed)
        assert run_hidlog(folder, "import", word, data=packed).stdout == (folder / "log").read_bytes()


@pytest.mark.parametrize("seconds, ticks", [(0, 2**63), (0, 1795 * 10**15), (-(2**40), 5)])
def test_timestamps_that_no_clock_has(folder: Path, seconds: int, ticks: int) -> None:
    """A pcapng file with an offset in seconds for the interface, and timestamps in milliseconds."""
    packet = bytes.fromhex("ffffffff860008").ljust(64, b"\0")
    usb = struct.pack("<QcBBBHcc", 1, b"S", 1, 1, 7, 1, b"-", b"\0") + struct.pack("<qiiII", 0, 0, -115, 64, 64)
    frame = usb + bytes(24) + packet
    interface = struct.pack("<HHI", 220, 0, 0) + struct.pack("<HHB3x", 9, 1, 3) + struct.pack("<HHq", 14, 8, seconds)
    blocks = [
        (0x0A0D0D0A, struct.pack("<IHHq", 0x1A2B3C4D, 1, 0, -1)),
        (1, interface + bytes(4)),
        (6, struct.pack("<IIIII", 0, ticks >> 32, ticks & 0xFFFFFFFF, len(frame), len(frame)) + frame),
    ]
    data = b"".join(
        struct.pack("<II", kind, len(body) + 12) + body + struct.pack("<I", len(body) + 12) for kind, body in blocks
    )
    ran = run_hidlog(folder, "import", "-", data=data)
    assert (ran.returncode, ran.stdout, ran.stderr.count(b"\n")) == (2, b"", 1)
    assert b"standard input: the timestamp of packet 1 of bus 1 device 7 is " in ran.stderr


@pytest.mark.parametrize(
    "text",
    [
        b"ffff8881 " + b"9" * 5000 + b" S Ii:1:003:1 -115 64 <\n",
        b"ffff8881 10 S Ii:1:" + b"9" * 5000 + b":1 -115 64 <\n",
        b"fido_tx: dev=0x1, cmd=0x06\nfido_tx: buf=0x1, len=" + b"9" * 5000 + b"\n",
        b"fido_tx: d=0x1, cmd=0x06, buf=0x1, count=" + b"9" * 5000 + b"\nfido_rx: dev=0x1\n",
        b"FIDO <- 1 {1: " + b"9" * 5000 + b"}\n",
        b"FIDO <- 1 " + b"[" * 100000 + b"\n",
        b"1 10:00:00.000001 read(" + b"9" * 5000 + b', "a", 64) = ' + b"9" * 5000 + b"\n",
        b"10 " + b"9" * 5000 + b'.000001 write(3</dev/hidraw0>, "a", 65) = 65\n',
    ],
    ids=range(8),
)
def test_numbers_of_any_length(text: bytes) -> None:
    try:
        read(text)
    except CaptureError:
        pass


def run_browser(folder: Path, *lines: bytes) -> list[bytes]:
    ran = run_hidlog(folder, "browser", "--origin", "https://example.com", data=b"\n".join(lines))
    assert ran.returncode == 0, ran.stderr
    return ran.stdout.splitlines()


@pytest.mark.parametrize(
    "line, error, said",
    [
        (b"[" * 100_000, "SyntaxError", "nested too deeply"),
        (b'{"id": ' + b"[" * 980 + b"]" * 980 + b', "getLog": 0}', "", ""),
        (b'{"create": ' + b'{"":' * 100_000 + b"0" + b"}" * 100_001, "SyntaxError", "nested too deeply"),
        (b'{"id": "' + b"x" * (1 << 21) + b'", "getLog": 0}', "SyntaxError", "more than 1048576 bytes"),
        (b"\xff\xfe{}", "SyntaxError", "utf-8"),
        (b'{"id": NaN, "getLog": 0}', "TypeError", "NaN is not a JSON number"),
        (b'{"id": ' + b"9" * 5000 + b', "getLog": 0}', "", ""),
        (b'{"get": "\\ud800"}', "TypeError", ""),
    ],
    ids=range(8),
)
def test_a_browsers_process_goes_on_after_a_line_that_it_cannot_read(
    folder: Path, line: bytes, error: str, said: str
) -> None:
    first, last = run_browser(folder, line, b'{"id": 7, "getCredentials": 0}')
    assert json.loads(last) == {"id": 7, "value": []}
    refusal = json.loads(first) if error else {}
    assert not error or (refusal["error"] == error and said in refusal["message"]), refusal


@pytest.mark.parametrize("number, status", [(signal.SIGTERM, 143), (signal.SIGINT, 130), (signal.SIGHUP, 129)])
def test_a_signal_ends_a_command_in_a_line(folder: Path, number: int, status: int) -> None:
    command = [*HIDLOG, "browser", "--origin", "https://example.com"]
    with subprocess.Popen(command, stdin=-1, stdout=-1, stderr=-1, preexec_fn=restore_signals) as started:
        assert started.stdin and started.stdout and started.stderr
        started.stdin.write(b'{"id": 1, "getLog": 0}\n')
        started.stdin.flush()
        started.stdout.readline()  # waits until the command has started
        for _ in range(2):  # as `timeout` does
            started.send_signal(number)
        said = started.stderr.read()
    assert started.returncode == status and said.startswith(b"hidlog browser: ") and said.count(b"\n") == 1, said


def restore_signals() -> None:
    for number in (signal.SIGINT, signal.SIGTERM, signal.SIGHUP):
        signal.signal(number, signal.SIG_DFL)


@pytest.mark.parametrize("number, status", [(signal.SIGTERM, 143), (signal.SIGINT, 130)])
def test_shrink_writes_the_shortest_log_so_far(folder: Path, number: int, status: int) -> None:
    """The command receives a signal while it waits in its ninth run."""
    (folder / "long").write_bytes(b"".join(b"t %d\n" % index for index in range(100)) + b"p 100 granted\n")
    text = "echo >> runs; [ $(wc -l < runs) -lt 9 ] || { echo > waits; exec sleep 600; }; ! grep -q granted"
    command = [*HIDLOG, "shrink", "long", "sh", "-c", text]
    with subprocess.Popen(command, cwd=folder, stdout=-1, stderr=-1, preexec_fn=restore_signals) as started:
        assert started.stdout and started.stderr
        while not (folder / "waits").exists() and started.poll() is None:
            time.sleep(0.01)
        for _ in range(2):  # as `timeout` does
            started.send_signal(number)
        log, said = started.stdout.read(), started.stderr.read()
    lines = log.splitlines()
    assert started.returncode == status and lines[-1] == b"p 100 granted" and len(lines) < 101, said
    assert said.endswith(b"\nthe shortest log so far was written\n")


def test_shrink_writes_what_it_has_where_the_command_is_gone(folder: Path) -> None:
    (folder / "long").write_bytes(b"".join(b"t %d\n" % index for index in range(100)) + b"p 100 granted\n")
    (folder / "tool").write_text("#!/bin/sh\necho >> runs; [ $(wc -l < runs) -lt 9 ] || rm tool; ! grep -q granted\n")
    (folder / "tool").chmod(0o755)
    ran = run_hidlog(folder, "shrink", "long", "./tool")
    lines = ran.stdout.splitlines()
    assert ran.returncode == 2 and lines[-1] == b"p 100 granted" and len(lines) < 101
    assert ran.stderr.splitlines()[-2:] == [
        b"hidlog shrink: ./tool can't be run any longer: No such file or directory",
        b"the shortest log so far was written",
    ]


def test_live_answers_line_by_line_through_the_library(folder: Path) -> None:
    command = [sys.executable, "-c", WITHOUT_PROGRAM, "live"]
    with subprocess.Popen(command, stdin=-1, stdout=-1) as started:
        assert started.stdin and started.stdout
        for line in (folder / "log").read_bytes().splitlines(keepends=True):
            if not line.startswith((b"<", b"=")):
                started.stdin.write(line[:-1])
                started.stdin.flush()
                started.stdin.write(line[-1:])
                started.stdin.flush()
                assert started.stdout.readline() == line
                while line[:1] in b">tpks" and not started.stdout.readline().startswith(b"# need "):
                    pass
        started.stdin.close()
        assert started.stdout.read().startswith(b"= held ")
    assert started.returncode == 0


def test_a_key_that_is_never_closed_leaves_nothing() -> None:
    def count_open_files() -> int:
        gc.collect()
        return len(os.listdir("/proc/self/fd"))

    before = count_open_files()
    for _ in range(3):
        hidlog.Client(hidlog.SecurityKey(process=True))
    assert count_open_files() == before


@pytest.mark.parametrize(
    "error, said",
    [
        (MemoryError(), "out of memory"),
        (RecursionError("maximum recursion depth exceeded"), "the input is nested too deeply"),
        (OSError(5, "Input/output error", "a.log"), "a.log: Input/output error"),
        (BrokenPipeError(32, "Broken pipe"), "Broken pipe"),
        (ImportError("No module named 'x'"), "No module named 'x'"),
        (hidlog.HidlogError("two\nlines"), "two lines"),
    ],
)
def test_each_failure_is_one_line(error: Exception, said: str, capsys: pytest.CaptureFixture[str]) -> None:
    def fail() -> int:
        raise error

    assert entry_point.run("hidlog test", fail) == 2
    assert capsys.readouterr() == ("", f"hidlog test: {said}\n")


def test_a_mistake_of_the_package_has_no_verdicts_status(capsys: pytest.CaptureFixture[str]) -> None:
    def fail() -> int:
        raise KeyError("x")

    assert entry_point.run("hidlog test", fail) == 2 and "KeyError" in capsys.readouterr().err


def test_a_new_file_is_never_one_that_is_there(tmp_path: Path, monkeypatch: pytest.MonkeyPatch) -> None:
    """A new file is never created over an existing file, even one with the name of the temporary file."""
    monkeypatch.setattr(files, "token_hex", lambda _: "1")
    (tmp_path / ".log.1").write_bytes(b"another's")
    with pytest.raises(FileExistsError):
        files.write_atomically(tmp_path / "log", b"new")
    assert (tmp_path / ".log.1").read_bytes() == b"another's" and not (tmp_path / "log").exists()


def test_saved_keys_are_private_and_damage_is_refused(tmp_path: Path) -> None:
    path = tmp_path / "key"
    path.write_bytes(b"old")
    path.chmod(0o644)
    with hidlog.SecurityKey() as key:
        key.credentials.add("example.com", b"ann")
        key.save(path)
    assert path.stat().st_mode & 0o777 == 0o600 and os.listdir(tmp_path) == ["key"]
    whole = path.read_bytes()
    for data in (b"", whole[:-20], whole.replace(b'"snapshot": "', b'"snapshot": "!'), b"[" * 100_000, b"\xff" + whole):
        path.write_bytes(data)
        with pytest.raises(hidlog.HidlogError):
            hidlog.SecurityKey.load(path)


def test_a_failure_of_standard_output_is_not_lost(tmp_path: Path) -> None:
    """A failed write to standard output is reported, even if a command or argparse handles the error like that of a
    file."""
    text = "def command():\n try:\n  print('x' * 10**6)\n except OSError:\n  return 0\n"
    text += "import sys\nfrom hidlog.entry_point import run\nsys.exit(run('hidlog test', command))"
    with open("/dev/full", "wb") as full:
        ran = subprocess.run([sys.executable, "-c", text], stdout=full, stderr=-1, timeout=600)
    assert (ran.returncode, ran.stderr) == (2, b"hidlog: writing failed\n")
