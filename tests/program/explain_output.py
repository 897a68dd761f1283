"""Tests the explained output: differences in a log, notes, and output on a terminal."""

from __future__ import annotations

import os
import pty
import re
import subprocess
from concurrent.futures import ThreadPoolExecutor
from pathlib import Path
from typing import Callable, Sequence

from running import EXAMPLES, INIT, PROGRAM, SIGN_IN_AGAIN, check_result, run, run_explained, run_in_parts

# ---- explained differences


def pad_packet(digits: str) -> str:
    return digits.ljust(128, "0")


def check_beginnings(said: bytes, wanted: Sequence[str]) -> None:
    """Fails unless there are as many lines as expected, each with the expected beginning."""
    lines = said.decode().splitlines()
    assert len(lines) == len(wanted), f"expected {len(wanted)} lines, got {len(lines)}:\n{said.decode()}"
    for line, front in zip(lines, wanted):
        assert line.startswith(front), f"expected a line that starts with {front!r}, got {line!r}"


def format_hex_row(line: str, start: int) -> str:
    """Returns the hex digits of sixteen bytes of the packet on a line of a log."""
    return bytes.fromhex(line.split(" ")[-1])[start : start + 16].hex(" ")


def test_counter_is_named(_: Path) -> None:
    """If a counter is one too low, its byte and its member are reported. In authenticator data (WebAuthn, section 6.1)
    this is the 37th byte, after two bytes of a head, and in a packet with 5 bytes of header."""
    log = EXAMPLES / "failing/stale_sign_count.log"
    lines = log.read_text().splitlines()
    raised = lines[65][: 2 + 2 * 44] + "02"
    said = run_explained(["check", str(log)])
    assert said.returncode == 1 and said.stdout == b""
    wanted = [
        "hidlog: line 64: differs at packet 2",
        "  in authenticatorGetAssertion 02 on channel 00000001, from line 51",
        "  the log has in line 66:",
        "    < 00000001 +0",
        "      answer 00 {1: {",
        f"        2 authData: h'{lines[65][18:92]}'",
        "          signCount 1",
        "  the key sends:",
        "    < 00000001 +0",
        "      answer 00 {1: {",
        f"        2 authData: h'{lines[65][18:90]}02'",
        "          signCount 2",
        "  byte 44 of the packet is 01 in the log and 02 from the key:",
        f"    log {format_hex_row(lines[65], 32)}",
        f"    key {format_hex_row(raised + lines[65][len(raised):], 32)}",
        "        " + " " * 36 + "^^",
        "  the messages differ first in signCount of 2 authData",
    ]
    check_beginnings(said.stderr, wanted)
    # The same is true for standard input, from a file and from a pipe.
    assert run_explained(["check"], stdin=log).stderr == said.stderr
    assert run_explained(["check"], log.read_bytes()).stderr == said.stderr
    assert run_explained(["check", "-"], log.read_bytes()).stderr == said.stderr


INIT_RESPONSE = b"< " + b"ffffffff860011000102030405060700000001020100000c".ljust(128, b"0") + b"\n"


def test_packet_fields_are_named(_: Path) -> None:
    """The bytes of a packet's header are named: the channel, the command, the sequence number and the length."""
    sent = INIT_RESPONSE.decode()[2:-1]
    for at, name in ((0, ", in the channel,"), (4, ", the command,"), (6, ", in the length,"), (7, ""), (63, "")):
        old = sent[2 * at : 2 * at + 2]
        new = "fe" if old == "ff" else f"{int(old, 16) ^ 1:02x}"
        changed = sent[: 2 * at] + new + sent[2 * at + 2 :]
        text = run_explained(["check"], INIT + f"< {changed}\n".encode()).stderr.decode()
        assert f"\n  byte {at} of the packet{name} is {new} in the log and {old} from the key:\n" in text, text
        start = at - at % 16
        mark = " " * (8 + 3 * (at - start)) + "^^"
        rows = f"\n    log {format_hex_row(changed, start)}\n    key {format_hex_row(sent, start)}\n{mark}\n"
        assert rows in text, text
    said = run_explained(["check", str(EXAMPLES / "registration.log")])
    assert said.stderr == b""
    lines = (EXAMPLES / "registration.log").read_bytes().splitlines(keepends=True)
    more = next(place for place, line in enumerate(lines) if line.startswith(b"< 0000000100"))
    lines[more] = lines[more].replace(b"< 0000000100", b"< 0000000101")
    said = run_explained(["check"], b"".join(lines))
    assert (
        b"byte 4 of the packet, the sequence number, is 01 in the log and 00 from the key" in said.stderr
    ), said.stderr


def test_missing_snapshot_is_noted(work_dir: Path) -> None:
    """If the key lacks a credential that the log's key had, a note suggests --load, for a sign-in and for a
    registration with an excludeList."""
    log, folder = EXAMPLES / "failing/wrong_snapshot.log", EXAMPLES / "failing"
    missing = b"\n  the log's key may have had more credentials: was it recorded with --load?\n"
    other = b"\n  the log's key may have had other credentials: is --load the right snapshot?\n"
    assert run_explained(["check", str(log)]).stderr.endswith(missing)
    assert run_explained(["check", "--load", str(folder / "bob.snapshot"), str(log)]).stderr.endswith(other)
    check_result(run_explained(["check", "--load", str(folder / "alice.snapshot"), str(log)]), 0, b"")
    # The log of a registration that is excluded, from the second request of the log on.
    lines = (folder / "excluded_credential.log").read_bytes().splitlines(keepends=True)
    said = run_explained(["check"], b"".join(lines[:3] + lines[30:])).stderr
    assert missing in said and b"answer 19  CTAP2_ERR_CREDENTIAL_EXCLUDED" in said, said
    assert missing not in run_explained(["check", str(folder / "stale_sign_count.log")]).stderr


def test_long_pipe_is_noted(work_dir: Path) -> None:
    """The program keeps 1 MiB of a log that it reads from a pipe. For a longer log, a note says how to see the
    packets."""
    line = b"#" + b" " * 62 + b"\n"
    for more, is_kept in ((-64, True), (0, True), (64, False)):
        front = line * ((1 << 14) - 3 + more // 64)
        log = front + INIT + b"#".ljust(64 * 3 - len(INIT) - 1) + b"\n"
        assert len(log) == (1 << 20) + more
        said = run_explained(["check"], log)
        number = (1 << 14) - 2 + more // 64
        fault = b"hidlog: line %d: differs at packet 1\n" % number
        assert said.returncode == 1 and said.stderr.startswith(fault), said
        once = b"  to see the packets, name the log as a file: hidlog check FILE\n"
        assert (said.stderr == fault + once) != is_kept and (b"  the key sends:\n" in said.stderr) == is_kept, said
        (work_dir / "log").write_bytes(log)
        assert b"  the key sends:\n" in run_explained(["check", str(work_dir / "log")]).stderr
        assert b"  the key sends:\n" in run_explained(["check"], stdin=work_dir / "log").stderr


def test_rewound_standard_input(work_dir: Path) -> None:
    """If a log's file was read earlier from the same standard input, the log isn't compared with another part of the
    file."""
    (work_dir / "log").write_bytes(b"t 1\n" + INIT)
    differs = b"hidlog: line 1: differs at packet 1\n"
    for word, more in (("--plain", b""), ("--explain", b"  the log changed while it was being checked\n")):
        with open(work_dir / "log", "rb") as log:
            script = 'read -r _; exec "$0" check "$1"'
            said = subprocess.run(["bash", "-c", script, PROGRAM, word], stdin=log, capture_output=True)
        check_result(said, 1, differs + more, b"")


def test_all_differences_are_counted(work_dir: Path) -> None:
    """`check --all` continues at the next input, prints the first twenty differences, and counts all."""
    ping = pad_packet("00000001810003616263")
    group = [f"> 5 {ping}", f"< {ping}"]
    right = INIT + INIT_RESPONSE + "".join(f"{line}\n" for line in group * 30).encode()
    check_result(run_explained(["check", "--all"], right), 0, b"", b"same 31 inputs 31 packets\n")
    lines = right.decode().splitlines()
    wrong = list(lines)
    # Three kinds of differences: a packet that differs, a missing one (of the seventh input), and an additional one at
    # the end.
    wrong[5] = wrong[5][:-1] + "1"
    wrong.append(f"< {ping}")
    del wrong[13]
    said = run_explained(["check", "--all"], "\n".join(wrong).encode())
    assert said.returncode == 1 and said.stdout == b"", said
    faults = [line for line in said.stderr.decode().splitlines() if line.startswith("hidlog: ")]
    assert faults == [
        "hidlog: line 5: differs at packet 1",
        "hidlog: line 13: differs at packet 1",
        "hidlog: line 60: differs at packet 2",
        "hidlog: 3 inputs with differences",
    ], faults
    said = run_explained(["check", "--all"], "\n".join(lines[:5] + wrong[5:6] + lines[6:]).encode())
    assert said.stderr.endswith(b"\nhidlog: 1 input with differences\n"), said
    said = run_explained(["check"], "\n".join(wrong).encode())
    assert b"hidlog: line 13" not in said.stderr and b"inputs with" not in said.stderr, said
    # A missing packet is reported at the next input. The packets of this input are compared, too.
    assert (
        b"  the log has no packet here, up to line 14\n"
        in run_explained(["check", "--all"], "\n".join(wrong).encode()).stderr
    )
    many = INIT + INIT_RESPONSE + "".join(f"> 5 {ping}\n< {ping[:-1]}1\n" for _ in range(25)).encode()
    said = run_explained(["check", "--all"], many)
    faults = [line for line in said.stderr.decode().splitlines() if line.startswith("hidlog: ")]
    assert len(faults) == 21 and faults[-1] == "hidlog: 25 inputs with differences, the first 20 are shown", faults
    assert said.stderr.decode().count("  the key sends:\n") == 20
    # An invalid line ends the comparison, and the reason is printed. For several logs, differences are counted for each
    # log.
    said = run_explained(["check", "--all"], many + b"t 5x\n")
    bad = ["hidlog: line 53: not a log line", "  byte 4 is 'x': expected the end of the line"]
    assert said.stderr.decode().splitlines()[-3:] == [*bad, faults[-1]], said
    (work_dir / "log").write_bytes(many)
    said = run_explained(
        ["check", "--all", str(work_dir / "log"), str(SIGN_IN_AGAIN), str(EXAMPLES / "registration.log")]
    )
    assert f"{work_dir}/log: 25 inputs with differences, the first 20 are shown\n" in said.stderr.decode(), said
    assert f"{SIGN_IN_AGAIN}: line " in said.stderr.decode() and said.stdout.startswith(str(EXAMPLES).encode()), said


def test_partial_reads_give_same_result(_: Path) -> None:
    """Each command gives the same result for a log written to a pipe in parts as for a whole one."""
    ping = pad_packet("00000001810003616263")
    many = INIT + INIT_RESPONSE + "".join(f"> 5 {ping}\n< {ping[:-1]}1\n" for _ in range(25)).encode() + b"t 5x\n"
    logs = [many, *((EXAMPLES / name).read_bytes() for name in ("registration.log", "failing/stale_sign_count.log"))]
    for words in ("check", "check --all", "check --all -", "replay", "live", "quiet", "show", "show --json"):
        for log in logs:
            given = [words.split()[0], "--explain", *words.split()[1:]]
            whole = run(given, log)
            for part in (61, 263, 4096):
                said = run_in_parts(given, log, part)
                same = said.returncode == whole.returncode and said.stdout == whole.stdout
                assert same and said.stderr == whole.stderr, (part, said, whole)


def test_notes(work_dir: Path) -> None:
    """If there are no differences, notes name possible problems of the log, and the exit status doesn't change."""
    good = (EXAMPLES / "registration.log").read_bytes()
    ping = pad_packet("00000001810003616263")
    request = good.splitlines(keepends=True)
    presence = next(place for place, line in enumerate(request) if line.startswith(b"p "))
    key = next(place for place, line in enumerate(request) if line.startswith(b"k "))
    signature = next(place for place, line in enumerate(request) if line.startswith(b"s "))
    opened = INIT + INIT_RESPONSE + b"> 5 " + pad_packet("00000001900040" + "00" * 57).encode() + b"\n"
    cases: list[tuple[bytes, list[str]]] = [
        (b"", ["the log is empty"]),
        (b"# a comment\n= 5\n\n", ["the log has no inputs"]),
        (b"# a comment", ["the log has no inputs", "the last line has no line feed, so the log may be cut off"]),
        (good[:-1], ["the last line has no line feed, so the log may be cut off"]),
        (b"".join(request[:presence]), ["the log ends while the key is waiting for the user's presence"]),
        (b"".join(request[:key]), ["the log ends while the key is waiting for a new key"]),
        (b"".join(request[:signature]), ["the log ends while the key is waiting for a signature"]),
        (opened, ["the log ends inside a message, after 57 bytes of it"]),
        (good, []),
        (INIT + INIT_RESPONSE + f"> 5 {ping}\n< {ping}\n".encode(), []),
    ]
    for number, (log, notes) in enumerate(cases):
        said = run_explained(["check"], log)
        assert said.returncode == 0 and said.stdout.startswith(b"same "), said
        assert said.stderr.decode() == "".join(f"hidlog: note: {note}\n" for note in notes), said
        (work_dir / f"{number}").write_bytes(log)
        for command in ("replay", "live", "quiet", "show"):
            check_result(run_explained([command], log), 0, b"")
    paths = [str(work_dir / f"{number}") for number in range(len(cases))]
    said = run_explained(["check", *paths])
    wanted = [f"{path}: note: {note}\n" for path, (_, notes) in zip(paths, cases) for note in notes]
    assert said.returncode == 0 and said.stderr.decode() == "".join(wanted), said


# ---- at a terminal


def show_at_terminal(words: Sequence[str], log: bytes, **more: str) -> bytes:
    """Returns the program's output on a terminal, with these environment variables."""
    terminal, end = pty.openpty()
    environment = {name: value for name, value in os.environ.items() if name not in ("COLUMNS", "NO_COLOR")}
    written = b""
    with subprocess.Popen([PROGRAM, *words], stdin=subprocess.PIPE, stdout=end, env={**environment, **more}) as program:
        os.close(end)
        assert program.stdin is not None
        with ThreadPoolExecutor() as other:
            other.submit(lambda: (program.stdin.write(log), program.stdin.close()))  # type: ignore[union-attr]
            while True:
                try:
                    part = os.read(terminal, 65536)
                except OSError:
                    break
                if not part:
                    break
                written += part
    os.close(terminal)
    return written.replace(b"\r\n", b"\n")


COLOUR = re.compile(rb"\x1b\[\d+m")


def test_lines_are_truncated_at_terminal(_: Path) -> None:
    """At a terminal, lines are truncated to the terminal's width, except with --wide, and line numbers are aligned.
    Output to other streams is unchanged."""
    log = (EXAMPLES / "registration.log").read_bytes()
    plain = run_explained(["show"], log).stdout
    whole = show_at_terminal(["show", "--wide"], log, NO_COLOR="1")
    assert b"\x1b" not in whole
    assert [line.lstrip() for line in whole.splitlines()] == plain.splitlines()
    places = {re.match(rb" *\d+", line).end() for line in whole.splitlines()}  # type: ignore[union-attr]
    assert places == {5}, places
    for columns, wanted in (("40", 40), ("100", 100), ("x", 80), ("", 80), ("1", 20)):
        cut = show_at_terminal(["show"], log, NO_COLOR="1", COLUMNS=columns)
        for line, old in zip(cut.splitlines(), whole.splitlines(), strict=True):
            is_cut = len(old) > wanted
            assert line == (old[: wanted - 2] + b".." if is_cut else old), (line, old)
    for words in (["replay"], ["live"], ["quiet"], ["check"], ["show", "--json"], ["--help"]):
        assert show_at_terminal(words, log, COLUMNS="20") == run_explained(words, log).stdout, words


def test_characters_are_not_split(_: Path) -> None:
    """Lines are truncated between characters. Characters of three or more bytes count as two columns."""
    for sign, columns in (("e", 1), ("\u00e9", 1), ("\u4e2d", 2), ("\U0001f511", 2)):
        for count in range(1, 40):
            log = f"# {sign * count}\n".encode()
            line = show_at_terminal(["show"], log, NO_COLOR="1", COLUMNS="30").decode().removesuffix("\n")
            front = "    1 # "
            if len(front) + columns * count <= 30:
                assert line == front + sign * count, line
            else:
                assert line == front + sign * ((28 - len(front)) // columns) + "..", line


def test_colours_at_terminal(_: Path) -> None:
    """At a terminal, lines have colours that depend on their kind, unless NO_COLOR is set. The text without colours is
    the same."""
    log = (EXAMPLES / "failing/busy_channel.log").read_bytes()
    plain = show_at_terminal(["show", "--wide"], log, NO_COLOR="1")
    coloured = show_at_terminal(["show", "--wide"], log)
    assert COLOUR.sub(b"", coloured) == plain and coloured != plain
    assert show_at_terminal(["show", "--wide"], log, NO_COLOR="") == coloured
    assert b"\x1b" not in run_explained(["show"], log).stdout
    fronts = {line.split(b"m")[0] + b"m" for line in coloured.splitlines() if b" ERROR " in line}
    assert fronts == {b"\x1b[31m"}, fronts
    for line in coloured.splitlines():
        assert line.startswith(b"\x1b[") == line.endswith(b"\x1b[0m"), line
    # A summary with a rejected request has a colour.
    summary = show_at_terminal(["show", "--summary", "--wide"], log)
    assert COLOUR.sub(b"", summary) == run_explained(["show", "--summary"], log).stdout
    assert any(line.startswith(b"\x1b[31m") and b"ERR_CHANNEL_BUSY" in line for line in summary.splitlines()), summary


def run_with_terminal_stderr(words: Sequence[str], log: Path) -> tuple[int, bytes]:
    """Returns the exit status, and the output on standard error, which is a terminal."""
    terminal, end = pty.openpty()
    with open(log, "rb") as source, subprocess.Popen(
        [PROGRAM, *words], stdin=source, stdout=subprocess.DEVNULL, stderr=end, env={**os.environ, "COLUMNS": "60"}
    ) as program:
        os.close(end)
        said = b""
        while True:
            try:
                part = os.read(terminal, 4096)
            except OSError:
                break
            if not part:
                break
            said += part
    os.close(terminal)
    return program.returncode, said.replace(b"\r\n", b"\n")


def test_differences_are_truncated_at_terminal(_: Path) -> None:
    """A difference is truncated to the width of the terminal."""
    log = EXAMPLES / "failing/stale_sign_count.log"
    whole = run_explained(["check", str(log)]).stderr.splitlines()
    status, said = run_with_terminal_stderr(["check", str(log)], log)
    cut = [line if len(line) <= 60 else line[:58] + b".." for line in whole]
    assert status == 1 and said.splitlines() == [whole[0], *cut[1:]], said


def test_form_depends_on_output(_: Path) -> None:
    """Output to a terminal is explained, or fixed with --plain. Output to a pipe is fixed, or explained with --explain.
    If both options are given, --plain is used."""
    log = EXAMPLES / "failing/stale_sign_count.log"
    fixed, people = run(["show"], log.read_bytes()).stdout, run_explained(["show"], log.read_bytes()).stdout
    assert b"authenticatorGetAssertion" in people and b"authenticator" not in fixed
    shown = show_at_terminal(["show", "--wide"], log.read_bytes(), NO_COLOR="1")
    assert [line.lstrip() for line in shown.splitlines()] == people.splitlines()
    for words in (["show", "--plain"], ["show", "--plain", "--explain"]):
        assert show_at_terminal(words, log.read_bytes()) == fixed, words
        assert run(words, log.read_bytes()).stdout == fixed, words
    told, reasons = run(["check", str(log)]).stderr, run_explained(["check", str(log)]).stderr
    assert told == b"hidlog: line 64: differs at packet 2\n" and reasons.startswith(told + b"  in ")
    assert run_with_terminal_stderr(["check", "--plain", str(log)], log) == (1, told)
    assert len(run_with_terminal_stderr(["check", str(log)], log)[1].splitlines()) == len(reasons.splitlines())


def test_progress_is_erased(work_dir: Path) -> None:
    """For a log above 64 MiB, a terminal shows the progress, which is erased at the end. Otherwise no progress is
    printed."""
    log = work_dir / "log"
    comments = b"# a comment of some length, which is read and dropped, so that this takes half a second\n"
    log.write_bytes(INIT + INIT_RESPONSE + comments * ((90 << 20) // len(comments)))
    size = log.stat().st_size // 1_000_000
    for words in (["check"], ["check", str(log)], ["quiet"]):
        status, said = run_with_terminal_stderr(words, log)
        steps = said.split(b"\r")
        assert status == 0 and len(steps) > 3 and steps[-1] == b"", said
        assert steps[0] == f"  67 of {size} MB".encode() and not steps[-2].strip(), said
        assert max(map(len, steps)) <= len(steps[-2]), said
    check_result(run_explained(["check"], stdin=log), 0, b"")
    short = work_dir / "short"
    short.write_bytes(INIT + INIT_RESPONSE)
    assert run_with_terminal_stderr(["check"], short) == (0, b"")
    # The error message overwrites the progress.
    with open(log, "ab") as more:
        more.write(b"t 5x\n")
    status, said = run_with_terminal_stderr(["quiet"], log)
    assert status == 1 and b"\rhidlog: line " in said, said


TESTS: list[Callable[[Path], None]] = [
    test_counter_is_named,
    test_packet_fields_are_named,
    test_missing_snapshot_is_noted,
    test_long_pipe_is_noted,
    test_rewound_standard_input,
    test_all_differences_are_counted,
    test_partial_reads_give_same_result,
    test_notes,
    test_lines_are_truncated_at_terminal,
    test_characters_are_not_split,
    test_colours_at_terminal,
    test_differences_are_truncated_at_terminal,
    test_form_depends_on_output,
    test_progress_is_erased,
]
