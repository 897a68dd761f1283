#!/usr/bin/env python3
"""Checks that judge.py detects violations of each rule: changes the program's output, which judge.py must detect.

    tests/fuzz/self_test.py [PROGRAM]         default: release/hidlog

The exit status is 0 if nothing is found in the program's own output, and each change is found by its rule.
"""

import os
import sys
import tempfile

sys.dont_write_bytecode = True

from fuzz import TOP, make_runner
from malformed_requests import BROADCAST, CBOR, GET, INIT, MAKE, PING, encode, make_packet_events
from judge import RULES, FindingError, check_saved, judge


def make_valid_log():
    """Returns a log with INIT, a PING on a channel that is not allocated, a registration and a sign-in."""
    asked = {1: bytes(32), 2: {"id": "a.example"}, 3: {"id": b"a"}, 7: {"rk": True}}
    asked[4] = [{"alg": -7, "type": "public-key"}]
    events = make_packet_events(BROADCAST, INIT, bytes(8)) + make_packet_events(9, PING, b"stray")
    events += make_packet_events(1, CBOR, bytes([MAKE]) + encode(asked)) + [("t",), ("p", "granted")]
    events += [("k", f"{bytes(32).hex()} {bytes(32).hex()} {bytes(32).hex()}"), ("s", "00")]
    events += make_packet_events(1, CBOR, bytes([GET]) + encode({1: "a.example", 2: bytes(32)}))
    events += [("p", "granted"), ("s", "01")]
    lines = [b"# A comment"]
    for number, (kind, *fields) in enumerate(events):
        fields = [field.hex() if kind == ">" else field for field in fields]
        lines.append(" ".join([kind, str(100 * number), *fields]).encode())
    return b"".join(line + b"\n" for line in lines)


VALID_LOG = make_valid_log()
INVALID_LOG = VALID_LOG + b"t 00\nt 1\n"


def make_output_change(change):
    """Returns a change that applies a function to standard output."""
    return lambda ended: (ended[0], change(ended[1]), ended[2])


def make_output_replacement(old, new):
    """Returns a change that replaces the first occurrence of a text."""
    return make_output_change(lambda text: text.replace(old, new, 1))


def make_error_replacement(old, new):
    """Returns a change that replaces a text on standard error."""
    return lambda ended: (ended[0], ended[1], ended[2].replace(old, new))


def make_status_change(number):
    return lambda ended: (number, *ended[1:])


def make_line_removal(front):
    """Returns a change that removes the first line with this beginning."""

    def change(text):
        lines = text.splitlines(keepends=True)
        lines.remove(next(line for line in lines if line.startswith(front)))
        return b"".join(lines)

    return make_output_change(change)


def make_count_change(count):
    """Returns a change of a count in the last line."""
    name, number = count.split(" ")

    def change(text):
        words = text.split(b" ")
        place = max(at for at, word in enumerate(words) if word == name.encode())
        words[place + 1] = number.encode() + (b"\n" if name == "steps" else b"")
        return b" ".join(words)

    return make_output_change(change)


def make_file_change(name):
    """Returns a change that appends a byte to a snapshot file."""

    def change(ended):
        with open(os.path.join(SNAPSHOT_FOLDER.name, name), "ab") as written:
            written.write(b"\0")
        return ended

    return change


SNAPSHOT_FOLDER = tempfile.TemporaryDirectory()
# For each change: the rule, the log, the command and the number of the command's run, and the change.
CASES = [
    ("status", VALID_LOG, "replay", 1, make_status_change(2)),
    ("status", VALID_LOG, "replay", 1, make_status_change(-11)),
    ("status", INVALID_LOG, "replay", 1, make_status_change(0)),
    ("status", VALID_LOG, "check", 1, make_status_change(1)),
    ("status", VALID_LOG, "quiet", 1, make_status_change(1)),
    ("status", INVALID_LOG, "live", 1, make_status_change(2)),
    ("status", INVALID_LOG, "check", 1, make_status_change(0)),
    ("fault", INVALID_LOG, "replay", 1, make_error_replacement(b"line ", b"line 1")),
    ("fault", INVALID_LOG, "quiet", 1, make_error_replacement(b"not a log line", b"longer than 255 bytes")),
    ("fault", INVALID_LOG, "check", 1, make_error_replacement(b"differs at packet 1", b"differs at packet 0")),
    ("fault", INVALID_LOG, "show", 1, make_error_replacement(b"\n", b"")),
    ("fault", VALID_LOG, "replay", 1, lambda ended: (*ended[:2], b"a warning\n")),
    ("lines before", INVALID_LOG, "replay", 1, make_output_change(lambda text: text[:-1])),
    ("lines before", INVALID_LOG, "quiet", 1, make_output_change(lambda text: text + b"t 1\n")),
    ("lines before", INVALID_LOG, "live", 1, make_output_change(lambda text: b"")),
    ("lines before", INVALID_LOG, "show", 1, make_output_change(lambda text: text[1:])),
    ("lines", VALID_LOG, "replay", 1, make_line_removal(b"t ")),
    ("lines", VALID_LOG, "replay", 1, make_line_removal(b"#")),
    ("lines", VALID_LOG, "replay", 1, make_output_replacement(b"granted", b"denied")),
    (
        "packets",
        VALID_LOG,
        "replay",
        1,
        make_output_replacement(b"\n< ", b"\n" + 131 * (b"< " + 128 * b"0" + b"\n") + b"< "),
    ),
    ("packets", VALID_LOG, "replay", 1, make_output_change(lambda text: b"< " + 128 * b"0" + b"\n" + text)),
    ("packets", VALID_LOG, "replay", 1, make_output_replacement(b"\n< ", b"\n< 0")),
    ("packets", VALID_LOG, "replay", 1, make_output_replacement(b"\n= ", b"\n= \n= ")),
    ("counts", VALID_LOG, "replay", 1, make_line_removal(b"=")),
    ("counts", VALID_LOG, "replay", 1, make_output_change(lambda text: text[:-1])),
    ("counts", VALID_LOG, "replay", 1, make_count_change("held 7551")),
    ("counts", VALID_LOG, "replay", 1, make_count_change("rows 65")),
    ("counts", VALID_LOG, "replay", 1, make_count_change("pending 65")),
    ("counts", VALID_LOG, "replay", 1, make_count_change("steps 10000")),
    ("counts", VALID_LOG, "replay", 1, make_count_change("requests 1000")),
    ("counts", VALID_LOG, "replay", 1, make_count_change("bytes 100000")),
    ("check", VALID_LOG, "check", 1, make_output_replacement(b"same 1", b"same 2")),
    ("check", VALID_LOG, "check", 1, make_output_replacement(b" packets", b"0 packets")),
    ("difference", VALID_LOG, "check", 2, lambda _: (0, b"same 13 inputs 13 packets\n", b"")),
    ("difference", VALID_LOG, "check", 2, make_error_replacement(b"packet ", b"packet 1")),
    ("difference", VALID_LOG, "check", 2, make_error_replacement(b"byte 63", b"byte 62")),
    ("difference", VALID_LOG, "check", 2, make_error_replacement(b"\n  byte", b"\nbyte")),
    ("fault", VALID_LOG, "check", 1, lambda ended: (*ended[:2], b"hidlog: note: a warning\n")),
    ("replay", VALID_LOG, "replay", 2, make_output_replacement(b"\n< ", b"\n< 1")),
    ("replay", VALID_LOG, "replay", 2, make_status_change(1)),
    ("quiet lines", VALID_LOG, "quiet", 1, make_line_removal(b"#")),
    ("quiet lines", VALID_LOG, "quiet", 1, make_output_replacement(b"t 100", b"t 101")),
    ("quiet lines", VALID_LOG, "quiet", 1, make_output_replacement(b"granted", b"denied")),
    ("quiet packets", VALID_LOG, "replay", 3, make_line_removal(b"< ")),
    (
        "quiet packets",
        VALID_LOG,
        "replay",
        3,
        make_output_replacement(b"\nt 100\n", b"\nt 100\n< " + 128 * b"0" + b"\n"),
    ),
    ("quiet packets", VALID_LOG, "replay", 3, make_count_change("held 0")),
    ("quiet again", VALID_LOG, "quiet", 2, make_line_removal(b"t ")),
    ("live lines", VALID_LOG, "live", 1, make_line_removal(b"< ")),
    ("live lines", VALID_LOG, "live", 1, make_line_removal(b"=")),
    ("live lines", VALID_LOG, "live", 1, make_output_change(lambda text: text[:-1])),
    ("needs", VALID_LOG, "live", 1, make_line_removal(b"# need nothing")),
    ("needs", VALID_LOG, "live", 1, make_line_removal(b"# need signature")),
    ("needs", VALID_LOG, "live", 1, make_line_removal(b"# signed")),
    ("needs", VALID_LOG, "live", 1, make_output_replacement(b"# need key\n", b"# need key\n# need key\n")),
    ("needs", VALID_LOG, "live", 1, make_output_replacement(b"# need presence", b"# need patience")),
    ("needs", VALID_LOG, "live", 1, make_output_replacement(b"# need signature 0", b"# need signature ")),
    ("needs", VALID_LOG, "live", 1, make_output_replacement(b"# A comment\n", b"# A comment\n# need nothing\n")),
    ("live again", VALID_LOG, "replay", 4, make_line_removal(b"# need")),
    ("live again", VALID_LOG, "live", 2, make_line_removal(b"# need")),
    ("show", VALID_LOG, "show", 1, make_line_removal(b"2 > ")),
    ("show", VALID_LOG, "show", 1, make_output_replacement(b"\n3 > ", b"\n4 > ")),
    ("show", VALID_LOG, "show", 1, make_output_change(lambda text: text + b"99 t 0\n")),
    ("saved", INVALID_LOG, "replay", 7, make_file_change("first")),
    ("saved", VALID_LOG, "replay", 5, make_line_removal(b"< ")),
    ("saved", VALID_LOG, "replay", 6, make_status_change(2)),
    ("saved", VALID_LOG, "replay", 6, make_count_change("rows 2")),
    ("saved", VALID_LOG, "replay", 6, make_file_change("second")),
    ("refused", VALID_LOG, "replay", 7, make_error_replacement(b"refused: 1", b"refused: 4")),
    ("refused", VALID_LOG, "replay", 7, make_status_change(1)),
    ("refused", VALID_LOG, "replay", 7, make_output_change(lambda text: b"t 0\n")),
    ("refused", VALID_LOG, "replay", 8, make_error_replacement(b"cannot read", b"cannot write")),
    ("refused", VALID_LOG, "replay", 8, lambda ended: (0, b"t 0\n", b"")),
]


def make_altering_runner(run, command, which, change):
    """Returns a function that runs commands as `run` does, but changes the output of one run of this command."""
    seen = 0

    def run_altered(asked, log, *options):
        nonlocal seen
        ended = run(asked, log, *options)
        seen += asked == command
        return change(ended) if asked == command and seen == which else ended

    return run_altered


def find_violation(log, run):
    """Returns the violated rule, or None. The damaged snapshot lacks its last byte."""
    for name in os.listdir(SNAPSHOT_FOLDER.name):
        os.remove(os.path.join(SNAPSHOT_FOLDER.name, name))
    try:
        written, faulty = judge(log, run)
        check_saved(log, written, faulty, run, SNAPSHOT_FOLDER.name, lambda snapshot: snapshot[:-1])
    except FindingError as finding:
        return finding.rule
    return None


def main():
    run = make_runner(sys.argv[1] if len(sys.argv) > 1 else os.path.join(TOP, "release/hidlog"))
    wrong = [
        f"an unchanged log violates {find_violation(log, run)}"
        for log in (VALID_LOG, INVALID_LOG)
        if find_violation(log, run)
    ]
    for number, (rule, log, command, which, change) in enumerate(CASES):
        broken = find_violation(log, make_altering_runner(run, command, which, change))
        if broken != rule:
            wrong.append(f"case {number}: {rule}, {command} {which}: found {broken}")
    wrong += [f"no case violates {rule}" for rule in RULES if rule not in {case[0] for case in CASES}]
    print("\n".join([*wrong, f"{len(CASES)} changed outputs, {len(RULES)} rules, {len(wrong)} wrong"]))
    return 1 if wrong else 0


if __name__ == "__main__":
    sys.exit(main())
