"""Checks the output of hidlog for a log, by properties that need no second implementation.

`judge(log, run)`, and `check_saved` for snapshots, raise a FindingError if one of RULES does not hold. `run(command,
log, *options)` returns the exit status, standard output and standard error.
"""

import os
import re

PACKETS, HELD, ROWS, PENDING = 130, 7550, 64, 64
NEED_PREFIXES = (b"# need ", b"# signed ")

RULES = {
    "status": "the exit status is 0, or 1 if the log has a fault",
    "fault": "the log's first fault is reported, in the documented words; without a fault only check prints notes",
    "lines before": "the output before a fault is that of the lines before it",
    "lines": "input lines and comments are printed unchanged",
    "packets": "an input has at most 130 packets, and none comes before the first input",
    "counts": "the last line has the counts, within their bounds",
    "check": "check finds no difference in a replay, and counts correctly",
    "difference": "check reports the input and packet of a change",
    "replay": "replaying a replay gives the same output",
    "quiet lines": "quiet prints each line, or a line `t` with its timestamp",
    "quiet packets": "a quiet log has the log's packets, except those for ignored inputs, and the same counts",
    "quiet again": "quiet does not change the output of quiet",
    "live lines": "live prints the output of replay, and needs",
    "needs": "after each input and its packets, live prints the bytes to sign, if any, and one line with the need",
    "live again": "replay and live do not change the output of live",
    "saved": "a loaded and saved snapshot is the same, and is saved only without a fault",
    "refused": "a damaged snapshot is loaded, or refused in the documented words without other effects",
    "show": "show has a line for each input and each packet, in order",
}

TIME = rb"(0|[1-9][0-9]{0,19})"
DIGITS = rb"[0-9a-fA-F]"
KEY_HEX = DIGITS + rb"{64}"
INPUT_LINE = re.compile(
    rb"> %(m)s %(p)s|t %(m)s|p %(m)s (?:granted|denied|timeout)|k %(m)s (?:no|%(k)s %(k)s %(k)s)"
    rb"|s %(m)s (?:no|(?:%(d)s%(d)s){1,72})|< %(p)s|[#=].*|"
    % {b"m": TIME, b"p": DIGITS + rb"{128}", b"k": KEY_HEX, b"d": DIGITS},
    re.DOTALL,
)
DAMAGED_SNAPSHOT = re.compile(
    rb"hidlog: cannot read snapshot\n  [^\n]+: its bytes don't match its [.]hidlog-sum: [^\n]+\n"
)
REFUSED_SNAPSHOT = re.compile(
    rb"hidlog: snapshot refused: (?:1|2|3)\n  [^\n]+: (?:it is|more than|credential \d+|the snapshot|unsupported) [^\n]+\n"
)
# The notes of `check` about a log without differences.
NOTES = (
    rb"(?:hidlog: note: the log (?:is empty|has no inputs)\n)?"
    rb"(?:hidlog: note: the last line has no line feed, so the log may be cut off\n)?"
    rb"(?:hidlog: note: the log ends while the key is waiting for (?:the user's presence|a new key|a signature)\n"
    rb"|hidlog: note: the log ends inside a message, after [1-9]\d* bytes of it\n)?"
)
COUNTS_LINE = re.compile(rb"= held (\d+) rows (\d+) pending (\d+) requests (\d+) bytes (\d+) steps (\d+)")
# For a registration 196 bytes are signed, for a sign-in 69 bytes.
NEED = re.compile(
    rb"((?:(?:# signed [0-9a-f]{192}\n){2}# signed [0-9a-f]{8}|# signed [0-9a-f]{138})\n# need signature [0-9a-f]{64}"
    rb"|# need (?:nothing|presence|key))"
)


class FindingError(Exception):
    """A violated rule."""

    def __init__(self, rule, detail):
        super().__init__(f"{rule}: {RULES[rule]}: {detail}")
        self.rule = rule


def check(holds, rule, detail):
    """Raises FindingError unless the condition holds."""
    if not holds:
        raise FindingError(rule, detail)


def split_lines(text):
    """Returns the lines of a text. The last line may have no line feed."""
    lines = text.split(b"\n")
    return lines if lines[-1] else lines[:-1]


def is_log_line(line):
    """Returns whether a line is a log line."""
    found = INPUT_LINE.fullmatch(line)
    return bool(found) and all(int(group) < 2**64 for group in found.groups() if group)


def is_log_line_prefix(text):
    """Returns whether a log line can begin with this text."""
    letter, _, rest = text.partition(b" ")
    if text[:1] in (b"", b"#", b"="):
        return True
    if letter == b"<":
        return bool(re.fullmatch(DIGITS + rb"{0,128}", rest))
    moment, space, field = rest.partition(b" ")
    is_moment = re.fullmatch(TIME, moment) and int(moment) < 2**64
    if letter == b"t" or not is_moment:
        return letter in (b">", b"t", b"p", b"k", b"s") and not space and (moment == b"" or bool(is_moment))
    words = {b"p": (b"granted", b"denied", b"timeout"), b"k": (b"no",), b"s": (b"no",)}.get(letter, ())
    fields = {b">": rb"%(d)s{0,128}", b"k": rb"(?:%(k)s ){0,2}%(d)s{0,64}", b"s": rb"%(d)s{0,144}"}.get(letter)
    is_field = fields and re.fullmatch(fields % {b"d": DIGITS, b"k": KEY_HEX}, field)
    return bool(is_field) or any(word.startswith(field) for word in words)


# Prefixes of other files: pcap, pcapng after its first line feed, gzip, zstd, UTF-16, JSON.
OTHER_FILE_PREFIXES = tuple(
    bytes.fromhex(magic)
    for magic in (
        "d4c3b2a1",
        "a1b2c3d4",
        "4d3cb2a1",
        "a1b23c4d",
        "0d0d",
        "1f8b",
        "28b52ffd",
        "fffe",
        "feff",
        "7b",
        "5b",
    )
)


def find_hint_pattern(line):
    """Returns a pattern for the hint about the first byte that is invalid in a log line."""
    if line.startswith(OTHER_FILE_PREFIXES):
        return rb"  this is [^\n]+\n"
    fits = max(end for end in range(len(line) + 1) if is_log_line_prefix(line[:end]))
    if fits == len(line):
        return rb"  it ends after byte %d: [^\n]+\n" % fits
    return rb"  byte %d (?:is|begins) [^\n]+\n" % (fits + 1)


def find_fault(lines):
    """Returns the number of the first invalid line, and a pattern for the message about it; or None."""
    for number, line in enumerate(lines, 1):
        if len(line) > 255:
            hint = rb"  this is [^\n]+\n" if line.startswith(OTHER_FILE_PREFIXES) else b""
            return number, b"hidlog: line %d: longer than 255 bytes\n" % number + hint
        if not is_log_line(line):
            return number, b"hidlog: line %d: not a log line\n" % number + find_hint_pattern(line)
    return None


def is_input(line):
    return line[:1] in (b">", b"t", b"p", b"k", b"s")


def select_inputs(lines):
    """Returns all lines except the key's packets and the counts."""
    return [line for line in lines if line[:1] not in (b"<", b"=")]


def group_responses(lines):
    """Returns the input lines, each with the packets that follow it. The packets before the first input come first."""
    found = [(b"", [])]
    for line in lines:
        if line[:1] == b"<":
            found[-1][1].append(line)
        elif is_input(line):
            found.append((line, []))
    return found


def is_subsequence(short, whole):
    """Returns whether a list is a subsequence of another."""
    rest = iter(whole)
    return all(part in rest for part in short)


def check_end(command, ended, fault):
    """Checks the exit status and standard error of a command, and returns its output."""
    status, output, said = ended
    wanted = fault[1] if fault else NOTES if command == "check" else b""
    check(status == (1 if fault else 0), "status", f"{command} ended with {status}; stderr: {said[:200]!r}")
    check(re.fullmatch(wanted, said), "fault", f"stderr of {command}: {said[:200]!r}; expected: {wanted!r}")
    return output


def check_counts(line, inputs):
    """Checks the line of counts."""
    found = COUNTS_LINE.fullmatch(line)
    check(found, "counts", repr(line[:200]))
    held, rows, pending, requests, read, steps = (int(group) for group in found.groups())
    holds = held <= HELD and rows <= ROWS and pending <= PENDING and steps <= 4 * read + 2 * requests
    packets = sum(line[:1] == b">" for line, _ in inputs)
    check(holds and requests <= packets and read <= 57 * requests + 59 * packets, "counts", repr(line))


def check_replay(lines, output):
    """Checks the output of a replay."""
    check(output.endswith(b"\n"), "counts", "the last line has no line feed")
    written = split_lines(output)
    check_counts(written[-1], group_responses(written))
    check(
        select_inputs(written) == select_inputs(lines),
        "lines",
        "the inputs or comments of the replay differ from those of the log",
    )
    found = group_responses(written)
    most = max(len(packets) for _, packets in found)
    check(
        most <= PACKETS and not found[0][1],
        "packets",
        f"{most} packets after an input, {len(found[0][1])} packets before the first input",
    )
    well = all(is_log_line(line) and line == line.lower() for line in written if line[:1] == b"<")
    check(
        well and sum(line[:1] == b"=" for line in written) == 1,
        "packets",
        "an invalid packet line, or not exactly one line of counts",
    )


def check_comparison(output, run):
    """Checks the output of `check` for a replay."""
    found = group_responses(split_lines(output))
    counted = len(found) - 1, sum(len(packets) for _, packets in found)
    said = check_end("check", run("check", output), None)
    check(said == b"same %d inputs %d packets\n" % counted, "check", f"output: {said!r}; expected counts: {counted}")


def check_difference(output, run):
    """Changes one packet of a replay, and checks that `check` finds the change."""
    lines = split_lines(output)
    places = [place for place, line in enumerate(lines) if line[:1] == b"<"]
    if not places:
        return
    place = places[len(output) % len(places)]
    before = max(number for number in range(place) if is_input(lines[number]))
    digit = b"1" if lines[place][-1:] == b"0" else b"0"
    lines[place] = lines[place][:-1] + digit
    wanted = b"hidlog: line %d: differs at packet %d\n" % (before + 1, place - before)
    status, written, said = run("check", b"\n".join(lines) + b"\n")
    more = said.removeprefix(wanted).splitlines()
    told = (status, written) == (1, b"") and said.startswith(wanted) and all(line[:2] == b"  " for line in more)
    # The changed digit is the last one of the packet.
    check(
        told and b"\n  byte 63 of the packet" in said,
        "difference",
        f"result: {(status, written, said)!r}; expected: {wanted!r}",
    )


def check_quiet(log, output, run):
    """Checks the quiet log and the packets of its replay."""
    quiet = check_end("quiet", run("quiet", log), None)
    wanted, written = select_inputs(split_lines(log)), split_lines(quiet)
    check(
        len(written) == len(wanted) and quiet[-1:] in (b"", b"\n"),
        "quiet lines",
        f"expected {len(wanted)} lines, got {len(written)}",
    )
    for line, old in zip(written, wanted):
        tick = is_input(old) and line == b"t " + old.split(b" ")[1]
        check(line == old or tick, "quiet lines", f"{line[:99]!r} replaces {old[:99]!r}")
    sent = split_lines(check_end("replay", run("replay", quiet), None))
    for (line, less), (old, packets) in zip(group_responses(sent), group_responses(split_lines(output))):
        same = less == packets if line == old else is_subsequence(less, packets)
        check(same, "quiet packets", f"{line[:99]!r} has {len(less)} packets, which differ from those of the log")
    check(sent[-1] == split_lines(output)[-1], "quiet packets", f"{sent[-1]!r}")
    check(run("quiet", quiet) == (0, quiet, b""), "quiet again", "the second quiet log differs from the first")


def check_needs(lines):
    """Checks the needs that `live` prints after each input and its packets."""
    after = None
    for line in lines:
        need = line.startswith(NEED_PREFIXES)
        if need and after is not None:
            after.append(line)
        if not need and line[:1] != b"<":
            check(
                after is None or NEED.fullmatch(b"\n".join(after)),
                "needs",
                f"invalid comments about needs before {line[:99]!r}: {after!r}",
            )
            after = [] if is_input(line) else None
        check(not (line[:1] == b"<" and after), "needs", "a packet after the comment about the need")
        check(not need or after, "needs", f"{line[:99]!r} is not after an input")


def check_live(log, output, run):
    """Checks the output of `live` for the log."""
    live = check_end("live", run("live", log), None)
    lines = split_lines(live)
    told, replayed = (
        [line for line in found if not line.startswith(NEED_PREFIXES)] for found in (lines, split_lines(output))
    )
    check(
        told == replayed and live[-1:] == b"\n",
        "live lines",
        "without comments about needs, the output differs from the replay",
    )
    check_needs(lines)
    check(run("replay", live) == (0, live, b""), "live again", "replaying the output of live changes it")
    check(run("live", live) == (0, live, b""), "live again", "running live on the output of live changes it")


def check_show(log, run):
    """Checks the output of `show`: a line for each input and packet, and messages between them."""
    shown = split_lines(check_end("show", run("show", log), None))
    # Comments, and the lines of messages and members, which begin with more spaces, are omitted.
    found = [line for line in shown if not re.match(rb"\d+ (  |#)", line)]
    wanted = []
    for number, line in enumerate(split_lines(log), 1):
        if line[:1] in (b">", b"<", b"t", b"p", b"k", b"s"):
            moment = b"" if line[:1] == b"<" else line.split(b" ")[1] + b" "
            wanted.append((b"%d %s " % (number, line[:1]) + moment).rstrip())
    check(len(found) == len(wanted), "show", f"expected {len(wanted)} lines, got {len(found)}")
    for line, front in zip(found, wanted):
        check((line + b" ").startswith(front + b" "), "show", f"{line[:99]!r} does not start with {front!r}")
    # Each line of the plain output is the beginning of a line of the explained output. Messages in the plain output are
    # assembled by another rule: one message at a time in each direction.
    fixed = split_lines(check_end("show", run("show", log, "--plain"), None))
    packets = [line for line in fixed if not re.match(rb"\d+   ", line)]
    check(
        len(packets) == len(found), "show", f"the plain output has {len(packets)} lines, the explained one {len(found)}"
    )
    for line, more in zip(packets, found):
        check(
            (more + b"  ").startswith(line + b"  "),
            "show",
            f"{more!r} does not start with the plain line {line[:99]!r}",
        )


def check_fault(log, fault, run):
    """Checks each command on a log with an invalid line. Returns the log before that line, and its replay."""
    before = b"".join(line + b"\n" for line in split_lines(log)[: fault[0] - 1])
    outputs = {command: check_end(command, run(command, log), fault) for command in ("replay", "quiet", "live", "show")}
    status, output, said = run("check", log)
    differs = re.fullmatch(rb"hidlog: line (\d+): differs at packet [1-9]\d*\n(?:  .*\n)+", said)
    check(status == 1 and output == b"", "status", f"check ended with {status}; expected 1 and no output")
    check(
        re.fullmatch(fault[1], said) or differs and int(differs[1]) < fault[0],
        "fault",
        f"unexpected stderr of check: {said!r}",
    )
    for command, output in outputs.items():
        whole = check_end(command, run(command, before), None)
        cut = whole
        if command in ("replay", "live"):
            cut = b"".join(line + b"\n" for line in split_lines(whole)[:-1])
        elif command == "show" and whole.startswith(output):
            # Incomplete messages are reported only at the end of a log without an invalid line.
            behind = rb"%d   line \d+: \d+ of \d+ bytes (?:of its response )?received" % before.count(b"\n")
            if all(re.fullmatch(behind, line) for line in split_lines(whole[len(output) :])):
                cut = output
        check(output == cut, "lines before", f"{command} wrote {len(output)} bytes; expected {len(cut)}")
    for command in (*outputs, "check"):
        told = run(command, log, "--plain")[2]
        first = run(command, log)[2].partition(b"\n")[0] + b"\n"
        check(told == first, "fault", f"stderr of {command} --plain: {told!r}; expected: {first!r}")
    return before


def read_file(path):
    with open(path, "rb") as file:
        return file.read()


def check_saved(log, output, fault, run, folder, damaged):
    """Checks the snapshot of a log's session, and a damaged copy of it, without checksums and with those of the
    original."""
    first, second, third = (os.path.join(folder, name) for name in ("first", "second", "third"))
    if fault:
        run("replay", log, "--save", first)
        check(not os.path.exists(first), "saved", "a snapshot was saved despite the invalid line")
        return
    check(
        run("replay", log, "--save", first) == (0, output, b""), "saved", "replay gives a different result with --save"
    )
    status, counts, said = run("replay", b"", "--load", first, "--save", second)
    check(
        (status, said) == (0, b"") and read_file(first) == read_file(second),
        "saved",
        f"loading and saving changes the snapshot, or fails: status {status}, stderr {said!r}",
    )
    rows, most = (int(COUNTS_LINE.fullmatch(split_lines(text)[-1])[2]) for text in (counts, output))
    check(rows <= most, "saved", f"the loaded snapshot has {rows} rows; the session had at most {most}")
    whole, wrong = read_file(first), damaged(read_file(first))
    for path in (first, third):
        with open(path, "wb") as file:
            file.write(wrong)
    status, written, said = run("replay", log, "--load", third)
    if status == 2:
        check(written == b"" and re.fullmatch(REFUSED_SNAPSHOT, said), "refused", repr(said))
    else:
        check((status, said) == (0, b""), "refused", f"status {status}, stderr {said!r}")
        check_replay(split_lines(log), written)
    status, written, said = run("replay", log, "--load", first)
    is_refused = (status, written) == (2, b"") and re.fullmatch(DAMAGED_SNAPSHOT, said)
    check(
        is_refused or whole == wrong,
        "refused",
        f"a damaged snapshot with the original's checksums must be refused; got status {status}, stderr {said!r}",
    )


def judge(log, run):
    """Checks a log by each rule. Returns the log's replay, and whether the log has an invalid line."""
    fault = find_fault(split_lines(log))
    if fault:
        log = check_fault(log, fault, run)
    output = check_end("replay", run("replay", log), None)
    check_replay(split_lines(log), output)
    check_comparison(output, run)
    check_difference(output, run)
    check(run("replay", output) == (0, output, b""), "replay", "it changed")
    check_quiet(log, output, run)
    check_live(log, output, run)
    check_show(log, run)
    return output, bool(fault)
