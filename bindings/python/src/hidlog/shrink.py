"""Minimize a log that makes a command fail.

    hidlog shrink [--match TEXT] LOG COMMAND [ARGUMENT..] > smaller

The command reads a log on standard input, and fails if its exit status is not 0:

    hidlog shrink recorded.log hidlog check
    hidlog shrink recorded.log hidlog judge
    hidlog shrink session.log sh -c 'hidlog replay | ./my_test'
    hidlog shrink --match 'signature is invalid' session.log sh -c 'hidlog replay | ./my_test'

Transactions are removed first, in ever smaller groups; then single inputs with their `<` lines. An input that can't be
removed is replaced by a tick. A change is kept if the command still fails in the same way:

- The exit status is the same.
- If the first line on standard error names a line of the log, or else a line of output begins with `line N:`, that is
  the same line of the original log, and the rest of the text is the same. If `check` names a packet, the key also sends
  the same packet there.
- With --match, instead of comparing lines: the output or standard error contains that text.

The shortest log found is printed at the end, on SIGINT (Ctrl-C) or SIGTERM, or if the command can no longer be run.
Progress is printed to standard error. A LOG of - is standard input. If the command ignores `<` lines, run `hidlog
quiet` on the log first: it replaces all ignored inputs at once.

Exit status: 2 on invalid arguments, if the command can't be run, does not fail on the whole log, or also fails on an
empty log; 130 on SIGINT; 143 on SIGTERM.

This file does not need the package and can be run by itself.
"""

from __future__ import annotations

import argparse
import os
import re
import signal
import subprocess
import sys
from collections.abc import Callable, Iterable
from contextlib import suppress
from dataclasses import dataclass
from typing import Optional

LINE_NUMBER = re.compile(r"\bline (\d+)\b")
FINDING_LINE = re.compile(r"^line \d+: .*", re.MULTILINE)
PACKET_NUMBER = re.compile(r"\bdiffers at packet (\d+)\b")
# Options of `check` that `replay` does not have.
CHECK_OPTIONS = ("--all", "--json", "--signatures")


@dataclass(frozen=True)
class Block:
    """An input line or a comment, with the `<` lines after it. `number` is the first line's number in the whole log."""

    number: int
    text: bytes

    def lines(self) -> int:
        return self.text.count(b"\n")

    def fields(self) -> list[bytes]:
        return self.text.split(b"\n")[0].split(b" ")

    def to_tick(self) -> Optional[Block]:
        """Returns a tick with the block's timestamp, or None if the block is not an input, or a tick already."""
        fields = self.fields()
        if len(fields) < 3 or fields[0] not in (b">", b"p", b"k", b"s"):
            return None
        return Block(self.number, b"t " + fields[1] + b"\n")

    def packet(self) -> bytes:
        """Returns a host packet in hex, or nothing."""
        fields = self.fields()
        return fields[2] if fields[0] == b">" and len(fields) == 3 else b""


@dataclass(frozen=True)
class Failure:
    """How the command failed. Failures that compare equal count as the same failure."""

    status: int
    text: str
    line: Optional[int] = None
    packet: bytes = b""


def split_blocks(text: bytes) -> list[Block]:
    """Splits a log into blocks."""
    blocks: list[Block] = []
    for number, line in enumerate(text.splitlines(keepends=True), 1):
        if blocks and line.startswith(b"<"):
            blocks[-1] = Block(blocks[-1].number, blocks[-1].text + line)
        else:
            blocks.append(Block(number, line))
    return blocks


def join_blocks(blocks: Iterable[Block]) -> bytes:
    return b"".join(block.text for block in blocks)


def find_block(blocks: list[Block], line: int) -> Optional[Block]:
    """Returns the block that contains a line of the log that consists of these blocks."""
    for block in blocks:
        line -= block.lines()
        if line <= 0:
            return block
    return None


def group_transactions(blocks: list[Block]) -> dict[int, int]:
    """Returns, for each block, the number of the block at which its transaction begins.

    A packet belongs to the message of its channel, and other lines to the message that began last.
    """
    found: dict[int, int] = {}
    last = 0
    of_channel: dict[bytes, int] = {}
    for block in blocks:
        channel, command = block.packet()[:8], block.packet()[8:9]
        if command and command in b"89abcdefABCDEF":
            last = of_channel[channel] = block.number
        found[block.number] = of_channel.get(channel, last) if channel else last
    return found


class Command:
    """The failing command, and the text that it must print, if any."""

    def __init__(self, words: list[str], match: Optional[str]):
        self.words = words
        self.match = match
        self.message = ""

    def find_failure(self, blocks: list[Block]) -> Optional[Failure]:
        """Returns how the command fails on the log of these blocks, or None if it succeeds."""
        ran = subprocess.run(self.words, input=join_blocks(blocks), capture_output=True)
        errors, output = ran.stderr.decode(errors="replace"), ran.stdout.decode(errors="replace")
        self.message = errors.partition("\n")[0]
        if ran.returncode == 0:
            return None
        if self.match is not None:
            is_match = self.match in errors or self.match in output
            return Failure(ran.returncode, self.match) if is_match else None
        first = self.message
        if not LINE_NUMBER.search(first):
            finding = FINDING_LINE.search(output)
            first = finding[0] if finding else ""
        named = LINE_NUMBER.search(first)
        block = find_block(blocks, int(named[1])) if named else None
        if block is None:
            return Failure(ran.returncode, "")
        return Failure(
            ran.returncode, LINE_NUMBER.sub("line", first), block.number, self.find_packet(blocks, block, first)
        )

    def find_packet(self, blocks: list[Block], block: Block, message: str) -> bytes:
        """Returns the packet that the key sends at the mismatch found by `check`, or nothing for other commands."""
        named = PACKET_NUMBER.search(message)
        if named is None or "check" not in self.words:
            return b""
        words = ["replay" if word == "check" else word for word in self.words if word not in CHECK_OPTIONS]
        upto = blocks[: blocks.index(block) + 1]
        sent = split_blocks(subprocess.run(words, input=join_blocks(upto), capture_output=True).stdout)
        inputs = [piece for piece in sent if not piece.text.startswith(b"=")]
        packets = inputs[-1].text.splitlines()[1:] if inputs else []
        at = int(named[1]) - 1
        return packets[at] if at < len(packets) else b""


class Shrinking:
    """A log that is shortened while a command fails on it as expected."""

    def __init__(self, command: Command, blocks: list[Block], wanted: Failure, tell: Callable[[str], None]):
        self.command = command
        self.blocks = blocks
        self.wanted = wanted
        self.tell = tell
        self.whole = len(join_blocks(blocks).splitlines())

    def try_blocks(self, blocks: list[Block]) -> bool:
        """Keeps only these blocks if the command fails on them as expected. Returns whether it fails so."""
        if self.command.find_failure(blocks) != self.wanted:
            return False
        is_shorter = len(blocks) < len(self.blocks)
        self.blocks = blocks
        if is_shorter:
            self.tell(f"{len(join_blocks(blocks).splitlines())} of {self.whole} lines left")
        return True

    def run(self) -> None:
        """Removes blocks and replaces inputs until no further change is possible."""
        self.truncate_after_failure()
        before: list[Block] = []
        while before != self.blocks:
            before = self.blocks
            self.remove_transactions()
            self.remove_blocks()
            self.replace_with_ticks()

    def truncate_after_failure(self) -> None:
        """Removes the blocks after the line of the failure."""
        line = self.wanted.line
        if line is not None and self.blocks[-1].number > line:
            self.try_blocks([block for block in self.blocks if block.number <= line])

    def remove_transactions(self) -> None:
        """Removes whole transactions, as many at a time as possible, beginning with the last, since later transactions
        depend on earlier ones."""
        transaction = group_transactions(self.blocks)
        left = sorted(set(transaction.values()))

        def try_removing(first: int, end: int) -> bool:
            chosen = set(left[first:end])
            if not self.try_blocks([block for block in self.blocks if transaction[block.number] not in chosen]):
                return False
            del left[first:end]
            return True

        for_each_chunk(len(left), try_removing)

    def remove_blocks(self) -> None:
        """Removes blocks, as many at a time as possible."""
        for_each_chunk(len(self.blocks), lambda first, end: self.try_blocks(self.blocks[:first] + self.blocks[end:]))

    def replace_with_ticks(self) -> None:
        """Replaces inputs by ticks, if the command still fails as expected."""
        for place, block in enumerate(self.blocks):
            tick = block.to_tick()
            if tick is not None and block.number != self.wanted.line:
                self.try_blocks(self.blocks[:place] + [tick] + self.blocks[place + 1 :])


def for_each_chunk(count: int, remove: Callable[[int, int], bool]) -> None:
    """Calls remove on chunks of `count` items: first on halves, then on smaller and smaller chunks, each time beginning
    with the last chunk."""
    size = max(1, count // 2)
    while True:
        end = count
        while end > 0:
            first = max(0, end - size)
            if remove(first, end):
                count -= end - first
            end = first
        if size == 1:
            return
        size = max(1, min(size, count) // 2)


def print_message(text: str) -> None:
    with suppress(OSError):
        print(text, file=sys.stderr, flush=True)


def read_log(name: str) -> list[Block]:
    """Returns the blocks of a log file, or of standard input."""
    number = 0 if name == "-" else os.open(name, os.O_RDONLY)
    return split_blocks(b"".join(iter(lambda: os.read(number, 1 << 16), b"")))


class StoppedError(BaseException):
    """The process received SIGINT or SIGTERM."""

    def __init__(self, number: int):
        super().__init__("interrupted" if number == signal.SIGINT else "terminated")
        self.status = 128 + number


def stop(number: int, _: object) -> None:
    """Ends the search. Later signals are ignored, because `timeout` sends each signal twice, and the log must be
    written."""
    for other in (signal.SIGINT, signal.SIGTERM):
        signal.signal(other, signal.SIG_IGN)
    raise StoppedError(number)


def start(command: Command, blocks: list[Block]) -> Shrinking:
    """Runs the command on the whole log. Raises ValueError if its failure can't be used."""
    wanted = command.find_failure(blocks)
    if wanted is None:
        expected = "fail" if command.match is None else f"both fail and print {command.match!r}"
        raise ValueError(f"the command does not {expected} on the whole log")
    if command.find_failure([]) == wanted:
        text = f", with {command.message!r}" if command.message else ""
        raise ValueError(f"the command also fails on an empty log{text}: it must read standard input")
    return Shrinking(command, blocks, wanted, print_message)


def main(words: Optional[list[str]] = None) -> int:
    """Runs `hidlog shrink`."""
    parser = argparse.ArgumentParser(
        prog="hidlog shrink", description=__doc__, formatter_class=argparse.RawDescriptionHelpFormatter
    )
    parser.add_argument("--match", metavar="TEXT", help="text that the failing command must print")
    parser.add_argument("log", metavar="LOG")
    parser.add_argument("command", metavar="COMMAND", nargs=argparse.REMAINDER)
    args = parser.parse_args(words)
    if not args.command:
        parser.error("the command is missing after the log")
    try:
        blocks = read_log(args.log)
    except OSError as error:
        parser.error(f"{args.log}: {error.strerror}")
    try:
        return shrink(Command(args.command, args.match), blocks)
    except OSError as error:
        first, reason = args.command[0], error.strerror
        is_of_start = error.filename == first
        text = f"{first} cannot be started: {reason} (the log must come before the command)" if is_of_start else reason
        print_message(f"hidlog shrink: {text}")
    except ValueError as error:
        print_message(f"hidlog shrink: {error}")
    return 2


def shrink(command: Command, blocks: list[Block]) -> int:
    """Writes the shortest log found, and returns the exit status, which is not 0 if the search was ended early."""
    shrinking = None
    status = 0
    try:
        for number in (signal.SIGINT, signal.SIGTERM):
            if signal.getsignal(number) != signal.SIG_IGN:
                signal.signal(number, stop)
        shrinking = start(command, blocks)
        shrinking.run()
    except StoppedError as stopped:
        print_message(f"hidlog shrink: {stopped}")
        status = stopped.status
    except OSError as error:
        if shrinking is None:
            raise
        print_message(f"hidlog shrink: {command.words[0]} can't be run any longer: {error.strerror}")
        status = 2
    if status:
        print_message("the shortest log so far was written" if shrinking else "nothing was written")
    return status if shrinking is None else write(join_blocks(shrinking.blocks)) or status


def write(log: bytes) -> int:
    """Writes a log to standard output, and returns the exit status."""
    try:
        while log:
            log = log[os.write(1, log) :]
    except OSError:
        print_message("hidlog: writing failed")
        return 2
    return 0


if __name__ == "__main__":
    sys.exit(main())
