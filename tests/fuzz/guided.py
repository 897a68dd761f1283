"""A coverage-guided fuzzer for decoders in Python. Inputs that reach a new pair of consecutive lines are kept and
mutated."""

from __future__ import annotations

import random
import sys
import time
from dataclasses import dataclass, field
from pathlib import Path
from types import CodeType, FrameType
from typing import Any, Callable, Iterable, Optional

# Bytes with which decoders often compare: ends of ranges, CBOR heads, digits, line ends.
BOUNDARY_BYTES = [
    b"\0",
    b"\x7f",
    b"\x80",
    b"\xff",
    b"\xff\xff\xff\xff",
    b"\n",
    b" ",
    b"0",
    b"\xa1",
    b"\x81",
    b"\xbf\xff",
    b"\x1b",
]
MAX_LENGTH = 8192
REPOSITORY = str(Path(__file__).resolve().parents[2])
Target = Callable[[bytes], None]


class Edges:
    """The pairs of consecutive lines that a target executes in the files of some folders."""

    def __init__(self, folders: Iterable[Path]) -> None:
        self.folders = tuple(str(folder) for folder in folders)
        self.seen: set[tuple[CodeType, int, int]] = set()
        self.last: tuple[Optional[CodeType], int] = (None, 0)
        self.is_new = False

    def trace_call(self, frame: FrameType, _event: str, _: Any) -> Optional[Callable[..., Any]]:
        """Traces the lines of a called function if the function is in one of the folders."""
        return self.trace_line if frame.f_code.co_filename.startswith(self.folders) else None

    def trace_line(self, frame: FrameType, event: str, _: Any) -> Callable[..., Any]:
        if event == "line":
            code, before = frame.f_code, self.last
            self.last = (code, frame.f_lineno)
            edge = (code, before[1] if before[0] is code else 0, frame.f_lineno)
            if edge not in self.seen:
                self.seen.add(edge)
                self.is_new = True
        return self.trace_line


@dataclass
class Fuzzer:
    """Runs a target with given and mutated inputs."""

    target: Target
    # The exceptions that invalid input may cause. Any other exception is a finding.
    allowed: tuple[type[BaseException], ...]
    edges: Edges
    random: random.Random
    corpus: list[bytes] = field(default_factory=list)
    runs: int = 0
    # The first input of each finding, by exception and function.
    findings: dict[str, bytes] = field(default_factory=dict)

    def run_input(self, data: bytes) -> None:
        """Runs the target with an input, which is kept if it reaches a new pair of consecutive lines."""
        self.edges.is_new, self.edges.last = False, (None, 0)
        sys.settrace(self.edges.trace_call)
        try:
            self.target(data)
        except self.allowed:
            pass
        except Exception as wrong:  # a finding
            sys.settrace(None)
            self.findings.setdefault(describe_error(wrong), data)
        finally:
            sys.settrace(None)
        self.runs += 1
        if self.edges.is_new:
            self.corpus.append(data)

    def mutate(self) -> bytes:
        """Returns an input of the corpus after one to eight mutations."""
        data = bytearray(self.random.choice(self.corpus))
        for _ in range(self.random.choice((1, 1, 2, 4, 8))):
            at = self.random.randrange(len(data) + 1)
            MUTATIONS[self.random.randrange(len(MUTATIONS))](self, data, at)
        return bytes(data[:MAX_LENGTH])

    def flip_bit(self, data: bytearray, at: int) -> None:
        if data:
            data[at % len(data)] ^= 1 << self.random.randrange(8)

    def replace_byte(self, data: bytearray, at: int) -> None:
        if data:
            data[at % len(data)] = self.random.randrange(256)

    def insert_bytes(self, data: bytearray, at: int) -> None:
        data[at:at] = self.random.choice(BOUNDARY_BYTES) * self.random.choice((1, 1, 2, 40))

    def remove_bytes(self, data: bytearray, at: int) -> None:
        del data[at : at + self.random.choice((1, 2, 8, 64, 1 << 20))]

    def copy_bytes(self, data: bytearray, at: int) -> None:
        begin = self.random.randrange(len(data) + 1)
        data[at:at] = data[begin : begin + self.random.randrange(1, 80)]

    def splice_input(self, data: bytearray, at: int) -> None:
        other = self.random.choice(self.corpus)
        data[at:] = other[self.random.randrange(len(other) + 1) :]

    def run(self, seeds: Iterable[bytes], seconds: float) -> None:
        """Runs the seeds, and then mutated inputs until the time is up."""
        end = time.monotonic() + seconds
        for seed in (b"", *seeds):
            self.run_input(seed)
        while time.monotonic() < end:
            self.run_input(self.mutate())


MUTATIONS = (
    Fuzzer.flip_bit,
    Fuzzer.replace_byte,
    Fuzzer.insert_bytes,
    Fuzzer.remove_bytes,
    Fuzzer.copy_bytes,
    Fuzzer.splice_input,
)


def describe_error(wrong: BaseException) -> str:
    """Returns the exception's name and the function of this repository that raised it."""
    place, at = "?", wrong.__traceback__
    while at is not None:
        code = at.tb_frame.f_code
        if REPOSITORY in code.co_filename and Path(__file__).name not in code.co_filename:
            place = f"{Path(code.co_filename).name} {code.co_qualname if sys.version_info >= (3, 11) else code.co_name}"
        at = at.tb_next
    return f"{type(wrong).__name__} in {place}"
