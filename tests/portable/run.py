#!/usr/bin/env python3
"""Compares the portable C library with the proved program, by compiler and system: tests/portable/run.py [OPTION ..]

    --quick             one build by gcc, the worked logs, the recorded ones, the examples and 150 malformed ones
    --target NAME       only this target, several times if needed; see TARGETS
    --count N           number of malformed logs (default: 2000)

Every record of all_commands.c must equal that of the proved library, byte for byte, and a command's record must equal
the output of the proved program. Also runs the programs of tests/c, tests of threads, fork, memory and two libraries in
one process, and the portable program. Takes about 20 minutes on one core, and less than 2 with --quick. Targets with a
missing compiler or emulator are named and skipped. Exits with 3 if wabt or gcc is missing.
"""

from __future__ import annotations

import argparse
import io
import os
import shutil
import subprocess
import sys
import tarfile
import tempfile
from collections.abc import Iterator
from contextlib import ExitStack
from pathlib import Path
from typing import NamedTuple

HERE = Path(__file__).resolve().parent
TOP = HERE.parent.parent
RELEASE = TOP / "release"
sys.path.insert(0, str(TOP / "tests/fuzz"))
sys.dont_write_bytecode = True

from malformed_requests import hostile_log

SNAPSHOT = TOP / "examples/example_com.snapshot"
SIGN_IN = TOP / "examples/sign_in.log"
QUICK_COUNT = 150
MAX_DISTRIBUTION_BYTES = 1_000_000
WARNINGS = ["-std=c11", "-Wall", "-Wextra", "-Wpedantic", "-Werror"]


class Target(NamedTuple):
    """A system and a compiler: the compiler with its options, options for linking, and the command that runs a
    program."""

    compiler: list[str]
    linked: list[str] = ["-static"]
    runner: list[str] = []
    suffix: str = ""


SANITIZERS = ["-fsanitize=address,undefined", "-fno-sanitize-recover=all"]
# Replacements for parts of C11 that Windows's C library lacks: aligned_alloc, and the formats of sizes.
WINDOWS_C11 = ["-Daligned_alloc(alignment,size)=malloc(size)", "-D__USE_MINGW_ANSI_STDIO=1"]
TARGETS = {
    "gcc": Target(["gcc", "-O2"], linked=[]),
    "clang": Target(["clang", "-O2"], linked=[]),
    "sanitizers": Target(["gcc", "-O1", "-g1", *SANITIZERS], linked=SANITIZERS),
    "aarch64": Target(["aarch64-linux-gnu-gcc", "-O1"], runner=["qemu-aarch64-static"]),
    "armhf": Target(["arm-linux-gnueabihf-gcc", "-O1"], runner=["qemu-arm-static"]),
    "riscv64": Target(["riscv64-linux-gnu-gcc", "-O1"], runner=["qemu-riscv64-static"]),
    "i386": Target(["i686-linux-gnu-gcc", "-O1"], runner=["qemu-i386-static"]),
    "windows": Target(["x86_64-w64-mingw32-gcc", "-O2", *WINDOWS_C11], runner=["/usr/lib/wine/wine64"], suffix=".exe"),
}
# Sets the standard streams of a test program to binary mode on Windows. Other systems have no text mode.
BINARY_STREAMS = """\
#include <fcntl.h>
#include <io.h>

__attribute__((constructor)) static void make_streams_binary(void) {
    for (int stream = 0; stream <= 2; stream++) {
        _setmode(stream, _O_BINARY);
    }
}
"""
# The declarations that hidlog.c uses, by header, for systems whose headers are not installed.
HEADERS = {
    "stdio.h": """\
typedef struct file FILE;
extern FILE *stderr;
int fputs(const char *text, FILE *file);
""",
    "stdlib.h": """\
#include <stddef.h>
void *calloc(size_t count, size_t size);
void free(void *memory);
_Noreturn void abort(void);
""",
    "string.h": """\
#include <stddef.h>
void *memcpy(void *to, const void *from, size_t len);
void *memmove(void *to, const void *from, size_t len);
void *memset(void *memory, int value, size_t len);
""",
}
# Systems for which clang checks the syntax, without their headers.
CHECKED_TARGETS = (
    "arm64-apple-macos13",
    "x86_64-apple-macos13",
    "x86_64-unknown-freebsd14",
    "aarch64-unknown-openbsd7",
    "x86_64-pc-windows-msvc",
    "aarch64-pc-windows-msvc",
)
QUICK = Target(["gcc", "-O0"], linked=[])


class ComparisonError(Exception):
    """A command failed, or a result of the portable library differs from the expected one."""


def run(words: list[str | Path], data: bytes = b"", expected: int = 0) -> bytes:
    """Runs a command, and returns its output. The output is written to files, since wine's services keep pipes open."""
    with tempfile.TemporaryFile() as output, tempfile.TemporaryFile() as errors:
        ran = subprocess.run(list(map(str, words)), input=data, stdout=output, stderr=errors)
        output.seek(0)
        errors.seek(0)
        written = output.read()
        if ran.returncode != expected:
            text = (written[-2000:] + errors.read()[-2000:]).decode(errors="replace")
            command = " ".join(map(str, words))
            raise ComparisonError(f"{command} ended with {ran.returncode}, expected {expected}:\n{text}")
    return written


def list_logs(count: int) -> dict[str, bytes]:
    """Returns the logs by name: worked, recorded, examples, and malformed ones of seed 1."""
    folders = ("crates/hidlog_cli/data", "conformance/recorded", "examples")
    logs = {
        str(path.relative_to(TOP)): path.read_bytes()
        for name in folders
        for path in sorted((TOP / name).rglob("*.log"))
    }
    if len(logs) < 80:
        raise ComparisonError(f"only {len(logs)} logs were found")
    return {**logs, **{f"malformed_{number}": hostile_log(1, number) for number in range(count)}}


def encode_logs(logs: dict[str, bytes]) -> bytes:
    """Returns the input of all_commands.c."""
    records = {"snapshot": SNAPSHOT.read_bytes(), **logs}
    return b"".join(b"%d %s\n%s" % (len(data), name.encode(), data) for name, data in records.items())


class Record(NamedTuple):
    """What all_commands.c writes for a log and a command."""

    name: str
    command: str
    status: int
    message: bytes
    text: bytes


def read_records(output: bytes) -> Iterator[Record]:
    """Yields the records of all_commands.c, except the totals."""
    start = 0
    while start < len(output):
        end = output.index(b"\n", start)
        name, command, *numbers = output[start:end].decode().split(" ")
        message_len, text_len = (0, 0) if command == "totals" else map(int, numbers[4:6])
        message = output[end + 1 : end + 1 + message_len]
        start = end + 1 + message_len + text_len
        if command != "totals":
            yield Record(name, command, int(numbers[0]), message, output[end + 1 + message_len : start])


def compare_with_program(logs: dict[str, bytes], output: bytes) -> int:
    """Compares the records with the proved program. Returns how many were compared."""
    words = {name: [name, "--plain"] for name in ("replay", "live", "check", "quiet", "show")}
    words.update({f"loaded_{name}": [*words[name], "--load", str(SNAPSHOT)] for name in ("replay", "check")})
    words["explain"] = ["show", "--explain"]
    count = 0
    with tempfile.TemporaryDirectory() as folder:
        for record in read_records(output):
            saved = Path(folder, "saved")
            options = words.get(record.command, ["replay", "--save", str(saved)] if record.command == "saved" else [])
            if not options:
                continue
            ran = subprocess.run([str(RELEASE / "hidlog"), *options], input=logs[record.name], capture_output=True)
            actual = (record.status, record.text, record.message)
            expected = (ran.returncode, ran.stdout, b"".join(ran.stderr.splitlines(keepends=True)[:1]))
            if record.command == "saved":
                if ran.returncode:
                    continue
                actual, expected = (0, record.text, b""), (0, saved.read_bytes(), b"")
                for path in Path(folder).iterdir():
                    path.unlink()
            if actual != expected:
                raise ComparisonError(f"{record.command} of {record.name} is {actual}, expected {expected}")
            count += 1
    return count


def compare_records(actual: bytes, expected: bytes) -> None:
    """Compares the records of two libraries."""
    if actual == expected:
        return
    for found, proved in zip(read_records(actual), read_records(expected)):
        if found != proved:
            raise ComparisonError(f"{found.command} of {found.name} is {found}, expected {proved}")
    raise ComparisonError("the totals or the number of records differ")


class Builder:
    """The portable library and programs with it, for a target, in a folder."""

    def __init__(self, target: Target, sources: Path, folder: Path):
        if target.suffix == ".exe":
            streams = folder / "binary_streams.o"
            run([*target.compiler, "-c", "-o", streams, "-xc", "-"], BINARY_STREAMS.encode())
            target = target._replace(linked=[*target.linked, str(streams)])
        self.target, self.sources, self.folder = target, sources, folder
        self.library = folder / "hidlog.o"
        run([*target.compiler, *WARNINGS, "-fPIC", "-c", "-o", self.library, sources / "hidlog.c"])

    def build(self, source: Path, *options: str | Path, library: Path | None = None) -> Path:
        """Builds a program with the library, or with another one."""
        program = self.folder / (source.stem + self.target.suffix)
        words: list[str | Path] = [*self.target.compiler, *WARNINGS, "-I", self.sources, "-o", program, source]
        run([*words, library or self.library, *options, *self.target.linked])
        return program

    def make_runner(self) -> list[str]:
        """Returns the command that runs a program, given the program's name without its suffix."""
        if not self.target.suffix:
            return self.target.runner
        runner = self.folder / "run"
        runner.write_text(
            f'#!/bin/sh\nprogram=$1{self.target.suffix}\nshift\nexec {self.target.runner[0]} "$program" "$@"\n'
        )
        runner.chmod(0o755)
        return [str(runner)]

    def run(self, program: Path, *words: str | Path, data: bytes = b"") -> bytes:
        """Runs a program."""
        return run([*self.target.runner, program, *words], data)


class WineServer:
    """A context in which wine's server keeps running. A server that ends while a program starts would reset the
    program's connection."""

    PROGRAM = "/usr/lib/wine/wineserver64"

    def __enter__(self) -> None:
        Path(os.environ["WINEPREFIX"]).mkdir(exist_ok=True)
        subprocess.run([self.PROGRAM, "--persistent"], check=True)

    def __exit__(self, *_: object) -> None:
        subprocess.run([self.PROGRAM, "--kill"], check=False)


def test_process(builder: Builder, is_allocation_tested: bool) -> None:
    """Tests threads, fork, allocation, and two libraries in one process."""
    concurrency = builder.build(HERE / "concurrency.c", "-pthread")
    # A process with AddressSanitizer must not be forked while other threads allocate.
    builder.run(concurrency, SIGN_IN, *(["threads"] if "-fsanitize" in " ".join(builder.target.linked) else []))
    if builder.target.runner or "-static" in builder.target.linked:
        return
    if is_allocation_tested:
        allocation = builder.folder / "allocation"
        run(["gcc", "-O0", *WARNINGS, "-I", builder.sources, "-o", allocation, HERE / "allocation.c"])
        run([allocation])
    if builder.target.linked:  # a sanitizer
        return
    shared = builder.folder / "libhidlog.so.1"
    run([*builder.target.compiler, "-shared", "-o", shared, builder.library])
    two = builder.build(HERE / "two_libraries.c", "-ldl")
    for pair in ((RELEASE / "libhidlog.so.1", shared), (shared, RELEASE / "libhidlog.so.1")):
        run([two, *pair, SIGN_IN])
    run([two, shared, shutil.copy(shared, builder.folder / "other.so"), SIGN_IN])


def test_target(
    name: str, target: Target, sources: Path, logs: dict[str, bytes], expected: bytes, is_quick: bool
) -> None:
    """Compares a target with the proved library."""
    with tempfile.TemporaryDirectory() as folder, ExitStack() as stack:
        if target.suffix:
            stack.enter_context(WineServer())
        builder = Builder(target, sources, Path(folder))
        output = builder.run(builder.build(HERE / "all_commands.c"), data=encode_logs(logs))
        compare_records(output, expected)
        test_process(builder, name in ("gcc", "quick"))
        program = builder.build(sources / "program.c")
        if is_quick:
            run([TOP / "tests/worked_logs.sh", program])
        else:
            words = [" ".join(target.compiler), " ".join(builder.target.linked), *builder.make_runner()]
            run([TOP / "tests/c/run.sh", builder.library, *words])
        print(
            f"{name}: {len(logs)} logs, the programs of tests/c, threads and memory"
            if not is_quick
            else f"{name}: {len(logs)} logs, the worked logs by the program, threads, fork and memory",
            flush=True,
        )


def test_byte_order(sources: Path) -> None:
    """The compiler reports an error for a big-endian machine."""
    words: list[str | Path] = ["gcc", "-fsyntax-only", "-U__BYTE_ORDER__", "-D__BYTE_ORDER__=__ORDER_BIG_ENDIAN__"]
    ran = subprocess.run([*map(str, words), str(sources / "hidlog.c")], capture_output=True, text=True)
    if ran.returncode == 0 or "needs a little-endian processor" not in ran.stderr:
        raise ComparisonError(f"hidlog.c compiles for a big-endian machine, or fails with another error: {ran.stderr}")


def test_size(sources: Path) -> None:
    """The compressed source distribution is smaller than a megabyte."""
    packed = io.BytesIO()
    with tarfile.open(fileobj=packed, mode="w:gz") as archive:
        archive.add(sources, "hidlog")
    if (size := len(packed.getvalue())) >= MAX_DISTRIBUTION_BYTES:
        raise ComparisonError(f"the source distribution has {size} bytes; expected fewer than {MAX_DISTRIBUTION_BYTES}")


def test_syntax(sources: Path) -> None:
    """clang reports no warnings, except about padding and C89, for systems whose programs cannot run here."""
    words = ["clang", "-std=c11", "-ffreestanding", "-fsyntax-only", "-Weverything", "-Werror"]
    words += ["-Wno-padded", "-Wno-declaration-after-statement"]
    with tempfile.TemporaryDirectory() as headers:
        for name, text in HEADERS.items():
            Path(headers, name).write_text(text, encoding="ascii")
        for target in CHECKED_TARGETS:
            run([*words, "-isystem", headers, "-target", target, sources / "hidlog.c"])
    print(f"clang: no warning for {', '.join(CHECKED_TARGETS)}", flush=True)


def find_missing(target: Target) -> str | None:
    """Returns a command that a target needs and that is missing."""
    return next((word for word in (target.compiler[0], *target.runner) if shutil.which(word) is None), None)


def parse_options() -> argparse.Namespace:
    parser = argparse.ArgumentParser(description=(__doc__ or "").split("\n", maxsplit=1)[0])
    parser.add_argument("--quick", action="store_true", help="one build by gcc, and fewer logs")
    parser.add_argument("--target", action="append", choices=TARGETS, help="only this target")
    parser.add_argument("--count", type=int, default=2000, help="malformed logs [default: 2000]")
    return parser.parse_args()


def main() -> int:
    options = parse_options()
    for tool, package in (("wasm2c", "wabt"), ("gcc", "gcc libc6-dev")):
        if shutil.which(tool) is None:
            print(f"tests/portable: {tool} is missing (apt-get install {package}); nothing was run", file=sys.stderr)
            return 3
    targets = {"quick": QUICK} if options.quick else {name: TARGETS[name] for name in options.target or TARGETS}
    os.environ.update(WINEDEBUG="-all", ASAN_OPTIONS="detect_leaks=1")
    with tempfile.TemporaryDirectory() as folder:
        os.environ["WINEPREFIX"] = f"{folder}/wine"
        sources, native = Path(folder, "sources"), Path(folder, "native")
        native.mkdir()
        try:
            run([TOP / "bindings/c/sources.sh", sources])
            test_byte_order(sources)
            test_size(sources)
            if not options.quick and shutil.which("clang"):
                test_syntax(sources)
            logs = list_logs(QUICK_COUNT if options.quick else options.count)
            program = native / "all_commands"
            run(["gcc", *WARNINGS, "-I", sources, "-o", program, HERE / "all_commands.c", RELEASE / "libhidlog.a"])
            expected = run([program], encode_logs(logs))
            count = compare_with_program(logs, expected)
            print(f"the proved library: {count} outputs like the proved program's", flush=True)
            for name, target in targets.items():
                if missing := find_missing(target):
                    print(f"{name}: skipped, {missing} is missing", flush=True)
                else:
                    test_target(name, target, sources, logs, expected, options.quick)
        except ComparisonError as error:
            print(f"FAILED: {error}"[:4000], file=sys.stderr)
            return 1
    return 0


if __name__ == "__main__":
    sys.exit(main())
