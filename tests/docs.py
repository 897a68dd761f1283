#!/usr/bin/env python3
"""Runs the commands in README and docs/, and compares their output with the page.

    tests/docs.py [PAGE ..]           default: README.md, the pages of docs/ and the README of each folder
    tests/docs.py --write PAGE ..     updates the output of each command `$ ..` to what the command prints now

The commands of a page run one after another in a copy of the repository. There are three kinds:

- A line of a code block that begins with `$ `; the lines after it, up to the next command or the end of the block, are
  its output. --write doesn't update the text between the blocks, so read it again.
- A block that begins with ```sh is run as it is, and must exit with 0. A block ```text right after it is its output. It
  may install packages: tests/installer replaces apt-get, and sudo is a function that runs the command.
- A comment `<!-- run: COMMAND -->` is run.

Output may be abbreviated: a line that ends in ` ..` matches any line with that beginning, and a line `..` any number of
lines. Other lines of a code block that begin with a command of this repository or of Debian are an error without
`<!-- not run: WHY -->` above the block.

Links between files, and paths of the repository in backquotes, must exist. If a Debian package is missing, commands are
skipped up to the next heading. The last line is `N passed, N failed`; if something was skipped and nothing failed, it
names the package, and the exit status is 3.
"""

from __future__ import annotations

import contextlib
import functools
import os
import re
import shutil
import signal
import socket
import subprocess
import sys
import tempfile
from dataclasses import dataclass, field
from pathlib import Path

TOP = Path(__file__).resolve().parent.parent
TIMEOUT_SECONDS = 1200
INDENT = "    "
# Pages with paths of older versions, and generated pages.
UNCHECKED_PAGES = ("CHANGELOG.md", "MAP.md")
STATUS_MISSING = 3
LINK = re.compile(r"\]\(([^)#\s]+)(?:#[^)]*)?\)")
# A path of the repository in backquotes, without placeholders.
QUOTED_PATH = re.compile(
    r"`((?:\.github|bench|conformance|crates|docs|examples|go|packages|python|release|rust|tests|web)/[^`\s]*)`"
)
PLACEHOLDER = re.compile(r"[A-Z]{4,}$|NAME|FOLDER|FILE|VERSION|<|\.\.|\{")
# The beginning of a command.
COMMAND = re.compile(
    r"(?:\./|tests/|conformance/|packages/|examples/|release/|bench/|bindings/python/build)\S+"
    r"|(?:sudo|apt-get|hidlog|hidlog-conformance|pip|python3|npm|npx|node|locust|git|gcc|ssh-keygen|rt|docker)(?= )"
)
NOT_RUN = re.compile(r"<!-- not run: .+ -->")


@dataclass
class ShownCommand:
    """A command of a page, its line number, and its expected output, if the page shows any."""

    line: int
    command: str
    is_compared: bool = True
    has_to_succeed: bool = False
    heading: str = ""
    output: list[str] = field(default_factory=list)

    def matches(self, printed: list[str]) -> bool:
        """Returns whether the output matches the page."""
        parts = [r"(?:.*\n)*" if line == ".." else self.to_pattern(line) + r"\n" for line in self.output]
        return re.fullmatch("".join(parts), "".join(f"{line.rstrip()}\n" for line in printed)) is not None

    @staticmethod
    def to_pattern(line: str) -> str:
        return re.escape(line.removesuffix(" ..")) + r".*" if line.endswith(" ..") else re.escape(line)

    def describe_failure(self, status: int, text: str) -> str:
        """Returns how the command's result differs from the page, or an empty string."""
        printed = text.splitlines()
        if self.has_to_succeed and status:
            return f"line {self.line}: status {status}: {text[-600:]}"
        if self.is_compared and not self.matches(printed):
            return f"line {self.line}: {self.command}\n" + "\n".join(f"      {line}" for line in printed[:20])
        return ""


class CommandParser:
    """Parses the commands of a page, line by line."""

    def __init__(self) -> None:
        self.found: list[ShownCommand] = []
        self.faults: list[str] = []
        self.fence: str | None = None
        self.heading = ""
        self.blank = 0
        # Whether the next lines of code are output of the last command, and whether a comment says that the next block is
        # not run.
        self.is_open = self.is_excused = False

    def read_line(self, number: int, line: str) -> None:
        """Processes a line."""
        if line.startswith("```"):
            self.read_fence(number, line[3:].split(" ")[0])
        elif self.fence == "sh":
            self.found[-1].command += line + "\n"
        elif self.fence == "text" and self.found and self.found[-1].has_to_succeed:
            self.found[-1].output.append(line)
        elif not line:
            self.blank += 1
            return
        elif self.fence is not None or line.startswith("    "):
            self.read_code(number, (line if self.fence is not None else line[4:]).rstrip())
        else:
            self.read_prose(number, line)
        self.blank = 0

    def read_fence(self, number: int, word: str) -> None:
        """Processes the beginning or the end of a block between fences."""
        self.is_open = False
        if self.fence is not None:
            self.fence = None
            return
        self.fence = word
        if word == "sh":
            self.found.append(ShownCommand(number, "", False, True, self.heading))
        elif word == "text" and self.found:
            self.found[-1].is_compared = True

    def read_code(self, number: int, code: str) -> None:
        """Processes a line of code outside ```sh blocks."""
        if code.startswith("$ "):
            self.found.append(ShownCommand(number, code[2:], heading=self.heading))
            self.is_open = True
        elif self.is_open:
            # An indented block may continue after an empty line.
            self.found[-1].output += [""] * self.blank + [code]
        elif self.fence in (None, "") and not self.is_excused and COMMAND.match(code):
            self.faults.append(f"line {number}: not run, and without a comment `not run` above: {code}")

    def read_prose(self, number: int, line: str) -> None:
        """Processes a line outside code."""
        self.is_open, self.is_excused = False, NOT_RUN.fullmatch(line) is not None
        if hidden := re.fullmatch(r"<!-- run: (.*) -->", line):
            self.found.append(ShownCommand(number, hidden[1], False, True, self.heading))
        elif line.startswith("#"):
            self.heading = line


def read_commands(text: str) -> CommandParser:
    """Returns the parser after all lines of a page, with its commands in order."""
    reader = CommandParser()
    for number, line in enumerate(text.splitlines(), 1):
        reader.read_line(number, line)
    return reader


def copy_repository(folder: Path) -> None:
    """Copies the tracked and untracked files, except ignored ones."""
    words = ["git", "ls-files", "-co", "--exclude-standard", "-z"]
    listed = subprocess.run(words, cwd=TOP, capture_output=True, check=True, text=True)
    for name in filter(None, listed.stdout.split("\0")):
        if (TOP / name).exists():
            (folder / name).parent.mkdir(parents=True, exist_ok=True)
            shutil.copy2(TOP / name, folder / name, follow_symlinks=False)


def make_environment(installed: Path) -> dict[str, str]:
    """Returns environment variables with which programs find the packages unpacked in a folder as if they were
    installed."""
    usr = installed / "usr"
    programs = [str(TOP / "tests" / "installer"), str(usr / "bin"), "/usr/bin", "/bin", os.environ.get("PATH", "")]
    return {
        **os.environ,
        "INSTALLED": str(installed),
        # bash makes a function of this variable.
        "BASH_FUNC_sudo%%": '() { "$@"; }',
        "PATH": ":".join(programs),
        "PYTHONPATH": str(usr / "lib" / "python3" / "dist-packages"),
        "PYTHONDONTWRITEBYTECODE": "1",
        "CPATH": str(usr / "include"),
        "LIBRARY_PATH": str(usr / "lib" / "x86_64-linux-gnu"),
        "LD_LIBRARY_PATH": str(usr / "lib" / "x86_64-linux-gnu"),
    }


# A line that starts servers and then sleeps until the servers listen.
BACKGROUND_SERVER = re.compile(r"^(.*(?:--port|http\.server) \d+.*)& sleep \d+$", re.MULTILINE)


def list_ports(command: str) -> list[str]:
    """Returns the ports on which a command's servers listen."""
    return re.findall(r"(?:--port|http\.server) (\d+)", command)


# Enables the loopback interface of a network namespace (SIOCSIFFLAGS and IFF_UP), and runs a command in it.
IN_NAMESPACE = (
    "import fcntl, os, socket, struct, sys; "
    "fcntl.ioctl(socket.socket(), 0x8914, struct.pack('16sh22x', b'lo', 1)); "
    "os.execvp(sys.argv[1], sys.argv[1:])"
)


@functools.cache
def make_namespace_command() -> list[str]:
    """Returns the words before a command that run it in a network namespace, where no other program uses its ports, and
    no words if this machine does not allow that."""
    users = [] if os.geteuid() == 0 else ["--map-current-user", "--keep-caps"]
    words = ["unshare", "--net", *users, "python3", "-c", IN_NAMESPACE]
    try:
        is_allowed = subprocess.run([*words, "true"], capture_output=True, check=False).returncode == 0
    except FileNotFoundError:
        return []
    return words if is_allowed else []


def is_used(port: str) -> bool:
    """Returns whether a server of this machine listens on a port."""
    try:
        socket.create_connection(("127.0.0.1", int(port))).close()
    except OSError:
        return False
    return True


def wait_for_servers(command: str) -> str:
    """Returns a command that waits until the servers listen on their ports, instead of sleeping, because the machine
    may be busy."""

    def replace_sleep(found: re.Match[str]) -> str:
        waits = (
            f"until (exec 9<>/dev/tcp/127.0.0.1/{port}) 2>/dev/null; do sleep 0.2; done"
            for port in list_ports(found[1])
        )
        return f"{found[1]}& " + "; ".join(waits)

    return BACKGROUND_SERVER.sub(replace_sleep, command)


def run_command(command: str, folder: Path, installed: Path | None = None) -> tuple[int, str]:
    """Runs a command in a folder, with servers in a network namespace if possible. Returns its exit status and output.
    Kills the processes that the command leaves."""
    ports = [port for server in BACKGROUND_SERVER.findall(command) for port in list_ports(server)]
    before = make_namespace_command() if ports else []
    if not before and (used := [port for port in ports if is_used(port)]):
        return STATUS_MISSING + 1, f"another program uses port {used[0]}\n"
    with (
        tempfile.TemporaryFile() as printed,
        subprocess.Popen(
            [*before, "bash", "-c", wait_for_servers(command)],
            cwd=folder,
            env=make_environment(installed) if installed else None,
            stdin=subprocess.DEVNULL,
            stdout=printed,
            stderr=subprocess.STDOUT,
            start_new_session=True,
        ) as started,
    ):
        try:
            status = started.wait(timeout=TIMEOUT_SECONDS)
        except subprocess.TimeoutExpired:
            return STATUS_MISSING + 1, f"timed out after {TIMEOUT_SECONDS} seconds"
        finally:
            with contextlib.suppress(ProcessLookupError):
                os.killpg(started.pid, signal.SIGKILL)
        printed.seek(0)
        return status, printed.read().decode("utf-8", "replace")


@dataclass
class Result:
    """The result of a page: differences, and missing packages."""

    failures: list[str]
    missing: list[str] = field(default_factory=list)


def run_page(found: list[ShownCommand], work_dir: Path) -> Result:
    """Runs the commands of a page in a copy of the repository."""
    result, skipped = Result([]), ""
    folder, installed = work_dir / "copy", work_dir / "installed"
    installed.mkdir()
    copy_repository(folder)
    for shown in found:
        if skipped and shown.heading == skipped:
            continue
        command = f"set -e\n{shown.command}" if shown.command.endswith("\n") else shown.command
        status, text = run_command(command, folder, installed)
        if status == STATUS_MISSING and shown.has_to_succeed:
            result.missing.append((text.splitlines() or ["something is missing"])[-1])
            skipped = shown.heading
        elif failure := shown.describe_failure(status, text):
            result.failures.append(failure)
    return result


def find_broken_links(page: Path) -> list[str]:
    """Returns the links and paths on a page that don't exist."""
    text = page.read_text(encoding="utf-8")
    targets = [target for target in LINK.findall(text) if "://" not in target]
    found = [f"no file {target}" for target in targets if not (page.parent / target).exists()]
    # The changelog also names removed files.
    named = [
        path for path in QUOTED_PATH.findall(text) if page.name not in UNCHECKED_PAGES and not PLACEHOLDER.search(path)
    ]
    return found + [f"no path {path}" for path in named if not any(TOP.glob(path.rstrip("/")))]


def check_page(page: Path) -> Result:
    """Checks a page."""
    reader = read_commands(page.read_text(encoding="utf-8"))
    result = Result([])
    if reader.found:
        with tempfile.TemporaryDirectory() as work_dir:
            result = run_page(reader.found, Path(work_dir))
    result.failures = [*find_broken_links(page), *reader.faults, *result.failures]
    return result


def update_outputs(text: str, folder: Path) -> str:
    """Returns a page with the outputs of its commands, run in a directory."""
    lines: list[str] = []
    is_output = False
    for line in text.splitlines():
        is_command = line.startswith(f"{INDENT}$ ")
        is_output = is_output and not is_command and (line.startswith(INDENT) or not line)
        if not is_output:
            # The empty line after a block was removed together with the block's output.
            lines += [""] if lines and lines[-1].startswith(INDENT) and not line.startswith(INDENT) and line else []
            lines.append(line)
        if is_command:
            _, printed = run_command(line.removeprefix(f"{INDENT}$ "), folder)
            lines += [f"{INDENT}{item.rstrip()}".rstrip() for item in printed.splitlines()]
            is_output = True
    return "\n".join(lines) + "\n"


def write_pages(pages: list[Path]) -> int:
    """Updates the outputs of pages."""
    for page in pages:
        with tempfile.TemporaryDirectory() as folder:
            copy_repository(Path(folder))
            page.write_text(update_outputs(page.read_text(encoding="utf-8"), Path(folder)), encoding="utf-8")
    return 0


def main() -> int:
    if sys.argv[1:2] == ["--write"]:
        return write_pages([Path(word).resolve() for word in sys.argv[2:]])
    arguments = [Path(word).resolve() for word in sys.argv[1:]]
    pages = arguments or sorted(
        path for pattern in ("*.md", "docs/**/*.md", "*/README.md") for path in TOP.glob(pattern)
    )
    passed = failed = 0
    missing: list[str] = []
    for page in pages:
        result = check_page(page)
        for failure in result.failures:
            print(f"FAILED  {page.relative_to(TOP)}: {failure}")
        missing += [f"{page.relative_to(TOP)}: {name}" for name in result.missing]
        passed, failed = passed + (not result.failures), failed + bool(result.failures)
    print(f"{passed} passed, {failed} failed")
    if failed == 0 and missing:
        print("; ".join(missing))
        return STATUS_MISSING
    return 1 if failed else 0


if __name__ == "__main__":
    sys.exit(main())
