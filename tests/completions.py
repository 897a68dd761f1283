#!/usr/bin/env python3
"""Completes command lines in bash, zsh and fish, with the completions that packages/completions.py generates from a program's help.

    tests/completions.py [PROGRAM]      PROGRAM [default: release/hidlog]

Reports and skips missing shells. Exit status: 1 if a completion is wrong, 3 if there is no shell.
"""

from __future__ import annotations

import os
import pty
import re
import select
import shutil
import subprocess
import sys
import tempfile
import time
from pathlib import Path

TOP = Path(__file__).resolve().parent.parent
PROGRAM = str(Path(sys.argv[1]).resolve() if len(sys.argv) > 1 else TOP / "release/hidlog")
# A timeout in seconds. Only a shell that hangs takes this long.
TIMEOUT_SECONDS = 120
# For each program's help: the texts typed before Tab, and the expected lines after Tab.
COMPLETIONS = (
    ("hidlog rep", "hidlog replay"),
    ("hidlog qu", "hidlog quiet"),
    ("hidlog check --lo", "hidlog check --load"),
    ("hidlog live --sa", "hidlog live --save"),
    ("hidlog show --summ", "hidlog show --summary"),
    ("hidlog check --load key.sn", "hidlog check --load key.snapshot"),
    ("hidlog show sess", "hidlog show session.log"),
    ("hidlog check --sig", "hidlog check --signatures"),
    ("hidlog web", "hidlog webdriver"),
    ("hidlog judge sess", "hidlog judge session.log"),
)


class Terminal:
    """A shell at a terminal, in a folder with two files."""

    def __init__(self, words: list[str], work_dir: Path) -> None:
        self.seen = ""
        self.child, self.file = pty.fork()
        if self.child == 0:
            os.chdir(work_dir)
            os.environ.update(
                TERM="dumb", PS1="$ ", HOME=str(work_dir), PATH=f"{work_dir}:/usr/bin:/bin", INPUTRC="/dev/null"
            )
            os.execvp(words[0], words)

    def read_until(self, text: str) -> bool:
        """Reads until a text appears."""
        end = time.monotonic() + TIMEOUT_SECONDS
        while text not in self.seen and time.monotonic() < end:
            if select.select([self.file], [], [], 0.2)[0]:
                try:
                    self.seen += os.read(self.file, 4096).decode(errors="replace")
                except OSError:
                    break
        return text in self.seen

    def type_text(self, text: str) -> None:
        """Types a text. Output before it is discarded."""
        self.seen = ""
        os.write(self.file, text.encode())

    def close(self) -> None:
        os.close(self.file)
        os.waitpid(self.child, 0)


def find_completion_errors(words: list[str], work_dir: Path, start: str) -> list[str]:
    """Starts a shell, types each text and Tab, and returns the wrong completions."""
    terminal, wrong = Terminal(words, work_dir), []
    terminal.type_text(start + "; echo rea''dy\n")
    assert terminal.read_until("ready"), f"{words[0]} did not start: {terminal.seen}"
    for typed, wanted in COMPLETIONS:
        terminal.type_text(typed + "\t")
        if not terminal.read_until(wanted[len(typed) :]) or not terminal.read_until(wanted.rpartition(" ")[2][-3:]):
            wrong.append(f"{typed!r} is not completed to {wanted!r}: {terminal.seen!r}")
        terminal.type_text("\x15")
    terminal.close()
    return wrong


def test_bash(folder: Path, work_dir: Path) -> list[str]:
    return find_completion_errors(["bash", "--norc", "--noprofile", "-i"], work_dir, f"source {folder}/hidlog.bash")


def test_zsh(folder: Path, work_dir: Path) -> list[str]:
    return find_completion_errors(
        ["zsh", "-f", "-i"], work_dir, f"fpath=({folder} $fpath); autoload -Uz compinit; compinit -u -D"
    )


def test_fish(folder: Path, work_dir: Path) -> list[str]:
    """Returns the wrong completions of fish, which needs no terminal."""
    wrong = []
    for typed, wanted in COMPLETIONS:
        script = f"source {folder}/hidlog.fish; complete --do-complete '{typed}'"
        ran = subprocess.run(
            ["fish", "--no-config", "-c", script],
            cwd=work_dir,
            env={**os.environ, "HOME": str(work_dir)},
            capture_output=True,
        )
        found = re.findall(r"^[^\t\n]+", ran.stdout.decode(), re.MULTILINE)
        if wanted.rpartition(" ")[2] not in found:
            wrong.append(f"{typed!r} should be completed to {wanted!r}; actual: {found} {ran.stderr.decode()}")
    return wrong


def main() -> int:
    status = 3
    with tempfile.TemporaryDirectory() as name:
        folder, work_dir = Path(name, "completions"), Path(name, "room")
        subprocess.run([TOP / "packages/completions.py", PROGRAM, folder], check=True)
        work_dir.mkdir()
        for file in ("key.snapshot", "session.log"):
            (work_dir / file).write_bytes(b"")
        (work_dir / "hidlog").symlink_to(PROGRAM)
        for shell, test in (("bash", test_bash), ("zsh", test_zsh), ("fish", test_fish)):
            if shutil.which(shell) is None:
                print(f"skipped  {shell} is missing (apt-get install {shell})")
                continue
            wrong = test(folder, work_dir)
            print(*wrong, sep="\n", end="\n" if wrong else "")
            print(f"{shell}: {len(COMPLETIONS) - len(wrong)} of {len(COMPLETIONS)} lines are completed")
            status = 1 if wrong or status == 1 else 0
    return status


if __name__ == "__main__":
    sys.exit(main())
