"""A key in a separate process (`hidlog live`), which replies to each input line with lines of output."""

from __future__ import annotations

import os
import shutil
import subprocess
import tempfile
import weakref
from contextlib import suppress
from pathlib import Path
from typing import TYPE_CHECKING

from .errors import KeyClosedError, MissingDependencyError, SnapshotError
from .log_lines import Field, Need, Reply, format_line, parse_reply

if TYPE_CHECKING:
    from .credentials import Credential


def program_paths() -> list[Path]:
    """Returns the paths at which the program is searched: HIDLOG_PROGRAM, or the package, PATH and a clone's ./hidlog.

    Relative directories in PATH are ignored."""
    if named := os.environ.get("HIDLOG_PROGRAM"):
        return [Path(named)]
    here = Path(__file__).resolve().parent
    folders = [folder for folder in os.environ.get("PATH", os.defpath).split(os.pathsep) if os.path.isabs(folder)]
    on_path = shutil.which("hidlog", path=os.pathsep.join(folders))
    if on_path and _is_python_script(on_path):
        on_path = None
    clone = [top / "hidlog" for top in list(here.parents)[3:4] if (top / "release" / "hidlog").is_file()]
    return [here / "hidlog", *([Path(on_path)] if on_path else []), *clone]


def _is_python_script(path: str) -> bool:
    """Returns whether a file is a Python script, such as this package's `hidlog`, which would search for the
    program."""
    with open(path, "rb") as file:
        first = file.readline(300)
    return first.startswith(b"#!") and b"python" in first


def find_program() -> str:
    """Returns the path of the program."""
    paths = program_paths()
    for path in paths:
        if path.is_file() and os.access(path, os.X_OK):
            return str(path.resolve())
    tried = ", ".join(map(str, paths))
    raise MissingDependencyError(
        f"hidlog program not found (tried {tried}); install a wheel for Linux on x86-64 or aarch64, or set HIDLOG_PROGRAM. "
        "hidlog.check, replay, quiet, live and show work without it"
    )


def _read_errors(errors: bytes) -> str:
    return errors.decode(errors="replace").strip() or "no error message"


def compute_snapshot(path: str, log: bytes, start: bytes) -> bytes:
    """Replays a log, and returns a snapshot of the credentials at its end."""
    with tempfile.TemporaryDirectory() as folder:
        words = [path, "replay", "--save", f"{folder}/after"]
        if start:
            Path(folder, "start").write_bytes(start)
            words += ["--load", f"{folder}/start"]
        ran = subprocess.run(words, input=log, stdout=subprocess.DEVNULL, stderr=subprocess.PIPE, check=False)
        if ran.returncode:
            raise SnapshotError(f"hidlog ended with status {ran.returncode}: {_read_errors(ran.stderr)}")
        return Path(folder, "after").read_bytes()


def _kill_process(process: subprocess.Popen[bytes], folder: tempfile.TemporaryDirectory[str], owner: int) -> None:
    """Kills the program of a key that no longer exists, and closes the pipes."""
    if os.getpid() != owner:
        return  # after os.fork, the program belongs to the parent process
    for pipe in (process.stdin, process.stdout, process.stderr):
        if pipe is not None:
            with suppress(OSError):
                pipe.close()
    if process.poll() is None:
        process.kill()
        process.wait()
    folder.cleanup()


class SubprocessKey:
    """A key in a separate process, which ends when the key is closed."""

    _all: weakref.WeakSet[SubprocessKey] = weakref.WeakSet()

    def __init__(self, snapshot: bytes = b"", path: str | None = None):
        self._start, self._path = snapshot, path or find_program()
        self._folder = tempfile.TemporaryDirectory()
        words = [self._path, "live"]
        if snapshot:
            Path(self._folder.name, "start").write_bytes(snapshot)
            words += ["--load", f"{self._folder.name}/start"]
        pipe = subprocess.PIPE
        try:
            self._process = subprocess.Popen(words, stdin=pipe, stdout=pipe, stderr=pipe)
        except OSError as error:
            self._folder.cleanup()
            raise MissingDependencyError(f"{words[0]} cannot be started: {error}") from None
        # A running process keeps its pipes open even if no object refers to the process.
        self._end = weakref.finalize(self, _kill_process, self._process, self._folder, os.getpid())
        self._all.add(self)

    @classmethod
    def close_in_child(cls) -> None:
        """Closes the pipes in a child of os.fork, so that the program ends when the parent ends it."""
        for key in list(cls._all):
            for pipe in (key._process.stdin, key._process.stdout, key._process.stderr):
                if pipe is not None and not pipe.closed:
                    getattr(pipe, "raw", pipe).close()
            key._process.returncode = 0  # not a child of this process, which therefore can't wait for it

    def exchange(self, line: bytes) -> Reply:
        """Passes a log line to the program, and returns the key's reply."""
        assert self._process.stdin and self._process.stdout
        try:
            self._process.stdin.write(line + b"\n")
            self._process.stdin.flush()
        except (OSError, ValueError):
            self._raise_ended()
        lines = [self._read()]
        if line.startswith(b"#") or not line:
            return Reply(lines[0], [], Need())  # only echoed
        while not lines[-1].startswith(b"# need "):
            lines.append(self._read())
        return parse_reply(b"".join(lines))

    def play(self, kind: str, at: int, fields: tuple[Field, ...]) -> Reply:
        """Passes an input at a timestamp to the program, and returns the key's reply."""
        return self.exchange(format_line(kind, at, fields).encode())

    def cause(self, _: int | None) -> str:
        """Returns "": `hidlog live` does not report causes."""
        return ""

    def credentials(self, log: bytes) -> list[Credential]:
        """Returns the credentials after this log."""
        from .credentials import read_snapshot  # this import needs the package cryptography

        return read_snapshot(self.snapshot(log))

    def find(self, log: bytes, credential_id: bytes) -> Credential | None:
        """Returns the credential with this ID after this log, or None."""
        return next((credential for credential in self.credentials(log) if credential.id == credential_id), None)

    def count(self, log: bytes) -> int:
        """Returns the number of credentials after this log."""
        return len(self.credentials(log))

    def snapshot(self, log: bytes) -> bytes:
        """Returns a snapshot of the credentials after this log, which is the log of the session so far."""
        return compute_snapshot(self._path, log, self._start)

    def finish(self) -> bytes:
        """Ends the process, and returns its totals line."""
        try:
            rest, errors = self._process.communicate()
        except (OSError, ValueError):
            rest, errors = b"", b""
        self._end()
        if self._process.returncode:
            raise KeyClosedError(f"hidlog ended with status {self._process.returncode}: {_read_errors(errors)}")
        return rest

    def _read(self) -> bytes:
        assert self._process.stdout
        line = self._process.stdout.readline()
        if not line:
            self._raise_ended()
        return line

    def _raise_ended(self) -> None:
        """Raises KeyClosedError with the program's status and error message."""
        assert self._process.stderr
        message = _read_errors(self._process.stderr.read())
        status = self._process.wait()
        raise KeyClosedError(f"hidlog ended with status {status}: {message}")


if hasattr(os, "register_at_fork"):
    os.register_at_fork(after_in_child=SubprocessKey.close_in_child)
