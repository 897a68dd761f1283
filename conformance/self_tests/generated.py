"""Tests of session_cache.py: a clone generates all sessions on first use, also in several processes, and if it is
read-only."""

from __future__ import annotations

import os
import shutil
import subprocess
import sys
import tempfile
from pathlib import Path
from typing import Dict, List

from trying import Test

CORPUS = os.path.join(os.path.dirname(os.path.abspath(__file__)), "..")
COPIED = ("hidlog_conformance", "fuzzed", "recorded", "run.py", "make.py", "sessions.sha256", "clients")
# Prints the folder of the sessions and their number.
COUNT = "import glob\nfrom hidlog_conformance.session_cache import sessions_folder\n"
COUNT += "print(sessions_folder(), len(glob.glob(sessions_folder() + '/*/*.log')))"


class Clone:
    """A copy of the corpus in a temporary folder, without generated sessions."""

    def __init__(self, folder: str) -> None:
        self.folder = os.path.join(folder, "conformance")
        os.mkdir(self.folder)
        for name in COPIED:
            source, target = os.path.join(CORPUS, name), os.path.join(self.folder, name)
            shutil.copytree(source, target) if os.path.isdir(source) else shutil.copy(source, target)

    def environment(self) -> Dict[str, str]:
        """Returns the environment in which Python imports the copy's modules."""
        return {**os.environ, "PYTHONPATH": self.folder, "PYTHONDONTWRITEBYTECODE": "1"}

    def start(self, *words: str) -> "subprocess.Popen[str]":
        """Starts Python in the copy."""
        command = [sys.executable, *words]
        return subprocess.Popen(command, stdout=subprocess.PIPE, text=True, cwd=self.folder, env=self.environment())

    def output(self, *words: str) -> str:
        """Returns the output of Python in the copy."""
        process = self.start(*words)
        text = process.communicate()[0]
        assert process.returncode == 0, text
        return text

    def folders(self) -> List[str]:
        """Returns the names of the cache's folders."""
        return sorted(os.listdir(os.path.join(self.folder, "out")))


def count_recorded_sums() -> int:
    """Returns how many sessions sessions.sha256 has."""
    with open(os.path.join(CORPUS, "sessions.sha256"), encoding="utf-8") as file:
        return len(file.readlines())


def test_new_clone() -> None:
    """A new clone generates the sessions of sessions.sha256. The paths in reports work in any folder."""
    with tempfile.TemporaryDirectory() as room:
        clone = Clone(room)
        named = clone.output("run.py", "--list", "sessions/ping/bytes_0001.log")
        assert named.startswith("ping/bytes_0001: CTAP 2.1"), named
        sums = ["sha256sum", "--quiet", "--check", os.path.join(clone.folder, "sessions.sha256")]
        subprocess.run(sums, check=True, cwd=os.path.join(clone.folder, "sessions"))
        assert len(clone.output("run.py", "--list").splitlines()) == count_recorded_sums()
        assert len(clone.folders()) == 1, clone.folders()
        links = [path for path in Path(clone.folder).rglob("*") if path.is_symlink()]
        assert not links, f"the clone has symbolic links, which rt ci refuses: {links}"
        words = [sys.executable, os.path.join(clone.folder, "run.py"), "--list", "bytes_0001.log"]
        inside = os.path.join(clone.folder, "sessions", "ping")
        assert subprocess.run(words, cwd=inside, capture_output=True, text=True).stdout == named
    print("generated sessions: those of sessions.sha256")


def test_changed_table() -> None:
    """A change of a case table changes the session of the next run, and make.py --check names the session."""
    with tempfile.TemporaryDirectory() as room:
        clone = Clone(room)
        first = clone.output("-c", COUNT).split()[0]
        path = os.path.join(clone.folder, "hidlog_conformance", "cases", "transport.py")
        with open(path, encoding="utf-8") as file:
            text = file.read()
        with open(path, "w", encoding="utf-8") as file:
            file.write(text.replace('"Padding is ignored."', '"Padding has no meaning."'))
        assert "Padding has no meaning." in clone.output("run.py", "--list", "--only", "ping/padding")
        assert len(clone.folders()) == 2, clone.folders()
        process = clone.start("make.py", "--check")
        assert process.communicate()[0] == "differs: ping/padding_is_ignored\n" and process.returncode == 1
        copied = Path(clone.folder, "sessions", "ping", "padding_is_ignored.log").read_text(encoding="utf-8")
        assert "Padding has no meaning." in copied, copied
        os.utime(first, (0, 0))
        clone.output("-c", COUNT)
        assert len(clone.folders()) == 1, "sessions of changed sources were not deleted"
    print("generated sessions: current after a change of the sources")


def test_several_processes() -> None:
    """Several processes that generate at once each see all sessions, and leave one folder."""
    with tempfile.TemporaryDirectory() as room:
        clone = Clone(room)
        processes = [clone.start("-c", COUNT) for _ in range(6)]
        lines = {process.communicate()[0] for process in processes}
        (folder,) = clone.folders()
        assert lines == {f"{os.path.join(clone.folder, 'out', folder)} {count_recorded_sums()}\n"}, lines
    print("generated sessions: whole in six processes at once")


def test_read_only_clone() -> None:
    """A clone that cannot be written to has its sessions in a temporary folder, which is removed."""
    with tempfile.TemporaryDirectory() as room:
        clone = Clone(room)
        # Permissions do not apply to root, so a file with the cache's name keeps it from being created.
        open(os.path.join(clone.folder, "out"), "w", encoding="utf-8").close()
        folder, count = clone.output("-c", COUNT).split()
        assert (
            int(count) == count_recorded_sums() and not folder.startswith(clone.folder) and not os.path.exists(folder)
        )
        named = clone.output("run.py", "--list", "sessions/ping/bytes_0001.log")
        assert named.startswith("ping/bytes_0001: CTAP 2.1"), named
    print("generated sessions: in a temporary folder if the clone is read-only")


TESTS: Dict[str, Test] = {
    "generated/whole": test_new_clone,
    "generated/current": test_changed_table,
    "generated/together": test_several_processes,
    "generated/read_only": test_read_only_clone,
}
