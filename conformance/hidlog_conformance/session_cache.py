"""Generates the session files on first use in a clone; an installed package has them.

They are written to conformance/out/sessions-HASH, where HASH is the hash of their sources. conformance/sessions is a
copy for people to read. It is not a link, since `rt ci` refuses repositories with links. Several processes may generate
the files at once. If the clone is read-only, they are written to a temporary folder.
"""

from __future__ import annotations

import atexit
import contextlib
import functools
import hashlib
import os
import secrets
import shutil
import tempfile
import time
from typing import List

from hidlog_conformance.paths import DATA, INSTALLED, PACKAGE

SESSIONS = os.path.join(DATA, "sessions")
# A file in conformance/sessions with the name of the folder from which the files were copied.
COPY_OF = ".copy-of"
CACHE = os.path.join(DATA, "out")
PREFIX = "sessions-"
# Seconds after its last use after which a folder for other sources is removed.
KEPT_SECONDS = 3600


def list_sources() -> List[str]:
    """Returns the paths of the package's modules, and of the logs that cases are made from."""
    found = []
    for folder in (PACKAGE, os.path.join(DATA, "fuzzed"), os.path.join(DATA, "recorded")):
        for place, _, names in os.walk(folder):
            found += [os.path.join(place, name) for name in names if name.endswith((".py", ".log", ".logs"))]
    return sorted(found)


def compute_hash() -> str:
    """Returns a hash of the sources' paths and bytes."""
    digest = hashlib.sha256()
    for path in list_sources():
        with open(path, "rb") as file:
            data = file.read()
        digest.update(f"{os.path.relpath(path, DATA)} {len(data)}\n".encode() + data)
    return digest.hexdigest()[:16]


def is_readable(folder: str) -> bool:
    """Returns whether a folder exists, and this user may read it."""
    return os.access(folder, os.R_OK | os.X_OK)


def generate(folder: str) -> None:
    """Writes the sessions to a new folder, which is renamed when it is complete."""
    from hidlog_conformance.cases.all_cases import write_sessions

    work = os.path.join(CACHE, f".{PREFIX}{secrets.token_hex(8)}")
    os.makedirs(work)
    try:
        write_sessions(work)
        try:
            os.rename(work, folder)
        except OSError:
            # Another process has generated the folder.
            if not is_readable(folder):
                raise
    finally:
        shutil.rmtree(work, ignore_errors=True)


def write_temporary() -> str:
    """Writes the sessions into a temporary folder, which is removed when this process ends."""
    from hidlog_conformance.cases.all_cases import write_sessions

    folder = tempfile.mkdtemp(prefix="hidlog-" + PREFIX)
    atexit.register(remove_own, folder, os.getpid())
    write_sessions(folder)
    return folder


def remove_own(folder: str, process: int) -> None:
    """Removes the folder, unless this process is a fork of its owner."""
    if os.getpid() == process:
        shutil.rmtree(folder, ignore_errors=True)


def is_current_copy(folder: str) -> bool:
    """Returns whether conformance/sessions is a copy of the folder."""
    try:
        with open(os.path.join(SESSIONS, COPY_OF), encoding="utf-8") as file:
            return file.read() == os.path.basename(folder)
    except OSError:
        return False


def copy_sessions(folder: str) -> None:
    """Replaces conformance/sessions by a copy of the folder, unless it is up to date."""
    if is_current_copy(folder):
        return
    work = os.path.join(CACHE, f".{PREFIX}{secrets.token_hex(8)}")
    old = work + "-old"
    try:
        shutil.copytree(folder, work)
        with open(os.path.join(work, COPY_OF), "w", encoding="utf-8") as file:
            file.write(os.path.basename(folder))
        with contextlib.suppress(FileNotFoundError):
            os.rename(SESSIONS, old)
        os.rename(work, SESSIONS)
    finally:
        for path in (work, old):
            shutil.rmtree(path, ignore_errors=True)


def remove_unused(used: str) -> None:
    """Removes folders for other sources that no process has used for some time."""
    for name in os.listdir(CACHE):
        path = os.path.join(CACHE, name)
        is_old = path != used and time.time() - os.stat(path).st_mtime > KEPT_SECONDS
        if is_old and name.lstrip(".").startswith(PREFIX):
            shutil.rmtree(path, ignore_errors=True)


@functools.lru_cache(maxsize=None)
def sessions_folder() -> str:
    """Returns the folder of the session files; generates them if necessary."""
    if INSTALLED:
        return SESSIONS
    folder = os.path.join(CACHE, PREFIX + compute_hash())
    if not is_readable(folder):
        try:
            generate(folder)
        except OSError:
            return write_temporary()
    with contextlib.suppress(OSError):
        os.utime(folder)
        copy_sessions(folder)
        remove_unused(folder)
    return folder


def session_name(path: str) -> str:
    """Returns a session file's path below the folder of sessions, without its suffix."""
    in_copy, in_folder = (os.path.splitext(os.path.relpath(path, at))[0] for at in (SESSIONS, sessions_folder()))
    return in_folder if in_copy.startswith(os.pardir) and not in_folder.startswith(os.pardir) else in_copy


def session_path(path: str) -> str:
    """Returns the path of a session file given by its path in conformance/sessions; other paths are unchanged."""
    name = session_name(path)
    return path if name.startswith(os.pardir) else os.path.join(sessions_folder(), name + ".log")
