"""Checks many recordings with any executor of concurrent.futures: processes, or a Dask cluster.

    from concurrent.futures import ProcessPoolExecutor
    for result in hidlog.check_many(paths, ProcessPoolExecutor): ..            # a function that returns an executor
    for result in hidlog.check_many(paths, dask_client.get_executor(pure=False), send=True): ..

If a worker dies, only its recordings are checked again. An executor that breaks with its worker, as ProcessPoolExecutor
does, can't be repaired from outside: pass a function that creates one.
"""

from __future__ import annotations

import os
import traceback
from collections.abc import Callable, Iterable, Iterator
from concurrent.futures import (
    FIRST_COMPLETED,
    BrokenExecutor,
    CancelledError,
    Executor,
    Future,
    ProcessPoolExecutor,
    wait,
)
from itertools import islice
from pathlib import Path
from typing import Any, NamedTuple, Optional, Union

from .errors import ArgumentTypeError, LogError, SnapshotError, check_int
from .files import read_input
from .logs import check
from .saved_files import snapshot_path

# The outcome if a worker does not have the file, so that the data must be sent.
_FILE_MISSING = "elsewhere"
# Number of tasks per worker thread, so that no thread waits for the next task, and the interval at which the number of
# threads is read from a cluster.
_TASKS_PER_WORKER = 2
_TASKS_PER_COUNT = 100
# Assumed number of workers of an executor if it is unknown.
_DEFAULT_WORKERS = 8
Paths = Iterable[Union[str, "os.PathLike[str]"]]
Executors = Union[Executor, Callable[[], Executor]]


# Size and modification time of a recording's log and snapshot; (-1, -1) for a missing file.
Stamp = tuple[int, int, int, int]


class Recorded(NamedTuple):
    """A recording: the path, the log and the snapshot. If the log is None, the worker reads both files, if they have
    this stamp."""

    path: str
    log: Optional[bytes] = None
    snapshot: bytes = b""
    stamp: Optional[Stamp] = None


class CheckResult(NamedTuple):
    """The result of checking a recording.

    path     the path as passed.
    outcome  match; mismatch (or another error in the log); bad-snapshot; unreadable (the file); worker-lost (each
             worker that had it died).
    text     what matched, or what is wrong.
    """

    path: str
    outcome: str
    text: str


def read_recording(path: str) -> Recorded:
    """Reads a recording, and the snapshot beside it, if SecurityKey.save_log wrote one."""
    target = Path(path)
    beside = snapshot_path(target)
    return Recorded(path, read_input(target), read_input(beside) if beside.is_file() else b"")


def read_stamp(path: str) -> Stamp:
    """Returns the stamp of a recording. If the files cannot be read, the stamp is that of missing files."""
    stamp = []
    for name in (path, str(snapshot_path(Path(path)))):
        try:
            found = os.stat(name)
        except OSError:
            stamp += [-1, -1]
        else:
            stamp += [found.st_size, found.st_mtime_ns]
    return (stamp[0], stamp[1], stamp[2], stamp[3])


def check_batch(block: list[Recorded], *, is_short: bool = False) -> list[CheckResult]:
    """Checks some recordings in a worker. With `is_short`, matching recordings are left out of the results."""
    found = [_check_recording(recorded) for recorded in block]
    return [result for result in found if result.outcome != "match"] if is_short else found


def _check_recording(recorded: Recorded) -> CheckResult:
    path = recorded.path
    try:
        if recorded.stamp is not None and recorded.stamp != read_stamp(path):
            return CheckResult(path, _FILE_MISSING, "the worker has another file of this name, or none")
        _, log, snapshot, _ = read_recording(path) if recorded.log is None else recorded
        assert log is not None
        return CheckResult(path, "match", check(log, snapshot or None).raise_for_fault().text.decode().strip())
    except LogError as error:
        return CheckResult(path, "mismatch", str(error))
    except SnapshotError as error:
        return CheckResult(path, "bad-snapshot", str(error))
    except OSError as error:
        return CheckResult(path, "unreadable", str(error))


class _Options(NamedTuple):
    """The options of check_many."""

    send: bool
    block: int
    at_once: Optional[int]
    tries: int
    matches: bool


class _Batch(NamedTuple):
    """The recordings of a task, the number of attempts, and whether the data is sent to workers."""

    block: list[Recorded]
    tries: int = 0
    is_sent: bool = False


class _CheckRun:
    """A check with an executor: the waiting batches, and those in progress."""

    def __init__(self, paths: Iterator[str], executors: Executors, options: _Options):
        self.paths, self.executors, self.options = paths, executors, options
        self.executor = executors if isinstance(executors, Executor) else executors()
        self.waiting: list[_Batch] = []
        self.in_progress: dict[Future[list[CheckResult]], _Batch] = {}
        self.is_broken = False
        # Whether a worker did not have the files of this machine.
        self.is_remote = False
        self.submitted = self.at_once = 0

    def iter_results(self) -> Iterator[CheckResult]:
        """Yields the result of each recording, as it arrives."""
        while True:
            self.submit()
            if self.in_progress:
                for future in wait(self.in_progress, return_when=FIRST_COMPLETED).done:
                    yield from self.collect(future)
            elif self.is_broken:
                self.executor, self.is_broken = self.new_executor(), False
            else:
                return

    def next_batch(self) -> _Batch | None:
        """Returns the next batch, or None at the end, or while the last attempt of a batch must wait. The last attempt
        runs alone, so that a recording that kills its worker affects no other recording."""
        if not self.waiting:
            block = [Recorded(path) for path in islice(self.paths, self.options.block)]
            return _Batch(block, is_sent=self.is_remote) if block else None
        if self.waiting[-1].tries == self.options.tries - 1 and self.in_progress:
            return None
        return self.waiting.pop()

    def has_room(self) -> bool:
        """Returns whether another task may be submitted. A cluster may grow during the check."""
        if self.submitted % _TASKS_PER_COUNT == 0:
            self.at_once = self.options.at_once or _TASKS_PER_WORKER * _count_workers(self.executor)
        return len(self.in_progress) < self.at_once

    def submit(self) -> None:
        """Submits batches, up to the number in progress at once."""
        while not self.is_broken and self.has_room() and (work := self.next_batch()):
            batch, words = work.block, {} if self.options.matches else {"is_short": True}
            if work.is_sent:
                batch = [_load_if_local(recorded) for recorded in batch]
            elif self.options.send:
                batch = [recorded._replace(stamp=read_stamp(recorded.path)) for recorded in batch]
            try:
                self.in_progress[self.executor.submit(check_batch, batch, **words)] = work
                self.submitted += 1
            except BrokenExecutor:
                self.waiting.append(work)
                self.is_broken = True
            if work.tries == self.options.tries - 1:
                return

    def collect(self, future: Future[list[CheckResult]]) -> list[CheckResult]:
        """Returns the results of a batch. If the worker died, each recording is tried again in its own task."""
        work = self.in_progress.pop(future)
        try:
            return self.send_missing(work, future.result())
        except Exception as error:
            if not _is_worker_failure(error):
                raise
            self.is_broken = self.is_broken or isinstance(error, BrokenExecutor)
            if work.tries + 1 == self.options.tries:
                return [
                    CheckResult(recorded.path, "worker-lost", f"{type(error).__name__}: {error}")
                    for recorded in work.block
                ]
        self.waiting += [work._replace(block=[recorded], tries=work.tries + 1) for recorded in work.block]
        return []

    def send_missing(self, work: _Batch, found: list[CheckResult]) -> list[CheckResult]:
        """Returns the results. Recordings whose files the worker does not have are left out, and are sent to a worker
        later."""
        missing = [Recorded(result.path) for result in found if result.outcome == _FILE_MISSING]
        if not missing:
            return found
        self.is_remote = True
        self.waiting.append(work._replace(block=missing, is_sent=True))
        return [result for result in found if result.outcome != _FILE_MISSING]

    def new_executor(self) -> Executor:
        """Returns a new executor after one broke."""
        if isinstance(self.executors, Executor):
            text = "a worker died, and its executor broke: pass check_many a function that creates executors"
            raise BrokenExecutor(text)
        self.executor.shutdown(wait=False)
        return self.executors()

    def shut_down(self) -> None:
        """Cancels batches in progress, and shuts down an executor that was created here."""
        for future in self.in_progress:
            future.cancel()
        if self.executor is not self.executors:
            self.executor.shutdown()


def _count_workers(executor: Any) -> int:
    """Returns the number of threads or processes of an executor, which is of concurrent.futures or of a Dask
    cluster."""
    client = getattr(executor, "_client", None)
    if client is not None:
        return max(1, int(sum(client.nthreads().values())))
    return int(getattr(executor, "_max_workers", _DEFAULT_WORKERS))


def _is_worker_failure(error: Exception) -> bool:
    """Returns whether a worker died or its work was cancelled, which Dask does if a worker is lost. Other errors, such
    as a missing module in a worker, end the check."""
    names = ("KilledWorker", "CommClosedError")
    is_lost = isinstance(error, (BrokenExecutor, CancelledError)) or type(error).__name__ in names
    return is_lost or _is_lost_result_error(error)


def _is_lost_result_error(error: Exception) -> bool:
    """Returns whether a worker died after its result was read, but before Dask passed the result on. In this case Dask
    unpacks the result as if it were an error, in the module cfexecutor. In contrast, the traceback of a task's error
    ends in the task's code."""
    frames = [frame for frame, _ in traceback.walk_tb(error.__traceback__)]
    is_unpacking = isinstance(error, (TypeError, ValueError)) and bool(frames)
    return is_unpacking and frames[-1].f_globals.get("__name__") == "distributed.cfexecutor"


def _load_if_local(recorded: Recorded) -> Recorded:
    """Returns a recording with its data, if the files are on this machine."""
    return read_recording(recorded.path) if Path(recorded.path).is_file() else recorded


def check_many(
    paths: Paths,
    executor: Executors = ProcessPoolExecutor,
    *,
    send: bool = False,
    block: int = 20,
    at_once: int | None = None,
    tries: int = 3,
    matches: bool = True,
) -> Iterator[CheckResult]:
    """Yields the result of each recording as it arrives: each path once, in any order.

    executor   an executor, which stays open; or a function that creates one, called again if one broke.
    send       send the data to workers that do not have the same file (by size and time of change), because they may be on
               other machines. Send processes paths: in Python 3.11, a pool whose worker dies may hang while more than a
               pipe's 64 kB are queued for it.
    block      recordings per task.
    at_once    tasks submitted at a time [default: two for each thread or process of the executor]. Only these are in
               memory, and only these are repeated.
    tries      attempts per recording. From the second one on it is alone in its task.
    matches    False: yield only results other than match. Workers return nothing about the others.
    """
    if not isinstance(executor, Executor) and not callable(executor):
        raise ArgumentTypeError(
            f"executor must be an Executor or a function that returns one, not {type(executor).__name__}"
        )
    if isinstance(paths, (str, bytes, os.PathLike)):
        raise ArgumentTypeError("paths must be a list of paths; for a directory, use Path(directory).rglob('*.log')")
    for name, value in (("block", block), ("at_once", 1 if at_once is None else at_once), ("tries", tries)):
        check_int(name, value, 1, 1_000_000)
    options = _Options(send, block, at_once, tries, matches)
    return _iter_results(_CheckRun((os.fspath(path) for path in paths), executor, options))


def _iter_results(run: _CheckRun) -> Iterator[CheckResult]:
    try:
        yield from run.iter_results()
    finally:
        run.shut_down()
