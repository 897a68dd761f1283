"""Tests check_many with different executors, also if workers exit unexpectedly, and the command check-many."""

from __future__ import annotations

import asyncio
import importlib
import json
import os
import pickle
import signal
import subprocess
import sys
import threading
import xml.etree.ElementTree as xml
from collections.abc import Iterator
from concurrent.futures import BrokenExecutor, Executor, Future, ProcessPoolExecutor, ThreadPoolExecutor
from pathlib import Path
from typing import Any

import pytest

import hidlog
from hidlog.standard import STATUS_NAMES
from hidlog.batch_check import check_batch

EXAMPLES = Path(os.environ["HIDLOG_EXAMPLES"])
MATCHING_LOG = EXAMPLES / "registration.log"


@pytest.fixture
def recordings(tmp_path: Path) -> list[Path]:
    """Provides 200 recordings. Most match; the others mismatch, are not logs, or are missing. One recording started
    with credentials."""
    paths = [tmp_path / f"{number:03}.log" for number in range(200)]
    for number, path in enumerate(paths):
        log = MATCHING_LOG.read_bytes()
        path.write_bytes(log.replace(b"\n< 0", b"\n< 1") if number % 7 == 0 else log if number % 11 else b"nothing\n")
    (tmp_path / "199.log").write_bytes((EXAMPLES / "service_after_restart.log").read_bytes())
    (tmp_path / "199.log.snapshot").write_bytes((EXAMPLES / "service.snapshot").read_bytes())
    paths[198].unlink()
    return paths


def list_expected(paths: list[Path]) -> list[tuple[str, str]]:
    """Returns the expected results, from checking each log alone."""
    listed: list[tuple[str, str]] = []
    for path in paths:
        beside = Path(f"{path}.snapshot")
        if not path.is_file():
            listed.append((str(path), "unreadable"))
            continue
        result = hidlog.check(path.read_bytes(), beside.read_bytes() if beside.is_file() else None)
        listed.append((str(path), "match" if result.status == 0 else "mismatch"))
    return listed


def summarize(found: Iterator[hidlog.CheckResult]) -> list[tuple[str, str]]:
    return sorted((result.path, result.outcome) for result in found)


def test_executors(recordings: list[Path]) -> None:
    wanted = list_expected(recordings)
    assert {item[1] for item in wanted} == {"match", "mismatch", "unreadable"}
    with ThreadPoolExecutor(3) as threads:
        assert summarize(hidlog.check_many(recordings, threads)) == wanted
        assert summarize(hidlog.check_many(recordings, threads, send=True, block=3, at_once=1)) == wanted
    assert summarize(hidlog.check_many(iter(recordings))) == wanted


def test_a_worker_that_is_killed(recordings: list[Path]) -> None:
    """If a worker is killed, its recordings are checked again in another pool. If the pool was passed as an argument,
    the check fails."""
    pools: list[ProcessPoolExecutor] = []

    def make_pool() -> ProcessPoolExecutor:
        pools.append(ProcessPoolExecutor(2))
        return pools[-1]

    def kill_worker(found: Iterator[hidlog.CheckResult]) -> Iterator[hidlog.CheckResult]:
        for number, it in enumerate(found):
            if number == 60:
                os.kill(next(iter(pools[-1]._processes)), signal.SIGKILL)
            yield it

    assert summarize(kill_worker(hidlog.check_many(recordings, make_pool, block=5, at_once=4))) == list_expected(
        recordings
    )
    assert len(pools) == 2
    with pytest.raises(BrokenExecutor, match="a function that creates"):
        list(kill_worker(hidlog.check_many(recordings, make_pool(), block=5, at_once=4)))


def exit_on_recording(block: list[Any]) -> list[hidlog.CheckResult]:
    """Checks a batch in a worker that exits at one recording."""
    if any(item.path.endswith("077.log") for item in block):
        os.kill(os.getpid(), signal.SIGKILL)
    return check_batch(block)


def test_a_recording_that_kills_each_worker(recordings: list[Path], monkeypatch: pytest.MonkeyPatch) -> None:
    monkeypatch.setattr("hidlog.batch_check.check_batch", exit_on_recording)
    found = list(hidlog.check_many(recordings, lambda: ProcessPoolExecutor(2)))
    assert sorted(result.path for result in found) == sorted(map(str, recordings))
    assert [Path(item.path).name for item in found if item.outcome == "worker-lost"] == ["077.log"]


def test_dask(recordings: list[Path]) -> None:
    """Dask workers, one of which is killed."""
    distributed = pytest.importorskip("distributed")
    words = {"n_workers": 3, "threads_per_worker": 1, "processes": True, "dashboard_address": None}
    with distributed.LocalCluster(**words) as cluster, distributed.Client(cluster) as client:
        executor = client.get_executor(pure=False)
        found = []
        for item in hidlog.check_many(recordings, executor, send=True, block=5, at_once=6):
            found.append(item)
            if len(found) == 60:
                os.kill(sorted(client.run(os.getpid).values())[0], signal.SIGKILL)
        assert summarize(iter(found)) == list_expected(recordings)


class LostResult:
    """A future of Dask whose worker exited after its result was read."""

    status = "lost"

    async def _result(self, raiseit: bool) -> list[str]:
        return ["a", "b", "c", "d", "e"]


class LosingExecutor(Executor):
    """An executor that loses the first result, as Dask's executor may do."""

    def __init__(self) -> None:
        self.threads, self.is_first = ThreadPoolExecutor(1), True

    def submit(self, *words: Any, **named: Any) -> Future[Any]:
        if not self.is_first:
            return self.threads.submit(*words, **named)
        self.is_first = False
        future: Future[Any] = Future()
        cfexecutor = importlib.import_module("distributed.cfexecutor")

        async def pass_on() -> None:
            await cfexecutor._cascade_future(LostResult(), future)

        asyncio.run(pass_on())
        return future


def test_lost_result_of_dask(recordings: list[Path]) -> None:
    """A batch whose result was lost by Dask is checked again."""
    pytest.importorskip("distributed")
    assert summarize(hidlog.check_many(recordings, LosingExecutor(), block=5)) == list_expected(recordings)


WORKER_COUNT = 64
# Each of 64 tasks waits for the others, so they finish only if all of them run at the same time.
BARRIER = threading.Barrier(WORKER_COUNT)


def check_when_all_busy(block: list[Any], **words: Any) -> list[hidlog.CheckResult]:
    """Checks a batch as soon as each of 64 workers has a batch."""
    BARRIER.wait(timeout=300)
    return check_batch(block, **words)


def test_64_workers_are_busy(monkeypatch: pytest.MonkeyPatch, tmp_path: Path) -> None:
    """By default, there are enough batches for each worker of a pool and of a cluster."""
    paths = [tmp_path / f"{number}.log" for number in range(WORKER_COUNT)]
    for path in paths:
        path.write_bytes(MATCHING_LOG.read_bytes())
    monkeypatch.setattr("hidlog.batch_check.check_batch", check_when_all_busy)
    with ThreadPoolExecutor(WORKER_COUNT) as threads:
        assert len(list(hidlog.check_many(paths, threads, block=1))) == WORKER_COUNT
    distributed = pytest.importorskip("distributed")
    words = {"n_workers": 4, "threads_per_worker": WORKER_COUNT // 4, "processes": False, "dashboard_address": None}
    with distributed.LocalCluster(**words) as cluster, distributed.Client(cluster) as client:
        found = hidlog.check_many(paths, client.get_executor(pure=False), block=1, send=True)
        assert {item.outcome for item in found} == {"match"}


def test_only_differences(recordings: list[Path], monkeypatch: pytest.MonkeyPatch) -> None:
    """Workers return no data about recordings that match."""
    returned: list[hidlog.CheckResult] = []

    def check_and_keep(block: list[Any], **words: Any) -> list[hidlog.CheckResult]:
        found = check_batch(block, **words)
        returned.extend(found)
        return found

    monkeypatch.setattr("hidlog.batch_check.check_batch", check_and_keep)
    with ThreadPoolExecutor(3) as threads:
        found = summarize(hidlog.check_many(recordings, threads, matches=False))
    assert found == [item for item in list_expected(recordings) if item[1] != "match"]
    assert sorted(item.path for item in returned) == [path for path, _ in found]


@pytest.mark.parametrize("is_other_file_there", [False, True])
def test_workers_elsewhere_are_sent_the_data(
    recordings: list[Path],
    tmp_path_factory: pytest.TempPathFactory,
    monkeypatch: pytest.MonkeyPatch,
    is_other_file_there: bool,
) -> None:
    """The workers have none of the files, or other files with the same names."""
    elsewhere = tmp_path_factory.mktemp("elsewhere")
    if is_other_file_there:
        for path in filter(Path.is_file, recordings):
            (elsewhere / path.name).write_bytes(b"# another recording\n")
    monkeypatch.chdir(recordings[0].parent)
    names = [Path(path.name) for path in recordings]

    def make_pool() -> ProcessPoolExecutor:
        return ProcessPoolExecutor(2, initializer=os.chdir, initargs=(elsewhere,))

    wanted = list_expected(names)
    assert summarize(hidlog.check_many(names, make_pool, send=True)) == wanted
    assert summarize(hidlog.check_many(names, make_pool)) != wanted


def test_wrong_words(recordings: list[Path]) -> None:
    for paths, executor, more in (
        (recordings, 3, {}),
        (str(recordings[0]), ProcessPoolExecutor, {}),
        (recordings, ProcessPoolExecutor, {"block": 0}),
        (recordings, ProcessPoolExecutor, {"tries": "3"}),
        (recordings, ProcessPoolExecutor, {"at_once": 0}),
    ):
        with pytest.raises(hidlog.ArgumentError):
            hidlog.check_many(paths, executor, **more)  # type: ignore[arg-type]


def run_check_many(*words: Any) -> subprocess.CompletedProcess[str]:
    return subprocess.run(
        [sys.executable, "-m", "hidlog", "check-many", *map(str, words)], capture_output=True, text=True, check=False
    )


def test_the_command(recordings: list[Path]) -> None:
    folder, wanted = recordings[0].parent, [
        element for element in list_expected(recordings) if element[1] != "unreadable"
    ]
    ran = run_check_many(folder, "--jobs", 2)
    bad = [item for item in wanted if item[1] != "match"]
    assert (ran.returncode, len(ran.stdout.splitlines())) == (1, len(bad))
    assert ran.stderr == f"{len(wanted) - len(bad)} match, {len(bad)} mismatch\n"
    ran = run_check_many(folder, "--report", "json")
    assert sorted((each["path"], each["outcome"]) for each in map(json.loads, ran.stdout.splitlines())) == wanted
    suite = xml.fromstring(run_check_many(folder, "--report", "junit").stdout)
    assert (suite.get("tests"), suite.get("failures")) == (str(len(wanted)), str(len(bad)))
    cases = [(case.get("name"), "match" if case.find("failure") is None else case[0].get("type")) for case in suite]
    assert sorted(cases) == wanted
    ran = run_check_many(recordings[1])
    assert (ran.returncode, ran.stdout, ran.stderr) == (0, "", "1 match\n")
    wrong: list[list[Any]] = [[folder, "--jobs", 0], [folder, "--executor", "host:1"], [folder / "nothing"], []]
    for words in wrong:
        ran = run_check_many(*words)
        assert ran.returncode in (1, 2) and "Traceback" not in ran.stderr


def test_errors_come_through_a_pool() -> None:
    """An exception that can't be pickled makes the whole pool unusable."""
    for error in (
        hidlog.CtapError(0x2E),
        hidlog.InvalidChannelError(),
        hidlog.NotAllowedError("no", 0x27),
        hidlog.LogError("line 3"),
        hidlog.ArgumentTypeError("it must be str"),
    ):
        again = pickle.loads(pickle.dumps(error))
        assert (type(again), str(again), vars(again)) == (type(error), str(error), vars(error))
    assert {pickle.loads(pickle.dumps(hidlog.CtapError(name))).status for name in STATUS_NAMES} == set(STATUS_NAMES)
