"""Runs tasks on the workers of a Dask scheduler, `dask://HOST:PORT`.

Needs the package distributed (Debian: python3-distributed). The workers need this repository and the device's program
at the same paths, for example in a shared folder. Dask repeats the tasks of a worker that dies.
"""

from __future__ import annotations

from functools import partial
from typing import Any, Callable, Iterable, Iterator, List, Sequence

SCHEME = "dask://"
BATCH_SIZE = 16
SECONDS = 10


def parse_address(executor: str) -> str:
    """Returns HOST:PORT of the option's value."""
    address = executor[len(SCHEME) :]
    if not executor.startswith(SCHEME) or ":" not in address:
        raise ValueError(f"--executor is {executor!r}; it must be {SCHEME}HOST:PORT")
    return address


def connect(executor: str, folders: Sequence[str]) -> Any:
    """Returns a client of the scheduler whose workers also import modules from `folders`."""
    address = parse_address(executor)
    try:
        from distributed import Client
    except ImportError:
        raise ValueError("--executor needs Dask: apt-get install python3-distributed") from None
    try:
        client = Client(address, timeout=SECONDS)
    except OSError as fault:
        raise ValueError(f"--executor: no Dask scheduler at {address}: {fault}") from None
    # Runs in workers that connect later, too.
    client.register_worker_callbacks(partial(exec, f"import sys; sys.path[:0] = {list(folders)!r}"))
    return client


def play_batch(play: Callable[[Any], Any], block: List[Any]) -> List[Any]:
    """Runs some tasks, in a worker."""
    return [play(item) for item in block]


def iter_results(
    executor: str, folders: Sequence[str], play: Callable[[Any], Any], tasks: Iterable[Any]
) -> Iterator[Any]:
    """Yields the result of each task, in order."""
    listed = list(tasks)
    with connect(executor, folders) as client:
        blocks = [listed[at : at + BATCH_SIZE] for at in range(0, len(listed), BATCH_SIZE)]
        for future in client.map(partial(play_batch, play), blocks, pure=False):
            yield from future.result()
