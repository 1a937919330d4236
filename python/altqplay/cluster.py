"""Runs a function of the package on the machines of a scheduler of dask.distributed.

The package is sent to the workers. A file that a worker has at the same path with the same bytes is used there, and any other is sent.
What a worker leaves undone that goes away is given to another one.
"""

from __future__ import annotations

import hashlib
import logging
import os
import tempfile
import zipfile
from concurrent.futures import CancelledError
from functools import lru_cache
from typing import Any, Callable, Iterable, Iterator, Optional, Sequence

from .workbench.faults import Missing

SECONDS = 10  # within which a scheduler and a worker must answer
ROUNDS = 3  # how often what was left undone is given out again

# What is done of an item on a worker, with the paths there of the files that it needs.
Job = Callable[[Any, dict[str, str]], Any]


def digest(name: str) -> str:
    """What a file holds, in short."""
    found = hashlib.sha256()
    with open(name, "rb") as file:
        for piece in iter(lambda: file.read(1 << 20), b""):
            found.update(piece)
    return found.hexdigest()


@lru_cache(maxsize=None)
def has_file(path: str, held: str) -> bool:
    """Whether this machine has a file with these bytes at a path."""
    return os.path.isfile(path) and digest(path) == held


@lru_cache(maxsize=None)
def room() -> tempfile.TemporaryDirectory:
    """The folder of this process for files that were sent."""
    return tempfile.TemporaryDirectory(prefix="altqplay-sent-")


def path_here(path: str, held: str, data: Optional[bytes]) -> str:
    """The path on this machine of a file: as it stands here, or written from what was sent. `Missing` where it is neither."""
    if has_file(path, held):
        return path
    if data is None:
        raise Missing(f"no file {path} with the same bytes on a worker")
    made = os.path.join(room().name, held)
    if not has_file(made, held):
        part = f"{made}.{os.getpid()}.{id(data)}"
        with open(part, "wb") as file:
            file.write(data)
        os.chmod(part, 0o755)
        os.replace(part, made)
        has_file.cache_clear()
    return made


def done_here(job: Job, item: Any, held: dict[str, str], sent: Sequence[Optional[bytes]]) -> Any:
    """What a job makes of an item, on a worker."""
    return job(item, {path: path_here(path, one, data) for (path, one), data in zip(held.items(), sent)})


def packed(folder: str) -> str:
    """The package as an archive that Python imports from."""
    name = os.path.join(folder, "altqplay_package.zip")
    with zipfile.ZipFile(name, "w", zipfile.ZIP_DEFLATED) as archive:
        package = os.path.dirname(os.path.abspath(__file__))
        for top, _folders, files in os.walk(package):
            for file in sorted(files):
                if file.endswith((".py", ".css")):
                    path = os.path.join(top, file)
                    archive.write(path, os.path.relpath(path, os.path.dirname(package)))
    return name


class Cluster:
    """The machines of a scheduler. `Missing` where the scheduler does not answer, or has no worker, within seconds."""

    def __init__(self, scheduler: str) -> None:
        try:
            from dask import distributed
        except ModuleNotFoundError:
            raise Missing("dask.distributed is not installed: leave out the scheduler, or install distributed") from None
        self.distributed, self.scheduler = distributed, scheduler
        for name in ("distributed", "distributed.client", "distributed.core", "distributed.comm"):
            logging.getLogger(name).setLevel(logging.CRITICAL)
        try:
            self.client = distributed.Client(scheduler, timeout=f"{SECONDS}s")
        except (OSError, ValueError, TimeoutError) as fault:
            raise Missing(f"no scheduler answers at {scheduler}: {fault}") from None
        try:
            self.prepare()
        except BaseException:
            self.client.close()
            raise

    def prepare(self) -> None:
        """Waits for a worker, and sends the package."""
        try:
            self.client.wait_for_workers(1, timeout=SECONDS)
        except (OSError, TimeoutError):
            raise Missing(f"the scheduler at {self.scheduler} has no worker: start one by dask-worker {self.scheduler}") from None
        with tempfile.TemporaryDirectory(prefix="altqplay-") as folder:
            self.client.upload_file(packed(folder))

    def sent(self, held: dict[str, str]) -> list[Any]:
        """What is sent of each file: nothing where all workers have it."""
        found: list[Any] = []
        for path, one in held.items():
            if all(self.client.run(has_file, path, one).values()):
                found.append(None)
            else:
                with open(path, "rb") as file:
                    found.append(self.client.scatter(file.read(), broadcast=True))
        return found

    def answers(self, job: Job, items: Iterable[Any], files: Iterable[str]) -> Iterator[tuple[Any, Any]]:
        """Each item with what the job makes of it, as it is done. `Missing` where the workers leave some undone again and again."""
        held = {path: digest(path) for path in files}
        left = list(items)
        for _round in range(ROUNDS):
            undone: list[Any] = []
            try:
                yield from self.round(job, left, held, undone)
            except (OSError, TimeoutError) as fault:
                raise Missing(f"the scheduler at {self.scheduler} is gone: {fault}") from None
            left = undone
            if not left:
                return
        raise Missing(f"the workers of {self.scheduler} left {len(left)} plays undone, {ROUNDS} times")

    def round(self, job: Job, items: list[Any], held: dict[str, str], undone: list[Any]) -> Iterator[tuple[Any, Any]]:
        """Gives out some items; those that a worker left are undone."""
        try:
            self.client.wait_for_workers(1, timeout=SECONDS)
            sent = self.sent(held)
            waiting = {self.client.submit(done_here, job, item, held, sent, pure=False): item for item in items}
        except (OSError, TimeoutError):
            raise Missing(f"the scheduler at {self.scheduler} is gone, or has no worker any more") from None
        for future in self.distributed.as_completed(list(waiting)):
            try:
                yield waiting[future], future.result()
            except (self.distributed.KilledWorker, CancelledError, Missing):
                undone.append(waiting[future])

    def __enter__(self) -> "Cluster":
        return self

    def __exit__(self, *_fault: object) -> None:
        self.client.close()
