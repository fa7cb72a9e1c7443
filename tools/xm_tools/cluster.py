"""Distributes runs over workers, by Dask distributed: workers of this machine, or those of a scheduler that runs elsewhere.

Dask does a task of a worker that is lost again, by another one, and starts a worker of this machine that ended anew.
"""

import contextlib
import dataclasses
import importlib
import itertools
import logging
import pickle
import signal
import tempfile
import warnings
import zipfile
import zlib
from collections.abc import Iterator
from dataclasses import dataclass
from pathlib import Path
from typing import Any

from xm_tools.beginnings import BOOT
from xm_tools.failure import Unusable
from xm_tools.planning import MOST_ORIGINS
from xm_tools.running import Case, Common, DoneBatch, Setup, begin, do_batch, forget, origin_of, tools_digest, tools_files

# A worker is lost so often with one task before the task is taken to be the cause.
LOSSES = 2
# A task takes about as many seconds; at first, and at most, it has so many runs.
SECONDS, FIRST, MOST = 1.0, 4, 500
# Tasks that are given out in advance, for each worker.
WAITING = 3
# What is left for a worker is at least so many tasks, as long as these are no shorter than such a part of the time above.
SHARES, LEAST = 2, 10
# After so many tasks the scheduler is asked again how many workers there are.
ASKED = 8
# Workers of this machine are copies of one process that has imported Dask, since an import takes most of a second. None of them is
# given up because the machine is slow: without these times one that is not back 15 seconds after its loss is not started again.
LOCAL = {
    "distributed.worker.multiprocessing-method": "forkserver",
    "distributed.worker.profile.enabled": False,
    "distributed.scheduler.allowed-failures": LOSSES,
    "distributed.scheduler.worker-ttl": None,
    "distributed.deploy.lost-worker-timeout": "1 day",
}


def distributed() -> Any:
    """Dask distributed, which takes most of a second to be imported."""
    try:
        return importlib.import_module("distributed")
    except ImportError:
        raise Unusable("there is no distributed: Debian's package python3-distributed has it") from None


@contextlib.contextmanager
def client_of(workers: int, scheduler: str | None) -> Iterator[Any]:
    """A client of workers of this machine, or of those of a scheduler by its address."""
    dask = distributed()
    for name in ("distributed", "tornado", "bokeh"):
        logging.getLogger(name).setLevel(logging.CRITICAL)
    warnings.filterwarnings("ignore", module="distributed")
    if scheduler is not None:
        with client_at(dask, scheduler) as client:
            yield client
        return
    importlib.import_module("dask").config.set(LOCAL)
    with tempfile.TemporaryDirectory(prefix="xm_campaign_workers-") as folder:
        with uninterrupted():
            cluster = local_cluster(dask, workers, folder)
        with cluster, dask.Client(cluster) as client:
            yield client


def local_cluster(dask: Any, workers: int, folder: str) -> Any:
    try:
        return dask.LocalCluster(
            n_workers=workers, threads_per_worker=1, processes=True, dashboard_address=None, silence_logs=logging.CRITICAL,
            local_directory=folder, memory_limit=0,
        )  # fmt: skip
    except (OSError, RuntimeError) as error:
        raise Unusable(f"the workers do not start: {error or type(error).__name__}") from None


@contextlib.contextmanager
def uninterrupted() -> Iterator[None]:
    """Processes that are started in it ignore SIGINT, and so do their copies: that of a terminal is for the command alone."""
    before = signal.signal(signal.SIGINT, signal.SIG_IGN)
    try:
        yield
    finally:
        signal.signal(signal.SIGINT, before)


@contextlib.contextmanager
def client_at(dask: Any, scheduler: str) -> Iterator[Any]:
    """A client of a scheduler, whose workers get these tools."""
    try:
        client = dask.Client(scheduler)
    except (OSError, ValueError, TypeError, RuntimeError) as error:
        raise Unusable(f"{scheduler}: {error}") from None
    with client, tempfile.TemporaryDirectory(prefix="xm_campaign_tools-") as folder:
        client.upload_file(tools_in(folder))
        yield client


def tools_in(folder: str) -> str:
    """A file with this package, as Python imports it."""
    found = str(Path(folder) / f"xm_tools_{tools_digest()[:12]}.zip")
    with zipfile.ZipFile(found, "w", zipfile.ZIP_DEFLATED) as packed:
        for name, content in tools_files().items():
            packed.writestr(f"xm_tools/{name}", content)
    return found


def unpacked(packed: bytes) -> Common:
    """What all runs have in common, on a worker. As a task it is there again after workers that had it are lost."""
    common: Common = pickle.loads(zlib.decompress(packed))
    return common


@dataclass
class Size:
    """How many runs a task has: about as many as take a second, by those that were done, and fewer where few are left."""

    runs: int = FIRST

    def of(self, left: int, threads: int) -> int:
        """Of so many runs that are left for so many threads: as tasks get shorter, all threads end at about the same time."""
        return max(-(-self.runs // LEAST), min(self.runs, -(-left // (SHARES * threads))))

    def learn(self, done: DoneBatch) -> None:
        seconds = [one.seconds + one.beyond for one in done.done if one.seconds]
        if seconds:
            mean = sum(seconds) / len(seconds)
            self.runs = max(1, min(MOST, 2 * self.runs, round(SECONDS / max(mean, SECONDS / MOST))))


class Distribution:
    """The tasks of a campaign at the workers of a client. `left` is about how many runs are not given out."""

    def __init__(self, client: Any, common: Common, left: int) -> None:
        self.client = client
        self.left = left
        self.dask = distributed()
        self.size = Size()
        self.lost = 0
        self.suspects: list[Case] = []
        self.workers: set[str] = set()
        self.count = self.made = 0
        self.threads = 1
        self.cases: dict[str, tuple[Case, ...]] = {}
        # The machines that are saved, of a container and inputs after each tick.
        self.saved: dict[Setup, dict[int, Any]] = {}
        self.common = client.submit(unpacked, zlib.compress(pickle.dumps(common)), key=f"common-{common.name}", pure=False)
        self.name, self.scratch = common.name, common.scratch
        self.finished = self.dask.as_completed(raise_errors=False)

    def submit(self, cases: tuple[Case, ...]) -> None:
        self.count += 1
        key = f"runs-{self.name}-{self.count}"
        self.cases[key] = cases
        wanted = sorted({(origin_of(case.setup), case.begins) for case in cases if case.begins}, key=lambda one: one[1])
        saved = [self.saved_at(origin, tick) for origin, tick in wanted]
        self.finished.add(self.client.submit(do_batch, self.common, cases, tuple(wanted), *saved, key=key, pure=False))

    def saved_at(self, origin: Setup, tick: int) -> Any:
        """The machine after a tick, as what a task gives that goes on from an earlier one. It is there again where it is lost."""
        own = {tick: saved for tick, saved in self.saved.pop(origin, {}).items() if saved.status != "error"}
        if len(self.saved) >= MOST_ORIGINS:
            del self.saved[next(iter(self.saved))]
        self.saved[origin] = own
        if tick not in own:
            before = own[max(earlier)] if (earlier := [one for one in own if one < tick]) else BOOT
            self.made += 1
            own[tick] = self.client.submit(begin, self.common, origin, tick, before, key=f"saved-{self.name}-{self.made}", pure=False)
        return own[tick]

    def room(self) -> int:
        """How many tasks may be given out in addition."""
        if self.count % ASKED == 0:
            self.threads = max(1, sum(self.client.nthreads().values()))
        return WAITING * self.threads - len(self.cases)

    def fill(self, cases: Iterator[Case]) -> None:
        for _ in range(self.room()):
            taken = tuple(itertools.islice(cases, self.size.of(self.left, self.threads)))
            if not taken:
                return
            self.left -= len(taken)
            self.submit(taken)

    def results(self, cases: Iterator[Case]) -> Iterator[tuple[tuple[Case, ...], DoneBatch]]:
        """The runs in the order in which they are done. One whose worker is lost again and again with it alone is counted in `lost`."""
        yield from self.done(cases)
        suspects, self.suspects = self.suspects, []
        for suspect in suspects:
            yield from self.done(iter([suspect]))
        self.lost = len(self.suspects)

    def done(self, cases: Iterator[Case]) -> Iterator[tuple[tuple[Case, ...], DoneBatch]]:
        self.fill(cases)
        while self.cases:
            future = next(self.finished)
            own = self.cases.pop(future.key)
            error = future.exception() if future.status == "error" else None
            if future.status == "cancelled":
                raise Unusable("the scheduler has gone")
            if isinstance(error, self.dask.KilledWorker):
                self.again(own)
            elif error is not None:
                raise error
            else:
                done: DoneBatch = future.result()
                self.size.learn(done)
                self.workers.add(done.worker)
                yield own, done
            future.release()
            self.fill(cases)

    def end(self) -> None:
        """Lets the workers forget the campaign, those that are there still."""
        self.client.run(forget, self.name, self.scratch, on_error="ignore")

    def again(self, own: tuple[Case, ...]) -> None:
        """Runs of a task whose workers were lost, since one of them is the cause or one of another task that waited there: by halves.

        A single one is done when all others are done, so that nothing but itself can be the cause then. They begin at the boot, so that
        a saved machine whose workers were lost is no cause either.
        """
        own = tuple(dataclasses.replace(case, begins=0) for case in own)
        if len(own) == 1:
            self.suspects += own
            return
        middle = len(own) // 2
        self.submit(own[:middle])
        self.submit(own[middle:])
