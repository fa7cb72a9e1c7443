"""How far a campaign is, on standard error: a bar with the time left on a terminal where there is rich, else a line now and then."""

import contextlib
import importlib.util
import sys
import time
from collections.abc import Callable, Iterator

EVERY = 10.0


def time_in_words(seconds: float) -> str:
    """A time as one says it."""
    if seconds < 90:
        return f"{seconds:.0f} s"
    return f"{seconds / 60:.0f} min" if seconds < 5400 else f"{seconds / 3600:.1f} h"


class Lines:
    """A line now and then: how many runs are done, and about how long those that are left take."""

    def __init__(self, total: int, done: int, clock: Callable[[], float] = time.monotonic) -> None:
        self.total, self.first, self.done, self.clock = total, done, done, clock
        self.began = self.shown = clock()

    def advance(self, runs: int) -> None:
        self.done += runs
        now = self.clock()
        if now - self.shown >= EVERY:
            self.shown = now
            print(self.line(now), file=sys.stderr, flush=True)

    def line(self, now: float) -> str:
        rate = (self.done - self.first) / max(now - self.began, 0.001)
        left = f", about {time_in_words((self.total - self.done) / rate)} left" if rate else ""
        return f"{self.done} of {self.total} runs{left}"


@contextlib.contextmanager
def progress(total: int, done: int) -> Iterator[Callable[[int], None]]:
    """Gives what is called with the number of runs that were done in addition."""
    if not sys.stderr.isatty() or importlib.util.find_spec("rich") is None:
        yield Lines(total, done).advance
        return
    from rich.console import Console
    from rich.progress import BarColumn, MofNCompleteColumn, Progress, TextColumn, TimeElapsedColumn, TimeRemainingColumn

    columns = [BarColumn(), MofNCompleteColumn(), TextColumn("runs"), TimeElapsedColumn(), TextColumn("left"), TimeRemainingColumn()]
    with Progress(*columns, console=Console(stderr=True), transient=True) as shown:
        task = shown.add_task("runs", total=total, completed=done)
        yield lambda runs: shown.advance(task, runs)
