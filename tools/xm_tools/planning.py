"""Plans from which saved machine each run of a campaign goes on, so that few machines serve many runs.

Machines are saved at multiples of a number of ticks. One is worth its making where some runs begin at it or later, since each of
these saves the ticks from the one before it on, which are run twice for a saved machine; and where it takes longer to come to its
tick from the boot than to read it.
"""

import bisect
import dataclasses
import itertools
from collections import Counter
from collections.abc import Callable, Iterable, Iterator, Mapping

from xm_tools.running import Case, Setup, origin_of

# A saved machine serves at least so many of the runs that are planned together, which are so many.
SHARED, TOGETHER = 4, 1000
# So many choices of container and inputs have saved machines at a time.
MOST_ORIGINS = 4


class Planner:
    """Says where runs begin, by the longest run of each container, and how many machines are saved in it at most.

    `least` says from which tick on it pays to go on from a saved machine, by container and inputs and the longest run. `scripted` is
    how many partitions a system has whose other partitions are compared by their scripts, which no run has that goes on from a
    saved machine; 0 where they are not.
    """

    def __init__(self, longest: Mapping[str, int], most: int, least: Callable[[Setup, int], int], scripted: int) -> None:
        self.longest, self.least, self.scripted = longest, least, scripted
        self.steps = {container: -(-ticks // (most + 1)) for container, ticks in longest.items()} if most else {}
        self.pays: dict[str, int] = {}
        self.made: dict[Setup, set[int]] = {}

    def planned(self, cases: Iterable[Case]) -> Iterator[Case]:
        cases = iter(cases)
        while together := list(itertools.islice(cases, TOGETHER)):
            yield from self.plan(together)

    def plan(self, cases: list[Case]) -> Iterator[Case]:
        latest = [self.latest(case) for case in cases]
        origins = [origin_of(case.setup) if tick else None for case, tick in zip(cases, latest)]
        chosen = self.choose(zip(origins, latest))
        for case, origin, tick in zip(cases, origins, latest):
            ticks = chosen[origin] if origin else [0]
            begins = ticks[bisect.bisect_right(ticks, tick) - 1]
            yield dataclasses.replace(case, begins=begins) if begins else case

    def latest(self, case: Case) -> int:
        """The last tick at which a machine may be saved for a run: before its first upset, and before its end."""
        step = self.steps.get(case.setup.container)
        if not step or case.compares and (not case.upsets or self.has_scripts(case)):
            return 0
        return (case.upsets[0].tick if case.upsets else max(case.setup.ticks - 1, 0)) // step * step

    def has_scripts(self, case: Case) -> bool:
        return len({upset.partition for upset in case.upsets}) < self.scripted

    def choose(self, wanted: Iterable[tuple[Setup | None, int]]) -> dict[Setup, list[int]]:
        """The ticks with a saved machine of each container and inputs in their order, the boot first."""
        counts: dict[Setup, Counter[int]] = {}
        for origin, tick in wanted:
            if origin:
                counts.setdefault(origin, Counter())[tick] += 1
        return {origin: self.ticks_of(origin, own) for origin, own in counts.items()}

    def ticks_of(self, origin: Setup, count: Counter[int]) -> list[int]:
        served, ticks = 0, []
        for tick in sorted(count, reverse=True):
            served += count[tick]
            if served >= SHARED:
                ticks.append(tick)
        made = self.made.pop(origin, set())
        if ticks:
            least = self.least_of(origin)
            made.update(tick for tick in ticks if tick >= least)
        if made:
            if len(self.made) >= MOST_ORIGINS:
                del self.made[next(iter(self.made))]
            self.made[origin] = made
        return sorted({0, *made})

    def least_of(self, origin: Setup) -> int:
        """Known after the first time that a machine of the container is asked for."""
        if origin.container not in self.pays:
            self.pays[origin.container] = self.least(origin, self.longest[origin.container])
        return self.pays[origin.container]
