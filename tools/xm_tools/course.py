"""The course of a run, by its report and its system: which plan runs, in which state each partition is, whose slots there are."""

from bisect import bisect_left, bisect_right
from collections.abc import Iterable, Iterator, Sequence
from dataclasses import dataclass, field

from xm_tools.report import End, Report
from xm_tools.system import Plan, Slot, System

READY, SUSPENDED, HALTED = "ready", "suspended", "halted"
SILENT = "plan 1 may begin again at ticks that are not in the report: an event that switches to it is not logged"
# Of more frames in a stretch the first two and the last two have its ends.
FEW_FRAMES = 4


@dataclass(frozen=True)
class Interval:
    """Ticks from `begin` on and before `end`."""

    begin: int
    end: int

    @property
    def ticks(self) -> int:
        return self.end - self.begin

    def clipped(self, low: int, high: int) -> "Interval":
        """What is of it from low to high; where that is nothing, `begin` is not before `end`."""
        return Interval(max(low, self.begin), min(high, self.end))


@dataclass(frozen=True)
class Frames:
    """Ticks in which frames of one plan follow each other, the first of which begins at `origin`, at `within` or before."""

    origin: int
    plan: Plan
    within: Interval

    @property
    def numbers(self) -> range:
        """The numbers of the frames, from 0, that have a tick of it."""
        first, last = self.within.begin - self.origin, self.within.end - 1 - self.origin
        return range(first // self.plan.frame, last // self.plan.frame + 1)

    def begins(self) -> Iterator[int]:
        """The ticks at which a frame begins."""
        for number in self.numbers:
            begin = self.origin + number * self.plan.frame
            if begin >= self.within.begin:
                yield begin

    def slots(self, numbers: Iterable[int], slots: Sequence[Slot]) -> Iterator[tuple[int, Interval]]:
        """Slots in the frames of these numbers, each with its partition."""
        for number in numbers:
            begin = self.origin + number * self.plan.frame
            for slot in slots:
                found = Interval(begin + slot.start, begin + slot.end).clipped(self.within.begin, self.within.end)
                if found.begin < found.end:
                    yield slot.partition, found

    def slots_of(self, partition: int, column: int) -> Iterator[Interval]:
        """The slots of a partition. Those of many frames, each shorter than the column, are given as one."""
        numbers, own = self.numbers, self.plan.slots_of(partition)
        are_many = len(numbers) > FEW_FRAMES and self.plan.frame < column
        found = [slot for _, slot in self.slots([*numbers[:2], *numbers[-2:]] if are_many else numbers, own)]
        yield from [Interval(found[0].begin, found[-1].end)] if are_many and found else found

    def ticks_in_slots(self, partition: int) -> int:
        """How many ticks are in slots of a partition."""
        ends = self.within.begin - self.origin, self.within.end - self.origin
        before, all_of_them = (ticks_before(self.plan, partition, moment) for moment in ends)
        return all_of_them - before


def ticks_before(plan: Plan, partition: int, moment: int) -> int:
    """How many of this number of ticks after the plan's begin are in slots of a partition."""
    frames, remainder = divmod(moment, plan.frame)
    slots = plan.slots_of(partition)
    whole = sum(slot.duration for slot in slots)
    return frames * whole + sum(max(0, min(slot.end, remainder) - slot.start) for slot in slots)


@dataclass
class Course:
    """What a report says of its run, which `following.course_of` finds.

    `starts` are the ticks from which on frames of a plan follow each other, each with its plan; `states` has for each
    partition the ticks from which on it is in a state, and the state; `resets` the tick after its last reset. A health
    event that is not logged may start plan 1: with `has_silent_switch` the report may not have every start of it.
    """

    report: Report
    system: System
    has_silent_switch: bool
    starts: list[tuple[int, int]] = field(default_factory=lambda: [(0, 0)])
    states: list[list[tuple[int, str]]] = field(default_factory=list)
    resets: list[int] = field(default_factory=list)

    @property
    def is_sure(self) -> bool:
        """Whether the report has every start of a plan."""
        return not (self.has_silent_switch and any(plan == 1 for _, plan in self.starts))

    @property
    def end(self) -> int:
        return self.report.end

    def end_of(self, partition: int) -> End:
        return self.report.ends[partition]

    def plan_at(self, tick: int) -> int:
        """The plan that runs in a tick."""
        return self.starts[self.start_at(tick)][1]

    def start_at(self, tick: int) -> int:
        return bisect_right(self.starts, (tick, len(self.system.plans))) - 1

    def all_frames(self, low: int, high: int) -> Iterator[Frames]:
        """The ticks from low to high, by the plans whose frames they have."""
        place = self.start_at(low)
        while place < len(self.starts) and self.starts[place][0] < high:
            begin, plan = self.starts[place]
            place += 1
            end = self.starts[place][0] if place < len(self.starts) else self.end
            within = Interval(begin, end).clipped(low, high)
            if within.begin < within.end:
                yield Frames(begin, self.system.plans[plan], within)

    def in_state(self, partition: int, state: str, low: int, high: int) -> Iterator[Interval]:
        """The ticks from low to high in which a partition is in a state."""
        changes = self.states[partition]
        place = max(0, bisect_left(changes, (low, "")) - 1)
        while place < len(changes) and changes[place][0] < high:
            begin, found = changes[place]
            place += 1
            end = changes[place][0] if place < len(changes) else self.end
            within = Interval(begin, end).clipped(low, high)
            if found == state and within.begin < within.end:
                yield within

    def slots(self, low: int, high: int) -> Iterator[tuple[int, Interval]]:
        """The slots from low to high in their order, each with its partition."""
        for frames in self.all_frames(low, high):
            yield from frames.slots(frames.numbers, frames.plan.slots)

    def slot_count(self, low: int, high: int) -> int:
        """About how many slots there are from low to high, without going through them."""
        return sum(len(frames.numbers) * len(frames.plan.slots) for frames in self.all_frames(low, high))

    def slots_of(self, partition: int, low: int, high: int, column: int = 0) -> Iterator[Interval]:
        """The slots of a partition from low to high; those of frames that are shorter than the column may be one."""
        for frames in self.all_frames(low, high):
            yield from frames.slots_of(partition, column)

    def ready(self, partition: int, low: int, high: int, column: int = 0) -> Iterator[Interval]:
        """The ticks of its slots in which a partition is neither halted nor suspended."""
        for within in self.in_state(partition, READY, low, high):
            yield from self.slots_of(partition, within.begin, within.end, column)

    def ticks_ready(self, partition: int) -> int:
        """How many ticks of its slots since its last reset a partition is neither halted nor suspended."""
        count = 0
        for within in self.in_state(partition, READY, self.resets[partition], self.end):
            count += sum(frames.ticks_in_slots(partition) for frames in self.all_frames(within.begin, within.end))
        return count

    def ran(self, partition: int, low: int, high: int) -> Iterator[Interval]:
        """The ticks in which a partition ran by its END line: all or none of those since its last reset."""
        if self.is_sure and self.end_of(partition).executed == self.ticks_ready(partition):
            yield from self.ready(partition, max(low, self.resets[partition]), high)

    def frame_begins(self, low: int, high: int, most: int) -> list[int]:
        """The ticks from low to high at which a frame begins, none where there are more than `most`."""
        found: list[int] = []
        for frames in self.all_frames(low, high):
            if len(found) + len(frames.numbers) > most + 1:
                return []
            found += frames.begins()
        return found if len(found) <= most else []

    def frame_begin(self, number: int) -> int | None:
        """The tick at which a frame of the run begins, whatever its plan; None where there is none of that number."""
        for frames in self.all_frames(0, self.end):
            if number < len(frames.numbers):
                return frames.origin + number * frames.plan.frame
            number -= len(frames.numbers)
        return None
