"""Follows a report through its system, line by line. What cannot be a run of that system is Unusable, with its line."""

from xm_tools.course import HALTED, READY, SUSPENDED, Course
from xm_tools.failure import Unusable
from xm_tools.reference import reference
from xm_tools.report import End, Line, Report
from xm_tools.rules import MAINTENANCE
from xm_tools.system import System
from xm_tools.values import ACTION

# What follows the line of a health event: by its action a line of the partition, or one of the hypervisor.
OF_PARTITION = {"PARTITION_COLD_RESET": "COLD", "PARTITION_WARM_RESET": "WARM", "SUSPEND": "SUSPEND", "HALT": "HALT"}
OF_ALL = {
    "HYPERVISOR_COLD_RESET": "COLD", "HYPERVISOR_WARM_RESET": "WARM", "HYPERVISOR_HALT": "HALT", MAINTENANCE: "PLAN 1",
}  # fmt: skip
RESETS = ("COLD", "WARM")
BYTE_DIGITS = 8  # of the place of an upset that is a byte
# The state after a change of a partition, and the states in which the change is made.
STATE_CHANGES = {
    "HALT": (HALTED, (READY, SUSPENDED)),
    "SUSPEND": (SUSPENDED, (READY,)),
    "RESUME": (READY, (SUSPENDED,)),
    "COLD": (READY, (READY, SUSPENDED, HALTED)),
    "WARM": (READY, (READY, SUSPENDED, HALTED)),
}
STATES_AT_END = {"ready": READY, "idle": READY, "suspended": SUSPENDED, "halted": HALTED}


def has_silent_switch(system: System) -> bool:
    """Whether a health event that is not logged switches to the maintenance plan."""
    actions = reference().actions
    answers = [answer for partition in system.partitions for answer in partition.answers]
    return any(actions[answer.action] == MAINTENANCE and not answer.is_logged for answer in answers)


class Follower:
    """Takes the lines of a report, and finds the course of its run."""

    def __init__(self, report: Report, system: System) -> None:
        self.report, self.system = report, system
        self.course = Course(report, system, has_silent_switch(system))
        self.course.states = [[(0, READY)] for _ in system.partitions]
        self.course.resets = [0 for _ in system.partitions]
        self.counted = [0 for _ in system.partitions]
        self.clock_begin = 0
        self.number = 1  # of the line that is taken
        self.tick: int | None = None
        self.runner: int | None = None  # the partition that runs in the tick
        self.is_begun = False  # whether the tick has a line that is no upset
        self.following: list[str] = []  # the lines that have to come next
        self.is_expected = False  # whether the line was one of those

    def fail(self, reason: str) -> Unusable:
        return Unusable(f"{self.report.path}:{self.number}: {reason}")

    def follow(self) -> Course:
        report, system = self.report, self.system
        if (report.partitions, report.plans) != (len(system.partitions), len(system.plans)):
            found = f"{report.partitions} partitions and {report.plans} plans"
            raise self.fail(f"{found}, and the system has {len(system.partitions)} and {len(system.plans)}")
        for line in report.lines:
            self.take(line)
        self.number += 1
        if self.following:
            raise self.fail(f"not the line that has to follow: {self.following[0]}")
        for partition, end in enumerate(report.ends):
            self.take_end(partition, end)
            self.number += 1
        self.take_end_of_all()
        return self.course

    # What is known in the middle of the report.

    def plan(self) -> int:
        return self.course.starts[-1][1]

    def state(self, partition: int) -> str:
        return self.course.states[partition][-1][1]

    def is_sure(self) -> bool:
        """Whether the beginning of the present frames is known: a silent switch may have begun plan 1 again."""
        return not (self.course.has_silent_switch and self.plan() == 1)

    def moment(self, tick: int) -> int:
        """A tick, counted from the beginning of its frame."""
        begin, plan = self.course.starts[-1]
        return (tick - begin) % self.system.plans[plan].frame

    def runner_in(self, tick: int) -> int | None:
        """The partition that has the slot of a tick and is neither halted nor suspended."""
        moment = self.moment(tick)
        slots = self.system.plans[self.plan()].slots
        owner = next((slot.partition for slot in slots if slot.start <= moment < slot.end), None)
        return owner if owner is not None and self.state(owner) == READY else None

    # Lines.

    def take(self, line: Line) -> None:
        self.number = line.number
        self.is_expected = bool(self.following)
        if self.is_expected:
            wanted = self.following.pop(0)
            if line.shown() != wanted:
                raise self.fail(f"not the line that has to follow: {wanted}")
        self.go_to(line.tick)
        if line.kind == "UPSET":
            self.take_upset(line)
            return
        self.is_begun = True
        if line.partition is None:
            self.take_of_all(line)
        elif line.kind in STATE_CHANGES:
            self.move(line, line.partition)
        else:
            self.take_own(line, line.partition)

    def go_to(self, tick: int) -> None:
        if tick != self.tick:
            self.tick, self.runner, self.is_begun = tick, self.runner_in(tick), False
        elif self.course.starts[-1][0] > tick and not self.is_expected:
            raise self.fail("a line of a tick after the last one of that tick")

    def take_upset(self, line: Line) -> None:
        """An upset strikes before its tick, whichever state its partition has and whosever slot it is."""
        if self.is_begun:
            raise self.fail("an upset after another line of its tick")
        place = line.text.split(" ")[0]
        areas = self.system.partitions[line.partition or 0].areas
        if len(place) == BYTE_DIGITS and not any(area.start <= int(place, 16) < area.end for area in areas):
            raise self.fail(f"{place} is in no area of {line.owner}")

    def take_own(self, line: Line, partition: int) -> None:
        if self.is_sure() and self.runner != partition:
            raise self.fail(f"P{partition} does not run in tick {line.tick}")
        if line.kind == "HM":
            self.take_health(line)

    def take_health(self, line: Line) -> None:
        action = line.text.split(" ")[2].removeprefix(ACTION)
        if action == MAINTENANCE and len(self.system.plans) < 2:
            raise self.fail("a switch to a maintenance plan that there is not")
        if action == MAINTENANCE and self.plan() == 1:
            self.begin_plan(line.tick, 1)
        elif action in OF_PARTITION:
            self.following = [f"[{line.tick}] {line.owner} {OF_PARTITION[action]}"]
        elif action in OF_ALL:
            self.following = [f"[{line.tick}] XM {OF_ALL[action]}"]

    def move(self, line: Line, partition: int) -> None:
        state, from_states = STATE_CHANGES[line.kind]
        if self.is_sure() and self.runner is None and not self.is_expected:
            raise self.fail(f"no partition runs in tick {line.tick}")
        if self.state(partition) not in from_states:
            raise self.fail(f"{line.kind} of a partition that is {self.state(partition)}")
        if self.state(partition) != state:
            self.course.states[partition].append((line.tick + 1, state))
        if line.kind in RESETS:
            self.course.resets[partition] = line.tick + 1
            self.counted[partition] = self.counted[partition] + 1 if line.kind == "WARM" else 0

    def take_of_all(self, line: Line) -> None:
        if line.kind == "PLAN":
            self.take_plan(line.tick, int(line.text))
            return
        if self.is_sure() and self.runner is None:
            raise self.fail(f"no partition runs in tick {line.tick}")
        if line.kind in RESETS:
            self.following = [f"[{line.tick}] P{partition} {line.kind}" for partition in range(len(self.system.partitions))]
            self.following += [f"[{line.tick}] XM PLAN 0"] if self.plan() != 0 else []
            self.clock_begin = line.tick + 1
            self.begin_plan(line.tick, 0)

    def take_plan(self, tick: int, plan: int) -> None:
        """The line of a plan that starts after the tick. A reset of the hypervisor has begun plan 0 already."""
        if self.clock_begin == tick + 1:
            return
        if plan == self.plan():
            raise self.fail(f"plan {plan} after plan {plan}")
        if self.is_sure() and self.moment(tick + 1) and not self.is_maintenance(plan):
            raise self.fail(f"plan {plan} starts inside a frame of plan {self.plan()}")
        self.begin_plan(tick, plan)

    def is_maintenance(self, plan: int) -> bool:
        """Whether plan 1 may start although a frame goes on: a health event came before, or may have come."""
        return plan == 1 and (self.course.has_silent_switch or self.is_expected)

    def begin_plan(self, tick: int, plan: int) -> None:
        self.course.starts.append((tick + 1, plan))

    def take_end(self, partition: int, end: End) -> None:
        state, counted = self.state(partition), self.counted[partition]
        if STATES_AT_END[end.state] != state:
            raise self.fail(f"P{partition} is {end.state}, and by the lines before {state}")
        if end.resets != counted:
            raise self.fail(f"resets={end.resets}, and by the lines before {counted}")
        if self.course.is_sure and end.executed > self.course.ticks_ready(partition):
            raise self.fail(f"exec={end.executed}, and its slots have {self.course.ticks_ready(partition)} ticks")

    def take_end_of_all(self) -> None:
        wanted = self.plan(), self.report.ticks - self.clock_begin
        if (self.report.plan, self.report.clock) != wanted:
            raise self.fail("by the lines before it is plan={} clock={}".format(*wanted))


def course_of(report: Report, system: System) -> Course:
    """The course of a run. A report that is none of the system is Unusable."""
    return Follower(report, system).follow()
