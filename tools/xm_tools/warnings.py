"""What a description may have, and hardly means: ports on no channel, partitions without time, plans that never start."""

from collections.abc import Iterator
from dataclasses import dataclass

from xm_tools.reference import reference
from xm_tools.rules import MAINTENANCE, port_at
from xm_tools.system import Plan, Region, System


@dataclass(frozen=True)
class Warned:
    at: int
    text: str
    remedy: str


def ports_without_channel(system: System) -> Iterator[Warned]:
    used = {id(port_at(system, end)) for channel in system.channels for end in channel.ends}
    for partition in system.partitions:
        for port in partition.ports:
            if id(port) not in used:
                text = f"port {port.name} of {system.title(partition.number)} is on no channel: the call that makes it answers -5"
                yield Warned(port.at, text, "add it to a channel, or remove it")


def partitions_without_slot(system: System) -> Iterator[Warned]:
    for partition in system.partitions:
        without = [plan.number for plan in system.plans if not plan.slots_of(partition.number)]
        if len(without) == len(system.plans):
            yield Warned(
                partition.at, f"{system.title(partition.number)} has no slot in any plan: it never runs", "give it a slot"
            )
        elif 0 in without:
            yield Warned(
                partition.at,
                f"{system.title(partition.number)} has no slot in plan 0, which runs from the start",
                "give it a slot",
            )
        for number in without if len(without) < len(system.plans) else []:
            if number:
                text = f"plan {number} starves {system.title(partition.number)}, which has no slot in it"
                yield Warned(system.plans[number].at, text, "give it a slot, if it has to run in this plan")


def time_in(plan: Plan, partition: int, begin: int, end: int) -> int:
    """How long the slots of a partition are from a moment of the frame to another one."""
    return sum(max(0, min(end, slot.end) - max(begin, slot.start)) for slot in plan.slots_of(partition))


def missed_window(plan: Plan, partition: int, duration: int, period: int) -> int | None:
    """The first period of the frame in which a partition has less than its duration.

    In a period between two ends of slots it has all of the time or none, so those at an end and the next ones are looked at.
    """
    ends = {0, *(end for slot in plan.slots_of(partition) for end in (slot.start, slot.end))}
    windows = {window for end in ends for window in (end // period, -(-end // period))}
    for window in sorted(window for window in windows if window < plan.frame // period):
        if time_in(plan, partition, window * period, (window + 1) * period) < duration:
            return window
    return None


def requirements(system: System) -> Iterator[Warned]:
    for partition in system.partitions:
        need = partition.need
        for plan in system.plans if need else ():
            if need is None or not plan.slots_of(partition.number):
                continue
            title = system.title(partition.number)
            if plan.frame % need.period:
                text = f"the frame of plan {plan.number} is no multiple of the period of {title}"
                yield Warned(plan.at, text, "choose a frame that is a multiple of each period")
                continue
            window = missed_window(plan, partition.number, need.duration, need.period)
            if window is not None:
                text = f"plan {plan.number} gives {title} less than {need.duration} us in its period {window} of {need.period} us"
                yield Warned(plan.at, text, "give it longer slots; `xm_run plan make` makes a plan that fits")


def memory_unused(system: System) -> Iterator[Warned]:
    own = Region(system.regions[0].start, system.hypervisor_size)
    areas = [own, *(area for partition in system.partitions for area in partition.areas)]
    for region in system.regions:
        if not any(region.meets(area) for area in areas):
            yield Warned(region.at, f"no area lies in the region at 0x{region.start:08x}", "remove it")


def uarts_unused(system: System) -> Iterator[Warned]:
    used = {partition.console for partition in system.partitions}
    yield from (
        Warned(uart.at, f"no partition has the console {uart.name}", "remove it")
        for uart in system.uarts
        if uart.name not in used
    )


def plans_without_start(system: System) -> Iterator[Warned]:
    if any(partition.is_system for partition in system.partitions):
        return
    actions = {reference().actions[answer.action] for partition in system.partitions for answer in partition.answers}
    for plan in system.plans[1:]:
        if plan.number != 1 or MAINTENANCE not in actions:
            text = f"plan {plan.number} is never started: no partition has the flag system, and no health event switches to it"
            yield Warned(plan.at, text, "remove it, or say who starts it")


def warnings_of(system: System) -> list[Warned]:
    """The warnings of a system that breaks no rule, in the order of the text."""
    found = [
        *ports_without_channel(system), *partitions_without_slot(system), *requirements(system), *memory_unused(system),
        *uarts_unused(system), *plans_without_start(system),
    ]  # fmt: skip
    return sorted(found, key=lambda warned: warned.at)
