"""The 22 rules of a description: all that breaks them, in the order in which the program reports it."""

from collections.abc import Callable, Iterator, Sequence
from dataclasses import dataclass
from typing import Protocol, TypeVar

from xm_tools.reference import reference
from xm_tools.system import Channel, End, Partition, Port, Region, System

PAGE = 4096
ADDRESSES = 1 << 32
MOST_MEMORY = 33554432
LONGEST = 1000000000
MOST_LENGTH = 4096
MOST_MESSAGES = 64
LINK_NUMBERS = 8
# More than the ends of all channels that a description may have.
MOST_ITEMS = 2000
MAINTENANCE = "SWITCH_TO_MAINTENANCE"


class Placed(Protocol):
    """What stands at a byte of the description."""

    @property
    def at(self) -> int:
        ...


Item = TypeVar("Item", bound=Placed)


@dataclass(frozen=True)
class Broken:
    """A rule, the byte of the element that breaks it, and that of the one that it clashes with, or the same."""

    rule: int
    at: int
    other: int

    def line(self) -> str:
        return f"rule number={self.rule} at={self.at} and={self.other}"


def by_itself(rule: int, item: Placed) -> Broken:
    return Broken(rule, item.at, item.at)


def most(parent: str, child: str) -> int:
    """The most children of a kind, by the picture of the elements."""
    return next(one.most or 0 for one in reference().elements[parent].children if one.name == child)


def past_limit(items: Sequence[Placed], parent: str, child: str) -> Iterator[Broken]:
    """The first item past its limit."""
    if len(items) > most(parent, child):
        yield by_itself(1, items[most(parent, child)])


def clashes(rule: int, items: Sequence[Item], meet: Callable[[Item, Item], bool]) -> Iterator[Broken]:
    """Each item that clashes with one before it, with the first such. Of more than break rule 1 the first are looked at."""
    for place, later in enumerate(items[:MOST_ITEMS]):
        earlier = next((one for one in items[:place] if meet(one, later)), None)
        if earlier is not None:
            yield Broken(rule, later.at, earlier.at)


def counts(system: System) -> Iterator[Broken]:
    yield from past_limit(system.regions, "MemoryLayout", "Region")
    yield from past_limit(system.uarts, "Devices", "Uart")
    for number, plan in enumerate(system.plans):
        yield from [by_itself(1, plan)] if number >= most("CyclicPlanTable", "Plan") else []
        yield from past_limit(plan.slots, "Plan", "Slot")
    for number, partition in enumerate(system.partitions):
        yield from [by_itself(1, partition)] if number >= most("PartitionTable", "Partition") else []
        yield from past_limit(partition.areas, "PhysicalMemoryAreas", "Area")
        yield from past_limit(partition.ports, "PortTable", "Port")
    for number, channel in enumerate(system.channels):
        yield from [by_itself(1, channel)] if number >= most("Channels", "SamplingChannel") else []
        yield from past_limit(channel.destinations, "SamplingChannel", "Destination")
    yield from past_limit(system.links, "Channels", "Ipvi")


def ids(system: System) -> Iterator[Broken]:
    if system.processor != 0:
        yield by_itself(2, system)
    yield from (by_itself(2, uart) for place, uart in enumerate(system.uarts) if uart.number != place)
    for place, plan in enumerate(system.plans):
        yield from [by_itself(2, plan)] if plan.number != place else []
        yield from (by_itself(2, slot) for order, slot in enumerate(plan.slots) if slot.number != order)
    yield from (by_itself(2, partition) for place, partition in enumerate(system.partitions) if partition.number != place)


def names(system: System) -> Iterator[Broken]:
    yield from clashes(3, system.uarts, lambda one, other: one.name == other.name)
    seen: dict[str, Partition] = {}
    for partition in system.partitions:
        if partition.name in seen:
            yield Broken(3, partition.at, seen[partition.name].at)
        seen.setdefault(partition.name, partition)
        yield from clashes(3, partition.ports, lambda one, other: one.name == other.name)


def is_sized(region: Region) -> bool:
    return region.start % PAGE == 0 and region.size % PAGE == 0 and region.size > 0


def regions_sized(system: System) -> Iterator[Broken]:
    yield from (by_itself(4, region) for region in system.regions if not is_sized(region) or region.end > ADDRESSES)


def regions_apart(system: System) -> Iterator[Broken]:
    yield from clashes(5, system.regions, Region.meets)


def hypervisor(system: System) -> Iterator[Broken]:
    size = system.hypervisor_size
    if size % PAGE or size == 0 or size > system.regions[0].size:
        yield by_itself(6, system)


def areas_sized(system: System) -> Iterator[Broken]:
    yield from (by_itself(7, area) for partition in system.partitions for area in partition.areas if not is_sized(area))


def areas_inside(system: System) -> Iterator[Broken]:
    for partition in system.partitions:
        for area in partition.areas:
            if not any(region.start <= area.start and area.end <= region.end for region in system.regions):
                yield by_itself(8, area)


def areas_apart(system: System) -> Iterator[Broken]:
    own = Region(system.regions[0].start, system.hypervisor_size, system.at)
    areas = [area for partition in system.partitions for area in partition.areas]
    yield from clashes(9, [own, *areas], Region.meets)


def memory(system: System) -> Iterator[Broken]:
    if sum(area.size for partition in system.partitions for area in partition.areas) > MOST_MEMORY:
        yield by_itself(10, system)


def frames(system: System) -> Iterator[Broken]:
    for plan in system.plans:
        yield from [] if 1 <= plan.frame <= LONGEST else [by_itself(11, plan)]
        for slot in plan.slots:
            if slot.duration == 0 or slot.end > plan.frame:
                yield Broken(11, slot.at, plan.at)


def slots_in_turn(system: System) -> Iterator[Broken]:
    for plan in system.plans:
        for earlier, slot in zip(plan.slots, plan.slots[1:]):
            if slot.start < earlier.end:
                yield Broken(12, slot.at, earlier.at)


def slots_owned(system: System) -> Iterator[Broken]:
    parts = len(system.partitions)
    yield from (by_itself(13, slot) for plan in system.plans for slot in plan.slots if slot.partition >= parts)


def consoles(system: System) -> Iterator[Broken]:
    known = {uart.name for uart in system.uarts}
    yield from (by_itself(14, one) for one in system.partitions if one.console is not None and one.console not in known)


def suits(channel: Channel) -> bool:
    return 1 <= channel.length <= MOST_LENGTH and (not channel.is_queuing or 1 <= channel.limit <= MOST_MESSAGES)


def messages(system: System) -> Iterator[Broken]:
    yield from (by_itself(15, channel) for channel in system.channels if not suits(channel))


def port_at(system: System, end: End) -> Port | None:
    if end.partition >= len(system.partitions):
        return None
    partition = system.partitions[end.partition]
    number = partition.port_numbers.get(end.port)
    return None if number is None else partition.ports[number]


def ends_exist(system: System) -> Iterator[Broken]:
    yield from (by_itself(16, end) for channel in system.channels for end in channel.ends if port_at(system, end) is None)


def ends_suit(system: System) -> Iterator[Broken]:
    for channel in system.channels:
        for place, end in enumerate(channel.ends):
            port = port_at(system, end)
            if port is not None and (port.is_queuing, port.is_source) != (channel.is_queuing, place == 0):
                yield by_itself(17, end)


def ends_differ(system: System) -> Iterator[Broken]:
    def same(one: End, other: End) -> bool:
        port = port_at(system, one)
        return one.partition == other.partition and port is not None and port is port_at(system, other)

    yield from clashes(18, [end for channel in system.channels for end in channel.ends], same)


def answers(system: System) -> Iterator[Broken]:
    table, actions = reference().events, reference().actions
    for partition in system.partitions:
        seen: dict[int, int] = {}
        for answer in partition.answers:
            action = actions[answer.action]
            if action in table[answer.event].refused:
                yield by_itself(19, answer)
            if answer.event in seen:
                yield Broken(19, answer.at, seen[answer.event])
            if action == MAINTENANCE and len(system.plans) < 2:
                yield by_itself(19, answer)
            seen.setdefault(answer.event, answer.at)


def needs(system: System) -> Iterator[Broken]:
    for partition in system.partitions:
        need = partition.need
        if need is not None and not 1 <= need.duration <= need.period <= LONGEST:
            yield by_itself(20, partition)


def links_suit(system: System) -> Iterator[Broken]:
    parts = len(system.partitions)
    for link in system.links:
        ends = link.source, link.destination
        if link.number >= LINK_NUMBERS or max(ends) >= parts or ends[0] == ends[1]:
            yield by_itself(21, link)


def links_differ(system: System) -> Iterator[Broken]:
    yield from clashes(22, system.links, lambda one, other: (one.source, one.number) == (other.source, other.number))


RULES: list[Callable[[System], Iterator[Broken]]] = [
    counts, ids, names, regions_sized, regions_apart, hypervisor, areas_sized, areas_inside, areas_apart, memory, frames,
    slots_in_turn, slots_owned, consoles, messages, ends_exist, ends_suit, ends_differ, answers, needs, links_suit, links_differ,
]  # fmt: skip


def all_broken(system: System) -> list[Broken]:
    """All that breaks a rule, by the numbers of the rules, each as often as it is reported."""
    return list(dict.fromkeys(broken for rule in RULES for broken in rule(system)))
