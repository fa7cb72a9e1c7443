"""Which partitions feel each other by channels and links, and who can steer whom."""

from dataclasses import dataclass

from xm_tools.reference import reference
from xm_tools.system import Partition, System
from xm_tools.values import ACTION, EVENT

# The actions on a health event that reach all partitions.
ON_ALL = ("HYPERVISOR_COLD_RESET", "HYPERVISOR_WARM_RESET", "HYPERVISOR_HALT", "SWITCH_TO_MAINTENANCE")


@dataclass(frozen=True)
class Group:
    """The smallest set of partitions with this one that no channel and no link enters from outside."""

    partition: int
    members: tuple[int, ...]
    is_covered: bool

    def line(self) -> str:
        """The line of `xm_run flows`."""
        return f"P{self.partition} members={','.join(map(str, self.members))} covered={'yes' if self.is_covered else 'no'}"


def edges(system: System) -> list[tuple[int, int]]:
    """Pairs of partitions: what the second one does reaches the first one."""
    found = []
    for channel in system.channels:
        for end in channel.destinations:
            found.append((end.partition, channel.source.partition))
            if channel.is_queuing:
                found.append((channel.source.partition, end.partition))
    return [*found, *((link.destination, link.source) for link in system.links)]


def group_of(system: System, partition: int) -> Group:
    members, pairs = {partition}, edges(system)
    while True:
        more = members | {source for reached, source in pairs if reached in members}
        if more == members:
            break
        members = more
    return Group(partition, tuple(sorted(members)), not any(system.partitions[member].is_system for member in members))


def rights_of(partition: Partition) -> list[str]:
    """By what a partition can steer others: its flag, and the actions of its health table that reach all."""
    events, actions = reference().events, reference().actions
    found = ["flag system"] if partition.is_system else []
    for answer in partition.answers:
        if actions[answer.action] in ON_ALL:
            found.append(f"{EVENT}{events[answer.event].name} {ACTION}{actions[answer.action]}")
    return found


def steering_of(system: System) -> dict[int, list[str]]:
    """The partitions that can steer others, each with its rights."""
    return {one.number: rights_of(one) for one in system.partitions if rights_of(one)}


def steering_lines(system: System) -> list[str]:
    """The lines that `xm_run flows --steering` adds."""
    events, actions = reference().events, reference().actions
    lines = []
    for one in system.partitions:
        if one.is_system:
            lines.append(f"P{one.number} steers by=system")
        for answer in sorted(one.answers, key=lambda answer: answer.event):
            if actions[answer.action] in ON_ALL:
                lines.append(f"P{one.number} steers by=health event={EVENT}{events[answer.event].name} action={ACTION}{actions[answer.action]}")
    return lines
