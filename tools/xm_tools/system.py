"""A system: what a description or a container has of it. `at` is the byte at which an element of a description begins."""

import functools
from dataclasses import dataclass


@dataclass(frozen=True)
class Region:
    start: int
    size: int
    at: int = 0

    @property
    def end(self) -> int:
        return self.start + self.size

    def meets(self, other: "Region") -> bool:
        """Whether the two have an address in common."""
        return self.start < other.end and other.start < self.end


@dataclass(frozen=True)
class Area(Region):
    is_read_only: bool = False


@dataclass(frozen=True)
class Uart:
    number: int
    name: str
    at: int = 0


@dataclass(frozen=True)
class Slot:
    number: int
    start: int
    duration: int
    partition: int
    at: int = 0

    @property
    def end(self) -> int:
        return self.start + self.duration


@dataclass(frozen=True)
class Plan:
    number: int
    frame: int
    slots: tuple[Slot, ...]
    at: int = 0

    def slots_of(self, partition: int) -> list[Slot]:
        return [slot for slot in self.slots if slot.partition == partition]


@dataclass(frozen=True)
class Need:
    """What a partition requires: a time in each period, in microseconds."""

    duration: int
    period: int


@dataclass(frozen=True)
class Answer:
    """What is done about a health event. Events and actions are numbered as in their tables."""

    event: int
    action: int
    is_logged: bool
    at: int = 0


@dataclass(frozen=True)
class Port:
    name: str
    is_queuing: bool
    is_source: bool
    at: int = 0


@dataclass(frozen=True)
class Partition:
    number: int
    name: str
    is_system: bool
    console: str | None
    areas: tuple[Area, ...]
    need: Need | None
    answers: tuple[Answer, ...]
    ports: tuple[Port, ...]
    at: int = 0

    @functools.cached_property
    def port_numbers(self) -> dict[str, int]:
        """The number of the first port of each name."""
        return {port.name: number for number, port in reversed(list(enumerate(self.ports)))}


@dataclass(frozen=True)
class End:
    partition: int
    port: str
    at: int = 0


@dataclass(frozen=True)
class Channel:
    """`limit` is the refresh period of a sampling channel, and the most messages of a queuing one."""

    is_queuing: bool
    length: int
    limit: int
    source: End
    destinations: tuple[End, ...]
    at: int = 0

    @property
    def ends(self) -> list[End]:
        return [self.source, *self.destinations]


@dataclass(frozen=True)
class Link:
    number: int
    source: int
    destination: int
    at: int = 0


@dataclass(frozen=True)
class System:
    name: str
    processor: int
    regions: tuple[Region, ...]
    hypervisor_size: int
    uarts: tuple[Uart, ...]
    plans: tuple[Plan, ...]
    partitions: tuple[Partition, ...]
    channels: tuple[Channel, ...] = ()
    links: tuple[Link, ...] = ()
    at: int = 0

    @functools.cached_property
    def names(self) -> dict[int, str]:
        return {number: partition.name for number, partition in enumerate(self.partitions)}

    def title(self, partition: int) -> str:
        """A partition as it is named in lines: its number and its name."""
        return f"P{partition} {self.names[partition]}" if partition in self.names else f"P{partition}"
