"""Reads a container: the system of its configuration, and the image of each partition."""

import hashlib
from dataclasses import dataclass

from xm_tools.binary import Cursor
from xm_tools.reference import reference
from xm_tools.rules import all_broken
from xm_tools.system import Answer, Area, Channel, End, Link, Need, Partition, Plan, Port, Region, Slot, System, Uart
from xm_tools.values import NAME

NO_CONSOLE = 255
DIGEST = 16
MOST_PARTITIONS_OF_1 = 16


@dataclass(frozen=True)
class Segment:
    """What an image puts into memory; after its bytes the memory is zeros."""

    address: int
    memory: int
    content: bytes


@dataclass(frozen=True)
class Image:
    entry: int
    segments: tuple[Segment, ...]


@dataclass(frozen=True)
class Container:
    system: System
    images: tuple[Image, ...]


def whole(name: str, content: bytes, magic: bytes, versions: tuple[int, ...], has_digest: bool) -> tuple[int, Cursor]:
    """The version of a file, and a cursor after its head, once its length and its digest are right."""
    cursor = Cursor(name, content)
    version = cursor.head(magic, versions)
    length = cursor.number(4)
    if length > len(content):
        raise cursor.fail(f"short at={len(content)}")
    if length < len(content):
        raise cursor.fail(f"trailing at={length}")
    if not has_digest:
        return version, cursor
    if length < cursor.place + DIGEST:
        raise cursor.fail(f"short at={length}")
    stored, found = content[-DIGEST:], hashlib.md5(content[:-DIGEST]).digest()
    if stored != found:
        raise cursor.fail(f"digest stored={stored.hex()} found={found.hex()}")
    return version, Cursor(name, content[:-DIGEST], cursor.place)


class Configuration:
    """Reads a binary configuration from a cursor after its head."""

    def __init__(self, cursor: Cursor, version: int) -> None:
        self.cursor, self.version = cursor, version

    def text(self) -> str:
        place = self.cursor.place
        text = self.cursor.take(self.cursor.number(1)).decode("latin-1")
        if not NAME.fullmatch(text):
            raise self.cursor.fail(f"field at={place}")
        return text

    def count(self) -> range:
        return range(self.cursor.number(1))

    def system(self) -> System:
        name = self.text()
        regions = tuple(Region(self.cursor.number(4), self.cursor.number(4)) for _ in self.count())
        size = self.cursor.number(4)
        uarts = tuple(Uart(number, self.text()) for number in self.count())
        plans = tuple(self.plan(number) for number in self.count())
        partitions = tuple(self.partition(number, uarts) for number in self.count())
        channels = tuple(self.channel(partitions) for _ in self.count())
        links = tuple(self.link() for _ in self.count()) if self.version == 2 else ()
        self.cursor.end()
        if not (regions and plans and partitions and all(plan.slots for plan in plans) and all(one.areas for one in partitions)):
            raise self.cursor.fail("not-fit rule=1")
        return System(name, 0, regions, size, uarts, plans, partitions, channels, links)

    def plan(self, number: int) -> Plan:
        return Plan(number, self.cursor.number(4), tuple(self.slot(order) for order in self.count()))

    def slot(self, number: int) -> Slot:
        return Slot(number, self.cursor.number(4), self.cursor.number(4), self.cursor.number(1))

    def partition(self, number: int, uarts: tuple[Uart, ...]) -> Partition:
        name, is_system, console = self.text(), self.cursor.flag(), self.cursor.number(1)
        need = self.need()
        self.cursor.take(4)
        answers = self.answers()
        areas = tuple(self.area() for _ in self.count())
        ports = tuple(Port(self.text(), self.cursor.flag(), not self.cursor.flag()) for _ in self.count())
        named = None if console == NO_CONSOLE else uarts[console].name if console < len(uarts) else f"UART {console}"
        return Partition(number, name, is_system, named, areas, need, answers, ports)

    def need(self) -> Need | None:
        place = self.cursor.place + 4
        need = Need(self.cursor.number(4), self.cursor.number(4))
        if (need.duration == 0) != (need.period == 0):
            raise self.cursor.fail(f"field at={place}")
        return need if need.period else None

    def answers(self) -> tuple[Answer, ...]:
        events = reference().events
        actions = [self.cursor.below(1, len(reference().actions)) for _ in events]
        logged = self.cursor.below(2, 1 << len(events))
        return tuple(Answer(event, action, bool(logged >> event & 1)) for event, action in enumerate(actions))

    def area(self) -> Area:
        return Area(self.cursor.number(4), self.cursor.number(4), 0, self.cursor.flag())

    def channel(self, partitions: tuple[Partition, ...]) -> Channel:
        is_queuing, length = self.cursor.flag(), self.cursor.number(2)
        limit = self.cursor.number(1 if is_queuing else 4)
        source = self.end(partitions)
        return Channel(is_queuing, length, limit, source, tuple(self.end(partitions) for _ in self.count()))

    def end(self, partitions: tuple[Partition, ...]) -> End:
        """An end, with the name of its port; one that is none keeps its number as a name, which no port has."""
        partition, port = self.cursor.number(1), self.cursor.number(1)
        ports = partitions[partition].ports if partition < len(partitions) else ()
        return End(partition, ports[port].name if port < len(ports) else f"&{port}")

    def link(self) -> Link:
        return Link(self.cursor.number(1), self.cursor.number(1), self.cursor.number(1))


def read_configuration(name: str, content: bytes, versions: tuple[int, ...] = (1, 2)) -> System:
    version, cursor = whole(name, content, b"XMCF", versions, has_digest=False)
    system = Configuration(cursor, version).system()
    broken = [found.rule for found in all_broken(system)]
    if version == 1 and len(system.partitions) > MOST_PARTITIONS_OF_1:
        broken.insert(0, 1)
    if broken:
        raise cursor.fail(f"not-fit rule={broken[0]}")
    return system


def read_image(name: str, content: bytes) -> Image:
    _, cursor = whole(name, content, b"XMEF", (1,), has_digest=True)
    entry, number = cursor.number(4), cursor.below(1, 9)
    rows = [(cursor.number(4), cursor.number(4), cursor.number(4)) for _ in range(number)]
    segments = tuple(Segment(address, memory, cursor.take(size)) for address, memory, size in rows)
    cursor.end()
    ends = [0, *(segment.address + segment.memory for segment in segments)]
    if any(segment.address < end or len(segment.content) > segment.memory for segment, end in zip(segments, ends)):
        raise cursor.fail("field at=15")
    return Image(entry, segments)


def read_container(name: str, content: bytes) -> Container:
    """The container in a file's bytes, by the name of the file."""
    version, cursor = whole(name, content, b"XMPK", (1, 2), has_digest=True)
    system = read_configuration(f"{name}: config", cursor.take(cursor.number(4)), (version,))
    images = []
    for number in range(cursor.number(1)):
        place = cursor.place
        if cursor.number(1) != number:
            raise cursor.fail(f"field at={place}")
        images.append(read_image(f"{name}: image id={number}", cursor.take(cursor.number(4))))
    cursor.end()
    if len(images) != len(system.partitions):
        raise cursor.fail(f"{len(images)} images of {len(system.partitions)} partitions")
    for partition, image in zip(system.partitions, images):
        for segment in image.segments:
            if not any(
                area.start <= segment.address and segment.address + segment.memory <= area.end for area in partition.areas
            ):
                raise cursor.fail(f"outside id={partition.number} address={segment.address:08x}")
    return Container(system, tuple(images))
