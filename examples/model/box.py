"""The description of a system of partitions, and its container file, both ways.

A container holds the binary configuration and one image for each partition. All numbers are big endian; a string is a
byte with its length, and its bytes; an image and a container end with the MD5 of all bytes before.
"""
import hashlib
import struct
from dataclasses import dataclass, field

SAMPLING, QUEUING = 0, 1
SOURCE, DESTINATION = 0, 1

EVENTS = [
    "PARTITION_ERROR", "MEM_PROTECTION", "UNEXPECTED_TRAP", "SPARC_ILLEGAL_INSTRUCTION",
    "SPARC_PRIVILEGED_INSTRUCTION", "SPARC_FP_DISABLED", "SPARC_CP_DISABLED", "SPARC_ADDRESS_NOT_ALIGNED",
    "SPARC_TAG_OVERFLOW", "SPARC_DIVIDE_EXCEPTION", "SPARC_INSTR_ACCESS", "SPARC_DATA_ACCESS",
]
ACTIONS = [
    "IGNORE", "SHUTDOWN", "PARTITION_COLD_RESET", "PARTITION_WARM_RESET", "SUSPEND", "HALT", "PROPAGATE",
    "HYPERVISOR_COLD_RESET", "HYPERVISOR_WARM_RESET", "HYPERVISOR_HALT", "SWITCH_TO_MAINTENANCE",
]
DEFAULT_ACTIONS = [5, 5, 6, 6, 6, 6, 6, 6, 6, 6, 5, 5]
ALL_LOGGED = 0x0FFF


@dataclass
class Slot:
    start: int
    duration: int
    part: int


@dataclass
class Plan:
    frame: int
    slots: list


@dataclass
class Area:
    start: int
    size: int
    read_only: bool = False


@dataclass
class Port:
    name: str
    kind: int
    way: int


@dataclass
class Segment:
    address: int
    content: bytes
    memory: int = 0  # 0 stands for the length of the content

    def size(self):
        return self.memory or len(self.content)


MOST_SEGMENTS = 8
SEGMENT_ROW = 12


def written(content):
    """Where bytes stand that are no zeros, as starts and ends: zeros that a further segment would cost are among them."""
    runs = []
    for place, byte in enumerate(content):
        if byte and runs and place - runs[-1][1] <= SEGMENT_ROW:
            runs[-1][1] = place + 1
        elif byte:
            runs.append([place, place + 1])
    while len(runs) > MOST_SEGMENTS:
        near = min(range(1, len(runs)), key=lambda k: runs[k][0] - runs[k - 1][1])
        runs[near - 1 : near + 1] = [[runs[near - 1][0], runs[near][1]]]
    return runs


def segments(base, content):
    """The segments of a memory's content: together all of it, of which the zeros between and after are not written."""
    runs = written(content)
    if not runs:
        return [Segment(base, b"", len(content))]
    runs[0][0] = 0
    ends = [start for start, _ in runs[1:]] + [len(content)]
    return [Segment(base + start, content[start:stop], end - start) for (start, stop), end in zip(runs, ends)]


@dataclass
class Image:
    entry: int
    segments: list
    guest: object = None  # what it was written by, for a listing


@dataclass
class Part:
    name: str
    areas: list
    image: Image = None
    system: bool = False
    console: int = None
    need: tuple = (0, 0)  # duration and period; both 0 for none
    trace_mask: int = 0
    actions: list = field(default_factory=lambda: list(DEFAULT_ACTIONS))
    logged: int = ALL_LOGGED
    ports: list = field(default_factory=list)


@dataclass
class Channel:
    kind: int
    length: int
    limit: int  # the refresh period of a sampling channel, the number of messages of a queuing one
    source: tuple  # partition and port
    destinations: list


@dataclass
class Link:
    number: int
    source: int
    destination: int


@dataclass
class System:
    name: str
    regions: list  # start and size
    hypervisor_size: int
    plans: list
    parts: list
    uarts: list = field(default_factory=list)
    channels: list = field(default_factory=list)
    links: list = field(default_factory=list)


# Writing: in version 1 what fits into it, else in version 2, or in the version that is asked for.


def string(text):
    return bytes([len(text)]) + text.encode()


def digested(content):
    return content + hashlib.md5(content).digest()


def headed(magic, content, more, version=1):
    """The head of a file: its name, version, and its whole length, `more` bytes of which follow the content."""
    return struct.pack(">4sHI", magic, version, 10 + len(content) + more) + content


def version_of(system):
    return 2 if system.links or len(system.parts) > MOST_PARTS[1] else 1


def configuration(system, version=None):
    version = version or version_of(system)
    out = bytearray(string(system.name))
    out += bytes([len(system.regions)])
    for start, size in system.regions:
        out += struct.pack(">II", start, size)
    out += struct.pack(">IB", system.hypervisor_size, len(system.uarts))
    for name in system.uarts:
        out += string(name)
    out += bytes([len(system.plans)])
    for plan in system.plans:
        out += struct.pack(">IB", plan.frame, len(plan.slots))
        for slot in plan.slots:
            out += struct.pack(">IIB", slot.start, slot.duration, slot.part)
    out += bytes([len(system.parts)])
    for part in system.parts:
        console = 0xFF if part.console is None else part.console
        out += string(part.name) + bytes([part.system, console])
        out += struct.pack(">III", *part.need, part.trace_mask)
        out += bytes(part.actions) + struct.pack(">HB", part.logged, len(part.areas))
        for area in part.areas:
            out += struct.pack(">IIB", area.start, area.size, area.read_only)
        out += bytes([len(part.ports)])
        for port in part.ports:
            out += string(port.name) + bytes([port.kind, port.way])
    out += bytes([len(system.channels)])
    for channel in system.channels:
        out += struct.pack(">BH", channel.kind, channel.length)
        out += struct.pack(">I" if channel.kind == SAMPLING else ">B", channel.limit)
        out += bytes([*channel.source, len(channel.destinations)])
        for end in channel.destinations:
            out += bytes(end)
    if version == 2:
        out += bytes([len(system.links)])
        for link in system.links:
            out += bytes([link.number, link.source, link.destination])
    return headed(b"XMCF", bytes(out), 0, version)


def image_file(image):
    out = bytearray(struct.pack(">IB", image.entry, len(image.segments)))
    for segment in image.segments:
        out += struct.pack(">III", segment.address, segment.size(), len(segment.content))
    for segment in image.segments:
        out += segment.content
    return digested(headed(b"XMEF", bytes(out), 16))


def container(system, version=None):
    version = version or version_of(system)
    config = configuration(system, version)
    out = bytearray(struct.pack(">I", len(config)) + config + bytes([len(system.parts)]))
    for number, part in enumerate(system.parts):
        content = image_file(part.image)
        out += struct.pack(">BI", number, len(content)) + content
    return digested(headed(b"XMPK", bytes(out), 16, version))


# The rules of a configuration.


def is_name(text):
    return 1 <= len(text) <= 31 and all(" " <= mark <= "~" and mark not in "\"&'<" for mark in text)


def pages(*numbers):
    return all(number % 4096 == 0 for number in numbers)


def disjoint(ranges):
    """Ranges are a start and a size."""
    ordered = sorted(ranges)
    return all(a[0] + a[1] <= b[0] for a, b in zip(ordered, ordered[1:]))


def differ(items):
    items = list(items)
    return len(set(items)) == len(items)


def ends_of(channel):
    return [tuple(channel.source), *(tuple(end) for end in channel.destinations)]


def port_of(system, end):
    """The port at a channel's end, or None."""
    part, port = end
    ports = system.parts[part].ports if part < len(system.parts) else []
    return ports[port] if port < len(ports) else None


MOST_PARTS = {1: 16, 2: 32}


def counts_hold(system, version):
    least_one = [system.regions, system.plans, system.parts, *(plan.slots for plan in system.plans)]
    least_one += [part.areas for part in system.parts]
    limits = [(system.regions, 8), (system.uarts, 8), (system.plans, 8), (system.channels, 64)]
    limits += [(system.parts, MOST_PARTS[version]), (system.links, 64)]
    limits += [(plan.slots, 64) for plan in system.plans]
    limits += [(part.areas, 8) for part in system.parts] + [(part.ports, 32) for part in system.parts]
    limits += [(channel.destinations, 16) for channel in system.channels if channel.kind == SAMPLING]
    return all(least_one) and all(len(items) <= most for items, most in limits)


def regions_hold(system):
    start, size = system.regions[0]
    return pages(system.hypervisor_size) and 0 < system.hypervisor_size <= size


def areas_inside(system):
    return all(
        any(start <= area.start and area.start + area.size <= start + size for start, size in system.regions)
        for part in system.parts for area in part.areas
    )


def slots_inside(system):
    return all(
        1 <= plan.frame <= 1000000000
        and all(slot.duration >= 1 and slot.start + slot.duration <= plan.frame for slot in plan.slots)
        for plan in system.plans
    )


def slots_in_order(system):
    return all(
        before.start + before.duration <= slot.start
        for plan in system.plans for before, slot in zip(plan.slots, plan.slots[1:])
    )


def channels_hold(system):
    return all(
        1 <= channel.length <= 4096 and channel.destinations
        and (channel.kind == SAMPLING or 1 <= channel.limit <= 64 and len(channel.destinations) == 1)
        for channel in system.channels
    )


def ends_fit(system):
    return all(
        port_of(system, end).kind == channel.kind
        and port_of(system, end).way == (SOURCE if place == 0 else DESTINATION)
        for channel in system.channels for place, end in enumerate(ends_of(channel))
    )


def allowed(event, action):
    """Nothing is handed on that has no trap, and what would happen again at once is not ignored."""
    name = ACTIONS[action]
    return not (name == "PROPAGATE" and event in (0, 1) or name == "IGNORE" and event in (1, 10))


def actions_hold(system):
    return all(
        allowed(event, action) and (ACTIONS[action] != "SWITCH_TO_MAINTENANCE" or len(system.plans) > 1)
        for part in system.parts for event, action in enumerate(part.actions)
    )


def needs_hold(system):
    needs = [part.need for part in system.parts if tuple(part.need) != (0, 0)]
    return all(1 <= duration <= period <= 1000000000 for duration, period in needs)


def links_hold(system):
    return all(
        link.number < 8 and link.source < len(system.parts) and link.destination < len(system.parts)
        and link.source != link.destination
        for link in system.links
    )


RULES = {
    3: lambda s: differ(part.name for part in s.parts) and differ(s.uarts)
    and all(differ(port.name for port in part.ports) for part in s.parts),
    4: lambda s: all(pages(start, size) and 0 < size <= 2**32 - start for start, size in s.regions),
    5: lambda s: disjoint(s.regions),
    6: regions_hold,
    7: lambda s: all(pages(area.start, area.size) and area.size > 0 for part in s.parts for area in part.areas),
    8: areas_inside,
    9: lambda s: disjoint([(s.regions[0][0], s.hypervisor_size)]
                          + [(area.start, area.size) for part in s.parts for area in part.areas]),
    10: lambda s: sum(area.size for part in s.parts for area in part.areas) <= 32 << 20,
    11: slots_inside,
    12: slots_in_order,
    13: lambda s: all(slot.part < len(s.parts) for plan in s.plans for slot in plan.slots),
    14: lambda s: all(part.console is None or part.console < len(s.uarts) for part in s.parts),
    15: channels_hold,
    16: lambda s: all(port_of(s, end) for channel in s.channels for end in ends_of(channel)),
    17: ends_fit,
    18: lambda s: differ(end for channel in s.channels for end in ends_of(channel)),
    19: actions_hold,
    20: needs_hold,
    21: links_hold,
    22: lambda s: differ((link.source, link.number) for link in s.links),
}


def broken_rule(system, version):
    """The number of the first rule that does not hold, or None. The second one holds by the form."""
    if not counts_hold(system, version):
        return 1
    return next((number for number, holds in RULES.items() if not holds(system)), None)


# Reading.


class Fault(Exception):
    """The bytes are no container."""


class Reader:
    def __init__(self, content, at=0):
        self.content, self.place = content, at

    def take(self, size):
        if self.place + size > len(self.content):
            raise Fault(f"short at={self.place}")
        self.place += size
        return self.content[self.place - size : self.place]

    def number(self, size):
        return int.from_bytes(self.take(size), "big")

    def u8(self):
        return self.number(1)

    def u16(self):
        return self.number(2)

    def u32(self):
        return self.number(4)

    def field(self, size, holds):
        """A number of this many bytes that has to be one of the field's."""
        at = self.place
        number = self.number(size)
        if not holds(number):
            raise Fault(f"field at={at}")
        return number

    def flag(self):
        return self.field(1, lambda number: number <= 1)

    def string(self):
        at = self.place
        size = self.u8()
        if self.place + size > len(self.content):
            raise Fault(f"short at={at}")
        text = self.take(size).decode("latin-1")
        if not is_name(text):
            raise Fault(f"field at={at}")
        return text


def body(content, magic, with_digest, versions=(1,)):
    """A reader after the head, once magic, version, length and digest are right."""
    reader = Reader(content)
    if reader.take(4) != magic:
        raise Fault("magic")
    version = reader.u16()
    if version not in versions:
        raise Fault(f"version found={version}")
    length = reader.u32()
    if len(content) != length:
        raise Fault(f"short at={len(content)}" if len(content) < length else f"trailing at={length}")
    if not with_digest:
        return version, reader
    if length < 16:
        raise Fault(f"short at={length}")
    stored, found = content[-16:], hashlib.md5(content[:-16]).digest()
    if stored != found:
        raise Fault(f"digest stored={stored.hex()} found={found.hex()}")
    return version, Reader(content[:-16], 10)


def ended(reader):
    if reader.place != len(reader.content):
        raise Fault(f"trailing at={reader.place}")


def read_configuration(content, versions=(1, 2)):
    version, reader = body(content, b"XMCF", False, versions)
    name = reader.string()
    regions = [(reader.u32(), reader.u32()) for _ in range(reader.u8())]
    hypervisor_size = reader.u32()
    uarts = [reader.string() for _ in range(reader.u8())]
    plans = []
    for _ in range(reader.u8()):
        frame = reader.u32()
        plans.append(Plan(frame, [Slot(reader.u32(), reader.u32(), reader.u8()) for _ in range(reader.u8())]))
    parts = [read_part(reader) for _ in range(reader.u8())]
    channels = [read_channel(reader) for _ in range(reader.u8())]
    links = []
    if version == 2:
        links = [Link(reader.u8(), reader.u8(), reader.u8()) for _ in range(reader.u8())]
    ended(reader)
    system = System(name, regions, hypervisor_size, plans, parts, uarts, channels, links)
    if broken_rule(system, version):
        raise Fault(f"not-fit rule={broken_rule(system, version)}")
    return system


def read_part(reader):
    part = Part(reader.string(), [])
    part.system, console = reader.flag() == 1, reader.u8()
    part.console = None if console == 0xFF else console
    duration = reader.u32()
    part.need = (duration, reader.field(4, lambda period: (period == 0) == (duration == 0)))
    part.trace_mask = reader.u32()
    part.actions = [reader.field(1, lambda action: action < len(ACTIONS)) for _ in EVENTS]
    part.logged = reader.field(2, lambda logged: logged <= ALL_LOGGED)
    part.areas = [Area(reader.u32(), reader.u32(), reader.flag() == 1) for _ in range(reader.u8())]
    part.ports = [Port(reader.string(), reader.flag(), reader.flag()) for _ in range(reader.u8())]
    return part


def read_channel(reader):
    kind, length = reader.flag(), reader.u16()
    limit = reader.u32() if kind == SAMPLING else reader.u8()
    source = (reader.u8(), reader.u8())
    return Channel(kind, length, limit, source, [(reader.u8(), reader.u8()) for _ in range(reader.u8())])


def read_image(content):
    _, reader = body(content, b"XMEF", True)
    entry = reader.u32()
    heads = [(reader.u32(), reader.u32(), reader.u32()) for _ in range(reader.u8())]
    segments = [Segment(address, bytes(reader.take(size)), memory) for address, memory, size in heads]
    ended(reader)
    return Image(entry, segments)


def within(name, read, *arguments):
    """What is read inside of a container, whose fault has the part's name."""
    try:
        return read(*arguments)
    except Fault as fault:
        raise Fault(f"{name} {fault}") from None


def read_container(content):
    version, reader = body(content, b"XMPK", True, (1, 2))
    system = within("config", read_configuration, reader.take(reader.u32()), (version,))
    images = {}
    for _ in range(reader.u8()):
        number = reader.field(1, lambda number: number > max(images, default=-1))
        images[number] = within(f"image id={number}", read_image, reader.take(reader.u32()))
    ended(reader)
    for number in images:
        if number >= len(system.parts):
            raise Fault(f"extra id={number}")
    for number, part in enumerate(system.parts):
        part.image = images.get(number)
        if part.image is None:
            raise Fault(f"missing id={number}")
    for number, part in enumerate(system.parts):
        for segment in part.image.segments:
            if not any(inside(segment, area) for area in part.areas):
                raise Fault(f"outside id={number} address={segment.address:08x}")
    return system


def inside(segment, area):
    return area.start <= segment.address and segment.address + segment.size() <= area.start + area.size
