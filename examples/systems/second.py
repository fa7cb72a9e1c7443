#!/usr/bin/env python3
"""The commands of xm_run that the pages of these systems have, by the second simulator in examples/model.

usage: second.py xmcparser XML OUT
       second.py xmeformat build ELF OUT
       second.py xmpack build XMC OUT P=XEF ..
       second.py run BOX OPTIONS

Descriptions and program files are read here; whether they keep the rules is not tested.
"""
import re
import struct
import sys
import xml.etree.ElementTree as ET
from pathlib import Path

sys.dont_write_bytecode = True
sys.path.insert(0, str(Path(__file__).resolve().parent.parent / "model"))

from box import (  # noqa: E402
    ACTIONS, DEFAULT_ACTIONS, DESTINATION, EVENTS, QUEUING, SAMPLING, SOURCE, Area, Channel, Image, Link, Part, Plan,
    Port, Segment, Slot, System, configuration, container, image_file, read_configuration, read_image,
)
from model import run_in  # noqa: E402

UNITS = {"us": 1, "ms": 1000, "s": 1000000, "B": 1, "KB": 1 << 10, "MB": 1 << 20}
KINDS = {"sampling": SAMPLING, "queuing": QUEUING}
# Of the files that are written.
VERSION = 2
WAYS = {"source": SOURCE, "destination": DESTINATION}


def amount(text):
    """A time in ticks, or a size in bytes."""
    number, unit = re.fullmatch(r"(\d+)([a-zA-Z]+)", text).groups()
    return int(number) * UNITS[unit]


def areas_of(part):
    return [Area(int(area.get("start"), 16), amount(area.get("size")), area.get("flags") == "read-only")
            for area in part.iter("Area")]  # fmt: skip


def part_of(part, uarts):
    console = part.get("console")
    out = Part(part.get("name"), areas_of(part), system="system" in part.get("flags", "").split(),
               console=None if console is None else uarts.index(console), actions=list(DEFAULT_ACTIONS))  # fmt: skip
    for need in part.iter("TemporalRequirements"):
        out.need = amount(need.get("duration")), amount(need.get("period"))
    for trace in part.iter("Trace"):
        out.trace_mask = int(trace.get("bitmask"), 16)
    for event in part.iter("Event"):
        number = EVENTS.index(event.get("name").removeprefix("XM_HM_EV_"))
        out.actions[number] = ACTIONS.index(event.get("action").removeprefix("XM_HM_AC_"))
        if event.get("log") == "no":
            out.logged &= ~(1 << number)
    out.ports = [Port(port.get("name"), KINDS[port.get("type")], WAYS[port.get("direction")])
                 for port in part.iter("Port")]  # fmt: skip
    return out


def channel_of(channel, parts):
    def end(element):
        part = int(element.get("partitionId"))
        return part, [port.name for port in parts[part].ports].index(element.get("portName"))

    source = end(channel.find("Source"))
    destinations = [end(element) for element in channel.iter("Destination")]
    length = amount(channel.get("maxMessageLength"))
    if channel.tag == "QueuingChannel":
        return Channel(QUEUING, length, int(channel.get("maxNoMessages")), source, destinations)
    return Channel(SAMPLING, length, amount(channel.get("refreshPeriod", "0us")), source, destinations)


def description(path):
    root = ET.parse(path).getroot()
    for element in root.iter():
        element.tag = element.tag.rpartition("}")[2]
    regions = [(int(region.get("start"), 16), amount(region.get("size"))) for region in root.iter("Region")]
    plans = [Plan(amount(plan.get("majorFrame")),
                  [Slot(amount(slot.get("start")), amount(slot.get("duration")), int(slot.get("partitionId")))
                   for slot in plan.iter("Slot")]) for plan in root.iter("Plan")]  # fmt: skip
    uarts = [uart.get("name") for uart in root.iter("Uart")]
    parts = [part_of(part, uarts) for part in root.iter("Partition")]
    channels = [channel_of(channel, parts) for channel in root.findall("Channels/*") if channel.tag != "Ipvi"]
    links = [Link(*(int(link.get(key)) for key in ("id", "sourceId", "destinationId"))) for link in root.iter("Ipvi")]
    size = amount(root.find("XMHypervisor/PhysicalMemoryArea").get("size"))
    return System(root.get("name"), regions, size, plans, parts, uarts, channels, links)


def program(content):
    """The image of a linker's program file."""
    entry, table = struct.unpack_from(">II", content, 24)
    segments = []
    for number in range(struct.unpack_from(">H", content, 44)[0]):
        kind, offset, address, _, size, memory = struct.unpack_from(">6I", content, table + 32 * number)
        if kind == 1 and memory:
            segments.append(Segment(address, content[offset : offset + size], memory))
    return Image(entry, sorted(segments, key=lambda segment: segment.address))


def written(path, content):
    Path(path).write_bytes(content)
    return f"ok length={len(content)}\n"


def packed(config, images):
    system = read_configuration(Path(config).read_bytes(), (VERSION,))
    for image in images:
        number, _, path = image.partition("=")
        system.parts[int(number)].image = read_image(Path(path).read_bytes())
    return container(system, VERSION)


def main(words):
    match words:
        case ["xmcparser", text, out]:
            return written(out, configuration(description(text), VERSION))
        case ["xmeformat", "build", elf, out]:
            return written(out, image_file(program(Path(elf).read_bytes())))
        case ["xmpack", "build", config, out, *images]:
            return written(out, packed(config, images))
        case ["run", *rest]:
            return run_in(rest, Path())
    sys.exit(__doc__)


if __name__ == "__main__":
    sys.stdout.write(main(sys.argv[1:]))
