"""Saved machines: the whole state of a run as the bytes of a file, by the table of docs/FORMATS.md, and the machine of such a file.

A file has `XMSM`, version 1 and its length; the digest of the container; the clocks and the plan; what each channel holds; and each
partition: what its core file has between version and areas, the input words that are left, and of each area the pages of 256 bytes
that are not as they were loaded. Its MD5 ends it. What is loaded is the image, with zeros in all other places.
"""
import struct
from collections.abc import Callable
from typing import Any

from box import SAMPLING, Fault, Reader, body, digested, ended, headed
from processor import Memory

MAGIC = b"XMSM"
MOST_BYTES = 16_777_216
MOST_TICKS = 4_000_000_000
PAGE = 256
KEPT = 64
PORTS = 32
STATES = ["ready", "idle", "suspended", "halted"]
EVENTS, ACTIONS = 12, 11
# What a core file has before its areas; its name and its version are not saved.
CORE_NAME, CORE_HEAD = 6, 3470
TRACE_BYTES, HEALTH_BYTES = 24, 20


def loaded(part: Any) -> Memory:
    """The memory of a partition as a cold reset loads it."""
    memory = Memory(part.areas)
    memory.load_image(part.image)
    return memory


# Writing.


def saved_file(machine: Any, digest: bytes) -> bytes:
    """The file of a machine that runs the container with this digest."""
    content = digest + clocks(machine)
    content += b"".join(content_of(channel) for channel in machine.channels)
    content += b"".join(partition(machine, number) for number in range(len(machine.parts)))
    return digested(headed(MAGIC, content, 16))


def clocks(machine: Any) -> bytes:
    asked = 0 if machine.asked is None else machine.asked
    counts = struct.pack(">QQIB", machine.done, machine.now, machine.resets, machine.halted)
    return counts + struct.pack(">BQBB", machine.plan, machine.frame_start, machine.asked is not None, asked)


def message(content: bytes) -> bytes:
    return struct.pack(">H", len(content)) + content


def content_of(channel: Any) -> bytes:
    if channel.conf.kind == SAMPLING:
        return b"\0" if channel.sample is None else struct.pack(">BQ", 1, channel.sample[0]) + message(channel.sample[1])
    return bytes([len(channel.messages)]) + b"".join(map(message, channel.messages))


def partition(machine: Any, number: int) -> bytes:
    part = machine.parts[number]
    head = machine.core_file(number)[CORE_NAME:CORE_HEAD]
    words = struct.pack(f">{len(part.inputs)}I", *part.inputs)
    areas = zip(part.memory.areas, loaded(part.conf).areas)
    return bytes(head) + words + b"".join(pages(start, content, before) for (start, content, _), (_, before, _) in areas)


def pages(start: int, content: bytes, before: bytes) -> bytes:
    """The pages of an area that differ, their number first."""
    places = [at for at in range(0, len(content), PAGE) if content[at : at + PAGE] != before[at : at + PAGE]]
    return struct.pack(">I", len(places)) + b"".join(struct.pack(">I", start + at) + content[at : at + PAGE] for at in places)


# Reading.


def read_saved(content: bytes, system: Any, digest: bytes, make: Callable[[Any], Any]) -> Any:
    """The machine of a file, for a system whose container has this digest. `make` gives one that boots, whose state is replaced."""
    _, reader = body(content, MAGIC, True)
    machine = make(system)
    stored = bytes(reader.take(16))
    if stored != digest:
        raise Fault(f"container stored={stored.hex()} found={digest.hex()}")
    read_clocks(reader, machine)
    for channel in machine.channels:
        read_content(reader, channel)
    for part in machine.parts:
        read_partition(reader, machine, part)
    ended(reader)
    return machine


def long(reader: Reader, most: int) -> int:
    """A number of eight bytes, up to the most."""
    return int(reader.field(8, lambda number: number <= most))


def zeros(reader: Reader, count: int) -> None:
    at = reader.place
    if reader.take(count) != bytes(count):
        raise Fault(f"field at={at}")


def read_clocks(reader: Reader, machine: Any) -> None:
    plans = machine.system.plans
    machine.done = long(reader, MOST_TICKS)
    machine.now = long(reader, machine.done)
    machine.resets = reader.u32()
    # The tick in which the hypervisor halts is not counted; it has begun, too.
    machine.halted = reader.field(1, lambda halted: halted <= 1 and machine.done + halted <= MOST_TICKS) == 1
    machine.plan = reader.field(1, lambda plan: plan < len(plans))
    frame = plans[machine.plan].frame
    machine.frame_start = reader.field(8, lambda start: start <= machine.now < start + frame)
    machine.asked = None
    if reader.flag():
        machine.asked = reader.field(1, lambda plan: plan < len(plans))
    else:
        zeros(reader, 1)


def read_message(reader: Reader, most: int) -> bytes:
    return bytes(reader.take(reader.field(2, lambda count: 1 <= count <= most)))


def read_content(reader: Reader, channel: Any) -> None:
    most = channel.conf.length
    if channel.conf.kind == SAMPLING:
        channel.sample = (reader.number(8), read_message(reader, most)) if reader.flag() else None
    else:
        count = reader.field(1, lambda count: count <= channel.conf.limit)
        channel.messages = [read_message(reader, most) for _ in range(count)]


def read_partition(reader: Reader, machine: Any, part: Any) -> None:
    reader.field(1, lambda number: number == part.number)
    part.state = STATES[reader.field(1, lambda state: state < len(STATES))]
    part.resets, part.status = reader.u32(), reader.u32()
    part.exec = long(reader, machine.done + machine.halted)
    read_processor(reader, part)
    for timer in part.timers:
        read_timer(reader, timer)
    left = reader.u32()
    read_ports(reader, machine, part)
    read_registers(reader, part.processor)
    ended_too = machine.halted or part.state == STATES[-1]
    read_log(reader, part.traces, machine.done, TRACE_BYTES, read_trace)
    read_log(reader, part.health, machine.done + ended_too, HEALTH_BYTES, read_health)
    part.inputs = [reader.u32() for _ in range(left)]
    part.memory = loaded(part.conf)
    for start, content, _ in part.memory.areas:
        read_pages(reader, start, content)


def read_processor(reader: Reader, part: Any) -> None:
    processor = part.processor
    processor.pc = reader.field(4, lambda pc: pc % 4 == 0)
    processor.npc = reader.field(4, lambda npc: npc % 4 == 0)
    processor.y = reader.u32()
    processor.put_icc(reader.field(1, lambda icc: icc < 16))
    processor.cwp = reader.field(1, lambda window: window < 8)
    processor.inv = reader.field(1, lambda window: window < 8 and window != processor.cwp)
    processor.enabled = reader.flag() == 1
    processor.base = reader.field(4, lambda base: base % 4096 == 0)
    part.pending, part.mask = reader.u32(), reader.u32()


def read_timer(reader: Reader, timer: Any) -> None:
    if reader.flag():
        timer.deadline = reader.field(8, lambda deadline: 1 <= deadline < 1 << 63)
        timer.interval = reader.field(8, lambda interval: interval < 1 << 63)
    else:
        zeros(reader, 8)
        zeros(reader, 8)
        timer.deadline = timer.interval = 0


def read_ports(reader: Reader, machine: Any, part: Any) -> None:
    """A bit for each port that is made, which is one of the partition's that is an end of a channel."""
    ends = [port for port in range(len(part.conf.ports)) if (part.number, port) in machine.channel_of]
    bits = reader.field(4, lambda bits: bits & ~sum(1 << port for port in ends) == 0)
    part.made = {port for port in range(PORTS) if bits >> port & 1}


def read_registers(reader: Reader, processor: Any) -> None:
    at = reader.place
    processor.globals = [reader.u32() for _ in range(8)]
    if processor.globals[0]:
        raise Fault(f"field at={at}")
    processor.windows = [reader.u32() for _ in range(128)]


def read_log(reader: Reader, log: Any, most: int, size: int, read_entry: Callable[[Reader], bytes]) -> None:
    oldest = reader.u32()
    log.next = reader.field(4, lambda number: number <= most and oldest == number - min(number, KEPT))
    count = log.next - oldest
    log.entries = [read_entry(reader) for _ in range(count)]
    zeros(reader, (KEPT - count) * size)


def read_trace(reader: Reader) -> bytes:
    return bytes(reader.take(8) + reader.take(4) + reader.take(4) + reader.take(8))


def read_health(reader: Reader) -> bytes:
    numbers = reader.take(8) + reader.take(4)
    kinds = bytes([reader.field(1, lambda event: event < EVENTS), reader.field(1, lambda action: action < ACTIONS)])
    zeros(reader, 2)
    return bytes(numbers + kinds + bytes(2) + reader.take(4))


def read_pages(reader: Reader, start: int, content: bytearray) -> None:
    """Pages of an area, whose addresses rise, over what was loaded."""
    floor, end = start, start + len(content)
    for _ in range(reader.u32()):
        at = reader.place
        first = floor
        address = reader.field(4, lambda address: first <= address < end and address % PAGE == 0)
        page, place = reader.take(PAGE), address - start
        if page == content[place : place + PAGE]:
            raise Fault(f"field at={at}")
        content[place : place + PAGE] = page
        floor = address + PAGE
