#!/usr/bin/env python3
"""Worked examples: systems and guests with the report that each has to give. Ends with 1 where the model differs."""
import sys

from asm import Guest
from box import (
    DESTINATION, QUEUING, SAMPLING, SOURCE, Area, Channel, Image, Link, Part, Plan, Port, Segment, Slot, System,
    configuration, container, image_file, read_container,
)
from model import A, Machine

HI = "13100000 92126020 94102002 90102020 91d02070 90102002 92102000 91d02070"
LOOP = "10800000 01000000"
P0, P1 = 0x40100000, 0x40180000

CONFIGURATION = """
584d4346 0001 00000090 04 64656d6f 01 40000000 00400000 00080000 01 04 55617274
01 000007d0 02 00000000 000003e8 00 000003e8 000003e8 01 02
02 5030 01 00 000003e8 000007d0 00000000 050506060606060606060505 0fff
01 40100000 00080000 00 00
02 5031 00 00 000003e8 000007d0 00000000 050506060606060606060505 0fff
01 40180000 00080000 00 00
00
"""


def words(text):
    return bytes.fromhex(text)


def image(start, content):
    return Image(start, [Segment(start, content)])


def bare(content):
    part = Part("bare", [Area(0x40000000, 1 << 20)], image(0x40000000, content), console=0)
    regions = [(0x30000000, 4096), (0x40000000, 1 << 20)]
    return System("bare", regions, 4096, [Plan(1000, [Slot(0, 1000, 0)])], [part], ["Uart"])


def demo(first=words(LOOP), second=words(LOOP)):
    """Two partitions with a millisecond each in a frame of two; the first one is a system partition."""
    parts = [
        Part("P0", [Area(P0, 0x80000)], image(P0, first), system=True, console=0, need=(1000, 2000)),
        Part("P1", [Area(P1, 0x80000)], image(P1, second), console=0, need=(1000, 2000)),
    ]
    plan = Plan(2000, [Slot(0, 1000, 0), Slot(1000, 1000, 1)])
    return System("demo", [(0x40000000, 0x400000)], 0x80000, [plan], parts, ["Uart"])


def queue_system(first, second, most=2, length=8):
    system = demo(first, second)
    system.parts[0].ports = [Port("q", QUEUING, SOURCE)]
    system.parts[1].ports = [Port("q", QUEUING, DESTINATION)]
    system.channels = [Channel(QUEUING, length, most, (0, 0), [(1, 0)])]
    return system


def plans_system(requests):
    """Three plans; the first partition asks for a plan at a tick, one request after the other."""
    guest = Guest(P0)
    for tick, plan in requests:
        waits = tick - (guest.here() - P0) // 4 - 4
        guest.nop(waits)
        guest.call(14, plan, "place") if waits >= 0 else None
    guest.loop().label("place").word(0)
    system = demo(guest.bytes())
    slots = [Slot(0, 2000, 0)]
    system.plans = [Plan(2000, slots), Plan(2000, slots), Plan(2000, slots)]
    return system


def lines_of(system, ticks):
    return Machine(system).run(ticks).splitlines()


FAULTS = []


def compare(name, found, wanted):
    if isinstance(found, list) and isinstance(wanted, str):
        wanted = wanted.strip().splitlines()
    if found != wanted:
        FAULTS.append(name)
        print(f"{name}:\n  found  {found}\n  wanted {wanted}")


def console(lines):
    return [line.split(" CON ", 1)[1] for line in lines if " CON " in line]


def bare_rows():
    hi = bare(words(HI) + b"hi")
    compare("hi", lines_of(hi, 100), """
SYSTEM parts=1 plans=1 ticks=100
[4] P0 CON hi
[7] P0 HALT
END P0 halted resets=0 exec=8 pc=40000020
END XM running plan=0 clock=100 ticks=100
""")
    compare("no ticks", lines_of(hi, 0), """
SYSTEM parts=1 plans=1 ticks=0
END P0 ready resets=0 exec=0 pc=40000000
END XM running plan=0 clock=0 ticks=0
""")
    compare("no stack", lines_of(bare(words("9de3bfa0") * 7), 10), """
SYSTEM parts=1 plans=1 ticks=10
[6] P0 HM XM_HM_EV_MEM_PROTECTION 40000018 XM_HM_AC_HALT
[6] P0 HALT
END P0 halted resets=0 exec=7 pc=40000018
END XM running plan=0 clock=10 ticks=10
""")


def instruction_rows():
    for word, icc, pc, npc in [
        (0x32800004, 4, 0x18, 0x1C), (0x30800004, 0, 0x20, 0x24), (0x10800004, 0, 0x14, 0x20),
    ]:
        part = Machine(bare(bytes(0x10) + word.to_bytes(4, "big"))).parts[0]
        processor = part.processor
        processor.pc, processor.npc = 0x40000010, 0x40000014
        processor.put_icc(icc)
        processor.settle(part.memory)
        compare(f"{word:08x}", (processor.pc, processor.npc), (0x40000000 + pc, 0x40000000 + npc))
    for word, icc, y, first, second, third, y_then in [
        (0x967A400A, 0, 0x80000000, 0, 0xFFFFFFFF, 0x7FFFFFFF, 0x80000000),
        (0x9672400A, 0, 1, 0, 1, 0xFFFFFFFF, 1),
        (0x9722400A, 0, 1, 3, 5, 6, 0x80000000),
    ]:
        part = Machine(bare(word.to_bytes(4, "big"))).parts[0]
        processor = part.processor
        processor.y = y
        processor.put(9, first)
        processor.put(10, second)
        processor.settle(part.memory)
        compare(f"{word:08x}", (processor.get(11), processor.y, processor.icc()), (third, y_then, 0))
    division = lines_of(bare(words("9672400a")), 1)
    compare("division by zero", division[1], "[0] P0 HM XM_HM_EV_SPARC_DIVIDE_EXCEPTION 40000000 XM_HM_AC_HALT")
    part = Machine(bare(words("9de3bfa0") * 8 + words("81e80000") * 8)).parts[0]
    processor = part.processor
    processor.put(14, 0x40000F00)
    for _ in range(8):
        processor.settle(part.memory)
    compare("eight saves", (processor.cwp, processor.inv, processor.get(14)), (7, 6, 0x40000C00))
    for _ in range(8):
        processor.settle(part.memory)
    compare("eight restores", (processor.cwp, processor.inv, processor.get(14)), (7, 0, 0x40000F00))


def demo_rows():
    compare("configuration", configuration(demo()).hex(), words(CONFIGURATION).hex())
    compare("image", image_file(image(0x40000000, words(HI) + b"hi"))[:27].hex(),
            "584d4546 0001 0000004d 40000000 01 40000000 00000022 00000022".replace(" ", ""))
    compare("container", len(container(demo())), 287)
    compare("container read", container(read_container(container(demo()))), container(demo()))
    loops = "END P1 ready resets=0 exec=3000 pc=40180000"
    compare("loops", lines_of(demo(), 6000), f"""
SYSTEM parts=2 plans=1 ticks=6000
END P0 ready resets=0 exec=3000 pc=40100000
{loops}
END XM running plan=0 clock=6000 ticks=6000
""")
    machine = Machine(demo())
    machine.run(6000)
    compare("core file", len(machine.core_file(0)), 527767)
    compare("load outside", lines_of(demo(words("13100600 d4024000")), 6000), f"""
SYSTEM parts=2 plans=1 ticks=6000
[1] P0 HM XM_HM_EV_SPARC_DATA_ACCESS 40100004 XM_HM_AC_HALT
[1] P0 HALT
END P0 halted resets=0 exec=2 pc=40100004
{loops}
END XM running plan=0 clock=6000 ticks=6000
""")
    outside = Guest(P0).call(32, 0x4017FFFE, 4).show_register().loop().label("shown").word(0).bytes()
    compare("console outside", console(lines_of(demo(outside), 100)), ["\\xff\\xff\\xff\\xfd"])
    compare("illegal", lines_of(demo(second=bytes(4)), 6000), """
SYSTEM parts=2 plans=1 ticks=6000
[1000] P1 HM XM_HM_EV_SPARC_ILLEGAL_INSTRUCTION 40180000 XM_HM_AC_HALT
[1000] P1 HALT
END P0 ready resets=0 exec=3000 pc=40100000
END P1 halted resets=0 exec=1 pc=40180000
END XM running plan=0 clock=6000 ticks=6000
""")
    system = demo(second=bytes(4))
    system.parts[1].actions[3] = A["IGNORE"]
    lines = lines_of(system, 6000)
    compare("ignored", (len(lines), lines[-2]), (3004, "END P1 ready resets=0 exec=3000 pc=40182ee0"))
    suspend = words("90102004 92102001 91d02070 10800000 01000000")
    compare("suspended", lines_of(demo(suspend), 2000), """
SYSTEM parts=2 plans=1 ticks=2000
[2] P1 SUSPEND
END P0 ready resets=0 exec=1000 pc=40100010
END P1 suspended resets=0 exec=0 pc=40180000
END XM running plan=0 clock=2000 ticks=2000
""")
    system = demo(words("9010201b 9210202a 91d02070"))
    system.parts[0].actions[0] = A["HYPERVISOR_WARM_RESET"]
    compare("warm reset", lines_of(system, 4), """
SYSTEM parts=2 plans=1 ticks=4
[2] P0 HM XM_HM_EV_PARTITION_ERROR 0000002a XM_HM_AC_HYPERVISOR_WARM_RESET
[2] XM WARM
[2] P0 WARM
[2] P1 WARM
END P0 ready resets=1 exec=1 pc=40100004
END P1 ready resets=1 exec=0 pc=40180000
END XM running plan=0 clock=1 ticks=4
""")
    system = demo(bytes(4))
    system.parts[0].actions[3] = A["HYPERVISOR_HALT"]
    compare("hypervisor halt", lines_of(system, 4), """
SYSTEM parts=2 plans=1 ticks=4
[0] P0 HM XM_HM_EV_SPARC_ILLEGAL_INSTRUCTION 40100000 XM_HM_AC_HYPERVISOR_HALT
[0] XM HALT
END P0 ready resets=0 exec=1 pc=40100000
END P1 ready resets=0 exec=0 pc=40180000
END XM halted plan=0 clock=0 ticks=0
""")


def timer_rows():
    """The handler says the moment of its delivery, which is one tick before its first instruction."""
    for deadline, wanted in ((999, 999), (1000, 2000)):
        guest = Guest(P0)
        guest.call(36, "table").call(31, 1).call(13, 0, 0, deadline, 0, 0).call(35, 32).loop()
        guest.at(P0 + 0x1000).label("table").at(P0 + 0x1E00).call(12, 0, "time").show("time", 8).loop()
        guest.label("time").word(0, 0)
        machine = Machine(demo(guest.bytes()))
        while machine.parts[0].processor.base + 0xE00 != machine.parts[0].processor.pc:
            machine.tick()
        compare(f"timer at {deadline}", machine.done - 1, wanted)


def queue_rows():
    """Answers 0, 0, -7; then 2 with the message; then 0 again; -3 without room; -7 from an empty queue."""
    sender = Guest(P0).call(20, "name", 2, 8, 0)
    for text, size in (("ab", 2), ("c", 1), ("d", 1)):
        sender.call(21, 0, text, size).show_register()
    sender.nop(1000 - (sender.here() - P0) // 4).call(21, 0, "d", 1).show_register().loop()
    for text in ("name", "ab", "c", "d"):
        sender.label(text).text("q" if text == "name" else text, zero=True)
    sender.align().label("shown").word(0)
    receiver = Guest(P1).call(20, "name", 2, 8, 1).call(22, 0, "room", 8).show_register().show("room", 2)
    receiver.call(22, 0, "room", 0).show_register()
    receiver.call(22, 0, "room", 8).show_register().show("room", 1).call(22, 0, "room", 8).show_register().loop()
    receiver.label("name").text("q", zero=True).align().label("room").space(8).label("shown").word(0)
    ok, full, invalid = r"\x00\x00\x00\x00", r"\xff\xff\xff\xf9", r"\xff\xff\xff\xfd"
    compare("queue", console(lines_of(queue_system(sender.bytes(), receiver.bytes()), 4000)),
            [ok, ok, full, r"\x00\x00\x00\x02", "ab", invalid, r"\x00\x00\x00\x01", "c", full, ok])


def plan_rows():
    def plan_lines(requests):
        return [line for line in lines_of(plans_system(requests), 2500) if "PLAN" in line]

    compare("the later request", plan_lines([(10, 1), (20, 2)]), ["[1999] XM PLAN 2"])
    compare("a request in the last tick", plan_lines([(1999, 1)]), ["[1999] XM PLAN 1"])
    compare("plan 0", plan_lines([(10, 2), (20, 0)]), ["[1999] XM PLAN 2"])


def sampling_rows():
    """A message of moment 5 is valid at moment 1005 and not at 1006; a read before any message answers -1."""
    for moment, valid in ((1005, 1), (1006, 0)):
        writer = Guest(P0).call(16, "name", 4, 0).loop().label("name").text("s", zero=True)
        reader = Guest(P1).call(16, "name", 4, 1).call(18, 0, "room", 4, "valid").show_register()
        reader.loop().label("name").text("s", zero=True).align().label("room").word(0).label("valid").word(9)
        reader.label("shown").word(0)
        system = demo(writer.bytes(), reader.bytes())
        system.parts[0].ports = [Port("s", SAMPLING, SOURCE)]
        system.parts[1].ports = [Port("s", SAMPLING, DESTINATION)]
        system.channels = [Channel(SAMPLING, 4, 1000, (0, 0), [(1, 0)])]
        machine = Machine(system)
        while machine.now < 1200:
            machine.tick()
        compare("no message", console(machine.lines), [r"\xff\xff\xff\xff"])
        channel, machine.now = machine.channels[0], moment
        channel.sample = 5, b"abcd"
        compare(f"valid at {moment}", channel.valid(moment), valid)
        area = machine.parts[1].conf.areas[0].start
        compare("read", machine.read_sampling_message(machine.parts[1], 0, area, 4, area + 4), 4)
        compare("stays", channel.sample, (5, b"abcd"))


SIGNALS = "90102026 92102000 91d02070 10800000 01000000"
HEARS = "13100600 90102024 91d02070 92102100 9010201f 91d02070 92102020 90102023 91d02070"


def link_system(first, second):
    system = demo(words(first), words(second))
    system.links = [Link(0, 0, 1)]
    return system


def link_rows():
    """P0 signals P1 over link 0. It is delivered in the tick behind P1's call that enables interrupts."""
    heard = link_system(SIGNALS, HEARS)
    compare("signal", lines_of(heard, 2000), """
SYSTEM parts=2 plans=1 ticks=2000
[1010] P1 HM XM_HM_EV_SPARC_ILLEGAL_INSTRUCTION 40180e80 XM_HM_AC_HALT
[1010] P1 HALT
END P0 ready resets=0 exec=1000 pc=40100010
END P1 halted resets=0 exec=11 pc=40180e80
END XM running plan=0 clock=2000 ticks=2000
""")
    machine = Machine(link_system(LOOP, SIGNALS))
    machine.run(1003)
    compare("no link of the destination", machine.parts[1].processor.get(8), 0xFFFFFFFD)
    written = container(heard)
    compare("links read back", read_container(written).links, heard.links)
    compare("length of the configuration with a link", len(configuration(heard)), 148)


def wild_rows():
    """All arguments are FFFFFFFF; the caller is not a system partition, and then is one."""
    plain = {1: 1, 33: -7, 0: -2, 39: -2, 0xFFFFFFFF: -2}
    plain |= dict.fromkeys([2, 3, 4, 5, 6, 8, 9, 10, 11, 14, 15, 25, 26, 28, 29], -4)
    plain |= dict.fromkeys([12, 13, *range(16, 25), 32, 38], -3)
    plain |= dict.fromkeys([7, 30, 31, 35, 36, 37, 27], 0)
    system = plain | dict.fromkeys([2, 3, 4, 5, 6, 8, 11, 14, 15, 25, 26, 28, 29], -3) | {9: 0, 10: -6, 1: 0}
    for caller, answers in ((1, plain), (0, system)):
        for number, answer in answers.items():
            machine = Machine(demo())
            part = machine.parts[caller]
            machine.order, machine.whole, machine.maintenance = None, None, False
            for r in range(9, 14):
                part.processor.put(r, 0xFFFFFFFF)
            part.processor.put(8, number)
            machine.hypercall(part, (0, 4))
            compare(f"call {number} of P{caller}", part.processor.get(8), answer & 0xFFFFFFFF)
            compare(f"halt by call {number}", machine.whole, "HALT" if number == 9 and caller == 0 else None)


SENDS = """
92106038 94102004 96102001 98102000 90102014 91d02070 92102000 9410603c 96102001 90102015 91d02070 10bffffb 01000000
71000000 6d000000
"""
RECEIVES = """
92106050 94102004 96102001 98102001 90102014 91d02070 92102000 94106054 96102001 90102016 91d02070 92106054 94102001
90102020 91d02070 90102007 91d02070 10bffff5 01000000 71000000 00000000
"""


def generated(number):
    """Sixteen partitions in pairs: one sends a byte and waits, the other prints what it receives and idles."""
    values = [number % 65537]
    for _ in range(16):
        values.append((75 * values[-1] + 74) % 65537)
    parts, slots, channels = [], [], []
    for k in range(16):
        start = 0x40100000 + 4096 * k
        head = f"{0x03100400 + 4 * k:08x}"
        port = Port("q", QUEUING, k % 2)
        content = words(head + (RECEIVES if k % 2 else SENDS))
        parts.append(Part(f"G{k}", [Area(start, 4096)], image(start, content), ports=[port]))
        slots.append(Slot(1000 * k, 100 + values[k + 1] % 901, k))
        if k % 2:
            channels.append(Channel(QUEUING, 1, 4, (k - 1, 0), [(k, 0)]))
    return System("gen", [(0x40000000, 4194304)], 65536, [Plan(16000, slots)], parts, [], channels)


def generated_row(frames=20):
    """Of the whole run of 1000 frames the sums are known; a few frames show them, since all later ones are alike."""
    system = generated(7)
    compare("container of the generated system in version 1", len(container(system)), 3009)
    compare("durations", [slot.duration for slot in system.plans[0].slots],
            [699, 950, 276, 482, 250, 505, 774, 312, 414, 964, 811, 598, 777, 194, 832, 671])
    machine = Machine(system)
    machine.run(16000)
    first = sum(part.exec for part in machine.parts)
    lines = len(machine.lines)
    machine.run(16000 * (frames - 1))
    later = (sum(part.exec for part in machine.parts) - first) // (frames - 1)
    compare("sum of execution clocks", first + 999 * later, 4937040)
    compare("number of lines", 18 + 8 * 1000, 8018)
    compare("lines of the first frame", lines, 18 + 8)
    compare("queued", sum(len(channel.messages) for channel in machine.channels), 24)


def main():
    for row in (bare_rows, instruction_rows, demo_rows, timer_rows, queue_rows, plan_rows, sampling_rows, link_rows,
                wild_rows, generated_row):
        row()
    print(f"{len(FAULTS)} differences")
    return 1 if FAULTS else 0


if __name__ == "__main__":
    sys.exit(main())
