#!/usr/bin/env python3
"""Systems of two partitions whose memory is filled with random words and random hypercalls, and the model's reports.

usage: random_guests.py FOLDER

FOLDER is crates/case_suite/data; the file is `random_guests.toml`. The words of a memory follow from its start, a seed and
their count (`random_words`); crates/case_reader/src/random.rt makes the same ones.
"""
import hashlib
import sys
from pathlib import Path

from book import comment, file_entry, hex_lines, settings
from box import (
    ACTIONS, DEFAULT_ACTIONS, DESTINATION, QUEUING, SAMPLING, SOURCE, Area, Channel, Image, Part, Plan, Port, Segment, Slot,
    System, allowed, configuration,
)
from model import Machine

CASES = 300
CONFIGURATIONS = 12
SECOND_SEEDS = range(1000, 1025)
TICKS = 10_000
COUNT = 1024
STARTS = (0x40100000, 0x40102000)
A = {name: number for number, name in enumerate(ACTIONS)}
CALL = 0x91D02070  # ta 0x70
CALLS = ["xmeformat build a.elf a.xef", "xmeformat build b.elf b.xef", "xmpack build c.xmc box.xmp 0=a.xef 1=b.xef"]
HEAD = """\
Systems of two partitions whose memories are filled with random words, of which many make hypercalls with any arguments.

The memories follow from their start, a seed and the number of their words, as examples/model/random_guests.py has it, which
writes this file; the suite makes the same words. The digests are those of the reports of examples/model, a second
simulator in Python that was written from the description of the machine."""


class Draws:
    """Numbers that follow from a seed and look random."""

    def __init__(self, seed):
        self.state = seed * 0x9E3779B1 & 0xFFFFFFFF | 1

    def word(self):
        state = self.state
        state ^= state << 13 & 0xFFFFFFFF
        state ^= state >> 17
        state ^= state << 5 & 0xFFFFFFFF
        self.state = state
        return state

    def below(self, count):
        return self.word() % count


def small(register, number):
    """mov number, %register"""
    return 0x80102000 | register << 25 | number


def address(register, place):
    """set place, %register"""
    return [0x01000000 | register << 25 | place >> 10, 0x80102000 | register << 25 | register << 14 | place & 0x3FF]


def argument(draws, register, start):
    """What an argument of a call is set to: a small number, any number of 13 bits, an address of the memory, or nothing."""
    kind = draws.below(4)
    if kind == 0:
        return [small(register, draws.below(8))]
    if kind == 1:
        return [small(register, draws.below(0x2000))]
    if kind == 2:
        return address(register, start + draws.below(4096))
    return []


def any_call(draws, start):
    """A hypercall of any number, with any arguments; few halt the hypervisor."""
    number = draws.below(40)
    words = [small(8, draws.below(40) if number == 9 else number)]
    for register in range(9, 14):
        words += argument(draws, register, start)
    return [*words, CALL]


def port_call(draws, names):
    """A hypercall that makes one of the three ports, if the direction is the right one."""
    port, way = draws.below(3), draws.below(2)
    name = address(9, names + 4 * port)
    if port == 0:
        return [small(8, 16), *name, small(10, 4), small(11, way), CALL]
    return [small(8, 20), *name, small(10, 2), small(11, 4), small(12, way), CALL]


def message_call(draws, start):
    """A hypercall that writes, reads or looks at the messages of a port."""
    number, port = (17, 18, 19, 21, 22, 23)[draws.below(6)], draws.below(3)
    message, other = (start + 4 * draws.below(1024) for _ in range(2))
    return [small(8, number), small(9, port), *address(10, message), small(11, 4), *address(12, other), CALL]


def access(draws):
    """A load or a store near what an argument points to."""
    register, base = draws.below(32), 9 + draws.below(5)
    return [0xC0002000 | register << 25 | draws.below(16) << 19 | base << 14 | 4 * draws.below(16)]


def piece(draws, start, names):
    kind = draws.below(16)
    if kind == 0:
        return [draws.word()]
    if kind < 4:  # arithmetic, loads and stores
        return [0x80000000 | draws.word()]
    if kind < 6:  # a branch forwards
        return [0x00800000 | draws.word() & 0x3E00003F]
    if kind < 8:
        return access(draws)
    if kind == 8:
        return port_call(draws, names)
    if kind < 11:
        return message_call(draws, start)
    return any_call(draws, start)


def front(start, end):
    """The first words jump to a place that follows from the clock, so that a guest that is reset goes another way."""
    return [
        small(8, 12), small(9, 0), *address(10, end - 8), CALL,  # get_time(0, end - 8)
        0xD602A004, 0x972AE004, 0x960AE7FC,  # ld [%o2 + 4], %o3; sll %o3, 4, %o3; and %o3, 0x7fc, %o3
        *address(12, start + 0x40), 0x81C3000B, 0x01000000,  # jmp %o4 + %o3
    ]  # fmt: skip


def random_words(start, seed, count):
    """So many words of a memory; the last ones are the names of the ports."""
    draws, words = Draws(seed), front(start, start + 4 * count)
    while len(words) < count:
        words += piece(draws, start, start + 4 * count - 24)
    return [*words[: count - 6], 0x73000000, 0x71000000, 0x72000000, 0, 0, 0]


def content_of(start, seed, count=COUNT):
    return b"".join(word.to_bytes(4, "big") for word in random_words(start, seed, count))


def action_of(draws, event):
    """Mostly IGNORE; PARTITION_WARM_RESET where what was drawn is not allowed, or is one of the whole."""
    action = A["IGNORE"] if draws.below(4) else draws.below(len(ACTIONS))
    is_of_whole = A["HYPERVISOR_COLD_RESET"] <= action <= A["HYPERVISOR_HALT"]
    if not allowed(event, action) or is_of_whole and draws.below(4):
        return A["PARTITION_WARM_RESET"]
    return action


def system_of(number):
    """Two partitions of two pages each, of which the second one is read-only, three channels, and two plans."""
    draws = Draws(number)
    plans = [
        Plan(100, [Slot(0, 40, 0), Slot(45, 15, 1), Slot(60, 30, 0), Slot(90, 10, 1)]),
        Plan(64, [Slot(1, 31, 1), Slot(32, 32, 0)]),
    ]
    parts = []
    for place, start in enumerate(STARTS):
        way = DESTINATION if place else SOURCE
        other = SOURCE if place else DESTINATION
        part = Part(f"P{place}", [Area(start, 4096), Area(start + 4096, 4096, True)], system=place == 0, console=0)
        part.ports = [Port("s", SAMPLING, way), Port("q", QUEUING, way), Port("r", QUEUING, other)]
        part.trace_mask = 0xFF
        part.actions = [action_of(draws, event) for event in range(12)]
        parts.append(part)
    channels = [
        Channel(SAMPLING, 4, 50, (0, 0), [(1, 0)]),
        Channel(QUEUING, 4, 2, (0, 1), [(1, 1)]),
        Channel(QUEUING, 4, 2, (1, 2), [(0, 2)]),
    ]
    return System("random", [(0x40000000, 1 << 22)], 4096, plans, parts, ["Uart"], channels)


def seeds_of(case):
    """The seeds of the memories of a case: each first memory is one case's, the second ones go round."""
    return case, SECOND_SEEDS[case % len(SECOND_SEEDS)]


def system_of_case(case):
    """A configuration with its images."""
    system = system_of(case % CONFIGURATIONS)
    for part, start, seed in zip(system.parts, STARTS, seeds_of(case)):
        part.image = Image(start, [Segment(start, content_of(start, seed))])
    return system


def report_of_case(case, ticks=TICKS):
    return Machine(system_of_case(case)).run(ticks)


def program(start, seed):
    return f'{{ start = "{start:08x}", seed = {seed}, count = {COUNT} }}'


def file_lines():
    """The configurations and the second memories."""
    for number in range(CONFIGURATIONS):
        system = system_of(number)
        yield from comment(settings(system))
        yield from file_entry(f"{number}.xmc", hex_lines(configuration(system)))
    for seed in SECOND_SEEDS:
        yield from ["[[file]]", f'name = "{seed}.elf"', f"program = {program(STARTS[1], seed)}", ""]


def case_row(case):
    first, second = seeds_of(case)
    digest = hashlib.md5(report_of_case(case).encode()).hexdigest()
    files = f'["c.xmc={case % CONFIGURATIONS}.xmc", "b.elf={second}.elf"]'
    make = f"{{ program = {program(STARTS[0], first)} }}"
    return f'  {{ shows = "{case}", file = {files}, make = {make}, out_md5 = "{digest}" }},'


def book():
    lines = [*comment(HEAD.splitlines()), "", *file_lines(), "[[group]]", 'name = "random guests"']
    lines += ["before = [", *(f'  "{call}",' for call in CALLS), "]", f'call = "run box.xmp --ticks {TICKS}"']
    lines += ['make = { name = "a.elf" }', "case = [", *map(case_row, range(CASES)), "]"]
    return "".join(line + "\n" for line in lines)


def main():
    if len(sys.argv) != 2:
        print(__doc__, file=sys.stderr)
        return 2
    (Path(sys.argv[1]) / "random_guests.toml").write_text(book())
    return 0


if __name__ == "__main__":
    sys.exit(main())
