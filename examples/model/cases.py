#!/usr/bin/env python3
"""Small systems with the report that the model gives of each.

usage: cases.py FOLDER [--cores] [NAME ..]

For each case, or for those that are named, it writes into the folder: NAME.box, the container; NAME.args, the words
behind `run BOX`, one a line; NAME.out, the report; and the input files that the words name. With --cores the words
also ask for the core file NAME.P.core of each partition P, and NAME.P.core.want is what it has to be. Cases with upsets, and
with resets between ticks, are written only where they are named.
"""
import random
import struct
import sys
from pathlib import Path

from asm import (
    ARITHMETIC, CONDITIONS, COPROCESSOR, FLOAT, HYPERCALL, ILLEGAL, MEMORY, PRIVILEGED, Guest, arithmetic, branch,
    listed, memory, read_y, sethi, shown_operand, ticc, write_y,
)
from box import (
    ACTIONS, DESTINATION, EVENTS, QUEUING, SAMPLING, SOURCE, Area, Channel, Image, Link, Part, Plan, Port, Segment, Slot,
    System, container, segments,
)
from model import LINK, run_words

FIRST, STRIDE = 0x40100000, 0x10000
DATA, HANDLERS, TABLE, STACK = 0x1000, 0x1400, 0x2000, 0x3F00
WRITABLE, ALL = 0x4000, 0x5000  # an area of 16 KB, and behind it a read-only one of 4 KB
ALL_ONES = 0xFFFFFFFF
INTERRUPT = 0xE0
EXECUTION = 1

A = {name: number for number, name in enumerate(ACTIONS)}
E = {name: number for number, name in enumerate(EVENTS)}
CASES = {}
CORES = {}  # the partition whose core file a case has, too
UPSETS = {}  # the file of upsets that a case has, as text
RESETS = {}  # those between the ticks of a case: the tick's number, a partition or None for all, the mode, the status


def start(number):
    return FIRST + STRIDE * number


class Program(Guest):
    """A partition's guest: code, data with room and names, handlers and a trap table."""

    def __init__(self, number=0):
        super().__init__(start(number))
        self.handlers = []
        self.strings = {}
        self.read_only = []
        self.end, self.last = self.base + WRITABLE, self.base + ALL

    @listed(lambda number, *arguments: f"ask {number}({', '.join(map(shown_operand, arguments))})")
    def ask(self, number, *arguments):
        """A hypercall whose result goes to the console."""
        return self.call(number, *arguments).show_register()

    def asks(self, *calls):
        for call in calls:
            self.ask(*call)
        return self

    @listed(lambda *numbers: f"wild {', '.join(map(shown_operand, numbers))}")
    def wild(self, *numbers):
        """Hypercalls whose arguments are all ffffffff; the result of each goes to the console."""
        for number in numbers:
            for place in range(1, 6):
                self.mov(-1, f"o{place}")
            self.ask(number)
        return self

    @listed(lambda ticks: f"wait {ticks}")
    def wait(self, ticks):
        """Does nothing for so many ticks; %g4 and the condition codes are lost."""
        rounds = max(0, ticks - 1) // 3
        if rounds < 3:
            return self.nop(ticks)
        self.mov(rounds, "g4").op("subcc", "g4", 1, "g4").put(branch("ne", -4)).nop()
        return self.nop((ticks - 1) % 3)

    @listed(lambda: "stack")
    def stack(self):
        return self.set(self.base + STACK, "sp").set(self.base + STACK + 96, "fp")

    def on(self, trap, *steps):
        """A handler of a trap type; the trap table is named to the hypervisor by `ready`."""
        self.handlers.append((trap, steps))
        return self

    def ready(self, unmasked=0, enabled=True):
        self.call(36, "table")
        if unmasked:
            self.call(31, unmasked)
        return self.call(35, 1 << 5) if enabled else self

    def string(self, label, text, zero=True):
        self.strings[label] = text, zero
        return self

    def image(self):
        only_loops = not self.content
        self.loop().inside += 1
        self.at(self.base + DATA)
        self.label("shown").word(0).label("four").word(0x61626364, 0x65666768).word(0)
        self.label("room").space(64).label("time").word(0, 0)
        for label, (text, zero) in self.strings.items():
            self.label(label).text(text, zero)
        self.align().at(self.base + HANDLERS).inside -= 1
        for trap, steps in self.handlers:
            self.label(f"handler {trap}")
            for step in steps:
                step(self)
        self.inside += 1
        self.at(self.base + TABLE).label("table")
        for trap, _ in sorted(self.handlers, key=lambda handler: handler[0]):
            self.at(self.base + TABLE + 16 * trap).branch("a", f"handler {trap}").nop()
        if self.read_only:
            self.at(self.base + WRITABLE).label("read-only").put(*self.read_only)
        content = self.bytes()
        if only_loops:
            content = content[:DATA]
        return Image(self.base, segments(self.base, content), self)


# Steps of handlers.


def say_time(program):
    program.call(12, 0, "time").show("time", 8)


def say(text):
    def step(program):
        label = f"say {text} {program.here():x}"
        program.branch("a", f"behind {label}").nop()
        program.label(label).text(text).align().label(f"behind {label}").show(label, len(text))

    return step


def say_locals(program):
    """The virtual processor state and the two program counters that the delivery kept."""
    for place, rd in enumerate(("l0", "l1", "l2")):
        program.set("room", "g1").mem("st", rd, "g1", 4 * place)
    program.show("room", 12)


def skip(program):
    """The return goes behind the instruction that trapped."""
    program.mov("l2", "l1").op("add", "l2", 4, "l2")


def back(program):
    program.call(34)


def stay(program):
    program.loop()


def halt_me(number):
    return lambda program: program.call(2, number)


PLANS = [
    Plan(1000, [Slot(0, 450, 0), Slot(500, 450, 1)]),
    Plan(300, [Slot(0, 100, 0), Slot(100, 100, 1), Slot(200, 50, 0)]),
    Plan(500, [Slot(0, 200, 1), Slot(250, 250, 0)]),
]
PORTS = [
    [Port("s", SAMPLING, SOURCE), Port("t", SAMPLING, DESTINATION), Port("q", QUEUING, SOURCE),
     Port("r", QUEUING, DESTINATION), Port("alone", SAMPLING, SOURCE)],
    [Port("s", SAMPLING, DESTINATION), Port("t", SAMPLING, SOURCE), Port("q", QUEUING, DESTINATION),
     Port("r", QUEUING, SOURCE), Port("alone", QUEUING, SOURCE)],
]
CHANNELS = [
    Channel(SAMPLING, 8, 700, (0, 0), [(1, 0)]), Channel(SAMPLING, 8, 0, (1, 1), [(0, 1)]),
    Channel(QUEUING, 8, 2, (0, 2), [(1, 2)]), Channel(QUEUING, 8, 2, (1, 3), [(0, 3)]),
]


def idle_program(number):
    """It only goes round."""
    return Program(number)


def make(*programs, actions=None, logged=None, plans=PLANS, mask=0xFF, links=()):
    """A system of two partitions; the first one is a system partition."""
    programs = list(programs) + [idle_program(k) for k in range(len(programs), 2)]
    parts = []
    linked = any("s name" in program.strings for program in programs)
    for number, program in enumerate(programs):
        areas = [Area(program.base, WRITABLE), Area(program.base + WRITABLE, ALL - WRITABLE, True)]
        part = Part(f"P{number}", areas, program.image(), system=number == 0, console=number % 2, trace_mask=mask)
        part.ports = PORTS[number] if linked and number < 2 else []
        parts.append(part)
    for (number, event), action in (actions or {}).items():
        parts[number].actions[E[event]] = A[action]
    for number, flags in (logged or {}).items():
        parts[number].logged = flags
    return System("case", [(0x40000000, 0x400000)], 0x10000, list(plans), parts, ["A", "B"],
                  CHANNELS if linked else [], [Link(*link) for link in links])


def case(name, system, length="--ticks 2000", inputs=None):
    """Inputs are lists of words by partition."""
    assert name not in CASES, name
    CASES[name] = system, length.split(), inputs or {}


def refused(number, *calls, by=0, setup=None):
    """Each call is answered on the console."""
    program = Program(by)
    add_names(program)
    if setup:
        setup(program)
    for arguments in calls:
        program.ask(number, *arguments)
    programs = [program] if by == 0 else [idle_program(0), program]
    return make(*programs)


def add_names(program):
    for name in "stqr":
        program.string(name + " name", name)
    return program.string("alone name", "alone").string("other name", "x").string("capital name", "S")


def make_ports(program):
    """All four ports of the partition are made."""
    first = program.base == FIRST
    program.call(16, "s name", 8, 0 if first else 1).call(16, "t name", 8, 1 if first else 0)
    return program.call(20, "q name", 2, 8, 0 if first else 1).call(20, "r name", 2, 8, 1 if first else 0)


def with_ports(number):
    return make_ports(add_names(Program(number)))


END0, LAST0 = FIRST + WRITABLE, FIRST + ALL
END1, LAST1 = start(1) + WRITABLE, start(1) + ALL


def target_cases(number, *more):
    """The test of the partition that a call names, by a plain partition and by a system partition."""
    case(f"call{number:02}_not_system", refused(number, (0, *more), (2, *more), (ALL_ONES, *more), by=1))
    case(f"call{number:02}_no_partition", refused(number, (2, *more), (16, *more), (ALL_ONES, *more)))


def targets_together():
    """All calls that name a partition, in one system each: by a plain partition, and of a partition that there is not."""
    after = {2: (), 3: (0, 5), 4: (), 5: (), 6: (), 8: ("room",), 25: (0, "room"), 26: ("room",), 28: (0, "room"),
             29: ("room",)}
    asks = lambda program, targets: program.asks(*[(call, target, *more) for call, more in after.items()
                                                  for target in targets])
    case("call_targets_not_system", make(Program(0), asks(Program(1), (0, 2)).ask(15, "room")))
    case("call_targets_no_partition", make(asks(Program(0), (2, ALL_ONES))))
    edges = add_names(Program(0)).call(24, 1, "four").asks(
        (15, END0 - 20), (15, END0 - 19), (20, 0, 2, 8, 0), (20, "other name", 2, 8, 0), (25, 0, 0, END0 - 24),
        (25, 0, 0, END0 - 23), (25, 0, 1, END0))
    case("call_edges", make(edges))


def order_calls():
    targets_together()
    for number in (2, 4, 5, 6):
        target_cases(number)
    target_cases(3, 0, 5)
    case("call01", make(Program(0).ask(1), Program(1).ask(1)))
    case("call02_other", make(Program(0).ask(2, 1).ask(2, 1), Program(1).nop(20)))
    case("call02_other_later", make(Program(0).call(13, 0, 0, 1, 0, 1).nop(4).ask(2, 1), Program(1)), "--ticks 100")
    case("call02_self", make(Program(0), Program(1).ask(2, 1)))
    case("call02_self_system", make(Program(0).ask(2, 0), Program(1)))
    case("call03_mode", refused(3, (1, 2, 0), (1, ALL_ONES, 0), (0, 2, 0)))
    case("call03_mode_self", refused(3, (1, 2, 0), by=1))
    status = lambda program: program.call(8, 1, "room").show("room", 20)
    program = Program(0).wait(460).ask(3, 1, 0, 7)
    case("call03_cold", make(status(program), Program(1).show("shown").set(1, "o1").store("o1", "shown")),
         "--ticks 3000")
    program = Program(0).wait(460).ask(3, 1, 1, 8)
    case("call03_warm", make(status(program), Program(1).show("shown").set(1, "o1").store("o1", "shown")),
         "--ticks 3000")
    program = status(Program(0).call(3, 1, 1, 9).call(3, 1, 1, 10))
    case("call03_warm_twice", make(status(program.call(3, 1, 0, 11)), Program(1)))
    for mode in (0, 1):
        program = Program(1)
        program.set("room", "l0").mem("ld", "l1", "l0").op("add", "l1", 1, "l1").mem("st", "l1", "l0").show("room", 4)
        program.call(8, 1, "room").show("room", 20).set(5, "o1").store("o1", "room").call(3, 1, mode, 0x77)
        case(f"call03_self_{'cold warm'.split()[mode]}", make(Program(0), program), "--ticks 700")
    program = status(Program(0).call(2, 1))
    status(program.call(3, 1, 1, 0x12))
    case("call03_halted", make(program, Program(1).ask(1)))
    program = status(Program(0).call(4, 1))
    case("call03_suspended", make(status(program.call(3, 1, 0, 0)), Program(1).ask(1)))
    case("call04_05", make(status(Program(0).ask(4, 1).ask(4, 1)).ask(5, 1).ask(5, 1), Program(1).ask(1)))
    case("call04_only", make(status(Program(0).ask(4, 1)), Program(1).ask(1)))
    case("call04_self", make(Program(0).ask(4, 0), Program(1)))
    case("call04_self_plain", make(Program(0).wait(440).wait(100).ask(5, 1), Program(1).call(4, 1).show_register()),
         "--ticks 3000")
    case("call04_halted", make(Program(0).call(2, 1).ask(4, 1).ask(5, 1)))
    case("call05_self", make(Program(0), Program(1).ask(5, 1)))
    idle = Program(1).call(7).show_register()
    case("call04_idle", make(status(Program(0).wait(500)).ask(4, 1).ask(5, 1), idle), "--ticks 3000")
    idle = Program(1).call(7).show_register()
    case("call05_idle", make(status(Program(0).wait(500)).ask(5, 1), idle), "--ticks 2000")
    handler = Program(1).on(INTERRUPT + 2, say_time, back).ready(4)
    case("call06_handled", make(Program(0).wait(450).ask(6, 1), handler), "--ticks 3000")
    handler = Program(1).on(INTERRUPT + 2, say_time, halt_me(1)).ready(4)
    case("call06_halts", make(Program(0).wait(500).ask(6, 1), handler), "--ticks 3000")
    handler = Program(1).on(INTERRUPT + 2, say_time, back).ready(4).ask(6, 1).ask(6, 1)
    case("call06_self", make(Program(0), handler))
    case("call06_halted", make(status(Program(0).call(2, 1).ask(6, 1).call(3, 1, 1, 0)), Program(1).ready(4)))
    suspended = Program(1).on(INTERRUPT + 2, say_time, back).ready(4).call(4, 1).ask(1)
    case("call06_suspended", make(Program(0).wait(470).ask(6, 1).nop(10).ask(5, 1), suspended), "--ticks 3000")
    case("call06_masked", make(Program(0).ask(6, 1), Program(1).on(INTERRUPT + 2, say_time, back).ready(0x10)))


def status_calls():
    target_cases(8, "room")
    case("call07", make(Program(0).ask(7).ask(7), Program(1).ask(7)), "--ticks 3000")
    statuses = Program(0)
    for number in (0, 1):
        statuses.call(8, number, "room").show("room", 20)
    case("call08", make(statuses, Program(1).call(8, 1, "room").show("room", 20)))
    case("call08_edge", refused(8, (0, END0 - 20), (0, END0 - 19), (1, END0 - 20), (1, END0), (1, LAST0), (1, 0),
                                (1, ALL_ONES), (0, END0 + 8), (2, END0 - 19)))
    case("call08_edge_plain", refused(8, (1, END1 - 20), (1, END1 - 19), (1, 1), (1, start(0)), (0, END1), by=1))
    case("call09", make(Program(0).wait(30).ask(9)))
    case("call09_refused", refused(9, (), by=1))
    late = Program(0).nop(23).call(9)
    case("call09_last_tick", make(late), "--ticks 25")
    late = Program(0).nop(23).call(9)
    case("call09_just_past", make(late), "--ticks 24")
    for mode in (0, 1):
        program = Program(0)
        program.call(11, "room").show("room", 8).set("shown", "l0").mem("ld", "l1", "l0").op("add", "l1", 1, "l1")
        program.mem("st", "l1", "l0").show("shown").wait(500).ask(10, mode)
        case(f"call10_{'cold warm'.split()[mode]}", make(program, Program(1).ask(2, 1)), "--ticks 4000")
    case("call10_refused", refused(10, (2,), (ALL_ONES,)))
    case("call10_not_system", refused(10, (0,), (2,), by=1))
    case("call11", make(Program(0).ask(11, "room").show("room", 8)))
    case("call11_edge", refused(11, (END0 - 8,), (END0 - 7,), (END0,), (0,), (ALL_ONES - 7,)))
    case("call11_not_system", refused(11, ("room",), (0,), by=1))
    program = Program(1).ask(12, 0, "room").show("room", 8).ask(12, 1, "room").show("room", 8)
    case("call12", make(Program(0), program))
    case("call12_refused", refused(12, (2, "room"), (ALL_ONES, "room"), (0, END0 - 8), (0, END0 - 7), (1, END0),
                                   (2, 0)))
    case("call13_refused", refused(
        13, (2, 0, 5, 0, 0), (ALL_ONES, 0, 0, 0, 0), (0, 1 << 31, 0, 0, 0), (1, ALL_ONES, ALL_ONES, 0, 0),
        (0, 0, 5, 1 << 31, 0), (0, 0, 0, ALL_ONES, ALL_ONES), (1, 0, 0, 0, 0), (0, 0, 0, 0, 7),
        (1, (1 << 31) - 1, ALL_ONES, (1 << 31) - 1, ALL_ONES), by=1))
    case("call15",
         make(Program(0).ask(15, "room").show("room", 20).call(14, 2, "four").ask(15, "room").show("room", 20)))
    case("call15_edge", refused(15, (END0 - 20,), (END0 - 19,), (LAST0,)))
    case("call15_not_system", refused(15, ("room",), (0,), by=1))


def plan_calls():
    case("call14", make(Program(0).ask(14, 2, "room").show("room", 4)), "--ticks 4000")
    case("call14_back", make(Program(0).call(14, 2, "room").wait(500).ask(14, 1, "room").show("room", 4)),
         "--ticks 4000")
    case("call14_same", make(Program(0).call(14, 1, "room").wait(500).ask(14, 1, "room").show("room", 4)),
         "--ticks 4000")
    case("call14_refused", refused(14, (0, "room"), (3, "room"), (ALL_ONES, "room"), (1, END0 - 3), (2, END0 - 4),
                                   (0, 0)))
    case("call14_not_system", refused(14, (1, "room"), (0, "room"), by=1))
    case("call14_twice", make(Program(0).call(14, 1, "room").call(14, 2, "room").ask(14, 0, "room")), "--ticks 3000")
    whole = [Plan(200, [Slot(0, 200, 0)]), Plan(100, [Slot(0, 60, 0), Slot(60, 40, 1)]), Plan(50, [Slot(0, 50, 1)])]
    for tick in (5, 198, 199, 200, 399, 400):  # a frame's last ticks are 199 and 399
        asks = at_tick(tick, lambda program: program.call(14, 1, "room"))
        case(f"plan_asked_in_tick_{tick}", make(asks, plans=whole), "--ticks 700")
    for tick in (0, 1, 198, 199, 200, 399, 400):
        broken = at_tick(tick, lambda program: program.put(ILLEGAL))
        system = make(broken, actions={(0, "SPARC_ILLEGAL_INSTRUCTION"): "SWITCH_TO_MAINTENANCE"}, plans=whole)
        case(f"maintenance_in_tick_{tick}", system, "--ticks 700")
    forgets = Program(0).call(14, 2, "room").put(ILLEGAL)
    system = make(forgets, actions={(0, "SPARC_ILLEGAL_INSTRUCTION"): "SWITCH_TO_MAINTENANCE"})
    case("maintenance_forgets_request", system, "--ticks 3000")
    again = Program(0).nop(10).put(ILLEGAL).wait(30).put(ILLEGAL).call(15, "room").show("room", 20)
    system = make(again, actions={(0, "SPARC_ILLEGAL_INSTRUCTION"): "SWITCH_TO_MAINTENANCE"})
    case("maintenance_again", system, "--ticks 1500")
    for mode in (0, 1):
        program = Program(0).call(11, "room").show("room", 8).call(14, 2, "room").wait(480).call(14, 1, "room")
        program.call(10, mode)
        case(f"plan_back_by_reset_{mode}", make(program), "--ticks 4000")


def at_tick(tick, step):
    """A partition that runs from tick 0 on without a break: the last word of the step is done in that tick."""
    length = step(Program(0)).here() - FIRST
    return step(Program(0).wait(tick + 1 - length // 4))


def port_calls():
    name31 = "n" * 31
    def setup(program):
        program.string("long name", name31).string("unended name", "n" * 32)
        program.string("empty name", "")
    names = ("other name", "capital name", "long name", "unended name", "empty name", "alone name")
    case("call16", make(with_ports(0).ask(16, "s name", 8, 0).ask(17, 0, "four", 4)))
    case("call16_names", refused(16, *[(name, 8, 0) for name in names], setup=setup))
    case("call16_places", refused(16, (0, 8, 0), (ALL_ONES, 8, 0), (LAST0, 8, 0), (LAST0 - 1, 8, 0), (END0 - 1, 8, 0)))
    case("call16_differs", refused(16, ("s name", 8, 1), ("s name", 8, 2), ("s name", 7, 0), ("s name", 9, 0),
                                   ("q name", 8, 0), ("alone name", 3, 1), ("alone name", 3, 0), ("s name", 8, 0),
                                   ("s name", 8, 0), ("s name", 9, 0), ("t name", 8, 1)))
    case("call20_differs", refused(20, ("q name", 2, 8, 1), ("q name", 2, 7, 0), ("q name", 3, 8, 0),
                                   ("q name", 0, 8, 0),
                                   ("s name", 2, 8, 0), ("q name", 2, 8, 0), ("q name", 2, 8, 0), ("q name", 1, 8, 0),
                                   ("r name", 2, 8, 1), ("r name", 258, 8, 1)))
    case("call20_no_channel", refused(20, ("alone name", 5, 8, 0), ("alone name", 5, 8, 1), by=1))
    case("call20_names", refused(20, (0, 2, 8, 0), ("unended name", 2, 8, 0), ("long name", 2, 8, 0), setup=setup))
    ports = with_ports(0)
    case("call17_refused", make(ports.asks(
        (17, 5, "four", 4), (17, 4, "four", 4), (17, 2, "four", 4), (17, ALL_ONES, "four", 4), (17, 1, "four", 4),
        (17, 0, "four", 0), (17, 0, "four", 9), (17, 0, LAST0 - 8, 8), (17, 0, LAST0 - 7, 8), (17, 0, END0 - 4, 8),
        (17, 0, ALL_ONES - 3, 8), (17, 1, "four", 0))))
    case("call17_18", make(
        with_ports(0).ask(17, 0, "four", 3).ask(19, 0, "room").show("room", 16),
        with_ports(1).ask(18, 0, "room", 8, "time").show("room", 8).show("time", 4).ask(18, 0, "room", 3, "time")
        .ask(19, 0, "room").show("room", 16)), "--ticks 2000")
    case("call18_refused", make(with_ports(0).ask(17, 0, "four", 8), with_ports(1).asks(
        (18, 5, "room", 8, "time"), (18, 2, "room", 8, "time"), (18, 1, "room", 8, "time"), (18, 0, "room", 7, "time"),
        (18, 0, "room", 0, "time"), (18, 0, END1 - 8, 8, "time"), (18, 0, END1 - 7, 8, "time"),
        (18, 0, "room", 8, END1 - 3), (18, 0, "room", 8, END1 - 4), (18, 0, END1, 7, "time"), (18, 32, 0, 0, 0))))
    case("call18_overlap", make(with_ports(0).ask(17, 0, "four", 8),
                                with_ports(1).call(18, 0, "room", 8, "room").show("room", 8)))
    case("call18_none", make(with_ports(0).ask(18, 1, "room", 0, 0).ask(19, 1, "room").show("room", 16)))
    for moment in (740, 741, 742):  # the message is of moment 41, and its refresh period 700
        writer = with_ports(0).nop(10).call(17, 0, "four", 4)
        reader = add_names(Program(1)).call(16, "s name", 8, 1)
        waits = moment - 500 - 4 - (reader.here() - reader.base) // 4
        reader.wait(waits).call(19, 0, "room").show("room", 16)
        case(f"call19_at_{moment}", make(writer, reader))
        writer = with_ports(0).nop(10).call(17, 0, "four", 4)
        reader = add_names(Program(1)).call(16, "s name", 8, 1)
        reader.wait(waits - 3).call(18, 0, "room", 8, "time").show("time", 4)
        case(f"call18_at_{moment}", make(writer, reader))
    case("call19_refused", make(with_ports(0).asks(
        (19, 5, "room"), (19, 4, "room"), (19, 2, "room"), (19, 0, END0 - 16), (19, 0, END0 - 15), (19, 1, END0 - 15))))
    case("call21_22", make(
        with_ports(0).ask(21, 2, "four", 2).ask(21, 2, "four", 8).ask(21, 2, "four", 1)
        .ask(23, 2, "room").show("room", 8).wait(300).ask(21, 2, "four", 3),
        with_ports(1).ask(22, 2, "room", 8).show("room", 2).ask(23, 2, "room").show("room", 8).ask(22, 2, "room", 7)
        .ask(22, 2, "room", 8).show("room", 8).ask(22, 2, "room", 8)), "--ticks 3000")
    case("call21_refused", make(with_ports(0).asks(
        (21, 5, "four", 4), (21, 0, "four", 4), (21, 4, "four", 4), (21, 3, "four", 4), (21, 2, "four", 0),
        (21, 2, "four", 9), (21, 2, LAST0 - 7, 8), (21, 2, LAST0 - 8, 8), (21, 2, "four", 1), (21, 2, "four", 1),
        (21, 2, 0, 1), (21, 2, "four", 9))))
    case("call22_refused", make(with_ports(0).call(21, 2, "four", 8), with_ports(1).asks(
        (22, 5, "room", 8), (22, 0, "room", 8), (22, 3, "room", 8), (22, 2, "room", 7), (22, 2, "room", 0),
        (22, 2, END1 - 7, 8), (22, 2, END1, 7), (22, 2, END1 - 8, 8), (22, 2, 0, 0))))
    case("call23_refused", make(with_ports(0).asks(
        (23, 5, "room"), (23, 0, "room"), (23, 2, END0 - 8), (23, 2, END0 - 7), (23, 3, 0))))
    for name, number in (("sampling", 3), ("queuing", 4)):
        send = (17, 0, "four", 4) if number == 3 else (21, 2, "four", 4)
        handler = with_ports(1).on(INTERRUPT + number, say_time, back).ready(1 << number)
        case(f"{name}_interrupt", make(with_ports(0).wait(470).ask(*send), handler), "--ticks 3000")
        handler = add_names(Program(1)).on(INTERRUPT + number, say_time, back).ready(1 << number)
        case(f"{name}_interrupt_without_port", make(with_ports(0).wait(470).ask(*send), handler), "--ticks 3000")
    both = make(add_names(Program(0)).call(16, "s name", 8, 0).call(17, 0, "four", 4))
    case("sampling_to_one_not_made", both)
    fan = fan_out()
    case("sampling_to_three", fan, "--ticks 800")


def fan_out():
    """One source and three destinations, of which one is not made and one is the source's own partition."""
    programs = []
    for number in range(3):
        program = Program(number).string("in", "in").string("out", "out")
        program.on(INTERRUPT + 3, say_time, lambda p: p.call(18, 1, "room", 4, "time").show("room", 4), back)
        if number != 2:
            program.call(16, "in", 4, 1)
        program.ready(8)
        if number == 0:
            program.call(16, "out", 4, 0).wait(130).ask(17, 0, "four", 4)
        programs.append(program)
    system = make(*programs, plans=[Plan(300, [Slot(100 * k, 100, k) for k in range(3)])])
    for part in system.parts:
        part.ports = [Port("out", SAMPLING, SOURCE), Port("in", SAMPLING, DESTINATION)]
    system.channels = [Channel(SAMPLING, 4, 50, (0, 0), [(0, 1), (1, 1), (2, 1)])]
    return system


def trace_calls():
    case("call24", make(Program(0).ask(24, 1, "four").ask(24, 0x80000001, "four").ask(26, 0, "room").show("room", 8)))
    case("call24_refused", refused(24, (0, "four"), (0x100, "four"), (1, LAST0 - 8), (1, LAST0 - 7), (0, 0),
                                   (1, ALL_ONES)))
    case("call24_mask_0", make(Program(0).ask(24, ALL_ONES, "four"), mask=0))
    program = Program(0).call(24, 3, "four").ask(25, 0, 0, "room").show("room", 24).ask(25, 0, 1, "room")
    case("call25", make(program.call(25, 1, 0, "room").show_register()))
    other = Program(0).wait(500).ask(25, 1, 0, "room").show("room", 24).ask(26, 1, "room").show("room", 8)
    case("call25_other", make(other, Program(1).call(24, 0x15, "four")))
    target_cases(25, 0, "room")
    target_cases(26, "room")
    case("call25_edge", refused(25, (0, 0, END0 - 24), (0, 0, END0 - 23), (0, 1, END0), (0, ALL_ONES, "room"),
                                setup=lambda program: program.call(24, 1, "four")))
    case("call26_edge", refused(26, (0, END0 - 8), (0, END0 - 7), (1, 0)))
    many = Program(0).set(70, "l5").label("again").call(24, 1, "four").op("subcc", "l5", 1, "l5").branch("ne", "again")
    many.nop()
    many.call(26, 0, "room").show("room", 8)
    for number in (5, 6, 69, 70):
        many.ask(25, 0, number, "room")
    case("trace_70", make(many, plans=[Plan(1000, [Slot(0, 900, 0), Slot(900, 100, 1)])]))
    raises = Program(0).ask(27, 0x1234)
    case("call27_halt", make(raises))
    entry = Program(0).ask(27, 0x55AA).call(28, 0, 0, "room").show_register().show("room", 20)
    entry.ask(29, 0, "room").show("room", 8).ask(28, 0, 1, "room")
    case("call28_29", make(entry, actions={(0, "PARTITION_ERROR"): "IGNORE"}))
    target_cases(28, 0, "room")
    target_cases(29, "room")
    edges = Program(0).call(27, 1).asks((28, 0, 0, END0 - 20), (28, 0, 0, END0 - 19), (28, 0, 1, END0),
                                        (29, 0, END0 - 8),
                                        (29, 0, END0 - 7))
    case("call28_29_edge", make(edges, actions={(0, "PARTITION_ERROR"): "IGNORE"}))
    other = Program(0).wait(500).ask(28, 1, 0, "room").show("room", 20).ask(29, 1, "room").show("room", 8)
    case("call28_other", make(other, Program(1).nop(7).put(ILLEGAL)))


def other_calls():
    case("call30_31", make(Program(0).on(INTERRUPT, say_time, back).ready(0)
                           .call(13, 0, 0, 40, 0, 0).wait(30).ask(31, 1).call(13, 0, 0, 100, 0, 0)
                           .ask(30, 1).wait(60).ask(31, 1)))
    case("call31_none",
         make(Program(0).on(INTERRUPT + 5, say_time, back).ready(0).ask(31, 0).ask(31, ALL_ONES).ask(30, ALL_ONES)))
    program = Program(0).string("all", "").ask(32, "four", 0).ask(32, 0, 0).ask(32, "shown", 12).ask(32, "four", 1)
    case("call32", make(program))
    case("call32_edge", refused(32, (start(0), 1025), (start(0) + DATA, 1024), (LAST0 - 4, 4), (LAST0 - 3, 4),
                                (END0 - 2, 4),
                                (LAST0, 0), (ALL_ONES, 2), (0, 1), (0, 1025), (ALL_ONES, 0)))
    text = Program(0).string("marks", "a\\b\n\t\x7f~ \"'<&")
    case("call32_escapes", make(text.show("marks", 13)))
    case("call33", make(Program(0).ask(33, "room").show("room", 4).ask(33, "room").show("room", 4).ask(33, "room"),
                        Program(1).ask(33, "room")),
         inputs={0: [0x2A, 0xDEADBEEF]})
    case("call33_edge", refused(33, (END0 - 3,), (END0 - 4,), (END0 - 4,), (0,), (0,)), inputs={0: [1, 2, 3]})
    case("call33_after_reset", make(Program(0).wait(200).ask(3, 1, 0, 0), Program(1).ask(33, "room").show("room", 4)
                                    .wait(100).call(3, 1, 1, 0)), "--ticks 3000", {1: [1, 2, 3, 4, 5]})
    case("call33_both", make(Program(0).ask(33, "room").show("room", 4), Program(1).ask(33, "room").show("room", 4)),
         inputs={0: [7], 1: [8, 9]})
    unaligned = Program(0)
    for l1, l2 in ((FIRST + 2, FIRST), (FIRST, FIRST + 1), (FIRST + 1, FIRST + 3)):
        unaligned.set(0, "l0").set(l1, "l1").set(l2, "l2").ask(34)
    case("call34_unaligned", make(unaligned))
    gone = Program(0).stack()
    gone.set(1 << 23 | 1 << 5 | 1 << 20, "l0").set("there", "l1").set("behind", "l2").save().restore()
    gone.save().set(1 << 23 | 1 << 20, "l0").set("there", "l1").set("behind", "l2").call(34)
    gone.label("there").nop().label("behind").branch("neg", "yes").nop().show("four", 1).label("yes").show("four", 8)
    case("call34", make(gone))
    fault = Program(0).set(0, "l1").set(0, "l2").nop(3).call(34)
    case("call34_stack_fault", make(fault))
    for action in ("SHUTDOWN", "SUSPEND", "SWITCH_TO_MAINTENANCE", "PARTITION_WARM_RESET", "HYPERVISOR_HALT"):
        fault = Program(0).set(4, "fp").set(0, "l1").set(0, "l2").nop(3).ask(34)
        case(f"call34_{action.lower()}", make(fault, actions={(0, "MEM_PROTECTION"): action}), "--ticks 100")
    unaligned_first = Program(0).set(4, "fp").set(2, "l1").set(0, "l2").ask(34)
    case("call34_unaligned_first", make(unaligned_first))
    psr = Program(0).ask(35, 0xF << 20)
    for condition in ("neg", "e", "vs", "cs"):
        label = f"is {condition}"
        psr.call(35, 0x500000).branch(condition, label).nop().show("four", 1).label(label)
    case("call35", make(psr.ask(35, ALL_ONES).ask(35, 0)))
    tbr = Program(0).on(0x81, say_locals, skip, back).call(35, 32).set("table", "o1").op("add", "o1", 0x7FF, "o1")
    case("call36", make(tbr.call(36, "o1").show_register().put(ticc("a", 1)).ask(1)))
    deep = Program(0).stack()
    for level in range(4):
        deep.set(0x1111 * (level + 1), "l3").save()
    deep.ask(37).call(32, FIRST + STACK, 64)
    for level in range(3):
        deep.call(32, FIRST + STACK - 96 * (level + 1), 64)
    case("call37", make(deep))
    case("call37_nothing", make(Program(0).ask(37)))
    for action in ("HALT", "SHUTDOWN", "SUSPEND", "SWITCH_TO_MAINTENANCE", "PARTITION_COLD_RESET",
                   "HYPERVISOR_WARM_RESET"):
        bad = Program(0).stack().save().save().set(12, "sp").op("save", "g0", 0, "l0").nop(2).call(37).show_register()
        case(f"call37_{action.lower()}", make(bad, actions={(0, "MEM_PROTECTION"): action}), "--ticks 120")
    link_cases()
    unknown = Program(0)
    for number in (0, 39, 40, 100, 0x80000001, ALL_ONES):
        unknown.ask(number)
    case("call_unknown", make(unknown))
    for number, name in enumerate(("system", "plain")):
        # Traps are disabled again before call 31, after which interrupts are no longer masked.
        wild = Program(number).wild(1, 2, 3, 4, 5, 6, 8, 10, 11, 12, 13, 14, 15, 16, 17, 18, 19, 20, 21, 22, 23, 24)
        wild.wild(25, 26, 28, 29, 32, 33, 0, 38, 39, ALL_ONES, 7, 35, 36, 37).call(35, 0).wild(30, 31, 27)
        wild.wild(*[9, 34][1 - number:])
        system = make(*[Program(0), wild][1 - number:], actions={(number, "PARTITION_ERROR"): "IGNORE"})
        case(f"calls_wild_{name}", system, "--ticks 4000")
    case("call09_wild", make(Program(0).wild(9)), "--ticks 100")
    slot = Program(0)
    slot.set(1, "o0").branch("a", "over").put(HYPERCALL).show("four", 4).label("over").show_register()
    slot.set(34, "o0").set(2, "l1").branch("a", "far").put(HYPERCALL).nop(3).label("far").show_register()
    case("call_in_delay_slot", make(slot))
    slot = Program(0).set(4, "fp").set(0, "l1").set(0, "l2").set(34, "o0").branch("a", "far").put(HYPERCALL).nop(3)
    slot.label("far").show_register().show("four", 4)
    case("call34_in_delay_slot", make(slot, actions={(0, "MEM_PROTECTION"): "SHUTDOWN"}))


LINKS = [(0, 0, 1), (3, 0, 1), (0, 1, 0), (7, 1, 0)]  # number, source, destination
SIGNALS = 0xFF << LINK


def hears(number, unmasked=SIGNALS):
    """A partition that tells of each signal."""
    program = Program(number)
    for link in (0, 3, 7):
        program.on(INTERRUPT + LINK + link, say(str(link)), back)
    return program.ready(unmasked)


def link_cases():
    case("call38", make(hears(0).asks((38, 0), (38, 3)), hears(1).asks((38, 7), (38, 0)), links=LINKS))
    case("call38_not_there", make(refused_links(0, 1, 2, 4, 7, 8, 0x103, ALL_ONES), hears(1), links=LINKS))
    case("call38_number_of_another", make(hears(0), refused_links(1, 1, 3, 8), links=LINKS))
    case("call38_without_links", make(refused_links(0, 0), refused_links(1, 0)))
    for name, unmasked in (("lowest_first", SIGNALS), ("masked", 1 << LINK)):
        twice = Program(0).asks((38, 3), (38, 0), (38, 3))
        case(f"call38_{name}", make(twice, hears(1, unmasked).wait(20).ask(31, 1 << LINK + 3), links=LINKS))
    for name, first, last in (
        ("suspended", (4, 1), (5, 1)), ("halted", (2, 1), (3, 1, 1, 0)), ("reset", (38, 0), (3, 1, 1, 0)),
    ):
        case(f"call38_{name}", make(Program(0).asks(first, (38, 3), last), hears(1), links=LINKS))
    slots = [Plan(400, [Slot(0, 100, 1), Slot(100, 50, 0), Slot(150, 50, 1), Slot(200, 200, 0)])]
    for name, unmasked, enabled in (("idle", SIGNALS, True), ("idle_disabled", SIGNALS, False), ("idle_masked", 0, True)):
        sleeper = Program(1).on(INTERRUPT + LINK + 3, say_time, back).ready(unmasked, enabled).call(7)
        say_time(sleeper)
        system = make(Program(0).nop(20).ask(38, 3), sleeper, plans=slots, links=LINKS)
        case(f"call38_{name}", system, "--ticks 900")


    slots = [Plan(900, [Slot(0, 200, 0), Slot(200, 300, 2), Slot(500, 200, 1), Slot(700, 200, 2)])]
    links = [(0, 0, 2), (0, 1, 2), (3, 1, 2)]
    system = make(Program(0).asks((38, 0)), Program(1).asks((38, 0), (38, 3)), hears(2), plans=slots, links=links)
    case("call38_two_sources", system)
    slots = [Plan(3200, [Slot(100 * part, 100, part) for part in range(32)])]
    system = make(hears(0).ask(38, 0), *map(idle_program, range(1, 31)), hears(31).ask(38, 7), plans=slots,
                  links=[(0, 0, 31), (7, 31, 0)])  # fmt: skip
    case("call38_thirty_two", system, "--ticks 6500")


def refused_links(number, *links):
    return Program(number).asks(*[(38, link) for link in links])


def timer_cases():
    def timed(deadline, interval, clock=0, number=0, unmasked=None):
        program = Program(number).on(INTERRUPT + clock, say_time, back)
        program.ready(1 << clock if unmasked is None else unmasked)
        return program.call(13, clock, 0, deadline, 0, interval)
    for name, deadline, interval in (
        ("once", 100, 0), ("short_interval", 100, 60), ("interval_1", 100, 1), ("due_in_gap", 460, 0),
        ("due_in_other_slot", 700, 0), ("due_in_slot_start", 1000, 0), ("due_in_slot_end", 449, 0),
        ("due_behind_slot", 450, 0), ("due_in_other_slot_start", 500, 0), ("due_in_other_slot_end", 949, 0),
        ("due_behind_other_slot", 950, 0), ("past", 1, 0), ("past_interval", 1, 170), ("period_of_frame", 1000, 1000),
        ("longer_than_frame", 300, 1100),
    ):
        case(f"timer_{name}", make(timed(deadline, interval)), "--ticks 2600")
    case("timer_other_partition", make(Program(0), timed(500, 333, number=1)), "--ticks 3000")
    case("timer_own_slot_start", make(Program(0), timed(1500, 0, number=1)), "--ticks 2200")
    case("timer_exec", make(timed(200, 0, 1)), "--ticks 1500")
    case("timer_exec_interval", make(Program(0), timed(200, 200, 1, number=1)), "--ticks 3000")
    case("timer_masked", make(timed(100, 50, unmasked=2).wait(200).call(31, 1)), "--ticks 2000")
    case("timer_disabled", make(timed(100, 50).call(35, 0).wait(200).call(35, 32)), "--ticks 2000")
    case("timer_disarmed", make(timed(200, 50).wait(50).ask(13, 0, 0, 0, 0, 50)), "--ticks 2000")
    case("timer_set_again", make(timed(200, 50).wait(50).call(13, 0, 0, 400, 0, 0)), "--ticks 2000")
    far = Program(0).on(INTERRUPT, say_time, back).ready(1).call(13, 0, 0, 90, 0x7FFFFFFF, ALL_ONES)
    case("timer_interval_past_all", make(far.wait(100)), "--ticks 2000")
    both = Program(0).on(INTERRUPT, say_time, back).on(INTERRUPT + 1, say_time, back).ready(3)
    case("timers_both_due", make(both.call(13, 0, 0, 120, 0, 0).call(13, 1, 0, 120, 0, 0)), "--ticks 1200")
    case("timer_suspended", make(Program(0).wait(1000).ask(5, 1), timed(900, 300, number=1).call(4, 1)), "--ticks 4000")
    due = Program(1).call(13, 0, 0, 900, 0, 300).call(4, 1)
    case("timer_suspended_due", make(Program(0), due))
    CORES["timer_suspended_due"] = 1
    case("timer_halted", make(Program(0).wait(600).ask(3, 1, 1, 0), timed(900, 300, number=1).call(2, 1)),
         "--ticks 4000")
    slot = Program(0).on(INTERRUPT + 5, say_time, back).ready(1 << 5)
    case("slot_interrupt", make(slot), "--ticks 3100")
    two = Program(0).on(INTERRUPT + 5, say_time, back).ready(1 << 5)
    touching = [Plan(200, [Slot(0, 100, 0), Slot(100, 50, 0), Slot(150, 30, 1)])]
    case("slots_touch", make(two, plans=touching), "--ticks 500")
    order = Program(0)
    for number in (0, 1, 2, 5):
        order.on(INTERRUPT + number, say_time, back)
    order.call(13, 0, 0, 40, 0, 0).call(13, 1, 0, 30, 0, 0).call(6, 0).nop(20)
    case("interrupts_in_order", make(order.ready(0x3F)), "--ticks 600")


def idle_cases():
    program = Program(1).call(13, 0, 0, 700, 0, 0).call(31, 1).call(7).show_register()
    say_time(program)
    case("idle_woken_by_timer", make(Program(0), program), "--ticks 1400")
    program = Program(1).call(13, 0, 0, 700, 0, 0).call(7).show_register()
    say_time(program)
    case("idle_not_woken_by_masked_timer", make(Program(0), program), "--ticks 1400")
    program = Program(1).call(13, 0, 0, 1200, 0, 0).call(31, 1).call(7)
    say_time(program)
    case("idle_woken_by_slot_with_timer", make(Program(0), program), "--ticks 2600")
    program = Program(1).ask(7)
    say_time(program)
    case("idle_woken_by_slot", make(Program(0), program), "--ticks 2600")
    program = Program(1).call(13, 1, 0, 50, 0, 0).call(31, 2).call(7)
    say_time(program)
    case("idle_execution_timer", make(Program(0), program), "--ticks 2600")
    for deadline in (11, 12, 13):  # the partition becomes idle with its clock at 12
        program = Program(1).call(31, 2).call(13, 1, 0, deadline, 0, 0).call(7)
        say_time(program)
        case(f"idle_execution_timer_at_{deadline}", make(Program(0), program), "--ticks 1400")
    slots = [Plan(400, [Slot(0, 100, 1), Slot(100, 50, 0), Slot(150, 50, 1), Slot(200, 200, 0)])]
    # A message comes in another's slot, so the sleeper wakes in the first tick of its own.
    for name, unmasked, enabled in (("message", 1 << 4, True), ("message_disabled", 1 << 4, False),
                                    ("masked_message", 0, True)):
        program = with_ports(1).on(INTERRUPT + 4, say_time, back).ready(unmasked, enabled).call(7)
        say_time(program)
        case(f"idle_{name}", make(with_ports(0).nop(20).ask(21, 2, "four", 1), program, plans=slots), "--ticks 900")
    one = [Plan(10000, [Slot(k * 100, 100, k % 2) for k in range(50)])]
    program = Program(1).on(INTERRUPT + 5, say_time, back).ready(1 << 5).call(7).show_register()
    case("idle_woken_with_delivery", make(Program(0), program, plans=one), "--ticks 1000")
    program = Program(1).call(31, 4).call(7)
    say_time(program)
    case("idle_shutdown", make(Program(0).wait(60).ask(6, 1), program, plans=slots), "--ticks 900")
    program = Program(1).call(6, 1).call(31, 4).call(7)
    say_time(program)
    case("idle_with_pending", make(Program(0), program), "--ticks 1400")
    handler = Program(1).on(INTERRUPT, say_time, back).ready(1).call(13, 0, 0, 600, 0, 70)
    handler.label("sleep").call(7).branch("a", "sleep").nop()
    case("idle_loop_with_timer", make(Program(0), handler), "--ticks 2600")


TRAPS = {
    "UNEXPECTED_TRAP": lambda program: program.put(ticc("a", 5)),
    "SPARC_ILLEGAL_INSTRUCTION": lambda program: program.put(ILLEGAL),
    "SPARC_PRIVILEGED_INSTRUCTION": lambda program: program.put(PRIVILEGED),
    "SPARC_FP_DISABLED": lambda program: program.put(FLOAT),
    "SPARC_CP_DISABLED": lambda program: program.put(COPROCESSOR),
    "SPARC_ADDRESS_NOT_ALIGNED": lambda program: program.put(memory("ld", "o1", "g0", 2)),
    "SPARC_TAG_OVERFLOW": lambda program: program.op("taddcctv", "g0", 1, "o1"),
    "SPARC_DIVIDE_EXCEPTION": lambda program: program.op("udiv", "g0", 0, "o1"),
    "SPARC_INSTR_ACCESS": lambda program: program.jmpl("g0", 8).nop(),
    "SPARC_DATA_ACCESS": lambda program: program.put(memory("ldub", "o1", "g0", 1)),
    "MEM_PROTECTION": lambda program: program.put(0x81E80000),
    "PARTITION_ERROR": lambda program: program.call(27, 0xC0DE),
}
TRAP_TYPES = {
    "UNEXPECTED_TRAP": 0x85, "SPARC_ILLEGAL_INSTRUCTION": 2, "SPARC_PRIVILEGED_INSTRUCTION": 3, "SPARC_FP_DISABLED": 4,
    "SPARC_CP_DISABLED": 0x24, "SPARC_ADDRESS_NOT_ALIGNED": 7, "SPARC_TAG_OVERFLOW": 0x0A,
    "SPARC_DIVIDE_EXCEPTION": 0x2A, "SPARC_INSTR_ACCESS": 1, "SPARC_DATA_ACCESS": 9,
}


def health_cases():
    for event, cause in TRAPS.items():
        name = event.lower()
        program = Program(1).set(3, "fp").nop(3)
        cause(program)
        case(f"event_{name}", make(Program(0), program.ask(1)), "--ticks 1000")
        action = "SHUTDOWN" if event in ("MEM_PROTECTION", "SPARC_INSTR_ACCESS") else "IGNORE"
        if event != "SPARC_INSTR_ACCESS":  # what follows there is no instruction, either
            program = Program(1).set(3, "fp").nop(3)
            cause(program)
            passed = make(Program(0), program.ask(1).ask(29, 1, "room").show("room", 8), actions={(1, event): action})
            case(f"event_{name}_passed_over", passed, "--ticks 1000")
    for event, trap in TRAP_TYPES.items():
        program = Program(1).on(trap, say_locals, skip, back).ready()
        if event == "SPARC_INSTR_ACCESS":
            program = Program(1).on(trap, say_locals, stay).ready()
        TRAPS[event](program)
        system = make(Program(0), program.ask(1), actions={(1, event): "PROPAGATE"})
        case(f"propagate_{event.lower()}", system, "--ticks 1000")
    for action in ACTIONS:
        for logged in (True, False):
            program = Program(1).ready(4).on(INTERRUPT + 2, say_time, back).on(2, say_locals, skip, back).nop(5)
            program.put(ILLEGAL)
            program.ask(29, 1, "room").show("room", 8)
            flags = 0xFFF if logged else 0xFFF & ~(1 << E["SPARC_ILLEGAL_INSTRUCTION"])
            system = make(Program(0).nop(10).show("four", 4), program,
                          actions={(1, "SPARC_ILLEGAL_INSTRUCTION"): action}, logged={1: flags})
            length = "--ticks 560" if action.startswith("PARTITION") else "--ticks 1200"
            case(f"action_{action.lower()}_{'logged' if logged else 'silent'}", system, length)
        if action != "PROPAGATE":
            program = Program(0).nop(5).call(27, 0xABC).show_register()
            system = make(program, actions={(0, "PARTITION_ERROR"): action})
            case(f"raised_{action.lower()}", system, "--ticks 30" if "RESET" in action else "--ticks 600")
    disabled = Program(1).on(2, say_locals, stay).ready(enabled=False).put(ILLEGAL)
    case("propagate_disabled_silent", make(Program(0), disabled, logged={1: 0}), "--ticks 800")
    for logged in (0, 0xFFF):
        for stack in (0, 0x44, start(1) + STACK + 4, start(1) + STACK + 8, start(1) + WRITABLE - 32,
                      start(1) + WRITABLE - 64):
            name = f"{logged:03x}_{stack:08x}"
            program = Program(1).on(2, say_locals, skip, back).ready().set(stack, "g2")
            program.mov("g2", "sp").put(*[SAVE_0] * 6).nop(2).put(ILLEGAL).ask(1)
            case(f"propagate_spill_{name}", make(Program(0), program, logged={1: logged}), "--ticks 800")
            program = Program(1).on(INTERRUPT, say_time, back).ready(1).set(stack, "g2")
            program.mov("g2", "sp").put(*[SAVE_0] * 6).call(13, 0, 0, 600, 0, 0).wait(100).ask(1)
            case(f"interrupt_spill_{name}", make(Program(0), program, logged={1: logged}), "--ticks 800")
    same = Program(1).on(INTERRUPT, say_locals, skip, back).ready().call(13, 0, 0, 1, 0, 0).nop(2)
    case("trap_of_an_interrupt_type", make(Program(0), same.put(ticc("a", 0x60)).ask(1).call(31, 1).nop(3).ask(1)),
         "--ticks 900")
    fails = Program(1).on(INTERRUPT, say_time, back).ready(1).set(4, "sp").put(*[SAVE_0] * 6).call(13, 0, 0, 1, 0, 0)
    reads = Program(0).wait(500).ask(29, 1, "room").show("room", 8).ask(28, 1, 0, "room").show("room", 20)
    reads.call(3, 1, 1, 3).ask(8, 1, "room").show("room", 20)
    case("delivery_fails_and_reset", make(reads, fails, logged={1: 0}), "--ticks 2000")
    nested = Program(1).stack()
    nested.on(0x81, say_locals, lambda p: p.call(35, 32).set(TRAP_COUNT, "g4"), nested_step, skip, back)
    nested.ready().set(0, "g3").put(ticc("a", 1)).ask(1)
    case("nested_traps", make(Program(0), nested), "--ticks 2000")
    ring = Program(1).set(70, "l5").label("again").put(ILLEGAL).op("subcc", "l5", 1, "l5").branch("ne", "again").nop()
    ring.call(29, 1, "room").show("room", 8).ask(28, 1, 5, "room").ask(28, 1, 6, "room").show("room", 20)
    ring.ask(28, 1, 69, "room")
    system = make(Program(0), ring, actions={(1, "SPARC_ILLEGAL_INSTRUCTION"): "IGNORE"}, logged={1: 0xFFF})
    case("health_70", system, "--ticks 1200")
    slot = Program(1).branch("a", "far").put(ILLEGAL).nop(4).label("far").ask(1)
    case("passed_over_in_delay_slot", make(Program(0), slot, actions={(1, "SPARC_ILLEGAL_INSTRUCTION"): "IGNORE"}))
    code = Program(1).set(FIRST, "o1").mem("st", "o1", "o1").ask(1)
    case("store_into_other", make(Program(0), code))
    read_only = Program(1).set(END1, "o1").mem("ld", "o2", "o1").mem("swap", "o2", "o1").ask(1)
    case("swap_read_only", make(Program(0), read_only))
    read_only = Program(1).set(END1, "o1").mem("ldstub", "o2", "o1", 3).ask(1)
    case("ldstub_read_only", make(Program(0), read_only))
    run_there = Program(1).set(END1, "o1").jmpl("o1", 0).nop()
    case("jump_into_read_only", make(Program(0), run_there))
    past = Program(1).set(LAST1 - 4, "o1").jmpl("o1", 0).nop()
    case("run_past_the_end", make(Program(0), past, actions={(1, "SPARC_ILLEGAL_INSTRUCTION"): "IGNORE"}))


SAVE_0 = 0x9DE3A000  # save %sp, 0, %sp
TRAP_COUNT = 9


def nested_step(program):
    """The handler raises the same trap again, nine deep, so that windows are spilled and filled."""
    program.op("add", "g3", 1, "g3").op("subcc", "g3", "g4", "g0").branch("ge", "deep enough").nop()
    program.op("add", "fp", -96, "sp").put(ticc("a", 1)).label("deep enough")


def reset_cases():
    for mode, name in ((0, "cold"), (1, "warm")):
        sends = once(with_ports(0),
                     lambda program: program.call(21, 2, "four", 4).call(17, 0, "four", 4).ask(23, 2, "room")
                     .show("room", 8).ask(19, 0, "room").show("room", 16).wait(100).ask(10, mode))
        sends.ask(23, 2, "room").show("room", 8).ask(19, 0, "room").show("room", 16)
        receives = with_ports(1).ask(22, 2, "room", 8).ask(18, 0, "room", 8, "time")
        case(f"reset_of_all_empties_{name}", make(sends, receives), "--ticks 1500", {0: [1]})
        late = once(with_ports(0), lambda program: program.call(21, 2, "four", 4).call(17, 0, "four", 4)
                    .wait(450).ask(10, mode))
        receives = with_ports(1).ask(23, 2, "room").show("room", 8).ask(19, 0, "room").show("room", 16)
        case(f"reset_of_all_empties_later_{name}", make(late, receives), "--ticks 2500", {0: [1]})
        clears = once(Program(0).ready(1).on(INTERRUPT, say_time, back),
                      lambda program: program.call(13, 0, 0, 150, 0, 100).wait(100).ask(10, mode))
        case(f"reset_of_all_disarms_{name}", make(clears, Program(1).call(2, 1)), "--ticks 2500", {0: [1]})
        revives = once(Program(0), lambda program: program.call(2, 1).nop(20).call(10, mode)).ask(1)
        case(f"reset_of_all_revives_{name}", make(revives, Program(1).ask(1)), "--ticks 700", {0: [1]})
        revives = once(Program(0), lambda program: program.wait(470).call(10, mode)).ask(1)
        sleeper = Program(1).ask(1).call(4, 1)
        case(f"reset_of_all_suspended_{name}", make(revives, sleeper), "--ticks 2700", {0: [1]})
        stamps = once(with_ports(0), lambda program: program.wait(100).call(10, mode)).call(24, 1, "four")
        stamps.call(25, 0, 0, "room")
        stamps.show("room", 24).call(27, 5).call(28, 0, 0, "room").show("room", 20).call(17, 0, "four", 4)
        stamps.call(19, 0, "room").show("room", 16).call(12, 0, "time").show("time", 8)
        system = make(stamps, actions={(0, "PARTITION_ERROR"): "IGNORE"})
        case(f"reset_of_all_time_{name}", system, "--ticks 900", {0: [1]})
        sleeper = Program(1).ask(1).call(7).ask(1)
        case(f"reset_of_all_idle_{name}", make(once(Program(0), lambda program: program.wait(470).call(10, mode)),
                                               sleeper),
             "--ticks 2700", {0: [1]})
        keeps = Program(0).wait(480).ask(3, 1, mode, 0x99)
        inner = with_ports(1).call(24, 1, "four").ask(22, 2, "room", 8).call(8, 1, "room").show("room", 20)
        inner.call(26, 1, "room").show("room", 8).call(29, 1, "room").show("room", 8).nop(20).call(27, 3)
        system = make(keeps, inner, actions={(1, "PARTITION_ERROR"): "IGNORE"})
        case(f"reset_keeps_rings_{name}", system, "--ticks 3000")
        program = Program(1).set("shown", "l0").mem("ld", "l1", "l0").op("add", "l1", 1, "l1").mem("st", "l1", "l0")
        program.show("shown").put(ILLEGAL)
        system = make(Program(0), program,
                      actions={(1, "SPARC_ILLEGAL_INSTRUCTION"): f"PARTITION_{name.upper()}_RESET"})
        case(f"resets_itself_by_event_{name}", system, "--ticks 650")
    queue = with_ports(0).call(21, 2, "four", 4).call(21, 2, "four", 2).wait(500).ask(3, 1, 0, 0)
    case("partition_reset_keeps_queue", make(queue, with_ports(1).wait(100).ask(23, 2, "room").show("room", 8)),
         "--ticks 3000")
    lasts = Program(1).put(ILLEGAL)
    system = make(Program(0).call(13, 0, 0, 500, 0, 0), lasts,
                  actions={(1, "SPARC_ILLEGAL_INSTRUCTION"): "HYPERVISOR_HALT"})
    case("halt_in_last_tick", system, "--ticks 501")
    case("halt_just_not_reached", system, "--ticks 500")
    program = Program(0).call(14, 2, "room").call(9)
    case("halt_with_plan_asked", make(program), "--ticks 2000")


def once(program, step):
    """The step is done while there is an input word; used words stay used, whatever is reset."""
    program.call(33, "time").cmp("o0", 0).branch("ne", "once is over").nop()
    return step(program).label("once is over")


def token_ring():
    """Sixteen partitions hand a number on over queues; each adds one and prints it."""
    programs = []
    for number in range(16):
        program = Program(number).string("in", "in").string("out", "out")
        program.call(20, "in", 3, 4, 1).call(20, "out", 3, 4, 0)
        if number == 0:
            program.call(21, 1, "shown", 4)
        program.label("wait").call(22, 0, "room", 4).cmp("o0", 4).branch("ne", "sleep").nop()
        program.set("room", "l0").mem("ld", "l1", "l0").op("add", "l1", 1, "l1").mem("st", "l1", "l0").show("room", 4)
        program.call(21, 1, "room", 4).branch("a", "wait").nop().label("sleep").call(7).branch("a", "wait").nop()
        programs.append(program)
    plan = Plan(1600, [Slot(100 * k, 60 + k, k) for k in range(16)])
    system = make(*programs, plans=[plan])
    for part in system.parts:
        part.ports = [Port("in", QUEUING, DESTINATION), Port("out", QUEUING, SOURCE)]
    system.channels = [Channel(QUEUING, 4, 3, (k, 1), [((k + 1) % 16, 0)]) for k in range(16)]
    return system


OPERANDS = [
    (0, 0), (1, ALL_ONES), (0x7FFFFFFF, 1), (0x80000000, 0x80000000), (ALL_ONES, ALL_ONES), (0x12345678, 0x9ABCDEF0),
    (0x80000000, ALL_ONES), (3, 5), (0xFFFFFFFC, 8), (0x80000001, 31),
]


def operation(name):
    """Each pair of operands, with changing condition codes and Y before: the result, Y and the codes behind it."""
    program = Program(0)
    for number, (a, b) in enumerate(OPERANDS):
        program.call(35, (number * 7 & 15) << 20).set(number * 0x10000001, "o2").put(write_y("o2"))
        program.set(a, "o1").set(b, "o2").op(name, "o1", "o2", "o3").put(read_y("o4")).mov(0, "o5")
        for condition, bit in (("neg", 8), ("e", 4), ("vs", 2), ("cs", 1)):
            program.put(branch(condition, 8, True)).op("or", "o5", bit, "o5")
        program.set("results", "g1")
        for place, rd in enumerate(("o3", "o4", "o5")):
            program.mem("st", rd, "g1", 12 * number + 4 * place)
    return program.show("results", 12 * len(OPERANDS))


def processor_cases():
    ignored = {(0, event): "IGNORE" for event in EVENTS if event not in ("MEM_PROTECTION", "SPARC_INSTR_ACCESS")}
    for name in ARITHMETIC:
        if name in ("jmpl", "flush", "save", "restore"):
            continue
        program = operation(name).string("results", "\0" * 12 * len(OPERANDS), zero=False)
        case(f"op_{name}", make(program, actions=ignored), "--ticks 450")
    program = Program(0).mov(0, "l0").set("room", "l1")
    program.label("again").op("sll", "l0", 20, "o1").set(35, "o0").put(HYPERCALL).mov(0, "l2")
    for number, condition in enumerate(CONDITIONS):
        program.set(1 << number, "o2").put(branch(condition, 8, True)).op("or", "l2", "o2", "l2")
    program.mem("st", "l2", "l1").op("add", "l1", 4, "l1").op("add", "l0", 1, "l0").cmp("l0", 16).branch("ne", "again")
    program.nop()
    case("branches", make(program.show("room", 64)), "--ticks 2000")
    program = Program(0).mov(0, "l0")
    program.label("again").op("sll", "l0", 20, "o1").set(35, "o0").put(HYPERCALL)
    for number, condition in enumerate(CONDITIONS):
        program.put(ticc(condition, number))
    program.op("add", "l0", 1, "l0").cmp("l0", 16).branch("ne", "again").nop()
    case("software_traps", make(program, actions=ignored), "--ticks 2000")
    flow = Program(0).put(branch("n", 12, True)).put(ILLEGAL).show("four", 1).put(branch("a", 12, True))
    flow.put(ILLEGAL, ILLEGAL)
    flow.call_to("routine").mov(1, "o1").store("o1", "room").show("room", 8).branch("a", "last").mov(2, "o1")
    flow.label("routine").store("o7", "time").jmpl("o7", 8).op("add", "o1", 4, "o1").label("last").show("time", 4)
    case("flow", make(flow))
    couple = Program(0).branch("a", "one").branch("a", "two").show("four", 1).label("one").show("four", 2)
    couple.label("two").show("four", 3)
    case("branch_in_delay_slot", make(couple))
    sizes = Program(0).set("four", "l0")
    for name, rd in (("ldub", "o1"), ("ldsb", "o1"), ("lduh", "o1"), ("ldsh", "o1"), ("ld", "o1"), ("ldd", "o2")):
        for place in (0, 1, 2, 4, 8):
            sizes.mov(0, "o1").mem(name, rd, "l0", place).set("room", "l1").mem("st", "o1", "l1")
            sizes.mem("std", "o2", "l1", 8)
            sizes.show("room", 16)
    case("loads", make(sizes, actions=ignored))
    sizes = Program(0).set("room", "l0").set(0x81828384, "o2").set(0x85868788, "o3")
    for name in ("stb", "sth", "st", "std", "ldstub", "swap"):
        for place in (0, 1, 2, 4, 8):
            sizes.set(0x81828384, "o2").set(0x85868788, "o3").mem(name, "o2", "l0", place).store("o2", "time")
            sizes.show("time", 4)
            sizes.show("room", 16)
    case("stores", make(sizes, actions=ignored), "--ticks 4000")
    for name, word in (("instruction", arithmetic("or", "g0", 5, "g5")), ("illegal", ILLEGAL), ("hypercall", HYPERCALL),
                       ("restore", 0x81E80000), ("software_trap", ticc("a", 3))):
        program = Program(0).set(word, "l0").set(arithmetic("or", "g0", 6, "g6"), "l1").set("seventh", "g2")
        program.mov("g2", "sp")
        program.put(*[SAVE_0] * 6).set(1, "o0").align(8).label("seventh").put(SAVE_0).nop(15)
        program.set("shown", "g1").mem("st", "g5", "g1").show("shown", 4).set("shown", "g1").mem("st", "g6", "g1")
        program.show("shown", 4)
        case(f"spill_over_its_own_save_{name}", make(program, actions=ignored), "--ticks 100")
    for write in (True, False):
        program = Program(1).set(END1 - 32, "g2").mov("g2", "sp").put(*[SAVE_0] * 7).put(*[0x81E80000] * 7).nop(3)
        program.ask(1)
        program.call(32, END1 - 32, 64)
        system = make(Program(0), program)
        system.parts[1].areas[1].read_only = not write
        case(f"spill_over_a_border_{'writable' if write else 'read_only'}", system, "--ticks 700")
    program = Program(1).set(0x1234, "i3").set(END1 - 32, "fp").put(0x81E80000).store("o3", "room").show("room", 4)
    case("fill_over_a_border", make(Program(0), program), "--ticks 700")
    for stack in (start(1) + STACK + 4, start(1) + STACK + 8):
        program = Program(1).set(stack, "g2").mov("g2", "sp").put(*[SAVE_0] * 7).ask(1)
        case(f"spill_at_{stack:08x}", make(Program(0), program), "--ticks 700")
        program = Program(1).set(0x1234, "i3").set(stack, "fp").put(0x81E80000).store("o3", "room").show("room", 4)
        case(f"fill_at_{stack:08x}", make(Program(0), program), "--ticks 700")
        program = Program(1).set(stack, "fp").set("there", "l1").set("there", "l2").ask(34).label("there")
        program.show("four", 4)
        case(f"return_fill_at_{stack:08x}", make(Program(0), program), "--ticks 700")
    for seed in range(20):
        case(f"mixed_{seed:02}", mixed(seed), "--ticks 2500")
    for seed in range(40):
        case(f"calls_{seed:02}", mixed_calls(seed), "--ticks 8000", {0: [1, 2, 3], 1: [4, 5]})


def mixed(seed):
    """Instructions of all kinds but transfers, in no order, over registers that are no addresses and some that are."""
    draw = random.Random(seed)
    program = Program(0).stack()
    for r in range(1, 32):
        if r not in (14, 30):
            program.set(draw.choice([draw.getrandbits(32), draw.getrandbits(8), FIRST + DATA + draw.getrandbits(6)]),
                        NAMES[r])
    program.set(FIRST + DATA + 32, "g7")
    while program.here() < FIRST + 0xC00:
        program.put(*some_instruction(draw))
    program.set("room", "g7")
    for r in range(7):
        program.mem("st", f"g{r}", "g7", 4 * r)
    program.put(read_y("g1")).mem("st", "g1", "g7", 28).show("room", 32)
    for bank in "oli":
        program.set("room", "g7")
        for r in range(8):
            if bank != "o" or r > 2:
                program.mem("st", f"{bank}{r}", "g7", 4 * r)
        program.show("room", 32)
    actions = {(0, event): "IGNORE" for event in EVENTS if event not in ("MEM_PROTECTION", "SPARC_INSTR_ACCESS")}
    return make(program, actions=actions | {(0, "MEM_PROTECTION"): "SHUTDOWN"}, plans=[Plan(1000, [Slot(0, 999, 0)])])


NAMES = [f"{bank}{r}" for bank in "goli" for r in range(8)]


def some_instruction(draw):
    """Few of them change the stack and frame pointers or the register that points to the data."""
    kind = draw.random()
    rd = draw.choice([r for r in range(32) if r not in (7, 14, 30)] if draw.random() < 0.97 else range(32))
    rs1, rs2 = draw.randrange(32), draw.randrange(32)
    second = draw.choice([rs2, 1 << 13 | draw.getrandbits(13), 1 << 13 | draw.getrandbits(3)])
    if kind < 0.5:
        selector = draw.choice([*ARITHMETIC.values(), 0x28, 0x30])
        if selector in (0x38, 0x3C, 0x3D):
            selector = 0x00
        if selector == 0x28:
            rs1 = draw.choice([0, 0, 0, 15, 4])
        if selector == 0x30:
            rd = draw.choice([0, 0, 0, 4])
        return [2 << 30 | rd << 25 | selector << 19 | rs1 << 14 | second]
    if kind < 0.75:
        selector = draw.choice(list(MEMORY.values()))
        rs1, second = draw.choice([(7, 1 << 13 | draw.getrandbits(5)), (7, 1 << 13 | 8 * draw.getrandbits(2)),
                                   (rs1, second)])
        return [3 << 30 | rd << 25 | selector << 19 | rs1 << 14 | second]
    if kind < 0.85:
        return [draw.choice([arithmetic("save", "sp", -96, "sp"), arithmetic("restore", "g0", "g0", "g0"),
                             arithmetic("save", "sp", -64, "sp"), arithmetic("restore", "l1", "o2", "o3")])]
    if kind < 0.93:
        return [branch(draw.choice(CONDITIONS), draw.choice([8, 12]), draw.random() < 0.5),
                *[0x80000000 | draw.randrange(1, 6) << 25 | 3 << 14 | 1] * 2]
    if kind < 0.96:
        return [ticc(draw.choice(CONDITIONS), draw.randrange(0, 0x60))]
    word = draw.getrandbits(32)
    return [word] if word >> 30 not in (0, 1) and word >> 19 & 0x3F not in (0x38, 0x3A) else [sethi(word, "l3")]


def mixed_calls(seed):
    """Two partitions that make hypercalls with arguments at the edges, whatever comes of them."""
    draw = random.Random(1000 + seed)
    programs = []
    for number in range(2):
        program = with_ports(number)
        for interrupt in range(6):
            program.on(INTERRUPT + interrupt, back)
        program.on(0x85, skip, back)
        program.stack().ready(draw.choice([0, 0x3F, 0x18, 1]), draw.random() < 0.7)
        places = ["room", "four", "shown", program.end - 8, program.end - 7, program.end - 24, program.last - 8,
                  program.last - 4, 0]
        while program.here() < program.base + 0xF00:
            call = draw.choice([*range(1, 40), 12, 17, 18, 19, 21, 22, 23, 21, 22, 17, 18, 24, 25, 26, 28, 29, 30, 31,
                                13, 13])
            # Calls that end much are rare; a return from a trap and another trap table would end in nothing.
            if call in (34, 36) or call in (2, 9, 10) and draw.random() < 0.9 or call == 3 and draw.random() < 0.4:
                continue
            arguments = sensible(draw, call, number, places, program)
            program.ask(call, *arguments)
            if draw.random() < 0.05:
                program.put(ticc("a", 5))
        programs.append(program)
    actions = {(number, event): draw.choice(["IGNORE", "IGNORE", "IGNORE", "SHUTDOWN", "PARTITION_WARM_RESET",
                                             "SWITCH_TO_MAINTENANCE"])
               for number in (0, 1) for event in ("PARTITION_ERROR", "UNEXPECTED_TRAP")}
    actions |= {(number, "MEM_PROTECTION"): draw.choice(["SHUTDOWN", "PARTITION_COLD_RESET"]) for number in (0, 1)}
    return make(*programs, actions=actions)


def sensible(draw, call, number, places, program):
    """Arguments that a call often takes, and some that it never does."""
    some = lambda *values: draw.choice(values)
    place = lambda: draw.choice(places)
    if draw.random() < 0.1:
        return [some(0, 1, 2, 3, ALL_ONES, 1 << 31, place()) for _ in range(5)]
    target = some(0, 1, 1 - number, 1 - number, number, 2)
    made = some(0, 1, 2, 3)
    shapes = {
        2: [1 - number], 3: [target, some(0, 1, 1, 2), draw.getrandbits(9)], 4: [1 - number], 5: [target], 6: [target],
        8: [target, place()], 10: [some(0, 1, 2)], 11: [place()], 12: [some(0, 1, 2), place()],
        13: [some(0, 0, 1, 2), some(0, 0, 0, 1 << 31), draw.randrange(0, 6000), 0, some(0, 7, 50, 333, 1000)],
        14: [some(0, 1, 2, 3), place()], 15: [place()], 16: ["s name", 8, some(0, 1)], 17: [some(0, 1), place(),
                                                                                            some(1, 4, 8, 9)],
        18: [some(0, 1), place(), some(8, 8, 4), place()], 19: [made, place()], 20: ["q name", 2, 8, some(0, 1)],
        21: [some(2, 3), place(), some(1, 4, 8, 9)], 22: [some(2, 3), place(), some(8, 8, 4)], 23: [made, place()],
        24: [some(1, 0x80, 0x100, 0), place()], 25: [target, some(0, 1, 2, 3), place()], 26: [target, place()],
        27: [draw.getrandbits(16)], 28: [target, some(0, 1, 2, 3), place()], 29: [target, place()],
        30: [some(0, 1, 8, 16, 32)], 31: [some(0, 1, 8, 16, 32, 0x3F)], 32: [place(), some(0, 4, 8, 1024, 1025)],
        33: [place()], 35: [some(0, 32, 32, 0xF00020)], 36: ["table"],
    }
    return shapes.get(call, [])


def wide_system(second):
    """One partition over both ends of all addresses; it runs from the last ones into the first ones."""
    first = Guest(0xFFFFFFE0).put(arithmetic("or", "g0", 1, "g3")).nop(6).put(arithmetic("add", "g3", 1, "g3"))
    second.space(8)
    segments = [Segment(0, second.bytes()), Segment(0xFFFFFFE0, first.bytes())]
    part = Part("wide", [Area(0, 4096), Area(0xFFFFF000, 4096)], Image(0xFFFFFFE0, segments, second), console=0)
    regions = [(0x40000000, 4096), (0, 4096), (0xFFFFF000, 4096)]
    return System("wide", regions, 4096, [Plan(500, [Slot(0, 500, 0)])], [part], ["A"])


def size_cases():
    wide = Guest(0).store("g3", "shown").show("shown", 4)
    for address, size in ((0xFFFFFFFC, 4), (0xFFFFFFFC, 5), (0xFFFFFFFC, 8), (0, 4), (4092, 4), (4093, 4), (0, 0)):
        wide.call(32, address, size).show_register()
    wide.mem("ld", "o1", "g0", -4).store("o1", "shown").show("shown", 4).branch("a", "end").nop().label("shown").word(0)
    case("both_ends", wide_system(wide.label("end").loop()), "--ticks 300")
    for stack in (0xFFFFFFC0, 0xFFFFFFE0, 0xFFFFFFF8):
        wide = Guest(0).set(stack, "g2").mov("g2", "sp").put(*[SAVE_0] * 7).nop(2).show("shown", 4).branch("a", "end")
        wide.nop()
        wide.label("shown").text("here").label("end").loop()
        case(f"spill_at_{stack:08x}", wide_system(wide), "--ticks 100")
    sender = Program(0).string("out", "out").call(20, "out", 64, 4, 0).set(65, "l5").label("again")
    sender.set("shown", "g1").mem("st", "l5", "g1").call(21, 0, "shown", 4).op("subcc", "l5", 1, "l5")
    sender.branch("ne", "again")
    sender.nop().show_register().call(23, 0, "room").show("room", 8)
    receiver = Program(1).string("in", "in").call(20, "in", 64, 4, 1).label("again").call(22, 0, "room", 4).cmp("o0", 4)
    receiver.branch("ne", "empty").nop().show("room", 4).branch("a", "again").nop().label("empty").show_register()
    system = make(sender, receiver, plans=[Plan(4000, [Slot(0, 2000, 0), Slot(2000, 2000, 1)])])
    system.parts[0].ports, system.parts[1].ports = [Port("out", QUEUING, SOURCE)], [Port("in", QUEUING, DESTINATION)]
    system.channels = [Channel(QUEUING, 4, 64, (0, 0), [(1, 0)])]
    case("queue_of_64", system, "--ticks 9000")
    sender = Program(0).string("out", "out").call(20, "out", 2, 4096, 0).ask(21, 0, FIRST + DATA, 4096)
    sender.ask(21, 0, FIRST + DATA + 1, 4096).ask(21, 0, FIRST, 4097)
    receiver = Program(1).string("in", "in").call(20, "in", 2, 4096, 1).ask(22, 0, "room", 4095)
    receiver.ask(22, 0, END1 - 4096, 4096).call(32, END1 - 4096, 16).ask(22, 0, END1 - 4097, 5000)
    receiver.call(32, END1 - 4097, 16)
    system = make(sender, receiver)
    system.parts[0].ports, system.parts[1].ports = [Port("out", QUEUING, SOURCE)], [Port("in", QUEUING, DESTINATION)]
    system.channels = [Channel(QUEUING, 4096, 2, (0, 0), [(1, 0)])]
    case("messages_of_4096", system)
    case("sampling_to_16", sampling_to_16(), "--ticks 4000")
    case("ports_32", ports_32(), "--ticks 3000")


def sampling_to_16():
    """One source and a destination in each partition, the source's own among them; each prints what it reads."""
    programs = []
    for number in range(16):
        program = Program(number).string("in", "in").string("out", "out").call(16, "in", 4, 1)
        program.on(INTERRUPT + 3, lambda p: p.call(18, 0, "room", 4, "time").show("room", 4).show("time", 4), back)
        program.ready(8)
        if number == 15:
            program.call(16, "out", 4, 0).label("again").set("four", "l0").mem("ld", "l1", "l0")
            program.op("add", "l1", 1, "l1")
            program.mem("st", "l1", "l0").call(17, 1, "four", 4).wait(60).branch("a", "again").nop()
        programs.append(program)
    system = make(*programs, plans=[Plan(1600, [Slot(100 * k, 100, k) for k in range(16)])])
    for part in system.parts:
        part.ports = [Port("in", SAMPLING, DESTINATION), Port("out", SAMPLING, SOURCE)]
    system.channels = [Channel(SAMPLING, 4, 300, (15, 1), [(k, 0) for k in range(16)])]
    return system


def ports_32():
    """All ports that a partition may have, in channels of its own, with names of all lengths."""
    program = Program(0)
    for port in range(32):
        name = "p" * (port % 16 + 1) + "q" * (port // 16)
        program.string(f"name {port}", name)
        if port % 2:
            program.call(20, f"name {port}", 1, 8, port // 2 % 2)
        else:
            program.call(16, f"name {port}", 8, port // 2 % 2)
        if port % 4 == 3:
            program.call(21, port - 2, "four", port // 4 + 1).call(22, port, "room", 8).show("room", 8)
    system = make(program, plans=[Plan(1000, [Slot(0, 1000, 0)])])
    system.parts[0].ports = [
        Port(program.strings[f"name {port}"][0], QUEUING if port % 2 else SAMPLING, port // 2 % 2) for port in range(32)
    ]
    system.channels = []
    for port in range(0, 32, 4):
        system.channels.append(Channel(SAMPLING, 8, 0, (0, port), [(0, port + 2)]))
        system.channels.append(Channel(QUEUING, 8, 1, (0, port + 1), [(0, port + 3)]))
    return system


def counts(number):
    """It counts in its memory how often it began, and prints that."""
    program = Program(number).set("shown", "l0").mem("ld", "l1", "l0").op("add", "l1", 1, "l1").mem("st", "l1", "l0")
    return program.show("shown")


def tells():
    """Partition 0 counts, and prints its status and the system's."""
    return counts(0).call(8, 0, "room").show("room", 20).call(11, "room").show("room", 8)


def between(name, system, length, *resets, inputs=None):
    """A case with resets between its ticks, in their order; there is no command for them."""
    case(f"between_{name}", system, length, inputs)
    RESETS[f"between_{name}"] = resets


def between_cases():
    for mode, name in ((0, "cold"), (1, "warm")):
        between(f"own_{name}", make(tells()), "--ticks 700", (100, 0, mode, 7), (200, 0, mode, ALL_ONES))
        between(f"halted_{name}", make(Program(0), counts(1).call(2, 1)), "--ticks 2000", (970, 1, mode, 9))
        between(f"suspended_{name}", make(Program(0), counts(1).call(4, 1).show("four")), "--ticks 700", (600, 1, mode, 0))
        between(f"idle_{name}", make(Program(0), counts(1).call(7).show("four")), "--ticks 1600", (948, 1, mode, 0))
        sends = once(with_ports(0), lambda program: program.call(21, 2, "four", 4).call(17, 0, "four", 4))
        sends.ask(23, 2, "room").show("room", 8).ask(19, 0, "room").show("room", 16)
        receives = with_ports(1).ask(22, 2, "room", 8).ask(18, 0, "room", 8, "time")
        system = make(sends, receives)
        between(f"all_messages_{name}", system, "--ticks 1500", (470, None, mode, 0), inputs={0: [1]})
        between(f"part_messages_{name}", system, "--ticks 1500", (470, 0, mode, 0), (480, 1, mode, 0), inputs={0: [1]})
        between(f"all_status_{name}", make(tells(), counts(1)), "--ticks 1700", (450, None, mode, 0), (700, None, 1, 0))
        between(f"all_plans_{name}", make(tells().call(14, 2, "room").call(15, "room").show("room", 20)), "--ticks 2600",
                (600, None, mode, 0), (1700, None, mode, 0))
        keeps = Program(0).call(24, 1, "four").call(27, 5).call(26, 0, "room").show("room", 8)
        keeps.call(29, 0, "room").show("room", 8).call(28, 0, 1, "room").show("room", 20)
        keeps.call(12, 0, "time").show("time", 8).call(12, 1, "time").show("time", 8)
        system = make(keeps, actions={(0, "PARTITION_ERROR"): "IGNORE"})
        between(f"all_rings_{name}", system, "--ticks 900", (300, None, mode, 0))
        between(f"part_rings_{name}", system, "--ticks 900", (300, 0, mode, 0))
        arms = once(Program(0).ready(3).on(INTERRUPT, say_time, back).on(INTERRUPT + 1, say_time, back),
                    lambda program: program.call(13, 0, 0, 150, 0, 100).call(13, 1, 0, 170, 0, 0))
        system = make(arms)
        between(f"all_timers_{name}", system, "--ticks 900", (200, None, mode, 0), inputs={0: [1]})
        between(f"part_timers_{name}", system, "--ticks 900", (200, 0, mode, 0), inputs={0: [1]})
    starts = Program(1).on(INTERRUPT + 5, say_time, back).ready(32)
    between("slot_start", make(Program(0), starts), "--ticks 2700", (500, 1, 1, 0), (1499, 1, 1, 0), (1500, 1, 1, 0))
    between("other_slot", make(tells(), counts(1)), "--ticks 1100", (700, 0, 1, 3))
    between("tick_0", make(tells(), counts(1)), "--ticks 700", (0, 1, 1, 4), (0, None, 1, 0), (0, 0, 1, 5))
    between("same_tick", make(tells(), counts(1)), "--ticks 1200", (300, 0, 0, 5), (300, None, 1, 0), (300, 0, 1, 6))
    between("after_halt", make(counts(0).wait(50).call(9)), "--ticks 300", (30, 0, 1, 1), (200, 0, 0, 2))
    windows = Program(0).stack().call_to("deep").nop().loop().label("deep")
    windows.save().op("add", "g2", 1, "g2").op("subcc", "g2", 20, "g0").branch("ne", "deep").nop().show("four")
    between("windows", make(windows), "--ticks 300", (40, 0, 1, 0))


# Upsets. Window 7 is the current one at first: its outs are w112 to w119, its locals w120 to w127.


def out(number):
    return f"w{112 + number}"


def local(number):
    return f"w{120 + number}"


def byte(address):
    return f"{address:08x}"


def bit_of(address, bit):
    """A bit of the word at an address, as a byte and its bit."""
    return f"{byte(address + 3 - bit // 8)} {bit % 8}"


def place_of(label, number=0):
    """The address of a name that every partition's memory has."""
    program = Program(number)
    program.image()
    return program.labels[label]


def upset(name, system, length, *lines, core=None, inputs=None):
    """A case with the lines of a file of upsets, and the partition whose core file it has, too."""
    case(f"upset_{name}", system, length, inputs)
    UPSETS[f"upset_{name}"] = "".join(f"{line}\n" for line in lines)
    if core is not None:
        CORES[f"upset_{name}"] = core


# Each place with its first and its last bit.
PLACES = [
    ("g1", 0, 31), ("g7", 0, 31), ("w0", 0, 31), ("w127", 0, 31), ("pc", 2, 31), ("npc", 2, 31), ("y", 0, 31), ("icc", 0, 3),
    ("hw", 0, 62), ("exec", 0, 62), ("tbr", 12, 31), ("mask", 0, 31), ("pending", 0, 31),
    *[(byte(address), 0, 7) for address in (start(1), END1 - 1, END1, LAST1 - 1)],
]


def place_upsets():
    """Of a partition that waits for its slot: the core file has all that the upset changed."""
    waits = make(Program(0), Program(1))
    flips = [f"1 {place} {bit}" for place, *bits in PLACES for bit in bits]
    for line in flips:
        _, place, bit = line.split()
        upset(f"place_{place}_{bit}", waits, "--ticks 20", f"10 {line}", core=1)
    upset("places_all", waits, "--ticks 20", *[f"10 {line}" for line in flips], core=1)
    upset("places_twice", waits, "--ticks 20", *[f"10 {line}" for line in [*flips, *flips]], core=1)
    in_slot = [f"600 {line}" for line in flips if "pc" not in line]
    upset("places_in_slot", waits, "--ticks 700", *in_slot, core=1)


def counting(number=0):
    """It adds 1 to %l1 and prints it, in rounds of nine ticks: the ADD is the partition's third word, and the call its ninth."""
    program = Program(number).set("shown", "l0").label("again").op("add", "l1", 1, "l1").mem("st", "l1", "l0")
    return program.show("shown").branch("a", "again").nop()


ADD = FIRST + 8  # in ticks 2, 11, 20, 29 and so on
DELAY = FIRST + 40


def instruction_upsets():
    """Bit 21 of an ADD makes it a SUB, 13 its number a register, 30 a load, and 31 no instruction; 24 makes none of a NOP."""
    counts = make(counting())
    upset("add_to_sub", counts, "--ticks 60", f"18 0 {bit_of(ADD, 21)}", core=0)
    upset("add_to_sub_in_its_tick", counts, "--ticks 60", f"20 0 {bit_of(ADD, 21)}")
    upset("add_to_sub_in_the_tick_after", counts, "--ticks 60", f"21 0 {bit_of(ADD, 21)}")
    upset("add_to_sub_and_back", counts, "--ticks 60", f"18 0 {bit_of(ADD, 21)}", f"30 0 {bit_of(ADD, 21)}", core=0)
    upset("add_before_its_first_tick", counts, "--ticks 60", f"0 0 {bit_of(ADD, 1)}")
    upset("operand", counts, "--ticks 60", f"18 0 {bit_of(ADD, 0)}")
    upset("operand_to_a_register", counts, "--ticks 60", f"18 0 {bit_of(ADD, 13)}")
    upset("destination", counts, "--ticks 60", f"18 0 {bit_of(ADD, 26)}", core=0)
    upset("to_a_load", counts, "--ticks 60", f"18 0 {bit_of(ADD, 30)}")
    upset("to_no_instruction", counts, "--ticks 60", f"18 0 {bit_of(ADD, 31)}")
    upset("delay_slot_to_no_instruction", counts, "--ticks 60", f"18 0 {bit_of(DELAY, 24)}")
    passes = make(counting(), actions={(0, "SPARC_ILLEGAL_INSTRUCTION"): "IGNORE"})
    upset("to_no_instruction_passed_over", passes, "--ticks 60", f"18 0 {bit_of(ADD, 31)}", f"30 0 {bit_of(ADD, 31)}")
    for mode, action in (("warm", "PARTITION_WARM_RESET"), ("cold", "PARTITION_COLD_RESET")):
        resets = make(counting(), actions={(0, "SPARC_ADDRESS_NOT_ALIGNED"): action})
        upset(f"to_a_load_and_{mode}_reset", resets, "--ticks 60", f"18 0 {bit_of(ADD, 30)}", core=0)
    far = Program(0).set("shown", "l0").set("read-only", "l2").label("again").jmpl("l2", 0, "o7").nop().mem("st", "l1", "l0")
    far.show("shown").branch("a", "again").nop()
    far.read_only = [arithmetic("add", "l1", 1, "l1"), arithmetic("jmpl", "o7", 8, "g0"), sethi(0, "g0")]
    upset("read_only_instruction", make(far), "--ticks 60", f"30 0 {bit_of(END0, 21)}", core=0)


def register_upsets():
    counts = make(counting())
    upset("register", counts, "--ticks 60", f"18 0 {local(1)} 8", f"37 0 {local(1)} 31")
    upset("pointer", counts, "--ticks 60", f"18 0 {local(0)} 6", core=0)
    upset("pointer_at_an_odd_byte", counts, "--ticks 60", f"18 0 {local(0)} 0")
    upset("pointer_out_of_the_area", counts, "--ticks 60", f"18 0 {local(0)} 16")
    upset("both_program_counters", counts, "--ticks 60", "20 0 pc 2", "20 0 npc 3")
    upset("pc_out_of_the_area", counts, "--ticks 60", "20 0 pc 31")
    upset("npc_out_of_the_area", counts, "--ticks 60", "20 0 npc 31")
    upset("number_of_a_call", counts, "--ticks 60", f"26 0 {out(0)} 0")
    for bit, clear in enumerate(("cc", "vc", "ne", "pos")):
        waits = Program(0).op("orcc", "g0", 1, "g1").label("again").branch(clear, "again").nop().show("four")
        upset(f"condition_{bit}", make(waits), "--ticks 40", f"20 0 icc {bit}", core=0)
    read = Program(0).set("shown", "l0").label("again").put(read_y("l1")).mem("st", "l1", "l0").show("shown")
    upset("y", make(read.branch("a", "again").nop()), "--ticks 60", "15 0 y 0", "40 0 y 31")
    stores = Program(0).set(5, "g7").set("room", "l0").label("again").mem("st", "g1", "l0").mem("st", "g7", "l0", 4)
    system = make(stores.show("room", 8).branch("a", "again").nop())
    upset("globals", system, "--ticks 60", "15 0 g7 0", "15 0 g7 1", "40 0 g7 31", "40 0 g1 0")


def deep():
    """Ten windows deep and back, a SAVE every eight ticks from tick 6 on: the seventh, in tick 54, spills window 7. On its way
    back each prints its number."""
    program = Program(0).stack().call_to("deep").nop().loop().label("deep").save().op("add", "g2", 1, "g2").mov("g2", "l0")
    program.cmp("g2", 10).branch("e", "back").nop().call_to("deep").nop()
    program.label("back").set("shown", "g1").mem("st", "l0", "g1").show("shown").jmpl("i7", 8)
    return program.restore()


def window_upsets():
    system = make(deep())
    upset("stack_pointer", system, "--ticks 300", f"8 0 {out(6)} 6", core=0)
    upset("stack_pointer_in_the_tick_of_the_spill", system, "--ticks 300", f"54 0 {out(6)} 6", core=0)
    upset("stack_pointer_at_an_odd_word", system, "--ticks 300", f"8 0 {out(6)} 2", core=0)
    upset("stack_pointer_out_of_the_area", system, "--ticks 300", f"8 0 {out(6)} 20", core=0)
    # In tick 100 the windows of the first three rounds are spilled. The frame pointer of the fourth is %o6 of window 4.
    upset("frame_pointer", system, "--ticks 300", "100 0 w70 6", core=0)
    upset("frame_pointer_at_an_odd_word", system, "--ticks 300", "100 0 w70 2", core=0)
    upset("frame_pointer_out_of_the_area", system, "--ticks 300", "100 0 w70 20", core=0)
    upset("saved_window", system, "--ticks 300", f"100 0 {bit_of(FIRST + STACK - 96, 0)}", core=0)
    upset("window_before_its_spill", system, "--ticks 300", "50 0 w104 4", core=0)
    upset("return_address", system, "--ticks 300", f"100 0 {out(7)} 2", core=0)


def interrupt_upsets():
    """Interrupt 7, which nothing else raises."""
    hears = lambda unmasked=1 << 7, enabled=True: Program(1).on(INTERRUPT + 7, say_time, back).ready(unmasked, enabled)
    open_one, masked = make(Program(0), hears()), make(Program(0), hears(0))
    upset("pending", open_one, "--ticks 700", "600 1 pending 7", core=1)
    upset("pending_in_other_slot", open_one, "--ticks 1700", "1200 1 pending 7")
    upset("pending_in_a_gap", open_one, "--ticks 1700", "970 1 pending 7")
    upset("pending_masked", masked, "--ticks 700", "600 1 pending 7", core=1)
    upset("pending_disabled", make(Program(0), hears(enabled=False)), "--ticks 700", "600 1 pending 7", core=1)
    upset("pending_and_unmasked", masked, "--ticks 700", "600 1 pending 7", "620 1 mask 7")
    upset("unmasked_and_pending", masked, "--ticks 700", "600 1 mask 7", "600 1 pending 7")
    upset("masked_and_pending", open_one, "--ticks 700", "600 1 mask 7", "600 1 pending 7", core=1)
    upset("pending_twice", open_one, "--ticks 700", "600 1 pending 7", "600 1 pending 7", core=1)
    both = hears(1 << 7 | 1 << 9).on(INTERRUPT + 9, say("nine"), back)
    upset("pending_two", make(Program(0), both), "--ticks 700", "600 1 pending 9", "600 1 pending 7")
    last = Program(1).on(INTERRUPT + 31, say_time, back).ready()
    upset("pending_31", make(Program(0), last), "--ticks 700", "600 1 mask 31", "600 1 pending 31")
    slots = make(Program(0), Program(1).on(INTERRUPT + 5, say_time, back).ready(1 << 5))
    upset("pending_slot_start", slots, "--ticks 1700", "1499 1 pending 5", "1500 1 pending 5")
    upset("pending_slot_start_after_it", slots, "--ticks 1700", "1501 1 pending 5")
    table = start(1) + TABLE
    upset("table", open_one, "--ticks 700", "590 1 tbr 12", "600 1 pending 7")
    upset("table_out_of_the_area", open_one, "--ticks 700", "590 1 tbr 31", "600 1 pending 7")
    upset("table_back_in_time", open_one, "--ticks 700", "590 1 tbr 31", "600 1 pending 7", "600 1 tbr 31")
    upset("entry_of_the_table", open_one, "--ticks 700", f"590 1 {bit_of(table + 16 * (INTERRUPT + 7), 23)}", "600 1 pending 7")
    upset("handler", open_one, "--ticks 700", f"590 1 {bit_of(start(1) + HANDLERS, 24)}", "600 1 pending 7")


def timer_upsets():
    hears = lambda: Program(1).on(INTERRUPT, say_time, back).on(INTERRUPT + 1, say_time, back).ready(3)
    none = make(Program(0), hears())
    armed = lambda clock, deadline, interval: make(Program(0), hears().call(13, clock, 0, deadline, 0, interval))
    upset("timer_armed_in_the_past", none, "--ticks 1000", "600 1 hw 9", core=1)
    upset("timer_armed_for_later", none, "--ticks 1700", "600 1 hw 10", "600 1 hw 9", core=1)
    upset("timer_armed_for_its_tick", none, "--ticks 1000", "768 1 hw 9", "768 1 hw 8")
    upset("timer_armed_far_away", none, "--ticks 1000", "600 1 hw 62", core=1)
    upset("timer_disarmed", armed(0, 640, 100), "--ticks 1000", "600 1 hw 7", "600 1 hw 9", core=1)
    upset("timer_disarmed_and_armed", armed(0, 640, 100), "--ticks 1000", *[f"600 1 hw {bit}" for bit in (7, 9, 7, 9)], core=1)
    upset("timer_sooner", armed(0, 640, 0), "--ticks 700", "600 1 hw 7", core=1)
    upset("timer_later", armed(0, 640, 0), "--ticks 1700", "600 1 hw 10")
    upset("timer_with_interval", armed(0, 640, 100), "--ticks 1000", "600 1 hw 5", core=1)
    upset("timer_due_in_its_tick", armed(0, 640, 0), "--ticks 700", "640 1 hw 10", core=1)
    upset("timer_due_in_the_tick_before", armed(0, 640, 100), "--ticks 1000", "641 1 hw 2", core=1)
    upset("timer_in_other_slot", armed(0, 640, 0), "--ticks 1700", "600 1 hw 10", "1200 1 hw 7", core=1)
    upset("execution_timer_armed", none, "--ticks 700", "550 1 exec 6", core=1)
    upset("execution_timer_armed_in_other_slot", none, "--ticks 1700", "1200 1 exec 8", core=1)
    upset("execution_timer_sooner", armed(1, 80, 25), "--ticks 700", "550 1 exec 4", core=1)
    upset("execution_timer_disarmed", armed(1, 64, 25), "--ticks 700", "550 1 exec 6", core=1)


def memory_upsets():
    four = place_of("four")
    shows = make(Program(0).label("again").show("four", 4).branch("a", "again").nop())
    upset("byte", shows, "--ticks 60", f"20 0 {byte(four)} 0", f"20 0 {byte(four + 3)} 7", f"40 0 {byte(four)} 0")
    far = Program(0).set("read-only", "l0").label("again").call(32, "l0", 4).branch("a", "again").nop()
    far.read_only = [0x61626364]
    upset("read_only_byte", make(far), "--ticks 60", f"20 0 {byte(END0)} 1", f"40 0 {byte(END0 + 3)} 1", core=0)
    sends = with_ports(0).label("again").ask(21, 2, "four", 4).wait(40).branch("a", "again").nop()
    takes = with_ports(1).label("again").ask(22, 2, "room", 8).show("room", 8).wait(30).branch("a", "again").nop()
    messages = make(sends, takes)
    upset("byte_of_a_message", messages, "--ticks 2000", f"60 0 {byte(four)} 0")
    upset("byte_of_a_message_that_is_sent", messages, "--ticks 2000", f"480 0 {byte(four)} 0")
    upset("byte_of_a_message_that_is_taken", messages, "--ticks 2000", f"592 1 {byte(place_of('room', 1))} 1")
    wide = Guest(0).loop()
    upset("bytes_at_both_ends", wide_system(wide), "--ticks 100", "50 0 ffffffff 0", "50 0 00000000 7", core=0)


def state_upsets():
    """Of partitions that are halted, suspended or idle: in a slot of their own, in one of the other, and in a gap."""
    flips = ["g1 0", f"{local(0)} 31", "pending 0", "mask 0", "hw 10", "exec 1", f"{byte(place_of('four', 1))} 5", "pc 31", "tbr 31"]
    for state, call in (("halted", 2), ("suspended", 4)):
        for place, tick in (("own_slot", 600), ("other_slot", 1100), ("gap", 970)):
            lines = [f"{tick} 1 {line}" for line in flips]
            upset(f"{state}_in_{place}", make(Program(0), Program(1).call(call, 1)), "--ticks 1700", *lines, core=1)
    sleeps = lambda unmasked=0: make(Program(0), says_time((Program(1).call(31, unmasked) if unmasked else Program(1)).call(7)))
    for place, tick in (("own_slot", 600), ("other_slot", 1100), ("gap", 970)):
        upset(f"idle_in_{place}", sleeps(), "--ticks 1700", *[f"{tick} 1 {line}" for line in flips[:-2]], core=1)
    upset("idle_is_woken", sleeps(1 << 7), "--ticks 700", "600 1 pending 7", core=1)
    upset("idle_is_not_woken", sleeps(), "--ticks 700", "600 1 pending 7", core=1)
    upset("idle_is_woken_by_what_waited", sleeps(), "--ticks 700", "550 1 pending 7", "600 1 mask 7")
    upset("idle_is_woken_by_the_slot_that_began", sleeps(), "--ticks 700", "600 1 mask 5")
    upset("idle_is_woken_by_a_timer", sleeps(1), "--ticks 700", "600 1 hw 9", "600 1 hw 7", core=1)
    upset("idle_has_no_execution_clock", sleeps(2), "--ticks 900", "600 1 exec 4", core=1)
    upset("idle_in_the_last_tick_of_a_slot", sleeps(1 << 7), "--ticks 1700", "949 1 pending 7", core=1)
    upset("idle_after_the_last_tick_of_a_slot", sleeps(1 << 7), "--ticks 1700", "950 1 pending 7", core=1)
    hears = lambda bit: Program(1).on(INTERRUPT + bit, say_time, back).ready(1 << bit).call(4, 1).ask(1)
    resumes = lambda: Program(0).wait(470).ask(5, 1)
    upset("suspended_and_resumed", make(resumes(), hears(7)), "--ticks 1700", "700 1 pending 7", core=1)
    upset("suspended_with_a_timer", make(resumes(), hears(0)), "--ticks 1700", "700 1 hw 9", "701 1 hw 10", core=1)
    for mode, name in ((0, "cold"), (1, "warm")):
        halts, resets = counts(1).call(2, 1), Program(0).wait(460).ask(3, 1, mode, 0)
        lines = [f"980 1 {line}" for line in (f"{byte(place_of('shown', 1))} 4", "hw 3", "g3 3")]
        upset(f"halted_before_a_{name}_reset", make(resets, halts), "--ticks 1700", *lines, core=1)
        own = make(Program(0), counts(1).wait(30).call(3, 1, mode, 0))
        upset(f"before_its_own_{name}_reset", own, "--ticks 620", *[line.replace("980", "520") for line in lines], core=1)


def says_time(program):
    say_time(program)
    return program


def order_upsets():
    """In which ticks, in which order, and whom they do not reach."""
    both = make(counting(), counting(1))
    upset("none", both, "--ticks 40")
    upset("in_tick_0", both, "--ticks 40", f"0 0 {local(1)} 3", f"0 1 {local(1)} 3", core=1)
    upset("in_the_last_tick", both, "--ticks 40", f"39 0 {local(1)} 3", core=0)
    upset("in_the_only_tick", both, "--ticks 1", "0 0 y 0", core=0)
    upset("in_the_last_tick_of_frames", both, "--frames 2", "1999 1 y 0", core=1)
    upset("around_a_line", both, "--ticks 40", "7 0 y 0", "8 0 y 1", "9 0 y 2")
    upset("of_both_in_one_tick", both, "--ticks 600", f"520 1 {local(1)} 3", f"520 0 {local(1)} 3", "520 1 y 3", core=0)
    upset("same_bit_twice", both, "--ticks 40", f"18 0 {local(1)} 3", f"18 0 {local(1)} 3", core=0)
    upset("same_bit_in_two_ticks", both, "--ticks 60", f"18 0 {local(1)} 3", f"36 0 {local(1)} 3", core=0)
    upset("of_the_other_in_the_slot", both, "--ticks 700", f"520 0 {local(1)} 4", "540 0 pc 31", f"600 0 {local(0)} 2", core=0)
    asks = make(Program(0).call(14, 2, "room"))
    upset("around_another_plan", asks, "--ticks 1100", "999 0 y 0", "1000 0 y 1", "1000 1 y 2")
    halts = make(Program(0).nop(23).call(9))
    upset("around_a_halt_of_all", halts, "--ticks 100", "23 0 y 0", "24 0 y 1", "24 1 y 2", "25 0 y 3", "99 1 y 4", core=1)
    for event, action in (("maintenance", "SWITCH_TO_MAINTENANCE"), ("halt", "HYPERVISOR_HALT"), ("reset", "HYPERVISOR_WARM_RESET"),
                          ("suspension", "SUSPEND")):
        broken = make(Program(0).nop(40), counting(1), actions={(0, "SPARC_ILLEGAL_INSTRUCTION"): action})
        lines = [f"20 0 {bit_of(FIRST + 4 * 30, 24)}", "30 1 y 0", "31 1 y 1", "31 0 y 2"]
        upset(f"causes_a_{event}", broken, "--ticks 60", *lines, core=1)
    for mode, name in ((0, "cold"), (1, "warm")):
        resets = make(once(Program(0).wait(50), lambda program: program.call(10, mode)), counts(1))
        lines = [f"40 1 {byte(place_of('shown', 1))} 1", "40 1 y 1", "300 1 y 2", f"300 1 {byte(place_of('shown', 1))} 2"]
        upset(f"around_a_{name}_reset_of_all", resets, "--ticks 700", *lines, core=1, inputs={0: [1]})
    watches = Program(0).set("four", "l2").label("again").mem("ld", "l3", "l2").show("four").branch("a", "again").nop()
    recovers = make(watches, counting(1), actions={(0, "SPARC_DATA_ACCESS"): "PARTITION_WARM_RESET"})
    upset("recovered_by_the_health_table", recovers, "--ticks 600", f"30 0 {local(2)} 30", core=1)


MOST_UPSETS = 4096


def many_upsets(count):
    """This number of lines, of which the last one alone is not undone by the one before it."""
    return ["5 0 y 0"] * (count - 1) + ["6 0 y 1"]


def upset_cases():
    for group in (place_upsets, instruction_upsets, register_upsets, window_upsets, interrupt_upsets, timer_upsets, memory_upsets,
                  state_upsets, order_upsets):
        group()
    upset("lines_4096", make(counting()), "--ticks 10", *many_upsets(MOST_UPSETS), core=0)


# Files of upsets that are refused, for a run of 50 ticks of two partitions that loop: what each shows, and its lines.
REFUSED_TICKS = 50


def two_that_loop():
    return make(Program(0), Program(1))


REFUSED_UPSETS = {
    "a word": "y\n", "a line without its line feed": "5 0 y 0", "a second line without it": "5 0 y 0\n6 1 y 0",
    "an empty line": "5 0 y 0\n\n", "a blank before a line": " 5 0 y 0\n", "a blank after a line": "5 0 y 0 \n",
    "two blanks": "5 0  y 0\n", "a tabulator": "5 0\ty 0\n", "a carriage return": "5 0 y 0\r\n", "three words": "5 0 y\n",
    "five words": "5 0 y 0 0\n", "a tick with a needless zero": "05 0 y 0\n", "a tick with a sign": "-5 0 y 0\n",
    "a tick past 64 bits": "18446744073709551616 0 y 0\n", "a partition by its name": "5 P0 y 0\n", "a bit in hexadecimal": "5 0 y 0x1\n",
    "a bit with a needless zero": "5 0 y 01\n",
    "global register 0": "5 0 g0 0\n", "global register 8": "5 0 g8 0\n", "window register 128": "5 0 w128 0\n",
    "a register with a needless zero": "5 0 w01 0\n", "a register by its name": "5 0 o6 0\n", "the window number": "5 0 cwp 0\n",
    "the execution clock": "5 0 clock 0\n", "the invalid window": "5 0 inv 0\n", "a place in capitals": "5 0 PC 2\n",
    "an address of seven digits": "5 0 4010000 0\n", "an address of nine digits": "5 0 040100000 0\n",
    "an address in capitals": "5 0 4010400A 0\n", "an address with 0x": "5 0 0x401000 0\n",
    "no partition": "5 2 y 0\n", "partition 32": "5 32 y 0\n",
    "the byte before the first area": f"5 0 {byte(FIRST - 1)} 0\n", "the byte after the last area": f"5 0 {byte(LAST0)} 0\n",
    "a byte of the other partition": f"5 0 {byte(start(1))} 0\n", "the last byte of all": "5 0 ffffffff 0\n",
    **{f"bit {bit} of {place}": f"5 0 {place} {bit}\n" for place, *bits in (
        ("g1", 32), ("w0", 32), ("pc", 0, 1, 32), ("npc", 0, 1, 32), ("y", 32), ("icc", 4), ("hw", 63), ("exec", 63), ("tbr", 0, 11, 32),
        ("mask", 32), ("pending", 32), (byte(FIRST), 8), (byte(LAST0 - 1), 8)) for bit in bits},
    "falling ticks": "5 0 y 0\n4 0 y 0\n", "ticks that fall late": "1 0 y 0\n5 0 y 0\n5 1 y 0\n4 1 y 0\n",
    "the tick after the last one": f"{REFUSED_TICKS - 1} 0 y 0\n{REFUSED_TICKS} 0 y 0\n", "a tick far away": "4000000000 0 y 0\n",
}


def system_cases():
    case("token_ring", token_ring(), "--frames 6")
    case("no_ticks", make(Program(0)), "--ticks 0")
    case("one_tick", make(Program(0)), "--ticks 1")
    case("frames_3", make(Program(0)), "--frames 3")
    case("frames_0", make(Program(0)), "--frames 0")
    gap = [Plan(100, [Slot(20, 30, 1), Slot(60, 10, 0)])]
    case("gap_at_frame_start", make(Program(0).ask(15, "room").show("room", 20), Program(1).ask(1), plans=gap),
         "--ticks 900")
    many = [Plan(640, [Slot(10 * k, 9, k % 2) for k in range(64)])]
    case("slots_64", make(Program(0).on(INTERRUPT + 5, say_time, back).ready(32), Program(1).ask(1), plans=many),
         "--ticks 700")
    eight = [Plan(50 + k, [Slot(0, 50, 0)]) for k in range(8)]
    changes = Program(0)
    for plan in range(1, 8):
        changes.ask(14, plan, "room").show("room", 4).wait(50)
    case("plans_8", make(changes, plans=eight), "--ticks 1500")
    short = [Plan(1, [Slot(0, 1, 0)]), Plan(2, [Slot(0, 1, 1), Slot(1, 1, 0)])]
    case("frame_of_1", make(Program(0).on(INTERRUPT + 5, say_time, back).nop(3).ask(14, 1, "room").show("room", 4),
                            plans=short), "--ticks 200")


def all_cases():
    for group in (order_calls, status_calls, plan_calls, port_calls, trace_calls, other_calls, timer_cases, idle_cases,
                  health_cases, reset_cases, between_cases, upset_cases, processor_cases, size_cases, system_cases):
        group()


def write_case(folder, name, with_cores):
    system, words, inputs = CASES[name]
    (folder / f"{name}.box").write_bytes(container(system))
    for number, content in inputs.items():
        (folder / f"{name}.{number}.in").write_bytes(struct.pack(f">{len(content)}I", *content))
        words = [*words, "--input", f"{number}={name}.{number}.in"]
    if name in UPSETS:
        (folder / f"{name}.upsets").write_text(UPSETS[name])
        words = [*words, "--upset", f"{name}.upsets"]
    if with_cores:
        for number in range(len(system.parts)):
            words = [*words, "--core", f"{number}={name}.{number}.core"]
    (folder / f"{name}.args").write_text("".join(word + "\n" for word in words))
    report, cores = run_words([f"{name}.box", *words], folder)
    (folder / f"{name}.out").write_text(report)
    for core, content in cores.items():
        (folder / f"{core}.want").write_bytes(content)


def main():
    words = [word for word in sys.argv[1:] if word != "--cores"]
    if not words:
        print(__doc__, file=sys.stderr)
        return 2
    folder, names = Path(words[0]), words[1:]
    folder.mkdir(parents=True, exist_ok=True)
    all_cases()
    names = names or [name for name in CASES if name not in RESETS and name not in UPSETS]
    for name in names:
        write_case(folder, name, "--cores" in sys.argv)
    print(f"{len(names)} cases")
    return 0


if __name__ == "__main__":
    sys.exit(main())
