#!/usr/bin/env python3
"""A partition in isolation, replayed by its script and struck by its own upsets.

usage: replay.py BOX P SCRIPT [--input FILE] [--core FILE] [--upset FILE]

It reads a container and the script of a partition, runs that partition alone, and prints its own lines. The others do nothing: what
comes of them is what the script has for each tick. A cue is a slot and what the partition receives, in the words of `scripts.py`.
"""
import sys
from collections.abc import Iterator, Sequence
from pathlib import Path
from typing import Any

from box import QUEUING, SAMPLING, Fault, read_container
from model import (
    COLD, HALTED, IDLE, INVALID, LINK, MOST_TICKS, NOT_AVAILABLE, QUEUING_PORT, READY, SAMPLING_PORT, WARM,
    DeviceFault, HARDWARE_TIMER, Machine, Refusal, Refused, Usage, bytes_of, number_of, refuse_where, upsets_in, words_of, write,
)
from scripts import ORDER, SLOT, WHOLE, own

Cue = tuple[str, dict[str, str]]
SEEN_SIZES = (4, 8, 20, 24)
MOST_BYTES = 1 << 24  # of a file


def names_of(machine: Machine, p: int) -> dict[int, Any]:
    """The channels of a partition by its names for them: the lowest port of it on each."""
    names: dict[int, Any] = {}
    for number in range(len(machine.parts[p].conf.ports)):
        channel = machine.channel_of.get((p, number))
        if channel is not None and channel not in names.values():
            names[number] = channel
    return names


# What a partition receives.


class Recorder(Machine):
    """A run that notes what one partition receives in each tick."""

    def __init__(self, system, inputs, p):
        super().__init__(system, inputs)
        self.p, self.cues, self.told = p, [], {}
        self.names = names_of(self, p)

    def tick(self):
        self.told = {}
        slot = self.slot_of_it()
        super().tick()
        if self.order and self.order[1] is self.parts[self.p]:
            self.told["order"] = self.order_text()
        if self.whole is not None:
            self.told["whole"] = {COLD: "cold", WARM: "warm", "HALT": "halt"}[self.whole]
        self.cues.append((slot, self.told))

    def slot_of_it(self):
        number = self.slot_now()
        slot = None if number is None else self.system.plans[self.plan].slots[number]
        if slot is None or slot.part != self.p:
            return "away"
        return "mine first" if self.now - self.frame_start == slot.start else "mine"

    def order_text(self):
        order, _, *arguments = self.order
        if order.__name__ != "reset_part":
            return order.__name__
        mode, status = arguments
        return f"{('cold', 'warm')[mode]} {status}"

    def told_of(self, part, port, text, is_its):
        """Traffic of another on a channel of the partition."""
        channel = self.channel_of[(part.number, port)]
        for name, mine in self.names.items():
            if part.number != self.p and mine is channel and is_its(channel.conf):
                self.told["traffic"] = text.format(name=name)

    def is_destination(self, conf):
        return any(number == self.p for number, _ in conf.destinations)

    def is_source(self, conf):
        return conf.source[0] == self.p

    def write_sampling_message(self, part, a, b, c):
        result = super().write_sampling_message(part, a, b, c)
        self.told_of(part, a, f"put {{name}} {part.memory.read(b, c).hex()}", self.is_destination)
        return result

    def send_queuing_message(self, part, a, b, c):
        result = super().send_queuing_message(part, a, b, c)
        self.told_of(part, a, f"put {{name}} {part.memory.read(b, c).hex()}", self.is_destination)
        return result

    def receive_queuing_message(self, part, a, b, c):
        result = super().receive_queuing_message(part, a, b, c)
        self.told_of(part, a, "take {name}", self.is_source)
        return result

    def raise_ipvi(self, part, a):
        result = super().raise_ipvi(part, a)
        for link in self.system.links:
            if (link.source, link.number, link.destination) == (part.number, a, self.p) and part.number != self.p:
                self.told["traffic"] = f"signal {a}"
        return result

    def shown(self, call, part, address, size):
        """What a call of the partition shows it of the others."""
        try:
            result = call()
        except Refused as refused:
            if part.number == self.p and refused.result == NOT_AVAILABLE:
                self.told["seen"] = "not kept"
            raise
        if part.number == self.p:
            self.told["seen"] = part.memory.read(address, size).hex()
        return result

    def get_partition_status(self, part, a, b):
        call = lambda: super(Recorder, self).get_partition_status(part, a, b)
        return call() if a == part.number else self.shown(call, part, b, 20)

    def get_system_status(self, part, a):
        return self.shown(lambda: super(Recorder, self).get_system_status(part, a), part, a, 8)

    def switch_sched_plan(self, part, a, b):
        return self.shown(lambda: super(Recorder, self).switch_sched_plan(part, a, b), part, b, 4)

    def get_plan_status(self, part, a):
        return self.shown(lambda: super(Recorder, self).get_plan_status(part, a), part, a, 20)

    def read_ring(self, part, a, b, c, size, ring_of):
        call = lambda: super(Recorder, self).read_ring(part, a, b, c, size, ring_of)
        return call() if a == part.number else self.shown(call, part, c, size)

    def ring_status(self, part, a, b, ring_of):
        call = lambda: super(Recorder, self).ring_status(part, a, b, ring_of)
        return call() if a == part.number else self.shown(call, part, b, 8)


def recorded(system, inputs, p, upsets, ticks):
    """What a partition receives in a run, and the partition's own lines of its report and its core file after it."""
    machine = Recorder(system, inputs, p)
    machine.upsets = list(upsets)
    report = machine.run(ticks)
    return machine.cues, own(p, report), machine.core_file(p)


# A script is read.


class Script:
    """Takes the fields of a script, from its beginning on."""

    def __init__(self, content: bytes) -> None:
        self.content, self.at = content, 0

    def take(self, size: int) -> bytes:
        if self.at + size > len(self.content):
            raise Fault(f"short at={self.at}")
        self.at += size
        return self.content[self.at - size : self.at]

    def number(self, size: int) -> int:
        return int.from_bytes(self.take(size), "big")

    def refuse(self, at: int) -> None:
        raise Fault(f"field at={at}")

    def choice(self, names: Sequence[str | None]) -> str | None:
        at, value = self.at, self.number(1)
        if value >= len(names):
            self.refuse(at)
        return names[value]

    def told(self) -> Iterator[tuple[str, str]]:
        traffic = self.choice([None, "put", "take", "signal"])
        if traffic == "put":
            name, length = self.number(1), self.number(2)
            yield "traffic", f"put {name} {self.take(length).hex()}"
        elif traffic:
            yield "traffic", f"{traffic} {self.number(1)}"
        order = self.choice([None, *ORDER])
        if order:
            yield "order", f"{order} {self.number(4)}" if order in ("cold", "warm") else order
        whole = self.choice([None, *WHOLE])
        if whole:
            yield "whole", whole
        seen = self.choice([None, "not kept", "bytes"])
        if seen == "bytes":
            at, size = self.at, self.number(1)
            if size not in SEEN_SIZES:
                self.refuse(at)
            seen = self.take(size).hex()
        if seen:
            yield "seen", seen

    def cues(self, left: int) -> tuple[int, Cue]:
        """The cues of an entry: how many, and what each is."""
        start, kind = self.at, self.number(1)
        slots = list(SLOT)
        if kind < 2:
            at, count = self.at, self.number(4)
            if not 0 < count <= left:
                self.refuse(at)
            return count, (slots[kind], {})
        if kind > 2:
            self.refuse(start)
        slot = self.choice(slots)
        return 1, (str(slot), dict(self.told()))


def read_script(content: bytes, p: int) -> list[tuple[int, Cue]]:
    """The cues of a script; what the partition can receive in no run is not looked for, but for values that no table of the format has."""
    script = Script(content)
    if not content.startswith(b"XMSC") and len(content) >= 4:
        raise Fault("magic")
    script.take(4)
    version = script.number(2)
    if version != 1:
        raise Fault(f"version found={version}")
    if script.number(1) != p:
        script.refuse(6)
    left = script.number(8)
    if left > MOST_TICKS:
        script.refuse(7)
    cues = []
    while left:
        count, cue = script.cues(left)
        cues.append((count, cue))
        left -= count
    if script.at != len(content):
        raise Fault(f"trailing at={script.at}")
    return cues


# A partition alone.


class Untaken(Exception):
    """The partition cannot take the cue of this tick."""


class Lone(Machine):
    """One partition of a system. The others stand as they boot, and nothing of them is looked at."""

    def __init__(self, system, p, words=()):
        super().__init__(system, {p: words})
        self.p, self.part = p, self.parts[p]
        self.names = names_of(self, p)
        self.seen, self.asked_for = None, False

    def cannot_where(self, holds):
        if holds:
            raise Untaken

    # One tick.

    def take_cue(self, slot, told):
        self.strike()
        self.order, self.whole, self.maintenance = None, None, False
        self.seen, self.asked_for = told.get("seen"), False
        whole = {None: None, "cold": COLD, "warm": WARM, "halt": "HALT"}[told.get("whole")]
        self.test_traffic(*told.get("traffic", "none").split())
        works = slot != "away" and self.part.state in (READY, IDLE)
        if works:
            self.local(self.part, slot == "mine first")
        self.cannot_where(self.seen is not None and not self.asked_for)
        self.cannot_where(slot != "away" and self.whole != whole)
        self.hear(*told.get("traffic", "none").split())
        self.obey(*told.get("order", "none").split())
        self.all_get(whole)
        if not works and self.part.state != HALTED and self.part.timers[0].due(self.now):
            self.part.raise_interrupt(HARDWARE_TIMER)
        if not self.halted:
            self.now = 0 if whole is not None else self.now + 1
            self.done += 1

    def test_traffic(self, kind, *words):
        if kind in ("put", "take"):
            channel = self.names[int(words[0])]
            if channel.conf.kind == QUEUING:
                held = len(channel.messages)
                self.cannot_where(held == (channel.conf.limit if kind == "put" else 0))

    def hear(self, kind, *words):
        """What another one does to the channels of the partition, or its signal."""
        if kind == "signal":
            if self.part.state != HALTED:
                self.part.raise_interrupt(LINK + int(words[0]))
        elif kind == "take":
            self.names[int(words[0])].messages.pop(0)
        elif kind == "put":
            channel, message = self.names[int(words[0])], bytes.fromhex(words[1])
            if channel.conf.kind == SAMPLING:
                channel.sample = self.now, message
                self.signal_peers(channel, SAMPLING_PORT)
            else:
                channel.messages.append(message)
                self.signal_peers(channel, QUEUING_PORT)

    def obey(self, kind, *words):
        if kind in ("cold", "warm"):
            self.reset_part(self.part, COLD if kind == "cold" else WARM, int(words[0]))
        elif kind != "none":
            getattr(self, kind)(self.part)

    def all_get(self, whole):
        if whole == "HALT":
            self.halted = True
        elif whole is not None:
            self.reset_part(self.part, whole, 0)
            self.reset_hypervisor(whole)

    # What calls show of the others is what the cue has.

    def observe(self, part, address, size, is_entry=False):
        self.asked_for = True
        if self.seen == "not kept":
            self.cannot_where(not is_entry)
            raise Refused(NOT_AVAILABLE)
        fits = part.memory.may_write(address, size)
        self.cannot_where(fits != (self.seen is not None))
        refuse_where(not fits, INVALID)
        content = bytes.fromhex(self.seen)
        self.cannot_where(len(content) != size)
        part.memory.copy(address, content)
        return 0

    def get_partition_status(self, part, a, b):
        self.test_target(part, a)
        return super().get_partition_status(part, a, b) if a == self.p else self.observe(part, b, 20)

    def get_system_status(self, part, a):
        self.test_system(part)
        return self.observe(part, a, 8)

    def switch_sched_plan(self, part, a, b):
        self.test_system(part)
        refuse_where(a == 0 or a >= len(self.system.plans), INVALID)
        return self.observe(part, b, 4)

    def get_plan_status(self, part, a):
        self.test_system(part)
        return self.observe(part, a, 20)

    def read_ring(self, part, a, b, c, size, ring_of):
        self.test_target(part, a)
        return super().read_ring(part, a, b, c, size, ring_of) if a == self.p else self.observe(part, c, size, is_entry=True)

    def ring_status(self, part, a, b, ring_of):
        self.test_target(part, a)
        return super().ring_status(part, a, b, ring_of) if a == self.p else self.observe(part, b, 8)

    # The report.

    def replay(self, cues, upsets=()):
        """The partition's own lines, by its cues and its own of these upsets: ticks count from the boot."""
        self.upsets = [upset for upset in upsets if upset.part == self.p]
        for count, cue in cues:
            for _ in range(count):
                try:
                    self.take_cue(*cue)
                except Untaken:
                    raise Fault(f"cue tick={self.done}") from None
        end = f"END P{self.p} {self.part.state} resets={self.part.resets} exec={self.part.exec} pc={self.part.processor.pc:08x}"
        return own(self.p, "".join(f"{line}\n" for line in [*self.lines, end]))


# The command.


def read_words(words: Sequence[str]) -> tuple[str, int, str, dict[str, str]]:
    """The container, the partition, its script, and the files of the options."""
    if len(words) < 3 or len(words) % 2 == 0:
        raise Usage
    box, number, script, *rest = words
    options = dict(zip(rest[::2], rest[1::2]))
    if len(options) != len(rest) // 2 or not options.keys() <= {"--input", "--core", "--upset"}:
        raise Usage
    if any(not name or name.startswith("--") for name in (box, script, *options.values())):
        raise Usage
    return box, number_of(number, 31), script, options


def run_words(words: Sequence[str], folder: Path = Path()) -> tuple[str, dict[str, bytes]]:
    """The partition's own lines, and the core file by its name."""
    box, p, script, options = read_words(words)
    names = [box, script, *(options[option] for option in ("--input", "--upset") if option in options)]
    contents = {name: bytes_of(folder, name) for name in names}
    for name in names:
        if len(contents[name]) > MOST_BYTES:
            raise Refusal(f"{name}: too-long")
    try:
        system = read_container(contents[box])
    except Fault as fault:
        raise Refusal(f"{box}: {fault}") from None
    if p >= len(system.parts):
        raise Refusal(f"{box}: partition id={p}")
    try:
        cues = read_script(contents[script], p)
    except Fault as fault:
        raise Refusal(f"{script}: {fault}") from None
    content = contents[options["--input"]] if "--input" in options else b""
    if len(content) % 4:
        raise Refusal(f"{options['--input']}: input length={len(content)}")
    upsets = upsets_in(folder, options["--upset"], system, MOST_TICKS) if "--upset" in options else []
    machine = Lone(system, p, words_of(content))
    try:
        report = machine.replay(cues, upsets)
    except Fault as fault:
        raise Refusal(f"{script}: {fault}") from None
    return report, {options["--core"]: machine.core_file(p)} if "--core" in options else {}


def main() -> int:
    try:
        report, files = run_words(sys.argv[1:])
        for name, content in files.items():
            write(Path(), name, content)
    except Usage:
        print("replay: usage", file=sys.stderr)
        return 2
    except Refusal as refusal:
        print(f"replay: {refusal}", file=sys.stderr)
        return 1
    except DeviceFault as fault:
        print(f"replay: {fault}", file=sys.stderr)
        return fault.status
    sys.stdout.write(report)
    return 0


if __name__ == "__main__":
    sys.exit(main())
