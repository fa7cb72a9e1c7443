#!/usr/bin/env python3
"""Runs that are saved and go on, and files that are no saved machine, as data of `case_suite`.

usage: continued.py FOLDER

FOLDER is crates/case_suite/data; the file is saves.toml. Each run is done in one piece by the second simulator, and in two with the
file of saved.py between them: lines, core files, the bytes of UARTs and the machine at the end have to be the same.
"""
import struct
import sys
import tempfile
from collections.abc import Iterator
from dataclasses import dataclass, field
from hashlib import md5
from pathlib import Path
from typing import Any

from asm import Guest
from book import LEGEND, Fronts, bytes_entry, comment, differing, file_entry, hex_lines, input_name, listed, out_entry, settings, text_value
from box import Area, Part, Plan, Port, Slot, System, container, read_container
from cases import (
    CASES, END0, FIRST, INTERRUPT, STACK, Program, all_cases, back, bit_of, byte, counting, counts, local, make, once, place_of, say_time,
    start, two_that_loop, wide_system, with_ports,
)
from model import MOST_TICKS, Machine, Refusal, run_words
from rows import image
from saved import MOST_BYTES, PAGE, read_saved, saved_file
from upsets import Upset, read_upsets

SAVES_LEGEND = """\
`s` is a saved machine, which is made of the bytes that are not zero or of those that another one does not have, `u` a file of upsets
and `c` a core file. Systems that are alike have one container, whose listing stands once. examples/model/continued.py writes this
file."""
SAVED, AGAIN, UPSET_FILE, CORE = "s", "t", "u", "c"


@dataclass
class Save:
    """A run of a system that is saved after this many ticks and goes on for more, each with the lines of a file of upsets."""

    shows: str
    system: System
    ticks: int
    more: int
    first: list[str] = field(default_factory=list)
    last: list[str] = field(default_factory=list)
    part: int = 0  # whose core file is compared
    inputs: dict[int, list[int]] = field(default_factory=dict)

    def upsets(self, lines: list[str], begun: int, end: int) -> list[Upset]:
        return read_upsets(text_of(lines).encode(), self.system.parts, end, begun)


def text_of(lines: list[str]) -> str:
    return "".join(f"{line}\n" for line in lines)


# The runs.


def reads_words(number: int = 0) -> Any:
    """It reads input words over `room`, and prints each; where none is left, it goes round."""
    program = Program(number).label("again").call(33, "room").cmp("o0", 0).branch("ne", "none").nop()
    return program.show("room", 4).wait(30).branch("a", "again").nop().label("none")


def deep(number: int = 0) -> Any:
    """It calls itself twenty times deep, so that windows are spilled, and comes back."""
    program = Program(number).stack().call_to("deep").nop().show("four").loop().label("deep")
    program.save().op("add", "g2", 1, "g2").op("subcc", "g2", 20, "g0").branch("e", "there").nop().call_to("deep").nop()
    return program.label("there").op("add", "g3", 1, "g3").jmpl("i7", 8).restore()


def traces(count: int) -> Any:
    """It traces this many times, then it goes round."""
    program = Program(0).set(count, "l3").label("again").call(24, 1, "four").op("subcc", "l3", 1, "l3").branch("ne", "again")
    return program.nop()


def raises(count: int) -> Any:
    program = Program(0).set(count, "l3").label("again").call(27, 5).op("subcc", "l3", 1, "l3").branch("ne", "again")
    return program.nop()


def one_partition(program: Any, ports: list[Port] = []) -> System:
    """A system of one partition, whose slot is the whole frame."""
    area = [Area(program.base, 0x4000), Area(program.base + 0x4000, 0x1000, True)]
    part = Part("P0", area, program.image(), system=True, console=0, trace_mask=0xFF)
    part.ports = ports
    return System("alone", [(0x40000000, 0x400000)], 0x10000, [Plan(1000, [Slot(0, 1000, 0)])], [part], ["A"])


def clock_saves() -> Iterator[Save]:
    both = make(counting(), counting(1))
    strikes = lambda tick: [f"{tick} 0 {local(1)} 3", f"{tick} 1 {local(1)} 4"]
    yield Save("before the first tick", both, 0, 600, last=strikes(0))
    yield Save("in a slot", both, 100, 500, strikes(50), strikes(100))
    yield Save("in a gap", both, 470, 600, strikes(460), strikes(480), part=1)
    yield Save("before the last tick of a frame", both, 999, 600, last=strikes(999))
    yield Save("at the end of a frame", both, 1000, 600, strikes(999), strikes(1000), part=1)
    yield Save("of programs that store nothing", two_that_loop(), 10, 1000)
    asks = make(Program(0).call(14, 2, "room").call(15, "room").show("room", 20), Program(1))
    yield Save("with a plan that is asked for", asks, 300, 2000, last=["1000 0 y 0"])
    yield Save("before the last tick before another plan", asks, 999, 100)
    yield Save("with another plan", asks, 1300, 1000, last=["1500 1 y 0"], part=1)
    broken = {(0, "SPARC_ILLEGAL_INSTRUCTION"): "SWITCH_TO_MAINTENANCE"}
    turns = make(Program(0).nop(10).put(0).wait(30).call(15, "room").show("room", 20), actions=broken)
    yield Save("in the plan of maintenance", turns, 20, 900)
    yield Save("in its frame", turns, 400, 900, part=1)


def state_saves() -> Iterator[Save]:
    for call, name in ((2, "halted"), (4, "suspended"), (7, "idle")):
        stops = make(counting(), Program(1).call(call, *([] if call == 7 else [1])))
        yield Save(f"with a partition that is {name}", stops, 700, 1500, part=1)
    halts = make(Program(0), counts(1).call(2, 1))
    yield Save("with a halted partition whose timer an upset has armed", halts, 1000, 700, ["980 1 hw 3", "980 1 g3 3"], ["1200 1 hw 4"], part=1)
    resets = make(Program(0).wait(460).ask(3, 1, 1, 7), counts(1).call(2, 1))
    yield Save("with one that is reset later", resets, 1000, 700, ["980 1 hw 3"], ["1005 1 g3 3"], part=1)
    for mode, name in ((0, "cold"), (1, "warm")):
        reset = make(Program(0).wait(440).wait(30).ask(3, 1, mode, 9), counts(1).wait(200))
        yield Save(f"after a {name} reset of a partition", reset, 1100, 900, ["800 1 g3 3"], ["1600 1 g3 3"], part=1)
        whole = make(once(Program(0).wait(50), lambda program, mode=mode: program.call(10, mode)), counts(1).wait(20).call(11, "room"))
        yield Save(f"after a {name} reset of all", whole, 200, 1500, ["40 1 g3 3"], ["300 1 y 2"], part=1, inputs={0: [1, 2]})
    halted = make(Program(0).nop(40).call(9), counting(1))
    yield Save("of a machine that has halted", halted, 100, 50, ["20 0 y 3"])
    yield Save("before its halt", halted, 40, 50, part=1)


def part_saves() -> Iterator[Save]:
    hears = lambda: Program(1).on(INTERRUPT, say_time, back).on(INTERRUPT + 1, say_time, back).ready(3)
    armed = make(Program(0), hears().call(13, 0, 0, 640, 0, 100).call(13, 1, 0, 90, 0, 25))
    yield Save("with both timers armed", armed, 600, 1200, last=["700 1 hw 10"], part=1)
    yield Save("with a timer that is due in the other slot", armed, 1100, 700, part=1)
    far = make(Program(0), hears().call(13, 0, 0x7FFFFFFF, 0xFFFFFFFF, 0x7FFFFFFF, 0xFFFFFFFF))
    yield Save("with a timer that is far away", far, 600, 500, last=["700 1 hw 62"], part=1)
    words = make(reads_words(), reads_words(1))
    given = {0: [0x11, 0xFFFFFFFF, 0x33]}
    yield Save("with all input words left", words, 2, 400, inputs=given)
    yield Save("with some input words left", words, 60, 400, ["50 0 y 1"], ["80 0 y 2"], inputs=given)
    yield Save("with no input word left", words, 300, 400, inputs=given)
    yield Save("with windows that were spilled", make(deep()), 120, 300, last=[f"200 0 {bit_of(FIRST + STACK - 96, 0)}"])
    yield Save("with a struck byte of a read-only area", make(counts(0), Program(1)), 50, 1000, [f"40 0 {byte(END0 + 0x123)} 7"], [f"60 0 {byte(END0 + 0x123)} 6"])
    cold = make(Program(0), counts(1).wait(60).call(3, 1, 0, 0))
    struck = [f"510 1 {byte(start(1) + 0x4000)} 0", f"510 1 {byte(start(1) + 0x4FFF)} 7", f"510 1 {byte(start(1))} 0"]
    yield Save("with the first and the last page of areas struck, before a cold reset", cold, 520, 200, [*struck, f"510 1 {byte(start(1) + 0x3FFF)} 0"], part=1)
    yield Save("with pages at both ends of all addresses", wide_system(Guest(0).loop()), 60, 40, ["50 0 ffffffff 0", "50 0 00000000 7"], ["70 0 ffffffff 0"])


def log_saves() -> Iterator[Save]:
    for count in (63, 64, 70):
        yield Save(f"with {count} traces", one_partition(traces(count)), 20 * count, 300, last=[f"{20 * count} 0 y 1"])
    health = one_partition(raises(70))
    health.parts[0].actions[0] = 0
    yield Save("with 70 health entries", health, 1200, 300)
    yield Save("while they are made", health, 500, 900, ["100 0 y 0"], ["600 0 y 0"])


def channel_saves() -> Iterator[Save]:
    sends = with_ports(0).ask(21, 2, "four", 8).ask(21, 2, "four", 1).ask(21, 2, "four", 2).ask(17, 0, "four", 8)
    takes = with_ports(1).ask(22, 2, "room", 8).show("room", 8).ask(22, 2, "room", 8).ask(22, 2, "room", 8).ask(18, 0, "room", 8, "time").show("time", 4)
    both = make(sends, takes)
    yield Save("with a queue that is full, and a sample", both, 470, 1000, last=[f"480 1 {byte(place_of('room', 1))} 0"], part=1)
    yield Save("with a queue of which one message was taken", both, 560, 1000, part=1)
    later = make(with_ports(0).ask(17, 0, "four", 3), with_ports(1).wait(300).ask(18, 0, "room", 8, "time").show("time", 4))
    yield Save("with a sample that is stale when it is read", later, 740, 900, part=1)
    yield Save("with a stale sample", later, 1400, 900, part=1)
    yield Save("with a queue of 64 messages", CASES["queue_of_64"][0], 1990, 4000, part=1)
    yield Save("with ports that are made and others", with_few_ports(), 200, 900)


def with_few_ports() -> System:
    """Of 32 ports the first, the last and one between them are made."""
    system = CASES["ports_32"][0]
    part = system.parts[0]
    program = Program(0)
    for port in (0, 18, 31):
        name = part.ports[port].name
        program.string(f"name {port}", name)
        program.call(*(20, f"name {port}", 1, 8, port // 2 % 2) if port % 2 else (16, f"name {port}", 8, port // 2 % 2))
    program.ask(17, 0, "four", 5)
    made = make(program, plans=[Plan(1000, [Slot(0, 1000, 0)])])
    made.parts[0].ports, made.channels = part.ports, system.channels
    return made


GROUPS = {
    "saves by the clock": clock_saves, "saves by states": state_saves, "saves of parts of partitions": part_saves,
    "saves of logs": log_saves, "saves of channels": channel_saves,
}


# Both ways.


def struck(machine: Machine, upsets: list[Upset], ticks: int) -> tuple[list[str], Machine]:
    machine.upsets = upsets
    report: str = machine.run(ticks)
    return report.splitlines(), machine


def check(save: Save, system: System, digest: bytes) -> None:
    """The run in one piece is the first ticks, and those from the file on."""
    end, cut = save.ticks + save.more, len(system.parts) + 1
    whole, last = struck(Machine(system, save.inputs), [*save.upsets(save.first, 0, save.ticks), *save.upsets(save.last, save.ticks, end)], end)
    one, before = struck(Machine(system, save.inputs), save.upsets(save.first, 0, save.ticks), save.ticks)
    again = read_saved(saved_file(before, digest), system, digest, Machine)
    if saved_file(again, digest) != saved_file(before, digest):
        sys.exit(f"{save.shows}: the file that is read is saved as another one")
    two, after = struck(again, save.upsets(save.last, save.ticks, end), save.more)
    same = whole[1:] == one[1:-cut] + two[1:] and whole[0] == (two[0] if not before.halted else whole[0])
    same = same and [first + then for first, then in zip(before.uarts, after.uarts)] == last.uarts
    same = same and all(after.core_file(p) == last.core_file(p) for p in range(len(system.parts)))
    if not same or saved_file(after, digest) != saved_file(last, digest):
        sys.exit(f"{save.shows}: the run in one piece differs")


# Files of the book.


class Shelf:
    """Containers, core files and saved machines, each by its name; what is alike stands once."""

    def __init__(self) -> None:
        self.fronts, self.names = Fronts(), dict[bytes, str]()
        self.contents = dict[str, bytes]()

    def box(self, save: Save, lines: list[str]) -> str:
        content = container(save.system)
        if content not in self.names:
            name = f"{save.shows.replace(' ', '_').replace(',', '')}.box"
            self.names[content] = name
            lines += self.fronts.container_entry(name, save.system, [f"{name}:", *settings(save.system), *listed(save.system)])
        return self.names[content]

    def known(self, name: str, content: bytes, lines: list[str]) -> str:
        """The name of a file: that of one before it that is the same, or its own."""
        for other, bytes_of_it in self.contents.items():
            if bytes_of_it == content:
                return other
        lines += self.entry(name, content)
        self.contents[name] = content
        return name

    def entry(self, name: str, content: bytes) -> list[str]:
        """By the bytes that differ from an earlier file, of which that with the fewest is taken, or from zeros, or in hexadecimal."""
        near = {"": differing(content, bytes(len(content)))}
        for known, other in self.contents.items():
            if abs(len(other) - len(content)) < 4000:
                near[known] = differing(content, other[: len(content)].ljust(len(content), b"\0"))
        known = min(near, key=lambda known: (len(near[known]), known))
        if 7 * len(near[known]) > len(content):
            return file_entry(name, hex_lines(content))
        source = [f'of = "{known}"'] if known else ['hex = ""']
        if not known or len(self.contents[known]) != len(content):
            source.append(f"length = {len(content)}")
        return bytes_entry(name, source, near[known])


def files_value(names: list[str]) -> str:
    return ", ".join(f'"{name}"' for name in names)


def made_value(lines: list[str]) -> str:
    return f', make = {{ name = "{UPSET_FILE}", text = {text_value(text_of(lines))} }}' if lines else ""


class Rows:
    """The rows of a run: its save, and how it goes on by no tick and by many, without and with upsets."""

    def __init__(self, shelf: Shelf, save: Save) -> None:
        self.shelf, self.save, self.lines = shelf, save, list[str]()
        self.name = shelf.box(save, self.lines)
        content = container(save.system)
        self.system, self.digest = read_container(content), content[-16:]
        check(save, self.system, self.digest)
        self.inputs = [input_name(self.name.removesuffix(".box") + f"_{save.ticks}", number) for number in save.inputs]
        for file, words in zip(self.inputs, save.inputs.values()):
            self.lines += file_entry(file, [" ".join(f"{word:08x}" for word in words)])

    def rows(self) -> Iterator[str]:
        save, system = self.save, self.system
        machine = Machine(system, save.inputs)
        report, _ = struck(machine, save.upsets(save.first, 0, save.ticks), save.ticks)
        saved = self.shelf.known(f"saved {save.shows}", saved_file(machine, self.digest), self.lines)
        inputs = [word for number, file in zip(save.inputs, self.inputs) for word in ("--input", f"{number}={file}")]
        words = ["run", self.name, "--ticks", str(save.ticks), *inputs, *self.struck_by(save.first), "--save", SAVED]
        yield self.row("saved", words, [self.name, *self.inputs], save.first, text_of(report), {SAVED: saved})
        words = ["run", self.name, "--from", SAVED, "--ticks", "0", "--save", AGAIN]
        yield self.row("goes on by no tick", words, [self.name, f"{SAVED}={saved}"], [], self.end_of(saved, [], 0)[0], {AGAIN: saved})
        for lines in ([], save.last) if save.last else ([],):
            report_after, machine = self.end_of(saved, lines, save.more)
            core = self.shelf.known(f"core {save.part}, saved {save.shows}{', struck' if lines else ''}", machine.core_file(save.part), self.lines)
            words = ["run", self.name, "--from", SAVED, "--ticks", str(save.more), *self.struck_by(lines), "--core", f"{save.part}={CORE}"]
            shows = f"goes on by {save.more} ticks" + (" with upsets" if lines else "")
            yield self.row(shows, words, [self.name, f"{SAVED}={saved}"], lines, report_after, {CORE: core})

    def struck_by(self, lines: list[str]) -> list[str]:
        return ["--upset", UPSET_FILE] if lines else []

    def end_of(self, saved: str, lines: list[str], more: int) -> tuple[str, Machine]:
        machine = read_saved(self.shelf.contents[saved], self.system, self.digest, Machine)
        report, machine = struck(machine, self.save.upsets(lines, machine.done, machine.done + more), more)
        return text_of(report), machine

    def row(self, shows: str, words: list[str], files: list[str], lines: list[str], report: str, same: dict[str, str]) -> str:
        compared = ", ".join(f'{file} = "{known}"' for file, known in same.items())
        call = " ".join(words)
        return f'  {{ shows = "{self.save.shows}: {shows}", call = "{call}", file = [{files_value(files)}]{made_value(lines)}, {out_entry(report)}, same = {{ {compared} }} }},'


def group(name: str, saves: Iterator[Save], shelf: Shelf) -> list[str]:
    lines, rows = [""], list[str]()
    for save in saves:
        made = Rows(shelf, save)
        rows += made.rows()
        lines += made.lines
    return [*lines, "[[group]]", f'name = "{name}"', "case = [", *rows, "]"]


# Files that are no saved machine: those of one run, which has a bit of all, with other bytes.

BASE, BASE_BOX = "saved machine", "base.box"
BASE_TICKS, MORE = 1000, 100
PARTITION, LOGS, HEALTH = 3464, 632, 2176  # the bytes of a partition before its input words, and where its logs stand


def base_system() -> System:
    """A sample and a message wait, a plan is asked for, timers are armed, and each log has an entry; an input word is left."""
    first = with_ports(0).ask(17, 0, "four", 3).ask(21, 2, "four", 8).call(24, 1, "four").call(27, 5).call(14, 2, "room").call(33, "room")
    return make(first.call(13, 0, 0, 5000, 0, 100), with_ports(1).call(13, 1, 0, 3000, 0, 0), actions={(0, "PARTITION_ERROR"): "IGNORE"})


class Base:
    """The file of a run of that system, and the places of its fields."""

    def __init__(self) -> None:
        self.content = container(base_system())
        self.system, self.digest = read_container(self.content), self.content[-16:]
        machine = Machine(self.system, {0: [7, 8]})
        machine.run(BASE_TICKS - 50)
        self.file = saved_file(machine, self.digest)
        # Sampling channel 0 holds three bytes, 1 none; queue 0 one message of eight bytes, 1 none.
        self.channels, self.first = 58, 58 + 14 + 1 + 11 + 1
        self.words = self.first + PARTITION
        self.pages = self.words + 4
        self.second = self.pages + self.length_of_pages(self.pages)
        self.last_pages = self.second + PARTITION
        assert self.file[self.first] == 0 and self.file[self.second] == 1 and self.second + PARTITION + 16 <= len(self.file)

    def number(self, place: int, size: int) -> int:
        return int.from_bytes(self.file[place : place + size], "big")

    def length_of_pages(self, place: int) -> int:
        """Of both areas of a partition."""
        writable = 4 + (4 + PAGE) * self.number(place, 4)
        return writable + 4 + (4 + PAGE) * self.number(place + writable, 4)


def digested(content: bytes) -> bytes:
    return content[:-16] + md5(content[:-16]).digest()


def with_bytes(content: bytes, *edits: tuple[int, bytes]) -> bytes:
    """Other bytes at places, and a new digest."""
    changed = bytearray(content)
    for place, value in edits:
        changed[place : place + len(value)] = value
    return digested(bytes(changed))


def cut(content: bytes, length: int) -> bytes:
    """Cut before the digest, with its new length and a new digest."""
    return digested(content[:6] + struct.pack(">I", length + 16) + content[10:length] + bytes(16))


def with_more(content: bytes, place: int, more: bytes) -> bytes:
    """With more bytes at a place, its new length and a new digest."""
    return digested(content[:6] + struct.pack(">I", len(content) + len(more)) + content[10:place] + more + content[place:])


def one(value: int) -> bytes:
    return bytes([value])


def word(value: int) -> bytes:
    return struct.pack(">I", value)


def double(value: int) -> bytes:
    return struct.pack(">Q", value)


def head_edits(base: Base) -> Iterator[tuple[str, int, bytes]]:
    ticks, time, top = base.number(26, 8), base.number(34, 8), (1 << 64) - 1
    yield from [("the first byte of the container's digest", 10, one(base.file[10] ^ 1)), ("its last byte", 25, one(base.file[25] ^ 1))]
    yield from [("ticks that are few", 26, double(time)), ("fewer than the time", 26, double(time - 1)), ("4000000001 ticks", 26, double(MOST_TICKS + 1))]
    yield from [("2^64 - 1 ticks", 26, double(top)), ("a time before the ticks", 34, double(ticks - 1)), ("a time past them", 34, double(ticks + 1))]
    yield from [("as many resets as there may be", 42, word(0xFFFFFFFF)), ("halted", 46, one(1)), ("halted 2", 46, one(2))]
    since = lambda ticks: double(ticks) + base.file[34:46] + one(1)
    yield from [("halted in the last tick that a run may have", 26, since(MOST_TICKS - 1)), ("halted after it", 26, since(MOST_TICKS))]
    yield from [("another plan, out of its frame", 47, one(1)), ("no plan", 47, one(3)), ("plan 255", 47, one(255))]
    yield from [("a frame that begins at the time", 48, double(time)), ("one that begins after it", 48, double(time + 1)), ("one that begins at 2^64 - 1", 48, double(top))]
    yield from [("no plan is asked for, and one is there", 56, one(0)), ("asked 2", 56, one(2)), ("plan 0 is asked for", 57, one(0)), ("plan 3 is asked for", 57, one(3))]


def channel_edits(base: Base) -> Iterator[tuple[str, int, bytes]]:
    sample, queue = base.channels, base.channels + 15
    yield from [("a sample is there: 2", sample, one(2)), ("a sample of the last time", sample + 1, double((1 << 64) - 1))]
    yield from [("of no byte", sample + 9, bytes([0, 0])), ("of nine bytes", sample + 9, bytes([0, 9])), ("of eight bytes, which are those of what follows", sample + 9, bytes([0, 8]))]
    yield from [("three messages", queue, one(3)), ("255 messages", queue, one(255)), ("a message of no byte", queue + 1, bytes([0, 0])), ("of nine bytes", queue + 1, bytes([0, 9]))]
    yield ("a sample where there is none", sample + 14, one(1))


def processor_edits(at: int, ticks: int) -> Iterator[tuple[str, int, bytes]]:
    yield from [("the other partition", at, one(1)), ("partition 2", at, one(2)), ("state 3", at + 1, one(3)), ("state 4", at + 1, one(4)), ("state 255", at + 1, one(255))]
    yield from [("resets at their most", at + 2, word(0xFFFFFFFF)), ("any status", at + 6, word(0xFFFFFFFF))]
    yield from [("an execution clock of all ticks", at + 10, double(ticks)), ("one of one tick more", at + 10, double(ticks + 1)), ("one of 2^64 - 1", at + 10, double((1 << 64) - 1))]
    for shows, place in (("pc", 18), ("npc", 22)):
        yield from [(f"{shows} of no multiple of 4", at + place, word(0x40100002)), (f"{shows} at an odd byte", at + place, word(0x40100001)), (f"{shows} at the last word", at + place, word(0xFFFFFFFC))]
    yield from [("any Y", at + 26, word(0xFFFFFFFF)), ("condition codes 15", at + 30, one(15)), ("condition codes 16", at + 30, one(16))]
    yield from [("window 6", at + 31, one(6)), ("window 8", at + 31, one(8)), ("the invalid window is the current one", at + 32, one(7)), ("invalid window 6", at + 32, one(6)), ("invalid window 8", at + 32, one(8))]
    yield from [("traps enabled: 1", at + 33, one(1)), ("traps enabled: 2", at + 33, one(2)), ("a table at no multiple of 4096", at + 34, word(0x40100800)), ("one at the last multiple", at + 34, word(0xFFFFF000))]
    yield from [("all interrupts pending", at + 38, word(0xFFFFFFFF)), ("none masked", at + 42, word(0))]


def timer_edits(at: int) -> Iterator[tuple[str, int, bytes]]:
    high = 1 << 63
    yield from [("a timer that is armed: 2", at + 46, one(2)), ("not armed, with a deadline", at + 46, one(0)), ("deadline 0", at + 47, double(0)), ("deadline 1", at + 47, double(1))]
    yield from [("deadline 2^63 - 1", at + 47, double(high - 1)), ("deadline 2^63", at + 47, double(high)), ("no interval", at + 55, double(0)), ("interval 2^63 - 1", at + 55, double(high - 1)), ("interval 2^63", at + 55, double(high))]
    yield from [("an execution timer, without a deadline", at + 63, one(1)), ("not armed, with another deadline", at + 71, one(1)), ("with an interval", at + 79, one(1))]


def store_edits(at: int, ticks: int) -> Iterator[tuple[str, int, bytes]]:
    yield from [("no word is left, and one is there", at + 80, word(0)), ("2^32 - 1 words are left", at + 80, word(0xFFFFFFFF))]
    yield from [("no port is made", at + 84, word(0)), ("a port of no channel is made", at + 84, word(0x1F)), ("port 5, which is not there", at + 84, word(0x2F)), ("port 31", at + 84, word(0x8000000F))]
    yield from [("register 0", at + 88, word(1)), ("all other registers", at + 92, bytes([255]) * (28 + 512))]
    trace, health = at + LOGS, at + HEALTH
    for shows, log in (("traces", trace), ("health entries", health)):
        yield from [(f"{shows}: the oldest is 1", log, word(1)), (f"{shows}: the next is 0", log + 4, word(0)), (f"{shows}: the next is 2, of which one is zeros", log + 4, word(2))]
        yield from [(f"{shows}: 65, from 1 on", log, word(1) + word(65)), (f"{shows}: 65, from 0 on", log, word(0) + word(65))]
        yield from [(f"{shows}: as many as ticks", log, word(ticks - 64) + word(ticks)), (f"{shows}: one more", log, word(ticks - 63) + word(ticks + 1))]
    yield from [("a trace of the last time, with all bits, of any number", trace + 8, bytes([255]) * 24), ("a byte after the last trace", trace + 8 + 24, one(1)), ("the last byte of the traces", trace + 8 + 1535, one(1))]
    entry = health + 8
    yield from [("event 11", entry + 12, one(11)), ("event 12", entry + 12, one(12)), ("action 10", entry + 13, one(10)), ("action 11", entry + 13, one(11))]
    yield from [("a byte after the action", entry + 14, one(1)), ("the byte after that", entry + 15, one(1)), ("any word of a health entry", entry + 16, word(0xFFFFFFFF)), ("a byte after the last health entry", entry + 20, one(1)), ("the last byte of the health log", entry + 1279, one(1))]


def page_edits(base: Base) -> Iterator[tuple[str, int, bytes]]:
    at, area = base.pages, FIRST
    address = base.number(at + 4, 4)
    before = bytes(256)
    loaded = Machine(base.system).parts[0].memory
    yield from [("no page is counted, and one is there", at, word(0)), ("2^32 - 1 pages", at, word(0xFFFFFFFF)), ("a page at the next byte", at + 4, word(address + 1))]
    yield from [("a page before the area", at + 4, word(area - PAGE)), ("the first page of the area", at + 4, word(area)), ("the last page of the area", at + 4, word(area + 0x3F00)), ("the page after the area, in the read-only one", at + 4, word(area + 0x4000))]
    yield from [("a page of the other partition", at + 4, word(start(1) + 0x1000)), ("the last page of all", at + 4, word(0xFFFFFF00)), ("a page as it was loaded", at + 8, loaded.read(address, PAGE))]
    yield ("a page of zeros", at + 8, before)


def moved_pages(base: Base) -> Iterator[tuple[str, bytes]]:
    """Pages of partition 1, whose memory is the last of the file: those of its writable area, and of its read-only one."""
    at, area, file = base.last_pages, start(1), base.file
    count = base.number(at, 4)
    end = at + 4 + count * (4 + PAGE)
    page = lambda address, value: word(address) + one(value) * PAGE
    pages = lambda *both: b"".join(word(len(some)) + b"".join(some) for some in both)
    made = lambda *both: with_more(file[:at] + bytes(16), at, pages(*both))
    assert end + 4 + 16 == len(file)
    yield "both areas without a page", made([], [])
    yield "the first and the last page of each area", made([page(area, 1), page(area + 0x3F00, 2)], [page(area + 0x4000, 3), page(area + 0x4F00, 4)])
    yield "pages that fall", made([page(area + 0x3F00, 1), page(area, 2)], [])
    yield "a page twice", made([page(area, 1), page(area, 2)], [])
    yield "a page of the first area in the second", made([], [page(area + 0x3F00, 1)])
    yield "a page of the second area in the first", made([page(area + 0x4000, 1)], [])
    yield "a page after the second area", made([], [page(area + 0x5000, 1)])
    yield "zeros where zeros are", made([page(area + 0x3E00, 0)], [])
    yield "a number of pages less", with_more(file[:at] + bytes(16), at, word(0) + page(area, 1) + word(0))


def edited(base: Base) -> Iterator[tuple[str, bytes]]:
    ticks = base.number(26, 8)
    edits = [*head_edits(base), *channel_edits(base), *processor_edits(base.first, ticks), *timer_edits(base.first), *store_edits(base.first, ticks)]
    for shows, place, value in [*edits, *page_edits(base)]:
        yield shows, with_bytes(base.file, (place, value))
    yield from moved_pages(base)
    yield "a byte before the digest", with_more(base.file, len(base.file) - 16, one(0))
    for length in (10, 26, 58, base.channels + 9, base.first, base.first + 80, base.first + LOGS, base.words, base.pages, base.pages + 4, base.pages + 8, base.second, len(base.file) - 17):
        yield f"cut at {length}", cut(base.file, length)


def damaged(base: Base) -> Iterator[tuple[str, bytes]]:
    """Without a new digest: each byte of the head and of what the channels hold, and one of each further field, and lengths."""
    fields = [0, 1, 2, 6, 10, 18, 22, 26, 30, 31, 32, 33, 34, 38, 42, 46, 47, 55, 63, 80, 84, 88, 120, LOGS, LOGS + 8, HEALTH, HEALTH + 8, PARTITION - 1]
    places = [*range(base.first), *(base.first + place for place in fields), base.words, base.pages, base.second, len(base.file) - 17, len(base.file) - 16, len(base.file) - 1]
    for place in places:
        changed = bytearray(base.file)
        changed[place] ^= 1
        yield f"byte {place}", bytes(changed)
    for length in (0, 1, 3, 4, 5, 6, 9, 10, 15, 16, 25, 26, 41, 42, base.first, len(base.file) - 16, len(base.file) - 1):
        yield f"{length} bytes", base.file[:length]
    yield "a byte more", base.file + one(0)


def entry_near(name: str, content: bytes, known: str, other: bytes) -> list[str]:
    """A file by the bytes that another one does not have."""
    source = [f'of = "{known}"', f"length = {len(content)}"]
    return bytes_entry(name, source, differing(content, other[: len(content)].ljust(len(content), b"\0")))


class Trials:
    """Rows of runs that go on from files like the base, by what the second simulator answers."""

    def __init__(self, base: Base) -> None:
        self.base, self.folder = base, tempfile.TemporaryDirectory()
        self.path = Path(self.folder.name)
        (self.path / BASE_BOX).write_bytes(base.content)

    def answer(self, words: list[str]) -> str:
        """What a row says of the answer: its report, or its refusal with the file."""
        try:
            return out_entry(run_words(words, self.path)[0])
        except Refusal as refusal:
            name, fault = str(refusal).split(": ", 1)
            return f'refused = "{fault}", of_file = "{name}", absent = ["{CORE}"]'

    def row(self, shows: str, content: bytes) -> str:
        """What is taken is saved again as it is, and goes on."""
        (self.path / SAVED).write_bytes(content)
        made = f"make = {{ {self.source(content)} }}"
        answer = self.answer([BASE_BOX, "--from", SAVED, "--ticks", str(MORE)])
        if answer.startswith("refused"):
            return f'  {{ shows = "{shows}", {made}, {answer} }},'
        if run_words([BASE_BOX, "--from", SAVED, "--ticks", "0", "--save", AGAIN], self.path)[1][AGAIN] != content:
            sys.exit(f"{shows}: saved again as another file")
        calls = f'"run {BASE_BOX} --from {SAVED} --ticks 0 --save {AGAIN}", "run {BASE_BOX} --from {AGAIN} --ticks {MORE}"'
        return f'  {{ shows = "{shows}", {made}, calls = [{calls}], {answer}, same = {{ {AGAIN} = "{SAVED}" }} }},'

    def source(self, content: bytes) -> str:
        """How the file is made of the base."""
        old = self.base.file
        if len(content) == len(old):
            return f"bytes = {[[place, value] for place, value in differing(content, old)]}"
        same = next((place for place, (byte, other) in enumerate(zip(content, old)) if byte != other and place >= 10), min(len(old), len(content)))
        head = [[place, content[place]] for place in range(6, min(10, same)) if content[place] != old[place]]
        more = f', append_hex = "{content[same:].hex()}"' if content[same:] else ""
        return f"length = {same}" + (f", bytes = {head}" if head else "") + more


def wrong_groups(base: Base, fronts: Fronts) -> Iterator[str]:
    trials = Trials(base)
    yield from fronts.container_entry(BASE_BOX, base_system(), [f"{BASE_BOX}:", *settings(base_system()), *listed(base_system())])
    yield from bytes_entry(BASE, ['hex = ""', f"length = {len(base.file)}"], differing(base.file, bytes(len(base.file))))
    for name, files in (("saved machines that are damaged", damaged(base)), ("saved machines with other fields and a new digest", edited(base))):
        yield from ["[[group]]", f'name = "{name}"', f'call = "run {BASE_BOX} --from {SAVED} --ticks {MORE}"']
        yield from [f'make = {{ name = "{SAVED}", of = "{BASE}" }}', f'file = ["{BASE_BOX}"]', "case = ["]
        yield from (trials.row(shows, content) for shows, content in files)
        yield from ["]", ""]


# Runs that are refused, and words.


def other_groups(base: Base, fronts: Fronts) -> Iterator[str]:
    """Refusals of runs that go on from the base or that are saved, and words."""
    yield from file_entry("other version", hex_lines(container(base_system(), 2)))
    yield from file_entry("odd words", ["0102030405"])
    yield from ["[[group]]", 'name = "runs from a saved machine that are refused"', "case = [", *refused_rows(base), "]", ""]
    yield from ["[[group]]", 'name = "runs from a saved machine"', "case = [", *taken_rows(base), "]", ""]
    yield from ["[[group]]", 'name = "words of runs that are saved or go on"', f'file = ["{BASE_BOX}", "{SAVED}={BASE}", "w=odd words"]', "case = ["]
    for shows, words in WRONG_WORDS.items():
        yield f'  {{ shows = "{shows}", call = "run {BASE_BOX} {words}", usage = true, absent = ["{AGAIN}", "{CORE}"] }},'
    yield from ["]", ""]
    yield from ["[[group]]", 'name = "saves where a device fails"', f'file = ["{BASE_BOX}", "{SAVED}={BASE}"]', "case = [", *device_rows(base), "]", ""]
    yield from long_group(fronts)


WRONG_WORDS = {
    "input words for a machine that is saved": f"--from {SAVED} --ticks 5 --input 0=w", "and before it": f"--input 0=w --from {SAVED} --ticks 5",
    "a script of what comes after": f"--from {SAVED} --ticks 5 --script 0={CORE}", "two saved machines": f"--from {SAVED} --from {SAVED} --ticks 5",
    "two files to save": f"--ticks 5 --save {AGAIN} --save {CORE}", "no length": f"--from {SAVED}", "no file": f"--ticks 5 --from",
    "no file to save": "--ticks 5 --save", "an option instead of the file": f"--from --ticks 5", "an option instead of the file to save": "--save --ticks 5",
    "an empty name": "--ticks 5 --from ", "an empty name to save": "--ticks 5 --save ", "a partition's saved machine": f"--ticks 5 --froms 0={SAVED}",
    "both lengths": f"--from {SAVED} --ticks 5 --frames 1",
}


def at_limit(base: Base) -> bytes:
    """The base after 4000000000 ticks, of which most were before a reset of all."""
    return with_bytes(base.file, (26, double(MOST_TICKS)))


class Calls:
    """Rows of whole command lines over files."""

    def __init__(self, base: Base, **files: bytes) -> None:
        self.trials = Trials(base)
        for name, content in files.items():
            (self.trials.path / name).write_bytes(content)

    def row(self, shows: str, words: str, files: list[str], made: str = "") -> str:
        answer = self.trials.answer(words.split(" "))
        return f'  {{ shows = "{shows}", call = "run {words}", file = [{files_value(files)}]{made}, {answer} }},'


def base_bytes(base: Base, content: bytes) -> str:
    return f'make = {{ name = "{SAVED}", of = "{BASE}", bytes = {[[place, value] for place, value in differing(content, base.file)]} }}'


def refused_rows(base: Base) -> Iterator[str]:
    ticks = base.number(26, 8)
    files, box = [BASE_BOX, f"{SAVED}={BASE}"], BASE_BOX
    other = container(base_system(), 2)
    calls = Calls(base, **{SAVED: base.file, "other.box": other, "w": bytes(5), "x": b"XMSM"})
    yield calls.row("of the same system in another version", f"other.box --from {SAVED} --ticks 5", ["other.box=other version", f"{SAVED}={BASE}"])
    yield calls.row("of no container", f"{SAVED} --from {SAVED} --ticks 5", [f"{SAVED}={BASE}"])
    yield calls.row("the container instead of the saved machine", f"{box} --from {box} --ticks 5", [box])
    yield calls.row("more ticks than a run may have", f"{box} --from {SAVED} --ticks {MOST_TICKS - ticks + 1}", files)
    yield calls.row("more frames than a run may have", f"{box} --from {SAVED} --frames {MOST_TICKS // 1000} --core 0={CORE}", files)
    for shows, lines in {
        "an upset before the first tick": [f"{ticks - 1} 0 y 0"], "an upset in tick 0": ["0 0 y 0"], "an upset before the first tick and others": [f"{ticks - 1} 0 y 0", f"{ticks} 0 y 0"],
        "a second line before the first tick": [f"{ticks} 0 y 0", f"{ticks - 1} 0 y 0"], "an upset in the tick after the last one": [f"{ticks + 4} 0 y 0", f"{ticks + 5} 0 y 0"],
        "an upset that is malformed": [f"{ticks} 0 g0 0"], "an upset of no partition, before the first tick": ["0 2 y 0"],
    }.items():
        (calls.trials.path / UPSET_FILE).write_text(text_of(lines))
        yield calls.row(shows, f"{box} --from {SAVED} --ticks 5 --upset {UPSET_FILE} --save {AGAIN} --core 0={CORE}", files, made_value(lines))
    (calls.trials.path / UPSET_FILE).write_text("y\n")
    (calls.trials.path / SAVED).write_bytes(base.file[:-1])
    made = f', make = {{ name = "{SAVED}", of = "{BASE}", length = {len(base.file) - 1} }}'
    yield calls.row("a file that is cut, before ticks that are too many and before upsets", f"{box} --from {SAVED} --ticks {MOST_TICKS} --upset w", [box, "w=odd words"], made)
    yield calls.row("a partition that is not there, before a file that is cut", f"{box} --from {SAVED} --ticks 5 --core 2={CORE}", [box], made)
    (calls.trials.path / SAVED).write_bytes(at_limit(base))
    made = ", " + base_bytes(base, at_limit(base))
    yield calls.row("one tick past the last", f"{box} --from {SAVED} --ticks 1", [box], made)
    yield calls.row("ticks that are too many, before upsets", f"{box} --from {SAVED} --ticks 1 --upset w", [box, "w=odd words"], made)
    long = f', make = {{ name = "{SAVED}", hex = "", length = {MOST_BYTES + 1} }}'
    yield f'  {{ shows = "a file that is too long", call = "run {box} --from {SAVED} --ticks 1", file = ["{box}"]{long}, refused = "too-long", of_file = "{SAVED}" }},'
    err = text_value("xm_run: none: cannot read\n")
    yield f'  {{ shows = "a file that is not there", call = "run {box} --from none --ticks 1", file = ["{box}"], status = "ReadFault", err = {err} }},'


def taken_rows(base: Base) -> Iterator[str]:
    ticks = base.number(26, 8)
    files, box = [BASE_BOX, f"{SAVED}={BASE}"], BASE_BOX
    calls = Calls(base, **{SAVED: base.file})
    for span in ("--ticks 50", "--ticks 51", "--frames 0", "--frames 1", "--frames 2"):
        yield calls.row(span, f"{box} --from {SAVED} {span}", files)
    lines = [f"{ticks} 0 y 0", f"{ticks + 4} 1 y 0"]
    (calls.trials.path / UPSET_FILE).write_text(text_of(lines))
    for words in (f"--from {SAVED} --ticks 5 --upset {UPSET_FILE}", f"--upset {UPSET_FILE} --ticks 5 --from {SAVED}", f"--ticks 5 --core 0={CORE} --from {SAVED} --upset {UPSET_FILE} --save {AGAIN}"):
        yield calls.row(f"in the order {words}", f"{box} {words}", files, made_value(lines))
    made = f', make = {{ name = "{UPSET_FILE}", hex = "" }}'
    (calls.trials.path / UPSET_FILE).write_bytes(b"")
    yield calls.row("no line of upsets", f"{box} --from {SAVED} --ticks 5 --upset {UPSET_FILE}", files, made)
    (calls.trials.path / SAVED).write_bytes(at_limit(base))
    yield calls.row("no tick after 4000000000", f"{box} --from {SAVED} --ticks 0", [box], ", " + base_bytes(base, at_limit(base)))
    machine = Machine(base.system)
    machine.run(40)
    machine.run(60)
    report = machine.run(100)
    step = lambda origin, count, save: f'"run {box} {origin}--ticks {count}{save}"'
    again, over = f"--from {SAVED} ", f" --save {SAVED}"
    calls_of_it = [step("", 40, over), step(again, 60, over), step(again, 100, "")]
    known = f'same = {{ {SAVED} = "saved after 100 ticks" }}'
    yield f'  {{ shows = "three runs, each from the file of the one before, which is written over", calls = [{", ".join(calls_of_it)}], file = ["{box}"], {out_entry(report)}, {known} }},'


def after_100(base: Base) -> bytes:
    machine = Machine(base.system)
    machine.run(100)
    return saved_file(machine, base.digest)


def device_rows(base: Base) -> Iterator[str]:
    machine = read_saved(base.file, base.system, base.digest, Machine)
    out = out_entry(machine.run(5))
    call = f'call = "run {BASE_BOX} --from {SAVED} --ticks 5 --core 0={CORE} --save {AGAIN}"'
    for shows, number, status, name, more in (("the read of the saved machine", 1, "ReadFault", SAVED, f'absent = ["{CORE}", "{AGAIN}"]'),
                                              ("the write of the core file", 2, "WriteFault", CORE, f'{out}, absent = ["{CORE}", "{AGAIN}"]'),
                                              ("the write of the saved machine", 3, "WriteFault", AGAIN, f'{out}, absent = ["{AGAIN}"]')):  # fmt: skip
        verb = "read" if status == "ReadFault" else "write"
        err = text_value(f"xm_run: {name}: cannot {verb}\n")
        yield f'  {{ shows = "{shows}", {call}, fails = {{ files = [{number}] }}, status = "{status}", err = {err}, {more} }},'
    cut_off = "SYSTEM par"
    err = text_value("xm_run: report: cannot write\n")
    yield f'  {{ shows = "the report", {call}, fails = {{ out = [1], out_step = {len(cut_off)} }}, status = "WriteFault", out = "{cut_off}", err = {err}, absent = ["{AGAIN}"] }},'


# The longest file.

LONG_BOX, LONG_AREA = "long.box", 0x1080000
ROUND_TICKS = 4  # in each of which one byte is stored


def long_system() -> System:
    """A partition that stores a byte in one page after the other."""
    program = Guest(FIRST).set(FIRST + 0x1000, "l0").mov(1, "l1").set(-PAGE, "l2")
    program.label("again").op("add", "l0", PAGE, "l0").mem("stb", "l1", "l0").branch("a", "again").nop()
    content = program.bytes()
    part = Part("long", [Area(FIRST, LONG_AREA)], image(FIRST, content))
    part.image.guest = program
    return System("long", [(0x40000000, 0x4000000)], 0x10000, [Plan(1000, [Slot(0, 1000, 0)])], [part])


def long_group(fronts: Fronts) -> Iterator[str]:
    """As many pages as a file may have, and one more."""
    system = read_container(container(long_system()))
    digest = container(system)[-16:]
    machine = Machine(system)
    machine.run(1000)
    machine.run((MOST_BYTES - len(saved_file(machine, digest))) // (4 + PAGE) * ROUND_TICKS - ROUND_TICKS)
    while len(saved_file(machine, digest)) <= MOST_BYTES:
        machine.run(1)
    over = machine.done
    fits = Machine(system)
    fits.run(over - 1)
    length, found = len(saved_file(fits, digest)), len(saved_file(machine, digest))
    yield from fronts.container_entry(LONG_BOX, long_system(), [f"{LONG_BOX}: a byte in one page after the other", *listed(long_system())])
    yield from ["[[group]]", 'name = "the longest saved machines"', f'file = ["{LONG_BOX}"]', "case = ["]
    first, then = f"run {LONG_BOX} --ticks {over - 1} --save {SAVED}", f"run {LONG_BOX} --from {SAVED} --ticks 10"
    yield f'  {{ shows = "{length} bytes", calls = ["{first}", "{then}"], {out_entry(fits.run(10))} }},'
    more = f'refused = "length found={found}", of_file = "{SAVED}", absent = ["{SAVED}", "{CORE}"]'
    yield f'  {{ shows = "a page more", call = "run {LONG_BOX} --ticks {over} --core 0={CORE} --save {SAVED}", {more} }},'
    yield f'  {{ shows = "a page more, with upsets that are refused", call = "run {LONG_BOX} --ticks {over} --save {SAVED} --upset {UPSET_FILE}", make = {{ name = "{UPSET_FILE}", text = "y\\n" }}, refused = "bad-tick line=1", of_file = "{UPSET_FILE}", absent = ["{SAVED}"] }},'
    yield "]"


def book() -> str:
    all_cases()
    shelf, base = Shelf(), Base()
    title = "Machines that are saved, runs that go on from them, and files that are no saved machine."
    lines = comment([title, *LEGEND.splitlines(), *SAVES_LEGEND.splitlines()])
    for name, saves in GROUPS.items():
        lines += group(name, saves(), shelf)
    lines += ["", *wrong_groups(base, shelf.fronts), *entry_near("saved after 100 ticks", after_100(base), BASE, base.file), *other_groups(base, shelf.fronts)]
    return "".join(f"{line}\n" for line in lines)


def main() -> int:
    if len(sys.argv) != 2:
        print(__doc__, file=sys.stderr)
        return 2
    (Path(sys.argv[1]) / "saves.toml").write_text(book(), encoding="utf-8")
    return 0


if __name__ == "__main__":
    sys.exit(main())
