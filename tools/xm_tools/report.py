"""Reads the report of a run: its lines, each with its tick and its partition, and how each partition ended."""

import functools
import re
from dataclasses import dataclass, field

from xm_tools.failure import Unusable
from xm_tools.files import content_of
from xm_tools.reference import reference
from xm_tools.values import ACTION, EVENT

NUMBER = "(0|[1-9][0-9]{0,9})"
MOST_TICKS = 4000000000
CONSOLE_BYTES = 1024
BYTE = r"(?:[ -\[\]-~]|\\\\|\\n|\\x(?:0[0-9b-f]|1[0-9a-f]|7f|[89a-f][0-9a-f]))"
SYSTEM = re.compile(f"SYSTEM parts={NUMBER} plans={NUMBER} ticks={NUMBER}")
TICK = re.compile(rf"\[{NUMBER}\] (?:P{NUMBER}|XM) ([A-Z]+)(?: (.*))?")
END_PARTITION = re.compile(f"END P{NUMBER} (ready|idle|suspended|halted) resets={NUMBER} exec={NUMBER} pc=([0-9a-f]{{8}})")
END_SYSTEM = re.compile(f"END XM (running|halted) plan={NUMBER} clock={NUMBER} ticks={NUMBER}")
CHANGES = ("HALT", "SUSPEND", "RESUME", "COLD", "WARM")
# The forms of what follows the kind of a line, for partitions and for the hypervisor.
OWN = {
    "CON": re.compile(f"{BYTE}+"),
    "TRACE": re.compile("[0-9a-f]{8} [0-9a-f]{16}"),
    "HM": re.compile(f"{EVENT}([A-Z_]+) [0-9a-f]{{8}} {ACTION}([A-Z_]+)"),
    "UPSET": re.compile(f"(g[1-7]|w{NUMBER}|[0-9a-f]{{8}}|pc|npc|y|icc|hw|exec|tbr|mask|pending) bit {NUMBER}"),
}
# The bits of the places of upsets that are not those of a word: the first, and the one after the last.
BITS = {"pc": (2, 32), "npc": (2, 32), "icc": (0, 4), "hw": (0, 63), "exec": (0, 63), "tbr": (12, 32)}
MOST_WINDOWED = 127
WHOLE = {"PLAN": re.compile(NUMBER)}
NO_TEXT = {"CON": "no console text", "TRACE": "no trace", "HM": "no health event", "UPSET": "no upset", "PLAN": "no line of a report"}
ESCAPE = re.compile(r"\\(\\|n|x[0-9a-f]{2})")


@functools.cache
def event_names() -> frozenset[str]:
    return frozenset(event.name for event in reference().events)


def is_upset(found: re.Match[str]) -> bool:
    """Whether the place of an upset has its bit."""
    place, register, bit = found[1], found[2], int(found[3])
    first, end = BITS.get(place, (0, 8) if len(place) == 8 else (0, 32))
    return first <= bit < end and (register is None or int(register) <= MOST_WINDOWED)


@dataclass(frozen=True, slots=True)
class Line:
    """A line of a tick. `partition` is None for a line of the hypervisor; `text` is what follows the kind."""

    number: int
    tick: int
    partition: int | None
    kind: str
    text: str

    @property
    def owner(self) -> str:
        return "XM" if self.partition is None else f"P{self.partition}"

    def shown(self) -> str:
        return f"[{self.tick}] {self.owner} {self.kind}" + (f" {self.text}" if self.text else "")

    def written(self) -> bytes:
        """The bytes that a console line stands for."""

        def byte(found: re.Match[str]) -> str:
            mark = found[1]
            return {"\\": "\\", "n": "\n"}.get(mark) or chr(int(mark[1:], 16))

        return ESCAPE.sub(byte, self.text).encode("latin-1")


@dataclass(frozen=True)
class End:
    """How a partition ended."""

    state: str
    resets: int
    executed: int
    pc: int

    def shown(self, owner: str) -> str:
        return f"END {owner} {self.state} resets={self.resets} exec={self.executed} pc={self.pc:08x}"


@dataclass
class Report:
    path: str
    partitions: int = 0
    plans: int = 0
    asked: int = 0
    lines: list[Line] = field(default_factory=list)
    ends: list[End] = field(default_factory=list)
    state: str = ""
    plan: int = 0
    clock: int = 0
    ticks: int = 0

    @property
    def end(self) -> int:
        """The tick after the last one: that in which the hypervisor halts is not counted, but it ran."""
        return self.ticks + (self.state == "halted")

    def lines_of(self, partition: int | None) -> list[Line]:
        return [line for line in self.lines if line.partition == partition]


class Reader:
    """Takes the lines of a report, one after the other."""

    def __init__(self, path: str) -> None:
        self.report = Report(path)
        self.number = 0
        self.halted: int | None = None

    def fail(self, reason: str) -> Unusable:
        return Unusable(f"{self.report.path}:{self.number}: {reason}")

    def take(self, line: str) -> None:
        self.number += 1
        if self.report.state:
            raise self.fail("a line after the last one")
        if self.number == 1:
            self.take_system(line)
        elif line.startswith("END XM "):
            self.take_end(line)
        elif line.startswith("END "):
            self.take_end_partition(line)
        else:
            self.take_tick(line)

    def take_system(self, line: str) -> None:
        found = SYSTEM.fullmatch(line)
        if not found or int(found[3]) > MOST_TICKS or not 1 <= int(found[1]) <= 32 or not 1 <= int(found[2]) <= 8:
            raise self.fail("not the first line of a report")
        self.report.partitions, self.report.plans, self.report.asked = (int(number) for number in found.groups())

    def take_tick(self, line: str) -> None:
        found = TICK.fullmatch(line)
        if not found:
            raise self.fail("no line of a report")
        partition = None if found[2] is None else int(found[2])
        taken = Line(self.number, int(found[1]), partition, found[3], found[4] or "")
        fault = self.fault_of(taken) or ("no line of a report" if found[4] == "" else self.fault_in_time(taken.tick))
        if fault:
            raise self.fail(fault)
        if (taken.partition, taken.kind) == (None, "HALT"):
            self.halted = taken.tick
        self.report.lines.append(taken)

    def fault_of(self, line: Line) -> str | None:
        """Why a line is none of this report, whatever its tick."""
        if line.partition is not None and line.partition >= self.report.partitions:
            return f"P{line.partition} is no partition"
        forms = WHOLE if line.partition is None else OWN
        if line.kind not in forms:
            changes = ("HALT", "COLD", "WARM") if line.partition is None else CHANGES
            return None if line.kind in changes and not line.text else "no line of a report"
        found = forms[line.kind].fullmatch(line.text)
        if not found:
            return NO_TEXT[line.kind]
        if line.kind == "HM" and (found[1] not in event_names() or found[2] not in reference().actions):
            return "no health event"
        if line.kind == "UPSET" and not is_upset(found):
            return "no upset"
        if line.kind == "PLAN" and int(line.text) >= self.report.plans:
            return f"{line.text} is no plan"
        if line.kind == "CON" and len(line.text) > CONSOLE_BYTES and len(line.written()) > CONSOLE_BYTES:
            return f"a console text of more than {CONSOLE_BYTES} bytes"
        return None

    def fault_in_time(self, tick: int) -> str | None:
        """Why a line of a tick does not follow."""
        last = self.report.lines[-1].tick if self.report.lines else 0
        if self.report.ends or self.halted is not None:
            return "a tick after the run's end"
        if tick >= self.report.asked:
            return f"tick {tick} of a run of {self.report.asked}"
        return f"tick {tick} after tick {last}" if tick < last else None

    def take_end_partition(self, line: str) -> None:
        found = END_PARTITION.fullmatch(line)
        if not found or int(found[1]) != len(self.report.ends) or len(self.report.ends) == self.report.partitions:
            raise self.fail("not the next line of a report's end")
        self.report.ends.append(End(found[2], int(found[3]), int(found[4]), int(found[5], 16)))

    def take_end(self, line: str) -> None:
        found = END_SYSTEM.fullmatch(line)
        if not found or len(self.report.ends) != self.report.partitions or int(found[2]) >= self.report.plans:
            raise self.fail("not the next line of a report's end")
        state, done, asked = found[1], int(found[4]), self.report.asked
        wanted = ("running", asked) if self.halted is None else ("halted", self.halted)
        # A run from a saved machine that had halted does nothing: no line says when it did.
        if (state, done) != wanted and not (state == "halted" and not self.report.lines and done <= asked):
            raise self.fail(f"by the lines before it is {wanted[0]} ticks={wanted[1]}")
        self.report.state, self.report.plan, self.report.clock, self.report.ticks = state, int(found[2]), int(found[3]), done


def take_all(reader: Reader, content: bytes) -> None:
    """Has a reader take the lines of a file; afterwards its number is that of the line after the last one."""
    lines = content.split(b"\n")
    for line in lines[:-1]:
        try:
            reader.take(line.decode("ascii"))
        except UnicodeDecodeError:
            reader.number += 1
            raise reader.fail("a byte that is not ASCII") from None
    reader.number += 1
    if lines[-1]:
        raise reader.fail("a line without an end")


def report_of(path: str, content: bytes) -> Report:
    """The report in a file's bytes, by the name of the file. What is none is Unusable, with its line."""
    reader = Reader(path)
    take_all(reader, content)
    if not reader.report.state:
        raise reader.fail("the report ends without its END lines")
    return reader.report


def read_report(path: str) -> Report:
    return report_of(path, content_of(path))


# A partition in isolation.


@dataclass
class Alone:
    """What `xm_run alone` prints: the lines of one partition, and its end."""

    path: str
    partition: int
    lines: list[Line]
    end: End


class AloneReader(Reader):
    """Takes the lines that `alone` prints: those of one partition, in the order of ticks, and the one of its end."""

    def __init__(self, path: str) -> None:
        super().__init__(path)
        self.report.partitions, self.report.plans, self.report.asked = 32, 8, MOST_TICKS

    def take(self, line: str) -> None:
        self.number += 1
        if line.startswith("END "):
            self.take_end_alone(line)
        else:
            self.take_tick(line)
            if self.report.lines[-1].partition != self.report.lines[0].partition or self.report.lines[0].partition is None:
                raise self.fail("a line of another partition")

    def take_end_alone(self, line: str) -> None:
        found = END_PARTITION.fullmatch(line)
        owners = {one.partition for one in self.report.lines}
        if not found or self.report.ends or int(found[1]) > 31 or not owners <= {int(found[1])}:
            raise self.fail("not the last line of what `alone` prints")
        self.partition = int(found[1])
        self.report.ends.append(End(found[2], int(found[3]), int(found[4]), int(found[5], 16)))


def read_alone(path: str) -> Alone:
    """What `alone` printed into a file. What is none is Unusable, with its line."""
    reader = AloneReader(path)
    take_all(reader, content_of(path))
    if not reader.report.ends:
        raise reader.fail("neither a report nor what `alone` prints")
    return Alone(path, reader.partition, reader.report.lines, reader.report.ends[0])
