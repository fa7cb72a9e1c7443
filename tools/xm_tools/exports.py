"""A report in the forms of other tools. With a system it has the names of partitions, the plans and the slots."""

import csv
import io
import json
from collections.abc import Iterator
from dataclasses import dataclass
from typing import Any

from xm_tools.building import words_of_partitions
from xm_tools.core import STATES
from xm_tools.course import HALTED, READY, SILENT, SUSPENDED, Course, Interval
from xm_tools.failure import Unusable
from xm_tools.following import STATE_CHANGES
from xm_tools.report import End, Line, Report

MOST_SLOTS = 1000000
# The numbers of states are those of core files.
STATE_NUMBERS = {state: STATES.index(state) for state in (READY, SUSPENDED, HALTED)}


@dataclass(frozen=True)
class Run:
    """A report, and the course of its run where the system is given."""

    report: Report
    course: Course | None

    def name(self, partition: int | None) -> str:
        if partition is None:
            return "XM"
        return self.course.system.names[partition] if self.course else f"P{partition}"

    def slots(self) -> Iterator[tuple[int, Interval]]:
        """The slots of all partitions, where there is a course that has them."""
        if self.course is None:
            return iter(())
        if self.course.slot_count(0, self.course.end) > MOST_SLOTS:
            raise Unusable(f"{self.report.path}: more than {MOST_SLOTS} slots: leave --system out")
        if not self.course.is_sure:
            raise Unusable(f"{self.report.path}: {SILENT}: leave --system out")
        return self.course.slots(0, self.course.end)


def line_record(run: Run, line: Line) -> dict[str, Any]:
    return {"tick": line.tick, "owner": line.owner, "name": run.name(line.partition), "kind": line.kind, "text": line.text}


def end_record(run: Run, partition: int, end: End) -> dict[str, Any]:
    numbers = {"resets": end.resets, "exec": end.executed, "pc": end.pc}
    return {"owner": f"P{partition}", "name": run.name(partition), "state": end.state, **numbers}


def as_json(run: Run) -> str:
    report = run.report
    lines = [line_record(run, line) for line in report.lines]
    ends = [end_record(run, partition, end) for partition, end in enumerate(report.ends)]
    whole = {"state": report.state, "plan": report.plan, "clock": report.clock, "ticks": report.ticks, "asked": report.asked}
    return json.dumps({"lines": lines, "ends": ends, "system": whole}, indent=1) + "\n"


def as_csv(run: Run) -> str:
    out = io.StringIO()
    rows = csv.DictWriter(out, ["tick", "owner", "name", "kind", "text"], lineterminator="\n")
    rows.writeheader()
    rows.writerows(line_record(run, line) for line in run.report.lines)
    return out.getvalue()


# A value change dump, for GTKWave and others.


class Dump:
    """Variables of a value change dump, and their changes by ticks."""

    def __init__(self, run: Run) -> None:
        self.words = words_of_partitions(run.course.system) if run.course else {}
        self.identifiers: dict[tuple[int | None, str], str] = {}
        self.head: list[str] = ["$timescale 1us $end", "$scope module run $end"]
        self.changes: dict[int, list[str]] = {0: [], run.report.end: []}

    def declare(self, owner: int | None, kind: str, size: int, name: str) -> None:
        number = len(self.identifiers)
        identifier = chr(33 + number % 94) + (chr(33 + number // 94) if number >= 94 else "")
        self.identifiers[owner, name] = identifier
        self.head.append(f"$var {kind} {size} {identifier} {name} $end")

    def change(self, tick: int, owner: int | None, name: str, value: str) -> None:
        space = "" if value in ("0", "1") else " "
        self.changes.setdefault(tick, []).append(f"{value}{space}{self.identifiers[owner, name]}")

    def number(self, tick: int, owner: int | None, name: str, value: int) -> None:
        self.change(tick, owner, name, f"b{value:b}")

    def scope_of_all(self) -> None:
        self.head.append("$scope module XM $end")
        self.declare(None, "reg", 4, "plan")
        self.number(0, None, "plan", 0)
        self.head.append("$upscope $end")

    def scope(self, partition: int, has_slots: bool) -> None:
        self.head.append(f"$scope module {self.words.get(partition, f'P{partition}')} $end")
        self.declare(partition, "reg", 2, "state")
        self.number(0, partition, "state", 0)
        for name in ("CON", "HM", "TRACE", "UPSET"):
            self.declare(partition, "event", 1, name)
        self.declare(partition, "string", 1, "text")
        if has_slots:
            self.declare(partition, "wire", 1, "slot")
            self.change(0, partition, "slot", "0")
        self.head.append("$upscope $end")

    def line(self, line: Line) -> None:
        if line.kind == "PLAN":
            self.number(line.tick + 1, None, "plan", int(line.text))
        elif line.partition is None:
            if line.kind != "HALT":
                self.number(line.tick + 1, None, "plan", 0)
        elif line.kind in STATE_CHANGES:
            self.number(line.tick + 1, line.partition, "state", STATE_NUMBERS[STATE_CHANGES[line.kind][0]])
        else:
            self.change(line.tick, line.partition, line.kind, "1")
            self.change(line.tick, line.partition, "text", "s" + line.text.replace(" ", "_"))

    def text(self) -> str:
        lines = [*self.head, "$upscope $end", "$enddefinitions $end"]
        for tick in sorted(self.changes):
            lines += [f"#{tick}", *self.changes[tick]]
        return "\n".join(lines) + "\n"


def as_vcd(run: Run) -> str:
    slots, dump = run.slots(), Dump(run)
    dump.scope_of_all()
    for partition in range(run.report.partitions):
        dump.scope(partition, run.course is not None)
    for line in run.report.lines:
        dump.line(line)
    for partition, slot in slots:
        dump.change(slot.begin, partition, "slot", "1")
        dump.change(slot.end, partition, "slot", "0")
    return dump.text()


# A trace for Perfetto and chrome://tracing.


def thread(owner: int | None) -> int:
    return 0 if owner is None else owner + 1


def bar(partition: int, ticks: Interval, name: str) -> dict[str, Any]:
    return {"ph": "X", "ts": ticks.begin, "dur": ticks.ticks, "pid": 1, "tid": thread(partition), "name": name}


def perfetto_events(run: Run) -> Iterator[dict[str, Any]]:
    slots = run.slots()
    yield {"ph": "M", "pid": 1, "name": "process_name", "args": {"name": run.course.system.name if run.course else "run"}}
    for owner in (None, *range(run.report.partitions)):
        yield {"ph": "M", "pid": 1, "tid": thread(owner), "name": "thread_name", "args": {"name": run.name(owner)}}
    for line in run.report.lines:
        text = f"{line.kind} {line.text}".strip()
        yield {"ph": "i", "s": "t", "ts": line.tick, "pid": 1, "tid": thread(line.partition), "name": text}
    for partition, slot in slots:
        yield bar(partition, slot, "slot")
    for partition in range(run.report.partitions):
        for state in (SUSPENDED, HALTED):
            yield from (bar(partition, found, state) for found in in_state(run, partition, state))


def in_state(run: Run, partition: int, state: str) -> Iterator[Interval]:
    return run.course.in_state(partition, state, 0, run.course.end) if run.course else iter(())


def as_perfetto(run: Run) -> str:
    return json.dumps({"displayTimeUnit": "ms", "traceEvents": list(perfetto_events(run))}) + "\n"


FORMS = {"--json": as_json, "--csv": as_csv, "--vcd": as_vcd, "--perfetto": as_perfetto}
