"""Readers of files: reports, containers, scripts and core files of the suite and of the second simulator."""

from collections.abc import Iterator
from pathlib import Path
from typing import Any

import box
import pytest
from cases import CASES, RESETS, all_cases
from model import Machine

from conftest import ROOT, files_with, reports, suite
from xm_tools.container import read_container
from xm_tools.core import read_core
from xm_tools.course import HALTED, READY, SUSPENDED, Course
from xm_tools.description import read_description
from xm_tools.failure import Unusable
from xm_tools.following import course_of
from xm_tools.report import Line, Report, read_report
from xm_tools.script import Script, merged, read_script, spelled
from xm_tools.script_text import script_of, text_lines
from xm_tools.symbols import read_symbols

SENSOR = ROOT / "tools/xm_tests/data/sensor.elf"


# Reports.


def read(folder: Path, text: str) -> Report:
    path = folder / "report.txt"
    path.write_text(text)
    return read_report(str(path))


def shown(report: Report) -> str:
    lines = [f"SYSTEM parts={report.partitions} plans={report.plans} ticks={report.asked}"]
    lines += [line.shown() for line in report.lines]
    lines += [end.shown(f"P{number}") for number, end in enumerate(report.ends)]
    lines.append(f"END XM {report.state} plan={report.plan} clock={report.clock} ticks={report.ticks}")
    return "\n".join([*lines, ""])


def test_every_report_is_read_whole(tmp_path: Path) -> None:
    found = reports()
    assert len(found) > 500
    for name, text in found.items():
        assert shown(read(tmp_path, text)) == text, name


LINES = [
    "SYSTEM parts=1 plans=1 ticks=10",
    "[2] P0 CON a\\n",
    "[3] P0 HALT",
    "END P0 halted resets=0 exec=4 pc=40000000",
    "END XM running plan=0 clock=10 ticks=10",
]
BAD_REPORTS = [
    (1, "SYSTEM parts=0 plans=1 ticks=10", 0), (1, "SYSTEM parts=1 plans=1 ticks=4000000001", 0), (2, "[2] P1 CON a", 1), (2, "[2] P0 CON \\q", 1),
    (2, "[2] P0 CON " + 1025 * "a", 1), (2, "[10] P0 CON a", 1), (3, "[1] P0 HALT", 2), (3, "[3] P0 HALT ", 2), (3, "[3] XM PLAN 1", 2),
    (4, "END P1 halted resets=0 exec=4 pc=40000000", 3), (5, "END XM running plan=0 clock=10 ticks=9", 4), (5, "END XM halted plan=0 clock=10 ticks=10", 4),
]  # fmt: skip


@pytest.mark.parametrize("number, line, place", BAD_REPORTS)
def test_a_report_is_refused_at_its_line(tmp_path: Path, number: int, line: str, place: int) -> None:
    read(tmp_path, "\n".join([*LINES, ""]))
    with pytest.raises(Unusable, match=f"report.txt:{number}: "):
        read(tmp_path, "\n".join([*LINES[:place], line, *LINES[place + 1 :], ""]))


def test_the_bytes_of_a_console_line() -> None:
    assert Line(1, 0, 0, "CON", r"a\\b\n\x00\xff").written() == b"a\\b\n\0\xff"


# The course of a run.


class Watched(Machine):  # type: ignore[misc]
    """A machine that keeps whose slot each tick was, and in which state each partition was."""

    def __init__(self, system: Any, inputs: Any) -> None:
        super().__init__(system, inputs)
        self.owners: dict[int, int] = {}
        self.states: list[list[str]] = [[] for _ in self.parts]

    def tick(self) -> None:
        slot, tick = self.slot_now(), self.done
        if slot is not None:
            self.owners[tick] = self.system.plans[self.plan].slots[slot].part
        for part in self.parts:
            self.states[part.number].append("ready" if part.state == "idle" else part.state)
        super().tick()


def runs() -> Iterator[tuple[str, Any, int, Any]]:
    """Systems of the second simulator that run for few ticks and without resets from outside."""
    if not CASES:
        all_cases()
    for name, (system, words, inputs) in CASES.items():
        ticks = int(words[1]) if words[0] == "--ticks" else int(words[1]) * system.plans[0].frame
        if ticks <= 2000 and name not in RESETS:
            yield name, system, ticks, inputs


def states_of(course: Course, partition: int) -> list[str]:
    """The state of a partition in each tick."""
    found: dict[int, str] = {}
    for state in (READY, SUSPENDED, HALTED):
        for within in course.in_state(partition, state, 0, course.end):
            found.update(dict.fromkeys(range(within.begin, within.end), state))
    return [found[tick] for tick in range(course.end)]


def test_slots_and_states_of_a_run_are_those_of_the_machine(tmp_path: Path) -> None:
    """In each tick, over runs with other plans, halts and resets of the hypervisor."""
    tried = 0
    for name, system, ticks, inputs in runs():
        machine = Watched(system, inputs)
        report = read(tmp_path, machine.run(ticks))
        course = course_of(report, read_description("x", suite.description_text(system).encode()))
        if course.is_sure:
            slots = course.slots(0, report.end)
            assert {tick: partition for partition, slot in slots for tick in range(slot.begin, slot.end)} == machine.owners, name
            for partition, states in enumerate(machine.states):
                assert states_of(course, partition) == states, name
            tried += 1
    assert tried > 200


# Containers.


def fields(system: Any) -> list[Any]:
    """What a container has of a system, whoever read it."""
    return [
        system.name, [(region[0], region[1]) for region in system.regions], system.hypervisor_size, list(system.uarts),
        [(plan.frame, [(slot.start, slot.duration, slot.part) for slot in plan.slots]) for plan in system.plans],
        [[part.name, part.system, [(area.start, area.size, area.read_only) for area in part.areas], tuple(part.need),
          list(part.actions), part.logged, [(port.name, port.kind, port.way) for port in part.ports]] for part in system.parts],
        [[channel.kind, channel.length, channel.limit, len(channel.destinations)] for channel in system.channels],
        [(link.number, link.source, link.destination) for link in system.links],
    ]  # fmt: skip


def own_fields(system: Any) -> list[Any]:
    return [
        system.name, [(region.start, region.size) for region in system.regions], system.hypervisor_size, [uart.name for uart in system.uarts],
        [(plan.frame, [(slot.start, slot.duration, slot.partition) for slot in plan.slots]) for plan in system.plans],
        [[one.name, one.is_system, [(area.start, area.size, area.is_read_only) for area in one.areas],
          (one.need.duration, one.need.period) if one.need else (0, 0), [answer.action for answer in one.answers],
          sum(answer.is_logged << answer.event for answer in one.answers), [(port.name, port.is_queuing, not port.is_source) for port in one.ports]]
         for one in system.partitions],
        [[channel.is_queuing, channel.length, channel.limit, len(channel.destinations)] for channel in system.channels],
        [(link.number, link.source, link.destination) for link in system.links],
    ]  # fmt: skip


def containers() -> Iterator[tuple[str, bytes, bool]]:
    seen = set()
    for case, name, content in files_with(b"XMPK"):
        if content not in seen:
            seen.add(content)
            yield f"{case.name}: {name}", content, "refused" in case.wanted and case.wanted.get("of_file", name) == name


def test_containers_are_read_as_by_the_second_simulator() -> None:
    read_by_both = 0
    for name, content, _ in containers():
        try:
            wanted = box.read_container(content)
        except box.Fault:
            continue
        assert own_fields(read_container("x", content).system) == fields(wanted), name
        read_by_both += 1
    assert read_by_both > 250


def test_what_the_second_simulator_refuses_is_refused() -> None:
    refused = 0
    for name, content, _ in containers():
        try:
            box.read_container(content)
        except box.Fault:
            with pytest.raises(Unusable):
                read_container("x", content)
            refused += 1
    assert refused > 50


# Scripts.


def scripts() -> Iterator[tuple[str, bytes, bool]]:
    for case, name, content in files_with(b"XMSC"):
        yield f"{case.name}: {name}", content, "refused" in case.wanted


def test_scripts_are_spelled_again_from_their_text() -> None:
    read = 0
    for name, content, is_refused in scripts():
        if is_refused:
            continue
        script = read_script("x", content)
        text = "\n".join(text_lines(script))
        assert spelled(script) == content, name
        assert spelled(script_of("x", text)) == content, name
        read += 1
    assert read > 20


def test_scripts_that_have_another_spelling_are_refused() -> None:
    """What is refused whatever the system is: a file that is cut, values that no script has, another spelling."""
    head = b"XMSC\0\1\0"
    two = head + (2).to_bytes(8, "big")
    plain = bytes([0, 0, 0, 0, 1])
    for content in [
        b"XMSD" + two[4:] + plain + plain, two + plain + plain, two + bytes([2, 0, 0, 0, 0, 0]) + plain, two + bytes([0, 0, 0, 0, 3]),
        two + bytes([0, 0, 0, 0, 0]), two + bytes([0, 0, 0, 0, 2]) + b"x", two + bytes([3]), two + bytes([0, 0, 0, 0]), head[:6] + b"\x20" + two[7:],
    ]:  # fmt: skip
        with pytest.raises(Unusable):
            read_script("x", content)


TEXTS = [
    ("script partition=32\n", 1), ("[0] away\n", 1), ("", 0), ("script partition=0\n[1] away\n", 2), ("script partition=0\n[0] away x0\n", 2),
    ("script partition=0\n[0] begins x2\n", 2), ("script partition=0\n[0] away x2 put=0:00\n", 2), ("script partition=0\n[0] away put=0:0\n", 2),
    ("script partition=0\n[0] away put=32:00\n", 2), ("script partition=0\n[0] away signal=8\n", 2), ("script partition=0\n[0] away order=cold\n", 2),
    ("script partition=0\n[0] away order=halt:1\n", 2), ("script partition=0\n[0] away put=0:00 take=1\n", 2), ("script partition=0\n[0] away seen=0000\n", 2),
    ("script partition=0\n[0] away what=1\n", 2), ("script partition=0\n[0] away x4000000000\n[4000000000] away\n", 3),
]  # fmt: skip


@pytest.mark.parametrize("text, number", TEXTS)
def test_a_text_that_is_no_script_is_refused_at_its_line(text: str, number: int) -> None:
    with pytest.raises(Unusable, match=f"^x:{number}: "):
        script_of("x", text)


def test_a_script_by_hand() -> None:
    """Four ticks: two away, one of these with a message, and a slot of two."""
    text = "script partition=3\n# a test\n[0] away\n[1] away put=2:0aff order=warm:7\n[2] begins\n[3] own # the last\n"
    wanted = (
        b"XMSC\0\1\3" + (4).to_bytes(8, "big") + bytes([0, 0, 0, 0, 1]) + bytes([2, 0, 1, 2, 0, 2, 10, 255, 6, 0, 0, 0, 7, 0, 0])
    )
    assert spelled(script_of("x", text)) == wanted + bytes([2, 2, 0, 0, 0, 0]) + bytes([1, 0, 0, 0, 1])


def test_a_script_with_the_slots_of_a_plan() -> None:
    """Plan 0 of the supervisor gives the payload the ticks 4000 to 6000 of each 6000."""
    system = read_description(str(ROOT / "examples/systems/supervisor/supervisor.xml"))
    text = "script partition=2\n[5000] hypervisor=warm\n[6000] order=warm:5\n[10000] signal=1\n[12000] end\n"
    whole = "\n".join([
        "script partition=2", "[0] away x4000", "[4000] begins", "[4001] own x999", "[5000] own hypervisor=warm", "[5001] own x999",
        "[6000] away order=warm:5", "[6001] away x3999", "[10000] begins signal=1", "[10001] own x1999",
    ])  # fmt: skip
    assert spelled(script_of("x", text, system)) == spelled(script_of("x", whole))
    assert "\n".join(text_lines(Script(2, tuple(merged(script_of("x", text, system).cues))))) == whole


FILLED = [
    ("script partition=3\n", 1), ("script partition=0\n[5] order=halt\n[5] away\n", 3), ("script partition=0\n[5] end\n[6] away\n", 3),
    ("script partition=0\n[5] end x2\n", 2), ("script partition=0\n[4000000001] end\n", 2), ("script partition=0\n[4000000000] end\n", 2),
]  # fmt: skip


@pytest.mark.parametrize("text, number", FILLED)
def test_a_text_with_slots_that_is_refused(text: str, number: int) -> None:
    system = read_description(str(ROOT / "examples/systems/supervisor/supervisor.xml"))
    with pytest.raises(Unusable, match=f"^x:{number}: "):
        script_of("x", text, system)


# Core files.


def test_core_files_are_the_state_of_the_machine() -> None:
    tried = 0
    for name, system, ticks, inputs in list(runs())[::5]:
        machine = Machine(system, inputs)
        machine.run(ticks)
        for number, part in enumerate(machine.parts):
            core, processor = read_core("x", machine.core_file(number)), part.processor
            assert (core.partition, core.state, core.resets, core.status, core.clock) == (
                number,
                part.state,
                part.resets,
                part.status,
                part.exec,
            ), name
            assert (core.pc, core.npc, core.y, core.window, core.invalid) == (
                processor.pc,
                processor.npc,
                processor.y,
                processor.cwp,
                processor.inv,
            ), name
            assert [*core.globals, *(word for window in core.windows for word in window)] == [
                *processor.globals,
                *processor.windows,
            ], name
            assert [timer.deadline for timer in core.timers] == [timer.deadline for timer in part.timers], name
            assert (core.pending, core.masked, core.inputs) == (part.pending, part.mask, len(part.inputs)), name
            tried += 1
    assert tried > 20


# Program files.


def test_functions_and_lines_of_a_program_file() -> None:
    """The addresses are those of `sparc64-linux-gnu-nm` and `sparc64-linux-gnu-addr2line`."""
    symbols = read_symbols(str(SENSOR))
    assert symbols.where(0x401C01A4) == "main+0x64 at sensor.c:34"
    assert symbols.where(0x401C006C) == "_start+0x6c at start.S:32"
    assert symbols.where(0x40000000) == ""


def test_a_program_file_without_symbols_has_none() -> None:
    symbols = read_symbols(str(ROOT / "examples/systems/supervisor/sensor.elf"))
    assert symbols.where(0x401C01A4) == ""
    assert symbols.segments == read_symbols(str(SENSOR)).segments
