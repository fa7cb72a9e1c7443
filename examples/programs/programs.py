#!/usr/bin/env python3
"""Runs real programs as partitions, and compares their consoles with those of the same programs on this machine.

usage: programs.py build [NAME ..]            builds programs for partitions and for this machine, and runs the latter
       programs.py alone PROGRAM [NAME ..]    runs each as the only partition, by PROGRAM, as `./xm_run`
       programs.py together PROGRAM [NAME ..] runs them as the partitions of one system
       programs.py table [--write]            prints the table, or writes it into README.md
       programs.py names                      prints the names of all

All programs of programs.toml, or those that are named. What is made is in ~/.cache/xm_run-programs/made, or in the folder
XM_PROGRAMS, where `fetch` puts the sources. Ends with 1 where a console, an end or a count of ticks differs.
"""
import fnmatch
import json
import os
import re
import resource
import shutil
import subprocess
import sys
import tempfile
import tomllib
from dataclasses import dataclass, field
from pathlib import Path

HERE = Path(__file__).resolve().parent
LIBRARY = HERE.parent / "guests/lib"
PLACE = Path(os.environ.get("XM_PROGRAMS") or Path(os.environ.get("XDG_CACHE_HOME") or Path.home() / ".cache") / "xm_run-programs")
MADE = PLACE / "made"
# Some programs print the names of their sources, which are not to depend on the folder.
NAMES_FLAG = f"-fmacro-prefix-map={PLACE}/="
# What this machine executes needs no optimization.
NATIVE_FLAGS = ["-O0", "-w", "-D_DEFAULT_SOURCE", "-ffp-contract=off", NAMES_FLAG]
PARTITION_FLAGS = ["-O2", "-w", "-ffp-contract=off", NAMES_FLAG]
CPP_FLAGS = ["-fno-exceptions", "-fno-rtti", "-fno-threadsafe-statics"]
FIRST_AREA = 0x40100000
# The most ticks of a run: a program that halted costs none.
MOST_TICKS = 4_000_000_000
# Slots have odd lengths, so that their edges fall everywhere in the programs.
SHORTEST_SLOT, LONGEST_SLOT = 503, 20011


@dataclass
class Program:
    name: str
    shows: str
    number: int
    package: str = ""
    include: list[str] = field(default_factory=list)
    flags: list[str] = field(default_factory=list)
    own: list[str] = field(default_factory=list)
    sources: list[str] = field(default_factory=list)
    arguments: list[str] = field(default_factory=lambda: ["program"])
    files: dict[str, str] = field(default_factory=dict)
    input: str = ""
    ignored: str = ""
    native: bool = True
    stack: int = 64
    data: int = 256
    code: int = 256

    @property
    def folder(self) -> Path:
        return MADE / self.name

    @property
    def memory(self) -> int:
        """The size of its areas in KB."""
        return self.stack + self.data + self.code

    def source_files(self) -> list[Path]:
        """Its sources: those of the package by the patterns, each once and in order, and its own."""
        root = PLACE / self.package
        left_out = [pattern[1:] for pattern in self.sources if pattern.startswith("!")]
        found: dict[Path, None] = {}
        for pattern in self.sources:
            if not pattern.startswith("!"):
                for path in sorted(root.glob(pattern)):
                    if not any(fnmatch.fnmatch(str(path.relative_to(root)), other) for other in left_out):
                        found[path] = None
        return [*found, *(HERE / own for own in self.own)]

    def include_flags(self) -> list[str]:
        return [f"-I{HERE / name if name.startswith('config') else PLACE / self.package / name}" for name in self.include]

    def file_contents(self) -> dict[str, bytes]:
        def content(path: str) -> bytes:
            place = PLACE / self.package / path.removeprefix("package/") if path.startswith("package/") else HERE / path
            return place.read_bytes()

        return {name: content(path) for name, path in self.files.items()}

    def input_bytes(self) -> bytes:
        return (HERE / self.input).read_bytes() if self.input else b""

    def comparable(self, text: str) -> str:
        return re.sub(self.ignored, "", text) if self.ignored else text


def programs_of(text: str) -> list[Program]:
    entries = tomllib.loads(text)["program"]
    by_name = {entry["name"]: entry for entry in entries}
    out = []
    for number, entry in enumerate(entries):
        base = by_name[entry["like"]] if "like" in entry else {}
        merged = {key: value for key, value in {**base, **entry}.items() if key != "like"}
        out.append(Program(number=number, **merged))
    return out


# The description.


def areas(program: Program, programs: list[Program]) -> list[tuple[int, int, bool]]:
    """The areas of a program: stack, data and code, one after the other, after those of the programs before it."""
    start = FIRST_AREA + 1024 * sum(other.memory for other in programs[: program.number])
    out = []
    for size, read_only in ((program.stack, False), (program.data, False), (program.code, True)):
        out.append((start, 1024 * size, read_only))
        start += 1024 * size
    return out


def description(name: str, shown: list[Program], programs: list[Program], slots: list[int]) -> str:
    """A system of some of the programs, numbered from 0, each with a slot of its length."""
    lines = ['<?xml version="1.0"?>',
             f'<SystemDescription xmlns="http://www.xtratum.org/xm-3.x" version="1.0.0" name="{name}">', " <HwDescription>",
             '  <MemoryLayout><Region type="stram" start="0x40000000" size="64MB"/></MemoryLayout>',
             '  <ProcessorTable><Processor id="0" frequency="50Mhz"><CyclicPlanTable>',
             f'   <Plan id="0" majorFrame="{sum(slots)}us">']  # fmt: skip
    start = 0
    for number, slot in enumerate(slots):
        lines.append(f'    <Slot id="{number}" start="{start}us" duration="{slot}us" partitionId="{number}"/>')
        start += slot
    lines += ["   </Plan></CyclicPlanTable></Processor></ProcessorTable>",
              '  <Devices><Uart id="0" baudRate="115200" name="Uart"/></Devices>', " </HwDescription>",
              ' <XMHypervisor console="Uart"><PhysicalMemoryArea size="512KB"/></XMHypervisor>', " <PartitionTable>"]  # fmt: skip
    for number, program in enumerate(shown):
        lines += [f'  <Partition id="{number}" name="{program.name}" console="Uart">', "   <PhysicalMemoryAreas>"]
        for at, size, read_only in areas(program, programs):
            flags = ' flags="read-only"' if read_only else ""
            lines.append(f'    <Area start="{at:#x}" size="{size // 1024}KB"{flags}/>')
        lines += ["   </PhysicalMemoryAreas></Partition>"]
    return "\n".join([*lines, " </PartitionTable>", "</SystemDescription>", ""])


# Building.


def must(command: list[str], **options: object) -> None:
    done = subprocess.run(command, capture_output=True, text=True, **options)  # type: ignore[call-overload]
    if done.returncode != 0:
        sys.exit(f"failed: {' '.join(command)}\n{(done.stdout + done.stderr)[-2000:]}")


def object_of(program: Program, source: Path, native: bool) -> Path:
    """The object of a source; programs of one package with the same flags share it."""
    shared = f"{program.package or 'own'}-{hash_of(program.flags + program.include):08x}"
    name = str(source).strip("/").replace("/", "_")
    return MADE / "objects" / ("native" if native else "partition") / shared / f"{name}.o"


def batches(sources: list[Path]) -> list[list[Path]]:
    """Sources of one language and with different names, for one call of the compiler each."""
    out: list[dict[tuple[str, str], Path]] = []
    for source in sources:
        fitting = (batch for batch in out if all(source.suffix == suffix and source.stem != stem for stem, suffix in batch))
        batch = next(fitting, None)
        if batch is None:
            batch = {}
            out.append(batch)
        batch[source.stem, source.suffix] = source
    return [list(batch.values()) for batch in out]


def compiled(program: Program, native: bool) -> list[str]:
    """The objects of a program; those of sources that are not newer stay."""
    sources = {source: object_of(program, source, native) for source in program.source_files()}
    old = [source for source, out in sources.items() if not out.exists() or out.stat().st_mtime < source.stat().st_mtime]
    for batch in batches(old):
        flags = CPP_FLAGS if batch[0].suffix == ".cc" else []
        compiler = ["gcc", *NATIVE_FLAGS] if native else [str(LIBRARY / "compile"), *PARTITION_FLAGS]
        with tempfile.TemporaryDirectory() as work:
            must([*compiler, *flags, *program.flags, *program.include_flags(), "-c", *map(str, batch)], cwd=work)
            for source in batch:
                sources[source].parent.mkdir(parents=True, exist_ok=True)
                shutil.move(Path(work) / f"{source.stem}.o", sources[source])
    return list(map(str, sources.values()))


def hash_of(words: list[str]) -> int:
    """The same in each run, as Python's own is not."""
    total = 0
    for byte in "\0".join(words).encode():
        total = (total * 31 + byte) & 0xFFFFFFFF
    return total


def with_files(program: Program) -> str:
    """The source of a program's arguments and files."""
    lines = ['#include "program.h"', ""]
    entries = []
    for number, (name, content) in enumerate(program.file_contents().items()):
        lines.append(f"static const unsigned char file_{number}[] = {{{','.join(map(str, content))}}};")
        entries.append(f"{{{json.dumps(name)}, file_{number}, {len(content)}, 0}}")
    lines.append(f"struct program_file program_files[PROGRAM_FILES] = {{{', '.join(entries) or '{NULL, NULL, 0, 0}'}}};")
    lines.append(f"char *program_arguments[] = {{{', '.join(map(json.dumps, program.arguments))}, NULL}};")
    return "\n".join([*lines, ""])


def build(program: Program, programs: list[Program]) -> None:
    program.folder.mkdir(parents=True, exist_ok=True)
    source = program.folder / "files.c"
    source.write_text(with_files(program))
    must([str(LIBRARY / "compile"), "-O1", f"-I{LIBRARY}", "-c", str(source), "-o", str(program.folder / "files.o")])
    objects = compiled(program, native=False)
    layout = MADE / "together.xml"
    must([str(LIBRARY / "link"), str(layout), str(program.number), str(program.folder / "partition.elf"),
          str(program.folder / "files.o"), *objects])  # fmt: skip
    (program.folder / "input").write_bytes(len(program.input_bytes()).to_bytes(4, "big") + padded(program.input_bytes()))
    (program.folder / "expected").write_text(native_console(program) if program.native else "status 0\n")
    (program.folder / "alone.json").unlink(missing_ok=True)
    print(f"built {program.name}", flush=True)


def padded(content: bytes) -> bytes:
    return content + bytes(-len(content) % 4)


def native_console(program: Program) -> str:
    """What the program prints on this machine, and its status."""
    objects = compiled(program, native=True)
    out = program.folder / "native"
    must(["g++" if program.own and program.own[0].endswith(".cc") else "gcc", *objects, "-o", str(out), "-lm"])
    room = program.folder / "room"
    shutil.rmtree(room, ignore_errors=True)
    room.mkdir()
    for name, content in program.file_contents().items():
        (room / name).write_bytes(content)
    done = subprocess.run(["stdbuf", "-oL", str(out), *program.arguments[1:]], cwd=room, input=program.input_bytes(),
                          stdout=subprocess.PIPE, stderr=subprocess.STDOUT)  # fmt: skip
    return done.stdout.decode("latin-1") + f"status {done.returncode}\n"


# Running.


@dataclass
class Outcome:
    console: str
    instructions: int
    halted: bool


ESCAPED = re.compile(r"\\(n|\\|x[0-9a-f]{2})")


def written(line: str) -> str:
    """The bytes that a CON line stands for."""

    def one(found: re.Match[str]) -> str:
        what = found[1]
        return {"n": "\n", "\\": "\\"}.get(what) or chr(int(what[1:], 16))

    return ESCAPED.sub(one, line)


def outcome(report: str, partition: int) -> Outcome:
    """What a partition wrote, with its status as the native program has it, and how long it ran."""
    own = rf"^\[\d+\] P{partition} "
    text = "".join(map(written, re.findall(rf"{own}CON (.*)$", report, re.M)))
    errors = re.findall(rf"{own}HM (.*)$", report, re.M)
    status = 0
    for event in errors:
        code = re.fullmatch(r"XM_HM_EV_PARTITION_ERROR ([0-9A-Fa-f]{8}) XM_HM_AC_HALT", event)
        if code is not None:
            status = int(code[1], 16)
        elif not event.startswith("XM_HM_EV_UNEXPECTED_TRAP"):
            text += f"health event {event}\n"
    end = re.search(rf"^END P{partition} (\w+) .*exec=(\d+)", report, re.M)
    if end is None:
        return Outcome(text + "no end\n", 0, False)
    return Outcome(text + f"status {status}\n", int(end[2]), end[1] == "halted")


def packed(program: str, folder: Path, text: str, shown: list[Program]) -> None:
    (folder / "system.xml").write_text(text)
    must([program, "xmcparser", "system.xml", "system.xmc"], cwd=folder)
    images = []
    for number, one in enumerate(shown):
        must([program, "xmeformat", "build", str(one.folder / "partition.elf"), f"{number}.xef"], cwd=folder)
        images.append(f"{number}={number}.xef")
    must([program, "xmpack", "build", "system.xmc", "system.xmp", *images], cwd=folder)


def processor_seconds() -> float:
    """The processor time of all children that have ended."""
    used = resource.getrusage(resource.RUSAGE_CHILDREN)
    return used.ru_utime + used.ru_stime


def run(program: str, folder: Path, shown: list[Program], ticks: int) -> tuple[str, float]:
    """The report of a run, and the seconds of processor time that it took."""
    inputs = [word for number, one in enumerate(shown) if one.input for word in ("--input", f"{number}={one.folder / 'input'}")]
    before = processor_seconds()
    done = subprocess.run([program, "run", "system.xmp", "--ticks", str(ticks), *inputs], cwd=folder, capture_output=True)
    used = processor_seconds() - before
    report = done.stdout.decode("latin-1")
    (folder / "report").write_text(report)
    if done.returncode != 0:
        sys.exit(f"failed: run, with {done.returncode}: {done.stderr.decode()[-500:]}")
    return report, used


def differences(program: Program, found: Outcome, expected: str) -> list[str]:
    faults = []
    if program.comparable(found.console) != program.comparable(expected):
        faults.append(f"{program.name}: the console differs")
        (program.folder / "console").write_text(found.console)
    if not found.halted:
        faults.append(f"{program.name}: it did not end")
    return faults


def run_alone(simulator: str, program: Program, programs: list[Program]) -> list[str]:
    folder = program.folder / "alone"
    folder.mkdir(exist_ok=True)
    packed(simulator, folder, description(program.name, [program], programs, [1000003]), [program])
    report, seconds = run(simulator, folder, [program], MOST_TICKS)
    found = outcome(report, 0)
    faults = differences(program, found, (program.folder / "expected").read_text())
    entry = {"instructions": found.instructions, "seconds": round(seconds, 4), "console": found.console, "same": not faults}
    (program.folder / "alone.json").write_text(json.dumps(entry))
    print(f"{program.name}: {found.instructions} instructions, {seconds:.3f} s, {'; '.join(faults) or 'the same'}", flush=True)
    return faults


def slots_for(counts: list[int]) -> list[int]:
    """A slot for each program, longer where it has more to do, so that all end in about as many frames."""
    most = max(counts)
    lengths = [max(SHORTEST_SLOT, LONGEST_SLOT * count // most) + 2 * number for number, count in enumerate(counts)]
    return [length | 1 for length in lengths]


def run_together(simulator: str, shown: list[Program], programs: list[Program]) -> list[str]:
    """Runs programs as the partitions of one system, in their order, and compares with their runs in isolation."""
    missing = [program.name for program in shown if not (program.folder / "alone.json").exists()]
    if missing:
        sys.exit(f"to be run alone first: {', '.join(missing)}")
    alone = [json.loads((program.folder / "alone.json").read_text()) for program in shown]
    counts = [entry["instructions"] for entry in alone]
    slots = slots_for(counts)
    folder = MADE / "together"
    folder.mkdir(exist_ok=True)
    packed(simulator, folder, description("together", shown, programs, slots), shown)
    frames = max(-(-count // slot) for count, slot in zip(counts, slots)) + 2
    report, seconds = run(simulator, folder, shown, frames * sum(slots))
    faults, instructions = [], 0
    for number, (program, entry) in enumerate(zip(shown, alone)):
        found = outcome(report, number)
        instructions += found.instructions
        if found.console != entry["console"]:
            faults.append(f"{program.name}: the console is not that of its run in isolation")
        if found.instructions != entry["instructions"]:
            faults.append(f"{program.name}: {found.instructions} instructions, in isolation {entry['instructions']}")
    memory = sum(program.memory for program in shown)
    result = {"partitions": len(shown), "instructions": instructions, "seconds": round(seconds, 4), "memory": memory, "faults": faults}
    (MADE / "together.json").write_text(json.dumps(result))
    print(f"together: {len(shown)} partitions, {frames} frames of {sum(slots)} ticks, {seconds:.3f} s", flush=True)
    return faults


# The table.


def rows(programs: list[Program]) -> list[str]:
    """A row for each program that was run alone, and one for the run of all together."""
    out = ["| Program | What runs | Instructions | Milliseconds | Memory | Console |", "|---|---|---|---|---|---|"]
    for program in programs:
        path = program.folder / "alone.json"
        if path.exists():
            entry = json.loads(path.read_text())
            same = "status 0, prints nothing" if not program.native else "the same"
            numbers = f"{entry['instructions']:,} | {1000 * entry['seconds']:,.0f} | {program.memory} KB"
            out.append(f"| `{program.name}` | {program.shows} | {numbers} | {same if entry['same'] else 'differs'} |")
    together = MADE / "together.json"
    if together.exists():
        entry = json.loads(together.read_text())
        numbers = f"{entry['instructions']:,} | {1000 * entry['seconds']:,.0f} | {entry['memory']} KB"
        same = "differs" if entry["faults"] else "of each, as in isolation"
        out.append(f"| together | {entry['partitions']} of them as the partitions of one system | {numbers} | {same} |")
    return out


def write_table(programs: list[Program]) -> None:
    page = HERE / "README.md"
    text = page.read_text()
    begin = text.index("| Program | What runs |")
    end = text.index("\n\n", begin)
    page.write_text(text[:begin] + "\n".join(rows(programs)) + text[end:])


def lay_out(programs: list[Program]) -> None:
    """Writes the description by which all are linked, where it is not there."""
    MADE.mkdir(parents=True, exist_ok=True)
    layout = description("together", programs, programs, [1000] * len(programs))
    if not (MADE / "together.xml").exists() or (MADE / "together.xml").read_text() != layout:
        (MADE / "together.xml").write_text(layout)


def main(words: list[str]) -> int:
    programs = programs_of((HERE / "programs.toml").read_text())
    if words != ["names"]:
        lay_out(programs)
    faults: list[str] = []
    match words:
        case ["build", *names]:
            for program in chosen(programs, names):
                build(program, programs)
        case ["alone", simulator, *names]:
            for program in chosen(programs, names):
                faults += run_alone(str(Path(simulator).resolve()), program, programs)
        case ["together", simulator, *names]:
            faults += run_together(str(Path(simulator).resolve()), chosen(programs, names), programs)
        case ["names"]:
            print("\n".join(program.name for program in programs))
            return 0
        case ["table"]:
            print("\n".join(rows(programs)))
        case ["table", "--write"]:
            write_table(programs)
        case _:
            sys.exit(__doc__)
    print("\n".join(faults) or "no difference")
    return 1 if faults else 0


def chosen(programs: list[Program], names: list[str]) -> list[Program]:
    unknown = set(names) - {program.name for program in programs}
    if unknown:
        sys.exit(f"no such program: {', '.join(sorted(unknown))}")
    return [program for program in programs if not names or program.name in names]


if __name__ == "__main__":
    sys.exit(main(sys.argv[1:]))
