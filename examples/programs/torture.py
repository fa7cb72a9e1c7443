#!/usr/bin/env python3
"""Runs gcc's torture programs as partitions: small programs that each try what a compiler gets wrong, and abort if it does.

usage: torture.py PROGRAM COUNT [FIRST]    the COUNT programs from FIRST on, in the order of their names, 32 as one system

They are those of gcc-12-source, gcc.c-torture/execute, compiled at -O2 with the C library. Each has to end with status 0. What
can't be compiled or linked is named and left out; LEFT_OUT has those that need what a partition has not. Ends with 1 where one
fails.
"""
import os
import re
import subprocess
import sys
import tempfile
from pathlib import Path

sys.dont_write_bytecode = True
HERE = Path(__file__).resolve().parent
sys.path.insert(0, str(HERE))

from programs import LIBRARY, PLACE, Outcome, must, outcome, slots_for  # noqa: E402

ARCHIVE = Path("/usr/src/gcc-12/gcc-12.2.0-dfsg.tar.xz")
SOURCES = PLACE / "torture"
AT_ONCE = 32
TICKS = 4_000_000_000
# The areas of a partition in KB: stack, data and code.
AREAS = (128, 256, 128)
LEFT_OUT = {
    "20101011-1": "wants the signal of a division by 0",
}


def sources() -> list[Path]:
    if not SOURCES.exists():
        with tempfile.TemporaryDirectory(dir=PLACE) as work:
            must(["tar", "-xf", str(ARCHIVE), "-C", work, "--wildcards", "*/gcc/testsuite/gcc.c-torture/execute/*"])
            next(Path(work).glob("*/gcc/testsuite/gcc.c-torture/execute")).rename(SOURCES)
    return sorted(path for path in SOURCES.glob("*.c") if path.stem not in LEFT_OUT)


def description(count: int) -> str:
    """A system of `count` partitions, each with three areas and a slot of a length of its own."""
    slots = [length + 36 * number for number, length in enumerate(slots_for([1] * count))]
    lines = ['<?xml version="1.0"?>', '<SystemDescription xmlns="http://www.xtratum.org/xm-3.x" version="1.0.0" name="torture">',
             '<HwDescription><MemoryLayout><Region type="stram" start="0x40000000" size="64MB"/></MemoryLayout><ProcessorTable>',
             f'<Processor id="0" frequency="50Mhz"><CyclicPlanTable><Plan id="0" majorFrame="{sum(slots)}us">']  # fmt: skip
    start = 0
    for number, slot in enumerate(slots):
        lines.append(f'<Slot id="{number}" start="{start}us" duration="{slot}us" partitionId="{number}"/>')
        start += slot
    lines += ["</Plan></CyclicPlanTable></Processor></ProcessorTable><Devices>",
              '<Uart id="0" baudRate="115200" name="Uart"/></Devices></HwDescription>',
              '<XMHypervisor console="Uart"><PhysicalMemoryArea size="512KB"/></XMHypervisor><PartitionTable>']  # fmt: skip
    at = 0x40100000
    for number in range(count):
        lines.append(f'<Partition id="{number}" name="p{number}" console="Uart"><PhysicalMemoryAreas>')
        for place, size in enumerate(AREAS):
            flags = ' flags="read-only"' if place == 2 else ""
            lines.append(f'<Area start="{at:#x}" size="{size}KB"{flags}/>')
            at += size << 10
        lines.append("</PhysicalMemoryAreas></Partition>")
    return "\n".join([*lines, "</PartitionTable></SystemDescription>", ""])


def built(source: Path, number: int, folder: Path) -> str:
    """Builds a program for a partition; the answer is why it can't be."""
    flags = ["-O2", "-w", "-std=gnu17", "-fgnu89-inline", "-fwrapv"]
    for command in (
        [str(LIBRARY / "compile"), *flags, "-c", str(source), "-o", f"{number}.o"],
        [str(LIBRARY / "link"), "system.xml", str(number), f"{number}.elf", f"{number}.o"],
    ):
        done = subprocess.run(command, cwd=folder, capture_output=True, text=True)
        if done.returncode != 0:
            return next((line for line in done.stderr.splitlines() if "error" in line or "undefined" in line), "not built")
    return ""


def group(simulator: str, candidates: list[Path]) -> dict[str, Outcome]:
    """Builds programs up to the number of a system, taking them from the list, and runs them."""
    with tempfile.TemporaryDirectory() as work:
        folder = Path(work)
        (folder / "system.xml").write_text(description(AT_ONCE))
        names: list[str] = []
        while candidates and len(names) < AT_ONCE:
            source = candidates.pop(0)
            fault = built(source, len(names), folder)
            if fault:
                print(f"{source.stem}: not built: {fault[-100:]}", flush=True)
            else:
                names.append(source.stem)
        (folder / "system.xml").write_text(description(len(names)))
        must([simulator, "xmcparser", "system.xml", "system.xmc"], cwd=folder)
        images = []
        for number in range(len(names)):
            must([simulator, "xmeformat", "build", f"{number}.elf", f"{number}.xef"], cwd=folder)
            images.append(f"{number}={number}.xef")
        must([simulator, "xmpack", "build", "system.xmc", "system.xmp", *images], cwd=folder)
        done = subprocess.run([simulator, "run", "system.xmp", "--ticks", str(TICKS)], cwd=folder, capture_output=True)
    report = done.stdout.decode("latin-1")
    return {name: outcome(report, number) for number, name in enumerate(names)}


def failed(found: Outcome) -> bool:
    """Whether a program failed: what it prints is its own matter, but not its status."""
    return not found.halted or re.search(r"status 0\n$", found.console) is None or "health event" in found.console


def main(words: list[str]) -> int:
    if len(words) not in (2, 3) or not all(word.isdigit() for word in words[1:]):
        sys.exit(__doc__)
    first = int(words[2]) if len(words) == 3 else 0
    candidates = sources()[first : first + int(words[1])]
    total = failures = 0
    while candidates:
        for name, found in group(os.path.realpath(words[0]), candidates).items():
            total += 1
            if failed(found):
                failures += 1
                print(f"{name}: {found.console!r}, {'halted' if found.halted else 'goes on'}", flush=True)
        print(f"{total} programs, {failures} failed", flush=True)
    return 1 if failures else 0


if __name__ == "__main__":
    sys.exit(main(sys.argv[1:]))
