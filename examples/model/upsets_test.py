"""Tries upsets: what a flip changes of a core file, by the table of docs/FORMATS.md, when it strikes, and which files are refused.

usage: /usr/bin/python3 -m pytest examples/model/upsets_test.py

It needs Debian's package python3-pytest.
"""

import subprocess
import sys
import tomllib
from collections.abc import Iterator
from hashlib import md5
from pathlib import Path
from typing import Any

import pytest

ROOT = Path(__file__).resolve().parent.parent.parent
sys.dont_write_bytecode = True
sys.path[:0] = [str(ROOT / "tools"), str(ROOT / "examples/model")]

import suite  # noqa: E402
from asm import Guest  # noqa: E402
from box import Fault, container  # noqa: E402
from model import Machine, Refusal, run_words  # noqa: E402
from replay import run_words as replay_words  # noqa: E402
from rows import P0, P1, demo  # noqa: E402
from upsets import Upset, flip, read_upsets  # noqa: E402

MODEL = ROOT / "examples/model/model.py"
# The bytes of an area begin after its start and its size, which follow the number of areas.
AREA = 3471 + 8
# Places with their first and their last bit: the bytes of the core file that change, and by which bits.
CHANGES: list[tuple[str, int, dict[int, int]]] = [
    ("g1", 0, {101: 1}), ("g1", 31, {98: 0x80}), ("g7", 0, {125: 1}), ("g7", 31, {122: 0x80}),
    ("w0", 0, {129: 1}), ("w0", 31, {126: 0x80}), ("w127", 0, {637: 1}), ("w127", 31, {634: 0x80}),
    ("pc", 2, {27: 4}), ("pc", 31, {24: 0x80}), ("npc", 2, {31: 4}), ("npc", 31, {28: 0x80}),
    ("y", 0, {35: 1}), ("y", 31, {32: 0x80}), ("icc", 0, {36: 1}), ("icc", 3, {36: 8}),
    ("tbr", 12, {42: 0x10}), ("tbr", 31, {40: 0x80}), ("pending", 0, {47: 1}), ("pending", 31, {44: 0x80}),
    ("mask", 0, {51: 1}), ("mask", 31, {48: 0x80}),
    ("hw", 0, {52: 1, 60: 1}), ("hw", 62, {52: 1, 53: 0x40}), ("exec", 0, {69: 1, 77: 1}), ("exec", 62, {69: 1, 70: 0x40}),
    (f"{P1:08x}", 0, {AREA: 1}), (f"{P1:08x}", 7, {AREA: 0x80}), (f"{P1 + 0x7FFFF:08x}", 3, {AREA + 0x7FFFF: 8}),
]  # fmt: skip


def changes(before: bytes, after: bytes) -> dict[int, int]:
    assert len(before) == len(after)
    return {place: one ^ other for place, (one, other) in enumerate(zip(before, after)) if one != other}


@pytest.mark.parametrize("place, bit, wanted", CHANGES, ids=[f"{place}-{bit}" for place, bit, _ in CHANGES])
def test_flip_changes_its_bit(place: str, bit: int, wanted: dict[int, int]) -> None:
    """And a second flip changes it back. Nothing of the other partition changes."""
    machine = Machine(demo())
    own, other = machine.core_file(1), machine.core_file(0)
    flip(machine.parts[1], place, bit)
    assert changes(own, machine.core_file(1)) == wanted
    assert machine.core_file(0) == other
    flip(machine.parts[1], place, bit)
    assert machine.core_file(1) == own


def test_registers_of_windows() -> None:
    """Window 7 is the current one at first: its outs are w112 to w119, its locals w120 to w127, its ins the outs of window 0."""
    part = Machine(demo()).parts[1]
    for number, register in ((112, 8), (118, 14), (120, 16), (127, 23), (0, 24), (7, 31)):
        flip(part, f"w{number}", 4)
        assert part.processor.get(register) == 16, register


def test_timers() -> None:
    """A deadline that becomes 0 disarms, with the interval; another one keeps the interval."""
    part = Machine(demo()).parts[1]
    for place, timer in zip(("hw", "exec"), part.timers):
        timer.set(0x50, 7)
        flip(part, place, 4)
        assert (timer.deadline, timer.interval) == (0x40, 7)
        flip(part, place, 6)
        assert (timer.deadline, timer.interval) == (0, 0)
        flip(part, place, 62)
        assert (timer.deadline, timer.interval) == (1 << 62, 0)


# When upsets strike.


def lines_of(system: Any, ticks: int, *upsets: Upset) -> list[str]:
    """The lines of the ticks of a run."""
    machine = Machine(system)
    machine.upsets = list(upsets)
    report: str = machine.run(ticks)
    return [line for line in report.splitlines() if line.startswith("[")]


def halts(number: int) -> bytes:
    """A guest that halts its partition in its third tick."""
    content: bytes = Guest((P0, P1)[number]).call(2, number).loop().bytes()
    return content


def test_lines_stand_before_those_of_the_tick() -> None:
    """In tick 2 partition 0 halts itself; the upsets of that tick and of the next one stand on both sides of its line."""
    assert lines_of(demo(halts(0)), 10, Upset(2, 1, "y", 0), Upset(2, 0, "w0", 31), Upset(3, 0, "pc", 2)) == [
        "[2] P1 UPSET y bit 0", "[2] P0 UPSET w0 bit 31", "[2] P0 HALT", "[3] P0 UPSET pc bit 2",
    ]  # fmt: skip


def test_first_and_last_tick() -> None:
    assert lines_of(demo(), 10, Upset(0, 0, "y", 0), Upset(9, 1, "y", 0)) == ["[0] P0 UPSET y bit 0", "[9] P1 UPSET y bit 0"]


def test_instruction_of_the_tick() -> None:
    """Partition 0 puts 1 into %g1 in tick 0. Bit 1 of the second operand flips before, or the register's bit after."""
    guest = Guest(P0).mov(1, "g1").loop().bytes()
    for upset, wanted in ((Upset(0, 0, f"{P0 + 3:08x}", 1), 3), (Upset(1, 0, f"{P0 + 3:08x}", 1), 1),
                          (Upset(0, 0, "g1", 1), 1), (Upset(1, 0, "g1", 1), 3)):  # fmt: skip
        machine = Machine(demo(guest))
        machine.upsets = [upset]
        machine.run(2)
        assert machine.parts[0].processor.get(1) == wanted, upset


def test_halted_machine_is_not_struck() -> None:
    """The hypervisor halts in tick 1, which is not counted."""
    guest = Guest(P0).mov(9, "o0").put(0x91D02070).loop().bytes()
    upsets = [Upset(tick, 1, "y", tick) for tick in range(4)]
    assert lines_of(demo(guest), 9, *upsets) == ["[0] P1 UPSET y bit 0", "[1] P1 UPSET y bit 1", "[1] XM HALT"]


def test_halted_partition_is_struck() -> None:
    """Its memory and its registers change, and it stays halted: a timer that is armed so is not looked at. Interrupt 5 was pending."""
    machine = Machine(demo(halts(0)))
    machine.upsets = [Upset(5, 0, "hw", 3), Upset(5, 0, "g3", 0), Upset(5, 0, f"{P0:08x}", 0)]
    machine.run(1500)
    part = machine.parts[0]
    assert (part.state, part.pending, part.timers[0].deadline, part.processor.get(3), part.memory.read(P0, 1)[0] & 1) == (
        "halted", 1 << 5, 8, 1, 1,
    )  # fmt: skip


# Files.

TICKS = 100
GOOD = [
    "", "0 0 y 0\n", "99 1 mask 31\n", "5 0 g1 31\n5 1 g7 0\n", "5 0 w0 31\n6 0 w127 0\n", "5 0 pc 2\n5 0 npc 31\n",
    "5 0 icc 3\n", "5 0 hw 62\n5 0 exec 0\n", "5 0 tbr 12\n5 0 tbr 31\n", f"5 1 {P1:08x} 7\n5 1 {P1 + 0x7FFFF:08x} 0\n",
    "1 0 y 0\n" * 4096,
]  # fmt: skip
BAD = [
    ("y", "bad-tick line=1"), ("-1 0 y 0\n", "bad-tick line=1"), ("01 0 y 0\n", "bad-tick line=1"), ("\n", "bad-tick line=1"),
    (" 1 0 y 0\n", "bad-tick line=1"), ("1 0 y 0\n\n", "bad-tick line=2"), (f"{1 << 64} 0 y 0\n", "bad-tick line=1"),
    ("5", "bad-partition line=1"), ("5\t0 y 0\n", "bad-tick line=1"), ("5  0 y 0\n", "bad-partition line=1"),
    ("5 P1 y 0\n", "bad-partition line=1"), ("5 00 y 0\n", "bad-partition line=1"), ("5 0", "bad-place line=1"),
    ("5 0 Y 0\n", "bad-place line=1"), ("5 0 g0 0\n", "bad-place line=1"), ("5 0 g8 0\n", "bad-place line=1"),
    ("5 0 w128 0\n", "bad-place line=1"), ("5 0 w01 0\n", "bad-place line=1"), ("5 0 cwp 0\n", "bad-place line=1"),
    ("5 0 4010000 0\n", "bad-place line=1"), ("5 0 4010000A 0\n", "bad-place line=1"), ("5 0 0x401000 0\n", "bad-place line=1"),
    ("5 0 y", "bad-bit line=1"), ("5 0 y x\n", "bad-bit line=1"), ("5 0 y 00\n", "bad-bit line=1"),
    ("5 0 y 0\r\n", "bad-bit line=1"), ("5 0 y 0", "bad-end line=1"), ("5 0 y 0 \n", "bad-end line=1"),
    ("5 2 y 0\n", "no-partition line=1"), ("5 31 y 0\n", "no-partition line=1"), (f"5 0 {P1:08x} 0\n", "no-place line=1"),
    (f"5 1 {P1 - 1:08x} 0\n", "no-place line=1"), (f"5 1 {P1 + 0x80000:08x} 0\n", "no-place line=1"),
    ("5 0 ffffffff 0\n", "no-place line=1"), ("5 0 y 32\n", "no-bit line=1"), ("5 0 g1 32\n", "no-bit line=1"),
    ("5 0 w0 32\n", "no-bit line=1"), ("5 0 pc 1\n", "no-bit line=1"), ("5 0 pc 32\n", "no-bit line=1"),
    ("5 0 npc 0\n", "no-bit line=1"), ("5 0 icc 4\n", "no-bit line=1"), ("5 0 hw 63\n", "no-bit line=1"),
    ("5 0 exec 63\n", "no-bit line=1"), ("5 0 tbr 11\n", "no-bit line=1"), ("5 0 tbr 32\n", "no-bit line=1"),
    ("5 0 mask 32\n", "no-bit line=1"), ("5 0 pending 32\n", "no-bit line=1"), (f"5 0 {P0:08x} 8\n", "no-bit line=1"),
    ("5 0 y 0\n4 1 y 0\n", "unordered line=2"), (f"{TICKS} 0 y 0\n", "unreached line=1"),
    ("99 0 y 0\n100 0 y 0\n", "unreached line=2"), (f"{(1 << 64) - 1} 0 y 0\n", "unreached line=1"),
    ("1 0 y 0\n" * 4097, "too-many line=4097"), ("1 0 y 0\n" * 4096 + "x", "too-many line=4097"),
]  # fmt: skip


@pytest.mark.parametrize("text", GOOD, ids=range(len(GOOD)))
def test_good_file(text: str) -> None:
    """It is read as the upsets whose lines are that text."""
    assert "".join(upset.written() for upset in read_upsets(text.encode(), demo().parts, TICKS)) == text


@pytest.mark.parametrize("text, fault", BAD, ids=[f"{number}-{fault}" for number, (_, fault) in enumerate(BAD)])
def test_bad_file(text: str, fault: str) -> None:
    with pytest.raises(Fault) as found:
        read_upsets(text.encode("latin-1"), demo().parts, TICKS)
    assert str(found.value) == fault


def test_each_byte_of_a_line() -> None:
    """A line of which one byte is another one is refused, or is read as the text that it is."""
    line = b"45 1 w17 20\n"
    for place in range(len(line)):
        for byte in range(256):
            text = line[:place] + bytes([byte]) + line[place + 1 :]
            try:
                upsets = read_upsets(text, demo().parts, TICKS)
            except Fault:
                continue
            assert "".join(upset.written() for upset in upsets).encode() == text


# Command lines.

LINES = [
    (["--ticks", "5", "--upset", "none"], 3, "", "none: cannot read"),
    (["--ticks", "5", "--upset"], 2, "", "usage"),
    (["--ticks", "5", "--upset", "one", "--upset", "one"], 2, "", "usage"),
    (["--upset", "--ticks", "5"], 2, "", "usage"),
    (["--upset", "one"], 2, "", "usage"),
    (["--ticks", "3", "--upset", "one"], 1, "", "one: unreached line=2"),
    (["--upset", "one", "--ticks", "4"], 0, "[1] P0 UPSET y bit 0\n[3] P1 UPSET y bit 1\n", ""),
]


@pytest.mark.parametrize("words, status, ticks, fault", LINES, ids=range(len(LINES)))
def test_line(tmp_path: Path, words: list[str], status: int, ticks: str, fault: str) -> None:
    (tmp_path / "demo.xmp").write_bytes(container(demo()))
    (tmp_path / "one").write_text("1 0 y 0\n3 1 y 1\n")
    done = subprocess.run(
        [sys.executable, "-B", str(MODEL), "demo.xmp", *words], cwd=tmp_path, capture_output=True, text=True, check=False
    )
    assert (done.returncode, done.stderr) == (status, f"model: {fault}\n" if fault else "")
    assert "".join(line for line in done.stdout.splitlines(keepends=True) if line.startswith("[")) == ticks


# The cases with upsets of the gate.

CASES = ROOT / "crates/case_suite/data/upsets.toml"


def cases() -> Iterator[tuple[str, dict[str, Any], dict[str, bytes], dict[str, bytes]]]:
    """The name, what the row says, its files and all files that are there, of each row."""
    table, shelf = tomllib.loads(CASES.read_text(encoding="utf-8")), dict[str, bytes]()
    suite.put(shelf, table)
    for group in table["group"]:
        for row in group["case"]:
            yield f"{group['name']}: {row['shows']}", {**group, **row}, suite.given(group, row, shelf), shelf


def test_cases(tmp_path: Path) -> None:
    """The second simulator answers each row as it says, but for the words that are wrong, which `test_line` has."""
    count = 0
    for name, row, files, shelf in cases():
        if row.get("usage") or row.get("status") or "calls" in row:
            continue
        for file, content in files.items():
            (tmp_path / file).write_bytes(content)
        command, *words = row["call"].split(" ")
        answer = replay_words if command == "alone" else run_words
        if "refused" in row:
            with pytest.raises(Refusal) as found:
                answer(words, tmp_path)
            assert str(found.value) == f"{row['of_file']}: {row['refused']}", name
        else:
            report, cores = answer(words, tmp_path)
            assert row.get("out", report) == report and row.get("out_md5", "") in ("", md5(report.encode()).hexdigest()), name
            assert all(cores[core] == shelf[known] for core, known in row.get("same", {}).items()), name
        count += 1
    assert count > 200
