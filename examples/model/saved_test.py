"""Tries saved machines: that a run goes on from any tick as it would have, that a file has one spelling, and which files are refused.

usage: /usr/bin/python3 -m pytest examples/model/saved_test.py

It needs Debian's package python3-pytest.
"""

import random
import sys
import tomllib
from collections.abc import Iterator
from hashlib import md5
from pathlib import Path
from typing import Any

import pytest

ROOT = Path(__file__).resolve().parent.parent.parent
sys.dont_write_bytecode = True
sys.path[:0] = [str(ROOT / "tools"), str(ROOT / "examples/model")]

import suite  # noqa: E402
from box import Fault, container, read_container  # noqa: E402
from cases import CASES, RESETS, UPSETS, all_cases, two_that_loop  # noqa: E402
from continued import Base, cut, digested  # noqa: E402
from model import Machine, Refusal, Usage, run_words  # noqa: E402
from saved import read_saved, saved_file  # noqa: E402

all_cases()
MOST_TICKS, MOST_CASES = 3000, 120
DIGEST = bytes(range(16))


def ticks_of(system: Any, words: list[str]) -> int:
    return int(words[1]) * (system.plans[0].frame if words[0] == "--frames" else 1)


def chosen() -> list[str]:
    """Cases of the second simulator, but for those with upsets and with resets from outside."""
    names = [name for name in CASES if name not in UPSETS and name not in RESETS]
    return random.Random(1).sample([name for name in names if ticks_of(CASES[name][0], CASES[name][1]) <= MOST_TICKS], MOST_CASES)


@pytest.mark.parametrize("name", chosen())
def test_goes_on(name: str) -> None:
    """From a tick that is drawn."""
    system, words, inputs = CASES[name]
    system = read_container(container(system))
    ticks, ends = ticks_of(system, words), len(system.parts) + 1
    done = random.Random(name).randrange(ticks + 1)
    whole, first = Machine(system, inputs), Machine(system, inputs)
    report, before = whole.run(ticks).splitlines(), first.run(done).splitlines()
    last = read_saved(saved_file(first, DIGEST), system, DIGEST, Machine)
    after = last.run(ticks - done).splitlines()
    assert report[1:] == before[1:-ends] + after[1:]
    assert all(last.core_file(part) == whole.core_file(part) for part in range(len(system.parts)))
    assert [one + other for one, other in zip(first.uarts, last.uarts)] == whole.uarts
    assert saved_file(last, DIGEST) == saved_file(whole, DIGEST)


# Files.

BASE = Base()


def fault_of(content: bytes) -> str:
    with pytest.raises(Fault) as found:
        read_saved(content, BASE.system, BASE.digest, Machine)
    return str(found.value)


def test_base_is_read() -> None:
    machine = read_saved(BASE.file, BASE.system, BASE.digest, Machine)
    assert saved_file(machine, BASE.digest) == BASE.file


def test_each_bit() -> None:
    """A file of which a bit is another one is refused: by its name, its version, its length or its digest."""
    for place in range(len(BASE.file)):
        for bit in range(8) if place < 32 or place % 97 == 0 else [place % 8]:
            content = bytearray(BASE.file)
            content[place] ^= 1 << bit
            fault = fault_of(bytes(content))
            wanted = "magic" if place < 4 else "version" if place < 6 else ("short", "trailing") if place < 10 else "digest stored="
            assert fault.startswith(wanted), (place, bit, fault)


def test_each_length() -> None:
    """Cut before the digest, with its length and a new digest, it is short, at a place in what is left; with a byte more it is not."""
    for length in range(10, len(BASE.file) - 16):
        content = cut(BASE.file, length)
        word, at = fault_of(content).split(" at=")
        assert word == "short" and int(at) <= length


def test_each_byte_with_a_new_digest() -> None:
    """It is refused, or it is the file of the machine that is read."""
    draws = random.Random(2)
    for place in range(10, len(BASE.file) - 16):
        content = bytearray(BASE.file)
        content[place] ^= draws.randrange(1, 256)
        changed = digested(bytes(content))
        try:
            machine = read_saved(changed, BASE.system, BASE.digest, Machine)
        except Fault:
            continue
        assert saved_file(machine, BASE.digest) == changed, place


# Command lines.


@pytest.mark.parametrize("words", ["--from s --input 0=w", "--from s --from s", "--save t --save u", "--from", "--save", "--from --save", "--from s"])
def test_words(tmp_path: Path, words: str) -> None:
    (tmp_path / "b.xmp").write_bytes(container(two_that_loop()))
    length = [] if words == "--from s" else ["--ticks", "5"]
    with pytest.raises(Usage):
        run_words(["b.xmp", *length, *words.split()], tmp_path)


# The cases of the gate.

ROWS = ROOT / "crates/case_suite/data/saves.toml"


def cases() -> Iterator[tuple[str, dict[str, Any], dict[str, bytes], dict[str, bytes]]]:
    """The name, what the row says, its files and all files that are there, of each row."""
    table, shelf = tomllib.loads(ROWS.read_text(encoding="utf-8")), dict[str, bytes]()
    suite.put(shelf, table)
    for group in table["group"]:
        for row in group["case"]:
            yield f"{group['name']}: {row['shows']}", {**group, **row}, suite.given(group, row, shelf), shelf


def test_cases(tmp_path: Path) -> None:
    """The second simulator answers each row as it says, but for scripts, files that are too long and devices that fail."""
    count = 0
    for name, row, files, shelf in cases():
        if {"usage", "status", "fails"} & row.keys() or row.get("refused") == "too-long" or "longest" in name:
            continue
        for file, content in files.items():
            (tmp_path / file).write_bytes(content)
        calls = [call.split(" ")[1:] for call in row.get("calls") or [row["call"]]]
        if "refused" in row:
            with pytest.raises(Refusal) as found:
                run_words(calls[0], tmp_path)
            assert str(found.value) == f"{row['of_file']}: {row['refused']}", name
        else:
            for words in calls:
                report, made = run_words(words, tmp_path)
                for file, content in made.items():
                    (tmp_path / file).write_bytes(content)
            assert row.get("out", report) == report and row.get("out_md5", "") in ("", md5(report.encode()).hexdigest()), name
            known = {**shelf, **files}
            assert all((tmp_path / file).read_bytes() == known[other] for file, other in row.get("same", {}).items()), name
        count += 1
    assert count > 400
