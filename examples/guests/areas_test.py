"""Tries areas and words on descriptions and texts whose results were worked by hand.

usage: /usr/bin/python3 -m pytest examples/guests/areas_test.py
"""

import importlib.util
import sys
from importlib.machinery import SourceFileLoader
from pathlib import Path
from types import ModuleType

import pytest

HERE = Path(__file__).resolve().parent


def loaded(path: str) -> ModuleType:
    sys.dont_write_bytecode = True
    name = Path(path).name
    spec = importlib.util.spec_from_loader(f"lib_{name}", SourceFileLoader(f"lib_{name}", str(HERE / path)))
    assert spec is not None and spec.loader is not None
    module = importlib.util.module_from_spec(spec)
    sys.modules[spec.name] = module
    spec.loader.exec_module(module)
    return module


areas = loaded("areas")
words = loaded("lib/words")

STACK = '<Area start="0x40100000" size="64KB"/>'
DATA = '<Area start="0x40110000" size="0.5MB"/>'
CODE = '<Area start="0x40190000" size="4096B" flags="read-only"/>'


def description(*rows: str) -> str:
    return f'<A xmlns="x"><Partition id="0"/><Partition id="1"><B>{"".join(rows)}</B></Partition></A>'


def symbols(*rows: str) -> str:
    return " ".join(areas.symbols(areas.places(areas.areas_of(description(*rows), 1))))


@pytest.mark.parametrize("rows", [(STACK, DATA, CODE), (CODE, DATA, STACK)])
def test_areas_are_found_by_flag_and_order(rows: tuple[str, ...]) -> None:
    assert symbols(*rows) == (
        "-Wl,--defsym=STACK_BASE=0x40100000 -Wl,--defsym=STACK_SIZE=0x10000"
        " -Wl,--defsym=DATA_BASE=0x40110000 -Wl,--defsym=DATA_SIZE=0x80000"
        " -Wl,--defsym=CODE_BASE=0x40190000 -Wl,--defsym=CODE_SIZE=0x1000"
    )


@pytest.mark.parametrize(
    ("rows", "fault"),
    [
        ((STACK, DATA), "three areas"),
        ((STACK, DATA, CODE, CODE.replace("4019", "4029")), "three areas"),
        ((STACK, DATA, CODE.replace(' flags="read-only"', "")), "three areas"),
        ((STACK, DATA, CODE.replace("40190000", "400ff000")), "ends at 0x40100000, below the stack"),
        ((STACK.replace("64KB", "64kB"), DATA, CODE), "no size: 64kB"),
    ],
)
def test_other_areas_are_refused(rows: tuple[str, ...], fault: str) -> None:
    with pytest.raises(areas.Unfit, match=fault):
        symbols(*rows)


def test_the_parts_of_bare_fill_its_area_and_begin_with_the_code() -> None:
    parts = sorted(areas.BARE.items(), key=lambda part: part[1].start)
    assert [name for name, _ in parts] == ["CODE", "DATA", "STACK"]
    assert parts[0][1].start == 0x40000000 and parts[-1][1].end == 0x40100000
    assert all(one.end == other.start for (_, one), (_, other) in zip(parts, parts[1:]))


def test_a_partition_that_is_not_there_is_refused() -> None:
    with pytest.raises(areas.Unfit, match="there is no partition 2"):
        areas.areas_of(description(), 2)


@pytest.mark.parametrize(
    ("text", "made"),
    [(b"", "00000000"), (b"a", "0000000161000000"), (b"abcd", "0000000461626364"), (b"abcde", "000000056162636465000000")],
)
def test_a_text_is_its_length_and_its_bytes(text: bytes, made: str) -> None:
    assert words.words_of(text).hex() == made
