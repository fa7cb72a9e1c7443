"""Compares the layers of docs/ARCHITECTURE.md with crates.txt.

usage: /usr/bin/python3 -m pytest docs/layers_test.py
"""

import re
from pathlib import Path

ROOT = Path(__file__).resolve().parent.parent


def lines_of_crates() -> list[tuple[str, list[str]]]:
    """Each crate of crates.txt with what it uses, in order."""
    lines = (line.partition("#")[0].split(":") for line in (ROOT / "crates.txt").read_text(encoding="utf-8").splitlines())
    return [(line[0].split()[0], line[1].split()) for line in lines if len(line) == 2]


def test_the_page_has_each_crate_once_in_the_order_of_crates_txt() -> None:
    page = (ROOT / "docs/ARCHITECTURE.md").read_text(encoding="utf-8")
    layers = page.partition("\n## The layers\n")[2].partition("\n## ")[0]
    shown = [name for line in layers.splitlines() if line.startswith("- ") for name in re.findall(r"`(\w+)`", line.partition(":")[0])]
    assert shown == [name for name, _ in lines_of_crates()]


def test_each_crate_is_below_those_that_it_uses() -> None:
    names = [name for name, _ in lines_of_crates()]
    later = [(name, each) for place, (name, uses) in enumerate(lines_of_crates()) for each in uses if each in names[place:]]
    assert later == []
