"""Tries tools/dependents on a small tree whose minutes were worked by hand.

usage: /usr/bin/python3 -m pytest tools/dependents_test.py
"""

import importlib.util
import sys
from importlib.machinery import SourceFileLoader
from pathlib import Path
from typing import Any

import pytest

TOOL = Path(__file__).resolve().parent / "dependents"
# `top` is on two sides of `low`, of which one has no row; a crate of the kit and one that is aside count as nothing.
CRATES = """# a layer
low: kit
left: low  # a comment
right: low kit

top may_wait=1: left right
aside: kit
"""
PAGE = """| Crate | Proof | With its tests | Base | Wrong bodies | |
|---|---|---|---|---|---|
| `low` | 600 | 60 | 120 | 240 | 8 |
| `left` | 1200 |  | 240 |  | 3 |
| `top` | 120 |  |  |  |  |
| `aside` | 6000 |  |  |  |  |

| To | Command |
|---|---|
| `low` | 1 |
"""


def loaded() -> Any:
    loader = SourceFileLoader("dependents", str(TOOL))
    spec = importlib.util.spec_from_loader("dependents", loader)
    assert spec is not None
    module = importlib.util.module_from_spec(spec)
    sys.modules["dependents"] = module
    loader.exec_module(module)
    return module


tool = loaded()


@pytest.fixture
def root(tmp_path: Path, monkeypatch: pytest.MonkeyPatch) -> Path:
    (tmp_path / "crates.txt").write_text(CRATES, encoding="utf-8")
    (tmp_path / "CONTRIBUTING.md").write_text(PAGE, encoding="utf-8")
    monkeypatch.setattr(tool, "ROOT", tmp_path)
    return tmp_path


def run(monkeypatch: pytest.MonkeyPatch, capsys: pytest.CaptureFixture[str], *words: str) -> list[list[str]]:
    monkeypatch.setattr(sys, "argv", ["tools/dependents", *words])
    assert tool.main() == 0
    return [line.split() for line in capsys.readouterr().out.splitlines()]


def test_a_crate_and_all_that_use_it(root: Path, monkeypatch: pytest.MonkeyPatch, capsys: pytest.CaptureFixture[str]) -> None:
    _, *rows = run(monkeypatch, capsys, "--names", "low", "left", "top")
    # The chain low, left, top takes 600 + 1200 + 120 seconds, more than a quarter of all columns of the three, 2580.
    assert rows[0] == ["low", "4", "32", "32", "1"]
    assert rows[1] == ["left", "2", "22", "22", "0"]
    assert rows[2] == ["top", "1", "2", "2", "0"]
    assert rows[3] == ["low:", "left", "right", "top"]
    assert rows[4:] == [["left:", "top"], ["top:"]]


def test_side_by_side_a_quarter_of_the_sum_decides(root: Path, monkeypatch: pytest.MonkeyPatch, capsys: pytest.CaptureFixture[str]) -> None:
    many = "".join(f"c{number}: low\n" for number in range(8))
    (root / "crates.txt").write_text(f"low:\n{many}", encoding="utf-8")
    rows = "".join(f"| `c{number}` | 600 | 120 | 120 | 240 | 2 |\n" for number in range(8))
    (root / "CONTRIBUTING.md").write_text(f"| `low` | 60 |  |  |  |  |\n{rows}", encoding="utf-8")
    # (60 + 8 * 600) / 4 is 20.25 minutes, and (60 + 8 * 1080) / 4 is 36.25.
    assert run(monkeypatch, capsys, "low")[1] == ["low", "9", "20", "36", "0"]


def test_all_crates_in_their_order(root: Path, monkeypatch: pytest.MonkeyPatch, capsys: pytest.CaptureFixture[str]) -> None:
    assert [row[0] for row in run(monkeypatch, capsys)] == ["changed", "low", "left", "right", "top", "aside"]


def test_lines_in_any_order(root: Path, monkeypatch: pytest.MonkeyPatch, capsys: pytest.CaptureFixture[str]) -> None:
    (root / "crates.txt").write_text("top: left right\nright: low\nleft: low\nlow:\n", encoding="utf-8")
    assert run(monkeypatch, capsys, "low")[1] == ["low", "4", "32", "32", "1"]


@pytest.mark.parametrize("words", [["kit"], ["--names"], ["low", "absent"]])
def test_words_that_name_no_crate(root: Path, monkeypatch: pytest.MonkeyPatch, words: list[str]) -> None:
    monkeypatch.setattr(sys, "argv", ["tools/dependents", *words])
    with pytest.raises(SystemExit):
        tool.main()
