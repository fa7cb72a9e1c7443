"""tests of requirements.py over a made-up checkout.

usage: /usr/bin/python3 -m pytest docs/requirements_test.py
"""
from __future__ import annotations

from pathlib import Path

import pytest
import requirements as traced

LIB = """//! Boxes of numbers.
#![tactic(auto)]

mod boxes;

pub use boxes::put;
"""

BOXES = """//! A box.

ghost use Rattle.xm_commands.specs.Boxes.{HasPut};

/// Puts a number.
#[tactic(auto)]
pub fn put(number: u32) -> u32
    // The number is put.
    ensures put { HasPut result number }
    // It is small.
    ensures small { result < 9 }
{
    number
}

#[test]
fn a_number_is_put(rt: HostRuntime) {}
"""

SPECS = """-- Boxes.
use Rattle.std.specs.Prelude.{ℕ, ◌≡◌}

-- a number is put
pub record HasPut (result number : ℕ) : Type 0 where
  -- The answer is the number.
  pub same : result ≡ number
"""

DATA = """[[group]]
name = "numbers"
call = "put"

[[group.case]]
shows = "one"

[[group.case]]
shows = "two"
"""

PAGE = """# Manual

## put NUMBER

It puts a number.

*Requirements: XR-PUT-001 and 002.*
"""

TABLE = """[XR-PUT-001]
says = "A number is put."
stands = "docs/MANUAL.md#put-number"
definitions = ["xm_commands Boxes.antt HasPut"]
clauses = ["xm_commands put put", "xm_commands put put.same"]
cases = ["numbers.toml: numbers: one", "xm_commands::a_number_is_put"]
wrong = ["xm_commands/nothing_is_put"]

[XR-PUT-002]
says = "A number is small."
stands = "docs/MANUAL.md#put-number"
clauses = ["xm_commands put small"]
cases = ["numbers.toml: numbers", "suite: words.txt: arith", "suite: status 2"]
"""


@pytest.fixture
def root(tmp_path: Path) -> Path:
    files = {
        "crates.txt": "# boxes\nxm_commands: std\n",
        "crates/xm_commands/src/lib.rt": LIB,
        "crates/xm_commands/src/boxes.rt": BOXES,
        "crates/xm_commands/specs/Boxes.antt": SPECS,
        "crates/xm_commands/must-fail/nothing_is_put.edit": "file: src/boxes.rt\n",
        "crates/case_suite/data/numbers.toml": DATA,
        "crates/suite/stdout": "words.txt:\narith: 3 of 3 hold\n",
        "crates/suite/args": "x\n",
        "crates/suite/status": "2\n",
        "docs/MANUAL.md": PAGE,
        "docs/requirements.toml": TABLE,
    }
    for name, text in files.items():
        (tmp_path / name).parent.mkdir(parents=True, exist_ok=True)
        (tmp_path / name).write_text(text, encoding="utf-8")
    return tmp_path


def faults(root: Path) -> list[str]:
    return traced.Trace(root).faults()


def change(root: Path, name: str, old: str, new: str) -> None:
    text = (root / name).read_text(encoding="utf-8")
    assert old in text
    (root / name).write_text(text.replace(old, new), encoding="utf-8")


def test_a_table_whose_rows_are_all_there_has_no_fault(root: Path) -> None:
    assert faults(root) == []


@pytest.mark.parametrize(
    ("old", "new", "fault"),
    [
        ('clauses = ["xm_commands put put", "xm_commands put put.same"]\ncases = ["numbers.toml: numbers: one", "xm_commands::a_number_is_put"]', "", "XR-PUT-001 has neither a clause nor a case"),
        ("xm_commands Boxes.antt HasPut", "xm_commands Boxes.antt HasTaken", "XR-PUT-001: there is no definition xm_commands Boxes.antt HasTaken"),
        ('"xm_commands put small"', '"xm_commands put large"', "XR-PUT-002: there is no clause xm_commands put large"),
        ("put.same", "put.other", "XR-PUT-001: there is no clause xm_commands put put.other"),
        ("numbers.toml: numbers: one", "numbers.toml: numbers: three", "XR-PUT-001: there is no case numbers.toml: numbers: three"),
        ("a_number_is_put", "a_number_is_taken", "XR-PUT-001: there is no case xm_commands::a_number_is_taken"),
        ("words.txt: arith", "words.txt: mem", "XR-PUT-002: there is no case suite: words.txt: mem"),
        ("status 2", "status 1", "XR-PUT-002: there is no case suite: status 1"),
        ("nothing_is_put", "all_is_put", "XR-PUT-001: there is no wrong body xm_commands/all_is_put"),
        ("A number is small.", "small", "XR-PUT-002 is no sentence"),
        ('"xm_commands put put", ', '"xm_commands put put", "xm_commands put put", ', "XR-PUT-001 cites clause xm_commands put put twice"),
        ("docs/MANUAL.md#put-number", "docs/MANUAL.md#take", "XR-PUT-001: there is no section docs/MANUAL.md#take"),
        ('cases = ["numbers.toml: numbers", "suite: words.txt: arith", "suite: status 2"]\n', "", "XR-PUT-002 has no case, and no reason for that"),
        ("wrong =", 'untried = "why"\nwrong =', "XR-PUT-001 has a case, and a reason why it has none"),
        ("wrong =", "edits =", "XR-PUT-001: unknown: edits"),
        ("[XR-PUT-002]", "[PUT-2]", "PUT-2 is no id of a requirement"),
    ],
)  # fmt: skip
def test_a_row_that_cites_what_is_not_there_is_named(root: Path, old: str, new: str, fault: str) -> None:
    change(root, "docs/requirements.toml", old, new)
    assert fault in faults(root)


def test_a_clause_of_a_top_crate_that_stands_for_no_requirement_is_named(root: Path) -> None:
    change(root, "docs/requirements.toml", 'clauses = ["xm_commands put small"]\n', "")
    assert faults(root) == ["no requirement cites xm_commands put small"]


def test_a_section_cites_the_requirements_that_it_states_and_no_other(root: Path) -> None:
    change(root, "docs/MANUAL.md", "001 and 002", "002 and 003")
    assert faults(root) == ["docs/MANUAL.md#put-number does not cite XR-PUT-001", "docs/MANUAL.md#put-number cites XR-PUT-003, which is no requirement"]


def test_the_page_is_written_and_compared(root: Path) -> None:
    assert traced.main(["--check", str(root)]) == 1
    assert traced.main([str(root)]) == 0
    assert traced.main(["--check", str(root)]) == 0
    page = (root / "docs/TRACE.md").read_text(encoding="utf-8")
    assert "**XR-PUT-001** A number is put. | `xm_commands Boxes.antt` `HasPut` | `xm_commands` `put put`, `put put.same` |" in page
    assert "[put NUMBER](MANUAL.md#put-number)" in page


def test_a_requirement_without_a_case_says_why(root: Path) -> None:
    change(root, "docs/requirements.toml", 'cases = ["numbers.toml: numbers", "suite: words.txt: arith", "suite: status 2"]', 'untried = "no command puts it"')
    assert faults(root) == []
    page = traced.Trace(root).text()
    assert "No case, and why: XR-PUT-002 (no command puts it)." in page
    assert "| none: no command puts it |" in page


def test_scripts_outside_the_gate_are_named(root: Path) -> None:
    change(root, "docs/requirements.toml", 'clauses = ["xm_commands put small"]\n', "")
    change(root, "docs/requirements.toml", '"numbers.toml: numbers", "suite: words.txt: arith", "suite: status 2"', '"tools/put_test.py: test_put"')
    page = traced.Trace(root).text()
    assert "Of these no case runs in the gate: XR-PUT-002; they are shown by `tools/put_test.py`." in page


def test_ids_are_cited_in_ranges() -> None:
    ids = ["XR-A-001", "XR-A-002", "XR-A-003", "XR-A-005", "XR-B-001", "XR-B-002"]
    assert traced.ranges(ids) == "XR-A-001 to 003, XR-A-005, XR-B-001 and 002"
    assert sorted(traced.ids_in(traced.ranges(ids))) == ids
    assert traced.ids_in("XR-A-001\nto 003") == {"XR-A-001", "XR-A-002", "XR-A-003"}


def test_a_heading_in_a_block_of_code_is_none() -> None:
    assert [anchor for anchor, _ in traced.sections("# One\n```text\n# two\n```\n## [Three](x) `four`\n")] == ["", "one", "three-four"]
