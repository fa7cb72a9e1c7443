"""Tries that the contracts of the program's top crates have no long line.

usage: /usr/bin/python3 -m pytest docs/contract_lines_test.py

A contract begins with the signature of a public call, or of a program's `main`, and ends before its body: what stands above a clause is
part of it. Which calls are public, docs/promises.py says; how long a line may be, docs/counts.py, which counts those of all crates.
"""

from __future__ import annotations

from collections.abc import Iterator
from pathlib import Path

import pytest

import promises
from counts import LONG

ROOT = Path(__file__).resolve().parent.parent
TOP = ("file_commands", "run_commands", "xm_commands", "xm_run")

LIBRARY = """//! Boxes.
pub use boxes::{Box, put, taken};
mod boxes;
"""

BOXES = f"""//! A box.

/// A box.
pub struct Box {{
    items: Vec<u32>,
}}

impl Box {{
    /// Its first number.
    pub fn first(&self) -> Option<u32>
        // Its first number.
        ensures {{ result ≡ {"(head self.now)".ljust(LONG)} }}
    {{
        self.inner({"".ljust(LONG)})
    }}

    fn inner(&self) -> Option<u32>
        ensures {{ result ≡ {"(head self.now)".ljust(LONG)} }}
    {{
        self.items.first()
    }}
}}

/// Puts a number.
pub fn put({"".ljust(LONG)}number: u32) {{
}}

/// What was taken.
pub fn taken() -> u32
    ensures value {{ result
        ≡ {"0 }".rjust(LONG - 10)}
    ensures above {{ IsAbove
        {"0 }".rjust(LONG - 7)}
{{
    0
}}
"""

PROGRAM = f"""//! A program.

fn main(rt: HostRuntime) -> ExitCode
    ensures {{ {"result".ljust(LONG)} }}
{{
}}
"""


def calls_of(crate: promises.Crate) -> list[promises.Call]:
    """The public calls of a library, or the `main` of a program."""
    main = crate.source / "main.rt"
    starts = [at for at, line in enumerate(crate.lines.get(main, [])) if line.startswith("fn main(")]
    return [crate.call(main, "", "main", at, "") for at in starts] if main in crate.lines else crate.calls()


def long_lines(root: Path, name: str) -> Iterator[str]:
    """Each line of a public contract of a crate that is longer than it may be: where it is, and its length."""
    crate = promises.Crate(root, name)
    for call in calls_of(crate):
        for number, line in enumerate(crate.lines[call.path][call.line:call.end], call.line + 1):
            if len(line) > LONG:
                yield f"{call.path.relative_to(root)}:{number}: {call.title}: {len(line)} characters"


@pytest.fixture
def small(tmp_path: Path) -> Path:
    for name, text in {"boxes/src/lib.rt": LIBRARY, "boxes/src/boxes.rt": BOXES, "tool/src/main.rt": PROGRAM}.items():
        path = tmp_path / "crates" / name
        path.parent.mkdir(parents=True, exist_ok=True)
        path.write_text(text, encoding="utf-8")
    return tmp_path


def test_a_long_line_of_a_public_contract_is_found(small: Path) -> None:
    assert [line.rpartition(": ")[0] for line in long_lines(small, "boxes")] == [
        "crates/boxes/src/boxes.rt:12: Box::first",
        "crates/boxes/src/boxes.rt:25: put",
        "crates/boxes/src/boxes.rt:33: taken",
    ]
    assert [line.rpartition(": ")[0] for line in long_lines(small, "tool")] == ["crates/tool/src/main.rt:4: main"]


@pytest.mark.parametrize("name", TOP)
def test_no_line_of_a_public_contract_is_long(name: str) -> None:
    assert list(long_lines(ROOT, name)) == []
