"""Tests of promises.py over a made-up library."""
from __future__ import annotations

from pathlib import Path

import promises
import pytest

LIB = """//! Boxes of numbers.
#![tactic(auto)]

mod boxes;
pub mod counting;
mod laws;

pub use boxes::{Box, Full, Holds};
pub use laws::boxes_keep;
"""

BOXES = """//! A box.

ghost use Rattle.std.specs.Prelude.{◌≡◌, ◌++◌};
ghost use Rattle.boxes.specs.Boxes.{IsFull, HasItem as Has};
ghost use Rattle.base.specs.Numbers.{most};

/// There is no room.
pub enum Full {
    Full,
}

/// Some numbers.
pub struct Box {
    items: Vec<u32>,
}

impl Model for Box {
    ghost Value = { List ℕ };

    /// Its numbers.
    ghost view = { λ b. b.items.items };
}

/// What holds a number.
pub trait Holds {
    /// The number.
    ghost held: { Self → ℕ };

    /// Puts a number.
    fn put(&mut self, number: u32)
        // The number is held.
        ensures { held self.new ≡ number };
}

impl Box {
    /// Puts a number at the end.
    #[tactic(auto)]
    pub fn put(&mut self, number: u32) -> Result<(), Full>
        // Called with a number
        // below the limit.
        requires { number < most }
        // Refused exactly where the box is full,
        // and then nothing changed.
        ensures full { IsErr result ↔ IsFull self.old }
        ensures unchanged { OnErr result (self.new ≡ self.old) }

        // The number is its last | one.
        ensures put { OnOk result (Has (self.old ++ number ∷ []) self.new record { longer = True; than = "a hundred characters and so not printed" } self.new) }
    {
        self.items.push(number)
    }

    /// How many numbers there are.
    pub fn count(&self) -> u32
        ensures { result ≡ length self.now }
    {
        self.inner()
    }

    fn inner(&self) -> u32
        ensures { result ≡ length self.now }
    {
        0
    }
}
"""

COUNTING = """//! Counting.

/// The next number.
pub fn next(number: u32) -> u32
    ensures value { result ≡ number + 1 }
    ensures above { number < result }
{
    number + 1
}
"""

LAWS = """//! Laws.

ghost use Rattle.boxes.specs.Boxes.{BoxesKeep};

/// Boxes keep what is put.
pub fn boxes_keep()
    ensures law { BoxesKeep }
{}
"""

SPECS = """-- Boxes.

-- a box is full
abbrev pub IsFull : List ℕ → Type 0
IsFull items = length items ≡ most

-- a box has an item
pub record HasItem (item : ℕ) (items : List ℕ) : Type 0 where
  -- the item is
  -- among them
  pub among : IsAmong
    item items
  pub some : 0 < length items

-- an item is among these
pub record IsAmong (item : ℕ) (items : List ℕ) : Type 0 where
  -- what stands before it
  pub first : List ℕ

-- boxes keep what is put
abbrev pub BoxesKeep : Type 0
"""


@pytest.fixture
def root(tmp_path: Path) -> Path:
    files = {
        "crates.txt": "# numbers in boxes\nboxes: base\n# programs\ntool: boxes\n",
        "crates/boxes/src/lib.rt": LIB,
        "crates/boxes/src/boxes.rt": BOXES,
        "crates/boxes/src/counting.rt": COUNTING,
        "crates/boxes/src/laws.rt": LAWS,
        "crates/boxes/specs/Boxes.antt": SPECS,
        "crates/tool/src/main.rt": "fn main() {}\n",
        "docs/PROOFS.md": "# Proofs\n\n| Law | Clause |\n|---|---|\n| boxes keep | `boxes` `boxes_keep` `law` |\n",
    }
    for name, text in files.items():
        path = tmp_path / name
        path.parent.mkdir(parents=True, exist_ok=True)
        path.write_text(text, encoding="utf-8")
    return tmp_path


def rows(root: Path) -> list[str]:
    return [line for line in promises.Page(root).text().splitlines() if line.startswith("| `") or line.startswith("|  |")]


def test_each_clause_has_a_row_with_its_sentence_and_definitions(root: Path) -> None:
    found = rows(root)
    assert (
        "| `Box::put` | requires | Called with a number below the limit. `number < most` | `base` `Numbers.antt` `most` |" in found
    )
    assert (
        "|  | `full`, `unchanged` | Refused exactly where the box is full, and then nothing changed. "
        "`IsErr result ↔ IsFull self.old`, `OnErr result (self.new ≡ self.old)` | `Boxes.antt` `IsFull` |" in found
    )
    assert "| `Holds::put` |  | The number is held. `held self.new ≡ number` |  |" in found


def test_a_long_clause_is_not_printed_and_a_bar_is_kept_out_of_the_table(root: Path) -> None:
    assert r"|  | `put` | The number is its last \| one. | `Boxes.antt` `HasItem` |" in rows(root)


def test_the_fields_of_a_record_follow_once(root: Path) -> None:
    assert rows(root).count("|  | · `among` | The item is among them. `IsAmong item items` | `Boxes.antt` `IsAmong` |") == 1
    assert rows(root).count("|  | · · `first` | What stands before it. `List ℕ` |  |") == 1


def test_the_only_clause_of_a_call_may_have_the_comment_of_the_call(root: Path) -> None:
    assert "| `Box::count` |  | How many numbers there are. `result ≡ length self.now` |  |" in rows(root)
    assert "| `boxes_keep` | `law` | Boxes keep what is put. `BoxesKeep` | `Boxes.antt` `BoxesKeep` |" in rows(root)


def test_what_is_not_public_has_no_row(root: Path) -> None:
    assert not any("inner" in row for row in rows(root))


def test_a_crate_stands_below_the_comment_of_its_layer(root: Path) -> None:
    text = promises.Page(root).text()
    assert "## Numbers in boxes\n\n### `boxes`\n\nBoxes of numbers.\n" in text
    assert "tool" not in text
    assert "Plain types: `Full`: There is no room." in text
    assert "| `Model` `view` | Its numbers. `λ b. b.items.items` |" in text


def test_a_clause_without_a_sentence_is_found(root: Path, capsys: pytest.CaptureFixture[str]) -> None:
    assert promises.main([str(root)]) == 0
    assert promises.main(["--check", str(root)]) == 1
    assert capsys.readouterr().out.splitlines() == [
        "boxes: counting::next ensures value has no sentence",
        "boxes: counting::next ensures above has no sentence",
        "2 differences",
    ]
    path = root / "crates/boxes/src/counting.rt"
    path.write_text(COUNTING.replace("    ensures value", "    // The number after it.\n    ensures value"), encoding="utf-8")
    assert promises.main(["--check", str(root)]) == 1
    assert capsys.readouterr().out.splitlines() == ["docs/PROMISES.md is not what promises.py writes of the code", "1 differences"]
    assert promises.main([str(root)]) == 0
    assert promises.main(["--check", str(root)]) == 0


def test_an_empty_line_ends_what_a_sentence_is_about(root: Path) -> None:
    path = root / "crates/boxes/src/counting.rt"
    path.write_text(COUNTING.replace("    ensures value", "    // The number after it.\n    ensures value").replace("    ensures above", "\n    ensures above"), encoding="utf-8")
    assert promises.Page(root).lacking() == ["boxes: counting::next ensures above has no sentence"]


def test_a_name_on_the_page_of_proofs_that_is_not_there_is_found(root: Path) -> None:
    path = root / "docs/PROOFS.md"
    path.write_text(path.read_text(encoding="utf-8").replace("`law`", "`laws`"), encoding="utf-8")
    assert promises.Page(root).strangers() == ["docs/PROOFS.md: there is no laws of boxes_keep in boxes"]
    path.write_text("## A call: `boxes` `Box::put`\n\n- `put`, `full`: it.\n- `empty`: no.\n\n`boxes` `take` is none, `boxes` `Box::put` `among`, `some` are.\n`crates` `keep` `law` are no more, `no` `crate` is none.\n", encoding="utf-8")
    assert promises.Page(root).strangers() == [
        "docs/PROOFS.md: there is no take in boxes",
        "docs/PROOFS.md: there is no crate crates, which keep `law` follow",
        "docs/PROOFS.md: there is no empty of Box::put in boxes",
    ]


def test_the_counts(root: Path) -> None:
    assert promises.Page(root).counts().splitlines() == [
        "1 libraries, 3 public types and traits, 5 public calls",
        "8 ensures: 6 have a sentence (4 by a comment above them), 2 have none",
        "1 requires: 1 have a sentence (1 by a comment above them), 0 have none",
    ]
