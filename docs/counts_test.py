"""Tries docs/counts.py on a small tree whose definitions were counted by hand.

usage: /usr/bin/python3 -m pytest docs/counts_test.py
"""

from pathlib import Path

import pytest

import counts
from definitions import OF_INSTANCE, Key, Tree, Walk, with_traits

# Two crates. Above is `xm_commands`, whose `xm_main` has three clauses; the other one is below it.
SOURCES = {
    "low/src/lib.rt": """mod state;
mod store;
pub use state::State;
pub use store::{Shelf, Store};
""",
    "low/src/state.rt": """//! States.
pub enum State {
    Ready,
    Halted,
}

pub const MOST: u8 = 8;

pub struct Inner {
    state: State,
}
""",
    "low/src/store.rt": """ghost use Rattle.low.specs.Files.{Files};

pub trait Store {
    ghost files: { Self → Option Files };

    ghost calls: { Self → ℕ };
}

pub struct Shelf {
    count: u8,
}

impl Store for Shelf {
    ghost files = { λ shelf. None };

    ghost calls = { λ shelf. shelf.count };
}
""",
    "low/specs/Files.antt": """-- Files.
use Rattle.std.specs.Prelude.{ℕ, List}

-- a map
abbrev pub Files : Type 0
Files = List (List ℕ)

-- nothing uses it
abbrev pub empty : Files
empty = []
""",
    "low/specs/Lib.antt": "pub use Rattle.low.specs.Files\npub mod Files\n",
    "xm_commands/src/lib.rt": """mod top;
mod rows;
pub use rows::worked;
pub use top::xm_main;
""",
    "xm_commands/src/rows.rt": """//! Rows worked by hand.
ghost use Rattle.xm_commands.specs.Rows.{IsWorked};

pub fn worked()
    ensures row { IsWorked }
{}
""",
    "xm_commands/src/top.rt": """ghost use Rattle.xm_commands.specs.Top.{Answers, IsKept};
ghost use Rattle.xm_commands.specs.Inner.{IsInner};

use low::{Shelf, State, Store};

/// Does it.
pub fn xm_main<S: Store>(files: &mut S, shelf: &Shelf, count: u8) -> State
    // A comment that names Answers.
    ensures state { Answers (S.files files.old) result }
    ensures kept { IsKept count (⟦<Shelf as Store>⟧.calls shelf.now) }
    ensures plain { count ≡ count }
{
    inner()
}

fn inner()
    ensures { IsInner }
{
}
""",
    "xm_commands/specs/Top.antt": """-- What is promised.
use Rattle.std.specs.Prelude.{ℕ, ◌≡◌, Option, Some, None}
use Rattle.low.specs.Files as there
use Rattle.low.specs.declared.state.State.{State}
use Rattle.low.specs.declared.state.State.TheVariants as state
use Rattle.xm_commands.specs.Words.{◌==>◌, Word, Short, long, text as spelled}

-- what is answered; the word empty stands in a comment, and "long" in a text
pub record Answers (files : Option there.Files) (result : State) : Type 0 where
  pub spelled : ℕ
  pub is : result ≡ state.Ready

-- the data type of a constructor in a pattern, an operator, and a name that was renamed
abbrev pub IsKept : ℕ → ℕ → Type 0
IsKept count calls = length_of Short ==> spelled

-- a name that is bound is no use: `long` is a parameter, a name of a λ, of a pattern, of a field, and of a `do`
abbrev length_of : Word → ℕ
length_of Short = (λ long. long) 1
length_of (Long long) = long + code "long"
""",
    "xm_commands/specs/Words.antt": """-- Words.
use Rattle.std.specs.Prelude.{ℕ, ◌≡◌}

pub data Word : Type 0 where
  Short : Word
  Long : (long : ℕ) → Word

abbrev pub long : ℕ
long = 2

module _ {long : ℕ} where
  -- its parameter hides the definition
  abbrev pub text : ℕ
  text = long

infixl 10 ◌==>◌
abbrev pub ◌==>◌ : ℕ → ℕ → Type 0
a ==> b = a ≡ b

-- a lemma beside definitions
pub long-is : long ≡ 2
long-is = refl
""",
    "xm_commands/specs/Rows.antt": """-- Rows.
use Rattle.xm_commands.specs.Words.{Word, Short, long}
use Rattle.std.specs.Prelude.{◌≡◌}

abbrev pub example : Word
example = Short

abbrev pub IsWorked : Type 0
IsWorked = (example ≡ example) × (long ≡ long)
""",
    "xm_commands/specs/Inner.antt": "abbrev pub IsInner : Type 0\nIsInner = Unit {0}\n",
    "xm_commands/proofs/Lemmas.antt": "-- nothing\n",
}


@pytest.fixture
def root(tmp_path: Path) -> Path:
    for name, text in SOURCES.items():
        path = tmp_path / "crates" / name
        path.parent.mkdir(parents=True, exist_ok=True)
        path.write_text(text, encoding="utf-8")
    (tmp_path / "crates.txt").write_text("low:\nxm_commands: low\n", encoding="utf-8")
    return tmp_path


def below(tree: Tree, word: str) -> set[str]:
    return {f"{key.file}:{key.name}" for key in tree.below(counts.starts_of(tree, word))}


def test_a_clause_stands_on_what_it_names_and_on_the_types_of_that(root: Path) -> None:
    state = {
        "xm_commands/specs/Top.antt:Answers",
        "low/specs/Files.antt:Files",
        "low/src/state.rt:State",
        "low/src/store.rt:Store.files",
    }
    kept = {
        "xm_commands/specs/Top.antt:IsKept",
        "xm_commands/specs/Top.antt:length_of",
        "xm_commands/specs/Words.antt:Word",
        "xm_commands/specs/Words.antt:◌==>◌",
        "xm_commands/specs/Words.antt:text",
        "low/src/store.rt:Shelf",
        "low/src/store.rt:Shelf◁Store.calls",
        "low/src/store.rt:Store.calls",
        "low/src/store.rt:Store.files",
        "low/specs/Files.antt:Files",
    }
    tree = Tree(root)
    assert below(tree, "state") == state
    assert below(tree, "kept") == kept
    assert below(tree, "plain") == set()
    assert below(tree, "xm_commands::xm_main::kept") == kept
    assert below(tree, "xm_commands::xm_main") == state | kept
    assert below(tree, "xm_commands.Top.length_of") == {"xm_commands/specs/Top.antt:length_of", "xm_commands/specs/Words.antt:Word"}
    assert below(tree, "absent") == set()
    # The clause `state` is a record, and its fields count by themselves.
    assert below(tree, "is") == {"low/src/state.rt:State"}
    assert below(tree, "spelled") == set()


def test_a_crate_hands_on_the_files_of_its_library(root: Path) -> None:
    lib = root / "crates/xm_commands/specs/Lib.antt"
    lib.write_text("pub use Rattle.low.specs.Files\n", encoding="utf-8")
    tree = Tree(root)
    assert tree.item("Rattle.xm_commands.specs.Files", "Files") == [Key("low/specs/Files.antt", "Files")]
    assert tree.item("Rattle.xm_commands.specs.Files", "absent") == []
    assert tree.item("Rattle.std.specs.Prelude", "List") == []
    assert tree.item("Rattle.low.specs.declared.state.TheConstants", "MOST") == [Key("low/src/state.rt", "MOST")]


@pytest.mark.parametrize(
    ("scope", "uses"),
    [
        ("f x = long", 1),
        ("f long = long", 0),
        ("f x = (λ long. long) long", 1),
        ("f x = (λ y long. y long)", 0),
        ("(long : ℕ) → long ≡ long", 0),
        ("{long : ℕ} → long ≡ long", 0),
        ("((long : ℕ) → long) × long", 1),
        ("f x = let long = 1 in long", 0),
        ("f x = do long ← x long", 0),
        ("f x = record { long = x; other = x }", 0),
        ("f x = record { other = long }", 1),
        ("f x = elim x [ long ↦ long | y ↦ y ]", 0),
        ("f x = elim x [ y ↦ y | z ↦ long ]", 1),
        ("f (Short) = 1", 0),
        ("f x = x.long", 0),
        ("f x = long.field", 1),
    ],
)
def test_what_is_bound_is_no_use(root: Path, scope: str, uses: int) -> None:
    tree = Tree(root)
    tokens = scope.replace("(", " ( ").replace(")", " ) ").replace("{", " { ").replace("}", " } ").replace(";", " ;").split()
    found = Walk(tree, "xm_commands/specs/Rows.antt", tokens, set()).found
    assert len([key for key in found if key.name == "long"]) == uses


def test_the_kind_of_a_definition_is_by_the_clauses_that_it_is_under(root: Path) -> None:
    found = {f"{key.file}:{key.name}": kind for key, kind in counts.kinds(Tree(root)).items()}
    assert found == {
        "low/specs/Files.antt:Files": counts.TRUSTED,
        "low/specs/Files.antt:empty": counts.PROOFS,
        "xm_commands/specs/Top.antt:Answers": counts.TRUSTED,
        "xm_commands/specs/Top.antt:IsKept": counts.TRUSTED,
        "xm_commands/specs/Top.antt:length_of": counts.TRUSTED,
        "xm_commands/specs/Words.antt:Word": counts.TRUSTED,
        "xm_commands/specs/Words.antt:long": counts.ROWS,
        "xm_commands/specs/Words.antt:text": counts.TRUSTED,
        "xm_commands/specs/Words.antt:◌==>◌": counts.TRUSTED,
        "xm_commands/specs/Words.antt:long-is": counts.PROOFS,
        "xm_commands/specs/Rows.antt:example": counts.ROWS,
        "xm_commands/specs/Rows.antt:IsWorked": counts.ROWS,
        "xm_commands/specs/Inner.antt:IsInner": counts.PROOFS,
    }


def test_the_tables(root: Path) -> None:
    lines = counts.summary(Tree(root))
    rows = [line.split() for line in lines]
    assert ["state", "4", "4", "2"] in rows
    assert ["kept", "10", "4", "2"] in rows
    assert ["all", "of", "them", "12", "5", "2"] in rows
    assert ["specs,", "trusted", "7", "1", "20"] in rows
    assert ["specs,", "rows", "worked", "by", "hand", "3", "1", "9"] in rows
    assert ["specs,", "for", "proofs", "3", "1", "2"] in rows
    assert ["specs,", "of", "several", "kinds", "2", "32"] in rows
    assert ["specs,", "that", "only", "hand", "names", "on", "1", "2"] in rows
    assert ["proofs", "1", "1"] in rows
    assert "0 of the 13 names in specs are defined in several files." in lines


def test_the_lists(root: Path) -> None:
    twice = root / "crates/low/specs/Twice.antt"
    twice.write_text("abbrev pub long : ℕ\nlong = 1\n", encoding="utf-8")
    assert list(counts.lists(Tree(root))) == [
        "crates/low/specs/Files.antt: 1 trusted, 1 for proofs",
        "crates/xm_commands/specs/Words.antt: 3 trusted, 1 rows worked by hand, 1 for proofs",
        "long: low.Twice, xm_commands.Words",
    ]


def test_lines_of_a_source_by_kind(tmp_path: Path) -> None:
    source = tmp_path / "source.rt"
    clause = "    ensures { " + "x" * 120 + " }\n"
    text = f"//! Says.\n\nuse a::b;\nfn f()\n    ensures first {{\n        x\n    }}\n{clause}{{\n}}\nmod tests {{\n    use b;\n}}\n"
    source.write_text(text, encoding="utf-8")
    wanted = {"comments and blank lines": 2, "imports and attributes": 1, "code": 3, "contracts": 4, "long": 1, "tests": 3}
    assert counts.line_kinds(source) == wanted


def test_the_listing_of_a_clause(root: Path) -> None:
    tree = Tree(root)
    word, text = "xm_commands.Words.Word", "xm_commands.Words.text"
    file = "crates/xm_commands/specs/Words.antt"
    assert list(counts.listing(tree, [word], False)) == ["1 definitions in 1 files of 1 crates", file]
    assert list(counts.listing(tree, [word, text], True)) == ["2 definitions in 1 files of 1 crates", f"{file}  Word text"]
    with pytest.raises(SystemExit):
        list(counts.listing(tree, ["absent"], False))


def test_the_page_gets_what_is_printed() -> None:
    page = f"Text.\n\n```text\n$ {counts.COMMAND}\nold\n```\n\nMore.\n"
    wanted = f"Text.\n\n```text\n$ {counts.COMMAND}\nfirst  1\nsecond 2\n```\n\nMore.\n"
    assert counts.with_block(["first  1", "second 2"], page) == wanted
    with pytest.raises(SystemExit):
        counts.with_block([], "no block\n")


def test_counts_in_sentences_are_those_of_their_clauses(root: Path) -> None:
    (root / "docs").mkdir()
    sentence = "It has {} definitions in {} files (`docs/counts.py state` lists them), and 5 definitions in 3 files."
    (root / "README.md").write_text(sentence.format("1,000", 2) + "\n", encoding="utf-8")
    (root / "docs/MACHINE.md").write_text(sentence.format(4, 4) + "\n", encoding="utf-8")
    tree = Tree(root)
    shown = "\n".join(counts.summary(tree))
    (root / "docs/ARCHITECTURE.md").write_text(f"```text\n$ {counts.COMMAND}\n{shown}\n```\n", encoding="utf-8")
    assert list(counts.differences(tree)) == [f"README.md: {sentence.format('1,000', 2)}\n    counted: {sentence.format(4, 4)}"]
    assert [text for _, _, text in counts.pages(tree)][0] == sentence.format(4, 4) + "\n"


@pytest.mark.parametrize(
    ("is_there", "counted", "near"),
    [
        ("src, code    24,637", "src, code    24,700", True),
        ("src, code    24,637", "src, code   124,637", False),
        ("src, code    9,999", "src, code    10,001", True),
        ("specs, rows worked by hand   376   22   2,736", "specs, rows worked by hand   376   21   2,736", False),
        ("alone   1,125    138", "alone   1,126    138", False),
        ("601 lines of contracts are longer than 120 characters, 126 of them of public calls.", "602 lines of contracts are longer than 120 characters, 126 of them of public calls.", True),
        ("proofs   1,202   64,373", "src, all of it   1,202   64,373", False),
    ],
)
def test_a_size_of_the_tree_may_be_off_by_a_hundredth(is_there: str, counted: str, near: bool) -> None:
    assert counts.is_near(is_there, counted) == near


def test_long_lines_of_public_contracts(root: Path) -> None:
    top = root / "crates/xm_commands/src/top.rt"
    clause = f"    ensures plain {{ count ≡ count{' ' * 120} }}\n"
    text = top.read_text(encoding="utf-8").replace("    ensures plain { count ≡ count }\n", clause)
    top.write_text(text.replace("    ensures { IsInner }\n", f"    ensures {{ IsInner{' ' * 120} }}\n"), encoding="utf-8")
    assert counts.public_long_lines(root) == {"xm_commands": 1}


def test_what_is_said_of_a_tuple_is_that_of_its_first_type() -> None:
    assert OF_INSTANCE.sub(r"\1◁\2", "⟦<(S, O, Board) as World>⟧.world all") == "S◁World.world all"
    assert OF_INSTANCE.sub(r"\1◁\2", "⟦<Board as ViewBoard>⟧.view") == "Board◁ViewBoard.view"


def test_what_a_type_parameter_says_is_what_its_traits_declare() -> None:
    assert with_traits(["world", "(", "S.files", "all.0", ")"], {"S": {"Store"}}) == ["world", "(", "Store◁Store.files", "all.0", ")"]
