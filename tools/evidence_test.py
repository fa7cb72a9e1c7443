"""Tests of tools/evidence over a made-up checkout and the lines of a gate.

usage: /usr/bin/python3 -m pytest tools/evidence_test.py
"""

from __future__ import annotations

import json
import os
import subprocess
from collections.abc import Callable
from pathlib import Path
from typing import Any

import pytest

TOOL = Path(__file__).resolve().parent / "evidence"

FILES = {
    "CHANGELOG.md": "# Changes\n\n## 0.2.0\n\n## 0.1.0\n",
    "crates.txt": "# all\nboxes: std\nrooms: boxes\ncase_suite: rooms\n",
    "HANDLES": "Handles allowed: none.\n",
    "crates/boxes/src/lib.rt": "//! Boxes.\n#![tactic(auto)]\n\nmod put;\n\npub use put::put;\n",
    "crates/boxes/src/put.rt": (
        "//! A box.\n\n/// Puts.\npub fn put(n: u32) -> u32\n    // The number.\n    ensures put { result ≡ n }\n    ensures small { result < 9 }\n"
        "{\n    inner(n)\n}\n\nfn inner(n: u32) -> u32\n    ensures same { result ≡ n }\n{\n    n\n}\n"
    ),
    "crates/boxes/must-fail/nothing_is_put.edit": "file: src/put.rt\nold:     inner(n)\nnew:     0\n",
    "crates/boxes/must-fail/a_law_is_wrong.edit": "file: specs/Laws.antt\nold: a\nnew: b\n",
    "crates/rooms/src/lib.rt": "//! Rooms.\n#![tactic(auto)]\n",
    "crates/case_suite/src/main.rt": "fn main() {}\n",
    "crates/case_suite/stdout": "numbers: 2 of 2 hold\n",
    "crates/case_suite/data/numbers.toml": '[[group]]\nname = "numbers"\n[[group.case]]\nshows = "one"\n[[group.case]]\nshows = "two"\n',
    "docs/requirements.toml": '[XR-PUT-001]\nsays = "A number is put."\nstands = "docs/MANUAL.md#put"\nclauses = ["boxes put put"]\n',
}

GATE = """== boxes
fn boxes::put::put: proved
fn boxes::put::inner: proved
logic /kit/antt-project.json: libraries=16 files=2756 sum=dac8208d
logic=proved functions=2 sum=dac8208d native=nat logic-built=trusted
rt: boxes proved
== boxes: its tests
logic=proved functions=3 sum=dac8208d native=nat logic-built=trusted
rt: boxes: its tests are proved
rt: boxes: trying its must-fail edits (2)
rt: rooms is kept: an earlier run on this machine proved the same files over the same libraries
== case_suite
logic=proved functions=1 sum=dac8208d native=nat logic-built=trusted
rt: case_suite proved
rt: must-fail boxes/a_law_is_wrong.edit: refused, as it must be: proofs/laws/adds/Answers.antt:7:3: error: `returns-clause-law` is not proved
rt: must-fail boxes/nothing_is_put.edit: refused, as it must be: note: src/put.rt:9:5: it is not proved that what the function ensures holds when it returns (`returns-clause-put`); the facts
rt: boxes: its tests passed
rt: case_suite ran, and wrote what its file stdout has
rt: case_suite ran (built by Rattle's own compiler), and wrote what its file stdout has
rt: ok; handles allowed: none; must-fail edits: 2 refused; every proof and must-fail edit was done in this run
6 passed, 0 failed
"""

Call = Callable[..., "subprocess.CompletedProcess[str]"]


@pytest.fixture
def root(tmp_path: Path) -> Path:
    root = tmp_path / "tree"
    for name, text in FILES.items():
        (root / name).parent.mkdir(parents=True, exist_ok=True)
        (root / name).write_text(text, encoding="utf-8")
    set_gate(root, GATE, 0)
    kit = tmp_path / "bin/rt"
    kit.parent.mkdir()
    kit.write_text("#!/bin/sh\necho kit-1 logic dac8208d\n", encoding="utf-8")
    kit.chmod(0o755)
    set_program(root, "proved 2026-11-30T12:00:00Z")
    return root


def set_program(root: Path, proof: str) -> None:
    """What the program says of itself."""
    (root / "xm_run").write_text(f"#!/bin/sh\necho xm_run 0.2.0\necho {proof}\n", encoding="utf-8")
    (root / "xm_run").chmod(0o755)


def set_gate(root: Path, text: str, status: int) -> None:
    """The gate of the tree prints this text and ends with this status."""
    (root / ".ci").mkdir(exist_ok=True)
    (root / "printed").write_text(text, encoding="utf-8")
    (root / ".ci/run").write_text(f"#!/bin/sh\ncat printed\nexit {status}\n", encoding="utf-8")
    (root / ".ci/run").chmod(0o755)


@pytest.fixture
def call(root: Path) -> Call:
    def run(*words: str | Path) -> subprocess.CompletedProcess[str]:
        return subprocess.run([TOOL, *words], env={**os.environ, "XM_RUN_ROOT": str(root), "PATH": f"{root.parent}/bin:{os.environ['PATH']}"}, capture_output=True, text=True, check=False)

    return run


def read(root: Path) -> dict[str, Any]:
    found: dict[str, Any] = json.loads((root / "out/evidence/evidence.json").read_text(encoding="utf-8"))
    return found


def test_gate_is_run_and_its_output_is_kept(root: Path, call: Call) -> None:
    done = call()
    assert (done.returncode, done.stdout) == (0, GATE)
    assert (root / "out/evidence/gate.txt").read_text(encoding="utf-8") == GATE
    gate = read(root)["gate"]
    assert (gate["command"], gate["status"], gate["last_line"]) == (".ci/run", 0, "6 passed, 0 failed")
    assert gate["summary"].startswith("ok; handles allowed: none")


@pytest.mark.parametrize("status", [1, 2])
def test_status_is_that_of_the_gate(root: Path, call: Call, status: int) -> None:
    set_gate(root, "0 passed, 1 failed\n", status)
    assert call().returncode == status
    assert read(root)["crates"]["boxes"]["proof"] == "not seen"


def test_each_crate_is_proved_or_kept(root: Path, call: Call) -> None:
    call()
    crates = read(root)["crates"]
    assert [(name, crate["proof"], crate["tests"], crate["functions"]) for name, crate in crates.items()] == [
        ("boxes", "proved", "passed", 2),
        ("rooms", "kept", "none", None),
        ("case_suite", "proved", "none", 1),
    ]
    assert read(root)["kit"] == {"name": "kit-1 logic dac8208d", "logic_sha256": "dac8208d"}


def test_each_clause_has_its_text_and_its_crate(root: Path, call: Call) -> None:
    call()
    found = read(root)
    assert found["clauses"]["boxes put small"] == {"crate": "boxes", "text": "result < 9", "proved": True}
    assert found["inner_clauses"] == ["boxes/src/put.rt inner same"]


def test_wrong_body_has_the_function_and_the_clause_that_refused_it(root: Path, call: Call) -> None:
    call()
    bodies = read(root)["wrong_bodies"]
    named = {name: (each["verdict"], each["function"], each["clause"]) for name, each in bodies.items()}
    assert named == {
        "boxes/a_law_is_wrong": ("refused", "laws::adds", "law"),
        "boxes/nothing_is_put": ("refused", "put", "put"),
    }


def test_goal_of_a_function_with_one_clause_is_that_clause(root: Path, call: Call) -> None:
    (root / "crates/boxes/src/put.rt").write_text(FILES["crates/boxes/src/put.rt"].replace("    ensures small { result < 9 }\n", ""), encoding="utf-8")
    set_gate(root, GATE.replace("src/put.rt:9:5: it is not proved", "src/put.rt:8:5: it is not proved").replace("returns-clause-put", "returns"), 0)
    call()
    body = read(root)["wrong_bodies"]["boxes/nothing_is_put"]
    assert (body["function"], body["goal"], body["clause"]) == ("put", "returns", "put")


def test_cases_hold_where_both_builds_of_their_program_ran(root: Path, call: Call) -> None:
    call()
    assert {name: case["holds"] for name, case in read(root)["cases"].items()} == {
        "numbers.toml: numbers: one": True,
        "numbers.toml: numbers: two": True,
    }
    set_gate(root, "\n".join(line for line in GATE.splitlines() if "own compiler" not in line) + "\n", 0)
    done = call()
    assert done.returncode == 1
    assert "case_suite was not seen to run as rattle built it" in done.stderr
    assert not any(case["holds"] for case in read(root)["cases"].values())


@pytest.mark.parametrize(
    ("line", "says"),
    [
        ("must-fail boxes/nothing", "wrong body boxes/nothing_is_put: not seen"),
        ("rt: rooms is kept", "rooms is not seen"),
        ("rt: case_suite ran, and", "case_suite was not seen to run as llvm built it"),
    ],
)
def test_what_a_passed_gate_did_not_show_is_named(root: Path, call: Call, line: str, says: str) -> None:
    set_gate(root, "\n".join(each for each in GATE.splitlines() if line not in each) + "\n", 0)
    done = call()
    assert done.returncode == 1
    assert says in done.stderr


@pytest.mark.parametrize("proof", ["not proved", ""])
def test_program_that_is_not_proved_is_no_evidence(root: Path, call: Call, tmp_path: Path, proof: str) -> None:
    if proof:
        set_program(root, proof)
    else:
        (root / "xm_run").unlink()
    says = "evidence: the program is not proved: call ./xm_run --prove, and then this again\n"
    (tmp_path / "log").write_text(GATE, encoding="utf-8")
    for done in (call(), call("--of", tmp_path / "log")):
        assert done.returncode == 1
        assert done.stderr.endswith(says)


def test_refusals_that_no_clause_made_are_counted_apart(root: Path, call: Call) -> None:
    assert "evidence: wrong bodies: 2 refused\n" in call().stderr
    by_limit = "refused, as it must be (only by a limit of the prover, which gave no verdict, so this says less of the contract: choose a change that it refuses sooner): src/put.rt:9:5: error: x"
    set_gate(root, GATE.replace("refused, as it must be: note: src/put.rt:9:5", f"{by_limit} src/put.rt:9:5"), 0)
    done = call()
    assert done.returncode == 0
    assert "evidence: wrong bodies: 1 refused, 1 refused by a limit\n" in done.stderr
    assert "evidence: wrong body boxes/nothing_is_put: refused by a limit, which shows nothing of the clause\n" in done.stderr
    assert read(root)["verdicts"] == {"refused": 1, "refused by a limit": 1}


# What `rt ci guest_bus` printed, word for word, where its proof was kept and its wrong bodies were tried.
REAL = """rt: guest_bus is kept: an earlier run on this machine proved the same files over the same libraries
rt: guest_bus: trying its must-fail edits (2)
rt: must-fail guest_bus/a_double_word_has_four_bytes.edit: refused, as it must be: note: src/bus.rt:29:5: it is not proved that what the function ensures holds when it returns (`returns-in-Eight`); the facts known there allow values at which t
rt: must-fail guest_bus/half_a_word_has_four_bytes.edit: refused, as it must be: note: src/bus.rt:29:5: it is not proved that what the function ensures holds when it returns (`returns-in-Two`); the facts known there allow values at which thi
rt: guest_bus and the crates below passed, and that is kept. This is not the gate: run rt ci with no names
3 passed, 0 failed (guest_bus and the crates below alone: not the gate)
"""
# As rt says them: how the prover refused wrong definitions of two laws, at the clause and at a lemma that states it.
LAWS = [
    (
        "./proofs/law/acts_alone/Answers.antt:5:28: error: `returns`: as printed, the two types differ only where one has `0` (expected) and the other has `p` (found), t",
        ("law::acts_alone", "returns"),
    ),
    (
        "./proofs/PlannedLemmas.antt:63:5: error: `needs_are_served`: as printed, the two types differ only where one has `window` (expected), right after `… need.durati",
        (None, None),
    ),
]


def test_lines_of_a_real_gate(root: Path, call: Call, tmp_path: Path) -> None:
    bus = "//! Sizes.\n" + "\n" * 22 + "pub enum Size {\n    One,\n}\nimpl Size {\n    /// How many.\n    pub fn bytes(self) -> u32\n        // Bytes.\n        ensures { result ≡ 1 }\n    {\n        1\n    }\n}\n"
    files = {
        "crates.txt": "guest_bus:\n",
        "crates/guest_bus/src/lib.rt": "//! Sizes.\n#![tactic(auto)]\n\nmod bus;\n\npub use bus::Size;\n",
        "crates/guest_bus/src/bus.rt": bus,
        "crates/guest_bus/must-fail/a_double_word_has_four_bytes.edit": "file: src/bus.rt\n",
        "crates/guest_bus/must-fail/half_a_word_has_four_bytes.edit": "file: src/bus.rt\n",
    }
    for name, text in files.items():
        (root / name).parent.mkdir(parents=True, exist_ok=True)
        (root / name).write_text(text, encoding="utf-8")
    (tmp_path / "log").write_text(REAL, encoding="utf-8")
    done = call("--of", tmp_path / "log")
    assert (done.returncode, done.stderr.splitlines()[1:]) == (0, ["evidence: wrong bodies: 2 refused"])
    found = read(root)
    assert (found["part"], found["crates"]["guest_bus"]["proof"]) == (["guest_bus"], "kept")
    assert [(each["function"], each["goal"], each["clause"]) for each in found["wrong_bodies"].values()] == [
        ("bytes", "returns-in-Eight", "ensures"),
        ("bytes", "returns-in-Two", "ensures"),
    ]


@pytest.mark.parametrize(("said", "where"), LAWS)
def test_refusals_in_proofs_of_laws(root: Path, call: Call, said: str, where: tuple[str | None, str | None]) -> None:
    set_gate(root, f"rt: must-fail boxes/a_law_is_wrong.edit: refused, as it must be: {said}\n1 passed, 0 failed\n", 1)
    call()
    body = read(root)["wrong_bodies"]["boxes/a_law_is_wrong"]
    assert (body["verdict"], body["function"], body["goal"], body["said"]) == ("refused", *where, said)


PART = """== boxes
logic=proved functions=2 sum=dac8208d native=nat logic-built=trusted
rt: boxes proved
rt: rooms is kept: an earlier run on this machine proved the same files over the same libraries
rt: must-fail boxes/a_law_is_wrong.edit: refused, as it must be: proofs/laws/adds/Answers.antt:7:3: error: `returns-clause-law` is not proved
rt: must-fail boxes/nothing_is_put.edit: refused, as it must be: note: src/put.rt:9:5: it is not proved (`returns-clause-put`)
rt: rooms and the crates below passed, and that is kept. This is not the gate: run rt ci with no names
4 passed, 0 failed (rooms and the crates below alone: not the gate)
"""


def test_part_of_the_gate_has_the_named_crates_and_those_below(root: Path, call: Call, tmp_path: Path) -> None:
    kit = root.parent / "bin/rt"
    (root / "printed").write_text(PART, encoding="utf-8")
    kit.write_text('#!/bin/sh\n[ "$1" = version ] && echo kit-1 || { echo "$@" >words; cat printed; }\n', encoding="utf-8")
    set_program(root, "not proved")
    done = call("rooms")
    assert (done.returncode, done.stdout) == (0, PART)
    assert (root / "words").read_text(encoding="utf-8") == "ci rooms\n"
    found = read(root)
    assert (found["part"], list(found["crates"]), list(found["programs"]), found["cases"], found["program"]) == (["rooms"], ["boxes", "rooms"], [], {}, [])
    assert found["gate"]["command"] == "rt ci rooms"
    (tmp_path / "log").write_text(PART, encoding="utf-8")
    assert call("--of", tmp_path / "log", "--out", tmp_path / "kept").returncode == 0
    kept = json.loads((tmp_path / "kept/evidence.json").read_text(encoding="utf-8"))
    assert (kept["part"], kept["crates"].keys()) == (["rooms"], found["crates"].keys())
    assert call("--anew", "boxes").returncode == 0
    assert (root / "words").read_text(encoding="utf-8") == "ci --anew boxes\n"
    assert "evidence: there is no crate stairs\n" in call("stairs").stderr


def test_verdicts_of_wrong_bodies(root: Path, call: Call) -> None:
    for said, verdict in [
        ("refused, as it must be (only by a limit of the prover, which gave no verdict): x", "refused by a limit"),
        ("NOT REFUSED: the crate is still proved", "not refused"),
        ("BAD EDIT: the prover cannot read", "bad"),
        ("NOT TRIED: its check was killed", "not tried"),
    ]:
        set_gate(root, f"rt: must-fail boxes/nothing_is_put.edit: {said}\n0 passed, 1 failed\n", 1)
        call()
        assert read(root)["wrong_bodies"]["boxes/nothing_is_put"]["verdict"] == verdict


def test_gate_that_ran_before(root: Path, call: Call, tmp_path: Path) -> None:
    (tmp_path / "log").write_text(GATE, encoding="utf-8")
    assert call("--of", tmp_path / "log", "--out", tmp_path / "kept").returncode == 0
    assert (tmp_path / "kept/gate.txt").read_text(encoding="utf-8") == GATE
    (tmp_path / "log").write_text("5 passed, 1 failed\n", encoding="utf-8")
    done = call("--of", tmp_path / "log", "--out", tmp_path / "kept")
    assert done.returncode == 1
    assert "the gate did not pass: 5 passed, 1 failed" in done.stderr


def test_two_that_are_alike_do_not_differ(root: Path, call: Call, tmp_path: Path) -> None:
    call("--out", tmp_path / "one")
    call("--out", tmp_path / "two")
    done = call("--compare", tmp_path / "one/evidence.json", tmp_path / "two/evidence.json")
    assert (done.returncode, done.stdout) == (0, "0 differences\n")


@pytest.mark.parametrize(
    ("name", "old", "new", "says"),
    [
        ("crates/boxes/src/put.rt", "result < 9", "result < 8", 'clause boxes put small: text: "result < 9" -> "result < 8"'),
        ("crates/case_suite/data/numbers.toml", "two", "three", "case is gone: numbers.toml: numbers: two"),
        ("crates/case_suite/data/numbers.toml", "two", "three", "case is new: numbers.toml: numbers: three"),
        ("docs/requirements.toml", "A number", "Each number", 'requirement XR-PUT-001: says: "A number is put." -> "Each number is put."'),
        ("crates/boxes/must-fail/nothing_is_put.edit", "0", "1", "wrong body boxes/nothing_is_put: sha256: "),
        ("CHANGELOG.md", "## 0.2.0", "## 0.3.0", "release version: 0.2.0 -> 0.3.0"),
        ("crates/boxes/src/put.rt", "fn inner", "fn other", "inner clause is new: boxes/src/put.rt other same"),
    ],
)
def test_what_changed_is_named(root: Path, call: Call, tmp_path: Path, name: str, old: str, new: str, says: str) -> None:
    call("--out", tmp_path / "one")
    text = (root / name).read_text(encoding="utf-8")
    assert old in text
    (root / name).write_text(text.replace(old, new), encoding="utf-8")
    call("--out", tmp_path / "two")
    done = call("--compare", tmp_path / "one/evidence.json", tmp_path / "two/evidence.json")
    assert done.returncode == 1
    assert says in done.stdout


def test_other_words_and_files_that_are_not_there(call: Call, tmp_path: Path) -> None:
    assert call("--twice").returncode == 64
    assert call("--anew", "--of", tmp_path / "none").returncode == 64
    assert call("--of", tmp_path / "none", "boxes").returncode == 64
    assert call("stairs").returncode == 64
    assert call("--of", tmp_path / "none").returncode == 74
    assert call("--compare", tmp_path / "none", tmp_path / "none").returncode == 74
    assert call("--help").returncode == 0
