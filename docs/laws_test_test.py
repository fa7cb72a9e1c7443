"""Tries docs/laws_test on small sources whose faults are known.

usage: /usr/bin/python3 -m pytest docs/laws_test_test.py
"""

from __future__ import annotations

import importlib.machinery
import importlib.util
import sys
from pathlib import Path
from types import ModuleType

import pytest


def load() -> ModuleType:
    loader = importlib.machinery.SourceFileLoader("laws_test", str(Path(__file__).resolve().parent / "laws_test"))
    spec = importlib.util.spec_from_loader("laws_test", loader)
    assert spec is not None
    module = importlib.util.module_from_spec(spec)
    sys.modules["laws_test"] = module
    loader.exec_module(module)
    return module


LAWS = load()

LAW = """//! Laws.

/// Nothing is lost.
pub fn nothing_lost()
    ensures law { IsKept }
{}

/// Two laws at once.
pub fn all_kept()
    ensures law { IsKept }
{
    nothing_lost();
}
"""

HEAD = """//! A source.
use low::law::{all_kept, nothing_lost};
use low::proof;

"""

FUNCTION = """/// Counts.
fn count<F: Fn(u8) -> u8>(state: &mut State, step: F) -> Result<u8, Vec<u8>>
    requires { IsState state.old }
    ensures value { IfOk result (λ n. n ≡ 0) }
{
%s
    state.next()
}
"""


def faults(body: str, function: str = FUNCTION) -> list[str]:
    """The faults of a function with a body, in a crate above the one of the laws."""
    text = HEAD + (function % body if "%s" in function else function)
    sources = [LAWS.read_source("low/src/law.rt", LAW), LAWS.read_source("top/src/lib.rt", text)]
    names = LAWS.names_for_proof(sources)
    return [line for source in sources for line in LAWS.faults(source, names)]


@pytest.mark.parametrize(
    "body",
    [
        "    proof! { nothing_lost(); }",
        "    proof! {\n        nothing_lost();\n        let _now = state.count();\n    }",
        "    proof! { let _ = state; }",
        "    proof! { let _ = state.count(); }",
        "    proof! { low::law::all_kept(); }",
        "    // nothing_lost();",
        "    let _ = state.push(1);",
        '    state.say("nothing_lost()");',
        "    state.nothing_lost();",
        "    let now = state.count();",
    ],
)
def test_nothing_to_find(body: str) -> None:
    assert faults(body) == []


@pytest.mark.parametrize(
    ("body", "text"),
    [
        ("    nothing_lost();", "nothing_lost();"),
        ("    low::law::all_kept();", "low::law::all_kept();"),
        ("    let _now = state.count();", "let _now = state.count();"),
        ("    let _none: Option<Name> = None;", "let _none: Option<Name> = None;"),
        ("    let _ = state;", "let _ = state;"),
        ("    let _ = state.count();", "let _ = state.count();"),
        ("    if state.goes() {\n        all_kept();\n    }", "all_kept();"),
        ("    match state.kind() {\n        Kind::One => nothing_lost(),\n        Kind::Two => {}\n    }", "nothing_lost()"),
        ("    let _two = f(\n        1,\n        [2; 3],\n    );", "let _two = f( 1, [2; 3], );"),
    ],
)
def test_what_has_no_marker_is_found(body: str, text: str) -> None:
    assert [line.partition(": ")[2] for line in faults(body)] == [f"for the proof alone, and not in `proof!`: {text}"]


@pytest.mark.parametrize(
    ("body", "rest"),
    [
        ("    proof! { state.next(); }", "state.next();"),
        ("    proof! { nothing_lost(); state.next(); }", "state.next();"),
        ("    proof! { }", ""),
    ],
)
def test_a_marker_around_something_else_is_found(body: str, rest: str) -> None:
    assert [line.partition(": ")[2] for line in faults(body)] == [f"not for the proof alone, and in `proof!`: {rest}"]


LOOK = """/// %s
fn look(log: &Log)
    ensures { IsShort log.now }
{
    let _count = log.count();
}
"""


def test_a_function_for_the_proof_says_so() -> None:
    assert faults("For the proof: a log is short.", LOOK) == []
    assert [line.partition(": ")[2] for line in faults("Looks at a log.", LOOK)] == [
        "look is for the proof alone, and its comment does not begin with `For the proof:`"
    ]


def test_a_marker_in_a_function_for_the_proof_is_found() -> None:
    inside = LOOK.replace("let _count = log.count();", "proof! { let _count = log.count(); }")
    assert [line.partition(": ")[2] for line in faults("For the proof: a log is short.", inside)] == ["a marker in a function that is for the proof alone"]


def test_a_call_of_a_function_of_the_same_file_is_found() -> None:
    body = "    look(state);"
    found = faults(body, FUNCTION + (LOOK % "For the proof: a log is short.").replace("%", "%%"))
    assert [line.partition(": ")[2] for line in found] == ["for the proof alone, and not in `proof!`: look(state);"]


def test_a_function_of_the_file_with_the_name_of_a_law_is_no_law() -> None:
    other = "/// Answers.\nfn nothing_lost(state: &State) -> u8\n{\n    0\n}\n"
    text = HEAD.replace("{all_kept, nothing_lost}", "all_kept") + FUNCTION % "    nothing_lost(state);" + other
    source = LAWS.read_source("low/src/lib.rt", text)
    names = LAWS.names_for_proof([LAWS.read_source("low/src/law.rt", LAW), source])
    assert list(LAWS.faults(source, names)) == []


def test_a_wrapper_may_say_that_it_is_for_the_proof_and_any_other_function_with_an_effect_may_not() -> None:
    wrapper = "/// For the proof: by its `requires` it is stated for any state.\nfn step(state: &mut State) -> u8\n{\n    go(state, 1)\n}\n"
    assert faults("", wrapper) == []
    more = wrapper.replace("go(state, 1)", "state.next();\n    go(state, 1)")
    assert len(faults("", more)) == 1


def test_tests_and_the_start_of_a_program_are_not_looked_at() -> None:
    assert faults("", "#[test]\nfn counts(rt: HostRuntime)\n{\n    nothing_lost();\n}\n") == []
    assert faults("", "fn main()\n{\n    nothing_lost();\n}\n") == ["crates/top/src/lib.rt:7: for the proof alone, and not in `proof!`: nothing_lost();"]


def test_rows_worked_by_hand_need_no_words() -> None:
    source = LAWS.read_source("low/src/rows.rt", "//! Rows worked by hand.\n\n/// It starts.\npub fn starts()\n    ensures { Starts }\n{}\n")
    assert list(LAWS.faults(source, LAWS.names_for_proof([source]))) == []
    other = LAWS.read_source("low/src/rows.rt", "//! Rows of words.\n\n/// It starts.\npub fn starts()\n    ensures { Starts }\n{}\n")
    assert len(list(LAWS.faults(other, LAWS.names_for_proof([other])))) == 1
