"""Tries that each definition of `specs/` stands where its path says what it is.

usage: /usr/bin/python3 -m pytest docs/specs_test.py

`specs/*.antt` has what clauses of public calls depend on, and nothing else; `specs/lemmas/` has no such definition, nor has `specs/rows/`,
whose definitions are under functions that are worked by hand. The code of a type's values, which `ghost coded` names, stands with the
type. A name in a `module _` block goes with its block. Each call has its definition under its own name beside the others of its
kind, also where one clause speaks of several calls at once.
"""

from __future__ import annotations

import re
from collections.abc import Iterator
from pathlib import Path

import counts
from definitions import Key, Tree

ROOT = Path(__file__).resolve().parent.parent
# Calls 2, 4, 5 and 6: the clause of `order_partition` speaks of all four, by their order.
ORDERS = {"halt_partition", "suspend_partition", "resume_partition", "shutdown_partition"}


def folder_of(key: Key) -> str:
    """The folder below `specs/`, or nothing."""
    return key.file.partition("/specs/")[2].rpartition("/")[0].partition("/")[0]


def codes(root: Path) -> set[str]:
    texts = (path.read_text(encoding="utf-8") for path in root.glob("crates/*/src/**/*.rt"))
    return {word for text in texts for code in re.findall(r"ghost coded = \{([^}]*)\}", text) for word in re.findall(r"[\w-]+", code)}


def misplaced(tree: Tree, root: Path) -> Iterator[str]:
    with_types = codes(root)
    for key, kind in sorted(counts.kinds(tree).items()):
        wanted = {counts.TRUSTED: "", counts.ROWS: "rows", counts.PROOFS: "lemmas"}[kind]
        if folder_of(key) != wanted and key.name not in with_types | ORDERS:
            yield f"crates/{key.file}: {key.name} is {kind}"


def imports(root: Path) -> Iterator[str]:
    """What a trusted file takes of a lemma or a row."""
    for path in sorted(root.glob("crates/*/specs/*.antt")):
        for line in path.read_text(encoding="utf-8").splitlines():
            if re.match(r"(pub )?use Rattle\.\w+\.specs\.(lemmas|rows)\.", line):
                yield f"{path.relative_to(root)}: {line}"


def test_each_definition_stands_where_its_path_says_what_it_is() -> None:
    assert list(misplaced(Tree(ROOT), ROOT)) == []


def test_no_trusted_file_takes_anything_of_a_lemma_or_a_row() -> None:
    assert list(imports(ROOT)) == []
