#!/usr/bin/env python3
"""Counts what a reader of a clause has to trust: the definitions under it, in how many files of how many crates.

usage: docs/counts.py                      the counts for each clause of `xm_commands::xm_main`, and the sizes of the tree
       docs/counts.py --lists              the files of specs/ that hold definitions of several kinds, the names of several files, and the
                                           crates with long lines in contracts of public calls
       docs/counts.py --write              puts the counts and sizes into docs/ARCHITECTURE.md, and those that README.md and docs/MACHINE.md name
       docs/counts.py --check              says which of these are not what is counted, and ends with 1 where there is one; the sizes of the
                                           tree may be off by a hundredth
       docs/counts.py [--names] CLAUSE..   the files under these clauses, with --names and the definitions of each file

A CLAUSE is a label of `xm_main`, or a field of the record that such a clause is, a public call as `crate::call` or `crate::Type::call`, one clause of a call as
`crate::call::label`, or a definition as `crate.File.name`.

A definition is under a clause if the clause names it, or names a definition that it is under. A type, a constant or a ghost member
of a trait is a definition, too; that of a type has what its `impl Model` says of its value. The kit's own definitions are not counted.

The definitions of specs/ are of three kinds. The trusted ones are under a clause of a public call of a library. Rows are only under
clauses of functions that are said to be worked by hand, have no parameter and have an empty body. The others are for proofs: no
public clause depends on them.

A page names counts as `N definitions in M files (docs/counts.py CLAUSE`, with the command as code.
"""

from __future__ import annotations

import re
import signal
import sys
from collections import Counter, defaultdict
from collections.abc import Iterable, Iterator
from pathlib import Path

from definitions import Key, Tree
from promises import Page

ROOT = Path(__file__).resolve().parent.parent
COMMAND = "docs/counts.py"
TOP = ("xm_commands", "", "xm_main")
TRUSTED, ROWS, PROOFS = KINDS = ("trusted", "rows worked by hand", "for proofs")
SEVERAL, NONE = "of several kinds", "that only hand names on"
LINES = ("code", "contracts", "tests", "imports and attributes", "comments and blank lines")
LONG = 120
OPTIONS = {"--lists", "--write", "--check", "--names"}
PAGE = "docs/ARCHITECTURE.md"
SIZE = re.compile(r"specs, |src, |proofs |[\d,]+ (of the|lines of) ")
NAMED = re.compile(r"[\d,]+ definitions in [\d,]+ files(?= \(`docs/counts\.py ([^`]+)`)")


def size(keys: set[Key]) -> tuple[int, int, int]:
    """How many definitions these are, in how many files, of how many crates."""
    return len(keys), len({key.file for key in keys}), len({key.crate for key in keys})


def table(heads: tuple[str, ...], rows: Iterable[tuple[object, ...]]) -> list[str]:
    """Lines of columns, the first at the left and the others at the right."""
    cells = [heads, *(tuple(f"{cell:,}" if isinstance(cell, int) else str(cell) for cell in row) for row in rows)]
    widths = [max(len(row[place]) for row in cells) for place in range(len(heads))]
    return ["  ".join([row[0].ljust(widths[0]), *(cell.rjust(width) for cell, width in zip(row[1:], widths[1:]))]) for row in cells]


# What is under clauses.


def clauses_of(tree: Tree, crate: str, owner: str, name: str) -> Iterator[tuple[str, set[Key]]]:
    """The label of each clause of a call, and what it names."""
    for file, call in tree.calls():
        if (file.partition("/")[0], call.owner, call.name) == (crate, owner, name):
            yield from ((clause.label, tree.uses_of(file, call, clause)) for clause in call.clauses)


def top_promises(tree: Tree) -> Iterator[tuple[str, str, set[Key]]]:
    """Each clause of `xm_main`, and after one that is a record its fields: the label, the field or nothing, and what it names."""
    for file, call in tree.calls():
        if (file.partition("/")[0], call.owner, call.name) != TOP:
            continue
        for clause in call.clauses:
            yield clause.label, "", tree.uses_of(file, call, clause)
            for key in tree.named(file, clause.tokens[0]):
                yield from ((clause.label, name, uses) for name, uses in tree.fields(key))


def clause_sizes(tree: Tree) -> list[str]:
    under = [(f"  {field}" if field else label, tree.below(uses)) for label, field, uses in top_promises(tree)]
    everything = set().union(*(keys for _, keys in under))
    rows = [(label, *size(keys)) for label, keys in [*under, ("all of them", everything)]]
    return table(("clause of xm_main", "definitions", "files", "crates"), rows)


def starts_of(tree: Tree, word: str) -> set[Key]:
    """What a word of the command line names."""
    if "." in word:
        crate, *path, name = word.split(".")
        return set(tree.item(".".join(["Rattle", crate, "specs", *path]), name))
    crate, *path = word.split("::")
    if not path:
        return set().union(*(uses for label, field, uses in top_promises(tree) if word == (field or label)))
    whole = (uses for _, uses in clauses_of(tree, crate, "::".join(path[:-1]), path[-1]))
    labelled = clauses_of(tree, crate, "::".join(path[:-2]), path[-2]) if len(path) > 1 else ()
    return set().union(*whole, *(uses for label, uses in labelled if label == path[-1]))


def listing(tree: Tree, words: list[str], with_names: bool) -> Iterator[str]:
    """The files that are under these clauses."""
    starts = {word: starts_of(tree, word) for word in words}
    if unknown := [word for word, found in starts.items() if not found]:
        sys.exit(f"no such clause, call or definition, or it names no definition: {' '.join(unknown)}")
    keys = tree.below(set().union(*starts.values()))
    files: dict[str, list[str]] = defaultdict(list)
    for key in sorted(keys):
        files[key.file].append(key.name)
    yield "{:,} definitions in {:,} files of {:,} crates".format(*size(keys))
    yield from (f"crates/{file}" + (f"  {' '.join(names)}" if with_names else "") for file, names in files.items())


# The sizes of the tree.


def kinds(tree: Tree) -> dict[Key, str]:
    """The kind of each definition of `specs/`."""
    named: dict[bool, set[Key]] = {False: tree.public_members(), True: set()}
    for is_row, uses in tree.public_clauses():
        named[is_row] |= uses
    trusted, rows = tree.below(named[False]), tree.below(named[True])
    return {key: TRUSTED if key in trusted else ROWS if key in rows else PROOFS for key in tree.keys if "/specs/" in key.file}


def mixtures(found: dict[Key, str]) -> dict[str, Counter[str]]:
    """How many definitions of each kind a file has."""
    files: dict[str, Counter[str]] = defaultdict(Counter)
    for key, kind in found.items():
        files[key.file][kind] += 1
    return files


def lines_of(path: Path) -> int:
    return path.read_text(encoding="utf-8").count("\n")


def spec_sizes(tree: Tree) -> list[tuple[object, ...]]:
    """The files of `specs/` by the kinds of their definitions."""
    found = kinds(tree)
    held = mixtures(found)
    files: dict[str, list[Path]] = {kind: [] for kind in (*KINDS, SEVERAL, NONE)}
    for path in sorted(tree.root.glob("crates/*/specs/**/*.antt")):
        kinds_of = [*held.get(str(path.relative_to(tree.root / "crates")), Counter()), ""]
        files[(NONE, kinds_of[0])[len(kinds_of) > 1] if len(kinds_of) < 3 else SEVERAL].append(path)
    counted = Counter(found.values())
    return [(f"specs, {kind}", counted[kind] or "", len(paths), sum(map(lines_of, paths))) for kind, paths in files.items()]


def line_kinds(path: Path) -> Counter[str]:
    """How many lines of a source there are of each kind, and how many lines of contracts are long."""
    counted: Counter[str] = Counter()
    is_test, depth = path.name == "tests.rt", 0
    for line in path.read_text(encoding="utf-8").splitlines():
        bare = line.strip()
        is_test = is_test or bare.startswith("mod tests {")
        is_contract = depth > 0 or re.match(r"(requires|ensures)\b|ghost (?!use)", bare) is not None
        depth = max(0, depth + bare.count("{") - bare.count("}")) if is_contract else 0
        kind = "tests" if is_test else line_kind(bare, is_contract)
        counted.update([kind, *(["long"] if kind == "contracts" and len(line) > LONG else [])])
    return counted


def line_kind(line: str, is_contract: bool) -> str:
    if line == "" or line.startswith("//"):
        return "comments and blank lines"
    if is_contract:
        return "contracts"
    return "imports and attributes" if re.match(r"(pub |ghost )?use |(pub )?mod |#!?\[", line) else "code"


def code_sizes(root: Path) -> tuple[list[tuple[object, ...]], str]:
    """The lines of the sources and the proofs, and a line on those of contracts that are long."""
    sources = sorted(root.glob("crates/*/src/**/*.rt"))
    counted = sum((line_kinds(path) for path in sources), Counter[str]())
    proofs = sorted(root.glob("crates/*/proofs/**/*.antt"))
    long, public = counted.pop("long", 0), public_long_lines(root).total()
    rows = [(f"src, {kind}", "", "", counted[kind]) for kind in LINES]
    whole = [("src, all of it", "", len(sources), counted.total()), ("proofs", "", len(proofs), sum(map(lines_of, proofs)))]
    return [*rows, *whole], f"{long:,} lines of contracts are longer than {LONG} characters, {public:,} of them of public calls."


def public_long_lines(root: Path) -> Counter[str]:
    """How many long lines the contracts of each library's public calls have."""
    counted: Counter[str] = Counter()
    for name, crate in Page(root).crates.items():
        for call in crate.calls():
            lines = [line for clause in call.clauses for line in crate.lines[call.path][clause.line : clause.last + 1]]
            counted[name] += sum(len(line) > LONG for line in lines)
    return +counted


def names_twice(tree: Tree) -> tuple[int, dict[str, list[str]]]:
    """How many names `specs/` has, and those of several files."""
    places: dict[str, set[str]] = defaultdict(set)
    for key in tree.keys:
        if "/specs/" in key.file:
            places[key.name].add(key.file.replace("/specs/", ".").removesuffix(".antt"))
    return len(places), {name: sorted(files) for name, files in sorted(places.items()) if len(files) > 1}


def summary(tree: Tree) -> list[str]:
    code, long_lines = code_sizes(tree.root)
    sizes = table(("the files by what they hold", "definitions", "files", "lines"), [*spec_sizes(tree), *code])
    names, twice = names_twice(tree)
    several = f"{len(twice):,} of the {names:,} names in specs are defined in several files."
    return [*clause_sizes(tree), "", *sizes, "", several, long_lines]


def lists(tree: Tree) -> Iterator[str]:
    for file, held in sorted(mixtures(kinds(tree)).items()):
        if len(held) > 1:
            yield f"crates/{file}: " + ", ".join(f"{held[kind]} {kind}" for kind in KINDS if held[kind])
    for name, files in names_twice(tree)[1].items():
        yield f"{name}: {', '.join(files)}"
    for crate, count in public_long_lines(tree.root).most_common():
        yield f"{crate}: {count} lines of public contracts"


# The counts on pages.


def with_block(lines: list[str], text: str) -> str:
    """The page with these lines under the command."""
    block = re.compile(rf"(?<=^\$ {re.escape(COMMAND)}\n).*?(?=^```)", re.M | re.S)
    if not block.search(text):
        sys.exit(f"{PAGE}: no `$ {COMMAND}`")
    shown = "".join(f"{line}\n" for line in lines)
    return block.sub(lambda _: shown, text, count=1)


def with_counts(tree: Tree, text: str) -> str:
    """The page with the counts of each clause that it names so."""
    return NAMED.sub(lambda found: "{:,} definitions in {:,} files".format(*size(tree.below(starts_of(tree, found[1])))[:2]), text)


def pages(tree: Tree) -> Iterator[tuple[Path, str, str]]:
    """Each page with counts, its text, and the text that it is to have."""
    for name in ("README.md", PAGE, "docs/MACHINE.md"):
        path = tree.root / name
        text = path.read_text(encoding="utf-8")
        wanted = with_counts(tree, text)
        yield path, text, with_block(summary(tree), wanted) if name == PAGE else wanted


def is_near(is_there: str, counted: str) -> bool:
    """Whether both are lines of one size of the tree, and no number is off by more than a hundredth."""
    near, far = (re.split(r"([\d,]*\d)", line) for line in (is_there, counted))
    pairs = [(int(one.replace(",", "")), int(other.replace(",", ""))) for one, other in zip(near[1::2], far[1::2])]
    same_words = [" ".join(part.split()) for part in near[::2]] == [" ".join(part.split()) for part in far[::2]]
    return bool(SIZE.match(counted)) and same_words and all(100 * abs(one - other) <= other for one, other in pairs)


def differences(tree: Tree) -> Iterator[str]:
    for path, text, wanted in pages(tree):
        for is_there, counted in zip(text.splitlines(), wanted.splitlines()):
            if is_there != counted and not is_near(is_there, counted):
                yield f"{path.relative_to(tree.root)}: {is_there}\n    counted: {counted}"
        if len(text.splitlines()) != len(wanted.splitlines()):
            yield f"{path.relative_to(tree.root)}: the counts have more lines, or fewer"


def main() -> int:
    signal.signal(signal.SIGPIPE, signal.SIG_DFL)
    options = {word for word in sys.argv[1:] if word.startswith("-")}
    words = [word for word in sys.argv[1:] if word not in options]
    if options - OPTIONS or len(options) > 1 or (words and options - {"--names"}):
        sys.exit(__doc__)
    tree = Tree(ROOT)
    if "--write" in options:
        for path, _, text in pages(tree):
            path.write_text(text, encoding="utf-8")
        return 0
    if "--check" in options:
        found = list(differences(tree))
        print("\n".join([*found, f"{len(found)} differences"]))
        return 1 if found else 0
    print("\n".join(listing(tree, words, "--names" in options) if words else lists(tree) if "--lists" in options else summary(tree)))
    return 0


if __name__ == "__main__":
    sys.exit(main())
