#!/usr/bin/env python3
"""Writes docs/PROMISES.md, the tables of what the public calls of the libraries promise, from the code.

usage: promises.py              writes the page
       promises.py --check      says what the page lacks, and each public clause without a sentence; ends with 1 where there is one
       promises.py --counts     prints how many public calls and clauses there are, and how many have a sentence
       promises.py .. ROOT      the same for another checkout

A public call is a function that `src/lib.rt` exports, by itself, in a public module, or as a method of an exported type or
trait. Its clauses are its `requires` and `ensures`.

A sentence is the comment, lines of `//`, that stands above a clause. It is that of the clauses below it, too, up to the next
comment or empty line. Where a call has one `ensures` and nothing stands above it, the sentence is the call's own, the lines
of `///`. So it is with its `requires`, where a definition that it cites has a comment, or where its text is short: the page
prints the text of each short clause.

Definitions are the names of a clause that a file of `specs` declares. Where one is a record whose fields have comments, the
page prints these, once.
"""
from __future__ import annotations

import re
import sys
from collections import defaultdict
from dataclasses import dataclass, field
from functools import cached_property
from pathlib import Path

ROOT = Path(__file__).resolve().parent.parent
PAGE = "docs/PROMISES.md"
# A library of a suite promises nothing.
OF_SUITES = {"case_reader"}
SHORT = 100
WIDTH = 120
HEAD = re.compile(r"\s*(requires|ensures|decreases)\b\*?(?: (\w+))? \{")
NAME = re.compile(r"[^\s(){}\[\],;.⟦⟧<>]+(?:\.[^\s(){}\[\],;.⟦⟧<>]+)*")
ITEM = re.compile(r"pub (?:const |unsafe )*(fn|struct|enum|trait|mod|const|type) (\w+)")
METHOD = re.compile(r"    (?:pub )?(?:const |unsafe )*fn (\w+)")
PUBLIC_METHOD = re.compile(r"    pub (?:const |unsafe )*fn (\w+)")
GHOST = re.compile(r"    ghost (\w+)(?: |:)")
IMPL = re.compile(r"impl(?:<[^>]*>)? (?:([\w:]+)(?:<.*?>)? for )?&?(?:mut )?([\w:]+)")


@dataclass
class Clause:
    kind: str
    label: str
    text: str
    line: int
    last: int
    comment: list[str] = field(default_factory=list)
    begins_group: bool = False

    @property
    def sentence(self) -> str:
        return " ".join(self.comment)


@dataclass
class Call:
    """A public function or method with its contract."""

    crate: str
    path: Path
    owner: str
    name: str
    line: int
    contract: int
    end: int
    doc: str
    clauses: list[Clause]

    @property
    def title(self) -> str:
        return f"{self.owner}::{self.name}" if self.owner else self.name

    def of_kind(self, kind: str) -> list[Clause]:
        return [clause for clause in self.clauses if clause.kind == kind]


@dataclass
class Value:
    """What a type or a trait says of its values: a ghost member, with its text and comment."""

    name: str
    text: str
    comment: str


@dataclass
class Kind:
    """An exported type or trait: its kind, its own comment, its calls, and what its impls say of it."""

    crate: str
    path: Path
    name: str
    kind: str
    doc: str
    values: list[tuple[str, list[Value]]] = field(default_factory=list)
    calls: list[Call] = field(default_factory=list)


def indent(line: str) -> int:
    return len(line) - len(line.lstrip(" "))


def comment_above(lines: list[str], at: int, mark: str) -> list[str]:
    """The comment that stands directly above a line, without its marks; attributes between them are passed over."""
    found: list[str] = []
    at -= 1
    while at >= 0:
        stripped = lines[at].strip()
        if stripped.startswith(mark) and not (mark == "//" and stripped.startswith("///")):
            found.append(stripped[len(mark):].strip())
        elif not (mark == "///" and stripped.startswith("#[")):
            break
        at -= 1
    return found[::-1]


def closing(lines: list[str], at: int) -> int:
    """The line in which the braces that a line opens are closed."""
    depth = 0
    for number in range(at, len(lines)):
        code = lines[number].split(" // ")[0]
        depth += code.count("{") - code.count("}")
        if depth <= 0:
            return number
    return len(lines) - 1


def contract_of(lines: list[str], start: int) -> tuple[int, int, list[Clause]]:
    """The line in which the contract of a function begins, the one after it, and its clauses."""
    at = start
    while not HEAD.match(lines[at]) and not lines[at].strip().startswith("//"):
        if re.search(r"(;|\{|\{\})\s*$", lines[at]) and lines[at].strip() != "where":
            return at + 1, at + 1, []
        at += 1
    begin = at
    clauses: list[Clause] = []
    comment: list[str] = []
    starts = True
    while at < len(lines):
        stripped = lines[at].strip()
        head = HEAD.match(lines[at])
        if head:
            last = closing(lines, at)
            text = " ".join(line.strip() for line in lines[at:last + 1])
            text = text[text.index("{") + 1:text.rindex("}")].strip()
            kind, label = head[1], head[2] or ""
            clauses.append(Clause(kind, label, text, at, last, comment, starts or bool(comment)))
            comment, starts = [], False
            at = last
            if lines[at].rstrip().endswith(";"):
                return begin, at + 1, with_groups(clauses)
        elif stripped.startswith("//"):
            comment = [*comment, stripped[2:].strip()]
        elif not stripped:
            comment, starts = [], True
        else:
            break
        at += 1
    return begin, at, with_groups(clauses)


def with_groups(clauses: list[Clause]) -> list[Clause]:
    """The clauses, of which each that begins no group has the comment of the one above it, where that is of its kind."""
    for before, clause in zip(clauses, clauses[1:]):
        if not clause.begins_group and clause.kind == before.kind:
            clause.comment = before.comment
        elif not clause.begins_group:
            clause.begins_group = True
    return clauses


class Crate:
    def __init__(self, root: Path, name: str) -> None:
        self.root, self.name = root, name
        self.source = root / "crates" / name / "src"
        self.lines = {path: path.read_text(encoding="utf-8").splitlines() for path in sorted(self.source.rglob("*.rt"))}

    def file_of(self, folder: Path, module: str) -> Path | None:
        for path in (folder / f"{module}.rt", folder / module / "mod.rt"):
            if path in self.lines:
                return path
        return None

    def exported(self) -> list[tuple[str, str, Path]]:
        """Each exported name, with the public module in which it stands or nothing, and its file."""
        lib = self.source / "lib.rt"
        return self.names_in(lib, self.source, "")

    def names_in(self, lib: Path, folder: Path, module: str) -> list[tuple[str, str, Path]]:
        found: list[tuple[str, str, Path]] = []
        text = "\n".join(re.sub(r"//.*", "", line) for line in self.lines[lib])
        for use in re.findall(r"^pub use ([^;]*);", text, re.M):
            parts = re.fullmatch(r"([\w:]+)::(?:\{(.*)\}|(\w+))", use.strip(), re.S)
            if not parts:
                continue
            path = self.file_of(folder, parts[1].removeprefix("crate::").removeprefix("self::").replace("::", "/"))
            if path is None:
                continue
            for name in re.split(r"[,\s]+", parts[2] or parts[3]):
                if name:
                    found += self.one(name, module, path)
        for kind, name in re.findall(r"^pub (?:const |unsafe )*(fn|struct|enum|trait|mod) (\w+)", text, re.M):
            found += self.one(name, module, lib)
        return found

    def one(self, name: str, module: str, path: Path) -> list[tuple[str, str, Path]]:
        for line in self.lines[path]:
            item = ITEM.match(line)
            if item and item[2] == name and item[1] == "mod":
                folder = path.parent if path.stem in ("lib", "mod") else path.with_suffix("")
                inside = self.file_of(folder, name)
                return self.names_in(inside, inside.with_suffix(""), name) if inside else []
            if item and item[2] == name:
                return [(name, module, path)]
        # A module hands on what a module below it has.
        folder = path.parent if path.stem in ("lib", "mod") else path.with_suffix("")
        return [found for found in self.names_in(path, folder, module) if found[0] == name]

    @cached_property
    def items(self) -> list[Kind | Call]:
        """The exported calls and types in the order of `src/lib.rt`."""
        found: list[Kind | Call] = []
        for name, module, path in self.exported():
            for at, line in enumerate(self.lines[path]):
                item = ITEM.match(line)
                if not item or item[2] != name:
                    continue
                doc = " ".join(comment_above(self.lines[path], at, "///"))
                if item[1] == "fn":
                    found.append(self.call(path, module, name, at, doc))
                elif item[1] in ("struct", "enum", "trait"):
                    found.append(self.kind(path, name, item[1], at, doc))
        return found

    def call(self, path: Path, owner: str, name: str, at: int, doc: str) -> Call:
        begin, end, clauses = contract_of(self.lines[path], at)
        return Call(self.name, path, owner, name, at, begin, end, doc, clauses)

    def kind(self, path: Path, name: str, kind: str, at: int, doc: str) -> Kind:
        found = Kind(self.name, path, name, kind, doc)
        if kind == "trait":
            found.values.append(("", self.values_in(path, at)))
            found.calls += self.methods(path, at, name, METHOD)
            return found
        for other, lines in self.lines.items():
            for number, line in enumerate(lines):
                block = IMPL.match(line)
                if not block or block[2] != name or line.rstrip().endswith("{}"):
                    continue
                if block[1]:
                    values = [value for value in self.values_in(other, number) if value.name != "use"]
                    if values:
                        found.values.append((f"{block[1]} for {name}", values))
                    found.calls += [call for call in self.methods(other, number, f"{block[1]} for {name}", METHOD) if call.clauses]
                else:
                    found.calls += self.methods(other, number, name, PUBLIC_METHOD)
        return found

    def block(self, path: Path, at: int) -> range:
        lines = self.lines[path]
        end = next((number for number in range(at + 1, len(lines)) if lines[number].startswith("}")), len(lines))
        return range(at + 1, end)

    def methods(self, path: Path, at: int, owner: str, pattern: re.Pattern[str]) -> list[Call]:
        found = []
        for number in self.block(path, at):
            method = pattern.match(self.lines[path][number])
            if method:
                doc = " ".join(comment_above(self.lines[path], number, "///"))
                found.append(self.call(path, owner, method[1], number, doc))
        return found

    def values_in(self, path: Path, at: int) -> list[Value]:
        found = []
        lines = self.lines[path]
        for number in self.block(path, at):
            ghost = GHOST.match(lines[number])
            if ghost and ghost[1] != "use":
                last = closing(lines, number)
                text = " ".join(line.strip() for line in lines[number:last + 1]).rstrip(";")
                text = text[text.index("{") + 1:text.rindex("}")].strip() if "{" in text else text
                comment = comment_above(lines, number, "///") or comment_above(lines, number, "//")
                found.append(Value(ghost[1], text, " ".join(comment)))
        return found

    def calls(self) -> list[Call]:
        return [call for item in self.items for call in ([item] if isinstance(item, Call) else item.calls)]


def libraries(root: Path) -> list[str]:
    """The libraries of crates.txt, in its order."""
    found = []
    for line in (root / "crates.txt").read_text(encoding="utf-8").splitlines():
        named = re.match(r"(\w+)[^:]*:", line)
        if named and named[1] not in OF_SUITES and (root / "crates" / named[1] / "src/lib.rt").exists():
            found.append(named[1])
    return found


def imports(lines: list[str]) -> dict[str, tuple[str, str, str]]:
    """What the `use` lines of code or specs name of specs: the name here, and the crate, the file and the name there."""
    found: dict[str, tuple[str, str, str]] = {}
    text = "\n".join(lines)
    for crate, file, names in re.findall(r"\buse Rattle\.(\w+)\.specs\.([\w.]+)\.\{([^}]*)\}", text):
        if crate == "std":
            continue
        for name in names.split(","):
            there, _, here = name.strip().partition(" as ")
            if there:
                found[here or there] = (crate, file, there)
    return found


def found_in(text: str, known: dict[str, tuple[str, str, str]]) -> list[tuple[str, str, str]]:
    """The definitions that a text names, in its order, of those that its file knows."""
    found: list[tuple[str, str, str]] = []
    for token in NAME.findall(text):
        for name in (token, token.split(".")[0], token.split(".")[-1]):
            home = known.get(name)
            if home:
                if home[1].split(".")[0] != "declared" and home not in found:
                    found.append(home)
                break
    return found


def names_defined(lines: list[str]) -> list[str]:
    """The names of the definitions of a file of specs."""
    head = re.compile(r"(?:(?:unfoldable|abbrev|pub|rec) )*(?:data |record )?([^\s:(){}]+)(?: [({].*)? :(?: |$)")
    return [found[1] for line in lines if (found := head.match(line))]


def specs_file(root: Path, home: tuple[str, str, str]) -> Path:
    return root / "crates" / home[0] / "specs" / (home[1].replace(".", "/") + ".antt")


def defined_at(lines: list[str], name: str) -> int | None:
    """The line of a file of specs in which the name is defined."""
    for at, line in enumerate(lines):
        if re.match(rf"\s*(?:(?:unfoldable|abbrev|pub|rec) )*(?:data |record )?{re.escape(name)}(?: [({{].*)? :(?: |$)", line):
            return at
    return None


def comment_of(root: Path, home: tuple[str, str, str], name: str) -> str:
    """The comment above a definition."""
    path = specs_file(root, home)
    if not path.exists():
        return ""
    lines = path.read_text(encoding="utf-8").splitlines()
    at = defined_at(lines, home[2])
    return " ".join(comment_above(lines, at, "--")) if at is not None else ""


@dataclass
class Field:
    """A field of a record: its name, its text and its comment."""

    name: str
    text: str
    comment: str


def fields_at(lines: list[str], at: int) -> list[Field]:
    """The fields of the record that a line of specs begins; none where it begins no record."""
    if not re.search(r"\brecord\b.*where\s*$", lines[at]):
        return []
    margin = indent(lines[at])
    found: list[Field] = []
    for number in range(at + 1, len(lines)):
        line = lines[number]
        if line.strip() and indent(line) <= margin:
            break
        named = re.match(r"\s+(?:pub )?(\S+) : (.*)", line)
        if named:
            found.append(Field(named[1], named[2].strip(), " ".join(comment_above(lines, number, "--"))))
        elif found and line.strip() and not line.strip().startswith("--"):
            found[-1].text += " " + line.strip()
    return found


def as_sentence(text: str) -> str:
    """A comment of a definition as a sentence."""
    text = text.strip().rstrip(".")
    return (text[0].upper() + text[1:] if re.match(r"[a-z]+\b(?!_)", text) else text) + "." if text else ""


def cell(text: str) -> str:
    return text.replace("|", "\\|")


def code(text: str) -> str:
    return f"`{cell(text)}`"


@dataclass
class Row:
    """A row of a table: a call, or the label of a field below it; the labels; what holds; and the definitions."""

    call: str
    labels: str
    promise: str
    definitions: str

    def __str__(self) -> str:
        return f"| {self.call} | {self.labels} | {self.promise} | {self.definitions} |"


class Page:
    def __init__(self, root: Path) -> None:
        self.root = root
        self.crates = {name: Crate(root, name) for name in libraries(root)}
        self.imports: dict[Path, dict[str, tuple[str, str, str]]] = {}
        self.specs: dict[Path, list[str]] = {}
        self.records: set[tuple[str, str, str]] = set()

    def cited(self, call: Call, text: str) -> list[tuple[str, str, str]]:
        """The definitions that a clause names: the crate, the file and the name of each, in the clause's order."""
        if call.path not in self.imports:
            self.imports[call.path] = imports(self.crates[call.crate].lines[call.path])
        return found_in(text, self.imports[call.path])

    def listed(self, call: Call, homes: list[tuple[str, str, str]]) -> str:
        """Definitions as a cell: the crate where it is another one, the file, and the names in it."""
        crates: dict[str, dict[str, list[str]]] = defaultdict(lambda: defaultdict(list))
        for crate, file, name in homes:
            crates[crate][file.replace(".", "/") + ".antt"].append(name)
        texts = []
        for crate, files in crates.items():
            places = ", ".join(f"{code(file)} {', '.join(code(name) for name in names)}" for file, names in files.items())
            texts.append(places if crate == call.crate else f"{code(crate)} {places}")
        return "; ".join(texts)

    def lines_of(self, home: tuple[str, str, str]) -> list[str]:
        path = specs_file(self.root, home)
        if path not in self.specs:
            self.specs[path] = path.read_text(encoding="utf-8").splitlines() if path.exists() else []
        return self.specs[path]

    def fields_of(self, home: tuple[str, str, str]) -> list[Field]:
        lines = self.lines_of(home)
        at = defined_at(lines, home[2])
        return fields_at(lines, at) if at is not None else []

    def cited_in_specs(self, home: tuple[str, str, str], text: str) -> list[tuple[str, str, str]]:
        """The definitions that a definition's text names."""
        lines = self.lines_of(home)
        known = {**imports(lines), **{name: (home[0], home[1], name) for name in names_defined(lines)}}
        return found_in(text, known)

    def field_rows(self, call: Call, homes: list[tuple[str, str, str]], depth: int) -> list[Row]:
        """A row for each field that has a comment of the records among these, which the page has not shown yet."""
        rows: list[Row] = []
        for home in homes:
            fields = [field for field in self.fields_of(home) if field.comment]
            if not fields or home in self.records:
                continue
            self.records.add(home)
            for field in fields:
                cited = self.cited_in_specs(home, field.text)
                texts = [cell(as_sentence(field.comment)), code(field.text) if len(field.text) <= SHORT else ""]
                label = f"{'· ' * depth}{code(field.name)}"
                rows.append(Row("", label, " ".join(filter(None, texts)), self.listed(call, cited)))
                rows += self.field_rows(call, [other for other in cited if other != home], depth + 1)
        return rows

    def groups(self, call: Call) -> list[list[Clause]]:
        found: list[list[Clause]] = []
        for clause in call.clauses:
            if found and not clause.begins_group and found[-1][0].kind == clause.kind:
                found[-1].append(clause)
            else:
                found.append([clause])
        return found

    def rows(self, call: Call) -> list[Row]:
        rows: list[Row] = []
        title = code(call.title)
        for group in self.groups(call):
            if group[0].kind == "decreases":
                continue
            homes = [home for clause in group for home in self.cited(call, clause.text)]
            homes = list(dict.fromkeys(homes))
            labels = ", ".join(code(clause.label) for clause in group if clause.label)
            if group[0].kind == "requires":
                labels = f"requires {labels}".strip()
            sentence = self.sentence(call, group[0])
            texts = [code(clause.text) for clause in group if len(clause.text) <= SHORT]
            rows.append(Row(title, labels, " ".join(filter(None, [cell(sentence), ", ".join(texts)])), self.listed(call, homes)))
            title = ""
            rows += self.field_rows(call, homes, 1)
        return rows

    def sentence(self, call: Call, clause: Clause) -> str:
        """The sentence of a clause, or of a call that has no other clause of its kind."""
        if clause.comment:
            return clause.sentence
        if clause.kind == "ensures" and len(call.of_kind("ensures")) == 1:
            return call.doc
        return ""

    def has_sentence(self, call: Call, clause: Clause) -> bool:
        return clause.kind == "decreases" or bool(self.sentence(call, clause))

    def crate_text(self, crate: Crate) -> list[str]:
        head = [line[3:].strip() for line in crate.lines[crate.source / "lib.rt"] if line.startswith("//!")]
        out = [f"### `{crate.name}`", "", " ".join(head), ""]
        free = [item for item in crate.items if isinstance(item, Call)]
        rows = [row for call in free for row in self.rows(call)]
        kinds = [item for item in crate.items if isinstance(item, Kind)]
        plain = [kind for kind in kinds if not kind.calls and not kind.values]
        if rows:
            out += table(rows)
        for kind in kinds:
            if kind in plain:
                continue
            out += [f"#### `{kind.name}`", "", *([cell(kind.doc), ""] if kind.doc else [])]
            values = [value_row(head, value) for head, found in kind.values for value in found]
            if values:
                out += ["| Value | What it is |", "|---|---|", *values, ""]
            rows = [row for call in kind.calls for row in self.rows(call)]
            if rows:
                out += table(rows)
        silent = [call for call in crate.calls() if not call.clauses]
        if silent:
            out += ["Without a clause: " + "; ".join(f"{code(call.title)}: {cell(call.doc)}" for call in silent), ""]
        if plain:
            texts = [code(kind.name) + (f": {cell(kind.doc.rstrip('.'))}" if kind.doc else "") for kind in plain]
            out += [f"Plain types: {'; '.join(texts)}.", ""]
        handed = handed_on(crate, self.crates)
        if handed:
            out += [f"Handed on: {'; '.join(handed)}.", ""]
        return out

    def text(self) -> str:
        out = HEADING.splitlines()
        for layer, names in layers(self.root):
            known = [name for name in names if name in self.crates]
            if known:
                out += ["", f"## {layer[0].upper() + layer[1:]}" if layer else "## Libraries", ""]
                for name in known:
                    out += self.crate_text(self.crates[name])
        lines = [line for at, line in enumerate(out) if line or (at and out[at - 1])]
        return "\n".join(lines).rstrip() + "\n"

    def lacking(self) -> list[str]:
        """Each public clause without a sentence."""
        return [
            f"{crate.name}: {call.title} {clause.kind}{' ' + clause.label if clause.label else ''} has no sentence"
            for crate in self.crates.values()
            for call in crate.calls()
            for clause in call.clauses
            if not self.has_sentence(call, clause)
        ]

    def strangers(self) -> list[str]:
        """The calls and clauses that docs/PROOFS.md names and that are not there.

        They stand in a row, each as code: the crate, the call and the labels. Below a heading that ends with a crate and a
        call an item of a list begins with labels of that call. The fields of a record that a clause cites are labels, too.
        Where three stand in a row, the first is a crate that is there.
        """
        path = self.root / "docs/PROOFS.md"
        text = path.read_text(encoding="utf-8") if path.exists() else ""
        named = [(found[1], found[2], found[3]) for found in re.finditer(r"`(\w+)`\s`([\w:]+)`((?:,?\s`\w+`)*)", text)]
        for section in re.findall(r"^## [^\n]*`\w+` `[\w:]+`\n.*?(?=^#|\Z)", text, re.M | re.S):
            crate, call = re.findall(r"`([^`]*)`", section.splitlines()[0])
            named += [(crate, call, labels) for labels in re.findall(r"^- ((?:`\w+`(?:, )?)+):", section, re.M)]
        found = []
        for crate, title, labels in named:
            if crate not in self.crates:
                if labels and not (self.root / "crates" / crate).is_dir():
                    found.append(f"docs/PROOFS.md: there is no crate {crate}, which {title} {labels.strip()} follow")
                continue
            calls = [call for call in self.crates[crate].calls() if title in (call.title, call.name)]
            known = {clause.label for call in calls for clause in call.clauses}
            cited = [home for call in calls for clause in call.clauses for home in self.cited(call, clause.text)]
            known |= {field.name for home in cited for field in self.fields_of(home)}
            if not calls:
                found.append(f"docs/PROOFS.md: there is no {title} in {crate}")
            strange = [label for label in re.findall(r"\w+", labels) if calls and label not in known]
            found += [f"docs/PROOFS.md: there is no {label} of {title} in {crate}" for label in strange]
        return found

    def counts(self) -> str:
        calls = [call for crate in self.crates.values() for call in crate.calls()]
        types = sum(isinstance(item, Kind) for crate in self.crates.values() for item in crate.items)
        clauses = [(call, clause) for call in calls for clause in call.clauses if clause.kind != "decreases"]
        by_kind = {kind: [pair for pair in clauses if pair[1].kind == kind] for kind in ("ensures", "requires")}
        said = {kind: sum(self.has_sentence(*pair) for pair in pairs) for kind, pairs in by_kind.items()}
        own = {kind: sum(bool(clause.comment) for _, clause in pairs) for kind, pairs in by_kind.items()}
        lines = [f"{len(self.crates)} libraries, {types} public types and traits, {len(calls)} public calls"]
        lines += [
            f"{len(pairs)} {kind}: {said[kind]} have a sentence ({own[kind]} by a comment above them), {len(pairs) - said[kind]} have none"
            for kind, pairs in by_kind.items()
        ]
        return "\n".join(lines)


HEADING = """# Promises

<!-- Written by docs/promises.py from the code. Do not edit it: edit the comments of the clauses, and write it again. -->

What each public call of the libraries promises: its clauses, one row for each or for those that share a sentence. What to
read first, the premises, what is only tested and what no clause says stand in [PROOFS.md](PROOFS.md).

A row has the call, the labels of its clauses, what holds, and the definitions that the clauses cite, by the file below
`crates/CRATE/specs`; a file without a crate is one of the same crate. A clause without a label is the call's only one. The
text of a short clause stands in its row. `requires` is what the call is given: every caller is proved to give it. A row with
a dot is a field of a record that a row above it cites; it stands below the first that does.

In a clause `x.old` and `x.new` are what `x` refers to before and after the call, `x.now` is that where the call does not
change it, and `result` is the answer. `IfOk result (λ x. P)`: P holds of the value where the result is Ok. `OnOk result P`
and `OnErr result P`: P holds where it is Ok, and where it is an error. `⟦<T as Store>⟧.calls x` is what the trait `Store`
says of a value `x` of the type T in clauses; `O.got x` is the same for a type parameter O. `λ x. P` is a function of x; `≡`
means equals, `×` and, `⊎` or, `¬` not, `↔` exactly where.

In the tables of values, `Value` is what a value of the type is in clauses, `view` how that follows from its fields, and
`invariant` what holds of each. Other rows are what the type says of a value for the trait that is named first.
"""


def value_row(head: str, value: Value) -> str:
    """The row of a ghost member of a trait, or of an impl, whose head has the trait's name first."""
    names = " ".join(code(name) for name in (head.split(" for ")[0], value.name) if name)
    texts = [cell(value.comment), code(value.text)]
    return f"| {names} | {' '.join(filter(None, texts))} |"


def handed_on(crate: Crate, crates: dict[str, Crate]) -> list[str]:
    """What a library exports of others."""
    text = "\n".join(re.sub(r"//.*", "", line) for line in crate.lines[crate.source / "lib.rt"])
    found = re.findall(r"^pub use (\w+)::(?:\{([^}]*)\}|(\w+));", text, re.M)
    return [
        ", ".join(code(name) for name in re.split(r"[,\s]+", many or one) if name) + f" of {code(other)}"
        for other, many, one in found
        if other in crates
    ]


def table(rows: list[Row]) -> list[str]:
    return ["| Call | Clause | What holds | Definitions |", "|---|---|---|---|", *map(str, rows), ""]


def layers(root: Path) -> list[tuple[str, list[str]]]:
    """The crates of crates.txt by the comment above them."""
    found: list[tuple[str, list[str]]] = [("", [])]
    for line in (root / "crates.txt").read_text(encoding="utf-8").splitlines():
        if line.startswith("#"):
            found.append((line.lstrip("# ").strip(), []))
        elif re.match(r"\w", line):
            found[-1][1].append(re.split(r"\W", line)[0])
    return found


def main(words: list[str]) -> int:
    options = [word for word in words if word.startswith("-")]
    roots = [word for word in words if not word.startswith("-")]
    if len(roots) > 1 or not set(options) <= {"--check", "--counts"} or len(options) > 1:
        sys.exit(__doc__)
    root = Path(roots[0]).resolve() if roots else ROOT
    page = Page(root)
    if options == ["--counts"]:
        print(page.counts())
        return 0
    path = root / PAGE
    if not options:
        path.write_text(page.text(), encoding="utf-8")
        return 0
    lines = [*page.lacking(), *page.strangers()]
    if not path.exists() or path.read_text(encoding="utf-8") != Page(root).text():
        lines.append(f"{PAGE} is not what promises.py writes of the code")
    print("".join(line + "\n" for line in lines) + f"{len(lines)} differences")
    return 1 if lines else 0


if __name__ == "__main__":
    sys.exit(main(sys.argv[1:]))
