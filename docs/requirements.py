#!/usr/bin/env python3
"""Writes docs/TRACE.md: each requirement with its definitions, clauses, cases and wrong bodies, from docs/requirements.toml.

usage: requirements.py              writes the page
       requirements.py --check      says what is wrong with the table, the pages and TRACE.md; ends with 1 where there is something
       requirements.py --ids        prints each page's section with the ids of its requirements, as the section has to cite them
       requirements.py .. ROOT      the same for another checkout

A requirement is a table of docs/requirements.toml, named by its id:

    says         one sentence that a test or a proof can decide
    stands       the page and the section that say it: "docs/MANUAL.md#gen-num"
    definitions  "CRATE FILE.antt NAME": the definitions that state it
    clauses      "CRATE CALL LABEL" or "CRATE CALL" for a call's clauses without a label; "LABEL.FIELD" is a field of a record
                 that the clause cites
    cases        "FILE.toml: GROUP" or "FILE.toml: GROUP: CASE" of crates/case_suite/data; "PROGRAM: LINE" of what another program of
                 the gate has to print, or "PROGRAM: status N"; "CRATE::TEST", a test of a library; these three kinds run in the gate.
                 "FILE.py: TEST", a test by pytest, and "bench/SCRIPT: ROW", a row of docs/RELIABILITY.md, run outside of it
    untried      why no case shows it, where none does
    wrong        "CRATE/EDIT": a wrong body or a wrong definition that the gate has to refuse

It is wrong if a requirement has neither a clause nor a case, if it has no case and no reason for that, or both, if something that
it cites is not there, if its section does not cite its id, if a page cites an id that there is none of, or if a clause of a public call of the crates of TOP is cited by none.
"""
from __future__ import annotations

import re
import sys
import tomllib
from collections.abc import Iterator
from dataclasses import dataclass, field
from functools import cached_property
from pathlib import Path

sys.path.insert(0, str(Path(__file__).resolve().parent))
import promises  # noqa: E402
from definitions import Key, Tree  # noqa: E402

ROOT = Path(__file__).resolve().parent.parent
TABLE = "docs/requirements.toml"
PAGE = "docs/TRACE.md"
# Every clause of a public call of these crates stands for a requirement.
TOP = [
    *("file_commands", "run_commands", "xm_commands", "xm_alone", "xm_machine"),
    *("machine_laws", "work_laws", "flow_laws", "upset_model", "upset_laws"),
]
# The program that does the cases of crates/case_suite/data.
DATA = "crates/case_suite/data"
OUTSIDE = "bench/"
FIELDS = {"says", "stands", "definitions", "clauses", "cases", "untried", "wrong"}
ID = re.compile(r"\bXR-[A-Z]+-\d{3}\b")
CITED = re.compile(r"\b(XR-[A-Z]+-)(\d{3})\b(?:\s+(?:to|and)\s+(?:XR-[A-Z]+-)?(\d{3})\b)?")
HEADING = re.compile(r"^(#{1,6}) (.*)$")
PAGES_WITHOUT_IDS = {"TRACE.md"}


def words_of(row: dict[str, object], name: str) -> list[str]:
    found = row.get(name, [])
    return [str(each) for each in found] if isinstance(found, list) else []


@dataclass
class Requirement:
    """One testable sentence, and what it is traced to."""

    id: str
    says: str
    stands: str
    definitions: list[str] = field(default_factory=list)
    clauses: list[str] = field(default_factory=list)
    cases: list[str] = field(default_factory=list)
    wrong: list[str] = field(default_factory=list)
    untried: str = ""

    @property
    def page(self) -> str:
        return self.stands.partition("#")[0]

    @property
    def anchor(self) -> str:
        return self.stands.partition("#")[2]


def requirements(root: Path) -> list[Requirement]:
    table = tomllib.loads((root / TABLE).read_text(encoding="utf-8"))
    return [
        Requirement(
            name,
            str(row.get("says", "")),
            str(row.get("stands", "")),
            definitions=words_of(row, "definitions"),
            clauses=words_of(row, "clauses"),
            cases=words_of(row, "cases"),
            wrong=words_of(row, "wrong"),
            untried=str(row.get("untried", "")),
        )
        for name, row in table.items()
        if isinstance(row, dict)
    ]


def odd_rows(root: Path) -> Iterator[str]:
    """What is not in the form of the table."""
    for name, row in tomllib.loads((root / TABLE).read_text(encoding="utf-8")).items():
        if not ID.fullmatch(name):
            yield f"{name} is no id of a requirement"
        unknown = sorted(set(row) - FIELDS) if isinstance(row, dict) else ["its value"]
        if unknown:
            yield f"{name}: unknown: {', '.join(unknown)}"


# Pages.


def slug(heading: str) -> str:
    """The anchor that a heading has on a page."""
    text = re.sub(r"\[([^\]]*)\]\([^)]*\)", r"\1", heading).replace("\\", "").replace("**", "").replace("`", "")
    return re.sub(r"[^\w\- ]", "", text.strip().lower()).replace(" ", "-")


def sections(text: str) -> Iterator[tuple[str, str]]:
    """The anchor and the text of each section, up to the next heading of any level; what is in a block of code is no heading."""
    anchor, lines, in_code = "", list[str](), False
    for line in text.splitlines():
        in_code ^= line.startswith("```")
        heading = None if in_code else HEADING.match(line)
        if heading:
            yield anchor, "\n".join(lines)
            anchor, lines = slug(heading[2]), []
        else:
            lines.append(line)
    yield anchor, "\n".join(lines)


def ids_in(text: str) -> set[str]:
    """The ids that a text cites, ranges too."""
    found: set[str] = set()
    for prefix, first, last in CITED.findall(text):
        found |= {f"{prefix}{number:03}" for number in range(int(first), int(last or first) + 1)}
    return found


def ranges(ids: list[str]) -> str:
    """Ids as a page cites them: `XR-RUN-001 to 004, XR-RUN-007, XR-RUN-009 and 010`."""
    runs: list[list[str]] = []
    for name in sorted(ids):
        prefix, number = name[:-3], int(name[-3:])
        if runs and runs[-1][-1] == f"{prefix}{number - 1:03}":
            runs[-1].append(name)
        else:
            runs.append([name])
    return ", ".join(run[0] if len(run) == 1 else f"{run[0]} {'and' if len(run) == 2 else 'to'} {run[-1][-3:]}" for run in runs)


class Trace:
    def __init__(self, root: Path) -> None:
        self.root = root
        self.rows = requirements(root)
        self.promises = promises.Page(root)

    # What is there.

    @cached_property
    def definitions(self) -> set[Key]:
        tree = Tree(self.root)
        return {Key(name, each) for name, file in tree.files.items() for each in file.definitions}

    @cached_property
    def clauses(self) -> dict[tuple[str, str], dict[str, promises.Clause]]:
        """The clauses of each public call by its crate and its title."""
        return {
            (crate.name, call.title): {clause.label: clause for clause in call.of_kind("ensures")}
            for crate in self.promises.crates.values()
            for call in crate.calls()
        }

    @cached_property
    def calls(self) -> dict[tuple[str, str], promises.Call]:
        return {(crate.name, call.title): call for crate in self.promises.crates.values() for call in crate.calls()}

    @cached_property
    def cases(self) -> dict[str, list[tuple[str, str]]]:
        """The groups and cases of each file of the suite."""
        found: dict[str, list[tuple[str, str]]] = {}
        for path in sorted((self.root / DATA).glob("*.toml")):
            table = tomllib.loads(path.read_text(encoding="utf-8"))
            found[path.name] = [(group["name"], case["shows"]) for group in table.get("group", []) for case in group["case"]]
        return found

    @cached_property
    def printed(self) -> dict[str, list[str]]:
        """What each program of the gate has to print, by lines; of vectors a line goes with its file's."""
        found: dict[str, list[str]] = {}
        for path in sorted(self.root.glob("crates/*/args")):
            status = path.parent / "status"
            found[path.parent.name] = [f"status {status.read_text(encoding='utf-8').strip() if status.exists() else 0}"]
        for path in sorted(self.root.glob("crates/*/stdout")):
            file = ""
            lines = found.setdefault(path.parent.name, [])
            for line in path.read_text(encoding="utf-8").splitlines():
                file = line if re.fullmatch(r"[\w.]+:", line) else file
                lines += [line, f"{file} {line}"]
        return found

    @cached_property
    def tests(self) -> set[str]:
        """The tests of each crate, and those by pytest."""
        found: set[str] = set()
        for path in sorted(self.root.glob("crates/*/src/**/*.rt")):
            crate = path.relative_to(self.root / "crates").parts[0]
            names = re.findall(r"#\[test\]\s+fn (\w+)", path.read_text(encoding="utf-8"))
            found |= {f"{crate}::{name}" for name in names}
        for path in sorted([*self.root.glob("tools/**/*_test.py"), *self.root.glob("examples/**/*_test.py"), *self.root.glob("docs/*_test.py")]):
            file = str(path.relative_to(self.root))
            found |= {f"{file}: {name}" for name in re.findall(r"^def (test_\w+)", path.read_text(encoding="utf-8"), re.M)}
        return found

    @cached_property
    def outside(self) -> set[str]:
        """What scripts of bench try, by the first cells of the tables of docs/RELIABILITY.md."""
        page = self.root / "docs/RELIABILITY.md"
        text = page.read_text(encoding="utf-8") if page.exists() else ""
        scripts = sorted(set(re.findall(r"^\$ (bench/\w+)", text, re.M)))
        return {f"{script}: {row.strip('`')}" for script in scripts for row in re.findall(r"^\| ([^|]+) \|", text, re.M)}

    @cached_property
    def edits(self) -> set[str]:
        return {f"{path.parent.parent.name}/{path.stem}" for path in self.root.glob("crates/*/must-fail/*.edit")}

    @cached_property
    def pages(self) -> dict[str, dict[str, str]]:
        """The text of each section of each page."""
        found: dict[str, dict[str, str]] = {}
        for path in sorted((self.root / "docs").glob("*.md")):
            if path.name in PAGES_WITHOUT_IDS:
                continue
            parts = found.setdefault(f"docs/{path.name}", {})
            for anchor, text in sections(path.read_text(encoding="utf-8")):
                parts[anchor] = f"{parts[anchor]}\n{text}" if anchor in parts else text
        return found

    # What is cited.

    def has_definition(self, cited: str) -> bool:
        parts = cited.split(" ")
        return len(parts) == 3 and Key(f"{parts[0]}/specs/{parts[1]}", parts[2]) in self.definitions

    def label_of(self, cited: str) -> tuple[tuple[str, str], str] | None:
        """The call and the label of a clause that is there, without the fields after it."""
        crate, _, rest = cited.partition(" ")
        titles = [title for at, title in self.clauses if at == crate and (rest == title or rest.startswith(f"{title} "))]
        if not titles:
            return None
        title = max(titles, key=len)
        label, *fields = rest[len(title) :].strip().split(".")
        clause = self.clauses[crate, title].get(label)
        if clause is None:
            return None
        call = self.calls[crate, title]
        homes = self.promises.cited(call, clause.text)
        for name in fields:
            found = [(home, each) for home in homes for each in self.promises.fields_of(home) if each.name == name]
            if not found:
                return None
            homes = self.promises.cited_in_specs(found[0][0], found[0][1].text)
        return (crate, title), label

    def has_case(self, cited: str) -> bool:
        file, _, name = cited.partition(": ")
        if file in self.cases:
            return any(name in (group, f"{group}: {shows}") for group, shows in self.cases[file])
        if file in self.printed:
            return any(line == name or line.startswith(f"{name}: ") or line == f"# {name}" for line in self.printed[file])
        return cited in self.tests or cited in self.outside

    def is_in_gate(self, cited: str) -> bool:
        return not cited.startswith(OUTSIDE) and ".py: " not in cited

    # What is wrong.

    def faults(self) -> list[str]:
        return [*odd_rows(self.root), *self.strangers(), *self.uncited(), *self.misplaced()]

    def strangers(self) -> Iterator[str]:
        for row in self.rows:
            if not row.says.endswith(".") or "\n" in row.says:
                yield f"{row.id} is no sentence"
            if not row.clauses and not row.cases:
                yield f"{row.id} has neither a clause nor a case"
            if bool(row.cases) == bool(row.untried):
                yield f"{row.id} has {'a case, and a reason why it has none' if row.cases else 'no case, and no reason for that'}"
            for name, cited, is_there in (
                ("definition", row.definitions, self.has_definition),
                ("clause", row.clauses, lambda each: self.label_of(each) is not None),
                ("case", row.cases, self.has_case),
                ("wrong body", row.wrong, lambda each: each in self.edits),
            ):
                yield from (f"{row.id}: there is no {name} {each}" for each in cited if not is_there(each))
                yield from (f"{row.id} cites {name} {each} twice" for each in sorted(set(cited)) if cited.count(each) > 1)

    def uncited(self) -> Iterator[str]:
        """The clauses of the top crates that stand for no requirement."""
        cited = {self.label_of(each) for row in self.rows for each in row.clauses}
        for (crate, title), labels in self.clauses.items():
            if crate in TOP:
                yield from (f"no requirement cites {crate} {title} {label}".rstrip() for label in labels if ((crate, title), label) not in cited)

    def misplaced(self) -> Iterator[str]:
        known = {row.id for row in self.rows}
        for row in self.rows:
            parts = self.pages.get(row.page, {})
            if row.anchor not in parts:
                yield f"{row.id}: there is no section {row.stands}"
            elif row.id not in ids_in(parts[row.anchor]):
                yield f"{row.stands} does not cite {row.id}"
        for page, parts in self.pages.items():
            for anchor, text in parts.items():
                yield from (f"{page}#{anchor} cites {each}, which is no requirement" for each in sorted(ids_in(text) - known))

    # The page.

    def text(self) -> str:
        out = HEAD.splitlines()
        out += ["", *self.summary()]
        for page, anchor, rows in self.by_section():
            out += ["", f"## {page.removeprefix('docs/')}: {self.title_of(page, anchor)}", ""]
            out += ["| Requirement | Definitions | Clauses | Cases | Wrong bodies |", "|---|---|---|---|---|"]
            out += [self.line(row) for row in rows]
        return "\n".join(out) + "\n"

    def by_section(self) -> Iterator[tuple[str, str, list[Requirement]]]:
        """The requirements of each section, in the order of the table."""
        found: dict[tuple[str, str], list[Requirement]] = {}
        for row in self.rows:
            found.setdefault((row.page, row.anchor), []).append(row)
        for (page, anchor), rows in found.items():
            yield page, anchor, rows

    def title_of(self, page: str, anchor: str) -> str:
        path = self.root / page
        lines = path.read_text(encoding="utf-8").splitlines() if path.exists() else []
        titles = [heading[2].replace("\\", "") for line in lines if (heading := HEADING.match(line))]
        title = next((each for each in titles if slug(each) == anchor), anchor)
        return f"[{title.replace('**', '').replace('`', '')}]({page.removeprefix('docs/')}#{anchor})"

    def line(self, row: Requirement) -> str:
        cells = [
            f"**{row.id}** {promises.cell(row.says)}",
            listed(grouped(row.definitions, 2)),
            listed(grouped(row.clauses, 1)),
            listed([code(each) if self.is_in_gate(each) else f"{code(each)}, outside the gate" for each in row.cases] or [f"none: {promises.cell(row.untried)}"]),
            listed([code(each) for each in row.wrong]),
        ]
        return f"| {' | '.join(cells)} |"

    def summary(self) -> list[str]:
        rows = self.rows
        proved = [row for row in rows if row.clauses]
        tried = [row for row in rows if row.cases]
        both = [row for row in rows if row.clauses and row.cases]
        only = [row.id for row in rows if not row.clauses]
        wrong = {each for row in rows for each in row.wrong}
        cited = {self.label_of(each) for row in rows for each in row.clauses}
        outside = [row.id for row in rows if not row.clauses and not any(map(self.is_in_gate, row.cases))]
        return [
            f"{len(rows)} requirements: {len(proved)} have a clause, {len(tried)} a case, {len(both)} both. They cite {len(cited)} clauses and "
            f"{len(wrong)} of the {len(self.edits)} wrong bodies. The gate refuses the others, too: {listed([code(each) for each in sorted(self.edits - wrong)])}.",
            "",
            f"No clause, shown by cases alone: {ranges(only) or 'none'}. Of these no case runs in the gate: {ranges(outside) or 'none'}; they are shown "
            f"by {listed([code(each) for each in self.shown_by(outside)])}.",
            "",
            f"No case, and why: {'; '.join(f'{ranges(ids)} ({promises.cell(why)})' for why, ids in self.untried().items()) or 'none'}.",
        ]

    def untried(self) -> dict[str, list[str]]:
        """The requirements without a case, by the reason why they have none."""
        found: dict[str, list[str]] = {}
        for row in self.rows:
            if not row.cases:
                found.setdefault(row.untried, []).append(row.id)
        return found

    def shown_by(self, ids: list[str]) -> list[str]:
        """The scripts outside the gate that show these requirements."""
        return sorted({each.partition(": ")[0] for row in self.rows if row.id in ids for each in row.cases})


HEAD = """# Trace

<!-- Written by docs/requirements.py from docs/requirements.toml. Do not edit it: edit the table, and write it again. -->

Each requirement with what states it, what promises it, what shows it, and which wrong bodies the gate refuses. A requirement
stands in the section of the page that its heading links to, which cites its id.

- A definition is named by its crate, its file below `specs` and its name.
- A clause is named by its crate, its call and its label; after a point stands a field of the record that the clause is.
  [PROMISES.md](PROMISES.md) has its sentence.
- A case is one of `crates/case_suite/data` by its file, its group and, where one is meant, what it shows; or a line that another
  program of the gate has to print; or a test.
- A wrong body is `crates/CRATE/must-fail/NAME.edit`.
- A number that is left out is not used.
"""


def code(text: str) -> str:
    return f"`{promises.cell(text)}`"


def grouped(cited: list[str], parts: int) -> list[str]:
    """What is cited, those with the same first words together: `crate File.antt`: `one`, `other`."""
    found: dict[str, list[str]] = {}
    for each in cited:
        words = each.split(" ")
        found.setdefault(" ".join(words[:parts]), []).append(" ".join(words[parts:]))
    return [f"{code(head)} {', '.join(code(name) for name in names)}" for head, names in found.items()]


def listed(texts: list[str]) -> str:
    return "; ".join(texts) or "none"


def main(words: list[str]) -> int:
    options = [word for word in words if word.startswith("-")]
    roots = [word for word in words if not word.startswith("-")]
    if len(roots) > 1 or not set(options) <= {"--check", "--ids"} or len(options) > 1:
        sys.exit(__doc__)
    root = Path(roots[0]).resolve() if roots else ROOT
    trace = Trace(root)
    if options == ["--ids"]:
        for page, anchor, rows in trace.by_section():
            print(f"{page}#{anchor}: {ranges([row.id for row in rows])}")
        return 0
    path = root / PAGE
    if not options:
        path.write_text(trace.text(), encoding="utf-8")
        return 0
    faults = trace.faults()
    if not path.exists() or path.read_text(encoding="utf-8") != trace.text():
        faults.append(f"{PAGE} is not what requirements.py writes of the table")
    print("".join(fault + "\n" for fault in faults) + f"{len(trace.rows)} requirements, {len(faults)} differences")
    return 1 if faults else 0


if __name__ == "__main__":
    sys.exit(main(sys.argv[1:]))
