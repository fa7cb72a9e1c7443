#!/usr/bin/env python3
"""Does the commands of all pages as they are written, and says where something else comes than is shown.

usage: pages.py PROGRAM [PAGE ..]    `./xm_run` is PROGRAM; all pages with commands, or those that are named
       pages.py                      the pages of the systems alone, and `./xm_run` is second.py, their commands by the second simulator
       pages.py --write              puts what second.py gives into the pages of the systems and their reports
       pages.py --book               prints the runs of those pages but attitude's, with the reports of second.py, as data of `case_suite`
       pages.py --measure PROGRAM    all pages, their measurements and the gate too, which take hours

Each page is done in a copy of the repository that is removed at the end:
- Each command of its `text` blocks prints what stands under it. A page of mandoc has its commands in indented blocks.
- A page with the comment `<!-- after PAGE -->` goes on where that page ends: its commands are done first.
- A `c` block after `Put this in FILE` is written to that file.
- A measurement (`bench/..`, `time ..`), the gate (`rt ..`), a call of this script and one that installs packages print
  other things each time. Of `time ..` and of what it runs nothing is compared; the others are only looked up, so that what they name
  is there, unless `--measure` is given.

For the pages of the systems in addition:
- the report of each `run` is the file BOX.report beside the page, BOX.xmp being the container of the run; that of a run with
  the upsets of FILE.upsets is FILE.report, of which the consoles are not compared;
- what each partition of a report wrote to its console is the file of its program, NAME.txt, which was worked by hand or
  printed by the same C file as a program of this machine (`make native`). A partition that did not halt may have written
  the last line of it again and again.

Ends with 1 where something differs, else with 0.
"""
import os
import re
import shutil
import subprocess
import sys
import tempfile
import textwrap
from dataclasses import dataclass, field
from pathlib import Path

ROOT = Path(__file__).resolve().parent.parent
SYSTEMS = ROOT / "examples/systems"
NAMES = ["queue", "control", "supervisor", "misdeeds", "filter", "alarm"]
# Systems whose runs are none of the data: one with the C library, and one that needs upsets.
LARGER = ["attitude", "upsets"]
AFTER = re.compile(r"^<!-- after (\S+) -->$", re.M)
NAMED = re.compile(r"Put this in `([^`]+)`")
# What is not copied: what git does not keep, and what is large.
LEFT_OUT = shutil.ignore_patterns(".git", "out", "build", "__pycache__", "*.pyc", "unlanded", ".tools")
# As many zeros in a row are not written into the data.
ZEROS = re.compile(rb"\0{64,}")


def named(words: str) -> str:
    """The file or the command that words name: the first of them that gives no variable a value."""
    return next(word for word in words.split() if "=" not in word)


@dataclass
class Command:
    words: str
    shown: str

    def is_timed(self) -> bool:
        return self.words.startswith("time ")

    def installs(self) -> bool:
        return "apt-get" in self.words

    def measures(self) -> bool:
        first = named(self.words)
        return first == "rt" or first.startswith("bench/") or first.endswith("pages.py") or first == "tools/check"


@dataclass
class Source:
    """A file that the page has the reader write."""

    path: str
    content: str


@dataclass
class Page:
    path: Path
    text: str = field(init=False)
    steps: list[Command | Source] = field(init=False)

    def __post_init__(self) -> None:
        self.text = self.path.read_text(encoding="utf-8")
        self.steps = list(steps_of(self.text))

    @property
    def name(self) -> str:
        return str(self.path.relative_to(ROOT))

    def before(self) -> list["Page"]:
        return [Page(ROOT / name) for name in AFTER.findall(self.text)]

    def calls(self) -> list[list[str]]:
        """The commands of xm_run, as words."""
        words = [step.words.split(" > ")[0].split() for step in self.steps if isinstance(step, Command)]
        return [call[1:] for call in words if call[0] == "./xm_run"]

    def programs(self) -> dict[str, dict[int, str]]:
        """For each container the programs of its partitions, by the commands that make it."""
        images: dict[str, str] = {}
        boxes: dict[str, dict[int, str]] = {}
        for call in self.calls():
            match call:
                case ["xmeformat", "build", elf, image]:
                    images[image] = Path(elf).stem
                case ["xmpack", "build", _, box, *parts]:
                    boxes[box] = {int(part.split("=")[0]): images[part.split("=")[1]] for part in parts}
        return boxes


def steps_of(text: str):
    for language, block, before in fenced(text):
        named = NAMED.search(before)
        if language == "text":
            for step in re.split(r"^\$ ", block, flags=re.M)[1:]:
                words, _, shown = step.partition("\n")
                yield Command(words, shown)
        elif language == "c" and named:
            yield Source(named[1], block)


def fenced(text: str):
    """Each block of code with its language and the line before it; what mandoc indents by a tab is a block of text."""
    language, block, before = None, "", ""
    for line in [*text.splitlines(), ""]:
        if language == "tab" and not line.startswith("\t"):
            yield "text", block, before
            language = None
        if language is None:
            if line.startswith("```"):
                language, block = line[3:], ""
            elif line.startswith("\t"):
                language, block = "tab", line[1:] + "\n"
            elif line.strip():
                before = line
        elif language == "tab":
            block += line[1:] + "\n"
        elif line == "```":
            yield language, block, before
            language = None
        else:
            block += line + "\n"


def all_pages() -> list[Page]:
    hidden = {".git", "out", "unlanded", ".tools"}
    paths = [path for path in ROOT.rglob("*.md") if not hidden & set(path.relative_to(ROOT).parts)]
    return [page for page in map(Page, sorted(paths)) if any(isinstance(step, Command) for step in page.steps)]


def system_pages(names: list[str]) -> list[Page]:
    return [Page(SYSTEMS / name / "README.md") for name in names]


class Folder:
    """A copy of the repository, with an xm_run."""

    def __init__(self, program: Path) -> None:
        self.place = Path(tempfile.mkdtemp()) / "xm_run"
        shutil.copytree(ROOT, self.place, ignore=LEFT_OUT)
        (self.place / "xm_run").unlink(missing_ok=True)
        (self.place / "xm_run").symlink_to(program)

    def write(self, source: Source) -> None:
        (self.place / source.path).write_text(source.content, encoding="utf-8")

    def printed(self, words: str) -> str:
        done = subprocess.run(["bash", "-c", words], cwd=self.place, capture_output=True, text=True)
        return done.stdout + done.stderr

    def has(self, words: str) -> bool:
        """Whether a command names a file of the copy or a command of the system."""
        first = named(words)
        return (self.place / first).is_file() if "/" in first else shutil.which(first) is not None

    def remove(self) -> None:
        shutil.rmtree(self.place.parent)


class Trial:
    def __init__(self, program: Path, writes: bool = False, measures: bool = False) -> None:
        self.program, self.writes, self.measures = program, writes, measures
        self.faults = self.commands = self.lines = 0

    def compare(self, what: str, found: str, wanted: str) -> None:
        if found != wanted:
            self.faults += 1
            print(f"{what}:\n  found\n{textwrap.indent(found, '    ')}  wanted\n{textwrap.indent(wanted, '    ')}")

    def page(self, page: Page) -> None:
        folder = Folder(self.program)
        try:
            self.follow(page, folder)
            for step in page.steps:
                self.step(page, step, folder)
            if page.path.parent.parent == SYSTEMS:
                self.reports(page, folder)
        finally:
            folder.remove()
        if self.writes:
            page.path.write_text(page.text, encoding="utf-8")

    def follow(self, page: Page, folder: Folder) -> None:
        """Does what the pages have that this one goes on after."""
        for other in page.before():
            self.follow(other, folder)
            for step in other.steps:
                if isinstance(step, Source):
                    folder.write(step)
                elif not (step.measures() or step.installs()):
                    folder.printed(step.words)

    def step(self, page: Page, step: Command | Source, folder: Folder) -> None:
        if isinstance(step, Source):
            folder.write(step)
            return
        self.commands += 1
        if (step.measures() and not self.measures) or (step.installs() and os.geteuid() != 0):
            self.compare(f"{page.name}: {step.words}", "" if folder.has(step.words) else "not there\n", "")
            return
        printed = folder.printed(step.words)
        if self.writes:
            page.text = page.text.replace(f"$ {step.words}\n{step.shown}", f"$ {step.words}\n{printed}", 1)
        elif not (step.measures() or step.installs() or step.is_timed()):
            self.compare(f"{page.name}: {step.words}", printed, step.shown)

    def reports(self, page: Page, folder: Folder) -> None:
        for call in page.calls():
            if call[0] == "run":
                self.report(page, call, folder.printed(" ".join(["./xm_run", *call])))

    def report(self, page: Page, call: list[str], report: str) -> None:
        upsets = call[call.index("--upset") + 1] if "--upset" in call else None
        path = page.path.parent / f"{Path(upsets or call[1]).stem}.report"
        if self.writes:
            path.write_text(report)
        self.compare(path.name, report, path.read_text())
        if upsets:
            return
        for number, name in page.programs()[call[1]].items():
            self.console(f"{path.name}, partition {number}", report, number, page.path.parent / f"{name}.txt")

    def console(self, what: str, report: str, number: int, path: Path) -> None:
        lines = re.findall(rf"^\[\d+\] P{number} CON (.*)$", report, re.M)
        written = "".join(lines).replace("\\n", "\n")
        text = path.read_text()
        self.lines += written.count("\n")
        if text and not re.search(rf"^END P{number} halted", report, re.M):
            last = text.splitlines()[-1] + "\n"
            while written.startswith(text + last):
                text += last
        self.compare(what, written, text)


# The runs as data.


def hex_lines(content: bytes) -> list[str]:
    digits = content.hex()
    words = [digits[k : k + 8] for k in range(0, len(digits), 8)]
    return [" ".join(words[k : k + 12]) for k in range(0, len(words), 12)]


def file_entries(name: str, content: bytes) -> list[str]:
    """A file in pieces: after each of them zeros are filled in up to the next one."""
    zeros = [found.span() for found in ZEROS.finditer(content)]
    starts = [0] + [end for _, end in zeros]
    ends = [start for start, _ in zeros] + [len(content)]
    lines, before = [], None
    for number, (start, end) in enumerate(zip(starts, ends)):
        last = number == len(ends) - 1
        own = name if last else f"{name} to {ends[number]}"
        lines += ["[[file]]", f'name = "{own}"']
        lines += ['hex = """'] if before is None else [f'of = "{before}"', f"length = {start}", 'append_hex = """']
        lines += [*hex_lines(content[start:end]), '"""', ""]
        before = own
    return lines


def text_value(text: str) -> str:
    return '"' + text.replace("\\", "\\\\").replace('"', '\\"').replace("\n", "\\n") + '"'


def book_group(page: Page, report_of) -> list[str]:
    calls = page.calls()
    files: list[str] = []
    for word in (word.split("=")[-1] for call in calls for word in call):
        if (ROOT / word).is_file() and word not in files:
            files.append(word)
    lines = []
    for file in files:
        content = (ROOT / file).read_bytes()
        if file.endswith(".xml"):
            lines += ["[[file]]", f'name = "{file}"', "text = '''", content.decode() + "'''", ""]
        else:
            lines += file_entries(file, content)
    lines += ["[[group]]", f'name = "{title(page)}"', "before = ["]
    lines += [f'  "{" ".join(call)}",' for call in calls if call[0] != "run"]
    lines += ["]", "file = [", *(f'  "{file}",' for file in files), "]", "case = ["]
    for call in calls:
        if call[0] == "run":
            out = text_value(report_of(page, call))
            lines.append(f'  {{ shows = "{Path(call[1]).stem}", call = "{" ".join(call)}", out = {out} }},')
    return [*lines, "]", ""]


def title(page: Page) -> str:
    return page.text.splitlines()[0].removeprefix("# ").lower()


def book() -> str:
    lines = [
        "# The systems of examples/systems, from their descriptions and program files to the reports of their runs. The calls are",
        "# those of the pages there. The reports are those of examples/model, a second simulator in Python that was written from",
        "# the description of the machine; docs/pages.py compares their console lines with lines that were worked by",
        "# hand or printed by the same C file as a program of another machine. `docs/pages.py --book` prints this file.",
        "",
    ]
    for page in system_pages(NAMES):
        folder = page.path.parent
        lines += book_group(page, lambda page, call: (folder / f"{Path(call[1]).stem}.report").read_text())
    return "\n".join(lines[:-1]) + "\n"


def trial_of(words: list[str]) -> tuple[Trial, list[Page]]:
    second = SYSTEMS / "second.py"
    if not words or words == ["--write"]:
        return Trial(second, writes=bool(words)), system_pages([*NAMES, *LARGER])
    measures = words[0] == "--measure"
    program, *names = words[measures:]
    pages = [Page((ROOT / name).resolve()) for name in names] or all_pages()
    return Trial(Path(program).resolve(), measures=measures), pages


def main() -> int:
    words = sys.argv[1:]
    if words == ["--book"]:
        sys.stdout.write(book())
        return 0
    trial, pages = trial_of(words)
    for page in pages:
        trial.page(page)
    print(f"{len(pages)} pages, {trial.commands} commands, {trial.lines} console lines, {trial.faults} differences")
    return 1 if trial.faults else 0


if __name__ == "__main__":
    sys.exit(main())
