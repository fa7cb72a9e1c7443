"""usage: xm why [FILE]

Explains lines that xm_run prints on standard error, from FILE or from standard input:

  ./xm_run xmcparser system.xml system.xmc 2>&1 | xm why

Each line is passed on. After one that refuses a file comes what it means and how to mend it; for a description all that
`xm check-description` finds, with lines and columns. The exit status is 1 where a line was explained, else 0.
"""

import re
import sys

from xm_tools.failure import UNMET, WELL, Unusable
from xm_tools.files import content_of, text_of
from xm_tools.findings import SECTION, findings_of
from xm_tools.reference import ErrorRow, reference
from xm_tools.texts import Text
from xm_tools.words import words_of

USAGE = "xm why [FILE]"
# A line of the program, or of a command of xm that passes it on.
REFUSED = re.compile(r"(?:xm: )?(xm_run: (.+?): (.+))")
# What stands for a value in a line of the reference.
PLACEHOLDER = re.compile(r"\b(?:NAME|FILE|[ABDFHINPRTV])\b")
# The first bytes of each kind of file, and the sections of its lines.
KINDS = {
    b"XMCF": "The binary configuration",
    b"XMEF": "Images",
    b"XMPK": "Containers",
    b"XMSC": "Scripts",
    b"\x7fELF": "Program files",
}
ENDS = {
    ".xml": SECTION, ".xmc": "The binary configuration", ".xef": "Images", ".xmp": "Containers", ".scr": "Scripts",
    ".elf": "Program files",
}  # fmt: skip


def section_of(path: str) -> str | None:
    """The section of the lines about a file: by its name, else by its first bytes."""
    for end, section in ENDS.items():
        if path.endswith(end):
            return section
    try:
        content = content_of(path)
    except Unusable:
        return None
    return next((section for magic, section in KINDS.items() if content.startswith(magic)), None)


def filled(row: ErrorRow, line: str, fault: str) -> ErrorRow | None:
    """A row that is about a line, with the line's values: it has the whole line, or the fault after the file's name."""
    form = "(.+?)".join(re.escape(part) for part in PLACEHOLDER.split(row.text))
    found = re.fullmatch(form, line if row.text.startswith("xm_run: ") else fault)
    if found is None:
        return None
    values = dict(zip(PLACEHOLDER.findall(row.text), found.groups()))

    def value(name: re.Match[str]) -> str:
        return values.get(name[0], name[0])

    return ErrorRow(row.section, row.text, PLACEHOLDER.sub(value, row.means), PLACEHOLDER.sub(value, row.remedy))


def rows_for(line: str, path: str, fault: str) -> list[ErrorRow]:
    """The rows about a line, one of a section: that of the file where it has one, else all."""
    rows: dict[str, ErrorRow] = {}
    for row in reference().lines:
        found = filled(row, line, fault)
        if found:
            rows.setdefault(row.section, found)
    own = section_of(path)
    return [rows[own]] if own in rows else list(rows.values())


def description_lines(path: str) -> list[str]:
    try:
        return findings_of(Text(path, content_of(path))).lines()
    except Unusable:
        return []


def explained(line: str) -> list[str]:
    """The lines that explain a line, none where it refuses no file."""
    found = REFUSED.fullmatch(line)
    said, path, fault = found.groups() if found else (line, "", line)
    rows = rows_for(said, path, fault)
    lines = description_lines(path) if [row.section for row in rows] == [SECTION] else []
    if lines or not rows:
        return lines
    if len(rows) == 1:
        return [f"    {rows[0].means}", f"    to mend it: {rows[0].remedy}"]
    return [f"    {row.section}: {row.means}; to mend it: {row.remedy}" for row in rows]


def run(given: list[str]) -> int:
    words = words_of(USAGE, given, 0, 1)
    text = text_of(words.plain[0]) if words.plain else sys.stdin.buffer.read().decode("utf-8", "replace")
    status = WELL
    for line in text.splitlines():
        print(line)
        for more in explained(line):
            print(more)
            status = UNMET
    return status
