"""usage: xm compare A B [--names SYSTEM]

Compares two reports by partition, and the lines of the hypervisor: whether they have the same lines and the same end, and
if not the first tick at which they differ, with the line of each. A or B may be what `xm_run alone` prints: then the lines of
this partition are compared. With --names partitions have the names of the description or container SYSTEM. The exit status
is 1 where anything differs.
"""

from collections.abc import Iterator

from xm_tools.failure import UNMET, WELL
from xm_tools.files import content_of
from xm_tools.report import Alone, Line, Report, read_alone, read_report
from xm_tools.systems import read_system
from xm_tools.words import words_of

USAGE = "xm compare A B [--names SYSTEM]"
Side = Report | Alone


def read_side(path: str) -> Side:
    return read_report(path) if content_of(path).startswith(b"SYSTEM ") else read_alone(path)


def owners(sides: tuple[Side, Side]) -> list[int | None]:
    """The partitions that are compared, and None for the hypervisor."""
    alone = [side.partition for side in sides if isinstance(side, Alone)]
    if alone:
        return list(dict.fromkeys(alone))
    return [*range(max(side.partitions for side in sides if isinstance(side, Report))), None]


def lines_of(side: Side, partition: int | None) -> list[Line]:
    if isinstance(side, Report):
        return side.lines_of(partition)
    return side.lines if side.partition == partition else []


def end_of(side: Side, partition: int | None) -> str:
    if isinstance(side, Alone):
        return side.end.shown(f"P{partition}") if side.partition == partition else "no such partition"
    if partition is None:
        return f"END XM {side.state} plan={side.plan} clock={side.clock} ticks={side.ticks}"
    return side.ends[partition].shown(f"P{partition}") if partition < len(side.ends) else "no such partition"


def shown(line: Line | None, end: str) -> str:
    return end if line is None else line.shown()


def difference(sides: tuple[Side, Side], partition: int | None) -> list[str]:
    """The first lines that differ, none where nothing does."""
    lines = [lines_of(side, partition) for side in sides]
    ends = [end_of(side, partition) for side in sides]
    for place in range(max(len(lines[0]), len(lines[1]))):
        pair = [own[place] if place < len(own) else None for own in lines]
        texts = [shown(line, end) for line, end in zip(pair, ends)]
        if texts[0] != texts[1]:
            tick = min(line.tick for line in pair if line)
            return [f"differs from tick {tick} on", *(f"  {side.path}: {text}" for side, text in zip(sides, texts))]
    if ends[0] != ends[1]:
        return ["ends otherwise", *(f"  {side.path}: {end}" for side, end in zip(sides, ends))]
    return []


def compared(sides: tuple[Side, Side], titles: dict[int, str]) -> Iterator[tuple[str, list[str]]]:
    for partition in owners(sides):
        title = "XM" if partition is None else " ".join(filter(None, [f"P{partition}", titles.get(partition)]))
        yield title, difference(sides, partition)


def run(given: list[str]) -> int:
    words = words_of(USAGE, given, 2, 2, ("--names",))
    system = words.value("--names")
    titles = read_system(system).names if system else {}
    sides = read_side(words.plain[0]), read_side(words.plain[1])
    status = WELL
    for title, lines in compared(sides, titles):
        for line in [f"{title}: {lines[0]}", *lines[1:]] if lines else [f"{title}: the same"]:
            print(line)
        status = UNMET if lines else status
    return status
