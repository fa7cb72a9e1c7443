"""A picture of a run as an SVG: bars of slots and states, marks and lines with their lines of the report, and how it ended."""

import io
from bisect import bisect_left
from collections.abc import Iterable, Sequence
from dataclasses import dataclass, field
from typing import Any
from xml.etree import ElementTree

from xm_tools.course import HALTED, SILENT, SUSPENDED, Course, Interval
from xm_tools.failure import Unusable
from xm_tools.report import Line

# More slots and changes of a row, more marks of one kind in a row, and more lines are thinned to about one in a column.
MOST = 1000
COLUMNS = 1000
# How bars of a row are drawn: their height, in rows, their colour, and what the legend says.
BARS = {
    "slot": (0.84, "#edf3f9", "its slot while it is halted or suspended"),
    "ready": (0.84, "#cbdeef", "whose slot it is, not that it ran in all of it"),
    "ran": (0.40, "#4a86b8", "ran in every tick, by its END line"),
    SUSPENDED: (0.12, "#e69f00", "suspended"),
    HALTED: (0.12, "#555555", "halted"),
}
# How marks of a row are drawn: their form, their colour, their place in the row, and what the legend says.
MARKS = {
    "CON": ("|", "#000000", 0.31, "console call"),
    "TRACE": ("|", "#8a2be2", -0.31, "trace"),
    "HM": ("d", "#d00000", -0.31, "health event that is logged"),
    "SUSPEND": ("<", "#b36b00", 0, "SUSPEND"),
    "RESUME": (">", "#b36b00", 0, "RESUME"),
    "HALT": ("X", "#000000", 0, "HALT"),
    "COLD": ("^", "#0072b2", 0, "COLD reset"),
    "WARM": ("^", "#d55e00", 0, "WARM reset"),
    "UPSET": ("*", "#c2185b", 0.31, "upset: a bit flips before the tick"),
}
# How lines across all rows are drawn: their style, their colour, and what the legend says.
LINES = {
    "FRAME": (":", "#999999", "a major frame begins"),
    "PLAN": ("--", "#007a5e", "another plan starts"),
    "RESET": ("-", "#d55e00", "reset of the hypervisor"),
    "HALT": ("-", "#000000", "halt of the hypervisor"),
}
# The lines across all rows that a line of the hypervisor makes. In one tick a reset stands before the plan that it starts.
ACROSS = {"COLD": "RESET", "WARM": "RESET", "PLAN": "PLAN", "HALT": "HALT"}
MOST_FRAMES = 200
PALE_NOTE = (
    "A pale bar says whose slot it is, not that the partition ran in all of it. "
    "Where a bar is dark, the report shows that it ran in every tick."
)
END_NOTE = "ran E of S: out of S ticks since its last reset in which it is neither halted nor suspended; it was idle in the others"
# In inches: the axes and a row of them, and what is around them; a letter of a name.
WIDTH, ROW, RIGHT, TOP, BOTTOM, LETTER = 9.0, 0.62, 1.6, 0.85, 1.5, 0.085
# In inches: the height of a row of labels above the axes, and a letter of a label.
LABEL, LABEL_LETTER = 0.13, 0.072


# What is left out.


@dataclass
class Thinning:
    """The ticks that are shown, and what was left out of them."""

    ticks: Interval
    crowded: list[int] = field(default_factory=list)  # the partitions whose bars are thinned
    marks: int = 0
    shown: int = 0

    @property
    def column(self) -> int:
        return -(-self.ticks.ticks // COLUMNS)

    def bars(self, intervals: Iterable[Interval], is_crowded: bool) -> list[tuple[int, int]]:
        """Intervals as starts and lengths; of a crowded row those less than a column apart are one."""
        kept: list[Interval] = []
        for one in intervals:
            if is_crowded and kept and one.begin - kept[-1].end < self.column:
                kept[-1] = Interval(kept[-1].begin, one.end)
            else:
                kept.append(one)
        return [(one.begin, one.ticks) for one in kept]

    def lines(self, found: Sequence[Line]) -> list[Line]:
        """The lines, in the order of their ticks, that are shown; of too many the first in each column."""
        ticks = [line.tick for line in found]
        inside = found[bisect_left(ticks, self.ticks.begin) : bisect_left(ticks, self.ticks.end)]
        kept: dict[int, Line] = {}
        for place, line in enumerate(inside):
            column = place if len(inside) <= MOST else (line.tick - self.ticks.begin) // self.column
            kept.setdefault(column, line)
        self.marks += len(inside)
        self.shown += len(kept)
        return list(kept.values())

    def is_crowded(self, course: Course, partition: int) -> bool:
        """Whether the bars of a row are thinned: by its slots and its changes of state."""
        count = len(course.states[partition]) - 1
        for frames in course.all_frames(self.ticks.begin, self.ticks.end):
            count += len(frames.numbers) * len(frames.plan.slots_of(partition))
        if count > MOST:
            self.crowded.append(partition)
        return count > MOST

    def notes(self) -> str | None:
        """What was left out, None where nothing was."""
        notes = []
        if self.crowded:
            rows = ", ".join(f"P{partition}" for partition in self.crowded)
            notes.append(f"bars of {rows} less than {self.column} ticks apart are drawn as one, none dark")
        if self.shown < self.marks:
            notes.append(f"{self.shown} of {self.marks} marks and lines are drawn, one in {self.column} ticks")
        return "thinned: " + "; ".join(notes) if notes else None


# Titles, which a browser shows where the pointer is.

SVG = "http://www.w3.org/2000/svg"
NAMESPACES = {
    "": SVG,
    "xlink": "http://www.w3.org/1999/xlink",
    "cc": "http://creativecommons.org/ns#",
    "dc": "http://purl.org/dc/elements/1.1/",
    "rdf": "http://www.w3.org/1999/02/22-rdf-syntax-ns#",
}


def add_title(parent: ElementTree.Element, text: str) -> None:
    ElementTree.SubElement(parent, f"{{{SVG}}}title").text = text


def add_mark_title(parent: ElementTree.Element, place: int, text: str) -> None:
    """A mark with its title, and around it what can't be seen, so that a pointer finds a thin mark."""
    mark = parent[place]
    parent[place] = group = ElementTree.Element(f"{{{SVG}}}g")
    group.tail, mark.tail = mark.tail, None
    add_title(group, text)
    group.append(mark)
    left, top = float(mark.get("x", "0")) - 3, float(mark.get("y", "0")) - 4
    ElementTree.SubElement(group, f"{{{SVG}}}rect", {
        "x": f"{left:.6f}", "y": f"{top:.6f}", "width": "6", "height": "8", "fill": "none", "pointer-events": "all",
    })  # fmt: skip


def add_titles(picture: bytes, titles: dict[str, list[str]]) -> bytes:
    """An SVG with the titles of its marks and lines, which are in order for the id of each group."""
    root = ElementTree.fromstring(picture)
    for group in root.iter(f"{{{SVG}}}g"):
        texts = titles.get(group.get("id", ""), [])
        lines = group.findall(f"{{{SVG}}}path")
        marks = group.find(f"{{{SVG}}}g")
        if texts and lines:
            for line, text in zip(lines, texts, strict=True):
                add_title(line, text)
        elif texts and marks is not None:
            for place, text in zip(range(len(marks)), texts, strict=True):
                add_mark_title(marks, place, text)
    for prefix, name in NAMESPACES.items():
        ElementTree.register_namespace(prefix, name)
    return bytes(ElementTree.tostring(root, encoding="utf-8", xml_declaration=True)) + b"\n"


# What is drawn.


def levels_of(labels: dict[int, str], inch: float) -> dict[int, int]:
    """How many rows of labels are below each, so that none meets another: labels by their places, an inch in ticks."""
    free: list[float] = []
    levels: dict[int, int] = {}
    for place, text in sorted(labels.items()):
        level = next((level for level, end in enumerate(free) if end <= place), len(free))
        free[level : level + 1] = [place + LABEL_LETTER * (len(text) + 1) * inch]
        levels[place] = level
    return levels


class Picture:
    """The axes of a picture, the legend's entries by what they say, and the titles of each group of marks or lines.

    `across` has the lines of the hypervisor that are shown, by their kinds, and `labels` what stands above the axes.
    """

    def __init__(self, course: Course, thinning: Thinning) -> None:
        self.course, self.thinning = course, thinning
        self.low, self.high = thinning.ticks.begin, thinning.ticks.end
        self.inch = (self.high - self.low) / WIDTH
        self.rows = len(course.system.partitions)
        self.entries: dict[str, Any] = {}
        self.titles: dict[str, list[str]] = {}
        self.lines: dict[tuple[int | None, str], list[Line]] = {}
        for line in course.report.lines:
            kind = line.kind if line.partition is not None else ACROSS[line.kind]
            self.lines.setdefault((line.partition, kind), []).append(line)
        self.across = {kind: thinning.lines(self.lines.get((None, kind), [])) for kind in ("PLAN", "RESET", "HALT")}
        self.labels = self.labels_of()
        self.levels = levels_of(self.labels, self.inch)
        self.set_axes()

    def set_axes(self) -> None:
        from matplotlib.figure import Figure  # type: ignore[import]

        names = [self.course.system.title(partition) for partition in range(self.rows)]
        left = 0.2 + LETTER * max(len(name) for name in names)
        top = TOP + LABEL * (max(self.levels.values()) + 1)
        width, height = left + WIDTH + RIGHT, ROW * self.rows + top + BOTTOM
        self.figure: Any = Figure(figsize=(width, height))
        self.axes: Any = self.figure.add_axes(
            [left / width, BOTTOM / height, WIDTH / width, ROW * self.rows / height],
            xlim=(self.low, self.high), ylim=(self.rows - 0.5, -0.5),
        )  # fmt: skip
        self.axes.patch.set_gid("field")
        self.axes.set_xlabel("ticks since the boot (a tick is a microsecond)", fontsize=8)
        self.axes.ticklabel_format(axis="x", style="plain", useOffset=False)
        self.axes.xaxis.get_major_locator().set_params(integer=True)
        self.axes.set_yticks(range(self.rows), names)
        self.axes.tick_params(axis="y", length=0, labelsize=9)
        self.axes.tick_params(axis="x", labelsize=8)

    def labels_of(self) -> dict[int, str]:
        """The plan at the beginning, and what each line across all rows is, by their places."""
        labels = {self.low: [f"plan {self.course.plan_at(self.low)}"]}
        for line in [*self.across["RESET"], *self.across["PLAN"], *self.across["HALT"]]:
            text = f"plan {line.text}" if line.kind == "PLAN" else f"XM {line.kind}"
            labels.setdefault(line.tick + 1, []).append(text)
        return {place: ", ".join(texts) for place, texts in labels.items()}

    def draw_bars(self, partition: int, kind: str, intervals: Iterable[Interval], is_crowded: bool) -> list[tuple[int, int]]:
        """Draws bars, and gives them."""
        height, colour, _ = BARS[kind]
        bars = self.thinning.bars(intervals, is_crowded)
        if bars:
            self.axes.broken_barh(bars, (partition - height / 2, height), facecolor=colour, linewidth=0, zorder=1,
                                  gid=f"{kind}-P{partition}")  # fmt: skip
        return bars

    def legend_bar(self, kind: str, is_seen: bool) -> None:
        from matplotlib.patches import Patch  # type: ignore[import]

        _, colour, says = BARS[kind]
        if is_seen:
            self.entries.setdefault(says, Patch(facecolor=colour))

    def draw_marks(self, partition: int, kind: str) -> None:
        form, colour, place, says = MARKS[kind]
        shown = self.thinning.lines(self.lines.get((partition, kind), []))
        if shown:
            marks, = self.axes.plot(
                [line.tick + 0.5 for line in shown], [partition + place] * len(shown), form, color=colour, markersize=5,
                zorder=3, gid=f"{kind}-P{partition}",
            )  # fmt: skip
            self.titles[f"{kind}-P{partition}"] = [line.shown() for line in shown]
            self.entries.setdefault(says, marks)

    def draw_row(self, partition: int) -> None:
        course, low, high = self.course, self.low, self.high
        is_crowded = self.thinning.is_crowded(course, partition)
        column = self.thinning.column if is_crowded else 0
        slots = self.draw_bars(partition, "slot", course.slots_of(partition, low, high, column), is_crowded)
        ready = self.draw_bars(partition, "ready", course.ready(partition, low, high, column), is_crowded)
        self.legend_bar("slot", slots != ready)
        self.legend_bar("ready", bool(ready))
        if not is_crowded:
            self.legend_bar("ran", bool(self.draw_bars(partition, "ran", course.ran(partition, low, high), False)))
        for state in (SUSPENDED, HALTED):
            bars = self.draw_bars(partition, state, course.in_state(partition, state, low, high), is_crowded)
            self.legend_bar(state, bool(bars))
        for kind in MARKS:
            self.draw_marks(partition, kind)
        self.draw_end(partition)

    def draw_end(self, partition: int) -> None:
        """What the END line of a partition says, at the right edge."""
        end = self.course.end_of(partition)
        ran = f"ran {end.executed} ticks"
        if self.course.is_sure:
            ran = f"ran {end.executed} of {self.course.ticks_ready(partition)}\nticks of its slots"
        self.axes.text(1.01, partition, f"ends {end.state}, resets={end.resets}\n{ran}", va="center", fontsize=7,
                       transform=self.axes.get_yaxis_transform())  # fmt: skip

    def draw_lines(self, kind: str, places: list[int]) -> None:
        style, colour, says = LINES[kind]
        if places:
            lines = self.axes.vlines(places, self.rows - 0.5, -0.5, color=colour, linestyle=style, gid=f"lines-{kind}",
                                     linewidth=0.6 if kind == "FRAME" else 1.2, zorder=2)  # fmt: skip
            self.entries.setdefault(says, lines)

    def draw_across(self) -> None:
        """Frames, and what happens to the whole system."""
        self.draw_lines("FRAME", self.course.frame_begins(self.low, self.high, MOST_FRAMES))
        for kind, lines in self.across.items():
            self.draw_lines(kind, [line.tick + 1 for line in lines])
            self.titles[f"lines-{kind}"] = [line.shown() for line in lines]

    def label(self) -> None:
        """The labels above the axes, each with a thin line down to its place."""
        row, across = 1 / (ROW * self.rows), self.axes.get_xaxis_transform()
        heights = {place: 1 + (0.05 + LABEL * level) * row for place, level in self.levels.items()}
        self.axes.vlines(list(heights), 1, [height + 0.1 * row for height in heights.values()], color="#999999",
                         linewidth=0.5, transform=across, clip_on=False, zorder=1, gid="leaders")  # fmt: skip
        for place, height in heights.items():
            self.axes.text(place + 0.03 * self.inch, height, self.labels[place], fontsize=7, ha="left", va="bottom",
                           transform=across, gid=f"label-{place}",
                           bbox={"facecolor": "white", "edgecolor": "none", "pad": 0})  # fmt: skip

    def title(self) -> None:
        """What run it is, which ticks of it are shown, and what a reader has to know."""
        report = self.course.report
        title = f"{self.course.system.name}: {report.ticks} ticks"
        if report.state == HALTED:
            title += ", then the hypervisor halts"
        if (self.low, self.high) != (0, max(1, self.course.end)):
            title += f" (shown: {self.low} to {self.high - 1})"
        notes = [PALE_NOTE, END_NOTE if self.course.is_sure else SILENT, *filter(None, [self.thinning.notes()])]
        height = self.figure.get_figheight()
        self.figure.text(0.01, 1 - 0.1 / height, title, va="top", fontsize=11)
        self.figure.text(0.01, 1 - 0.36 / height, "\n".join(notes), va="top", fontsize=7)

    def legend(self) -> None:
        """What each bar, mark and line that is drawn means."""
        known = [*(row[2] for row in BARS.values()), *(row[3] for row in MARKS.values()), *(row[2] for row in LINES.values())]
        texts = [text for text in known if text in self.entries]
        down = -0.45 / (ROW * self.rows)
        self.axes.legend([self.entries[text] for text in texts], texts, loc="upper left", bbox_to_anchor=(0, down),
                         borderaxespad=0, ncol=3, fontsize=7, frameon=False)  # fmt: skip

    def svg(self) -> bytes:
        for partition in range(self.rows):
            self.draw_row(partition)
        self.draw_across()
        self.label()
        self.legend()
        self.title()
        out = io.BytesIO()
        self.figure.savefig(out, format="svg", metadata={"Date": None, "Creator": "xm picture"})
        return add_titles(out.getvalue(), self.titles)


def set_up() -> None:
    """Settings that make equal pictures of equal runs, whatever the user's own settings are."""
    try:
        import matplotlib  # type: ignore[import]
    except ImportError:
        raise Unusable("there is no matplotlib: Debian's package python3-matplotlib has it") from None
    matplotlib.rcdefaults()
    matplotlib.rcParams.update({"svg.hashsalt": "xm picture", "svg.fonttype": "none", "text.parse_math": False})


def svg_of(course: Course, thinning: Thinning) -> bytes:
    """The picture of the ticks of a run that are shown."""
    set_up()
    return Picture(course, thinning).svg()
