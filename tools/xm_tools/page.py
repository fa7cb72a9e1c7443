"""A page of a run for a browser: bars of slots and states, marks of lines, arrows of messages, and the lines to look through."""

import html
import json
import re
from bisect import bisect_left
from dataclasses import dataclass, field
from pathlib import Path
from string import Template
from typing import Any

from xm_tools.course import HALTED, SILENT, SUSPENDED, Course, Interval
from xm_tools.failure import Unusable
from xm_tools.report import Line
from xm_tools.script import RESETS, Cue, Script

PLOT = re.compile('<div id="([0-9a-f-]{36})"')
# More bars in a row, and more marks of one kind in a row, are thinned to about one in a column.
MOST = 5000
COLUMNS = 2000
TICKS = "ticks since the boot (a tick is a microsecond)"
BARS = {
    "slot": ("its slot", "#cbdeef", 0.8),
    "ran": ("ran in every tick, by its END line", "#4a86b8", 0.4),
    SUSPENDED: ("suspended", "#e69f00", 0.12),
    HALTED: ("halted", "#555555", 0.12),
}
MARKS = {
    "CON": ("console", "line-ns-open", "#000000", -0.3), "TRACE": ("trace", "line-ns-open", "#8a2be2", 0.3),
    "HM": ("health event", "diamond", "#d00000", 0.3), "SUSPEND": ("SUSPEND", "triangle-left", "#b36b00", 0.0),
    "RESUME": ("RESUME", "triangle-right", "#b36b00", 0.0), "HALT": ("HALT", "x", "#000000", 0.0),
    "COLD": ("COLD reset", "triangle-up", "#0072b2", 0.0), "WARM": ("WARM reset", "triangle-up", "#d55e00", 0.0),
    "PLAN": ("another plan", "line-ns-open", "#007a5e", 0.0), "UPSET": ("upset", "star", "#c2185b", 0.0),
}  # fmt: skip


@dataclass(frozen=True)
class Message:
    """A message, a signal or an order that a partition received, and who had the slot in which it was sent."""

    tick: int
    source: int | None
    destination: int
    text: str


def received_in(cue: Cue) -> str:
    """What a partition receives from another one in a tick, in words; nothing where that took a message."""
    words = []
    if cue.traffic and cue.traffic.kind != "take":
        words.append(f"{cue.traffic.kind} {cue.traffic.number} {cue.traffic.message.hex()}".strip())
    if cue.order:
        words.append(f"order {cue.order}" + (f" {cue.status}" if cue.order in RESETS else ""))
    return ", ".join(words)


@dataclass
class Page:
    """What a page shows of a run: some of its ticks, what was left out of them, and the kinds of bars that there are."""

    course: Course
    scripts: list[Script]
    ticks: Interval
    thinned: set[str] = field(default_factory=set)
    kinds: set[str] = field(default_factory=set)
    lines: dict[tuple[int | None, str], list[Line]] = field(default_factory=dict)
    places: dict[int, int] = field(default_factory=dict)

    def __post_init__(self) -> None:
        for line in self.course.report.lines:
            if self.ticks.begin <= line.tick < self.ticks.end:
                self.places[line.number] = len(self.places)
                self.lines.setdefault((line.partition, line.kind), []).append(line)

    @property
    def column(self) -> int:
        return max(1, self.ticks.ticks // COLUMNS)

    @property
    def partitions(self) -> range:
        return range(len(self.course.system.partitions))

    def bars(self, found: list[Interval]) -> list[Interval]:
        """Bars, of which those less than a column apart are one where there are too many."""
        if len(found) <= MOST:
            return found
        self.thinned.add(f"bars less than {self.column} ticks apart are one, none dark")
        kept: list[Interval] = []
        for bar in found:
            if kept and bar.begin - kept[-1].end < self.column:
                kept[-1] = Interval(kept[-1].begin, bar.end)
            else:
                kept.append(bar)
        return kept

    def marks(self, owner: int | None, kind: str) -> list[Line]:
        """The lines of a row and a kind, of which the first in each column is kept where there are too many."""
        found = self.lines.get((owner, kind), [])
        if len(found) <= MOST:
            return found
        self.thinned.add(f"one mark of a kind in {self.column} ticks")
        return list({line.tick // self.column: line for line in reversed(found)}.values())[::-1]

    def row(self, owner: int | None) -> int:
        return 0 if owner is None else owner + 1

    def head(self, message: Message) -> float:
        """Where the head of an arrow is: on the side from which it comes, beside the marks of the row."""
        row = self.row(message.destination)
        return row - 0.2 if self.row(message.source) < row else row + 0.2

    def slots(self, partition: int) -> list[Interval]:
        return list(self.course.slots_of(partition, self.ticks.begin, self.ticks.end))

    def ran(self, partition: int) -> list[Interval]:
        """The bars that are dark; none in a row with too many."""
        found = list(self.course.ran(partition, self.ticks.begin, self.ticks.end))
        return found if len(found) <= MOST else []

    def in_state(self, partition: int, state: str) -> list[Interval]:
        return list(self.course.in_state(partition, state, self.ticks.begin, self.ticks.end))

    def messages(self) -> list[Message]:
        slots = list(self.course.slots(self.ticks.begin, self.ticks.end))
        begins = [slot.begin for _, slot in slots]
        found = []
        for script in self.scripts:
            tick = 0
            for cue in script.cues:
                received = received_in(cue)
                if received and self.ticks.begin <= tick < self.ticks.end:
                    place = bisect_left(begins, tick + 1) - 1
                    source = slots[place][0] if place >= 0 and tick < slots[place][1].end else None
                    found.append(Message(tick, source, script.partition, f"[{tick}] {received}"))
                tick += cue.count
        return sorted(found, key=lambda message: message.tick)


def add_bars(figure: Any, page: Page, kind: str, partition: int, found: list[Interval]) -> None:
    """The bars of a row of one kind. The first row that has some stands for all in the legend."""
    name, colour, height = BARS[kind]
    bars = page.bars(found)
    if not bars:
        return
    is_first = kind not in page.kinds
    page.kinds.add(kind)
    figure.add_bar(
        orientation="h", base=[bar.begin for bar in bars], x=[bar.ticks for bar in bars], y=[page.row(partition)] * len(bars),
        width=height, marker={"color": colour, "line": {"width": 0}}, name=name, legendgroup=kind, showlegend=is_first,
        hovertext=[f"{bar.begin} to {bar.end - 1}" for bar in bars], hoverinfo="text",
    )  # fmt: skip


def add_marks(figure: Any, page: Page, kind: str) -> None:
    name, symbol, colour, place = MARKS[kind]
    lines = [line for owner in (None, *page.partitions) for line in page.marks(owner, kind)]
    if lines:
        figure.add_scatter(
            x=[line.tick + 0.5 for line in lines], y=[page.row(line.partition) + place for line in lines], mode="markers",
            marker={"symbol": symbol, "color": colour, "size": 9, "line": {"color": colour, "width": 1.5}}, name=name,
            text=[html.escape(line.shown()) for line in lines], hoverinfo="text",
            customdata=[page.places[line.number] for line in lines],
        )  # fmt: skip


def add_messages(figure: Any, page: Page) -> None:
    """An arrow from the row whose slot it is to the row that receives it; the head has the message."""
    messages = page.messages()
    if not messages:
        return
    xs: list[float | None] = []
    ys: list[float | None] = []
    for message in messages:
        xs += [message.tick + 0.5, message.tick + 0.5, None]
        ys += [page.row(message.source), page.head(message), None]
    figure.add_scatter(
        x=xs, y=ys, mode="lines", line={"color": "#009e73", "width": 1}, name="message", legendgroup="message",
        hoverinfo="skip", showlegend=False,
    )  # fmt: skip
    downward = [page.row(message.source) < page.row(message.destination) for message in messages]
    figure.add_scatter(
        x=[message.tick + 0.5 for message in messages], y=[page.head(message) for message in messages], mode="markers",
        name="message or order", legendgroup="message", text=[message.text for message in messages], hoverinfo="text",
        marker={"symbol": ["triangle-down" if down else "triangle-up" for down in downward], "color": "#009e73", "size": 9},
    )  # fmt: skip


def figure_of(page: Page) -> Any:
    figure = new_figure()
    for partition in page.partitions:
        add_bars(figure, page, "slot", partition, page.slots(partition))
        add_bars(figure, page, "ran", partition, page.ran(partition))
        for state in (SUSPENDED, HALTED):
            add_bars(figure, page, state, partition, page.in_state(partition, state))
    add_messages(figure, page)
    for kind in MARKS:
        add_marks(figure, page, kind)
    titles = ["XM", *(html.escape(page.course.system.title(partition)) for partition in page.partitions)]
    figure.update_layout(
        barmode="overlay", height=180 + 60 * len(titles), plot_bgcolor="#ffffff", margin={"t": 20}, hovermode="closest",
        xaxis={"title": TICKS, "range": [page.ticks.begin, page.ticks.end], "tickformat": "d", "gridcolor": "#eeeeee"},
        yaxis={"tickvals": list(range(len(titles))), "ticktext": titles, "range": [len(titles) - 0.5, -0.5], "fixedrange": True},
    )  # fmt: skip
    return figure


def end_row(course: Course, partition: int) -> str:
    """How a partition ended, as a row of a table."""
    end = course.end_of(partition)
    slots = str(course.ticks_ready(partition)) if course.is_sure else ""
    cells = [html.escape(course.system.title(partition)), end.state, str(end.resets), str(end.executed), slots]
    marked = [f"<td{' class=number' if number > 1 else ''}>{cell}</td>" for number, cell in enumerate(cells)]
    return f"<tr>{''.join(marked)}</tr>"


def notes_of(page: Page) -> str:
    notes = [
        "A pale bar says whose slot it is, not that the partition ran in all of it; a dark one that it ran in every tick.",
        "Drag to zoom, double-click to see all, click a mark for its line.",
    ]
    if not page.course.is_sure:
        notes.append(f"{SILENT[0].upper()}{SILENT[1:]}.")
    if page.thinned:
        notes.append(f"Thinned: {'; '.join(sorted(page.thinned))}.")
    return html.escape(" ".join(notes))


def embedded(value: Any) -> str:
    """A value as it may stand in a script of a page."""
    return json.dumps(value).replace("<", "\\u003c").replace("\u2028", "\\u2028").replace("\u2029", "\\u2029")


def drawn_as(figure: Any, name: str, has_library: bool = True) -> str:
    """A figure as a part of a page. Its element has a random name, and gets this one, so that equal runs give equal pages."""
    config = {"scrollZoom": True, "displaylogo": False}
    drawn: str = figure.to_html(full_html=False, include_plotlyjs=has_library, config=config)
    random = PLOT.search(drawn)
    return drawn.replace(random[1], name) if random else drawn


def new_figure() -> Any:
    try:
        from plotly.graph_objects import Figure  # type: ignore[import]
    except ImportError:
        raise Unusable("there is no plotly: Debian's package python3-plotly has it") from None
    return Figure()


def text_of(page: Page) -> str:
    """The page as a file."""
    course = page.course
    drawn = drawn_as(figure_of(page), "run")
    lines = [[line.tick, line.shown()] for line in course.report.lines if line.number in page.places]
    template = Template(Path(__file__).with_name("page.html").read_text(encoding="utf-8"))
    return template.substitute(
        title=html.escape(f"{course.system.name}: {course.report.ticks} ticks"), notes=notes_of(page), figure=drawn,
        ends="\n".join(end_row(course, partition) for partition in page.partitions), lines=embedded(lines),
    )  # fmt: skip
