"""A page of a campaign for a browser: its outcomes in a table, by place, bit and tick, and the runs that failed."""

import html
from collections.abc import Callable, Iterable, Sequence
from pathlib import Path
from string import Template
from typing import Any

from xm_tools.outcomes import OUTCOMES
from xm_tools.page import drawn_as, new_figure
from xm_tools.results import Results, Row
from xm_tools.tallies import BY, MOST_LISTED, Tallies

COLOURS = {
    "same": "#b9d7b4", "masked": "#5aa469", "detected": "#4a86b8", "wrong": "#e69f00", "dead": "#d00000", "met": "#b9d7b4",
    "unmet": "#e69f00", "failed": "#555555",
}  # fmt: skip


def bars(shown: Tallies, by: str) -> Any:
    """Bars of outcomes on each other: a bar for each place, bit, column of ticks or partition."""
    figure, (title, *outcomes), rows = new_figure(), shown.heads(by), shown.rows(by)
    kind = "linear" if by in ("bit", "tick") else "category"
    for place, outcome in enumerate(outcomes, 1):
        figure.add_bar(
            x=[row[0] for row in rows], y=[row[place] for row in rows], name=outcome, hovertext=[OUTCOMES[outcome]] * len(rows),
            marker={"color": COLOURS[outcome], "line": {"width": 0}}, **({"width": shown.column, "offset": 0} if by == "tick" else {}),
        )  # fmt: skip
    figure.update_layout(
        barmode="stack", height=360, plot_bgcolor="#ffffff", margin={"t": 20}, bargap=0.1,
        xaxis={"title": title, "type": kind, "tickformat": "d"} if kind == "linear" else {"title": title, "type": kind},
        yaxis={"title": "runs", "gridcolor": "#eeeeee"},
    )  # fmt: skip
    return figure


def table(heads: Iterable[str], rows: Iterable[Sequence[object]]) -> str:
    """A table, with numbers to the right."""
    lines = [f"<tr>{''.join(f'<th>{html.escape(head)}</th>' for head in heads)}</tr>"]
    for row in rows:
        cells = [f"<td{' class=number' if isinstance(cell, int) else ''}>{html.escape(str(cell))}</td>" for cell in row]
        lines.append(f"<tr>{''.join(cells)}</tr>")
    return "<table>" + "\n".join(lines) + "</table>"


def outcome_table(results: Results) -> str:
    counts = results.counts()
    total = sum(count for count, _ in counts.values())
    rows = [
        (outcome, counts[outcome][0], f"{100 * counts[outcome][0] / total:.2f} %", counts[outcome][1], meaning)
        for outcome, meaning in OUTCOMES.items() if outcome in counts
    ]  # fmt: skip
    return table(["outcome", "runs", "share", "with a health event", "means"], rows)


def by_table(shown: Tallies, by: str) -> str:
    return f"<details><summary>as a table</summary>\n{table(shown.heads(by), shown.rows(by))}</details>"


def choice_table(shown: Tallies) -> str:
    """The outcomes of each choice of what was varied."""
    keys = shown.by_choice.keys()
    if not keys:
        return ""
    outcomes = shown.by_choice.outcomes()
    rows = [(*key, *(shown.by_choice.counts[key][outcome] for outcome in outcomes)) for key in keys[:MOST_LISTED]]
    more = f"<p>The first {MOST_LISTED} of {len(keys)}.</p>" if len(keys) > MOST_LISTED else ""
    return "<h2>By what was varied</h2>\n" + table(["varied", "choice", *outcomes], rows) + more


def others_line(results: Results) -> str:
    compared, reached, differing = results.others()
    if results.is_by_cores():
        return (
            f"Other partitions, by core file and lines: {compared} compared, {differing} differ with the same script as without the "
            f"upset. {reached} more differ and had another script."
        )
    return (
        f"Other partitions with the same script as without the upset: {compared} compared, {differing} differ in core file or lines. "
        f"{reached} had another script, so they are not compared."
    )


def failed_table(shown: Tallies) -> str:
    if not shown.failed_count:
        return "<p>none</p>"
    path = shown.results.path
    rows = [
        (row.run, row.outcome, row.upsets.strip().replace("\n", "; "), row.varied, row.why, f"xm campaign --repeat {path} {row.run} run{row.run}")
        for row in shown.failed
    ]  # fmt: skip
    more = f"<p>The first {MOST_LISTED} of {shown.failed_count}.</p>" if shown.failed_count > MOST_LISTED else ""
    return table(["run", "outcome", "upsets", "varied", "why", "to repeat it"], rows) + more


def page_of(results: Results, is_failed: Callable[[Row], bool]) -> str:
    """The page as a file."""
    shown = Tallies(results, is_failed)
    figures: list[str] = []
    for by in BY if shown.by["tick"].counts else ():
        figures.append(f"<h2>By {by}</h2>\n{drawn_as(bars(shown, by), f'by_{by}', not figures)}\n{by_table(shown, by)}")
    first = next(results.rows(), None)
    digests = f"program sha256={first.program}, container sha256={first.container}" if first else "no runs"
    total = sum(count for count, _ in results.counts().values())
    template = Template(Path(__file__).with_name("campaign.html").read_text(encoding="utf-8"))
    return template.substitute(
        title=html.escape(f"{results.fact('name')}: {total} runs"), digests=html.escape(digests), outcomes=outcome_table(results),
        others=html.escape(others_line(results)), figures="\n".join(figures), choices=choice_table(shown), failed=failed_table(shown),
        text=html.escape(results.fact("text")),
    )  # fmt: skip
