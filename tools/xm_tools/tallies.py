"""How many runs of a campaign have each outcome, by place, bit, tick and partition, and by what was varied."""

import json
from collections import Counter
from collections.abc import Callable
from dataclasses import dataclass, field
from typing import Any

from xm_tools.outcomes import OUTCOMES
from xm_tools.results import Results, Row

# More ticks are put together in about so many columns, and bytes in rows of so many.
COLUMNS, ROW = 100, 16
# What runs are counted by, and how it is called where it is shown.
BY = {
    "place": "place (bytes in rows of {row})", "bit": "bit", "tick": "tick before which the bit flips (columns of {column})",
    "partition": "partition",
}  # fmt: skip
# More runs that failed are not listed.
MOST_LISTED = 200


@dataclass
class Tally:
    """How many runs have each outcome, by what stands on an axis."""

    counts: dict[Any, Counter[str]] = field(default_factory=dict)

    def add(self, key: Any, outcome: str) -> None:
        self.counts.setdefault(key, Counter())[outcome] += 1

    def keys(self) -> list[Any]:
        return sorted(self.counts)

    def outcomes(self) -> list[str]:
        """The outcomes that some run has."""
        return [outcome for outcome in OUTCOMES if any(count[outcome] for count in self.counts.values())]


def place_key(row: Row) -> tuple[int, int, str, int]:
    """Where a place stands among the places: registers before bytes, by partition; bytes are put together in rows."""
    place = row.place or ""
    if len(place) == 8:
        return row.partition or 0, 1, "", int(place, 16) // ROW * ROW
    letter = place.rstrip("0123456789")
    return row.partition or 0, 0, letter, int(place[len(letter) :] or 0)


def place_name(key: tuple[int, int, str, int]) -> str:
    partition, is_byte, letter, number = key
    name = f"{number:08x}" if is_byte else f"{letter}{number}" if letter in ("g", "w") else letter
    return f"P{partition} {name}"


def choices_of(row: Row) -> list[tuple[str, str]]:
    """What was varied in a run, and how."""
    try:
        return [(str(name), str(choice)) for name, choice in json.loads(row.varied)]
    except (ValueError, TypeError, RecursionError):
        return []


class Tallies:
    """What was counted of the runs of a campaign. Those with one upset are counted by what it has."""

    def __init__(self, results: Results, is_failed: Callable[[Row], bool]) -> None:
        self.results = results
        self.by = {name: Tally() for name in BY}
        self.by_choice = Tally()
        self.failed: list[Row] = []
        self.failed_count = 0
        last = max((row.tick for row in results.rows("tick IS NOT NULL") if row.tick is not None), default=0)
        self.column = max(1, -(-(last + 1) // COLUMNS))
        for row in results.rows():
            self.take(row, is_failed(row))

    def take(self, row: Row, is_failed: bool) -> None:
        if row.tick is not None:
            self.by["place"].add(place_key(row), row.outcome)
            self.by["bit"].add(row.bit, row.outcome)
            self.by["tick"].add(row.tick // self.column * self.column, row.outcome)
            self.by["partition"].add(row.partition, row.outcome)
        for name, choice in choices_of(row):
            self.by_choice.add((name, choice), row.outcome)
        if is_failed:
            self.failed_count += 1
            if len(self.failed) < MOST_LISTED:
                self.failed.append(row)

    def heads(self, by: str) -> list[str]:
        """What a table by one of these has in its first row."""
        return [BY[by].format(row=ROW, column=self.column), *self.by[by].outcomes()]

    def names(self, by: str) -> list[Any]:
        """What stands on an axis, as it is shown."""
        keys = self.by[by].keys()
        return [place_name(key) for key in keys] if by == "place" else [f"P{key}" for key in keys] if by == "partition" else keys

    def rows(self, by: str) -> list[list[Any]]:
        """A row for each place, bit, column of ticks or partition: what it is, and how many runs have each outcome."""
        tally = self.by[by]
        outcomes = tally.outcomes()
        return [[name, *(tally.counts[key][outcome] for outcome in outcomes)] for name, key in zip(self.names(by), tally.keys())]
