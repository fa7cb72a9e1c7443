"""The results of campaigns: one SQLite file with a row for each run, which has all that repeats it but the program."""

import contextlib
import functools
import json
import re
import sqlite3
import time
import zlib
from collections.abc import Iterable, Iterator, Sequence
from dataclasses import dataclass, fields
from pathlib import Path
from typing import Any

from xm_tools.failure import Unusable
from xm_tools.outcomes import FAILED, Verdict
from xm_tools.running import CORES, Setup, Words, digest_of
from xm_tools.upset_sets import Upset, text_of

VERSION = 1
# A table that results of earlier tools have not.
BEGINNINGS = """
CREATE TABLE IF NOT EXISTS beginnings (
    program TEXT NOT NULL, container TEXT NOT NULL, inputs TEXT NOT NULL, tick INTEGER NOT NULL, digest TEXT NOT NULL,
    UNIQUE (program, container, inputs, tick));
"""
TABLES = """
CREATE TABLE facts (name TEXT PRIMARY KEY, value TEXT NOT NULL);
CREATE TABLE files (digest TEXT PRIMARY KEY, content BLOB NOT NULL);
CREATE TABLE setups (
    id INTEGER PRIMARY KEY, key TEXT NOT NULL UNIQUE, program TEXT NOT NULL, container TEXT NOT NULL, ticks INTEGER NOT NULL,
    inputs TEXT NOT NULL, labels TEXT NOT NULL, rules TEXT NOT NULL, report TEXT NOT NULL DEFAULT '', current INTEGER NOT NULL);
CREATE TABLE runs (
    id INTEGER PRIMARY KEY, setup INTEGER NOT NULL REFERENCES setups (id), upsets TEXT NOT NULL, tick INTEGER, partition INTEGER,
    place TEXT, bit INTEGER, outcome TEXT NOT NULL, why TEXT NOT NULL, detected INTEGER NOT NULL, compared INTEGER NOT NULL,
    reached INTEGER NOT NULL, differing INTEGER NOT NULL, seconds REAL NOT NULL, beyond REAL NOT NULL, UNIQUE (setup, upsets));
"""
CURRENT = "FROM runs JOIN setups ON setups.id = setup WHERE current"
ODD = "not what `xm campaign` writes"
MOST_BYTES = 1 << 26
# Between two commits is so many times what the last one took: each waits for the disk.
PAUSE = 20
PLACE = re.compile("[0-9a-f]{8}|[gw][0-9]{1,3}|[a-z]{1,8}")
KINDS: tuple[Any, ...] = (int, str, str, int, str, str, int | None, int | None, str | None, int | None, str, str, str, int, int, int, int, float, float)
COLUMNS = [
    "run", "program", "container", "ticks", "inputs", "varied", "tick", "partition", "place", "bit", "upsets", "outcome", "why", "detected",
    "compared", "reached", "differing", "seconds", "beyond",
]  # fmt: skip


OF_WORDS = tuple(field.name for field in fields(Words))


@dataclass(frozen=True)
class Row:
    """A run in the results. A run of no or of several upsets has no tick, partition, place and bit.

    `seconds` are those of the program, `beyond` those of its worker before and after it.
    """

    run: int
    program: str
    container: str
    ticks: int
    inputs: str
    varied: str
    tick: int | None
    partition: int | None
    place: str | None
    bit: int | None
    upsets: str
    outcome: str
    why: str
    detected: int
    compared: int
    reached: int
    differing: int
    seconds: float
    beyond: float


@functools.lru_cache(maxsize=16)
def inputs_text(setup: Setup) -> str:
    """The inputs by the numbers of their partitions: the digest of a file, and how words are generated, with their digest."""
    found: list[Any] = []
    for number, source in setup.inputs:
        if isinstance(source, str):
            found.append([number, source])
        else:
            found.append([number, {**{name: getattr(source, name) for name in OF_WORDS}, "sha256": digest_of(source.content())}])
    return json.dumps(found)


def key_of(setup: Setup, program: str, rules: str) -> str:
    """What makes a setup the same: the digests of the program and of how runs are judged, and all that goes into it."""
    return json.dumps([program, rules, setup.container, setup.ticks, inputs_text(setup)])


def setup_of(container: str, ticks: int, inputs: str, labels: str) -> Setup:
    found: list[tuple[int, Words | str]] = []
    for number, source in json.loads(inputs):
        if not isinstance(source, str):
            source = Words(**{name: value for name, value in source.items() if name != "sha256"})
        found.append((int(number), source))
    return Setup(container, ticks, tuple(found), tuple((str(name), str(value)) for name, value in json.loads(labels)))


class Results:
    """The file, open. What is none is Unusable, as is what cannot be written."""

    def __init__(self, path: str, is_new: bool = False) -> None:
        self.path = path
        if not is_new and not Path(path).exists():
            raise Unusable(f"{path}: No such file or directory: xm campaign FILE.toml makes it")
        try:
            self.base = sqlite3.connect(path, timeout=30)
            self.next_commit = 0.0
            self.prepare(is_new)
        except (sqlite3.Error, ValueError) as error:
            raise self.fail(error) from None

    def fail(self, error: Exception | str) -> Unusable:
        return Unusable(f"{self.path}: {error}")

    def prepare(self, is_new: bool) -> None:
        tables = {name for name, in self.base.execute("SELECT name FROM sqlite_master WHERE type = 'table'")}
        if not tables and is_new:
            self.base.executescript(TABLES)
            self.put_facts({"version": str(VERSION)})
        elif not {"facts", "files", "setups", "runs"} <= tables or self.fact("version") != str(VERSION):
            raise self.fail(ODD)
        if is_new:
            self.base.executescript(BEGINNINGS)

    def close(self) -> None:
        try:
            self.commit()
            self.base.close()
        except sqlite3.Error as error:
            raise self.fail(error) from None

    def commit(self) -> None:
        """Waits until all that was put is on the disk. The next time to do so follows from how long that takes."""
        began = time.monotonic()
        self.base.commit()
        now = time.monotonic()
        self.next_commit = now + PAUSE * (now - began)

    def all(self, words: str, values: Sequence[Any] = ()) -> list[Any]:
        try:
            return self.base.execute(words, values).fetchall()
        except sqlite3.Error as error:
            raise self.fail(error) from None

    def many(self, words: str, rows: Iterable[Sequence[Any]]) -> None:
        """Changes rows, all of them or none."""
        try:
            with self.base:
                self.base.executemany(words, rows)
        except sqlite3.Error as error:
            raise self.fail(error) from None

    # What is written.

    def put_facts(self, facts: dict[str, str]) -> None:
        self.many("INSERT OR REPLACE INTO facts VALUES (?, ?)", facts.items())

    def fact(self, name: str) -> str:
        found = self.all("SELECT value FROM facts WHERE name = ?", (name,))
        return str(found[0][0]) if found else ""

    def put_files(self, files: dict[str, bytes]) -> None:
        packed = ((digest, zlib.compress(content)) for digest, content in files.items())
        self.many("INSERT OR IGNORE INTO files VALUES (?, ?)", packed)

    def file(self, digest: str) -> bytes:
        found = self.all("SELECT content FROM files WHERE digest = ?", (digest,))
        try:
            content = zlib.decompressobj().decompress(found[0][0], MOST_BYTES)
        except (IndexError, TypeError, zlib.error):
            content = b""
        if digest_of(content) != digest:
            raise self.fail(f"the file {digest} is missing or damaged")
        return content

    def begin(self, name: str, text: str) -> None:
        """Begins a campaign: what is shown of the file are the runs of the setups that it has."""
        self.put_facts({"name": name, "text": text})
        self.many("UPDATE setups SET current = 0", [()])

    def setup_number(self, key: str) -> int | None:
        """The row of a setup, which is one of the campaign from the next change on; None where there is none."""
        found = self.all("SELECT id FROM setups WHERE key = ?", (key,))
        if not found:
            return None
        self.all("UPDATE setups SET current = 1 WHERE id = ?", found[0])
        return int(found[0][0])

    def put_setup(self, key: str, setup: Setup, program: str, rules: str) -> int:
        """The row of a setup, which is made where there is none."""
        row = (key, program, setup.container, setup.ticks, inputs_text(setup), json.dumps(setup.labels), rules, 1)
        names = "key, program, container, ticks, inputs, labels, rules, current"
        made = self.base.execute(f"INSERT OR IGNORE INTO setups ({names}) VALUES (?, ?, ?, ?, ?, ?, ?, ?)", row)
        if made.rowcount == 1:
            return made.lastrowid or 0
        return int(self.base.execute("SELECT id FROM setups WHERE key = ?", (key,)).fetchone()[0])

    def put_report(self, setup: int, report: str) -> None:
        """The digest of the report without upsets, which has to be the one that it was before."""
        self.base.execute("UPDATE setups SET report = ? WHERE id = ? AND report = ''", (report, setup))
        if self.base.execute("SELECT report FROM setups WHERE id = ?", (setup,)).fetchone()[0] != report:
            raise self.fail(f"the run without upsets of setup {setup} has another report than before, by the same program")

    def put_machine(self, program: str, origin: Setup, tick: int, digest: str) -> None:
        """The digest of a saved machine, which has to be the one that it was before."""
        of = (program, origin.container, inputs_text(origin), tick)
        self.base.execute("INSERT OR IGNORE INTO beginnings VALUES (?, ?, ?, ?, ?)", (*of, digest))
        words = "SELECT digest FROM beginnings WHERE program = ? AND container = ? AND inputs = ? AND tick = ?"
        if self.base.execute(words, of).fetchone()[0] != digest:
            raise self.fail(f"the saved machine of tick {tick} is another one than before, by the same program")

    def put_run(self, setup: int, upsets: tuple[Upset, ...], verdict: Verdict, seconds: float, beyond: float) -> int:
        """Puts a run, and gives its number."""
        own = upsets[0] if len(upsets) == 1 else None
        struck = (own.tick, own.partition, own.place, own.bit) if own else (None,) * 4
        counts = (int(verdict.is_detected), verdict.compared, len(verdict.reached), len(verdict.differing))
        row = (setup, text_of(upsets), *struck, verdict.outcome, verdict.why, *counts, seconds, beyond)
        names = "setup, upsets, tick, partition, place, bit, outcome, why, detected, compared, reached, differing, seconds, beyond"
        return self.base.execute(f"INSERT OR REPLACE INTO runs ({names}) VALUES ({', '.join('?' * len(row))})", row).lastrowid or 0

    @contextlib.contextmanager
    def whole(self) -> Iterator[None]:
        """What is put in it is there in whole, or not at all. It is on the disk a short time later, or after `close`."""
        try:
            if not self.base.in_transaction:
                self.base.execute("BEGIN")
            self.base.execute("SAVEPOINT whole")
            try:
                yield
            except BaseException:
                self.base.execute("ROLLBACK TO whole")
                raise
            finally:
                self.base.execute("RELEASE whole")
            if time.monotonic() >= self.next_commit:
                self.commit()
        except sqlite3.Error as error:
            raise self.fail(error) from None

    def done(self, setup: int) -> set[str]:
        """The upsets of the runs of a setup that are there. A run that failed is done again."""
        return {upsets for upsets, in self.all("SELECT upsets FROM runs WHERE setup = ? AND outcome != ?", (setup, FAILED))}

    # What is read.

    def rows(self, condition: str = "1", values: Sequence[Any] = ()) -> Iterator[Row]:
        words = f"""SELECT runs.id, program, container, ticks, inputs, labels, tick, partition, place, bit, upsets, outcome, why, detected,
            compared, reached, differing, seconds, beyond FROM runs JOIN setups ON setups.id = setup WHERE current AND ({condition}) ORDER BY runs.id"""
        try:
            for found in self.base.execute(words, values):
                if not all(isinstance(value, kind) for value, kind in zip(found, KINDS)) or not PLACE.fullmatch(found[8] or "y"):
                    raise self.fail(ODD)
                yield Row(*found)
        except sqlite3.Error as error:
            raise self.fail(error) from None

    def setup_of_run(self, run: int) -> tuple[Setup, str, str]:
        """The setup of a run, its upsets, and the digest of its program."""
        found = self.all(
            "SELECT container, ticks, inputs, labels, upsets, program FROM runs JOIN setups ON setups.id = setup WHERE runs.id = ?", (run,)
        )
        if not found:
            raise self.fail(f"there is no run {run}")
        container, ticks, inputs, labels, upsets, program = found[0]
        try:
            setup = setup_of(container, int(ticks), inputs, labels)
        except (ValueError, TypeError, AttributeError, RecursionError):
            raise self.fail(ODD) from None
        if not all(isinstance(source, str) or source.is_well() for _, source in setup.inputs):
            raise self.fail(ODD)
        return setup, str(upsets), str(program)

    def counts(self) -> dict[str, tuple[int, int]]:
        """How many runs have each outcome, and in how many of these the health monitor had an event."""
        words = f"SELECT outcome, COUNT(*), SUM(detected) {CURRENT} GROUP BY outcome"
        return {str(outcome): (int(count), self.number(detected)) for outcome, count, detected in self.all(words)}

    def number(self, found: Any) -> int:
        """A sum that SQL gives, None standing for that of nothing."""
        if not isinstance(found, int | None):
            raise self.fail(ODD)
        return found or 0

    def is_by_cores(self) -> bool:
        """Whether scripts were compared only where core file or lines differ."""
        return self.fact("others") == CORES

    def others(self) -> tuple[int, int, int]:
        """How many other partitions were compared, how many were reached, and how many differ although their script is the same."""
        found = self.all(f"SELECT SUM(compared), SUM(reached), SUM(differing) {CURRENT}")[0]
        compared, reached, differing = (self.number(count) for count in found)
        return compared, reached, differing
