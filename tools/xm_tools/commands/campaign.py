"""usage: xm campaign FILE.toml [--results FILE] [--keep DIR] [--workers NUM | --scheduler ADDRESS] [--scratch DIR]
       xm campaign --report RESULTS PAGE.html
       xm campaign --table RESULTS place|bit|tick|partition
       xm campaign --csv RESULTS
       xm campaign --repeat RESULTS RUN DIR

Does many runs of a system, compares each with what is expected and with the run without upsets, and keeps a row for each in an
SQLite file: FILE.sqlite in the current folder, or that of --results. A run that is there already, by the same program, container,
inputs and expectations, is not repeated. What FILE.toml names lies beside it:

  system = "flight.xml"                        a description as `xm build` has it, or a folder that `xm build` made
  frames = 9                                   how long runs are; or ticks; a list varies it
  plans = ["flight.xml", "other.xml"]          other descriptions of the same partitions, as with another plan
  expect = "flight.expect"                     expectations of each run, as `xm expect` has them
  output = ["voter"]                           whose console is the output; without it that of each partition
  outcomes = ["same", "masked", "wrong"]       which outcomes are distinguished; without it all of them
  failed = ["wrong", "dead"]                   outcomes that are failures; a run that is not met or not done always is one
  keep = ["dead"]                              whose folders are kept; without it of those that failed; "all" or "none"
  others = "cores"                             scripts of other partitions only where core files differ, which takes half of the time;
                                               or false: other partitions are not compared
  beginnings = 0                               how many saved machines runs go on from; without it as many as pay, at most 32
  seed = 7                                     of all that is drawn by chance
  [images]
  payload = ["payload.elf", "other.elf"]       program files of a partition
  [inputs]
  payload = ["low.bin", "high.bin"]            input words of a partition, from files
  [words]
  sensor = { count = 64, sets = 100, to = 4095 }     or generated: sets of words, from `from` to `to`
  [[upsets]]
  partition = "replica1"                       or a list
  places = ["registers", "image", "40180130-4018013f"]   also g1-g7, w0-w127, pc, npc, y, icc, hw, exec, tbr, mask, pending
  bits = [0, 31]                               without it every bit of a place
  ticks = { from = 0, to = 45000, step = 100 } without it every tick; or a list of ticks
  sample = 20000                               so many of these upsets by chance; without it each of them
  [[upsets]]
  file = "struck.upsets"                       one run with these upsets

All that is listed is varied together: there are runs for each choice of each. A run has one upset, and each choice is run
without upsets, too. Workers are processes of this machine, as many as it has processors or --workers says, or those of a Dask
scheduler at an address; workers of other machines need Python and distributed alone. A run's folder is in --scratch, else in
shared memory, and is removed; what is kept of it goes to --keep, else to FILE.runs. The exit status is 1 where a run failed, or
where another partition differs although it received the same.

--report writes a page of the results, --table prints how many runs have each outcome by what their upset has, --csv prints a row
for each run, and --repeat does a run again in the folder DIR, prints its command line and then what the program prints.
"""

import contextlib
import csv
import os
import shlex
import subprocess
import sys
import time
import uuid
from collections.abc import Callable, Iterator
from dataclasses import dataclass
from pathlib import Path

from xm_tools.campaign import MOST_SAVED, Campaign, CampaignFile, read_campaign
from xm_tools.failure import UNMET, UNUSABLE, WELL, Unusable
from xm_tools.files import content_of, make_folder, write, write_over
from xm_tools.outcomes import FAILED, OUTCOMES
from xm_tools.outcomes import UNMET as NOT_MET
from xm_tools.program_file import program_file
from xm_tools.results import COLUMNS, Results, Row, key_of
from xm_tools.running import COMMAND, UPSETS, Case, Common, Done, DoneBatch, Setup, Words, bench_of, digest_of, forget, tools_digest
from xm_tools.upset_sets import text_of
from xm_tools.words import words_of

USAGE = (
    "xm campaign FILE.toml [--results FILE] [--keep DIR] [--workers NUM | --scheduler ADDRESS] [--scratch DIR]"
    " | --report RESULTS PAGE.html | --table RESULTS place|bit|tick|partition | --csv RESULTS | --repeat RESULTS RUN DIR"
)
MOST_WORKERS = 1024
# Folders of more runs are not kept, and no more rows of setups are remembered.
MOST_KEPT, MOST_ROWS = 1000, 1000


@dataclass
class Later:
    """How many runs went on from saved machines, how many ticks these had done, and those of all runs."""

    runs: int = 0
    saved: int = 0
    ticks: int = 0
    why: str = ""

    def add(self, case: Case, done: Done) -> None:
        self.runs += done.begun > 0
        self.saved += done.begun
        self.ticks += case.setup.ticks

    def lines(self) -> Iterator[str]:
        if self.runs:
            yield f"{self.runs} runs went on from saved machines, which had done {100 * self.saved / self.ticks:.0f} % of all ticks"
        if self.why:
            yield f"not all machines were saved that runs could go on from: {self.why}"


class Call:
    """A campaign that is done: its runs that are not there yet, and what becomes of their results."""

    def __init__(self, given: CampaignFile, results: Results, keep: str) -> None:
        self.given, self.results, self.keep = given, results, keep
        self.campaign = Campaign(given)
        self.campaign.build()
        self.total = self.campaign.size()
        self.program = program_file()
        self.program_content = content_of(self.program)
        self.program_digest = digest_of(self.program_content)
        self.rules = self.campaign.rules_digest()
        self.rows: dict[Setup, int] = {}
        self.keys: dict[Setup, str] = {}
        self.there = 0
        self.kept = 0
        self.later = Later()

    def common(self, scratch: str | None) -> Common:
        campaign, given = self.campaign, self.given
        return Common(
            uuid.uuid4().hex, self.program_content, campaign.files, given.expect or "", campaign.expect, campaign.output, given.outcomes,
            given.others, given.keep, scratch, tools_digest(), MOST_SAVED // max(campaign.most_beginnings, 1),
        )  # fmt: skip

    def key(self, setup: Setup) -> str:
        return key_of(setup, self.program_digest, self.rules)

    def missing(self) -> Iterator[Case]:
        """The runs that are not in the results."""
        for setup, cases in self.campaign.cases():
            key = self.key(setup)
            row = self.results.setup_number(key)
            done = self.results.done(row) if row is not None else set()
            for case in cases:
                text = text_of(case.upsets)
                if text in done:
                    self.there += 1
                else:
                    done.add(text)
                    if setup not in self.rows:
                        self.keys[setup] = key
                    yield case

    def planned(self, common: Common) -> Iterator[Case]:
        """These runs, each with the tick of the saved machine from which it may go on. What that costs is measured in this process."""
        return self.campaign.planner(lambda origin, ticks: bench_of(common).least(origin, ticks)).planned(self.missing())

    def save(self, cases: tuple[Case, ...], batch: DoneBatch) -> None:
        results = self.results
        with results.whole():
            for case, done in zip(cases, batch.done):
                run = results.put_run(self.row(case.setup), case.upsets, done.verdict, done.seconds, done.beyond)
                self.later.add(case, done)
                if done.files and self.kept < MOST_KEPT:
                    self.keep_files(run, case, done)
            for setup, report in batch.reports.items():
                results.put_report(self.row(setup), report)
            for (origin, tick), digest in batch.machines.items():
                results.put_machine(self.program_digest, origin, tick, digest)
            self.later.why = self.later.why or batch.why

    def row(self, setup: Setup) -> int:
        """The row of a setup, which is made where there is none."""
        if setup not in self.rows:
            if len(self.rows) >= MOST_ROWS:
                self.rows.clear()
            key = self.keys.pop(setup, "") or self.key(setup)
            self.rows[setup] = self.results.put_setup(key, setup, self.program_digest, self.rules)
        return self.rows[setup]

    def keep_files(self, run: int, case: Case, done: Done) -> None:
        """Keeps the folder of a run, with the command line that repeats it there."""
        self.kept += 1
        folder = str(Path(self.keep) / str(run))
        make_folder(folder)
        for name, content in done.files.items():
            write(str(Path(folder) / name), content)
        words = repeating(self.campaign.files, case.setup, text_of(case.upsets), folder)
        write(str(Path(folder) / COMMAND), f"{shlex.join(['xm_run', *words])}\n".encode())


def repeating(files: dict[str, bytes], setup: Setup, upsets: str, folder: str) -> list[str]:
    """Writes what a run needs into a folder, and gives the words of the program for it there."""
    write(str(Path(folder) / "system.xmp"), files[setup.container])
    words = ["run", "system.xmp", "--ticks", str(setup.ticks)]
    for number, source in setup.inputs:
        name = f"{number}.input"
        write(str(Path(folder) / name), source.content() if isinstance(source, Words) else files[source])
        words += ["--input", f"{number}={name}"]
    if upsets:
        write(str(Path(folder) / UPSETS), upsets.encode())
        words += ["--upset", UPSETS]
    return words


def do_missing(call: Call, workers: int, scheduler: str | None, scratch: str | None) -> tuple[int, int, int]:
    """Does the runs that are not there: how many were done, by how many workers, and how many were lost with theirs."""
    common = call.common(scratch)
    missing = call.planned(common)
    try:
        first = next(missing, None)
        if first is None:
            return 0, 0, 0
        from xm_tools.cluster import Distribution, client_of
        from xm_tools.progress import progress

        done, shown = 0, call.there
        with client_of(workers, scheduler) as client, progress(call.total, call.there) as advance:
            distribution = Distribution(client, common, call.total - call.there)
            for cases, batch in distribution.results(chained(first, missing)):
                call.save(cases, batch)
                done += len(cases)
                advance(done + call.there - shown)
                shown = done + call.there
            distribution.end()
    finally:
        forget(common.name, scratch)
    return done, len(distribution.workers), distribution.lost


def chained(first: Case, others: Iterator[Case]) -> Iterator[Case]:
    yield first
    yield from others


def is_failed(row: Row, failed: tuple[str, ...]) -> bool:
    return row.outcome in failed or row.differing > 0


def failed_of(results: Results) -> tuple[str, ...]:
    return tuple(results.fact("failed").split()) or (NOT_MET, FAILED)


def summary(results: Results) -> Iterator[str]:
    counts = results.counts()
    total = sum(count for count, _ in counts.values())
    for outcome in OUTCOMES:
        if outcome in counts:
            count, detected = counts[outcome]
            events = f", {detected} with a health event" if detected and outcome != "detected" else ""
            yield f"{outcome:10}{count:10}  {100 * count / total:6.2f} %{events}"
    compared, reached, differing = results.others()
    if (compared or reached) and results.is_by_cores():
        yield f"other partitions: {compared} compared, {differing} differ with the same script; {reached} more differ with another script"
    elif compared or reached:
        yield f"other partitions with the same script: {compared} compared, {differing} differ; {reached} had another script"


def do_campaign(path: str, results_path: str, keep: str, workers: int, scheduler: str | None, scratch: str | None) -> int:
    given = read_campaign(path)
    with contextlib.closing(Results(results_path, is_new=True)) as results:
        call = Call(given, results, keep)
        results.begin(given.name, given.text)
        results.put_facts({"failed": " ".join(given.failed), "others": str(given.others)})
        results.put_files(call.campaign.files)
        began = time.monotonic()
        done, took_part, lost = do_missing(call, workers, scheduler, scratch)
        by = f" by {took_part} workers" if took_part > 1 else ""
        print(f"{given.name}: {done} runs in {time.monotonic() - began:.1f} s{by}, and {call.there} were there in {results_path}")
        for line in call.later.lines():
            print(line)
        is_failing = show(call, results)
    if lost:
        raise Unusable(f"{lost} runs were lost with their workers: the same command does them again")
    return UNMET if is_failing else WELL


def show(call: Call, results: Results) -> bool:
    """Prints how the runs ended, and says whether some failed."""
    for line in summary(results):
        print(line)
    wanted = call.given.failed
    failed = list(results.rows(f"outcome IN ({', '.join('?' * len(wanted))}) OR differing > 0", wanted))
    for row in failed[:5]:
        print(f"failed: run {row.run}: {row.outcome}: {row.why or row.upsets.strip()}: xm campaign --repeat {results.path} {row.run} run{row.run}")
    if len(failed) > 5:
        print(f"failed: {len(failed)} runs, the first 5 are shown")
    if call.kept:
        print(f"kept: the folders of {call.kept} runs in {call.keep}")
    return bool(failed)


def repeat(results: Results, run: str, folder: str) -> int:
    if not run.isdigit() or len(run) > 18:
        raise Unusable(f"{run} is no number of a run")
    setup, upsets, program = results.setup_of_run(int(run))
    digests = [setup.container, *(source for _, source in setup.inputs if isinstance(source, str))]
    make_folder(folder)
    words = repeating({digest: results.file(digest) for digest in digests}, setup, upsets, folder)
    path = program_file()
    if digest_of(content_of(path)) != program:
        print(f"xm: the run was of another program, sha256={program}", file=sys.stderr)
    print(f"cd {shlex.quote(folder)} && {shlex.join([path, *words])}", flush=True)
    try:
        status = subprocess.run([path, *words], cwd=folder, stdin=subprocess.DEVNULL, check=False).returncode
    except OSError as error:
        raise Unusable(f"{path}: {error}") from None
    return WELL if status == 0 else UNUSABLE


def page(results: Results, path: str) -> int:
    from xm_tools.campaign_page import page_of

    failed = failed_of(results)
    write_over(path, page_of(results, lambda row: is_failed(row, failed)).encode(), results.path)
    return WELL


def table(results: Results, by: str) -> int:
    """Prints outcomes by place, bit, tick or partition: a row for each, a column for each outcome, numbers to the right."""
    from xm_tools.tallies import BY, Tallies

    if by not in BY:
        raise Unusable(f"{by} is none of {', '.join(BY)}")
    tallies = Tallies(results, lambda row: False)
    rows = [[str(cell) for cell in row] for row in [tallies.heads(by), *tallies.rows(by)]]
    widths = [max(map(len, column)) for column in zip(*rows)]
    for first, *others in rows:
        print("  ".join([first.ljust(widths[0]), *(cell.rjust(width) for cell, width in zip(others, widths[1:]))]))
    return WELL


def csv_rows(results: Results) -> int:
    rows = csv.writer(sys.stdout, lineterminator="\n")
    rows.writerow(COLUMNS)
    rows.writerows([getattr(row, column) for column in COLUMNS] for row in results.rows())
    return WELL


# The forms that read results, with how many words each has.
FORMS: dict[str, tuple[Callable[..., int], int]] = {"--report": (page, 2), "--table": (table, 2), "--csv": (csv_rows, 1), "--repeat": (repeat, 3)}


def run(given: list[str]) -> int:
    words = words_of(USAGE, given, 1, 3, ("--results", "--keep", "--workers", "--scheduler", "--scratch"), tuple(FORMS))
    forms = [FORMS[form] for form in FORMS if words.has(form)]
    if len(forms) > 1 or len(words.plain) != (forms[0][1] if forms else 1) or (forms and len(words.options) > 1):
        raise words.fail()
    path = words.plain[0]
    if forms:
        return forms[0][0](Results(path), *words.plain[1:])
    workers = words.number("--workers")
    if workers is not None and (not 1 <= workers <= MOST_WORKERS or words.has("--scheduler")):
        raise words.fail()
    stem, scratch = Path(path).stem, words.value("--scratch")
    return do_campaign(
        path, words.value("--results") or f"{stem}.sqlite", words.value("--keep") or f"{stem}.runs", workers or os.cpu_count() or 1,
        words.value("--scheduler"), os.path.abspath(scratch) if scratch else None,
    )  # fmt: skip
