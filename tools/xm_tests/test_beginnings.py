"""Runs of a campaign that go on from saved machines: each has the row that it has from the boot.

Campaigns are of the stand-in of test_campaign, which saves and goes on, too; one is of the program, where XM_RUN names it.
"""

import contextlib
import dataclasses
import sqlite3
from collections import Counter
from collections.abc import Iterator
from pathlib import Path

import pytest
from test_campaign import TICKS, TRUTH, FakeClient, Future, Lost, calls, campaign, here, rows, set_up, text_for

from conftest import SYSTEMS, xm
from xm_tools.beginnings import BOOT, Beginning, lines_of, whole_report
from xm_tools.campaign import Campaign, read_campaign
from xm_tools.failure import Unusable
from xm_tools.planning import MOST_ORIGINS, Planner
from xm_tools.running import BENCHES, Bench, Case, Common, Setup, begin, bench_of, digest_of, do_batch, forget, tools_digest
from xm_tools.upset_sets import Upset

STRUCK = [100, 1000, 2000, 3000, 3400]
# Machines are saved at multiples of 500 ticks.
LATER = "beginnings = 7"
EACH = ["run", "seconds", "beyond"]
OTHERS = ("others = false", 'others = "cores"')


def text_of(more: str, places: list[str] = [*TRUTH]) -> str:
    return text_for(places, more).replace("[100]", str(STRUCK))


def found(folder: Path, results: str = "c.sqlite") -> list[list[tuple[str, str]]]:
    """The rows but for their order and times."""
    return sorted([pair for pair in row.items() if pair[0] not in EACH] for row in rows(folder, results))


def saved(folder: Path, results: str = "c.sqlite") -> list[int]:
    """The ticks of the saved machines in the results."""
    with contextlib.closing(sqlite3.connect(folder / results)) as base:
        return [tick for tick, in base.execute("SELECT tick FROM beginnings ORDER BY tick")]


def begun(folder: Path) -> Counter[str]:
    """How many runs of the stand-in went on from each tick."""
    return Counter(line.rpartition("from ")[2] for line in calls(folder) if "from " in line and "save" not in line)


def kept_of(folder: Path, results: str, keep: str) -> dict[str, dict[str, bytes]]:
    """The folders that were kept, by the upsets of their runs."""
    folders = {row["upsets"]: folder / keep / row["run"] for row in rows(folder, results)}
    return {upsets: {path.name: path.read_bytes() for path in own.iterdir()} for upsets, own in folders.items()}


# Reports and plans.

WHOLE = b"SYSTEM parts=1 plans=1 ticks=9\n[1] P0 CON a\\n\n[5] P0 CON END b\\n\nEND P0 idle resets=0 exec=1 pc=40100000\nEND XM running\n"


def test_the_report_of_a_run_that_went_on() -> None:
    first = WHOLE.replace(b"[5] P0 CON END b\\n\n", b"").replace(b"ticks=9", b"ticks=4")
    rest = WHOLE.replace(b"[1] P0 CON a\\n\n", b"")
    assert lines_of(first) == b"[1] P0 CON a\\n\n" and lines_of(WHOLE) == b"[1] P0 CON a\\n\n[5] P0 CON END b\\n\n"
    assert whole_report(Beginning(4, b"", "", lines_of(first)), rest) == WHOLE
    nothing = WHOLE[: WHOLE.index(b"[1]")] + WHOLE[WHOLE.index(b"END P0") :]
    assert lines_of(nothing) == b"" and whole_report(Beginning(4, b"", "", WHOLE[31:63]), nothing)[31:63] == WHOLE[31:63]
    for damaged in (b"", b"SYSTEM\n", b"END XM\n", WHOLE[:40]):
        with pytest.raises(Unusable):
            lines_of(damaged)


def cases(ticks: list[int], setup: Setup = Setup("box", 1000)) -> list[Case]:
    return [Case(setup, (Upset(tick, 0, "g1", 0),), True) for tick in ticks]


def begins(planner: Planner, given: list[Case]) -> list[int]:
    planned = list(planner.planned(given))
    assert [dataclasses.replace(case, begins=0) for case in planned] == given
    return [case.begins for case in planned]


def planner_of(most: int = 9, least: int = 0, scripted: int = 0) -> Planner:
    return Planner({"box": 1000}, most, lambda origin, ticks: least, scripted)


def test_a_saved_machine_serves_some_runs() -> None:
    """Each begins at the last one before its upset; one that would serve three runs or fewer is not made."""
    ticks = [0, 99, 100, 100, 199, 250, 501, 600, 601, 602, 999]
    assert begins(planner_of(), cases(ticks)) == [0, 0, 100, 100, 100, 200, 500, 600, 600, 600, 600]
    assert begins(planner_of(), cases(ticks[:-8])) == [0, 0, 0]
    assert begins(planner_of(0), cases(ticks)) == [0] * 11
    assert begins(planner_of(9, 500), cases(ticks)) == [0] * 6 + [500, 600, 600, 600, 600]
    assert begins(planner_of(1), cases(ticks)) == [0] * 6 + [500] * 5


def test_a_saved_machine_that_is_there_serves_later_runs() -> None:
    planner = planner_of()
    assert begins(planner, cases([300] * 4)) == [300] * 4
    assert begins(planner, cases([350, 450, 250])) == [300, 300, 0]
    other = Setup("box", 1000, ((0, "x"),))
    assert begins(planner, cases([450], other)) == [0] and begins(planner, cases([450])) == [300]
    for number in range(MOST_ORIGINS):
        assert begins(planner, cases([300] * 4, Setup("box", 1000, ((0, f"{number}"),)))) == [300] * 4
    assert begins(planner, cases([350])) == [0] and len(planner.made) == MOST_ORIGINS


def test_runs_of_other_lengths_share_a_beginning() -> None:
    """It is before the end of each: the machines of a container are saved by its longest run."""
    given = [Case(Setup("box", ticks), (), False) for ticks in (100, 101, 500, 900, 1000)]
    assert begins(planner_of(), given) == [0, 100, 100, 100, 100]
    mixed = [*cases([450, 460], Setup("box", 500)), *cases([450, 460], Setup("box", 1000))]
    assert begins(planner_of(), mixed) == [400] * 4


def test_a_run_with_scripts_begins_at_the_boot() -> None:
    """And so does the run without upsets with which others are compared. Where all partitions are struck there is no script."""
    both = [Case(Setup("box", 1000), (Upset(400, 0, "g1", 0), Upset(500, 1, "g1", 0)), True)] * 4
    given = [*cases([400] * 4), *both, *[Case(Setup("box", 1000), (), True)] * 4]
    assert begins(planner_of(scripted=2), given) == [0] * 4 + [400] * 4 + [0] * 4
    assert begins(planner_of(), given) == [400] * 8 + [0] * 4


def test_it_is_measured_once_for_each_container() -> None:
    """And only where enough runs share a beginning."""
    asked: list[tuple[Setup, int]] = []

    def least(origin: Setup, ticks: int) -> int:
        asked.append((origin, ticks))
        return 0

    planner = Planner({"box": 1000, "other": 50}, 9, least, 0)
    list(planner.planned([*cases([400] * 3), *cases([1], Setup("other", 50))]))
    assert asked == []
    list(planner.planned([*cases([400] * 4), *cases([500] * 4), *cases([400] * 4, Setup("box", 1000, ((0, "x"),)))]))
    assert asked == [(Setup("box", 0), 1000)]


# Campaigns with beginnings and without.


@pytest.mark.parametrize("others", OTHERS)
def test_rows_do_not_depend_on_beginnings(tmp_path: Path, monkeypatch: pytest.MonkeyPatch, others: str) -> None:
    set_up(tmp_path, text_of(f"{others}\nbeginnings = 0"))
    statuses = [here(tmp_path, monkeypatch, "--results", "boot.sqlite")[0]]
    before = len(calls(tmp_path))
    assert begun(tmp_path) == {} and saved(tmp_path, "boot.sqlite") == []
    set_up(tmp_path, text_of(f"{others}\n{LATER}"))
    statuses.append(here(tmp_path, monkeypatch)[0])
    assert found(tmp_path) == found(tmp_path, "boot.sqlite") and len(found(tmp_path)) == 41 and statuses == [1, 1]
    assert begun(tmp_path) == {"1000": 8, "2000": 8, "3000": 16} and saved(tmp_path) == [1000, 2000, 3000]
    assert [line for line in calls(tmp_path)[before:] if "save" in line] == ["save 1000", "from 1000 save 2000", "from 2000 save 3000"]
    assert {dict(row)["outcome"] for row in found(tmp_path)} == {*TRUTH.values(), "met"}


def test_rows_by_core_files_are_those_by_scripts(tmp_path: Path, monkeypatch: pytest.MonkeyPatch) -> None:
    """Where no partition is reached that is the same; the scripts of those that differ are of runs from the boot."""
    set_up(tmp_path, text_of("others = true"))
    assert here(tmp_path, monkeypatch, "--results", "scripts.sqlite")[0] == 1
    assert begun(tmp_path) == {}
    before = len(calls(tmp_path))
    set_up(tmp_path, text_of(f'others = "cores"\n{LATER}'))
    assert here(tmp_path, monkeypatch)[0] == 1
    assert found(tmp_path) == found(tmp_path, "scripts.sqlite")
    again = Counter(line for line in calls(tmp_path)[before:] if " from " not in line and "save" not in line)
    assert {line.split()[2] for line, count in again.items() if line[:4] != "100 " and line} == {"g6", "g7", "w0"}


def test_a_partition_with_another_script_that_is_the_same_at_the_end(tmp_path: Path, monkeypatch: pytest.MonkeyPatch) -> None:
    """By scripts it is not compared, and by core files it is; it differs by neither."""
    set_up(tmp_path, text_of("others = true", ["g1", "w0"]))
    program = (tmp_path / "program").read_text()
    text = program.replace("w0) core=$other script=$other second='P1 CON other\\n' ;;", "w0) script=$other ;;")
    assert text != program
    counts = []
    for others in ("true", '"cores"'):
        set_up(tmp_path, text_of(f"others = {others}\n{LATER}", ["g1", "w0"]))
        (tmp_path / "program").write_text(text)
        assert here(tmp_path, monkeypatch, "--results", f"{len(counts)}.sqlite")[0] == 0
        own = [dict(row) for row in found(tmp_path, f"{len(counts)}.sqlite") if dict(row)["place"]]
        counts.append({row["place"]: (row["compared"], row["reached"], row["differing"]) for row in own})
    assert counts == [{"g1": ("1", "0", "0"), "w0": ("0", "1", "0")}, {"g1": ("1", "0", "0"), "w0": ("1", "0", "0")}]


def test_what_a_campaign_says_of_beginnings(tmp_path: Path, monkeypatch: pytest.MonkeyPatch, capsys: pytest.CaptureFixture[str]) -> None:
    set_up(tmp_path, text_of(f'others = "cores"\n{LATER}', ["g1", "g6"]))
    assert here(tmp_path, monkeypatch)[0] == 1
    lines = capsys.readouterr().out.splitlines()
    assert lines[1] == "4 runs went on from saved machines, which had done 20 % of all ticks"
    assert lines[5] == "other partitions: 10 compared, 5 differ with the same script; 0 more differ with another script"
    pytest.importorskip("plotly")
    assert xm(tmp_path, "campaign", "--report", "c.sqlite", "p.html").err == ""
    assert "by core file and lines: 10 compared, 5 differ with the same script" in (tmp_path / "p.html").read_text()


def test_what_is_kept_is_that_of_the_whole_run(tmp_path: Path, monkeypatch: pytest.MonkeyPatch) -> None:
    """Its report from the boot on, and the command line, which needs no saved machine."""
    kept = []
    for more in ("beginnings = 0", LATER):
        set_up(tmp_path, text_of(f'others = "cores"\nkeep = "all"\n{more}', ["g1", "g3", "g6"]))
        assert here(tmp_path, monkeypatch, "--results", f"{len(kept)}.sqlite", "--keep", f"kept{len(kept)}")[0] == 1
        kept.append(kept_of(tmp_path, f"{len(kept)}.sqlite", f"kept{len(kept)}"))
    assert kept[0] == kept[1] and len(kept[0]) == 16
    own = kept[1]["3000 0 g3 3\n"]
    assert own["uart0.out"] == b"start\\none\\n" and own["uart1.out"] == b"two\\n"
    assert own["command.txt"].decode() == f"xm_run run system.xmp --ticks {TICKS} --upset run.upsets\n" and b"[10] P0 CON start" in own["report.txt"]
    assert begun(tmp_path)["3000"] == 6


def test_runs_of_several_lengths(tmp_path: Path, monkeypatch: pytest.MonkeyPatch) -> None:
    """Without upsets, with the same inputs; each set of inputs has machines of its own."""
    text = 'system = "built"\nticks = [3800, 3900, 4000, 4100, 4200]\nexpect = "e.txt"\nBEGINNINGS\n[words]\nFIRST = { count = 4, sets = 3 }\n'
    (tmp_path / "e.txt").write_text('P0 CON "start*"\nP0 CON "one*"\n')
    for more, name in (("beginnings = 0", "boot.sqlite"), ("beginnings = 5", "c.sqlite")):
        set_up(tmp_path, text.replace("BEGINNINGS", more))
        assert here(tmp_path, monkeypatch, "--results", name)[0] == 0
    assert found(tmp_path) == found(tmp_path, "boot.sqlite") and len(found(tmp_path)) == 15
    assert begun(tmp_path) == {"3500": 15} and saved(tmp_path) == [3500] * 3


def test_results_of_tools_without_beginnings(tmp_path: Path, monkeypatch: pytest.MonkeyPatch, capsys: pytest.CaptureFixture[str]) -> None:
    """Such a file has no table of them, and its runs are not repeated."""
    set_up(tmp_path, text_of("others = false\nbeginnings = 0", ["g1"]))
    assert here(tmp_path, monkeypatch)[0] == 0
    with contextlib.closing(sqlite3.connect(tmp_path / "c.sqlite")) as base:
        base.execute("DROP TABLE beginnings")
        base.execute("DELETE FROM facts WHERE name = 'others'").connection.commit()
    assert len(rows(tmp_path)) == 6
    set_up(tmp_path, text_of(f"others = false\n{LATER}", ["g1", "g2"]))
    assert here(tmp_path, monkeypatch)[0] == 0
    assert ", and 6 were there in c.sqlite\n" in capsys.readouterr().out
    assert saved(tmp_path) == [1000] and begun(tmp_path) == {"1000": 4}


def test_how_runs_are_judged_has_the_digest_of_before(tmp_path: Path) -> None:
    """Where other partitions are compared as before; another one where they are by core files."""
    digests = []
    for more in ("", "others = true", LATER, "others = false", 'others = "cores"'):
        digests.append(Campaign(read_campaign(str(set_up(tmp_path, text_for(["g1"], more)) / "c.toml"))).rules_digest())
    rules = b'[1, "", null, ["dead", "detected", "masked", "same", "wrong"], true]'
    assert digests[:3] == [digest_of(rules)] * 3 and len(set(digests)) == 3


@pytest.mark.parametrize("mark, why", [("refuses", "xm_run: usage"), ("saves_none", "the program saves no machine")])
def test_a_program_that_saves_nothing(
    tmp_path: Path, monkeypatch: pytest.MonkeyPatch, capsys: pytest.CaptureFixture[str], mark: str, why: str
) -> None:
    """Its runs begin at the boot, and the command says so."""
    set_up(tmp_path, text_of(f"others = false\n{LATER}", ["g1", "g2"]))
    (tmp_path / "marks" / mark).touch()
    assert here(tmp_path, monkeypatch)[0] == 0
    assert capsys.readouterr().out.splitlines()[1] == f"not all machines were saved that runs could go on from: {why}"
    assert begun(tmp_path) == {} and saved(tmp_path) == [] and len(rows(tmp_path)) == 11


def test_machines_that_are_too_long(tmp_path: Path, monkeypatch: pytest.MonkeyPatch, capsys: pytest.CaptureFixture[str]) -> None:
    """Together they have a number of bytes, of which each has its share."""
    set_up(tmp_path, text_of(f"others = false\n{LATER}", ["g1", "g2"]))
    monkeypatch.setattr("xm_tools.commands.campaign.MOST_SAVED", 7 * 20)
    assert here(tmp_path, monkeypatch)[0] == 0
    assert "what was printed before it have " in capsys.readouterr().out and begun(tmp_path) == {} and len(rows(tmp_path)) == 11


@pytest.mark.parametrize("mark, reason", [("damages", "magic"), ("other", "container stored=1 found=2")])
def test_a_saved_machine_that_the_program_refuses(
    tmp_path: Path, monkeypatch: pytest.MonkeyPatch, capsys: pytest.CaptureFixture[str], mark: str, reason: str
) -> None:
    """It ends the campaign, and is no outcome of a run: no row has it."""
    set_up(tmp_path, text_of(f"others = false\n{LATER}", ["g1", "g2"]))
    (tmp_path / "marks" / mark).touch()
    assert here(tmp_path, monkeypatch)[0] == 2
    shown = capsys.readouterr()
    assert shown.err == f"xm: the saved machine of tick 1000 is refused: {reason}\n"
    assert {row["outcome"] for row in rows(tmp_path)} <= {"same", "masked", "met"}


@pytest.fixture
def bench(tmp_path: Path) -> Iterator[tuple[Bench, Common, Setup]]:
    """A worker's folder with the stand-in."""
    folder = set_up(tmp_path, text_for(["g1"]))
    box = (folder / "built/system.xmp").read_bytes()
    common = Common("x", (folder / "program").read_bytes(), {digest_of(box): box}, others=False, tools=tools_digest(), most_saved=1000)
    yield bench_of(common), common, Setup(digest_of(box), TICKS)
    forget("x", None)
    assert not [key for key in BENCHES if key[1] == "x"]


def test_a_saved_machine_that_is_damaged_on_its_way(bench: tuple[Bench, Common, Setup]) -> None:
    """By its digest, whatever the program says."""
    _, common, setup = bench
    origin = Setup(setup.container, 0)
    one = begin(common, origin, 1000, BOOT)
    case = Case(setup, (Upset(1500, 0, "g2", 3),), True, 1000)
    assert do_batch(common, (case,), ((origin, 1000),), one).machines == {(origin, 1000): digest_of(one.machine)}
    assert do_batch(common, (case,), ((origin, 1000),), one).done[0].verdict.outcome == "masked"
    forget("x", None)
    for damaged in (one.machine + b" ", b"", one.machine.replace(b"1000", b"1001")):
        with pytest.raises(Unusable, match="the saved machine of tick 1000 is damaged"):
            do_batch(common, (case,), ((origin, 1000),), dataclasses.replace(one, machine=damaged))
    with pytest.raises(Unusable, match="other tools"):
        begin(dataclasses.replace(common, tools="0" * 64), origin, 1000, BOOT)


def test_a_run_that_fails_from_a_saved_machine_alone(tmp_path: Path, monkeypatch: pytest.MonkeyPatch) -> None:
    """It is done again from the boot."""
    set_up(tmp_path, text_of(f"others = false\n{LATER}", ["g1", "g2"]))
    (tmp_path / "marks/fails").touch()
    assert here(tmp_path, monkeypatch)[0] == 0
    assert {row["outcome"] for row in rows(tmp_path)} == {"met", "same", "masked"} and len(rows(tmp_path)) == 11


def test_a_run_that_does_not_go_on_as_from_the_boot(tmp_path: Path, monkeypatch: pytest.MonkeyPatch, capsys: pytest.CaptureFixture[str]) -> None:
    """It is seen where the run is done again for its scripts, and ends the campaign."""
    set_up(tmp_path, text_of(f'others = "cores"\n{LATER}', ["g1", "g6"]))
    (tmp_path / "marks/odd").touch()
    assert here(tmp_path, monkeypatch)[0] == 2
    assert capsys.readouterr().err == "xm: a run from tick 1000 on is not the one from the boot: 1000 0 g6 3\n"


def test_another_machine_than_before(tmp_path: Path, monkeypatch: pytest.MonkeyPatch, capsys: pytest.CaptureFixture[str]) -> None:
    set_up(tmp_path, text_of(f"others = false\n{LATER}", ["g1", "g2"]))
    assert here(tmp_path, monkeypatch)[0] == 0
    with contextlib.closing(sqlite3.connect(tmp_path / "c.sqlite")) as base:
        base.execute("UPDATE beginnings SET digest = 'another'").connection.commit()
    set_up(tmp_path, text_of(f"others = false\n{LATER}", ["g1", "g2", "w5", "w6"]))
    assert here(tmp_path, monkeypatch)[0] == 2
    assert "the saved machine of tick 1000 is another one than before, by the same program" in capsys.readouterr().err


def test_saved_machines_whose_workers_are_lost(tmp_path: Path, monkeypatch: pytest.MonkeyPatch) -> None:
    """Runs that wait for one begin at the boot then, and all are done."""
    set_up(tmp_path, text_of(f"others = false\n{LATER}", ["g1", "g2"]))
    submit = FakeClient.submit

    def without(self: FakeClient, task: object, *given: object, key: str, pure: bool) -> Future:
        if task is begin or any(isinstance(one, Future) and one.status == "error" for one in given):
            return Future(key, "error", Lost())
        return submit(self, task, *given, key=key, pure=pure)  # type: ignore[arg-type]

    monkeypatch.setattr(FakeClient, "submit", without)
    assert here(tmp_path, monkeypatch)[0] == 0
    assert begun(tmp_path) == {} and len(rows(tmp_path)) == 11


# What it costs to go on.


def test_where_it_pays_to_go_on(bench: tuple[Bench, Common, Setup], monkeypatch: pytest.MonkeyPatch) -> None:
    """By runs whose times are known: ticks of some microseconds each, and 10 ms to read a saved machine."""
    own, _, setup = bench
    per_tick = 0.0

    def cost(self: Bench, run: Setup, one: Beginning) -> float:
        return 0.1 + per_tick * (run.ticks - one.tick) + (0.01 if one.tick else 0.0)

    monkeypatch.setattr(Bench, "cost", cost)
    origin = Setup(setup.container, 0)
    for per_tick, wanted in ((1e-5, 1420), (1e-3, 133), (1e-6, 13120), (0.0, TICKS + 1)):
        assert own.least(origin, TICKS) == wanted
    monkeypatch.setattr(Bench, "begin", lambda self, origin, tick, before: dataclasses.replace(before, why="no"))
    per_tick = 1e-3
    assert own.least(origin, TICKS) == TICKS + 1


def test_the_cost_of_a_run_is_measured(bench: tuple[Bench, Common, Setup]) -> None:
    own, common, setup = bench
    assert 0 < own.cost(setup, BOOT) < 60
    assert 0 < own.cost(setup, begin(common, Setup(setup.container, 0), 1000, BOOT)) < 60


def test_runs_begin_later_where_it_pays(tmp_path: Path, monkeypatch: pytest.MonkeyPatch) -> None:
    """Without a number in the file it is measured; machines are saved at multiples of 122 ticks then."""
    for least, wanted in ((0, [976, 1952, 2928, 3294]), (2500, [2928, 3294]), (TICKS + 1, [])):
        monkeypatch.setattr(Bench, "least", lambda self, origin, ticks: least)
        set_up(tmp_path, text_of("others = false", ["g1-g2", "w4-w5"]))
        assert here(tmp_path, monkeypatch, "--results", f"{least}.sqlite")[0] == 0
        assert saved(tmp_path, f"{least}.sqlite") == wanted


# Two workers.


def test_two_workers_with_beginnings(tmp_path: Path) -> None:
    """A worker that is killed while it saves a machine loses nothing."""
    pytest.importorskip("distributed")
    set_up(tmp_path, text_of('others = "cores"\nbeginnings = 0'))
    assert campaign(tmp_path, "--results", "boot.sqlite").status == 1
    set_up(tmp_path, text_of(f'others = "cores"\n{LATER}'))
    (tmp_path / "marks/kills").touch()
    done = campaign(tmp_path)
    assert (done.status, done.err) == (1, "") and "runs went on from saved machines" in done.out
    assert found(tmp_path) == found(tmp_path, "boot.sqlite") and not (tmp_path / "marks/kills").exists()
    assert saved(tmp_path) == [1000, 2000, 3000]


def test_a_refused_machine_of_two_workers(tmp_path: Path) -> None:
    pytest.importorskip("distributed")
    set_up(tmp_path, text_of(f"others = false\n{LATER}", ["g1", "g2"]))
    (tmp_path / "marks/other").touch()
    done = campaign(tmp_path)
    assert (done.status, done.err) == (2, "xm: the saved machine of tick 1000 is refused: container stored=1 found=2\n")


def test_upsets_of_the_voter_by_the_program(tmp_path: Path, whole_program: str) -> None:
    """Of the replicas, in the first five frames; rows and folders are those of runs from the boot."""
    pytest.importorskip("distributed")
    text = f"""system = "{SYSTEMS}/upsets/upsets.xml"
output = ["voter"]
others = "cores"
keep = "all"
seed = 1
beginnings = NUMBER
[[upsets]]
partition = ["replica1", "replica2", "replica3"]
places = ["registers", "image"]
ticks = {{ from = 0, to = 25000 }}
sample = 120
"""
    for number, name in ((0, "boot.sqlite"), (20, "c.sqlite")):
        (tmp_path / "c.toml").write_text(text.replace("NUMBER", str(number)))
        words = ("campaign", "c.toml", "--workers", "2", "--results", name, "--keep", f"kept{number}")
        done = xm(tmp_path, *words, program=whole_program)
        assert done.status == 0, done
    assert "runs went on from saved machines" in done.out and len(saved(tmp_path)) > 5
    assert found(tmp_path) == found(tmp_path, "boot.sqlite") and len(found(tmp_path)) == 121
    kept = kept_of(tmp_path, "c.sqlite", "kept20")
    assert kept == kept_of(tmp_path, "boot.sqlite", "kept0") and {"report.txt", "uart0.out"} <= set(kept[""])
