"""Campaigns: their files, the upsets that these name, what becomes of runs, and small campaigns by two workers.

Most campaigns here are of a stand-in for the program whose report follows from the place of the upset, so that the truth is known:
a script that the shell runs in some milliseconds. One is of the second simulator.
"""

import contextlib
import csv
import io
import itertools
import json
import os
import re
import signal
import socket
import sqlite3
import subprocess
import time
from collections.abc import Callable
from pathlib import Path

import pytest
from box import container
from rows import demo

from conftest import SECOND, XM, Done, xm
from xm_tools.building import Built
from xm_tools.campaign import Campaign, read_campaign
from xm_tools.cluster import Size
from xm_tools.command import main
from xm_tools.container import read_container
from xm_tools.expectations import expectations_of
from xm_tools.failure import Unusable
from xm_tools.outcomes import Left, Reference, Rules, Verdict
from xm_tools.program_file import program_file
from xm_tools.progress import EVERY, Lines, time_in_words
from xm_tools.results import Row
from xm_tools.running import Done as DoneRun
from xm_tools.running import Common, DoneBatch, Room, Words, digest_of, do_batch, remove_left_over, tools_files
from xm_tools.system import Area, Partition
from xm_tools.tallies import place_key, place_name
from xm_tools.upset_sets import BlockReader, Upset, UpsetSet, upsets_of_text

TICKS = 4000
PROGRESS = re.compile("^[0-9]+ of [0-9]+ runs.*\n", re.M)
# The stand-in: what it does with an upset follows from the place.
STAND_IN = """#!/bin/sh
# A stand-in for `xm_run run` over two partitions. MARKS is a folder for what it has done, and for what it is to do.
[ "$1" = run ] || exit 2
box=$2
shift 2
ticks= upset= tick= part= place= bit= cores= scripts= from= save= start=0 input=
while [ $# -gt 0 ]; do
  case $1 in
    --ticks) ticks=$2 ;;
    --upset) upset=$2; read -r tick part place bit < "$2" ;;
    --core) cores="$cores $2" ;;
    --script) scripts="$scripts $2" ;;
    --input) input=${2#*=} ;;
    --from) from=$2 ;;
    --save) save=$2 ;;
  esac
  shift 2
done
if [ -n "$from" ]; then
  [ -z "$scripts$input" ] || exit 2
  read -r mark start of < "$from"
  [ "$mark" = saved ] || { echo "xm_run: $from: magic" >&2; exit 1; }
  [ "$of" = "$(cksum < "$box")" ] || { echo "xm_run: $from: container stored=1 found=2" >&2; exit 1; }
  ticks=$((start + ticks))
fi
# A line of a tick that is in the run. A run that saves has no line of a later tick.
line() {
  if [ "$1" -ge "$start" ] && { [ -z "$save" ] || [ "$1" -lt "$ticks" ]; }; then
    printf '[%s] %s\\n' "$1" "$2"
    case $2 in *CON*) printf '%s' "${2#* CON }" >> "uart${2%"${2#??}"}.tmp" ;; esac
  fi
}
echo "$tick $part $place $bit${from:+ from $start}${save:+ save $ticks}" >> MARKS/calls
if [ -n "$save" ]; then
  [ ! -e MARKS/refuses ] || { echo "xm_run: usage" >&2; exit 2; }
  [ ! -e MARKS/kills ] || { rm MARKS/kills; kill -9 $PPID; }
  [ -e MARKS/saves_none ] || echo "saved $ticks $([ -e MARKS/other ] && echo other || cksum < "$box")" > "$save"
  [ ! -e MARKS/damages ] || echo damaged > "$save"
fi
other=$((1 - ${part:-0}))
state0=idle state1=idle first='P0 CON one\\n' second='P1 CON two\\n' health= core= script=
case $place in
  g2) core=$part ;;
  g3) health="HM XM_HM_EV_SPARC_DATA_ACCESS 00000000 XM_HM_AC_PARTITION_WARM_RESET" ;;
  g4) first='P0 CON none\\n' ;;
  g5) [ "$part" = 0 ] && state0=halted || state1=halted ;;
  g6) core=$other ;;
  g7) echo "xm_run: it is refused" >&2; exit 1 ;;
  w0) core=$other script=$other second='P1 CON other\\n' ;;
  w1) [ -e MARKS/killed ] || { : > MARKS/killed; kill -9 $PPID; } ;;
  w2) kill -9 $PPID ;;
  w3) while ! [ -e MARKS/go ]; do sleep 0.1; done ;;
esac
[ -z "$from" ] || [ ! -e MARKS/odd ] || first='P0 CON odd\\n'
[ -z "$from" ] || [ ! -e MARKS/fails ] || exit 1
echo "SYSTEM parts=2 plans=1 ticks=$ticks"
line 10 'P0 CON start\\n'
[ -z "$upset" ] || line "$tick" "P$part UPSET $place bit $bit"
[ -z "$health" ] || { line "$tick" "P$part $health"; line "$tick" "P$part WARM"; }
[ $state0 = idle ] || line "$tick" "P0 HALT"
[ $state0 = halted ] || line 3500 "$first"
[ $state1 = idle ] || line 3600 "P1 HALT"
line 3700 "$second"
echo "END P0 $state0 resets=0 exec=10 pc=40100000"
echo "END P1 $state1 resets=0 exec=10 pc=40180000"
echo "END XM running plan=0 clock=$ticks ticks=$ticks"
for each in $cores; do echo "core ${each%%=*} $([ "${each%%=*}" = "$core" ] && echo changed)" > "${each#*=}"; done
for each in 0 1; do [ ! -e "uartP$each.tmp" ] || mv "uartP$each.tmp" "uart$each.out"; done
for each in $scripts; do echo "script ${each%%=*} $([ "${each%%=*}" = "$script" ] && echo changed)" > "${each#*=}"; done
"""
# What the stand-in makes of an upset of partition 0.
TRUTH = {
    "g1": "same", "g2": "masked", "g3": "detected", "g4": "wrong", "g5": "dead", "g6": "masked", "g7": "failed", "w0": "wrong",
}  # fmt: skip


def set_up(folder: Path, text: str, name: str = "c.toml") -> Path:
    """A folder with a system that was built, the stand-in, and a campaign."""
    (folder / "built").mkdir(exist_ok=True)
    (folder / "built/system.xmp").write_bytes(container(demo()))
    system = read_container("x", (folder / "built/system.xmp").read_bytes()).system
    names = [partition.name for partition in system.partitions]
    (folder / "built/built.json").write_text(Built("system.xmp", names, ["a", "b"], {}, None).text())
    (folder / "marks").mkdir(exist_ok=True)
    (folder / "program").write_text(STAND_IN.replace("MARKS", str(folder / "marks")))
    (folder / "program").chmod(0o755)
    (folder / name).write_text(text.replace("FIRST", names[0]).replace("SECOND", names[1]))
    return folder


def campaign(folder: Path, *words: str) -> Done:
    """By two workers; lines of the progress, of which a slow machine has some, are left out."""
    done = xm(folder, "campaign", "c.toml", "--workers", "2", *words, program=str(folder / "program"))
    return Done(done.status, done.out, PROGRESS.sub("", done.err))


def calls(folder: Path) -> list[str]:
    """The calls of the stand-in, by their upsets, and where they begin and save; the run without upsets is an empty line."""
    path = folder / "marks/calls"
    return [line.strip() for line in path.read_text().splitlines()] if path.exists() else []


def count_of(folder: Path) -> int:
    """How many runs are in the results, which may be written just now."""
    with contextlib.closing(sqlite3.connect(folder / "c.sqlite", timeout=3600)) as base:
        is_made = base.execute("SELECT COUNT(*) FROM sqlite_master WHERE name = 'runs'").fetchone()[0]
        return int(base.execute("SELECT COUNT(*) FROM runs").fetchone()[0]) if is_made else 0


def rows(folder: Path, results: str = "c.sqlite") -> list[dict[str, str]]:
    done = xm(folder, "campaign", "--csv", results)
    assert (done.status, done.err) == (0, "")
    return list(csv.DictReader(io.StringIO(done.out)))


def text_for(places: list[str], more: str = "", bits: str = "bits = [3]") -> str:
    quoted = ", ".join(f'"{place}"' for place in places)
    return (
        f'system = "built"\nticks = {TICKS}\n{more}\n[[upsets]]\npartition = "FIRST"\nplaces = [{quoted}]\n{bits}\nticks = [100]\n'
    )


# Sets of upsets.

AREAS = (Area(0x40100000, 0x1000, 0), Area(0x40200000, 0x1000, 0))
PARTITION = Partition(1, "one", False, None, AREAS, None, (), ())


def reader(bits: tuple[int, ...] | None = None) -> BlockReader:
    return BlockReader("f", PARTITION, [(0x40100000, 0x40100003)], bits)


def test_every_bit_of_given_places_before_each_tick() -> None:
    found = list(UpsetSet(1, reader((2, 31)).blocks(["g1-g2", "pc", "40100ffe-40100fff", "icc"]), [5, 9]))
    places = [("g1", 2), ("g1", 31), ("g2", 2), ("g2", 31), ("pc", 2), ("pc", 31), ("40100ffe", 2), ("40100fff", 2), ("icc", 2)]
    assert found == [Upset(tick, 1, place, bit) for tick in (5, 9) for place, bit in places]


@pytest.mark.parametrize(
    "place, first, last",
    [
        ("g7", 0, 31), ("w127", 0, 31), ("pc", 2, 31), ("npc", 2, 31), ("y", 0, 31), ("icc", 0, 3), ("hw", 0, 62), ("exec", 0, 62),
        ("tbr", 12, 31), ("mask", 0, 31), ("pending", 0, 31), ("40100000", 0, 7),
    ],
)  # fmt: skip
def test_a_place_has_the_bits_of_the_format(place: str, first: int, last: int) -> None:
    """As the table in docs/FORMATS.md has them."""
    bits = [upset.bit for upset in UpsetSet(1, reader().blocks([place]), [0])]
    assert bits == list(range(first, last + 1))


def test_words_for_many_places() -> None:
    image = [upset.place for upset in UpsetSet(1, reader((0,)).blocks(["image"]), [0])]
    assert image == ["40100000", "40100001", "40100002"]
    registers = UpsetSet(1, reader().blocks(["registers"]), [0])
    assert len(registers) == 32 * (7 + 128 + 1 + 2) + 30 * 2 + 4 + 20


@pytest.mark.parametrize(
    "word", ["g0", "g8", "w128", "g1-w2", "g3-g2", "w01", "psr", "4010000", "40101000", "40100fff-40101000", "40100000-40200000", "40100001-40100000", "", "G1", "g99999999999"]
)  # fmt: skip
def test_what_is_no_place(word: str) -> None:
    with pytest.raises(Unusable):
        reader().blocks([word])


def test_a_place_without_one_of_the_bits_is_left_out() -> None:
    assert [upset.place for upset in UpsetSet(1, reader((0,)).blocks(["pc", "y"]), [0])] == ["y"]
    with pytest.raises(Unusable):
        reader((0,)).blocks(["pc", "npc"])


def test_a_sample_is_of_different_upsets_and_the_same_each_time() -> None:
    blocks = reader().blocks(["g1-g7", "40100000-4010000f"])
    whole = set(UpsetSet(1, blocks, range(10)))
    sample = list(UpsetSet(1, blocks, range(10), 500, 7))
    assert sample == list(UpsetSet(1, blocks, range(10), 500, 7)) != list(UpsetSet(1, blocks, range(10), 500, 8))
    assert len(set(sample)) == 500 and set(sample) <= whole
    assert [upset.tick for upset in sample] == sorted(upset.tick for upset in sample)
    assert list(UpsetSet(1, reader((0,)).blocks(["y"]), [3], 10, 7)) == [Upset(3, 1, "y", 0)]


def test_a_sample_of_a_huge_set_takes_no_time() -> None:
    sample = UpsetSet(1, reader().blocks(["registers", "40100000-40100fff"]), range(4_000_000_000), 10, 1)
    assert len(list(sample)) == 10


def test_files_of_upsets() -> None:
    partitions = [PARTITION] * 2
    text = "5 1 g1 0\n5 0 40200000 7\n9 1 hw 62\n"
    assert "".join(upset.line() for upset in upsets_of_text("f", text, partitions, 10)) == text
    assert upsets_of_text("f", "", partitions, 10) == ()
    for wrong in (
        "5 1 g1 0", "5 2 g1 0\n", "5 1 g8 0\n", "5 1 g1 32\n", "10 1 g1 0\n", "5 1 g1 0\n4 1 g1 0\n", "x\n", "5 1 image 0\n",
        "5 1 registers 0\n", "5 1 g1-g2 0\n", "5  1 g1 0\n", "\n", "5 1 40300000 0\n",
    ):  # fmt: skip
        with pytest.raises(Unusable):
            upsets_of_text("f", wrong, partitions, 10)


# What became of a run: rows whose truth is known.

PLAIN = """SYSTEM parts=2 plans=1 ticks=4000
[10] P0 CON a\\n
[2010] P1 CON b\\n
[3000] P0 CON c\\n
END P0 idle resets=0 exec=10 pc=40100000
END P1 idle resets=0 exec=10 pc=40180000
END XM running plan=0 clock=4000 ticks=4000
"""
UPSET = "[100] P0 UPSET g1 bit 3\n"
CORES, SCRIPTS = {0: b"core 0", 1: b"core 1"}, {0: b"script 0", 1: b"script 1"}


def verdict_of(report: str, cores: dict[int, bytes] = CORES, scripts: dict[int, bytes] = SCRIPTS, **rules: object) -> object:
    reference = Reference(Left(PLAIN.encode(), CORES, SCRIPTS), Rules(**rules))  # type: ignore[arg-type]
    return reference.verdict_of(Left(report.encode(), cores, scripts), {0}, 100)


def with_upset(text: str = PLAIN) -> str:
    return text.replace("[2010]", f"{UPSET}[2010]", 1)


HM = "[100] P0 HM XM_HM_EV_SPARC_DATA_ACCESS 40100000 XM_HM_AC_"
WRONG_LINE, LATER = PLAIN.replace("CON c", "CON d"), PLAIN.replace("[3000]", "[3001]")
KNOWN = [
    (with_upset(), {}, "same", False),
    (PLAIN, {}, "same", False),
    (with_upset(), {0: b"changed"}, "masked", False),
    (with_upset(LATER), {}, "masked", False),
    (with_upset().replace("exec=10 pc=4010", "exec=11 pc=4010"), {}, "masked", False),
    (with_upset().replace(UPSET, f"{UPSET}{HM}IGNORE\n"), {}, "detected", True),
    (with_upset().replace(UPSET, f"{UPSET}{HM}PARTITION_WARM_RESET\n[100] P0 WARM\n"), {}, "detected", True),
    (with_upset(WRONG_LINE), {}, "wrong", False),
    (with_upset(WRONG_LINE).replace(UPSET, f"{UPSET}{HM}IGNORE\n"), {}, "wrong", True),
    (with_upset().replace("[3000]", "[2999] P0 CON more\\n\n[3000]"), {}, "wrong", False),
    (with_upset().replace("[3000] P0 CON c\\n\n", ""), {}, "dead", False),
    (with_upset().replace("P0 idle", "P0 halted").replace("[3000]", "[2999] P0 HALT\n[3000]"), {}, "dead", False),
    (with_upset().replace("P1 idle", "P1 suspended").replace("[3000]", "[2999] P1 SUSPEND\n[3000]"), {}, "dead", False),
    (with_upset().replace(UPSET, f"{UPSET}{HM}HALT\n[100] P0 HALT\n").replace("P0 idle", "P0 halted"), {}, "dead", True),
    (with_upset().replace("[3000] P0 CON c\\n", "[3000] XM HALT").replace("running", "halted").replace("ticks=4000\n", "ticks=3000\n").replace("ticks=3000", "ticks=4000", 1), {}, "dead", False),
    ("SYSTEM parts=2", {}, "failed", False),
]  # fmt: skip


@pytest.mark.parametrize("number", range(len(KNOWN)))
def test_outcomes_whose_truth_is_known(number: int) -> None:
    report, cores, outcome, is_detected = KNOWN[number]
    found = verdict_of(report, {**CORES, **cores})
    assert (found.outcome, found.is_detected) == (outcome, is_detected), found  # type: ignore[attr-defined]


def test_the_output_is_that_of_some_partitions() -> None:
    assert verdict_of(with_upset(WRONG_LINE), output=(1,)).outcome == "masked"  # type: ignore[attr-defined]
    assert verdict_of(with_upset(WRONG_LINE), output=(0,)).outcome == "wrong"  # type: ignore[attr-defined]


def test_an_expectation_that_is_not_met_is_wrong() -> None:
    """Unless the run without upsets does not meet it either."""
    for line, outcome in (('P0 within 3ms of [0] CON "c*"', "wrong"), ('P0 within 2ms of [0] CON "c*"', "masked")):
        expectations = expectations_of("e", line, None)
        assert verdict_of(with_upset(LATER), expectations=expectations).outcome == outcome  # type: ignore[attr-defined]
    reference = Reference(Left(PLAIN.encode()), Rules(expectations_of("e", "P0 no CON\nno HM", None)))
    assert (reference.verdict().outcome, reference.verdict().why[:18]) == ("unmet", "not met: P0 no CON")
    assert Reference(Left(PLAIN.encode()), Rules(expectations_of("e", "no HM", None))).verdict().outcome == "met"


def test_outcomes_that_are_not_distinguished() -> None:
    some = ("masked", "wrong")
    wanted = {"same": "masked", "detected": "masked", "dead": "wrong"}
    for report, cores, outcome, _ in KNOWN:
        found = verdict_of(report, {**CORES, **cores}, outcomes=some).outcome  # type: ignore[attr-defined]
        assert found == wanted.get(outcome, outcome)


OTHER_LINE = with_upset(PLAIN.replace("CON b", "CON x"))
OTHERS = [
    (with_upset(), {}, {}, 1, (), ()),
    (with_upset(), {1: b"changed"}, {}, 1, (), (1,)),
    (OTHER_LINE, {}, {}, 1, (), (1,)),
    (with_upset().replace("exec=10 pc=4018", "exec=9 pc=4018"), {}, {}, 1, (), (1,)),
    (OTHER_LINE, {1: b"changed"}, {1: b"changed"}, 0, (1,), ()),
    (with_upset(WRONG_LINE), {0: b"changed"}, {0: b"changed"}, 1, (), ()),
]  # fmt: skip


@pytest.mark.parametrize("report, cores, scripts, compared, reached, differing", OTHERS)
def test_other_partitions_with_the_same_script(
    report: str, cores: dict[int, bytes], scripts: dict[int, bytes], compared: int, reached: tuple[int, ...], differing: tuple[int, ...]
) -> None:
    """By the core file and the lines; one with another script is not compared, nor is the one that was struck."""
    found = verdict_of(report, {**CORES, **cores}, {**SCRIPTS, **scripts})
    assert (found.compared, found.reached, found.differing) == (compared, reached, differing)  # type: ignore[attr-defined]


# Files.


def made(folder: Path, text: str) -> Campaign:
    found = Campaign(read_campaign(str(set_up(folder, text) / "c.toml")))
    found.build()
    return found


def test_the_runs_of_a_campaign(tmp_path: Path) -> None:
    """Each choice of lengths and words, first without upsets, then with each upset."""
    text = """system = "built"
ticks = [1000, 4000]
seed = 3
[words]
FIRST = { count = 40, sets = 3, from = 10, to = 12 }
[[upsets]]
partition = ["FIRST", "SECOND"]
places = ["y"]
bits = [0, 1]
ticks = { from = 500, step = 400 }
[[upsets]]
file = "two.upsets"
"""
    (tmp_path / "two.upsets").write_text("5 0 y 0\n6 1 g1 3\n")
    campaign = made(tmp_path, text)
    found = [(setup, [case.upsets for case in cases]) for setup, cases in campaign.cases()]
    assert [setup.ticks for setup, _ in found] == [1000] * 3 + [4000] * 3
    assert [dict(setup.labels)["length"] for setup, _ in found][2:4] == ["1000 ticks", "4000 ticks"]
    for setup, upsets in found:
        ticks = range(500, setup.ticks, 400)
        single = [(Upset(tick, part, "y", bit),) for part in (0, 1) for tick in ticks for bit in (0, 1)]
        assert upsets == [(), *single, (Upset(5, 0, "y", 0), Upset(6, 1, "g1", 3))]
    assert campaign.size() == sum(len(upsets) for _, upsets in found)
    words = [setup.inputs[0][1] for setup, _ in found]
    assert all(isinstance(one, Words) for one in words)
    contents = [one.content() for one in words if isinstance(one, Words)]
    assert contents[:3] == contents[3:] and len(set(contents)) == 3
    assert all(10 <= int.from_bytes(content[at : at + 4], "big") <= 12 for content in contents for at in range(0, 160, 4))


def test_inputs_from_files_vary(tmp_path: Path) -> None:
    """Each file of a partition with each of another one; a partition with one file alone is no choice."""
    text = 'system = "built"\nframes = 1\n[inputs]\nFIRST = ["low.bin", "high.bin"]\nSECOND = "one.bin"\n'
    contents = {"low.bin": bytes(4), "high.bin": b"\xff" * 4, "one.bin": b"\x00\x00\x00\x01"}
    for name, content in contents.items():
        (tmp_path / name).write_bytes(content)
    campaign = made(tmp_path, text)
    names = campaign.first.names
    found = [(setup.inputs, dict(setup.labels)) for setup, _ in campaign.setups()]
    assert found == [
        (((0, digest_of(contents[name])), (1, digest_of(contents["one.bin"]))), {f"input {names[0]}": name}) for name in ("low.bin", "high.bin")
    ]
    assert all(campaign.files[digest_of(content)] == content for content in contents.values())


def test_a_sample_has_as_many_upsets_of_each_partition(tmp_path: Path) -> None:
    """Of many more upsets a larger sample has those of a smaller one, so that the results of that serve."""
    text = text_for(["registers"], "", "sample = 31").replace('"FIRST"', '["FIRST", "SECOND"]')
    small, large = (made(tmp_path, text.replace("31", number)) for number in ("31", "1001"))
    sets = [[case.upsets for _, cases in campaign.cases() for case in cases if case.upsets] for campaign in (small, large)]
    for found, first in zip(sets, (16, 501)):
        assert len([None for (upset,) in found if upset.partition == 0]) == first
    assert [len(found) for found in sets] == [31, 1001] and set(sets[0]) <= set(sets[1])


def test_generated_words_are_those_that_the_page_says() -> None:
    """The first word of SHAKE-256 of `1 gyro 0`, by another implementation."""
    done = subprocess.run(
        ["openssl", "dgst", "-shake256", "-xoflen", "16", "-r"], input=b"1 gyro 0", capture_output=True, check=False
    )  # fmt: skip
    if done.returncode:
        pytest.skip("there is no openssl with shake256")
    drawn = bytes.fromhex(done.stdout.split()[0].decode())
    numbers = [int.from_bytes(drawn[at : at + 8], "big") for at in (0, 8)]
    wanted = b"".join((5 + number % 100).to_bytes(4, "big") for number in numbers)
    assert Words(1, "gyro", 0, 2, 5, 104).content() == wanted


GOOD = text_for(["g1"])
BAD = [
    ("", "system is no text"),
    ("system = 3\n", "system is no text"),
    ("[", "Invalid initial character for a key part"),
    ('system = "none"\nticks = 1\n', "No such file or directory"),
    ('system = "."\nticks = 1\n', "xm build makes it"),
    ('system = "built"\n', "no length of the runs is given"),
    ('system = "built"\nticks = -1\n', "ticks is no number from 0 to 4000000000"),
    ('system = "built"\nticks = true\n', "ticks is no number"),
    ('system = "built"\nticks = []\n', "ticks is empty"),
    ('system = "built"\nframes = 4000000000\n', "4000000000 frames are more than 4000000000 ticks"),
    ('system = "built"\nother = 1\n', "other is none of system, frames, ticks"),
    ('system = "built"\nticks = 1\nplans = ["x.xml"]\n', "plans and images vary a system that is described"),
    ('system = "built"\nticks = 1\noutput = "nobody"\n', "nobody is no partition"),
    ('system = "built"\nticks = 1\n[inputs]\nnobody = "x"\n', "nobody is no partition"),
    ('system = "built"\nticks = 1\n[inputs]\nFIRST = "none.bin"\n', "No such file"),
    ('system = "built"\nticks = 1\n[words]\nFIRST = 3\n', "words.FIRST is no table"),
    ('system = "built"\nticks = 1\n[words]\nFIRST = { count = 1, sets = 0 }\n', "words.FIRST.sets is no number from 1"),
    ('system = "built"\nticks = 1\n[words]\nFIRST = { count = 1, from = 3, to = 2 }\n', "from is above to"),
    ('system = "built"\nticks = 1\n[words]\nFIRST = { count = 1 }\n[inputs]\nFIRST = "c.toml"\n', "FIRST has inputs and words"),
    ('system = "built"\nticks = 1\nexpect = "none"\n', "No such file"),
    ('system = "built"\nticks = 1\nexpect = "c.toml"\n', "is no partition"),
    ('system = "built"\nticks = 1\noutcomes = ["same"]\n', "masked and wrong are always distinguished"),
    ('system = "built"\nticks = 1\noutcomes = ["lost"]\n', "outcomes: lost is none of"),
    ('system = "built"\nticks = 1\nfailed = ["lost"]\n', "failed: lost is none of"),
    ('system = "built"\nticks = 1\nkeep = 3\n', "keep is neither a text nor a list of texts"),
    ('system = "built"\nticks = 1\nothers = 1\n', "others is neither true nor false nor cores"),
    ('system = "built"\nticks = 1\nothers = "scripts"\n', "others is neither true nor false nor cores"),
    ('system = "built"\nticks = 1\nbeginnings = 1001\n', "beginnings is no number from 0 to 1000"),
    ('system = "built"\nticks = 1\nbeginnings = true\n', "beginnings is no number from 0 to 1000"),
    ('system = "built"\nticks = 1\nupsets = 3\n', "upsets is no list of tables"),
    ('system = "built"\nticks = 1\nupsets = [3]\n', "upsets 1 is no table"),
    (GOOD.replace("g1", "g8"), "g8 is no place"),
    (GOOD.replace("FIRST", "nobody"), "nobody is no partition"),
    (GOOD.replace("bits = [3]", "bits = [63]"), "upsets 1.bits is no number from 0 to 62"),
    (GOOD.replace("bits = [3]", "bits = [40]"), "no place has one of the bits"),
    (GOOD.replace("[100]", f"[{TICKS}]"), f"tick {TICKS} of a run of {TICKS}"),
    (GOOD.replace("[100]", "{ from = 9, to = 9 }"), f"no tick of a run of {TICKS}"),
    (GOOD.replace("[100]", "{ step = 0 }"), "upsets 1.ticks.step is no number from 1"),
    (GOOD.replace("[100]", "{ by = 0 }"), "upsets 1.ticks.by is none of from, to, step"),
    (GOOD + "sample = 0\n", "upsets 1.sample is no number from 1"),
    (GOOD + 'file = "x"\n', "upsets 1 has a file, and so nothing else"),
    (GOOD.replace('places = ["g1"]', 'places = ["registers", "image", "w0-w127"]').replace("bits = [3]\nticks = [100]\n", ""), "sample = NUMBER"),
    ('system = "built"\nticks = 1\n[[upsets]]\nfile = "c.toml"\n', "no upset: TICK P PLACE BIT"),
    ('system = "built"\nticks = 1\n[[upsets]]\nfile = "none"\n', "No such file"),
]  # fmt: skip


@pytest.mark.parametrize("text, reason", BAD)
def test_a_campaign_that_is_wrong(
    tmp_path: Path, monkeypatch: pytest.MonkeyPatch, capsys: pytest.CaptureFixture[str], text: str, reason: str
) -> None:
    """One line, and status 2."""
    set_up(tmp_path, text)
    names = read_container("x", (tmp_path / "built/system.xmp").read_bytes()).system.names
    monkeypatch.chdir(tmp_path)
    monkeypatch.setenv("XM_RUN", "/none")
    assert main(["campaign", "c.toml"]) == 2
    shown = capsys.readouterr()
    assert shown.out == "" and len(shown.err.splitlines()) == 1 and shown.err.startswith("xm: ")
    assert reason.replace("FIRST", names[0]) in shown.err


@pytest.mark.parametrize(
    "words",
    [
        (), ("c.toml", "d"), ("c.toml", "--workers", "0"), ("c.toml", "--workers", "2", "--scheduler", "x"), ("--report", "c.sqlite"),
        ("--csv", "--report", "c.sqlite", "p"), ("--csv",), ("--repeat", "c.sqlite", "1"), ("--csv", "c.sqlite", "--workers", "2"),
        ("--table", "c.sqlite"), ("--table", "--csv", "c.sqlite"),
    ],
)  # fmt: skip
def test_words_that_are_wrong(capsys: pytest.CaptureFixture[str], words: tuple[str, ...]) -> None:
    assert main(["campaign", *words]) == 2
    assert capsys.readouterr().err.startswith("xm: usage: xm campaign ")


# Small campaigns, by two workers.


@pytest.fixture(scope="module")
def finished(tmp_path_factory: pytest.TempPathFactory) -> tuple[Path, Done]:
    """A campaign of one upset for each thing that the stand-in does, and how it ended."""
    pytest.importorskip("distributed")
    folder = set_up(tmp_path_factory.mktemp("campaign"), text_for(list(TRUTH)))
    return folder, campaign(folder)


def test_the_outcomes_of_a_campaign(finished: tuple[Path, Done]) -> None:
    folder, done = finished
    assert (done.status, done.err) == (1, "")
    found = {row["place"]: row for row in rows(folder)}
    assert {place: row["outcome"] for place, row in found.items() if place} == TRUTH
    assert found[""]["outcome"] == "met"
    assert [place for place, row in found.items() if row["detected"] == "1"] == ["g3"]
    assert [place for place, row in found.items() if row["differing"] != "0"] == ["g6"]
    assert [place for place, row in found.items() if row["reached"] != "0"] == ["w0"]
    assert found["g7"]["why"] == "xm_run: it is refused"
    assert len({row["program"] for row in found.values()}) == len({row["container"] for row in found.values()}) == 1


def test_what_a_campaign_prints(finished: tuple[Path, Done]) -> None:
    _, done = finished
    lines = [re.sub("in [0-9.]+ s( by 2 workers)?", "in 1 s", line) for line in done.out.splitlines()]
    assert lines[0] == "c: 9 runs in 1 s, and 0 were there in c.sqlite"
    assert lines[1] == "same               1   11.11 %"
    assert lines[-4] == "other partitions with the same script: 6 compared, 1 differ; 1 had another script"
    pattern = "failed: run ([0-9]+): (.*): xm campaign --repeat c.sqlite \\1 run\\1"
    failed = [found[2] for line in lines[-3:-1] if (found := re.fullmatch(pattern, line))]
    assert sorted(failed) == ["failed: xm_run: it is refused", "masked: the state of P1"]
    assert lines[-1] == "kept: the folders of 2 runs in c.runs"


def test_the_folder_of_a_run_that_failed_is_kept(finished: tuple[Path, Done]) -> None:
    """With what repeats it; no other folder is left."""
    folder, _ = finished
    failed = {row["place"]: row["run"] for row in rows(folder) if row["place"] in ("g6", "g7")}
    assert {path.name for path in (folder / "c.runs").iterdir()} == set(failed.values())
    own = folder / "c.runs" / failed["g6"]
    assert (own / "run.upsets").read_text() == "100 0 g6 3\n"
    assert (own / "command.txt").read_text() == f"xm_run run system.xmp --ticks {TICKS} --upset run.upsets\n"
    assert {"report.txt", "system.xmp", "1.core", "1.script"} <= {path.name for path in own.iterdir()}


def test_a_run_is_repeated(finished: tuple[Path, Done]) -> None:
    folder, _ = finished
    run = next(row["run"] for row in rows(folder) if row["place"] == "g4")
    done = xm(folder, "campaign", "--repeat", "c.sqlite", run, "again", program=str(folder / "program"))
    lines = done.out.splitlines()
    assert (done.status, done.err) == (0, "")
    assert lines[0] == f"cd again && {folder}/program run system.xmp --ticks {TICKS} --upset run.upsets"
    assert "[100] P0 UPSET g4 bit 3" in lines and "[3500] P0 CON none\\n" in lines
    assert (folder / "again/system.xmp").read_bytes() == (folder / "built/system.xmp").read_bytes()
    done = xm(folder, "campaign", "--repeat", "c.sqlite", "99", "again", program=str(folder / "program"))
    assert (done.status, done.err) == (2, "xm: c.sqlite: there is no run 99\n")


def test_a_page_of_a_campaign(finished: tuple[Path, Done]) -> None:
    """One file, which needs no other, with the outcomes and the runs that failed."""
    pytest.importorskip("plotly")
    folder, _ = finished
    done = xm(folder, "campaign", "--report", "c.sqlite", "page.html")
    assert (done.status, done.out, done.err) == (0, "", "")
    text = (folder / "page.html").read_text()
    assert "<h1>c: 9 runs</h1>" in text and text.count("xm campaign --repeat c.sqlite") == 2
    assert all(f'id="by_{name}"' in text for name in ("place", "bit", "tick", "partition"))
    assert "6 compared, 1 differ" in text and text.count("<summary>as a table</summary>") == 4
    xm(folder, "campaign", "--report", "c.sqlite", "again.html")
    assert (folder / "again.html").read_text() == text
    done = xm(folder, "campaign", "--report", "c.sqlite", "./c.sqlite")
    assert (done.status, done.err) == (2, "xm: ./c.sqlite: it is c.sqlite, which is read\n")


def test_tables_of_a_campaign(finished: tuple[Path, Done]) -> None:
    """Numbers of runs by what their upset has; each table is a part of the page, too."""
    folder, _ = finished
    outcomes = ["same", "masked", "detected", "wrong", "dead", "failed"]
    found = {}
    for by in ("place", "bit", "tick", "partition"):
        done = xm(folder, "campaign", "--table", "c.sqlite", by)
        assert (done.status, done.err) == (0, "")
        (head, *own) = [re.split("  +", line) for line in done.out.splitlines()]
        assert head[0].startswith(by) and head[1:] == outcomes
        found[by] = {line[0]: dict(zip(outcomes, map(int, line[1:]))) for line in own}
    whole = {"same": 1, "masked": 2, "detected": 1, "wrong": 2, "dead": 1, "failed": 1}
    assert found["bit"] == {"3": whole} and found["tick"] == {"100": whole} and found["partition"] == {"P0": whole}
    assert {place: [name for name, count in own.items() if count] for place, own in found["place"].items()} == {
        f"P0 {place}": [outcome] for place, outcome in TRUTH.items()
    }  # fmt: skip
    done = xm(folder, "campaign", "--table", "c.sqlite", "colour")
    assert (done.status, done.out, done.err) == (2, "", "xm: colour is none of place, bit, tick, partition\n")


def test_runs_that_are_there_are_not_repeated(finished: tuple[Path, Done], tmp_path: Path) -> None:
    """But for those that failed; of another program all are."""
    folder, _ = finished
    before = calls(folder)
    for name in ("c.sqlite", "c.toml", "program"):
        (tmp_path / name).write_bytes((folder / name).read_bytes())
    set_up(tmp_path, text_for([*TRUTH, "w5"]))
    (tmp_path / "program").write_bytes((folder / "program").read_bytes())
    done = campaign(tmp_path)
    assert done.out.startswith("c: 2 runs in ") and ", and 8 were there in c.sqlite\n" in done.out
    assert sorted(set(calls(folder)[len(before) :])) == ["", "100 0 g7 3", "100 0 w5 3"]
    assert len(rows(tmp_path)) == len(TRUTH) + 2
    (tmp_path / "program").write_text((folder / "program").read_text() + "# another one\n")
    done = campaign(tmp_path)
    assert done.out.startswith(f"c: {len(TRUTH) + 2} runs in ")
    assert len(rows(tmp_path)) == len(TRUTH) + 2


def test_a_killed_worker_loses_nothing(tmp_path: Path) -> None:
    """The run that kills its worker the first time is done again by another one, as are those that the worker had."""
    pytest.importorskip("distributed")
    places = ["g1-g4", "w1", "w4-w30"]
    set_up(tmp_path, text_for(places))
    done = campaign(tmp_path)
    assert (done.status, done.err) == (0, ""), done.out
    found = rows(tmp_path)
    assert len(found) == 1 + 4 + 1 + 27 and (tmp_path / "marks/killed").exists()
    assert {row["outcome"] for row in found if row["place"][:1] == "w"} == {"same"}


def test_a_run_that_always_kills_its_worker(tmp_path: Path) -> None:
    """It is the one that is lost: the others are done, and it is done again by the next call."""
    pytest.importorskip("distributed")
    set_up(tmp_path, text_for(["w2", "w4"]))
    done = campaign(tmp_path)
    assert (done.status, done.err) == (2, "xm: 1 runs were lost with their workers: the same command does them again\n")
    assert [row["place"] for row in rows(tmp_path)].count("w2") == 0 and len(rows(tmp_path)) == 2


def test_an_interrupted_campaign_goes_on(tmp_path: Path) -> None:
    """What was done before it was interrupted, as by a key of the terminal, is there; the next call does the others."""
    pytest.importorskip("distributed")
    set_up(tmp_path, text_for(["g1-g2", "w4-w20", "w3", "w21-w40"]))
    environment = {**os.environ, "XM_RUN": str(tmp_path / "program")}
    words = [str(XM), "campaign", "c.toml", "--workers", "1"]
    with subprocess.Popen(words, cwd=tmp_path, env=environment, stdout=subprocess.DEVNULL, stderr=subprocess.PIPE, start_new_session=True) as running:
        while running.poll() is None and not ("100 0 w3 3" in calls(tmp_path) and count_of(tmp_path)):
            time.sleep(0.2)
        os.killpg(running.pid, signal.SIGINT)
        _, err = running.communicate()
    assert (running.returncode, PROGRESS.sub("", err.decode())) == (130, "")
    (tmp_path / "marks/go").touch()
    before = count_of(tmp_path)
    assert before > 0
    done = campaign(tmp_path)
    assert (done.status, done.err) == (0, "")
    assert f", and {before} were there in c.sqlite\n" in done.out and len(rows(tmp_path)) == 41


def test_runs_without_upsets_are_judged_by_expectations(tmp_path: Path) -> None:
    """Generated words vary; the expectation names a partition."""
    pytest.importorskip("distributed")
    text = 'system = "built"\nticks = [1000, 4000]\nexpect = "e.txt"\nkeep = "all"\n[words]\nFIRST = { count = 4, sets = 3 }\n'
    (tmp_path / "e.txt").write_text("P0 CON one\nno HM\n")
    set_up(tmp_path, text)
    done = campaign(tmp_path, "--results", "r.sqlite", "--keep", "kept")
    assert done.status == 1 and "failed" in done.out
    found = sorted((row["outcome"], dict(json.loads(row["varied"]))["length"]) for row in rows(tmp_path, "r.sqlite"))
    assert found == [("failed", "1000 ticks")] * 3 + [("met", "4000 ticks")] * 3
    inputs = {row["inputs"] for row in rows(tmp_path, "r.sqlite")}
    assert {json.loads(one)[0][1]["sha256"] for one in inputs} == {
        digest_of((folder / "0.input").read_bytes()) for folder in (tmp_path / "kept").iterdir()
    }  # fmt: skip
    assert xm(tmp_path, "campaign", "--report", "r.sqlite", "p.html").err == ""
    page = (tmp_path / "p.html").read_text()
    assert "<td>length</td><td>4000 ticks</td><td class=number>3</td><td class=number>0</td>" in page and "By place" not in page
    kept = list((tmp_path / "kept").iterdir())
    assert len(kept) == 6 and all((folder / "0.input").stat().st_size == 16 for folder in kept)
    (tmp_path / "e.txt").write_text("P0 CON two\n")
    (tmp_path / "c.toml").write_text((tmp_path / "c.toml").read_text().replace("[1000, 4000]", "4000"))
    done = campaign(tmp_path, "--results", "r.sqlite")
    assert done.status == 1 and [row["outcome"] for row in rows(tmp_path, "r.sqlite")] == ["unmet"] * 3


def test_folders_are_removed(tmp_path: Path, monkeypatch: pytest.MonkeyPatch) -> None:
    """Those of a worker that was killed, too."""
    pytest.importorskip("distributed")
    set_up(tmp_path, text_for(["g1-g5", "w1"]))
    for name in ("scratch", "tmp"):
        (tmp_path / name).mkdir()
    before = {path.name for path in tmp_path.iterdir()}
    monkeypatch.setenv("TMPDIR", str(tmp_path / "tmp"))
    assert campaign(tmp_path, "--scratch", str(tmp_path / "scratch")).status == 0
    assert list((tmp_path / "scratch").iterdir()) == list((tmp_path / "tmp").iterdir()) == []
    assert {path.name for path in tmp_path.iterdir()} == {*before, "c.sqlite"}


def test_workers_of_a_scheduler(tmp_path: Path, monkeypatch: pytest.MonkeyPatch) -> None:
    """They have no file of these tools, and two threads each; nothing of the campaign is left with them."""
    pytest.importorskip("distributed")
    monkeypatch.setenv("DASK_DISTRIBUTED__COMM__TIMEOUTS__CONNECT", "10 minutes")
    set_up(tmp_path, text_for(list(TRUTH)))
    for name in ("workers", "scratch"):
        (tmp_path / name).mkdir()
    with contextlib.ExitStack() as ended:

        def start(*words: str) -> None:
            running = subprocess.Popen(words, cwd=tmp_path / "workers", stdout=subprocess.DEVNULL, stderr=subprocess.DEVNULL)
            ended.callback(running.wait)
            ended.callback(running.terminate)

        with socket.socket() as free:
            free.bind(("127.0.0.1", 0))
            address = f"tcp://127.0.0.1:{free.getsockname()[1]}"
        start("dask-scheduler", "--host", "127.0.0.1", "--port", address.rpartition(":")[2], "--no-dashboard", "--no-show")
        start("dask-worker", address, "--nworkers", "2", "--nthreads", "2", "--no-dashboard")
        words = ("campaign", "c.toml", "--scheduler", address, "--scratch", str(tmp_path / "scratch"))
        done = xm(tmp_path, *words, program=str(tmp_path / "program"))
        assert list((tmp_path / "scratch").iterdir()) == []
    assert (done.status, PROGRESS.sub("", done.err)) == (1, "")
    assert {row["place"]: row["outcome"] for row in rows(tmp_path) if row["place"]} == TRUTH


def test_a_scheduler_that_is_not_there(tmp_path: Path, monkeypatch: pytest.MonkeyPatch) -> None:
    """It is waited for as long as Dask is to wait."""
    pytest.importorskip("distributed")
    monkeypatch.setenv("DASK_DISTRIBUTED__COMM__TIMEOUTS__CONNECT", "1s")
    set_up(tmp_path, text_for(["g1"]))
    done = xm(tmp_path, "campaign", "c.toml", "--scheduler", "tcp://127.0.0.1:1", program=str(tmp_path / "program"))
    assert (done.status, done.out, len(done.err.splitlines())) == (2, "", 1) and "tcp://127.0.0.1:1" in done.err


def test_the_runs_of_the_second_simulator(tmp_path: Path) -> None:
    """Of a system of two loops: a flip of a register that no instruction uses stays, and one of pc is a health event."""
    pytest.importorskip("distributed")
    text = text_for(["g5", "pc"], "others = false", "bits = [30]").replace(f"ticks = {TICKS}", "ticks = 2200")
    set_up(tmp_path, text)
    (tmp_path / "program").write_text(f'#!/bin/sh\nexec "{SECOND}" "$@"\n')
    done = campaign(tmp_path)
    assert done.err == "", done
    assert {row["place"]: row["outcome"] for row in rows(tmp_path)} == {"": "met", "g5": "masked", "pc": "dead"}
    assert {row["place"]: row["detected"] for row in rows(tmp_path)} == {"": "0", "g5": "0", "pc": "1"}


def test_a_system_is_built_with_other_plans_and_images(tmp_path: Path) -> None:
    """By the description and its .toml file: each plan with each image is a container of its own."""
    from conftest import SYSTEMS

    folder = SYSTEMS / "queue"
    text = (folder / "queue.xml").read_text()
    (tmp_path / "queue.xml").write_text(text)
    (tmp_path / "other.xml").write_text(text.replace('name="queue"', 'name="other"'))
    lines = [f'{name} = "{folder / name}.elf"' for name in ("producer", "consumer")]
    (tmp_path / "queue.toml").write_text("\n".join(["[programs]", *lines, "[run]", "frames = 2", ""]))
    image = (folder / "producer.elf").read_bytes()
    assert image.count(b"messages sent") == 1
    (tmp_path / "other.elf").write_bytes(image.replace(b"messages sent", b"MESSAGES SENT"))
    images = f'["{folder}/producer.elf", "other.elf"]'
    (tmp_path / "c.toml").write_text(f'system = "queue.xml"\nplans = ["queue.xml", "other.xml"]\n[images]\nproducer = {images}\n')
    os.environ["XM_RUN"], before = str(SECOND), os.environ.get("XM_RUN")
    try:
        campaign = Campaign(read_campaign(str(tmp_path / "c.toml")))
        campaign.build()
    finally:
        os.environ.pop("XM_RUN")
        os.environ.update({"XM_RUN": before} if before else {})
    labels = [dict(setup.labels) for setup, _ in campaign.setups()]
    plans, images_varied = ("queue.xml", "other.xml"), ("producer.elf", "other.elf")
    assert labels == [{"plan": plan, "image producer": image} for plan, image in itertools.product(plans, images_varied)]
    assert len({setup.container for setup, _ in campaign.setups()}) == 4
    assert {setup.ticks for setup, _ in campaign.setups()} == {2 * campaign.containers[0].system.plans[0].frame}


# What goes to workers, without processes of their own: a client that does each task at once, in this one.


class Lost(Exception):
    """Stands for a task that is given up after its workers were lost."""


class Future:
    def __init__(self, key: str, status: str, value: object) -> None:
        self.key, self.status, self.value = key, status, value

    def result(self) -> object:
        return self.value

    exception = result

    def release(self) -> None:
        pass


class FakeClient:
    """A client, and the module that it comes from. Tasks that have a run of a place in `killing` lose their workers."""

    KilledWorker = Lost

    def __init__(self, killing: set[str]) -> None:
        self.killing, self.futures = killing, list[Future]()
        self.tasks: list[int] = []

    def submit(self, task: Callable[..., object], *given: object, key: str, pure: bool) -> Future:
        given = tuple(one.result() if isinstance(one, Future) else one for one in given)
        cases = given[1] if task is do_batch else ()
        if any(upset.place in self.killing for case in cases for upset in case.upsets):  # type: ignore[attr-defined]
            return Future(key, "error", Lost())
        self.tasks.append(len(cases))  # type: ignore[arg-type]
        return Future(key, "finished", task(*given))

    def as_completed(self, raise_errors: bool) -> "FakeClient":
        return self

    def add(self, future: Future) -> None:
        self.futures.append(future)

    def __next__(self) -> Future:
        return self.futures.pop(0)

    def nthreads(self) -> dict[str, int]:
        return {"one": 1}

    def run(self, function: Callable[..., object], *given: object, on_error: str) -> None:
        function(*given)


def here(folder: Path, monkeypatch: pytest.MonkeyPatch, *words: str, killing: set[str] = set()) -> tuple[int, FakeClient]:
    """Does the campaign of a folder in this process."""
    client = FakeClient(killing)
    monkeypatch.setattr("xm_tools.cluster.distributed", lambda: client)
    monkeypatch.setattr("xm_tools.cluster.client_of", lambda workers, scheduler: contextlib.nullcontext(client))
    monkeypatch.setenv("XM_RUN", str(folder / "program"))
    monkeypatch.chdir(folder)
    return main(["campaign", "c.toml", *words]), client


def table_of(folder: Path) -> dict[str, str]:
    base = sqlite3.connect(folder / "c.sqlite")
    return {place or "": outcome for place, outcome in base.execute("SELECT place, outcome FROM runs")}


def test_a_campaign_in_one_process(tmp_path: Path, monkeypatch: pytest.MonkeyPatch, capsys: pytest.CaptureFixture[str]) -> None:
    """As by workers; what is there is not repeated, and the folders of runs that failed are kept."""
    set_up(tmp_path, text_for(list(TRUTH)))
    (tmp_path / "scratch").mkdir()
    assert here(tmp_path, monkeypatch, "--scratch", "scratch")[0] == 1
    assert table_of(tmp_path) == {**TRUTH, "": "met"}
    assert capsys.readouterr().out.splitlines()[-4] == "other partitions with the same script: 6 compared, 1 differ; 1 had another script"
    assert list((tmp_path / "scratch").iterdir()) == [] and len(list((tmp_path / "c.runs").iterdir())) == 2
    before = len(calls(tmp_path))
    assert here(tmp_path, monkeypatch)[0] == 1
    assert ", and 8 were there in c.sqlite\n" in capsys.readouterr().out
    assert calls(tmp_path)[before:] == ["", "100 0 g7 3"]
    set_up(tmp_path, text_for(["g1", "g2", "w5"], 'failed = "masked"\nkeep = "none"'))
    assert here(tmp_path, monkeypatch)[0] == 1
    assert "c: 1 runs in " in capsys.readouterr().out
    assert here(tmp_path, monkeypatch, "--results", "new.sqlite", "--keep", "none")[0] == 1 and not (tmp_path / "none").exists()


def test_a_task_whose_worker_is_lost_is_done_by_halves(
    tmp_path: Path, monkeypatch: pytest.MonkeyPatch, capsys: pytest.CaptureFixture[str]
) -> None:
    """Only the run that loses it is not done; the next call does it."""
    set_up(tmp_path, text_for(["g1", "g2", "w2", "w4-w9"]))
    assert here(tmp_path, monkeypatch, killing={"w2"})[0] == 2
    lines = PROGRESS.sub("", capsys.readouterr().err)
    assert lines == "xm: 1 runs were lost with their workers: the same command does them again\n"
    assert len(table_of(tmp_path)) == 9 and "w2" not in table_of(tmp_path)
    (tmp_path / "program").write_text((tmp_path / "program").read_text().replace("w2) kill", "none) kill"))
    assert here(tmp_path, monkeypatch)[0] == 0
    assert len(table_of(tmp_path)) == 10


def test_workers_that_find_different_reports(tmp_path: Path, monkeypatch: pytest.MonkeyPatch, capsys: pytest.CaptureFixture[str]) -> None:
    """The run without upsets has to have the report that it had before."""
    set_up(tmp_path, text_for(["g1"]))
    assert here(tmp_path, monkeypatch)[0] == 0
    base = sqlite3.connect(tmp_path / "c.sqlite")
    base.execute("UPDATE setups SET report = 'another'")
    base.commit()
    base.close()
    set_up(tmp_path, text_for(["g1", "w5"]))
    assert here(tmp_path, monkeypatch)[0] == 2
    assert "another report than before, by the same program" in capsys.readouterr().err
    assert len(table_of(tmp_path)) == 2


def test_other_tools_of_a_worker(tmp_path: Path) -> None:
    with pytest.raises(Unusable, match="other tools"):
        do_batch(Common("x", b"", {}, tools="0" * 64), ())
    assert set(tools_files()) >= {"running.py", "reference.json", "commands/campaign.py", "page.html"}


def test_a_task_has_as_many_runs_as_take_a_second() -> None:
    """Never more than twice as many as the one before."""
    size, found = Size(), []
    for seconds in (0.1, 0.1, 0.1, 0.001, 0.001, 5.0):
        size.learn(DoneBatch((DoneRun(Verdict("same"), 0.8 * seconds, 0.2 * seconds),) * size.runs, {}))
        found.append(size.runs)
    assert found == [8, 10, 10, 20, 40, 1]


def test_tasks_get_shorter_where_few_runs_are_left() -> None:
    """So each worker has some, and none has much more to do than the others at the end."""
    for left, threads in ((1000, 4), (10, 4), (1, 4), (0, 1)):
        sizes = []
        while sum(sizes) < left:
            sizes.append(Size(100).of(left - sum(sizes), threads))
        assert sizes == sorted(sizes, reverse=True)
        for place, own in enumerate(sizes):
            assert own == max(10, min(100, -(-(left - sum(sizes[:place])) // (2 * threads))))


def test_files_of_many_setups(tmp_path: Path, monkeypatch: pytest.MonkeyPatch, capsys: pytest.CaptureFixture[str]) -> None:
    """Those of earlier runs are removed where there are many, and none that a run needs."""
    monkeypatch.setattr("xm_tools.running.MOST_FILES", 3)
    text = 'system = "built"\nticks = 4000\n[words]\nFIRST = { count = 4, sets = 9 }\nSECOND = { count = 4, sets = 3 }\n'
    set_up(tmp_path, text)
    needed = 'echo "END XM running'
    program = (tmp_path / "program").read_text()
    assert program.count(needed) == 1
    (tmp_path / "program").write_text(program.replace(needed, f'[ -r "$box" ] && [ -r "$input" ] && {needed}'))
    assert here(tmp_path, monkeypatch)[0] == 0
    assert "met               27  100.00 %\n" in capsys.readouterr().out


def test_the_program_behind_a_script(tmp_path: Path, monkeypatch: pytest.MonkeyPatch) -> None:
    """That of a checkout by the digest that the script says; another script is the program."""
    program, script = tmp_path / "crates/xm_run/out/xm_run", tmp_path / "xm_run"
    program.parent.mkdir(parents=True)
    program.write_bytes(b"\x7fELF program")
    monkeypatch.setenv("XM_RUN", str(script))
    for digest, found in ((digest_of(program.read_bytes()), program), ("0" * 64, script), ("none", script)):
        script.write_text(f"#!/bin/sh\necho 'xm_run 1'\necho 'program sha256={digest}'\n")
        script.chmod(0o755)
        assert program_file() == str(found)
    monkeypatch.setenv("XM_RUN", str(program))
    program.chmod(0o755)
    assert program_file() == str(program)
    monkeypatch.setenv("XM_RUN", str(tmp_path / "none"))
    with pytest.raises(Unusable):
        program_file()


def test_folders_of_workers_that_live_stay(tmp_path: Path) -> None:
    """A folder is removed once nobody holds its lock."""
    room, other = Room(str(tmp_path)), Room(str(tmp_path))
    other.lock.close()
    remove_left_over(str(tmp_path))
    assert list(tmp_path.iterdir()) == [room.path]
    room.remove()
    assert list(tmp_path.iterdir()) == []


# Results, the page and the progress.


def test_results_that_are_none(tmp_path: Path) -> None:
    (tmp_path / "text").write_text("no results")
    sqlite3.connect(tmp_path / "other").execute("CREATE TABLE other (x)").connection.commit()
    for name, reason in (("none", "No such file"), ("text", "file is not a database"), ("other", "not what `xm campaign` writes")):
        for words in (("--csv", name), ("--report", name, "p.html"), ("--repeat", name, "1", "d")):
            done = xm(tmp_path, "campaign", *words)
            assert (done.status, done.out, len(done.err.splitlines())) == (2, "", 1) and reason in done.err


def test_damaged_results(finished: tuple[Path, Done], tmp_path: Path, monkeypatch: pytest.MonkeyPatch, capsys: pytest.CaptureFixture[str]) -> None:
    """Rows with values that no campaign writes."""
    folder, _ = finished
    monkeypatch.chdir(tmp_path)
    monkeypatch.setenv("XM_RUN", "/none")
    content = (folder / "c.sqlite").read_bytes()
    for change in (
        "UPDATE runs SET place = 'w" + "9" * 50 + "'", "UPDATE runs SET outcome = x'ff'", "UPDATE runs SET tick = 'x'",
        "UPDATE setups SET inputs = '['", "UPDATE setups SET container = 'x'", "UPDATE files SET content = x'00'",
        "UPDATE setups SET inputs = '[[0, {\"seed\": 1, \"name\": \"x\", \"number\": 1, \"count\": -1, \"low\": 0, \"high\": 0}]]'",
        "UPDATE runs SET compared = 'x'", "DROP TABLE files", "UPDATE facts SET value = '9'",
    ):  # fmt: skip
        (tmp_path / "d.sqlite").write_bytes(content)
        base = sqlite3.connect(tmp_path / "d.sqlite")
        base.execute(change)
        base.commit()
        base.close()
        statuses = []
        for words in (["--csv", "d.sqlite"], ["--report", "d.sqlite", "p.html"], ["--repeat", "d.sqlite", "1", "d"]):
            statuses.append(main(["campaign", *words]))
            err = capsys.readouterr().err
            assert len(err.splitlines()) == (1 if statuses[-1] == 2 else 0), (change, words, err)
        assert 2 in statuses, change
    for number in range(0, len(content), 97):
        damaged = bytearray(content)
        damaged[number] ^= 0x41
        (tmp_path / "d.sqlite").write_bytes(bytes(damaged))
        status = main(["campaign", "--csv", "d.sqlite"])
        assert len(capsys.readouterr().err.splitlines()) == (1 if status == 2 else 0), number


def test_the_places_of_a_page() -> None:
    """Registers come before bytes, by their numbers; bytes are in rows of sixteen."""

    def row(place: str) -> Row:
        return Row(1, "", "", 1, "", "", 1, 0, place, 0, "", "same", "", 0, 0, 0, 0, 0.0, 0.0)

    places = ["w10", "4010001f", "g1", "w9", "pc", "40100000", "icc"]
    assert [place_name(key) for key in sorted(map(place_key, map(row, places)))] == [
        "P0 g1", "P0 icc", "P0 pc", "P0 w9", "P0 w10", "P0 40100000", "P0 40100010",
    ]  # fmt: skip


def test_progress_has_the_time_left(capsys: pytest.CaptureFixture[str]) -> None:
    clock = iter([100.0, 101.0, 100.0 + EVERY, 101.0 + EVERY, 100.0 + 2 * EVERY])
    lines = Lines(1000, 200, lambda: next(clock))
    for _ in range(4):
        lines.advance(100)
    assert capsys.readouterr().err.splitlines() == ["400 of 1000 runs, about 30 s left", "600 of 1000 runs, about 20 s left"]
    assert [time_in_words(seconds) for seconds in (0.4, 89, 600, 90 * 60, 36000)] == ["0 s", "89 s", "10 min", "1.5 h", "10.0 h"]
