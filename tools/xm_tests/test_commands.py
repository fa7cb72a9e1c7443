"""The commands over runs of the example systems: what each prints, and how it ends."""

import csv
import io
import json
import os
import re
import resource
import shutil
import subprocess
import sys
from pathlib import Path
from xml.etree import ElementTree

import pytest

from conftest import ROOT, SECOND, SUPERVISOR, SYSTEMS, XM, built, files_with, program_of_user, xm
from xm_tools.command import COMMANDS
from xm_tools.groups import group_of, steering_lines
from xm_tools.symbols import read_symbols
from xm_tools.systems import read_system

SENSOR = ROOT / "tools/xm_tests/data/sensor.elf"
QUEUE = {"producer": "producer.elf", "consumer": "consumer.elf"}
SECONDS = 0.5
COMPILER = "sparc64-linux-gnu-gcc"


# What all have in common.


def test_help_lists_every_command(tmp_path: Path) -> None:
    done = xm(tmp_path, "--help")
    assert (done.status, done.err) == (0, "")
    assert re.findall(r"^  xm ([a-z-]+)", done.out, re.M) == [command.name for command in COMMANDS]


@pytest.mark.parametrize("name", [command.name for command in COMMANDS])
def test_every_command_has_help_and_refuses_other_words(tmp_path: Path, name: str) -> None:
    done = xm(tmp_path, name, "--help")
    assert (done.status, done.err) == (0, "")
    assert done.out.startswith(f"usage: xm {name}")
    done = xm(tmp_path, name, "--none", "1", "2", "3", "4")
    assert (done.status, done.out) == (2, "")
    assert done.err.startswith("xm: usage: xm ") and len(done.err.splitlines()) == 1


def test_what_is_no_command(tmp_path: Path) -> None:
    done = xm(tmp_path, "nothing")
    assert (done.status, done.out, done.err) == (2, "", "xm: nothing is no command: xm --help lists them\n")


CALLS = [
    ("check-description", "x.xml"), ("why", "x"), ("build", "x.xml", "o"), ("run", "x"), ("core", "x"), ("core", "x", "y"), ("script", "show", "x"),
    ("script", "make", "x", "y"), ("flows", "x"), ("expect", "x", "y"), ("compare", "x", "y"), ("export", "--json", "x"), ("view", "x", "y", "z"),
    ("picture", "x", "y", "z"), ("campaign", "x"), ("campaign", "--csv", "x"), ("campaign", "--report", "x", "y"), ("campaign", "--repeat", "x", "1", "y"),
]  # fmt: skip


@pytest.mark.parametrize("words", CALLS)
def test_a_file_that_is_not_there(tmp_path: Path, words: tuple[str, ...]) -> None:
    done = xm(tmp_path, *words)
    assert (done.status, done.out, len(done.err.splitlines())) == (2, "", 1)
    assert "No such file" in done.err


@pytest.mark.parametrize("words", CALLS)
def test_a_folder_in_the_place_of_a_file(tmp_path: Path, words: tuple[str, ...]) -> None:
    (tmp_path / "x").mkdir()
    (tmp_path / "x.xml").mkdir()
    done = xm(tmp_path, *words)
    assert (done.status, done.out, len(done.err.splitlines())) == (2, "", 1)


def test_a_closed_output_is_no_traceback(supervisor: Path) -> None:
    words = f"{XM} export --json report.txt | head -c 1"
    done = subprocess.run(["bash", "-c", words], cwd=supervisor, capture_output=True, text=True, check=False)
    assert (done.stdout, done.stderr) == ("{", "")


def test_an_output_that_is_full(supervisor: Path) -> None:
    done = subprocess.run(
        ["bash", "-c", f"{XM} export --json report.txt > /dev/full"], cwd=supervisor, capture_output=True, text=True, check=False
    )
    assert done.returncode == 2
    assert len(done.stderr.splitlines()) == 1 and "No space left" in done.stderr


@pytest.mark.parametrize("words", [("--help",), *((command.name, "--help") for command in COMMANDS), *CALLS])
def test_each_command_starts_within_half_a_second(tmp_path: Path, words: tuple[str, ...]) -> None:
    """By the time of the processor, so that it does not matter what else the machine does."""
    before = resource.getrusage(resource.RUSAGE_CHILDREN)
    xm(tmp_path, *words)
    after = resource.getrusage(resource.RUSAGE_CHILDREN)
    assert after.ru_utime + after.ru_stime - before.ru_utime - before.ru_stime < SECONDS


# Building and running.


def test_a_system_is_built_and_run_by_names(supervisor: Path) -> None:
    """The report, with the numbers put back for the names, is the committed one."""
    report = (SYSTEMS / "supervisor/supervisor.report").read_text()
    assert (supervisor / "report.txt").read_text() == report
    done = xm(supervisor, "run", "out")
    assert (done.status, done.err) == (0, "")
    for number, name in enumerate(SUPERVISOR):
        report = re.sub(rf"^(\[\d+\] |END )P{number} ", rf"\g<1>{name:10} ", report, flags=re.M)
    assert done.out == report
    assert (supervisor / "out/report.txt").read_text() == (SYSTEMS / "supervisor/supervisor.report").read_text()


def test_what_a_build_prints(tmp_path: Path) -> None:
    done = built(tmp_path, "queue", QUEUE)
    assert (done.status, done.err) == (0, "")
    assert done.out.splitlines()[0] == "configuration ok length=243" or done.out.startswith("configuration ok length=")
    assert [line.split(":")[0] for line in done.out.splitlines()[1:]] == [
        "P0 producer",
        "P1 consumer",
        "container out/system.xmp",
    ]
    header = (tmp_path / "out/areas.h").read_text()
    assert "#define PRODUCER_PARTITION 0\n#define PRODUCER_AREA_BASE 0x40100000\n#define PRODUCER_AREA_SIZE 0x10000\n" in header
    assert '#define CONSUMER_PORT_0 "' in header
    assert (tmp_path / "out/consumer.ld").read_text().splitlines() == [
        "STACK_BASE = 0x40180000;",
        "STACK_SIZE = 0x10000;",
        "DATA_BASE = 0x40190000;",
        "DATA_SIZE = 0x30000;",
        "CODE_BASE = 0x401c0000;",
        "CODE_SIZE = 0x40000;",
        "INCLUDE guarded.ld",
    ]


BAD_FILES = [
    ('[programs]\nproducer = "a.elf"\n', "queue.toml: partition consumer has no program"),
    ('[programs]\nnobody = "a.elf"\n', "queue.toml: nobody is no partition of the description: producer, consumer"),
    ("[programs]\nproducer = 3\n", "queue.toml: producer is no file's name"),
    ("[programs]\nproducer = []\n", "queue.toml: producer has no sources"),
    ("programs = 3\n", "queue.toml: programs is no table"),
    ("[other]\n", "queue.toml: other is none of programs, inputs, run"),
    (
        '[programs]\nproducer = "a"\nconsumer = "b"\n[run]\nframes = -1\n',
        "queue.toml: frames is no number from 0 to 4000000000",
    ),
    ('[programs]\nproducer = "a"\nconsumer = "b"\n[run]\nframe = 1\n', "queue.toml: run has frames alone, and not frame"),
    ("[", "queue.toml: Invalid initial character for a key part (at end of document)"),
]


@pytest.mark.parametrize("text, reason", BAD_FILES)
def test_a_file_beside_the_description_that_is_wrong(tmp_path: Path, text: str, reason: str) -> None:
    (tmp_path / "queue.xml").write_text((SYSTEMS / "queue/queue.xml").read_text())
    (tmp_path / "queue.toml").write_text(text)
    done = xm(tmp_path, "build", "queue.xml", "out")
    assert (done.status, done.out, done.err) == (2, "", f"xm: {reason}\n")


def test_inputs_by_name(tmp_path: Path) -> None:
    toml = f'[inputs]\nfilter = "{SYSTEMS}/filter/readings.bin"'
    page = (SYSTEMS / "filter/README.md").read_text()
    frames = re.search(r"--frames (\d+)", page)
    assert frames and built(tmp_path, "filter", {"filter": "filter.elf"}, toml).status == 0
    assert xm(tmp_path, "run", "out", "--frames", frames[1]).err == ""
    assert (tmp_path / "out/report.txt").read_text() == (SYSTEMS / "filter/filter.report").read_text()


def test_a_report_whose_console_failed_is_shown(tmp_path: Path) -> None:
    """The program prints its whole report before it ends with status 5."""
    (tmp_path / "out").mkdir()
    built = {"container": "system.xmp", "names": ["a"], "words": ["a"], "inputs": {}, "frames": 1}
    (tmp_path / "out/built.json").write_text(json.dumps(built))
    program = tmp_path / "program"
    program.write_text("#!/bin/sh\necho '[2] P0 CON x'\necho 'xm_run: uart 0: failed' >&2\nexit 5\n")
    program.chmod(0o755)
    done = xm(tmp_path, "run", "out", program=str(program))
    assert (done.status, done.out, done.err) == (2, "[2] a CON x\n", "xm: xm_run: uart 0: failed\n")
    assert (tmp_path / "out/report.txt").read_text() == "[2] P0 CON x\n"


def test_colours_where_the_output_is_a_terminal(supervisor: Path) -> None:
    pytest.importorskip("rich")
    done = subprocess.run(["script", "-qec", f"{XM} run out", "/dev/null"], cwd=supervisor, capture_output=True, text=True, check=False,
                          env={**os.environ, "XM_RUN": program_of_user() or str(SECOND), "TERM": "xterm-256color"})  # fmt: skip
    plain = re.sub(r"\x1b\[[0-9;]*m", "", done.stdout).replace("\r", "")
    assert "\x1b[" in done.stdout
    assert "[2271] sensor     CON start 0\\n\n" in plain


def test_a_run_goes_on_from_a_saved_machine(tmp_path: Path, whole_program: str) -> None:
    """Without the words of the build: what is left of them is in the saved machine."""
    toml = f'[inputs]\nfilter = "{SYSTEMS}/filter/readings.bin"'
    assert built(tmp_path, "filter", {"filter": "filter.elf"}, toml).status == 0
    reports = []
    for words in (("--frames", "13"), ("--frames", "5", "--save", "half.xms"), ("--frames", "8", "--from", "half.xms")):
        assert xm(tmp_path, "run", "out", *words, program=whole_program).status == 0
        reports.append((tmp_path / "out/report.txt").read_text().splitlines())
    whole, first, rest = reports
    assert rest[0] == whole[0]
    assert [line for line in first[1:] if not line.startswith("END ")] + rest[1:] == whole[1:]


def test_words_of_a_run_that_are_wrong(supervisor: Path) -> None:
    for words, reason in [
        (("--frames", "1", "--ticks", "2"), "usage: "), (("--core", "nobody=x"), "nobody is no partition: supervisor, sensor, payload"),
        (("--core", "x"), "usage: "), (("--frames", "x"), "usage: "),
    ]:  # fmt: skip
        done = xm(supervisor, "run", "out", *words)
        assert (done.status, done.out) == (2, "") and done.err.startswith(f"xm: {reason}"), words


MINE = """\
#include <xm.h>
#include "lines.h"
#include "areas.h"

int main(void)
{
    put_text("partition ");
    put_unsigned(CHAINS_PARTITION);
    print_line();
    return 0;
}
"""


@pytest.mark.skipif(not shutil.which(COMPILER), reason="there is no compiler for guests")
def test_a_program_of_sources(tmp_path: Path) -> None:
    """It is linked for its partition's area and number, with the names of areas.h, and again after a change."""
    data = ROOT / "crates/guest_suite/data"
    (tmp_path / "three.xml").write_text((data / "three.xml").read_text())
    (tmp_path / "three.toml").write_text(
        f'[programs]\nprimes = "{data}/primes.elf"\nchains = ["mine.c"]\nhashes = "{data}/hashes.elf"\n'
    )
    for text in ("partition", "number"):
        (tmp_path / "mine.c").write_text(MINE.replace("partition", text))
        done = xm(tmp_path, "build", "three.xml", "out")
        assert (done.status, done.err) == (0, "") and " entry=401c0000 of out/chains.elf\n" in done.out
        assert f"chains CON {text} 1\\n\n" in xm(tmp_path, "run", "out", "--frames", "2").out
    (tmp_path / "mine.c").write_text("int main(void) { return missing; }\n")
    done = xm(tmp_path, "build", "three.xml", "out")
    assert done.status == 2 and done.err.startswith("xm: not linked: ") and len(done.err.splitlines()) == 1


@pytest.mark.skipif(not shutil.which(COMPILER), reason="there is no compiler for guests")
def test_the_linker_script_of_a_partition(supervisor: Path) -> None:
    (supervisor / "mine.c").write_text("int main(void) { return 0; }\n")
    guests = ROOT / "examples/guests"
    flags = "-O2 -m32 -mcpu=v8 -ffreestanding -fno-pic -fno-pie -nostdlib -static -no-pie -Wl,-m,elf32_sparc -Wl,--build-id=none -Wl,-n".split()
    words = [
        COMPILER,
        *flags,
        f"-I{guests}",
        f"-L{guests}",
        "-T",
        "out/payload.ld",
        *(f"{guests}/{name}" for name in ("start.S", "start.c", "bare.c")),
        "mine.c",
        "-o",
        "mine.elf",
    ]
    subprocess.run(words, cwd=supervisor, check=True)
    subprocess.run([f"{guests}/copy_data", "mine.elf"], cwd=supervisor, check=True)
    symbols = read_symbols(str(supervisor / "mine.elf"))
    assert symbols.where(0x40240000) == "_start"
    assert [start for start, _ in symbols.segments] == [0x40210000, 0x40240000]


@pytest.mark.skipif(not shutil.which(COMPILER), reason="there is no compiler for guests")
def test_sources_of_a_partition_without_the_three_areas(tmp_path: Path) -> None:
    (tmp_path / "x.xml").write_text((ROOT / "docs/xm_cf_example.xml").read_text())
    (tmp_path / "x.toml").write_text(f'[programs]\ncontrol = ["mine.c"]\npayload = "{SYSTEMS}/supervisor/sensor.elf"\n')
    (tmp_path / "mine.c").write_text("int main(void) { return 0; }\n")
    done = xm(tmp_path, "build", "x.xml", "out")
    assert (done.status, len(done.err.splitlines())) == (2, 1)
    assert done.err.startswith("xm: not linked: areas: x.xml: a program needs three areas")


def test_the_area_of_a_stack_is_not_warned_of(supervisor: Path) -> None:
    """Nothing of a program is in it before it runs."""
    assert "warning" not in xm(supervisor, "build", str(SYSTEMS / "supervisor/supervisor.xml"), "again").out


def test_areas_without_a_program_are_warned_of(tmp_path: Path) -> None:
    (tmp_path / "x.xml").write_text((ROOT / "docs/xm_cf_example.xml").read_text())
    programs = f'control = "{SYSTEMS}/supervisor/supervisor.elf"\npayload = "{SYSTEMS}/supervisor/sensor.elf"\n'
    (tmp_path / "x.toml").write_text(f"[programs]\n{programs}")
    done = xm(tmp_path, "build", "x.xml", "out")
    assert "P1 payload: warning: its program has nothing in the area at 40200000\n" in done.out


# Core files and scripts.


def test_a_core_file_at_the_instruction_that_fails(supervisor: Path) -> None:
    """The state at the tick of the HM line. The addresses are those of the objects' tools, the line that of sensor.c that divides."""
    done = xm(supervisor, "core", "sensor.core", str(SENSOR))
    lines = done.out.splitlines()
    assert (done.status, done.err) == (0, "")
    assert lines[0] == "P1 ready resets=0 status=0 exec=552"
    assert lines[1] == "pc 401c01a4 main+0x64 at sensor.c:34"
    calls = ["#0 401c01a4 main+0x64 at sensor.c:34", "#1 401c0294 start_program+0xc at bare.c:9", "#2 401c006c _start+0x6c at start.S:32"]
    assert [line for line in lines if line.startswith("#")] == calls
    assert "stack: at most 193 of 65536 bytes used, 4018fec8 now" in lines
    source = (SYSTEMS / "supervisor/sensor.c").read_text().splitlines()
    assert "reading(count)" in source[34 - 1]


def test_a_program_file_that_shows_nothing_of_a_core_file(supervisor: Path) -> None:
    done = xm(supervisor, "core", "sensor.core", str(SYSTEMS / "supervisor/sensor.elf"))
    assert done.out.splitlines()[-1] == f"note: {SYSTEMS}/supervisor/sensor.elf has no symbols: link it with -g"
    xm(supervisor, "run", "out", "--ticks", "8011", "--core", "payload=payload.core")
    done = xm(supervisor, "core", "payload.core", str(SENSOR))
    assert done.out.splitlines()[-1] == f"note: the program counter is outside of {SENSOR}: is it the program of P2?"


def test_a_health_log_in_a_core_file(supervisor: Path) -> None:
    xm(supervisor, "run", "out", "--ticks", "8012", "--core", "sensor=later.core")
    lines = xm(supervisor, "core", "later.core").out.splitlines()
    assert lines[0] == "P1 halted resets=0 status=0 exec=553"
    assert "health 0 [8011] SPARC_DIVIDE_EXCEPTION 401c01a4 HALT" in lines


def test_a_script_is_shown_and_made_again(tmp_path: Path) -> None:
    content = next(content for case, _, content in files_with(b"XMSC") if "refused" not in case.wanted and len(content) > 60)
    (tmp_path / "s.scr").write_bytes(content)
    (tmp_path / "s.txt").write_text(xm(tmp_path, "script", "show", "s.scr").out)
    done = xm(tmp_path, "script", "make", "s.txt", "again.scr")
    assert (done.status, done.err) == (0, "") and done.out.startswith("ok ticks=")
    assert (tmp_path / "again.scr").read_bytes() == content


def test_a_partition_alone_under_an_order_by_hand(tmp_path: Path, whole_program: str) -> None:
    """The program takes a script that was written by hand: a warm reset in the middle of the first slot of another partition."""
    assert built(tmp_path, "supervisor", SUPERVISOR).err == ""
    (tmp_path / "s.txt").write_text("script partition=2\n[6000] order=warm:5\n[12000] end\n")
    assert xm(tmp_path, "script", "make", "s.txt", "s.scr", "--slots", "out/system.xmp").out == "ok ticks=12000\n"
    done = subprocess.run(
        [whole_program, "alone", "out/system.xmp", "2", "s.scr"], cwd=tmp_path, capture_output=True, text=True, check=False
    )
    lines = done.stdout.splitlines()
    assert [line.split("] ")[1] for line in lines[:3]] == ["P2 CON picture 1\\n", "P2 WARM", "P2 CON picture 1\\n"]
    assert "[6000] P2 WARM" in lines and lines[-1].startswith("END P2 idle resets=1 ")


def test_a_script_does_not_overwrite_its_text(tmp_path: Path) -> None:
    (tmp_path / "s.txt").write_text("script partition=0\n[0] away\n")
    done = xm(tmp_path, "script", "make", "s.txt", "./s.txt")
    assert (done.status, done.err) == (2, "xm: ./s.txt: it is s.txt, which is read\n")


# Flows.


def test_who_can_reach_whom(tmp_path: Path, whole_program: str) -> None:
    """The groups of docs/SEPARATION.md; nobody steers."""
    done = xm(tmp_path, "flows", str(ROOT / "examples/flows/flight.xml"))
    assert (done.status, done.err) == (0, "")
    assert done.out.splitlines()[4:] == [
        "P0 sensors: group P0 sensors; steered by nobody",
        "P1 control: group P0 sensors, P1 control, P2 actuator; steered by nobody",
        "P2 actuator: group P0 sensors, P1 control, P2 actuator; steered by nobody",
        "P3 display: group P0 sensors, P1 control, P2 actuator, P3 display; steered by nobody",
        "unsteered yes",
    ]


def test_who_can_steer_whom(tmp_path: Path, whole_program: str) -> None:
    """A partition with the flag, and one whose health table starts the maintenance plan."""
    done = xm(tmp_path, "flows", str(ROOT / "docs/xm_cf_example.xml"))
    assert done.out.splitlines()[2:] == [
        "P0 control: group P0 control, P1 payload; steered by P1 payload",
        "P1 payload: group P0 control, P1 payload; steered by P0 control",
        "steers: P0 control (flag system)",
        "steers: P1 payload (XM_HM_EV_SPARC_DIVIDE_EXCEPTION XM_HM_AC_SWITCH_TO_MAINTENANCE)",
        "unsteered no",
    ]


def test_steering_is_the_program_s(tmp_path: Path, whole_program: str) -> None:
    """Where the tool finds who can steer, and by what, the program does; both from the same description."""
    for path in (ROOT / "docs/xm_cf_example.xml", ROOT / "examples/flows/flight.xml", *sorted(SYSTEMS.glob("*/*.xml"))):
        done = subprocess.run([whole_program, "flows", "--steering", str(path)], cwd=tmp_path, capture_output=True, text=True, check=False)
        system = read_system(str(path))
        groups = [group_of(system, partition.number).line() for partition in system.partitions]
        assert done.stdout.splitlines() == groups + steering_lines(system), path


# Expectations and comparisons.

MET = """\
P2 no HM                                       # the payload has no health event
P1 HM *DIVIDE* times 3
P1 HM at least 3
P1 HM at most 3
P0 within 6ms of P1 HM CON "sensor: event 9 *"
P0 within 6ms of any P1 HM CON "sensor: event 9 *"
P0 within 1s of any P2 HM CON
P0 within 200us of [42000] CON "plan 1"
supervisor CON "maintenance after plan 0"
P1 resets = 0
P1 exec < 626
P2 ends idle
XM ends running
XM plan 1
XM ticks = 54000
no SUSPEND
XM PLAN 1 times 1
P1 COLD
P0 succeeds
sensor succeeds
"""
UNMET = [
    ("no HM", "3 found, the first is [8011] P1 HM XM_HM_EV_SPARC_DIVIDE_EXCEPTION 401c01a4 XM_HM_AC_HALT"),
    ("P2 CON times 8", "7 found"), ("P2 TRACE", "0 found"), ("P1 resets > 0", "resets is 0"), ("P2 ends ready", "ends is idle"),
    ("P0 within 4ms of P1 HM CON sensor*", "after [8011] the first is at [12508], 4497 us later"), ("P7 ends idle", "there is no P7"),
    ("P0 within 4ms of any P1 HM CON sensor*", "after [8011] the first is at [12508], 4497 us later"),
    ("P0 within 1s of P1 HALT CON sensor*", "after [44607] none comes"), ("P0 within 1s of P2 HM CON", "what it is measured from does not come"),
    ("all succeed", "P2 ends idle"), ("P2 succeeds", "P2 ends idle"), ("P7 succeeds", "there is no P7"),
]  # fmt: skip
BAD_LINES = [
    ("P1", "a kind of line is missing at the end"), ("P1 WHAT", "WHAT is no kind of line: CON, TRACE, HM, UPSET, PLAN, HALT, SUSPEND, RESUME, COLD, WARM"),
    ("nobody HM", "nobody is no partition: P0, P1 .., XM, with --names SYSTEM also a name of it"), ("P1 within 3 of [0] HM", "3 is no time: 20ms, 500us, 1s"),
    ("P1 within 3ms of any nobody HM", "nobody is no partition: P0, P1 .., XM, with --names SYSTEM also a name of it"),
    ("P1 CON x times", "a number is missing at the end"), ("P1 CON x at three", "after `at` comes `least` or `most`"), ("P1 ends running", "running is no state in which P1 ends"),
    ("XM resets 0", "XM has no resets at its end"), ('P1 CON "x', "No closing quotation"),
    ("P1 HALT more", "more does not belong here"), ("all succeed more", "more does not belong here"),
    ("XM succeeds", "succeeds is no kind of line: CON, TRACE, HM, UPSET, PLAN, HALT, SUSPEND, RESUME, COLD, WARM"), ("XM exec 3", "XM has no exec at its end"), ("P1 plan 1", "P1 has no plan at its end"),
]  # fmt: skip


def test_expectations_that_are_met(supervisor: Path) -> None:
    (supervisor / "met").write_text(MET)
    done = xm(supervisor, "expect", "report.txt", "met", "--names", "out/system.xmp", "--junit", "junit.xml")
    assert (done.status, done.err) == (0, "")
    assert [line for line in done.out.splitlines() if ": met: " not in line] == ["report.txt: 20 met, 0 not met"]
    suite = ElementTree.parse(supervisor / "junit.xml").getroot().find("testsuite")
    assert suite is not None and (suite.get("tests"), suite.get("failures")) == ("20", "0")


@pytest.mark.parametrize("words, reason", UNMET)
def test_an_expectation_that_is_not_met(supervisor: Path, words: str, reason: str) -> None:
    (supervisor / "unmet").write_text(f"{words}\n")
    done = xm(supervisor, "expect", "report.txt", "unmet", "--junit", "junit.xml")
    assert (done.status, done.err) == (1, "")
    assert done.out.splitlines() == [f"unmet:1: not met: {words}: {reason}", "report.txt: 0 met, 1 not met"]
    failure = ElementTree.parse(supervisor / "junit.xml").getroot().find("testsuite/testcase/failure")
    assert failure is not None and failure.get("message") == reason


# Two partitions, of which the first has 2 ms of each frame and the second one the next 2 ms.
ENDS = """\
SYSTEM parts=2 plans=1 ticks=28000
{}[16445] P0 HALT
[18445] P1 HALT
END P0 halted resets={} exec=40 pc=4010004c
END P1 halted resets=0 exec=40 pc=4018004c
END XM running plan=0 clock=28000 ticks=28000
"""
ERROR = "[{}] P0 HM XM_HM_EV_PARTITION_ERROR 00000003 XM_HM_AC_{}\n"
SUCCESSES = [
    ("", 0, None),
    (ERROR.format(4400, "IGNORE"), 0, "[4400] P0 HM XM_HM_EV_PARTITION_ERROR 00000003 XM_HM_AC_IGNORE"),
    (ERROR.format(4400, "PARTITION_WARM_RESET") + "[4400] P0 WARM\n", 1, None),
    (ERROR.format(16445, "HALT"), 0, "[16445] P0 HM XM_HM_EV_PARTITION_ERROR 00000003 XM_HM_AC_HALT"),
    (ERROR.format(16445, "HALT").replace("PARTITION_ERROR", "SPARC_DATA_ACCESS"), 0, "[16445] P0 HM XM_HM_EV_SPARC_DATA_ACCESS 00000003 XM_HM_AC_HALT"),
    ("[4400] P0 HM XM_HM_EV_SPARC_DATA_ACCESS 00000003 XM_HM_AC_IGNORE\n", 0, None),
]  # fmt: skip


@pytest.mark.parametrize("lines, resets, reason", SUCCESSES)
def test_whether_a_partition_succeeds(tmp_path: Path, lines: str, resets: int, reason: str | None) -> None:
    (tmp_path / "report.txt").write_text(ENDS.format(lines, resets))
    (tmp_path / "all").write_text("all succeed\n")
    done = xm(tmp_path, "expect", "report.txt", "all")
    found = f"not met: all succeed: {reason}" if reason else "met: all succeed"
    assert (done.status, done.err, done.out.splitlines()[0]) == (1 if reason else 0, "", f"all:1: {found}")


def test_a_partition_that_another_one_halts(tmp_path: Path) -> None:
    """Whose slot it is, the system says: without it an order to the partition is not seen."""
    (tmp_path / "report.txt").write_text(ENDS.format("[13445] P1 HALT\n", 0).replace("[18445] P1 HALT\n", ""))
    (tmp_path / "all").write_text("all succeed\n")
    assert xm(tmp_path, "expect", "report.txt", "all").status == 0
    done = xm(tmp_path, "expect", "report.txt", "all", "--names", str(SYSTEMS / "queue/queue.xml"))
    assert (done.status, done.err) == (1, "")
    assert done.out.splitlines()[0] == "all:1: not met: all succeed: [13445] P1 HALT, in no slot of P1"


@pytest.mark.parametrize("words, reason", BAD_LINES)
def test_a_line_that_is_no_expectation(supervisor: Path, words: str, reason: str) -> None:
    (supervisor / "bad").write_text(f"no HALT\n{words}\n")
    done = xm(supervisor, "expect", "report.txt", "bad")
    assert (done.status, done.out, done.err) == (2, "", f"xm: bad:2: {reason}\n")


def test_reports_that_are_the_same(supervisor: Path) -> None:
    done = xm(supervisor, "compare", "report.txt", "report.txt", "--names", "out/system.xmp")
    assert (done.status, done.out) == (0, "P0 supervisor: the same\nP1 sensor: the same\nP2 payload: the same\nXM: the same\n")


def test_the_first_tick_that_differs(supervisor: Path) -> None:
    """Another partition's console text with the marks of a line does not make a difference."""
    text = (supervisor / "report.txt").read_text()
    (supervisor / "other.txt").write_text(text.replace("reading 250", "reading [3] P2 CON", 2).replace("exec=1445", "exec=1446"))
    done = xm(supervisor, "compare", "report.txt", "other.txt")
    assert done.status == 1
    assert done.out.splitlines() == [
        "P0: the same",
        "P1: differs from tick 2535 on", "  report.txt: [2535] P1 CON reading 250\\n", "  other.txt: [2535] P1 CON reading [3] P2 CON\\n",
        "P2: ends otherwise", "  report.txt: END P2 idle resets=0 exec=1445 pc=40240140", "  other.txt: END P2 idle resets=0 exec=1446 pc=40240140",
        "XM: the same",
    ]  # fmt: skip


def test_a_partition_alone_is_compared_with_its_run(supervisor: Path) -> None:
    """What `alone` prints of a partition by the script of a run: its lines of the report, and that of its end."""
    lines = (supervisor / "report.txt").read_text().splitlines(keepends=True)
    own = [line for line in lines if re.match(r"(\[\d+\]|END) P1 ", line)]
    (supervisor / "alone.txt").write_text("".join(own))
    done = xm(supervisor, "compare", "report.txt", "alone.txt", "--names", "out/system.xmp")
    assert (done.status, done.out) == (0, "P1 sensor: the same\n")
    (supervisor / "alone.txt").write_text("".join([*own[:3], *own[4:]]))
    done = xm(supervisor, "compare", "alone.txt", "report.txt")
    assert (done.status, done.out.splitlines()[0]) == (1, "P1: differs from tick 8011 on")
    for text, number in (
        ("", 1),
        (own[0], 2),
        (own[0] + lines[3], 2),
        ("".join([*own, own[-1]]), len(own) + 1),
        (own[0] + "END P2 idle resets=0 exec=1 pc=40000000\n", 2),
    ):
        (supervisor / "alone.txt").write_text(text)
        done = xm(supervisor, "compare", "report.txt", "alone.txt")
        assert (done.status, done.out) == (2, "") and done.err.startswith(f"xm: alone.txt:{number}: "), text


# Exports.


def test_json_and_csv(supervisor: Path) -> None:
    lines = (supervisor / "report.txt").read_text().splitlines()[1:-4]
    found = json.loads(xm(supervisor, "export", "--json", "report.txt").out)
    assert [f"[{line['tick']}] {line['owner']} {line['kind']} {line['text']}".strip() for line in found["lines"]] == lines
    assert found["ends"][1] == {"owner": "P1", "name": "P1", "state": "halted", "resets": 0, "exec": 608, "pc": 0x401C0274}
    rows = list(csv.DictReader(io.StringIO(xm(supervisor, "export", "--csv", "report.txt", "--system", "supervisor.xml").out)))
    assert [f"[{row['tick']}] {row['owner']} {row['kind']} {row['text']}".strip() for row in rows] == lines
    assert {row["name"] for row in rows if row["owner"] == "P1"} == {"sensor"}


def test_a_trace_for_perfetto(supervisor: Path) -> None:
    found = json.loads(xm(supervisor, "export", "--perfetto", "report.txt", "--system", "out/system.xmp").out)["traceEvents"]
    assert {event["args"]["name"] for event in found if event["name"] == "thread_name"} == {"XM", *SUPERVISOR}
    slots = [(event["ts"], event["dur"]) for event in found if event["name"] == "slot" and event["tid"] == 3]
    assert slots == [(4000 + 6000 * frame, 2000) for frame in range(7)]
    halted = [(event["ts"], event["dur"]) for event in found if event["name"] == "halted" and event["tid"] == 2]
    assert halted == [(8012, 12860 - 8012), (20012, 24860 - 20012), (32012, 42162 - 32012), (44608, 54000 - 44608)]
    assert {"ph": "i", "s": "t", "ts": 2535, "pid": 1, "tid": 2, "name": "CON reading 250\\n"} in found


def changes(dump: str, name: str, scope: str) -> list[tuple[int, str]]:
    """The changes of a variable of a value change dump, by its scope and name."""
    head, _, body = dump.partition("$enddefinitions $end\n")
    found = re.search(rf"\$scope module {scope} \$end\n(?:\$var .*\n)*?\$var \w+ \d+ (\S+) {name} \$end", head)
    assert found
    tick, values = 0, []
    for line in body.splitlines():
        if line.startswith("#"):
            tick = int(line[1:])
        elif line[1:] == found[1] or line.split(" ")[-1] == found[1]:
            values.append((tick, line.split(" ")[0].removesuffix(found[1]) if " " not in line else line.split(" ")[0]))
    return values


def test_a_value_change_dump(supervisor: Path) -> None:
    dump = xm(supervisor, "export", "--vcd", "report.txt", "--system", "out/system.xmp").out
    assert changes(dump, "plan", "XM") == [(0, "b0"), (42000, "b1")]
    assert changes(dump, "state", "sensor")[:3] == [(0, "b0"), (8012, "b11"), (12860, "b0")]
    assert changes(dump, "HM", "sensor") == [(8011, "1"), (20011, "1"), (32011, "1")]
    assert changes(dump, "slot", "payload")[1:5] == [(4000, "1"), (6000, "0"), (10000, "1"), (12000, "0")]
    assert (4295, "spicture_1\\n") in changes(dump, "text", "payload")


def test_an_export_has_one_form(supervisor: Path) -> None:
    for words in (("report.txt",), ("--json", "--csv", "report.txt")):
        assert xm(supervisor, "export", *words).status == 2


def test_a_report_of_another_system(supervisor: Path) -> None:
    done = xm(supervisor, "export", "--json", "report.txt", "--system", str(ROOT / "examples/flows/flight.xml"))
    assert (done.status, done.err) == (2, "xm: report.txt:1: 3 partitions and 2 plans, and the system has 4 and 1\n")


# Installed.


@pytest.mark.skipif(not (ROOT / ".git").exists(), reason="what git keeps is installed")
def test_xm_where_it_is_installed(tmp_path: Path) -> None:
    """It is whole, calls the program beside it, finds the headers of guests, and is removed again."""
    (tmp_path / "version").write_text("xm_run 0\n")
    (tmp_path / "program").write_text('#!/bin/sh\necho "xm_run: $3: cannot read" >&2\nexit 3\n')
    (tmp_path / "program").chmod(0o755)
    root = tmp_path / "root"
    subprocess.run(
        [ROOT / "packaging/install", str(root), "/usr", str(tmp_path / "program"), str(tmp_path / "version")], check=True
    )
    environment = {"PATH": os.environ["PATH"]}
    installed = root / "usr/bin/xm"
    help_text = subprocess.run([installed, "--help"], capture_output=True, text=True, check=True, env=environment).stdout
    assert help_text == xm(tmp_path, "--help").out
    words = [installed, "build", str(root / "usr/share/xm_run/examples/systems/supervisor/supervisor.xml"), "out"]
    done = subprocess.run(words, cwd=tmp_path, capture_output=True, text=True, check=False, env=environment)
    assert (done.returncode, done.stderr) == (2, "xm: xm_run: out/system.xmc: cannot read\n")
    done = subprocess.run(
        words, cwd=tmp_path, capture_output=True, text=True, check=False, env={**environment, "XM_RUN": str(SECOND)}
    )
    assert (done.returncode, done.stderr) == (0, "")
    assert f"GUESTS = {root}/usr/share/xm_run/guests\n" in (tmp_path / "out/partition.mk").read_text()
    subprocess.run([ROOT / "packaging/uninstall", str(root), "/usr"], check=True)
    assert [path for path in root.rglob("*") if path.is_file()] == []


# The picture.


def test_a_picture_is_the_committed_one(supervisor: Path) -> None:
    """More of pictures is tried by tools/picture_test."""
    pytest.importorskip("matplotlib")
    done = xm(supervisor, "picture", "supervisor.xml", "report.txt", "p.svg")
    assert (done.status, done.out, done.err) == (0, "", "")
    assert (supervisor / "p.svg").read_bytes() == (ROOT / "docs/pictures/supervisor.svg").read_bytes()
    done = xm(supervisor, "picture", "supervisor.xml", "supervisor.xml", "p.svg")
    assert (done.status, done.err) == (2, "xm: supervisor.xml:1: not the first line of a report\n")


def test_the_python_is_that_of_debian() -> None:
    assert XM.read_text().startswith("#!/usr/bin/python3\n")
    assert sys.version_info >= (3, 11)
    assert program_of_user() is None or Path(program_of_user() or "").is_file()
