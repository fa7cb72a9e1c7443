"""The page of a run: what stands in it, and what a browser without a window makes of it."""

import html
import importlib
import re
import shutil
import subprocess
from pathlib import Path
from typing import Any

import pytest

from conftest import SYSTEMS, built, files_with, suite, xm
from xm_tools.course import Interval
from xm_tools.description import read_description
from xm_tools.following import course_of
from xm_tools.page import Message, Page, embedded
from xm_tools.report import read_report
from xm_tools.script import Cue, Script, Traffic, read_script, spelled

model: Any = importlib.import_module("model")
rows: Any = importlib.import_module("rows")
upsets: Any = importlib.import_module("upsets")
BROWSER = shutil.which("chromium")
SUPERVISOR_LINES = 33


@pytest.fixture(scope="session")
def page(supervisor: Path) -> Path:
    pytest.importorskip("plotly")
    done = xm(supervisor, "view", "supervisor.xml", "report.txt", "run.html")
    assert (done.status, done.out, done.err) == (0, "", "")
    return supervisor / "run.html"


def opened(page: Path, fragment: str = "") -> str:
    """What the browser has made of a page."""
    if BROWSER is None:
        pytest.skip("there is no chromium")
    words = [
        BROWSER,
        "--headless",
        "--no-sandbox",
        "--disable-gpu",
        "--virtual-time-budget=20000",
        "--dump-dom",
        f"file://{page}{fragment}",
    ]
    done = subprocess.run(words, capture_output=True, text=True, check=True, timeout=300)
    return done.stdout


def listed(dom: str) -> list[str]:
    return [
        html.unescape(line)
        for line in re.findall(r"<div>([^<]*)</div>", dom.split('<div id="lines">')[1].split("</div></div>")[0] + "</div>")
    ]


def ticks(dom: str) -> list[int]:
    return [int(text) for text in re.findall(r'class="xtick"><text[^>]*>([0-9]+)<', dom)]


def test_a_page_needs_nothing_else(page: Path) -> None:
    text = page.read_text()
    assert re.findall(r'<script[^>]* src=|<link |src="http', text.split("<h2>")[0].split("<p>")[0]) == []
    assert "supervisor: 54000 ticks" in text


def test_the_same_run_gives_the_same_page(supervisor: Path, page: Path) -> None:
    xm(supervisor, "view", "out/system.xmp", "report.txt", "again.html")
    assert (supervisor / "again.html").read_bytes() == page.read_bytes()


def test_a_browser_opens_the_page(page: Path, supervisor: Path) -> None:
    dom = opened(page)
    lines = (supervisor / "report.txt").read_text().splitlines()[1:-4]
    assert listed(dom) == lines
    assert (min(ticks(dom)), max(ticks(dom))) == (0, 50000)
    assert dom.count('class="point plotly-customdata"') == len(lines)


def test_a_browser_zooms_the_page(page: Path) -> None:
    found = ticks(opened(page, "#ticks=8000-9000"))
    assert (min(found), max(found)) == (8000, 9000)


def test_a_browser_finds_a_line(page: Path) -> None:
    """The line is listed, and the picture shows its tick."""
    dom = opened(page, "#find=restart%202")
    assert listed(dom) == ["[24851] P0 CON sensor: restart 2\\n"]
    found = ticks(dom)
    assert 23000 < min(found) <= 24851 <= max(found) < 27000


# What is shown.


def page_of(system: Path, report: Path) -> Page:
    course = course_of(read_report(str(report)), read_description(str(system)))
    return Page(course, [], Interval(0, course.end))


def test_dark_is_what_ran_in_every_tick(supervisor: Path) -> None:
    """The sensor ran from its last reset to its end in each tick of its slot; the others were idle."""
    shown = page_of(supervisor / "supervisor.xml", supervisor / "report.txt")
    assert shown.ran(1) == [Interval(44000, 44608)]
    assert shown.ran(0) == shown.ran(2) == []


def test_messages_come_from_the_partition_whose_slot_it_was(tmp_path: Path, whole_program: str) -> None:
    """The messages of the producer in the script of the consumer, with the ticks of the producer's slots."""
    assert built(tmp_path, "queue", {"producer": "producer.elf", "consumer": "consumer.elf"}).err == ""
    assert xm(tmp_path, "run", "out", "--frames", "3", "--script", "consumer=s.scr", "--report", "r.txt").err == ""
    shown = page_of(tmp_path / "queue.xml", tmp_path / "r.txt")
    shown.scripts.append(read_script("s.scr", (tmp_path / "s.scr").read_bytes()))
    messages = shown.messages()
    assert messages and {(message.source, message.destination) for message in messages} == {(0, 1)}
    slots = read_description(str(tmp_path / "queue.xml")).plans[0]
    assert all(any(slot.start <= message.tick % slots.frame < slot.end for slot in slots.slots_of(0)) for message in messages)
    assert xm(tmp_path, "view", "queue.xml", "r.txt", "q.html", "--script", "s.scr").err == ""
    assert f"[{messages[0].tick}] put " in (tmp_path / "q.html").read_text()


def test_orders_are_arrows_too(supervisor: Path) -> None:
    """The supervisor resets the sensor at the ticks that the report has, in its own slots."""
    shown = page_of(supervisor / "supervisor.xml", supervisor / "report.txt")
    cues = (Cue(0, 12859), Cue(0, order="warm", status=1), Cue(0, 41140), Cue(0, traffic=Traffic("take", 0)))
    shown.scripts.append(Script(1, cues))
    assert shown.messages() == [Message(12859, 0, 1, "[12859] order warm 1")]


@pytest.fixture
def struck(tmp_path: Path) -> Path:
    """A folder with a system of two partitions, and the report that the second simulator gives of a run with upsets of both."""
    system = rows.demo()
    machine = model.Machine(system)
    machine.upsets = [
        upsets.Upset(5, 1, "w127", 31),
        upsets.Upset(5, 0, "40100010", 3),
        upsets.Upset(1500, 0, "hw", 62),
        upsets.Upset(3999, 1, "pc", 31),
    ]
    (tmp_path / "d.xml").write_text(suite.description_text(system))
    (tmp_path / "r.txt").write_text(machine.run(4000))
    return tmp_path


def test_upsets_have_marks(struck: Path) -> None:
    """In and out of the slots of the partition that is struck, with their lines; all else is as without them."""
    shown = page_of(struck / "d.xml", struck / "r.txt")
    assert [line.shown() for line in shown.marks(0, "UPSET")] == ["[5] P0 UPSET 40100010 bit 3", "[1500] P0 UPSET hw bit 62"]
    assert [line.shown() for line in shown.marks(1, "UPSET")] == ["[5] P1 UPSET w127 bit 31", "[3999] P1 UPSET pc bit 31"]
    assert shown.slots(0) == [Interval(0, 1000), Interval(2000, 3000)] and shown.ran(0) == shown.slots(0)


def test_upsets_are_on_the_page(struck: Path) -> None:
    pytest.importorskip("plotly")
    assert xm(struck, "view", "d.xml", "r.txt", "u.html").err == ""
    assert "[1500] P0 UPSET hw bit 62" in (struck / "u.html").read_text()


def test_upsets_are_exported_and_expected(struck: Path) -> None:
    """Each form of an export has them, and an expectation counts them."""
    assert "5,P1,P1,UPSET,w127 bit 31" in xm(struck, "export", "--csv", "r.txt").out
    dump = xm(struck, "export", "--vcd", "r.txt").out
    assert dump.count(" UPSET $end") == 2 and "sw127_bit_31 " in dump
    (struck / "e.txt").write_text("P1 UPSET times 2\nP0 UPSET \"40100010 bit *\"\nP1 no UPSET \"y *\"\n")
    assert xm(struck, "expect", "r.txt", "e.txt").status == 0


def test_a_run_of_many_slots_is_thinned(tmp_path: Path) -> None:
    """A hundred thousand slots of a worked system."""
    frames = 50000
    system = (SYSTEMS / "queue/queue.xml").read_text()
    (tmp_path / "d.xml").write_text(system)
    frame = read_description(str(tmp_path / "d.xml")).plans[0].frame
    lines = [
        f"SYSTEM parts=2 plans=1 ticks={frames * frame}",
        "END P0 idle resets=0 exec=1 pc=00000000",
        "END P1 idle resets=0 exec=1 pc=00000000",
    ]
    (tmp_path / "r.txt").write_text(
        "\n".join([*lines, f"END XM running plan=0 clock={frames * frame} ticks={frames * frame}", ""])
    )
    shown = page_of(tmp_path / "d.xml", tmp_path / "r.txt")
    slots = shown.slots(0)
    assert len(slots) == frames * len(shown.course.system.plans[0].slots_of(0))
    assert len(shown.bars(slots)) <= 2000 and shown.thinned


def test_text_of_a_run_is_no_part_of_the_page(supervisor: Path) -> None:
    """A console that writes tags does not become a part of the page."""
    pytest.importorskip("plotly")
    assert "<" not in embedded([[0, "</script><script>alert(1)"]])
    text = (supervisor / "report.txt").read_text().replace("picture 1", "</script><b>picture")
    (supervisor / "tags.txt").write_text(text)
    assert xm(supervisor, "view", "supervisor.xml", "tags.txt", "tags.html").err == ""
    assert "</script><b>" not in (supervisor / "tags.html").read_text()


def test_words_that_are_wrong(supervisor: Path) -> None:
    (supervisor / "short.scr").write_bytes(spelled(Script(0, (Cue(0, 1),))))
    for words, reason in [
        (("--from", "54000"), "no tick of the run is from 54000 on and before its end"), (("--from", "x"), "usage: "),
        (("--script", "report.txt"), "report.txt: magic"), (("--script", "short.scr"), "short.scr: a script of 1 ticks, and the run has 54000"),
    ]:  # fmt: skip
        done = xm(supervisor, "view", "supervisor.xml", "report.txt", "x.html", *words)
        assert (done.status, done.out) == (2, "") and done.err.startswith(f"xm: {reason}")


def test_the_page_does_not_overwrite_what_it_reads(supervisor: Path) -> None:
    done = xm(supervisor, "view", "supervisor.xml", "report.txt", "./report.txt")
    assert (done.status, done.err) == (2, "xm: ./report.txt: it is report.txt, which is read\n")
    assert next(files_with(b"XMSC"))
