"""Damaged files, 5,000 of each kind: each is read, or refused by one line and status 2, and never anything else."""

import contextlib
import io
import json
import os
import random
from collections.abc import Callable, Iterator
from pathlib import Path

import pytest
from box import container
from model import Machine
from rows import demo

from conftest import ROOT, SYSTEMS, cases, files_with, reports
from damage import damaged, digested
from test_files import runs
from xm_tools.command import main
from xm_tools.failure import Unusable
from xm_tools.following import course_of
from xm_tools.findings import findings_of
from xm_tools.report import read_report
from xm_tools.symbols import read_symbols
from xm_tools.systems import read_system
from xm_tools.texts import Text

COUNT = int(os.environ.get("XM_DAMAGED", "5000"))
# As many of what a user writes.
FEWER = COUNT // 5
SENSOR = ROOT / "tools/xm_tests/data/sensor.elf"


@pytest.fixture
def place(tmp_path: Path, monkeypatch: pytest.MonkeyPatch) -> Path:
    monkeypatch.chdir(tmp_path)
    return tmp_path


def called(*words: str) -> tuple[int, str, str]:
    out, err = io.StringIO(), io.StringIO()
    with contextlib.redirect_stdout(out), contextlib.redirect_stderr(err):
        status = main(list(words))
    return status, out.getvalue(), err.getvalue()


def samples(files: Iterator[bytes], most: int = 40, size: int = 20000) -> list[bytes]:
    """Some different files that are not long."""
    found = [content for content in dict.fromkeys(files) if 0 < len(content) <= size]
    return found[:: max(1, len(found) // most)][:most]


def try_all(
    contents: list[bytes], name: str, words: list[str], change: Callable[[bytes, int], bytes] = damaged, count: int = COUNT
) -> int:
    """Calls a command on damaged files, and counts those that it refuses."""
    refused = 0
    for number in range(count):
        Path(name).write_bytes(change(contents[number % len(contents)], number))
        status, out, err = called(*words)
        lines = err.splitlines()
        assert status in (0, 1, 2), number
        assert (status == 2) == bool(lines), (number, out, err)
        if status == 2:
            assert len(lines) == 1 and lines[0].startswith("xm: ") and out == "", (number, err)
            refused += 1
    return refused


def test_reports(place: Path) -> None:
    texts = samples(text.encode() for text in reports().values())
    Path("b.txt").write_bytes(texts[0])
    Path("e.txt").write_text("no HM\nP0 ends halted\nP0 CON * at least 1\n")
    assert try_all(texts, "r.txt", ["expect", "r.txt", "e.txt"]) > COUNT // 2
    for form in ("--json", "--csv", "--vcd", "--perfetto"):
        try_some(texts, "r.txt", ["export", form, "r.txt"])
    try_some(texts, "r.txt", ["compare", "b.txt", "r.txt"])
    alone = [b"".join(line for line in text.splitlines(keepends=True) if b"P0 " in line[:20]) for text in texts]
    try_some(alone, "r.txt", ["compare", "b.txt", "r.txt"])


def test_reports_followed_through_their_system(place: Path) -> None:
    """A report whose lines are lost, doubled or of other ticks is none of its system, or has a course."""
    system = read_system(str(SYSTEMS / "supervisor/supervisor.xml"))
    lines = (SYSTEMS / "supervisor/supervisor.report").read_bytes().splitlines(keepends=True)
    refused = 0
    for number in range(COUNT):
        chance = random.Random(number)
        changed = list(lines)
        for _ in range(chance.choice([1, 1, 2])):
            at, other = chance.randrange(1, len(lines)), chance.randrange(1, len(lines))
            changed[at] = chance.choice([b"", lines[at] * 2, lines[other], lines[at].replace(b"P1", b"P0", 1)])
        Path("r.txt").write_bytes(b"".join(changed) if number % 4 else damaged(b"".join(lines), number))
        try:
            course = course_of(read_report("r.txt"), system)
        except Unusable:
            refused += 1
        else:
            assert sum(slot.ticks for _, slot in course.slots(0, course.end)) <= course.end, number
    assert refused > COUNT // 2


def try_some(contents: list[bytes], name: str, words: list[str]) -> None:
    for number in range(COUNT // 20):
        Path(name).write_bytes(damaged(contents[number % len(contents)], number))
        status, _, err = called(*words)
        assert (status == 2) == bool(err) and len(err.splitlines()) <= 1, (words, number, err)


def test_containers(place: Path) -> None:
    boxes = samples(content for _, _, content in files_with(b"XMPK"))
    Path("r.txt").write_text(next(iter(reports().values())))

    def change(content: bytes, number: int) -> bytes:
        return digested(damaged(content, number)) if number % 4 else damaged(content, number)

    assert try_all(boxes, "x.xmp", ["export", "--csv", "r.txt", "--system", "x.xmp"], change) > COUNT // 2


def test_scripts(place: Path) -> None:
    scripts = samples(content for _, _, content in files_with(b"XMSC"))
    assert try_all(scripts, "s.scr", ["script", "show", "s.scr"]) > COUNT // 2


def test_texts_of_scripts(place: Path) -> None:
    texts = []
    for script in samples(content for _, _, content in files_with(b"XMSC")):
        Path("s.scr").write_bytes(script)
        status, out, _ = called("script", "show", "s.scr")
        texts += [out.encode()] if status == 0 else []
    assert try_all(texts, "s.txt", ["script", "make", "s.txt", "out.scr"], count=FEWER) > FEWER // 2


def test_core_files(place: Path) -> None:
    cores = []
    for _, system, ticks, inputs in list(runs())[::60]:
        machine = Machine(system, inputs)
        machine.run(ticks)
        cores.append(machine.core_file(0))
    assert try_all(cores, "c", ["core", "c"], count=FEWER) > FEWER // 20


def test_program_files(place: Path) -> None:
    _, system, _, inputs = next(runs())
    Path("c").write_bytes(Machine(system, inputs).core_file(0))
    programs = [SENSOR.read_bytes(), (SYSTEMS / "supervisor/sensor.elf").read_bytes()]
    for number in range(COUNT):
        Path("p.elf").write_bytes(damaged(programs[number % 2], number))
        with contextlib.suppress(Unusable):
            read_symbols("p.elf")
    assert try_all(programs, "p.elf", ["core", "c", "p.elf"], count=FEWER) > FEWER // 20


def test_descriptions(place: Path) -> None:
    texts = [path.read_bytes() for path in sorted([*SYSTEMS.glob("*/*.xml"), *ROOT.glob("examples/*/*.xml")])]
    for number in range(FEWER):
        content = damaged(texts[number % len(texts)], number)
        assert findings_of(Text("x.xml", content)).lines(), number
        Path("x.xml").write_bytes(content)
        with contextlib.suppress(Unusable):
            read_system("x.xml")


def test_lines_of_the_program(place: Path) -> None:
    texts = [f"xm_run: x: {case.wanted['refused']}\n".encode() for case in cases() if "refused" in case.wanted]
    for number in range(FEWER):
        Path("lines").write_bytes(damaged(texts[number % len(texts)], number))
        status, _, err = called("why", "lines")
        assert (status == 2) == bool(err) and len(err.splitlines()) <= 1, number


def test_expectations(place: Path) -> None:
    text = b'no HM\nP3 CON "wheels: *" times 4\nP3 within 20ms of [16005] CON "x*"\nP0 within 1s of P1 CON "go *" HALT\nP2 ends idle\nXM plan <= 2\n'
    Path("r.txt").write_text(next(iter(reports().values())))
    assert try_all([text], "e.txt", ["expect", "r.txt", "e.txt"], count=FEWER) > FEWER // 4


def test_what_was_built(place: Path) -> None:
    Path("d").mkdir()
    text = b'{"container": "system.xmp", "names": ["a", "b"], "words": ["a", "b"], "inputs": {"a": "a.input"}, "frames": null}'
    assert try_all([text], "d/built.json", ["run", "d"], count=FEWER) == FEWER


def test_campaigns(place: Path, monkeypatch: pytest.MonkeyPatch) -> None:
    """With no program every one of them ends before its first run."""
    Path("d").mkdir()
    Path("d/system.xmp").write_bytes(container(demo()))
    names = list(read_system("d/system.xmp").names.values())
    built = {"container": "system.xmp", "names": names, "words": ["a", "b"], "inputs": {}, "frames": 3}
    Path("d/built.json").write_text(json.dumps(built))
    Path("e").write_text("no HM\n")
    text = (
        f'system = "d"\nframes = [2, 3]\nexpect = "e"\noutput = "{names[0]}"\noutcomes = ["same", "masked", "wrong"]\nothers = true\n'
        f'keep = "all"\nseed = 7\n[words]\n{names[1]} = {{ count = 64, sets = 100, from = 0, to = 4095 }}\n[[upsets]]\n'
        f'partition = "{names[0]}"\nplaces = ["registers", "image", "g1-g7"]\nbits = [0, 31]\n'
        "ticks = { from = 0, to = 100, step = 10 }\nsample = 1000\n"
    )
    monkeypatch.setenv("XM_RUN", "/none")
    assert try_all([text.encode()], "c.toml", ["campaign", "c.toml"], count=FEWER) == FEWER


def test_files_beside_a_description(place: Path, monkeypatch: pytest.MonkeyPatch) -> None:
    Path("three.xml").write_bytes((ROOT / "crates/guest_suite/data/three.xml").read_bytes())
    text = (
        b'[programs]\nprimes = "a.elf"\nchains = ["b.c", "c.c"]\nhashes = "d.elf"\n[inputs]\nprimes = "in"\n[run]\nframes = 3\n'
    )
    monkeypatch.setenv("XM_RUN", "/none")
    assert try_all([text], "three.toml", ["build", "three.xml", "out"], count=FEWER) == FEWER
