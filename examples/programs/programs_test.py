"""Tries programs.py on reports and programs whose results were worked by hand.

usage: /usr/bin/python3 -m pytest examples/programs/programs_test.py
"""

import json
import sys
import xml.etree.ElementTree as ElementTree
from pathlib import Path

import pytest

sys.dont_write_bytecode = True
HERE = Path(__file__).resolve().parent
sys.path.insert(0, str(HERE))

import programs as tried  # noqa: E402

BOOK = """
[[program]]
name = "one"
shows = "a"
package = "p"
sources = ["*.c", "!left.c"]
flags = ["-DA"]

[[program]]
name = "two"
shows = "b"
like = "one"
data = 100
"""

REPORT = """SYSTEM parts=2 plans=1 ticks=100
[1] P0 CON a\\\\b\\x01\\n
[2] P1 CON other\\n
[3] P0 HM XM_HM_EV_UNEXPECTED_TRAP 40100000 XM_HM_AC_PROPAGATE
[4] P0 CON end
[5] P1 HM XM_HM_EV_PARTITION_ERROR 00000003 XM_HM_AC_HALT
[5] P1 HALT
[6] P0 HALT
END P0 halted resets=0 exec=5 pc=40100010
END P1 halted resets=0 exec=3 pc=40200010
END XM running plan=0 clock=100 ticks=100
"""


def test_a_program_has_what_the_one_like_it_has() -> None:
    one, two = tried.programs_of(BOOK)
    assert (one.number, two.number) == (0, 1)
    assert (two.package, two.flags, two.data, two.shows) == ("p", ["-DA"], 100, "b")


def test_areas_follow_one_another() -> None:
    programs = tried.programs_of(BOOK)
    assert tried.areas(programs[1], programs) == [
        (0x40190000, 64 << 10, False), (0x401A0000, 100 << 10, False), (0x401B9000, 256 << 10, True),
    ]  # fmt: skip


def test_sources_are_those_of_the_patterns(tmp_path: Path, monkeypatch: pytest.MonkeyPatch) -> None:
    monkeypatch.setattr(tried, "PLACE", tmp_path)
    (tmp_path / "p").mkdir()
    for name in ("b.c", "a.c", "left.c", "a.h"):
        (tmp_path / "p" / name).touch()
    assert [path.name for path in tried.programs_of(BOOK)[0].source_files()] == ["a.c", "b.c"]


def test_a_console_is_what_its_lines_stand_for_with_the_status() -> None:
    assert tried.outcome(REPORT, 0) == tried.Outcome("a\\b\x01\nendstatus 0\n", 5, True)
    assert tried.outcome(REPORT, 1) == tried.Outcome("other\nstatus 3\n", 3, True)


def test_another_health_event_is_part_of_the_console() -> None:
    report = REPORT.replace("PARTITION_ERROR 00000003", "SPARC_DATA_ACCESS 40101234")
    assert tried.outcome(report, 1).console == "other\nhealth event XM_HM_EV_SPARC_DATA_ACCESS 40101234 XM_HM_AC_HALT\nstatus 0\n"


def test_a_partition_that_goes_on_did_not_end() -> None:
    assert not tried.outcome(REPORT.replace("P0 halted", "P0 ready"), 0).halted
    assert not tried.outcome("", 0).halted


def test_slots_are_odd_and_in_proportion() -> None:
    slots = tried.slots_for([1000000, 500000, 10])
    assert all(slot % 2 == 1 for slot in slots)
    assert slots[0] > slots[1] > slots[2] >= tried.SHORTEST_SLOT


def test_a_batch_has_no_name_twice() -> None:
    paths = [Path(text) for text in ("a/x.c", "b/x.c", "a/y.c", "a/z.cc")]
    assert tried.batches(paths) == [[paths[0], paths[2]], [paths[1]], [paths[3]]]


def test_the_description_has_a_slot_and_three_areas_for_each_partition() -> None:
    programs = tried.programs_of(BOOK)
    root = ElementTree.fromstring(tried.description("s", programs, programs, [501, 503]))
    space = "{http://www.xtratum.org/xm-3.x}"
    assert [slot.get("start") for slot in root.iter(f"{space}Slot")] == ["0us", "501us"]
    assert [area.get("flags") for area in root.iter(f"{space}Area")] == [None, None, "read-only"] * 2


def test_the_table_has_what_was_run(tmp_path: Path, monkeypatch: pytest.MonkeyPatch) -> None:
    monkeypatch.setattr(tried, "MADE", tmp_path)
    programs = tried.programs_of(BOOK)
    (tmp_path / "two").mkdir()
    alone = {"instructions": 12345, "seconds": 0.5, "console": "", "same": True}
    (tmp_path / "two/alone.json").write_text(json.dumps(alone))
    assert tried.rows(programs)[2:] == ["| `two` | b | 12,345 | 500 | 420 KB | the same |"]
    (tmp_path / "two/alone.json").write_text(json.dumps({**alone, "same": False}))
    together = {"partitions": 1, "instructions": 12345, "seconds": 0.6, "memory": 420, "faults": []}
    (tmp_path / "together.json").write_text(json.dumps(together))
    assert tried.rows(programs)[2:] == [
        "| `two` | b | 12,345 | 500 | 420 KB | differs |",
        "| together | 1 of them as the partitions of one system | 12,345 | 600 | 420 KB | of each, as in isolation |",
    ]
