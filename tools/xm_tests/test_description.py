"""Faults, rules and warnings of descriptions: what is found first is what the suite has the program answer."""

from collections.abc import Iterator
from pathlib import Path
from typing import Any

import pytest

from conftest import ROOT, SYSTEMS, Done, cases, xm
from xm_tools.description import read_description
from xm_tools.findings import Findings, findings_of
from xm_tools.texts import Text
from xm_tools.warnings import requirements, warnings_of

# What is refused by the length of a file alone.
NOT_FOUND = {"too-long"}
THREE = ROOT / "crates/guest_suite/data/three.xml"


def parsed() -> Iterator[tuple[str, bytes, str | None]]:
    """The texts that the suite gives to `xmcparser`, each with its fault or None."""
    for case in cases():
        words = case.calls[-1]
        if (
            words[:1] == ["xmcparser"]
            and len(words) == 3
            and words[1] in case.files
            and not {"fails", "differs"} & set(case.wanted)
        ):
            fault = case.wanted.get("refused")
            if fault not in NOT_FOUND:
                yield case.name, case.files[words[1]], fault


def found(content: bytes) -> Findings:
    return findings_of(Text("x", content))


def test_what_is_found_first_is_what_the_program_answers() -> None:
    texts = list(parsed())
    wrong = [(name, fault, found(content).first) for name, content, fault in texts if not found(content).agrees(fault)]
    assert wrong == []
    assert len(texts) > 900


def test_a_broken_rule_is_found_in_every_text_that_breaks_one() -> None:
    broken = [(name, content, fault) for name, content, fault in parsed() if fault and fault.startswith("rule ")]
    assert [name for name, content, fault in broken if found(content).first != fault] == []
    assert {fault.split()[1] for _, _, fault in broken} == {f"number={number}" for number in range(1, 23)}


def test_accepted_texts_have_no_fault() -> None:
    accepted = [(name, content) for name, content, fault in parsed() if fault is None]
    assert [name for name, content in accepted if not found(content).is_well] == []


# All at once.

THREE_RULES = [
    ('duration="1ms" partitionId="0"', 'duration="1.5ms" partitionId="0"'),
    ('partitionId="2"', 'partitionId="7"'),
    ('name="hashes" console="Uart"', 'name="hashes" console="Line"'),
]


def edited(changes: list[tuple[str, str]], source: Path = THREE) -> bytes:
    text = source.read_text()
    for old, new in changes:
        assert old in text
        text = text.replace(old, new, 1)
    return text.encode()


def test_all_broken_rules_are_listed_with_lines_and_columns() -> None:
    lines = found(edited(THREE_RULES)).lines()
    places = [line.split(": ")[0] + " " + line.split(": ")[2] for line in lines if ": error: " in line]
    assert places == ["x:9:5 rule 12 (slots_in_turn)", "x:10:5 rule 13 (slots_owned)", "x:30:3 rule 14 (consoles)"]
    assert "x:8:5: note: the other element" in lines
    assert lines[-1] == "x: 3 broken rules"


def test_bytes_that_are_no_text_go_before_every_other_fault() -> None:
    content = edited([('size="4MB"', 'size="4"'), ('name="hashes"', 'name="\u00e9"')]).replace("\u00e9".encode(), b"\xe9")
    assert found(content).first == f"not-text at={content.index(0xE9)}"


def test_all_faults_are_listed_before_rules_are_looked_at() -> None:
    changes = [
        ('size="4MB"', 'size="4"'),
        ('name="chains" ', ""),
        ('<TemporalRequirements duration="1ms"', '<Need duration="1ms"'),
    ]
    text = found(edited(changes))
    assert [fault.kind for fault in text.faults] == ["bad-value", "unknown-element", "missing-attribute"]
    assert text.broken == []


HINTS = [
    ("majorFrame=", "majorframe=", "write majorFrame; attributes of Plan: id, majorFrame"),
    ("<TemporalRequirements ", "<Need ", "children of Partition: PhysicalMemoryAreas, TemporalRequirements, HealthMonitor, Trace, PortTable"),
    ('size="4MB"', 'size="4"', "size has the form size: a decimal number and B, KB (1024) or MB (1048576)"),
    ("<XMHypervisor", '<Uart id="1" name="u"/><XMHypervisor', "children of SystemDescription: HwDescription, XMHypervisor, PartitionTable, Channels"),
    ('duration="1ms" period="3ms"/></Partition>',
     'duration="1ms" period="3ms"/><HealthMonitor><Event name="XM_HM_EV_PARTITION_ERROR" action="XM_HM_AC_HALTED"/></HealthMonitor></Partition>',
     "write XM_HM_AC_HALT; actions: XM_HM_AC_IGNORE, "),
]  # fmt: skip


@pytest.mark.parametrize("old, new, remedy", HINTS)
def test_a_name_or_a_value_that_is_not_known_has_a_hint(old: str, new: str, remedy: str) -> None:
    lines = found(edited([(old, new)])).lines()
    assert any(line.startswith(f"    to mend it: {remedy}") for line in lines), lines


def test_an_end_tag_that_does_not_fit_names_the_open_element() -> None:
    lines = found(edited([("</Plan>", "")])).lines()
    assert lines[0].startswith("x:11:6: error: no XML that xm_run reads: mismatched tag")
    assert lines[2:4] == ["x:7:4: note: the element that is open here", '    <Plan id="0" majorFrame="3ms">']


def test_an_end_without_a_port_breaks_one_rule() -> None:
    system = (SYSTEMS / "queue/queue.xml").read_text().replace('portName="work"', 'portName="none"', 2)
    broken = [one.rule for one in found(system.encode()).broken]
    assert broken == [16, 16]


WARNINGS = [
    ([('<TemporalRequirements duration="1ms" period="3ms"/></Partition>', '<PortTable><Port name="lost" type="queuing" direction="source"/></PortTable></Partition>')],
     ["port lost of P0 primes is on no channel: the call that makes it answers -5"]),
    ([('partitionId="2"', 'partitionId="1"')], ["P2 hashes has no slot in any plan: it never runs"]),
    ([('duration="1ms" period="3ms"', 'duration="2ms" period="3ms"')], ["plan 0 gives P0 primes less than 2000 us in its period 0 of 3000 us"]),
    ([('duration="1ms" period="3ms"', 'duration="1ms" period="2ms"')], ["the frame of plan 0 is no multiple of the period of P0 primes"]),
    ([("</MemoryLayout>", '<Region type="x" start="0x60000000" size="4KB"/></MemoryLayout>')], ["no area lies in the region at 0x60000000"]),
    ([("</Devices>", '<Uart id="1" name="Spare"/></Devices>')], ["no partition has the console Spare"]),
    ([("</Plan></CyclicPlanTable>", '</Plan><Plan id="1" majorFrame="3ms"><Slot id="0" start="0ms" duration="1ms" partitionId="0"/></Plan></CyclicPlanTable>')],
     ["plan 1 starves P1 chains, which has no slot in it", "plan 1 starves P2 hashes, which has no slot in it",
      "plan 1 is never started: no partition has the flag system, and no health event switches to it"]),
]  # fmt: skip


@pytest.mark.parametrize("changes, texts", WARNINGS)
def test_warnings(changes: list[tuple[str, str]], texts: list[str]) -> None:
    findings = found(edited(changes))
    assert findings.is_well
    assert [warned.text for warned in findings.warnings] == texts


def test_systems_without_a_warning() -> None:
    for path in [THREE, ROOT / "examples/flows/flight.xml", SYSTEMS / "queue/queue.xml"]:
        assert warnings_of(read_description(str(path))) == []


def checked_plans() -> Iterator[tuple[Any, bytes, list[str]]]:
    for case in cases():
        words = case.calls[-1]
        if (
            words[:2] == ["plan", "check"]
            and len(words) == 3
            and words[2] in case.files
            and "refused" not in case.wanted
            and "fails" not in case.wanted
        ):
            yield case.name, case.files[words[2]], case.wanted["out"].splitlines()


def missed(content: bytes) -> set[tuple[str, str]]:
    """The partitions that plan 0 gives less than they require, and why, in the words of `plan check`."""
    system = read_description("x", content)
    plan = system.plans[0]
    texts = [warned.text for warned in requirements(system) if warned.at == plan.at]
    found = set()
    for number, name in system.names.items():
        for text in texts:
            if text.startswith(f"plan 0 gives P{number} {name} less"):
                found.add((f"P{number}", "missed window=" + text.split("period ")[1].split()[0]))
            elif text.endswith(f"of P{number} {name}"):
                found.add((f"P{number}", "uneven"))
    return found


def test_requirements_are_those_of_plan_check() -> None:
    plans = list(checked_plans())
    assert len(plans) > 10
    for name, content, lines in plans:
        system = read_description("x", content)
        owned = {f"P{number}" for number in system.names if system.plans[0].slots_of(number)}
        wanted = {(line.split(" ", 1)[0], line.split(" ", 1)[1]) for line in lines if "missed" in line or "uneven" in line}
        assert missed(content) == {(part, why) for part, why in wanted if part in owned}, name


# The commands.


def stand_in(folder: Path, answer: str) -> str:
    """A program that refuses everything by one line."""
    path = folder / "program"
    path.write_text(f"#!/bin/sh\necho '{answer}' >&2\nexit 1\n")
    path.chmod(0o755)
    return str(path)


def test_the_programs_answer_comes_first(tmp_path: Path) -> None:
    (tmp_path / "m.xml").write_bytes(edited(THREE_RULES))
    answer = f"xm_run: m.xml: {found(edited(THREE_RULES)).first}"
    done = xm(tmp_path, "check-description", "m.xml", program=stand_in(tmp_path, answer))
    assert (done.status, done.err) == (1, "")
    assert done.out.splitlines()[0] == answer
    assert "disagrees" not in done.out


def test_a_disagreement_is_reported(tmp_path: Path) -> None:
    (tmp_path / "m.xml").write_bytes(THREE.read_bytes())
    done = xm(tmp_path, "check-description", "m.xml", program=stand_in(tmp_path, "xm_run: m.xml: rule number=5 at=1 and=2"))
    assert done.status == 1
    assert (
        done.out.splitlines()[-1]
        == "m.xml: the tool disagrees with xm_run, which decides: no fault, and not rule number=5 at=1 and=2"
    )


def test_the_program_itself_agrees(tmp_path: Path, whole_program: str) -> None:
    (tmp_path / "m.xml").write_bytes(edited(THREE_RULES))
    done = xm(tmp_path, "check-description", "m.xml")
    assert (done.status, "disagrees" in done.out) == (1, False)
    done = xm(tmp_path, "check-description", str(THREE))
    assert (done.status, done.out.splitlines()) == (0, [f"xm_run: {THREE}: ok length=263", f"{THREE}: no fault"])


def test_a_program_that_cannot_read_or_is_not_there(tmp_path: Path) -> None:
    (tmp_path / "m.xml").write_bytes(THREE.read_bytes())
    program = tmp_path / "program"
    program.write_text("#!/bin/sh\necho 'xm_run: m.xml: cannot read' >&2\nexit 3\n")
    program.chmod(0o755)
    done = xm(tmp_path, "check-description", "m.xml", program=str(program))
    assert (done.status, done.out, done.err) == (2, "", "xm: xm_run: m.xml: cannot read\n")
    for missing in (str(tmp_path / "none"), str(tmp_path)):
        done = xm(tmp_path, "check-description", "m.xml", program=missing)
        assert (done.status, done.out, len(done.err.splitlines())) == (2, "", 1)


def test_a_description_that_is_too_long(tmp_path: Path) -> None:
    """What the program refuses by the length of the file is no disagreement."""
    (tmp_path / "m.xml").write_bytes(THREE.read_bytes())
    done = xm(tmp_path, "check-description", "m.xml", program=stand_in(tmp_path, "xm_run: m.xml: too-long"))
    assert (done.status, done.out.splitlines()) == (1, ["xm_run: m.xml: too-long", "m.xml: no fault"])


def test_a_description_with_very_many_elements(tmp_path: Path) -> None:
    """Each of twenty thousand ports is one too many, or has the name of another one; the first are shown."""
    ports = "".join(f'<Port name="p{number // 2}" type="queuing" direction="source"/>' for number in range(20000))
    changes = [('<TemporalRequirements duration="1ms" period="3ms"/></Partition>', f"<PortTable>{ports}</PortTable></Partition>")]
    findings = found(edited(changes))
    assert findings.first is not None and findings.first.startswith("rule number=1 ")
    assert len(findings.lines()) < 1000 and findings.summary().endswith("of each kind the first 200 are shown")


def test_why_explains_a_line_of_a_description(tmp_path: Path) -> None:
    content = edited(THREE_RULES)
    (tmp_path / "m.xml").write_bytes(content)
    line = f"xm_run: m.xml: {found(content).first}"
    done = xm(tmp_path, "why", given=f"before\n{line}\n")
    assert (done.status, done.out.splitlines()[:2]) == (1, ["before", line])
    assert done.out.splitlines()[-1] == "m.xml: 3 broken rules"


ANSWERS = [
    ("xm_run: a.xmp: outside id=1 address=40180000", "the segment at 40180000 of partition 1's image lies inside no area of that partition"),
    ("xm_run: a.xmc: outside id=1 address=40180000", "the segment at 40180000 of partition 1's image lies inside no area of that partition"),
    ("xm_run: a.elf: magic", "it is no ELF file; a raw image is none"),
    ("xm_run: a.xml: magic", "The binary configuration: it does not begin with XMCF"),
    ("xm_run: a.elf: machine", "it is no executable (an object file"),
    ("xm_run: a.xef: machine", "it is no executable (an object file"),
    ("xm_run: a.xef: digest stored=00 found=11", "its digest is not that of its bytes"),
    ("xm_run: a.xmc: not-fit rule=4", "it breaks rule 4"),
    ("xm_run: usage", "the arguments are no command"),
    ("xm_run: x: cannot read", "the file is not there"),
    ("xm_run: uart 3: failed", "the run, its report, its core files, its scripts and its saved machine are whole"),
    ("xm_run: x.scr: cue tick=12", "the cue of tick 12, counted from 0, cannot be taken"),
]  # fmt: skip


@pytest.mark.parametrize("line, means", ANSWERS)
def test_why_explains_lines_about_other_files(tmp_path: Path, line: str, means: str) -> None:
    done = xm(tmp_path, "why", given=f"{line}\n")
    assert (done.status, done.out.splitlines()[0]) == (1, line)
    assert done.out.splitlines()[1].strip().startswith(means)


def test_why_passes_on_what_is_no_line_of_the_program(tmp_path: Path) -> None:
    text = "ok length=12\nxm_run: not proved, and slow: ./xm_run --prove proves and builds it (20 to 40 minutes)\n"
    assert xm(tmp_path, "why", given=text) == Done(0, text, "")
