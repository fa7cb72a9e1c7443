#!/usr/bin/env python3
"""Writes cases of `plan make` and `plan check` as data of `case_suite`: descriptions, and what is to be printed of them.

usage: plans.py FOLDER

FOLDER is crates/case_suite/data, the file is plans.toml. A plan is made here in the plainest way, tick by tick; whether a
plan meets a requirement is found by writing down whose each tick of the frame is, and counting.
"""
import json
import sys
from math import lcm
from pathlib import Path

LONGEST = 1_000_000
MOST_SLOTS = 64

HEADER = """\
# What `plan make` and `plan check` answer. The descriptions and what is printed of them are those of
# `examples/model/plans.py crates/case_suite/data`, which writes this file: it makes a plan tick by tick, and counts the ticks
# of each window. The rules of a plan are those of README.md, the lines of a refusal those of docs/ERRORS.md.
"""

FRONT = """\
<SystemDescription version="1" name="plans"><HwDescription>
<MemoryLayout><Region type="stram" start="0x40000000" size="4MB"/></MemoryLayout>
<ProcessorTable><Processor id="0"><CyclicPlanTable>PLANS</CyclicPlanTable></Processor></ProcessorTable>
<Devices><Uart id="0" name="U"/></Devices></HwDescription>
<XMHypervisor console="U"><PhysicalMemoryArea size="512KB"/></XMHypervisor><PartitionTable>
"""
PARTITION = """\
<Partition id="{id}" name="P{id}" console="U"><PhysicalMemoryAreas><Area start="{start:#x}" size="4KB"/></PhysicalMemoryAreas>NEED{id:02}</Partition>
"""
BACK = """\
</PartitionTable></SystemDescription>
"""
# A plan of which nothing is asked.
SHORT = (1, [(0, 1, 0)])


def made(needs):
    """The frame and the slots that requirements make, or why there are none. A requirement is a duration in a period, or None."""
    required = [(part, *need) for part, need in enumerate(needs) if need]
    if not required:
        return "no-need"
    frame = 1
    for part, _, period in required:
        frame = lcm(frame, period)
        if frame > LONGEST:
            return f"period part={part}"
    demand = sum(frame // period * duration for _, duration, period in required)
    if demand > frame:
        return f"overload demand={demand} period={frame}"
    had = {}
    slots = []
    for tick in range(frame):
        waiting = []
        for part, duration, period in required:
            if tick % period == 0:
                had[part] = 0
            if had[part] < duration:
                waiting.append(((tick // period + 1) * period, part))
        if waiting:
            part = min(waiting)[1]
            had[part] += 1
            if slots and slots[-1][2] == part and slots[-1][0] + slots[-1][1] == tick:
                slots[-1] = (slots[-1][0], slots[-1][1] + 1, part)
            else:
                slots.append((tick, 1, part))
    if len(slots) > MOST_SLOTS:
        return f"slots found={len(slots)}"
    return frame, slots


def checked(plan, needs):
    """What each partition's requirement is to a plan, a line each; or why nothing is said."""
    frame, slots = plan
    if frame > LONGEST:
        return f"frame found={frame}"
    whose = [None] * frame
    for start, duration, part in slots:
        whose[start : start + duration] = [part] * duration
    lines = []
    for part, need in enumerate(needs):
        lines.append(f"P{part} {word(whose, part, need)}\n")
    return "".join(lines)


def word(whose, part, need):
    if need is None:
        return "none"
    duration, period = need
    if len(whose) % period:
        return "uneven"
    for window in range(len(whose) // period):
        if whose[window * period : (window + 1) * period].count(part) < duration:
            return f"missed window={window}"
    return "met"


def lines_of(plan):
    frame, slots = plan
    lines = [f"plan frame={frame} slots={len(slots)}\n"]
    lines += [f"slot id={id} start={start} duration={duration} part={part}\n" for id, (start, duration, part) in enumerate(slots)]
    return "".join(lines)


def plan_text(id, plan):
    frame, slots = plan
    inside = "".join(
        f"<Slot id='{number}' start='{start}us' duration='{duration}us' partitionId='{part}'/>"
        for number, (start, duration, part) in enumerate(slots)
    )
    return f"<Plan id='{id}' majorFrame='{frame}us'>{inside}</Plan>"


def need_text(need):
    return "" if need is None else f"<TemporalRequirements duration='{need[0]}us' period='{need[1]}us'/>"


def base(count):
    parts = "".join(PARTITION.format(id=id, start=0x40100000 + id * 0x1000) for id in range(count))
    return FRONT + parts + BACK


def changes(plans, needs):
    """What a description has in the places of the base's marks."""
    texts = [["PLANS", "".join(plan_text(id, plan) for id, plan in enumerate(plans))]]
    return texts + [[f"NEED{part:02}", need_text(need)] for part, need in enumerate(needs)]


# Requirements that make a plan: what each shows, and the requirement of each partition.
MAKES = [
    ("one requirement", [(2, 5)]),
    ("one requirement, of the second of three partitions", [None, (2, 5), None]),
    ("one requirement as long as its period", [(5, 5)]),
    ("one tick in one", [(1, 1)]),
    ("two that take turns: six slots in 12 us", [(2, 4), (3, 6)]),
    ("two whose periods end together: the lower number first", [(1, 4), (1, 4)]),
    ("a higher number whose period ends first", [(1, 4), (1, 2)]),
    ("a slot over the end of another's period", [(4, 10), (9, 15)]),
    ("coprime periods, with gaps", [(1, 2), (1, 3)]),
    ("coprime periods, and a third partition that takes the rest of the time", [(1, 2), (1, 3), (1, 6)]),
    ("coprime periods of 7 and 11 at full load", [(3, 7), (4, 11), (16, 77)]),
    ("a demand equal to the period, of two", [(2, 3), (2, 6)]),
    ("sixteen partitions at full load", [(1, 16)] * 16),
    ("sixteen partitions, every second one of which requires nothing", [(1, 8), None] * 8),
    ("thirty-two partitions at full load", [(1, 32)] * 32),
    ("thirty-two partitions, every second one of which requires nothing", [(1, 16), None] * 16),
    ("thirty-two partitions, two slots each", [(1, 32)] * 31 + [(2, 64)]),
    ("64 slots", [(1, 2), (1, 126)]),
    ("the longest common period, one tick of it", [(1, LONGEST)]),
    ("the longest common period at full load", [(400_000, LONGEST), (100_000, 250_000), (50_000, 250_000)]),
]

# Requirements that make none.
MAKES_NONE = [
    ("no requirement", [None]),
    ("sixteen partitions without a requirement", [None] * 16),
    ("thirty-two partitions without a requirement", [None] * 32),
    ("a period above the longest", [(1, LONGEST + 1)]),
    ("the longest period that a description may have", [None, (1, 1_000_000_000)]),
    ("a common period above the longest, at the second partition", [(1, 1000), (1, 1001)]),
    ("at the third of four", [(1, 1000), (1, 8), (1, 1001), (1, 1003)]),
    ("a common period far above 32 bits", [(1, 999_999_937), (1, 999_999_929)]),
    ("a period goes before an overload", [(5, 5), (5, 5), (1, LONGEST + 1)]),
    ("two ticks too many", [(2, 4), (4, 6)]),
    ("one tick too many", [(1, 2), (2, 3)]),
    ("a requirement as long as its period, beside another", [(5, 5), (1, 5)]),
    ("sixteen times the longest period", [(LONGEST, LONGEST)] * 16),
    ("thirty-two times the longest period", [(LONGEST, LONGEST)] * 32),
    ("a tick too many in the last of thirty-two partitions", [(1, 32)] * 31 + [(2, 32)]),
    ("an overload goes before too many slots", [(1, 2), (1, 128), (64, 128)]),
    ("65 slots", [(1, 2), (1, 128)]),
    ("500000 slots", [(1, 2), (1, LONGEST)]),
    ("too many slots in the longest common period, of coprime periods", [(15_000, 15_625), (1, 64)]),
    ("too many slots in the longest common period but one", [(1, 999), (1, 1001)]),
]

# Plans and requirements: what each shows, the plans, and the requirement of each partition.
CHECKS = [
    ("a window that begins in a gap", [(20, [(3, 3, 0), (13, 3, 0)])], [(3, 10)]),
    ("the first window that begins in a gap is too short", [(20, [(3, 3, 0), (13, 4, 0)])], [(4, 10)]),
    ("the second window that begins in a gap is too short", [(20, [(3, 3, 0), (13, 2, 0)])], [(3, 10)]),
    ("the third of four windows", [(40, [(0, 2, 0), (11, 2, 0), (21, 1, 0), (30, 1, 0)])], [(2, 10)]),
    ("a slot over a window's end, half in each", [(20, [(5, 10, 0)])], [(5, 10)]),
    ("a slot over a window's end, too short in both", [(20, [(5, 10, 0)])], [(6, 10)]),
    ("a slot over a window's end, a tick too late", [(20, [(6, 9, 0)])], [(5, 10)]),
    ("a slot over a window's end, a tick too short", [(20, [(5, 9, 0)])], [(5, 10)]),
    ("a slot over three windows", [(30, [(0, 30, 0)])], [(10, 10)]),
    ("three slots in a window", [(10, [(1, 1, 0), (3, 1, 0), (5, 1, 0)])], [(3, 10)]),
    ("two slots that touch", [(10, [(1, 2, 0), (3, 2, 0)])], [(4, 10)]),
    ("more than is required", [(10, [(0, 10, 0)])], [(1, 10)]),
    ("slots of others do not count", [(10, [(0, 3, 0), (3, 3, 1), (6, 3, 0)])], [(7, 10), (3, 10)]),
    ("no slot", [(10, [(0, 10, 0)])], [(1, 10), (1, 10)]),
    ("a frame that is no multiple of the period", [(15, [(0, 15, 0)])], [(1, 10)]),
    ("a frame that is no multiple, and a window too short", [(15, [(14, 1, 0)])], [(5, 10)]),
    ("a period longer than the frame", [(10, [(0, 10, 0)])], [(10, 20)]),
    ("a period longer than any frame that is checked", [(10, [(0, 10, 0)])], [(10, 1_000_000_000)]),
    ("no requirement", [(10, [(0, 10, 0)])], [None]),
    ("all four answers", [(20, [(0, 5, 0), (5, 5, 1), (10, 5, 0), (15, 5, 3)])], [(5, 10), None, (1, 3), (1, 10)]),
    ("plan 1 is not looked at", [(10, [(0, 10, 0)]), (10, [(0, 10, 1)])], [(10, 10), (1, 10)]),
    ("sixteen partitions", [(16, [(id, 1, id) for id in range(16)])], [(1, 16)] * 15 + [(2, 16)]),
    ("thirty-two partitions", [(32, [(id, 1, id) for id in range(32)])], [(1, 32)] * 31 + [(2, 32)]),
    ("the longest frame in windows of one tick", [(LONGEST, [(0, LONGEST, 0)])], [(1, 1)]),
    ("the longest frame, whose last tick is missing", [(LONGEST, [(0, LONGEST - 1, 0)])], [(1, 1)]),
    ("the longest frame, whose last tick alone is there", [(LONGEST, [(LONGEST - 1, 1, 0)])], [(1, LONGEST)]),
]

# Plans whose frame is too long.
CHECKS_NONE = [
    ("a frame above the longest", [(LONGEST + 1, [(0, LONGEST + 1, 0)])], [(1, 1)]),
    ("the longest frame of a plan", [(1_000_000_000, [(0, 1, 0)])], [(1, 1)]),
    ("a frame above the longest, and no requirement", [(LONGEST + 1, [(0, 1, 0)])], [None]),
]


def quoted(value):
    return json.dumps(value, ensure_ascii=False)


LINKS = ["</PartitionTable>", "</PartitionTable><Channels><Ipvi id='0' sourceId='0' destinationId='1'/><Ipvi id='7' sourceId='1' destinationId='0'/></Channels>"]


def row(shows, **keys):
    """A case, a line of its own."""
    parts = [f"shows = {quoted(shows)}"]
    for key, value in keys.items():
        parts.append(f"{key} = {value}")
    return f"  {{ {', '.join(parts)} }},"


def group(name, keys, rows):
    return "\n".join(["[[group]]", f"name = {quoted(name)}", *(f"{key} = {value}" for key, value in keys.items()), "case = [", *rows, "]", ""])


def description(plans, needs, more=()):
    """How the file `x` of a case is made."""
    return f"{{ name = \"x\", of = \"{len(needs)} partitions\", replace = {quoted([*changes(plans, needs), *more])} }}"


def main():
    (folder,) = sys.argv[1:]
    counts = sorted({len(needs) for _, *_, needs in MAKES + MAKES_NONE + CHECKS + CHECKS_NONE})
    parts = [HEADER]
    for count in counts:
        parts.append(f"[[file]]\nname = \"{count} partitions\"\ntext = '''\n{base(count)}'''\n")
    plans = [(shows, needs, made(needs)) for shows, needs in MAKES]
    for number, (shows, needs, plan) in enumerate(plans):
        if isinstance(plan, str):
            sys.exit(f"{shows}: {plan}")
        parts.append(f"# {shows}, with the plan that it makes\n[[file]]\nname = \"made {number}\"\nof = \"{len(needs)} partitions\"\nreplace = {quoted(changes([plan], needs))}\n")
    make, check, parse = ({"call": f'"{call}"', **more} for call, more in (("plan make x", {}), ("plan check x", {}), ("xmcparser x o", {"output": '"o"'})))
    refused = {"of_file": '"x"'}
    worked = [
        row("the plan that is made", call='"plan make demo.xml"', out=quoted(lines_of(made([(1000, 2000)] * 2)))),
        row("its own plan", call='"plan check demo.xml"', out=quoted(checked((2000, [(0, 1000, 0), (1000, 1000, 1)]), [(1000, 2000)] * 2))),
    ]
    parts.append(group("plans of the worked description", {"file": '["demo.xml"]'}, worked))
    parts.append(group("plans that are made", make, [row(shows, make=description([SHORT], needs), out=quoted(lines_of(plan))) for shows, needs, plan in plans]))
    parts.append(group("plans that are made, as configurations", parse, [row(shows, file=quoted([f"x=made {number}"]), out_begins='"ok length="') for number, (shows, _, _) in enumerate(plans)]))
    parts.append(group("plans that are made, checked", check, [row(shows, file=quoted([f"x=made {number}"]), out=quoted(checked(plan, needs))) for number, (shows, needs, plan) in enumerate(plans)]))
    for shows, needs, plan in plans:
        if set(checked(plan, needs).split("\n")) - {f"P{part} {word}" for part in range(32) for word in ("met", "none")} - {""}:
            sys.exit(f"{shows}: a plan misses a requirement")
    nones = []
    for shows, needs in MAKES_NONE:
        why = made(needs)
        if not isinstance(why, str):
            sys.exit(f"{shows}: there is a plan")
        nones.append(row(shows, make=description([SHORT], needs), refused=quoted(why)))
    parts.append(group("requirements that make no plan", {**make, **refused}, nones))
    parts.append(group("plans that are checked", check, [row(shows, make=description(plans, needs), out=quoted(checked(plans[0], needs))) for shows, plans, needs in CHECKS]))
    turns = (12, [(0, 2, 0), (2, 3, 1), (5, 2, 0), (7, 1, 1), (8, 2, 0), (10, 2, 1)]), [(2, 4), (3, 6)]
    parts.append(group("plans of partitions with links", {}, [
        row("one is made as without them", call='"plan make x"', make=description([SHORT], turns[1], [LINKS]), out=quoted(lines_of(made(turns[1])))),
        row("one is checked as without them", call='"plan check x"', make=description([turns[0]], turns[1], [LINKS]), out=quoted(checked(*turns))),
    ]))
    parts.append(group("plans that are too long to be checked", {**check, **refused}, [row(shows, make=description(plans, needs), refused=quoted(checked(plans[0], needs))) for shows, plans, needs in CHECKS_NONE]))
    parts.append(group("descriptions that give no plan", refused, list(no_descriptions())))
    parts.append(group("plans where a device fails", {"file": '["demo.xml"]'}, list(devices())))
    parts.append(group("words that are no plan", {"status": '"Usage"', "fails": "{ files = [0] }"}, list(no_words())))
    Path(folder, "plans.toml").write_text("\n".join(parts), encoding="utf-8")


def no_descriptions():
    for verb in ("make", "check"):
        call = f'"plan {verb} x"'
        yield row(f"nothing, to {verb}", call=call, make='{ name = "x", text = "" }', refused='"unclosed at=0"')
        yield row(f"the first broken rule, to {verb}", call=call, make="{ name = \"x\", of = \"demo.xml\", replace = [[\"Processor id=\\\"0\\\"\", \"Processor id=\\\"1\\\"\"]] }", refused='"rule number=2 at=46 and=46"')
        yield row(f"a byte more than a file may have, to {verb}", call=call, make='{ name = "x", of = "demo.xml", length = 16777217, fill = 32 }', refused='"too-long"')


def devices():
    for verb, text in (("make", lines_of(made([(1000, 2000)] * 2))), ("check", "P0 met\nP1 met\n")):
        call = f'"plan {verb} demo.xml"'
        yield row(f"the read, to {verb}", call=call, fails="{ files = [0] }", status='"ReadFault"', err='"xm_run: demo.xml: cannot read\\n"')
        yield row(f"no such file, to {verb}", call=f'"plan {verb} none.xml"', status='"ReadFault"', err='"xm_run: none.xml: cannot read\\n"')
        yield row(f"no byte is taken, to {verb}", call=call, fails="{ out_step = 0 }", status='"WriteFault"', err='"xm_run: report: cannot write\\n"')
        yield row(f"the second call fails, to {verb}", call=call, fails="{ out = [1], out_step = 9 }", status='"WriteFault"', out=quoted(text[:9]), err='"xm_run: report: cannot write\\n"')
        yield row(f"the call after the last, to {verb}", call=call, fails=f"{{ out = [{len(text)}], out_step = 1 }}", out=quoted(text))


def no_words():
    for words in (
        ["plan"], ["plan", "make"], ["plan", "check"], ["plan", "demo.xml"], ["plan", "make", "demo.xml", "o"],
        ["plan", "check", "demo.xml", "o"], ["plan", "demo.xml", "make"], ["plan", "Make", "demo.xml"],
        ["plan", "made", "demo.xml"], ["plan", "make", ""], ["plan", "make", "--x"], ["plan", "check", ""],
        ["plan", "check", "--"], ["plan", "--make", "demo.xml"], ["Plan", "make", "demo.xml"], ["plans", "make", "demo.xml"],
    ):  # fmt: skip
        shows = " ".join(word or "''" for word in words)
        yield row(shows, words=quoted(words))


main()
