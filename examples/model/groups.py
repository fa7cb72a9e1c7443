#!/usr/bin/env python3
"""Writes cases of `flows` as data of `case_suite`: descriptions, and what is to be printed of them.

usage: groups.py FOLDER

FOLDER is crates/case_suite/data, the file is groups.toml. The group of a partition is found here by its definition alone: of
all sets of partitions those are taken that have the partition and that no channel or link enters from outside, and the group is
what they have in common. Of more than 16 partitions there are too many sets: there it is grown, which is compared with the
other way for all others. Who may steer others is found by the two tables below and the texts of the descriptions: the flag, and
each answer to a health event whose action reaches all partitions.
"""
import json
import sys
from pathlib import Path

HEADER = """\
# What `flows` and `flows --steering` answer. The descriptions and what is printed of them are those of
# `examples/model/groups.py crates/case_suite/data`, which writes this file: it takes all sets of partitions that no channel
# or link enters from outside, and what those with a partition have in common. The lines of a refusal are those of docs/ERRORS.md.
"""

FRONT = """\
<SystemDescription version="1" name="groups"><HwDescription>
<MemoryLayout><Region type="stram" start="0x40000000" size="4MB"/></MemoryLayout>
<ProcessorTable><Processor id="0"><CyclicPlanTable><Plan id='0' majorFrame='1us'><Slot id='0' start='0us' duration='1us' partitionId='0'/></Plan></CyclicPlanTable></Processor></ProcessorTable>
<Devices><Uart id="0" name="U"/></Devices></HwDescription>
<XMHypervisor console="U"><PhysicalMemoryArea size="512KB"/></XMHypervisor><PartitionTable>
"""
PARTITION = """\
<Partition id="{id}" name="P{id}"FLAGS{id:02} console="U"><PhysicalMemoryAreas><Area start="{start:#x}" size="4KB"/></PhysicalMemoryAreas>PORTS{id:02}</Partition>
"""
BACK = """\
</PartitionTable>CHANNELS</SystemDescription>
"""


def sampling(source, *dests):
    return ("sampling", source, dests)


def queuing(source, dest):
    return ("queuing", source, (dest,))


def link(source, dest, number=0):
    return ("link", source, (dest,), number)


def is_closed(members, channels):
    """Whether no channel or link brings anything into the set from outside."""
    for kind, source, dests, *_ in channels:
        ends = {source, *dests}
        if kind != "queuing" and members & set(dests) and source not in members:
            return False
        if kind == "queuing" and members & ends and not ends <= members:
            return False
    return True


def grown(members, channels):
    """The set with all that a channel or a link asks for."""
    more = set(members)
    for kind, source, dests, *_ in channels:
        if more & set(dests):
            more.add(source)
        if kind == "queuing" and source in more:
            more |= set(dests)
    return members if more == members else grown(more, channels)


def groups(count, channels):
    """The group of each partition: what all closed sets with it have in common."""
    found = [grown({p}, channels) for p in range(count)]
    if count <= 16 and found != common(count, channels):
        sys.exit(f"not the same: {found}")
    return found


def common(count, channels):
    closed = []
    for bits in range(1 << count):
        members = {p for p in range(count) if bits >> p & 1}
        if is_closed(members, channels):
            closed.append(members)
    return [set.intersection(*(members for members in closed if p in members)) for p in range(count)]


def lines_of(count, channels, systems):
    lines = []
    for p, members in enumerate(groups(count, channels)):
        covered = "no" if members & set(systems) else "yes"
        lines.append(f"P{p} members={','.join(map(str, sorted(members)))} covered={covered}\n")
    return "".join(lines)


# The health events in the order of their numbers, and the actions that reach all partitions and those that do not.
EVENTS = [
    "PARTITION_ERROR", "MEM_PROTECTION", "UNEXPECTED_TRAP", "SPARC_ILLEGAL_INSTRUCTION", "SPARC_PRIVILEGED_INSTRUCTION",
    "SPARC_FP_DISABLED", "SPARC_CP_DISABLED", "SPARC_ADDRESS_NOT_ALIGNED", "SPARC_TAG_OVERFLOW", "SPARC_DIVIDE_EXCEPTION",
    "SPARC_INSTR_ACCESS", "SPARC_DATA_ACCESS",
]
ON_ALL = ["HYPERVISOR_COLD_RESET", "HYPERVISOR_WARM_RESET", "HYPERVISOR_HALT", "SWITCH_TO_MAINTENANCE"]
ON_ITSELF = ["IGNORE", "SHUTDOWN", "PARTITION_COLD_RESET", "PARTITION_WARM_RESET", "SUSPEND", "HALT", "PROPAGATE"]
TWO_PLANS = ["</CyclicPlanTable>", "<Plan id='1' majorFrame='1us'><Slot id='0' start='0us' duration='1us' partitionId='0'/></Plan></CyclicPlanTable>"]


def steering_lines(count, systems, answers):
    """The lines of steering; an answer is a partition, an event, an action and whether it is logged."""
    lines = []
    for p in range(count):
        if p in systems:
            lines.append(f"P{p} steers by=system\n")
        own = sorted((EVENTS.index(event), event, action) for part, event, action, _ in answers if part == p and action in ON_ALL)
        lines.extend(f"P{p} steers by=health event=XM_HM_EV_{event} action=XM_HM_AC_{action}\n" for _, event, action in own)
    return "".join(lines)


def steering_changes(count, channels, systems, answers):
    """What a description with these answers has in the places of the base's marks, and a second plan."""
    marks = changes(count, channels, systems)
    for mark in marks:
        if mark[0].startswith("PORTS"):
            own = [answer for answer in answers if answer[0] == int(mark[0][5:])]
            events = "".join(f"<Event name='XM_HM_EV_{event}' action='XM_HM_AC_{action}'{'' if logged else ' log=' + chr(39) + 'no' + chr(39)}/>" for _, event, action, logged in own)
            mark[1] = (f"<HealthMonitor>{events}</HealthMonitor>" if own else "") + mark[1]
    return [*marks, TWO_PLANS]


def base(count):
    return FRONT + "".join(PARTITION.format(id=id, start=0x40100000 + id * 0x1000) for id in range(count)) + BACK


def changes(count, channels, systems):
    """What a description has in the places of the base's marks."""
    ports = [[] for _ in range(count)]

    def port(part, kind, direction):
        name = f"p{len(ports[part])}"
        ports[part].append(f"<Port name='{name}' type='{kind}' direction='{direction}'/>")
        return name

    texts = []
    for kind, source, dests, *number in channels:
        if kind == "link":
            texts.append(f"<Ipvi id='{number[0]}' sourceId='{source}' destinationId='{dests[0]}'/>")
            continue
        ends = f"<Source partitionId='{source}' portName='{port(source, kind, 'source')}'/>"
        ends += "".join(f"<Destination partitionId='{dest}' portName='{port(dest, kind, 'destination')}'/>" for dest in dests)
        if kind == "sampling":
            texts.append(f"<SamplingChannel maxMessageLength='8B'>{ends}</SamplingChannel>")
        else:
            texts.append(f"<QueuingChannel maxMessageLength='8B' maxNoMessages='4'>{ends}</QueuingChannel>")
    marks = [["CHANNELS", f"<Channels>{''.join(texts)}</Channels>" if texts else ""]]
    for part in range(count):
        marks.append([f"FLAGS{part:02}", " flags='system'" if part in systems else ""])
        marks.append([f"PORTS{part:02}", f"<PortTable>{''.join(ports[part])}</PortTable>" if ports[part] else ""])
    return marks


# What each shows, how many partitions, the channels, and the system partitions.
CASES = [
    ("one partition", 1, [], []),
    ("one system partition", 1, [], [0]),
    ("no channel", 3, [], []),
    ("no channel, beside a system partition", 3, [], [1]),
    ("a sampling channel and a queue", 3, [sampling(0, 1), queuing(1, 2)], []),
    ("a sampling channel: its source does not feel its destination", 2, [sampling(0, 1)], []),
    ("a queue: each end feels the other", 2, [queuing(0, 1)], []),
    ("a sampling channel with three destinations", 4, [sampling(2, 0, 1, 3)], []),
    ("a sampling channel from a system partition", 3, [sampling(0, 1)], [0]),
    ("a sampling channel to a system partition", 3, [sampling(1, 0)], [0]),
    ("a queue to a system partition", 3, [queuing(1, 0)], [0]),
    ("a system partition at the other end of a chain of queues", 4, [queuing(0, 1), queuing(1, 2), queuing(3, 2)], [3]),
    ("a chain of sampling channels", 4, [sampling(0, 1), sampling(1, 2), sampling(2, 3)], []),
    ("a chain against the order of the partitions", 4, [sampling(3, 2), sampling(2, 1), sampling(1, 0)], []),
    ("a chain whose channels stand the other way round", 4, [sampling(2, 3), sampling(1, 2), sampling(0, 1)], []),
    ("a ring of sampling channels", 4, [sampling(0, 1), sampling(1, 2), sampling(2, 3), sampling(3, 0)], []),
    ("a ring of queues", 4, [queuing(0, 1), queuing(1, 2), queuing(2, 3), queuing(3, 0)], []),
    ("a star of sampling channels from its middle", 5, [sampling(0, 1), sampling(0, 2), sampling(0, 3), sampling(0, 4)], []),
    ("a star of sampling channels to its middle", 5, [sampling(1, 0), sampling(2, 0), sampling(3, 0), sampling(4, 0)], []),
    ("a star of queues", 5, [queuing(0, 1), queuing(2, 0), queuing(0, 3), queuing(4, 0)], []),
    ("two groups", 6, [queuing(0, 2), queuing(2, 4), sampling(1, 3), sampling(3, 5)], []),
    ("two groups with a sampling channel between", 6, [queuing(0, 2), queuing(2, 4), queuing(1, 3), queuing(3, 5), sampling(4, 1)], []),
    ("a queue whose destination has a source outside", 4, [queuing(0, 1), sampling(2, 1), sampling(3, 2)], []),
    ("a queue whose source has a source outside", 4, [queuing(0, 1), sampling(2, 0), sampling(0, 3)], []),
    ("channels of one partition with itself", 2, [sampling(0, 0), queuing(1, 1)], []),
    ("two channels between two partitions, one each way", 3, [sampling(0, 1), sampling(1, 0)], []),
    ("sixteen partitions in one chain of sampling channels", 16, [sampling(id, id + 1) for id in range(15)], []),
    ("sixteen partitions in one chain of sampling channels, backwards", 16, [sampling(id + 1, id) for id in range(15)], []),
    ("sixteen partitions in one chain of queues", 16, [queuing(id, id + 1) for id in range(15)], []),
    ("sixteen partitions in one chain of queues, with a system partition in it", 16, [queuing(id, id + 1) for id in range(15)], [7]),
    ("sixteen partitions, each with the next but one", 16, [queuing(id, id + 2) for id in range(14)], [2]),
    ("a link: its source does not feel its destination", 2, [link(0, 1)], []),
    ("a link back", 2, [link(1, 0, 7)], []),
    ("links both ways", 3, [link(0, 1), link(1, 0)], []),
    ("a link from a system partition", 3, [link(0, 1, 3)], [0]),
    ("a link to a system partition", 3, [link(1, 0)], [0]),
    ("a chain of links", 4, [link(0, 1), link(1, 2), link(2, 3)], []),
    ("a chain of links whose order is the other way round", 4, [link(2, 3), link(1, 2), link(0, 1)], []),
    ("a ring of links", 4, [link(0, 1), link(1, 2), link(2, 3), link(3, 0)], []),
    ("a link behind a queue and one behind a sampling channel", 5, [queuing(0, 1), link(2, 0), sampling(3, 4), link(4, 2)], []),
    ("a queue whose destination is signalled", 4, [queuing(0, 1), link(3, 1), link(1, 2)], []),
    ("eight links of one partition", 9, [link(8, id, id) for id in range(8)], []),
    ("thirty-two partitions in one chain of links", 32, [link(id, id + 1) for id in range(31)], [16]),
    ("thirty-two partitions in one chain of queues, backwards", 32, [queuing(id + 1, id) for id in range(31)], []),
    ("one source of all others", 16, [sampling(15, *range(15))], [15]),
]


# What each shows, how many partitions, the channels, the system partitions, and the answers to health events.
STEERERS = [
    ("nobody", 3, [sampling(0, 1), queuing(1, 2)], [], []),
    ("a system partition", 2, [], [1], []),
    ("two system partitions of four", 4, [queuing(0, 3)], [0, 2], []),
    *((f"the action {action}", 2, [], [], [(1, "SPARC_TAG_OVERFLOW", action, True)]) for action in ON_ALL),
    *((f"the action {action}, which reaches the partition alone", 2, [], [], [(1, "SPARC_TAG_OVERFLOW", action, True)]) for action in ON_ITSELF),
    ("an action for each event, in another order", 2, [], [], [(0, event, ON_ALL[k % 4], True) for k, event in reversed(list(enumerate(EVENTS)))]),
    *((f"an action for {event}", 1, [], [], [(0, event, "HYPERVISOR_HALT", True)]) for event in EVENTS),
    ("an action that is not logged", 2, [], [], [(0, "UNEXPECTED_TRAP", "SWITCH_TO_MAINTENANCE", False)]),
    ("actions that reach all between others", 2, [], [], [(1, "PARTITION_ERROR", "HALT", True), (1, "UNEXPECTED_TRAP", "HYPERVISOR_WARM_RESET", True), (1, "SPARC_FP_DISABLED", "IGNORE", True)]),
    ("a system partition whose table has an action, too", 3, [sampling(0, 1)], [1], [(1, "SPARC_DATA_ACCESS", "HYPERVISOR_COLD_RESET", True)]),
    ("a system partition and the table of another one", 3, [link(0, 2)], [2], [(0, "MEM_PROTECTION", "HYPERVISOR_HALT", True)]),
    ("the last of thirty-two partitions", 32, [], [31], [(30, "SPARC_INSTR_ACCESS", "SWITCH_TO_MAINTENANCE", True)]),
    ("thirty-two system partitions", 32, [], list(range(32)), []),
]


def quoted(value):
    return json.dumps(value, ensure_ascii=False)


def row(shows, **keys):
    """A case, a line of its own."""
    return f"  {{ {', '.join([f'shows = {quoted(shows)}', *(f'{key} = {value}' for key, value in keys.items())])} }},"


def group(name, keys, rows):
    return "\n".join(["[[group]]", f"name = {quoted(name)}", *(f"{key} = {value}" for key, value in keys.items()), "case = [", *rows, "]", ""])


def words_row(words):
    return row(" ".join(word or "''" for word in words), words=quoted(words))


def main():
    (folder,) = sys.argv[1:]
    parts = [HEADER]
    for count in sorted({count for _, count, _, _ in CASES}):
        parts.append(f"[[file]]\nname = \"{count} in groups\"\ntext = '''\n{base(count)}'''\n")
    parts.append(group("groups of the worked description", {"file": '["demo.xml"]'}, [row("a system partition and another one", call='"flows demo.xml"', out=quoted(lines_of(2, [], [0])))]))
    rows = []
    for shows, count, channels, systems in CASES:
        make = f"{{ name = \"x\", of = \"{count} in groups\", replace = {quoted(changes(count, channels, systems))} }}"
        rows.append(row(shows, make=make, out=quoted(lines_of(count, channels, systems))))
    parts.append(group("groups", {"call": '"flows x"'}, rows))
    rule = [["Processor id=\"0\"", "Processor id=\"1\""]]
    parts.append(group("descriptions that give no groups", {"call": '"flows x"', "of_file": '"x"'}, [
        row("nothing", make='{ name = "x", text = "" }', refused='"unclosed at=0"'),
        row("the first broken rule", make=f"{{ name = \"x\", of = \"demo.xml\", replace = {quoted(rule)} }}", refused='"rule number=2 at=46 and=46"'),
        row("a byte more than a file may have", make='{ name = "x", of = "demo.xml", length = 16777217, fill = 32 }', refused='"too-long"'),
    ]))
    said = lines_of(2, [], [0])
    parts.append(group("groups where a device fails", {"file": '["demo.xml"]', "call": '"flows demo.xml"'}, [
        row("the read", fails="{ files = [0] }", status='"ReadFault"', err=quoted("xm_run: demo.xml: cannot read\n")),
        row("no such file", call='"flows none.xml"', status='"ReadFault"', err=quoted("xm_run: none.xml: cannot read\n")),
        row("no byte is taken", fails="{ out_step = 0 }", status='"WriteFault"', err=quoted("xm_run: report: cannot write\n")),
        row("the second call fails", fails="{ out = [1], out_step = 9 }", status='"WriteFault"', out=quoted(said[:9]), err=quoted("xm_run: report: cannot write\n")),
        row("the call after the last", fails=f"{{ out = [{len(said)}], out_step = 1 }}", out=quoted(said)),
    ]))
    parts.append(group("words that are no groups", {"status": '"Usage"', "fails": "{ files = [0] }"}, [
        words_row(words) for words in (["flows"], ["flows", ""], ["flows", "--x"], ["flows", "--"], ["flows", "demo.xml", "o"], ["flow", "demo.xml"], ["Flows", "demo.xml"], ["--flows", "demo.xml"], ["demo.xml", "flows"])
    ]))
    said += steering_lines(2, [0], [])
    parts.append(group("steerers of the worked description", {"file": '["demo.xml"]'}, [row("a system partition and another one", call='"flows --steering demo.xml"', out=quoted(said))]))
    rows = []
    for shows, count, channels, systems, answers in STEERERS:
        make = f"{{ name = \"x\", of = \"{count} in groups\", replace = {quoted(steering_changes(count, channels, systems, answers))} }}"
        rows.append(row(shows, make=make, out=quoted(lines_of(count, channels, systems) + steering_lines(count, systems, answers))))
    parts.append(group("steerers", {"call": '"flows --steering x"'}, rows))
    parts.append(group("descriptions that give no steerers", {"call": '"flows --steering x"', "of_file": '"x"'}, [
        row("nothing", make='{ name = "x", text = "" }', refused='"unclosed at=0"'),
        row("the first broken rule", make=f"{{ name = \"x\", of = \"demo.xml\", replace = {quoted(rule)} }}", refused='"rule number=2 at=46 and=46"'),
    ]))
    parts.append(group("steerers where a device fails", {"file": '["demo.xml"]', "call": '"flows --steering demo.xml"'}, [
        row("the read", fails="{ files = [0] }", status='"ReadFault"', err=quoted("xm_run: demo.xml: cannot read\n")),
        row("the second call fails", fails="{ out = [1], out_step = 52 }", status='"WriteFault"', out=quoted(said[:52]), err=quoted("xm_run: report: cannot write\n")),
        row("the call after the last", fails=f"{{ out = [{len(said)}], out_step = 1 }}", out=quoted(said)),
    ]))
    parts.append(group("words that are no steerers", {"status": '"Usage"', "fails": "{ files = [0] }"}, [
        words_row(words) for words in (["flows", "--steering"], ["flows", "--steering", ""], ["flows", "--steering", "--x"], ["flows", "demo.xml", "--steering"], ["flows", "--Steering", "demo.xml"], ["flows", "-steering", "demo.xml"], ["flows", "--steering", "demo.xml", "o"], ["plan", "--steering", "demo.xml"])
    ]))
    (Path(folder) / "groups.toml").write_text("\n".join(parts), encoding="utf-8")


if __name__ == "__main__":
    main()
