#!/usr/bin/env python3
"""Writes cases of `run --script` and of `alone` as data of `case_suite`: containers, the scripts of their partitions, and what of these is refused.

usage: scripts.py FOLDER

FOLDER is crates/case_suite/data, the file is scripts.toml. What the partitions receive stands in tables that are worked by
hand, those of cues.py among them, and the files are spelled here from docs/FORMATS.md. What a replay prints are the lines of its partition
in the report of the second simulator, model.py.
"""
import itertools
import sys
from pathlib import Path

from asm import Guest
from box import container
from model import Machine
from cues import QUEUE_SLOTS, QUEUE_TOLD, RESET_SLOTS, RESET_TOLD, SIGNAL_TOLD, mine, queue, reset
from groups import group, quoted, row
from rows import HEARS, LOOP, P0, SIGNALS, demo, link_system

HEADER = """\
# Scripts of partitions, as `run --script` writes them (docs/FORMATS.md). `examples/model/scripts.py crates/case_suite/data`
# writes this file: it spells the scripts from tables of what the partitions are told, which are worked by hand.
"""

# Files of runs.toml that these cases use, too.
OTHERS = '''\
[[file]]
name = "loop 1"
program = { start = "40180000", words = "10800000 01000000" }

[[file]]
name = "none"
hex = ""

[[file]]
name = "five"
hex = "0000000000"

[[file]]
name = "core 0 of loops"
hex = ""
length = 527767
bytes = [
  [0, 0x58], [1, 0x4d], [2, 0x43], [3, 0x4f], [5, 0x01], [22, 0x0b], [23, 0xb8], [24, 0x40], [25, 0x10], [28, 0x40],
  [29, 0x10], [31, 0x04], [37, 0x07], [47, 0x20], [48, 0xff], [49, 0xff], [50, 0xff], [51, 0xff], [3470, 0x01],
  [3471, 0x40], [3472, 0x10], [3476, 0x08], [3479, 0x10], [3480, 0x80], [3483, 0x01],
]

[[file]]
name = "core 1 of loops"
hex = ""
length = 527767
bytes = [
  [0, 0x58], [1, 0x4d], [2, 0x43], [3, 0x4f], [5, 0x01], [6, 0x01], [22, 0x0b], [23, 0xb8], [24, 0x40], [25, 0x18],
  [28, 0x40], [29, 0x18], [31, 0x04], [37, 0x07], [47, 0x20], [48, 0xff], [49, 0xff], [50, 0xff], [51, 0xff],
  [3470, 0x01], [3471, 0x40], [3472, 0x18], [3476, 0x08], [3479, 0x10], [3480, 0x80], [3483, 0x01],
]

[[file]]
name = "reads a word"
program = { start = "40100000", words = "13100400 92126018 90102021 91d02070 10800000 01000000 00000000" }

[[file]]
name = "two words"
hex = "00000007 00000009"

[[file]]
name = "core 0 of a reader"
hex = ""
length = 527767
bytes = [
  [0, 0x58], [1, 0x4d], [2, 0x43], [3, 0x4f], [5, 0x01], [23, 0x05], [24, 0x40], [25, 0x10], [27, 0x14], [28, 0x40],
  [29, 0x10], [31, 0x10], [37, 0x07], [47, 0x20], [48, 0xff], [49, 0xff], [50, 0xff], [51, 0xff], [89, 0x01],
  [578, 0x40], [579, 0x10], [581, 0x18], [3470, 0x01], [3471, 0x40], [3472, 0x10], [3476, 0x08], [3479, 0x13],
  [3480, 0x10], [3481, 0x04], [3483, 0x92], [3484, 0x12], [3485, 0x60], [3486, 0x18], [3487, 0x90], [3488, 0x10],
  [3489, 0x20], [3490, 0x21], [3491, 0x91], [3492, 0xd0], [3493, 0x20], [3494, 0x70], [3495, 0x10], [3496, 0x80],
  [3499, 0x01], [3506, 0x07],
]
'''

SLOT = {"away": 0, "mine": 1, "mine first": 2}
ORDER = {"halt": 1, "suspend": 2, "resume": 3, "shutdown": 4, "cold": 5, "warm": 6}
WHOLE = {"cold": 1, "warm": 2, "halt": 3}


def traffic_bytes(text):
    kind, *rest = text.split()
    if kind == "put":
        message = bytes.fromhex(rest[1])
        return bytes([1, int(rest[0])]) + len(message).to_bytes(2, "big") + message
    return bytes([{"take": 2, "signal": 3}[kind], int(rest[0])])


def order_bytes(text):
    kind, *status = text.split()
    return bytes([ORDER[kind]]) + b"".join(int(number).to_bytes(4, "big") for number in status)


def seen_bytes(text):
    if text == "not kept":
        return bytes([1])
    shown = bytes.fromhex(text)
    return bytes([2, len(shown)]) + shown


def cue_bytes(slot, told):
    parts = [bytes([SLOT[slot]])]
    parts.append(traffic_bytes(told["traffic"]) if "traffic" in told else bytes(1))
    parts.append(order_bytes(told["order"]) if "order" in told else bytes(1))
    parts.append(bytes([WHOLE[told["whole"]]]) if "whole" in told else bytes(1))
    parts.append(seen_bytes(told["seen"]) if "seen" in told else bytes(1))
    return b"".join(parts)


def script(p, slots, told, ticks):
    """The script of a partition: the slots of all partitions, and what they receive in a number of ticks."""
    return spelled(p, [(mine(slots[p], tick), told.get((tick, p), {})) for tick in range(ticks)])


def spelled(p, cues):
    """The script of a partition that has these cues."""
    text = b"XMSC" + (1).to_bytes(2, "big") + bytes([p]) + len(cues).to_bytes(8, "big")
    for plain, run in itertools.groupby(cues, lambda cue: cue[0] if not cue[1] and cue[0] != "mine first" else None):
        run = list(run)
        if plain is None:
            text += b"".join(b"\x02" + cue_bytes(*cue) for cue in run)
        else:
            text += bytes([SLOT[plain]]) + len(run).to_bytes(4, "big")
    return text


def file_row(name, content):
    digits = content.hex()
    lines = "\n".join(digits[at:at + 96] for at in range(0, len(digits), 96))
    return f'[[file]]\nname = {quoted(name)}\nhex = """\n{lines}\n"""\n'


LOOPS_SLOTS = [range(frame, frame + 1000) for frame in range(0, 6000, 2000)], [range(frame, frame + 1000) for frame in range(1000, 6000, 2000)]
LOOPS = "SYSTEM parts=2 plans=1 ticks=6000\nEND P0 ready resets=0 exec=3000 pc=40100000\nEND P1 ready resets=0 exec=3000 pc=40180000\nEND XM running plan=0 clock=6000 ticks=6000\n"
FOUR = "SYSTEM parts=2 plans=1 ticks=4\n[2] P0 HM XM_HM_EV_PARTITION_ERROR 0000002a XM_HM_AC_HYPERVISOR_WARM_RESET\n[2] XM WARM\n[2] P0 WARM\n[2] P1 WARM\nEND P0 ready resets=1 exec=1 pc=40100004\nEND P1 ready resets=1 exec=0 pc=40180000\nEND XM running plan=0 clock=1 ticks=4\n"
NONE = "SYSTEM parts=2 plans=1 ticks=0\nEND P0 ready resets=0 exec=0 pc=40100000\nEND P1 ready resets=0 exec=0 pc=40180000\nEND XM running plan=0 clock=0 ticks=0\n"


def own(p, report):
    """The lines of a partition in a report, that of its end among them."""
    return "".join(line for line in report.splitlines(keepends=True) if line.split()[1] == f"P{p}")


def report_of(system, ticks):
    return Machine(system).run(ticks)


def entry(*parts):
    """A script of partition 1 with one cue, whose five parts are spelled by these bytes."""
    return "584d5343 0001 01 0000000000000001 02 " + " ".join(parts)


# A script of partition 1 of queue.box with one cue, by what is wrong with it, and the place that is told.
FIELDS = {
    "of another partition": ("584d5343 0001 00 0000000000000001 00 00000001", 6),
    "with more cues than a run may have": ("584d5343 0001 01 00000000ee6b2801 00 00000001", 7),
    "with an entry of a kind that there is not": ("584d5343 0001 01 0000000000000001 03 00000001", 15),
    "with a slot that there is not": (entry("03 00 00 00 00"), 16),
    "with traffic that there is not": (entry("00 04 00 00 00"), 17),
    "with an order that there is not": (entry("00 00 07 00 00"), 18),
    "with a hypervisor event that there is not": (entry("00 00 00 04 00"), 19),
    "with a count of 0": ("584d5343 0001 01 0000000000000001 00 00000000", 16),
    "with a count past the cues": ("584d5343 0001 01 0000000000000001 00 00000002", 16),
    "with an entry that repeats the one before it": ("584d5343 0001 01 0000000000000002 00 00000001 00 00000001", 20),
    "with a plain cue written out": (entry("00 00 00 00 00"), 15),
    "with a message into a channel that is none of its own": (entry("00 01 05 0001 61 00 00 00"), 18),
    "with a message into a port of its own without a channel": (entry("00 01 00 0001 61 00 00 00"), 18),
    "with a message of no byte": (entry("00 01 01 0000 00 00 00"), 19),
    "with a message of a byte too many": (entry("00 01 01 0009 616263646566676869 00 00 00"), 19),
    "with a message taken from a queue that it only receives from": (entry("00 02 01 00 00 00"), 18),
    "with a signal, of which there are no links": (entry("00 03 00 00 00 00"), 18),
    "with traffic in its own slot": (entry("01 01 01 0001 61 00 00 00"), 17),
    "with an order in its own slot": (entry("01 00 01 00 00"), 18),
    "with something seen in the slot of another": (entry("00 00 00 00 01"), 20),
    "with something seen by a partition without the flag": (entry("01 00 00 00 01"), 20),
    "with a halt before the last cue": ("584d5343 0001 01 0000000000000002 02 00 00 00 03 00 00 00000001", 19),
}

# The same of partition 1 of signal.box, to which link 0 goes, and then of partition 0, from which it goes.
LINK_FIELDS = {
    "with a signal over a link that there is not": (1, entry("00 03 01 00 00 00"), 18),
    "with a signal over a link of number 8": (1, entry("00 03 08 00 00 00"), 18),
    "with a signal without its number": (1, entry("00 03"), 18),
    "with a signal in its own slot": (1, entry("01 03 00 00 00 00"), 17),
    "with a signal over its own link": (0, "584d5343 0001 00 0000000000000001 02 00 03 00 00 00 00", 18),
}

# The same of partition 0, which has the flag `system`, and of which messages are taken.
SYSTEM_FIELDS = {
    "with five bytes seen": ("584d5343 0001 00 0000000000000001 02 01 00 00 00 02 05 0000000000", 21),
    "with a message into the queue that it only sends into": ("584d5343 0001 00 0000000000000001 02 00 01 00 0001 61 00 00 00", 18),
}

# Scripts that are read and cannot be taken: the partition, the bytes, and the cue.
UNTAKABLE = {
    "a message into a queue that is full": (1, "584d5343 0001 01 0000000000000003" + 3 * " 02 00 01 01 0001 61 00 00 00", 2),
    "a message from a queue that is empty": (0, "584d5343 0001 00 0000000000000001 02 00 02 00 00 00 00", 0),
    "bytes that no call asks for": (0, "584d5343 0001 00 0000000000000001 02 01 00 00 00 02 04 00000000", 0),
    "bytes of another length than the call writes": (0, None, 20),
    "nothing, where a call asks": (0, None, 20),
    "an entry that is not kept, of a call that asks for none": (0, None, 20),
    "a hypervisor event in its own slot that is not of its own act": (0, "584d5343 0001 00 0000000000000001 02 01 00 00 01 00", 0),
    "no hypervisor event where its own act is one": (0, None, 49),
}


def fails(**calls):
    return "{ " + ", ".join(f"{name} = {at}" for name, at in calls.items()) + " }"


def script_but(at, told):
    """The script of partition 0 of queue.box, where one tick has this instead of what it has."""
    return script(0, QUEUE_SLOTS, {tick: what for tick, what in QUEUE_TOLD.items() if tick != (at, 0)} | ({(at, 0): told} if told else {}), 50).hex()


def asker():
    """A system whose first partition asks for the state of the other in tick `at`, at a place where it may not write."""
    guest = Guest(P0)
    guest.call(8, 1, 0)
    at = len(guest.bytes()) // 4 - 1
    guest.loop()
    return demo(guest.bytes()), at


def replays():
    loops_0, loops_1 = (quoted(own(p, LOOPS)) for p in (0, 1))
    told = report_of(queue(), 50)
    front = report_of(queue(), 15)
    yield group("replays", {"file": '["reset.box", "queue.box", "duo.xmp", "none"]'}, [
        row("a partition that another one's event resets", make='{ name = "s", of = "script 1 of reset" }', call='"alone reset.box 1 s"', out=quoted(own(1, FOUR))),
        row("the one that has the event", make='{ name = "s", of = "script 0 of reset" }', call='"alone reset.box 0 s"', out=quoted(own(0, FOUR))),
        row("a partition that loops", make='{ name = "s", of = "script 0 of loops" }', call='"alone duo.xmp 0 s"', out=loops_0),
        row("with its core file", make='{ name = "s", of = "script 0 of loops" }', call='"alone duo.xmp 0 s --core c"', out=loops_0, same='{ c = "core 0 of loops" }'),
        row("the other one, with an input of no word", make='{ name = "s", of = "script 1 of loops" }', call='"alone duo.xmp 1 s --input none --core c"', out=loops_1, same='{ c = "core 1 of loops" }'),
        row("the options the other way round", make='{ name = "s", of = "script 1 of loops" }', call='"alone duo.xmp 1 s --core c --input none"', out=loops_1, same='{ c = "core 1 of loops" }'),
        row("the core file over the script", make='{ name = "s", of = "script 1 of loops" }', call='"alone duo.xmp 1 s --core s"', out=loops_1, same='{ s = "core 1 of loops" }'),
        row("no tick", make='{ name = "s", of = "script 0 of no tick" }', call='"alone duo.xmp 0 s"', out=quoted(own(0, NONE))),
        row("one whose messages are taken, and that is shown what it asks for", make='{ name = "s", of = "script 0 of queue" }', call='"alone queue.box 0 s"', out=quoted(own(0, told))),
        row("one that gets a message and three orders", make='{ name = "s", of = "script 1 of queue" }', call='"alone queue.box 1 s"', out=quoted(own(1, told))),
        row("the front of it", make='{ name = "s", of = "script 1 of the front of queue" }', call='"alone queue.box 1 s"', out=quoted(own(1, front))),
        row("by the script that a run wrote", calls='["run queue.box --ticks 50 --script 0=s", "alone queue.box 0 s"]', out=quoted(own(0, told))),
        row("by that of the other one", calls='["run queue.box --ticks 50 --script 1=s", "alone queue.box 1 s"]', out=quoted(own(1, told))),
        row("by the script of a run of a loop, with its core file", calls='["run duo.xmp --frames 3 --script 0=s", "alone duo.xmp 0 s --core c"]', out=loops_0, same='{ c = "core 0 of loops" }'),
    ])
    before = '["xmcparser demo.xml demo.xmc", "xmeformat build a.elf a.xef", "xmeformat build b.elf b.xef", "xmpack build demo.xmc duo.xmp 0=a.xef 1=b.xef"]'
    yield group("a replay with input words", {"before": before, "file": '["demo.xml", "a.elf=reads a word", "b.elf=loop 1", "i=two words", "s=script 0 of five ticks"]'}, [
        row("the core file has one word less", call='"alone duo.xmp 0 s --core c --input i"', out=quoted("END P0 ready resets=0 exec=5 pc=40100014\n"), same='{ c = "core 0 of a reader" }'),
    ])
    yield group("replays that are refused", {"file": '["duo.xmp", "five", "none", "s=script 0 of loops"]'}, [
        row("of what is no container", call='"alone five 0 s --core c"', refused='"magic"', of_file='"five"', absent='["c"]'),
        row("of no partition", call='"alone duo.xmp 2 s --core c"', refused='"partition id=2"', of_file='"duo.xmp"', absent='["c"]'),
        row("of no partition, by what is no script", call='"alone duo.xmp 31 five --core c"', refused='"partition id=31"', of_file='"duo.xmp"', absent='["c"]'),
        row("by what is no script", call='"alone duo.xmp 0 five --core c"', refused='"magic"', of_file='"five"', absent='["c"]'),
        row("by what is no script, with an input whose length is wrong", call='"alone duo.xmp 0 none --core c --input five"', refused='"short at=0"', of_file='"none"', absent='["c"]'),
        row("with an input whose length is wrong", call='"alone duo.xmp 0 s --core c --input five"', refused='"input length=5"', of_file='"five"', absent='["c"]'),
        row("by the script of the other partition", call='"alone duo.xmp 1 s --core c"', refused='"field at=6"', of_file='"s"', absent='["c"]'),
    ])
    rows = [row(f"cut to {count} bytes", make=f'{{ length = {count} }}', refused=quoted(f"short at={at}")) for count in range(31) for at in [max(place for place in (0, 4, 6, 7, 15, 16, 20, 21, 22, 23, 24, 25, 26, 27) if place <= count)]]
    yield group("scripts that are cut", {"call": '"alone reset.box 1 s"', "file": '["reset.box"]', "make": '{ name = "s", of = "script 1 of reset" }', "of_file": '"s"'}, [
        *rows, row("with a byte more", make='{ append_hex = "00" }', refused='"trailing at=31"'), row("of version 2", make='{ bytes = [[5, 2]] }', refused='"version found=2"'),
    ])
    yield group("scripts that are none for the partition", {"call": '"alone queue.box 1 s"', "file": '["queue.box"]', "of_file": '"s"'}, [
        row(name, make=f'{{ name = "s", hex = "{digits}" }}', refused=quoted(f"field at={at}")) for name, (digits, at) in FIELDS.items()
    ])
    yield group("scripts that are none for a system partition", {"call": '"alone queue.box 0 s"', "file": '["queue.box"]', "of_file": '"s"'}, [
        row(name, make=f'{{ name = "s", hex = "{digits}" }}', refused=quoted(f"field at={at}")) for name, (digits, at) in SYSTEM_FIELDS.items()
    ])
    signalled = report_of(link_system(SIGNALS, HEARS), 2000)
    yield group("replays of signals", {"file": '["signal.box"]'}, [
        row("one that is signalled", make='{ name = "s", of = "script 1 of signal" }', call='"alone signal.box 1 s"', out=quoted(own(1, signalled))),
        row("the one that signals", make='{ name = "s", of = "script 0 of signal" }', call='"alone signal.box 0 s"', out=quoted(own(0, signalled))),
        row("one whose signal is left out", make='{ name = "s", of = "script 1 of no signal" }', call='"alone signal.box 1 s"', out=quoted(own(1, report_of(link_system(LOOP, HEARS), 2000)))),
        row("by the script that a run wrote", calls='["run signal.box --ticks 2000 --script 1=s", "alone signal.box 1 s"]', out=quoted(own(1, signalled))),
    ])
    yield group("scripts whose signal is none", {"file": '["signal.box"]', "of_file": '"s"'}, [
        row(name, call=quoted(f"alone signal.box {p} s"), make=f'{{ name = "s", hex = "{digits}" }}', refused=quoted(("short" if len(digits.split()) < 8 else "field") + f" at={at}")) for name, (p, digits, at) in LINK_FIELDS.items()
    ])
    scripts = {
        "bytes of another length than the call writes": script_but(20, {"seen": 4 * "00"}),
        "nothing, where a call asks": script_but(20, None),
        "an entry that is not kept, of a call that asks for none": script_but(20, {"seen": "not kept"}),
        "no hypervisor event where its own act is one": script_but(49, None),
    }
    yield group("scripts that cannot be taken", {"file": '["queue.box"]', "of_file": '"s"'}, [
        row(name, call=quoted(f"alone queue.box {p} s"), make=f'{{ name = "s", hex = "{digits or scripts[name]}" }}', refused=quoted(f"cue tick={tick}")) for name, (p, digits, tick) in UNTAKABLE.items()
    ])
    system, at = asker()
    yield file_row("asks.box", container(system))
    asks = script(0, LOOPS_SLOTS, {(at, 0): {"seen": 20 * "00"}}, at + 1).hex()
    yield group("a script with what was not written", {"file": '["asks.box"]', "of_file": '"s"'}, [
        row("bytes where they may not be written", call='"alone asks.box 0 s"', make=f'{{ name = "s", hex = "{asks}" }}', refused=quoted(f"cue tick={at}")),
        row("nothing, which is what it was", call='"alone asks.box 0 s"', make=f'{{ name = "s", hex = "{script(0, LOOPS_SLOTS, {}, at + 1).hex()}" }}', out=quoted(own(0, report_of(system, at + 1)))),
    ])
    yield group("words of replays", {"file": '["duo.xmp", "s=script 0 of loops"]'}, [
        row(name, call=quoted(call), usage="true") for name, call in {
            "two core files": "alone duo.xmp 0 s --core c --core d", "two inputs": "alone duo.xmp 0 s --input c --input d", "an option without its file": "alone duo.xmp 0 s --core",
            "an option that there is not": "alone duo.xmp 0 s --script c", "a partition before its file": "alone duo.xmp 0 s --core 0=c --frames 3", "no script": "alone duo.xmp 0",
            "no partition": "alone duo.xmp", "a partition past 31": "alone duo.xmp 32 s", "a partition with a needless zero": "alone duo.xmp 00 s", "an option in front": "alone duo.xmp 0 --core c s",
            "three options": "alone duo.xmp 0 s --core c --input d --core e",
        }.items()
    ])
    yield group("replays where a device fails", {"call": '"alone duo.xmp 0 s --core c --input none"', "file": '["duo.xmp", "none", "s=script 0 of loops"]'}, [
        row("the read of the container", fails=fails(files=[0]), status='"ReadFault"', err=quoted("xm_run: duo.xmp: cannot read\n"), absent='["c"]'),
        row("the read of the script", fails=fails(files=[1]), status='"ReadFault"', err=quoted("xm_run: s: cannot read\n"), absent='["c"]'),
        row("the read of the input", fails=fails(files=[2]), status='"ReadFault"', err=quoted("xm_run: none: cannot read\n"), absent='["c"]'),
        row("the core file", fails=fails(files=[3]), status='"WriteFault"', out=loops_0, err=quoted("xm_run: c: cannot write\n"), absent='["c"]'),
        row("the line of the end", fails=fails(out=[0]), status='"WriteFault"', err=quoted("xm_run: report: cannot write\n"), absent='["c"]'),
        row("no call that is made", fails=fails(files=[4], out=[1]), out=loops_0, same='{ c = "core 0 of loops" }'),
    ])
    warm = own(1, FOUR)
    yield group("replays that print, where a device fails", {"call": '"alone reset.box 1 s --core c"', "file": '["reset.box", "s=script 1 of reset"]'}, [
        row("the core file", fails=fails(files=[2]), status='"WriteFault"', out=quoted(warm), err=quoted("xm_run: c: cannot write\n"), absent='["c"]'),
        row("the line of a cue", fails=fails(out=[0]), status='"WriteFault"', err=quoted("xm_run: report: cannot write\n"), absent='["c"]'),
        row("the line of the end", fails=fails(out=[1]), status='"WriteFault"', out=quoted(warm[:warm.index("END")]), err=quoted("xm_run: report: cannot write\n"), absent='["c"]'),
    ])


def main():
    (folder,) = sys.argv[1:]
    boxes = {"reset.box": container(reset()), "queue.box": container(queue()), "signal.box": container(link_system(SIGNALS, HEARS))}
    scripts = {
        "script 0 of reset": script(0, RESET_SLOTS, RESET_TOLD, 4),
        "script 1 of reset": script(1, RESET_SLOTS, RESET_TOLD, 4),
        "script 0 of queue": script(0, QUEUE_SLOTS, QUEUE_TOLD, 50),
        "script 1 of queue": script(1, QUEUE_SLOTS, QUEUE_TOLD, 50),
        "script 1 of the front of queue": script(1, QUEUE_SLOTS, QUEUE_TOLD, 15),
        "script 0 of signal": script(0, LOOPS_SLOTS, SIGNAL_TOLD, 2000),
        "script 1 of signal": script(1, LOOPS_SLOTS, SIGNAL_TOLD, 2000),
        "script 1 of no signal": script(1, LOOPS_SLOTS, {}, 2000),
        "script 0 of loops": script(0, LOOPS_SLOTS, {}, 6000),
        "script 1 of loops": script(1, LOOPS_SLOTS, {}, 6000),
        "script 0 of no tick": script(0, LOOPS_SLOTS, {}, 0),
    }
    parts = [HEADER, OTHERS, *(file_row(name, content) for name, content in (boxes | scripts).items())]
    parts.append(group("scripts of runs", {"file": '["reset.box", "queue.box", "signal.box", "duo.xmp", "none"]'}, [
        row("a reset of the whole system, told the other partition", call='"run reset.box --ticks 4 --script 1=s"', out=quoted(FOUR), same='{ s = "script 1 of reset" }'),
        row("and the one that caused it", call='"run reset.box --script 0=s --ticks 4"', out=quoted(FOUR), same='{ s = "script 0 of reset" }'),
        row("both, each in its file", call='"run reset.box --script 1=s --ticks 4 --script 0=t"', out=quoted(FOUR), same='{ s = "script 1 of reset", t = "script 0 of reset" }'),
        row("slots of a partition that loops", call='"run duo.xmp --frames 3 --script 0=s"', out=quoted(LOOPS), same='{ s = "script 0 of loops" }'),
        row("slots of the other one", call='"run duo.xmp --frames 3 --script 1=s"', out=quoted(LOOPS), same='{ s = "script 1 of loops" }'),
        row("a signal, told the partition to which its link goes", call='"run signal.box --ticks 2000 --script 1=s"', out=quoted(report_of(link_system(SIGNALS, HEARS), 2000)), same='{ s = "script 1 of signal" }'),
        row("and not the one that signals", call='"run signal.box --ticks 2000 --script 0=s"', out=quoted(report_of(link_system(SIGNALS, HEARS), 2000)), same='{ s = "script 0 of signal" }'),
        row("no tick", call='"run duo.xmp --ticks 0 --script 0=s"', out=quoted(NONE), same='{ s = "script 0 of no tick" }'),
        row("a message taken, and what two calls are shown, up to the tick in which the hypervisor halts", call='"run queue.box --ticks 50 --script 0=s"', out_begins='"SYSTEM parts=2 plans=1 ticks=50\\n"', same='{ s = "script 0 of queue" }'),
        row("a message put, and three orders, up to that tick", call='"run queue.box --ticks 50 --script 1=s"', out_begins='"SYSTEM parts=2 plans=1 ticks=50\\n"', same='{ s = "script 1 of queue" }'),
        row("a run that could be longer has none behind that tick", call='"run queue.box --ticks 4000 --script 1=s"', out_begins='"SYSTEM parts=2 plans=1 ticks=4000\\n"', same='{ s = "script 1 of queue" }'),
        row("a shorter run has its front", call='"run queue.box --ticks 15 --script 1=s"', out_begins='"SYSTEM parts=2 plans=1 ticks=15\\n"', same='{ s = "script 1 of the front of queue" }'),
        row("both in one file, which has the last of the words", call='"run reset.box --script 0=s --script 1=s --ticks 4"', out=quoted(FOUR), same='{ s = "script 1 of reset" }'),
        row("behind a core file in the same file", call='"run duo.xmp --script 1=c --core 1=c --frames 3"', out=quoted(LOOPS), same='{ c = "script 1 of loops" }'),
        row("beside a core file", call='"run duo.xmp --script 0=s --core 1=d --frames 3"', out=quoted(LOOPS), same='{ s = "script 0 of loops", d = "core 1 of loops" }'),
        row("beside an input, which it has not", call='"run duo.xmp --script 0=s --input 0=none --frames 3"', out=quoted(LOOPS), same='{ s = "script 0 of loops" }'),
        row("over the container", call='"run duo.xmp --script 0=duo.xmp --frames 3"', out=quoted(LOOPS), same='{ "duo.xmp" = "script 0 of loops" }'),
    ]))
    before = '["xmcparser demo.xml demo.xmc", "xmeformat build a.elf a.xef", "xmeformat build b.elf b.xef", "xmpack build demo.xmc duo.xmp 0=a.xef 1=b.xef"]'
    five = "SYSTEM parts=2 plans=1 ticks=5\nEND P0 ready resets=0 exec=5 pc=40100014\nEND P1 ready resets=0 exec=0 pc=40180000\nEND XM running plan=0 clock=5 ticks=5\n"
    for p in 0, 1:
        parts.append(file_row(f"script {p} of five ticks", script(p, LOOPS_SLOTS, {}, 5)))
    parts.append(group("scripts of runs with inputs", {"before": before, "file": '["demo.xml", "a.elf=reads a word", "b.elf=loop 1", "i=two words"]'}, [
        row("input words are read, and are no part of it", call='"run duo.xmp --input 0=i --ticks 5 --script 0=s"', out=quoted(five), same='{ s = "script 0 of five ticks" }'),
        row("in the file of the input", call='"run duo.xmp --script 0=i --ticks 5 --input 0=i"', out=quoted(five), same='{ i = "script 0 of five ticks" }'),
        row("in the file of the input of another", call='"run duo.xmp --script 1=i --ticks 5 --input 0=i --core 0=c"', out=quoted(five), same='{ i = "script 1 of five ticks", c = "core 0 of a reader" }'),
    ]))
    parts.append(group("scripts that are refused", {"file": '["duo.xmp", "five"]'}, [
        row("of no partition", call='"run duo.xmp --ticks 5 --script 2=s"', refused='"partition id=2"', of_file='"s"', absent='["s", "t"]'),
        row("of no partition, behind one that is there", call='"run duo.xmp --script 0=t --ticks 5 --script 31=s"', refused='"partition id=31"', of_file='"s"', absent='["s", "t"]'),
        row("of no partition, before a core file of none", call='"run duo.xmp --script 3=s --ticks 5 --core 2=t"', refused='"partition id=3"', of_file='"s"', absent='["s", "t"]'),
        row("of no partition, behind a core file of none", call='"run duo.xmp --core 2=t --ticks 5 --script 3=s"', refused='"partition id=2"', of_file='"t"', absent='["s", "t"]'),
        row("beside an input whose length is wrong", call='"run duo.xmp --script 0=s --input 0=five --ticks 5"', refused='"input length=5"', of_file='"five"', absent='["s", "t"]'),
        row("of a run of too many ticks", call='"run duo.xmp --script 0=s --frames 4000000000"', refused='"ticks asked=8000000000000"', of_file='"duo.xmp"', absent='["s", "t"]'),
        row("of too many ticks and of no partition", call='"run duo.xmp --frames 4000000000 --script 2=s"', refused='"partition id=2"', of_file='"s"', absent='["s", "t"]'),
        row("of what is no container", call='"run five --ticks 5 --script 2=s"', refused='"magic"', of_file='"five"', absent='["s", "t"]'),
    ]))
    parts.append(group("runs with scripts where a device fails", {"call": '"run duo.xmp --script 0=s --frames 3 --core 0=c --script 1=t --core 1=d"', "file": '["duo.xmp"]'}, [
        row("the read", fails=fails(files=[0]), status='"ReadFault"', err=quoted("xm_run: duo.xmp: cannot read\n"), absent='["c", "d", "s", "t"]'),
        row("the first core file", fails=fails(files=[1]), status='"WriteFault"', out=quoted(LOOPS), err=quoted("xm_run: c: cannot write\n"), absent='["c", "d", "s", "t"]'),
        row("the second core file", fails=fails(files=[2]), status='"WriteFault"', out=quoted(LOOPS), err=quoted("xm_run: d: cannot write\n"), same='{ c = "core 0 of loops" }', absent='["d", "s", "t"]'),
        row("the first script", fails=fails(files=[3]), status='"WriteFault"', out=quoted(LOOPS), err=quoted("xm_run: s: cannot write\n"), same='{ c = "core 0 of loops", d = "core 1 of loops" }', absent='["s", "t"]'),
        row("the second script", fails=fails(files=[4]), status='"WriteFault"', out=quoted(LOOPS), err=quoted("xm_run: t: cannot write\n"), same='{ c = "core 0 of loops", d = "core 1 of loops", s = "script 0 of loops" }', absent='["t"]'),
        row("the report's first line", fails=fails(out=[0]), status='"WriteFault"', err=quoted("xm_run: report: cannot write\n"), absent='["c", "d", "s", "t"]'),
        row("the report's last line, and a script", fails=fails(files=[3], out=[3]), status='"WriteFault"', out=quoted(LOOPS[:LOOPS.index("END XM")]), err=quoted("xm_run: report: cannot write\n"), absent='["c", "d", "s", "t"]'),
        row("no call that is made", fails=fails(files=[5], out=[4]), out=quoted(LOOPS), same='{ c = "core 0 of loops", d = "core 1 of loops", s = "script 0 of loops", t = "script 1 of loops" }'),
    ]))
    parts.extend(replays())
    (Path(folder) / "scripts.toml").write_text("\n".join(parts), encoding="utf-8")


if __name__ == "__main__":
    main()
