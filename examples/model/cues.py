#!/usr/bin/env python3
"""Writes the three containers of crates/cue_suite, and the lines that the program has to print.

usage: cues.py FOLDER

FOLDER is the program's; its files `data/reset.box`, `data/queue.box`, `data/signal.box` and `stdout` are written. The lines come from the
tables below, which are worked by hand from the guests' words, one tick a word.

In `reset.box` the first partition raises an event in tick 2, for which the whole system is reset, warm.

In `queue.box` the first partition, in a frame of 48 ticks, sends `abcd` to the second one in tick 12, suspends it in 15,
looks at its state in 20, resumes it in 23, looks for an entry of its health log in 29, and resets it in 34 with status 7.
In its own 13 ticks the second one makes its port, its port 1, and takes the message in tick 47. In tick 49, the second one
of the next frame, the first partition halts the hypervisor.

In `signal.box` the first partition signals over its link of number 0 in tick 2, with the call that is its third instruction.
"""
import sys
from pathlib import Path

from asm import Guest
from box import DESTINATION, QUEUING, SAMPLING, SOURCE, Channel, Plan, Port, Slot, container
from rows import A, HEARS, P0, P1, SIGNALS, demo, link_system, words

RAISES = "9010201b 9210202a 91d02070"


def reset():
    system = demo(words(RAISES))
    system.parts[0].actions[0] = A["HYPERVISOR_WARM_RESET"]
    return system


def sender():
    guest = Guest(P0)
    guest.call(20, "name", 2, 8, 0)  # ticks 0 to 6: makes its port 0
    guest.call(21, 0, "four", 4)  # to 12: sends
    guest.call(4, 1)  # to 15: suspends the other partition
    guest.call(8, 1, "room")  # to 20: looks at its state
    guest.call(5, 1)  # to 23: resumes it
    guest.call(28, 1, 0, "room")  # to 29: looks for the first entry of its health log, which is not there
    guest.call(3, 1, 1, 7)  # to 34: resets it, warm
    guest.call(9)  # ticks 48 and 49: halts the hypervisor
    guest.label("four").text("abcd").label("name").text("q", zero=True).align().label("room").space(20)
    return guest.bytes()


def receiver():
    guest = Guest(P1)
    guest.call(20, "name", 2, 8, 1)  # ticks 35 to 41: makes its port 1
    guest.call(22, 1, "room", 8)  # to 47: takes the message
    guest.loop()
    guest.label("name").text("q", zero=True).align().label("room").space(8)
    return guest.bytes()


def queue():
    system = demo(sender(), receiver())
    system.plans = [Plan(48, [Slot(0, 35, 0), Slot(35, 13, 1)])]
    for part in system.parts:
        part.need = (0, 0)
    system.parts[0].ports = [Port("q", QUEUING, SOURCE)]
    system.parts[1].ports = [Port("alone", SAMPLING, DESTINATION), Port("q", QUEUING, DESTINATION)]
    system.channels = [Channel(QUEUING, 8, 2, (0, 0), [(1, 1)])]
    return system


# What the two partitions are told: the ticks of their slots, and what else, by the tick and the partition.
RESET_SLOTS = [range(0, 3), range(3, 4)], []
RESET_TOLD = {(2, 0): {"whole": "warm"}, (2, 1): {"whole": "warm"}}

QUEUE_SLOTS = [range(0, 35), range(48, 50)], [range(35, 48)]
QUEUE_TOLD = {
    (12, 1): {"traffic": "put 1 61626364"},  # by its own port of the channel
    (15, 1): {"order": "suspend"},
    (20, 0): {"seen": "00000002" + 16 * "00"},  # suspended, no reset, status 0, no tick on its execution clock
    (23, 1): {"order": "resume"},
    (29, 0): {"seen": "not kept"},
    (34, 1): {"order": "warm 7"},
    (47, 0): {"traffic": "take 0"},
    (49, 0): {"whole": "halt"},
    (49, 1): {"whole": "halt"},
}

SIGNAL_SLOTS = [range(0, 1000)], [range(1000, 2000)]
SIGNAL_TOLD = {(2, 1): {"traffic": "signal 0"}}


def mine(slots, tick):
    first = next((slot.start for slot in slots if tick in slot), None)
    return "away" if first is None else "mine first" if tick == first else "mine"


def lines(slots, told, ticks):
    for tick in range(ticks):
        for p in 0, 1:
            cue = {"traffic": "none", "order": "none", "whole": "none", "seen": "none"} | told.get((tick, p), {})
            yield f"tick {tick} P{p} {mine(slots[p], tick)} " + " ".join(f"{name} {what}" for name, what in cue.items())


def main():
    folder = Path(sys.argv[1])
    text = []
    for name, system, slots, told, ticks in (
        ("reset.box", reset(), RESET_SLOTS, RESET_TOLD, 4), ("queue.box", queue(), QUEUE_SLOTS, QUEUE_TOLD, 50),
        ("signal.box", link_system(SIGNALS, HEARS), SIGNAL_SLOTS, SIGNAL_TOLD, 4),
    ):
        (folder / "data" / name).write_bytes(container(system))
        text += [name, *lines(slots, told, ticks)]
    (folder / "stdout").write_text("".join(f"{line}\n" for line in text))


if __name__ == "__main__":
    main()
