"""Tries replays: each partition of the cases, alone by the script of its run and with its upsets, has its part of that run.

usage: /usr/bin/python3 -m pytest examples/model/replay_test.py

It needs Debian's package python3-pytest.
"""

import sys
from pathlib import Path

import pytest

sys.dont_write_bytecode = True
sys.path[:0] = [str(Path(__file__).resolve().parent)]

from box import Fault, container, read_container  # noqa: E402
from cases import CASES, UPSETS, all_cases  # noqa: E402
from cues import QUEUE_SLOTS, QUEUE_TOLD, queue  # noqa: E402
from model import MOST_TICKS, Usage  # noqa: E402
from replay import Lone, read_script, read_words, recorded  # noqa: E402
from scripts import UNTAKABLE, script, spelled  # noqa: E402
from upsets import read_upsets  # noqa: E402

LONGEST = 3000  # ticks of a run that is replayed
all_cases()


def ticks_of(name: str) -> int:
    system, (unit, count), _ = CASES[name]
    return int(count) * (system.plans[0].frame if unit == "--frames" else 1)


@pytest.mark.parametrize("name", [name for name in CASES if ticks_of(name) <= LONGEST])
def test_replay_is_the_part_of_the_run(name: str) -> None:
    system, _, inputs = CASES[name]
    system, ticks = read_container(container(system)), ticks_of(name)
    upsets = UPSETS.get(name, "").encode()
    for p in range(len(system.parts)):
        cues, lines, core = recorded(system, inputs, p, read_upsets(upsets, system.parts, ticks), ticks)
        lone = Lone(system, p, inputs.get(p, []))
        assert lone.replay(read_script(spelled(p, cues), p), read_upsets(upsets, system.parts, MOST_TICKS)) == lines
        assert lone.core_file(p) == core


@pytest.mark.parametrize("p", [0, 1])
def test_script_that_is_noted_is_the_one_worked_by_hand(p: int) -> None:
    cues, _, _ = recorded(queue(), {}, p, [], 50)
    assert spelled(p, cues) == script(p, QUEUE_SLOTS, QUEUE_TOLD, 50)


@pytest.mark.parametrize("shows", [shows for shows, (_, digits, _) in UNTAKABLE.items() if digits])
def test_cue_that_cannot_be_taken(shows: str) -> None:
    p, digits, tick = UNTAKABLE[shows]
    with pytest.raises(Fault, match=f"cue tick={tick}"):
        Lone(queue(), p).replay(read_script(bytes.fromhex(digits), p))


@pytest.mark.parametrize("words", ["box 0 s --upset", "box 0 s --upset u --upset v", "box 0 s --ticks 5", "box 32 s", "box 0", "box 0 s --core --x"])
def test_words_that_are_none(words: str) -> None:
    with pytest.raises(Usage):
        read_words(words.split())
