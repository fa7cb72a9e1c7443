"""Upsets: single bits of partitions that flip before a tick, as a file has them, and what each flip does.

A file has a line for each: `TICK P PLACE BIT`, with one space between two words and a line feed after the last one. The ticks
do not fall from line to line.
"""
import re
from collections.abc import Sequence
from dataclasses import dataclass
from typing import Any

from box import Fault

MOST_LINES = 4096
MOST_NUMBER = (1 << 64) - 1
# The bits of the places that have a name: from the first, before the second. The others are always 0, or there are none.
NAMED = {
    "pc": (2, 32), "npc": (2, 32), "y": (0, 32), "icc": (0, 4), "hw": (0, 63), "exec": (0, 63), "tbr": (12, 32),
    "mask": (0, 32), "pending": (0, 32),
}  # fmt: skip
# Registers by their letter, with the first and the last number: global register 0 is always 0.
REGISTERS = {"g": (1, 7), "w": (0, 127)}
REGISTER_BITS, BYTE_BITS = (0, 32), (0, 8)
DECIMAL = re.compile("0|[1-9][0-9]*")
BYTE = re.compile("[0-9a-f]{8}")


@dataclass(frozen=True)
class Upset:
    """Before the tick, which is counted from 0 at the boot, the bit of the place of the partition flips."""

    tick: int
    part: int
    place: str
    bit: int

    def shown(self) -> str:
        """The line of a report after its partition."""
        return f"UPSET {self.place} bit {self.bit}"

    def written(self) -> str:
        """The line of a file."""
        return f"{self.tick} {self.part} {self.place} {self.bit}\n"


# Files.


class Wrong(Exception):
    """The line is wrong, for this cause."""


def number_of(word: str, most: int = MOST_NUMBER) -> int | None:
    """The number that a word spells in decimal, without needless zeros."""
    return int(word) if DECIMAL.fullmatch(word) and len(word) <= len(str(most)) and int(word) <= most else None


def is_place(word: str) -> bool:
    if word in NAMED or BYTE.fullmatch(word):
        return True
    first, last = REGISTERS.get(word[:1], (1, 0))
    number = number_of(word[1:], last)
    return number is not None and number >= first


class Reader:
    """Takes the words of a text, from its beginning on."""

    def __init__(self, content: bytes) -> None:
        self.text, self.at = content.decode("latin-1"), 0

    def is_done(self) -> bool:
        return self.at == len(self.text)

    def word(self) -> str:
        """What stands before the next space or line feed."""
        start = self.at
        while not self.is_done() and self.text[self.at] not in " \n":
            self.at += 1
        return self.text[start : self.at]

    def pass_over(self, byte: str, cause: str) -> None:
        if self.is_done() or self.text[self.at] != byte:
            raise Wrong(cause)
        self.at += 1

    def number(self, cause: str) -> int:
        number = number_of(self.word())
        if number is None:
            raise Wrong(cause)
        return number

    def upset(self) -> Upset:
        """The line that comes next."""
        tick = self.number("bad-tick")
        self.pass_over(" ", "bad-partition")
        part = self.number("bad-partition")
        self.pass_over(" ", "bad-place")
        place = self.word()
        if not is_place(place):
            raise Wrong("bad-place")
        self.pass_over(" ", "bad-bit")
        bit = self.number("bad-bit")
        self.pass_over("\n", "bad-end")
        return Upset(tick, part, place, bit)


def is_in(areas: Sequence[Any], address: int) -> bool:
    return any(area.start <= address < area.start + area.size for area in areas)


def bits_of(place: str) -> tuple[int, int]:
    """The bits of a place: from the first, before the second."""
    return NAMED.get(place) or (BYTE_BITS if BYTE.fullmatch(place) else REGISTER_BITS)


def test(upset: Upset, parts: Sequence[Any], begun: int, before: int | None, ticks: int) -> None:
    """The partition, the place and its bit are there, and the tick is one of the run, not before that of the line above."""
    if upset.part >= len(parts):
        raise Wrong("no-partition")
    if BYTE.fullmatch(upset.place) and not is_in(parts[upset.part].areas, int(upset.place, 16)):
        raise Wrong("no-place")
    first, end = bits_of(upset.place)
    if not first <= upset.bit < end:
        raise Wrong("no-bit")
    if before is not None and upset.tick < before:
        raise Wrong("unordered")
    if not begun <= upset.tick < ticks:
        raise Wrong("unreached")


def read_upsets(content: bytes, parts: Sequence[Any], ticks: int, begun: int = 0) -> list[Upset]:
    """The upsets of a file, for a run of a system with these partitions up to this number of ticks since the boot, of which those
    before `begun` are done; of a wrong one the first fault."""
    reader, upsets = Reader(content), list[Upset]()
    while not reader.is_done():
        try:
            if len(upsets) == MOST_LINES:
                raise Wrong("too-many")
            upset = reader.upset()
            test(upset, parts, begun, upsets[-1].tick if upsets else None, ticks)
        except Wrong as wrong:
            raise Fault(f"{wrong} line={len(upsets) + 1}") from None
        upsets.append(upset)
    return upsets


# Flips.


def flip(part: Any, place: str, bit: int) -> None:
    """Flips a bit of a place of a partition; nothing else of it changes but that a timer is armed while its deadline is not 0."""
    mask, processor = 1 << bit, part.processor
    if BYTE.fullmatch(place):
        flip_byte(part.memory, int(place, 16), mask)
    elif place[0] in REGISTERS and place[1:].isdigit():
        registers = processor.globals if place[0] == "g" else processor.windows
        registers[int(place[1:])] ^= mask
    elif place in ("hw", "exec"):
        timer = part.timers[0 if place == "hw" else 1]
        timer.set(timer.deadline ^ mask, timer.interval)
    elif place == "icc":
        processor.put_icc(processor.icc() ^ mask)
    else:
        owner = part if place in ("mask", "pending") else processor
        name = "base" if place == "tbr" else place
        setattr(owner, name, getattr(owner, name) ^ mask)


def flip_byte(memory: Any, address: int, mask: int) -> None:
    """Of a read-only area, too."""
    start, content, _ = memory.area_at(address)
    content[address - start] ^= mask
