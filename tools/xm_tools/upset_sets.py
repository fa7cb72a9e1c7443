"""Sets of upsets: bits of places of a partition before ticks, each upset by its number in the set, without listing them."""

import random
import re
from bisect import bisect_right
from collections.abc import Iterable, Iterator, Sequence
from dataclasses import dataclass, field

from xm_tools.failure import Unusable
from xm_tools.report import BITS, MOST_WINDOWED
from xm_tools.system import Partition

REGISTERS = {"g": (1, 7), "w": (0, MOST_WINDOWED)}
SINGLE = ("pc", "npc", "y", "icc", "hw", "exec", "tbr", "mask", "pending")
# Words for many places: all that have a name but the deadlines of timers, and the bytes that an image puts into memory.
ALL_REGISTERS = ("g1-g7", "w0-w127", "pc", "npc", "y", "icc", "tbr", "mask", "pending")
IMAGE = "image"
REGISTER_RANGE = re.compile(r"([gw])(0|[1-9][0-9]*)(?:-([gw])(0|[1-9][0-9]*))?")
BYTE_RANGE = re.compile("([0-9a-f]{8})(?:-([0-9a-f]{8}))?")
WORD_BITS, BYTE_BITS = (0, 32), (0, 8)
# More lines no file of upsets has.
MOST_UPSETS = 4096


@dataclass(frozen=True, order=True)
class Upset:
    """Before the tick the bit of the place of the partition flips."""

    tick: int
    partition: int
    place: str
    bit: int

    def line(self) -> str:
        return f"{self.tick} {self.partition} {self.place} {self.bit}\n"


def text_of(upsets: Iterable[Upset]) -> str:
    return "".join(upset.line() for upset in upsets)


@dataclass(frozen=True)
class Block:
    """Places that follow each other and have the same bits: registers of a letter, a single place, or bytes."""

    name: str
    first: int
    count: int
    bits: tuple[int, ...]

    @property
    def size(self) -> int:
        return self.count * len(self.bits)

    def place(self, number: int) -> str:
        if self.name in REGISTERS:
            return f"{self.name}{self.first + number}"
        return self.name or f"{self.first + number:08x}"


@dataclass(frozen=True)
class UpsetSet:
    """Each bit of the blocks before each of the ticks; the number of an upset rises with its tick."""

    partition: int
    blocks: tuple[Block, ...]
    ticks: Sequence[int]
    sample: int | None = None
    seed: int = 0
    ends: list[int] = field(default_factory=list, compare=False)

    def __post_init__(self) -> None:
        end = 0
        for block in self.blocks:
            end += block.size
            self.ends.append(end)

    @property
    def bits(self) -> int:
        """How many bits can flip before one tick."""
        return self.ends[-1]

    @property
    def whole(self) -> int:
        return self.bits * len(self.ticks)

    def __len__(self) -> int:
        return self.whole if self.sample is None else min(self.sample, self.whole)

    def upset(self, number: int) -> Upset:
        tick, within = divmod(number, self.bits)
        block = bisect_right(self.ends, within)
        own = within - (self.ends[block - 1] if block else 0)
        found = self.blocks[block]
        place, bit = divmod(own, len(found.bits))
        return Upset(self.ticks[tick], self.partition, found.place(place), found.bits[bit])

    def __iter__(self) -> Iterator[Upset]:
        """All of them, or those of the sample, in the order of their ticks."""
        numbers: Sequence[int] = range(self.whole)
        if len(self) < self.whole:
            numbers = sorted(random.Random(self.seed).sample(range(self.whole), len(self)))
        return map(self.upset, numbers)


def bits_of(place: str) -> tuple[int, int]:
    """The bits of a place that may flip: from the first, before the second."""
    return BITS.get(place) or (BYTE_BITS if len(place) == 8 else WORD_BITS)


class BlockReader:
    """Reads the words for places of a partition. What is none is Unusable, with the name of what was read."""

    def __init__(self, name: str, partition: Partition, image: Sequence[tuple[int, int]], bits: tuple[int, ...] | None) -> None:
        self.name, self.partition, self.image, self.bits = name, partition, image, bits

    def fail(self, reason: str) -> Unusable:
        return Unusable(f"{self.name}: {reason}")

    def blocks(self, words: Sequence[str]) -> tuple[Block, ...]:
        found: list[Block] = []
        for word in words:
            if word == "registers":
                found += [self.block(each) for each in ALL_REGISTERS]
            elif word == IMAGE:
                found += [self.bytes_of(start, end) for start, end in self.image if start < end]
            else:
                found.append(self.block(word))
        found = [block for block in found if block.bits]
        if not found:
            raise self.fail("no place has one of the bits")
        return tuple(found)

    def chosen(self, first: int, end: int) -> tuple[int, ...]:
        return tuple(bit for bit in range(first, end) if self.bits is None or bit in self.bits)

    def block(self, word: str) -> Block:
        if word in SINGLE:
            return Block(word, 0, 1, self.chosen(*bits_of(word)))
        registers, addresses = REGISTER_RANGE.fullmatch(word), BYTE_RANGE.fullmatch(word)
        if registers:
            return self.registers_of(word, registers)
        if addresses:
            start = int(addresses[1], 16)
            return self.bytes_of(start, int(addresses[2] or addresses[1], 16) + 1)
        raise self.fail(f"{word} is no place: g1-g7, w0-w127, {', '.join(SINGLE)}, 40180000-401800ff, registers, {IMAGE}")

    def registers_of(self, word: str, found: re.Match[str]) -> Block:
        letter, first, last = found[1], int(found[2][:4]), int((found[4] or found[2])[:4])
        least, most = REGISTERS[letter]
        if (found[3] or letter) != letter or not least <= first <= last <= most:
            raise self.fail(f"{word} is no place: {letter}{least}-{letter}{most}")
        return Block(letter, first, last - first + 1, self.chosen(*WORD_BITS))

    def bytes_of(self, start: int, end: int) -> Block:
        """Bytes that all are in one area of the partition."""
        if not any(area.start <= start < end <= area.end for area in self.partition.areas):
            raise self.fail(f"{start:08x}-{end - 1:08x} is in no area of {self.partition.name}")
        return Block("", start, end - start, self.chosen(*BYTE_BITS))


LINE = re.compile(r"(0|[1-9][0-9]{0,9}) (0|[1-9][0-9]?) (\S{1,8}) (0|[1-9][0-9]?)")


def upsets_of_text(name: str, text: str, partitions: Sequence[Partition], ticks: int) -> tuple[Upset, ...]:
    """The upsets of a file of the program. What no run of so many ticks can have is Unusable, with its line."""
    found: list[Upset] = []
    for number, line in enumerate(text.removesuffix("\n").split("\n") if text else [], 1):
        words = LINE.fullmatch(line)
        if not words or number > MOST_UPSETS:
            raise Unusable(f"{name}:{number}: no upset: TICK P PLACE BIT" if not words else f"{name}: more than {MOST_UPSETS} upsets")
        upset = Upset(int(words[1]), int(words[2]), words[3], int(words[4]))
        if upset.partition >= len(partitions):
            raise Unusable(f"{name}:{number}: P{upset.partition} is no partition")
        reader = BlockReader(f"{name}:{number}", partitions[upset.partition], (), (upset.bit,))
        if upset.place in ("registers", IMAGE) or "-" in upset.place:
            raise reader.fail(f"{upset.place} is no place of one upset")
        reader.blocks([upset.place])
        if upset.tick >= ticks or (found and upset.tick < found[-1].tick):
            raise reader.fail(f"tick {upset.tick} of a run of {ticks}" if upset.tick >= ticks else f"tick {upset.tick} after tick {found[-1].tick}")
        found.append(upset)
    if not text.endswith("\n") and text:
        raise Unusable(f"{name}: the last line has no end")
    return tuple(found)
