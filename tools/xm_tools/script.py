"""A script: all that a partition receives from the others in a run. Reads and spells its file, and its text."""

from collections.abc import Iterable, Iterator
from dataclasses import dataclass, replace

from xm_tools.binary import Cursor
from xm_tools.system import Plan, Slot

AWAY, OWN, BEGINS = 0, 1, 2
SLOTS = ("away", "own", "begins")
CUE = 2
ORDERS = ("", "halt", "suspend", "resume", "shutdown", "cold", "warm")
RESETS = ("cold", "warm")
EVENTS = ("", "cold", "warm", "halt")
MOST_CUES = 4000000000
PARTITIONS, PORTS, SIGNALS = 32, 32, 8
MOST_LENGTH = 4096
SEEN_LENGTHS = (4, 8, 20, 24)
NOT_KEPT = b""


@dataclass(frozen=True)
class Traffic:
    """What another partition did to a channel or a link: a message that was put or taken, or a signal."""

    kind: str
    number: int
    message: bytes = b""


@dataclass(frozen=True)
class Cue:
    """What a partition receives in each of `count` ticks. `seen` without bytes is an entry that is not kept."""

    slot: int
    count: int = 1
    traffic: Traffic | None = None
    order: str = ""
    status: int = 0
    event: str = ""
    seen: bytes | None = None

    @property
    def is_plain(self) -> bool:
        return self == Cue(self.slot, self.count) and self.slot != BEGINS


@dataclass(frozen=True)
class Script:
    partition: int
    cues: tuple[Cue, ...]

    @property
    def ticks(self) -> int:
        return sum(cue.count for cue in self.cues)


def merged(cues: Iterable[Cue]) -> Iterator[Cue]:
    """The cues with equal plain ones that follow each other as one: the one spelling that there is."""
    last: Cue | None = None
    for cue in cues:
        if last and last.is_plain and cue.is_plain and last.slot == cue.slot:
            last = replace(last, count=last.count + cue.count)
            continue
        if last:
            yield last
        last = cue
    if last:
        yield last


def next_of_plan(slots: list[Slot], frame: int, tick: int) -> Cue:
    """What a partition receives from a tick on by its slots in a frame alone, up to the next one of these that begins or ends."""
    moment = tick % frame
    slot = next((one for one in slots if moment < one.end), None)
    if slot is None:
        return Cue(AWAY, frame - moment)
    if moment < slot.start:
        return Cue(AWAY, slot.start - moment)
    return Cue(BEGINS) if moment == slot.start else Cue(OWN, slot.end - moment)


def by_plan(plan: Plan, partition: int, low: int, high: int) -> Iterator[Cue]:
    """What a partition receives in the ticks from low to high of a run in which plan 0 goes on and nobody does anything."""
    slots, tick = plan.slots_of(partition), low
    while tick < high:
        cue = next_of_plan(slots, plan.frame, tick)
        yield replace(cue, count=min(cue.count, high - tick))
        tick += cue.count


# The file.


def read_traffic(cursor: Cursor) -> Traffic | None:
    kind = cursor.below(1, 4)
    if kind == 0:
        return None
    if kind == 3:
        return Traffic("signal", cursor.below(1, SIGNALS))
    number = cursor.below(1, PORTS)
    if kind == 2:
        return Traffic("take", number)
    place = cursor.place
    length = cursor.number(2)
    if not 1 <= length <= MOST_LENGTH:
        raise cursor.fail(f"field at={place}")
    return Traffic("put", number, cursor.take(length))


def read_seen(cursor: Cursor) -> bytes | None:
    kind = cursor.below(1, 3)
    if kind < 2:
        return NOT_KEPT if kind else None
    place = cursor.place
    length = cursor.number(1)
    if length not in SEEN_LENGTHS:
        raise cursor.fail(f"field at={place}")
    return cursor.take(length)


def read_cue(cursor: Cursor) -> Cue:
    slot, traffic = cursor.below(1, len(SLOTS)), read_traffic(cursor)
    order = ORDERS[cursor.below(1, len(ORDERS))]
    status = cursor.number(4) if order in RESETS else 0
    event = EVENTS[cursor.below(1, len(EVENTS))]
    return Cue(slot, 1, traffic, order, status, event, read_seen(cursor))


def read_entry(cursor: Cursor, left: int, last: Cue | None) -> Cue:
    """An entry of at most `left` cues. A plain one does not follow one of its kind, and is no cue of its own."""
    place = cursor.place
    kind = cursor.below(1, 3)
    if kind == CUE:
        cue = read_cue(cursor)
        if cue.is_plain:
            raise cursor.fail(f"field at={cursor.place}")
        return cue
    if last and last.is_plain and last.slot == kind:
        raise cursor.fail(f"field at={place}")
    place = cursor.place
    count = cursor.number(4)
    if not 1 <= count <= left:
        raise cursor.fail(f"field at={place}")
    return Cue(kind, count)


def read_script(name: str, content: bytes) -> Script:
    """The script in a file's bytes. What is none is Unusable."""
    cursor = Cursor(name, content)
    cursor.head(b"XMSC", (1,))
    partition = cursor.below(1, PARTITIONS)
    left = cursor.below(8, MOST_CUES + 1)
    cues: list[Cue] = []
    while left:
        cues.append(read_entry(cursor, left, cues[-1] if cues else None))
        left -= cues[-1].count
    cursor.end()
    return Script(partition, tuple(cues))


def traffic_bytes(traffic: Traffic | None) -> bytes:
    if traffic is None:
        return b"\0"
    kind = ("put", "take", "signal").index(traffic.kind) + 1
    head = bytes([kind, traffic.number])
    return head + len(traffic.message).to_bytes(2, "big") + traffic.message if traffic.kind == "put" else head


def cue_bytes(cue: Cue) -> bytes:
    if cue.is_plain:
        return bytes([cue.slot]) + cue.count.to_bytes(4, "big")
    order = bytes([ORDERS.index(cue.order)]) + (cue.status.to_bytes(4, "big") if cue.order in RESETS else b"")
    seen = b"\0" if cue.seen is None else b"\1" if cue.seen == NOT_KEPT else bytes([2, len(cue.seen)]) + cue.seen
    return bytes([CUE, cue.slot]) + traffic_bytes(cue.traffic) + order + bytes([EVENTS.index(cue.event)]) + seen


def spelled(script: Script) -> bytes:
    """The file of a script."""
    head = b"XMSC\0\1" + bytes([script.partition]) + script.ticks.to_bytes(8, "big")
    return head + b"".join(cue_bytes(cue) for cue in merged(script.cues))
