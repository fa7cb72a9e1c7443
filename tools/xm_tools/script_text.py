"""The text of a script, and back."""

import re
from collections.abc import Callable, Iterator
from dataclasses import replace

from xm_tools.failure import Unusable
from xm_tools.script import BEGINS, EVENTS, MOST_CUES, MOST_LENGTH, NOT_KEPT, ORDERS, PORTS, RESETS, SEEN_LENGTHS, SIGNALS, SLOTS
from xm_tools.script import Cue, Script, Traffic, by_plan, next_of_plan
from xm_tools.system import System

HEAD = re.compile(r"script partition=([0-9]{1,2})")
ENTRY = re.compile(r"\[([0-9]{1,10})\](?: (away|own|begins|end))?(?: x([0-9]{1,10}))?((?: [a-z]+=[^ ]*)*)")
# More slots are not filled in.
MOST_FILLED = 1000000
# The field of a cue that a word gives; the others have the names of their fields.
FIELDS = {"put": "traffic", "take": "traffic", "signal": "traffic"}
HEX = re.compile("(?:[0-9a-f]{2})+")


def parts_of(cue: Cue) -> Iterator[str]:
    if cue.traffic:
        message = f":{cue.traffic.message.hex()}" if cue.traffic.kind == "put" else ""
        yield f"{cue.traffic.kind}={cue.traffic.number}{message}"
    if cue.order:
        yield f"order={cue.order}" + (f":{cue.status}" if cue.order in RESETS else "")
    if cue.event:
        yield f"hypervisor={cue.event}"
    if cue.seen is not None:
        yield f"seen={cue.seen.hex() or 'none'}"


def text_lines(script: Script) -> Iterator[str]:
    """The lines of a script's text: each has the tick at which it begins."""
    yield f"script partition={script.partition}"
    tick = 0
    for cue in script.cues:
        count = f"x{cue.count}" if cue.is_plain else ""
        yield " ".join(filter(None, [f"[{tick}]", SLOTS[cue.slot], count, *parts_of(cue)]))
        tick += cue.count


class Maker:
    """Makes a script of a text, line by line. With a system, ticks that no line has are those of its plan 0."""

    def __init__(self, path: str, system: System | None = None) -> None:
        self.path, self.number, self.tick = path, 0, 0
        self.system, self.has_ended = system, False
        self.partition: int | None = None
        self.cues: list[Cue] = []

    def fail(self, reason: str) -> Unusable:
        return Unusable(f"{self.path}:{self.number}: {reason}")

    def take(self, line: str) -> None:
        self.number += 1
        words = line.partition("#")[0].strip()
        if not words:
            return
        if self.partition is None:
            self.take_head(words)
        else:
            self.take_entry(words)

    def take_head(self, line: str) -> None:
        found = HEAD.fullmatch(line)
        if not found or int(found[1]) > 31:
            raise self.fail("the first line is `script partition=P`")
        self.partition = int(found[1])
        if self.system and self.partition >= len(self.system.partitions):
            raise self.fail(f"the system has no partition {self.partition}")

    def take_entry(self, line: str) -> None:
        found = ENTRY.fullmatch(line)
        if not found or self.has_ended:
            raise self.fail("no line of a script: [TICK] away|own|begins, then xCOUNT or what the partition receives")
        tick = int(found[1])
        if tick < self.tick or (tick > self.tick and not self.system) or tick > MOST_CUES:
            hint = "" if self.system or tick < self.tick else "; --slots SYSTEM gives the ticks that no line has"
            raise self.fail(f"the line is of tick {tick}, and the next one is {self.tick}{hint}")
        self.fill(tick)
        if found[2] == "end" and not found[3] and not found[4]:
            self.has_ended = True
            return
        cue = self.cue(self.slot(found[2]), found[3], found[4].split())
        self.tick += cue.count
        if self.tick > MOST_CUES:
            raise self.fail(f"more than {MOST_CUES} ticks")
        self.cues.append(cue)

    def fill(self, tick: int) -> None:
        """Puts what plan 0 gives into the ticks before a line."""
        if self.system and self.partition is not None and tick > self.tick:
            plan = self.system.plans[0]
            if (tick - self.tick) // plan.frame * (len(plan.slots) + 1) > MOST_FILLED:
                raise self.fail(f"more than {MOST_FILLED} slots before the line")
            self.cues += by_plan(plan, self.partition, self.tick, tick)
            self.tick = tick

    def slot(self, word: str | None) -> int:
        """The slot of a tick: the line's word, or that of plan 0."""
        if word in SLOTS:
            return SLOTS.index(word)
        if word or not self.system or self.partition is None:
            raise self.fail("the line has none of away, own and begins")
        plan = self.system.plans[0]
        return next_of_plan(plan.slots_of(self.partition), plan.frame, self.tick).slot

    def cue(self, slot: int, count: str | None, parts: list[str]) -> Cue:
        if count is not None and (parts or slot == BEGINS or int(count) == 0):
            raise self.fail("only ticks in which the partition receives nothing are counted, and one at least")
        given = [part.partition("=") for part in parts]
        if len({FIELDS.get(name, name) for name, _, _ in given}) < len(given):
            raise self.fail("something is given twice")
        made = Cue(slot, int(count or 1))
        for name, _, value in given:
            made = self.with_part(made, name, value)
        return made

    def with_part(self, cue: Cue, name: str, value: str) -> Cue:
        """A cue with one more part of what the partition receives."""
        makers: dict[str, Callable[[Cue, str], Cue]] = {
            "put": self.put, "take": self.take_message, "signal": self.signal, "order": self.order, "hypervisor": self.event,
            "seen": self.seen,
        }  # fmt: skip
        if name not in makers:
            raise self.fail(f"{name} is none of {', '.join(makers)}")
        return makers[name](cue, value)

    def below(self, text: str, limit: int) -> int:
        if not re.fullmatch("[0-9]{1,10}", text) or int(text) >= limit:
            raise self.fail(f"{text} is no number below {limit}")
        return int(text)

    def bytes(self, text: str) -> bytes:
        if not HEX.fullmatch(text):
            raise self.fail(f"{text} are no bytes: two hexadecimal digits each")
        return bytes.fromhex(text)

    def put(self, cue: Cue, text: str) -> Cue:
        number, _, message = text.partition(":")
        content = self.bytes(message)
        if len(content) > MOST_LENGTH:
            raise self.fail(f"a message of more than {MOST_LENGTH} bytes")
        return replace(cue, traffic=Traffic("put", self.below(number, PORTS), content))

    def take_message(self, cue: Cue, text: str) -> Cue:
        return replace(cue, traffic=Traffic("take", self.below(text, PORTS)))

    def signal(self, cue: Cue, text: str) -> Cue:
        return replace(cue, traffic=Traffic("signal", self.below(text, SIGNALS)))

    def order(self, cue: Cue, text: str) -> Cue:
        order, colon, status = text.partition(":")
        if not order or order not in ORDERS or bool(colon) != (order in RESETS):
            raise self.fail(f"{text} is no order: halt, suspend, resume, shutdown, cold:STATUS, warm:STATUS")
        return replace(cue, order=order, status=self.below(status, 1 << 32) if colon else 0)

    def event(self, cue: Cue, text: str) -> Cue:
        if not text or text not in EVENTS:
            raise self.fail(f"{text} is no event of the hypervisor: cold, warm, halt")
        return replace(cue, event=text)

    def seen(self, cue: Cue, text: str) -> Cue:
        content = NOT_KEPT if text == "none" else self.bytes(text)
        if content and len(content) not in SEEN_LENGTHS:
            raise self.fail(f"what is seen has {', '.join(map(str, SEEN_LENGTHS))} bytes")
        return replace(cue, seen=content)


def script_of(path: str, text: str, system: System | None = None) -> Script:
    """The script of a text, by the name of its file."""
    maker = Maker(path, system)
    for line in text.splitlines():
        maker.take(line)
    if maker.partition is None:
        raise maker.fail("the first line is `script partition=P`")
    return Script(maker.partition, tuple(maker.cues))
