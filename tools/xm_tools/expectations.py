"""Expectations of a run, one a line, and whether a report meets them."""

import fnmatch
import re
import shlex
from bisect import bisect_left
from collections.abc import Callable, Sequence
from dataclasses import dataclass

from xm_tools.course import Course
from xm_tools.failure import Unusable
from xm_tools.following import course_of
from xm_tools.report import CHANGES, OWN, WHOLE, Line, Report
from xm_tools.system import System
from xm_tools.values import ACTION, EVENT, TIMES, measured

KINDS = (*OWN, *WHOLE, *CHANGES)
TEXTED = (*OWN, *WHOLE)
COMPARISONS: dict[str, Callable[[int, int], bool]] = {
    "=": lambda found, wanted: found == wanted,
    "<": lambda found, wanted: found < wanted,
    "<=": lambda found, wanted: found <= wanted,
    ">": lambda found, wanted: found > wanted,
    ">=": lambda found, wanted: found >= wanted,
}
PLACE = re.compile(r"\[([0-9]{1,10})\]")
OWNER = re.compile("P([0-9]{1,2})")
NUMBER = re.compile("[0-9]{1,10}")


@dataclass(frozen=True)
class Pattern:
    """Lines of a report: of an owner, None for all, of a kind, and with a text of a shell's pattern."""

    owner: str | None
    kind: str
    text: str | None

    def fits(self, line: Line) -> bool:
        if self.kind != line.kind or self.owner not in (None, line.owner):
            return False
        return (
            self.text is None
            or fnmatch.fnmatchcase(line.text, self.text)
            or fnmatch.fnmatchcase(line.text.removesuffix("\\n"), self.text)
        )

    def of(self, report: Report) -> list[Line]:
        return [line for line in report.lines if self.fits(line)]


@dataclass(frozen=True)
class Expectation:
    """A line of the file, and what it finds: None where it is met, else why it is not."""

    number: int
    words: str
    unmet: Callable[[Report], str | None]


def none_of(pattern: Pattern) -> Callable[[Report], str | None]:
    def unmet(report: Report) -> str | None:
        found = pattern.of(report)
        return f"{len(found)} found, the first is {found[0].shown()}" if found else None

    return unmet


def counted(pattern: Pattern, comparison: str, wanted: int) -> Callable[[Report], str | None]:
    def unmet(report: Report) -> str | None:
        found = len(pattern.of(report))
        return None if COMPARISONS[comparison](found, wanted) else f"{found} found"

    return unmet


def comes_within(
    pattern: Pattern, ticks: int, begins: Callable[[Report], list[int]], needs_one: bool = True
) -> Callable[[Report], str | None]:
    """After each of some ticks a line comes within a number of ticks, and there is such a tick where one is needed."""

    def unmet(report: Report) -> str | None:
        found = [line.tick for line in pattern.of(report)]
        causes = begins(report)
        for begin in causes:
            place = bisect_left(found, begin)
            after = found[place] if place < len(found) else None
            if after is None or after > begin + ticks:
                return f"after [{begin}] " + (
                    "none comes" if after is None else f"the first is at [{after}], {after - begin} us later"
                )
        return None if causes or not needs_one else "what it is measured from does not come"

    return unmet


def ended(owner: str, name: str, holds: Callable[[str], bool]) -> Callable[[Report], str | None]:
    """A value of an END line."""

    def unmet(report: Report) -> str | None:
        found = ends_of(report, owner)
        if found is None:
            return f"there is no {owner}"
        return None if holds(found[name]) else f"{name} is {found[name]}"

    return unmet


def ends_of(report: Report, owner: str) -> dict[str, str] | None:
    if owner == "XM":
        return {"ends": report.state, "plan": str(report.plan), "clock": str(report.clock), "ticks": str(report.ticks)}
    number = int(owner[1:])
    if number >= len(report.ends):
        return None
    end = report.ends[number]
    return {"ends": end.state, "resets": str(end.resets), "exec": str(end.executed)}


def failure_of(report: Report, partition: int, course: Course | None) -> str | None:
    """Why a partition did not halt by itself with the status 0; that it halted in a slot of its own is asked of the course."""
    owner, end = f"P{partition}", report.ends[partition]
    if end.state != "halted":
        return f"{owner} ends {end.state}"
    lines = report.lines_of(partition)
    changes = [place for place, line in enumerate(lines) if line.kind in CHANGES]
    if not changes or lines[changes[-1]].kind != "HALT":
        return f"{owner} has no line of its halt"
    halt = lines[changes[-1]]
    since = changes[-2] if len(changes) > 1 else 0
    for line in lines[since:]:
        if line.kind == "HM" and (line.text.startswith(f"{EVENT}PARTITION_ERROR ") or is_its_halt(line, halt)):
            return line.shown()
    is_foreign = course is not None and course.is_sure and not any(course.slots_of(partition, halt.tick, halt.tick + 1))
    return f"{halt.shown()}, in no slot of {owner}" if is_foreign else None


def is_its_halt(line: Line, halt: Line) -> bool:
    """Whether a health event is what halted the partition."""
    return line.tick == halt.tick and line.text.endswith(f" {ACTION}HALT")


def succeeded(owner: str | None, system: System | None) -> Callable[[Report], str | None]:
    """A partition, or each for None, halted by itself with the status 0."""

    def unmet(report: Report) -> str | None:
        course = course_of(report, system) if system else None
        chosen: Sequence[int] = range(len(report.ends)) if owner is None else [int(owner[1:])]
        if chosen[-1] >= len(report.ends):
            return f"there is no {owner}"
        failures = [found for partition in chosen if (found := failure_of(report, partition, course))]
        return "; ".join(failures) or None

    return unmet


class Parser:
    """Reads the words of one line."""

    def __init__(self, place: str, words: list[str], system: System | None) -> None:
        self.place, self.words, self.system = place, words, system
        self.names = {name: f"P{number}" for number, name in system.names.items()} if system else {}

    def fail(self, reason: str) -> Unusable:
        return Unusable(f"{self.place}: {reason}")

    def peek(self) -> str:
        return self.words[0] if self.words else ""

    def take(self, what: str) -> str:
        if not self.words:
            raise self.fail(f"{what} is missing at the end")
        return self.words.pop(0)

    def number(self) -> int:
        word = self.take("a number")
        if not NUMBER.fullmatch(word):
            raise self.fail(f"{word} is no number")
        return int(word)

    def owner(self) -> str:
        word = self.take("a partition")
        found = OWNER.fullmatch(word)
        if word == "XM" or (found and int(found[1]) < 32):
            return word
        if word not in self.names:
            known = ", ".join(self.names) or "with --names SYSTEM also a name of it"
            raise self.fail(f"{word} is no partition: P0, P1 .., XM, {known}")
        return self.names[word]

    def pattern(self, owner: str | None) -> Pattern:
        kind = self.take("a kind of line")
        if kind not in KINDS:
            raise self.fail(f"{kind} is no kind of line: {', '.join(KINDS)}")
        has_text = kind in TEXTED and bool(self.words) and self.peek() not in ("times", "at", *KINDS)
        return Pattern(owner, kind, self.take("a text") if has_text else None)

    def end(self) -> None:
        if self.words:
            raise self.fail(f"{self.words[0]} does not belong here")

    def expectation(self) -> Callable[[Report], str | None]:
        if self.peek() == "no":
            self.take("no")
            return none_of(self.pattern(None))
        if self.words[:2] == ["all", "succeed"]:
            del self.words[:2]
            return succeeded(None, self.system)
        owner = self.owner()
        word = self.peek()
        if word == "no":
            self.take("no")
            return none_of(self.pattern(owner))
        if word == "within":
            return self.within(owner)
        if word == "succeeds" and owner != "XM":
            self.take("succeeds")
            return succeeded(owner, self.system)
        if word in ("ends", "resets", "exec", "plan", "clock", "ticks"):
            return self.ended(owner)
        return self.counted(self.pattern(owner))

    def within(self, owner: str) -> Callable[[Report], str | None]:
        self.take("within")
        time = self.take("a time")
        ticks = measured(TIMES, time)
        if ticks is None:
            raise self.fail(f"{time} is no time: 20ms, 500us, 1s")
        if self.take("of") != "of":
            raise self.fail("after the time comes `of`")
        place = PLACE.fullmatch(self.peek())
        if place:
            self.take("a tick")
            begin = int(place[1])
            return comes_within(self.pattern(owner), ticks, lambda report: [begin])
        needs_one = self.peek() != "any"
        if not needs_one:
            self.take("any")
        cause = self.pattern(self.owner())
        return comes_within(self.pattern(owner), ticks, lambda report: [line.tick for line in cause.of(report)], needs_one)

    def ended(self, owner: str) -> Callable[[Report], str | None]:
        name = self.take("a value")
        if name not in (("ends", "plan", "clock", "ticks") if owner == "XM" else ("ends", "resets", "exec")):
            raise self.fail(f"{owner} has no {name} at its end")
        if name == "ends":
            state = self.take("a state")
            if state not in (("running", "halted") if owner == "XM" else ("ready", "idle", "suspended", "halted")):
                raise self.fail(f"{state} is no state in which {owner} ends")
            return ended(owner, name, lambda found: found == state)
        comparison = self.take("a comparison") if self.peek() in COMPARISONS else "="
        wanted = self.number()
        return ended(owner, name, lambda found: COMPARISONS[comparison](int(found), wanted))

    def counted(self, pattern: Pattern) -> Callable[[Report], str | None]:
        if self.peek() == "times":
            self.take("times")
            return counted(pattern, "=", self.number())
        if self.peek() == "at":
            self.take("at")
            limit = self.take("least or most")
            if limit not in ("least", "most"):
                raise self.fail("after `at` comes `least` or `most`")
            return counted(pattern, ">=" if limit == "least" else "<=", self.number())
        return counted(pattern, ">=", 1)


def expectations_of(path: str, text: str, system: System | None) -> list[Expectation]:
    """The expectations of a file's text. What follows a # is no part of a line; the system, if there is one, has the names."""
    found = []
    for number, line in enumerate(text.splitlines(), 1):
        place = f"{path}:{number}"
        try:
            words = shlex.split(line, comments=True)
        except ValueError as error:
            raise Unusable(f"{place}: {error}") from None
        if words:
            parser = Parser(place, words, system)
            unmet = parser.expectation()
            parser.end()
            found.append(Expectation(number, line.partition("#")[0].strip() if '"' not in line else line.strip(), unmet))
    return found
