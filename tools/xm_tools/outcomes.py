"""What became of a run with upsets: compared with the run without them, and with what is expected of each run."""

import re
from collections import Counter
from collections.abc import Collection, Mapping, Sequence
from dataclasses import dataclass, field

from xm_tools.expectations import Expectation
from xm_tools.failure import Unusable
from xm_tools.report import Report, report_of

# Outcomes of a run with upsets, the worst last: where several hold, a run has the last of them.
SAME, MASKED, DETECTED, WRONG, DEAD = "same", "masked", "detected", "wrong", "dead"
# Outcomes of a run without upsets, and of one that the program did not do.
MET, UNMET, FAILED = "met", "unmet", "failed"
OUTCOMES = {
    SAME: "the report is the one without the upset, and so is the state of each partition at the end",
    MASKED: "something differs, and none of the output",
    DETECTED: "the health monitor had an event, and the output is right",
    WRONG: "output that the run without the upset has not, or an expectation that is not met",
    DEAD: "a partition ended halted, suspended or silent, or the hypervisor halted, and not without the upset",
    MET: "without upsets: all expectations are met",
    UNMET: "without upsets: an expectation is not met",
    FAILED: "the program did not end well",
}
OF_UPSETS = (SAME, MASKED, DETECTED, WRONG, DEAD)
# What an outcome counts as where it is not distinguished.
UNDISTINGUISHED = {SAME: MASKED, DETECTED: MASKED, DEAD: WRONG}
UPSET_LINES = re.compile(rb"^\[[0-9]+\] P[0-9]+ UPSET .*\n", re.M)
STOPPED = ("halted", "suspended")
MOST_WHY = 200


@dataclass(frozen=True)
class Left:
    """What a run left: its report, and for some partitions the core file and the script."""

    report: bytes
    cores: Mapping[int, bytes] = field(default_factory=dict)
    scripts: Mapping[int, bytes] = field(default_factory=dict)


@dataclass(frozen=True)
class Rules:
    """How runs are judged: the expectations, the partitions whose console is the output, and the outcomes that are distinguished."""

    expectations: Sequence[Expectation] = ()
    output: Collection[int] | None = None
    outcomes: Collection[str] = OF_UPSETS


@dataclass(frozen=True)
class Verdict:
    """The outcome of a run, in a few words why, whether the health monitor had an event, and what of the other partitions.

    `reached` are other partitions whose script differs from that without the upset, so that they may differ; `compared`
    counts those with the same script, and `differing` are those of them that are not the same.
    """

    outcome: str
    why: str = ""
    is_detected: bool = False
    compared: int = 0
    reached: tuple[int, ...] = ()
    differing: tuple[int, ...] = ()


class Reference:
    """A run without upsets, with which runs with upsets are compared."""

    def __init__(self, left: Left, rules: Rules) -> None:
        self.left, self.rules = left, rules
        self.report = report_of("report", left.report)
        self.unmet = unmet_of(self.report, rules)
        self.health = health_of(self.report)
        self.lines = lines_by_owner(left.report)

    def verdict(self) -> Verdict:
        """That of the run itself."""
        return Verdict(UNMET, shortened("; ".join(self.unmet.values()))) if self.unmet else Verdict(MET)

    def verdict_of(self, run: Left, struck: Collection[int], tick: int) -> Verdict:
        """That of a run whose upsets struck these partitions, the last one before this tick."""
        plain = UPSET_LINES.sub(b"", run.report)
        compared, reached, differing = self.others(run, plain, struck)
        outcome, why, is_detected = self.outcome(run, plain, tick)
        while outcome in UNDISTINGUISHED and outcome not in self.rules.outcomes:
            outcome = UNDISTINGUISHED[outcome]
        return Verdict(outcome, shortened(why), is_detected, compared, reached, differing)

    def outcome(self, run: Left, plain: bytes, tick: int) -> tuple[str, str, bool]:
        if plain == self.left.report:
            changed = [f"P{number}" for number, core in run.cores.items() if core != self.left.cores[number]]
            return (MASKED, f"the state of {', '.join(changed)}", False) if changed else (SAME, "", False)
        try:
            report = report_of("report", run.report)
        except Unusable as reason:
            return FAILED, str(reason), False
        event = new_event(health_of(report), self.health)
        for outcome, why in ((DEAD, self.dead(report, tick)), (WRONG, self.wrong(report)), (DETECTED, event)):
            if why:
                return outcome, why, bool(event)
        return MASKED, first_difference(report, self.report), False

    def dead(self, report: Report, tick: int) -> str:
        if report.state == "halted" and self.report.state != "halted":
            return f"the hypervisor halted at [{report.ticks}]"
        for number, (end, wanted) in enumerate(zip(report.ends, self.report.ends)):
            if end.state in STOPPED and wanted.state not in STOPPED:
                return f"P{number} ended {end.state}"
        speaking, spoke = speakers(report, tick), speakers(self.report, tick)
        silent = sorted(spoke - speaking)
        return f"P{silent[0]} was silent from [{tick}] on" if silent else ""

    def wrong(self, report: Report) -> str:
        unmet = unmet_of(report, self.rules)
        for number, why in unmet.items():
            if number not in self.unmet:
                return why
        for number in range(report.partitions):
            if self.rules.output is None or number in self.rules.output:
                wanted, found = texts_of(self.report, number), texts_of(report, number)
                if wanted != found:
                    return f"P{number} {first_other(wanted, found)}"
        return ""

    def others(self, run: Left, plain: bytes, struck: Collection[int]) -> tuple[int, tuple[int, ...], tuple[int, ...]]:
        """How many partitions that were not struck have the same script; those that have not; those that differ all the same.

        One without a script counts as if it had the same.
        """
        own = [number for number in run.cores if number not in struck]
        reached = tuple(number for number in own if number in run.scripts and run.scripts[number] != self.left.scripts[number])
        alike = [number for number in own if number not in reached]
        lines = self.lines if plain == self.left.report else lines_by_owner(plain)
        differing = tuple(
            number for number in alike
            if run.cores[number] != self.left.cores[number] or lines.get(b"P%d" % number) != self.lines.get(b"P%d" % number)
        )  # fmt: skip
        return len(alike), reached, differing


def shortened(text: str) -> str:
    return text if len(text) <= MOST_WHY else f"{text[:MOST_WHY]}.."


def unmet_of(report: Report, rules: Rules) -> dict[int, str]:
    """The expectations that are not met, by their lines, and why."""
    found = {}
    for expectation in rules.expectations:
        why = expectation.unmet(report)
        if why is not None:
            found[expectation.number] = f"not met: {expectation.words}: {why}"
    return found


def health_of(report: Report) -> Counter[tuple[str, str]]:
    """The health events by partition and text, without their ticks."""
    return Counter((line.owner, line.text) for line in report.lines if line.kind == "HM")


def new_event(found: Counter[tuple[str, str]], wanted: Counter[tuple[str, str]]) -> str:
    """The first health event that the run without upsets has not, or not as often."""
    owner, text = next(iter(found - wanted), ("", ""))
    return f"{owner} HM {text}".strip() if owner else ""


def speakers(report: Report, tick: int) -> set[int]:
    """The partitions with a console line from a tick on."""
    return {line.partition for line in report.lines if line.kind == "CON" and line.tick >= tick and line.partition is not None}


def texts_of(report: Report, partition: int) -> list[str]:
    return [line.text for line in report.lines if line.kind == "CON" and line.partition == partition]


def first_other(wanted: list[str], found: list[str]) -> str:
    """The first text that differs."""
    for own, other in zip(wanted, found):
        if own != other:
            return f'CON "{other}", and without the upset "{own}"'
    more = found[len(wanted) :] or wanted[len(found) :]
    return f'CON "{more[0]}", and not without the upset' if len(found) > len(wanted) else f'no CON "{more[0]}"'


def first_difference(report: Report, wanted: Report) -> str:
    lines = [line.shown() for line in report.lines if line.kind != "UPSET"]
    others = [line.shown() for line in wanted.lines]
    for line, other in zip([*lines, "the end"], [*others, "the end"]):
        if line != other:
            return line
    return "how partitions ended"


def lines_by_owner(report: bytes) -> dict[bytes, list[bytes]]:
    """The lines of each partition, that of its end, too."""
    found: dict[bytes, list[bytes]] = {}
    for line in report.split(b"\n"):
        words = line.split(b" ", 2)
        if len(words) == 3:
            found.setdefault(words[1], []).append(line)
    return found
