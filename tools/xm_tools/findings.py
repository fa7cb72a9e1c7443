"""All that is found in a description, as lines: faults of the text, broken rules, warnings."""

from dataclasses import dataclass, field

from xm_tools.description import Fault, faults_of, system_of
from xm_tools.markup import NoMarkup, markup_of
from xm_tools.reference import ErrorRow, reference
from xm_tools.rules import Broken, all_broken
from xm_tools.texts import Text
from xm_tools.warnings import Warned, warnings_of

SECTION = "Descriptions"
END_TAG = b"</"
# Of each kind of findings no more are shown.
MOST_SHOWN = 200


@dataclass
class Findings:
    """What a text has. Rules are looked at where the text has no fault, and warnings where no rule is broken."""

    text: Text
    faults: list[Fault] = field(default_factory=list)
    stop: NoMarkup | None = None
    broken: list[Broken] = field(default_factory=list)
    warnings: list[Warned] = field(default_factory=list)

    @property
    def first(self) -> str | None:
        """What the program has to answer, None where it has to accept or where the text is no XML."""
        lines = [*(fault.line() for fault in self.faults), *(broken.line() for broken in self.broken)]
        return lines[0] if lines else None

    @property
    def is_well(self) -> bool:
        return not (self.faults or self.stop or self.broken)

    def agrees(self, answer: str | None) -> bool:
        """Whether the program's fault, None where it accepts, is what is found."""
        if self.stop and not self.faults:
            return answer is not None
        return answer == self.first

    def lines(self) -> list[str]:
        lines = [line for fault in self.faults[:MOST_SHOWN] for line in fault_lines(self.text, fault)]
        lines += stop_lines(self.text, self.stop) if self.stop else []
        lines += [line for broken in self.broken[:MOST_SHOWN] for line in broken_lines(self.text, broken)]
        lines += [line for warned in self.warnings[:MOST_SHOWN] for line in warning_lines(self.text, warned)]
        return [*lines, self.summary()]

    def summary(self) -> str:
        counts = [
            (len(self.faults) + (self.stop is not None), "fault"), (len(self.broken), "broken rule"),
            (len(self.warnings), "warning"),
        ]  # fmt: skip
        found = [f"{count} {name}{'s' if count > 1 else ''}" for count, name in counts if count]
        more = f"; of each kind the first {MOST_SHOWN} are shown" if any(count > MOST_SHOWN for count, _ in counts) else ""
        return f"{self.text.path}: {', '.join(found) or 'no fault'}{more}"


def findings_of(text: Text) -> Findings:
    try:
        text.content.decode("utf-8")
    except UnicodeDecodeError as error:
        return Findings(text, [Fault("not-text", error.start)])
    markup = markup_of(text.content)
    found = Findings(text, faults_of(markup.root) if markup.root else [], markup.broken)
    if found.is_well and markup.root:
        system = system_of(markup.root)
        found.broken = all_broken(system)
        found.warnings = warnings_of(system) if not found.broken else []
    return found


def row_of(kind: str) -> ErrorRow:
    """The row of the reference for a fault of a description."""
    return next(line for line in reference().lines if line.section == SECTION and line.text.split(" ")[0] == kind)


def fault_lines(text: Text, fault: Fault) -> list[str]:
    row = row_of(fault.kind)
    means = row.means.replace("NAME", fault.which) if fault.which else row.means
    remedy = row.remedy.replace("give it", f"give {fault.which}") if fault.which else fault.remedy or row.remedy
    shown = text.shown(fault.at if fault.shown_at is None else fault.shown_at)
    return [f"{text.place(fault.at)}: error: {fault.kind}: {means}", f"    {shown}", f"    to mend it: {remedy}"]


def stop_lines(text: Text, stop: NoMarkup) -> list[str]:
    shown = text.shown(stop.at - len(END_TAG) if text.content[: stop.at].endswith(END_TAG) else stop.at)
    lines = [f"{text.place(stop.at)}: error: no XML that xm_run reads: {stop.reason}", f"    {shown}"]
    if stop.opened is None:
        return lines
    return [*lines, f"{text.place(stop.opened)}: note: the element that is open here", f"    {text.shown(stop.opened)}"]


def broken_lines(text: Text, broken: Broken) -> list[str]:
    rule = reference().rules[broken.rule]
    lines = [f"{text.place(broken.at)}: error: rule {rule.number} ({rule.name}): {rule.holds}", f"    {text.shown(broken.at)}"]
    if broken.other != broken.at:
        lines += [f"{text.place(broken.other)}: note: the other element", f"    {text.shown(broken.other)}"]
    return [*lines, f"    to mend it: {rule.remedy}"]


def warning_lines(text: Text, warned: Warned) -> list[str]:
    return [
        f"{text.place(warned.at)}: warning: {warned.text}",
        f"    {text.shown(warned.at)}",
        f"    to mend it: {warned.remedy}",
    ]
