"""Beginnings: machines that a run without upsets saved after some ticks, from which other runs go on."""

from dataclasses import dataclass

from xm_tools.failure import Unusable


@dataclass(frozen=True)
class Beginning:
    """A machine after some ticks: its file, the file's digest, and the lines and the bytes of UARTs' files up to there.

    `why` says why a machine of a later tick, which was asked for, was not kept.
    """

    tick: int = 0
    machine: bytes = b""
    digest: str = ""
    lines: bytes = b""
    uarts: tuple[tuple[str, bytes], ...] = ()
    why: str = ""

    @property
    def size(self) -> int:
        return len(self.machine) + len(self.lines) + sum(len(content) for _, content in self.uarts)


# Where a run begins that has no saved machine.
BOOT = Beginning()


def lines_of(report: bytes) -> bytes:
    """The lines of a report between its first one and those of the end."""
    first, end = report.find(b"\n") + 1, report.find(b"\nEND ") + 1
    if not 0 < first <= end:
        raise Unusable("the report has no end")
    return report[first:end]


def whole_report(begun: Beginning, report: bytes) -> bytes:
    """The report of a whole run: that of one that went on from a beginning, with the lines before it after the first one."""
    first, end, others = report.partition(b"\n")
    return first + end + begun.lines + others if begun.lines else report
