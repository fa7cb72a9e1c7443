"""usage: xm view SYSTEM REPORT OUT.html [--script FILE ..] [--from PLACE] [--to PLACE]

Writes a page of a run, one file that needs no network: a row for each partition with its slots, its states and a mark for
each line of the report. It zooms by dragging; a pointer on a mark shows its line, a click on a line goes to its tick, and the
field below finds lines. SYSTEM is the description or the container. Each --script is a file that `xm_run run .. --script`
wrote in the same run: its messages, signals and orders are arrows from the partition whose slot it was to the one that
received them.

A pale bar says whose slot it is; a dark one that the partition ran in every tick, which the report shows where its END line
has as many ticks as its slots since its last reset. A PLACE is a tick, as 3000, or the beginning of a major frame, as 2f; the
page has the ticks from --from on and before --to. OUT.html#ticks=FROM-TO opens it at some of them, OUT.html#find=TEXT at
the first line with this text. Of a run of many slots and lines bars and marks are thinned, and the page says so.
"""

from xm_tools.course import Course
from xm_tools.failure import WELL, Unusable
from xm_tools.files import content_of, write_over
from xm_tools.following import course_of
from xm_tools.page import Page, text_of
from xm_tools.places import OPTIONS, asked_for
from xm_tools.report import read_report
from xm_tools.script import Script, read_script
from xm_tools.systems import read_system
from xm_tools.words import words_of

MOST_SLOTS = 300000
USAGE = "xm view SYSTEM REPORT OUT.html [--script FILE ..] [--from PLACE] [--to PLACE]"


def scripts_of(names: list[str], course: Course) -> list[Script]:
    """The scripts in files, each of a partition and of as many ticks as the run has."""
    scripts = [read_script(name, content_of(name)) for name in names]
    for name, script in zip(names, scripts):
        if script.partition >= len(course.system.partitions):
            raise Unusable(f"{name}: a script of P{script.partition}, and the system has {len(course.system.partitions)} partitions")
        if script.ticks not in (course.report.ticks, course.end):
            raise Unusable(f"{name}: a script of {script.ticks} ticks, and the run has {course.report.ticks}")
    return scripts


def run(given: list[str]) -> int:
    words = words_of(USAGE, given, 3, 3, ("--script", *OPTIONS))
    system, report, out = words.plain
    course = course_of(read_report(report), read_system(system))
    names = words.options.get("--script", [])
    scripts = scripts_of(names, course)
    ticks = asked_for(course, words)
    if course.slot_count(ticks.begin, ticks.end) > MOST_SLOTS:
        raise Unusable(f"{report}: more than {MOST_SLOTS} slots: show fewer ticks by --from and --to")
    write_over(out, text_of(Page(course, scripts, ticks)).encode(), system, report, *names)
    return WELL
