"""usage: xm picture SYSTEM REPORT OUT.svg [--from PLACE] [--to PLACE]

Draws a run as an SVG. SYSTEM is the description or the container, REPORT what `xm_run run` printed of that system. A PLACE
is a tick, as 3000, or the beginning of a major frame of the run, as 2f; frames are counted from 0, whatever their plan. The
picture shows the ticks from --from on and before --to, without them all ticks of the run.

Time runs from left to right, a partition a row:
- a pale bar is a slot of the partition under the plan that runs in that tick. It says whose slot it is, not that the
  partition ran in all of it: a report has no line of an idle partition. The part of a slot in which the partition is
  halted or suspended is paler;
- the right edge has the total of the END line: `ran E of S ticks of its slots` are E ticks of execution out of the S
  ticks of its slots, since its last reset, in which it is neither halted nor suspended. In the others it was idle;
- a dark bar is where the report shows that the partition ran in every tick: where E is S, its slots since its last reset
  as far as it is neither halted nor suspended. A bar without a dark one may have been used in part, or in all;
- thin bars are the ticks in which it is halted or suspended;
- marks stand in the middle of their tick: halts, suspensions, resumptions and resets of the partition, health events
  that are logged, console calls, traces. In the tick of one of the last three it ran. A star is an upset: a bit of the
  partition flipped before the tick, whether it ran or not;
- lines across all rows stand at the end of their tick: switches of the plan, resets and halts of the hypervisor. Above
  the rows is said what each is, and which plan the picture begins with;
- dotted lines are the beginnings of major frames, where there are at most 200.

Marks, and lines but for the dotted ones, have their line of the report as a title, which a browser shows where the
pointer is on them.

Where a row has more than 1000 slots and changes of state, bars less than a thousandth of the picture's width apart are
drawn as one, and none is dark; of more than 1000 marks of one kind in a row, or lines, one in each thousandth of the
width is drawn, with its own title. The picture says so, and so does a line on standard output.
"""

from xm_tools.failure import WELL
from xm_tools.files import write_over
from xm_tools.following import course_of
from xm_tools.picture import Thinning, svg_of
from xm_tools.places import OPTIONS, asked_for
from xm_tools.report import read_report
from xm_tools.systems import read_system
from xm_tools.words import words_of

USAGE = "xm picture SYSTEM REPORT OUT.svg [--from PLACE] [--to PLACE]"


def run(given: list[str]) -> int:
    words = words_of(USAGE, given, 3, 3, OPTIONS)
    system, report, out = words.plain
    course = course_of(read_report(report), read_system(system))
    thinning = Thinning(asked_for(course, words))
    write_over(out, svg_of(course, thinning), system, report)
    notes = thinning.notes()
    if notes:
        print(notes)
    return WELL
