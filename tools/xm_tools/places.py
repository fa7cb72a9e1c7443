"""The ticks of a run that --from and --to ask for."""

import re

from xm_tools.course import Course, Interval
from xm_tools.failure import Unusable
from xm_tools.words import Words

PLACE = re.compile("[0-9]{1,10}f?")
OPTIONS = ("--from", "--to")


def tick_of(course: Course, place: str) -> int:
    """The tick of a place: a tick, as 3000, or the beginning of a major frame, as 2f. One past the run's end is the end."""
    tick = course.frame_begin(int(place[:-1])) if place.endswith("f") else int(place)
    return course.end if tick is None else min(tick, course.end)


def asked_for(course: Course, words: Words) -> Interval:
    """The ticks from --from on and before --to, without them all; a run without ticks is shown as if it had one."""
    low, high = words.value("--from") or "0", words.value("--to") or str(course.end)
    if not (PLACE.fullmatch(low) and PLACE.fullmatch(high)):
        raise words.fail()
    if course.end == 0:
        return Interval(0, 1)
    found = Interval(tick_of(course, low), tick_of(course, high))
    if found.begin >= found.end:
        raise Unusable(f"no tick of the run is from {low} on and before {words.value('--to') or 'its end'}")
    return found
