"""usage: xm export --json|--csv|--vcd|--perfetto REPORT [--system SYSTEM]

Prints a report in the form of another tool:

  --json       lines, how each partition ended, and how the system did
  --csv        a row for each line: tick, owner, name, kind, text
  --vcd        a value change dump for GTKWave: state and events of each partition, and the plan
  --perfetto   a trace for ui.perfetto.dev and chrome://tracing

With --system partitions have the names of the description or container SYSTEM, and dump and trace have the slots.
"""

import sys

from xm_tools.exports import FORMS, Run
from xm_tools.failure import WELL
from xm_tools.following import course_of
from xm_tools.report import read_report
from xm_tools.systems import read_system
from xm_tools.words import words_of

USAGE = "xm export --json|--csv|--vcd|--perfetto REPORT [--system SYSTEM]"


def run(given: list[str]) -> int:
    words = words_of(USAGE, given, 1, 1, ("--system",), tuple(FORMS))
    forms = [form for form in FORMS if words.has(form)]
    if len(forms) != 1:
        raise words.fail()
    system = words.value("--system")
    report = read_report(words.plain[0])
    course = course_of(report, read_system(system)) if system else None
    sys.stdout.write(FORMS[forms[0]](Run(report, course)))
    return WELL
