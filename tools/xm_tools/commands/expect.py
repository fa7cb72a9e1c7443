"""usage: xm expect REPORT FILE [--names SYSTEM] [--junit OUT]

Compares a report with expectations, one a line of FILE; what follows a # is no part of it.

  no HM                                          no line of this kind; `P1 no HM`, `no HM *DIVIDE*` for fewer lines
  P3 CON "wheels: *"                             a line of this kind whose text fits, * and ? standing for any marks
  P3 CON "wheels: *" times 4                     as many of them; or `at least 4`, `at most 4`
  P3 within 20ms of [16005] CON "wheels: *"      one comes at most 20 ms after a tick
  P3 within 20ms of P0 CON "go *" CON "wheels*"  one comes at most 20 ms after each line of another kind, and there is such a line;
                                                 with `of any P0` there may be none
  all succeed                                    every partition halted by itself with status 0; `P3 succeeds` for one
  P2 ends idle                                   how it ends; for XM running or halted
  P0 resets <= 2                                 a number of its END line: resets, exec; of XM plan, clock, ticks

Kinds are CON, TRACE, HM, UPSET, PLAN, HALT, SUSPEND, RESUME, COLD and WARM. A partition succeeds if it ends halted, no health event
halted it, and it has no PARTITION_ERROR since its last reset or start: events that are not logged are not seen. With --names
partitions may be named as the description or container SYSTEM names them, and one that another partition halted does not succeed
either. Each expectation is printed with what came instead; --junit writes the results for a build server. The exit status is 1
where one is not met.
"""

from xm_tools.expectations import Expectation, expectations_of
from xm_tools.failure import UNMET, WELL, Unusable
from xm_tools.files import text_of, write_over
from xm_tools.report import read_report
from xm_tools.systems import read_system
from xm_tools.words import words_of

USAGE = "xm expect REPORT FILE [--names SYSTEM] [--junit OUT]"


def junit(results: list[tuple[Expectation, str | None]], report: str, path: str) -> bytes:
    try:
        from junitparser import Failure, JUnitXml, TestCase, TestSuite  # type: ignore[import]
    except ImportError:
        raise Unusable("there is no junitparser: Debian's package python3-junitparser has it") from None
    suite = TestSuite(path)
    for expectation, unmet in results:
        case = TestCase(expectation.words, report)
        if unmet is not None:
            case.result = [Failure(unmet)]
        suite.add_testcase(case)
    xml = JUnitXml()
    xml.add_testsuite(suite)
    content: bytes = xml.tostring()
    return content


def run(given: list[str]) -> int:
    words = words_of(USAGE, given, 2, 2, ("--names", "--junit"))
    report, path = words.plain
    named = words.value("--names")
    expectations = expectations_of(path, text_of(path), read_system(named) if named else None)
    found_report = read_report(report)
    results = [(expectation, expectation.unmet(found_report)) for expectation in expectations]
    for expectation, unmet in results:
        found = f"not met: {expectation.words}: {unmet}" if unmet else f"met: {expectation.words}"
        print(f"{path}:{expectation.number}: {found}")
    failed = sum(unmet is not None for _, unmet in results)
    print(f"{report}: {len(results) - failed} met, {failed} not met")
    out = words.value("--junit")
    if out:
        write_over(out, junit(results, report, path), report, path)
    return UNMET if failed else WELL
