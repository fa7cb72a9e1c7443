"""usage: xm check-description XML

All that is wrong in a system description, at once, in the form that editors jump to:

  FILE:LINE:COLUMN: error: ..     a fault of the text, or a rule that is broken
  FILE:LINE:COLUMN: note: ..      the element that it clashes with
  FILE:LINE:COLUMN: warning: ..   what is accepted and hardly meant

Under each line stands the element, and how to mend it. The program's own answer comes first, and it decides; where this
tool finds something else, a line says so. Rules are looked at where the text has no fault, warnings where no rule is broken.
The exit status is 1 where the program or the tool finds an error.
"""

import tempfile
from pathlib import Path

from xm_tools.failure import UNMET, WELL, Unusable
from xm_tools.files import content_of
from xm_tools.findings import Findings, findings_of
from xm_tools.program import REFUSED, Reply, call
from xm_tools.texts import Text
from xm_tools.words import words_of

USAGE = "xm check-description XML"
# The one fault that is no matter of the text.
TOO_LONG = "too-long"


def reply_of(path: str) -> Reply:
    """What the program answers. What it writes is thrown away."""
    with tempfile.TemporaryDirectory() as folder:
        reply = call(["xmcparser", path, str(Path(folder) / "out.xmc")])
    if reply.status > REFUSED:
        raise Unusable(reply.line or f"xm_run xmcparser: status {reply.status}")
    return reply


def disagreement(findings: Findings, reply: Reply) -> list[str]:
    fault = reply.line.removeprefix(f"xm_run: {findings.text.path}: ") if reply.status else None
    if fault == TOO_LONG or findings.agrees(fault):
        return []
    found = findings.first or ("no XML that xm_run reads" if findings.stop else "no fault")
    return [f"{findings.text.path}: the tool disagrees with xm_run, which decides: {found}, and not {fault or 'accepted'}"]


def run(given: list[str]) -> int:
    words = words_of(USAGE, given, 1, 1)
    path = words.plain[0]
    findings = findings_of(Text(path, content_of(path)))
    reply = reply_of(path)
    print(reply.line or f"xm_run: {path}: {reply.output.strip()}")
    for line in [*findings.lines(), *disagreement(findings, reply)]:
        print(line)
    return WELL if reply.status == 0 and findings.is_well else UNMET
