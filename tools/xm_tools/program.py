"""Calls xm_run: the program that XM_RUN names, else that of the checkout, else the one on the PATH."""

import os
import shutil
import subprocess
import sys
from dataclasses import dataclass
from pathlib import Path

from xm_tools.failure import Unusable

# The lines of the script ./xm_run about the program itself, which are no replies.
NOTICES = ("xm_run: not proved, and slow", "building without a proof", "waiting for another call")
# The exit status of a call that refuses a file, and of the script where it fails.
REFUSED, SCRIPT_FAILED = 1, 70
# The notices that were passed on, each once.
NOTICED: set[str] = set()


@dataclass(frozen=True)
class Reply:
    """How a call ended: its status, its output, and its line on standard error."""

    status: int
    output: str
    line: str


def program() -> str:
    named = os.environ.get("XM_RUN")
    here = Path(__file__).resolve().parent.parent.parent / "xm_run"
    found = named or (str(here) if os.access(here, os.X_OK) and here.is_file() else shutil.which("xm_run"))
    if not found:
        raise Unusable("there is no xm_run: name it by XM_RUN")
    return os.path.abspath(found) if os.sep in found else found


def call(words: list[str], folder: str | None = None) -> Reply:
    """Calls the program; lines of the script about the program are passed on."""
    path = program()
    try:
        done = subprocess.run([path, *words], cwd=folder, stdin=subprocess.DEVNULL, capture_output=True, check=False)
    except (OSError, ValueError) as error:
        raise Unusable(f"{path}: {error}") from None
    lines = done.stderr.decode("utf-8", "replace").splitlines()
    notices = [line for line in lines if line.startswith(NOTICES)]
    for notice in notices:
        if notice not in NOTICED:
            NOTICED.add(notice)
            print(notice, file=sys.stderr)
    replies = [line for line in lines if line not in notices]
    if done.returncode < 0 or done.returncode == SCRIPT_FAILED:
        raise Unusable(f"{path}: {replies[0] if replies else f'ended by signal {-done.returncode}'}")
    return Reply(done.returncode, done.stdout.decode("ascii", "replace"), replies[0] if replies else "")


def needed(words: list[str], folder: str | None = None, hint: str = "") -> str:
    """The output of a call that has to end well. Where it refuses a file, its line is given with a hint."""
    reply = call(words, folder)
    if reply.status:
        line = reply.line or f"xm_run {words[0]}: status {reply.status}"
        raise Unusable(line + (hint if reply.status == REFUSED else ""))
    return reply.output
