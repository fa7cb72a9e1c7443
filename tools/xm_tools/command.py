"""The command xm: which commands there are, and what they have in common."""

import difflib
import importlib
import os
import sys
from dataclasses import dataclass

from xm_tools.failure import UNUSABLE, WELL, Unusable


@dataclass(frozen=True)
class Command:
    """A command: its words on the command line, its module, and what it does."""

    name: str
    words: str
    summary: str

    @property
    def module(self) -> str:
        return f"xm_tools.commands.{self.name.replace('-', '_')}"


COMMANDS = [
    Command("check-description", "XML", "all faults, broken rules and warnings of a description, with line and column"),
    Command("why", "[FILE]", "explains lines that xm_run printed on standard error"),
    Command("build", "XML DIR", "makes configuration, images and container of a system, by names"),
    Command("run", "DIR [--frames NUM | --ticks TICKS]", "runs what was built, with names instead of numbers"),
    Command("core", "FILE [ELF]", "shows a core file, with functions and lines"),
    Command("script", "show SCRIPT | make TEXT SCRIPT", "a script as text, and back"),
    Command("flows", "XML", "which partitions feel each other, and who can steer whom"),
    Command("expect", "REPORT FILE [--junit OUT]", "compares a report with expectations"),
    Command("compare", "A B", "compares two reports by partition"),
    Command("export", "--json|--csv|--vcd|--perfetto REPORT", "a report in the form of another tool"),
    Command("campaign", "FILE.toml | --report|--csv RESULTS", "many runs of a system, with inputs, plans and upsets varied, and their outcomes"),
    Command("picture", "SYSTEM REPORT OUT.svg", "draws a run as bars and marks"),
    Command("view", "SYSTEM REPORT OUT.html", "a page of a run that zooms and finds lines"),
]
HELP = """usage: xm COMMAND ..

{commands}

`xm COMMAND --help` has a command's options and what it prints. SYSTEM is a description or a container.
The exit status of every command is 0 where all is well, 1 where an expectation or a check failed, and 2 where something
could not be read or done; then the reason is one line on standard error."""


def help_text() -> str:
    width = max(len(f"{command.name} {command.words}") for command in COMMANDS)
    lines = [f"  xm {f'{command.name} {command.words}':{width}}  {command.summary}" for command in COMMANDS]
    return HELP.format(commands="\n".join(lines))


def dispatch(words: list[str]) -> int:
    if words in ([], ["-h"], ["--help"]):
        print(help_text())
        return WELL if words else UNUSABLE
    command = next((command for command in COMMANDS if command.name == words[0]), None)
    if command is None:
        near = difflib.get_close_matches(words[0], [command.name for command in COMMANDS], 1)
        raise Unusable(f"{words[0]} is no command: " + (f"perhaps {near[0]}" if near else "xm --help lists them"))
    module = importlib.import_module(command.module)
    if words[1:] in (["-h"], ["--help"]):
        print((module.__doc__ or "").strip())
        return WELL
    status: int = module.run(words[1:])
    return status


def one_line(reason: str) -> str:
    """A reason as one line that a terminal can show."""
    return "".join(mark if mark.isprintable() else ascii(mark)[1:-1] for mark in reason)


def main(words: list[str]) -> int:
    try:
        status = dispatch(words)
        sys.stdout.flush()
        return status
    except Unusable as reason:
        print(f"xm: {one_line(str(reason))}", file=sys.stderr)
        return UNUSABLE
    except BrokenPipeError:
        # Who reads has seen enough; what is left in the buffer goes nowhere.
        os.dup2(os.open(os.devnull, os.O_WRONLY), sys.stdout.fileno())
        return UNUSABLE
    except OSError as error:
        print(f"xm: {one_line(str(error))}", file=sys.stderr)
        return UNUSABLE
    except KeyboardInterrupt:
        return 130
