"""usage: xm run DIR [--frames NUM | --ticks TICKS] [--input NAME=FILE] [--core NAME=FILE] [--script NAME=FILE] [--upset FILE]
              [--from FILE] [--save FILE] [--report FILE]

Runs what `xm build` made in DIR, and prints the report with the names of partitions instead of their numbers. The
report as the program wrote it is DIR/report.txt, or FILE; consoles are in DIR, too, as uart0.out and so on. NUM is that of the
.toml file where neither option is given. --input takes other words than the .toml file names; --core and --script write a
partition's core file and its script; --upset has the bits that flip, with partitions by their numbers. --save writes the machine
after the run, and --from goes on from such a file, with the words that are left in it. Files of the options are those of the
current folder. Where the program ends with another status than 0 after the report, as with a console's file that
cannot be written, the report is printed all the same.
"""

import re
from pathlib import Path

from xm_tools.building import Built, built_of
from xm_tools.failure import WELL, Unusable
from xm_tools.files import write
from xm_tools.output import show
from xm_tools.program import call
from xm_tools.words import Words, words_of

USAGE = (
    "xm run DIR [--frames NUM | --ticks TICKS] [--input NAME=FILE] [--core NAME=FILE] [--script NAME=FILE] [--upset FILE]"
    " [--from FILE] [--save FILE] [--report FILE]"
)
FILES = ("--input", "--core", "--script")
WHOLE = ("--upset", "--from", "--save")
OWNER = re.compile(r"^(\[[0-9]+\] |END )P([0-9]+) (.*)$")


def length_of(words: Words, built: Built) -> list[str]:
    """How long the run is: by the option that is given, else by what was built."""
    given = [(name, words.number(name)) for name in ("--frames", "--ticks") if words.has(name)]
    if len(given) > 1:
        raise words.fail()
    name, number = given[0] if given else ("--frames", built.frames)
    if number is None:
        raise Unusable("no length of the run is given: --frames NUM, or frames in the .toml file")
    return [name, str(number)]


def number_of(built: Built, name: str) -> int:
    for names in (built.names, built.words):
        if name in names:
            return names.index(name)
    raise Unusable(f"{name} is no partition: {', '.join(built.names)}")


def file_options(words: Words, built: Built) -> list[str]:
    """The options with files, by numbers; inputs that were built stand where none is given, in a run from the boot on."""
    options: list[str] = []
    given = set()
    for option in FILES:
        for word in words.options.get(option, []):
            name, equals, path = word.rpartition("=")
            if not equals or not path:
                raise words.fail()
            number = number_of(built, name)
            given.add((option, number))
            options += [option, f"{number}={Path(path).resolve()}"]
    for name, path in built.inputs.items():
        if not words.has("--from") and ("--input", number_of(built, name)) not in given:
            options += ["--input", f"{number_of(built, name)}={path}"]
    for option in WHOLE:
        if file := words.value(option):
            options += [option, str(Path(file).resolve())]
    return options


def named(line: str, built: Built, width: int) -> tuple[str, int | None]:
    """A line of the report with the partition's name, and its number."""
    found = OWNER.match(line)
    if not found or int(found[2]) >= len(built.names):
        return line, None
    number = int(found[2])
    return f"{found[1]}{built.names[number]:{width}} {found[3]}", number


def run(given: list[str]) -> int:
    words = words_of(USAGE, given, 1, 1, ("--frames", "--ticks", "--report", *FILES, *WHOLE))
    folder = words.plain[0]
    built = built_of(folder)
    reply = call(["run", built.container, *length_of(words, built), *file_options(words, built)], folder)
    if reply.output:
        write(words.value("--report") or str(Path(folder) / "report.txt"), reply.output.encode())
        width = max(len(name) for name in built.names)
        show(named(line, built, width) for line in reply.output.splitlines())
    if reply.status:
        raise Unusable(reply.line or f"xm_run run: status {reply.status}")
    return WELL
