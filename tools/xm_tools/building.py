"""A system that is described in one place: its description, and a TOML file beside it with programs and inputs by names."""

import json
import re
import tomllib
from dataclasses import dataclass, field
from pathlib import Path
from typing import Any

from xm_tools.failure import Unusable
from xm_tools.files import text_of
from xm_tools.report import MOST_TICKS
from xm_tools.system import Partition, System

WORD = re.compile("[^A-Za-z0-9_]")
TABLES = ("programs", "inputs", "run")
BUILT = "built.json"


@dataclass(frozen=True)
class Program:
    """The program of a partition: a program file, or the sources that it is linked of."""

    elf: str
    sources: tuple[str, ...] = ()


@dataclass
class BuildFile:
    """What the TOML file has, by the numbers of partitions."""

    programs: dict[int, Program] = field(default_factory=dict)
    inputs: dict[int, str] = field(default_factory=dict)
    frames: int | None = None


def word_of(partition: Partition) -> str:
    """A partition's name as a word of C and a file's name; one that is none begins with its number."""
    word = WORD.sub("_", partition.name)
    return word if word[:1].isalpha() else f"P{partition.number}_{word}"


def words_of_partitions(system: System) -> dict[int, str]:
    """The words of all partitions, which differ."""
    words = {partition.number: word_of(partition) for partition in system.partitions}
    lowered = [word.lower() for word in words.values()]
    return {number: word if lowered.count(word.lower()) == 1 else f"P{number}_{word}" for number, word in words.items()}


class BuildFileReader:
    """Reads the TOML file. What it names lies beside it."""

    def __init__(self, path: str, system: System) -> None:
        self.path, self.system = path, system
        self.folder = Path(path).resolve().parent
        self.numbers = {name: number for number, name in system.names.items()}

    def fail(self, reason: str) -> Unusable:
        return Unusable(f"{self.path}: {reason}")

    def table(self, tables: dict[str, Any], name: str) -> dict[str, Any]:
        found = tables.get(name, {})
        if not isinstance(found, dict):
            raise self.fail(f"{name} is no table")
        return found

    def number(self, name: str) -> int:
        if name not in self.numbers:
            raise self.fail(f"{name} is no partition of the description: {', '.join(self.numbers)}")
        return self.numbers[name]

    def file(self, value: Any, name: str) -> str:
        if not isinstance(value, str) or not value:
            raise self.fail(f"{name} is no file's name")
        return str(self.folder / value)

    def program(self, value: Any, name: str) -> Program:
        if isinstance(value, list):
            if not value:
                raise self.fail(f"{name} has no sources")
            return Program("", tuple(self.file(source, name) for source in value))
        return Program(self.file(value, name))

    def build_file(self) -> BuildFile:
        try:
            tables = tomllib.loads(text_of(self.path))
        except tomllib.TOMLDecodeError as error:
            raise self.fail(str(error)) from None
        odd = [name for name in tables if name not in TABLES]
        if odd:
            raise self.fail(f"{odd[0]} is none of {', '.join(TABLES)}")
        programs = {self.number(name): self.program(value, name) for name, value in self.table(tables, "programs").items()}
        inputs = {self.number(name): self.file(value, name) for name, value in self.table(tables, "inputs").items()}
        missing = [name for name, number in self.numbers.items() if number not in programs]
        if missing:
            raise self.fail(f"partition {missing[0]} has no program")
        return BuildFile(programs, inputs, self.frames(self.table(tables, "run")))

    def frames(self, table: dict[str, Any]) -> int | None:
        odd = [name for name in table if name != "frames"]
        if odd:
            raise self.fail(f"run has frames alone, and not {odd[0]}")
        frames = table.get("frames")
        if not (frames is None or (type(frames) is int and 0 <= frames <= MOST_TICKS)):
            raise self.fail(f"frames is no number from 0 to {MOST_TICKS}")
        return frames


def read_build_file(path: str, system: System) -> BuildFile:
    if not Path(path).exists():
        raise Unusable(f"{path}: No such file or directory: it names the programs of the partitions, see xm build --help")
    return BuildFileReader(path, system).build_file()


# What was built, for `xm run`.


@dataclass(frozen=True)
class Built:
    """What a folder has: the container's name, the partitions' names and words, their inputs, and how long a run is."""

    container: str
    names: list[str]
    words: list[str]
    inputs: dict[str, str]
    frames: int | None

    def text(self) -> str:
        return json.dumps(self.__dict__, indent=1) + "\n"


def built_of(folder: str) -> Built:
    path = str(Path(folder) / BUILT)
    if not Path(path).exists():
        raise Unusable(f"{path}: No such file or directory: xm build makes it")
    try:
        tables = json.loads(text_of(path))
        built = Built(**tables)
        is_well = isinstance(built.container, str) and isinstance(built.inputs, dict) and len(built.names) == len(built.words)
        is_well = is_well and all(
            isinstance(name, str) for name in [*built.names, *built.words, *built.inputs, *built.inputs.values()]
        )
    except (ValueError, TypeError, RecursionError):
        is_well = False
    if not is_well:
        raise Unusable(f"{path}: not what `xm build` writes")
    return built
