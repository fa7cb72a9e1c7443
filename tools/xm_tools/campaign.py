"""A campaign: what a TOML file has of it, and the runs that it names."""

import hashlib
import itertools
import json
import math
import tempfile
import tomllib
from collections.abc import Callable, Iterable, Iterator, Sequence
from dataclasses import dataclass, field
from pathlib import Path
from typing import Any

from xm_tools.building import BUILT, Program, built_of, read_build_file
from xm_tools.container import Image, read_container
from xm_tools.description import read_description
from xm_tools.expectations import expectations_of
from xm_tools.failure import Unusable
from xm_tools.files import content_of, text_of
from xm_tools.outcomes import FAILED, MASKED, MET, OF_UPSETS, OUTCOMES, UNMET, WRONG
from xm_tools.planning import Planner
from xm_tools.report import MOST_TICKS
from xm_tools.running import CORES, MOST_WORDS, NEVER, Case, Setup, Words, digest_of
from xm_tools.system import Partition, System
from xm_tools.upset_sets import BlockReader, Upset, UpsetSet, upsets_of_text

KEYS = (
    "system", "frames", "ticks", "plans", "images", "inputs", "words", "seed", "expect", "output", "outcomes", "others", "failed", "keep",
    "beginnings", "upsets",
)  # fmt: skip
OF_WORDS = ("count", "sets", "from", "to", "seed")
OF_UPSET_TABLES = ("partition", "places", "bits", "ticks", "sample", "seed", "file")
OF_TICKS = ("from", "to", "step")
MOST_SEED, MOST_WORD = (1 << 63) - 1, (1 << 32) - 1
MOST_CONTAINERS, MOST_SETS, MOST_RUNS = 1000, 1_000_000, 10_000_000
# How many saved machines a container has with some inputs, where the file does not say it, and how many bytes they have together.
BEGINNINGS, MOST_BEGINNINGS, MOST_SAVED = 32, 1000, 1 << 26
# How runs are judged, as a number that changes with it: results of another one are not taken over.
JUDGEMENT = 1


@dataclass(frozen=True)
class WordSets:
    """Sets of generated input words: so many sets of so many words from `low` to `high`."""

    count: int
    sets: int
    low: int
    high: int
    seed: int


@dataclass(frozen=True)
class UpsetTable:
    """Upsets that the file names: of a file of the program, or bits of places of some partitions before ticks."""

    name: str
    file: str | None = None
    partitions: tuple[str, ...] = ()
    places: tuple[str, ...] = ()
    bits: tuple[int, ...] | None = None
    ticks: tuple[int, ...] | tuple[int, int | None, int] = (0, None, 1)
    is_range: bool = True
    sample: int | None = None
    seed: int = 0


@dataclass
class CampaignFile:
    """What the file has. Paths are absolute; partitions stand by their names."""

    path: str
    text: str
    system: str
    lengths: list[tuple[str, int]] = field(default_factory=list)
    plans: list[str] = field(default_factory=list)
    images: dict[str, list[str]] = field(default_factory=dict)
    inputs: dict[str, list[str]] = field(default_factory=dict)
    words: dict[str, WordSets] = field(default_factory=dict)
    expect: str | None = None
    output: list[str] | None = None
    outcomes: tuple[str, ...] = OF_UPSETS
    others: bool | str = True
    beginnings: int | None = None
    failed: tuple[str, ...] = (UNMET, FAILED)
    keep: tuple[str, ...] = ()
    upsets: list[UpsetTable] = field(default_factory=list)

    @property
    def name(self) -> str:
        return Path(self.path).stem

    def fail(self, reason: str) -> Unusable:
        return Unusable(f"{self.path}: {reason}")


class Table:
    """A table of the file, whose values are read with what they have to be."""

    def __init__(self, path: str, name: str, values: Any, keys: Iterable[str] | None) -> None:
        self.path, self.name = path, name
        if not isinstance(values, dict):
            raise self.fail(f"{name} is no table")
        self.values: dict[str, Any] = values
        odd = [key for key in values if keys is not None and key not in keys]
        if odd:
            raise self.fail(f"{self.of(odd[0])} is none of {', '.join(keys or ())}")

    def fail(self, reason: str) -> Unusable:
        return Unusable(f"{self.path}: {reason}")

    def of(self, key: str) -> str:
        return f"{self.name}.{key}" if self.name else key

    def has(self, key: str) -> bool:
        return key in self.values

    def number(self, key: str, least: int, most: int, default: int | None = None) -> int:
        found = self.values.get(key, default)
        return self.checked(key, found, least, most)

    def checked(self, key: str, found: Any, least: int, most: int) -> int:
        if type(found) is not int or not least <= found <= most:
            raise self.fail(f"{self.of(key)} is no number from {least} to {most}")
        return found

    def numbers(self, key: str, least: int, most: int) -> list[int]:
        """One number or a list of some."""
        found = self.values.get(key)
        numbers = found if isinstance(found, list) else [found]
        if not numbers:
            raise self.fail(f"{self.of(key)} is empty")
        return [self.checked(key, number, least, most) for number in numbers]

    def text(self, key: str) -> str:
        found = self.values.get(key)
        if not isinstance(found, str) or not found:
            raise self.fail(f"{self.of(key)} is no text")
        return found

    def texts(self, key: str) -> list[str]:
        """One text or a list of some."""
        found = self.values.get(key)
        texts = found if isinstance(found, list) else [found]
        if not texts or not all(isinstance(text, str) and text for text in texts):
            raise self.fail(f"{self.of(key)} is neither a text nor a list of texts")
        return list(texts)

    def chosen(self, key: str, allowed: Sequence[str]) -> tuple[str, ...]:
        found = self.texts(key)
        for text in found:
            if text not in allowed:
                raise self.fail(f"{self.of(key)}: {text} is none of {', '.join(allowed)}")
        return tuple(dict.fromkeys(found))


class CampaignReader:
    """Reads the file. What it names lies beside it."""

    def __init__(self, path: str) -> None:
        self.path, self.folder = path, Path(path).resolve().parent
        text = text_of(path)
        try:
            self.top = Table(path, "", tomllib.loads(text), KEYS)
        except (ValueError, RecursionError) as error:
            raise Unusable(f"{path}: {error}") from None
        self.found = CampaignFile(path, text, self.file(self.top.text("system")))
        self.seed = self.top.number("seed", 0, MOST_SEED, 0)

    def file(self, name: str) -> str:
        return str(self.folder / name)

    def table(self, key: str) -> Table:
        return Table(self.path, key, self.top.values.get(key, {}), None)

    def read(self) -> CampaignFile:
        top, found = self.top, self.found
        for key in ("frames", "ticks"):
            if top.has(key):
                found.lengths += [(key, number) for number in top.numbers(key, 0, MOST_TICKS)]
        found.plans = [self.file(name) for name in top.texts("plans")] if top.has("plans") else []
        for table, into in ((self.table("images"), found.images), (self.table("inputs"), found.inputs)):
            for name in table.values:
                into[name] = [self.file(file) for file in table.texts(name)]
        for name, values in self.table("words").values.items():
            found.words[name] = self.word_sets(Table(self.path, f"words.{name}", values, OF_WORDS))
        both = [name for name in found.words if name in found.inputs]
        if both:
            raise found.fail(f"{both[0]} has inputs and words")
        self.read_rules()
        tables = top.values.get("upsets", [])
        if not isinstance(tables, list):
            raise found.fail("upsets is no list of tables: [[upsets]]")
        found.upsets = [
            self.upset_table(Table(self.path, f"upsets {number}", values, OF_UPSET_TABLES)) for number, values in enumerate(tables, 1)
        ]
        return found

    def word_sets(self, table: Table) -> WordSets:
        low, high = table.number("from", 0, MOST_WORD, 0), table.number("to", 0, MOST_WORD, MOST_WORD)
        if low > high:
            raise table.fail(f"{table.name}: from is above to")
        count, sets = table.number("count", 0, MOST_WORDS), table.number("sets", 1, MOST_SETS, 1)
        return WordSets(count, sets, low, high, table.number("seed", 0, MOST_SEED, self.seed))

    def read_rules(self) -> None:
        top, found = self.top, self.found
        found.expect = self.file(top.text("expect")) if top.has("expect") else None
        found.output = top.texts("output") if top.has("output") else None
        if top.has("outcomes"):
            found.outcomes = top.chosen("outcomes", OF_UPSETS)
            if not {MASKED, WRONG} <= set(found.outcomes):
                raise found.fail(f"outcomes: {MASKED} and {WRONG} are always distinguished")
        found.others = top.values.get("others", True)
        if not isinstance(found.others, bool) and found.others != CORES:
            raise found.fail(f"others is neither true nor false nor {CORES}")
        found.beginnings = top.number("beginnings", 0, MOST_BEGINNINGS) if top.has("beginnings") else None
        named = [*found.outcomes, UNMET, FAILED]
        if top.has("failed"):
            found.failed = tuple(dict.fromkeys([*top.chosen("failed", named), UNMET, FAILED]))
        found.keep = found.failed
        if top.has("keep"):
            kept = top.chosen("keep", [*named, MET, "all", NEVER])
            found.keep = tuple(OUTCOMES) if "all" in kept else kept

    def upset_table(self, table: Table) -> UpsetTable:
        if table.has("file"):
            if len(table.values) > 1:
                raise table.fail(f"{table.name} has a file, and so nothing else")
            return UpsetTable(table.name, self.file(table.text("file")))
        bits = tuple(sorted(set(table.numbers("bits", 0, 62)))) if table.has("bits") else None
        sample = table.number("sample", 1, MOST_RUNS) if table.has("sample") else None
        ticks, is_range = self.ticks(table)
        seed = table.number("seed", 0, MOST_SEED, self.seed)
        return UpsetTable(
            table.name, None, tuple(table.texts("partition")), tuple(table.texts("places")), bits, ticks, is_range, sample, seed
        )  # fmt: skip

    def ticks(self, table: Table) -> tuple[tuple[int, ...] | tuple[int, int | None, int], bool]:
        """The ticks of a table: some numbers, or from where to where in which steps."""
        found = table.values.get("ticks", {})
        if not isinstance(found, dict):
            return tuple(sorted(set(table.numbers("ticks", 0, MOST_TICKS - 1)))), False
        within = Table(self.path, f"{table.name}.ticks", found, OF_TICKS)
        end = within.number("to", 0, MOST_TICKS) if within.has("to") else None
        return (within.number("from", 0, MOST_TICKS, 0), end, within.number("step", 1, MOST_TICKS, 1)), True


def read_campaign(path: str) -> CampaignFile:
    return CampaignReader(path).read()


# What is run.


@dataclass(frozen=True)
class Made:
    """A container that was made, what was varied in it, and the inputs that its partitions have by themselves."""

    content: bytes
    digest: str
    system: System
    images: tuple[Image, ...]
    labels: tuple[tuple[str, str], ...]
    inputs: dict[int, str]
    frames: int | None


@dataclass(frozen=True)
class Files:
    """Files with input words of a partition, by their names and digests."""

    partition: int
    files: Sequence[tuple[str, str]]

    def __len__(self) -> int:
        return len(self.files)

    def choice(self, number: int) -> tuple[Words | str, str]:
        name, digest = self.files[number]
        return digest, name


@dataclass(frozen=True)
class Sets:
    """Generated sets of input words of a partition."""

    partition: int
    name: str
    sets: WordSets

    def __len__(self) -> int:
        return self.sets.sets

    def choice(self, number: int) -> tuple[Words | str, str]:
        sets = self.sets
        return Words(sets.seed, self.name, number, sets.count, sets.low, sets.high), f"set {number}"


class Campaign:
    """A campaign whose containers are made."""

    def __init__(self, given: CampaignFile) -> None:
        self.given = given
        self.files: dict[str, bytes] = {}
        self.first = self.system_of(given.system)
        self.output = self.numbers(given.output) if given.output is not None else None
        self.expect = text_of(given.expect) if given.expect else ""
        expectations_of(given.expect or "", self.expect, self.first)
        for name in (*given.images, *given.inputs, *given.words, *(name for table in given.upsets for name in table.partitions)):
            self.partition(self.first, name)
        for path in given.plans:
            self.compare(path)
        self.upset_texts = {table.file: text_of(table.file) for table in given.upsets if table.file}
        self.varied_inputs = {
            self.partition(self.first, name).number: [(self.short(path), self.put(content_of(path))) for path in paths]
            for name, paths in given.inputs.items()
        }
        self.containers: list[Made] = []

    @property
    def is_folder(self) -> bool:
        return Path(self.given.system).is_dir()

    def short(self, path: str) -> str:
        return Path(path).name

    def put(self, content: bytes) -> str:
        """Keeps a file's content, and gives its digest."""
        digest = digest_of(content)
        self.files[digest] = content
        return digest

    def system_of(self, path: str) -> System:
        if Path(path).is_dir():
            if self.given.plans or self.given.images:
                raise self.given.fail(f"plans and images vary a system that is described, and {path} is a folder")
            built = built_of(path)
            container = str(Path(path) / built.container)
            return read_container(container, content_of(container)).system
        return read_description(path)

    def partition(self, system: System, name: str) -> Partition:
        for partition in system.partitions:
            if partition.name == name:
                return partition
        raise self.given.fail(f"{name} is no partition: {', '.join(system.names.values())}")

    def numbers(self, names: Iterable[str]) -> tuple[int, ...]:
        return tuple(sorted({self.partition(self.first, name).number for name in names}))

    def compare(self, path: str) -> None:
        """Another plan is a description of the same partitions."""
        other = read_description(path)
        if other.names != self.first.names:
            raise self.given.fail(f"{path} has other partitions than {self.given.system}")

    def build(self) -> None:
        """Makes the containers, by the program."""
        given = self.given
        if self.is_folder:
            self.containers = [self.built()]
            return
        plans = given.plans or [given.system]
        choices = list(itertools.product(plans, *given.images.values()))
        if len(choices) > MOST_CONTAINERS:
            raise given.fail(f"more than {MOST_CONTAINERS} containers")
        with tempfile.TemporaryDirectory(prefix="xm_campaign_build-") as folder:
            for number, (plan, *images) in enumerate(choices):
                self.containers.append(self.made(str(Path(folder) / str(number)), plan, dict(zip(given.images, images))))

    def built(self) -> Made:
        folder = Path(self.given.system)
        built = built_of(str(folder))
        content = content_of(str(folder / built.container))
        container = read_container(str(folder / built.container), content)
        inputs = {}
        for word, path in built.inputs.items():
            if word not in built.words:
                raise Unusable(f"{folder / BUILT}: not what `xm build` writes")
            inputs[built.words.index(word)] = self.put(content_of(str(folder / path)))
        return Made(content, self.put(content), container.system, container.images, (), inputs, built.frames)

    def made(self, folder: str, plan: str, images: dict[str, str]) -> Made:
        from xm_tools.commands.build import Build

        beside = str(Path(self.given.system).with_suffix(".toml"))
        build = Build(plan, folder, beside, lambda line: None)
        for name, path in images.items():
            build.given.programs[self.partition(build.system, name).number] = Program(path)
        build.make()
        path = str(Path(folder) / "system.xmp")
        content = content_of(path)
        container = read_container(path, content)
        labels = [("plan", self.short(plan))] if self.given.plans else []
        labels += [(f"image {name}", self.short(path)) for name, path in images.items() if len(self.given.images[name]) > 1]
        inputs = {number: self.put(content_of(path)) for number, path in build.given.inputs.items()}
        return Made(content, self.put(content), container.system, container.images, tuple(labels), inputs, build.given.frames)

    def rules_digest(self) -> str:
        """What decides how runs are judged, as a digest."""
        given = self.given
        parts = [JUDGEMENT, self.expect, self.output, sorted(given.outcomes), given.others]
        return hashlib.sha256(json.dumps(parts).encode()).hexdigest()

    @property
    def most_beginnings(self) -> int:
        return BEGINNINGS if self.given.beginnings is None else self.given.beginnings

    def planner(self, least: Callable[[Setup, int], int]) -> Planner:
        """What says from which saved machine each run goes on: by measuring where it pays, or by what the file says."""
        longest = {made.digest: max(ticks for ticks, _ in self.lengths(made)) for made in self.containers}
        scripted = len(self.first.partitions) if self.given.others is True else 0
        return Planner(longest, self.most_beginnings, least if self.given.beginnings is None else lambda origin, ticks: 0, scripted)

    # Setups and their runs.

    def lengths(self, made: Made) -> list[tuple[int, str]]:
        """The lengths of runs in ticks, each as it was given."""
        given = self.given.lengths
        if not given:
            if made.frames is None:
                raise self.given.fail("no length of the runs is given: frames or ticks")
            given = [("frames", made.frames)]
        found = []
        for kind, number in given:
            ticks = number * (made.system.plans[0].frame if kind == "frames" else 1)
            if ticks > MOST_TICKS:
                raise self.given.fail(f"{number} frames are more than {MOST_TICKS} ticks")
            found.append((ticks, f"{number} {kind}"))
        return found

    def input_choices(self, made: Made) -> list[Files | Sets]:
        """The choices of each partition with input words."""
        choices: list[Files | Sets] = []
        for partition in made.system.partitions:
            number, sets = partition.number, self.given.words.get(partition.name)
            if sets:
                choices.append(Sets(number, partition.name, sets))
            elif number in self.varied_inputs:
                choices.append(Files(number, self.varied_inputs[number]))
            elif number in made.inputs:
                choices.append(Files(number, [("", made.inputs[number])]))
        return choices

    def setups(self) -> Iterator[tuple[Setup, Made]]:
        for made in self.containers:
            lengths, choices = self.lengths(made), self.input_choices(made)
            for ticks, length in lengths:
                for number in range(math.prod(len(own) for own in choices)):
                    labels = [*made.labels, *([("length", length)] if len(lengths) > 1 else [])]
                    chosen: list[tuple[int, Words | str]] = []
                    for own in choices:
                        number, place = divmod(number, len(own))
                        source, name = own.choice(place)
                        chosen.append((own.partition, source))
                        labels += [(f"input {made.system.names[own.partition]}", name)] if len(own) > 1 else []
                    yield Setup(made.digest, ticks, tuple(chosen), tuple(labels)), made

    def upset_sets(self, made: Made, ticks: int) -> list[UpsetSet | list[tuple[Upset, ...]]]:
        """The upsets of the runs of a setup: sets of single ones, and lists of those of files."""
        found: list[UpsetSet | list[tuple[Upset, ...]]] = []
        for table in self.given.upsets:
            if table.file:
                found.append([upsets_of_text(table.file, self.upset_texts[table.file], made.system.partitions, ticks)])
                continue
            for name in table.partitions:
                partition = self.partition(made.system, name)
                image = [(one.address, one.address + len(one.content)) for one in made.images[partition.number].segments]
                name = f"{self.given.path}: {table.name}"
                blocks = BlockReader(name, partition, image, table.bits).blocks(table.places)
                share = self.share(table, name, partition)
                found.append(UpsetSet(partition.number, blocks, self.ticks_of(table, name, ticks), share, table.seed))
        return found

    def share(self, table: UpsetTable, name: str, partition: Partition) -> int | None:
        """How many of a sample are upsets of a partition: as many for each, and the first ones take what is left."""
        if table.sample is None:
            return None
        place = table.partitions.index(partition.name)
        share = table.sample // len(table.partitions) + (place < table.sample % len(table.partitions))
        if share == 0:
            raise Unusable(f"{name}: sample is less than one for each partition")
        return share

    def ticks_of(self, table: UpsetTable, name: str, ticks: int) -> Sequence[int]:
        if not table.is_range:
            found: Sequence[int] = [tick for tick in table.ticks if tick is not None]
        else:
            first, end, step = table.ticks
            found = range(first or 0, ticks if end is None else end, step or 1)
        if not found:
            raise Unusable(f"{name}: no tick of a run of {ticks}")
        if found[-1] >= ticks:
            raise Unusable(f"{name}: tick {found[-1]} of a run of {ticks}")
        return found

    def size(self) -> int:
        """How many runs there are, at most so many; each setup has one without upsets."""
        total = 0
        for made in self.containers:
            setups = math.prod(len(own) for own in self.input_choices(made))
            for ticks, _ in self.lengths(made):
                total += setups * (1 + sum(len(one) for one in self.upset_sets(made, ticks)))
        if total > MOST_RUNS:
            raise self.given.fail(f"{total} runs are more than {MOST_RUNS}: sample = NUMBER takes some upsets by chance")
        return total

    def cases(self) -> Iterator[tuple[Setup, Iterator[Case]]]:
        """The runs, by their setups: first the one without upsets, then those with upsets, in the order of their ticks."""
        sets: dict[tuple[str, int], list[UpsetSet | list[tuple[Upset, ...]]]] = {}
        for setup, made in self.setups():
            key = made.digest, setup.ticks
            if key not in sets:
                sets[key] = self.upset_sets(made, setup.ticks)
            yield setup, self.cases_of(setup, sets[key])

    def cases_of(self, setup: Setup, sets: list[UpsetSet | list[tuple[Upset, ...]]]) -> Iterator[Case]:
        compares = bool(sets)
        yield Case(setup, (), compares)
        for one in sets:
            for upsets in one:
                case = (upsets,) if isinstance(upsets, Upset) else upsets
                if case:
                    yield Case(setup, case, compares)


