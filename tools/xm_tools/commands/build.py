"""usage: xm build XML DIR

Makes all that a run needs in the folder DIR: configuration, images and container of the description XML, by the names of its
partitions. What a description has not stands beside it in a file of the same name that ends in .toml:

  [programs]
  control = "control.elf"                 a program file of a linker
  payload = ["payload.c", "filter.c"]     or its sources: they are linked with examples/guests
  [inputs]
  payload = "readings.bin"                the words that the partition reads
  [run]
  frames = 12                             how long `xm run DIR` runs without an option

For guests it writes areas.h (numbers, areas and names of ports), a linker script for each partition that has areas for stack,
data and code (NAME.ld), and partition.mk (the places of partitions for make), so that none of these is written twice. An area
in which a program has nothing is warned of, unless it is that of the stack.
"""

import os
import re
import shutil
import subprocess
from collections.abc import Callable
from pathlib import Path

from xm_tools.building import BUILT, BuildFile, Built, Program, read_build_file, words_of_partitions
from xm_tools.container import Image, read_image
from xm_tools.description import read_description
from xm_tools.failure import WELL, Unusable
from xm_tools.files import content_of, make_folder, write
from xm_tools.generated import header, linker_script, make_rules
from xm_tools.program import needed
from xm_tools.system import Partition, System
from xm_tools.words import words_of

USAGE = "xm build XML DIR"
SPACED = re.compile(r"[\s$#:]")
# Where the headers of guests are: in the checkout, or where a package has them.
GUESTS = ["examples/guests", "share/xm_run/guests"]


def guests_folder() -> str:
    for above in Path(__file__).resolve().parents:
        for below in GUESTS:
            if (above / below / "guest.mk").is_file():
                return str(above / below)
    raise Unusable("the folder examples/guests is not found, which linking needs")


def places_of(guests: str, xml: str, partition: int) -> list[tuple[str, int]]:
    """Where the stack, data and code of a partition are: the linker's symbols by `areas`. Without them there is one line why."""
    done = subprocess.run(
        [f"{guests}/areas", xml, str(partition)], stdin=subprocess.DEVNULL, capture_output=True, text=True, errors="replace", check=False
    )
    if done.returncode:
        raise Unusable(done.stderr.strip())
    return [(name, int(number, 16)) for name, number in re.findall(r"--defsym=(\w+)=(0x[0-9a-f]+)", done.stdout)]


class Build:
    """A folder in which a system is made. `beside` is the .toml file, where it is not the one beside the description."""

    def __init__(self, xml: str, folder: str, beside: str | None = None, say: Callable[[str], None] = print) -> None:
        self.xml, self.folder, self.say = xml, Path(folder), say
        self.system: System = read_description(xml)
        self.given: BuildFile = read_build_file(beside or str(Path(xml).with_suffix(".toml")), self.system)
        self.words = words_of_partitions(self.system)
        self.guests = guests_folder()
        self.places: dict[int, list[tuple[str, int]]] = {}

    def path(self, name: str) -> str:
        return str(self.folder / name)

    def make(self) -> None:
        make_folder(str(self.folder))
        self.configure()
        self.generate()
        self.link()
        images = []
        for partition in self.system.partitions:
            images.append(f"{partition.number}={self.image(partition)}")
        packed = needed(["xmpack", "build", self.path("system.xmc"), self.path("system.xmp"), *images])
        self.say(f"container {self.path('system.xmp')}: {packed.strip()}")
        self.keep()

    def configure(self) -> None:
        hint = f": xm check-description {self.xml} shows where and why"
        made = needed(["xmcparser", self.xml, self.path("system.xmc")], hint=hint)
        self.say(f"configuration {made.strip()}")

    def generate(self) -> None:
        write(self.path("areas.h"), header(self.system).encode())
        for partition in self.system.partitions:
            self.place(partition)
        folder, programs = str(self.folder.resolve()), self.given.programs
        rules = make_rules(self.system, programs, folder, self.guests, str(Path(self.xml).resolve()))
        write(self.path("partition.mk"), rules.encode())

    def place(self, partition: Partition) -> None:
        """Finds the places of a partition's stack, data and code; a program of sources has to have them."""
        try:
            self.places[partition.number] = places_of(self.guests, self.xml, partition.number)
        except Unusable as fault:
            if self.given.programs[partition.number].sources:
                raise Unusable(f"not linked: {fault}") from None
            return
        script = linker_script(self.places[partition.number])
        write(self.path(f"{self.words[partition.number]}.ld"), script.encode())

    def link(self) -> None:
        """Links what is made of sources, by make."""
        sources = [source for program in self.given.programs.values() for source in program.sources]
        if not sources:
            return
        paths = [str(self.folder.resolve()), str(Path(self.xml).resolve()), *sources]
        spaced = next((path for path in paths if SPACED.search(path)), None)
        if spaced:
            raise Unusable(f"{spaced}: make takes no blanks, `$`, `#` or `:` in names")
        if not shutil.which("make"):
            raise Unusable("there is no make, which links programs of sources")
        done = subprocess.run(
            ["make", "-s", "-f", self.path("partition.mk")],
            stdin=subprocess.DEVNULL,
            capture_output=True,
            text=True,
            errors="replace",
            check=False,
        )
        if done.returncode:
            lines = done.stderr.splitlines()
            errors = [line for line in lines if "error" in line.lower() or "***" in line] or lines
            raise Unusable(f"not linked: {errors[0] if errors else f'make ended with {done.returncode}'}")

    def image(self, partition: Partition) -> str:
        """Makes the image of a partition's program, and gives its path."""
        program: Program = self.given.programs[partition.number]
        word = self.words[partition.number]
        elf = self.path(f"{word}.elf") if program.sources else program.elf
        path = self.path(f"{word}.xef")
        made = needed(["xmeformat", "build", elf, path])
        image = read_image(path, content_of(path))
        self.say(f"{self.system.title(partition.number)}: {made.strip()} entry={image.entry:08x} of {os.path.relpath(elf)}")
        self.warn(partition, image)
        return path

    def warn(self, partition: Partition, image: Image) -> None:
        stack = dict(self.places.get(partition.number, [])).get("STACK_BASE")
        for area in partition.areas:
            inside = [segment for segment in image.segments if area.start <= segment.address < area.end]
            if not inside and area.start != stack:
                self.say(f"{self.system.title(partition.number)}: warning: its program has nothing in the area at {area.start:08x}")

    def keep(self) -> None:
        inputs = {}
        for number, path in self.given.inputs.items():
            word = self.words[number]
            write(self.path(f"{word}.input"), content_of(path))
            inputs[word] = f"{word}.input"
        names = [partition.name for partition in self.system.partitions]
        words = [self.words[partition.number] for partition in self.system.partitions]
        built = Built("system.xmp", names, words, inputs, self.given.frames)
        write(self.path(BUILT), built.text().encode())


def run(given: list[str]) -> int:
    words = words_of(USAGE, given, 2, 2)
    xml, folder = words.plain
    Build(xml, folder).make()
    return WELL
