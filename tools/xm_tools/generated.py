"""What guests are made by, from the description: areas.h, a linker script for each partition, and partition.mk."""

from collections.abc import Iterator

from xm_tools.building import Program, words_of_partitions
from xm_tools.system import Partition, System


def partition_lines(partition: Partition, word: str) -> Iterator[str]:
    upper = word.upper()
    yield f"#define {upper}_PARTITION {partition.number}"
    for number, area in enumerate(partition.areas):
        name = f"{upper}_AREA" + (f"_{number}" if number else "")
        yield f"#define {name}_BASE 0x{area.start:08x}"
        yield f"#define {name}_SIZE 0x{area.size:x}"
    for number, port in enumerate(partition.ports):
        yield f'#define {upper}_PORT_{number} "{port.name}"'


def header(system: System) -> str:
    """areas.h: numbers, areas and names of ports."""
    words = words_of_partitions(system)
    lines = [f"/* Of the description {system.name}, by xm build. */", "#ifndef AREAS_H", "#define AREAS_H", ""]
    lines += [f"#define PARTITIONS {len(system.partitions)}"]
    for partition in system.partitions:
        lines += ["", *partition_lines(partition, words[partition.number])]
    for number, channel in enumerate(system.channels):
        lines += ["", f"#define CHANNEL_{number}_LENGTH {channel.length}"]
        lines += [f"#define CHANNEL_{number}_MESSAGES {channel.limit}"] if channel.is_queuing else []
    return "\n".join([*lines, "", "#endif", ""])


def linker_script(places: list[tuple[str, int]]) -> str:
    """The places of a partition's stack, data and code, for a program that is linked with it and with guarded.ld beside xm.h."""
    return "\n".join([*(f"{name} = {number:#x};" for name, number in places), "INCLUDE guarded.ld", ""])


def make_rules(system: System, programs: dict[int, Program], folder: str, guests: str, xml: str) -> str:
    """partition.mk: the place of each partition, and the rules of those that are made of sources."""
    words = words_of_partitions(system)
    lines = [
        f"# Of the description {system.name}, by xm build.",
        f"GUESTS = {guests}",
        "include $(GUESTS)/guest.mk",
        f"GUEST_CFLAGS += -I{folder}",
        "",
        "all:",
    ]
    for partition in system.partitions:
        elf = f"{folder}/{words[partition.number]}.elf"
        lines += ["", f"{elf}: PLACE = {xml} {partition.number}"]
        sources = programs[partition.number].sources if partition.number in programs else ()
        if sources:
            needed = " ".join(["$(START)", *sources, "$(GUESTS)/routines.c", "$(LAYOUT)"])
            lines += [f"all: {elf}", f"{elf}: {needed} {folder}/areas.h {folder}/partition.mk {xml}", f"\t$(call link,{needed})"]
    return "\n".join([*lines, ""])
