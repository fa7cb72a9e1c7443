"""Functions and lines of a program file, by pyelftools."""

import io
import os
from bisect import bisect_right
from dataclasses import dataclass, field
from typing import Any

from xm_tools.failure import Unusable
from xm_tools.files import content_of

# What a program file of a partition may have, and no damaged one need be read to its end.
MOST_BYTES = 1 << 26
MOST_SECTIONS = 4096


@dataclass(frozen=True)
class Function:
    start: int
    size: int
    name: str


@dataclass(frozen=True)
class SourceLine:
    start: int
    end: int
    file: str
    line: int


@dataclass
class Symbols:
    """The functions and the lines of a program, in the order of their addresses; its memory is `segments`, each with its end."""

    functions: list[Function] = field(default_factory=list)
    lines: list[SourceLine] = field(default_factory=list)
    segments: list[tuple[int, int]] = field(default_factory=list)

    def has(self, address: int) -> bool:
        """Whether an address is in the memory of the program."""
        return any(start <= address < end for start, end in self.segments)

    def function(self, address: int) -> Function | None:
        """The function that an address is in; one without a size reaches up to the next one."""
        place = bisect_right([function.start for function in self.functions], address) - 1
        if place < 0:
            return None
        found = self.functions[place]
        return found if not found.size or address < found.start + found.size else None

    def line(self, address: int) -> SourceLine | None:
        place = bisect_right([line.start for line in self.lines], address) - 1
        return self.lines[place] if place >= 0 and address < self.lines[place].end else None

    def where(self, address: int) -> str:
        """An address as a reader names it: a function with what is added to its start, and the line."""
        function, line = self.function(address), self.line(address)
        words = []
        if function:
            added = address - function.start
            words.append(function.name + (f"+{added:#x}" if added else ""))
        if line:
            words.append(f"at {line.file}:{line.line}")
        return " ".join(words)


def read_symbols(path: str) -> Symbols:
    """The symbols of a program file. What is none, and what pyelftools cannot read of it, is Unusable."""
    content = content_of(path)
    try:
        from elftools.elf.elffile import ELFFile  # type: ignore[import]
    except ImportError:
        raise Unusable("there is no pyelftools: Debian's package python3-pyelftools has it") from None
    if not content.startswith(b"\x7fELF") or len(content) > MOST_BYTES:
        raise Unusable(f"{path}: no program file")
    try:
        file = ELFFile(io.BytesIO(content))
        if file.num_sections() > MOST_SECTIONS:
            raise Unusable(f"{path}: more than {MOST_SECTIONS} sections")
        segments = [segment.header for segment in file.iter_segments() if segment.header.p_type == "PT_LOAD"]
        places = [(header.p_vaddr, header.p_vaddr + header.p_memsz) for header in segments]
        return Symbols(functions_of(file), lines_of(file), places)
    except Unusable:
        raise
    except Exception as error:  # the library has no class of its own for what damaged bytes lead to
        raise Unusable(f"{path}: it cannot be read as a program file: {type(error).__name__}") from None


def functions_of(file: Any) -> list[Function]:
    table = file.get_section_by_name(".symtab")
    if table is None or not hasattr(table, "iter_symbols"):
        return []
    found = [
        Function(symbol["st_value"], symbol["st_size"], symbol.name)
        for symbol in table.iter_symbols()
        if symbol["st_info"]["type"] in ("STT_FUNC", "STT_NOTYPE") and symbol.name and isinstance(symbol["st_shndx"], int)
    ]
    return sorted(found, key=lambda function: (function.start, function.size))


def file_name(program: Any, number: int) -> str:
    """The name of a file of a line program: its files are counted from 1 up to version 4 of DWARF, then from 0."""
    files = program["file_entry"]
    place = number if program["version"] >= 5 else number - 1
    name = files[place].name if 0 <= place < len(files) else b"?"
    return str(os.path.basename(name.decode("utf-8", "replace")))


def lines_of(file: Any) -> list[SourceLine]:
    if not file.has_dwarf_info():
        return []
    dwarf, found = file.get_dwarf_info(), []
    for unit in dwarf.iter_CUs():
        program = dwarf.line_program_for_CU(unit)
        states = [entry.state for entry in program.get_entries() if entry.state is not None] if program else []
        for state, following in zip(states, states[1:]):
            if not state.end_sequence and state.address < following.address:
                found.append(SourceLine(state.address, following.address, file_name(program, state.file), state.line))
    return sorted(found, key=lambda line: line.start)
