"""usage: xm core FILE [ELF]

Shows a core file that `xm_run run .. --core P=FILE` wrote: the partition's state, its registers, what it called, its health
log and its traces. With the program file of the partition, linked with -g, addresses have their function and line, the
calls are complete, and it is shown how much of the stack was ever used. `--ticks N` of a run, N being the tick of an HM
line, gives the state at the instruction that raised the event.
"""

from collections.abc import Iterator

from xm_tools.core import FRAME_POINTER, RETURN, STACK_POINTER, Core, read_core
from xm_tools.failure import WELL
from xm_tools.files import content_of
from xm_tools.reference import reference
from xm_tools.symbols import Symbols, read_symbols
from xm_tools.words import words_of

USAGE = "xm core FILE [ELF]"
MOST_CALLS = 64
LEAF_RETURN = 15
# The word of a SAVE, and the bits that make it one.
SAVE = 0x81E00000, 0xC1F80000


def place(symbols: Symbols, address: int) -> str:
    return " ".join([f"{address:08x}", symbols.where(address)]).rstrip()


def has_frame(core: Core, symbols: Symbols) -> bool:
    """Whether the function of the program counter has a window of its own: it has passed its SAVE, or that is not known."""
    function = symbols.function(core.pc)
    if function is None:
        return True
    words = [core.word(address) for address in range(function.start, core.pc, 4)]
    return any(word is not None and word & SAVE[1] == SAVE[0] for word in words)


def calls(core: Core, symbols: Symbols) -> Iterator[int]:
    """The program counter and the calls above it, the innermost first."""
    registers = core.registers()
    yield core.pc
    frame, back = registers[FRAME_POINTER], registers[RETURN]
    if not has_frame(core, symbols):
        yield registers[LEAF_RETURN]
        if registers[STACK_POINTER] == 0:
            return
    for _ in range(MOST_CALLS):
        if not back:
            return
        yield back
        pointer, above = core.word(frame + 14 * 4), core.word(frame + 15 * 4)
        if not frame or pointer is None or above is None:
            return
        frame, back = pointer, above


def stack_lines(core: Core, symbols: Symbols) -> Iterator[str]:
    """How much of the stack was ever used: its lowest byte that is not zero, above what the program has in its area."""
    pointer = core.registers()[STACK_POINTER]
    for area in core.areas:
        if symbols.segments and area.start <= pointer < area.end:
            own = [end for _, end in symbols.segments if area.start < end <= area.end]
            above = area.content[max(own, default=area.start) - area.start :]
            used = len(above) - next((number for number, byte in enumerate(above) if byte), len(above))
            yield f"stack: at most {used} of {len(above)} bytes used, {pointer:08x} now"


def log_lines(core: Core, symbols: Symbols) -> Iterator[str]:
    events, actions = reference().events, reference().actions
    for entry in core.health:
        word = place(symbols, entry.word)
        yield f"health {entry.number} [{entry.time}] {events[entry.event].name} {word} {actions[entry.action]}"
    for trace in core.traces:
        yield f"trace {trace.number} [{trace.time}] {trace.bits:08x} {trace.data.hex()}"


def register_lines(core: Core) -> Iterator[str]:
    registers = core.registers()
    for number, kind in enumerate("goli"):
        yield f"%{kind} " + " ".join(f"{register:08x}" for register in registers[8 * number : 8 * number + 8])


def core_lines(core: Core, symbols: Symbols) -> Iterator[str]:
    flags = "".join(letter if core.conditions & bit else "-" for letter, bit in zip("nzvc", (8, 4, 2, 1)))
    ports = ", ".join(str(number) for number in range(32) if core.ports >> number & 1) or "none"
    yield f"P{core.partition} {core.state} resets={core.resets} status={core.status} exec={core.clock}"
    yield f"pc {place(symbols, core.pc)}"
    yield f"npc {place(symbols, core.npc)}"
    traps = "on" if core.has_traps else "off"
    yield f"y {core.y:08x} icc {flags} window {core.window} invalid {core.invalid} traps {traps} tbr {core.table:08x}"
    yield f"interrupts pending {core.pending:08x} masked {core.masked:08x}"
    yield f"hardware timer {core.timers[0].shown()}; execution timer {core.timers[1].shown()}"
    yield f"input words left {core.inputs}; ports made {ports}"
    yield from register_lines(core)
    core.spill()
    for number, address in enumerate(calls(core, symbols)):
        yield f"#{number} {place(symbols, address)}"
    yield from stack_lines(core, symbols)
    yield from log_lines(core, symbols)
    for area in core.areas:
        yield f"area {area.start:08x} to {area.end:08x}"


def notes_of(core: Core, path: str, symbols: Symbols) -> Iterator[str]:
    """Why a program file shows nothing of a core file."""
    if not symbols.functions:
        yield f"note: {path} has no symbols: link it with -g"
    elif not symbols.has(core.pc):
        yield f"note: the program counter is outside of {path}: is it the program of P{core.partition}?"


def run(given: list[str]) -> int:
    words = words_of(USAGE, given, 1, 2)
    path, *programs = words.plain
    core = read_core(path, content_of(path))
    symbols = read_symbols(programs[0]) if programs else Symbols()
    for line in core_lines(core, symbols):
        print(line)
    for program in programs:
        for line in notes_of(core, program, symbols):
            print(line)
    return WELL
