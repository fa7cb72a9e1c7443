"""Reads a core file: all of a partition's state after a run."""

from dataclasses import dataclass, field

from xm_tools.binary import Cursor
from xm_tools.reference import reference

STATES = ("ready", "idle", "suspended", "halted")
WINDOWS = 8
KEPT = 64
TRACE_BYTES, HEALTH_BYTES = 24, 20
STACK_POINTER, FRAME_POINTER, RETURN = 14, 30, 31
WINDOW_BYTES = 64


@dataclass(frozen=True)
class Timer:
    is_armed: bool
    deadline: int
    interval: int

    def shown(self) -> str:
        return f"deadline {self.deadline}, interval {self.interval}" if self.is_armed else "not armed"


@dataclass(frozen=True)
class Trace:
    time: int
    bits: int
    number: int
    data: bytes


@dataclass(frozen=True)
class Health:
    """An entry of the health log. Event and action are numbers of the tables of the reference."""

    time: int
    number: int
    event: int
    action: int
    word: int


@dataclass
class Memory:
    start: int
    content: bytearray

    @property
    def end(self) -> int:
        return self.start + len(self.content)


@dataclass
class Core:
    partition: int = 0
    state: str = ""
    resets: int = 0
    status: int = 0
    clock: int = 0
    pc: int = 0
    npc: int = 0
    y: int = 0
    conditions: int = 0
    window: int = 0
    invalid: int = 0
    has_traps: bool = False
    table: int = 0
    pending: int = 0
    masked: int = 0
    timers: tuple[Timer, ...] = ()
    inputs: int = 0
    ports: int = 0
    globals: tuple[int, ...] = ()
    windows: list[tuple[int, ...]] = field(default_factory=list)
    traces: list[Trace] = field(default_factory=list)
    health: list[Health] = field(default_factory=list)
    areas: list[Memory] = field(default_factory=list)

    def registers(self, window: int | None = None) -> list[int]:
        """The globals, outs, locals and ins of a window: the ins are the outs of the one above it."""
        own = self.window if window is None else window
        return [*self.globals, *self.windows[own], *self.windows[(own + 1) % WINDOWS][:8]]

    def read(self, address: int, size: int) -> bytes:
        """Bytes of one area, fewer where it ends before."""
        for area in self.areas:
            if area.start <= address < area.end:
                return bytes(area.content[address - area.start : address - area.start + size])
        return b""

    def word(self, address: int) -> int | None:
        found = self.read(address, 4)
        return int.from_bytes(found, "big") if len(found) == 4 else None

    def spill(self) -> None:
        """Puts the registers of the windows below the current one where a spill puts them: a walk of the stack finds them there."""
        window = (self.window + 1) % WINDOWS
        while window != self.invalid:
            registers = self.registers(window)
            content = b"".join(register.to_bytes(4, "big") for register in registers[16:32])
            pointer = registers[STACK_POINTER]
            for area in self.areas:
                if area.start <= pointer and pointer + WINDOW_BYTES <= area.end:
                    area.content[pointer - area.start : pointer - area.start + WINDOW_BYTES] = content
            window = (window + 1) % WINDOWS


def entries(cursor: Cursor, size: int) -> list[Cursor]:
    """What a log keeps, each with a cursor of its own."""
    place = cursor.place
    first, following = cursor.number(4), cursor.number(4)
    if not 0 <= following - first <= KEPT:
        raise cursor.fail(f"field at={place}")
    kept = [(cursor.place, cursor.take(size)) for _ in range(KEPT)]
    return [Cursor(cursor.name, cursor.content, start) for start, _ in kept[: following - first]]


def trace_of(cursor: Cursor) -> Trace:
    return Trace(cursor.number(8), cursor.number(4), cursor.number(4), cursor.take(8))


def health_of(cursor: Cursor) -> Health:
    time, number = cursor.number(8), cursor.number(4)
    event = cursor.below(1, len(reference().events))
    action = cursor.below(1, len(reference().actions))
    cursor.take(2)
    return Health(time, number, event, action, cursor.number(4))


def read_registers(core: Core, cursor: Cursor) -> None:
    core.pc, core.npc, core.y = cursor.number(4), cursor.number(4), cursor.number(4)
    core.conditions = cursor.below(1, 16)
    core.window, core.invalid = cursor.below(1, WINDOWS), cursor.below(1, WINDOWS)
    core.has_traps = cursor.flag()
    core.table, core.pending, core.masked = cursor.number(4), cursor.number(4), cursor.number(4)
    core.timers = tuple(Timer(cursor.flag(), cursor.number(8), cursor.number(8)) for _ in range(2))
    core.inputs, core.ports = cursor.number(4), cursor.number(4)
    core.globals = tuple(cursor.number(4) for _ in range(8))
    core.windows = [tuple(cursor.number(4) for _ in range(16)) for _ in range(WINDOWS)]


def read_core(name: str, content: bytes) -> Core:
    """The core file in a file's bytes. What is none is Unusable."""
    cursor, core = Cursor(name, content), Core()
    cursor.head(b"XMCO", (1,))
    core.partition, core.state = cursor.below(1, 32), STATES[cursor.below(1, len(STATES))]
    core.resets, core.status, core.clock = cursor.number(4), cursor.number(4), cursor.number(8)
    read_registers(core, cursor)
    core.traces = [trace_of(entry) for entry in entries(cursor, TRACE_BYTES)]
    core.health = [health_of(entry) for entry in entries(cursor, HEALTH_BYTES)]
    for _ in range(cursor.below(1, 9)):
        start, size = cursor.number(4), cursor.number(4)
        core.areas.append(Memory(start, bytearray(cursor.take(size))))
    cursor.end()
    return core
