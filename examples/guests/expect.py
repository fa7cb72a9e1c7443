#!/usr/bin/env python3
"""Says where crates/guest_suite/stdout differs from what it has to be. Ends with 1 where it does, else with 0.

usage: examples/guests/expect.py [FOLDER]
       examples/guests/expect.py --write    writes that file as it has to be, for the same calls, and compares it

Three things are compared, and none comes from xm_run:
- the console lines of each partition, put together, with the text that the native compiler's program printed:
  FOLDER/NAME.txt, or crates/guest_suite/data/NAME.txt;
- each report of `bare` and `run`, its tick numbers too, and the lines of the guest that is run tick by tick, with
  those of the interpreter in this file. It knows the instructions that compiled code has, by the SPARC V8 manual, and
  has as many register windows as are asked for;
- the lines of the other calls with the lengths and digests of the files that examples/systems/second.py makes.
"""
import hashlib
import re
import struct
import subprocess
import sys
import tempfile
import xml.etree.ElementTree as ET
from pathlib import Path

ROOT = Path(__file__).resolve().parent.parent.parent
SUITE = ROOT / "crates/guest_suite"
DATA = SUITE / "data"
SECOND = ROOT / "examples/systems/second.py"
# The one area of the partition of `bare`.
BARE_BASE, BARE_SIZE = 0x40000000, 0x100000
# What stands before the lines of the guest that is run tick by tick, and for how many ticks.
TICKED, TICKS = "hello.bin, tick by tick\n", 100
WORD = 0xFFFFFFFF
SIGN = 0x80000000
LOADS = {0: ">I", 1: ">B", 2: ">H", 9: ">b", 10: ">h"}
STORES = {4: (">I", WORD), 5: (">B", 0xFF), 6: (">H", 0xFFFF)}


def signed(word):
    return word - (1 << 32) if word & SIGN else word


def divided(dividend, divisor):
    """The quotient, rounded toward zero."""
    quotient = abs(dividend) // abs(divisor)
    return -quotient if (dividend < 0) != (divisor < 0) else quotient


class Area:
    """An area of a partition."""

    def __init__(self, base, size, read_only=False):
        self.base, self.read_only = base, read_only
        self.memory = bytearray(size)


class Guest:
    """A partition: its areas, its registers, and where it stands."""

    def __init__(self, areas, segments, entry, number):
        self.areas, self.number = areas, number
        self.code = areas[0]  # the area of the last instruction
        for address, content in segments:
            area, at = self.place(address, 1)
            area.memory[at : at + len(content)] = content
        self.pc, self.npc = entry, entry + 4
        self.regs = [0] * 32
        self.below = []
        self.y = self.n = self.z = self.v = self.c = 0
        self.exec, self.halted, self.text = 0, False, b""

    def place(self, address, size, stores=False):
        """The area of an address, and the place in it."""
        for area in self.areas:
            at = address - area.base
            if 0 <= at <= len(area.memory) - size and not address % size and not (stores and area.read_only):
                return area, at
        sys.exit(f"partition {self.number} at {getattr(self, 'pc', 0):08x}: address {address:08x}")

    def put(self, rd, value):
        if rd:
            self.regs[rd] = value & WORD

    def set_codes(self, result, carry=0, overflow=0):
        self.n, self.z, self.v, self.c = result >> 31, int(result == 0), overflow, carry

    def holds(self, condition):
        n, z, v, c = self.n, self.z, self.v, self.c
        at = condition & 7
        if at < 4:
            told = (0, z, z | (n ^ v), n ^ v)[at]
        else:
            told = (c | z, c, n, v)[at - 4]
        return told != condition >> 3

    def step(self):
        """One instruction. The bytes that went to the console, or None."""
        at = self.pc - self.code.base
        if not 0 <= at < len(self.code.memory):
            self.code, at = self.place(self.pc, 4)
        word = int.from_bytes(self.code.memory[at : at + 4], "big")
        pc, npc = self.pc, self.npc
        self.pc, self.npc = npc, npc + 4 & WORD
        self.exec += 1
        op, rd = word >> 30, word >> 25 & 31
        if op == 1:
            self.regs[15] = pc
            self.npc = pc + (word << 2) & WORD
        elif op == 0:
            self.branch(word, rd, pc, npc)
        else:
            a = self.regs[word >> 14 & 31]
            b = (word & 0x1FFF) - ((word & 0x1000) << 1) & WORD if word >> 13 & 1 else self.regs[word & 31]
            if op == 3:
                self.access(word >> 19 & 63, rd, a + b & WORD)
            else:
                return self.calculate(word >> 19 & 63, rd, a, b, pc)
        return None

    def branch(self, word, rd, pc, npc):
        if word >> 22 & 7 == 4:
            self.put(rd, word << 10)
            return
        if word >> 22 & 7 != 2:
            sys.exit(f"partition {self.number} at {pc:08x}: {word:08x}")
        condition, annul = word >> 25 & 15, word >> 29 & 1
        offset = (word & 0x3FFFFF) - ((word & 0x200000) << 1) << 2
        if self.holds(condition):
            self.npc = pc + offset & WORD
            if annul and condition == 8:
                self.pc, self.npc = self.npc, self.npc + 4
        elif annul:
            self.pc, self.npc = npc + 4, npc + 8

    def access(self, op3, rd, address):
        if op3 in LOADS:
            form = LOADS[op3]
            area, at = self.place(address, struct.calcsize(form))
            self.put(rd, struct.unpack_from(form, area.memory, at)[0])
        elif op3 in STORES:
            form, mask = STORES[op3]
            area, at = self.place(address, struct.calcsize(form), True)
            struct.pack_into(form, area.memory, at, self.regs[rd] & mask)
        elif op3 == 3:
            area, at = self.place(address, 8)
            first, second = struct.unpack_from(">II", area.memory, at)
            self.put(rd, first)
            self.put(rd + 1, second)
        elif op3 == 7:
            area, at = self.place(address, 8, True)
            struct.pack_into(">II", area.memory, at, self.regs[rd], self.regs[rd + 1])
        else:
            sys.exit(f"partition {self.number}: access {op3:02x}")

    def calculate(self, op3, rd, a, b, pc):
        regs = self.regs
        if op3 == 0x38:
            if a + b & 3:
                sys.exit(f"partition {self.number} at {pc:08x}: jump")
            self.npc = a + b & WORD
            self.put(rd, pc)
        elif op3 == 0x3A:
            return self.call(a + b & 127)
        elif op3 == 0x3C:
            self.below.append(regs[16:32])
            regs[24:32] = regs[8:16]
            regs[8:24] = [0] * 16
            self.put(rd, a + b)
        elif op3 == 0x3D:
            regs[8:16] = regs[24:32]
            regs[16:32] = self.below.pop()
            self.put(rd, a + b)
        elif op3 in (0x25, 0x26, 0x27):
            by = b & 31
            self.put(rd, (a << by, a >> by, signed(a) >> by)[op3 - 0x25])
        elif op3 == 0x28:
            self.put(rd, self.y)
        elif op3 == 0x30:
            self.y = a ^ b
        elif op3 < 0x20:
            self.arithmetic(op3, rd, a, b)
        else:
            sys.exit(f"partition {self.number} at {pc:08x}: operation {op3:02x}")
        return None

    def arithmetic(self, op3, rd, a, b):
        kind, with_codes = op3 & 15, op3 & 16
        carry = overflow = 0
        if kind in (0, 8):
            result = a + b + (self.c if kind == 8 else 0)
            carry = result >> 32
            overflow = (~(a ^ b) & (a ^ result) & SIGN) >> 31
        elif kind in (4, 12):
            result = a - b - (self.c if kind == 12 else 0)
            carry = int(result < 0)
            overflow = ((a ^ b) & (a ^ result) & SIGN) >> 31
        elif kind in (10, 11):
            result = a * b if kind == 10 else signed(a) * signed(b)
            self.y = result >> 32 & WORD
        elif kind in (14, 15):
            dividend = self.y << 32 | a
            if kind == 14:
                result, most, least = dividend // b, WORD, 0
            else:
                dividend -= (dividend >> 63) << 64
                result, most, least = divided(dividend, signed(b)), SIGN - 1, -SIGN
            overflow = int(not least <= result <= most)
            result = max(least, min(most, result))
        else:
            other = b if kind < 4 else ~b
            result = {1: a & other, 2: a | other, 3: a ^ other}[kind & 3]
        result &= WORD
        if with_codes:
            self.set_codes(result, carry, overflow)
        self.put(rd, result)

    def call(self, trap):
        number, first, second = self.regs[8:11]
        if trap != 0x70 or number not in (1, 2, 32, 35):
            sys.exit(f"partition {self.number}: trap {trap:02x}, call {number}")
        if number == 1:
            self.regs[8] = self.number
            return b""
        if number == 2:
            if first != self.number:
                sys.exit(f"partition {self.number} halts {first}")
            self.halted = True
            return b""
        if number == 35:
            self.n, self.z, self.v, self.c = (first >> bit & 1 for bit in (23, 22, 21, 20))
            self.regs[8] = 0
            return b""
        area, at = self.place(first, 1)
        if second > 1024 or at + second > len(area.memory):
            sys.exit(f"partition {self.number}: console of {second} bytes at {first:08x}")
        said = bytes(area.memory[at : at + second])
        self.text += said
        self.regs[8] = second
        return said


def shown(text):
    def one(byte):
        if byte == 10:
            return "\\n"
        if byte == 92:
            return "\\\\"
        return chr(byte) if 0x20 <= byte <= 0x7E else f"\\x{byte:02x}"

    return "".join(map(one, text))


def report(guests, slots, frame, ticks):
    """The lines of a run: a slot is its first tick in the frame, the tick behind it, and its guest."""
    lines = [f"SYSTEM parts={len(guests)} plans=1 ticks={ticks}"]
    for begin in range(0, ticks, frame):
        for first, end, guest in slots:
            for tick in range(begin + first, min(begin + end, ticks)):
                if guest.halted:
                    break
                said = guest.step()
                if guest.halted:
                    lines.append(f"[{tick}] P{guest.number} HALT")
                elif said:
                    lines.append(f"[{tick}] P{guest.number} CON {shown(said)}")
    for guest in guests:
        state = "halted" if guest.halted else "ready"
        lines.append(f"END P{guest.number} {state} resets=0 exec={guest.exec} pc={guest.pc:08x}")
    return lines + [f"END XM running plan=0 clock={ticks} ticks={ticks}"]


def elf(path):
    """The segments of a linker's program file that are loaded, and its entry."""
    content = path.read_bytes()
    entry, table = struct.unpack_from(">II", content, 24)
    count = struct.unpack_from(">H", content, 44)[0]
    segments = []
    for number in range(count):
        kind, offset, address, _, size = struct.unpack_from(">5I", content, table + 32 * number)
        if kind == 1 and size:
            segments.append((address, content[offset : offset + size]))
    return segments, entry


def ticks_of(text):
    """A time of a description: a tick is a microsecond."""
    number, unit = re.fullmatch(r"(\d+)(ms|us)", text).groups()
    return int(number) * (1000 if unit == "ms" else 1)


def size_of(text):
    number, unit = re.fullmatch(r"(\d+)(MB|KB|B)", text).groups()
    return int(number) << {"MB": 20, "KB": 10, "B": 0}[unit]


def system(description, programs):
    """The guests, slots and frame of a description."""
    root = ET.parse(DATA / description).getroot()
    space = {"x": root.tag[1:].split("}")[0]}
    guests = []
    for part in root.iterfind(".//x:Partition", space):
        areas = [Area(int(area.get("start"), 16), size_of(area.get("size")), area.get("flags") == "read-only")
                 for area in part.iterfind(".//x:Area", space)]  # fmt: skip
        number = int(part.get("id"))
        segments, entry = elf(DATA / programs[number])
        guests.append(Guest(areas, segments, entry, number))
    plan = root.find(".//x:Plan", space)
    slots = []
    for slot in plan.iterfind("x:Slot", space):
        first = ticks_of(slot.get("start"))
        slots.append((first, first + ticks_of(slot.get("duration")), guests[int(slot.get("partitionId"))]))
    return guests, slots, ticks_of(plan.get("majorFrame"))


def bare_system(image):
    """The guest, slots and frame of a raw image."""
    guest = Guest([Area(BARE_BASE, BARE_SIZE)], [(BARE_BASE, (DATA / image).read_bytes())], BARE_BASE, 0)
    return [guest], [(0, 1000, guest)], 1000


def digest(path):
    """The digest of an image or a container: that of all bytes before it."""
    return hashlib.md5(path.read_bytes()[:-16]).hexdigest()


class Session:
    """The calls of the suite, in their order."""

    def __init__(self, texts, folder):
        self.texts, self.folder = texts, folder
        for path in DATA.iterdir():
            (folder / path.name).write_bytes(path.read_bytes())
        self.made = {}
        self.known = {}
        self.faults = 0
        self.compared = 0

    def differs(self, what):
        print(what)
        self.faults += 1

    def wanted(self, words):
        """The lines that a call has to print, worked once."""
        call = tuple(words)
        if call not in self.known:
            self.known[call] = self.worked(words)
        return self.known[call]

    def worked(self, words):
        match words:
            case ["bare", image, ticks]:
                return report(*bare_system(image), int(ticks))
            case ["run", box, length, number]:
                parts = system(*self.made[box])
                return report(*parts, int(number) * (parts[2] if length == "--frames" else 1))
            case ["xmcparser", text, out]:
                self.made[out] = text
            case ["xmeformat", "build", elf_file, out]:
                self.made[out] = elf_file
            case ["xmpack", "build", config, out, *images]:
                by_number = dict(word.split("=", 1) for word in images)
                programs = [self.made[by_number[str(number)]] for number in range(len(images))]
                self.made[out] = (self.made[config], programs)
            case ["xmpack", "check", box]:
                return [f"ok parts={len(self.made[box][1])}"]
            case ["xmpack", "list", box]:
                return self.listed(box)
        done = subprocess.run([SECOND, *words], cwd=self.folder, capture_output=True, text=True, check=True)
        return done.stdout.splitlines()

    def listed(self, box):
        """The contents of a container without channels, by the files that it was made of."""
        description, programs = self.made[box]
        root = ET.parse(DATA / description).getroot()
        plans = len(root.findall(".//{*}Plan"))
        path = self.folder / box
        lines = [f"container length={path.stat().st_size} md5={digest(path)}",
                 f"system name={root.get('name')} parts={len(programs)} plans={plans} channels=0"]  # fmt: skip
        for number, program in enumerate(programs):
            image = self.folder / next(name for name, made in self.made.items() if made == program)
            entry = elf(DATA / program)[1]
            lines.append(f"image id={number} length={image.stat().st_size} entry={entry:08x} md5={digest(image)}")
        return lines

    def call(self, words, lines):
        self.compare_lines(" ".join(words), lines, self.wanted(words))
        programs = [words[1]] if words[0] == "bare" else self.made[words[1]][1] if words[0] == "run" else []
        for number, name in enumerate(programs):
            self.compare_text(words, lines, number, Path(name).stem)

    def compare_lines(self, what, lines, wanted):
        for number in range(max(len(wanted), len(lines))):
            found, line = (some[number] if number < len(some) else "nothing" for some in (lines, wanted))
            if found != line:
                self.differs(f"{what}: {found}\n  has to be: {line}")

    def compare_text(self, words, lines, number, name):
        """The console lines of a partition; of one that did not halt, they are the front of its text."""
        said = "".join(line.split(" CON ", 1)[1] for line in lines if re.match(rf"\[\d+\] P{number} CON ", line))
        path = self.texts / f"{name}.txt"
        text = shown((path if path.exists() else DATA / path.name).read_bytes())
        halted = any(re.match(rf"\[\d+\] P{number} HALT$", line) for line in lines)
        if said != text if halted else not text.startswith(said):
            self.differs(f"{' '.join(words)}: the console of partition {number} is not {path.name}\n  {said}\n  {text}")
        self.compared += said.count("\\n")


def ticked():
    """The lines of single ticks, without those of the report's beginning and end, and what the machine is then."""
    return [*report(*bare_system(TICKED.split(",")[0]), TICKS)[1:-2], f"parts=1 ticks={TICKS} halted=false"]


def calls_of(text):
    """The words of each call, and the lines that it printed."""
    for call in text.partition(TICKED)[0].split("$ xm_run ")[1:]:
        head, *lines = call.splitlines()
        yield head.split(" "), lines


def write(session):
    calls = [words for words, _ in calls_of((SUITE / "stdout").read_text(encoding="utf-8"))]
    lines = [line for words in calls for line in (f"$ xm_run {' '.join(words)}", *session.wanted(words))]
    text = "\n".join([*lines, TICKED.strip(), *ticked(), ""])
    (SUITE / "stdout").write_text(text, encoding="utf-8")


def main():
    words = sys.argv[1:]
    with tempfile.TemporaryDirectory() as folder:
        session = Session(DATA if words in ([], ["--write"]) else Path(words[0]), Path(folder))
        if words == ["--write"]:
            write(session)
        text = (SUITE / "stdout").read_text(encoding="utf-8")
        for call, lines in calls_of(text):
            session.call(call, lines)
        session.compare_lines(TICKED.strip(), text.partition(TICKED)[2].splitlines(), ticked())
    print(f"{session.compared} console lines compared with the native texts, {session.faults} differences")
    return 1 if session.faults or not session.compared else 0


if __name__ == "__main__":
    sys.exit(main())
