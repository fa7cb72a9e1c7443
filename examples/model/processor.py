"""The processor and the memory of one partition: the integer instructions of SPARC V8, its register windows, and
what the hypervisor adds to them: windows that spill and fill by themselves, virtual traps and the return from them.
"""

WORD = 0xFFFFFFFF
SIGN = 0x80000000
WINDOWS = 8

# Trap types.
FETCH, ILLEGAL, PRIVILEGED, FLOAT, OVERFLOW, UNDERFLOW, UNALIGNED = 0x01, 0x02, 0x03, 0x04, 0x05, 0x06, 0x07
ACCESS, TAGGED, COPROCESSOR, DIVISION = 0x09, 0x0A, 0x24, 0x2A
HYPERCALL = 0xF0


class Trap(Exception):
    """The instruction trapped; neither registers nor memory have changed."""

    def __init__(self, kind):
        super().__init__(kind)
        self.kind = kind


class StackFault(Exception):
    """A window could not be spilled or filled; nothing has changed."""


class UnalignedReturn(Exception):
    """The return from a trap has a program counter that is no multiple of 4; nothing has changed."""


def signed(word):
    return word - (1 << 32) if word & SIGN else word


class Memory:
    """The areas of a partition. Areas that touch are one range for what goes over their border."""

    def __init__(self, areas):
        self.areas = [(area.start, bytearray(area.size), area.read_only) for area in areas]

    def load_image(self, image):
        """The areas are zeroed and the segments copied, into read-only areas, too."""
        for _, content, _ in self.areas:
            content[:] = bytes(len(content))
        for segment in image.segments:
            self.copy(segment.address, segment.content)

    def area_at(self, address):
        for area in self.areas:
            if 0 <= address - area[0] < len(area[1]):
                return area
        return None

    def allows(self, address, size, write):
        """Each of the bytes lies in an area that allows the access, and none past the last address."""
        end = address + size
        while address < end:
            area = self.area_at(address) if address <= WORD else None
            if area is None or write and area[2]:
                return False
            address = area[0] + len(area[1])
        return True

    def may_read(self, address, size):
        return self.allows(address, size, False)

    def may_write(self, address, size):
        return self.allows(address, size, True)

    def read(self, address, size):
        out = b""
        while size > 0:
            start, content, _ = self.area_at(address)
            piece = content[address - start : address - start + size]
            out += piece
            address, size = address + len(piece), size - len(piece)
        return bytes(out)

    def copy(self, address, content):
        while content:
            start, into, _ = self.area_at(address)
            at = address - start
            piece = content[: len(into) - at]
            into[at : at + len(piece)] = piece
            address, content = address + len(piece), content[len(piece) :]

    def fetch(self, address):
        if not self.may_read(address, 4):
            raise Trap(FETCH)
        return int.from_bytes(self.read(address, 4), "big")

    def load(self, address, size):
        """A number of so many bytes; alignment is looked at first."""
        if address % size:
            raise Trap(UNALIGNED)
        if not self.may_read(address, size):
            raise Trap(ACCESS)
        return int.from_bytes(self.read(address, size), "big")

    def test_store(self, address, size):
        if address % size:
            raise Trap(UNALIGNED)
        if not self.may_write(address, size):
            raise Trap(ACCESS)

    def store(self, address, size, value):
        self.test_store(address, size)
        self.copy(address, (value % (1 << 8 * size)).to_bytes(size, "big"))


class Processor:
    def __init__(self, entry):
        self.pc, self.npc = entry, (entry + 4) & WORD
        self.y = 0
        self.n = self.z = self.v = self.c = 0
        self.cwp, self.inv = WINDOWS - 1, 0
        self.globals = [0] * 8
        self.windows = [0] * (16 * WINDOWS)
        self.enabled = False
        self.base = 0

    # Registers. The ins of a window are the outs of the next one.

    def place(self, window, r):
        return 16 * window + r - 8 if r < 24 else 16 * ((window + 1) % WINDOWS) + r - 24

    def get(self, r):
        return self.globals[r] if r < 8 else self.windows[self.place(self.cwp, r)]

    def put(self, r, value):
        if r >= 8:
            self.windows[self.place(self.cwp, r)] = value & WORD
        elif r:
            self.globals[r] = value & WORD

    def icc(self):
        return self.n << 3 | self.z << 2 | self.v << 1 | self.c

    def put_icc(self, icc):
        self.n, self.z, self.v, self.c = icc >> 3 & 1, icc >> 2 & 1, icc >> 1 & 1, icc & 1

    def go_on(self):
        self.pc, self.npc = self.npc, (self.npc + 4) & WORD

    def go_to(self, target):
        """A transfer with a delay slot."""
        self.pc, self.npc = self.npc, target & WORD

    # One instruction. True where it was a taken trap to the hypervisor.

    def turn(self, memory):
        word = memory.fetch(self.pc)
        op = word >> 30
        if op == 1:
            target = self.pc + (word << 2)
            self.put(15, self.pc)
            self.go_to(target)
        elif op == 0:
            self.branch_or_sethi(word)
        elif op == 2:
            return self.calculate(word)
        else:
            self.access(word, memory)
        return False

    def branch_or_sethi(self, word):
        kind = word >> 22 & 7
        if kind == 4:
            self.put(word >> 25 & 31, word << 10)
            self.go_on()
        elif kind == 2:
            self.branch(word)
        else:
            raise Trap({6: FLOAT, 7: COPROCESSOR}.get(kind, ILLEGAL))

    def holds(self, condition):
        """n e le l leu cs neg vs, and behind them their opposites a ne g ge gu cc pos vc."""
        n, z, v, c = self.n, self.z, self.v, self.c
        told = (0, z, z | (n ^ v), n ^ v, c | z, c, n, v)[condition & 7]
        return bool(told) != (condition >= 8)

    def branch(self, word):
        condition, annul = word >> 25 & 15, word >> 29 & 1
        displacement = (word & 0x3FFFFF) - ((word & 0x200000) << 1)
        target = (self.pc + 4 * displacement) & WORD
        if self.holds(condition):
            if annul and condition == 8:
                self.pc, self.npc = target, (target + 4) & WORD
            else:
                self.go_to(target)
        elif annul:
            self.pc, self.npc = (self.npc + 4) & WORD, (self.npc + 8) & WORD
        else:
            self.go_on()

    def second(self, word):
        if word >> 13 & 1:
            return ((word & 0x1FFF) - ((word & 0x1000) << 1)) & WORD
        return self.get(word & 31)

    def calculate(self, word):
        selector, rd, rs1 = word >> 19 & 63, word >> 25 & 31, word >> 14 & 31
        if selector == 0x3A:
            return self.software_trap(word, rd, rs1)
        if selector < 0x20:
            self.arithmetic(selector, rd, self.get(rs1), self.second(word))
        elif selector in (0x20, 0x21, 0x22, 0x23):
            self.tagged(selector, rd, self.get(rs1), self.second(word))
        elif selector == 0x24:
            self.multiply_step(rd, self.get(rs1), self.second(word))
        elif selector in (0x25, 0x26, 0x27):
            a, by = self.get(rs1), self.second(word) & 31
            self.put(rd, (a << by, a >> by, signed(a) >> by)[selector - 0x25])
            self.go_on()
        elif selector == 0x28:
            if rs1 == 0:
                self.put(rd, self.y)
            elif not (rs1 == 15 and rd == 0):
                raise Trap(ILLEGAL)
            self.go_on()
        elif selector in (0x29, 0x2A, 0x2B, 0x31, 0x32, 0x33, 0x39):
            raise Trap(PRIVILEGED)
        elif selector == 0x30:
            if rd:
                raise Trap(ILLEGAL)
            self.y = self.get(rs1) ^ self.second(word)
            self.go_on()
        elif selector in (0x34, 0x35):
            raise Trap(FLOAT)
        elif selector in (0x36, 0x37):
            raise Trap(COPROCESSOR)
        elif selector == 0x38:
            self.jump(rd, (self.get(rs1) + self.second(word)) & WORD)
        elif selector == 0x3B:
            self.go_on()
        elif selector in (0x3C, 0x3D):
            self.window(selector == 0x3C, rd, (self.get(rs1) + self.second(word)) & WORD)
        else:
            raise Trap(ILLEGAL)
        return False

    def software_trap(self, word, rd, rs1):
        """The type is 0x80 plus the low seven bits of the sum; the trap to the hypervisor has gone on already."""
        if not self.holds(rd & 15):
            self.go_on()
            return False
        number = word & 0x7F if word >> 13 & 1 else self.get(word & 31)
        kind = 0x80 + (self.get(rs1) + number) % 128
        if kind != HYPERCALL:
            raise Trap(kind)
        self.go_on()
        return True

    def jump(self, rd, target):
        if target & 3:
            raise Trap(UNALIGNED)
        self.put(rd, self.pc)
        self.go_to(target)

    def window(self, down, rd, value):
        """SAVE and RESTORE: the operands are of the old window, the result is the new one's."""
        new = (self.cwp + (WINDOWS - 1 if down else 1)) % WINDOWS
        if new == self.inv:
            raise Trap(OVERFLOW if down else UNDERFLOW)
        self.cwp = new
        self.put(rd, value)
        self.go_on()

    def arithmetic(self, selector, rd, a, b):
        kind, with_codes = selector & 15, selector & 16
        carry = overflow = 0
        if kind in (0x0, 0x8):
            result = a + b + (self.c if kind == 0x8 else 0)
            carry = result >> 32
            overflow = (~(a ^ b) & (a ^ result)) >> 31 & 1
        elif kind in (0x4, 0xC):
            result = a - b - (self.c if kind == 0xC else 0)
            carry = int(result < 0)
            overflow = ((a ^ b) & (a ^ result)) >> 31 & 1
        elif kind in (0xA, 0xB):
            result = a * b if kind == 0xA else signed(a) * signed(b)
            self.y = result >> 32 & WORD
        elif kind in (0xE, 0xF):
            result, overflow = self.quotient(kind == 0xF, a, b)
        elif kind in (1, 2, 3, 5, 6, 7):
            other = b if kind < 4 else ~b
            result = (a & other, a | other, a ^ other)[(kind & 3) - 1]
        else:
            raise Trap(ILLEGAL)
        self.finish(rd, result & WORD, carry, overflow, with_codes)

    def finish(self, rd, result, carry, overflow, with_codes=True):
        if with_codes:
            self.n, self.z, self.v, self.c = result >> 31, int(result == 0), overflow, carry
        self.put(rd, result)
        self.go_on()

    def quotient(self, with_sign, a, b):
        """Y and the first operand are the dividend. What is too great or too small stands at the end of the range."""
        if b == 0:
            raise Trap(DIVISION)
        dividend = self.y << 32 | a
        least, most = 0, WORD
        if with_sign:
            dividend -= (dividend >> 63) << 64
            b, least, most = signed(b), -SIGN, SIGN - 1
        result = abs(dividend) // abs(b)
        if (dividend < 0) != (b < 0):
            result = -result
        return max(least, min(most, result)), int(not least <= result <= most)

    def tagged(self, selector, rd, a, b):
        result = a - b if selector & 1 else a + b
        across = (a ^ b) if selector & 1 else ~(a ^ b)
        overflow = (across & (a ^ result)) >> 31 & 1 | int((a | b) & 3 != 0)
        if overflow and selector >= 0x22:
            raise Trap(TAGGED)
        carry = int(result < 0) if selector & 1 else result >> 32
        self.finish(rd, result & WORD, carry, overflow)

    def multiply_step(self, rd, a, b):
        shifted = a >> 1 | (self.n ^ self.v) << 31
        added = b if self.y & 1 else 0
        self.y = self.y >> 1 | (a & 1) << 31
        result = shifted + added
        overflow = (~(shifted ^ added) & (shifted ^ result)) >> 31 & 1
        self.finish(rd, result & WORD, result >> 32, overflow)

    def access(self, word, memory):
        selector, rd = word >> 19 & 63, word >> 25 & 31
        if selector in (0x10, 0x11, 0x12, 0x13, 0x14, 0x15, 0x16, 0x17, 0x19, 0x1A, 0x1D, 0x1F, 0x26, 0x36):
            raise Trap(PRIVILEGED)
        if selector in (0x20, 0x21, 0x23, 0x24, 0x25, 0x27):
            raise Trap(FLOAT)
        if selector in (0x30, 0x31, 0x33, 0x34, 0x35, 0x37):
            raise Trap(COPROCESSOR)
        if selector not in (0, 1, 2, 3, 4, 5, 6, 7, 9, 0xA, 0xD, 0xF) or selector in (3, 7) and rd & 1:
            raise Trap(ILLEGAL)
        address = (self.get(word >> 14 & 31) + self.second(word)) & WORD
        if selector in (0x4, 0x5, 0x6):
            memory.store(address, (4, 1, 2)[selector - 4], self.get(rd))
        elif selector == 0x7:
            memory.store(address, 8, self.get(rd) << 32 | self.get(rd + 1))
        elif selector in (0xD, 0xF):
            size = 1 if selector == 0xD else 4
            memory.test_store(address, size)
            old, new = memory.load(address, size), 0xFF if selector == 0xD else self.get(rd)
            memory.store(address, size, new)
            self.put(rd, old)
        elif selector == 0x3:
            both = memory.load(address, 8)
            self.put(rd, both >> 32)
            self.put(rd + 1, both)
        else:
            size = (4, 1, 2)[selector & 7]
            value = memory.load(address, size)
            if selector & 8 and value >> 8 * size - 1:
                value -= 1 << 8 * size
            self.put(rd, value)
        self.go_on()

    # Windows that are spilled and filled.

    def spill(self, memory):
        """The window below the one that may not be entered goes to its own stack, locals and then ins."""
        window = (self.inv + WINDOWS - 1) % WINDOWS
        stack = self.windows[self.place(window, 14)]
        if stack % 8 or not memory.may_write(stack, 64):
            raise StackFault
        for k in range(16):
            memory.store(stack + 4 * k, 4, self.windows[self.place(window, 16 + k)])
        self.inv = window

    def fill(self, memory):
        """The window that may not be entered is loaded from the frame pointer of the current one."""
        frame = self.get(30)
        if frame % 8 or not memory.may_read(frame, 64):
            raise StackFault
        for k in range(16):
            self.windows[self.place(self.inv, 16 + k)] = memory.load(frame + 4 * k, 4)
        self.inv = (self.inv + 1) % WINDOWS

    def settle(self, memory):
        """One instruction, with the spill or the fill that it needs; after that the word at pc is read again."""
        try:
            return self.turn(memory)
        except Trap as trap:
            if trap.kind not in (OVERFLOW, UNDERFLOW):
                raise
            try:
                (self.spill if trap.kind == OVERFLOW else self.fill)(memory)
            except StackFault:
                raise trap from None
            return self.turn(memory)

    def flush_windows(self, memory):
        """All windows but the current one are spilled; what was spilled before a fault stays so."""
        while (self.cwp + 1) % WINDOWS != self.inv:
            self.spill(memory)

    # Virtual traps.

    def deliver(self, memory, kind):
        below = (self.cwp + WINDOWS - 1) % WINDOWS
        if below == self.inv:
            self.spill(memory)
        status = self.icc() << 20 | 1 << 7 | int(self.enabled) << 5 | self.cwp
        pc, npc = self.pc, self.npc
        self.cwp = below
        self.put(16, status)
        self.put(17, pc)
        self.put(18, npc)
        self.enabled = False
        self.pc = (self.base + 16 * kind) & WORD
        self.npc = (self.pc + 4) & WORD

    def return_from_trap(self, memory):
        status, pc, npc = self.get(16), self.get(17), self.get(18)
        if pc & 3 or npc & 3:
            raise UnalignedReturn
        above = (self.cwp + 1) % WINDOWS
        if above == self.inv:
            self.fill(memory)
        self.cwp = above
        self.put_icc(status >> 20)
        self.enabled = bool(status >> 5 & 1)
        self.pc, self.npc = pc, npc
