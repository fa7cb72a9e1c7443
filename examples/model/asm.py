"""A small assembler for guests of the simulator: SPARC V8 instruction words, labels, data words and strings.

    guest = Guest(0x40100000)
    guest.call(32, "text", 2)           # console: two bytes at the label
    guest.call(2, 0)                    # halt partition 0
    guest.label("text").text("hi")
    guest.bytes()

An operand that may be a register or a number is written "o1" or 5; an address or a value is a number or a label.

`listing` gives what was written, a step with its address; `spelled` gives a word's instruction.
"""
from functools import wraps

WORD = 0xFFFFFFFF
REGISTERS = {name + str(k): 8 * bank + k for bank, name in enumerate("goli") for k in range(8)}
REGISTERS |= {"sp": 14, "fp": 30}
CONDITIONS = "n e le l leu cs neg vs a ne g ge gu cc pos vc".split()
ARITHMETIC = {
    "add": 0x00, "and": 0x01, "or": 0x02, "xor": 0x03, "sub": 0x04, "andn": 0x05, "orn": 0x06, "xnor": 0x07,
    "addx": 0x08, "umul": 0x0A, "smul": 0x0B, "subx": 0x0C, "udiv": 0x0E, "sdiv": 0x0F,
    "addcc": 0x10, "andcc": 0x11, "orcc": 0x12, "xorcc": 0x13, "subcc": 0x14, "andncc": 0x15, "orncc": 0x16,
    "xnorcc": 0x17, "addxcc": 0x18, "umulcc": 0x1A, "smulcc": 0x1B, "subxcc": 0x1C, "udivcc": 0x1E, "sdivcc": 0x1F,
    "taddcc": 0x20, "tsubcc": 0x21, "taddcctv": 0x22, "tsubcctv": 0x23, "mulscc": 0x24,
    "sll": 0x25, "srl": 0x26, "sra": 0x27, "jmpl": 0x38, "flush": 0x3B, "save": 0x3C, "restore": 0x3D,
}
STORES = ("st", "stb", "sth", "std")
MEMORY = {
    "ld": 0x00, "ldub": 0x01, "lduh": 0x02, "ldd": 0x03, "st": 0x04, "stb": 0x05, "sth": 0x06, "std": 0x07,
    "ldsb": 0x09, "ldsh": 0x0A, "ldstub": 0x0D, "swap": 0x0F,
}


def register(name):
    return REGISTERS[name]


def operand(value):
    """The second operand: a register, or a number of 13 bits with its sign."""
    if isinstance(value, str):
        return register(value)
    assert -4096 <= value < 4096, value
    return 1 << 13 | value & 0x1FFF


def sethi(value, rd):
    """Bits 31 to 10 of the register are those of the value, the others are zero."""
    return register(rd) << 25 | 4 << 22 | (value & WORD) >> 10


def arithmetic(name, rs1, second, rd):
    return 2 << 30 | register(rd) << 25 | ARITHMETIC[name] << 19 | register(rs1) << 14 | operand(second)


def memory(name, rd, rs1, second=0):
    """A load into rd, or a store of it, at rs1 plus the second operand."""
    return 3 << 30 | register(rd) << 25 | MEMORY[name] << 19 | register(rs1) << 14 | operand(second)


def branch(condition, distance, annul=False):
    """A branch over this number of bytes, counted from itself."""
    return int(annul) << 29 | CONDITIONS.index(condition) << 25 | 2 << 22 | distance >> 2 & 0x3FFFFF


def call_to(distance):
    return 1 << 30 | distance >> 2 & 0x3FFFFFFF


def ticc(condition, number, rs1="g0"):
    """A software trap: its type is 0x80 plus the low seven bits of rs1 plus the number."""
    second = register(number) if isinstance(number, str) else 1 << 13 | number & 0x7F
    return 2 << 30 | CONDITIONS.index(condition) << 25 | 0x3A << 19 | register(rs1) << 14 | second


def read_y(rd):
    return 2 << 30 | register(rd) << 25 | 0x28 << 19


def write_y(rs1, second=0):
    return 2 << 30 | 0x30 << 19 | register(rs1) << 14 | operand(second)


NOP = sethi(0, "g0")
HYPERCALL = ticc("a", 0x70)
ILLEGAL = 0
PRIVILEGED = 0x81480000
FLOAT = 0x01800000
COPROCESSOR = 0x01C00000


# Listings.


def shown_operand(value):
    if value in REGISTERS:
        return f"%{value}"
    return f"{value}" if isinstance(value, str) or abs(value) < 4096 else hex(value)


def shown_place(rs1, second):
    return f"[%{rs1} + {shown_operand(second)}]" if second else f"[%{rs1}]"


def shown_memory(name, rd, rs1, second=0):
    place = shown_place(rs1, second)
    return f"{name} %{rd}, {place}" if name in STORES else f"{name} {place}, %{rd}"


def named(table, code):
    return next((name for name, other in table.items() if other == code), None)


def spelled(word):
    """The instruction of a word, as far as this assembler makes it."""
    rd, rs1 = (named(REGISTERS, word >> place & 31) for place in (25, 14))
    low = word & 0x1FFF
    second = (low - 0x2000 if low >> 12 else low) if word >> 13 & 1 else named(REGISTERS, word & 31)
    kind, code, condition = word >> 30, word >> 19 & 0x3F, CONDITIONS[word >> 25 & 15]
    if word == NOP:
        return "nop"
    if kind == 1:
        return f"call {4 * word & WORD:+#x}"
    if kind == 0 and word >> 22 & 7 == 2:
        far = (word & 0x3FFFFF) - (word << 1 & 1 << 22)
        return f"b{condition}{',a' if word >> 29 & 1 else ''} .{4 * far:+d}"
    if kind == 0 and word >> 22 & 7 == 4:
        return f"sethi {(word << 10 & WORD):#x}, %{rd}"
    if kind == 2 and named(ARITHMETIC, code):
        return f"{named(ARITHMETIC, code)} %{rs1}, {shown_operand(second)}, %{rd}"
    if kind == 2 and code in (0x28, 0x30):
        return f"rd %y, %{rd}" if code == 0x28 else f"wr %{rs1}, {shown_operand(second)}, %y"
    if kind == 2 and code == 0x3A:
        return f"t{condition} {shown_operand(second)}"
    if kind == 3 and named(MEMORY, code):
        return shown_memory(named(MEMORY, code), rd, rs1, second)
    return f"word {word:08x}"


def listed(words_of):
    """Marks a method of a guest: what it writes is one step of the listing, unless another step writes it."""

    def marked(method):
        @wraps(method)
        def done(guest, *arguments, **options):
            if not guest.inside:
                guest.steps.append((guest.here(), words_of(*arguments, **options)))
            guest.inside += 1
            try:
                return method(guest, *arguments, **options)
            finally:
                guest.inside -= 1

        return done

    return marked


class Guest:
    """The words of one image, in order; what names a label is filled in at the end."""

    def __init__(self, base):
        self.base, self.labels = base, {}
        self.content = bytearray()
        self.later = []
        self.steps, self.inside = [], 0

    def here(self):
        return self.base + len(self.content)

    @listed(lambda name: f"{name}:")
    def label(self, name):
        assert name not in self.labels, name
        self.labels[name] = self.here()
        return self

    def address(self, value):
        return self.labels[value] if isinstance(value, str) else value

    @listed(lambda *words: "; ".join(map(spelled, words)))
    def put(self, *words):
        for word in words:
            self.content += (word & WORD).to_bytes(4, "big")
        return self

    def put_later(self, word_of):
        """A word that is made when all labels are known."""
        self.later.append((len(self.content), word_of))
        return self.put(0)

    # Instructions.

    @listed(lambda name, rs1, second, rd: f"{name} %{rs1}, {shown_operand(second)}, %{rd}")
    def op(self, name, rs1, second, rd):
        return self.put(arithmetic(name, rs1, second, rd))

    @listed(shown_memory)
    def mem(self, name, rd, rs1, second=0):
        return self.put(memory(name, rd, rs1, second))

    @listed(lambda rs1, second: f"cmp %{rs1}, {shown_operand(second)}")
    def cmp(self, rs1, second):
        return self.op("subcc", rs1, second, "g0")

    @listed(lambda second, rd: f"mov {shown_operand(second)}, %{rd}")
    def mov(self, second, rd):
        return self.op("or", "g0", second, rd)

    @listed(lambda count=1: f"nop x {count}" if count > 1 else "nop")
    def nop(self, count=1):
        return self.put(*[NOP] * count)

    @listed(lambda value, rd: f"set {shown_operand(value)}, %{rd}")
    def set(self, value, rd):
        """One word for a small number, two for every other and for a label."""
        if isinstance(value, int) and -4096 <= value < 4096:
            return self.mov(value, rd)
        self.put_later(lambda: sethi(self.address(value), rd))
        return self.put_later(lambda: arithmetic("or", rd, self.address(value) & 0x3FF, rd))

    @listed(lambda condition, label, annul=False: f"b{condition}{',a' if annul else ''} <{label}>")
    def branch(self, condition, label, annul=False):
        at = self.here()
        return self.put_later(lambda: branch(condition, self.address(label) - at, annul))

    @listed(lambda: "loop")
    def loop(self):
        """A branch to itself, for ever."""
        return self.put(branch("a", 0), NOP)

    @listed(lambda label: f"call <{label}>")
    def call_to(self, label):
        at = self.here()
        return self.put_later(lambda: call_to(self.address(label) - at))

    @listed(lambda rs1, second, rd="g0": f"jmpl %{rs1} + {shown_operand(second)}, %{rd}")
    def jmpl(self, rs1, second, rd="g0"):
        return self.op("jmpl", rs1, second, rd)

    @listed(lambda size=96: f"save %sp, -{size}, %sp")
    def save(self, size=96):
        return self.op("save", "sp", -size, "sp")

    @listed(lambda: "restore")
    def restore(self):
        return self.op("restore", "g0", "g0", "g0")

    @listed(lambda number, *arguments: f"hypercall {number}({', '.join(map(shown_operand, arguments))})")
    def call(self, number, *arguments):
        """A hypercall: its number in %o0, its arguments in %o1 and up; a register's name gives what it holds."""
        for place, argument in enumerate(arguments):
            rd = f"o{place + 1}"
            if argument in REGISTERS:
                self.mov(argument, rd)
            else:
                self.set(argument, rd)
        return self.set(number, "o0").put(HYPERCALL)

    @listed(lambda rd, label: f"st %{rd}, [{label}]")
    def store(self, rd, label):
        """The register goes to the word at the label, by %g1."""
        return self.set(label, "g1").mem("st", rd, "g1")

    @listed(lambda label, size=4: f"show {label}, {size}")
    def show(self, label, size=4):
        """The bytes at the label go to the console."""
        return self.call(32, label, size)

    @listed(lambda rd="o0": f"show %{rd}")
    def show_register(self, rd="o0"):
        """The register goes to the console as four bytes, by the word at the label `shown`."""
        return self.store(rd, "shown").show("shown")

    # Data.

    @listed(lambda *values: f"data {' '.join(map(shown_operand, values))}")
    def word(self, *values):
        for value in values:
            self.put_later(lambda value=value: self.address(value))
        return self

    @listed(lambda text, zero=False: f"data {text!r}")
    def text(self, text, zero=False):
        self.content += text.encode() + bytes(zero)
        return self

    def space(self, size):
        self.content += bytes(size)
        return self

    def align(self, size=4):
        return self.space(-self.here() % size)

    @listed(lambda address: f"at {address:#x}")
    def at(self, address):
        """What follows stands at the address."""
        return self.space(address - self.here())

    def bytes(self):
        content = bytearray(self.content)
        for place, word_of in self.later:
            content[place : place + 4] = (word_of() & WORD).to_bytes(4, "big")
        return bytes(content)
