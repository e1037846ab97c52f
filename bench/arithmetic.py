"""Modules that compute, and the registers that `debug` has to show for them, worked out here apart from the program (runs.py
writes them).

Each module has one block of instructions of one group over constants: the operands and results of bench/lanes.py, each lane
once as a scalar and, four of one width together, as a vector; composites, whose results stand here; and atomics (bench/atomics.py).
Opcodes are those of SPIR-V 1.6, sections 3.42.11 to 3.42.15 and 3.42.18.
"""
import os
import struct
import atomics as atomic_rows
import lanes

TOP = os.path.join(os.path.dirname(os.path.abspath(__file__)), "..")
FOLDER = os.path.join(TOP, "crates", "test_runs")
UNDEFINED = "<undefined>"
SIGNED = {114, 126, 135, 138, 139, 152, 195, 202}
SIGNED_GLSL = {5, 7, 39, 42, 45, 74}


def shown(width, sign, bits):
    """The text of a scalar of a type."""
    if bits == lanes.UNDEFINED:
        return UNDEFINED
    if width == 1:
        return "true" if bits else "false"
    return str(lanes.signed(width, bits) if sign else bits)


def row(texts):
    return "[" + ", ".join(texts) + "]"


class Module:
    """The words of a module of one function of one block, and the registers that it ends with."""

    def __init__(self, capabilities=(), interface=0):
        self.head, self.types, self.body = [], [], []
        self.known, self.registers, self.events = {}, [], 0
        self.last = 0
        for capability in (1, 11, 22, 39, *capabilities):
            self.put(self.head, 17, capability)
        self.glsl = self.new()
        self.put(self.head, 11, self.glsl, *self.text("GLSL.std.450"))
        self.put(self.head, 14, 0, 1)
        self.main = self.new()
        self.interface = [self.new() for _ in range(interface)]
        self.put(self.head, 15, 5, self.main, *self.text("main"), *self.interface)
        self.put(self.head, 16, self.main, 17, 1, 1, 1)
        self.void = self.declared(19)
        self.function = self.declared(33, self.void)

    @staticmethod
    def text(name):
        data = name.encode() + b"\0"
        data += b"\0" * (-len(data) % 4)
        return struct.unpack("<%dI" % (len(data) // 4), data)

    @staticmethod
    def put(words, op, *operands):
        words += [(1 + len(operands)) << 16 | op, *operands]

    def new(self):
        self.last += 1
        return self.last

    def declared(self, op, *operands):
        """The id of a type or of a constant, each declared once; the result stands first, or behind the constant's type."""
        key = (op, operands)
        if key not in self.known:
            self.known[key] = id = self.new()
            is_constant = op in (1, 41, 42, 43, 44, 46)
            self.put(self.types, op, *((operands[0], id, *operands[1:]) if is_constant else (id, *operands)))
        return self.known[key]

    def scalar(self, width, sign=0):
        return self.declared(20) if width == 1 else self.declared(21, width, sign)

    def vector(self, width, count, sign=0):
        return self.declared(23, self.scalar(width, sign), count)

    def constant(self, width, bits, sign=0):
        ty = self.scalar(width, sign)
        if width == 1:
            return self.declared(41 if bits else 42, ty)
        if width == 64:
            return self.declared(43, ty, bits & 0xFFFFFFFF, bits >> 32)
        number = lanes.signed(width, bits) & 0xFFFFFFFF if sign else bits
        return self.declared(43, ty, number)

    def vector_constant(self, width, numbers, sign=0):
        parts = [self.constant(width, bits, sign) for bits in numbers]
        return self.declared(44, self.vector(width, len(numbers), sign), *parts)

    def give(self, text, op, ty, *operands):
        """An instruction with a result, and the text of this; its id."""
        id = self.new()
        self.put(self.body, op, ty, id, *operands)
        self.registers.append((id, text))
        self.events += 1
        return id

    def do(self, op, *operands):
        """An instruction without a result."""
        self.put(self.body, op, *operands)
        self.events += 1

    def skip(self, op, *operands):
        """An instruction that is passed within an event."""
        self.put(self.body, op, *operands)

    def bytes(self):
        label = self.new()
        words = [0x07230203, 0x00010600, 0, self.last + 1, 0] + self.head + self.types
        self.put(words, 54, self.void, self.main, 0, self.function)
        self.put(words, 248, label)
        words += self.body
        self.end = len(words)
        self.put(words, 253)
        self.put(words, 56)
        return struct.pack("<%dI" % len(words), *words)

    def transcript(self):
        """The replies to `goto`, to the last position before the return, and to `regs`."""
        lines = ["stop: done", "@%d i=0 %%%d word %d" % (self.events, self.main, self.end)]
        lines += ["%%%d = %s" % register for register in self.registers]
        return "".join(line + "\n" for line in lines)

    def commands(self):
        return "goto %d\nregs\n" % self.events


def by_fours(rows, kind):
    """Four rows of one kind at a time, for the lanes of a vector."""
    kinds = {}
    for item in rows:
        kinds.setdefault(kind(item), []).append(item)
    for key, items in kinds.items():
        for start in range(0, len(items) - 1, 4):
            part = items[start : start + 4]
            if len(part) > 1:
                yield key, part


def lane(m, op, operands, width, sign, result):
    ids = [m.constant(*operand) for operand in operands]
    m.give(shown(width, sign, result), op, m.scalar(width, sign), *ids)


def vector(m, op, operands, width, sign, results):
    ids = [m.vector_constant(*operand) for operand in operands]
    m.give(row(shown(width, sign, bits) for bits in results), op, m.vector(width, len(results), sign), *ids)


def unary():
    m, rows = Module(), list(lanes.rows_of_unary())
    for op, width, a, to, result in rows:
        lane(m, op, [(width, a)], to, op in SIGNED, result)
    for (op, width, to), part in by_fours(rows, lambda r: (r[0], r[1], r[3])):
        vector(m, op, [(width, [r[2] for r in part])], to, op in SIGNED, [r[4] for r in part])
    return m


def binary():
    m, rows = Module(), list(lanes.rows_of_binary())
    width_of = lambda op, width: 1 if op in range(164, 180) else width
    for op, width, a, b, result in rows:
        lane(m, op, [(width, a), (width, b)], width_of(op, width), op in SIGNED, result)
    for (op, width), part in by_fours(rows, lambda r: r[:2]):
        vector(m, op, [(width, [r[2] for r in part]), (width, [r[3] for r in part])], width_of(op, width), op in SIGNED, [r[4] for r in part])
    return m


def extended():
    m = Module()
    for op, width, a, b, low, high in lanes.rows_of_extended():
        sign = op in SIGNED
        ty = m.scalar(width, sign)
        ids = [m.constant(width, bits, sign) for bits in (a, b)]
        text = "{0 = %s, 1 = %s}" % (shown(width, sign, low), shown(width, sign, high))
        m.give(text, op, m.declared(30, ty, ty), *ids)
    return m


def glsl():
    m = Module()
    for number, width, a, b, c, result in lanes.rows_of_glsl():
        sign = number in SIGNED_GLSL
        count = 3 if number in (44, 45) else 2 if number in (38, 39, 41, 42) else 1
        ids = [m.constant(width, bits, sign) for bits in (a, b, c)[:count]]
        m.give(shown(width, sign, result), 12, m.scalar(width, sign), m.glsl, number, *ids)
    return m


def fields():
    m = Module()
    for op, width, base, insert, offset, count, result in lanes.rows_of_fields():
        sign = op in SIGNED
        parts = [m.constant(width, base, sign)] + ([m.constant(width, insert, sign)] if op == 201 else [])
        places = [m.constant(32, offset), m.constant(8, count)]
        m.give(shown(width, sign, result), op, m.scalar(width, sign), *parts, *places)
    return m


def selections():
    """Select, Any, All and Bitcast."""
    m = Module()
    bool4, uint4 = m.vector(1, 4), m.vector(32, 4)
    yes, no = m.constant(1, 1), m.constant(1, 0)
    mixed = m.declared(44, bool4, yes, no, no, yes)
    a, b = m.vector_constant(32, [1, 2, 3, 4]), m.vector_constant(32, [5, 6, 7, 8])
    none = m.declared(1, m.scalar(32))
    half = m.declared(44, uint4, none, none, m.constant(32, 3), m.constant(32, 4))
    m.give("[1, 6, 7, 4]", 169, uint4, mixed, a, b)
    m.give("[5, 6, 7, 8]", 169, uint4, no, a, b)
    m.give("[<undefined>, <undefined>, 7, 4]", 169, uint4, mixed, half, b)
    m.give("9", 169, m.scalar(32), yes, m.constant(32, 9), m.constant(32, 8))
    m.give(UNDEFINED, 169, m.scalar(32), m.declared(1, m.scalar(1)), m.constant(32, 9), m.constant(32, 8))
    m.give("true", 154, m.scalar(1), mixed)
    m.give("false", 155, m.scalar(1), mixed)
    wide = m.constant(64, 0x0000000100000002)
    m.give("[2, 1]", 124, m.vector(32, 2), wide)
    m.give("4294967298", 124, m.scalar(64), m.vector_constant(32, [2, 1]))
    m.give("[1, 2, 3, 4]", 124, m.vector(8, 4), m.constant(32, 0x04030201))
    m.give("-1", 124, m.scalar(32, 1), m.constant(32, 0xFFFFFFFF))
    m.give("[<undefined>, <undefined>]", 124, m.vector(16, 2), none)
    return m


def composites():
    m = Module()
    uint, uint2, uint4 = m.scalar(32), m.vector(32, 2), m.vector(32, 4)
    three, five = m.constant(32, 3), m.constant(32, 5)
    v = m.vector_constant(32, [3, 5])
    w = m.vector_constant(32, [7, 9])
    number = {k: m.constant(32, k) for k in (0, 1, 2)}
    pair = m.declared(28, uint2, number[2])
    struct = m.declared(30, uint, pair)
    m.give("[6, 10]", 128, uint2, v, v)
    shuffled = m.give("[5, <undefined>]", 79, uint2, v, v, 1, 0xFFFFFFFF)
    m.give(UNDEFINED, 81, uint, shuffled, 1)
    m.give("[9, 3, 7, 5]", 79, uint4, v, w, 3, 0, 2, 1)
    m.give(UNDEFINED, 77, uint, v, number[2])
    m.give("5", 77, uint, v, number[1])
    m.give("[8, 5]", 78, uint2, v, m.constant(32, 8), number[0])
    m.give("[<undefined>, <undefined>]", 78, uint2, v, m.constant(32, 8), number[2])
    m.skip(0)
    m.give("{0 = 0, 1 = 1}", 149, m.declared(30, uint, uint), m.constant(32, 0xFFFFFFFF), number[1])
    array = m.give("[[3, 5], [7, 9]]", 80, pair, v, w)
    whole = m.give("{0 = 3, 1 = [[3, 5], [7, 9]]}", 80, struct, three, array)
    m.give("[5, 3, 5, 3]", 80, uint4, five, v, three)
    m.give("9", 81, uint, whole, 1, 1, 1)
    m.give("[7, 9]", 81, uint2, whole, 1, 1)
    m.give("{0 = 3, 1 = [[3, 5], [7, 5]]}", 82, struct, five, whole, 1, 1, 1)
    m.give("[7, 5]", 82, uint2, m.constant(32, 7), v, 0)
    m.give("{0 = 3, 1 = [[3, 5], [7, 9]]}", 83, struct, whole)
    twin = m.new()
    m.put(m.types, 30, twin, uint, pair)
    m.give("{0 = 3, 1 = [[3, 5], [7, 9]]}", 400, twin, whole)
    m.give("{0 = <undefined>, 1 = [[<undefined>, <undefined>], [<undefined>, <undefined>]]}", 1, struct)
    return m


def atomics():
    """Atomics with defined and undefined values in memory and operands, and a barrier of memory."""
    return atomic_rows.module(Module((12,), len(atomic_rows.WIDTHS)), shown)


def written():
    """Writes the modules and their commands, and gives what is due for them."""
    groups = [unary, binary, extended, glsl, fields, selections, composites, atomics]
    os.makedirs(os.path.join(FOLDER, "data"), exist_ok=True)
    out = ""
    for group in groups:
        made = group()
        name = group.__name__
        for suffix, data in ((".spv", made.bytes()), (".commands", made.commands().encode())):
            with open(os.path.join(FOLDER, "data", name + suffix), "wb") as file:
                file.write(data)
        out += name + "\n" + made.transcript() + "status 0\n"
    with open(os.path.join(FOLDER, "data", "setup"), "w") as file:
        file.write("spvdbg-setup 1\nrounds 4194304\n")
    return out
