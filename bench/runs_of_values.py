"""Constants with the numbers of a setup, what variables begin with, the texts of values, and where blocks have their bytes.

Each module copies constants or loads variables, and `regs` shows them. The values are worked out by hand, and the places of
bytes by the layouts std140, std430 and scalar of GLSL: each word of those buffers holds its own place.
"""
import struct
from listings import Inst, module_bytes

DONE, SETUP = 0, 4
UNDEFINED = "<undefined>"


class Shown:
    """A module of one block that copies or loads ids; the text of each register is given with it."""

    def __init__(self):
        self.decorations, self.lines, self.body, self.registers = [], [], [], []
        self.last = 3

    def new(self):
        self.last += 1
        return self.last

    def declare(self, name, *operands):
        """A type."""
        id = self.new()
        self.lines.append(Inst(name, id, *operands))
        return id

    def typed(self, name, ty, *operands):
        """A constant or a variable."""
        id = self.new()
        self.lines.append(Inst(name, ty, id, *operands))
        return id

    def decorate(self, *operands):
        self.decorations.append(Inst("Decorate", *operands))

    def member(self, *operands):
        self.decorations.append(Inst("MemberDecorate", *operands))

    def show(self, ty, id, text, name="CopyObject"):
        self.body.append(Inst(name, ty, self.new(), id))
        self.registers.append((self.last, text))

    def insts(self):
        front = [Inst("Capability", 1), Inst("MemoryModel", 0, 1), Inst("EntryPoint", 5, 1, "main"), Inst("ExecutionMode", 1, 17, 1, 1, 1)]
        types = [Inst("TypeVoid", 2), Inst("TypeFunction", 3, 2)]
        function = [Inst("Function", 2, 1, 0, 3), Inst("Label", self.last + 1)]
        return front + self.decorations + types + self.lines + function + self.body + [Inst("Return"), Inst("FunctionEnd")]

    def bytes(self):
        return module_bytes(self.insts(), self.last + 2)

    def commands(self):
        return "goto %d\nregs\n" % len(self.body)

    def transcript(self, texts=()):
        """The replies, with other texts for the registers whose texts are names in these."""
        end = len(self.bytes()) // 4 - 2
        out = "stop: done\n@%d i=0 %%1 word %d\n" % (len(self.body), end)
        texts = dict(texts)
        return out + "".join("%%%d = %s\n" % (id, texts.get(text, text)) for id, text in self.registers)


def constants():
    """SpecId 5 stands on a uint and on an int of 16 bits, and 6 on a Boolean. The texts of these are their names."""
    m = Shown()
    uint, short = m.declare("TypeInt", 32, 0), m.declare("TypeInt", 16, 1)
    ulong, bool, int = m.declare("TypeInt", 64, 0), m.declare("TypeBool"), m.declare("TypeInt", 32, 1)
    uint2 = m.declare("TypeVector", uint, 2)
    pair, bool2 = m.declare("TypeStruct", uint, uint2), m.declare("TypeVector", bool, 2)
    seven, three = m.typed("Constant", uint, 7), m.typed("Constant", uint, 3)
    negative = m.typed("Constant", short, 0xFFFFFFFE)
    none, yes = m.typed("Undef", uint), m.typed("ConstantTrue", bool)
    least = m.typed("Constant", int, 0xFFFFFFFF)
    both = m.typed("ConstantComposite", uint2, seven, three)
    zeros, no = m.typed("ConstantNull", uint2), m.typed("ConstantFalse", bool)
    mixed = m.typed("ConstantComposite", bool2, yes, no)
    operation = lambda ty, op, *ids: m.typed("SpecConstantOp", ty, op, *ids)
    m.show(ulong, m.typed("Constant", ulong, 2, 1), "4294967298")
    m.show(short, negative, "-2")
    m.show(short, operation(short, 130, negative, negative), "0")
    m.show(int, operation(int, 114, negative), "-2")
    m.show(uint, operation(uint, 113, negative), "65534")
    m.show(uint, operation(uint, 196, seven, least), UNDEFINED)
    m.show(uint2, operation(uint2, 128, both, both), "[14, 6]")
    m.show(uint2, operation(uint2, 169, yes, both, zeros), "[7, 3]")
    m.show(uint2, operation(uint2, 169, mixed, both, zeros), "[7, 0]")
    m.show(pair, m.typed("SpecConstantComposite", pair, seven, both), "{0 = 7, 1 = [7, 3]}")
    m.show(uint2, m.typed("ConstantComposite", uint2, seven, none), "[7, %s]" % UNDEFINED)
    m.show(pair, m.typed("ConstantNull", pair), "{0 = 0, 1 = [0, 0]}")
    m.show(uint, m.typed("SpecConstant", uint, 9), "nine")
    m.decorate(m.last - 1, 1, 5)
    m.show(short, m.typed("SpecConstant", short, 4), "four")
    m.decorate(m.last - 1, 1, 5)
    m.show(bool, m.typed("SpecConstantTrue", bool), "yes")
    m.decorate(m.last - 1, 1, 6)
    return m


# Lines of the setup, and the texts of the three specialization constants.
OVERRIDES = [
    ("", "9", "4", "true"),
    ("spec 5 0\n", "0", "0", "true"),
    ("spec 5 -1\n", "4294967295", "-1", "true"),
    ("spec 5 65535\n", "65535", "-1", "true"),
    ("spec 6 0\n", "9", "4", "false"),
    ("spec 5 3\nspec 6 1\n", "3", "3", "true"),
]


def lengths():
    """An array of as many uints as the constant of SpecId 5 says."""
    m = Shown()
    uint = m.declare("TypeInt", 32, 0)
    length = m.typed("SpecConstant", uint, 4)
    m.decorate(length, 1, 5)
    array = m.declare("TypeArray", uint, length)
    m.show(array, m.typed("ConstantNull", array), "array")
    return m


def texts():
    """Values of each kind of type, with undefined parts, and more than 256 leaves."""
    m = Shown()
    types = {(width, sign): m.declare("TypeInt", width, sign) for width in (32, 8, 64) for sign in (0, 1)}
    bool = m.declare("TypeBool")
    uint, int = types[32, 0], types[32, 1]
    int2 = m.declare("TypeVector", int, 2)
    empty = m.declare("TypeStruct")
    mixed = m.declare("TypeStruct", int2, empty, bool)
    count = {n: m.typed("Constant", uint, n) for n in (1, 2, 3, 200, 257)}
    twice, many = m.declare("TypeArray", mixed, count[2]), m.declare("TypeArray", uint, count[200])
    rows, empties = m.declare("TypeArray", many, count[3]), m.declare("TypeArray", empty, count[257])

    def number(width, sign, value):
        bits = value % 2**width
        low = value % 2**32 if width < 32 and sign else bits % 2**32
        return m.typed("Constant", types[width, sign], *([low, bits >> 32] if width == 64 else [low]))

    for width, sign, value in (
        (32, 0, 0),
        (32, 0, 4294967295),
        (32, 1, 2147483647),
        (32, 1, -2147483648),
        (32, 1, -1),
        (8, 0, 128),
        (8, 1, -128),
        (64, 0, 18446744073709551615),
        (64, 1, -9223372036854775808),
    ):
        m.show(types[width, sign], number(width, sign, value), str(value))
    none, nothing = m.typed("Undef", int), m.typed("Undef", bool)
    yes, no = m.typed("ConstantTrue", bool), m.typed("ConstantFalse", bool)
    m.show(int, none, UNDEFINED)
    m.show(bool, yes, "true")
    m.show(bool, no, "false")
    m.show(bool, nothing, UNDEFINED)
    pair = lambda a, b: m.typed("ConstantComposite", int2, a, b)
    a = {n: number(32, 1, n) for n in (1, 2, 3, 5, 6, -10)}
    m.show(int2, pair(a[6], a[-10]), "[6, -10]")
    m.show(int2, pair(a[5], none), "[5, %s]" % UNDEFINED)
    void = m.typed("ConstantNull", empty)
    m.show(empty, void, "{}")
    first = m.typed("ConstantComposite", mixed, pair(a[1], a[2]), void, yes)
    second = m.typed("ConstantComposite", mixed, pair(a[3], none), void, no)
    both = m.typed("ConstantComposite", twice, first, second)
    m.show(twice, both, "[{0 = [1, 2], 1 = {}, 2 = true}, {0 = [3, %s], 1 = {}, 2 = false}]" % UNDEFINED)
    ones = m.typed("ConstantComposite", many, *[count[1]] * 200)
    whole = m.typed("ConstantComposite", rows, ones, ones, ones)
    # two of three arrays of 200 words: the second stops behind its 56th
    m.show(rows, whole, "[[%s], [%s, ...], ...]" % (", ".join(["1"] * 200), ", ".join(["1"] * 56)))
    m.show(empties, m.typed("ConstantNull", empties), "[%s, ...]" % ", ".join(["{}"] * 256))
    return m


# A workgroup, and bytes with one more than the buffer has; and zeros. Then the texts of what the variables begin with.
BYTES = (
    "spvdbg-setup 1\ngroup 1 0 2 of 2 1 3\nbuffer 1 3 hex 77777777\nbuffer 3 1 hex 01000000 0a000000 0b000000 ff\n"
    "push hex 0100000002010000\nrounds 99\n"
)
ZEROS = "spvdbg-setup 1\nbuffer 3 1 zero 12\npush hex ffffffffffffffff\nrounds 99\n"
BEGINNINGS = [
    (BYTES, {"buffer": "{0 = 1, 1 = [10, 11]}", "push": "{0 = 1, 1 = 258}", "group": "[1, 0, 2]"}),
    (ZEROS, {"buffer": "{0 = 0, 1 = [0, 0]}", "push": "{0 = 4294967295, 1 = 4294967295}", "group": "[0, 0, 0]"}),
]


def starts():
    """A variable of each storage class."""
    m = Shown()
    uint = m.declare("TypeInt", 32, 0)
    uint3 = m.declare("TypeVector", uint, 3)
    number = {n: m.typed("Constant", uint, n) for n in (2, 7, 8, 9)}
    array = m.declare("TypeArray", uint, number[2])
    m.decorate(array, 6, 4)
    block, push = m.declare("TypeStruct", uint, array), m.declare("TypeStruct", uint, uint)
    for ty in (block, push):
        m.decorate(ty, 2)
        m.member(ty, 0, 35, 0)
        m.member(ty, 1, 35, 4)

    def variable(kind, ty, text, *initializer, decorations=()):
        id = m.typed("Variable", m.declare("TypePointer", kind, ty), kind, *initializer)
        for decoration in decorations:
            m.decorate(id, *decoration)
        m.show(ty, id, text, "Load")

    variable(12, block, "buffer", decorations=((34, 3), (33, 1)))
    variable(9, push, "push")
    variable(4, uint, UNDEFINED)
    variable(6, uint3, "[7, 8, 9]", m.typed("ConstantComposite", uint3, number[7], number[8], number[9]))
    variable(6, uint, UNDEFINED)
    variable(1, uint3, "group", decorations=((11, 26),))
    variable(1, uint3, "[0, 0, 0]", decorations=((11, 27),))
    variable(1, uint3, "group", decorations=((11, 28),))
    variable(1, uint, "0", decorations=((11, 29),))
    return m


# Of the blocks
#     struct S { uint a; uvec3 b; uvec2 c[3]; };
#     layout(set = 0, binding = 0, std140) uniform U { uint x; S s[2]; uvec2 t; } u;
#     layout(set = 0, binding = 1, std430) buffer B { uint x; S s[2]; uvec2 t; } b;
#     layout(set = 0, binding = 2, scalar) buffer C { uint x; S s[2]; uvec2 t; } c;
# by the layout: the class, the places of s, t, b and c, and the strides of s and c, as `glslangValidator -H` lists them.
LAYOUTS = [("std140", 2, 16, 176, 16, 32, 80, 16), ("std430", 12, 16, 144, 16, 32, 64, 8), ("scalar", 12, 4, 84, 4, 16, 40, 8)]


def placed(s, t, b, c, stride, step):
    """The text of a block whose words are their places."""
    vector = lambda at, count: "[%s]" % ", ".join(str(at + 4 * n) for n in range(count))
    of = lambda at: "{0 = %d, 1 = %s, 2 = [%s]}" % (at, vector(at + b, 3), ", ".join(vector(at + c + step * n, 2) for n in range(3)))
    return "{0 = 0, 1 = [%s, %s], 2 = %s}" % (of(s), of(s + stride), vector(t, 2))


def layouts():
    m = Shown()
    uint = m.declare("TypeInt", 32, 0)
    uint2, uint3 = m.declare("TypeVector", uint, 2), m.declare("TypeVector", uint, 3)
    two, three = m.typed("Constant", uint, 2), m.typed("Constant", uint, 3)
    for binding, (_, kind, *places) in enumerate(LAYOUTS):
        s, t, b, c, stride, step = places
        pairs = m.declare("TypeArray", uint2, three)
        inner = m.declare("TypeStruct", uint, uint3, pairs)
        inners = m.declare("TypeArray", inner, two)
        block = m.declare("TypeStruct", uint, inners, uint2)
        m.decorate(pairs, 6, step)
        m.decorate(inners, 6, stride)
        for ty, offsets in ((inner, (0, b, c)), (block, (0, s, t))):
            for n, offset in enumerate(offsets):
                m.member(ty, n, 35, offset)
        m.decorate(block, 2)
        id = m.typed("Variable", m.declare("TypePointer", kind, block), kind)
        m.decorate(id, 34, 0)
        m.decorate(id, 33, binding)
        m.show(block, id, placed(*places), "Load")
    return m


PLACES = struct.pack("<48I", *range(0, 192, 4)).hex()
BUFFERS = "spvdbg-setup 1\nrounds 99\n" + "".join("buffer 0 %d hex %s\n" % (n, PLACES) for n in range(3))


def calls():
    m = constants()
    for lines, nine, four, yes in OVERRIDES:
        written = m.transcript({"nine": nine, "four": four, "yes": yes})
        yield "constants", "constants.spv", "spvdbg-setup 1\nrounds 99\n" + lines, m.commands(), DONE, written
    misfit = "spvdbg-setup 1\nrounds 99\nspec 5 65536\n"
    yield "constants", "constants.spv", misfit, m.commands(), SETUP, "setup refused: S8 at line 3\n"
    m = lengths()
    for lines, count in (("", 4), ("spec 5 6\n", 6)):
        written = m.transcript({"array": "[%s]" % ", ".join(["0"] * count)})
        yield "lengths", "lengths.spv", "spvdbg-setup 1\nrounds 99\n" + lines, m.commands(), DONE, written
    m = texts()
    yield "texts", "texts.spv", "spvdbg-setup 1\nrounds 99\n", m.commands(), DONE, m.transcript()
    m = starts()
    for setup, shown in BEGINNINGS:
        yield "starts", "starts.spv", setup, m.commands(), DONE, m.transcript(shown)
    m = layouts()
    yield "layouts", "layouts.spv", BUFFERS, m.commands(), DONE, m.transcript()


def modules():
    for made in (constants, lengths, texts, starts, layouts):
        yield made.__name__ + ".spv", made().bytes()
