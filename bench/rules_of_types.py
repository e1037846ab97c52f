"""Types and module variables, the layout of interface blocks, and the types of operands in function bodies.

SPIR-V 1.6, sections 2.16.1 (universal validation), 2.16.2 (explicit layout), 3.42.6 (types), 3.42.8 to 3.42.18 (instructions).
"""
from listings import NAMES, Inst, Rule


def inst(*operands):
    return Inst(*operands)


START = [inst("Capability", 1), inst("MemoryModel", 0, 1), inst("EntryPoint", 5, 12, "main"), inst("ExecutionMode", 12, 17, 1, 1, 1)]


def main_function(void, function, label):
    return [inst("Function", void, 12, 0, function), inst("Label", label), inst("Return"), inst("FunctionEnd")]


# %7 is a Block of a uint and a runtime array %6, %5 and %8 point to a uint and to it in a buffer, %9 to a uint in Private.
WITH_ONE = START + [
    inst("Decorate", 7, 2),
    inst("MemberDecorate", 7, 0, 35, 0),
    inst("MemberDecorate", 7, 1, 35, 4),
    inst("Decorate", 6, 6, 4),
    inst("Decorate", 11, 34, 0),
    inst("Decorate", 11, 33, 0),
    inst("TypeInt", 1, 32, 0),
    inst("TypeBool", 2),
    inst("TypeVoid", 3),
    inst("TypeVector", 4, 1, 2),
    inst("TypePointer", 5, 12, 1),
    inst("TypeRuntimeArray", 6, 1),
    inst("TypeStruct", 7, 1, 6),
    inst("TypePointer", 8, 12, 7),
    inst("TypePointer", 9, 6, 1),
    inst("Constant", 1, 10, 3),
]

# What one more instruction %11 is: its opcode, its type, its operands.
KEPT = [
    ("TypeInt", 0, [64, 1]),
    ("TypeVector", 0, [2, 4]),
    ("TypeArray", 0, [4, 10]),
    ("TypeRuntimeArray", 0, [1]),
    ("TypeStruct", 0, [1, 4]),
    ("TypeStruct", 0, []),
    ("TypePointer", 0, [6, 1]),
    ("TypePointer", 0, [12, 6]),
    ("Undef", 1, []),
    ("Variable", 8, [12]),
    ("Variable", 9, [6]),
    ("Variable", 9, [6, 10]),
    ("TypeVoid", 0, []),
    ("TypeBool", 0, []),
]
BROKEN = [
    ("TypeInt", 0, [24, 0]),
    ("TypeInt", 0, [8, 2]),
    ("TypeVector", 0, [1, 5]),
    ("TypeVector", 0, [1, 1]),
    ("TypeVector", 0, [4, 2]),
    ("TypeArray", 0, [3, 10]),
    ("TypeArray", 0, [5, 10]),
    ("TypeArray", 0, [6, 10]),
    ("TypeArray", 0, [7, 10]),
    ("TypeRuntimeArray", 0, [6]),
    ("TypeStruct", 0, [1, 6]),
    ("TypeStruct", 0, [6, 1]),
    ("TypeStruct", 0, [7]),
    ("TypeStruct", 0, [5]),
    ("TypePointer", 0, [5, 1]),
    ("TypePointer", 0, [12, 3]),
    ("TypePointer", 0, [12, 5]),
    ("Undef", 3, []),
    ("Undef", 5, []),
    ("Undef", 6, []),
    ("Undef", 7, []),
    ("Variable", 5, [12]),
    ("Variable", 8, [2]),
    ("Variable", 1, [12]),
    ("Variable", 8, [12, 10]),
]
# What an earlier or a later pass tells.
ELSEWHERE = [("Variable", 9, [6, 1], 9), ("Constant", 3, [1], 14)]


def one_more(op, ty, words, code):
    one = inst(op, *([ty] if ty else []), 11, *words)
    what = " ".join(["Op" + op] + (["%%%d" % ty] if ty else []) + [str(word) for word in words])
    insts = WITH_ONE + [one, inst("TypeFunction", 50, 3)] + main_function(3, 50, 51)
    return Rule(what, insts, code and (code, len(WITH_ONE)))


# What a nest of structs begins with: a number, a vector, an array; and how deep this is nested itself.
INNERMOST = [("a number", 1, 1), ("a vector", 2, 2), ("an array", 4, 2)]


def limited(what, more, code):
    """A module with more types, of which the last one breaks the limits or none does."""
    front = START + [inst("TypeInt", 1, 32, 0), inst("TypeVector", 2, 1, 2), inst("Constant", 1, 3, 5), inst("TypeArray", 4, 1, 3)]
    insts = front + more + [inst("TypeVoid", 50), inst("TypeFunction", 51, 50)] + main_function(50, 51, 52)
    return Rule(what, insts, code and (code, len(front) + len(more) - 1))


def rules_of_limits():
    """A number is nested once, another type once more than its deepest part; a pointer doesn't count its target. No type has over 4,194,304 cells."""
    for what, within, nesting in INNERMOST:
        for deep, code in ((32, None), (33, 18)):
            ids = [within] + list(range(100, 100 + deep - nesting))
            yield limited("structs nested %d deep over %s" % (deep, what), [inst("TypeStruct", outer, inner, 1) for inner, outer in zip(ids, ids[1:])], code)
    nest = [inst("TypeStruct", 100 + k, 99 + k if k else 1) for k in range(31)]
    yield limited("a pointer to structs nested 32 deep", nest + [inst("TypePointer", 200, 7, 130)], None)
    yield limited("an array of structs nested 32 deep", nest + [inst("TypeArray", 200, 130, 3)], 18)
    for count, code in ((4_194_304, None), (4_194_305, 18)):
        yield limited("an array of %s numbers" % format(count, ","), [inst("Constant", 1, 100, count), inst("TypeArray", 101, 1, 100)], code)
    for members, code in ((2, None), (3, 18)):
        halves = [inst("Constant", 1, 100, 2_097_152), inst("TypeArray", 101, 1, 100), inst("TypeStruct", 102, *[101] * members)]
        yield limited("a struct of %d arrays of 2,097,152 numbers" % members, halves, code)


def rules_of_types():
    for row in KEPT:
        yield one_more(*row, None)
    for row in BROKEN:
        yield one_more(*row, 12)
    for row in ELSEWHERE:
        yield one_more(*row)
    yield from rules_of_limits()


# Two buffers of one block: a uint and an array of two-component vectors of uint, which have 8 bytes each.
DECORATIONS = [
    ("Decorate", 4, 2),
    ("MemberDecorate", 4, 0, 35, 0),
    ("MemberDecorate", 4, 1, 35, 16),
    ("Decorate", 3, 6, 16),
    ("Decorate", 6, 34, 0),
    ("Decorate", 6, 33, 0),
    ("Decorate", 7, 34, 0),
    ("Decorate", 7, 33, 1),
]
# Which array, which decoration is changed to what, and what is refused: none, the first buffer, the second, or that decoration.
FIRST, SECOND, THERE = "first", "second", "there"
LAYOUTS = [
    ("TypeArray", None, [], None),
    ("TypeArray", 2, [4, 1, 35, 4], None),
    ("TypeArray", 3, [3, 6, 8], None),
    ("TypeArray", 6, [7, 34, 1], None),
    ("TypeArray", 1, [4, 0, 24, 0], FIRST),
    ("TypeArray", 2, [4, 1, 35, 3], FIRST),
    ("TypeArray", 1, [4, 0, 35, 63], FIRST),
    ("TypeArray", 1, [4, 0, 35, 64], None),
    ("TypeArray", 3, [3, 6, 7], FIRST),
    ("TypeArray", 3, [3, 6, 0], FIRST),
    ("TypeArray", 3, [3, 24], FIRST),
    ("TypeArray", 5, [6, 24], FIRST),
    ("TypeArray", 7, [7, 33, 0], SECOND),
    ("TypeArray", 6, [7, 3], THERE),
    ("TypeArray", 6, [70, 3], SECOND),
    ("TypeRuntimeArray", None, [], None),
    ("TypeRuntimeArray", 1, [4, 0, 35, 64], FIRST),
]


def rules_of_layout():
    for array, changed, words, refused in LAYOUTS:
        insts = START + [inst(row[0], *(words if n == changed else row[1:])) for n, row in enumerate(DECORATIONS)]
        insts += [inst("TypeInt", 1, 32, 0), inst("TypeVector", 2, 1, 2), inst("Constant", 1, 9, 3)]
        insts += [inst(array, 3, 2, 9) if array == "TypeArray" else inst(array, 3, 2)]
        insts += [inst("TypeStruct", 4, 1, 3), inst("TypePointer", 5, 12, 4)]
        at = {FIRST: len(insts), SECOND: len(insts) + 1, THERE: len(START) + (changed or 0)}
        insts += [inst("Variable", 5, 6, 12), inst("Variable", 5, 7, 12)]
        insts += [inst("TypeVoid", 50), inst("TypeFunction", 51, 50)] + main_function(50, 51, 52)
        what = "Op%s" % array if changed is None else "Op%s, Op%s %s" % (array, DECORATIONS[changed][0], " ".join(map(str, words)))
        yield Rule(what, insts, refused and (13, at[refused]))


# ---- operands in function bodies

# By name: the opcode, and the operands, in which a name stands for its id. Names of pointers are those of their class and target.
DECLARED = {
    "sets": ("ExtInstImport", "GLSL.std.450"),
    "debug_sets": ("ExtInstImport", "NonSemantic.Shader.DebugInfo.100"),
    "void": ("TypeVoid",),
    "bool": ("TypeBool",),
    "uint": ("TypeInt", 32, 0),
    "int": ("TypeInt", 32, 1),
    "ulong": ("TypeInt", 64, 0),
    "ushort": ("TypeInt", 16, 0),
    "uint2": ("TypeVector", "uint", 2),
    "int2": ("TypeVector", "int", 2),
    "uint4": ("TypeVector", "uint", 4),
    "ulong2": ("TypeVector", "ulong", 2),
    "ushort4": ("TypeVector", "ushort", 4),
    "bool2": ("TypeVector", "bool", 2),
    "bool4": ("TypeVector", "bool", 4),
    "zero": ("Constant", "uint", 0),
    "one": ("Constant", "uint", 1),
    "two": ("Constant", "uint", 2),
    "three": ("Constant", "uint", 3),
    "four": ("Constant", "uint", 4),
    "minus_one": ("Constant", "int", 0xFFFFFFFF),
    "long_one": ("Constant", "ulong", 1, 0),
    "spec_two": ("SpecConstant", "uint", 2),
    "spec_zero": ("SpecConstant", "uint", 0),
    "undefined": ("Undef", "uint"),
    "origin": ("ConstantComposite", "uint2", "zero", "zero"),
    "array3": ("TypeArray", "uint", "three"),
    "other3": ("TypeArray", "uint", "three"),
    "array4": ("TypeArray", "uint", "four"),
    "pair": ("TypeStruct", "uint", "array3"),
    "like_pair": ("TypeStruct", "uint", "other3"),
    "longer_pair": ("TypeStruct", "uint", "array4"),
    "twins": ("TypeStruct", "uint", "uint"),
    "mixed": ("TypeStruct", "uint", "int"),
    "triple": ("TypeStruct", "uint", "uint", "uint"),
    "runtime": ("TypeRuntimeArray", "uint"),
    "block": ("TypeStruct", "uint", "runtime"),
    "local_uint": ("TypePointer", 7, "uint"),
    "local_pair": ("TypePointer", 7, "pair"),
    "local_uint2": ("TypePointer", 7, "uint2"),
    "local_array3": ("TypePointer", 7, "array3"),
    "buffer_block": ("TypePointer", 12, "block"),
    "buffer_uint": ("TypePointer", 12, "uint"),
    "strided_uint": ("TypePointer", 12, "uint"),
    "buffer_runtime": ("TypePointer", 12, "runtime"),
    "shared_uint": ("TypePointer", 4, "uint"),
    "shared_uint2": ("TypePointer", 4, "uint2"),
    "private_uint": ("TypePointer", 6, "uint"),
    "input_uint": ("TypePointer", 1, "uint"),
    "uniform_uint": ("TypePointer", 2, "uint"),
    "push_uint": ("TypePointer", 9, "uint"),
    "action": ("TypeFunction", "void"),
    "taker": ("TypeFunction", "void", "uniform_uint", "push_uint", "local_uint"),
    "summer": ("TypeFunction", "uint", "uint", "bool"),
    "finder": ("TypeFunction", "local_uint"),
    "passer": ("TypeFunction", "buffer_uint", "buffer_uint"),
    "keeper": ("TypeFunction", "private_uint", "private_uint"),
    "=buffer_block": ("Variable", "buffer_block", 12),
    "=shared_uint2": ("Variable", "shared_uint2", 4),
    "=private_uint": ("Variable", "private_uint", 6),
    "=input_uint": ("Variable", "input_uint", 1),
}
DECORATED = {
    "block": [("Decorate", "block", 2), ("MemberDecorate", "block", 0, 35, 0), ("MemberDecorate", "block", 1, 35, 4)],
    "runtime": [("Decorate", "runtime", 6, 4)],
    "strided_uint": [("Decorate", "strided_uint", 6, 16)],
    "=buffer_block": [("Decorate", "=buffer_block", 34, 0), ("Decorate", "=buffer_block", 33, 0)],
    "=input_uint": [("Decorate", "=input_uint", 11, 29)],
}
# The values of the function that is tried: each is that of a type, and `=pair` that of `pair`. The others are OpUndef.
VALUES = {
    "=local_uint": ("Variable", "local_uint", 7),
    "=local_pair": ("Variable", "local_pair", 7),
    "=local_uint2": ("Variable", "local_uint2", 7, "origin"),
    "=local_array3": ("Variable", "local_array3", 7),
    "=void": ("FunctionCall", "void", "main"),
    "=action": ("CopyObject", "action", "=action"),
    "=buffer_uint": ("AccessChain", "buffer_uint", "=buffer_block", "zero"),
    "=strided_uint": ("AccessChain", "strided_uint", "=buffer_block", "zero"),
    "=buffer_runtime": ("InBoundsAccessChain", "buffer_runtime", "=buffer_block", "one"),
    "=shared_uint": ("AccessChain", "shared_uint", "=shared_uint2", "=uint"),
}
PARAMETERS = ("=uniform_uint", "=push_uint", "parameter")
# Functions that are called: their opcodes with their names, types and operands.
CALLED = {
    "callee": [
        ("Function", "uint", "callee", 0, "summer"),
        ("FunctionParameter", "uint", "callee.a"),
        ("FunctionParameter", "bool", "callee.b"),
        ("Label", "callee.1"),
        ("ReturnValue", "callee.a"),
        ("FunctionEnd",),
    ],
    "giver": [("Function", "local_uint", "giver", 0, "finder"), ("Label", "giver.1"), ("Unreachable",), ("FunctionEnd",)],
    "lender": [
        ("Function", "buffer_uint", "lender", 0, "passer"),
        ("FunctionParameter", "buffer_uint", "lender.a"),
        ("Label", "lender.1"),
        ("Unreachable",),
        ("FunctionEnd",),
    ],
}
LAST = ("Branch", "BranchConditional", "Switch", "Return", "ReturnValue", "Unreachable")


def value_of(name):
    return VALUES.get(name, ("Undef", name[1:]))


def has_result(op):
    return op not in ("Store", "CopyMemory", "AtomicStore", "ControlBarrier", "MemoryBarrier") + LAST


class Body:
    """A module around the lines of a body, with what they name and nothing else; names become ids in their order."""

    def __init__(self):
        self.needed, self.ids = {}, {}

    def need(self, name):
        if name in self.needed:
            return
        self.needed[name] = True
        if name in DECLARED:
            row = DECLARED[name]
        elif name in CALLED:
            for line in CALLED[name]:
                self.need_all(line[1:])
            return
        elif name.startswith("=") and name not in PARAMETERS:
            row = value_of(name)
        else:
            return
        if row[0] != "ExtInstImport":
            self.need_all(row[1:])

    def need_all(self, names):
        for name in names:
            if isinstance(name, str):
                self.need(name)

    def id(self, name):
        return self.ids.setdefault(name, len(self.ids) + 1)

    def of(self, row, name=None):
        """The instruction of a row, with a result where it is named."""
        op, operands = row[0], list(row[1:])
        if op in ("ExtInstImport", "EntryPoint"):
            return inst(op, *[self.id(name)] * (op == "ExtInstImport"), *[self.id(o[1:]) if isinstance(o, str) and o[0] == "@" else o for o in operands])
        if name is not None:
            typed = op.startswith("Type") is False and op != "Label"
            operands.insert(1 if typed else 0, name)
        return inst(op, *[self.id(o) if isinstance(o, str) else o for o in operands])

    def module(self, lines, pointers=False):
        """The instructions before the function that is tried, which has these lines, in a module with variable pointers or without."""
        for line in lines:
            self.need_all(line[1:])
        self.need_all(["taker", "action"])
        wanted = [name for name in DECLARED if name in self.needed]
        made = [self.of(("Capability", 1))] + [self.of(("Capability", 4441))] * pointers
        made += [self.of(DECLARED[name], name) for name in wanted if DECLARED[name][0] == "ExtInstImport"]
        made += [self.of(("MemoryModel", 0, 1)), self.of(("EntryPoint", 5, "@main", "main")), self.of(("ExecutionMode", "main", 17, 1, 1, 1))]
        made += [self.of(row) for name in wanted for row in DECORATED.get(name, [])]
        made += [self.of(DECLARED[name], name) for name in wanted if DECLARED[name][0] != "ExtInstImport"]
        made += [self.of(row) for row in (("Function", "void", "main", 0, "action"), ("Label", "main.1"), ("Return",), ("FunctionEnd",))]
        made += [self.of(row) for name in CALLED if name in self.needed for row in CALLED[name]]
        return made

    def tried(self, rows, last):
        """The function that is tried, with its values before these rows; and how many instructions stand before them."""
        made = [self.of(("Function", "void", "tried", 0, "taker"))]
        made += [self.of(("FunctionParameter", ty, name)) for ty, name in zip(DECLARED["taker"][2:], PARAMETERS)]
        made += [self.of(("Label", "first"))]
        values = [name for name in self.needed if name.startswith("=") and name not in DECLARED and name not in PARAMETERS]
        values.sort(key=lambda name: value_of(name)[0] != "Variable")
        locals = [name for name in values if value_of(name)[0] == "Variable"]
        if rows[0][0] == "Variable":
            values = locals
        # a chain comes behind the value of its index
        values = [name for name in values if value_of(name)[0] not in ("AccessChain", "InBoundsAccessChain")] + [
            name for name in values if value_of(name)[0] in ("AccessChain", "InBoundsAccessChain")
        ]
        made += [self.of(value_of(name), name) for name in values]
        return made, [self.of(row) for row in rows] + [self.of(row) for row in last]


OPERANDS = [
    ("IAdd", "uint", ["=uint", "=int"], True),
    ("BitwiseAnd", "ulong", ["=uint", "=uint"], False),
    ("ExtInst", "uint", ["sets", 38, "=uint", "=int"], True),
    ("ExtInst", "uint", ["sets", 43, "=uint", "=uint"], False),
    ("ExtInst", "void", ["debug_sets", 103, "=uint"], True),
    ("ExtInst", "runtime", ["debug_sets", 0], False),
    ("Undef", "pair", [], True),
    ("Undef", "block", [], False),
    ("Variable", "local_uint", [7, "spec_two"], True),
    ("Variable", "local_uint", [7, "undefined"], False),
    ("Variable", "private_uint", [6], False),
    # a variable of an interface has a DescriptorSet and a Binding, which is looked at before bodies
    ("Variable", "buffer_block", [12], 13),
    ("Variable", "uniform_uint", [2], 13),
    ("Load", "uint", ["=input_uint", 2, 4], True),
    ("Load", "block", ["=buffer_block"], False),
    ("Store", None, ["=buffer_uint", "undefined"], True),
    ("Store", None, ["=uniform_uint", "=uint"], False),
    ("Store", None, ["=local_pair", "=like_pair"], False),
    ("CopyMemory", None, ["=local_uint", "=input_uint"], True),
    ("CopyMemory", None, ["=input_uint", "=local_uint"], False),
    ("ArrayLength", "uint", ["=buffer_block", 1], True),
    ("ArrayLength", "uint", ["=buffer_block", 2], False),
    ("AccessChain", "buffer_uint", ["=buffer_block", "one", "=ulong"], True),
    ("AccessChain", "local_uint", ["=local_pair", "long_one", "=uint"], True),
    ("AccessChain", "local_array3", ["=local_pair", "two"], False),
    ("AccessChain", "local_array3", ["=local_pair", "minus_one"], False),
    ("AccessChain", "local_uint", ["=local_pair", "spec_zero"], False),
    ("PtrAccessChain", "buffer_uint", ["=buffer_uint", "zero"], 11),
    ("AtomicLoad", "uint", ["=buffer_uint", "one", "zero"], True),
    ("AtomicLoad", "uint", ["=private_uint", "one", "zero"], False),
    ("AtomicStore", None, ["=shared_uint", "one", "zero", "=int"], False),
    ("AtomicIAdd", "uint", ["=buffer_uint", "one", "zero", "undefined"], True),
    ("AtomicCompareExchange", "uint", ["=shared_uint", "one", "zero", "zero", "=uint", "two"], True),
    ("AtomicCompareExchange", "uint", ["=shared_uint", "one", "zero", "=uint", "=uint", "two"], False),
    ("ControlBarrier", None, ["spec_two", "one", "zero"], True),
    ("ControlBarrier", None, ["one", "one", "zero"], False),
    ("MemoryBarrier", None, ["one", "=uint"], False),
    ("VectorExtractDynamic", "uint", ["=uint2", "=ulong"], True),
    ("VectorInsertDynamic", "uint2", ["=uint2", "=int", "=int"], False),
    ("VectorShuffle", "uint2", ["=uint2", "=uint4", 5, 4294967295], True),
    ("VectorShuffle", "uint2", ["=uint2", "=uint4", 0, 6], False),
    ("CompositeConstruct", "uint4", ["=uint", "=uint2", "one"], True),
    ("CompositeConstruct", "pair", ["=uint", "=other3"], False),
    ("CompositeConstruct", "array3", ["=uint", "=uint"], False),
    ("CompositeExtract", "uint", ["=pair", 1, 2], True),
    ("CompositeExtract", "uint", ["=pair", 1, 3], False),
    ("CompositeExtract", "void", ["=void"], True),
    ("CompositeExtract", "local_uint", ["=local_uint"], False),
    ("CompositeInsert", "pair", ["=uint", "=pair", 1, 0], True),
    ("CompositeInsert", "action", ["=action", "=action"], True),
    ("CompositeInsert", "pair", ["=int", "=pair", 1, 0], False),
    ("CopyObject", "local_uint", ["=local_uint"], True),
    ("CopyLogical", "like_pair", ["=pair"], True),
    ("CopyLogical", "void", ["=void"], True),
    ("CopyLogical", "action", ["=action"], True),
    ("CopyLogical", "longer_pair", ["=pair"], False),
    ("CopyLogical", "local_uint", ["=local_uint"], False),
    ("Select", "void", ["=bool", "=void", "=void"], True),
    ("BranchConditional", None, ["=bool2", "last", "last"], False),
    ("Switch", None, ["=ulong", "last"], True),
    ("Return", None, [], True),
    ("ReturnValue", None, ["=uint"], False),
    ("Constant", "uint", [1], 10),
    ("FunctionCall", "uint", ["callee", "=uint", "=bool"], True),
    ("FunctionCall", "uint", ["callee", "=bool", "=uint"], False),
    ("FunctionCall", "uint", ["callee", "=uint"], False),
    ("FunctionCall", "local_uint", ["giver"], False),
    ("FunctionCall", "buffer_uint", ["lender", "=buffer_uint"], False),
    ("Select", "buffer_uint", ["=bool", "=buffer_uint", "=buffer_uint"], False),
    ("PtrEqual", "bool", ["=buffer_uint", "=buffer_uint"], 11),
    ("PtrNotEqual", "bool", ["=buffer_uint", "=buffer_uint"], 11),
]
# The same in a module that declares VariablePointersStorageBuffer. The stride of a pointer type doesn't count.
AMONG_POINTERS = [
    ("Select", "buffer_uint", ["=bool", "=buffer_uint", "=buffer_uint"], True),
    ("Select", "buffer_runtime", ["=bool", "=buffer_runtime", "=buffer_runtime"], True),
    ("Select", "buffer_uint", ["=bool2", "=buffer_uint", "=buffer_uint"], False),
    ("Select", "buffer_uint", ["=uint", "=buffer_uint", "=buffer_uint"], False),
    ("Select", "buffer_uint", ["=bool", "=buffer_uint", "=strided_uint"], False),
    ("Select", "buffer_uint", ["=bool", "=buffer_runtime", "=buffer_uint"], False),
    ("Select", "private_uint", ["=bool", "=private_uint", "=private_uint"], False),
    ("Select", "uint2", ["=bool2", "=uint2", "=uint2"], True),
    ("Select", "uint2", ["=bool4", "=uint2", "=uint2"], False),
    ("PtrAccessChain", "buffer_uint", ["=buffer_uint", "zero"], True),
    ("PtrAccessChain", "strided_uint", ["=strided_uint", "=ulong"], True),
    ("PtrAccessChain", "buffer_runtime", ["=buffer_block", "minus_one", "one"], True),
    ("PtrAccessChain", "buffer_uint", ["=buffer_block", "one", "one", "=uint"], True),
    ("PtrAccessChain", "buffer_uint", ["=buffer_uint", "=bool"], False),
    ("PtrAccessChain", "buffer_uint", ["=buffer_uint", "=uint2"], False),
    ("PtrAccessChain", "buffer_uint", ["=buffer_runtime", "one"], False),
    ("PtrAccessChain", "buffer_uint", ["=buffer_block", "one", "=uint"], False),
    ("PtrAccessChain", "private_uint", ["=private_uint", "zero"], False),
    ("PtrAccessChain", "private_uint", ["=buffer_uint", "zero"], False),
    ("PtrAccessChain", "uint", ["=uint", "zero"], False),
    ("PtrEqual", "bool", ["=buffer_uint", "=buffer_uint"], True),
    ("PtrNotEqual", "bool", ["=buffer_block", "=buffer_block"], True),
    ("PtrEqual", "bool", ["=buffer_uint", "=buffer_runtime"], False),
    ("PtrEqual", "bool", ["=buffer_uint", "=strided_uint"], False),
    ("PtrEqual", "uint", ["=buffer_uint", "=buffer_uint"], False),
    ("PtrNotEqual", "bool2", ["=buffer_uint", "=buffer_uint"], False),
    ("PtrNotEqual", "bool", ["=private_uint", "=private_uint"], False),
    ("PtrEqual", "bool", ["=uint", "=uint"], False),
    ("FunctionCall", "buffer_uint", ["lender", "=buffer_uint"], True),
    ("FunctionCall", "buffer_uint", ["lender", "=strided_uint"], False),
    ("FunctionCall", "local_uint", ["giver"], False),
    ("CopyObject", "buffer_uint", ["=buffer_uint"], True),
    ("CopyLogical", "buffer_uint", ["=buffer_uint"], False),
    ("CompositeExtract", "buffer_uint", ["=buffer_uint"], False),
    ("Undef", "buffer_uint", [], False),
    ("IEqual", "bool", ["=buffer_uint", "=buffer_uint"], False),
]

# The operation, the type of its result, the types of its operands, and whether they fit.
OPERATIONS = [
    ("UConvert", "ulong", "uint", True),
    ("SConvert", "uint2", "ulong", False),
    ("Bitcast", "ulong", "ushort4", True),
    ("Bitcast", "uint", "ushort4", False),
    ("SNegate", "int", "uint", True),
    ("BitCount", "uint", "ulong", False),
    ("IAdd", "uint2", "uint2 int2", True),
    ("IAdd", "uint", "uint ulong", False),
    ("BitwiseAnd", "bool", "bool bool", False),
    ("IAddCarry", "twins", "uint uint", True),
    ("IAddCarry", "twins", "uint int", False),
    ("SMulExtended", "mixed", "uint uint", False),
    ("UMulExtended", "triple", "uint uint", False),
    ("Any", "bool", "bool2", True),
    ("All", "bool", "bool", False),
    ("LogicalOr", "bool2", "bool2 bool2", True),
    ("LogicalAnd", "uint", "uint uint", False),
    ("LogicalNot", "bool", "bool", True),
    ("LogicalNot", "bool", "bool2", False),
    ("Select", "uint2", "bool2 uint2 uint2", True),
    ("Select", "twins", "bool twins twins", True),
    ("Select", "action", "bool action action", True),
    ("Select", "uint2", "bool4 uint2 uint2", False),
    ("Select", "uint", "bool uint int", False),
    ("Select", "private_uint", "bool private_uint private_uint", False),
    ("ULessThan", "bool2", "uint2 int2", True),
    ("IEqual", "bool", "bool bool", False),
    ("ShiftLeftLogical", "uint2", "int2 ulong2", True),
    ("ShiftRightLogical", "uint", "ulong uint", False),
    ("BitFieldInsert", "uint", "uint int ushort ulong", True),
    ("BitFieldInsert", "uint", "uint uint uint bool", False),
    ("BitFieldSExtract", "uint2", "int2 uint uint", True),
    ("BitFieldUExtract", "uint2", "uint2 uint uint2", False),
]
# Instructions of GLSL.std.450, by number.
GLSL = [
    (5, "int", "uint", True),
    (75, "bool", "bool", False),
    (41, "uint4", "uint4 uint4", True),
    (41, "uint", "uint uint uint", False),
    (45, "int2", "int2 uint2 int2", True),
    (45, "int", "int int", False),
    (43, "int", "int int int", False),
    (4, "int", "int", False),
]


def body_rule(op, ty, operands, fits, pointers=False):
    """A row in a function of its own; it is kept, or broken, or refused with another code."""
    row = (op, *([ty] if ty else []), *(["answer"] if has_result(op) else []), *operands)
    what = " ".join(["Op" + op] + ([ty] if ty else []) + [str(o) for o in operands])
    if op == "Switch" or op == "BranchConditional":
        last = [("Label", "last"), ("Return",)]
    else:
        last = [] if op in LAST else [("Return",)]
    return rule_of_rows(what, [row], last + [("FunctionEnd",)], 0, fits, pointers)


def rule_of_rows(what, rows, last, at, fits, pointers=False):
    body = Body()
    front = body.module(rows, pointers)
    made, tail = body.tried(rows, last)
    code = {True: None, False: 12}.get(fits, fits)
    return Rule(what + AMONG * pointers, front + made + tail, code and (code, len(front) + len(made) + at))


# A phi of two parents, of values of two types.
PHI = [
    ("BranchConditional", "=bool", "left", "right"),
    ("Label", "left"),
    ("Branch", "join"),
    ("Label", "right"),
    ("Branch", "join"),
    ("Label", "join"),
]
# The type of the phi, its pairs, whether they fit, and whether the module declares variable pointers.
PHIS = [
    ("uint", ["=uint", "left", "=uint", "right"], True, False),
    ("uint", ["=uint", "left", "=int", "right"], False, False),
    ("buffer_uint", ["=buffer_uint", "left", "=buffer_uint", "right"], False, False),
    ("buffer_uint", ["=buffer_uint", "left", "=buffer_uint", "right"], True, True),
    ("buffer_uint", ["=buffer_uint", "left", "=strided_uint", "right"], False, True),
    ("local_uint", ["=local_uint", "left", "=local_uint", "right"], False, True),
]
# What a module is called that declares VariablePointersStorageBuffer.
AMONG = ", variable pointers"


def rules_of_bodies():
    for row in OPERANDS:
        yield body_rule(*row)
    for ty, parts, fits, pointers in PHIS:
        rows = PHI + [("Phi", ty, "answer", *parts)]
        yield rule_of_rows("OpPhi " + " ".join(parts), rows, [("Return",), ("FunctionEnd",)], 6, fits, pointers)
    for what, lines, at in FUNCTIONS:
        yield rule_of_function(what, lines, at)
    for row in AMONG_POINTERS:
        yield body_rule(*row, pointers=True)
    for what, lines, at in POINTERS_RETURNED:
        yield rule_of_function(what, lines, at, pointers=True)


def rule_of_function(what, lines, at, pointers=False):
    body = Body()
    front = body.module(lines, pointers)
    return Rule(what + AMONG * pointers, front + [body.of(line) for line in lines], None if at is None else (12, len(front) + at))


def rules_of_operations():
    for op, ty, types, fits in OPERATIONS:
        yield body_rule(op, ty, ["=" + name for name in types.split()], fits)
    for number, ty, types, fits in GLSL:
        yield body_rule("ExtInst", ty, ["sets", number] + ["=" + name for name in types.split()], fits)


SUM = ("Function", "uint", "sum", 0, "summer")
A, B, C = ("FunctionParameter", "uint", "a"), ("FunctionParameter", "bool", "b"), ("FunctionParameter", "bool", "c")
ACT, ACT_TOO = ("Function", "void", "act", 0, "action"), ("Function", "void", "act too", 0, "action")
BLOCK, GIVES, ENDS, END = ("Label", "block of it"), ("ReturnValue", "a"), ("Return",), ("FunctionEnd",)
PASSING = [("Function", "buffer_uint", "pass", 0, "passer"), ("FunctionParameter", "buffer_uint", "a"), BLOCK, GIVES, END]
KEEPING = [("Function", "private_uint", "keep", 0, "keeper"), ("FunctionParameter", "private_uint", "a")]
# What the functions are, their lines, and the number of the first breach.
FUNCTIONS = [
    ("a function with its parameters", [SUM, A, B, BLOCK, GIVES, END], None),
    ("a parameter too few", [SUM, A, BLOCK, GIVES, END], 0),
    ("parameters in another order", [SUM, B, A, BLOCK, GIVES, END], 1),
    ("a parameter too many", [SUM, A, B, C, BLOCK, GIVES, END], 3),
    ("a function of a type that returns nothing", [SUM, A, B, BLOCK, ENDS, END], 4),
    (
        "a parameter too few between two functions",
        [ACT, ("Label", "one of it"), ENDS, END, SUM, A, BLOCK, GIVES, END, ACT_TOO, ("Label", "two of it"), ENDS, END],
        4,
    ),
    ("a function of no type that returns a value", [ACT, BLOCK, ("ReturnValue", "one"), END], 2),
    ("a function that returns a pointer into a buffer", PASSING, 3),
]
# And in a module that declares VariablePointersStorageBuffer.
POINTERS_RETURNED = [
    ("a function that returns a pointer into a buffer", PASSING, None),
    ("a function that returns a pointer of Private", [*KEEPING, BLOCK, GIVES, END], 3),
]

GROUPS = {
    "types": list(rules_of_types()),
    "layouts": list(rules_of_layout()),
    "operations": list(rules_of_operations()),
    "bodies": list(rules_of_bodies()),
}
