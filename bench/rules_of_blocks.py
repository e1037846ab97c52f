"""Functions and their blocks, branches, switches, phis and calls, and the entry point.

SPIR-V 1.6, sections 2.4 (logical layout), 2.11 (structured control flow is not looked at), 2.16.1 and 2.17 (limits).
"""
from listings import Inst, Rule, changed


def inst(*operands):
    return Inst(*operands)


FRONT = [
    inst("Capability", 1),
    inst("MemoryModel", 0, 1),
    inst("EntryPoint", 5, 30, "main"),
    inst("ExecutionMode", 30, 17, 1, 1, 1),
    inst("TypeVoid", 1),
    inst("TypeFunction", 2, 1),
    inst("TypeInt", 3, 32, 0),
    inst("Constant", 3, 4, 0),
    inst("TypeBool", 5),
    inst("TypeFunction", 6, 1, 3),
    inst("TypePointer", 7, 7, 3),
    inst("TypePointer", 8, 6, 3),
    inst("ConstantTrue", 5, 9),
]
MAIN = [inst("Function", 1, 30, 0, 2), inst("Label", 31), inst("Return"), inst("FunctionEnd")]

FUNCTION = inst("Function", 1, 10, 0, 2)
TAKES_ONE = inst("Function", 1, 10, 0, 6)
OTHER = inst("Function", 1, 11, 0, 2)
PARAMETER = inst("FunctionParameter", 3, 12)
END = inst("FunctionEnd")
FIRST, SECOND, ELSEWHERE = inst("Label", 20), inst("Label", 21), inst("Label", 22)
NOP, RETURN = inst("Nop"), inst("Return")
SUM = inst("IAdd", 3, 18, 4, 4)
TO_FIRST, TO_SECOND = inst("Branch", 20), inst("Branch", 21)
TO_SECOND_TWICE = inst("BranchConditional", 9, 21, 21)
VARIABLE, ANOTHER = inst("Variable", 7, 13, 7), inst("Variable", 7, 19, 7)
PRIVATE = inst("Variable", 8, 13, 6)
CALLS_FUNCTION, CALLS_OTHER, CALLS_OTHER_TOO = (inst("FunctionCall", 1, id, to) for id, to in ((14, 10), (15, 11), (16, 11)))

# What the functions are, the instructions, and what is due: the code, and the number of the instruction.
ORDER = [
    ("a function of one block", [FUNCTION, FIRST, RETURN, END], None),
    ("a function without its end", [FUNCTION, FIRST, RETURN], (15, 0)),
    ("a function without a block", [FUNCTION, END], (15, 0)),
    ("a block without a terminator, at the end", [FUNCTION, FIRST, END], (15, 1)),
    ("a block without a terminator, before a block", [FUNCTION, FIRST, NOP, SECOND, RETURN, END], (15, 1)),
    ("a function before the end of one", [FUNCTION, FIRST, RETURN, OTHER, ELSEWHERE, RETURN, END], (15, 0)),
    ("a parameter", [TAKES_ONE, PARAMETER, FIRST, RETURN, END], None),
    ("a parameter in a block", [FUNCTION, FIRST, PARAMETER, RETURN, END], (15, 2)),
    ("a sum before the first block", [FUNCTION, SUM, FIRST, RETURN, END], (15, 1)),
    ("a sum behind a terminator", [FUNCTION, FIRST, RETURN, SUM, END], (15, 3)),
    ("two variables", [FUNCTION, FIRST, VARIABLE, ANOTHER, RETURN, END], None),
    ("a variable behind OpNop", [FUNCTION, FIRST, NOP, VARIABLE, RETURN, END], (15, 3)),
    ("a variable in the second block", [FUNCTION, FIRST, TO_SECOND, SECOND, VARIABLE, RETURN, END], (15, 4)),
    ("a Private variable in a block, told by the rules of types", [FUNCTION, FIRST, TO_SECOND, SECOND, PRIVATE, RETURN, END], (12, 4)),
]


def phi(*pairs):
    return inst("Phi", 3, 16, *pairs)


BRANCHES = [
    ("a branch", [FUNCTION, FIRST, TO_SECOND, SECOND, RETURN, END], None),
    ("a branch to the first block", [FUNCTION, FIRST, TO_FIRST, END], (15, 2)),
    ("a branch into another function, told by the rules of ids", [FUNCTION, FIRST, TO_SECOND, END, OTHER, SECOND, RETURN, END], (9, 2)),
    ("a phi of its parent", [FUNCTION, FIRST, TO_SECOND, SECOND, phi(4, 20), RETURN, END], None),
    ("a phi of a parent that branches twice", [FUNCTION, FIRST, TO_SECOND_TWICE, SECOND, phi(4, 20), RETURN, END], None),
    ("a phi with a pair too few", [FUNCTION, FIRST, TO_SECOND, SECOND, phi(), RETURN, END], (15, 4)),
    ("a phi with a pair twice", [FUNCTION, FIRST, TO_SECOND, SECOND, phi(4, 20, 4, 20), RETURN, END], (15, 4)),
    ("a phi of another block", [FUNCTION, FIRST, TO_SECOND, SECOND, phi(4, 21), RETURN, END], (15, 4)),
    ("a phi behind OpNop", [FUNCTION, FIRST, TO_SECOND, SECOND, NOP, phi(4, 20), RETURN, END], (15, 5)),
    ("a phi without pairs in the first block", [FUNCTION, FIRST, phi(), RETURN, END], None),
]

# Literals are compared in the width of the selector: selectors of 8 and of 64 bits.
INT_8 = [inst("TypeInt", 40, 8, 0), inst("Constant", 40, 41, 0)]
INT_64 = [inst("TypeInt", 40, 64, 0), inst("Constant", 40, 41, 0, 0)]
SWITCHES = [
    ("a switch of 8 bits", INT_8, [21, 7, 21, 8, 21], None),
    ("a literal of 8 bits twice", INT_8, [21, 7, 21, 7, 21], (15, 2)),
    ("literals that agree in 8 bits", INT_8, [21, 255, 21, 0xFFFFFFFF, 21], (15, 2)),
    ("a literal of 8 bits without a label", INT_8, [21, 7], (15, 2)),
    ("a switch of 64 bits", INT_64, [21, 7, 0, 21, 7, 1, 21], None),
    ("a literal of 64 bits twice", INT_64, [21, 7, 0, 21, 7, 0, 21], (15, 2)),
    ("half a literal of 64 bits", INT_64, [21, 7, 21], (15, 2)),
]

CALLS = [
    ("a call of another function", [FUNCTION, FIRST, CALLS_OTHER, RETURN, END, OTHER, SECOND, RETURN, END], None),
    ("functions that call each other", [FUNCTION, FIRST, CALLS_OTHER, RETURN, END, OTHER, SECOND, CALLS_FUNCTION, RETURN, END], (16, 0)),
    ("a function that calls itself", [FUNCTION, FIRST, RETURN, END, OTHER, SECOND, CALLS_OTHER, RETURN, END], (16, 4)),
    ("a function that calls one that calls itself", [FUNCTION, FIRST, CALLS_OTHER, RETURN, END, OTHER, SECOND, CALLS_OTHER_TOO, RETURN, END], (16, 0)),
]


# A variable of a class whose variables point to blocks, in a function: what is decorated, the types that it needs, and the variable. The rules of
# layout look at the block that it points to, if it does, and at its set and binding; then those of functions and of bodies.
SET, BINDING = inst("Decorate", 13, 34, 0), inst("Decorate", 13, 33, 0)
BLOCK, OFFSET = inst("Decorate", 40, 2), inst("MemberDecorate", 40, 0, 35, 0)
STRUCT, TO_STRUCT = inst("TypeStruct", 40, 3), inst("TypePointer", 41, 12, 40)
UNIFORM, PUSHED, BUFFER = ([inst("Variable", 41, 13, class_)] for class_ in (2, 9, 12))
TO_UNIFORM, TO_PUSHED = [inst("TypePointer", 41, 2, 3)], [inst("TypePointer", 41, 9, 3)]
VARIABLES = [
    ("a Uniform to no block, with set and binding", [SET, BINDING], TO_UNIFORM, UNIFORM, (12, 2)),
    ("a Uniform to no block without a binding", [SET], TO_UNIFORM, UNIFORM, (13, 2)),
    ("a Uniform to no block without a set", [BINDING], TO_UNIFORM, UNIFORM, (13, 2)),
    ("a PushConstant to no block", [], TO_PUSHED, PUSHED, (12, 2)),
    ("a StorageBuffer to a struct that is no block", [SET, BINDING], [STRUCT, TO_STRUCT], BUFFER, (12, 2)),
    ("a StorageBuffer to a block without an offset", [BLOCK, SET, BINDING], [STRUCT, TO_STRUCT], BUFFER, (13, 2)),
    ("a StorageBuffer to a block", [BLOCK, OFFSET, SET, BINDING], [STRUCT, TO_STRUCT], BUFFER, (12, 2)),
    ("a Uniform to no block before a variable", [SET, BINDING], TO_UNIFORM, UNIFORM + [ANOTHER], (15, 3)),
]


def behind(front, body, due):
    """The functions behind the front of a module; what is due is counted from the first of them on."""
    return front + MAIN + body, due and (due[0], due[1] + len(front) + len(MAIN))


def chains(count, group):
    """So many functions, each of which calls the next, but for the last of each group."""
    body = []
    for k in range(count):
        body += [inst("Function", 1, 100 + 3 * k, 0, 2), inst("Label", 101 + 3 * k)]
        if (k + 1) % group:
            body.append(inst("FunctionCall", 1, 102 + 3 * k, 103 + 3 * k))
        body += [RETURN, END]
    return body


def rules_of_blocks():
    for what, body, due in ORDER + BRANCHES + CALLS:
        yield Rule(what, *behind(FRONT, body, due))
    for what, types, words, due in SWITCHES:
        yield Rule(what, *behind(FRONT + types, [FUNCTION, FIRST, inst("Switch", 41, *words), SECOND, RETURN, END], due))
    for what, decorations, types, variables, due in VARIABLES:
        front = FRONT[:4] + decorations + FRONT[4:] + types
        yield Rule(what + ", in a function", *behind(front, [FUNCTION, FIRST, *variables, RETURN, END], due))
    for count, group, due in ((64, 64, None), (65, 65, (16, 0)), (130, 65, (16, 0)), (256, 64, None)):
        yield Rule("%d functions in chains of %d" % (count, group), *behind(FRONT, chains(count, group), due))


# %1 is the entry point, and calls %20.
MODULE = [
    inst("Capability", 1),
    inst("MemoryModel", 0, 1),
    inst("EntryPoint", 5, 1, "main"),
    inst("ExecutionMode", 1, 17, 2, 3, 4),
    inst("TypeVoid", 2),
    inst("TypeFunction", 3, 2),
    inst("TypeInt", 4, 32, 0),
    inst("TypeVector", 5, 4, 3),
    inst("TypeFunction", 6, 4, 4),
    inst("TypePointer", 7, 7, 5),
    inst("Constant", 4, 8, 8),
    inst("Constant", 4, 9, 0),
    inst("ConstantComposite", 5, 13, 8, 8, 8),
    inst("Function", 2, 1, 0, 3),
    inst("Label", 10),
    inst("Variable", 7, 11, 7),
    inst("FunctionCall", 4, 12, 20, 8),
    inst("Return"),
    inst("FunctionEnd"),
    inst("Function", 4, 20, 0, 6),
    inst("FunctionParameter", 4, 21),
    inst("Label", 22),
    inst("IAdd", 4, 23, 21, 21),
    inst("ReturnValue", 23),
    inst("FunctionEnd"),
]


def put(at, *operands):
    return "put", at, inst(*operands)


def set(at, *operands):
    return "set", at, inst(*operands)


NO_ENTRY = (17, None)
ENTRIES = [
    ("nothing", [], None),
    ("a vertex shader before it", [put(2, "EntryPoint", 0, 1, "main")], NO_ENTRY),
    ("a function with a parameter", [set(2, "EntryPoint", 5, 20, "main")], NO_ENTRY),
    ("a second size", [put(4, "ExecutionMode", 1, 17, 1, 1, 1)], None),
    ("another mode", [set(3, "ExecutionMode", 1, 18, 2, 3, 4)], NO_ENTRY),
    ("a component 0", [set(3, "ExecutionMode", 1, 17, 2, 0, 4)], NO_ENTRY),
    ("1,024 invocations", [set(3, "ExecutionMode", 1, 17, 1024, 1, 1)], None),
    ("1,025 invocations", [set(3, "ExecutionMode", 1, 17, 1025, 1, 1)], NO_ENTRY),
    ("a product over 2^32", [set(3, "ExecutionMode", 1, 17, 65536, 65536, 1)], NO_ENTRY),
    ("a size by ids", [put(4, "ExecutionModeId", 1, 38, 8, 8, 8)], None),
    ("a size by ids with a component 0", [put(4, "ExecutionModeId", 1, 38, 8, 9, 8)], NO_ENTRY),
    (
        "a constant decorated WorkgroupSize, and a size by ids",
        [put(4, "ExecutionModeId", 1, 38, 8, 9, 8), put(4, "Decorate", 13, 11, 25)],
        None,
    ),
    ("a scalar decorated WorkgroupSize", [put(4, "Decorate", 8, 11, 25)], NO_ENTRY),
    (
        "a breach of an earlier pass at a later word",
        [set(3, "ExecutionMode", 1, 17, 2, 0, 4), set(22, "IAdd", 5, 23, 21, 21)],
        (12, 22),
    ),
    ("breaches of two passes", [set(22, "IAdd", 5, 23, 21, 21), set(17, "Branch", 10)], (15, 17)),
    ("a call of the entry point", [put(22, "FunctionCall", 2, 24, 1)], (16, 13)),
]


GROUPS = {
    "blocks": list(rules_of_blocks()),
    "entry": [Rule("with " + what, changed(MODULE, changes), due) for what, changes, due in ENTRIES],
}
