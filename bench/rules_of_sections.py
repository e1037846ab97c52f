"""The order of sections, the rules of ids, and what a module declares: one module, and one change to it at a time.

SPIR-V 1.6, sections 2.4 (logical layout), 2.3 and 2.16.1 (ids), and 3.31 (capabilities).
"""
from listings import BOUND, Inst, Rule, changed

END = BOUND

# %7 is the entry point, and %9 calls it; %20 is a set with no meaning at run time.
MODULE = [
    Inst("Capability", 1),
    Inst("Extension", "SPV_KHR_16bit_storage"),
    Inst("ExtInstImport", 20, "NonSemantic."),
    Inst("ExtInstImport", 21, "GLSL.std.450"),
    Inst("MemoryModel", 0, 1),
    Inst("EntryPoint", 5, 7, "main", 10),
    Inst("ExecutionMode", 7, 17, 1, 1, 1),
    Inst("String", 22, "f"),
    Inst("Source", 2, 450, 22),
    Inst("Name", 7, "m"),
    Inst("Decorate", 3, 0),
    Inst("TypeVoid", 1),
    Inst("TypeFunction", 2, 1),
    Inst("TypeInt", 3, 32, 0),
    Inst("TypePointer", 4, 6, 3),
    Inst("Constant", 3, 5, 4),
    Inst("Variable", 4, 10, 6),
    Inst("Line", 22, 1, 1),
    Inst("ExtInst", 1, 23, 20, 1, 5),
    Inst("Function", 1, 7, 0, 2),
    Inst("Label", 8),
    Inst("Load", 3, 11, 10),
    Inst("IAdd", 3, 12, 11, 5),
    Inst("ExtInst", 3, 13, 21, 38, 12, 5),
    Inst("ExtInst", 1, 24, 20, 1, 99),
    Inst("Store", 10, 13),
    Inst("Return"),
    Inst("FunctionEnd"),
    Inst("Line", 22, 1, 1),
    Inst("Function", 1, 9, 0, 2),
    Inst("Label", 14),
    Inst("Branch", 15),
    Inst("Label", 15),
    Inst("Phi", 3, 16, 5, 14),
    Inst("FunctionCall", 1, 17, 7),
    Inst("Return"),
    Inst("FunctionEnd"),
]


def put(at, *inst):
    return "put", at, Inst(*inst)


def set(at, *inst):
    return "set", at, Inst(*inst)


# What each change is, the change, and what is due: the code, and the number of the instruction.
SECTIONS = [
    ("a capability behind an extension", put(2, "Capability", 1), (10, 2)),
    ("an extension behind an import", put(3, "Extension", "x"), (10, 3)),
    ("an import behind the memory model", put(5, "ExtInstImport", 30, "x"), (10, 5)),
    ("a second memory model", put(5, "MemoryModel", 0, 1), (10, 5)),
    ("a memory model behind an entry point", put(6, "MemoryModel", 0, 1), (10, 6)),
    ("an entry point behind an execution mode", put(7, "EntryPoint", 5, 7, "main"), (10, 7)),
    ("an execution mode behind a string", put(8, "ExecutionMode", 7, 17, 1, 1, 1), (10, 8)),
    ("an execution mode with ids behind a string", put(8, "ExecutionModeId", 7, 38, 5, 5, 5), (10, 8)),
    ("a name behind a decoration", put(11, "Name", 7, "m"), (10, 11)),
    ("a decoration behind a type", put(12, "Decorate", 3, 0), (10, 12)),
    ("a type in a function", put(21, "TypeBool", 30), (10, 21)),
    ("a constant in a function", put(21, "Constant", 3, 30, 1), (10, 21)),
    ("a name in a function", put(21, "Name", 7, "m"), (10, 21)),
    ("a type behind the functions", put(37, "TypeBool", 30), (10, 37)),
    ("a line before an extension", put(1, "NoLine"), (10, 2)),
    ("no meaning before the entry points", put(5, "ExtInst", 1, 30, 20, 1), (10, 6)),
    ("OpNop among types", put(12, "Nop"), (10, 12)),
    ("OpNop before the first block", put(20, "Nop"), (10, 20)),
    ("OpNop in a block", put(21, "Nop"), None),
    ("OpNop behind a terminator", put(27, "Nop"), (10, 27)),
    ("OpNop between functions", put(28, "Nop"), (10, 28)),
    ("OpIAdd before the functions", put(19, "IAdd", 3, 30, 5, 5), (10, 19)),
    ("OpIAdd before the first block, told by the rules of blocks", put(20, "IAdd", 3, 30, 5, 5), (15, 20)),
    ("UMin before the functions", put(19, "ExtInst", 3, 30, 21, 38, 5, 5), (10, 19)),
    ("a label between functions", put(28, "Label", 30), (10, 28)),
    ("a parameter between functions", put(28, "FunctionParameter", 3, 30), (10, 28)),
    ("an end between functions", put(28, "FunctionEnd"), (10, 28)),
    ("a variable between functions", put(28, "Variable", 4, 30, 6), (10, 28)),
    ("a variable in a function, told by the rules of types", put(21, "Variable", 4, 30, 7), (12, 21)),
    ("OpUndef between functions", put(28, "Undef", 3, 30), (10, 28)),
    ("OpUndef in a function", put(21, "Undef", 3, 30), None),
    ("OpUndef among types", put(19, "Undef", 3, 30), None),
    ("a function in a function, told by the rules of blocks", put(21, "Function", 1, 30, 0, 2), (15, 19)),
    ("OpNoLine between functions", put(28, "NoLine"), None),
]

IDS = [
    ("a result at the Bound", set(22, "IAdd", 3, END, 11, 5), (8, 22)),
    ("an operand at the Bound", set(22, "IAdd", 3, 12, END, 5), (8, 22)),
    ("a type at the Bound", set(22, "IAdd", END, 12, 11, 5), (8, 22)),
    ("the operand 0", set(22, "IAdd", 3, 12, 0, 5), (8, 22)),
    ("the result 0", set(22, "IAdd", 3, 0, 11, 5), (8, 22)),
    ("the type 0", set(22, "IAdd", 0, 12, 11, 5), (8, 22)),
    ("the label 0", put(20, "Label", 0), (8, 20)),
    ("a constant defined twice", put(16, "Constant", 3, 5, 41), (8, 16)),
    ("a label in two functions", set(30, "Label", 8), (8, 30)),
    ("a name of nothing", put(9, "Name", 50, "m"), None),
    ("a name at the Bound", put(9, "Name", END, "m"), (8, 9)),
    ("a decoration of nothing", put(10, "Decorate", 50, 0), None),
    ("no meaning, at the Bound", set(24, "ExtInst", 1, 24, 20, 1, END), None),
    ("a set at the Bound", set(24, "ExtInst", 1, 24, END, 1), (8, 24)),
    ("no meaning, of no type", set(24, "ExtInst", 50, 24, 20, 1), (9, 24)),
    ("a member defined later", put(13, "TypeStruct", 30, 3), (9, 13)),
    ("a member defined before", put(14, "TypeStruct", 30, 3), None),
    ("a constant as target", put(17, "TypePointer", 30, 6, 5), (9, 17)),
    ("a length that is a constant", put(16, "TypeArray", 30, 3, 5), None),
    ("a length that is a type", put(16, "TypeArray", 30, 3, 3), (9, 16)),
    ("a file that is a function", set(8, "Source", 2, 450, 7), (9, 8)),
    ("an interface that is a constant", set(5, "EntryPoint", 5, 7, "main", 5), (9, 5)),
    ("an entry point that is a label", set(5, "EntryPoint", 5, 8, "main"), (9, 5)),
    ("an execution mode of a constant", set(6, "ExecutionMode", 5, 17, 1, 1, 1), (9, 6)),
    ("sizes that are constants", put(7, "ExecutionModeId", 7, 38, 5, 5, 5), None),
    ("a size that is a type", put(7, "ExecutionModeId", 7, 38, 5, 5, 3), (9, 7)),
    ("a size that is a result in a function, told by the rules of entry points", put(7, "ExecutionModeId", 7, 38, 5, 5, 11), (17, None)),
    ("a label as a value", set(22, "IAdd", 3, 12, 8, 5), (9, 22)),
    ("a type as a value", set(22, "IAdd", 3, 12, 3, 5), (9, 22)),
    ("a function as a value", set(22, "IAdd", 3, 12, 7, 5), (9, 22)),
    ("an import as a value", set(22, "IAdd", 3, 12, 21, 5), (9, 22)),
    ("nothing as a value", set(22, "IAdd", 3, 12, 50, 5), (9, 22)),
    ("a value as a type", set(22, "IAdd", 5, 12, 11, 5), (9, 22)),
    ("a value of another function", put(34, "CopyObject", 3, 30, 11), (9, 34)),
    ("a value defined later in a function", put(21, "CopyObject", 3, 30, 12), None),
    ("a label of another function", set(31, "Branch", 8), (9, 31)),
    ("a branch to a constant", set(31, "Branch", 5), (9, 31)),
    ("a call of a constant", set(34, "FunctionCall", 1, 17, 5), (9, 34)),
    ("a call of a later function, told by the rules of calls", put(21, "FunctionCall", 1, 30, 9), (16, 19)),
    ("a set that is a string", set(23, "ExtInst", 3, 13, 22, 38, 12, 5), (9, 23)),
    ("a phi with its pair turned", set(33, "Phi", 3, 16, 14, 5), (9, 33)),
    ("a switch with literals, told by the rules of blocks", set(31, "Switch", 5, 15, 100, 100), (15, 31)),
    ("a switch to a constant", set(31, "Switch", 5, 5), (9, 31)),
    ("both rules at one word", set(22, "IAdd", 3, 12, 8, END), (8, 22)),
]

CAPABILITIES = [
    ("capability 2", set(0, "Capability", 2), (11, 0)),
    ("capability 4441", set(0, "Capability", 4441), None),
    ("capability 4442", set(0, "Capability", 4442), (11, 0)),
    ("capability 4449", set(0, "Capability", 4449), None),
    ("SPV_KHR_multiview", set(1, "Extension", "SPV_KHR_multiview"), (11, 1)),
    ("SPV_KHR_variable_pointers", set(1, "Extension", "SPV_KHR_variable_pointers"), None),
    ("SPV_KHR_16bit_storage2", set(1, "Extension", "SPV_KHR_16bit_storage2"), (11, 1)),
    ("OpenCL.std", set(3, "ExtInstImport", 21, "OpenCL.std"), (11, 3)),
    ("GLSL.std.4500", set(3, "ExtInstImport", 21, "GLSL.std.4500"), (11, 3)),
    ("NonSemantic", set(3, "ExtInstImport", 21, "NonSemantic"), (11, 3)),
    ("NonSemantic.DebugPrintf", put(4, "ExtInstImport", 30, "NonSemantic.DebugPrintf"), None),
    ("physical addressing", set(4, "MemoryModel", 1, 1), (11, 4)),
    ("the memory model Vulkan", set(4, "MemoryModel", 0, 3), (11, 4)),
    ("OpPtrAccessChain", put(22, "PtrAccessChain", 4, 30, 10, 5), (11, 22)),
    ("OpPtrEqual", put(22, "PtrEqual", 3, 30, 10, 10), (11, 22)),
    ("OpPtrNotEqual", put(22, "PtrNotEqual", 3, 30, 10, 10), (11, 22)),
]
# What a change is in a module with another one too.
VARIABLE_POINTERS, NAMED = put(1, "Capability", 4441), set(1, "Extension", "SPV_KHR_variable_pointers")
AMONG_POINTERS = [
    ("OpPtrAccessChain in Private, told by the rules of bodies", VARIABLE_POINTERS, put(22, "PtrAccessChain", 4, 30, 10, 5), (12, 23)),
    ("OpPtrEqual that gives a uint, told by the rules of bodies", VARIABLE_POINTERS, put(22, "PtrEqual", 3, 30, 10, 10), (12, 23)),
    ("OpPtrNotEqual that gives a uint, told by the rules of bodies", VARIABLE_POINTERS, put(22, "PtrNotEqual", 3, 30, 10, 10), (12, 23)),
    ("OpPtrEqual where the extension alone is named", NAMED, put(22, "PtrEqual", 3, 30, 10, 10), (11, 22)),
]


def rules(rows):
    return [Rule(what, changed(MODULE, changes), due) for what, *changes, due in rows]


GROUPS = {
    "sections": [Rule("a module in which no rule is broken", MODULE, None)] + rules(SECTIONS),
    "ids": rules(IDS),
    "capabilities": rules(CAPABILITIES + AMONG_POINTERS),
}
