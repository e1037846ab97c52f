#!/usr/bin/env python3
"""The inputs that `spv_make` makes for a number, written apart from it.

    bench/make.py N FOLDER          writes FOLDER/module, FOLDER/setup and FOLDER/commands for N, of 1 to 64
    bench/make.py N                 prints how many bytes each of them has

The module is a workgroup of 64 invocations. Each keeps a sum `acc`, and adds its neighbour's to it `4 * N` times, between two
barriers. It has records of the set NonSemantic.Shader.DebugInfo.100: lines 1 to 5 of `make.comp`, and a variable `acc`. The ids
are numbered from 1 in the order in which the results stand. The words of an instruction are by SPIR-V 1.6 section 3.42, those
of the records by revision 1.00 of the set.
"""
import os
import struct
import sys
from spirv import inst, text

INVOCATIONS = 64
# How many bytes the transcripts for 1 and 64 have, and their sums, as stops.py works them out.
TRANSCRIPTS = {1: (328, 25838), 64: (2923, 226418)}

# By name: the number of an opcode, and whether it has a type and a result.
PLAIN = {
    "Capability": 17, "Extension": 10, "MemoryModel": 14, "EntryPoint": 15, "ExecutionMode": 16, "Decorate": 71, "MemberDecorate": 72,
    "Store": 62, "Branch": 249, "LoopMerge": 246, "BranchConditional": 250, "ControlBarrier": 224, "Return": 253, "FunctionEnd": 56,
}
RESULT = {
    "ExtInstImport": 11, "String": 7, "TypeVoid": 19, "TypeFunction": 33, "TypeBool": 20, "TypeInt": 21, "TypeArray": 28, "TypeStruct": 30,
    "TypePointer": 32, "Label": 248,
}
TYPED = {
    "Constant": 43, "Variable": 59, "ExtInst": 12, "Function": 54, "Load": 61, "AccessChain": 65, "Phi": 245, "ULessThan": 176,
    "BitwiseXor": 198, "IAdd": 128,
}
RECORDS = {
    "DebugInfoNone": 0, "DebugCompilationUnit": 1, "DebugTypeBasic": 2, "DebugTypeFunction": 8, "DebugFunction": 20, "DebugScope": 23,
    "DebugLocalVariable": 26, "DebugValue": 29, "DebugExpression": 31, "DebugSource": 35, "DebugFunctionDefinition": 101, "DebugLine": 103,
}
CONSTANTS = (0, 1, 2, 3, 4, 5, 6, 32, 64, 264)


def turns(n):
    """How often each invocation goes round its loop."""
    return 4 * n


def rounds(n):
    """How many events each invocation has."""
    return 9 + 56 * n


def line(number):
    return "-", "DebugLine", "src", "c%d" % number, "c%d" % number, "c0", "c0"


def rows(n):
    """The instructions: a name for the result (`-` where nothing names it again), or none, the opcode or the record, and the type and
    operands. A word is the name of a result, a text stands in quotes, and a number is a literal."""
    yield from [
        (None, "Capability", 1), (None, "Extension", '"SPV_KHR_non_semantic_info"'), ("D", "ExtInstImport", '"NonSemantic.Shader.DebugInfo.100"'),
        (None, "MemoryModel", 0, 1), (None, "EntryPoint", 5, "main", '"main"', "idx", "s", "b"), (None, "ExecutionMode", "main", 17, 64, 1, 1),
    ]
    yield from [("file", "String", '"make.comp"'), ("nmain", "String", '"main"'), ("nacc", "String", '"acc"'), ("nuint", "String", '"uint"')]
    yield from [
        (None, "Decorate", "idx", 11, 29), (None, "Decorate", "B", 2), (None, "MemberDecorate", "B", 0, 35, 0), (None, "Decorate", "arr", 6, 4),
        (None, "Decorate", "b", 34, 0), (None, "Decorate", "b", 33, 0),
    ]
    yield from [("void", "TypeVoid"), ("fn", "TypeFunction", "void"), ("bool", "TypeBool"), ("uint", "TypeInt", 32, 0)]
    yield from [("c%d" % value, "Constant", "uint", value) for value in CONSTANTS] + [("cT", "Constant", "uint", turns(n))]
    yield from [("arr", "TypeArray", "uint", "c64"), ("sarr", "TypeArray", "uint", "c64"), ("B", "TypeStruct", "arr")]
    yield from [("pin", "TypePointer", 1, "uint"), ("pws", "TypePointer", 4, "sarr"), ("pwu", "TypePointer", 4, "uint")]
    yield from [("psb", "TypePointer", 12, "B"), ("psu", "TypePointer", 12, "uint")]
    yield from [("idx", "Variable", "pin", 1), ("s", "Variable", "pws", 4), ("b", "Variable", "psb", 12)]
    yield from [
        ("src", "DebugSource", "file"), ("cu", "DebugCompilationUnit", "c1", "c4", "src", "c2"), ("none", "DebugInfoNone"),
        ("tu", "DebugTypeBasic", "nuint", "c32", "c6", "c0"), ("tf", "DebugTypeFunction", "c0", "none"),
        ("df", "DebugFunction", "nmain", "tf", "src", "c1", "c0", "cu", "nmain", "c0", "c1"),
        ("lv", "DebugLocalVariable", "nacc", "tu", "src", "c2", "c0", "df", "c0"), ("ex", "DebugExpression"),
    ]
    yield "main", "Function", "void", 0, "fn"
    yield from [
        ("entry", "Label"), ("-", "DebugFunctionDefinition", "df", "main"), ("-", "DebugScope", "df"), line(1), ("i", "Load", "uint", "idx"),
        ("p", "AccessChain", "pwu", "s", "i"), (None, "Store", "p", "i"), (None, "Branch", "head"),
    ]
    yield from [
        ("head", "Label"), ("k", "Phi", "uint", "c0", "entry", "k1", "body"), ("acc", "Phi", "uint", "i", "entry", "acc1", "body"),
        ("-", "DebugScope", "df"), line(2), ("-", "DebugValue", "lv", "acc", "ex"), ("c", "ULessThan", "bool", "k", "cT"),
        (None, "LoopMerge", "done", "body", 0), (None, "BranchConditional", "c", "body", "done"),
    ]
    yield from [
        ("body", "Label"), ("-", "DebugScope", "df"), line(3), ("x", "BitwiseXor", "uint", "i", "c1"), ("q", "AccessChain", "pwu", "s", "x"),
        (None, "ControlBarrier", "c2", "c2", "c264"), ("y", "Load", "uint", "q"), (None, "ControlBarrier", "c2", "c2", "c264"), line(4),
        ("t", "IAdd", "uint", "acc", "acc"), ("acc1", "IAdd", "uint", "t", "y"), (None, "Store", "p", "acc1"), ("k1", "IAdd", "uint", "k", "c1"),
        (None, "Branch", "head"),
    ]
    yield from [
        ("done", "Label"), ("-", "DebugScope", "df"), line(5), ("r", "AccessChain", "psu", "b", "c0", "i"), (None, "Store", "r", "acc"),
        (None, "Return",), (None, "FunctionEnd",),
    ]


def instructions(n):
    """The instructions: the name of each opcode, and all operands in the order of their words, the type and the result among them."""
    made = list(rows(n))
    results = [name for name, *_ in made if name is not None]
    ids = {name: 1 + at for at, name in enumerate(results) if name != "-"}

    def operand_of(operand):
        if isinstance(operand, int):
            return operand
        return operand[1:-1] if operand.startswith('"') else ids[operand]

    count = 0
    for name, what, *operands in made:
        count += name is not None
        given = [operand_of(operand) for operand in operands]
        if what in RECORDS:
            yield "ExtInst", [ids["void"], count, ids["D"], RECORDS[what], *given]
        elif what in PLAIN:
            yield what, given
        else:
            yield what, [count, *given] if what in RESULT else [given[0], count, *given[1:]]


def words_of(name, operands):
    """The words of an instruction."""
    number = PLAIN.get(name) or RESULT.get(name) or TYPED[name]
    return inst(number, *[word for operand in operands for word in (text(operand) if isinstance(operand, str) else [operand])])


def module(n):
    """The module's bytes."""
    bound = 1 + sum(name is not None for name, *_ in rows(n))
    code = [0x07230203, 0x00010600, 0, bound, 0]
    for name, operands in instructions(n):
        code += words_of(name, operands)
    return struct.pack("<%dI" % len(code), *code)


def places(n):
    """The words at which an invocation stands before each of its events: a barrier is one event of coming and one of going."""
    blocks, word = {}, 5
    for (name, operands), (result, what, *_) in zip(instructions(n), rows(n)):
        if what == "Label":
            block = blocks[result] = []
        elif name in ("Load", "AccessChain", "Store", "ULessThan", "BitwiseXor", "IAdd", "Branch", "BranchConditional", "Return"):
            block.append(word)
        elif name == "ControlBarrier":
            block += [word, word]
        word += len(words_of(name, operands))
    return blocks["entry"] + turns(n) * (blocks["head"] + blocks["body"]) + blocks["head"] + blocks["done"]


def setup(n):
    return "spvdbg-setup 1\nbuffer 0 0 zero 256\nrounds %d\n" % rounds(n)


def commands(n):
    lines = ["info", "break 4"] + n * ["continue"] + ["print acc", "goto %d" % (INVOCATIONS * rounds(n)), "rcontinue", "print acc"]
    return "".join(each + "\n" for each in lines + ["back 1024", "print acc", "goto 0", "quit"])


def told(n):
    """What `make` writes for 1 or 64: how many bytes each of them and the transcript have, and the sum of the transcript's bytes."""
    return "make %d: module %d, setup %d, commands %d, transcript %d, sum %d\n" % (n, len(module(n)), len(setup(n)), len(commands(n)), *TRANSCRIPTS[n])


def main():
    n = int(sys.argv[1])
    made = [("module", module(n)), ("setup", setup(n).encode()), ("commands", commands(n).encode())]
    if len(sys.argv) == 2:
        print(", ".join("%s %d" % (name, len(data)) for name, data in made))
    for name, data in made if len(sys.argv) > 2 else []:
        with open(os.path.join(sys.argv[2], name), "wb") as file:
            file.write(data)


if __name__ == "__main__":
    main()
