#!/usr/bin/env python3
"""The page of all executable instructions: what each does, where that is defined, and its faults in order.

    bench/effects.py            writes docs/EFFECTS.md
    bench/effects.py --check    ends with status 1 where the page isn't what it would write, or an opcode is missing

The rows are written here; the lines of the definitions are looked up in crates/*/specs, and the opcodes are compared with the tables of
the definitions (opcodes that are read, and classes at which no run stops).
"""
import os
import re
import sys

TOP = os.path.join(os.path.dirname(os.path.abspath(__file__)), "..")
PAGE = os.path.join(TOP, "docs", "EFFECTS.md")
SITES, RESULTS, ALU, MACHINE = "spv_sites", "spv_results", "spv_alu", "spv_machine"
NOTHING, VALUE = "", "F4"

HEAD = """# Effects

One row for each instruction at which a run stops: its number, its operands by the names of the standard, what it does, the line that says so, and its faults in the order in which they are looked for. One event is one such instruction of one invocation.

How to read a row against the standard:

1. An operand is what its id stands for in the frame: a constant, an OpUndef outside functions, the pointer to a variable, or what the register holds (`value_of`, {value_of}). **Where an operand that a row reads has no value, the event is the fault F4, whatever else is so.** The other faults come after it, in the order of the column.
2. The row gives an effect: the part of memory that is set, the value that the instruction's register takes, and where control goes (`Effect`, {effect}). A fault changes nothing.
3. The effect is done: store, register, control; then the debug events between the old place and the new one are passed, and a barrier opens where the setup's rule lets it (`apply`, {apply}).
4. A scalar that isn't defined makes what is computed of it undefined, lane by lane; a row says where that is a fault in its place. `w` is the width of an operand; integers are cut to their low-order bits.

F1 a branch by an undefined value; F2 a pointer by an undefined index or condition; F3 memory out of bounds; F4 an operand without a value; F5 OpUnreachable.

This page is written by `bench/effects.py`, which looks up the lines.
"""

# (numbers and names, operands, what it does, crate, file, the beginning of the defining line, faults)
TABLES = [
    ("Memory", [
        ("61 Load", "Pointer", "the register takes the part of memory that the pointer names", SITES, "Accesses", "load_effect p", "F4, F3"),
        ("62 Store", "Pointer, Object", "the part of memory that the pointer names becomes the object", SITES, "Accesses", "store_effect p", "F4, F3"),
        ("63 CopyMemory", "Target, Source", "the part that the target names becomes the part that the source names", SITES, "Accesses", "copy_memory_effect p", "F4, F3"),
        ("65 AccessChain, 66 InBoundsAccessChain", "Base, Indexes..", "the register takes the base with further indexes, each read as signed, in 64 bits", SITES, "Chains", "chain_effect p", "F4, F2"),
        ("67 PtrAccessChain", "Base, Element, Indexes..", "the same, after the element is added to the last index of the base, modulo 2^64", SITES, "Chains", "ptr_chain_effect p", "F4, F2, F3"),
        ("68 ArrayLength", "Structure, Array member", "the register takes the number of elements of the runtime array, in 32 bits", SITES, "Lengths", "length_effect p", "F4, F3"),
        ("401 PtrEqual", "Operand 1, Operand 2", "whether root and path are equal", SITES, "Pointers", "ptr_equal_effect p", VALUE),
        ("402 PtrNotEqual", "Operand 1, Operand 2", "whether root or path differ", SITES, "Pointers", "ptr_not_equal_effect p", VALUE),
    ]),
    ("Atomics", [
        ("227 AtomicLoad", "Pointer, Memory, Semantics", "the register takes the scalar", SITES, "Atomics", "atomic_row Load", "F4, F3"),
        ("228 AtomicStore", "Pointer, Memory, Semantics, Value", "the scalar becomes the value", SITES, "Atomics", "atomic_row Store", "F4, F3"),
        ("229 AtomicExchange", "Pointer, Memory, Semantics, Value", "the scalar becomes the value; the register takes the old one, as in all rows below", SITES, "Atomics", "atomic_row Exchange", "F4, F3"),
        ("230 AtomicCompareExchange", "Pointer, Memory, Equal, Unequal, Value, Comparator", "the scalar becomes the value where it equals the comparator", SITES, "Atomics", "atomic_row CompareExchange", "F4, F3"),
        ("232 AtomicIIncrement", "Pointer, Memory, Semantics", "old + 1", SITES, "Atomics", "atomic_row Increment", "F4, F3"),
        ("233 AtomicIDecrement", "Pointer, Memory, Semantics", "old - 1", SITES, "Atomics", "atomic_row Decrement", "F4, F3"),
        ("234 AtomicIAdd", "Pointer, Memory, Semantics, Value", "old + value", SITES, "Atomics", "atomic_row Add", "F4, F3"),
        ("235 AtomicISub", "Pointer, Memory, Semantics, Value", "old - value", SITES, "Atomics", "atomic_row Sub", "F4, F3"),
        ("236 AtomicSMin", "Pointer, Memory, Semantics, Value", "the lesser, read as signed", SITES, "Atomics", "atomic_row SMin", "F4, F3"),
        ("237 AtomicUMin", "Pointer, Memory, Semantics, Value", "the lesser, read as unsigned", SITES, "Atomics", "atomic_row UMin", "F4, F3"),
        ("238 AtomicSMax", "Pointer, Memory, Semantics, Value", "the greater, read as signed", SITES, "Atomics", "atomic_row SMax", "F4, F3"),
        ("239 AtomicUMax", "Pointer, Memory, Semantics, Value", "the greater, read as unsigned", SITES, "Atomics", "atomic_row UMax", "F4, F3"),
        ("240 AtomicAnd", "Pointer, Memory, Semantics, Value", "bits that are 1 in both", SITES, "Atomics", "atomic_row And", "F4, F3"),
        ("241 AtomicOr", "Pointer, Memory, Semantics, Value", "bits that are 1 in one", SITES, "Atomics", "atomic_row Or", "F4, F3"),
        ("242 AtomicXor", "Pointer, Memory, Semantics, Value", "bits that differ", SITES, "Atomics", "atomic_row Xor", "F4, F3"),
    ]),
    ("Control", [
        ("249 Branch", "Target Label", "to the block, whose phis (245) take their values at once", SITES, "Branches", "branch_effect p", VALUE),
        ("250 BranchConditional", "Condition, True Label, False Label", "to the first label where the condition is true, else to the second", SITES, "Branches", "branch_conditional_effect p", "F4, F1, F4 of a phi"),
        ("251 Switch", "Selector, Default, Literals and Labels..", "to the label of the literal that the selector is, else to the default", SITES, "Branches", "switch_effect p", "F4, F1, F4 of a phi"),
        ("57 FunctionCall", "Function, Arguments..", "into a frame of the function, whose parameters have the arguments", SITES, "Calls", "call_effect p", VALUE),
        ("253 Return", "", "out of the function; where that was the entry point's frame, the invocation is Finished, and with `barrier finished-count` a barrier opens where all others wait", SITES, "Instructions", "row p s i f d Return =", NOTHING),
        ("254 ReturnValue", "Value", "the same, and the call's register takes the value", SITES, "Calls", "return_effect p", VALUE),
        ("255 Unreachable", "", "", SITES, "Instructions", "row p s i f d Unreachable", "F5"),
        ("224 ControlBarrier", "Execution, Memory, Semantics", "the invocation waits; the barrier opens where all wait at it then, or with `barrier finished-count` all that aren't finished", SITES, "Barriers", "control_barrier_effect p", VALUE),
        ("225 MemoryBarrier", "Memory, Semantics", "nothing: each event is seen by all that come after it", SITES, "Barriers", "memory_barrier_effect p", VALUE),
    ]),
    ("Values put together and taken apart", [
        ("1 Undef", "", "an undefined value of the type", RESULTS, "Results", "result_by a i v Undef", NOTHING),
        ("77 VectorExtractDynamic", "Vector, Index", "the component; undefined outside the vector", RESULTS, "Results", "result_by a i v ExtractDynamic", VALUE),
        ("78 VectorInsertDynamic", "Vector, Component, Index", "the vector with the component in its place; undefined outside the vector", RESULTS, "Results", "result_by a i v InsertDynamic", VALUE),
        ("79 VectorShuffle", "Vector 1, Vector 2, Components..", "components of both by their numbers; 0xFFFFFFFF is undefined", RESULTS, "Results", "result_by a i v Shuffle", VALUE),
        ("80 CompositeConstruct", "Constituents..", "a value of these parts", RESULTS, "Results", "result_by a i v Construct", VALUE),
        ("81 CompositeExtract", "Composite, Indexes..", "the part", RESULTS, "Results", "result_by a i v Extract", VALUE),
        ("82 CompositeInsert", "Object, Composite, Indexes..", "the composite with the object as that part", RESULTS, "Results", "result_by a i v Insert", VALUE),
        ("83 CopyObject, 400 CopyLogical", "Operand", "the operand", RESULTS, "Results", "result_by a i v Copy", VALUE),
        ("169 Select", "Condition, Object 1, Object 2", "object 1 where the condition is true, else object 2, lane by lane for a vector of conditions; of pointers, F2 where the condition is undefined", SITES, "Selects", "select_effect p", "F4, F2"),
        ("124 Bitcast", "Operand", "the same bits, cut anew, lowest first", RESULTS, "Results", "result_by a i v Bitcast", VALUE),
        ("154 Any", "Vector", "whether one is true; undefined where one is undefined", ALU, "Vectors", "vector_row Any", VALUE),
        ("155 All", "Vector", "whether all are true; undefined where one is undefined", ALU, "Vectors", "vector_row All", VALUE),
    ]),
    ("Lane by lane: one operand", [
        (n, "Operand", what, ALU, "Unary", "unary_row %s" % n.split()[1], VALUE) for n, what in (
            ("113 UConvert", "the number, read as unsigned, in another width"), ("114 SConvert", "the number, read as signed, in another width"),
            ("126 SNegate", "0 - the number"), ("168 LogicalNot", "the other Boolean"), ("200 Not", "each bit the other one"),
            ("204 BitReverse", "the bits from the last to the first"), ("205 BitCount", "how many bits are 1"))
    ]),
    ("Lane by lane: two operands", [
        (n, "Base, Shift" if "Shift" in n else "Operand 1, Operand 2", what, ALU, "Binary", "binary_row %s" % n.split()[1], VALUE) for n, what in (
            ("128 IAdd", "a + b"), ("130 ISub", "a - b"), ("132 IMul", "a * b"), ("134 UDiv", "a / b, unsigned; undefined where b is 0"),
            ("135 SDiv", "a / b, signed, toward 0; undefined where b is 0, and for the least a by -1"), ("137 UMod", "the remainder, unsigned; undefined where b is 0"),
            ("138 SRem", "the remainder with the sign of a; undefined as for SDiv"), ("139 SMod", "the remainder with the sign of b; undefined as for SDiv"),
            ("164 LogicalEqual", "both Booleans are one"), ("165 LogicalNotEqual", "they differ"), ("166 LogicalOr", "one is true"), ("167 LogicalAnd", "both are true"),
            ("170 IEqual", "a = b"), ("171 INotEqual", "a and b differ"), ("172 UGreaterThan", "a > b, unsigned"), ("173 SGreaterThan", "a > b, signed"),
            ("174 UGreaterThanEqual", "a >= b, unsigned"), ("175 SGreaterThanEqual", "a >= b, signed"), ("176 ULessThan", "a < b, unsigned"), ("177 SLessThan", "a < b, signed"),
            ("178 ULessThanEqual", "a <= b, unsigned"), ("179 SLessThanEqual", "a <= b, signed"),
            ("194 ShiftRightLogical", "shifted right, zeros come in; undefined from w places on"), ("195 ShiftRightArithmetic", "shifted right, the sign comes in; undefined from w places on"),
            ("196 ShiftLeftLogical", "shifted left; undefined from w places on"), ("197 BitwiseOr", "bits that are 1 in one"), ("198 BitwiseXor", "bits that differ"),
            ("199 BitwiseAnd", "bits that are 1 in both"))
    ] + [
        (n, "Operand 1, Operand 2", what, ALU, "Extended", "extended_row %s" % n.split()[1], VALUE) for n, what in (
            ("149 IAddCarry", "a struct: a + b, and 1 where it doesn't fit"), ("150 ISubBorrow", "a struct: a - b, and 1 where b is above a"),
            ("151 UMulExtended", "a struct: the low and the high half of a * b, unsigned"), ("152 SMulExtended", "a struct: the low and the high half of a * b, signed"))
    ]),
    ("Lane by lane: fields of bits", [
        ("201 BitFieldInsert", "Base, Insert, Offset, Count", "the base with that field from the insert; undefined where offset + count is above w", ALU, "Fields", "field_row BitFieldInsert", VALUE),
        ("202 BitFieldSExtract", "Base, Offset, Count", "that field, read as signed; undefined where offset + count is above w", ALU, "Fields", "field_row BitFieldSExtract", VALUE),
        ("203 BitFieldUExtract", "Base, Offset, Count", "that field, read as unsigned; undefined where offset + count is above w", ALU, "Fields", "field_row BitFieldUExtract", VALUE),
    ]),
    ("Lane by lane: OpExtInst 12 of GLSL.std.450, by its number", [
        (n, "x" if count == 1 else "x, y" if count == 2 else "x, minVal, maxVal", what, ALU, "Glsl", "glsl_row %s" % n.split()[1], VALUE) for n, count, what in (
            ("5 SAbs", 1, "the number without its sign"), ("7 SSign", 1, "1, 0 or -1"), ("38 UMin", 2, "the lesser, unsigned"), ("39 SMin", 2, "the lesser, signed"),
            ("41 UMax", 2, "the greater, unsigned"), ("42 SMax", 2, "the greater, signed"), ("44 UClamp", 3, "x between both, unsigned; undefined where minVal is above maxVal"),
            ("45 SClamp", 3, "x between both, signed; undefined where minVal is above maxVal"), ("73 FindILsb", 1, "the number of the lowest bit that is 1, or -1"),
            ("74 FindSMsb", 1, "of the highest bit that differs from the sign, or -1"), ("75 FindUMsb", 1, "of the highest bit that is 1, or -1"))
    ]),
]


def line_of(crate, file, start):
    """The number of the line of a definition that begins with a text."""
    path = os.path.join("crates", crate, "specs", file + ".antt")
    with open(os.path.join(TOP, path)) as lines:
        for number, line in enumerate(lines, 1):
            if line.startswith(start):
                return path, number
    sys.exit("%s has no line that begins with %r" % (path, start))


def place(crate, file, start, name=None):
    path, number = line_of(crate, file, start)
    return "[%s:%d](../%s#L%d)" % (name or "%s/%s" % (crate, file), number, path, number)


def page():
    text = HEAD.format(
        value_of=place("spv_operands", "Values", "value_of "),
        effect=place(SITES, "Effects", "pub record Effect"),
        apply=place(MACHINE, "Step", "apply "),
    )
    for title, rows in TABLES:
        text += "\n## %s\n\n| number | operands | what it does | defined | faults |\n|---|---|---|---|---|\n" % title
        for number, operands, what, crate, file, start, faults in rows:
            text += "| %s | %s | %s | %s | %s |\n" % (number, operands, what, place(crate, file, start), faults)
    return text


def missing():
    """Opcodes that are read and at which a run stops by the definitions, and which have no row."""
    rows = {int(n) for title, rows in TABLES if "GLSL" not in title for number, *_ in rows for n in re.findall(r"\d+(?= )", number)} | {12}
    with open(os.path.join(TOP, "crates/spv_ops/specs/Opcodes.antt")) as table:
        read = {int(n): name for n, name in re.findall(r"\((\d+), codes \"(\w+)\"\)", table.read())}
    with open(os.path.join(TOP, "crates/spv_index/specs/Classes.antt")) as classes:
        told = {int(n) for n, kind in re.findall(r"\((\d+), ([A-Z]\w+)\)", classes.read()) if kind != "Terminator"}
    in_blocks = {n for n in read if n in (1, 12) or n > 56} - set(range(71, 75)) - set(range(330, 333)) - told - {59}
    return sorted((n, read[n]) for n in in_blocks - rows) + sorted((n, "?") for n in rows - set(read))


def main():
    left = missing()
    if left:
        sys.exit("no row for %s" % left)
    due = page()
    if "--check" in sys.argv:
        if open(PAGE).read() != due:
            sys.exit("docs/EFFECTS.md is not what bench/effects.py writes")
    else:
        open(PAGE, "w").write(due)


main()
