#!/usr/bin/env python3
"""Times `spvdbg check` on modules that are wide, deep or large for their size, and writes the table into docs/BENCH.md.

usage: bench/growth.py PROGRAM [WORD], where PROGRAM is the built spvdbg; with a WORD only the modules whose name has it are
tried, and nothing is written. Each module has to be accepted, and is at most 4 MiB. Those under 40 KiB are timed beside
`spirv-val`, the bar for them; the others have to take at most a second and 400 MiB.
"""
import os
import sys
import tempfile

from spirv import BOOL, FIRST_FREE, FUNCTION_TYPE, MAIN, ONE, PATIENCE, TRUE, UINT, VOID
from spirv import inst, main_of, measure, module, text, write_section

MOST_WORDS = 65_535
MOST_SECONDS, MOST_MEMORY = 1.0, 400
SMALL, SMALL_MEMORY = 40_960, 8


def smallest():
    return module(main_of([]), FIRST_FREE)


def pairs(structs, undefined):
    """Structs that are each a pair of the one before, and undefined values of the last."""
    declared = inst(30, FIRST_FREE, UINT, UINT)
    for n in range(1, structs):
        declared += inst(30, FIRST_FREE + n, FIRST_FREE + n - 1, FIRST_FREE + n - 1)
    first = FIRST_FREE + structs
    for n in range(undefined):
        declared += inst(1, first - 1, first + n)
    return module(main_of([]), first + undefined, declarations=declared)


def wide_struct(members, undefined):
    """A struct of many members, and undefined values of it."""
    declared = inst(30, FIRST_FREE, *[UINT] * members)
    for n in range(undefined):
        declared += inst(1, FIRST_FREE, FIRST_FREE + 1 + n)
    return module(main_of([]), FIRST_FREE + 1 + undefined, declarations=declared)


def logical_copies(structs, members, copies):
    """Structs of the same members, and copies of undefined values of one as another."""
    declared = []
    for n in range(structs):
        declared += inst(30, FIRST_FREE + n, *[UINT] * members)
    values = FIRST_FREE + structs
    for n in range(structs):
        declared += inst(1, FIRST_FREE + n, values + n)
    results = values + structs
    body = []
    for n in range(copies):
        source, target = n % structs, (n * 7 + 1) % structs
        body += inst(400, FIRST_FREE + target, results + n, values + source)
    return module(main_of(body), results + copies, declarations=declared)


def offsets(structs, members, reached):
    """Structs of many members with Offsets, from the last to the first, of which a variable each reaches some or none."""
    decorations, declared = [], []
    pointers = FIRST_FREE + structs
    for n in range(structs):
        ident = FIRST_FREE + n
        for member in range(members):
            decorations += inst(72, ident, members - 1 - member, 35, 4 * member)
        declared += inst(30, ident, *[UINT] * members)
        if reached:
            decorations += inst(71, ident, 2)
            variable = pointers + structs + n
            decorations += inst(71, variable, 34, 0) + inst(71, variable, 33, n)
            declared += inst(32, pointers + n, 12, ident) + inst(59, pointers + n, variable, 12)
    return module(main_of([]), pointers + 2 * structs, decorations, declared)


def null_array(length, nesting):
    """A null constant of an array, whose elements are structs in structs."""
    declared = inst(43, UINT, FIRST_FREE, length)
    element, ident = UINT, FIRST_FREE + 1
    for _ in range(nesting):
        declared += inst(30, ident, element)
        element, ident = ident, ident + 1
    declared += inst(28, ident, element, FIRST_FREE) + inst(46, ident, ident + 1)
    return module(main_of([]), ident + 2, declarations=declared)


def constants(size):
    declared, ident = [], FIRST_FREE
    while 4 * len(declared) < size - 200:
        declared += inst(43, UINT, ident, ident)
        ident += 1
    return module(main_of([]), ident, declarations=declared)


def wide_constants(size):
    """Constant structs of as many members as an instruction has words for."""
    members = min(MOST_WORDS - 8, (size - 400) // 16)
    declared = inst(30, FIRST_FREE, *[UINT] * members)
    count = max(1, (size - 400 - 4 * members) // (4 * members + 12))
    for n in range(count):
        declared += inst(44, FIRST_FREE, FIRST_FREE + 1 + n, *[ONE] * members)
    return module(main_of([]), FIRST_FREE + 1 + count, declarations=declared)


def wide_composites(size):
    """The same in a function, and an extraction from each."""
    members = min(MOST_WORDS - 8, (size - 400) // 16)
    declared = inst(30, FIRST_FREE, *[UINT] * members)
    count = max(1, (size - 400 - 4 * members) // (4 * members + 32))
    body, ident = [], FIRST_FREE + 1
    for _ in range(count):
        body += inst(80, FIRST_FREE, ident, *[ONE] * members) + inst(81, UINT, ident + 1, ident, members - 1)
        ident += 2
    return module(main_of(body), ident, declarations=declared)


def switches(size):
    """Blocks that each end with a switch of as many literals as an instruction has words for."""
    literals = min(32_000, (size - 400) // 16)
    body, label = [], FIRST_FREE
    for _ in range(max(1, (size - 400) // (8 * literals + 40))):
        merge, case = label, label + 1
        words = []
        for n in range(literals):
            words += [n * 3 + 1, case]
        body += inst(247, merge, 0) + inst(251, ONE, merge, *words)
        body += inst(248, case) + inst(249, merge) + inst(248, merge)
        label += 2
    return module(main_of(body), label)


def phis(size):
    """A block with many predecessors, and phis with a pair for each of them."""
    cases = min(32_000, (size - 400) // 64)
    merge, first = FIRST_FREE, FIRST_FREE + 1
    words, blocks, pairs_ = [], [], []
    for n in range(cases):
        words += [n, first + n]
        blocks += inst(248, first + n) + inst(249, merge)
        pairs_ += [ONE, first + n]
    body = inst(247, merge, 0) + inst(251, ONE, first, *words) + blocks + inst(248, merge)
    ident = first + cases
    while 4 * (len(body) + len(pairs_)) < size - 400:
        body += inst(245, UINT, ident, *pairs_)
        ident += 1
    return module(main_of(body), ident)


def calls(size):
    """Layers of functions, of which each calls all of the layer before: many chains, none of them longer than 62."""
    width = 1
    while 60 * (16 * (width + 1) ** 2 + 60 * (width + 1)) < size:
        width += 1
    body, ident, layer = [], FIRST_FREE, []
    for _ in range(60):
        next_layer = []
        for _ in range(width):
            function = ident
            next_layer.append(function)
            body += inst(54, VOID, function, 0, FUNCTION_TYPE) + inst(248, function + 1)
            ident += 2
            for callee in layer:
                body += inst(57, VOID, ident, callee)
                ident += 1
            body += inst(253) + inst(56)
        layer = next_layer
    return module(body + main_of(inst(57, VOID, ident, layer[0])), ident + 1)


def buffers(size):
    """Storage buffers, each of a block of its own."""
    decorations, declared, ident = [], [], FIRST_FREE
    binding = 0
    while 4 * (len(decorations) + len(declared)) < size - 400:
        block, pointer, variable = ident, ident + 1, ident + 2
        decorations += inst(71, block, 2) + inst(72, block, 0, 35, 0)
        decorations += inst(71, variable, 34, binding % 7) + inst(71, variable, 33, binding)
        declared += inst(30, block, UINT) + inst(32, pointer, 12, block) + inst(59, pointer, variable, 12)
        ident += 3
        binding += 1
    return module(main_of([]), ident, decorations, declared)


def decorations(size):
    """Decorations that are ignored, all of one id."""
    decorations, variable = [], FIRST_FREE + 1
    while 4 * len(decorations) < size - 400:
        decorations += inst(71, variable, 0)
    declared = inst(32, FIRST_FREE, 7, UINT)
    return module(main_of(inst(59, FIRST_FREE, variable, 7)), FIRST_FREE + 2, decorations, declared)


def nops(size):
    """The least instruction, as often as there is room."""
    return module(main_of(inst(0) * ((size - 400) // 4)), FIRST_FREE)


def chains(size):
    """Access chains into a struct of many members, each by the constant of its last."""
    members = 1000
    declared = inst(30, FIRST_FREE, *[UINT] * members) + inst(32, FIRST_FREE + 1, 7, FIRST_FREE)
    declared += inst(32, FIRST_FREE + 3, 7, UINT) + inst(43, UINT, FIRST_FREE + 4, members - 1)
    body, ident = inst(59, FIRST_FREE + 1, FIRST_FREE + 2, 7), FIRST_FREE + 5
    while 4 * len(body) < size - 4 * members - 500:
        body += inst(65, FIRST_FREE + 3, ident, FIRST_FREE + 2, FIRST_FREE + 4)
        ident += 1
    return module(main_of(body), ident, declarations=declared)


FIXED = [
    ("smallest", smallest),
    ("22 structs, pairs, 64 undefined", lambda: pairs(22, 64)),
    ("20 structs, pairs, 512 undefined", lambda: pairs(20, 512)),
    ("struct of 60,000 members, 100,000 undefined", lambda: wide_struct(60_000, 100_000)),
    ("295 structs of 2,300 members, 86,000 CopyLogical", lambda: logical_copies(295, 2300, 86_000)),
    ("2 structs of 65,000 Offsets, unreached", lambda: offsets(2, 65_000, False)),
    ("2 structs of 65,000 Offsets, reached", lambda: offsets(2, 65_000, True)),
    ("null of 4,000,000 uints", lambda: null_array(4_000_000, 0)),
    ("null of 1,500,000, nested 30 deep", lambda: null_array(1_500_000, 30)),
]
BY_SIZE = [constants, wide_constants, wide_composites, switches, phis, calls, buffers, decorations, nops, chains]
SIZES = [32_000, 400_000, 4_100_000]


def modules():
    for name, make in FIXED:
        yield name, make
    for make in BY_SIZE:
        for size in SIZES:
            yield make.__name__.replace("_", " "), lambda make=make, size=size: make(size)


def main():
    program = os.path.abspath(sys.argv[1])
    word = sys.argv[2] if len(sys.argv) > 2 else ""
    lines = [
        "Written by `bench/growth.py`, outside the gate: modules that are wide, deep or large for their size, all accepted. Each",
        "time is the least of three runs. The bar is a second and 400 MiB, and for modules under 40 KiB the time of `spirv-val` and",
        "8 MiB. The two null constants are over the latter: the row of a constant is kept in full, 16 bytes a cell.",
        "",
        "| module | bytes | spvdbg check | spirv-val | memory |",
        "|---|---|---|---|---|",
    ]
    over = []
    with tempfile.TemporaryDirectory() as folder:
        path = os.path.join(folder, "module.spv")
        for name, make in modules():
            if word not in name:
                continue
            data = make()
            assert len(data) <= 4_194_304, (name, len(data))
            with open(path, "wb") as file:
                file.write(data)
            small = len(data) < SMALL
            ours, theirs, memory = measure(program, path, small)
            val = "%.1f ms" % (theirs * 1000) if theirs is not None else "over %d s" % PATIENCE if small else ""
            slower = small and theirs is not None and ours > theirs
            lines.append("| %s | %s | %.1f ms | %s | %.1f MiB |" % (name, format(len(data), ","), ours * 1000, val, memory))
            if slower or small and memory > SMALL_MEMORY or ours > MOST_SECONDS or memory > MOST_MEMORY:
                over.append(name)
                lines[-1] += " over"
            print(lines[-1], flush=True)
    if over:
        print("over the bar: " + ", ".join(over))
    if not word:
        write_section("Growth of `check`", [line.removesuffix(" over") for line in lines])


main()
