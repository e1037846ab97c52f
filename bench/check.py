#!/usr/bin/env python3
"""Times `spvdbg check` beside Debian's `spirv-val` on generated modules, and writes the table into docs/BENCH.md.

usage: bench/check.py PROGRAM, where PROGRAM is the built spvdbg (crates/spvdbg/out/spvdbg after `rt run` there).
Each time is the least of three runs, both programs in turn; memory is the greatest resident size.
"""
import os
import sys
import tempfile

from spirv import FIRST_FREE, FUNCTION_TYPE, MAIN, ONE, PATIENCE, RUNS, TRUE, UINT, VOID
from spirv import inst, main_of, measure, module, version_of_validator, write_section

SIZES = [40_960, 409_600, 4_194_304]


def additions(size):
    """One block of additions, each of the one before it and a constant."""
    count = (size - 400) // 20
    body = []
    last = ONE
    for n in range(count):
        body += inst(128, UINT, FIRST_FREE + n, last, ONE)
        last = FIRST_FREE + n
    return module(main_of(body), FIRST_FREE + count)


def blocks(size):
    """Blocks of a selection each: two of three words are labels and branches."""
    count = (size - 400) // 60
    label = FIRST_FREE
    body = []
    for n in range(count):
        one, two = label, label + 1
        body += inst(247, two, 0) + inst(250, TRUE, one, two)
        body += inst(248, one) + inst(249, two) + inst(248, two)
        label += 2
    return module(main_of(body), label)


def functions(size):
    """Functions that each call the one before them, in chains of 32."""
    count = (size - 400) // 64
    ident = FIRST_FREE
    body = []
    previous = None
    for n in range(count):
        body += inst(54, VOID, ident, 0, FUNCTION_TYPE) + inst(248, ident + 1)
        if n % 32 and previous:
            body += inst(57, VOID, ident + 2, previous)
        body += inst(253) + inst(56)
        previous = ident
        ident += 3
    return module(body + main_of([]), ident)


def main():
    program = os.path.abspath(sys.argv[1])
    lines = [
        "Written by `bench/check.py`, outside the gate: each time is the least of %d runs, both programs in turn on one machine;" % RUNS,
        "`spirv-val` is that of %s. Memory is the greatest resident size of `spvdbg check`." % version_of_validator(),
        "",
        "| module | bytes | spvdbg check | spirv-val | memory |",
        "|---|---|---|---|---|",
    ]
    with tempfile.TemporaryDirectory() as folder:
        for name, make in [("additions", additions), ("blocks", blocks), ("functions", functions)]:
            for size in SIZES:
                data = make(size)
                path = os.path.join(folder, "%s-%d.spv" % (name, size))
                with open(path, "wb") as file:
                    file.write(data)
                ours, theirs, memory = measure(program, path)
                val = "over %d s" % PATIENCE if theirs is None else "%.1f ms" % (theirs * 1000)
                lines.append("| %s | %s | %.1f ms | %s | %.0f MiB |" % (name, format(len(data), ","), ours * 1000, val, memory))
                print(lines[-1], flush=True)
    write_section("`check` beside `spirv-val`", lines)


main()
