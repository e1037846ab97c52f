#!/usr/bin/env python3
"""Times `spvdbg text` on modules of about 4 MiB, and writes the table into docs/BENCH.md.

usage: bench/listing.py PROGRAM, where PROGRAM is the built spvdbg. Each module has to be accepted. A listing has to take at
most a second and 400 MiB.
"""
import os
import subprocess
import sys
import tempfile

from spirv import FIRST_FREE, MAIN, ONE, RUNS, UINT
from spirv import inst, main_of, memory_of, module, seconds_of, text, write_section

SIZE = 4_190_000
MOST_SECONDS, MOST_MEMORY = 1.0, 400


def nops():
    """The least instruction, as often as there is room."""
    return module(main_of(inst(0) * ((SIZE - 400) // 4)), FIRST_FREE)


def additions():
    """Additions, each of the one before it and a constant."""
    count = (SIZE - 400) // 20
    body, last = [], ONE
    for n in range(count):
        body += inst(128, UINT, FIRST_FREE + n, last, ONE)
        last = FIRST_FREE + n
    return module(main_of(body), FIRST_FREE + count)


def wide_constants():
    """Constant structs of many members."""
    members = 60_000
    declared = inst(30, FIRST_FREE, *[UINT] * members)
    count = (SIZE - 400 - 4 * members) // (4 * members + 12)
    for n in range(count):
        declared += inst(44, FIRST_FREE, FIRST_FREE + 1 + n, *[ONE] * members)
    return module(main_of([]), FIRST_FREE + 1 + count, declarations=declared)


def escapes():
    """Names of bytes that are written by four bytes each."""
    length = 200_000
    named = []
    for _ in range((SIZE - 400) // (length + 12)):
        named += inst(5, MAIN, *text("\x01" * length))
    return module(main_of([]), FIRST_FREE, decorations=named)


def main():
    program = os.path.abspath(sys.argv[1])
    lines = [
        "Written by `bench/listing.py`, outside the gate: the listings of modules of about 4 MiB. Each time is the least of %d runs." % RUNS,
        "The bar is a second and 400 MiB.",
        "",
        "| module | bytes | bytes of the listing | spvdbg text | memory |",
        "|---|---|---|---|---|",
    ]
    over = []
    with tempfile.TemporaryDirectory() as folder:
        path = os.path.join(folder, "module.spv")
        for make in [nops, additions, wide_constants, escapes]:
            name = make.__name__.replace("_", " ")
            data = make()
            assert len(data) <= 4_194_304, (name, len(data))
            with open(path, "wb") as file:
                file.write(data)
            command = [program, "text", path]
            written = len(subprocess.run(command, stdout=subprocess.PIPE, check=True).stdout)
            seconds = min(seconds_of(command) for _ in range(RUNS))
            memory = memory_of(command)
            lines.append("| %s | %s | %s | %.1f ms | %.1f MiB |" % (name, format(len(data), ","), format(written, ","), seconds * 1000, memory))
            print(lines[-1], flush=True)
            if seconds > MOST_SECONDS or memory > MOST_MEMORY:
                over.append(name)
    if over:
        print("over the bar: " + ", ".join(over))
    write_section("Listings by `text`", lines)


main()
