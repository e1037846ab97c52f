#!/usr/bin/env python3
"""Measures a run that stores an array of 65,536 integers 10,000 times: to its end, and back over what the journal keeps.

    bench/stores.py             prints the row of docs/BENCH.md's table on large stores, for the program of crates/spvdbg
    bench/stores.py PROGRAM     the same for another program

A journal has room for 1,048,576 marks and entries, and an entry counts the leaves that it puts back: so fifteen of these stores are
kept. The script goes back over BACK events and looks whether the session replies what one replies that went there at once; else,
or where the greatest resident size of the program reaches LIMIT, its status is 1.
"""
import os
import struct
import subprocess
import sys
import tempfile
from spirv import HEADER, MAIN, TOP, UINT, VOID, FUNCTION_TYPE, inst, text

STORES, LEAVES, BACK, LIMIT = 10000, 65536, 100, 200
BOOL, ZERO, ONE, MANY, SIZE, ARRAY, NULL, BIG_POINTER, PART_POINTER, OWN_POINTER, BIG, OWN = range(8, 20)
ENTRY, HEAD, TEST, BODY, CONTINUE, DONE, COUNT, LESS, OLD, PLACE, NEXT = range(20, 31)
BOUND = 31


def module():
    """Each turn loads an element of the array, stores the whole array and then the turn's number in that element."""
    words = HEADER + [BOUND, 0]
    words += inst(17, 1) + inst(14, 0, 1) + inst(15, 5, MAIN, *text("main"), BIG) + inst(16, MAIN, 17, 1, 1, 1)
    words += inst(19, VOID) + inst(33, FUNCTION_TYPE, VOID) + inst(21, UINT, 32, 0) + inst(20, BOOL)
    words += inst(43, UINT, ZERO, 0) + inst(43, UINT, ONE, 1) + inst(43, UINT, MANY, STORES) + inst(43, UINT, SIZE, LEAVES)
    words += inst(28, ARRAY, UINT, SIZE) + inst(46, ARRAY, NULL)
    words += inst(32, BIG_POINTER, 6, ARRAY) + inst(32, PART_POINTER, 6, UINT) + inst(32, OWN_POINTER, 7, UINT)
    words += inst(59, BIG_POINTER, BIG, 6)
    words += inst(54, VOID, MAIN, 0, FUNCTION_TYPE) + inst(248, ENTRY) + inst(59, OWN_POINTER, OWN, 7)
    words += inst(62, BIG, NULL) + inst(62, OWN, ZERO) + inst(65, PART_POINTER, PLACE, BIG, ONE) + inst(249, HEAD)
    words += inst(248, HEAD) + inst(246, DONE, CONTINUE, 0) + inst(249, TEST)
    words += inst(248, TEST) + inst(61, UINT, COUNT, OWN) + inst(176, BOOL, LESS, COUNT, MANY) + inst(250, LESS, BODY, DONE)
    words += inst(248, BODY) + inst(61, UINT, OLD, PLACE) + inst(62, BIG, NULL) + inst(62, PLACE, COUNT) + inst(249, CONTINUE)
    words += inst(248, CONTINUE) + inst(128, UINT, NEXT, COUNT, ONE) + inst(62, OWN, NEXT) + inst(249, HEAD)
    words += inst(248, DONE) + inst(253) + inst(56)
    return struct.pack("<%dI" % len(words), *words)


def session(program, folder, commands):
    """The replies, the seconds of the processor and the greatest resident size in MiB of a session."""
    with open(folder + "/commands", "w") as file:
        file.write(commands)
    with open(folder + "/commands") as file, open(folder + "/replies", "wb") as replies:
        process = subprocess.Popen([program, "debug", folder + "/module", folder + "/setup"], stdin=file, stdout=replies)
        _, status, used = os.wait4(process.pid, 0)
    process.returncode = os.waitstatus_to_exitcode(status)
    if process.returncode != 0:
        sys.exit("status %d" % process.returncode)
    with open(folder + "/replies") as file:
        return file.read().splitlines(), used.ru_utime + used.ru_stime, used.ru_maxrss / 1024


def main():
    program = os.path.abspath(sys.argv[1] if len(sys.argv) > 1 else os.path.join(TOP, "crates", "spvdbg", "out", "spvdbg"))
    with tempfile.TemporaryDirectory() as folder:
        for name, content in (("module", module()), ("setup", b"spvdbg-setup 1\nrounds 1000000\n")):
            with open(os.path.join(folder, name), "wb") as file:
                file.write(content)
        replies, seconds, memory = session(program, folder, "goto 4000000\nquit\n")
        end = int(replies[-1].split()[0][1:])
        there, _, _ = session(program, folder, "goto %d\nregs\nquit\n" % (end - BACK))
        back, _, most = session(program, folder, "goto 4000000\nback %d\nregs\nquit\n" % BACK)
    print("| stores | events | seconds to the end | memory |\n|---|---|---|---|")
    print("| %s | %s | %.1f | %.0f MiB |" % (format(STORES, ","), format(end, ","), seconds, max(memory, most)))
    if back[2:] != there:
        sys.exit("back: %s, and at once: %s" % (back[2:], there))
    if max(memory, most) >= LIMIT:
        sys.exit("over %d MiB" % LIMIT)


if __name__ == "__main__":
    main()
