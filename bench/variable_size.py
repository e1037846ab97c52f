#!/usr/bin/env python3
"""Times `locals` and `print` over much, outside the gate: bench/variable_size.py PROGRAM

`locals` in a frame with 100 variables and 100,000 passed events has to take at most 50 ms, `print` of an array of 4,000,000 elements 10 ms.
Seconds are of the processor, the difference between sessions with and without many of the command.
"""
import os
import sys
import debug_size
from source_modules import STORAGE, scope
from variable_modules import UNSIGNED, Described, event, module


def many_events(in_loop, variables=100, events=100_000, rows=20_000):
    """100 locals, each told first; then a block of `rows` DebugValues of the first few is gone round until so many were passed."""
    d = Described()
    ty = d.basic(32, UNSIGNED)
    held = [d.local("v%d" % k, ty) for k in range(variables)]
    early = [d.told(variable, *event("c7")) for variable in held]
    told = [d.told(held[k % in_loop], *event("turn")) for k in range(rows)]
    body = [
        ("main", "Function", "void", 0, "fn"), ("first", "Label"), scope("dmain"), *early, (None, "Branch", "loop"),
        ("loop", "Label"), ("turn", "Phi", "uint", "c0", "first", "next", "loop"), scope("dmain"), *told, ("next", "IAdd", "uint", "turn", "c1"),
        ("more", "ULessThan", "bool", "next", "c%d" % (events // rows)), (None, "LoopMerge", "end", "loop", 0), (None, "BranchConditional", "more", "loop", "end"),
        ("end", "Label"), scope("dmain"), (None, "Return",), (None, "FunctionEnd",),
    ]
    return module(d, [], body).data


def large_array(count=4_000_000):
    d = Described()
    d.of_module("b", d.composite(("v", d.array(d.basic(32, UNSIGNED), count))), "b")
    declared = [("numbers", "TypeRuntimeArray", "uint"), ("B", "TypeStruct", "numbers"), ("to_block", "TypePointer", STORAGE, "B"), ("b", "Variable", "to_block", STORAGE)]
    decorated = [(None, "Decorate", "B", 2), (None, "MemberDecorate", "B", 0, 35, 0), (None, "Decorate", "numbers", 6, 4), (None, "Decorate", "b", 34, 0), (None, "Decorate", "b", 33, 0)]
    body = [("main", "Function", "void", 0, "fn"), ("-", "Label"), scope("dmain"), (None, "Return",), (None, "FunctionEnd",)]
    return module(d, declared, body, 1, ("b",), decorated).data


def main():
    program = os.path.abspath(sys.argv[1])
    for in_loop in (100, 1):
        sessions = debug_size.Sessions(program, many_events(in_loop), 100_000)
        print("locals, 100 variables, 100,000 events, the last of %d: %.2f ms (bar 50)" % (in_loop, 1000 * sessions.one("locals", 40, "goto 16\n")), flush=True)
    sessions = debug_size.Sessions(program, large_array(), 10)
    with open(os.path.join(sessions.folder.name, "setup"), "w") as file:
        file.write("spvdbg-setup 1\nbuffer 0 0 zero 16000000\nrounds 10\n")
    for command in ("print b", "print b.v", "print b.v[3999999]", "globals"):
        print("%s of 4,000,000 elements: %.2f ms (bar 10)" % (command, 1000 * sessions.one(command, 2_000)))


if __name__ == "__main__":
    main()
