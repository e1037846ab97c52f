#!/usr/bin/env python3
"""Measures motions over many events beside `fwd` and `back`, outside the gate.

    bench/motion_size.py PROGRAM                    seconds of the processor, over a million events
    bench/motion_size.py PROGRAM --instructions     instructions, as valgrind's callgrind counts them, over a tenth of these

A row is what a motion costs, by how many times that of `fwd` or `back` over the same events, and the bar. A cost is the difference
between sessions with and without the motion, so opening and the way there don't count. The bars: steps within 2 times, `continue`
with 64 breaks within 2, with a watch on a global of 32 bits within 4, and with 32 watches on locals within 10.
"""
import os
import re
import subprocess
import sys
import debug_size
from source_modules import FUNCTION, INPUT, LOCAL_INDEX, WORKGROUP, line, scope
from variable_modules import UNSIGNED, Described, event, module

EVENTS, KEPT, TENTH, LOCALS, BREAKS, FIRST_LINE = 1_000_000, 200_000, 10, 32, 64, 100
OF_FWD, OF_BREAKS, OF_WATCH, OF_LOCALS = 2, 2, 4, 10


def mixture(n):
    """Loads, additions, exclusive ors and stores, forty in all."""
    for k in range(n * 10, n * 10 + 10):
        yield from [("a%d" % k, "Load", "uint", "x"), ("b%d" % k, "IAdd", "uint", "a%d" % k, "c1"), ("e%d" % k, "BitwiseXor", "uint", "b%d" % k, "a%d" % k), (None, "Store", "x", "e%d" % k)]


def loop(n, turns, at, before=()):
    """A loop of so many turns, of 43 events each, all on one line; it is entered from the block `before`, and then stands in one of its own."""
    head, body, end, k = "head%d" % n, "body%d" % n, "end%d" % n, "k%d" % n
    again = [scope(*before), line("source", at)]
    return [
        (None, "Branch", head), (head, "Label"), (k, "Phi", "uint", "c0", "from%d" % n, k + "n", body), *again, (k + "m", "ULessThan", "bool", k, "c%d" % turns),
        (None, "LoopMerge", end, body, 0), (None, "BranchConditional", k + "m", body, end),
        (body, "Label"), *again, *mixture(n), (k + "n", "IAdd", "uint", k, "c1"), (None, "Branch", head), (end, "Label"),
    ]


PER_TURN = 44


def stepped(events):
    """main calls f on line 10, which loops on line 20 for so many events, and loops on line 11 for as many itself."""
    d, turns = Described(), events // PER_TURN
    declared = [("to_x", "TypePointer", WORKGROUP, "uint"), ("x", "Variable", "to_x", WORKGROUP)]
    body = [
        ("f", "Function", "void", 0, "fn"), ("from0", "Label"), scope("df"), line("source", 19), (None, "Store", "x", "c1"), *loop(0, turns, 20, ("df",)), scope("df"), line("source", 21),
        (None, "Return",), (None, "FunctionEnd",),
        ("main", "Function", "void", 0, "fn"), ("from1", "Label"), scope("dmain"), line("source", 9), (None, "Store", "x", "c1"), line("source", 10), ("-", "FunctionCall", "void", "f"),
        line("source", 11), (None, "Store", "x", "c2"), *loop(1, turns, 11, ("dmain",)), scope("dmain"), line("source", 12), (None, "Store", "x", "c3"), (None, "Return",), (None, "FunctionEnd",),
    ]
    return module(d, declared, body, 1, ("x",), functions=(("dmain", "main", "unit"), ("df", "f", "unit"))).data


def stopped(turns):
    """main loops on line 11; it has 32 locals in memory, a global, and 64 lines that are never reached."""
    d = Described()
    number = d.basic(32, UNSIGNED)
    d.of_module("g", number, "g")
    variables = [d.local("v%d" % k, number) for k in range(LOCALS)]
    declared = [
        ("to_x", "TypePointer", WORKGROUP, "uint"), ("x", "Variable", "to_x", WORKGROUP), ("g", "Variable", "to_x", WORKGROUP), ("to_local", "TypePointer", FUNCTION, "uint"),
        ("yes", "ConstantTrue", "bool"),
    ]
    unreached = [row for k in range(BREAKS) for row in (line("source", FIRST_LINE + k), ("u%d" % k, "IAdd", "uint", "c1", "c1"))]
    body = [
        ("main", "Function", "void", 0, "fn"), ("first", "Label"), *[("l%d" % k, "Variable", "to_local", FUNCTION) for k in range(LOCALS)], scope("dmain"), line("source", 9),
        *[d.told(variable, *event("l%d" % k, declare=True)) for k, variable in enumerate(variables)],
        (None, "Store", "x", "c1"), (None, "Store", "g", "c1"), *[(None, "Store", "l%d" % k, "c%d" % k) for k in range(LOCALS)],
        (None, "SelectionMerge", "from0", 0), (None, "BranchConditional", "yes", "from0", "never"), ("never", "Label"), scope("dmain"), *unreached, (None, "Branch", "from0"),
        ("from0", "Label"), scope("dmain"), line("source", 10), (None, "Store", "x", "c2"), *loop(0, turns, 11, ("dmain",)), scope("dmain"), line("source", 12), (None, "Return",), (None, "FunctionEnd",),
    ]
    return module(d, declared, body, 1, ("x", "g")).data


# ---- what is measured

class Measured:
    """What sessions over a module cost, in seconds or in instructions."""

    def __init__(self, program, data, rounds, in_instructions):
        self.sessions, self.program, self.in_instructions = debug_size.Sessions(program, data, rounds), program, in_instructions

    def cost(self, commands):
        if not self.in_instructions:
            return self.sessions.run(commands)[1]
        at = lambda name: os.path.join(self.sessions.folder.name, name)
        with open(at("commands"), "w") as file:
            file.write(commands)
        words = ["valgrind", "--tool=callgrind", "--callgrind-out-file=/dev/null", self.program, "debug", at("module"), at("setup")]
        with open(at("commands")) as file:
            told = subprocess.run(words, stdin=file, stdout=subprocess.DEVNULL, stderr=subprocess.PIPE, check=True).stderr.decode()
        return int(re.search(r"Collected : (\d+)", told).group(1))

    def position(self, commands):
        """Where commands end."""
        last = self.sessions.session(commands)[0][-1]
        return int(last[1 : last.index(" ")])

    def row(self, what, there, motion, bar):
        """A motion behind some commands, beside `fwd` or `back` over the same events."""
        start, end = self.position(there + "where\n"), self.position(there + motion + "\n")
        plain = "fwd %d" % (end - start) if end >= start else "back %d" % (start - end)
        without = self.cost(there)
        whole, beside = self.cost(there + motion + "\n") - without, self.cost(there + plain + "\n") - without
        times, many = whole / beside if beside else 0, abs(end - start)
        costs = "%.0f | %.0f" % (whole / many, beside / many) if self.in_instructions else "%.0f ns | %.0f ns" % (whole / many * 1e9, beside / many * 1e9)
        print("| %s | %s | %s | %.2f | %s |" % (what, format(many, ","), costs, times, ("%d" % bar + " (over)" * (times > bar)) if bar else ""), flush=True)


def steps(program, events, in_instructions):
    kept = KEPT * events // EVENTS
    forth, back = (Measured(program, stepped(many), 3 * many, in_instructions) for many in (events, kept))
    forth.row("`next` over a call", "stepi\n", "next", OF_FWD)
    forth.row("`finish` out of it", "stepi 2\n", "finish", OF_FWD)
    forth.row("`step` behind a loop on one line", "stepi 4\n", "step", OF_FWD)
    forth.row("`stepi` to the end", "", "stepi 4294967295", OF_FWD)
    forth.row("`continue` to the end", "", "continue", OF_FWD)
    # (all of these go back over events that are kept)
    at_call, in_call = "stepi\nnext\n", "stepi 2\nstep\nstep\n"
    back.row("`rstep` to a loop on one line", in_call, "rstep", OF_FWD)
    back.row("`rnext` over a call", at_call, "rnext", OF_FWD)
    back.row("`rfinish` out of it", in_call, "rfinish", OF_FWD)
    back.row("`rstepi` to the start", at_call, "rstepi 4294967295", OF_FWD)
    back.row("`rcontinue` to the start", at_call, "rcontinue", OF_FWD)


def stops(program, events, in_instructions):
    kept = KEPT * events // EVENTS
    breaks = "".join("break %d\n" % (FIRST_LINE + k) for k in range(BREAKS))
    locals_ = "".join("watch v%d\n" % k for k in range(LOCALS))
    for motion, many in (("continue", events), ("rcontinue", kept)):
        measured = Measured(program, stopped(many // PER_TURN), 3 * many, in_instructions)
        there = "stepi 40\n" if motion == "continue" else "goto %d\n" % many
        # (a break in the loop's first line ends the way back where the events are kept)
        near = "" if motion == "continue" else "break v.comp:10\n"
        measured.row("`%s` with 64 breaks" % motion, there + breaks[: None if not near else breaks.rindex("break")] + near, motion, OF_BREAKS)
        measured.row("`%s` with a watch on a global" % motion, there + near + "watch g\n", motion, OF_WATCH)
        measured.row("`%s` with 32 watches on locals" % motion, there + near + locals_, motion, OF_LOCALS)
        measured.row("`%s` with all of these" % motion, there + breaks[: None if not near else breaks.rindex("break")] + near + locals_[: locals_.rindex("watch")] + "watch g\n", motion, None)


def main():
    program, in_instructions = os.path.abspath(sys.argv[1]), "--instructions" in sys.argv
    events = EVENTS // TENTH if in_instructions else EVENTS
    print("| motion | events | an event | by `fwd` or `back` | times | bar |\n|---|---|---|---|---|---|")
    steps(program, events, in_instructions)
    stops(program, events, in_instructions)


if __name__ == "__main__":
    main()
