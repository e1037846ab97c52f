#!/usr/bin/env python3
"""Measures how many events a second a run makes, forward and back, outside the gate.

    bench/steps.py             prints the rows of docs/BENCH.md's tables on events
    bench/steps.py forward     those of one table alone: forward, invocations, entries, back, again or probes

The environment's SPVDBG names the program, else it is that of crates/spvdbg. Times are of the processor, user and system
together, as the system tells them of the ended process, so that other work on the machine counts as little as can be. Each is
the least of five; those of the table "forward" are the least of fifteen, all rows in turn. A run's own time is the difference
between two calls of the program on one module and setup, of which one goes to a late position and the other to an early one;
so opening, the start and the replies count in neither.
"""
import os
import struct
import subprocess
import sys
import tempfile
from spirv import FUNCTION_TYPE, HEADER, MAIN, TOP, UINT, VOID, inst, text

PROGRAM = os.environ.get("SPVDBG") or os.path.join(TOP, "crates", "spvdbg", "out", "spvdbg")
RUNS = 5
FORWARD_RUNS = 15
ENTRIES = 4194304
POINTER, ONE, VARIABLE, ENTRY, HEAD, BODY, CONTINUE, DONE = 4, 5, 6, 8, 9, 10, 11, 12
TWO, MEMORY, SIZE, ARRAY, ARRAY_POINTER, SHARED_POINTER, INPUT_POINTER, INDEX, SHARED = range(13, 22)
BOOL, ZERO = 22, 23
FIRST = 30


def module(body, bound, invocations=1, decorations=(), declarations=(), interface=(), first=()):
    """A module whose function goes round a body for ever."""
    words = HEADER + [bound, 0]
    words += inst(17, 1) + inst(14, 0, 1) + inst(15, 5, MAIN, *text("main"), *interface) + inst(16, MAIN, 17, invocations, 1, 1)
    words += decorations
    words += inst(19, VOID) + inst(33, FUNCTION_TYPE, VOID) + inst(21, UINT, 32, 0) + inst(32, POINTER, 7, UINT)
    words += inst(43, UINT, ONE, 1)
    words += declarations
    words += inst(54, VOID, MAIN, 0, FUNCTION_TYPE) + inst(248, ENTRY) + inst(59, POINTER, VARIABLE, 7) + inst(62, VARIABLE, ONE)
    words += list(first) + inst(249, HEAD)
    words += inst(248, HEAD) + inst(246, DONE, CONTINUE, 0) + inst(249, BODY)
    words += inst(248, BODY) + body + inst(249, CONTINUE) + inst(248, CONTINUE) + inst(249, HEAD)
    words += inst(248, DONE) + inst(253) + inst(56)
    return struct.pack("<%dI" % len(words), *words)


def mixed(size):
    """Loads, additions, exclusive ors and stores, of so many bytes: each value is used by the next instruction."""
    body, id = [], FIRST
    while 4 * len(body) < size - 400:
        body += inst(61, UINT, id, VARIABLE) + inst(128, UINT, id + 1, id, ONE)
        body += inst(198, UINT, id + 2, id + 1, id) + inst(62, VARIABLE, id + 2)
        id += 3
    return module(body, id)


def registers(count, stores=40000):
    """So many registers, and then stores of them, one after the other, in steps of 7,919."""
    first, body = [], []
    for n in range(count):
        first += inst(61, UINT, FIRST + n, VARIABLE)
    for n in range(stores):
        body += inst(62, VARIABLE, FIRST + n * 7919 % count)
    return module(body, FIRST + count, first=first)


def shared(invocations, body_of):
    """A workgroup with an array that has a place for each invocation, and the invocation's place in it."""
    declarations = inst(43, UINT, TWO, 2) + inst(43, UINT, MEMORY, 264) + inst(43, UINT, SIZE, invocations) + inst(43, UINT, ZERO, 0)
    declarations += inst(20, BOOL) + inst(28, ARRAY, UINT, SIZE) + inst(32, ARRAY_POINTER, 4, ARRAY) + inst(32, SHARED_POINTER, 4, UINT)
    declarations += inst(32, INPUT_POINTER, 1, UINT) + inst(59, INPUT_POINTER, INDEX, 1) + inst(59, ARRAY_POINTER, SHARED, 4)
    first = inst(61, UINT, FIRST, INDEX) + inst(65, SHARED_POINTER, FIRST + 1, SHARED, FIRST)
    body = body_of(FIRST + 1)
    return module(body, FIRST + 10, invocations, inst(71, INDEX, 11, 29), declarations, (INDEX, SHARED), first + inst(62, FIRST + 1, FIRST))


def with_barriers(invocations):
    """Each invocation adds one to its place in shared memory, and waits at two barriers in each turn."""
    barrier = inst(224, TWO, TWO, MEMORY)
    return shared(invocations, lambda place: inst(61, UINT, FIRST + 2, place) + barrier + inst(128, UINT, FIRST + 3, FIRST + 2, ONE)
                  + inst(198, UINT, FIRST + 4, FIRST + 3, FIRST) + barrier + inst(62, place, FIRST + 4))


def one_goes_on(invocations):
    """The invocation 0 goes round for ever, and all others are finished after a few events, so that their entries are idle."""
    words = inst(170, BOOL, FIRST + 2, FIRST, ZERO) + inst(247, FIRST + 5, 0) + inst(250, FIRST + 2, FIRST + 5, FIRST + 4)
    return shared(invocations, lambda place: words + inst(248, FIRST + 4) + inst(253) + inst(248, FIRST + 5) + inst(62, place, ONE))


class Calls:
    """Calls of the program on one module, with as many rounds as fit."""

    def __init__(self, folder, data, invocations=1):
        self.folder, self.data = folder, data
        for name, content in (("module", data), ("setup", b"spvdbg-setup 1\nrounds %d\n" % (ENTRIES // invocations))):
            with open(os.path.join(folder, name), "wb") as file:
                file.write(content)

        self.words = [PROGRAM, "debug", folder + "/module", folder + "/setup"]

    def started(self, words, commands):
        path = os.path.join(self.folder, "commands")
        with open(path, "w") as file:
            file.write(commands)
        with open(path) as file:
            return subprocess.Popen(words, stdin=file, stdout=subprocess.DEVNULL, stderr=subprocess.PIPE, text=True)

    def once(self, commands):
        """Seconds of the processor."""
        process = self.started(self.words, commands)
        _, status, used = os.wait4(process.pid, 0)
        process.returncode = os.waitstatus_to_exitcode(status)
        if process.returncode != 0:
            sys.exit("status %d" % process.returncode)
        return used.ru_utime + used.ru_stime

    def least(self, commands):
        return min(self.once(commands) for _ in range(RUNS))

    def seconds(self, late, early=64):
        """Seconds between two positions, forward."""
        return self.least("goto %d\n" % late) - self.least("goto %d\n" % early)

    def memory(self, commands):
        """The greatest resident size in MiB, as GNU time tells it."""
        return int(self.started(["/usr/bin/time", "-f", "%M"] + self.words, commands).communicate()[1].split()[-1]) / 1024


def called(data, invocations=1):
    folder = tempfile.TemporaryDirectory()
    calls = Calls(folder.name, data, invocations)
    calls.kept = folder
    return calls


def compiled():
    """A shader as glslangValidator compiles it, whose loop goes on for as many turns as its buffer says."""
    with open(os.path.join(TOP, "crates", "test_runs", "data", "flow-cases.spv"), "rb") as file:
        calls = called(file.read())
    with open(os.path.join(calls.folder, "setup"), "w") as file:
        file.write("spvdbg-setup 1\nbuffer 0 0 hex ffffffff%s\nrounds %d\n" % ("00000000" * 4, ENTRIES))
    return calls


def in_turn(calls, commands, runs):
    """The least seconds of so many runs of each of the commands by each of the calls, all in turn: so each has its share of slow moments."""
    least = [[float("inf")] * len(commands) for _ in calls]
    for _ in range(runs):
        for call, best in zip(calls, least):
            for n, command in enumerate(commands):
                best[n] = min(best[n], call.once(command))
    return least


def forward():
    print("| module | bytes | million events a second |\n|---|---|---|")
    rows = [("1 KiB", mixed(1 << 10)), ("100 KiB", mixed(100 << 10)), ("4 MiB", mixed(4 << 20)), ("10 registers", registers(10)), ("10,000 registers", registers(10000))]
    least = in_turn([called(data) for _, data in rows], ["goto 64\n", "goto %d\n" % ENTRIES], FORWARD_RUNS)
    for (name, data), (early, late) in zip(rows, least):
        print("| %s | %s | %.1f |" % (name, format(len(data), ","), (ENTRIES - 64) / (late - early) / 1e6))


def invocations():
    print("| invocations | ns an event |\n|---|---|")
    for count in (1, 64, 1024):
        calls = called(with_barriers(count), count)
        print("| %s | %.0f |" % (format(count, ","), calls.seconds(ENTRIES, 8 * count) / (ENTRIES - 8 * count) * 1e9))


def entries():
    print("| 4,194,304 entries over 1,024 invocations | `goto 4194304` | with opening |\n|---|---|---|")
    for name, data in (("each makes an event", with_barriers(1024)), ("all but those of one invocation are idle", one_goes_on(1024))):
        calls = called(data, 1024)
        nothing, whole = calls.least("\n"), calls.least("goto %d\n" % ENTRIES)
        print("| %s | %.2f s | %.2f s |" % (name, whole - nothing, whole))


def back(position=1_000_000, by=100_000, times=30):
    """Going back within what the journal keeps: `by` events are fewer than it has room for. Forward is told once the journal is full."""
    print("| run | million events a second forward | back | memory before the run | memory with a full journal |\n|---|---|---|---|---|")
    for name, count, data in (("1 KiB of a mixture", 1, mixed(1 << 10)), ("64 invocations with barriers", 64, with_barriers(64))):
        calls = called(data, count)
        to = "goto %d\n" % position
        there, far = calls.least(to), calls.least("goto %d\n" % (4 * position))
        again = calls.least(to + times * ("back %d\nfwd %d\n" % (by, by)))
        each = (far - there) / (3 * position)
        behind = (again - there) / (times * by) - each
        rate = "%.1f" % (1e-6 / behind) if behind > 0 else "too fast to be told"
        print("| %s | %.1f | %s | %.1f MiB | %.1f MiB |" % (name, 1e-6 / each, rate, calls.memory("goto 64\n"), calls.memory(to)))


def again():
    """Going back to the start from the end of all entries, where the events aren't kept, beside the way there."""
    print("| run | position | the way there | `goto 0` from there |\n|---|---|---|---|")
    rows = [("1 KiB of a mixture", called(mixed(1 << 10))), ("64 invocations with barriers", called(with_barriers(64), 64)), ("a compiled shader, flow-cases.spv", compiled())]
    for name, calls in rows:
        there = "goto %d\n" % ENTRIES
        start, way, both = calls.least("goto 64\n"), calls.least(there), calls.least(there + "goto 0\n")
        print("| %s | %s | %.2f s | %.2f s |" % (name, format(ENTRIES, ","), way - start, both - way))


def instructions(calls, commands):
    """Instructions of the processor as callgrind counts them, the same at every call."""
    words = ["valgrind", "--tool=callgrind", "--callgrind-out-file=/dev/null"] + calls.words
    return int(calls.started(words, commands).communicate()[1].split("Collected : ")[1].split()[0])


def of_length(calls, rounds, buffers=""):
    """The same calls, under a setup whose entries end after so many rounds."""
    with open(os.path.join(calls.folder, "setup"), "w") as file:
        file.write("spvdbg-setup 1\n%srounds %d\n" % (buffers, rounds))
    return calls


def looped(kind, rounds):
    """A shader of two invocations with its lines, whose loop goes on for as many turns as the first words of its buffer say."""
    with open(os.path.join(TOP, "bench", "traces", "trace-loops-%s.spv" % kind), "rb") as file:
        return of_length(called(file.read()), rounds, "buffer 0 0 hex %s\n" % ("ffffffff" * 2 + "00000000" * 14))


def probes(events=64_000, early=640):
    """`continue` to the end of so many events, with the three probes of the program and with none."""
    print("| run | instructions an event without a probe | with three | speed that is left |\n|---|---|---|---|")
    rows = [("1 KiB of a mixture", of_length(called(mixed(1 << 10)), events)), ("64 invocations with barriers", of_length(called(with_barriers(64), 64), events // 64))]
    rows += [("loops.comp with its lines", looped("gVS", events // 2)), ("the same, optimized", looped("gVS-opt", events // 2))]
    for name, calls in rows:
        counts = []
        for dropped in ("drop 1\ndrop 2\ndrop 3\n", ""):
            there, whole = (instructions(calls, dropped + "goto %d\n" % early + more) for more in ("", "continue\n"))
            counts.append((whole - there) / (events - early))
        without, three = counts
        print("| %s | %.0f | %.0f | %.2f |" % (name, without, three, without / three))


TABLES = {"forward": forward, "invocations": invocations, "entries": entries, "back": back, "again": again, "probes": probes}


def main():
    print("load of the machine: %s, %d processors" % (" ".join("%.1f" % each for each in os.getloadavg()), os.cpu_count()))
    for name in sys.argv[1:] or TABLES:
        TABLES[name]()


if __name__ == "__main__":
    main()
