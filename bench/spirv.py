"""Words of SPIR-V modules, and the measuring of commands, for the benchmarks in this folder."""
import os
import struct
import subprocess
import sys
import time

HEADER = [0x07230203, 0x00010600, 0]
VOID, FUNCTION_TYPE, UINT, ONE, BOOL, TRUE = 1, 2, 3, 4, 5, 6
MAIN = 7
FIRST_FREE = 10
RUNS = 3
PATIENCE = 20
TOP = os.path.join(os.path.dirname(os.path.abspath(__file__)), "..")


def inst(op, *operands):
    """The words of an instruction."""
    return [(1 + len(operands)) << 16 | op, *operands]


def text(name):
    """The words of a string."""
    data = name.encode() + b"\0"
    data += b"\0" * (-len(data) % 4)
    return list(struct.unpack("<%dI" % (len(data) // 4), data))


def module(body, bound, decorations=(), declarations=()):
    """A module of some decorations, some types, constants and variables, and functions, of which MAIN is the entry point."""
    words = HEADER + [bound, 0]
    words += inst(17, 1) + inst(14, 0, 1) + inst(15, 5, MAIN, *text("main")) + inst(16, MAIN, 17, 1, 1, 1)
    words += decorations
    words += inst(19, VOID) + inst(33, FUNCTION_TYPE, VOID) + inst(21, UINT, 32, 0) + inst(43, UINT, ONE, 1)
    words += inst(20, BOOL) + inst(41, BOOL, TRUE)
    words += declarations
    words += body
    return struct.pack("<%dI" % len(words), *words)


def main_of(body):
    """The entry point's function with one block of these words."""
    return inst(54, VOID, MAIN, 0, FUNCTION_TYPE) + inst(248, 8) + body + inst(253) + inst(56)


def seconds_of(command, patience=None):
    """Seconds that a command takes, which has to succeed; none where it takes longer than `patience`."""
    start = time.perf_counter()
    try:
        done = subprocess.run(command, stdout=subprocess.PIPE, stderr=subprocess.STDOUT, timeout=patience)
    except subprocess.TimeoutExpired:
        return None
    seconds = time.perf_counter() - start
    if done.returncode != 0:
        sys.exit("%s: %s" % (" ".join(command), done.stdout.decode(errors="replace")))
    return seconds


def memory_of(command):
    """The greatest resident size of a command, in MiB, as GNU time tells it."""
    done = subprocess.run(["/usr/bin/time", "-f", "%M"] + command, capture_output=True, text=True)
    return int(done.stderr.split()[-1]) / 1024


def validator(path):
    """The command that has spirv-val look at a module."""
    return ["spirv-val", "--target-env", "spv1.6", path]


def version_of_validator():
    return subprocess.run(["spirv-val", "--version"], capture_output=True, text=True).stdout.splitlines()[0]


def measure(program, path, with_validator=True):
    """Seconds of `check` and of spirv-val (the least of RUNS, both in turn), and the MiB of `check`."""
    ours, theirs = [], []
    for _ in range(RUNS):
        ours.append(seconds_of([program, "check", path]))
        if with_validator and None not in theirs:
            theirs.append(seconds_of(validator(path), PATIENCE))
    return min(ours), min(theirs) if theirs and None not in theirs else None, memory_of([program, "check", path])


def write_section(title, lines):
    """Puts a section into docs/BENCH.md in the place of the one with its title, or at the end."""
    path = os.path.join(TOP, "docs", "BENCH.md")
    old = open(path).read() if os.path.exists(path) else "# Benchmarks\n"
    parts = old.split("\n## ")
    section = title + "\n\n" + "\n".join(lines) + "\n"
    for n, part in enumerate(parts[1:], 1):
        if part.split("\n", 1)[0] == title:
            parts[n] = section
            break
    else:
        parts[-1] = parts[-1].rstrip("\n") + "\n"
        parts.append(section)
    with open(path, "w") as file:
        file.write("\n## ".join(parts))
