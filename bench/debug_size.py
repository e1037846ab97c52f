#!/usr/bin/env python3
"""Measures sessions over modules with much debug information, outside the gate, and writes the tables into docs/BENCH.md.

    bench/debug_size.py PROGRAM             measures all, and writes docs/BENCH.md's section on it
    bench/debug_size.py PROGRAM PART..      prints some parts alone: opened, frames, types, texts

Each module has to be accepted, and each reply to be the one that is due. Seconds are of the processor, user and system together, the
least of five runs. Memory is the greatest resident size, as GNU time tells it. The time of one command is the difference between
sessions with and without many of it. The bars: a module of 4 MiB with 100,000 records opens in 2 s and 400 MiB; `bt` of 64 frames, in each of which
64 calls were inlined, takes a millisecond; records that name large things cost no more than others.
"""
import os
import struct
import subprocess
import sys
import tempfile
from spirv import FUNCTION_TYPE, HEADER, MAIN, UINT, VOID, inst, text, write_section

RUNS, MOST_SECONDS, MOST_MEMORY, MOST_OF_FRAMES = 5, 2.0, 400, 0.001
SET, FILE, NAME, SOURCE, UNIT, KIND, NUMBERS = 8, 9, 10, 11, 12, 13, 100
ONE_OR_TWO = (NUMBERS + 1, NUMBERS + 2)
FIRST, LINES = 10_000, 5_000


def number(value):
    """The id of the constant of a number below 9,900."""
    return NUMBERS + value


class Made:
    """The words of a module while it is written, and how many records there are."""

    def __init__(self, strings=()):
        self.records, self.last, self.functions = 0, FIRST, []
        self.words = inst(17, 1) + inst(10, *text("SPV_KHR_non_semantic_info")) + inst(11, SET, *text("NonSemantic.Shader.DebugInfo.100"))
        self.words += inst(14, 0, 1) + inst(15, 5, MAIN, *text("main")) + inst(16, MAIN, 17, 1, 1, 1)
        self.words += inst(7, FILE, *text("large.comp")) + inst(7, NAME, *text("name"))
        for ident, string in strings:
            self.words += inst(7, ident, *text(string))
        self.words += inst(19, VOID) + inst(33, FUNCTION_TYPE, VOID) + inst(21, UINT, 32, 0)

    def constants(self, values):
        for value in values:
            self.words += inst(43, UINT, number(value), value)

    def id(self):
        self.last += 1
        return self.last

    def record(self, kind, *operands):
        ident = self.id()
        self.words += inst(12, VOID, ident, SET, kind, *operands)
        self.records += 1
        return ident

    def unit(self):
        zero, one = number(0), number(1)
        source = self.record(35, FILE)
        unit = self.record(1, one, one, source, one)
        return source, unit, self.record(8, zero, VOID)

    def function(self, source, unit, kind, at):
        zero = number(0)
        return self.record(20, NAME, kind, source, number(at), zero, unit, NAME, zero, number(at))

    def add(self):
        self.words += inst(128, UINT, self.id(), *ONE_OR_TWO)

    def bytes(self):
        words = HEADER + [self.last + 1, 0] + self.words
        return struct.pack("<%dI" % len(words), *words)


# ---- what is measured: sessions

class Sessions:
    """Sessions of a program over one module."""

    def __init__(self, program, data, rounds):
        self.program, self.folder = program, tempfile.TemporaryDirectory()
        for name, content in (("module", data), ("setup", b"spvdbg-setup 1\nrounds %d\n" % rounds)):
            with open(os.path.join(self.folder.name, name), "wb") as file:
                file.write(content)

    def run(self, commands, times=RUNS):
        """The replies, the least of the seconds, and the memory."""
        done = [self.session(commands) for _ in range(times)]
        return done[0][0], min(seconds for _, seconds, _ in done), max(memory for *_, memory in done)

    def session(self, commands):
        """The replies, the seconds of the processor and the memory in MiB. (A process that Python starts begins with Python's memory as
        its greatest size, so GNU time starts the program.)"""
        at = lambda name: os.path.join(self.folder.name, name)
        with open(at("commands"), "w") as file:
            file.write(commands)
        words = ["/usr/bin/time", "-f", "%M", self.program, "debug", at("module"), at("setup")]
        with open(at("commands")) as file, open(at("replies"), "wb") as replies, open(at("size"), "wb") as size:
            process = subprocess.Popen(words, stdin=file, stdout=replies, stderr=size)
            _, status, used = os.wait4(process.pid, 0)
        process.returncode = os.waitstatus_to_exitcode(status)
        if process.returncode != 0:
            sys.exit("status %d" % process.returncode)
        with open(at("replies")) as replies, open(at("size")) as size:
            return replies.read().splitlines(), used.ru_utime + used.ru_stime, int(size.read().split()[-1]) / 1024

    def one(self, command, count, first=""):
        """Seconds of one command, behind some others."""
        without, many = self.run(first)[1], self.run(first + count * (command + "\n"))[1]
        return (many - without) / count


def looked_for(replies, due, what):
    if replies != due:
        sys.exit("%s: %s, due %s" % (what, replies[:5], due[:5]))


# ---- opening

def many_records(records=100_000):
    """Types, scopes, variables and inlined calls, and blocks of 5,000 lines."""
    made = Made()
    made.constants(range(9_000))
    source, unit, kind = made.unit()
    zero, basic = number(0), made.record(2, NAME, number(32), number(6), number(0))
    members = [made.record(11, NAME, basic, source, number(n), zero, zero, zero, zero) for n in range(3_000)]
    types = [made.record(10, NAME, zero, source, zero, zero, unit, NAME, zero, zero, *members[n : n + 6]) for n in range(0, 3_000, 6)]
    types += [made.record(5, basic, number(1 + n)) for n in range(2_000)]
    functions = [made.function(source, unit, kind, n) for n in range(1_000)]
    blocks = functions[:]
    for n in range(6_000):
        blocks.append(made.record(21, source, number(n), zero, blocks[n // 2]))
    calls = [made.record(25, number(n), blocks[n]) for n in range(100)]
    for n in range(9_900):
        calls.append(made.record(25, number(n % 9_000), blocks[n % 7_000], calls[n]))
    variables = [made.record(26, NAME, types[n % 2_500], source, number(n % 9_000), zero, blocks[n % 7_000], zero) for n in range(6_500)]
    expression = made.record(31)
    made.words += inst(54, VOID, MAIN, 0, FUNCTION_TYPE)
    block = inst(248, made.id())
    at = 0
    while made.records < records:
        if at % LINES == 0:
            made.words += block
        made.record(103, source, number(at % 9_000), number(at % 9_000), zero, zero)
        if at % 2 == 0 and made.records < records:
            made.record(23, blocks[at % 7_000], calls[at % 10_000])
        if at % 8 == 0 and made.records < records:
            made.record(29, variables[at % 6_500], number(1), expression)
        if at % 5 == 0:
            made.add()
        at += 1
        if at % LINES == 0 and made.records < records:
            block = inst(248, made.id())
            made.words += inst(249, made.last)
    made.words += inst(253) + inst(56)
    return made


def nested(blocks=50_000, calls=40_000, scopes=10_000):
    """Blocks that each stand in the one before, calls in those blocks that were each inlined in the one before, and scopes of the last."""
    made = Made()
    made.constants(range(3))
    source, unit, kind = made.unit()
    zero, parents, inlined = number(0), [made.function(source, unit, kind, 1)], []
    for _ in range(blocks):
        parents.append(made.record(21, source, number(1), zero, parents[-1]))
    for n in range(calls):
        inlined.append(made.record(25, number(2), parents[-1 - n], *inlined[-1:]))
    made.words += inst(54, VOID, MAIN, 0, FUNCTION_TYPE) + inst(248, made.id())
    for n in range(scopes):
        made.record(23, parents[-1], inlined[-1 - n])
        if n % 2 == 0:
            made.add()
    made.words += inst(253) + inst(56)
    return made


def opened(program):
    lines = ["| module | bytes | records | opening, `goto 0` and `info` | memory |", "|---|---|---|---|---|"]
    mixed = "types, scopes, variables, inlined calls and lines"
    for what, make in ((mixed, lambda: many_records(45_000)), (mixed, many_records), ("blocks and inlined calls, each in the one before", nested)):
        made = make()
        data = made.bytes()
        assert len(data) <= 4_194_304, len(data)
        sessions = Sessions(program, data, 100)
        replies, seconds, memory = sessions.run("goto 0\ninfo\n")
        insts = counted(data)
        due = "words %d, instructions %d, ignored 0, invocations 1, entries 100" % (len(data) // 4, insts)
        looked_for(replies[2:], [due], "info")
        check(seconds <= MOST_SECONDS and memory <= MOST_MEMORY, "opening")
        lines.append("| %s | %s | %s | %.2f s | %.0f MiB |" % (what, format(len(data), ","), format(made.records, ","), seconds, memory))
    return lines


def counted(data):
    """How many instructions a module has."""
    words = struct.unpack("<%dI" % (len(data) // 4), data)
    at, insts = 5, 0
    while at < len(words):
        at, insts = at + (words[at] >> 16), insts + 1
    return insts


# ---- frames

def deep(real=64, inlined=64):
    """Functions that call each other, and at each call so many calls that were inlined around it."""
    made = Made()
    made.constants(range(200))
    source, unit, kind = made.unit()
    scopes = [made.function(source, unit, kind, n) for n in range(inlined + 1)]
    calls = [made.record(25, number(100), scopes[0])]
    for n in range(1, inlined):
        calls.append(made.record(25, number(100 + n), scopes[n], calls[n - 1]))
    ids = [made.id() for _ in range(real - 1)] + [MAIN]
    for n, ident in enumerate(ids):
        made.words += inst(54, VOID, ident, 0, FUNCTION_TYPE) + inst(248, made.id())
        made.record(23, scopes[inlined], calls[-1])
        made.record(103, source, number(n), number(n), number(0), number(0))
        if n == 0:
            made.add()
        else:
            made.words += inst(57, VOID, made.id(), ids[n - 1])
        made.words += inst(253) + inst(56)
    lines = []
    for n in range(real):
        lines += ["name large.comp:%d" % n if n else "name word %d"] + ["name large.comp:%d" % (100 + k) for k in reversed(range(inlined))]
    return made, lines


def frames(program, count=400):
    made, due = deep()
    sessions, go = Sessions(program, made.bytes(), 100), "goto 63\n"
    replies = sessions.run(go + "bt\n", 1)[0][2:]
    word = replies[0].split()[-1]
    looked_for(replies, ["#%d %s" % (k, line.replace("%d", word)) for k, line in enumerate(due)], "bt")
    size = sum(len(line) + 1 for line in replies)
    outer = "frame %d" % (len(due) - 1)
    looked_for(sessions.run(go + outer + "\n", 1)[0][2:], replies[-1:], outer)
    whole, made_alone, where = (sessions.one(command, count, go) for command in ("bt", outer, "where"))
    check(whole <= MOST_OF_FRAMES, "bt")
    return [
        "| command, with 64 frames and 64 inlined calls in each | bytes of the reply | time |", "|---|---|---|",
        "| `bt` | %s | %.3f ms%s |" % (format(size, ","), whole * 1000, " (over the bar)" if whole > MOST_OF_FRAMES else ""),
        "| `%s`, which makes the same frames and writes one | %d | %.3f ms |" % (outer, len(replies[-1]) + 1, made_alone * 1000),
        "| `where`, which makes one | 25 | %.3f ms |" % (where * 1000),
        "",
        "Of `bt` %.0f in a hundred are the lines of its reply and writing them, the rest is making the frames." % (100 * (whole - made_alone) / whole),
    ]


# ---- types

def pairs(shared, chains=500, depth=60):
    """Structs of two members, of the struct before each, or all of one; the first has no members, so none of them has bits."""
    made = Made()
    made.constants(range(10))
    source, unit, _ = made.unit()
    zero = number(0)
    struct_of = lambda *members: made.record(10, NAME, zero, source, zero, zero, unit, NAME, zero, zero, *members)
    member_of = lambda kind: made.record(11, NAME, kind, source, zero, zero, zero, zero, zero)
    for _ in range(chains):
        first = last = struct_of()
        for _ in range(depth):
            last = struct_of(member_of(last), member_of(last)) if shared else struct_of(member_of(first), member_of(first))
    made.words += inst(54, VOID, MAIN, 0, FUNCTION_TYPE) + inst(248, made.id()) + inst(253) + inst(56)
    return made


def types(program):
    lines = ["| module | bytes | records | opening and `info` |", "|---|---|---|---|"]
    for what, shared in (("pairs of a type, sixty deep", True), ("pairs beside each other", False)):
        made = pairs(shared, 120)
        made_bytes = made.bytes()
        check(len(made_bytes) <= 4_194_304, "size")
        replies, seconds, _ = Sessions(program, made_bytes, 10).run("info\n")
        check(", ignored 0, " in replies[0], replies[0])
        lines.append("| %s | %s | %s | %.3f s |" % (what, format(len(made_bytes), ","), format(made.records, ","), seconds))
    return lines


# ---- texts

PIECE = 9_990
TIMES = 100_000


def continued(string, source=True, line_numbers=()):
    """A Source that is continued again and again by one string, and lines of it; or one that has no text, and so isn't."""
    made = Made([(PIECE, string)])
    made.constants(range(3))
    for n, value in enumerate(line_numbers):
        made.words += inst(43, UINT, number(10 + n), value)
    made.record(35, FILE, *[PIECE] * source)
    described = made.last
    for _ in range(TIMES - 1):
        made.record(102, PIECE)
    made.words += inst(54, VOID, MAIN, 0, FUNCTION_TYPE) + inst(248, made.id())
    for n in range(len(line_numbers)):
        made.record(103, described, number(10 + n), number(0), number(0), number(0))
        made.add()
    made.words += inst(253) + inst(56)
    return made


def numbered(lines, at):
    return ["%6d%s %s" % (n, ">" if n == at else " ", text_) for n, text_ in lines]


def quick(seconds):
    """Milliseconds, where the difference is more than chance."""
    return "%.2f ms" % (seconds * 1000) if seconds > 0.00005 else "under 0.05 ms"


def texts(program, few=20, many=400):
    line = "one of the lines of a source, of forty.."
    rows = [
        ("a line of 41 bytes", line + "\n", lambda n: line, TIMES),
        ("41 ends of lines", "\n" * 41, lambda n: "", 41 * TIMES),
        ("a line of 260,000 bytes", "x" * 259_999 + "\n", lambda n: "x" * 259_999, TIMES),
        ("the same, of a Source without a text", "x" * 259_999 + "\n", None, 0),
    ]
    lines = ["| one string, %s times | bytes of the text | opening and `info` | memory | `list` at 3 | at the last | behind it |" % format(TIMES, ","), "|---|---|---|---|---|---|---|"]
    for what, string, line_at, last in rows:
        at = (3, last or 1_000_000, (last or 1_000_000) + 3)
        made = continued(string, "without" not in what, at)
        check(len(made.bytes()) <= 4_194_304, "size")
        sessions = Sessions(program, made.bytes(), 10)
        replies, _, memory = sessions.run("info\nlist\nfwd 1\nlist\nfwd 1\nlist\n")
        no_text = ["refused: C10 no source text"]
        near = numbered([(n, line_at(n)) for n in range(1, 6)], 3) if last else no_text
        far = numbered([(n, line_at(n)) for n in range(last - 2, last + 1)], last) if last else no_text
        stops = ["stop: done", "@1 i=0 %7 large.comp:" + str(at[1])], ["stop: done", "@2 i=0 %7 large.comp:" + str(at[2])]
        looked_for(replies[1:], near + stops[0] + far + stops[1] + no_text, what)
        each = [quick(sessions.one("list", few if last and (n or len(string) > 1000) else many, "goto %d\n" % n)) for n in range(3)]
        opening = sessions.run("info\n")[1]
        size = format(len(string) * TIMES, ",") if last else ""
        lines.append("| %s | %s | %.3f s | %.0f MiB | %s | %s | %s |" % (what, size, opening, memory, *each))
    return lines


# ---- all

OVER = []


def check(holds, what):
    if not holds:
        OVER.append(what)
        print("over or wrong: " + what)


SAID = (
    "By `bench/debug_size.py`, outside the gate, of a program without its proofs: seconds are of the processor, the least of five sessions, on a "
    "machine of %d processors whose load was %s, with proofs at work beside it. The time of one command is the difference between sessions with and without many of it. The bars are 2 s and 400 MiB for opening "
    "100,000 records in 4 MiB, and a millisecond for `bt` of 64 frames."
)
PARTS = {"opened": opened, "frames": frames, "types": types, "texts": texts}


def main():
    program, names = os.path.abspath(sys.argv[1]), sys.argv[2:] or PARTS
    section = [SAID % (os.cpu_count(), " ".join("%.1f" % each for each in os.getloadavg())), ""]
    for name in names:
        part = PARTS[name](program)
        section += part + [""]
        print("\n".join(part), flush=True)
    if not sys.argv[2:]:
        write_section("Sessions over debug information", section[:-1])
    sys.exit(len(OVER) > 0)


if __name__ == "__main__":
    main()
