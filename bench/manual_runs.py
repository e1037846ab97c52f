#!/usr/bin/env python3
"""The runs that docs/MANUAL.md speaks of, and what `debug` has to show of them, worked out here apart from the program.

    bench/manual_runs.py    makes modules manual-*.spv of crates/test_runs/data/ of the shaders of bench/manual/ and of the examples

The runs are written by bench/runs.py. The shaders are compiled by `glslangValidator` and `glslc`, two of them once more through
`spirv-opt -O`. An event is one entry of the schedule: one executable instruction of its invocation, or nothing where that one is
finished or waits at a barrier. An undefined operand makes a scalar of the result undefined, of OpSelect, OpLogicalAnd and
OpLogicalOr too. Opcodes are those of SPIR-V 1.6, section 3.42. Where instructions stand in the source is told by places.py.
"""
import os
import shutil
import struct
import subprocess
import tempfile
import group_runs
from group_runs import UNDEFINED
from listings import FORMS, NAMES, text_of
from places import plain
from variables_told import NO_NAME, UNBOUND, Told, bits_of

TOP = os.path.join(os.path.dirname(os.path.abspath(__file__)), "..")
DATA = os.path.join(TOP, "crates", "test_runs", "data")
RUNTIME_ARRAY, UCLAMP = 29, 44
END = 4000


class Fault(Exception):
    """What an instruction does that faults: the number of the fault."""


SCALARS = {
    **group_runs.SCALARS,
    134: lambda a, b: a // b if b else UNDEFINED,
    137: lambda a, b: a % b if b else UNDEFINED,
    166: lambda a, b: a | b,
    167: lambda a, b: a & b,
    168: lambda a: 1 - a,
    169: lambda condition, a, b: a if condition else b,
    171: lambda a, b: a != b,
    196: lambda a, b: a << b if b < 32 else UNDEFINED,
    203: lambda base, offset, count: base >> offset & ((1 << count) - 1) if offset + count <= 32 else UNDEFINED,
}


def scalar(op, values):
    if UNDEFINED in values:
        return UNDEFINED
    made = SCALARS[op](*values)
    return made if made == UNDEFINED else int(made) & 0xFFFFFFFF


def lanes(op, values):
    """An operation on scalars, or on vectors lane by lane."""
    if isinstance(values[0], list):
        return [scalar(op, lane) for lane in zip(*values)]
    return scalar(op, values)


class Module(group_runs.Module):
    """A module, and of each function the parameters with their types, and the variables."""

    def declare(self, op, args):
        super().declare(op, args)
        if op == 55:
            self.parameters.setdefault(self.function, []).append((args[1], args[0]))
        elif op == 59 and args[2] == group_runs.FUNCTION:
            self.locals.setdefault(self.function, []).append(args[1])
        elif op == RUNTIME_ARRAY:
            self.types[args[0]] = (op, *args[1:])
        elif op in (41, 42):
            self.constants[args[1]] = int(op == 41)
        elif op == 1:
            self.constants[args[1]] = UNDEFINED
        elif op == 331 and args[1] == 38:
            self.sizes = args[2:5]

    def __init__(self, data):
        self.sizes, self.parameters, self.locals = None, {}, {}
        super().__init__(data)
        self.told, self.before = Told(data), {}
        for word, (op, args) in self.insts.items():
            self.before[word] = passed = [] if op == 248 else passed if self.before else []
            if self.told.by_word.get(word, (0,))[0] in (28, 29):
                passed.append(word)
            elif op != 245 and not self.is_passed(op, args):
                passed = []
        if self.sizes:
            self.size = [self.constants[id] for id in self.sizes]

    def blank(self, ty):
        return [] if self.types[ty][0] == RUNTIME_ARRAY else super().blank(ty)

    def block(self, ty, words):
        """The value of a block whose members are the words of a buffer, one behind the other."""
        return [list(words) if self.types[part][0] == RUNTIME_ARRAY else self.filled(part, words) for part in self.types[ty][1:]]


class Run(group_runs.Group):
    """A run of a workgroup by a schedule, a list of invocations."""

    def __init__(self, module, numbers, schedule):
        # (the block is filled below, since it may end with a runtime array)
        super().__init__(module, {0: [0] * 64})
        for id, (storage, ty) in module.variables.items():
            if storage == group_runs.BUFFER:
                self.memory[(id,)] = [module.block(ty, iter(numbers))]
        self.schedule, self.fault = schedule, None
        for one in self.invocations:
            one.outer, one.events = [], [[]]
            self.passed(one)

    def slot(self, pointer):
        root, path = pointer
        place, key = self.memory[root], 0
        for index in path:
            place, key = place[key], index
            if not 0 <= index < len(place):
                raise Fault(3)
        return place, key

    def result(self, one, op, args):
        if op == 68:
            root, path = self.value(one, args[2])
            return len(self.load((root, path + (args[3],))))
        if op == 80:
            return [self.value(one, id) for id in args[2:]]
        if op == 12:
            value, least, most = (self.value(one, id) for id in args[4:])
            assert args[3] == UCLAMP
            return UNDEFINED if UNDEFINED in (value, least, most) or least > most else min(max(value, least), most)
        values = [self.value(one, id) for id in args[2:]]
        if op in (65, 66) and UNDEFINED in values[1:]:
            raise Fault(2)
        return lanes(op, values) if op in SCALARS else super().result(one, op, args)

    # ---- debug events: those of each call, the outermost first, with what they captured

    def passed(self, one):
        for word in self.m.before[one.word]:
            try:
                value = self.value(one, self.m.told.by_word[word][1][1])
            except KeyError:
                value = None
            one.events[-1].append((word, value))

    def piece(self, event, value):
        """The bits that an event without Operations tells, or none."""
        assert not event[4]
        if isinstance(value, tuple):
            value = self.load(value) if event[5] == 28 else None
        return [] if value is None else bits_of(none_of(value))

    def local_bits(self, events, variable, inlined):
        told, bits = [(self.m.told.event(word), value) for word, value in reversed(events)], []
        told = [(event, self.piece(event, value)) for event, value in told if event[:2] == (variable, inlined)]
        for j in range(self.m.told.size((self.m.told.ids[variable][1][1], ()))):
            pieces = [(piece, j - event[2]) for event, piece in told if event[2] <= j < event[2] + event[3]]
            bits.append(pieces[0][0][pieces[0][1]] if pieces and pieces[0][1] < len(pieces[0][0]) else UNBOUND)
        return bits

    def step(self, one):
        before = one.word, len(one.outer)
        self.stepped(one)
        if one.status != "finished" and (one.word, len(one.outer)) != before:
            self.passed(one)

    def stepped(self, one):
        op, args = self.m.insts[one.word]
        if op == 250 and one.status == "ready" and self.value(one, args[0]) == UNDEFINED:
            raise Fault(1)
        if op == 57:
            self.enter(one, args)
        elif op in (253, 254) and one.outer:
            self.leave(one, [self.value(one, id) for id in args])
        else:
            super().step(one)

    # ---- calls: those that aren't the innermost wait, each with its word, registers and blocks

    def enter(self, one, args):
        given = [self.value(one, id) for id in args[3:]]
        one.outer.append((one.word, one.registers, one.before, one.block))
        one.events.append([])
        one.registers = {id: (ty, value) for (id, ty), value in zip(self.m.parameters.get(args[2], []), given)}
        for id in self.m.locals.get(args[2], []):
            self.memory[one.number, id] = [self.m.blank(self.m.variables[id][1])]
        one.before, one.block = None, self.m.firsts[args[2]]
        one.word = self.m.blocks[one.block][0]

    def leave(self, one, values):
        word, one.registers, one.before, one.block = one.outer.pop()
        one.events.pop()
        ty, id = self.m.insts[word][1][:2]
        one.registers.update({id: (ty, value) for value in values})
        one.word = self.m.after[word]

    def calls(self, k):
        """The calls of an invocation, the innermost first: of each the word at which it stands, and its registers."""
        one = self.invocations[k]
        return [] if one.status == "finished" else [(one.word, one.registers)] + [call[:2] for call in reversed(one.outer)]

    def cause(self):
        """Why the run is at its end, if it is."""
        if self.is_over():
            return "all finished"
        if all(one.status in ("finished", "arrived") for one in self.invocations):
            return "stuck"
        if self.fault:
            return self.fault
        return "schedule ended" if self.events == len(self.schedule) else None

    def event(self):
        one = self.invocations[self.schedule[self.events]]
        if one.status in ("ready", "passed"):
            try:
                self.step(one)
            except Fault as fault:
                self.fault = "fault F%d i=%d word %d" % (fault.args[0], one.number, one.word)
                return
        self.events += 1


class Session:
    """The replies to commands."""

    def __init__(self, module, numbers, schedule):
        self.start = (module, numbers, schedule)
        self.run, self.focus, self.frame = Run(*self.start), 0, 0

    def go(self, position):
        self.frame = 0
        if position < self.run.events:
            self.run = Run(*self.start)
        while self.run.events < max(position, 0) and not self.run.cause():
            self.run.event()
        if self.run.events == position and not self.run.cause() and self.run.events < len(self.run.schedule):
            self.look()
        causes = ["done"] * (self.run.events == position) + ["start"] * (self.run.events == 0) + [self.run.cause()] * bool(self.run.cause())
        return ["stop: " + ", ".join(causes), self.run.position(self.focus)]

    def look(self):
        """Whether the next event faults is told at its position, so it is tried on a copy."""
        again = Run(*self.start)
        while again.events < self.run.events:
            again.event()
        again.event()
        self.run.fault = again.fault

    def reply(self, line):
        word, *rest = line.split()
        if word == "goto":
            return self.go(int(rest[0]))
        if word in ("fwd", "back"):
            return self.go(self.run.events + int(rest[0]) * (1 if word == "fwd" else -1))
        if word == "focus":
            if int(rest[0]) >= len(self.run.invocations):
                return ["refused: C3 no such invocation"]
            self.focus, self.frame = int(rest[0]), 0
        if word in ("focus", "where"):
            return [self.run.position(self.focus)]
        if word == "info":
            return self.run.m.places.info(len(self.run.invocations), len(self.run.schedule))
        if word == "quit":
            return []
        return self.run.each() if word == "group" else self.told(word, *rest)

    def told(self, word, k=None):
        """The reply to a command that tells of the frames of the focus."""
        calls, places = self.run.calls(self.focus), self.run.m.places
        if not calls:
            return ["refused: C12 focus finished"]
        words = [word for word, _ in calls]
        lines = places.bt(words)
        if word == "frame" and int(k) >= len(lines):
            return ["refused: C4 no such frame"]
        self.frame = int(k) if word == "frame" else self.frame
        if word in ("locals", "print"):
            return self.variables(words, k)
        replies = {
            "bt": lambda: lines,
            "frame": lambda: [lines[self.frame]],
            "list": lambda: places.list(words, self.frame),
            "regs": lambda: self.run.shown(calls[places.stack(words)[self.frame][0]][1]),
        }
        return replies[word]()


    def variables(self, words, name):
        """The locals of the selected frame, or the first with a name."""
        m = self.run.m
        call, scope, inlined = [(call, *frame) for call, word in enumerate(words) for frame in m.told.frames(word)][self.frame]
        events = self.run.invocations[self.focus].events[-1 - call]
        ids = [id for id in m.told.locals(scope) if name is None or m.told.name(id) == name.encode()]
        lines = ["%s = %s" % (plain(m.told.name(id)), m.told.text((m.told.ids[id][1][1], ()), self.run.local_bits(events, id, inlined), False)) for id in ids]
        return lines if name is None else lines[:1] or [NO_NAME]


def none_of(value):
    """A value with none for what isn't defined."""
    return [none_of(part) for part in value] if isinstance(value, list) else None if value == UNDEFINED else value


def rounds(times, invocations):
    return [k for _ in range(times) for k in range(invocations)]


def moves(*invocations):
    return [k for k in invocations for _ in range(100)]


def hexadecimal(words):
    return struct.pack("<%dI" % len(words), *words).hex()


def setup_of(numbers, lines):
    return "spvdbg-setup 1\nbuffer 0 0 hex %s\n%s" % (hexadecimal(numbers), "".join(line + "\n" for line in lines))


ASCENDING = ["move %d 100" % k for k in range(4)]
BARRIER = ["goto 33", "group", "goto 36", "group", "fwd 1", "group", "goto 148", "regs", "fwd 5", "back 1"]
STUCK = ["goto 20", "group", "back 1", "group", "focus 1", "regs", "focus 2", "fwd 5", "back 9", "back 1"]
# The run of examples/shares up to its fault, and what the fault's invocation shows there and before, of each of its frames.
FAULT = ["goto 4000", "focus 3", "bt", "list"]
FRAMES = FAULT + ["regs", "frame 1", "list", "regs", "where", "group", "frame 2", "list", "regs", "frame 3", "list", "info"]
BEFORE = FRAMES + ["back 64", "where", "bt", "list", "frame 1", "regs", "goto 0", "list", "focus 0", "fwd 56", "bt", "frame 1", "list", "focus 4", "list", "fwd 1", "list"]
LOCALS = ["goto 4000", "focus 3", "locals", "frame 1", "locals", "print so_far", "print k", "frame 2", "locals", "print so_far", "back 28", "locals", "print so_far", "back 36", "locals"]
# What each run is, its module, the numbers of its buffer, the setup's lines of the schedule, how many times which entries these are, and
# the commands.
TURNS, FOURS = (["rounds 1000"], rounds(1000, 1)), (["rounds 1000"], rounds(1000, 4))
TEN = [0, 0, 0, 0] + list(range(1, 11))
RUNS = [
    ("either", "either", [0, 5, 5, 6, 6], *TURNS, ["goto %d" % END, "regs"]),
    ("either with the variable set", "either_set", [0, 5, 5, 6, 6], *TURNS, ["goto 106", "goto %d" % END]),
    ("alarm", "alarm", [0, 5, 0], *TURNS, ["goto %d" % END]),
    ("alarm after spirv-opt -O", "alarm-optimized", [0, 5, 0], *TURNS, ["goto %d" % END, "regs"]),
    ("chosen", "chosen", [0, 1, 2, 3, 4], *TURNS, ["goto %d" % END, "regs"]),
    ("sources", "sources", [0, 32, 2], *TURNS, ["goto 42", "regs"]),
    ("undefined", "undefined", [0, 3, 1, 4, 9], *TURNS, ["goto %d" % END, "back 2", "regs"]),
    ("rounding", "rounding", TEN, *FOURS, ["goto %d" % END, "group", "focus 3", "regs", "bt", "list"]),
    ("rounding with its lines", "rounding-lines", TEN, *FOURS, FAULT + ["frame 0", "regs", "back 100", "list", "goto 0", "where", "list"]),
    ("shares", "shares", TEN, *FOURS, BEFORE + ["goto 36", "bt"]),
    ("shares before spirv-opt -O", "shares-calls", TEN, *FOURS, BEFORE),
    ("shares without its text", "shares-textless", TEN, *FOURS, FRAMES),
    ("shares with its lines alone", "shares-lines", TEN, *FOURS, FRAMES),
    ("shares with its lines alone, after spirv-opt -O", "shares-lines-optimized", TEN, *FOURS, FRAMES),
    ("shares by glslc", "shares-glslc", TEN, *FOURS, FRAMES),
    ("race in rounds", "race", [1, 2, 3, 4], ["rounds 100"], rounds(100, 4), ["goto 72", "focus 1", "regs", "goto %d" % END]),
    ("race ascending", "race", [1, 2, 3, 4], ASCENDING, moves(0, 1, 2, 3), ["goto 30", "goto 99", "goto 118", "focus 1", "regs", "goto %d" % END]),
    ("race descending", "race", [1, 2, 3, 4], ASCENDING[::-1], moves(3, 2, 1, 0), ["goto 318", "focus 0", "regs", "goto %d" % END]),
    ("barrier", "barrier", [3, 1, 4, 1], ["rounds 50"], rounds(50, 4), BARRIER),
    ("stuck", "stuck", [], ["rounds 20"], rounds(20, 2), STUCK),
    ("a load that shows what the buffer holds", "shown", [7, 9], ["rounds 100"], rounds(100, 2), ["goto 4000", "back 2", "regs"]),
    ("variables of shares", "shares", TEN, *FOURS, LOCALS),
    ("variables of shares before spirv-opt -O", "shares-calls", TEN, *FOURS, LOCALS),
    ("exchange, one after the other", "exchange", [7, 9], ASCENDING[:2], moves(0, 1), ["goto 9", "group", "goto 99", "group", "goto 109", "group", "goto %d" % END]),
    ("exchange in too few rounds", "exchange", [7, 9], ["rounds 17"], rounds(17, 2), ["goto %d" % END]),
    ("exchange in just enough rounds", "exchange", [7, 9], ["rounds 18"], rounds(18, 2), ["goto %d" % END]),
    ("exchange in more rounds than it needs", "exchange", [7, 9], ["rounds 2097152"], rounds(100, 2), ["goto 4294967295"]),
    ("exchange with a mark behind each command", "exchange", [7, 9], ["rounds 20"], rounds(20, 2), ["regs", "where", "goto 3", "where", "regs", "where"]),
]
GLSLANG = ["glslangValidator", "-V", "--target-env", "spirv1.6"]
SHADERS = [("manual", "either"), ("manual", "either_set"), ("manual", "alarm"), ("manual", "chosen"), ("manual", "sources"), ("manual", "shown")]
EXAMPLES = ["rounding", "race", "undefined", "exchange", "barrier", "stuck", "shares", "overwritten"]
# Modules with lines, of the sources of examples, whose names are part of them.
WITH_LINES = [
    ("rounding-lines", "rounding", GLSLANG + ["-g"]),
    ("shares-textless", "shares", GLSLANG + ["-gV"]),
    ("shares-lines", "shares", GLSLANG + ["-g"]),
    ("shares-glslc", "shares", ["glslc", "-g", "--target-env=vulkan1.2"]),
]
OPTIMIZED = ["alarm", "shares-lines"]
HLSL = ["glslangValidator", "-D", "-V", "-e", "main", "-S", "comp", "--target-env", "vulkan1.2", "bench/manual/refused/scale.hlsl"]
# Modules that are refused: the file's name, what makes it, the code, and the instruction at which it is refused: its opcode, and how many
# such ones stand before it. A struct of HLSL ends with a runtime array and isn't a Block; an array of blocks has elements that do.
REFUSED = [("hlsl", HLSL, "M12", 30, 0)] + [
    (name, GLSLANG + ["bench/manual/refused/%s.comp" % name], *due)
    for name, *due in (
        ("float", "M6", 22, 0),
        ("image", "M6", 25, 0),
        ("subgroup", "M6", 349, 0),
        ("reference", "M6", 39, 0),
        ("arrays", "M12", 28, 0),
        ("memory_model", "M11", 17, 1),
    )
]
# A module of SPIR-V 1.0, which is refused at the version's word.
VERSION = ["glslangValidator", "-V", "examples/exchange/exchange.comp"]


def file_of(name):
    return "manual-%s.spv" % name


def path_of(name):
    return os.path.join(DATA, file_of(name))


def lines_of(name):
    """A module's listing."""
    with open(path_of(name), "rb") as file:
        data = file.read()
    words, at = struct.unpack("<%dI" % (len(data) // 4), data), 5
    while at < len(words):
        count = words[at] >> 16
        yield line_of(at, NAMES[words[at] & 0xFFFF], list(words[at + 1 : at + count]))
        at += count


def words_of(name, op):
    """Where the instructions with an opcode stand in a module, which may have opcodes that aren't known."""
    with open(path_of(name), "rb") as file:
        data = file.read()
    words, at = struct.unpack("<%dI" % (len(data) // 4), data), 5
    while at < len(words):
        if words[at] & 0xFFFF == op:
            yield at
        at += words[at] >> 16


def line_of(at, name, words):
    """The line of an instruction: its operands by the parts of its form."""
    _, head, parts, rest = FORMS[name]
    line = "%d: Op%s" % (at, name)
    if head == "Typed":
        line += " type=%%%d" % words.pop(0)
    if head != "Plain":
        line += " id=%%%d" % words.pop(0)
    for part in [it for it in parts if it != "MayEnd"]:
        if not words:
            break
        if part == "String":
            end = next(k for k, word in enumerate(words) if word >> 24 == 0) + 1
            line += " " + text_of(struct.pack("<%dI" % end, *words[:end]).split(b"\0")[0].decode("latin-1"))
            words = words[end:]
        else:
            line += (" %%%d" if part == "Id" else " %d") % words.pop(0)
    marks = ["%" if rest in ("Ids", "IdPairs") else ""] * len(words)
    if rest == "ExecutionModeIds":
        marks = [""] + ["%"] * len(words)
    return line + "".join(" %s%d" % it for it in zip(marks, words))


def calls():
    """What each run is, its module, words, setup and commands, the status and what is written."""
    debug = "spvdbg debug module setup"
    for what, name, numbers, lines, schedule, commands in RUNS:
        with open(path_of(name), "rb") as file:
            session = Session(Module(file.read()), numbers, schedule)
        written = "".join(line + "\n" for command in commands for line in session.reply(command))
        yield what, file_of(name), debug, setup_of(numbers, lines), "".join(command + "\n" for command in commands), 0, written
    for name, _, code, op, before in REFUSED:
        due = "module refused: %s at word %d\n" % (code, list(words_of(name, op))[before])
        yield "refused", file_of(name), "spvdbg check module", "", "", 3, due
    yield "refused", file_of("version"), "spvdbg text module", "", "", 3, "module refused: M3 at word 1\n"
    yield "the listing of rounding with its lines", file_of("rounding-lines"), "spvdbg text module", "", "", 0, "".join(line + "\n" for line in lines_of("rounding-lines"))


def made(command, to):
    subprocess.run(command + ["-o", to], cwd=TOP, check=True, stdout=subprocess.DEVNULL)


def main():
    for folder, name in SHADERS:
        made(GLSLANG + ["bench/%s/%s.comp" % (folder, name)], path_of(name))
    for name in EXAMPLES:
        shutil.copy(os.path.join(TOP, "examples", name, "module.spv"), path_of(name))
    shutil.copy(os.path.join(TOP, "examples", "shares", "calls.spv"), path_of("shares-calls"))
    shutil.copy(os.path.join(TOP, "examples", "overwritten", "inlined.spv"), path_of("overwritten-inlined"))
    for name, example, command in WITH_LINES:
        with tempfile.TemporaryDirectory() as room:
            shutil.copy(os.path.join(TOP, "examples", example, example + ".comp"), room)
            subprocess.run(command + [example + ".comp", "-o", path_of(name)], cwd=room, check=True, stdout=subprocess.DEVNULL)
    for name in OPTIMIZED:
        made(["spirv-opt", "-O", path_of(name)], path_of(name + "-optimized"))
    for name, command, *_ in REFUSED:
        made(command, path_of(name))
    made(VERSION, path_of("version"))


if __name__ == "__main__":
    main()
