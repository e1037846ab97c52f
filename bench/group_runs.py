#!/usr/bin/env python3
"""Runs of whole workgroups, and what `debug` has to show of them, worked out here apart from the program.

    bench/group_runs.py    compiles bench/workgroups/ to modules group-*.spv of crates/test_runs/data/

The runs are written by bench/runs.py. The shaders are compiled by `glslangValidator` and `glslc -O`. One event is one executable instruction of the invocation that comes next, in
rounds. A barrier opens where an arrival makes all invocations stand at it. Buffers are lists of words. Opcodes are those of SPIR-V 1.6,
section 3.42.
"""
import os
import struct
import subprocess
import atomics
from places import Places

TOP = os.path.join(os.path.dirname(os.path.abspath(__file__)), "..")
DATA = os.path.join(TOP, "crates", "test_runs", "data")
SHADERS = os.path.join(TOP, "bench", "workgroups")
GLSLANG = ["glslangValidator", "-V", "--target-env", "vulkan1.1"]
GLSLC = ["glslc", "-O", "--target-env=vulkan1.2"]

UNDEFINED = atomics.UNDEFINED
BOOL, INT, VECTOR, ARRAY, STRUCT, POINTER = 20, 21, 23, 28, 30, 32
INPUT, PRIVATE, FUNCTION, BUFFER = 1, 6, 7, 12
PASSED = (0, 8, 59, 246, 247, 248, 317)
TERMINATORS = (249, 250, 251, 253, 254, 255)
LOCAL_ID, GLOBAL_ID, LOCAL_INDEX = 27, 28, 29
SCALARS = {
    124: lambda a: a,
    128: lambda a, b: a + b,
    130: lambda a, b: a - b,
    132: lambda a, b: a * b,
    170: lambda a, b: a == b,
    172: lambda a, b: a > b,
    174: lambda a, b: a >= b,
    176: lambda a, b: a < b,
    194: lambda a, b: a >> b,
    196: lambda a, b: a << b,
    199: lambda a, b: a & b,
}


class Module:
    """The instructions of a module by their words, its types, constants and variables, and the blocks of its functions."""

    def __init__(self, data):
        words = struct.unpack("<%dI" % (len(data) // 4), data)
        self.insts, self.types, self.constants, self.variables = {}, {}, {}, {}
        self.builtins, self.bindings, self.blocks, self.after, self.places = {}, {}, {}, {}, Places(data)
        self.firsts, self.function = {}, 0
        word, last = 5, None
        while word < len(words):
            count, op = words[word] >> 16, words[word] & 0xFFFF
            args = words[word + 1 : word + count]
            self.insts[word] = (op, args)
            self.declare(op, args)
            if op == 248:
                last = self.blocks[args[0]] = []
                self.firsts.setdefault(self.function, args[0])
            elif last is not None and op != 245 and not self.is_passed(op, args):
                last.append(word)
                last = None if op in TERMINATORS else last
            word += count
        for stops in self.blocks.values():
            self.after.update(zip(stops, stops[1:]))

    def declare(self, op, args):
        if op == 15:
            self.entry = args[1]
        elif op == 16 and args[1] == 17:
            self.size = args[2:5]
        elif op == 54:
            self.function = args[1]
        elif op == 71 and args[1] == 11:
            self.builtins[args[0]] = args[2]
        elif op == 71 and args[1] == 33:
            self.bindings[args[0]] = args[2]
        elif op in (19, BOOL, INT, VECTOR, ARRAY, STRUCT, POINTER, 33):
            self.types[args[0]] = (op, *args[1:])
        elif op == 43:
            self.constants[args[1]] = args[2]
        elif op == 44:
            self.constants[args[1]] = [self.constants[id] for id in args[2:]]
        elif op == 59:
            self.variables[args[1]] = (args[2], self.types[args[0]][2])

    def is_passed(self, op, args):
        """No event stops there; so it is with debug records."""
        return op in PASSED or op == 12 and args[2] in self.places.module.imports

    def blank(self, ty):
        kind, *args = self.types[ty]
        if kind == STRUCT:
            return [self.blank(part) for part in args]
        if kind in (VECTOR, ARRAY):
            return [self.blank(args[0]) for _ in range(self.constants[args[1]] if kind == ARRAY else args[1])]
        return UNDEFINED

    def filled(self, ty, words):
        """A value whose scalars are the next of some words."""
        blank = self.blank(ty)
        return [self.filled(self.part(ty, k), words) for k in range(len(blank))] if isinstance(blank, list) else next(words)

    def part(self, ty, k):
        kind, *args = self.types[ty]
        return args[k] if kind == STRUCT else args[0]

    def text(self, ty, value):
        kind, *args = self.types[ty]
        if kind == POINTER:
            return "&%%%d" % value[0][-1] + "".join("[%d]" % index for index in value[1])
        if isinstance(value, list):
            return "[" + ", ".join(self.text(args[0], part) for part in value) + "]"
        if value == UNDEFINED:
            return "<undefined>"
        if kind == BOOL:
            return "true" if value else "false"
        return str(value - (1 << 32) if args[1] and value >> 31 else value)


class Invocation:
    def __init__(self, module, number):
        self.status, self.registers, self.number = "ready", {}, number
        self.before, self.block = None, module.firsts[module.entry]
        self.word = module.blocks[self.block][0]


class Group:
    """A workgroup: what stands in its variables, by root, and its invocations."""

    def __init__(self, module, buffers):
        self.m, self.memory, self.events = module, {}, 0
        x, y, z = module.size
        self.invocations = [Invocation(module, k) for k in range(x * y * z)]
        for id, (storage, ty) in module.variables.items():
            if storage in (INPUT, PRIVATE, FUNCTION):
                for k in range(x * y * z):
                    local = [k % x, k // x % y, k // (x * y)]
                    input = {LOCAL_INDEX: k, LOCAL_ID: local, GLOBAL_ID: local}
                    self.memory[k, id] = [input[module.builtins[id]] if storage == INPUT else module.blank(ty)]
            else:
                self.memory[(id,)] = [module.filled(ty, iter(buffers[module.bindings[id]])) if storage == BUFFER else module.blank(ty)]

    # ---- memory: a pointer is a root and a path

    def root(self, i, id):
        return (i, id) if self.m.variables[id][0] in (INPUT, PRIVATE, FUNCTION) else (id,)

    def slot(self, pointer):
        root, path = pointer
        place, key = self.memory[root], 0
        for index in path:
            place, key = place[key], index
        return place, key

    def load(self, pointer):
        place, key = self.slot(pointer)
        return place[key]

    def store(self, pointer, value):
        place, key = self.slot(pointer)
        place[key] = value

    # ---- events

    def value(self, one, id):
        if id in self.m.variables:
            return (self.root(one.number, id), ())
        return self.m.constants[id] if id in self.m.constants else one.registers[id][1]

    def atomic(self, op, pointer, operands):
        old = self.load(pointer)
        value, comparator = (operands[1], operands[2]) if op == atomics.COMPARE else (operands[0] if operands else None, None)
        self.store(pointer, atomics.stored(op, 32, old, value, comparator))
        return old

    def result(self, one, op, args):
        values = [self.value(one, id) for id in args[2:]] if op != 81 else None
        if op == 61:
            return self.load(values[0])
        if op in (65, 66):
            return (values[0][0], values[0][1] + tuple(values[1:]))
        if op == 81:
            value = self.value(one, args[2])
            for index in args[3:]:
                value = value[index]
            return value
        if 227 <= op <= 242:
            return self.atomic(op, values[0], values[3:])
        if UNDEFINED in values:
            return UNDEFINED
        return int(SCALARS[op](*values)) & 0xFFFFFFFF

    def jump(self, one, block):
        one.before, one.block = one.block, block
        stops = self.m.blocks[block]
        one.word = stops[0]
        words = list(self.m.insts)
        phis, at = {}, words.index(next(w for w, (op, args) in self.m.insts.items() if op == 248 and args[0] == block)) + 1
        while self.m.insts[words[at]][0] == 245 or self.m.is_passed(*self.m.insts[words[at]]):
            op, args = self.m.insts[words[at]]
            if op == 245:
                pairs = dict(zip(args[3::2], args[2::2]))
                phis[args[1]] = (args[0], self.value(one, pairs[one.before]))
            at += 1
        one.registers.update(phis)

    def step(self, one):
        if one.status == "passed":
            one.status, one.word = "ready", self.m.after[one.word]
            return
        op, args = self.m.insts[one.word]
        if op == 253:
            one.status = "finished"
        elif op == 249:
            self.jump(one, args[0])
        elif op == 250:
            self.jump(one, args[1] if self.value(one, args[0]) else args[2])
        elif op == 224:
            one.status = "arrived"
            if all(each.status == "arrived" and each.word == one.word for each in self.invocations):
                for each in self.invocations:
                    each.status = "passed"
        else:
            if op == 62:
                self.store(self.value(one, args[0]), self.value(one, args[1]))
            elif op != 225:
                one.registers[args[1]] = (args[0], self.result(one, op, args))
            one.word = self.m.after[one.word]

    def event(self):
        one = self.invocations[self.events % len(self.invocations)]
        if one.status in ("ready", "passed"):
            self.step(one)
        self.events += 1

    # ---- texts

    def is_over(self):
        return all(one.status == "finished" for one in self.invocations)

    def place(self, k):
        one = self.invocations[k]
        return "finished" if one.status == "finished" else self.m.places.place(one.word)

    def position(self, k):
        return "@%d i=%d %s" % (self.events, k, self.place(k))

    def regs(self, k):
        one = self.invocations[k]
        if one.status == "finished":
            return ["refused: C12 focus finished"]
        return self.shown(one.registers)

    def shown(self, registers):
        return ["%%%d = %s" % (id, self.m.text(*held)) for id, held in sorted(registers.items())]

    def each(self):
        return ["i=%d finished" % k if one.status == "finished" else "i=%d %s %s" % (k, one.status, self.place(k)) for k, one in enumerate(self.invocations)]


def length_of(module, buffers):
    group = Group(module, buffers)
    while not group.is_over():
        group.event()
    return group


def transcript(module, buffers, stops):
    """The commands and replies at some positions, at each of which some invocations are looked at, and at the end."""
    end = length_of(module, buffers).events
    group, lines, commands, focus = Group(module, buffers), [], [], 0
    for position, looked in stops(end):
        while group.events < position:
            group.event()
        commands += ["goto %d" % position, "group"]
        lines += ["stop: done" + (", all finished" if group.is_over() else ""), group.position(focus)] + group.each()
        for k in looked:
            focus = k
            commands += ["focus %d" % k, "regs"]
            lines += [group.position(k)] + group.regs(k)
    return lines, commands


def at_parts(count):
    """Two positions in the midst of a run, the last one before its end, and the end; the first, a middle and the last invocation."""
    return lambda end: [(end // 3, (0, count // 2)), (2 * end // 3, (count - 1,)), (end - 1, (count - 1,)), (end, ())]


WORDS = [(k * k * 2654435761 + 12345) & 0xFFFFFFFF for k in range(64)]
RUNS = [
    ("reduction", {0: [k * k + 1 for k in range(64)], 1: [0] * 65}, 64),
    ("prefix", {0: [(k * 37 % 23 - 11) & 0xFFFFFFFF for k in range(32)], 1: [0] * 32}, 32),
    ("histogram", {0: WORDS, 1: [0] * 8 + [0x7FFFFFFF, 0x80000000, 0, 0xFFFFFFFF, 0, 0, 0]}, 16),
    ("transpose", {0: list(range(100, 132)), 1: [0] * 32}, 32),
]


def path_of(name):
    return os.path.join(DATA, file_of(name))


def file_of(name):
    return "group-%s.spv" % name


def text(lines):
    return "".join(line + "\n" for line in lines)


def setup_of(buffers):
    hexadecimal = lambda words: struct.pack("<%dI" % len(words), *words).hex()
    return ["spvdbg-setup 1"] + ["buffer 0 %d hex %s" % (binding, hexadecimal(words)) for binding, words in buffers.items()] + ["rounds 2000"]


# Runs whose transcripts were worked out by hand: a barrier that never opens, 64 invocations that exchange values over a barrier, and
# motions by numbers of events. The first two modules are assembled by spirv-as from the .spvasm files, and the third is that of the first
# example; their setups, commands and transcripts lie beside those files.
WORKED = (("stuck", "group-stuck.spv"), ("exchange", "group-exchange.spv"), ("motions", "first.spv"))


def calls():
    """What each run is, its module, setup and commands, the status and what is written."""
    for name, buffers, count in RUNS:
        for made in (name, name + "-optimized"):
            with open(path_of(made), "rb") as file:
                lines, commands = transcript(Module(file.read()), buffers, at_parts(count))
            yield made, file_of(made), text(setup_of(buffers)), text(commands), 0, text(lines)
    for name, module in WORKED:
        setup, commands, written = (open(os.path.join(SHADERS, name + end)).read() for end in (".setup", ".commands", ".transcript"))
        yield name, module, setup, commands, 0, written


def main():
    for name, _, _ in RUNS:
        for compiler, suffix in ((GLSLANG, ""), (GLSLC, "-optimized")):
            command = compiler + [os.path.join(SHADERS, name + ".comp"), "-o", path_of(name + suffix)]
            subprocess.run(command, check=True, stdout=subprocess.DEVNULL)


if __name__ == "__main__":
    main()
