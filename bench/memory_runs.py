#!/usr/bin/env python3
"""Runs of modules that read and write memory, and the registers that `debug` has to show for them, worked out here apart from the program.

    bench/memory_runs.py    compiles bench/shaders/ to the modules memory-*.spv of crates/test_runs/data/

The runs are written by bench/runs.py. The shaders are compiled by `glslangValidator`, `glslc` and `spirv-as`. Here a buffer is a row of bytes in which the Offsets and strides of a
module say where a part begins, and any other variable is a tree of lists. Opcodes are those of SPIR-V 1.6, section 3.42.
"""
import os
import struct
import subprocess
from places import Places

TOP = os.path.join(os.path.dirname(os.path.abspath(__file__)), "..")
DATA = os.path.join(TOP, "crates", "test_runs", "data")
SHADERS = os.path.join(TOP, "bench", "shaders")
GLSLANG = ["glslangValidator", "-V", "--target-env", "vulkan1.1"]
LAID_OUT = ["glslangValidator", "-V", "-g0", "--target-env", "vulkan1.2"]
GLSLC = ["glslc", "--target-env=vulkan1.2"]
ASSEMBLER = ["spirv-as", "--target-env", "spv1.3"]
COMPILED = [
    ("structs-glslang", GLSLANG, "structs.comp"), ("structs-glslc", GLSLC, "structs.comp"),
    ("nested-glslang", GLSLANG, "nested.comp"), ("nested-glslc", GLSLC, "nested.comp"),
    ("layouts", LAID_OUT, "layouts.comp"),
    ("copies", ASSEMBLER, "copies.spvasm"), ("lengths", ASSEMBLER, "lengths.spvasm"),
    ("undefined", ASSEMBLER, "undefined.spvasm"), ("large", ASSEMBLER, "large.spvasm"),
]

UNDEFINED = None
BOOL, INT, VECTOR, ARRAY, RUNTIME, STRUCT, POINTER = 20, 21, 23, 28, 29, 30, 32
UNIFORM, INPUT, PUSH, STORAGE = 2, 1, 9, 12
PASSED = {0, 8, 59, 246, 247, 248, 317}


class Fault(Exception):
    """A fault of a number."""


class Pointer:
    """A variable, and the numbers of the parts that a path leads through, read as signed."""

    def __init__(self, variable, path=()):
        self.variable, self.path = variable, tuple(path)


class Module:
    """The instructions of a module, each with its word, and what is read off those before the functions."""

    def __init__(self, data, spec):
        words = struct.unpack("<%dI" % (len(data) // 4), data)
        self.spec, self.insts, self.stands = spec, [], Places(data)
        at = 5
        while at < len(words):
            count, op = words[at] >> 16, words[at] & 0xFFFF
            self.insts.append((at, op, words[at + 1 : at + count]))
            at += count
        self.types, self.constants, self.variables = {}, {}, []
        self.offsets, self.strides, self.ids, self.places, self.builtins = {}, {}, {}, {}, {}
        for _, op, args in self.insts:
            self.declare(op, args)

    def declare(self, op, args):
        if op == 71 and args[1] in (1, 6, 11, 33, 34):
            table = {1: self.ids, 6: self.strides, 11: self.builtins}.get(args[1])
            if table is not None:
                table[args[0]] = args[2]
            else:
                self.places.setdefault(args[0], {})[args[1]] = args[2]
        elif op == 72 and args[2] == 35:
            self.offsets[args[0], args[1]] = args[3]
        elif op in (19, BOOL, INT, VECTOR, ARRAY, RUNTIME, STRUCT, POINTER, 33):
            self.types[args[0]] = (op, *args[1:])
        elif op in (41, 42, 43, 44, 48, 49, 50, 51, 52, 46, 1) and args[1] not in self.constants:
            self.constants[args[1]] = self.constant(op, args)
        elif op == 59:
            self.variables.append((args[1], args[0], args[2], args[3] if len(args) > 3 else None))

    def constant(self, op, args):
        ty, rest = self.types[args[0]], args[2:]
        if op in (44, 51):
            return [self.constants[id] for id in rest]
        if op in (1, 46):
            return self.blank(args[0]) if op == 1 else self.zero(args[0])
        if op == 52:
            return compute(rest[0], self, args[0], [self.constants[id] for id in rest[1:]])
        value = {41: 1, 42: 0, 48: 1, 49: 0}.get(op, sum(word << 32 * k for k, word in enumerate(rest)))
        if op in (48, 49, 50):
            value = self.spec.get(self.ids.get(args[1]), value)
        return value & (1 << (1 if ty[0] == BOOL else ty[1])) - 1

    # ---- types

    def parts(self, ty):
        """The types of the parts of a type; none of a scalar, or where a runtime array has no number of them."""
        kind, *args = self.types[ty]
        if kind == VECTOR:
            return [args[0]] * args[1]
        if kind == ARRAY:
            return [args[0]] * self.constants[args[1]]
        return list(args) if kind == STRUCT else None

    def part(self, ty, index):
        kind, *args = self.types[ty]
        return args[index] if kind == STRUCT else args[0]

    def blank(self, ty):
        parts = self.parts(ty)
        return UNDEFINED if parts is None else [self.blank(part) for part in parts]

    def zero(self, ty):
        parts = self.parts(ty)
        return 0 if parts is None else [self.zero(part) for part in parts]

    def width(self, ty):
        kind, *args = self.types[ty]
        return 1 if kind == BOOL else args[0]

    # ---- bytes

    def start(self, ty, index):
        """Where a part of a type begins."""
        kind, *args = self.types[ty]
        if kind == STRUCT:
            return self.offsets[ty, index]
        return index * (self.width(args[0]) // 8 if kind == VECTOR else self.strides[ty])

    def read(self, data, ty, at):
        parts = self.parts(ty)
        if parts is None:
            return int.from_bytes(data[at : at + self.width(ty) // 8], "little")
        return [self.read(data, part, at + self.start(ty, k)) for k, part in enumerate(parts)]

    def write(self, data, ty, at, value):
        parts = self.parts(ty)
        if parts is None:
            size = self.width(ty) // 8
            data[at : at + size] = value.to_bytes(size, "little")
            return
        for k, part in enumerate(parts):
            self.write(data, part, at + self.start(ty, k), value[k])

    # ---- texts

    def text(self, ty, value):
        kind, *args = self.types[ty]
        if kind == POINTER:
            return "&%%%d" % value.variable + "".join("[%d]" % index for index in value.path)
        if kind == STRUCT:
            return "{" + ", ".join("%d = %s" % (k, self.text(part, value[k])) for k, part in enumerate(args)) + "}"
        if kind in (VECTOR, ARRAY):
            return "[" + ", ".join(self.text(args[0], part) for part in value) + "]"
        if value is UNDEFINED:
            return "<undefined>"
        if kind == BOOL:
            return "true" if value else "false"
        return str(signed(value, args[0]) if args[1] else value)


def signed(number, width):
    return number - (1 << width) if number >> (width - 1) else number


def lanes(f, a, b):
    if isinstance(a, list):
        return [lanes(f, x, y) for x, y in zip(a, b)]
    return UNDEFINED if a is UNDEFINED or b is UNDEFINED else f(a, b)


def compute(op, m, ty, values):
    """The instructions that compute, of those that the shaders have."""
    if op == 80:
        return list(values) if m.types[ty][0] != VECTOR else [x for v in values for x in (v if isinstance(v, list) else [v])]
    if op in (83, 400) or op == 124 and not isinstance(values[0], list):
        return values[0]
    scalar = m.types[ty][1] if m.types[ty][0] == VECTOR else ty
    mask = (1 << m.width(scalar)) - 1
    table = {128: lambda a, b: a + b, 130: lambda a, b: a - b, 132: lambda a, b: a * b, 199: lambda a, b: a & b, 197: lambda a, b: a | b}
    return lanes(lambda a, b: table[op](a, b) & mask, *values)


class Run:
    """A run of one block: its variables, registers and events."""

    def __init__(self, module, buffers, push):
        self.m, self.registers, self.events = module, {}, 0
        self.types, self.bytes, self.trees = {}, {}, {}
        for id, pointer, storage, start in module.variables:
            ty = module.types[pointer][2]
            self.types[id] = (pointer, ty)
            if storage in (UNIFORM, STORAGE, PUSH):
                place = module.places.get(id, {})
                self.bytes[id] = push if storage == PUSH else buffers[place[34], place[33]]
            elif storage == INPUT:
                self.trees[id] = module.zero(ty) if module.builtins[id] != 24 else [1, 1, 1]
            else:
                self.trees[id] = module.blank(ty) if start is None else copied(module.constants[start])

    def value(self, id):
        if id in self.types:
            return Pointer(id)
        return self.m.constants[id] if id in self.m.constants else self.registers[id][1]

    def place(self, p):
        """The type that a pointer leads to, and where it begins in bytes; F3 where it leads past the end."""
        ty, at = self.types[p.variable][1], 0
        for index in p.path:
            count = self.count(ty, p.variable, at)
            if not 0 <= index < count:
                raise Fault(3)
            at += self.m.start(ty, index) if p.variable in self.bytes else 0
            ty = self.m.part(ty, index)
        return ty, at

    def count(self, ty, variable, at):
        if self.m.types[ty][0] == RUNTIME:
            return (len(self.bytes[variable]) - at) // self.m.strides[ty]
        return len(self.m.parts(ty))

    def load(self, p):
        ty, at = self.place(p)
        if p.variable in self.bytes:
            return self.m.read(self.bytes[p.variable], ty, at)
        tree = self.trees[p.variable]
        for index in p.path:
            tree = tree[index]
        return copied(tree)

    def store(self, p, value):
        ty, at = self.place(p)
        if p.variable in self.bytes:
            self.m.write(self.bytes[p.variable], ty, at, value)
        elif not p.path:
            self.trees[p.variable] = copied(value)
        else:
            tree = self.trees[p.variable]
            for index in p.path[:-1]:
                tree = tree[index]
            tree[p.path[-1]] = copied(value)

    def chain(self, args):
        base, path = self.value(args[0]), []
        for id in args[1:]:
            index = self.value(id)
            if index is UNDEFINED:
                raise Fault(2)
            path.append(signed(index, self.index_width(id)))
        return Pointer(base.variable, base.path + tuple(path))

    def index_width(self, id):
        ty = next(args[0] for _, _, args in self.m.insts if len(args) > 1 and args[1] == id and args[0] in self.m.types)
        return self.m.width(ty)

    def give(self, op, args):
        """The result of an instruction that has one."""
        ty, rest = args[0], args[2:]
        if op == 61:
            return self.load(self.value(rest[0]))
        if op in (65, 66):
            return self.chain(rest)
        if op == 68:
            base = self.value(rest[0])
            block, at = self.place(base)
            return self.count(self.m.part(block, rest[1]), base.variable, at + self.m.start(block, rest[1]))
        if op == 81:
            value = self.value(rest[0])
            for index in rest[1:]:
                value = value[index]
            return value
        if op == 82:
            whole = copied(self.value(rest[1]))
            inner = whole
            for index in rest[2:-1]:
                inner = inner[index]
            inner[rest[-1]] = self.value(rest[0])
            return whole
        if op == 79:
            both = self.value(rest[0]) + self.value(rest[1])
            return [both[k] for k in rest[2:]]
        return compute(op, self.m, ty, [self.value(id) for id in rest])

    def step(self, op, args):
        if op == 62:
            self.store(self.value(args[0]), self.value(args[1]))
        elif op == 63:
            self.place(self.value(args[0]))
            self.store(self.value(args[0]), self.load(self.value(args[1])))
        else:
            self.registers[args[1]] = (args[0], self.give(op, args))

    def shown(self):
        return ["%%%d = %s" % (id, self.m.text(ty, value)) for id, (ty, value) in sorted(self.registers.items())]


def copied(value):
    return [copied(part) for part in value] if isinstance(value, list) else value


def transcript(module, run, stops):
    """The replies to `goto` and `regs` at each of some positions, and to the `goto` that ends the run."""
    body = module.insts[next(k for k, inst in enumerate(module.insts) if inst[1] == 54) :]
    lines, commands = [], []
    for word, op, args in body:
        if op in PASSED or op in (54, 56):
            continue
        at = "@%d i=0 %s" % (run.events, module.stands.place(word))
        start, shown, fault = ", start" if run.events == 0 else "", run.shown(), ""
        try:
            if op != 253:
                run.step(op, args)
        except Fault as cause:
            fault = "fault F%d i=0 word %d" % (cause.args[0], word)
        if run.events in stops or op == 253:
            commands += ["goto %d" % run.events, "regs"]
            lines += ["stop: done" + start + (", " + fault if fault else ""), at] + shown
        if fault:
            commands += ["goto 100", "regs"]
            return lines + ["stop: " + fault, at] + shown, commands
        run.events += 1
        if op == 253:
            commands.append("goto %d" % run.events)
            return lines + ["stop: done, all finished", "@%d i=0 finished" % run.events], commands


# ---- the runs: a module, the lines of its setup, and the positions at which its registers are shown

def words(*numbers):
    return struct.pack("<%dI" % len(numbers), *(n & 0xFFFFFFFF for n in numbers))


def cells(*each):
    """Cells of std430: an id, two points and three weights, of which the third vector begins at 32 of 48 bytes."""
    return words(0, 0, 0, 0) + b"".join(words(id, *points, 0, 0, 0, *weights, 0) for id, points, weights in each)


STRUCTS = {
    "buffers": {
        (0, 0): cells((5, (1, -2, 3, -4), (7, 8, 9)), (6, (10, 20, 30, 40), (70, 80, 90)), (7, (11, 12, 13, 14), (15, 16, 17))) + b"\1\2\3",
        (0, 1): words(100, 200, 0, 0) + words(-5, 6, 0, 0) + words(1, 0, 0, 0, 2, 0, 0, 0, 3, 0, 0, 0),
    },
    "push": words(1, 4),
}
NESTED = {
    "buffers": {
        (1, 2): b"".join(words(*(100 * k + n for n in range(14))) for k in range(4)),
        (1, 3): bytes(32 + 32 + 96),
        (0, 0): words(1, 0, 2, 2),
    },
    "push": b"",
}
def counted(size, first):
    """So many bytes, each one more than the one before it."""
    return bytes((first + n) % 256 for n in range(size))


# The last element of the runtime array of binding 1 is cut where the bytes end.
LAYOUTS = {"buffers": {(0, n): counted(size, 64 * n + 1) for n, size in enumerate((192, 175, 92, 15, 24))}, "push": b""}
COPIES = {"buffers": {(0, 0): words(0, 0) + words(1, 0, 2, 3) + words(4, 0, 5, 6) + words(7, 0, 8, 9) + words(10, 0, 11, 12)}, "push": b""}
ROW = {"buffers": {(0, 0): bytes(20)}, "push": b""}

RUNS = [
    ("structs-glslang", "structs-glslang", STRUCTS, {}, (1, 12, 34)),
    ("structs-glslang-specialized", "structs-glslang", STRUCTS, {7: 0xFFFFFFFF}, (40,)),
    ("structs-glslc", "structs-glslc", STRUCTS, {7: 11}, (7, 50)),
    ("nested-glslang", "nested-glslang", NESTED, {}, (5, 30)),
    ("nested-glslang-specialized", "nested-glslang", NESTED, {0: 5}, ()),
    ("nested-glslc", "nested-glslc", NESTED, {0: 3}, (20,)),
    ("layouts", "layouts", LAYOUTS, {}, (10, 40, 75)),
    ("layouts-first", "layouts", LAYOUTS, {0: 0, 1: 4}, (75,)),
    ("layouts-behind-the-structs", "layouts", LAYOUTS, {0: 2}, ()),
    ("layouts-before-the-structs", "layouts", LAYOUTS, {0: 0xFFFFFFFF}, ()),
    ("layouts-behind-the-bytes", "layouts", LAYOUTS, {1: 5}, ()),
    ("copies", "copies", COPIES, {}, (5, 9, 14)),
    ("lengths", "lengths", ROW, {}, (1, 3)),
    ("lengths-none", "lengths", {"buffers": {(0, 0): bytes(4)}, "push": b""}, {}, (1,)),
    ("undefined", "undefined", {"buffers": {}, "push": b""}, {}, ()),
]

# setups that are refused, and what is written
REFUSED = [
    ("no-buffer", "lengths", [], "setup refused: S6 at line 0"),
    ("short-buffer", "lengths", ["buffer 0 0 zero 3"], "setup refused: S7 at line 2"),
    ("no-such-invocation", "lengths", ["buffer 0 0 zero 20", "move 1 5"], "setup refused: S5 at line 3"),
    ("too-many-entries", "lengths", ["buffer 0 0 zero 20", "rounds 4194304", "move 0 1"], "setup refused: S9 at line 0"),
    ("group-twice", "lengths", ["group 0 0 0 of 1 1 1", "group 0 0 0 of 1 1 1"], "setup refused: S4 at line 3"),
    ("odd-digits", "lengths", ["push hex 0"], "setup refused: S3 at line 2"),
    ("unknown-word", "lengths", ["jump 1"], "setup refused: S2 at line 2"),
    ("too-many-cells", "large", ["rounds 30"], "setup refused: S10 at line 0"),
]


def setup_of(inputs, spec):
    lines = ["spvdbg-setup 1"]
    for key, data in inputs["buffers"].items():
        lines.append("buffer %d %d " % key + ("hex " + data.hex() if any(data) else "zero %d" % len(data)))
    lines += ["push hex " + inputs["push"].hex()] if inputs["push"] else []
    return lines + ["spec %d %d" % item for item in spec.items()] + ["rounds 1000"]


def path_of(name):
    return os.path.join(DATA, file_of(name))


def file_of(name):
    return "memory-%s.spv" % name


def text(lines):
    return "".join(line + "\n" for line in lines)


def calls():
    """What each run is, its module, setup and commands, the status and what is written."""
    for name, module, inputs, spec, stops in RUNS:
        with open(path_of(module), "rb") as file:
            m = Module(file.read(), spec)
        run = Run(m, {key: bytearray(data) for key, data in inputs["buffers"].items()}, bytearray(inputs["push"]))
        lines, commands = transcript(m, run, stops)
        yield name, file_of(module), text(setup_of(inputs, spec)), text(commands), 0, text(lines)
    for name, module, lines, answer in REFUSED:
        yield name, file_of(module), text(["spvdbg-setup 1"] + lines), "regs\n", 4, answer + "\n"


def main():
    for name, compiler, source in COMPILED:
        subprocess.run(compiler + [os.path.join(SHADERS, source), "-o", path_of(name)], check=True)


if __name__ == "__main__":
    main()
