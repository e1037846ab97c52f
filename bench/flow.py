#!/usr/bin/env python3
"""Modules that branch, and what `debug` has to reply for them, worked out here apart from the program.

    bench/flow.py           makes the modules flow-*.spv of crates/test_runs/data/

The runs are written by bench/runs.py. The modules are written below in assembly (for `spirv-as`) or GLSL (for `glslangValidator`, and once more through `spirv-opt -O`).
`Run` takes the words of a module and runs its one invocation, an event at a time: integers are Python's, cut to their width;
an undefined value is None. Instructions are those of SPIR-V 1.6, sections 3.42.8, 3.42.9 and 3.42.11 to 3.42.17.
"""
import os
import struct
import subprocess
import tempfile
from places import Places

TOP = os.path.join(os.path.dirname(os.path.abspath(__file__)), "..")
DATA = os.path.join(TOP, "crates", "test_runs", "data")
PASSED = {0, 8, 59, 245, 246, 247, 248, 317}
SIGNED = {131, 135, 138, 139, 173, 175, 177, 179, 195}


class Fault(Exception):
    """What an instruction does that faults: the number of the fault."""


class Instruction:
    def __init__(self, word, words, has_type, has_result):
        self.word, self.op = word, words[0] & 0xFFFF
        rest = words[1:]
        self.type = rest.pop(0) if has_type else 0
        self.id = rest.pop(0) if has_result else 0
        self.operands = rest


def signed(width, bits):
    return bits - (1 << width) if bits >> (width - 1) else bits


BINARY = {
    128: lambda a, b: a + b, 130: lambda a, b: a - b, 132: lambda a, b: a * b, 134: lambda a, b: a // b if b else None,
    137: lambda a, b: a % b if b else None, 164: lambda a, b: a == b, 165: lambda a, b: a != b, 166: lambda a, b: a or b,
    167: lambda a, b: a and b, 170: lambda a, b: a == b, 171: lambda a, b: a != b, 172: lambda a, b: a > b, 173: lambda a, b: a > b,
    174: lambda a, b: a >= b, 175: lambda a, b: a >= b, 176: lambda a, b: a < b, 177: lambda a, b: a < b, 178: lambda a, b: a <= b,
    179: lambda a, b: a <= b, 194: lambda a, b: a >> b, 196: lambda a, b: a << b, 197: lambda a, b: a | b, 198: lambda a, b: a ^ b,
    199: lambda a, b: a & b,
}


class Module:
    """A module's types, constants, variables and functions."""

    NO_RESULT = {0, 3, 4, 5, 6, 8, 10, 14, 15, 16, 17, 56, 62, 71, 72, 246, 247, 249, 250, 251, 253, 254, 255, 317}
    NO_TYPE = {7, 11, 19, 20, 21, 23, 28, 29, 30, 32, 33, 248}

    def __init__(self, data):
        self.words, self.places = list(struct.unpack("<%dI" % (len(data) // 4), data)), Places(data)
        self.types, self.constants, self.variables, self.functions, self.blocks = {}, {}, {}, {}, {}
        self.instructions = []
        place, function, block = 5, None, None
        while place < len(self.words):
            count = self.words[place] >> 16
            op = self.words[place] & 0xFFFF
            i = Instruction(place, self.words[place : place + count], op not in self.NO_RESULT | self.NO_TYPE, op not in self.NO_RESULT)
            place += count
            self.instructions.append(i)
            if op == 15:
                self.entry = i.operands[1]
            elif op in range(19, 34):
                self.types[i.id] = i
            elif op == 54:
                function = self.functions[i.id] = {"parameters": [], "registers": [], "first": None}
            elif op == 56:
                function = None
            elif function is None:
                self.declare(i)
            elif op == 55:
                function["parameters"].append(i.id)
                function["registers"].append(i.id)
            elif op == 248:
                block = self.blocks[i.id] = []
                function["first"] = function["first"] or i.id
            elif function is not None:
                block.append(i)
                if op == 59:
                    self.variables[i.id] = i
                elif i.id:
                    function["registers"].append(i.id)
        self.definer = {i.id: i for i in self.instructions if i.id}

    def declare(self, i):
        if i.op in (41, 42):
            self.constants[i.id] = i.op == 41
        elif i.op == 43:
            low, *high = i.operands
            self.constants[i.id] = (low | (high[0] << 32 if high else 0)) & ((1 << self.width(i.type)) - 1)
        elif i.op == 1:
            self.constants[i.id] = None
        elif i.op == 59:
            self.variables[i.id] = i

    def width(self, type):
        return 1 if self.types[type].op == 20 else self.types[type].operands[0]

    def is_signed(self, type):
        return self.types[type].op == 21 and self.types[type].operands[1] == 1

    def text(self, type, value):
        if isinstance(value, tuple):
            return "&%%%d" % value[0] + "".join("[%d]" % n for n in value[1])
        if value is None:
            return "<undefined>"
        if self.types[type].op == 20:
            return "true" if value else "false"
        return str(signed(self.width(type), value) if self.is_signed(type) else value)


class Frame:
    def __init__(self, function, values, depth):
        self.function, self.values, self.depth = function, values, depth
        self.label, self.number = None, 0


class Run:
    """The one invocation of a module: `step` does an event, or raises a fault and changes nothing."""

    def __init__(self, module, buffers):
        self.m, self.memory, self.position = module, dict(buffers), 0
        self.frames = [Frame(module.entry, {}, 0)]
        self.go(self.frames[0], module.functions[module.entry]["first"])

    def go(self, frame, label):
        frame.label, frame.number = label, -1
        self.on(frame)

    def on(self, frame):
        frame.number += 1
        while self.is_passed(self.m.blocks[frame.label][frame.number]):
            frame.number += 1

    @staticmethod
    def is_passed(i):
        return i.op in PASSED

    def here(self):
        return self.m.blocks[self.frames[-1].label][self.frames[-1].number]

    def value(self, id):
        frame = self.frames[-1]
        if id in self.m.constants:
            return self.m.constants[id]
        if id in self.m.variables:
            return (id, ())
        if id not in frame.values:
            raise Fault(4)
        return frame.values[id]

    def place(self, pointer):
        root, path = pointer
        storage = self.m.definer[self.m.variables[root].type].operands[0]
        return (root, self.frames[-1].depth if storage == 7 else 0, path)

    def phis(self, target):
        """What the phis of a block take, all read before any is set."""
        taken = {}
        for i in self.m.blocks[target]:
            if i.op == 245:
                pairs = dict(zip(i.operands[1::2], i.operands[::2]))
                taken[i.id] = self.value(pairs[self.frames[-1].label])
        return taken

    def jump(self, target):
        frame = self.frames[-1]
        taken = self.phis(target)
        frame.values.update(taken)
        self.go(frame, target)

    def decided(self, id):
        value = self.value(id)
        if value is None:
            raise Fault(1)
        return value

    def case(self, i):
        selector = self.decided(i.operands[0])
        width = self.m.width(self.m.definer[i.operands[0]].type)
        size = 3 if width == 64 else 2
        for n in range(2, len(i.operands), size):
            literal = sum(word << 32 * k for k, word in enumerate(i.operands[n : n + size - 1]))
            if literal & ((1 << width) - 1) == selector:
                return i.operands[n + size - 1]
        return i.operands[1]

    def give(self, i, value):
        frame = self.frames[-1]
        if value is not None and not isinstance(value, (tuple, bool)):
            value &= (1 << self.m.width(i.type)) - 1
        frame.values[i.id] = value
        self.on(frame)

    def step(self):
        i, frame = self.here(), self.frames[-1]
        if i.op == 249:
            self.jump(i.operands[0])
        elif i.op == 250:
            self.jump(i.operands[1] if self.decided(i.operands[0]) else i.operands[2])
        elif i.op == 251:
            self.jump(self.case(i))
        elif i.op == 255:
            raise Fault(5)
        elif i.op in (253, 254):
            self.leave(self.value(i.operands[0]) if i.op == 254 else None)
        elif i.op == 57:
            self.enter(i)
        elif i.op == 61:
            self.give(i, self.memory.get(self.place(self.value(i.operands[0]))))
        elif i.op == 62:
            pointer, value = self.value(i.operands[0]), self.value(i.operands[1])
            self.memory[self.place(pointer)] = value
            self.on(frame)
        elif i.op == 65:
            base, *indexes = [self.value(id) for id in i.operands]
            self.give(i, (base[0], base[1] + tuple(indexes)))
        else:
            self.give(i, self.computed(i))
        self.position += 1

    def computed(self, i):
        values = [self.value(id) for id in i.operands]
        if i.op == 1:
            return None
        if None in values:
            return None
        if i.op == 83 or i.op == 124:
            return values[0]
        if i.op == 168:
            return not values[0]
        if i.op == 169:
            return values[1] if values[0] else values[2]
        if i.op in SIGNED:
            width = self.m.width(self.m.definer[i.operands[0]].type)
            values = [signed(width, v) for v in values]
        return BINARY[i.op](*values)

    def enter(self, i):
        callee = self.m.functions[i.operands[0]]
        values = dict(zip(callee["parameters"], [self.value(id) for id in i.operands[1:]]))
        self.frames.append(Frame(i.operands[0], values, len(self.frames)))
        self.go(self.frames[-1], callee["first"])

    def leave(self, value):
        depth = self.frames.pop().depth
        for place in [p for p in self.memory if p[1] == depth and self.m.definer[self.m.variables[p[0]].type].operands[0] == 7]:
            del self.memory[place]
        if self.frames:
            call = self.here()
            if value is not None or self.m.types[call.type].op != 19:
                self.frames[-1].values[call.id] = value
            self.on(self.frames[-1])

    # ---- what is shown

    def where(self):
        if not self.frames:
            return "@%d i=0 finished" % self.position
        return "@%d i=0 %s" % (self.position, self.m.places.place(self.here().word))

    def registers(self):
        if not self.frames:
            return None
        frame = self.frames[-1]
        ids = sorted(id for id in self.m.functions[frame.function]["registers"] if id in frame.values)
        return ["%%%d = %s" % (id, self.m.text(self.m.definer[id].type, frame.values[id])) for id in ids]


class Recorded:
    """What is shown at each position of a run, and its end."""

    def __init__(self, data, buffers):
        run, self.at = Run(Module(data), buffers), []
        while True:
            self.at.append((run.where(), run.registers()))
            if not run.frames:
                self.cause = "all finished"
                break
            try:
                word = run.here().word
                run.step()
            except Fault as fault:
                self.cause = "fault F%d i=0 word %d" % (fault.args[0], word)
                break
        self.end, self.memory = len(self.at) - 1, run.memory

    def goto(self, position):
        """The reply to `goto`: why it stops, and where."""
        landed = min(position, self.end)
        causes = ["done"] if landed == position else []
        causes += ["start"] if landed == 0 else []
        causes += [self.cause] if landed == self.end else []
        return ["stop: " + ", ".join(causes), self.at[landed][0]]

    def shown(self, position):
        """The reply to `regs`."""
        return self.at[position][1]


# ---- the modules


def assembled(text):
    with tempfile.TemporaryDirectory() as folder:
        source, made = os.path.join(folder, "a.spvasm"), os.path.join(folder, "a.spv")
        open(source, "w").write(text)
        subprocess.run(["spirv-as", "--preserve-numeric-ids", "--target-env", "spv1.6", source, "-o", made], check=True)
        return open(made, "rb").read()


def compiled(text, optimized):
    with tempfile.TemporaryDirectory() as folder:
        source, made, better = (os.path.join(folder, name) for name in ("a.comp", "a.spv", "b.spv"))
        open(source, "w").write(text)
        subprocess.run(["glslangValidator", "-V", "--target-env", "spirv1.6", source, "-o", made], check=True, stdout=subprocess.DEVNULL)
        if not optimized:
            return open(made, "rb").read()
        subprocess.run(["spirv-opt", "-O", made, "-o", better], check=True)
        return open(better, "rb").read()


HEAD = """OpCapability Shader
OpCapability Int8
OpCapability Int16
OpCapability Int64
OpMemoryModel Logical GLSL450
OpEntryPoint GLCompute %7 "main"
OpExecutionMode %7 LocalSize 1 1 1
%1 = OpTypeVoid
%2 = OpTypeFunction %1
%3 = OpTypeInt 32 0
%4 = OpTypeBool
%5 = OpConstant %3 0
%6 = OpConstant %3 1
%8 = OpConstant %3 2
%9 = OpConstant %3 3
%10 = OpUndef %4
%11 = OpTypeInt 8 1
%12 = OpTypeInt 16 0
%13 = OpTypeInt 64 1
%14 = OpConstant %11 -3
%15 = OpConstant %12 65535
%16 = OpConstant %13 -5
%17 = OpConstantTrue %4
%18 = OpUndef %3
%7 = OpFunction %1 None %2
"""
END = "OpFunctionEnd\n"

# two phis that exchange their values, and one that counts
SWAPS = HEAD + """%20 = OpLabel
OpBranch %21
%21 = OpLabel
%30 = OpPhi %3 %6 %20 %31 %22
%31 = OpPhi %3 %8 %20 %30 %22
%32 = OpPhi %3 %5 %20 %34 %22
%33 = OpULessThan %4 %32 %9
OpLoopMerge %23 %22 None
OpBranchConditional %33 %22 %23
%22 = OpLabel
%34 = OpIAdd %3 %32 %6
OpBranch %21
%23 = OpLabel
OpReturn
""" + END

# selectors of 8, 16, 32 and 64 bits, each with its own case and once with none
SWITCHES = HEAD + """%20 = OpLabel
OpSelectionMerge %24 None
OpSwitch %14 %21 3 %22 -3 %23
%21 = OpLabel
OpBranch %24
%22 = OpLabel
OpBranch %24
%23 = OpLabel
%50 = OpIAdd %3 %6 %6
OpBranch %24
%24 = OpLabel
%51 = OpPhi %3 %5 %21 %6 %22 %50 %23
OpSelectionMerge %28 None
OpSwitch %15 %25 1 %26 65535 %27
%25 = OpLabel
OpBranch %28
%26 = OpLabel
OpBranch %28
%27 = OpLabel
OpBranch %28
%28 = OpLabel
%52 = OpPhi %3 %5 %25 %6 %26 %51 %27
OpSelectionMerge %32 None
OpSwitch %52 %29 7 %30 9 %31
%29 = OpLabel
%53 = OpIMul %3 %52 %9
OpBranch %32
%30 = OpLabel
OpBranch %32
%31 = OpLabel
OpBranch %32
%32 = OpLabel
%54 = OpPhi %3 %53 %29 %5 %30 %6 %31
OpSelectionMerge %36 None
OpSwitch %16 %33 4294967291 %34 -5 %35
%33 = OpLabel
OpBranch %36
%34 = OpLabel
OpBranch %36
%35 = OpLabel
OpBranch %36
%36 = OpLabel
%55 = OpPhi %3 %5 %33 %6 %34 %54 %35
%56 = OpIAdd %3 %55 %6
OpReturn
""" + END

# an undefined condition, though a phi of each target has no value
UNDEFINED = HEAD + """%20 = OpLabel
%30 = OpIAdd %3 %6 %6
OpSelectionMerge %22 None
OpBranchConditional %10 %21 %22
%21 = OpLabel
%40 = OpIAdd %3 %6 %6
OpBranch %22
%22 = OpLabel
%41 = OpPhi %3 %40 %20 %40 %21
OpReturn
""" + END
UNDEFINED_SELECTOR = UNDEFINED.replace("OpBranchConditional %10 %21 %22", "OpSwitch %18 %22 1 %21")
# a phi whose value has none
NO_VALUE = UNDEFINED.replace("OpBranchConditional %10 %21 %22", "OpBranchConditional %17 %22 %21")
# where no run may come
UNREACHABLE = UNDEFINED.replace("OpBranchConditional %10 %21 %22", "OpBranchConditional %17 %21 %22").replace("OpReturn", "OpUnreachable")

# an OpIAdd that reads its own result: the first example of docs/MANUAL.md with word 63 changed
OWN_RESULT = struct.pack("<67I", *[
    0x07230203, 0x00010600, 0, 12, 0, 0x00020011, 1, 0x0003000E, 0, 1, 0x0005000F, 5, 7, 0x6E69616D, 0, 0x00060010, 7, 17, 1, 1, 1,
    0x00020013, 1, 0x00030021, 2, 1, 0x00040015, 3, 32, 0, 0x00040020, 4, 7, 3, 0x0004002B, 3, 5, 40, 0x0004002B, 3, 6, 2,
    0x00050036, 1, 7, 0, 2, 0x000200F8, 8, 0x0004003B, 4, 9, 7, 0x0003003E, 9, 5, 0x0004003D, 3, 10, 9, 0x00050080, 3, 11, 11, 6,
    0x000100FD, 0x00010038])

LOOPS = """#version 450
layout(local_size_x = 1) in;
layout(set = 0, binding = 0) buffer B { uint n; uint found[4]; } b;
void main() {
  uint primes = 0u, sum = 0u;
  for (uint i = 2u; i < b.n; i++) {
    bool prime = true;
    for (uint j = 2u; j * j <= i; j++) {
      if (i % j == 0u) { prime = false; break; }
      if (j > 5u) continue;
      sum += j;
    }
    if (!prime) continue;
    b.found[primes & 3u] = i;
    primes++;
    if (primes > 6u) { b.n = sum; return; }
  }
  b.n = primes;
}
"""
CASES = """#version 450
layout(local_size_x = 1) in;
layout(set = 0, binding = 0) buffer B { uint n; uint found[4]; } b;
void main() {
  int state = -2;
  uint turns = 0u;
  while (turns < b.n) {
    switch (state) {
      case -2: state = 4; break;
      case 4: state = int(turns) - 7; turns += 2u;
      case 9: turns++; state--; break;
      case -6: b.found[1] = turns; if (turns > 20u) return; state = 9; break;
      default: state = state < 0 ? state + 1 : -2; turns++; break;
    }
    b.found[0] = uint(state);
  }
  b.found[2] = turns;
}
"""
SETUP = ["spvdbg-setup 1", "buffer 0 0 hex 1e000000" + "00000000" * 4, "rounds 4194304"]


def buffers(data):
    """The memory that SETUP gives the buffer of a compiled module."""
    m = Module(data)
    roots = [id for id, i in m.variables.items() if m.definer[i.type].operands[0] == 12]
    return {(root, 0, path): bits for root in roots for path, bits in [((0,), 30)] + [((1, k), 0) for k in range(4)]}


def modules():
    """Each module by its name, made anew."""
    yield from [("swaps", assembled(SWAPS)), ("switches", assembled(SWITCHES)), ("undefined", assembled(UNDEFINED)),
                ("undefined_selector", assembled(UNDEFINED_SELECTOR)), ("no_value", assembled(NO_VALUE)),
                ("unreachable", assembled(UNREACHABLE)), ("own_result", OWN_RESULT)]
    for name, text in (("loops", LOOPS), ("cases", CASES)):
        yield from [(name, compiled(text, False)), (name + "_optimized", compiled(text, True))]


PLAIN = ("swaps", "switches", "undefined", "undefined_selector", "no_value", "unreachable", "own_result")
WITH_BUFFER = ("loops", "loops_optimized", "cases", "cases_optimized")


def file_of(name):
    return "flow-%s.spv" % name


def positions_of(run):
    """Each position of a small run, forth and back, and past its end; of a long one some."""
    if run.end <= 40:
        return list(range(run.end + 2)) + list(range(run.end + 1, -1, -1))
    return sorted({run.end * k // 12 for k in range(12)} | {run.end - 1}) + [run.end, run.end + 9, run.end // 2, 3, 0]


def calls():
    """What each run is, its module, setup and commands, the status and what is written."""
    for name in PLAIN + WITH_BUFFER:
        with open(os.path.join(DATA, file_of(name)), "rb") as file:
            data = file.read()
        run = Recorded(data, buffers(data) if name in WITH_BUFFER else {})
        commands, replies = [], []
        for position in positions_of(run):
            commands.append("goto %d" % position)
            replies += run.goto(position)
            if run.shown(min(position, run.end)) is not None:
                commands.append("regs")
                replies += run.shown(min(position, run.end))
        setup = SETUP if name in WITH_BUFFER else [SETUP[0], SETUP[2]]
        setup, commands, replies = ("".join(line + "\n" for line in lines) for lines in (setup, commands, replies))
        yield name, file_of(name), setup, commands, 0, replies


def main():
    for name, data in modules():
        with open(os.path.join(DATA, file_of(name)), "wb") as file:
            file.write(data)


if __name__ == "__main__":
    main()
