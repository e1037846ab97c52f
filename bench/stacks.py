"""Runs of whole workgroups whose functions call each other, worked out here apart from the program: which function each frame of an
invocation is of, which instruction comes next in it, and what its registers hold.

An event is one executable instruction of the invocation that the schedule names next, or nothing where that one is finished or waits
at a barrier. A barrier opens where an arrival makes all invocations stand at it; where the finished ones count as arrived, as soon as all
others stand at it, by an arrival or by the return of the last one that was missing. A run ends before an access that finds no part of
memory. Integers that are computed have 32 bits, and undefined ones are None; a pointer is a variable's room and a path of signed indexes.
Opcodes are those of SPIR-V 1.6, section 3.42; debug instructions are passed.
"""
import struct

LOCAL_SIZE, LOCAL_SIZE_ID, BUILT_IN, BINDING = 17, 38, 11, 33
VOID, BOOL, INT, VECTOR, ARRAY, RUNTIME_ARRAY, STRUCT, POINTER, FUNCTION_TYPE = 19, 20, 21, 23, 28, 29, 30, 32, 33
# What has no result type: names, entry points, modes, decorations and types.
DECLARATIONS = {5, 6, 15, 16, 71, 72, 331, *range(19, 34)}
INPUT, WORKGROUP, PRIVATE, FUNCTION, BUFFER = 1, 4, 6, 7, 12
WORKGROUPS, WORKGROUP_ID, LOCAL_ID, GLOBAL_ID, LOCAL_INDEX = 24, 26, 27, 28, 29
PASSED = {0, 8, 59, 245, 246, 247, 317}
ENDS = {249, 250, 251, 253, 254, 255}
MASK = 0xFFFFFFFF


class Fault(Exception):
    pass


def signed(number, width=32):
    return number - (1 << width) if number >> (width - 1) else number


COMPUTED = {
    124: lambda a: a, 126: lambda a: -a, 168: lambda a: 1 - a, 200: lambda a: ~a,
    128: lambda a, b: a + b, 130: lambda a, b: a - b, 132: lambda a, b: a * b, 134: lambda a, b: a // b, 137: lambda a, b: a % b,
    164: lambda a, b: a == b, 165: lambda a, b: a != b, 166: lambda a, b: a | b, 167: lambda a, b: a & b, 169: lambda c, a, b: a if c else b,
    170: lambda a, b: a == b, 171: lambda a, b: a != b, 172: lambda a, b: a > b, 173: lambda a, b: signed(a) > signed(b),
    174: lambda a, b: a >= b, 175: lambda a, b: signed(a) >= signed(b), 176: lambda a, b: a < b, 177: lambda a, b: signed(a) < signed(b),
    178: lambda a, b: a <= b, 179: lambda a, b: signed(a) <= signed(b), 194: lambda a, b: a >> b, 196: lambda a, b: a << b,
    197: lambda a, b: a | b, 198: lambda a, b: a ^ b, 199: lambda a, b: a & b,
}
ATOMICS = {229: lambda old, value: value, 234: lambda old, value: old + value, 239: max}


def copied(value):
    return [copied(part) for part in value] if isinstance(value, list) else value


def string(words):
    return struct.pack("<%dI" % len(words), *words).split(b"\0")[0]


class Module:
    """What a run reads of a module: types, constants and variables, and of each function its parameters and its blocks."""

    def __init__(self, data):
        self.words = struct.unpack("<%dI" % (len(data) // 4), data)
        self.types, self.constants, self.variables, self.decorations, self.size_ids = {}, {}, {}, {}, ()
        self.insts, self.functions, self.blocks, self.after = {}, {}, {}, {}
        self.passed_sets, function, block, at = set(), None, None, 5
        while at < len(self.words):
            count, op = self.words[at] >> 16, self.words[at] & 0xFFFF
            args = self.words[at + 1 : at + count]
            self.insts[at] = (op, args)
            if op == 54:
                function, block = self.functions.setdefault(args[1], {"parameters": [], "locals": [], "first": None}), None
            elif function is None:
                self.declare(op, args)
            elif op == 55:
                function["parameters"].append(args[1])
            elif op == 248:
                block = self.blocks[args[0]] = {"phis": [], "stops": []}
                function["first"] = args[0] if function["first"] is None else function["first"]
            elif block is not None:
                self.put(at, op, args, function, block)
            at += count
        self.result_types = {args[1]: args[0] for op, args in self.insts.values() if len(args) > 1 and op not in DECLARATIONS and args[0] in self.types}
        for block in self.blocks.values():
            self.after.update(zip(block["stops"], block["stops"][1:]))
        if self.size_ids:
            self.size = [self.constants[id] for id in self.size_ids]

    def put(self, at, op, args, function, block):
        if op == 59:
            function["locals"].append(args[1])
            self.variables[args[1]] = (FUNCTION, self.types[args[0]][2], args[3] if len(args) > 3 else None)
        if op == 245:
            block["phis"].append((args[1], dict(zip(args[3::2], args[2::2]))))
        if op not in PASSED and not (op == 12 and args[2] in self.passed_sets):
            block["stops"].append(at)

    def declare(self, op, args):
        if op == 11 and string(args[1:]).startswith(b"NonSemantic."):
            self.passed_sets.add(args[0])
        elif op == 15:
            self.main = args[1]
        elif op == 16 and args[1] == LOCAL_SIZE:
            self.size = args[2:5]
        elif op == 331 and args[1] == LOCAL_SIZE_ID:
            self.size_ids = args[2:5]
        elif op == 71 and len(args) > 2:
            self.decorations[args[0], args[1]] = args[2]
        elif op in (VOID, BOOL, INT, VECTOR, ARRAY, RUNTIME_ARRAY, STRUCT, POINTER, FUNCTION_TYPE):
            self.types[args[0]] = (op, *args[1:])
        elif op in (41, 42, 48, 49):
            self.constants[args[1]] = int(op in (41, 48))
        elif op in (43, 50):
            self.constants[args[1]] = self.number(args[0], args[2:])
        elif op == 44:
            self.constants[args[1]] = [self.constants[id] for id in args[2:]]
        elif op in (1, 46):
            self.constants[args[1]] = self.filled(args[0], lambda: None if op == 1 else 0)
        elif op == 59:
            self.variables[args[1]] = (args[2], self.types[args[0]][2], args[3] if len(args) > 3 else None)

    def number(self, ty, words):
        """The bits of a literal, as many as its type has."""
        return sum(word << 32 * k for k, word in enumerate(words)) & (1 << self.types[ty][1]) - 1

    def index(self, id, value):
        """What an id is as an index, whatever its type says of signs."""
        return signed(value, self.types[self.result_types[id]][1])

    def filled(self, ty, given):
        """A value of a type whose scalars are given one after the other."""
        kind, *args = self.types[ty]
        if kind == STRUCT:
            return [self.filled(part, given) for part in args]
        if kind in (VECTOR, ARRAY):
            return [self.filled(args[0], given) for _ in range(self.constants[args[1]] if kind == ARRAY else args[1])]
        return given()


def text(module, ty, value):
    """A value as it is shown."""
    kind, *args = module.types[ty]
    if kind == POINTER:
        return "&%%%d" % value[0].id + "".join("[%d]" % index for index in value[1])
    if kind == STRUCT:
        return "{" + ", ".join("%d = %s" % (k, text(module, part, value[k])) for k, part in enumerate(args)) + "}"
    if isinstance(value, list):
        return "[" + ", ".join(text(module, args[0], part) for part in value) + "]"
    if value is None:
        return "<undefined>"
    if kind == BOOL:
        return "true" if value else "false"
    width, is_signed = args
    return str(signed(value, width) if is_signed else value)


def part(value, index):
    if not 0 <= index < len(value):
        raise Fault(3)
    return value[index]


class Room(list):
    """What stands in a variable, as its one element."""

    def __init__(self, id, value):
        super().__init__([value])
        self.id = id


class Frame:
    """A call of a function: its registers, its variables, the block it is in and the word of its next instruction."""

    def __init__(self, function, registers, rooms):
        self.function, self.registers, self.rooms = function, registers, rooms
        self.block = self.word = None


class Invocation:
    def __init__(self, number):
        self.number, self.status, self.rooms, self.frames = number, "ready", {}, []


class Group:
    """A workgroup whose buffers have words, under a schedule."""

    finished_count = False

    def __init__(self, module, buffers, schedule):
        self.m, self.schedule, self.events, self.rooms, self.fault = module, schedule, 0, {}, None
        x, y, z = module.size
        self.invocations = [Invocation(number) for number in range(x * y * z)]
        for id, (storage, ty, start) in module.variables.items():
            if storage in (INPUT, PRIVATE):
                for one in self.invocations:
                    one.rooms[id] = Room(id, self.built_in(id, one.number) if storage == INPUT else self.started(ty, start))
            elif storage != FUNCTION:
                words = iter(buffers.get(module.decorations.get((id, BINDING)), ()))
                self.rooms[id] = Room(id, self.block(ty, words) if storage == BUFFER else module.filled(ty, lambda: None))
        for one in self.invocations:
            self.enter(one, module.main, ())

    def block(self, ty, words):
        """A block of some words, of which a last member without a length takes all that are left."""
        _, *parts = self.m.types[ty]
        return [list(words) if self.m.types[part][0] == RUNTIME_ARRAY else self.m.filled(part, lambda: next(words)) for part in parts]

    def started(self, ty, start):
        return self.m.filled(ty, lambda: None) if start is None else copied(self.m.constants[start])

    def built_in(self, id, number):
        x, y, _ = self.m.size
        place = [number % x, number // x % y, number // (x * y)]
        kinds = {LOCAL_INDEX: number, LOCAL_ID: place, GLOBAL_ID: place, WORKGROUP_ID: [0, 0, 0], WORKGROUPS: [1, 1, 1]}
        return kinds[self.m.decorations[id, BUILT_IN]]

    # ---- values

    def value(self, one, id):
        frame = one.frames[-1]
        for rooms in (frame.rooms, one.rooms, self.rooms):
            if id in rooms:
                return rooms[id], ()
        return self.m.constants[id] if id in self.m.constants else frame.registers[id]

    @staticmethod
    def load(pointer):
        room, path = pointer
        value = room[0]
        for index in path:
            value = part(value, index)
        return copied(value)

    @staticmethod
    def store(pointer, value):
        room, path = pointer
        place, key = room, 0
        for index in path:
            place, key = place[key], index
            part(place, index)
        place[key] = copied(value)

    def computed(self, op, values):
        if values and isinstance(values[0], list) and op != 169:
            return [self.computed(op, lane) for lane in zip(*values)]
        assert None not in values, "an undefined operand"
        made = COMPUTED[op](*values)
        return made if isinstance(made, list) else int(made) & MASK

    def result(self, one, op, args):
        if op == 81:
            value = self.value(one, args[2])
            for index in args[3:]:
                value = value[index]
            return value
        if op == 82:
            whole = Room(0, copied(self.value(one, args[3])))
            self.store((whole, tuple(args[4:])), self.value(one, args[2]))
            return whole[0]
        if op == 68:
            room, path = self.value(one, args[2])
            return len(self.load((room, path + (args[3],))))
        values = [self.value(one, id) for id in args[2:]]
        if op == 61:
            return self.load(values[0])
        if op in (65, 66):
            return values[0][0], values[0][1] + tuple(self.m.index(id, value) for id, value in zip(args[3:], values[1:]))
        if op == 80:
            flat = self.m.types[args[0]][0] == VECTOR
            return [part for value in values for part in (value if flat and isinstance(value, list) else [value])]
        if op in (83, 400):
            return values[0]
        if op in ATOMICS:
            old = self.load(values[0])
            self.store(values[0], ATOMICS[op](old, values[3]) & MASK)
            return old
        return self.computed(op, values)

    # ---- events

    def enter(self, one, function, values):
        known = self.m.functions[function]
        rooms = {id: Room(id, self.started(*self.m.variables[id][1:])) for id in known["locals"]}
        one.frames.append(Frame(function, dict(zip(known["parameters"], values)), rooms))
        self.jump(one, known["first"])

    def jump(self, one, label):
        frame, block = one.frames[-1], self.m.blocks[label]
        frame.registers.update({id: self.value(one, pairs[frame.block]) for id, pairs in block["phis"]})
        frame.block, frame.word = label, block["stops"][0]

    def leave(self, one, values):
        one.frames.pop()
        if not one.frames:
            one.status = "finished"
            self.open()
            return
        frame = one.frames[-1]
        result = self.m.insts[frame.word][1][1]
        frame.registers.update({result: value for value in values})
        frame.word = self.m.after[frame.word]

    def go(self, one, op, args):
        """What ends a block, and what goes to another function."""
        if op == 57:
            self.enter(one, args[2], [self.value(one, id) for id in args[3:]])
        elif op in (253, 254):
            self.leave(one, [self.value(one, args[0])] if op == 254 else [])
        elif op == 249:
            self.jump(one, args[0])
        elif op == 250:
            self.jump(one, args[1] if self.value(one, args[0]) else args[2])
        else:
            cases = dict(zip(args[2::2], args[3::2]))
            self.jump(one, cases.get(self.value(one, args[0]), args[1]))

    def step(self, one):
        frame = one.frames[-1]
        op, args = self.m.insts[frame.word]
        if one.status == "passed":
            one.status, frame.word = "ready", self.m.after[frame.word]
        elif op in ENDS or op == 57:
            assert op != 255, "unreachable"
            self.go(one, op, args)
        elif op == 224:
            one.status = "arrived"
            self.open()
        else:
            if op == 62:
                self.store(self.value(one, args[0]), self.value(one, args[1]))
            elif op == 63:
                self.store(self.value(one, args[0]), self.load(self.value(one, args[1])))
            elif op != 225:
                frame.registers[args[1]] = self.result(one, op, args)
            frame.word = self.m.after[frame.word]

    def open(self):
        """The barrier opens, where all that have to stand at it do: all invocations, or all that aren't finished."""
        awaited = [one for one in self.invocations if not (self.finished_count and one.status == "finished")]
        if all(one.status == "arrived" for one in awaited) and len({one.frames[-1].word for one in awaited}) == 1:
            for one in awaited:
                one.status = "passed"

    def event(self):
        """Makes an event, or finds that it can't be made; gives the invocation that the schedule names."""
        one = self.invocations[self.schedule[self.events]]
        if one.status in ("ready", "passed"):
            try:
                self.step(one)
            except Fault as fault:
                self.fault = "fault F%d i=%d word %d" % (fault.args[0], one.number, one.frames[-1].word)
                return one.number
        self.events += 1
        return one.number

    def causes(self):
        """Why the run is at its end, if it is; a fault once it was found."""
        if self.is_over():
            return ["all finished"]
        if all(one.status in ("finished", "arrived") for one in self.invocations):
            return ["stuck"]
        if self.fault:
            return [self.fault]
        return ["schedule ended"] * (self.events == len(self.schedule))

    def is_over(self):
        return all(one.status == "finished" for one in self.invocations)

    def stack(self, number):
        """The frames of an invocation, the innermost first: the function of each, and the word of its next instruction."""
        return [(frame.function, frame.word) for frame in reversed(self.invocations[number].frames)]
