"""What variables hold at a position, worked out here apart from the program, by the module's debug records and an interpreter.

The interpreter is stacks.py, with the debug events that each call has passed and what they captured. Which records are well-formed
comes from records.py. A value is the bits of its scalars, 32 each, one after the other; a bit is 0, 1, undefined, or unbound where
nothing is told of it. Every bit of a local is looked for in the events anew, from the last back.
"""
import stacks
import trace_modules
import traces
from places import plain, words_of
from records import PARENTS, Module as Records
from sessions import Session, Shaped

UNBOUND, UNDEFINED = "unbound", "undefined"
MOST = 256
NO_NAME, NO_PART = "refused: C5 no such name", "refused: C6 no such part"


def bits_of(value):
    """The bits of a value, from the lowest of its first scalar on."""
    if isinstance(value, list):
        return [bit for part in value for bit in bits_of(part)]
    if isinstance(value, tuple):
        return []
    return [UNDEFINED] * 32 if value is None else [value >> k & 1 for k in range(32)]


def number_of(bits):
    return sum(bit << k for k, bit in enumerate(bits))


class Told:
    """The types, scopes and events of a module's debug records."""

    def __init__(self, data):
        self.records = Records(words_of(data))
        self.by_word = {at: (number, ids) for at, _, number, ids in self.records.records}
        self.ids = {ident: (number, ids) for _, ident, number, ids in self.records.records}
        self.variables = [(ident, number, ids) for _, ident, number, ids in self.records.records if number in (18, 26)]
        self.undefined = {rest[1] for _, op, rest in self.records.insts if op == 1}
        self.in_force, scope = {}, (0, 0)
        for at, op, _ in self.records.insts:
            scope = (0, 0) if op == 248 else scope
            self.in_force[at] = scope
            number, ids = self.by_word.get(at, (None, ()))
            if number in (23, 24):
                scope = (ids[0], ids[1] if len(ids) > 1 else 0) if number == 23 else (0, 0)

    def number(self, ident):
        return self.records.numbers[ident]

    # ---- scopes

    def outward(self, scope):
        """A scope and those around it, to its function; none where there is no function."""
        scopes = []
        while scope in self.ids:
            number, ids = self.ids[scope]
            scopes.append(scope)
            if number == 20:
                return scopes
            if number not in PARENTS:
                return []
            scope = ids[PARENTS[number]]
        return []

    def frames(self, word):
        """The scope and the InlinedAt of each frame that is shown of an instruction, the innermost first."""
        scope, inlined = self.in_force[word]
        if not self.outward(scope):
            return [(0, 0)]
        frames = [(scope, inlined)]
        while inlined in self.ids:
            ids = self.ids[inlined][1]
            inlined = ids[2] if len(ids) > 2 else 0
            frames.append((ids[1], inlined))
        return frames

    def locals(self, scope):
        return [ident for each in self.outward(scope) for ident, number, ids in self.variables if number == 26 and ids[5] == each]

    def globals(self):
        return [ident for ident, number, _ in self.variables if number == 18]

    def name(self, ident):
        return self.records.strings[self.ids[ident][1][0]]

    # ---- types

    def parts(self, ty, left=None):
        """The parts of a type, each with its name or none: types, or a base with Counts. What is left for an open last part, in bits."""
        number, ids = self.ids[ty[0]] if ty[0] in self.ids else (0, ())
        if number in (4, 7) and not ty[1]:
            return self.parts((ids[0 if number == 4 else 1], ()), left)
        if number == 10:
            members = [self.ids[ident] for ident in ids[9:] if ident in self.ids and self.ids[ident][0] == 11]
            return [(self.records.strings[member[0]], (member[1], ())) for _, member in members]
        counts = ty[1]
        if not counts and number == 5:
            ty, counts = (ids[0], ()), tuple(self.number(ident) for ident in ids[1:])
        if not counts and number in (6, 108):
            ty, counts = (ids[0], ()), (self.number(ids[1]),)
        if not counts:
            return None
        element = (ty[0], counts[1:])
        each = self.size(element)
        count = left // each if counts[0] == 0 and left is not None and each else counts[0]
        return [(None, element)] * count

    def size(self, ty):
        parts = self.parts(ty)
        if parts is not None:
            return sum(self.size(part) for _, part in parts)
        return self.records.measure(*self.ids[ty[0]])[0] if ty[0] in self.ids else 0

    def ranges(self, ty, left):
        """Each part with its name, where it begins, and how many bits it has: the last one all that are left, where there are such."""
        at, parts = 0, self.parts(ty, left)
        for k, (name, part) in enumerate(parts or []):
            last = left is not None and k == len(parts) - 1
            yield name, part, at, left - at if last else self.size(part), last
            at += self.size(part)

    # ---- texts

    def text(self, ty, bits, is_open):
        self.room = MOST
        return self.told(ty, bits, is_open)

    def told(self, ty, bits, is_open):
        if self.parts(ty) is None:
            self.room -= 1
            return self.scalar(ty[0], bits[: self.size(ty)])
        shown, ranges = [], list(self.ranges(ty, len(bits) if is_open else None))
        number = self.kind(ty)
        self.room -= not ranges
        for name, part, at, count, last in ranges:
            if self.room <= 0:
                shown.append("...")
                break
            told = self.told(part, bits[at : at + count], is_open and last)
            shown.append(told if name is None else "%s = %s" % (plain(name), told))
        return "%s%s%s" % ("{" if number == 10 else "[", ", ".join(shown), "}" if number == 10 else "]")

    def kind(self, ty):
        number, ids = self.ids.get(ty[0], (0, ()))
        return self.kind((ids[0 if number == 4 else 1], ())) if number in (4, 7) and not ty[1] else 5 if ty[1] else number

    def scalar(self, ident, bits):
        number, ids = self.ids.get(ident, (0, ()))
        if number in (4, 7):
            return self.scalar(ids[0 if number == 4 else 1], bits)
        if number != 2 or UNBOUND in bits or not 1 <= len(bits) <= 64:
            return "<unavailable>"
        if UNDEFINED in bits:
            return "<undefined>"
        value, encoding = number_of(bits), self.number(ids[2])
        if encoding == 2:
            return "true" if value else "false"
        if encoding == 3:
            return "0x%0*x" % ((len(bits) + 3) // 4, value)
        return str(value - (1 << len(bits)) if encoding in (4, 5) and bits[-1] else value)

    # ---- events

    def event(self, word):
        """The variable, the InlinedAt, where it begins and how many bits it covers, the Operations and the kind of an event."""
        number, ids = self.by_word[word]
        kind, given = self.ids[ids[0]]
        variable, inlined = (given[0], given[1]) if kind == 27 else (ids[0], self.in_force[word][1])
        start, ty = 0, (self.ids[variable][1][1], ())
        for index in map(self.number, ids[3:]):
            ranges = list(self.ranges(ty, None))
            if index >= len(ranges):
                return variable, inlined, 0, 0, [], number
            start, ty = start + ranges[index][2], ranges[index][1]
        count = self.size(ty)
        operations = [[self.number(ident) for ident in self.ids[operation][1]] for operation in self.ids[ids[2]][1]]
        if operations and operations[-1][0] == 9:
            offset, size = operations[-1][1:]
            start, count = (start + offset, size) if offset + size <= count else (0, 0)
        return variable, inlined, start, count, operations, number


class Group(stacks.Group):
    """A workgroup whose calls keep the debug events that they have passed, with what those captured."""

    def __init__(self, told, module, buffers, schedule):
        super().__init__(module, buffers, schedule)
        self.told, self.before, words = told, {}, list(module.insts)
        for at, word in enumerate(words):
            first = at
            while self.is_passed(*module.insts[words[first - 1]]):
                first -= 1
            self.before[word] = [each for each in words[first:at] if told.by_word.get(each, (0,))[0] in (28, 29)]
        for one in self.invocations:
            self.passed(one)

    def is_passed(self, op, args):
        return op in stacks.PASSED or op == 12 and args[2] in self.m.passed_sets

    def passed(self, one):
        """What stands before the next instruction is passed."""
        frame = one.frames[-1]
        frame.events = getattr(frame, "events", []) + [(word, self.captured(one, self.told.by_word[word][1][1])) for word in self.before[frame.word]]

    def captured(self, one, id):
        try:
            return (stacks.copied(self.value(one, id)),)
        except KeyError:
            return None

    def step(self, one):
        frame, word = one.frames[-1], one.frames[-1].word
        op = self.m.insts[word][0]
        super().step(one)
        if one.frames and (one.frames[-1] is not frame or frame.word != word or op in (249, 250, 251)):
            self.passed(one)

    # ---- variables

    def loaded(self, pointer):
        """What a pointer leads to, if it leads anywhere."""
        value = pointer[0][0]
        for index in pointer[1]:
            if not isinstance(value, list) or not 0 <= index < len(value):
                return None
            value = value[index]
        return (value,)

    def piece(self, event, captured):
        """The bits of what an event tells, or none."""
        *_, operations, kind = event
        if captured is None:
            return None
        stack = [captured[0]]
        for code, *operands in operations:
            if code == 0:
                found = self.loaded(stack.pop()) if isinstance(stack[-1], tuple) else None
                if found is None:
                    return None
                stack.append(found[0])
            elif code not in (7, 9):
                raise NotImplementedError(code)
        if isinstance(stack[-1], tuple):
            found = self.loaded(stack[-1]) if kind == 28 else None
            return None if found is None else bits_of(found[0])
        return bits_of(stack[-1])

    def local_bits(self, frame, variable, inlined):
        told = [(self.told.event(word), captured) for word, captured in reversed(frame.events)]
        told = [(event[2], event[3], event, captured) for event, captured in told if event[:2] == (variable, inlined)]
        pieces, bits = {}, []
        for j in range(self.told.size((self.told.ids[variable][1][1], ()))):
            bit = UNBOUND
            for k, (start, count, event, captured) in enumerate(told):
                if start <= j < start + count:
                    if k not in pieces:
                        pieces[k] = self.piece(event, captured) or []
                    bit = pieces[k][j - start] if j - start < len(pieces[k]) else UNBOUND
                    break
            bits.append(bit)
        return bits

    def global_bits(self, one, variable):
        id = self.told.ids[variable][1][7]
        for rooms in (one.rooms, self.rooms):
            if id in rooms:
                return bits_of(rooms[id][0])
        return bits_of(self.m.constants[id]) if id in self.m.constants else []


class Variables(Session):
    """A session with `locals`, `globals` and `print` of names."""

    def __init__(self, shaped, buffers, schedule, run=None):
        self.told = Told(shaped.data)
        super().__init__(shaped, buffers, schedule, run)

    def made(self, code, buffers, schedule):
        return Group(self.told, code, buffers, schedule)

    def answer(self, command):
        if command.startswith("print "):
            return self.printed(command[6:])
        return super().answer(command)

    def selected(self):
        """The call that the selected frame is of, its scope and its InlinedAt; none where the focus is finished."""
        shown = [(call, *frame) for call, word in enumerate(self.words(self.focus)) for frame in self.told.frames(word)]
        if not shown:
            return None, 0, 0
        call, scope, inlined = shown[self.frame]
        return self.group.invocations[self.focus].frames[-1 - call], scope, inlined

    def bits(self, variable):
        """The bits of a variable, and whether its last part may be open."""
        frame, _, inlined = self.selected()
        if self.told.ids[variable][0] == 18:
            bits, size = self.group.global_bits(self.group.invocations[self.focus], variable), self.told.size((self.told.ids[variable][1][1], ()))
            return bits + [UNBOUND] * (size - len(bits)), True
        return self.group.local_bits(frame, variable, inlined), False

    def line(self, variable):
        return "%s = %s" % (plain(self.told.name(variable)), self.told.text((self.told.ids[variable][1][1], ()), *self.bits(variable)))

    def do_locals(self):
        if not self.words(self.focus):
            return ["refused: C12 focus finished"]
        return [self.line(variable) for variable in self.told.locals(self.selected()[1])]

    def do_globals(self):
        return [self.line(variable) for variable in self.told.globals()]

    def found(self, path):
        """What a path names: the variable, its first bit and how many, its type and whether its last part may be open; or a refusal."""
        name, *parts = path.replace("[", ".[").split(".")
        of_name = [variable for variable in self.told.locals(self.selected()[1]) + self.told.globals() if self.told.name(variable) == name.encode()]
        if not of_name:
            return NO_NAME
        variable, first, ty = of_name[0], 0, (self.told.ids[of_name[0]][1][1], ())
        bits, is_open = self.bits(variable)
        count = len(bits)
        for part in parts:
            ranges = list(self.told.ranges(ty, count if is_open else None))
            index = int(part[1:-1]) if part.startswith("[") else next((k for k, each in enumerate(ranges) if each[0] == part.encode()), len(ranges))
            if index >= len(ranges) or part.startswith("[") != (ranges[index][0] is None):
                return NO_PART
            _, ty, at, count, last = ranges[index]
            first, is_open = first + at, is_open and last
        return variable, first, count, ty, is_open

    def printed(self, path):
        if path.startswith("%"):
            return self.of_id(int(path[1:]))
        found = self.found(path)
        return [found] if isinstance(found, str) else ["%s = %s" % (plain(path.encode()), self.text_of(*found))]

    def text_of(self, variable, first, count, ty, is_open):
        return self.told.text(ty, self.bits(variable)[0][first : first + count], is_open)

    def of_id(self, id):
        frame, group, code = self.selected()[0], self.group, self.shaped.code
        rooms = ([frame.rooms] if frame else []) + [group.invocations[self.focus].rooms, group.rooms]
        for each in rooms:
            if id in each:
                return ["%%%d = &%%%d -> %s" % (id, id, stacks.text(code, code.variables[id][1], each[id][0]))]
        held = frame.registers if frame else {}
        if id in held and isinstance(held[id], tuple):
            ty, found = code.result_types[id], group.loaded(held[id])
            told = "<unavailable>" if found is None else stacks.text(code, code.types[ty][2], found[0])
            return ["%%%d = %s -> %s" % (id, stacks.text(code, ty, held[id]), told)]
        if id in held or id in code.constants and id not in self.told.undefined:
            return ["%%%d = %s" % (id, stacks.text(code, code.result_types[id], held.get(id, code.constants.get(id))))]
        return [NO_NAME]


def session_of(name, form):
    """That of a shader of bench/traces/."""
    with open(trace_modules.path_of(name, form), "rb") as file:
        shaped = Shaped(file.read())
    x, y, z = shaped.code.size
    return Variables(shaped, {0: traces.words_of(name)}, [number for _ in range(traces.ROUNDS) for number in range(x * y * z)])


# ---- the gate

def gate_run(session):
    """Forth through all positions with the locals of each frame of the invocation that moved, and back in a few steps."""
    asked = traces.Asked(session)
    asked.ask("globals")
    while True:
        asked.ask("focus %d" % asked.last_moved(), "locals")
        frames = len(session.do_bt()) if session.words(session.focus) else 0
        for k in range(1, frames):
            asked.ask("frame %d" % k, "locals")
        if session.causes():
            break
        asked.ask("fwd 1")
    asked.ask("globals", "print b.v[0]", "print b.v[1]")
    while session.group.events > 0:
        asked.ask("back %d" % (1 + session.group.events // 3), "locals", "print b.v[0]")
    return asked


def calls():
    """What the run is, its module, setup and commands, the status and what is written."""
    name, form = trace_modules.VARIABLES_IN_GATE
    asked = gate_run(session_of(name, form))
    written = "".join(line + "\n" for reply in asked.replies for line in reply)
    yield "variables of %s in %s" % (name, form), trace_modules.file_of(name, form), traces.setup_of(name), "".join(c + "\n" for c in asked.commands), 0, written
