"""Sessions over modules whose pointers are chosen, moved, compared, returned and taken by phis, worked out here apart from the program.

An operand without a value is fault 4, which is looked for first; then a branch by an undefined value is fault 1, a pointer that is chosen
or moved by an undefined value fault 2, an access that finds no part of memory fault 3, as is a pointer that is moved by another number of
elements than 0 where its last index chooses no element of an array, and OpUnreachable is fault 5. Indexes are signed, of 64 bits.
"""
import sessions
import stacks
import variables_told
from stacks import ARRAY, POINTER, RUNTIME_ARRAY, STRUCT, Fault
from stops import Debugger

SELECT, PTR_CHAIN, PTR_EQUAL, PTR_NOT_EQUAL, SPEC_ID = 169, 67, 401, 402, 1


def wrapped(number):
    """A number as a signed one of 64 bits."""
    return stacks.signed(number & (1 << 64) - 1, 64)


class Group(variables_told.Group):
    def value(self, one, id):
        try:
            return super().value(one, id)
        except KeyError:
            raise Fault(4)

    def captured(self, one, id):
        try:
            return super().captured(one, id)
        except Fault:
            return None

    def computed(self, op, values):
        if values and isinstance(values[0], list) and op != SELECT:
            return [self.computed(op, list(lane)) for lane in zip(*values)]
        if None in values or op in (134, 137) and values[1] == 0:
            return None
        return super().computed(op, values)

    def indexes(self, ids, values):
        if None in values:
            raise Fault(2)
        return [self.m.index(id, value) for id, value in zip(ids, values)]

    def chooses_element(self, pointer):
        """Whether the last index of a path chooses an element of an array."""
        (room, path), kind = pointer, None
        ty = self.m.variables[room.id][1]
        for index in path:
            kind, *args = self.m.types[ty]
            ty = args[index] if kind == STRUCT else args[0]
        return kind in (ARRAY, RUNTIME_ARRAY)

    def moved(self, pointer, count):
        """The pointer to the element that stands so many further."""
        room, path = pointer
        if count == 0:
            return path
        if not self.chooses_element(pointer):
            raise Fault(3)
        return path[:-1] + (wrapped(path[-1] + count),)

    def result(self, one, op, args):
        if op not in (1, 65, 66, PTR_CHAIN, PTR_EQUAL, PTR_NOT_EQUAL, SELECT):
            return super().result(one, op, args)
        values = [self.value(one, id) for id in args[2:]]
        if op == 1:
            return self.m.filled(args[0], lambda: None)
        if op in (65, 66):
            base, *rest = values
            return base[0], base[1] + tuple(self.indexes(args[3:], rest))
        if op == PTR_CHAIN:
            base, *rest = values
            element, *rest = self.indexes(args[3:], rest)
            return base[0], self.moved(base, element) + tuple(rest)
        if op in (PTR_EQUAL, PTR_NOT_EQUAL):
            a, b = values
            return int((a[0] is b[0] and a[1] == b[1]) == (op == PTR_EQUAL))
        if self.m.types[args[0]][0] != POINTER:
            return self.computed(op, values)
        if values[0] is None:
            raise Fault(2)
        return values[1] if values[0] else values[2]

    def go(self, one, op, args):
        if op == 255:
            raise Fault(5)
        if op in (250, 251) and self.value(one, args[0]) is None:
            raise Fault(1)
        super().go(one, op, args)


class Shaped(sessions.Shaped):
    """A module with numbers for SpecIds."""

    def __init__(self, data, spec=()):
        super().__init__(data)
        code = self.code
        for (id, decoration), number in code.decorations.items():
            if decoration == SPEC_ID and number in dict(spec):
                kind, *args = code.types[code.result_types[id]]
                code.constants[id] = dict(spec)[number] & (1 << (args[0] if args else 1)) - 1


class Session(Debugger):
    """A session with all commands."""

    def made(self, code, buffers, schedule):
        return Group(self.told, code, buffers, schedule)
