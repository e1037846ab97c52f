#!/usr/bin/env python3
"""Writes a setup that fits a module, to be filled in.

    examples/setup.py MODULE > SETUP

It names the entry point, each SpecId with its default (in a comment), each buffer with the fewest bytes that do, all zero, the push
constants, and as many rounds as a run may have; above each buffer a comment has its members with their offsets. The module is read
by `spvdbg text`: by the program that SPVDBG names, or the one that examples/build.sh keeps, or where there is none an unproved one
(`rt try`, a minute or two). A refused module's refusal goes to standard error, with the program's status.
"""
import os
import re
import subprocess
import sys

TOP = os.path.join(os.path.dirname(os.path.abspath(__file__)), "..")
PROGRAM = os.path.join(TOP, "crates", "spvdbg", "out", "spvdbg")
MOST_ENTRIES = 4_194_304
# Storage classes, decorations and built-ins of SPIR-V 1.6 (sections 3.7, 3.20, 3.21).
UNIFORM, PUSH_CONSTANT, STORAGE_BUFFER = 2, 9, 12
SPEC_ID, ARRAY_STRIDE, BUILT_IN, BINDING, DESCRIPTOR_SET, OFFSET = 1, 6, 11, 33, 34, 35
WORKGROUP_SIZE = 25
OPERAND = re.compile(r'%\d+|\d+|"(?:[^"\\]|\\.)*"')
LINE = re.compile(r"(\d+): (Op\w+)(?: type=%(\d+))?(?: id=%(\d+))?(.*)")


def listing(module):
    """The lines that `spvdbg text` writes for a module."""
    program = os.environ.get("SPVDBG") or (PROGRAM if os.path.exists(PROGRAM) else None)
    if program:
        words, folder = [program, "text", module], None
    else:
        folder = os.path.join(TOP, "crates", "spvdbg")
        words = ["rt", "try", "--data", "module=" + os.path.abspath(module), "--", "text", "module"]
    ran = subprocess.run(words, cwd=folder, stdin=subprocess.DEVNULL, stdout=subprocess.PIPE)
    if ran.returncode:
        sys.stderr.buffer.write(ran.stdout)
        sys.exit(ran.returncode)
    return ran.stdout.decode("ascii").splitlines()


def signed(bits, width):
    return bits - (1 << width) if bits >> (width - 1) else bits


class Module:
    """What a module declares, by id."""

    def __init__(self, lines):
        self.types, self.constants, self.pointers, self.variables = {}, {}, {}, []
        self.names, self.member_names, self.decorations, self.member_decorations = {}, {}, {}, {}
        self.entry, self.size = None, None
        for line in lines:
            _, name, ty, id, rest = LINE.fullmatch(line).groups()
            self.declare(name[2:], int(ty or 0), int(id or 0), [self.operand(word) for word in OPERAND.findall(rest)])

    @staticmethod
    def operand(word):
        return word[1:-1] if word.startswith('"') else int(word.lstrip("%"))

    def declare(self, name, ty, id, args):
        if name == "EntryPoint" and self.entry is None:
            self.entry = (args[1], args[2])
        elif name in ("ExecutionMode", "ExecutionModeId") and args[0] == self.entry[0] and args[1] in (17, 38):
            self.size = args[1:]
        elif name == "Name":
            self.names.setdefault(args[0], args[1])
        elif name == "MemberName":
            self.member_names.setdefault((args[0], args[1]), args[2])
        elif name == "Decorate":
            self.decorations.setdefault((args[0], args[1]), args[2:])
        elif name == "MemberDecorate":
            self.member_decorations.setdefault((args[0], args[1], args[2]), args[3:])
        elif name.startswith("Type"):
            self.types[id] = (name[4:], args)
        elif "Constant" in name or name == "Undef":
            self.constants[id] = (name, ty, args)
        elif name == "Variable":
            self.variables.append((id, ty, args[0]))

    # ---- constants, at their defaults

    def value(self, id):
        """A scalar constant's bits, or a list of a composite's parts."""
        name, ty, args = self.constants[id]
        kind, of = self.types[ty]
        if name.endswith("ConstantOp"):
            return self.computed(of[0] if kind == "Int" else 1, args)
        if name.endswith("ConstantComposite"):
            return [self.value(part) for part in args]
        if name.endswith("True"):
            return 1
        if name in ("Constant", "SpecConstant"):
            return sum(word << (32 * k) for k, word in enumerate(args)) & ((1 << of[0]) - 1)
        return 0

    def width(self, id):
        kind, of = self.types[self.constants[id][1]]
        return of[0] if kind == "Int" else 1

    def computed(self, width, args):
        """What an OpSpecConstantOp gives (section 3.42.7), of the operations that compilers write for lengths and sizes."""
        op, ids = args[0], args[1:]
        if op == 81:
            value = self.value(ids[0])
            for index in ids[1:]:
                value = value[index]
            return value
        a, *rest = [self.value(id) for id in ids]
        b = rest[0] if rest else 0
        s, t = (signed(n, self.width(id)) for n, id in ((a, ids[0]), (b, ids[1 if rest else 0])))
        if op in (134, 135, 137, 138, 139) and b == 0:
            return 0
        table = {
            113: lambda: a, 114: lambda: s, 126: lambda: -a, 200: lambda: ~a, 168: lambda: 1 - a, 128: lambda: a + b, 130: lambda: a - b,
            132: lambda: a * b, 134: lambda: a // b, 135: lambda: int(s / t), 137: lambda: a % b, 138: lambda: s - int(s / t) * t,
            139: lambda: s % t, 194: lambda: a >> b, 195: lambda: s >> b, 196: lambda: a << b, 197: lambda: a | b, 198: lambda: a ^ b,
            199: lambda: a & b, 166: lambda: a | b, 167: lambda: a & b, 164: lambda: a == b, 165: lambda: a != b, 170: lambda: a == b,
            171: lambda: a != b, 172: lambda: a > b, 173: lambda: s > t, 174: lambda: a >= b, 175: lambda: s >= t, 176: lambda: a < b,
            177: lambda: s < t, 178: lambda: a <= b, 179: lambda: s <= t, 169: lambda: rest[0] if a else rest[1],
        }
        if op not in table:
            raise SystemExit("setup.py: a length or a size is computed by the opcode %d, which this script doesn't know" % op)
        return int(table[op]()) & ((1 << width) - 1)

    # ---- types

    def stride(self, ty):
        return self.decorations.get((ty, ARRAY_STRIDE), [0])[0]

    def offset(self, ty, member):
        return self.member_decorations.get((ty, member, OFFSET), [0])[0]

    def bytes(self, ty):
        """The bytes of a type in a block; a runtime array has none of its own."""
        kind, args = self.types[ty]
        if kind == "Int":
            return args[0] // 8
        if kind == "Vector":
            return self.bytes(args[0]) * args[1]
        if kind == "Array":
            return self.value(args[1]) * self.stride(ty)
        if kind == "Struct":
            return max([self.offset(ty, k) + self.bytes(member) for k, member in enumerate(args)], default=0)
        return 0

    def spelled(self, ty):
        """A type's name as GLSL has it."""
        kind, args = self.types[ty]
        if kind == "Int":
            return ("int" if args[1] else "uint") + ("" if args[0] == 32 else "%d_t" % args[0])
        if kind == "Vector":
            width, sign = self.types[args[0]][1]
            return ("i" if sign else "u") + ("" if width == 32 else str(width)) + "vec%d" % args[1]
        if kind == "Array":
            return "%s[%d]" % (self.spelled(args[0]), self.value(args[1]))
        if kind == "RuntimeArray":
            return self.spelled(args[0]) + "[]"
        return self.names.get(ty) or "struct"

    def members(self, ty, at=0, path=""):
        """A comment for each member of a struct and of the structs in it: its place, its name and its type."""
        for k, member in enumerate(self.types[ty][1]):
            place, name = at + self.offset(ty, k), path + (self.member_names.get((ty, k)) or str(k))
            apart, inner = self.types[member][0] in ("Array", "RuntimeArray"), member
            while self.types[inner][0] in ("Array", "RuntimeArray"):
                inner = self.types[inner][1][0]
            is_open = self.types[member][0] == "RuntimeArray"
            note = ", %d byte%s apart" % (self.stride(member), "s" * (self.stride(member) > 1)) if apart else ""
            yield "#   %d: %s %s%s%s" % (place, self.spelled(member), name, note, ", as many as fit" if is_open else "")
            if self.types[inner][0] == "Struct":
                depth, part = 0, member
                while part != inner:
                    depth, part = depth + 1, self.types[part][1][0]
                yield from self.members(inner, place, name + "[0]" * depth + ".")

    def invocations(self):
        size = next((self.value(id) for (id, what), of in self.decorations.items() if what == BUILT_IN and of == [WORKGROUP_SIZE]), None)
        if size is None:
            mode, *size = self.size
            size = [self.value(id) for id in size] if mode == 38 else size
        return size[0] * size[1] * size[2]


def blocks(module, classes):
    """The variables of blocks of some storage classes: their sets and bindings, names and types."""
    for id, pointer, storage in module.variables:
        if storage in classes:
            ty = module.types[pointer][1][1]
            set, binding = (module.decorations.get((id, what), [0])[0] for what in (DESCRIPTOR_SET, BINDING))
            yield (set, binding), module.names.get(id) or module.names.get(ty) or "%%%d" % id, ty


def numbers(module):
    """The lines of the SpecIds, each behind the constants that have it and their defaults."""
    by_number = {}
    for (id, what), of in module.decorations.items():
        if what == SPEC_ID and id in module.constants:
            by_number.setdefault(of[0], []).append(id)
    for number, ids in sorted(by_number.items()):
        for id in ids:
            kind, args = module.types[module.constants[id][1]]
            text = module.spelled(module.constants[id][1]) if kind == "Int" else "bool"
            value = signed(module.value(id), args[0]) if kind == "Int" and args[1] else module.value(id)
            yield "# %s %s is %d where no line says otherwise:" % (text, module.names.get(id) or "%%%d" % id, value)
        yield "# spec %d %d" % (number, value)


def setup(module):
    yield "spvdbg-setup 1"
    if re.fullmatch(r"[!-~]+", module.entry[1]):
        yield "entry " + module.entry[1]
    yield from numbers(module)
    least = {}
    for place, name, ty in blocks(module, (UNIFORM, STORAGE_BUFFER)):
        comments, bytes = least.get(place, ([], 0))
        least[place] = (comments + ["# %s:" % name] + list(module.members(ty)), max(bytes, module.bytes(ty)))
    for place, (comments, bytes) in sorted(least.items()):
        yield from comments
        yield "buffer %d %d zero %d" % (*place, bytes)
    pushed = list(blocks(module, (PUSH_CONSTANT,)))
    for _, name, ty in pushed:
        yield "# %s:" % name
        yield from module.members(ty)
    if pushed:
        yield "push hex" + "".join(" " + "00" * min(4, count) for count in parts_of(max(module.bytes(ty) for _, _, ty in pushed)))
    yield "rounds %d" % (MOST_ENTRIES // module.invocations())


def parts_of(bytes):
    """So many bytes in words of four, the last with what is left."""
    return [4] * (bytes // 4) + ([bytes % 4] if bytes % 4 else [])


def main():
    if len(sys.argv) != 2:
        raise SystemExit("usage: examples/setup.py MODULE > SETUP")
    if not os.path.isfile(sys.argv[1]):
        raise SystemExit("setup.py: there is no file %s" % sys.argv[1])
    for line in setup(Module(listing(sys.argv[1]))):
        print(line)


if __name__ == "__main__":
    main()
